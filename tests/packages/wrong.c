/* A call of the C library with a wrong answer, as a compiler with a fault might make it: what loads the library for macOS must refuse
 * each of these. WRONG says which; `right_` stands before the name of the right call. */
#include "serialcheck.h"

#define NUMBER(reason) NUMBER_##reason,
enum { BEFORE, SERIALCHECK_REASONS(NUMBER) };

uint32_t right_serialcheck_filter_check(const serialcheck_filter *filter, const uint8_t *bytes, size_t len, serialcheck_answer *answer);

uint32_t serialcheck_filter_check(const serialcheck_filter *filter, const uint8_t *bytes, size_t len, serialcheck_answer *answer) {
    right_serialcheck_filter_check(filter, bytes, len, answer);
    if (WRONG == 1 && answer->status == SERIALCHECK_YES) answer->refs++;
    if (WRONG == 2 && answer->reason == NUMBER_ClassRejected) answer->to++;
    if (WRONG == 3 && answer->reason == NUMBER_HiddenName) answer->status = SERIALCHECK_YES;
    return answer->status;
}
