/* NULL for no bytes, in each call that takes a length: empty FILE. Prints `right`, or the call that is not. */
#include "serialcheck.h"

#include <stdio.h>
#include <string.h>

static int is_right = 1;

static void expect(const char *call, uint32_t wanted, uint32_t found) {
    if (wanted == found) return;
    printf("%s: %u for %u\n", call, found, wanted);
    is_right = 0;
}

/* The calls that check, on these bytes, which are a stream or none at all. */
static void checks(const uint8_t *bytes, size_t len, uint32_t wanted) {
    serialcheck_answer answer;
    serialcheck_filter filter = SERIALCHECK_NONE;
    serialcheck_stream stream = SERIALCHECK_NONE;
    expect("check", wanted, serialcheck_check(bytes, len, NULL, 0, 0, &answer));
    expect("filter_new", SERIALCHECK_YES, serialcheck_filter_new(NULL, 0, NULL, 0, 0, &answer, &filter));
    expect("filter_check", wanted, serialcheck_filter_check(&filter, bytes, len, &answer));
    expect("filter_read", SERIALCHECK_YES, serialcheck_filter_read(NULL, 0, NULL, 0, 0, &answer, &filter));
    expect("filter_check of a file's", wanted, serialcheck_filter_check(&filter, bytes, len, &answer));
    expect("stream_new_text", SERIALCHECK_MORE, serialcheck_stream_new_text(NULL, 0, NULL, 0, 0, &answer, &stream));
    expect("stream_feed of nothing", SERIALCHECK_MORE, serialcheck_stream_feed(&stream, NULL, 0, &answer));
    expect("stream_feed", SERIALCHECK_MORE, serialcheck_stream_feed(&stream, bytes, len, &answer));
    expect("stream_end", wanted, serialcheck_stream_end(&stream, &answer));
    serialcheck_filter_free(&filter);
}

int main(int words, char **word) {
    static uint8_t bytes[1 << 16];
    FILE *file = words == 2 ? fopen(word[1], "rb") : NULL;
    if (!file) return 2;
    const size_t len = fread(bytes, 1, sizeof bytes, file);
    fclose(file);
    checks(bytes, len, SERIALCHECK_YES);
    checks(NULL, 0, SERIALCHECK_NO);
    serialcheck_answer answer, told;
    expect("show of nothing", SERIALCHECK_NO, serialcheck_show(NULL, 0, 0, NULL, 0, &answer));
    expect("list of nothing", SERIALCHECK_NO, serialcheck_list(NULL, 0, NULL, 0, NULL, 0, 0, NULL, 0, &answer));
    expect("show in no room", SERIALCHECK_SMALL, serialcheck_show(bytes, len, SIZE_MAX, NULL, 0, &answer));
    expect("list in no room", SERIALCHECK_SMALL, serialcheck_list(bytes, len, NULL, 0, NULL, 0, SIZE_MAX, NULL, 0, &answer));
    expect("line", SERIALCHECK_SMALL, (serialcheck_check(NULL, 0, NULL, 0, 0, &answer), serialcheck_line(&answer, NULL, 0, &told)));
    expect("class", SERIALCHECK_SPENT, serialcheck_class(NULL, 0, &answer, NULL, 0, &told));
    expect("reason_name", SERIALCHECK_SMALL, serialcheck_reason_name(1, NULL, 0, &told));
    expect("reason_text", SERIALCHECK_SMALL, serialcheck_reason_text(1, NULL, 0, &told));
    expect("cause_name", SERIALCHECK_SMALL, serialcheck_cause_name(1, NULL, 0, &told));
    if (is_right) puts("right");
    return 0;
}
