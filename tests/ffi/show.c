/* Prints the text of `show` of a file by the library: show FILE, or that of `list`: show FILE FILTER MODULES. The room grows as
 * the answer asks; smaller ones must get its first bytes and the same length, and one that is made up to a most these alone. Where
 * they do not, the status is 2. A refused file: the line of the program, and the status 1. */
#include "serialcheck.h"

#include <inttypes.h>
#include <stdio.h>
#include <stdlib.h>
#include <string.h>

static const char *const REASONS[] = {"",
#define NAME(x) #x,
    SERIALCHECK_REASONS(NAME)
#undef NAME
};

static uint8_t *room_of(size_t len) {
    uint8_t *room = malloc(len ? len : 1);
    if (!room) exit(2);
    return memset(room, '?', len ? len : 1);
}

static const char *filter, *modules;

static uint32_t text_within(size_t most, const uint8_t *bytes, size_t len, uint8_t *room, size_t room_len, serialcheck_answer *answer) {
    if (!filter) return serialcheck_show(bytes, len, most, room, room_len, answer);
    return serialcheck_list(bytes, len, (const uint8_t *)filter, strlen(filter), (const uint8_t *)modules, strlen(modules), most, room,
                            room_len, answer);
}

static uint32_t text_of(const uint8_t *bytes, size_t len, uint8_t *room, size_t room_len, serialcheck_answer *answer) {
    return text_within(SIZE_MAX, bytes, len, room, room_len, answer);
}

/* Of a text that is longer than `most` a room has its first bytes, as many as fit and are made, and the answer no length. */
static void expect_cut(size_t most, const uint8_t *bytes, size_t len, const uint8_t *text, size_t room_len) {
    serialcheck_answer answer;
    uint8_t *room = room_of(room_len);
    const size_t written = most < room_len ? most : room_len;
    if (text_within(most, bytes, len, room, room_len, &answer) != SERIALCHECK_SMALL || answer.bytes != 0) exit(2);
    if (memcmp(room, text, written) != 0) exit(2);
    for (size_t at = written; at < room_len; at++)
        if (room[at] != '?') exit(2);
    free(room);
}

int main(int words, char **word) {
    FILE *file = words == 2 || words == 4 ? fopen(word[1], "rb") : 0;
    if (words == 4) filter = word[2], modules = word[3];
    if (!file || fseek(file, 0, SEEK_END)) return 2;
    const size_t len = (size_t)ftell(file);
    uint8_t *bytes = room_of(len);
    rewind(file);
    if (fread(bytes, 1, len, file) != len) return 2;
    fclose(file);
    serialcheck_answer answer;
    uint8_t *none = room_of(0);
    const uint32_t status = text_of(bytes, len, none, 0, &answer);
    free(none);
    if (status == SERIALCHECK_NO) {
        printf("no at %" PRIu64 " to %" PRIu64 ": %s\n", answer.from, answer.to, REASONS[answer.reason]);
        free(bytes);
        return 1;
    }
    const size_t whole = (size_t)answer.bytes;
    uint8_t *text = room_of(whole + 3);
    if (status != (whole ? SERIALCHECK_SMALL : SERIALCHECK_YES)) return 2;
    if (text_of(bytes, len, text, whole + 3, &answer) != SERIALCHECK_YES || answer.bytes != whole) return 2;
    if (memcmp(text + whole, "???", 3) != 0) return 2;
    const size_t sizes[] = {1, whole / 2, whole - 1, whole};
    for (size_t i = 0; whole && i < sizeof sizes / sizeof *sizes; i++) {
        uint8_t *room = room_of(sizes[i]);
        const uint32_t wanted = sizes[i] < whole ? SERIALCHECK_SMALL : SERIALCHECK_YES;
        if (text_of(bytes, len, room, sizes[i], &answer) != wanted || answer.bytes != whole) return 2;
        if (memcmp(room, text, sizes[i]) != 0) return 2;
        free(room);
    }
    const size_t mosts[] = {0, 1, whole / 2, whole - 1};
    for (size_t i = 0; whole && i < sizeof mosts / sizeof *mosts; i++) {
        for (size_t j = 0; j < sizeof sizes / sizeof *sizes; j++) expect_cut(mosts[i], bytes, len, text, sizes[j]);
        expect_cut(mosts[i], bytes, len, text, 0);
    }
    uint8_t *room = room_of(whole);
    if (text_within(whole, bytes, len, room, whole, &answer) != SERIALCHECK_YES || answer.bytes != whole) return 2;
    if (memcmp(room, text, whole) != 0) return 2;
    free(room);
    fwrite(text, 1, whole, stdout);
    free(text);
    free(bytes);
    return 0;
}
