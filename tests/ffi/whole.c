/* How many bytes are whole contents, as each call that checks says it. Prints `right`, or what is not. */
#include "serialcheck.h"

#include <stdio.h>
#include <string.h>

typedef struct {
    const char *name;
    const char *bytes;
    size_t len;
    uint64_t whole;
} row;

#define ROW(name, bytes, whole) {name, bytes, sizeof bytes - 1, whole}
#define HEADER "\xAC\xED\x00\x05"

/* Under the filter `!L`. */
static const row ROWS[] = {
    ROW("nothing", "", 0),
    ROW("the header cut", "\xAC\xED\x00", 0),
    ROW("another header", "\xAC\xED\x00\x06\x70", 0),
    ROW("the header alone", HEADER, 4),
    ROW("the header, and a byte that is no tag", HEADER "\x00\x70", 4),
    ROW("NULL alone", HEADER "\x70", 5),
    ROW("NULL, and other bytes", HEADER "\x70\x00\xFF\x70", 5),
    ROW("two streams", HEADER "\x74\x00\x01\x61" HEADER "\x70", 8),
    ROW("a block cut", HEADER "\x70\x70\x77\x02\xAA", 6),
    ROW("a string cut", HEADER "\x70\x74\x00\x03\x61\x62", 5),
    ROW("a class refused in the third content", HEADER "\x70\x70\x73\x72\x00\x01L\x00\x00\x00\x00\x00\x00\x00\x01\x02\x00\x00\x78\x70\x70", 6),
    ROW("a reference to no handle", HEADER "\x71\x00\x7E\x00\x00\x70", 4),
};

static const uint8_t FILTER[] = {'!', 'L'};
static int is_right = 1;

static void expect(const char *call, const row *it, uint64_t found) {
    if (found == it->whole) return;
    printf("%s, %s: %llu for %llu\n", it->name, call, (unsigned long long)found, (unsigned long long)it->whole);
    is_right = 0;
}

static void check(const row *it, uint32_t flags) {
    const uint8_t *bytes = (const uint8_t *)it->bytes;
    serialcheck_answer answer;
    serialcheck_filter filter = SERIALCHECK_NONE;
    serialcheck_stream stream = SERIALCHECK_NONE;
    serialcheck_check(bytes, it->len, FILTER, sizeof FILTER, flags, &answer);
    expect("check", it, answer.whole);
    serialcheck_filter_new(FILTER, sizeof FILTER, NULL, 0, flags, &answer, &filter);
    serialcheck_filter_check(&filter, bytes, it->len, &answer);
    expect("filter_check", it, answer.whole);
    serialcheck_stream_new(&filter, &answer, &stream);
    if (serialcheck_stream_feed(&stream, bytes, it->len, &answer) != SERIALCHECK_MORE) expect("stream_feed", it, answer.whole);
    serialcheck_stream_end(&stream, &answer);
    expect("stream_end", it, answer.whole);
    serialcheck_stream_new(&filter, &answer, &stream);
    for (size_t at = 0; at < it->len; at++) serialcheck_stream_feed(&stream, bytes + at, 1, &answer);
    expect("stream_feed byte by byte", it, it->len ? answer.whole : 0);
    serialcheck_stream_end(&stream, &answer);
    expect("stream_end after bytes", it, answer.whole);
    serialcheck_stream_free(&stream);
    serialcheck_filter_free(&filter);
}

/* Streams one after another are cut one by one. */
static void cuts(void) {
    static const char ALL[] = HEADER "\x70" HEADER "\x74\x00\x01\x61\x70" HEADER "\x77\x02\xAA\xBB";
    static const uint64_t SIZES[] = {5, 9, 8};
    size_t at = 0;
    for (size_t turn = 0; turn < sizeof SIZES / sizeof *SIZES; turn++) {
        const row it = {"streams one after another", ALL + at, sizeof ALL - 1 - at, SIZES[turn]};
        serialcheck_answer answer;
        serialcheck_check((const uint8_t *)it.bytes, it.len, FILTER, sizeof FILTER, 0, &answer);
        expect("check", &it, answer.whole);
        at += (size_t)answer.whole;
    }
    if (at != sizeof ALL - 1) is_right = 0;
}

/* A misuse says none. */
static void misuse(void) {
    const row it = {"a misuse", HEADER "\x70", 5, 0};
    serialcheck_answer answer;
    serialcheck_check((const uint8_t *)it.bytes, it.len, FILTER, sizeof FILTER, 8, &answer);
    expect("check", &it, answer.whole);
}

int main(void) {
    for (size_t i = 0; i < sizeof ROWS / sizeof *ROWS; i++) {
        check(&ROWS[i], 0);
        check(&ROWS[i], SERIALCHECK_ANYWHERE);
    }
    cuts();
    misuse();
    if (is_right) puts("right");
    return 0;
}
