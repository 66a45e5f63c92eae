/* Prints the numbers of every call of serialcheck.h on files and on mutants of them: `each_call MUTANTS FILTER MODULES FILE..`.
 * The text is the same on each machine. */
#include <inttypes.h>
#include <stdio.h>
#include <stdlib.h>
#include <string.h>
#if defined(_WIN32)
#include <fcntl.h>
#include <io.h>
#endif
#include "serialcheck.h"

static uint8_t *filter, *modules, room[1 << 16];
static size_t filter_len, modules_len;

static uint8_t *content(const char *path, size_t *len) {
    FILE *file = fopen(path, "rb");
    if (file == NULL) {
        perror(path);
        exit(2);
    }
    uint8_t *bytes = malloc(1 << 22);
    *len = fread(bytes, 1, 1 << 22, file);
    fclose(file);
    return bytes;
}

static void numbers(const char *what, uint32_t status, const serialcheck_answer *a) {
    printf("%s %" PRIu32 " %" PRIu32 " %" PRIu32 " %" PRIu64 " %" PRIu64 " %" PRIu64 " %" PRIu64 " %" PRIu64 " %" PRIu64 " %" PRIu64 " %" PRIu64 " %" PRIu64 " %" PRIu64 "\n",
           what, status, a->status, a->reason, a->from, a->to, a->bytes, a->contents, a->refs, a->depth, a->handles, a->name_from, a->name_to, a->whole);
}

static void text(const char *what, uint32_t status, const serialcheck_answer *a, size_t have) {
    uint64_t sum = 1469598103934665603u;
    size_t count = a->bytes < have ? (size_t)a->bytes : have;
    for (size_t at = 0; at < count; at++) {
        sum = (sum ^ room[at]) * 1099511628211u;
    }
    printf("%s %016" PRIx64 " ", what, sum);
    numbers("", status, a);
}

static void one(const uint8_t *bytes, size_t len, uint32_t flags) {
    serialcheck_answer a, told;
    serialcheck_filter held = SERIALCHECK_NONE;
    serialcheck_stream stream = SERIALCHECK_NONE;
    memset(&a, 0xAA, sizeof a);
    numbers("check", serialcheck_check(bytes, len, filter, filter_len, flags, &a), &a);
    memset(room, 0, sizeof room);
    text("line", serialcheck_line(&a, room, 128, &told), &told, 128);
    text("class", serialcheck_class(bytes, len, &a, room, sizeof room, &told), &told, sizeof room);
    if (a.status == SERIALCHECK_NO) {
        text("name", serialcheck_reason_name(a.reason, room, 32, &told), &told, 32);
        text("means", serialcheck_reason_text(a.reason, room, 160, &told), &told, 160);
    }
    numbers("filter", serialcheck_filter_new(filter, filter_len, modules, modules_len, flags, &a, &held), &a);
    numbers("under", serialcheck_filter_check(&held, bytes, len, &a), &a);
    static const size_t steps[] = {1, 3, 7, 64, 4096};
    for (size_t which = 0; which < sizeof steps / sizeof *steps; which++) {
        numbers("begin", serialcheck_stream_new(&held, &a, &stream), &a);
        size_t at = 0;
        while (at < len) {
            size_t piece = len - at < steps[which] ? len - at : steps[which];
            uint32_t status = serialcheck_stream_feed(&stream, bytes + at, piece, &a);
            at += piece;
            if (status != SERIALCHECK_MORE) {
                printf("after %zu ", at);
                numbers("fed", status, &a);
                break;
            }
        }
        numbers("last", a.status, &a);
        text("of it", serialcheck_stream_class(&stream, room, sizeof room, &told), &told, sizeof room);
        numbers("end", serialcheck_stream_end(&stream, &a), &a);
    }
    numbers("spent", serialcheck_stream_end(&stream, &a), &a);
    numbers("begin", serialcheck_stream_new_text(filter, filter_len, modules, modules_len, flags, &a, &stream), &a);
    numbers("half", serialcheck_stream_feed(&stream, bytes, len / 2, &a), &a);
    serialcheck_stream_free(&stream);
    serialcheck_filter_free(&held);
    numbers("empty", serialcheck_filter_check(&held, bytes, len, &a), &a);
}

static void texts(const uint8_t *bytes, size_t len) {
    serialcheck_answer a;
    static const size_t rooms[] = {0, 100, sizeof room};
    for (size_t which = 0; which < 3; which++) {
        text("show", serialcheck_show(bytes, len, 200000, room, rooms[which], &a), &a, rooms[which]);
        text("list", serialcheck_list(bytes, len, filter, filter_len, modules, modules_len, 200000, room, rooms[which], &a), &a, rooms[which]);
    }
}

int main(int count, char **words) {
    static const char *faulty[] = {"maxdepth=x", "foo=1", "java.**;;!", "m/", "a.b*c", "/x", "maxbytes=99999999999999999999", "", "!*", "*"};
#if defined(_WIN32)
    _setmode(_fileno(stdout), _O_BINARY);
#endif
    serialcheck_answer a;
    serialcheck_filter held = SERIALCHECK_NONE;
    const int mutants = atoi(words[1]);
    filter = content(words[2], &filter_len);
    modules = content(words[3], &modules_len);
    while (filter_len > 0 && filter[filter_len - 1] == '\n') {
        filter_len--;
    }
    printf("version %" PRIx32 " sizes %zu %zu %zu\n", serialcheck_version(), sizeof a, sizeof held, sizeof(serialcheck_stream));
    for (size_t which = 0; which < sizeof faulty / sizeof *faulty; which++) {
        numbers(faulty[which], serialcheck_filter_new((const uint8_t *)faulty[which], strlen(faulty[which]), NULL, 0, 0, &a, &held), &a);
        text("cause", serialcheck_cause_name(a.reason, room, 32, &a), &a, 32);
        numbers("read", serialcheck_filter_read((const uint8_t *)faulty[which], strlen(faulty[which]), NULL, 0, 9, &a, &held), &a);
    }
    serialcheck_filter_free(&held);
    for (int which = 4; which < count; which++) {
        size_t len;
        uint8_t *bytes = content(words[which], &len);
        const char *name = strrchr(words[which], '/');
        printf("== %s\n", name == NULL ? words[which] : name + 1);
        for (uint32_t flags = 0; flags < 4; flags++) {
            one(bytes, len, flags);
        }
        texts(bytes, len);
        uint32_t seed = 12345;
        for (int turn = 0; turn < mutants && len > 0; turn++) {
            seed = seed * 1664525 + 1013904223;
            size_t at = (seed >> 8) % len;
            seed = seed * 1664525 + 1013904223;
            uint8_t was = bytes[at];
            bytes[at] ^= (uint8_t)(1 + (seed >> 8) % 255);
            printf("= %d %zu %u\n", turn, at, bytes[at]);
            one(bytes, len, turn % 4);
            texts(bytes, len);
            bytes[at] = was;
        }
        free(bytes);
    }
    return 0;
}
