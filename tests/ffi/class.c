/* The class names that the library writes: class FLAGS FILTER MODULES FILE..
 * MODULES is a file with a table of modules, or `-`. Prints the line of the answer to each file, with the class that was refused
 * behind it. A refused class's name is at the offsets that the answer has. */
#include "serialcheck.h"

#include <stdio.h>
#include <stdlib.h>
#include <string.h>

static void stop(const char *why) {
    fprintf(stderr, "class: %s\n", why);
    exit(2);
}

static size_t read_file(const char *path, uint8_t *bytes, size_t most) {
    FILE *file = fopen(path, "rb");
    if (!file) stop(path);
    const size_t len = fread(bytes, 1, most, file);
    fclose(file);
    return len;
}

/* The class that a stream in pieces of so many bytes was refused for is the one that the answer to all bytes names. */
static void compare(const serialcheck_filter *filter, const uint8_t *bytes, size_t len, size_t piece, const serialcheck_answer *answer) {
    static uint8_t named[1 << 19], found[1 << 19];
    serialcheck_answer fed, wanted, told;
    serialcheck_stream stream = SERIALCHECK_NONE;
    if (serialcheck_stream_class(&stream, found, sizeof found, &told) != SERIALCHECK_SPENT) stop("a class of no stream");
    if (serialcheck_stream_new(filter, &fed, &stream) != SERIALCHECK_MORE) stop("no stream");
    for (size_t at = 0; at < len && fed.status == SERIALCHECK_MORE; at += piece) {
        if (serialcheck_stream_class(&stream, found, sizeof found, &told) != SERIALCHECK_SPENT) stop("a class before it is refused");
        serialcheck_stream_feed(&stream, bytes + at, len - at < piece ? len - at : piece, &fed);
    }
    const uint32_t status = serialcheck_class(bytes, len, answer, named, sizeof named, &wanted);
    if (serialcheck_stream_class(&stream, found, sizeof found, &told) != status) stop("another status of a stream");
    if (status == SERIALCHECK_YES && (told.bytes != wanted.bytes || memcmp(named, found, (size_t)told.bytes))) stop("another class of a stream");
    if (status == SERIALCHECK_YES && serialcheck_stream_class(&stream, found, 1, &told) != SERIALCHECK_SMALL) stop("a class in a small room");
    if (status == SERIALCHECK_YES && (serialcheck_stream_feed(&stream, bytes, len, &fed), serialcheck_stream_class(&stream, found, sizeof found, &told)) != status) stop("it does not stay");
    serialcheck_stream_end(&stream, &fed);
    if (serialcheck_stream_class(&stream, found, sizeof found, &told) != SERIALCHECK_SPENT) stop("a class of a stream that ended");
}

static void print(const uint8_t *bytes, size_t len, const serialcheck_answer *answer) {
    static uint8_t room[1 << 19];
    serialcheck_answer told;
    if (serialcheck_line(answer, room, sizeof room, &told) != SERIALCHECK_YES) stop("no line");
    printf("%.*s", (int)told.bytes - 1, (const char *)room);
    const bool has_name = answer->name_to > 0;
    if (serialcheck_class(bytes, len, answer, room, sizeof room, &told) != (has_name ? SERIALCHECK_YES : SERIALCHECK_SPENT)) stop("another status");
    if (has_name) printf(" %.*s", (int)told.bytes, (const char *)room);
    putchar('\n');
    /* A plain name is quoted as it stands. */
    const size_t from = (size_t)answer->name_from, to = (size_t)answer->name_to;
    if (has_name && told.bytes == to - from + 2 && memcmp(room + 1, bytes + from, to - from)) stop("another name stands there");
    if (has_name && serialcheck_class(bytes, to - 1, answer, room, sizeof room, &told) != SERIALCHECK_SPENT) stop("a name beyond the bytes");
}

int main(int words, char **word) {
    if (words < 5) stop("class FLAGS FILTER MODULES FILE..");
    static uint8_t bytes[1 << 22], modules[1 << 16];
    const size_t modules_len = strcmp(word[3], "-") ? read_file(word[3], modules, sizeof modules) : 0;
    serialcheck_answer answer;
    serialcheck_filter filter = SERIALCHECK_NONE;
    if (serialcheck_filter_new((const uint8_t *)word[2], strlen(word[2]), modules, modules_len, (uint32_t)strtoul(word[1], 0, 10), &answer, &filter)) stop("the filter is faulty");
    for (int i = 4; i < words; i++) {
        const size_t len = read_file(word[i], bytes, sizeof bytes);
        serialcheck_filter_check(&filter, bytes, len, &answer);
        print(bytes, len, &answer);
        for (size_t piece = 1; piece <= 4096; piece *= 8) compare(&filter, bytes, len, piece, &answer);
    }
    serialcheck_filter_free(&filter);
    return 0;
}
