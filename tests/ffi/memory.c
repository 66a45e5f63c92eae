/* Refuses each allocation of the library in turn: memory FILTER FILE.. Linked with --wrap=malloc and --wrap=realloc. Every call
 * must answer what it answers with memory, or that there is none; and then leave its handle as it was. Prints how many
 * allocations were refused, and on standard error each wrong answer; the status is 1 if there was one. */
#include "serialcheck.h"

#include <stdio.h>
#include <stdlib.h>
#include <string.h>

void *__real_malloc(size_t);
void *__real_realloc(void *, size_t);
void *__wrap_malloc(size_t);
void *__wrap_realloc(void *, size_t);

static long left = -1; /* how many allocations are granted before one is refused; none is if it is negative */
static long refused;

static bool refuses(void) {
    if (left < 0 || left-- > 0) return false;
    refused++;
    return true;
}

void *__wrap_malloc(size_t size) {
    return refuses() ? 0 : __real_malloc(size);
}

void *__wrap_realloc(void *old, size_t size) {
    return refuses() ? 0 : __real_realloc(old, size);
}

static int wrong;

static void expect(const char *what, bool holds) {
    if (holds) return;
    fprintf(stderr, "memory: %s\n", what);
    wrong = 1;
}

/* Whether an answer is this one, or that there is no memory. */
static bool either(const serialcheck_answer *found, const serialcheck_answer *wanted) {
    return found->status == SERIALCHECK_NO_MEMORY || !memcmp(found, wanted, sizeof *found);
}

int main(int words, char **word) {
    static uint8_t bytes[1 << 20], room[1 << 12];
    if (words < 3) return 2;
    const uint8_t *text = (const uint8_t *)word[1];
    const size_t text_len = strlen(word[1]);
    const uint8_t table[] = "java.util=java.base";
    for (int file = 2; file < words; file++) {
        FILE *opened = fopen(word[file], "rb");
        if (!opened) return 2;
        const size_t len = fread(bytes, 1, sizeof bytes, opened);
        fclose(opened);
        for (uint32_t flags = 0; flags < 4; flags += 2) {
            serialcheck_answer wanted, shown, listed, found;
            serialcheck_check(bytes, len, text, text_len, flags, &wanted);
            serialcheck_show(bytes, len, sizeof room, room, sizeof room, &shown);
            serialcheck_list(bytes, len, text, text_len, table, sizeof table - 1, sizeof room, room, sizeof room, &listed);
            bool again = true;
            for (long turn = 0; again; turn++) {
                const long before = refused;
                serialcheck_filter filter = SERIALCHECK_NONE;
                serialcheck_stream stream = SERIALCHECK_NONE;
                left = turn;
                serialcheck_check(bytes, len, text, text_len, flags, &found);
                expect("another answer to a check", either(&found, &wanted));
                left = turn;
                if (serialcheck_filter_new(text, text_len, table, sizeof table - 1, flags, &found, &filter)) {
                    expect("another answer to a filter", found.status == SERIALCHECK_NO_MEMORY);
                    expect("a handle that is not as it was", !filter.is_open);
                    left = -1;
                    serialcheck_filter_new(text, text_len, table, sizeof table - 1, flags, &found, &filter);
                }
                left = turn;
                serialcheck_filter_check(&filter, bytes, len, &found);
                expect("another answer under a filter", either(&found, &wanted));
                left = -1;
                serialcheck_filter_check(&filter, bytes, len, &found);
                expect("a filter that is another afterwards", !memcmp(&found, &wanted, sizeof found));
                left = turn;
                if (serialcheck_stream_new(&filter, &found, &stream) == SERIALCHECK_MORE) {
                    for (size_t at = 0; at < len; at += 7) serialcheck_stream_feed(&stream, bytes + at, len - at < 7 ? len - at : 7, &found);
                    serialcheck_stream_end(&stream, &found);
                    expect("another answer in pieces", either(&found, &wanted));
                } else {
                    expect("another answer to a stream", found.status == SERIALCHECK_NO_MEMORY && !stream.is_open);
                }
                serialcheck_filter read = SERIALCHECK_NONE;
                left = turn;
                if (serialcheck_filter_read(text, text_len, table, sizeof table - 1, flags, &found, &read)) {
                    expect("another answer to a filter's file", found.status == SERIALCHECK_NO_MEMORY && !read.is_open);
                }
                left = -1;
                serialcheck_filter_free(&read);
                left = turn;
                serialcheck_show(bytes, len, sizeof room, room, sizeof room, &found);
                expect("another text", either(&found, &shown));
                left = turn;
                serialcheck_list(bytes, len, text, text_len, table, sizeof table - 1, sizeof room, room, sizeof room, &found);
                expect("another list", either(&found, &listed));
                left = -1;
                serialcheck_filter_free(&filter);
                again = refused > before;
            }
        }
    }
    printf("%s allocations refused\n", refused > 100 ? "over 100" : "few");
    return wrong;
}
