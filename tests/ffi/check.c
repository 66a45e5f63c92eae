/* Checks files through the library: check FLAGS FILTER MODULES FILE..
 * MODULES is a file with a table of modules, or `-`. Prints for each file the line that the program prints of it. Each answer
 * is asked for in every way that the library has: in one call, under a filter that was read once, and in pieces of several
 * sizes; by this thread, and by eight at once, each with handles of its own. Where two answers differ, the status is 1. */
#include "serialcheck.h"

#include <inttypes.h>
#include <pthread.h>
#include <stdio.h>
#include <stdlib.h>
#include <string.h>

enum { THREADS = 8 };

/* The numbers of the reasons, by their names. */
enum {
    NoReason,
#define NUMBER(x) x,
    SERIALCHECK_REASONS(NUMBER)
#undef NUMBER
};

static const char *const REASONS[] = {"",
#define NAME(x) #x,
    SERIALCHECK_REASONS(NAME)
#undef NAME
};

typedef struct {
    uint8_t *bytes;
    size_t len;
} text;

static uint32_t flags;
static text filter_text, modules;
static text *files;
static serialcheck_answer *answers;
static int count;

static void stop(const char *why) {
    fprintf(stderr, "check: %s\n", why);
    exit(2);
}

/* The file, in a block of just its size, so that a sanitizer sees a read beyond it. */
static text read_file(const char *path) {
    FILE *file = fopen(path, "rb");
    if (!file || fseek(file, 0, SEEK_END)) stop(path);
    text it = {0, (size_t)ftell(file)};
    it.bytes = malloc(it.len ? it.len : 1);
    rewind(file);
    if (!it.bytes || fread(it.bytes, 1, it.len, file) != it.len) stop(path);
    fclose(file);
    return it;
}

static bool differ(const serialcheck_answer *a, const serialcheck_answer *b) {
    return memcmp(a, b, sizeof *a) != 0;
}

/* Behind a hidden name more bytes have come in one call than in pieces, and `whole` is of those that came. */
static bool differ_in_pieces(const serialcheck_answer *pieces, const serialcheck_answer *once) {
    serialcheck_answer found = *pieces;
    if (found.reason == HiddenName) found.whole = once->whole;
    return differ(&found, once);
}

/* How many answers differ where a file comes in pieces of this size, under a filter's handle or under the texts. */
static long wrong_in_pieces(serialcheck_filter *filter, int file, size_t size) {
    serialcheck_answer answer, end;
    serialcheck_stream stream = SERIALCHECK_NONE;
    uint32_t status;
    if (size % 2)
        status = serialcheck_stream_new(filter, &answer, &stream);
    else
        status = serialcheck_stream_new_text(filter_text.bytes, filter_text.len, modules.bytes, modules.len, flags, &answer, &stream);
    if (status != SERIALCHECK_MORE) return 1;
    const text it = files[file];
    long wrong = 0;
    size_t at = 0;
    while (at < it.len && status == SERIALCHECK_MORE) {
        const size_t len = it.len - at < size ? it.len - at : size;
        uint8_t *piece = malloc(len);
        if (!piece) stop("no memory");
        memcpy(piece, it.bytes + at, len);
        status = serialcheck_stream_feed(&stream, piece, len, &answer);
        free(piece);
        at += len;
    }
    if (status == SERIALCHECK_NO) {
        /* The byte that decides was in the last piece; and the answer stays. */
        wrong += answer.to > at || answer.to + size <= at;
        if (serialcheck_stream_feed(&stream, it.bytes, it.len, &end) != SERIALCHECK_NO || differ(&answer, &end)) wrong++;
    } else if (status != SERIALCHECK_MORE) {
        wrong++;
    }
    serialcheck_stream_end(&stream, &end);
    wrong += differ_in_pieces(&end, &answers[file]);
    if (serialcheck_stream_end(&stream, &end) != SERIALCHECK_SPENT) wrong++;
    if (serialcheck_stream_feed(&stream, it.bytes, it.len, &end) != SERIALCHECK_SPENT) wrong++;
    /* One that is not ended, and one that is put in its place. */
    serialcheck_stream_new(filter, &answer, &stream);
    serialcheck_stream_feed(&stream, it.bytes, it.len / 2, &answer);
    serialcheck_stream_new(filter, &answer, &stream);
    serialcheck_stream_feed(&stream, it.bytes, it.len / 3, &answer);
    serialcheck_stream_free(&stream);
    return wrong;
}

/* How many answers of all files differ from those in `answers`. */
static long wrong_answers(void) {
    long wrong = 0;
    serialcheck_answer answer;
    serialcheck_filter filter = SERIALCHECK_NONE;
    if (serialcheck_filter_new(filter_text.bytes, filter_text.len, modules.bytes, modules.len, flags, &answer, &filter)) return 1;
    for (int i = 0; i < count; i++) {
        serialcheck_filter_check(&filter, files[i].bytes, files[i].len, &answer);
        wrong += differ(&answer, &answers[i]);
        static const size_t sizes[] = {1, 2, 3, 100, 65536, 65537};
        for (size_t size = 0; size < sizeof sizes / sizeof *sizes; size++) wrong += wrong_in_pieces(&filter, i, sizes[size]);
        if (!modules.len) {
            serialcheck_check(files[i].bytes, files[i].len, filter_text.bytes, filter_text.len, flags, &answer);
            wrong += differ(&answer, &answers[i]);
        }
    }
    /* A stream outlives the handle of its filter. */
    serialcheck_stream stream = SERIALCHECK_NONE;
    serialcheck_stream_new(&filter, &answer, &stream);
    serialcheck_filter_free(&filter);
    serialcheck_filter_free(&filter);
    serialcheck_stream_feed(&stream, files[0].bytes, files[0].len, &answer);
    serialcheck_stream_end(&stream, &answer);
    wrong += differ(&answer, &answers[0]);
    if (serialcheck_stream_new(&filter, &answer, &stream) != SERIALCHECK_SPENT) wrong++;
    if (serialcheck_filter_check(&filter, filter_text.bytes, filter_text.len, &answer) != SERIALCHECK_SPENT) wrong++;
    return wrong;
}

static void *in_thread(void *unused) {
    (void)unused;
    return (void *)(intptr_t)wrong_answers();
}

static void print(const serialcheck_answer *a) {
    if (a->status == SERIALCHECK_YES)
        printf("yes %" PRIu64 " bytes, %" PRIu64 " contents, %" PRIu64 " refs, depth %" PRIu64 "\n", a->bytes, a->contents, a->refs, a->depth);
    else if (a->status == SERIALCHECK_NO)
        printf("no at %" PRIu64 " to %" PRIu64 ": %s\n", a->from, a->to, REASONS[a->reason]);
    else
        printf("status %" PRIu32 "\n", a->status);
}

int main(int words, char **word) {
    if (words < 5) stop("check FLAGS FILTER MODULES FILE..");
    flags = (uint32_t)strtoul(word[1], 0, 10);
    filter_text.len = strlen(word[2]);
    filter_text.bytes = malloc(filter_text.len + 1);
    modules.bytes = malloc(1);
    count = words - 4;
    files = calloc((size_t)count, sizeof *files);
    answers = calloc((size_t)count, sizeof *answers);
    if (!filter_text.bytes || !modules.bytes || !files || !answers) stop("no memory");
    memcpy(filter_text.bytes, word[2], filter_text.len);
    if (strcmp(word[3], "-") != 0) {
        free(modules.bytes);
        modules = read_file(word[3]);
    }
    serialcheck_answer answer;
    serialcheck_filter filter = SERIALCHECK_NONE;
    if (serialcheck_filter_new(filter_text.bytes, filter_text.len, modules.bytes, modules.len, flags, &answer, &filter)) {
        printf("misuse %" PRIu32 " at %" PRIu64 "\n", answer.reason, answer.from);
        return 2;
    }
    for (int i = 0; i < count; i++) {
        files[i] = read_file(word[4 + i]);
        serialcheck_filter_check(&filter, files[i].bytes, files[i].len, &answers[i]);
        print(&answers[i]);
    }
    serialcheck_filter_free(&filter);
    long wrong = wrong_answers();
    pthread_t threads[THREADS];
    for (int i = 0; i < THREADS; i++)
        if (pthread_create(&threads[i], 0, in_thread, 0)) stop("no thread");
    for (int i = 0; i < THREADS; i++) {
        void *some;
        pthread_join(threads[i], &some);
        wrong += (long)(intptr_t)some;
    }
    for (int i = 0; i < count; i++) free(files[i].bytes);
    free(files);
    free(answers);
    free(modules.bytes);
    free(filter_text.bytes);
    if (wrong) fprintf(stderr, "check: %ld answers differ\n", wrong);
    return wrong != 0;
}
