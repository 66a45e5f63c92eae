/* One filter that eight threads share: shared FILTER FLAGS FILE.. Each thread checks each file ROUNDS times under the one handle,
 * at once and in two pieces, and asks an empty handle that is shared too. Prints how many checks were made, and how many of
 * their answers are not those that the main thread had before. */
#include "serialcheck.h"

#include <pthread.h>
#include <stdio.h>
#include <stdlib.h>
#include <string.h>

enum { THREADS = 8, ROUNDS = 20 };

typedef struct {
    uint8_t *bytes;
    size_t len;
    serialcheck_answer wanted;
} sample;

typedef struct {
    long checks, wrong;
} tally;

static serialcheck_filter held = SERIALCHECK_NONE;
static const serialcheck_filter *const filter = &held;
static const serialcheck_filter empty = SERIALCHECK_NONE;
static sample *samples;
static int count;
static pthread_barrier_t start;

static void stop(const char *why) {
    fprintf(stderr, "shared: %s\n", why);
    exit(2);
}

static sample read_file(const char *path) {
    FILE *file = fopen(path, "rb");
    if (!file || fseek(file, 0, SEEK_END)) stop(path);
    sample it = {0};
    it.len = (size_t)ftell(file);
    it.bytes = malloc(it.len ? it.len : 1);
    rewind(file);
    if (!it.bytes || fread(it.bytes, 1, it.len, file) != it.len) stop(path);
    fclose(file);
    return it;
}

static bool is_wanted(const sample *it, const serialcheck_answer *answer) {
    return memcmp(answer, &it->wanted, sizeof *answer) == 0;
}

/* The numbers of the reasons, by their names. */
enum {
    NoReason,
#define NUMBER(x) x,
    SERIALCHECK_REASONS(NUMBER)
#undef NUMBER
};

/* Behind a hidden name more bytes have come in one call than in pieces, and `whole` is of those that came. */
static bool is_wanted_of_pieces(const sample *it, const serialcheck_answer *answer) {
    serialcheck_answer found = *answer;
    if (found.reason == HiddenName) found.whole = it->wanted.whole;
    return is_wanted(it, &found);
}

static bool is_wanted_in_pieces(const sample *it) {
    serialcheck_answer answer;
    serialcheck_stream stream = SERIALCHECK_NONE;
    const size_t half = it->len / 2;
    if (serialcheck_stream_new(filter, &answer, &stream) != SERIALCHECK_MORE) return false;
    if (serialcheck_stream_feed(&stream, it->bytes, half, &answer) == SERIALCHECK_MORE)
        serialcheck_stream_feed(&stream, it->bytes + half, it->len - half, &answer);
    serialcheck_stream_end(&stream, &answer);
    return is_wanted_of_pieces(it, &answer);
}

static void *in_thread(void *at) {
    tally *mine = at;
    pthread_barrier_wait(&start);
    for (int round = 0; round < ROUNDS; round++)
        for (int i = 0; i < count; i++) {
            serialcheck_answer answer;
            serialcheck_stream stream = SERIALCHECK_NONE;
            serialcheck_filter_check(filter, samples[i].bytes, samples[i].len, &answer);
            mine->wrong += !is_wanted(&samples[i], &answer);
            mine->wrong += !is_wanted_in_pieces(&samples[i]);
            mine->wrong += serialcheck_filter_check(&empty, samples[i].bytes, samples[i].len, &answer) != SERIALCHECK_SPENT;
            mine->wrong += serialcheck_stream_new(&empty, &answer, &stream) != SERIALCHECK_SPENT;
            mine->checks += 4;
        }
    return 0;
}

int main(int words, char **word) {
    if (words < 4) stop("shared FILTER FLAGS FILE..");
    serialcheck_answer answer;
    if (serialcheck_filter_new((const uint8_t *)word[1], strlen(word[1]), (const uint8_t *)"", 0, (uint32_t)strtoul(word[2], 0, 10), &answer, &held))
        stop("the filter is faulty");
    count = words - 3;
    samples = calloc((size_t)count, sizeof *samples);
    if (!samples) stop("no memory");
    for (int i = 0; i < count; i++) {
        samples[i] = read_file(word[3 + i]);
        serialcheck_filter_check(filter, samples[i].bytes, samples[i].len, &samples[i].wanted);
    }
    pthread_t threads[THREADS];
    tally tallies[THREADS] = {{0, 0}};
    if (pthread_barrier_init(&start, 0, THREADS)) stop("no barrier");
    for (int i = 0; i < THREADS; i++)
        if (pthread_create(&threads[i], 0, in_thread, &tallies[i])) stop("no thread");
    tally all = {0, 0};
    for (int i = 0; i < THREADS; i++) {
        pthread_join(threads[i], 0);
        all.checks += tallies[i].checks;
        all.wrong += tallies[i].wrong;
    }
    printf("%ld checks, %ld wrong\n", all.checks, all.wrong);
    pthread_barrier_destroy(&start);
    serialcheck_filter_free(&held);
    for (int i = 0; i < count; i++) free(samples[i].bytes);
    free(samples);
    return all.wrong != 0;
}
