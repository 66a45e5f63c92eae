/* Measures calls of the library, in nanoseconds: time FILTER FILE.. */
#define _POSIX_C_SOURCE 199309L
#include "serialcheck.h"

#include <stdio.h>
#include <stdlib.h>
#include <string.h>
#include <time.h>

/* A stream of 16 bytes: the string "abc", null, and a reference to the string. */
static const uint8_t SMALL[] = {0xac, 0xed, 0, 5, 0x74, 0, 3, 'a', 'b', 'c', 0x70, 0x71, 0, 0x7e, 0, 0};

static double now(void) {
    struct timespec t;
    clock_gettime(CLOCK_MONOTONIC, &t);
    return (double)t.tv_sec * 1e9 + (double)t.tv_nsec;
}

int main(int words, char **word) {
    if (words < 2) return 2;
    const uint8_t *text = (const uint8_t *)word[1];
    const size_t text_len = strlen(word[1]);
    const uint8_t none[1] = {0};
    serialcheck_answer answer;
    serialcheck_filter filter = SERIALCHECK_NONE, anywhere = SERIALCHECK_NONE;
    if (serialcheck_filter_new(text, text_len, none, 0, 0, &answer, &filter)) return 2;
    if (serialcheck_filter_new(text, text_len, none, 0, SERIALCHECK_ANYWHERE, &answer, &anywhere)) return 2;
    const int turns = 1000000;
    double begun = now();
    for (int i = 0; i < turns; i++) serialcheck_filter_check(&filter, SMALL, sizeof SMALL, &answer);
    printf("16 bytes, a filter that was read once: %.0f ns\n", (now() - begun) / turns);
    begun = now();
    for (int i = 0; i < turns; i++) serialcheck_filter_check(&anywhere, SMALL, sizeof SMALL, &answer);
    printf("16 bytes, the same anywhere: %.0f ns\n", (now() - begun) / turns);
    begun = now();
    for (int i = 0; i < turns / 10; i++) serialcheck_check(SMALL, sizeof SMALL, text, text_len, 0, &answer);
    printf("16 bytes, the filter's text of %zu bytes each time: %.0f ns\n", text_len, (now() - begun) / (turns / 10.0));
    double all = 0, all_anywhere = 0;
    size_t bytes = 0;
    for (int i = 2; i < words; i++) {
        FILE *file = fopen(word[i], "rb");
        if (!file || fseek(file, 0, SEEK_END)) return 2;
        const size_t len = (size_t)ftell(file);
        uint8_t *copy = malloc(len + 1);
        rewind(file);
        if (!copy || fread(copy, 1, len, file) != len) return 2;
        fclose(file);
        bytes += len;
        begun = now();
        for (int j = 0; j < 1000; j++) serialcheck_filter_check(&filter, copy, len, &answer);
        all += (now() - begun) / 1000;
        begun = now();
        for (int j = 0; j < 1000; j++) serialcheck_filter_check(&anywhere, copy, len, &answer);
        all_anywhere += (now() - begun) / 1000;
        free(copy);
    }
    const int files = words - 2;
    if (files) printf("%d files of %zu bytes in all: %.0f ns a file, anywhere %.0f ns\n", files, bytes, all / files, all_anywhere / files);
    serialcheck_filter_free(&filter);
    serialcheck_filter_free(&anywhere);
    return 0;
}
