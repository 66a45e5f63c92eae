/* The first call of docs/EMBEDDING.md. */
#include "serialcheck.h"
#include <string.h>

static int is_session(const uint8_t *bytes, size_t len) {
    static const char filter[] = "maxbytes=1000000;maxdepth=20;java.util.*;java.lang.*;!*";
    serialcheck_answer answer;
    return serialcheck_check(bytes, len, (const uint8_t *)filter, strlen(filter), SERIALCHECK_ANYWHERE, &answer) == SERIALCHECK_YES;
}

#include <stdio.h>

static const char *verdict(const char *path) {
    static uint8_t bytes[1 << 16];
    FILE *file = fopen(path, "rb");
    if (!file) return "not read";
    const size_t len = fread(bytes, 1, sizeof bytes, file);
    fclose(file);
    return is_session(bytes, len) ? "yes" : "no";
}

int main(int words, char **word) {
    if (words != 3) return 2;
    printf("array-list %s, ", verdict(word[1]));
    printf("class-a %s\n", verdict(word[2]));
    return 0;
}
