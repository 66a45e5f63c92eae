/* The lines and names that the library writes: lines FLAGS FILTER MODULES FILE..
 * FILTER is a text, or `@` and the path of a filter's file. MODULES is a file with a table of modules, or `-`. Prints the line of the answer to each file, or of the one misuse. Each text
 * is asked for in a room of each size up to one byte more than it has: in a smaller one its first bytes are, and nothing behind
 * a room is written. With no file it prints the names of all reasons, and then of all causes; with the word `texts` alone, what
 * each reason means. */
#include "serialcheck.h"

#include <stdio.h>
#include <stdlib.h>
#include <string.h>

enum { MOST = 200, UNTOUCHED = 0xA5 };

static void stop(const char *why) {
    fprintf(stderr, "lines: %s\n", why);
    exit(2);
}

typedef struct {
    const serialcheck_answer *answer;
    uint32_t number;
} subject;

typedef uint32_t (*text_call)(subject of, uint8_t *room, size_t len, serialcheck_answer *told);

static uint32_t line_of(subject of, uint8_t *room, size_t len, serialcheck_answer *told) {
    return serialcheck_line(of.answer, room, len, told);
}

static uint32_t reason_of(subject of, uint8_t *room, size_t len, serialcheck_answer *told) {
    return serialcheck_reason_name(of.number, room, len, told);
}

static uint32_t meaning_of(subject of, uint8_t *room, size_t len, serialcheck_answer *told) {
    return serialcheck_reason_text(of.number, room, len, told);
}

static uint32_t cause_of(subject of, uint8_t *room, size_t len, serialcheck_answer *told) {
    return serialcheck_cause_name(of.number, room, len, told);
}

/* The length of the text, which is then in `text`; or 0 where there is none. */
static size_t text_of(text_call call, subject of, uint8_t *text) {
    serialcheck_answer told;
    const uint32_t status = call(of, text, MOST, &told);
    if (status == SERIALCHECK_SPENT) return 0;
    if (status != SERIALCHECK_YES || told.status != status) stop("no text");
    const size_t len = (size_t)told.bytes;
    for (size_t size = 0; size <= len + 1; size++) {
        uint8_t room[MOST + 1];
        memset(room, UNTOUCHED, sizeof room);
        if (call(of, room, size, &told) != (size < len ? SERIALCHECK_SMALL : SERIALCHECK_YES) || told.bytes != len) stop("another answer in a smaller room");
        const size_t written = size < len ? size : len;
        if (memcmp(room, text, written)) stop("another text in a smaller room");
        for (size_t at = written; at < sizeof room; at++)
            if (room[at] != UNTOUCHED) stop("a byte behind the text is written");
    }
    return len;
}

static void print_line(const serialcheck_answer *answer) {
    uint8_t text[MOST];
    const subject of = {answer, 0};
    fwrite(text, 1, text_of(line_of, of, text), stdout);
}

static void print_names(text_call call) {
    uint8_t text[MOST];
    subject of = {0, 0};
    if (text_of(call, of, text)) stop("the number 0 has a name");
    size_t len;
    for (of.number = 1; (len = text_of(call, of, text)) > 0; of.number++) printf("%.*s\n", (int)len, (const char *)text);
    static const uint32_t others[] = {255, 256, 257, 65536, 65537, UINT32_MAX};
    for (size_t i = 0; i < sizeof others / sizeof *others; i++) {
        of.number = others[i];
        if (text_of(call, of, text)) stop("a high number has a name");
    }
}

static size_t read_file(const char *path, uint8_t *bytes, size_t most) {
    FILE *file = fopen(path, "rb");
    if (!file) stop(path);
    const size_t len = fread(bytes, 1, most, file);
    fclose(file);
    return len;
}

/* Reads a filter's text, or its file. */
static uint32_t filter_of(const char *words, uint32_t flags, const uint8_t *modules, size_t modules_len, serialcheck_answer *answer, serialcheck_filter *filter) {
    static uint8_t file[1 << 16];
    if (words[0] != '@') return serialcheck_filter_new((const uint8_t *)words, strlen(words), modules, modules_len, flags, answer, filter);
    return serialcheck_filter_read(file, read_file(words + 1, file, sizeof file), modules, modules_len, flags, answer, filter);
}

int main(int words, char **word) {
    if (words == 2 && !strcmp(word[1], "texts")) {
        print_names(meaning_of);
        return 0;
    }
    if (words == 1) {
        print_names(reason_of);
        print_names(cause_of);
        return 0;
    }
    if (words < 5) stop("lines FLAGS FILTER MODULES FILE..");
    static uint8_t bytes[1 << 22], modules[1 << 16];
    const size_t modules_len = strcmp(word[3], "-") ? read_file(word[3], modules, sizeof modules) : 0;
    serialcheck_answer answer;
    serialcheck_filter filter = SERIALCHECK_NONE;
    if (filter_of(word[2], (uint32_t)strtoul(word[1], 0, 10), modules, modules_len, &answer, &filter)) {
        print_line(&answer);
        return 0;
    }
    for (int i = 4; i < words; i++) {
        const size_t len = read_file(word[i], bytes, sizeof bytes);
        serialcheck_filter_check(&filter, bytes, len, &answer);
        print_line(&answer);
    }
    serialcheck_filter_free(&filter);
    return 0;
}
