/* Refuses one allocation of the program into which it is loaded by LD_PRELOAD: the one whose number REFUSE holds, the
   first being 1. Where the program ends by itself, it writes to the file that REFUSE_COUNT names how many allocations
   the program asked for. See tools/refuse-allocations. */
#include <errno.h>
#include <stdio.h>
#include <stdlib.h>

void *__libc_malloc(size_t size);
void *__libc_realloc(void *old, size_t size);

static unsigned long count;

static int is_refused(void) {
    static unsigned long refused;
    const char *number;
    if (refused == 0) {
        number = getenv("REFUSE");
        refused = number == NULL ? (unsigned long)-1 : strtoul(number, NULL, 10);
    }
    count += 1;
    if (count == refused) {
        errno = ENOMEM;
        return 1;
    }
    return 0;
}

void *malloc(size_t size) {
    return is_refused() ? NULL : __libc_malloc(size);
}

void *realloc(void *old, size_t size) {
    return is_refused() ? NULL : __libc_realloc(old, size);
}

__attribute__((destructor)) static void tell_count(void) {
    unsigned long asked = count;
    const char *path = getenv("REFUSE_COUNT");
    FILE *file = path == NULL ? NULL : fopen(path, "w");
    if (file != NULL) {
        fprintf(file, "%lu\n", asked);
        fclose(file);
    }
}
