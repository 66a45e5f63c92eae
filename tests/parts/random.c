/* Gives zeros for random numbers to the program or library into which it is loaded by LD_PRELOAD; or none, where RANDOM_BYTES is
 * `none`. See tests/parts/collisions. */
#define _GNU_SOURCE
#include <dlfcn.h>
#include <stddef.h>
#include <stdlib.h>
#include <string.h>
#include <sys/syscall.h>

static long zeros(void *room, size_t count) {
    const char *random = getenv("RANDOM_BYTES");
    if (random != NULL && strcmp(random, "none") == 0) {
        return -1;
    }
    memset(room, 0, count);
    return (long)count;
}

int getentropy(void *room, size_t count) { return zeros(room, count) < 0 ? -1 : 0; }

/* The C library asks the system itself. */
long syscall(long number, long a, long b, long c, long d, long e, long f) {
    long (*real)(long, ...);
    if (number == SYS_getrandom) {
        return zeros((void *)a, (size_t)b);
    }
    *(void **)&real = dlsym(RTLD_NEXT, "syscall");
    return real(number, a, b, c, d, e, f);
}
