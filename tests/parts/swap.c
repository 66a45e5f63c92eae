/* Replaces a file or a folder under the program into which it is loaded by LD_PRELOAD: before it first opens the path SWAP_AT,
   what is at SWAP_PATH goes to SWAP_AWAY, and what is at SWAP_WITH comes to SWAP_PATH. See tests/parts/devices. */
#define _GNU_SOURCE
#include <fcntl.h>
#include <stdarg.h>
#include <stdio.h>
#include <stdlib.h>
#include <string.h>
#include <sys/syscall.h>
#include <unistd.h>

static void swap_before(const char *path) {
    static int is_done;
    const char *at = getenv("SWAP_AT");
    if (is_done || at == NULL || strcmp(path, at) != 0) {
        return;
    }
    is_done = 1;
    if (rename(getenv("SWAP_PATH"), getenv("SWAP_AWAY")) != 0 || rename(getenv("SWAP_WITH"), getenv("SWAP_PATH")) != 0) {
        abort();
    }
}

static int open_swapped(int folder, const char *path, int flags, va_list rest) {
    swap_before(path);
    return (int)syscall(SYS_openat, folder, path, flags, (flags & O_CREAT) != 0 ? va_arg(rest, mode_t) : 0);
}

int open(const char *path, int flags, ...) {
    va_list rest;
    int opened;
    va_start(rest, flags);
    opened = open_swapped(AT_FDCWD, path, flags, rest);
    va_end(rest);
    return opened;
}

int openat(int folder, const char *path, int flags, ...) {
    va_list rest;
    int opened;
    va_start(rest, flags);
    opened = open_swapped(folder, path, flags, rest);
    va_end(rest);
    return opened;
}
