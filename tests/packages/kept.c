/* Put before the C library (LD_PRELOAD), it has no file deleted: what a program takes out stays, to be looked at. */
#include <errno.h>

static int no(void) {
    errno = EBUSY;
    return -1;
}

int unlink(const char *path) {
    (void)path;
    return no();
}

int unlinkat(int folder, const char *path, int flags) {
    (void)folder;
    (void)path;
    (void)flags;
    return no();
}

int rmdir(const char *path) {
    (void)path;
    return no();
}

int remove(const char *path) {
    (void)path;
    return no();
}
