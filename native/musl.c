/* What the program calls of glibc, and musl 1.2.3, or what is here of it, does not have. No proof covers it. */
typedef __SIZE_TYPE__ size_t;
typedef __PTRDIFF_TYPE__ ssize_t;

long syscall(long number, ...);

ssize_t getrandom(void *room, size_t count, unsigned flags);
int getentropy(void *room, size_t count);

/* At most 256 bytes, which come at once. */
int getentropy(void *room, size_t count) { return getrandom(room, count, 0) == (ssize_t)count ? 0 : -1; }

struct statx;

int statx(int dir, const char *restrict path, int flags, unsigned mask, struct statx *restrict found);

int statx(int dir, const char *restrict path, int flags, unsigned mask, struct statx *restrict found) {
#if defined(__aarch64__)
    return (int)syscall(291L, dir, path, flags, mask, found);
#elif defined(__x86_64__)
    return (int)syscall(332L, dir, path, flags, mask, found);
#endif
}

#if defined(__x86_64__)
ssize_t write(int device, const void *bytes, size_t count);
ssize_t __write(int device, const void *bytes, size_t count);

ssize_t __write(int device, const void *bytes, size_t count) { return write(device, bytes, count); }

/* What glibc's <sys/platform/x86.h> has of a leaf of cpuid: the registers a, b, c, d as the processor gives them, and the
 * bits of these that can be used here. The program asks for bits of vectors of 128 bits, which each system of this processor
 * saves, and of plain instructions: all that are there can be used. */
typedef struct {
    unsigned given[4];
    unsigned usable[4];
} leaf;

const leaf *__x86_get_cpuid_feature_leaf(unsigned which);

static void ask(unsigned number, unsigned *a, unsigned *b, unsigned *c, unsigned *d) {
    __asm__("cpuid" : "=a"(*a), "=b"(*b), "=c"(*c), "=d"(*d) : "a"(number), "c"(0));
}

/* Leaf 0 is that of number 1, and 2 that of 0x80000001; the program asks for no other, and another one has no bits. */
const leaf *__x86_get_cpuid_feature_leaf(unsigned which) {
    static leaf found[3];
    leaf *it = &found[which < 3 ? which : 1];
    if (which == 0 || which == 2) {
        unsigned number = which == 0 ? 1 : 0x80000001u, most, rest;
        ask(number & 0x80000000u, &most, &rest, &rest, &rest);
        if (most >= number) {
            ask(number, &it->given[0], &it->given[1], &it->given[2], &it->given[3]);
            for (int at = 0; at < 4; at++) {
                it->usable[at] = it->given[at];
            }
        }
    }
    return it;
}
#endif
