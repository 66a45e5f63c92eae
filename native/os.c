/* What the program calls beside the C library of a Linux system: the four functions of the kit's C part that it reaches, and
 * the main that keeps the words for it. They do what the comments and contracts of the kit's os/src/c.rt and os/specs say; no
 * proof covers them. It needs no header, so the kit's clang compiles it for each processor.
 *
 * The compiled main takes no words: tools/prebuilt renames it to serialcheck_main, which makes room for this one. */
typedef __SIZE_TYPE__ size_t;
typedef __UINT64_TYPE__ uint64_t;
typedef __INT64_TYPE__ int64_t;

int *__errno_location(void);
size_t strlen(const char *text);
void *memcpy(void *restrict to, const void *restrict from, size_t bytes);
int openat(int dir, const char *name, int flags, ...);

/* Linux's numbers of flags that differ between the processors; read only is 0. */
enum {
#if defined(__aarch64__)
    DIRECTORY = 0x4000,
    NO_LINK = 0x8000,
#elif defined(__x86_64__)
    DIRECTORY = 0x10000,
    NO_LINK = 0x20000,
#endif
    CLOSE_ON_EXEC = 0x80000
};

static size_t count;
static char **words;

int serialcheck_main(void);

int main(int argc, char **argv) {
    count = (size_t)argc;
    words = argv;
    return serialcheck_main();
}

int64_t rattle_arg(uint64_t index, unsigned char *buffer, uint64_t room);
int rattle_errno(void);
void rattle_set_errno(int error);
int rattle_open_dir_at(int dir, const char *name);

/* Copies a word to the start of a buffer. Returns its length, -1 where there is no such word, or -2 where it does not fit; then
 * the buffer is full. */
int64_t rattle_arg(uint64_t index, unsigned char *buffer, uint64_t room) {
    if (index >= count) {
        return -1;
    }
    size_t length = strlen(words[index]);
    memcpy(buffer, words[index], length < room ? length : room);
    return length <= room ? (int64_t)length : -2;
}

int rattle_errno(void) { return *__errno_location(); }

void rattle_set_errno(int error) { *__errno_location() = error; }

/* Opens a directory for reading; -1 where its name ends in a link, or is of no directory. */
int rattle_open_dir_at(int dir, const char *name) { return openat(dir, name, DIRECTORY | NO_LINK | CLOSE_ON_EXEC); }
