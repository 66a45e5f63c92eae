/* Lets a caller pass NULL, or any other pointer, where a length is 0, and takes a key from the system where names are counted.
 *
 * The proved calls ask for a pointer to bytes that are there, also where they are none: Go's nil slice is NULL, and an empty
 * vector of Rust or C++ has a pointer to nothing. So tools/build-library puts `proved_` before the names of these calls, and
 * links the ones below in their place. Each hands on what it got, but a byte of its own where a length is 0. */
#include "serialcheck.h"

/* Takes a key that nobody knows. Returns whether the system has one. */
#if defined(_WIN32)
int rand_s(unsigned *number);

static bool take_key(uint64_t *key) {
    unsigned high, low;
    if (rand_s(&high) != 0 || rand_s(&low) != 0) {
        return false;
    }
    *key = (uint64_t)high << 32 | low;
    return true;
}
#elif defined(__APPLE__)
int getentropy(void *room, size_t len);

static bool take_key(uint64_t *key) { return getentropy(key, sizeof *key) == 0; }
#else
#include <sys/syscall.h>

/* Old C libraries have no getrandom. */
long syscall(long number, ...);

static bool take_key(uint64_t *key) { return syscall(SYS_getrandom, key, sizeof *key, 0) == sizeof *key; }
#endif

static uint8_t nothing[1];

static const uint8_t *read_from(const uint8_t *bytes, size_t len) { return len ? bytes : nothing; }

static uint8_t *write_to(uint8_t *room, size_t len) { return len ? room : nothing; }

/* Declares the proved call of this name; tools/build-library reads which there are. */
#define PROVED(call) extern __typeof__(call) proved_##call

PROVED(serialcheck_check);
uint32_t serialcheck_check(const uint8_t *bytes, size_t len, const uint8_t *filter, size_t filter_len, uint32_t flags,
                           serialcheck_answer *answer) {
    return proved_serialcheck_check(read_from(bytes, len), len, read_from(filter, filter_len), filter_len, flags, answer);
}

PROVED(serialcheck_filter_new);
uint32_t serialcheck_filter_new(const uint8_t *text, size_t len, const uint8_t *modules, size_t modules_len, uint32_t flags,
                                serialcheck_answer *answer, serialcheck_filter *filter) {
    return proved_serialcheck_filter_new(read_from(text, len), len, read_from(modules, modules_len), modules_len, flags, answer, filter);
}

PROVED(serialcheck_filter_read);
uint32_t serialcheck_filter_read(const uint8_t *file, size_t len, const uint8_t *modules, size_t modules_len, uint32_t flags,
                                 serialcheck_answer *answer, serialcheck_filter *filter) {
    return proved_serialcheck_filter_read(read_from(file, len), len, read_from(modules, modules_len), modules_len, flags, answer, filter);
}

PROVED(serialcheck_filter_check);
uint32_t serialcheck_filter_check(const serialcheck_filter *filter, const uint8_t *bytes, size_t len, serialcheck_answer *answer) {
    return proved_serialcheck_filter_check(filter, read_from(bytes, len), len, answer);
}

PROVED(serialcheck_stream_new_text);
uint32_t serialcheck_stream_new_text(const uint8_t *text, size_t len, const uint8_t *modules, size_t modules_len, uint32_t flags,
                                     serialcheck_answer *answer, serialcheck_stream *stream) {
    return proved_serialcheck_stream_new_text(read_from(text, len), len, read_from(modules, modules_len), modules_len, flags, answer, stream);
}

PROVED(serialcheck_stream_feed);
uint32_t serialcheck_stream_feed(serialcheck_stream *stream, const uint8_t *bytes, size_t len, serialcheck_answer *answer) {
    return proved_serialcheck_stream_feed(stream, read_from(bytes, len), len, answer);
}

PROVED(serialcheck_show);
uint32_t serialcheck_show(const uint8_t *bytes, size_t len, size_t most, uint8_t *room, size_t room_len, serialcheck_answer *answer) {
    return proved_serialcheck_show(read_from(bytes, len), len, most, write_to(room, room_len), room_len, answer);
}

/* The proved call takes the key first. */
uint32_t serialcheck_list_keyed(uint64_t key, const uint8_t *bytes, size_t len, const uint8_t *filter, size_t filter_len,
                                const uint8_t *modules, size_t modules_len, size_t most, uint8_t *room, size_t room_len,
                                serialcheck_answer *answer);
PROVED(serialcheck_list_keyed);
uint32_t serialcheck_list(const uint8_t *bytes, size_t len, const uint8_t *filter, size_t filter_len, const uint8_t *modules,
                          size_t modules_len, size_t most, uint8_t *room, size_t room_len, serialcheck_answer *answer) {
    uint64_t key;
    if (!take_key(&key)) {
        *answer = (serialcheck_answer){.status = SERIALCHECK_NO_MEMORY};
        return SERIALCHECK_NO_MEMORY;
    }
    return proved_serialcheck_list_keyed(key, read_from(bytes, len), len, read_from(filter, filter_len), filter_len,
                                         read_from(modules, modules_len), modules_len, most, write_to(room, room_len), room_len, answer);
}

PROVED(serialcheck_line);
uint32_t serialcheck_line(const serialcheck_answer *answer, uint8_t *room, size_t room_len, serialcheck_answer *told) {
    return proved_serialcheck_line(answer, write_to(room, room_len), room_len, told);
}

PROVED(serialcheck_class);
uint32_t serialcheck_class(const uint8_t *bytes, size_t len, const serialcheck_answer *answer, uint8_t *room, size_t room_len,
                           serialcheck_answer *told) {
    return proved_serialcheck_class(read_from(bytes, len), len, answer, write_to(room, room_len), room_len, told);
}

PROVED(serialcheck_reason_name);
uint32_t serialcheck_reason_name(uint32_t reason, uint8_t *room, size_t room_len, serialcheck_answer *told) {
    return proved_serialcheck_reason_name(reason, write_to(room, room_len), room_len, told);
}

PROVED(serialcheck_reason_text);
uint32_t serialcheck_reason_text(uint32_t reason, uint8_t *room, size_t room_len, serialcheck_answer *told) {
    return proved_serialcheck_reason_text(reason, write_to(room, room_len), room_len, told);
}

PROVED(serialcheck_cause_name);
uint32_t serialcheck_cause_name(uint32_t cause, uint8_t *room, size_t room_len, serialcheck_answer *told) {
    return proved_serialcheck_cause_name(cause, write_to(room, room_len), room_len, told);
}
