//go:build !pkgconfig

// Takes the key under which names are counted from the system, where a program links the archive of the clone, which has the
// proved call alone. The archive of a package has serialcheck_list itself, which then counts.
#include "serialcheck.h"
#include <sys/syscall.h>
#include <unistd.h>

uint32_t serialcheck_list_keyed(uint64_t key, const uint8_t *bytes, size_t len, const uint8_t *filter, size_t filter_len,
                                const uint8_t *modules, size_t modules_len, size_t most, uint8_t *room, size_t room_len,
                                serialcheck_answer *answer) __attribute__((weak));

__attribute__((weak)) uint32_t serialcheck_list(const uint8_t *bytes, size_t len, const uint8_t *filter, size_t filter_len,
                                                const uint8_t *modules, size_t modules_len, size_t most, uint8_t *room,
                                                size_t room_len, serialcheck_answer *answer) {
    uint64_t key;
    if (syscall(SYS_getrandom, &key, sizeof key, 0) != sizeof key) {
        *answer = (serialcheck_answer){.status = SERIALCHECK_NO_MEMORY};
        return SERIALCHECK_NO_MEMORY;
    }
    return serialcheck_list_keyed(key, bytes, len, filter, filter_len, modules, modules_len, most, room, room_len, answer);
}
