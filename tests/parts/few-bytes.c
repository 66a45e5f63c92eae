/* Makes the standard devices of the program into which it is loaded by LD_PRELOAD small. A read of the input, and a write
   to the output or to the faults, passes on at most so many bytes as INPUT_MOST, OUTPUT_MOST or FAULTS_MOST says, and fails
   once as many bytes went through the device as INPUT_ROOM, OUTPUT_ROOM or FAULTS_ROOM says. See tests/parts/devices. */
#define _GNU_SOURCE
#include <errno.h>
#include <stdlib.h>
#include <sys/syscall.h>
#include <unistd.h>

#define DEVICES 3

static const char *const MOST[DEVICES] = {"INPUT_MOST", "OUTPUT_MOST", "FAULTS_MOST"};
static const char *const ROOM[DEVICES] = {"INPUT_ROOM", "OUTPUT_ROOM", "FAULTS_ROOM"};

/* How many bytes went through each device. */
static size_t gone[DEVICES];

/* The least of this count and the number that the variable holds, if there is one. */
static size_t at_most(size_t count, const char *variable) {
    const char *number = getenv(variable);
    size_t limit = number == NULL ? count : strtoul(number, NULL, 10);
    return limit < count ? limit : count;
}

/* How many of so many bytes may go through a device now; none where it fails. */
static size_t allowed(int device, size_t count) {
    size_t room = at_most((size_t)-1, ROOM[device]) - gone[device];
    size_t most = at_most(count, MOST[device]);
    return room < most ? room : most;
}

static ssize_t pass(long call, int device, void *bytes, size_t count) {
    ssize_t passed;
    if (device < 0 || device >= DEVICES || count == 0) {
        return syscall(call, device, bytes, count);
    }
    count = allowed(device, count);
    if (count == 0) {
        errno = EIO;
        return -1;
    }
    passed = syscall(call, device, bytes, count);
    gone[device] += passed > 0 ? (size_t)passed : 0;
    return passed;
}

ssize_t read(int device, void *bytes, size_t count) {
    return pass(SYS_read, device, bytes, count);
}

ssize_t write(int device, const void *bytes, size_t count) {
    return pass(SYS_write, device, (void *)bytes, count);
}
