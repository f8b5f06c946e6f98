/* Devices that are slow and fail: loaded before the C library, it has each read of descriptor 0 and each write to descriptor 1
   move one byte. The environment's READS and WRITES say how many go well; all do where they are not named. After these a read
   fails, and a write fails too, or takes nothing where TAKES_NOTHING is named. */
#define _GNU_SOURCE
#include <errno.h>
#include <limits.h>
#include <stdlib.h>
#include <sys/syscall.h>
#include <sys/uio.h>
#include <unistd.h>

/* How many reads of descriptor 0, and how many writes to descriptor 1, go well from now on. */
static long good[2];
static int takes_nothing;

static long number(const char *name) {
    const char *text = getenv(name);
    return text ? atol(text) : LONG_MAX;
}

__attribute__((constructor)) static void start(void) {
    good[0] = number("READS");
    good[1] = number("WRITES");
    takes_nothing = getenv("TAKES_NOTHING") != NULL;
}

/* Moves the first byte of some parts by a system call, and answers as it does. */
static ssize_t moved(int descriptor, long call, const struct iovec *parts, int count) {
    while (count > 0 && parts->iov_len == 0) {
        parts++;
        count--;
    }
    if (count <= 0) return 0;
    if (good[descriptor] > 0) {
        good[descriptor]--;
        return syscall(call, descriptor, parts->iov_base, 1);
    }
    if (descriptor == 1 && takes_nothing) return 0;
    errno = EIO;
    return -1;
}

ssize_t readv(int descriptor, const struct iovec *parts, int count) {
    return descriptor == 0 ? moved(0, SYS_read, parts, count) : syscall(SYS_readv, descriptor, parts, count);
}

ssize_t writev(int descriptor, const struct iovec *parts, int count) {
    return descriptor == 1 ? moved(1, SYS_write, parts, count) : syscall(SYS_writev, descriptor, parts, count);
}

ssize_t read(int descriptor, void *bytes, size_t size) {
    struct iovec part = { bytes, size };
    return descriptor == 0 ? moved(0, SYS_read, &part, 1) : syscall(SYS_read, descriptor, bytes, size);
}

ssize_t write(int descriptor, const void *bytes, size_t size) {
    struct iovec part = { (void *)bytes, size };
    return descriptor == 1 ? moved(1, SYS_write, &part, 1) : syscall(SYS_write, descriptor, bytes, size);
}
