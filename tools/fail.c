// Lets a stream of a process fail in its midst. It is preloaded before the C library by the script `cases` beside it, and
// is no part of the program. With FAIL_READ=N standard input gives one byte a call, N in all, and then each read fails. With
// FAIL_WRITE=N standard output takes one byte a call, N in all, and then each write fails.
#define _GNU_SOURCE
#include <dlfcn.h>
#include <errno.h>
#include <stdlib.h>
#include <unistd.h>

static const long UNLIMITED = -1;

// How many bytes the variable of this name leaves to a stream.
static long limit_of(const char *name) {
    const char *number = getenv(name);
    return number ? atol(number) : UNLIMITED;
}

// Gives the next byte of standard input by this function. It takes them in blocks: a call of the kernel for each is slow.
static ssize_t give_byte(ssize_t (*real)(int, void *, size_t), char *byte) {
    static char block[65536];
    static ssize_t held, given;
    if (given == held) {
        given = 0;
        held = real(STDIN_FILENO, block, sizeof block);
        if (held <= 0) {
            ssize_t none = held;
            held = 0;
            return none;
        }
    }
    *byte = block[given++];
    return 1;
}

ssize_t read(int file, void *bytes, size_t size) {
    static __typeof__(&read) real;
    static long left;
    if (!real) {
        real = (__typeof__(&read))dlsym(RTLD_NEXT, "read");
        left = limit_of("FAIL_READ");
    }
    if (file != STDIN_FILENO || left == UNLIMITED || size == 0)
        return real(file, bytes, size);
    if (left == 0) {
        errno = EIO;
        return -1;
    }
    ssize_t given = give_byte(real, bytes);
    if (given > 0)
        left -= given;
    return given;
}

ssize_t write(int file, const void *bytes, size_t size) {
    static __typeof__(&write) real;
    static long left;
    if (!real) {
        real = (__typeof__(&write))dlsym(RTLD_NEXT, "write");
        left = limit_of("FAIL_WRITE");
    }
    if (file != STDOUT_FILENO || left == UNLIMITED || size == 0)
        return real(file, bytes, size);
    if (left == 0) {
        errno = EIO;
        return -1;
    }
    ssize_t taken = real(file, bytes, 1);
    if (taken > 0)
        left -= taken;
    return taken;
}
