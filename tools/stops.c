// Ends a process at one step of what it does with files, or fills its disk. It is preloaded before the C library by cases of the script
// `cases` beside it, and is no part of the program. A step is a call that makes, writes, cuts, stores, links or renames a file; what goes to
// the three standard streams is none. With STOP_AT=N the process is killed before its Nth step. With FULL_AT=N its Nth write to a file and
// each later one fails: there is no space left.
#define _GNU_SOURCE
#include <dlfcn.h>
#include <errno.h>
#include <fcntl.h>
#include <signal.h>
#include <stdarg.h>
#include <stdatomic.h>
#include <stdlib.h>
#include <unistd.h>

static _Atomic long steps, writes;

static long limit_of(const char *name) {
    const char *number = getenv(name);
    return number ? atol(number) : -1;
}

static void step(void) {
    if (++steps == limit_of("STOP_AT"))
        kill(getpid(), SIGKILL);
}

static int is_full(void) {
    long limit = limit_of("FULL_AT");
    return limit >= 0 && ++writes >= limit;
}

#define REAL(name)                                                                                                                           \
    static __typeof__(&name) real;                                                                                                           \
    if (!real)                                                                                                                               \
        real = (__typeof__(&name))dlsym(RTLD_NEXT, #name)

// The mode of a file that is to be made, which follows the flags.
#define MODE(mode, how)                                                                                                                      \
    mode_t mode = 0;                                                                                                                         \
    if ((how) & O_CREAT) {                                                                                                                   \
        va_list more;                                                                                                                        \
        va_start(more, how);                                                                                                                 \
        mode = va_arg(more, mode_t);                                                                                                         \
        va_end(more);                                                                                                                        \
        step();                                                                                                                              \
    }

int open(const char *path, int how, ...) {
    REAL(open);
    MODE(mode, how);
    return real(path, how, mode);
}

int open64(const char *path, int how, ...) {
    REAL(open64);
    MODE(mode, how);
    return real(path, how, mode);
}

int openat(int folder, const char *path, int how, ...) {
    REAL(openat);
    MODE(mode, how);
    return real(folder, path, how, mode);
}

int openat64(int folder, const char *path, int how, ...) {
    REAL(openat64);
    MODE(mode, how);
    return real(folder, path, how, mode);
}

ssize_t write(int file, const void *bytes, size_t size) {
    REAL(write);
    if (file > STDERR_FILENO) {
        step();
        if (is_full()) {
            errno = ENOSPC;
            return -1;
        }
    }
    return real(file, bytes, size);
}

#define STEP(result, name, parameters, ...)                                                                                                  \
    result name parameters {                                                                                                                 \
        REAL(name);                                                                                                                          \
        step();                                                                                                                              \
        return real(__VA_ARGS__);                                                                                                            \
    }

STEP(int, fsync, (int file), file)
STEP(int, fdatasync, (int file), file)
STEP(int, ftruncate, (int file, off_t length), file, length)
STEP(int, ftruncate64, (int file, off64_t length), file, length)
STEP(int, link, (const char *old, const char *new), old, new)
STEP(int, linkat, (int at, const char *old, int to, const char *new, int how), at, old, to, new, how)
STEP(int, rename, (const char *old, const char *new), old, new)
STEP(int, renameat, (int at, const char *old, int to, const char *new), at, old, to, new)
