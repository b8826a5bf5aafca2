// Refuses one allocation of a process: the one whose number the variable REFUSE gives, counted from 1. It is preloaded
// before the C library by the script `refusals` beside it, and is no part of the program. Once it is refused, the file that
// REFUSE_TOLD names is made: without it, the process has made fewer allocations. How many it made is written at its end to
// the file that REFUSE_MADE names.
#define _GNU_SOURCE
#include <dlfcn.h>
#include <errno.h>
#include <fcntl.h>
#include <stdatomic.h>
#include <stdio.h>
#include <stdlib.h>
#include <sys/syscall.h>
#include <unistd.h>

static _Atomic long made;
static long refused = -1;

static void tell(void) {
    const char *path = getenv("REFUSE_TOLD");
    int file = path ? open(path, O_CREAT | O_WRONLY, 0600) : -1;
    if (file >= 0)
        close(file);
}

static int is_refused(void) {
    if (refused < 0) {
        const char *number = getenv("REFUSE");
        refused = number ? atol(number) : 0;
    }
    if (++made != refused)
        return 0;
    tell();
    errno = ENOMEM;
    return 1;
}

void *malloc(size_t size) {
    static __typeof__(&malloc) real;
    if (!real)
        real = (__typeof__(&malloc))dlsym(RTLD_NEXT, "malloc");
    return is_refused() ? NULL : real(size);
}

void *aligned_alloc(size_t align, size_t size) {
    static __typeof__(&aligned_alloc) real;
    if (!real)
        real = (__typeof__(&aligned_alloc))dlsym(RTLD_NEXT, "aligned_alloc");
    return is_refused() ? NULL : real(align, size);
}

void *realloc(void *old, size_t size) {
    static __typeof__(&realloc) real;
    if (!real)
        real = (__typeof__(&realloc))dlsym(RTLD_NEXT, "realloc");
    return is_refused() ? NULL : real(old, size);
}

static void count(void) {
    const char *path = getenv("REFUSE_MADE");
    int file = path ? open(path, O_CREAT | O_WRONLY | O_TRUNC, 0600) : -1;
    char text[24];
    int length = snprintf(text, sizeof text, "%ld\n", made);
    if (file >= 0 && write(file, text, length) == length)
        close(file);
}

__attribute__((destructor)) static void end(void) { count(); }

// A process with threads ends here, past the destructors.
__attribute__((noreturn)) void _exit(int status) {
    count();
    for (;;)
        syscall(SYS_exit_group, status);
}
