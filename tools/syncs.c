// Shows whether a process stores what it writes to a file before it answers. It is preloaded before the C library by a case of the
// script `cases` beside it, and is no part of the program. Before each write to standard output it appends a line to the file that
// SYNCS names: how often the process wrote to another file since the line before, and how many of all these writes no sync followed.
#define _GNU_SOURCE
#include <dlfcn.h>
#include <fcntl.h>
#include <stdatomic.h>
#include <stdio.h>
#include <stdlib.h>
#include <unistd.h>

static _Atomic long written, unsynced;

static void tell(void) {
    const char *path = getenv("SYNCS");
    FILE *it = path ? fopen(path, "a") : NULL;
    if (!it)
        abort();
    fprintf(it, "written %ld unsynced %ld\n", atomic_exchange(&written, 0), unsynced);
    fclose(it);
}

ssize_t write(int file, const void *bytes, size_t size) {
    static __typeof__(&write) real;
    if (!real)
        real = (__typeof__(&write))dlsym(RTLD_NEXT, "write");
    if (file == STDOUT_FILENO)
        tell();
    else if (file != STDERR_FILENO) {
        written++;
        unsynced++;
    }
    return real(file, bytes, size);
}

int fdatasync(int file) {
    static __typeof__(&fdatasync) real;
    if (!real)
        real = (__typeof__(&fdatasync))dlsym(RTLD_NEXT, "fdatasync");
    unsynced = 0;
    return real(file);
}

int fsync(int file) { return fdatasync(file); }
