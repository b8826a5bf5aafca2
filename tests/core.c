// The memory of a test's process.
#include <stdint.h>
#include <stdio.h>
#include <unistd.h>

// Returns how many bytes of memory the process uses; 0 if the system does not say.
uint64_t resident_bytes(void) {
    unsigned long pages = 0;
    FILE *it = fopen("/proc/self/statm", "r");
    if (!it || fscanf(it, "%*u %lu", &pages) != 1)
        pages = 0;
    if (it)
        fclose(it);
    return (uint64_t)pages * sysconf(_SC_PAGESIZE);
}
