// The processor time of a test's process.
#include <stdint.h>
#include <time.h>

// Returns how many milliseconds of processor time all threads of the process took.
uint64_t processor_millis(void) {
    struct timespec it = {0};
    clock_gettime(CLOCK_PROCESS_CPUTIME_ID, &it);
    return (uint64_t)it.tv_sec * 1000 + it.tv_nsec / 1000000;
}
