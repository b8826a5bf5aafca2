// Tells how much processor time a test took.
#include <stdint.h>
#include <time.h>

// How many milliseconds of processor time all threads of the process took together.
uint64_t millis_of_processor(void) {
    struct timespec time;
    clock_gettime(CLOCK_PROCESS_CPUTIME_ID, &time);
    return (uint64_t)time.tv_sec * 1000 + (uint64_t)time.tv_nsec / 1000000;
}
