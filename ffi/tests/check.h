/* What the tests in C share: each check is counted, and one that fails says where, what was found and what was wanted. */
#ifndef CHECK_H
#define CHECK_H
#include <inttypes.h>
#include <stdio.h>

static int failed, passed;

#define CHECK(is, wanted) check(#is, (is), (wanted), __FILE__, __LINE__)
static void check(const char *text, uint64_t is, uint64_t wanted, const char *file, int line) {
    if (is == wanted) {
        passed++;
        return;
    }
    failed++;
    printf("%s:%d: %s is %" PRIu64 ", and not %" PRIu64 "\n", file, line, text, is, wanted);
}

/* Says how many passed and failed, and returns the test's status. */
static int tally(void) {
    printf("%d passed, %d failed\n", passed, failed);
    return failed != 0;
}

#endif
