/* The library in C beside a plain table in C: a crash until the child is restarted, and a start with its termination, among that many
 * children, each with a value of the caller's. Prints for each the medians of the rounds in ns, and that of their ratios.
 *
 * The table has OTP's rules for permanent children too: numbers that are never used again, and a window of restarts. */
#include <malloc.h>
#include <stdio.h>
#include <stdlib.h>
#include <time.h>
#include <unistd.h>

#include "sapyguendo.h"

enum { ROUNDS = 9, TURNS = 200000, SLOTS = 1 << 18, INTENSITY = 1000, PERIOD = 1 };

static double now(void) {
    struct timespec t;
    clock_gettime(CLOCK_MONOTONIC, &t);
    return (double)t.tv_sec * 1e9 + (double)t.tv_nsec;
}

static uint32_t runs(void *context, uint64_t token, const struct sup_text *argument, uint64_t moment, uint32_t *code) {
    (void)context, (void)token, (void)argument, (void)moment, (void)code;
    return SUP_RUNNING;
}

/* ---- the plain table: open addressing with deletion by shifting back */

struct child {
    uint64_t number, value;
    struct sup_text arg;
};

static struct child *slots;
static uint64_t made, moments[INTENSITY], attempts;

static uint64_t home(uint64_t number) { return (number * 0x9e3779b97f4a7c15u) >> 46; }

static struct child *find(uint64_t number) {
    uint64_t at = home(number);
    while (slots[at].number && slots[at].number != number) at = (at + 1) % SLOTS;
    return slots[at].number ? &slots[at] : NULL;
}

static uint64_t inserts(const struct sup_text *arg, uint64_t value) {
    uint64_t at = home(++made);
    while (slots[at].number) at = (at + 1) % SLOTS;
    slots[at] = (struct child){made, value, *arg};
    return made;
}

static void removes(struct child *c) {
    uint64_t gap = (uint64_t)(c - slots), at = gap;
    for (;;) {
        at = (at + 1) % SLOTS;
        if (!slots[at].number) break;
        uint64_t from = home(slots[at].number);
        if ((at - from) % SLOTS >= (at - gap) % SLOTS) slots[gap] = slots[at], gap = at;
    }
    slots[gap].number = 0;
}

/* The number under which the child is restarted, or 0. */
static uint64_t plain_exit(uint64_t moment, uint64_t number) {
    struct child *c = find(number), old;
    if (!c) return 0;
    uint64_t *oldest = &moments[attempts++ % INTENSITY];
    if (attempts > INTENSITY && moment - *oldest <= PERIOD) return 0;
    *oldest = moment;
    old = *c;
    removes(c);
    return inserts(&old.arg, old.value);
}

/* ---- the rounds */

static uint64_t *numbers, sum;
static struct sup sup;
static uint64_t moment;

static void library_crashes(uint64_t rows) {
    struct sup_reply reply;
    for (uint64_t i = 0; i < TURNS; i++) {
        uint64_t token = 0, *number = &numbers[i % rows];
        struct sup_entry entry = sup_exit(moment = moment + (i % 500 == 0), *number, SUP_OTHER, "crash");
        if (sup_update_child(&sup, &entry, &token, runs, NULL, &reply) || reply.kind != SUP_RESTARTED) abort();
        *number = reply.next;
        sum += token;
    }
}

static void plain_crashes(uint64_t rows) {
    for (uint64_t i = 0; i < TURNS; i++) {
        uint64_t *number = &numbers[i % rows];
        sum += find(*number)->value;
        *number = plain_exit(moment = moment + (i % 500 == 0), *number);
        if (!*number) abort();
    }
}

static void library_starts(uint64_t rows) {
    struct sup_reply reply;
    (void)rows;
    for (uint64_t i = 0; i < TURNS; i++) {
        uint64_t token = 7;
        struct sup_entry entry = sup_start(moment, "session-17");
        if (sup_update_child(&sup, &entry, &token, runs, NULL, &reply) || reply.kind != SUP_STARTED) abort();
        entry = sup_terminate(moment, reply.number);
        if (sup_update_child(&sup, &entry, &token, runs, NULL, &reply) || reply.kind != SUP_ENDED) abort();
        sum += token;
    }
}

static void plain_starts(uint64_t rows) {
    (void)rows;
    for (uint64_t i = 0; i < TURNS; i++) {
        struct sup_text arg = sup_text_of("session-17");
        struct child *c = find(inserts(&arg, 7));
        sum += c->value;
        removes(c);
    }
}

static int by_size(const void *a, const void *b) { return *(const double *)a < *(const double *)b ? -1 : 1; }

static void fills(uint64_t rows) {
    char line[100];
    sprintf(line, "history 2 permanent worker %d %d 65536 plain never\n", INTENSITY, PERIOD);
    sup_close(&sup);
    if (sup_begin(&sup, line)) abort();
    memset(slots, 0, SLOTS * sizeof *slots);
    made = attempts = moment = 0;
    for (uint64_t i = 0; i < rows; i++) {
        struct sup_entry entry = sup_start(0, "session-17");
        struct sup_reply reply;
        uint64_t token = i + 1;
        if (sup_update_child(&sup, &entry, &token, runs, NULL, &reply)) abort();
        if (inserts(&entry.text, i + 1) != reply.number) abort();
    }
}

static void measures(const char *what, uint64_t rows, void (*ours)(uint64_t), void (*plain)(uint64_t)) {
    double all[3][ROUNDS];
    for (int round = 0; round < ROUNDS; round++) {
        void (*both[2])(uint64_t) = {ours, plain};
        fills(rows);
        for (int i = 0; i < 2; i++) {
            for (uint64_t k = 0; k < rows; k++) numbers[k] = k + 1;
            moment = 0;
            double began = now();
            both[i](rows);
            all[i][round] = (now() - began) / TURNS;
        }
        all[2][round] = all[0][round] / all[1][round];
    }
    for (int i = 0; i < 3; i++) qsort(all[i], ROUNDS, sizeof(double), by_size);
    printf("| C: %s among %lu children | %.2f | %.0f | %.0f |\n", what, (unsigned long)rows, all[2][ROUNDS / 2], all[0][ROUNDS / 2], all[1][ROUNDS / 2]);
}

static size_t resident(void) {
    size_t pages = 0, all = 0;
    FILE *it = fopen("/proc/self/statm", "r");
    if (!it || fscanf(it, "%zu %zu", &all, &pages) != 2) abort();
    fclose(it);
    return pages * (size_t)sysconf(_SC_PAGESIZE);
}

/* The memory of supervisors without children. */
static void weighs(int max) {
    enum { MANY = 20 };
    static struct sup empty[MANY];
    char line[100];
    sprintf(line, "history 2 permanent worker 1 5 %d plain never\n", max);
    size_t before = resident();
    struct mallinfo2 first = mallinfo2();
    for (int i = 0; i < MANY; i++) if (sup_begin(&empty[i], line)) abort();
    struct mallinfo2 last = mallinfo2();
    size_t all = (last.uordblks + last.hblkhd) - (first.uordblks + first.hblkhd);
    printf("| a supervisor of at most %d children, without any | %zu | %zu |\n", max, all / MANY / 1000, (resident() - before) / MANY / 1000);
    for (int i = 0; i < MANY; i++) sup_close(&empty[i]);
    malloc_trim(0);
}

int main(void) {
    slots = calloc(SLOTS, sizeof *slots);
    numbers = calloc(65536, sizeof *numbers);
    static const int sizes[] = {10, 1000, 65536};
    for (int i = 0; i < 3; i++) weighs(sizes[i]);
    for (uint64_t rows = 1000; rows <= 60000; rows *= 60) {
        measures("crash until restarted", rows, library_crashes, plain_crashes);
        measures("start and termination", rows, library_starts, plain_starts);
    }
    fprintf(stderr, "%lu\n", (unsigned long)sum);
    return 0;
}
