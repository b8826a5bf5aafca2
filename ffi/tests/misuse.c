/* A caller that breaks nothing of what the header asks, and hands over nonsense: each call answers its fault and changes nothing.
 * Linked with --wrap=malloc, --wrap=realloc and --wrap=calloc, it refuses each allocation of each call in turn. */
#include <stdlib.h>
#include <string.h>

#include "check.h"
#include "sapyguendo.h"

static long refused = -1, asked;

void *__real_malloc(size_t size);
void *__real_realloc(void *at, size_t size);
void *__real_calloc(size_t count, size_t size);

static bool refuses(void) { return refused >= 0 && asked++ == refused; }
void *__wrap_malloc(size_t size) { return refuses() ? NULL : __real_malloc(size); }
void *__wrap_realloc(void *at, size_t size) { return refuses() ? NULL : __real_realloc(at, size); }
void *__wrap_calloc(size_t count, size_t size) { return refuses() ? NULL : __real_calloc(count, size); }

/* Calls until no allocation is refused any more. How many were, is answered; each refusal must be fault 1. */
static uint32_t (*called)(void);
static long sweep(const char *name, int least) {
    for (long turn = 0;; turn++) {
        refused = turn, asked = 0;
        uint32_t fault = called();
        bool struck = asked > turn;
        refused = -1;
        if (!struck) {
            check(name, fault, SUP_DONE, __FILE__, __LINE__);
            check(name, turn >= least, 1, __FILE__, __LINE__);
            return turn;
        }
        check(name, fault, SUP_OUT_OF_MEMORY, __FILE__, __LINE__);
    }
}

static struct sup sup;
static const char template[] = "history 2 permanent worker 1 5 3 plain never\nwhat follows is not read";
static struct sup_row row;
static uint8_t room[SUP_MOST_LINE];
static uint64_t len, stamp, token = 9;
static struct sup_entry entry;
static struct sup_reply reply = {9, 9, 9, 9};

static uint32_t opens(void) { return sup_open(&sup, (const uint8_t *)template, strlen(template), 6); }
static uint32_t lists(void) { return sup_row(&sup, 0, &row); }
static uint32_t steps_at(void) { return sup_step_at(&sup, &entry, stamp, &token, &reply); }
static uint32_t writes_entry(void) { return sup_write_entry(&entry, room, sizeof room, &len); }

static uint32_t open_with(const char *line, uint64_t entries) {
    struct sup s = {0};
    uint32_t fault = sup_open(&s, (const uint8_t *)line, strlen(line), entries);
    CHECK(s.is_open, fault == SUP_DONE);
    if (fault == SUP_DONE) sup_close(&s);
    return fault;
}

int main(void) {
    CHECK(sup_version(), SUP_VERSION);

    /* templates */
    static const char *const fit[] = {"history 1 permanent worker 1 5 10\n", "history 2 permanent supervisor 1000 86400 65536 plain all\n",
        "history 2 transient worker 0 1 1 significant any\n"};
    static const char *const unfit[] = {"history 2 permanent worker 1001 5 10 plain never\n", "history 2 permanent worker 1 0 10 plain never\n",
        "history 2 permanent worker 1 86401 10 plain never\n", "history 2 permanent worker 1 5 0 plain never\n",
        "history 2 permanent worker 1 5 65537 plain never\n", "history 2 permanent worker 1 5 10 significant any\n",
        "history 2 transient worker 1 5 10 significant never\n"};
    static const char *const no_line[] = {"", "\n", "history 2 permanent worker 1 5 10 plain never", "sup permanent worker 1 5 10\n",
        "history 3 permanent worker 1 5 10 plain never\n", "history 2 always worker 1 5 10 plain never\n", "history 2 permanent worker 1 5 10\n",
        "history 2 permanent worker -1 5 10 plain never\n", "history 2 permanent worker 1 5 18446744073709551616 plain never\n"};
    for (size_t i = 0; i < sizeof fit / sizeof *fit; i++) {
        CHECK(open_with(fit[i], 1), SUP_DONE);
        CHECK(open_with(fit[i], SUP_MOST_ENTRIES), SUP_DONE);
        CHECK(open_with(fit[i], 0), SUP_BAD_TEMPLATE);
        CHECK(open_with(fit[i], SUP_MOST_ENTRIES + 1), SUP_BAD_TEMPLATE);
    }
    for (size_t i = 0; i < sizeof unfit / sizeof *unfit; i++) CHECK(open_with(unfit[i], 1), SUP_BAD_TEMPLATE);
    for (size_t i = 0; i < sizeof no_line / sizeof *no_line; i++) CHECK(open_with(no_line[i], 1), SUP_BAD_LINE);

    /* a closed one: each call is refused, and writes nothing */
    struct sup_counts counts = {.stamp = 9};
    struct sup_text text = {.len = 9};
    row.status = 9;
    entry = sup_stop(0);
    CHECK(sup_step(&sup, &entry, &reply), SUP_BAD_HANDLE);
    CHECK(sup_step_at(&sup, &entry, 0, &token, &reply), SUP_BAD_HANDLE);
    CHECK(sup_left(&sup, 0, &row), SUP_BAD_HANDLE);
    CHECK(sup_token(&sup, 1, &token), SUP_BAD_HANDLE);
    CHECK(sup_asks(&sup, &entry, &text), SUP_BAD_HANDLE);
    CHECK(sup_count(&sup, &counts), SUP_BAD_HANDLE);
    CHECK(sup_child(&sup, 1, &row), SUP_BAD_HANDLE);
    CHECK(sup_row(&sup, 0, &row), SUP_BAD_HANDLE);
    CHECK(sup_close(&sup), SUP_BAD_HANDLE);
    CHECK(reply.kind + counts.stamp + text.len + row.status, 36);

    /* memory: each allocation of each call is refused in turn */
    called = opens, sweep("open", 3);
    CHECK(opens(), SUP_BAD_HANDLE);
    entry = sup_start(0, "session-17");
    CHECK(sup_step(&sup, &entry, &reply), SUP_DONE);
    CHECK(reply.kind, SUP_STARTED);
    CHECK(reply.number, 1);
    called = lists, sweep("row 0", 1);
    CHECK(row.status, SUP_ROW_RUNNING);
    called = writes_entry, sweep("entry", 1);

    /* entries */
    uint64_t before = len;
    CHECK(sup_write_entry(&entry, room, len - 1, &len), SUP_TOO_LONG);
    CHECK(len, before);
    CHECK(sup_write_entry(&entry, room, len, &len), SUP_DONE);
    struct sup_entry read, bad[] = {sup_start(0, ""), sup_start(0, "a b"), sup_start(0, "aaaaaaaaaabbbbbbbbbbccccccccccddddddddddx"),
        sup_exit(0, 1, 4, ""), sup_exit(0, 1, SUP_SHUTDOWN_WITH, ""), sup_exit(0, 1, SUP_OTHER, "normal"), sup_exit(0, 1, SUP_OTHER, "shutdown:x"), sup_operation(5, 0, 1)};
    for (size_t i = 0; i < sizeof bad / sizeof *bad; i++) {
        CHECK(sup_step(&sup, &bad[i], &reply), SUP_BAD_LINE);
        CHECK(sup_step_at(&sup, &bad[i], 1, &token, &reply), SUP_BAD_LINE);
        CHECK(sup_asks(&sup, &bad[i], &text), SUP_BAD_LINE);
        CHECK(sup_write_entry(&bad[i], room, sizeof room, &len), SUP_BAD_LINE);
    }
    struct sup_entry unanswered = sup_stop(0);
    unanswered.answer = 3;
    CHECK(sup_step(&sup, &unanswered, &reply), SUP_BAD_LINE);
    entry.text.len = UINT64_MAX;
    CHECK(sup_step(&sup, &entry, &reply), SUP_BAD_LINE);
    CHECK(sup_read_entry((const uint8_t *)"0 0 0 stop", 10, &read, &len), SUP_BAD_LINE);
    CHECK(sup_read_entry((const uint8_t *)"0 0 0 stop failed 7\n0", 21, &read, &len), SUP_DONE);
    CHECK(len, 20);
    CHECK(read.operation + read.answer + read.code, SUP_STOP + SUP_FAILED + 7);

    /* what is listed stays while entries come, until index 0 is asked for */
    entry = sup_start(0, "b");
    for (uint64_t other = 0; other < 4; other += 2) CHECK(sup_step_at(&sup, &entry, other, &token, &reply), SUP_STALE);
    CHECK(token, 9);
    CHECK(sup_step_at(&sup, &entry, 1, &token, &reply), SUP_DONE);
    CHECK(sup_row(&sup, 1, &row) + row.status, SUP_NOT_LISTED);
    CHECK(sup_row(&sup, 0, &row) + row.number, 1);
    CHECK(sup_row(&sup, 1, &row) + row.number, 2);
    CHECK(sup_row(&sup, UINT64_MAX, &row) + row.status, SUP_NOT_LISTED);
    CHECK(sup_child(&sup, 2, &row) + row.arg.len, 1);
    CHECK(sup_child(&sup, 0, &row) + row.status, SUP_NOT_LISTED);

    /* a start that is asked about, one that is not; a history that is full */
    entry = sup_exit(0, 1, SUP_OTHER, "crash");
    CHECK(sup_asks(&sup, &entry, &text) + text.len, 10);
    entry.answer = SUP_FAILED, entry.code = 7;
    CHECK(sup_step(&sup, &entry, &reply), SUP_DONE);
    CHECK(reply.kind, SUP_RESTARTING);
    CHECK(reply.code, 7);
    CHECK(sup_child(&sup, 1, &row) + row.status, SUP_ROW_RESTARTING);
    CHECK(sup_count(&sup, &counts), SUP_DONE);
    CHECK(counts.active, 1);
    CHECK(counts.workers, 2);
    CHECK(counts.stamp, 3);
    entry = sup_stop(0);
    CHECK(sup_asks(&sup, &entry, &text) + text.len, 0);
    for (int i = 0; i < 3; i++) CHECK(sup_step(&sup, &entry, &reply), SUP_DONE);
    CHECK(reply.kind, SUP_DOWN);
    CHECK(sup_step(&sup, &entry, &reply), SUP_HISTORY_FULL);
    CHECK(sup_step_at(&sup, &entry, 6, &token, &reply), SUP_HISTORY_FULL);
    CHECK(sup_asks(&sup, &entry, &text), SUP_HISTORY_FULL);
    CHECK(sup_row(&sup, 0, &row) + row.status, SUP_ROW_DOWN);
    CHECK(sup_child(&sup, 1, &row) + row.status, SUP_ROW_DOWN);
    CHECK(sup_count(&sup, &counts) + counts.stamp, 6);
    CHECK(counts.is_down, 1);

    /* one that is closed may be opened again */
    CHECK(sup_close(&sup), SUP_DONE);
    CHECK(sup_close(&sup), SUP_BAD_HANDLE);
    CHECK(opens(), SUP_DONE);
    CHECK(sup_count(&sup, &counts) + counts.stamp, 0);

    /* tokens and who remains need memory: if it is refused, nothing is entered */
    entry = sup_start(0, "c");
    called = steps_at, sweep("start with a token", 1);
    CHECK(reply.kind, SUP_STARTED);
    entry = sup_stop(0), stamp = 1;
    called = steps_at, sweep("stop", 1);
    CHECK(reply.kind, SUP_STOPPED);
    CHECK(sup_token(&sup, 1, &token) + token, 9);
    CHECK(sup_count(&sup, &counts) + counts.stamp, 2);
    CHECK(sup_left(&sup, 0, &row) + row.number, 1);
    CHECK(sup_close(&sup), SUP_DONE);
    return tally();
}
