/* The tokens of children, and who remains when the supervisor goes down: each as a table of the caller's has it. */
#include "check.h"
#include "sapyguendo.h"

enum { OPERATIONS = 20000, CHILDREN = 40 };

static struct sup sup;
/* The token of each child that was made, by its number, and whether it is listed. */
static uint64_t tokens[OPERATIONS + 2], listed[OPERATIONS + 2], last;

static uint64_t random_below(uint64_t n) {
    static uint64_t seed = 1;
    seed = seed * 6364136223846793005u + 1442695040888963407u;
    return (seed >> 33) % n;
}

/* Enters an operation with an answer. It returns the reply's kind, and stores the token of the entry's child. */
static uint32_t enters(struct sup_entry entry, uint32_t answer, uint64_t *token) {
    struct sup_counts counts;
    struct sup_reply reply = {0};
    uint64_t given = *token;
    CHECK(sup_count(&sup, &counts), SUP_DONE);
    entry.answer = answer;
    CHECK(sup_step_at(&sup, &entry, counts.stamp, token, &reply), SUP_DONE);
    switch (reply.kind) {
    case SUP_STARTED: last = reply.number, tokens[last] = given, listed[last] = 1; break;
    case SUP_RESTARTED: last = reply.next, tokens[last] = tokens[reply.number], listed[last] = 1, listed[reply.number] = 0; break;
    case SUP_REMOVED: case SUP_IGNORED: listed[reply.number] = 0; break;
    case SUP_ENDED: listed[entry.number] = 0; break;
    }
    return reply.kind;
}

/* Compares what `call` lists with the table, and its tokens. */
static void compares(uint32_t (*call)(struct sup *, uint64_t, struct sup_row *), uint32_t end) {
    struct sup_row row;
    uint64_t index = 0, token;
    for (uint64_t number = 1; number <= last; number++) {
        if (!listed[number]) continue;
        CHECK(call(&sup, index++, &row), SUP_DONE);
        CHECK(row.number, number);
        CHECK(row.arg.len, 1);
        CHECK(sup_token(&sup, number, &token) + token, tokens[number]);
    }
    CHECK(call(&sup, index, &row) + row.status, end);
}

static void opens(const char *template) {
    sup_close(&sup);
    CHECK(sup_begin(&sup, template), SUP_DONE);
    memset(listed, 0, sizeof listed);
    last = 0;
}

int main(void) {
    uint64_t token, number;
    struct sup_row row;

    /* many operations */
    opens("history 2 transient worker 1000 1 40 plain never\n");
    for (uint64_t i = 0; i < OPERATIONS; i++) {
        number = last < 60 ? random_below(60) : last - random_below(60);
        uint64_t told = token = random_below(4) ? i + 1 : 0;
        bool is_start = false;
        switch (random_below(6)) {
        case 0: case 1: is_start = true, enters(sup_start(i, "a"), SUP_RUNNING, &token); break;
        case 2: told = listed[number] ? tokens[number] : 0, enters(sup_exit(i, number, SUP_OTHER, "crash"), random_below(3), &token); break;
        case 3: told = listed[number] ? tokens[number] : 0, enters(sup_exit(i, number, SUP_NORMAL, NULL), SUP_RUNNING, &token); break;
        case 4: told = listed[number] ? tokens[number] : 0, enters(sup_terminate(i, number), SUP_RUNNING, &token); break;
        case 5: told = listed[number] ? tokens[number] : 0, enters(sup_retry(i, number), random_below(2), &token); break;
        }
        CHECK(token, told);
        if (i % 500 == 0 || is_start) CHECK(sup_left(&sup, 0, &row) + row.status, SUP_NOT_LISTED);
        if (i % 500 == 0) compares(sup_row, SUP_NOT_LISTED);
    }
    /* what was listed is left, and has its tokens until the supervisor is closed */
    token = 7;
    CHECK(enters(sup_stop(OPERATIONS), SUP_RUNNING, &token), SUP_STOPPED);
    CHECK(token, 0);
    compares(sup_left, SUP_NOT_LISTED);
    token = 7;
    CHECK(enters(sup_start(OPERATIONS, "b"), SUP_RUNNING, &token), SUP_DOWN);
    CHECK(token, 7);
    compares(sup_left, SUP_NOT_LISTED);
    CHECK(sup_row(&sup, 0, &row) + row.status, SUP_ROW_DOWN);

    /* one that gives up, at an exit and at a retry; a significant child that ends, the first and the last */
    static const struct { const char *template; uint32_t answer, reply; bool retries; } ends[] = {
        {"history 2 permanent worker 0 1 9 plain never\n", SUP_RUNNING, SUP_GAVE_UP, false},
        {"history 2 permanent worker 1 1000 9 plain never\n", SUP_FAILED, SUP_GAVE_UP, true},
        {"history 2 temporary worker 1 1 9 significant any\n", SUP_RUNNING, SUP_SHUT_DOWN, false},
    };
    for (size_t i = 0; i < sizeof ends / sizeof *ends; i++) {
        opens(ends[i].template);
        for (token = 11; token < 15; token++) CHECK(enters(sup_start(0, "a"), SUP_RUNNING, &token), SUP_STARTED);
        if (ends[i].retries) CHECK(enters(sup_exit(0, 2, SUP_OTHER, "crash"), SUP_FAILED, &token), SUP_RESTARTING);
        CHECK(enters(ends[i].retries ? sup_retry(0, 2) : sup_exit(0, 2, SUP_NORMAL, NULL), ends[i].answer, &token), ends[i].reply);
        CHECK(token, 12);
        compares(sup_left, SUP_NOT_LISTED);
        CHECK(sup_left(&sup, 1, &row) + row.status, ends[i].retries ? SUP_ROW_RESTARTING : SUP_ROW_RUNNING);
    }
    opens("history 2 transient worker 1 1 9 significant all\n");
    for (token = 11; token < 13; token++) CHECK(enters(sup_start(0, "a"), SUP_RUNNING, &token), SUP_STARTED);
    CHECK(enters(sup_exit(0, 1, SUP_NORMAL, NULL), SUP_RUNNING, &token), SUP_REMOVED);
    CHECK(sup_left(&sup, 0, &row) + row.status, SUP_NOT_LISTED);
    CHECK(enters(sup_exit(0, 2, SUP_NORMAL, NULL), SUP_RUNNING, &token), SUP_SHUT_DOWN);
    compares(sup_left, SUP_NOT_LISTED);

    /* one that was opened again has none */
    opens("history 2 transient worker 1 1 9 plain never\n");
    CHECK(sup_left(&sup, 0, &row) + row.status, SUP_NOT_LISTED);
    CHECK(sup_token(&sup, 1, &token) + token, 0);
    CHECK(sup_close(&sup), SUP_DONE);
    return tally();
}
