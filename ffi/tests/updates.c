/* The header's shorthands: what they leave alone at a fault, which field they name, and a start function that uses the supervisor. */
#include "check.h"
#include "sapyguendo.h"

static struct sup sup;
static int begun;

/* Answers as the caller says in `context`: SUP_FAILED with code 7. */
static uint32_t answers(void *context, const struct sup_text *argument, uint64_t moment, uint32_t *code) {
    (void)argument, (void)moment;
    begun++;
    *code = 7;
    return *(uint32_t *)context;
}

/* Enters this many starts meanwhile. */
static uint32_t enters(void *context, const struct sup_text *argument, uint64_t moment, uint32_t *code) {
    uint32_t running = SUP_RUNNING;
    begun++;
    for (int i = 0; i < *(int *)context; i++) {
        struct sup_entry entry = sup_start(moment, "inner");
        struct sup_reply reply;
        CHECK(sup_update(&sup, &entry, answers, &running, &reply), SUP_DONE);
        CHECK(reply.kind, SUP_STARTED);
    }
    CHECK(argument->len, 5);
    *code = 0;
    return SUP_RUNNING;
}

static void opens(const char *template, uint64_t entries) {
    sup_close(&sup);
    CHECK(sup_open(&sup, (const uint8_t *)template, strlen(template), entries), SUP_DONE);
    begun = 0;
}

/* Whether two names are the same, or both are none. */
static bool names(const char *is, const char *wanted) { return is && wanted ? strcmp(is, wanted) == 0 : is == wanted; }

/* Names the field of each entry and the part of each template that the library refuses, and of no other. */
static void tries_names(void) {
    struct { struct sup_entry entry; const char *field; } entries[] = {
        {sup_start(UINT64_MAX, "a"), NULL}, {sup_exit(0, UINT64_MAX, SUP_SHUTDOWN_WITH, "normal"), NULL}, {sup_stop(0), NULL},
        {sup_start(0, ""), "text"}, {sup_start(0, "a b"), "text"}, {sup_start(0, "aaaaaaaaaabbbbbbbbbbccccccccccddddddddddx"), "text"},
        {sup_exit(0, 1, SUP_OTHER, "shutdown:x"), "text"}, {sup_exit(0, 1, SUP_SHUTDOWN_WITH, NULL), "text"}, {sup_retry(0, 1), "answer"},
        {sup_exit(0, 1, 4, "a"), "reason"}, {sup_operation(5, 0, 1), "operation"}, {sup_exit(0, 1, 4, "a"), "reason"}};
    struct { const char *line; uint64_t entries; const char *part; } templates[] = {
        {"history 2 permanent worker 1000 86400 65536 plain never\n", SUP_MOST_ENTRIES, NULL}, {"history 1 temporary supervisor 0 1 1\n", 1, NULL},
        {"history 2 transient worker 1 5 9 significant any\n", 1, NULL}, {"history 2 permanent worker 1001 5 9 plain never\n", 1, "intensity"},
        {"history 2 permanent worker 1 0 9 plain never\n", 1, "period"}, {"history 1 permanent worker 1 86401 9\n", 1, "period"},
        {"history 2 permanent worker 1 5 0 plain never\n", 1, "max"}, {"history 2 permanent worker 1 5 65537 plain all\n", 1, "max"},
        {"history 2 permanent worker 1 5 9 plain never\n", 0, "entries"}, {"history 2 permanent worker 1 5 9 plain never\n", SUP_MOST_ENTRIES + 1, "entries"},
        {"history 2 permanent worker 1 5 9 significant any\n", 1, "significant"}, {"history 2 temporary worker 1 5 9 significant never\n", 1, "significant"}};
    struct sup_reply reply;
    opens("history 2 permanent worker 1 5 2 plain never\n", 9);
    entries[8].entry.answer = entries[11].entry.answer = 3;
    for (size_t i = 0; i < sizeof entries / sizeof *entries; i++) {
        CHECK(names(sup_wrong_field(&entries[i].entry), entries[i].field), true);
        CHECK(sup_step(&sup, &entries[i].entry, &reply), entries[i].field ? SUP_BAD_LINE : SUP_DONE);
    }
    for (size_t i = 0; i < sizeof templates / sizeof *templates; i++) {
        struct sup s = {0};
        const char *line = templates[i].line;
        CHECK(names(sup_wrong_part(line, templates[i].entries), templates[i].part), true);
        CHECK(sup_open(&s, (const uint8_t *)line, strlen(line), templates[i].entries), templates[i].part ? SUP_BAD_TEMPLATE : SUP_DONE);
        sup_close(&s);
    }
    CHECK(names(sup_wrong_part("a line of another kind\n", 1), NULL), true);
}

int main(void) {
    const char *two = "history 2 permanent worker 1 5 2 plain never\n";
    struct sup_entry entry, before;
    struct sup_reply reply;
    struct sup_row row;
    uint32_t answer = SUP_FAILED;
    int meanwhile = 1;
    tries_names();
    CHECK(sup_close(&sup), SUP_DONE);

    /* a reason without a text needs none */
    entry = sup_exit(0, 1, SUP_NORMAL, NULL);
    CHECK(entry.text.len, 0);
    CHECK(entry.reason, SUP_NORMAL);

    /* a fault leaves the entry as it was: of a closed supervisor, of an answer that is none, of a full history, before which no body begins */
    before = entry = sup_start(0, "a");
    entry.answer = before.answer = 9;
    CHECK(sup_update(&sup, &entry, answers, &answer, &reply), SUP_BAD_HANDLE);
    CHECK(memcmp(&entry, &before, sizeof entry), 0);
    opens(two, 1);
    answer = 77;
    CHECK(sup_update(&sup, &entry, answers, &answer, &reply), SUP_BAD_LINE);
    CHECK(memcmp(&entry, &before, sizeof entry), 0);
    CHECK(begun, 1);
    answer = SUP_FAILED;
    CHECK(sup_update(&sup, &entry, answers, &answer, &reply), SUP_DONE);
    CHECK(reply.kind, SUP_START_FAILED);
    CHECK(entry.answer + entry.code, SUP_FAILED + 7);
    CHECK(begun, 2);
    before = entry = sup_start(0, "b");
    CHECK(sup_update(&sup, &entry, answers, &answer, &reply), SUP_HISTORY_FULL);
    CHECK(memcmp(&entry, &before, sizeof entry), 0);
    CHECK(begun, 2);

    /* a start function that enters another start: both are entered, and each body was begun once */
    opens(two, 9);
    entry = sup_start(0, "outer");
    CHECK(sup_update(&sup, &entry, enters, &meanwhile, &reply), SUP_DONE);
    CHECK(reply.kind, SUP_STARTED);
    CHECK(reply.number, 2);
    CHECK(begun, 2);
    CHECK(sup_child(&sup, 2, &row) + row.arg.len, 5);

    /* one that leaves no room for itself: it is not entered as if it ran */
    opens(two, 9);
    meanwhile = 2;
    entry = sup_start(0, "outer");
    CHECK(sup_update(&sup, &entry, enters, &meanwhile, &reply), SUP_DONE);
    CHECK(reply.kind, SUP_FULL);
    CHECK(entry.answer, SUP_IGNORE);
    CHECK(begun, 3);
    CHECK(sup_close(&sup), SUP_DONE);
    return tally();
}
