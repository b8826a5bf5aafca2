/* A supervisor of one thread, by the rules of Erlang/OTP's strategy simple_one_for_one, as a static library.
 *
 * A supervisor is held in a `struct sup`, which begins as zeros, is opened, handed to each call by its address, and closed:
 *
 *     struct sup sup = {0};
 *     struct sup_entry entry = sup_start(0, "session-17");
 *     struct sup_reply reply;
 *     if (sup_begin(&sup, "history 2 permanent worker 1 5 1000 plain never\n") == SUP_DONE
 *         && sup_step(&sup, &entry, &reply) == SUP_DONE)
 *         printf("%llu\n", (unsigned long long)reply.number);
 *     sup_close(&sup);
 *
 * Each call answers 0 or the number of a fault. After a fault nothing has changed: neither the supervisor, nor what the call would
 * have written. The rules, the replies and the faults are those of docs/SUPERVISOR.md and docs/FORMATS.md.
 *
 * What the caller owes, since no library can check it:
 *  - A `struct sup` is used by one call at a time. Threads that share one do so under a lock. Each call changes it, even one that
 *    only asks.
 *  - A `struct sup` is not copied while it is open, and its fields are only read. It may be moved, if the old place is used no more.
 *  - Each pointer points to what its type says, and none is null; if a length follows, to that many bytes.
 *  - `malloc` and `free` are those of the C library, or as good. No call is made from a signal handler.
 */
#ifndef SAPYGUENDO_H
#define SAPYGUENDO_H

#include <stdbool.h>
#include <stddef.h>
#include <stdint.h>
#include <stdio.h>
#include <string.h>

#ifdef __cplusplus
extern "C" {
#endif

/* The version of this header: 100 is 0.1.0. `sup_version` returns that of the library. */
#define SUP_VERSION 200

/* What a call answers. */
enum sup_fault {
    SUP_DONE = 0,
    SUP_OUT_OF_MEMORY = 1,
    SUP_HISTORY_FULL = 2,
    SUP_BAD_TEMPLATE = 7, /* a part of the template is out of its range: sup_wrong_part says which */
    SUP_BAD_LINE = 9,    /* a line that spells no template or no entry, or an entry that spells none: sup_wrong_field says why */
    SUP_TOO_LONG = 12,   /* the line is longer than the room for it */
    SUP_BAD_HANDLE = 15, /* the supervisor is closed, or was to be opened and is open already */
    SUP_STALE = 16,      /* there are not as many entries as the stamp says */
};

enum sup_operation_kind { SUP_START, SUP_EXIT, SUP_RETRY, SUP_TERMINATE, SUP_STOP };
enum sup_reason { SUP_NORMAL, SUP_SHUTDOWN, SUP_SHUTDOWN_WITH, SUP_OTHER };
enum sup_answer { SUP_RUNNING, SUP_IGNORE, SUP_FAILED };
enum sup_status { SUP_NOT_LISTED, SUP_ROW_RUNNING, SUP_ROW_RESTARTING, SUP_ROW_DOWN };

/* The kinds of replies, with the fields of `struct sup_reply` that each has. The others are 0. A `switch` over
   (enum sup_reply_kind)reply.kind has the compiler say which are forgotten. */
enum sup_reply_kind {
    SUP_STARTED,      /* number */
    SUP_UNDEFINED,
    SUP_START_FAILED, /* code */
    SUP_FULL,
    SUP_REMOVED,      /* number */
    SUP_SHUT_DOWN,    /* number */
    SUP_RESTARTED,    /* number, next */
    SUP_RESTARTING,   /* number, code */
    SUP_IGNORED,      /* number */
    SUP_STRAY,        /* number */
    SUP_NOT_FOUND,
    SUP_ENDED,
    SUP_STOPPED,
    SUP_GAVE_UP,
    SUP_DOWN,
};

/* The most entries of a history, and room enough for each line. */
#define SUP_MOST_ENTRIES ((uint64_t)1 << 62)
#define SUP_MOST_LINE 160

/* A supervisor. All zeros are a closed one. */
struct sup {
    void *at;
    bool is_open;
};

/* A text: 1 to 40 bytes, each from 0x21 to 0x7E. If there is none, the length is 0. */
struct sup_text {
    uint64_t len;
    uint8_t bytes[40];
};

/* An entry: an operation, when and by whom it was entered, and what the start function answered. */
struct sup_entry {
    uint64_t handle;
    uint64_t serial;
    uint64_t moment;       /* in seconds */
    uint64_t number;       /* of the child: for an exit, a retry and a termination */
    uint32_t operation;    /* SUP_START, .. */
    uint32_t reason;       /* of an exit: SUP_NORMAL, .. */
    uint32_t answer;       /* SUP_RUNNING, .. */
    uint32_t code;         /* of SUP_FAILED */
    struct sup_text text;  /* the argument of a start; of SUP_SHUTDOWN_WITH and SUP_OTHER the term */
};

struct sup_reply {
    uint32_t kind;         /* SUP_STARTED, .. */
    uint32_t code;
    uint64_t number;
    uint64_t next;
};

/* The counts of a supervisor's children, which are 0 once it is down, and of its entries. */
struct sup_counts {
    uint64_t specs;
    uint64_t active;
    uint64_t supervisors;
    uint64_t workers;
    uint64_t stamp;
    bool is_down;
};

/* A child, or why there is none. */
struct sup_row {
    uint64_t number;
    uint32_t status;       /* SUP_NOT_LISTED, .. */
    struct sup_text arg;
};

/* The version of the library, as SUP_VERSION. */
uint32_t sup_version(void);

/* Opens a closed supervisor of the template that the first line of a history text gives, which ends with a line feed:
 *
 *     history 2 RESTART KIND INTENSITY PERIOD MAX MARK AUTO
 *
 * RESTART is permanent, transient or temporary, and KIND worker or supervisor. INTENSITY, 0 to 1000, restarts are allowed within
 * PERIOD, 1 to 86400, seconds. There are at most MAX, 1 to 65536, children at a time. MARK is significant or plain, and AUTO never,
 * any or all. `entries`, 1 to SUP_MOST_ENTRIES, is how many entries there are at most. What follows the first line is not read.
 * It takes memory for MAX children at once, some 200 bytes for each: 13 MB of addresses for 65,536, of which one without children has
 * touched 1.1 MB. Choose MAX by need.
 * Answers SUP_BAD_LINE, SUP_BAD_TEMPLATE, SUP_OUT_OF_MEMORY or SUP_BAD_HANDLE. */
uint32_t sup_open(struct sup *sup, const uint8_t *text, size_t size, uint64_t entries);

/* Closes an open supervisor, and gives its memory back. Answers SUP_BAD_HANDLE if it is closed. */
uint32_t sup_close(struct sup *sup);

/* Stores the argument that the start function is to be asked about before this entry is entered, or a text of length 0 if it is
   not to be asked. Of the entry it reads the operation and the moment. Answers SUP_BAD_LINE, SUP_HISTORY_FULL or SUP_BAD_HANDLE. */
uint32_t sup_asks(struct sup *sup, const struct sup_entry *entry, struct sup_text *asked);

/* Enters an entry, with what the start function answered if it was asked, and stores the reply.
   Answers SUP_BAD_LINE, SUP_HISTORY_FULL or SUP_BAD_HANDLE. It takes no memory. */
uint32_t sup_step(struct sup *sup, const struct sup_entry *entry, struct sup_reply *reply);

/* Enters an entry as sup_step does, if there are as many entries as `stamp` says. So the answer is to what the rules asked when there
   were that many, whatever other threads or the start function itself have entered meanwhile.
   Each child may have a value of the caller's, a token: a start gives its child `*token`, and a child that is started again has that of
   the child which it replaces. Stores the token of the child that ended, was started again or was to be ended, or 0 if it has none.
   Answers SUP_STALE, SUP_OUT_OF_MEMORY, and what sup_step does. */
uint32_t sup_step_at(struct sup *sup, const struct sup_entry *entry, uint64_t stamp, uint64_t *token, struct sup_reply *reply);

/* Stores the counts. Answers SUP_BAD_HANDLE. */
uint32_t sup_count(struct sup *sup, struct sup_counts *counts);

/* Stores the child with this number. Answers SUP_BAD_HANDLE. */
uint32_t sup_child(struct sup *sup, uint64_t number, struct sup_row *row);

/* Stores the children one by one, in ascending order of number: that of index 0, 1, .. until one is SUP_NOT_LISTED or SUP_ROW_DOWN.
   Index 0 lists the children as they are now, and the further ones give what was listed then, whatever was entered meanwhile. The
   list is kept until the next, or until the supervisor is closed. Answers SUP_BAD_HANDLE, and of index 0 SUP_OUT_OF_MEMORY. */
uint32_t sup_row(struct sup *sup, uint64_t index, struct sup_row *row);

/* Stores those children one by one, as sup_row does, that were listed before the entry that took the supervisor down: the caller ends
   what runs of them. There are none while it is up, or if that entry came by sup_step. Answers SUP_BAD_HANDLE. */
uint32_t sup_left(struct sup *sup, uint64_t index, struct sup_row *row);

/* Stores the token of the child with this number, or 0: it has none, or is not listed and was not when the supervisor went down.
   Answers SUP_BAD_HANDLE. */
uint32_t sup_token(struct sup *sup, uint64_t number, uint64_t *token);

/* Writes an entry as a line of a history text, and stores its length. A history text is the line that a supervisor was opened with
   and the lines of its entries. Answers SUP_BAD_LINE, SUP_TOO_LONG if the room is too small (SUP_MOST_LINE is enough), or
   SUP_OUT_OF_MEMORY. */
uint32_t sup_write_entry(const struct sup_entry *entry, uint8_t *room, size_t size, uint64_t *len);

/* Reads the entry of the first line of a text, which ends with a line feed, and stores the length of that line with its line feed.
   Answers SUP_BAD_LINE. */
uint32_t sup_read_entry(const uint8_t *text, size_t size, struct sup_entry *entry, uint64_t *len);

/* ---- shorthands, which are not in the library. */

/* Opens a supervisor of the template of this line, with as many entries as there may be. */
static inline uint32_t sup_begin(struct sup *sup, const char *line) {
    return sup_open(sup, (const uint8_t *)line, strlen(line), SUP_MOST_ENTRIES);
}

/* A text of a string, or no text if there is none (NULL). One that is too long is no text: each call refuses it. */
static inline struct sup_text sup_text_of(const char *string) {
    struct sup_text t;
    memset(&t, 0, sizeof t);
    if (string == NULL) return t;
    t.len = strlen(string);
    memcpy(t.bytes, string, t.len < sizeof t.bytes ? (size_t)t.len : sizeof t.bytes);
    return t;
}

static inline struct sup_entry sup_operation(uint32_t operation, uint64_t moment, uint64_t number) {
    struct sup_entry e;
    memset(&e, 0, sizeof e);
    e.operation = operation;
    e.moment = moment;
    e.number = number;
    return e;
}

/* An entry of each operation, by handle 0 and with serial 0. If the start function is asked, its answer is that the child runs. */
static inline struct sup_entry sup_start(uint64_t moment, const char *argument) {
    struct sup_entry e = sup_operation(SUP_START, moment, 0);
    e.text = sup_text_of(argument);
    return e;
}

static inline struct sup_entry sup_exit(uint64_t moment, uint64_t number, uint32_t reason, const char *text) {
    struct sup_entry e = sup_operation(SUP_EXIT, moment, number);
    e.reason = reason;
    e.text = sup_text_of(text);
    return e;
}

static inline struct sup_entry sup_retry(uint64_t moment, uint64_t number) { return sup_operation(SUP_RETRY, moment, number); }
static inline struct sup_entry sup_terminate(uint64_t moment, uint64_t number) { return sup_operation(SUP_TERMINATE, moment, number); }
static inline struct sup_entry sup_stop(uint64_t moment) { return sup_operation(SUP_STOP, moment, 0); }

/* Writes an entry as a line of a history text, which ends with a line feed, into a string. */
static inline uint32_t sup_line(const struct sup_entry *entry, char line[SUP_MOST_LINE + 1]) {
    uint64_t len = 0;
    uint32_t fault = sup_write_entry(entry, (uint8_t *)line, SUP_MOST_LINE, &len);
    line[len] = 0;
    return fault;
}

/* What a fault and a reply mean, in words. */
static inline const char *sup_fault_text(uint32_t fault) {
    switch ((enum sup_fault)fault) {
    case SUP_DONE: return "done";
    case SUP_OUT_OF_MEMORY: return "out of memory";
    case SUP_HISTORY_FULL: return "the history is full";
    case SUP_BAD_TEMPLATE: return "no template has these parts";
    case SUP_BAD_LINE: return "it spells no entry";
    case SUP_TOO_LONG: return "the line is too long";
    case SUP_BAD_HANDLE: return "the supervisor is closed, or was open already";
    case SUP_STALE: return "there are other entries by now";
    }
    return "unknown";
}

static inline const char *sup_reply_text(uint32_t kind) {
    static const char *const texts[] = {"started", "undefined", "start_failed", "full", "removed", "shut_down", "restarted", "restarting",
        "ignored", "stray", "not_found", "ended", "stopped", "gave_up", "down"};
    return kind < sizeof texts / sizeof *texts ? texts[kind] : "unknown";
}

/* Returns the field of an entry for which it is refused with SUP_BAD_LINE: "text", "answer", "reason" or "operation". If several are
   wrong, it is one that follows the others in this order. Returns NULL if none is. */
static inline const char *sup_wrong_field(const struct sup_entry *entry) {
    static const char *const fields[] = {"text", "answer", "reason", "operation"};
    struct sup_entry e = *entry;
    uint8_t room[SUP_MOST_LINE];
    uint64_t len;
    int wrong = -1;
    while (wrong < 3 && sup_write_entry(&e, room, sizeof room, &len) == SUP_BAD_LINE) {
        switch (++wrong) {
        case 0: e.text = sup_text_of("x"); break;
        case 1: e.answer = SUP_RUNNING; break;
        case 2: e.reason = SUP_NORMAL; break;
        }
    }
    return wrong < 0 ? NULL : fields[wrong];
}

/* Returns the part of a template for which sup_open answers SUP_BAD_TEMPLATE: "intensity", "period", "max", "entries" or "significant".
   Returns NULL if none is wrong. */
static inline const char *sup_wrong_part(const char *line, uint64_t entries) {
    unsigned long long intensity, period, max;
    if (sscanf(line, "history %*s %*s %*s %19llu %19llu %19llu", &intensity, &period, &max) != 3) return NULL;
    if (intensity > 1000) return "intensity";
    if (period < 1 || period > 86400) return "period";
    if (max < 1 || max > 65536) return "max";
    if (entries < 1 || entries > SUP_MOST_ENTRIES) return "entries";
    if (!strstr(line, " significant ")) return NULL;
    return strstr(line, " permanent ") || strstr(line, " significant never\n") ? "significant" : NULL;
}

/* A start function: it sets `*code` if it answers SUP_FAILED. */
typedef uint32_t sup_starter(void *context, const struct sup_text *argument, uint64_t moment, uint32_t *code);

/* One for children with tokens: `token` is that which a start gives, or that of the child which is started again. */
typedef uint32_t sup_child_starter(void *context, uint64_t token, const struct sup_text *argument, uint64_t moment, uint32_t *code);

/* Asks the start function if the rules ask it, and enters the entry with its answer. It stores the token as sup_step_at does, and writes
 * the answer and the serial, which is the number of the entries before, into the entry once that is entered. The start function is
 * called at most once, and may use the supervisor. If something was entered meanwhile, the rules are asked again: what it has begun is
 * kept if the reply is SUP_STARTED or SUP_RESTARTED, and else the caller's to end. */
static inline uint32_t sup_update_child(struct sup *sup, struct sup_entry *entry, uint64_t *token, sup_child_starter *start, void *context,
    struct sup_reply *reply) {
    struct sup_entry e = *entry;
    struct sup_counts counts;
    struct sup_text asked;
    uint64_t its = e.operation == SUP_START ? *token : 0;
    uint32_t fault, answer = 0, code = 0;
    bool begun = false;
    do {
        if ((fault = sup_count(sup, &counts)) != SUP_DONE || (fault = sup_asks(sup, &e, &asked)) != SUP_DONE) return fault;
        if (asked.len != 0 && !begun) {
            if (e.operation != SUP_START && (fault = sup_token(sup, e.number, &its)) != SUP_DONE) return fault;
            begun = true;
            answer = start(context, its, &asked, e.moment, &code);
        }
        e.answer = asked.len != 0 ? answer : (uint32_t)SUP_IGNORE;
        e.code = asked.len != 0 ? code : 0;
        e.serial = counts.stamp;
        fault = sup_step_at(sup, &e, counts.stamp, token, reply);
    } while (fault == SUP_STALE);
    if (fault == SUP_DONE) *entry = e;
    return fault;
}

/* Does so for children without tokens, and leaves the serial as it is. */
struct sup_plain {
    sup_starter *start;
    void *context;
};

static inline uint32_t sup_start_plain(void *plain, uint64_t token, const struct sup_text *argument, uint64_t moment, uint32_t *code) {
    const struct sup_plain *p = (const struct sup_plain *)plain;
    (void)token;
    return p->start(p->context, argument, moment, code);
}

static inline uint32_t sup_update(struct sup *sup, struct sup_entry *entry, sup_starter *start, void *context, struct sup_reply *reply) {
    struct sup_plain plain;
    uint64_t token = 0, serial = entry->serial;
    uint32_t fault;
    plain.start = start;
    plain.context = context;
    fault = sup_update_child(sup, entry, &token, sup_start_plain, &plain, reply);
    entry->serial = serial;
    return fault;
}

#ifdef __cplusplus
}
#endif

#endif
