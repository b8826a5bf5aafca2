/* Answers a script (docs/FORMATS.md) as `supload script` does, by the library: standard input to standard output, a fault to
 * standard error. With a file's name, it writes the history there as a history text, which `supload replay` answers likewise. */
#include <inttypes.h>
#include <stdio.h>
#include <stdlib.h>
#include <string.h>

#include "sapyguendo.h"

static struct sup sup;
static uint64_t stamp;
static FILE *history;
static char *line, *room;

/* Gives all back, and answers the exit status. */
static int ends(int status) {
    sup_close(&sup);
    free(line);
    free(room);
    return history && fclose(history) ? 3 : status;
}

static int faulty(uint32_t fault, uint64_t number) {
    fflush(stdout);
    fprintf(stderr, "fault %" PRIu32 " line %" PRIu64 "\n", fault, number);
    return ends(fault == SUP_BAD_TEMPLATE || fault == SUP_BAD_LINE ? 2 : 4);
}

/* The place of a word among others, or -1. */
static int place(const char *word, const char *const *words, int count) {
    for (int i = 0; word && i < count; i++)
        if (strcmp(word, words[i]) == 0) return i;
    return -1;
}

/* A number of the formats: digits with no leading zero, below 2^64. */
static bool read_number(const char *word, uint64_t *number) {
    if (!word || !*word || (word[0] == '0' && word[1])) return false;
    *number = 0;
    for (; *word; word++) {
        if (*word < '0' || *word > '9') return false;
        uint64_t digit = (uint64_t)(*word - '0');
        if (*number > (UINT64_MAX - digit) / 10) return false;
        *number = *number * 10 + digit;
    }
    return true;
}

/* The next word of a line, which ends at a single space; NULL after the last. */
static char *next_word(char **rest) {
    char *word = *rest;
    if (!word) return NULL;
    char *space = strchr(word, ' ');
    *rest = space ? space + 1 : NULL;
    if (space) *space = 0;
    return word;
}

/* Opens the supervisor of a script, and begins its history: 0, or the fault. A header is a history's first line but for the word with
 * which it begins, and for its two last words, which it may lack. */
static uint32_t open_script(void) {
    int spaces = 0;
    for (const char *it = line; *it; it++) spaces += *it == ' ';
    if (strncmp(line, "sup ", 4) != 0) return SUP_BAD_LINE;
    if (!(room = malloc(strlen(line) + 32))) return SUP_OUT_OF_MEMORY;
    sprintf(room, "history 2 %s%s\n", line + 4, spaces == 5 ? " plain never" : "");
    uint32_t fault = sup_begin(&sup, room);
    if (fault == SUP_DONE && history) fputs(room, history);
    return fault;
}

/* The start function of scripts. */
static uint32_t start(void *context, const struct sup_text *argument, uint64_t moment, uint32_t *code) {
    (void)context;
    char text[41] = {0};
    uint64_t from, to;
    memcpy(text, argument->bytes, argument->len);
    if (strcmp(text, "ignore") == 0) return SUP_IGNORE;
    bool fails = strcmp(text, "fail") == 0;
    if (strncmp(text, "gap:", 4) == 0) {
        char *middle = strchr(text + 4, ':');
        if (middle) *middle = 0;
        fails = middle && read_number(text + 4, &from) && read_number(middle + 1, &to) && from <= moment && moment < to;
    }
    *code = fails ? 1 : 0;
    return fails ? SUP_FAILED : SUP_RUNNING;
}

static void write_reply(const struct sup_reply *r) {
    static const char *const texts[] = {"ok %N", "ok undefined", "error start_failed %C", "error full", "removed %N", "shut_down %N",
        "restarted %N %M", "restarting %N %C", "ignored %N", "stray %N", "error not_found", "ok", "stopped", "gave_up", "error down"};
    for (const char *it = texts[r->kind]; *it; it++) {
        if (*it != '%') putchar(*it);
        else if (*++it == 'C') printf("%" PRIu32, r->code);
        else printf("%" PRIu64, *it == 'N' ? r->number : r->next);
    }
    putchar('\n');
}

static uint32_t write_entry(const struct sup_entry *entry) {
    uint8_t room[SUP_MOST_LINE];
    uint64_t len;
    uint32_t fault = history ? sup_write_entry(entry, room, sizeof room, &len) : SUP_DONE;
    if (history && fault == SUP_DONE) fwrite(room, 1, len, history);
    return fault;
}

static uint32_t answer_which(void) {
    struct sup_row row;
    uint64_t index = 0;
    for (;; index++) {
        uint32_t fault = sup_row(&sup, index, &row);
        if (fault != SUP_DONE) return fault;
        if (row.status == SUP_ROW_DOWN) return puts("error down"), SUP_DONE;
        if (row.status == SUP_NOT_LISTED) return printf("end %" PRIu64 "\n", index), SUP_DONE;
        printf("child %" PRIu64 " %s %.*s\n", row.number, row.status == SUP_ROW_RUNNING ? "running" : "restarting", (int)row.arg.len, (const char *)row.arg.bytes);
    }
}

static uint32_t answer_count(void) {
    struct sup_counts c;
    uint32_t fault = sup_count(&sup, &c);
    if (fault != SUP_DONE) return fault;
    if (c.is_down) return puts("error down"), SUP_DONE;
    printf("count specs %" PRIu64 " active %" PRIu64 " supervisors %" PRIu64 " workers %" PRIu64 "\n", c.specs, c.active, c.supervisors, c.workers);
    return SUP_DONE;
}

/* The entry of an operation, which the library reads: a line `start 5 a` is the history's line `0 0 5 start a ignore`. */
static bool read_operation(const char *verb, const char *rest, struct sup_entry *entry, char *to) {
    const char *after = rest ? strchr(rest, ' ') : NULL;
    uint64_t len;
    if (!rest) return false;
    int size = after ? sprintf(to, "0 0 %.*s %s %s ignore\n", (int)(after - rest), rest, verb, after + 1) : sprintf(to, "0 0 %s %s ignore\n", rest, verb);
    return sup_read_entry((const uint8_t *)to, (size_t)size, entry, &len) == SUP_DONE && len == (uint64_t)size;
}

static uint32_t answer(void) {
    static const char *const identifiers[] = {"terminate_id", "delete_child", "restart_child"};
    struct sup_entry entry;
    struct sup_reply reply;
    if (strcmp(line, "which") == 0) return answer_which();
    if (strcmp(line, "count") == 0) return answer_count();
    char *rest = line, *verb = next_word(&rest);
    if (place(verb, identifiers, 3) >= 0) {
        if (!rest || strchr(rest, ' ')) return SUP_BAD_LINE;
        sprintf(room, "0 %s", rest);
        if (!read_operation("start", room, &entry, room + strlen(room) + 1)) return SUP_BAD_LINE;
        return puts("error simple_one_for_one"), SUP_DONE;
    }
    if (!read_operation(verb, rest, &entry, room)) return SUP_BAD_LINE;
    entry.serial = stamp;
    uint32_t fault = sup_update(&sup, &entry, start, NULL, &reply);
    if (fault == SUP_DONE) fault = write_entry(&entry);
    if (fault != SUP_DONE) return fault;
    stamp++;
    write_reply(&reply);
    return SUP_DONE;
}

/* Reads a line without its line feed; a byte 0, which no line may have, becomes a space at its end. */
static bool read_line(size_t *size) {
    ssize_t len = getline(&line, size, stdin);
    if (len < 0) return false;
    if (len > 0 && line[len - 1] == '\n') line[--len] = 0;
    if (strlen(line) != (size_t)len) strcpy(line, " ");
    return true;
}

int main(int count, char **words) {
    size_t size = 0;
    uint64_t number = 1;
    if (count > 1 && !(history = fopen(words[1], "w"))) return perror(words[1]), 4;
    if (!read_line(&size)) return faulty(SUP_BAD_LINE, 1);
    uint32_t fault = open_script();
    if (fault != SUP_DONE) return faulty(fault, 1);
    while (read_line(&size)) {
        number++;
        char *larger = realloc(room, 3 * size + 64);
        if (!larger) return faulty(SUP_OUT_OF_MEMORY, number);
        room = larger;
        fault = answer();
        if (fault != SUP_DONE) return faulty(fault, number);
    }
    return ends(0);
}
