/* A server that forks a child for each connection: it says `ready`, echoes lines, crashes at the line `crash` and ends at `quit`. A child
 * that crashed is started again and continues with the connection. With more crashes than the template allows, all end.
 *
 * usage: server HISTORY     it prints the port, and writes the history text to the file */
#include <stdio.h>
#include <stdlib.h>
#include <sys/epoll.h>
#include <sys/socket.h>
#include <sys/timerfd.h>
#include <sys/wait.h>
#include <netinet/in.h>
#include <signal.h>
#include <time.h>
#include <unistd.h>

#include "sapyguendo.h"

/* `wake` becomes readable when the child ends, which closes its end of a pipe; without a child, when its start is to be tried again. */
struct connection {
    uint64_t number;
    pid_t pid;
    int socket, wake;
};

static int polls, listener;

static void fails(const char *what) {
    perror(what);
    exit(4);
}

static void watches(int fd, struct connection *c) {
    struct epoll_event event = {.events = EPOLLIN, .data.ptr = c};
    if (fd < 0 || epoll_ctl(polls, EPOLL_CTL_ADD, fd, &event)) fails("epoll");
}

/* (children have the descriptor as well, so that to close it would not be enough) */
static void forgets(int fd) {
    epoll_ctl(polls, EPOLL_CTL_DEL, fd, NULL);
    close(fd);
}

/* ---- a child */

static void serves(int socket) {
    char line[256];
    ssize_t len = write(socket, "ready\n", 6);
    while (len > 0 && (len = read(socket, line, sizeof line)) > 0) {
        if (len >= 5 && memcmp(line, "crash", 5) == 0) _exit(3);
        if (len >= 4 && memcmp(line, "quit", 4) == 0) break;
        if (write(socket, line, (size_t)len) != len) break;
    }
    _exit(0);
}

/* (other children have its socket as well) */
static void closes(struct connection *c) {
    shutdown(c->socket, SHUT_RDWR);
    close(c->socket);
    free(c);
}

/* ---- the supervisor of the children, whose token is their connection */

static struct sup sup;
static FILE *history;
static bool down;

static uint32_t begins(void *context, uint64_t token, const struct sup_text *argument, uint64_t moment, uint32_t *code) {
    struct connection *c = (struct connection *)(uintptr_t)token;
    int ends[2];
    (void)context, (void)argument, (void)moment, (void)code;
    if (pipe(ends)) return SUP_FAILED;
    if ((c->pid = fork()) == 0) serves(c->socket);
    close(ends[1]);
    if (c->pid < 0) return close(ends[0]), c->pid = 0, SUP_FAILED;
    watches(c->wake = ends[0], c);
    return SUP_RUNNING;
}

static void ends_those_left(void) {
    struct sup_row row;
    uint64_t token;
    for (uint64_t i = 0; sup_left(&sup, i, &row) == SUP_DONE && row.status != SUP_NOT_LISTED; i++) {
        if (sup_token(&sup, row.number, &token) != SUP_DONE) continue;
        struct connection *c = (struct connection *)(uintptr_t)token;
        if (c->pid != 0 && kill(c->pid, SIGKILL) == 0) waitpid(c->pid, NULL, 0), forgets(c->wake);
        closes(c);
    }
    down = true;
}

static void enters(struct sup_entry entry, struct connection *c) {
    uint64_t token = (uintptr_t)c;
    struct sup_reply reply;
    char line[SUP_MOST_LINE + 1];
    uint32_t fault = sup_update_child(&sup, &entry, &token, begins, NULL, &reply);
    if (fault == SUP_DONE) fault = sup_line(&entry, line);
    if (fault != SUP_DONE) fprintf(stderr, "%s\n", sup_fault_text(fault)), exit(4);
    fputs(line, history);
    switch ((enum sup_reply_kind)reply.kind) {
    case SUP_STARTED: c->number = reply.number; break;
    case SUP_RESTARTED: c->number = reply.next; break;
    case SUP_RESTARTING: {
        struct itimerspec second = {.it_value.tv_sec = 1};
        watches(c->wake = timerfd_create(CLOCK_MONOTONIC, 0), c);
        timerfd_settime(c->wake, 0, &second, NULL);
        break;
    }
    case SUP_GAVE_UP: ends_those_left(); break;
    default: closes(c);
    }
}

static void wakes(struct connection *c, uint64_t now) {
    int status = 0;
    pid_t pid = c->pid;
    forgets(c->wake);
    c->pid = 0;
    if (pid == 0) {
        enters(sup_retry(now, c->number), c);
    } else if (waitpid(pid, &status, 0) == pid && status == 0) {
        enters(sup_exit(now, c->number, SUP_NORMAL, NULL), c);
    } else {
        enters(sup_exit(now, c->number, SUP_OTHER, WIFSIGNALED(status) ? "signal" : "status"), c);
    }
}

/* ---- connections */

static void accepts(uint64_t now) {
    struct connection *c = calloc(1, sizeof *c);
    if (!c || (c->socket = accept(listener, NULL, NULL)) < 0) fails("accept");
    enters(sup_start(now, "connection"), c);
}

int main(int count, char **words) {
    const char *template = "history 2 transient worker 20 60 100 plain never\n";
    struct sockaddr_in address = {.sin_family = AF_INET, .sin_addr.s_addr = htonl(INADDR_LOOPBACK)};
    socklen_t size = sizeof address;
    if (count != 2 || !(history = fopen(words[1], "w"))) fails("history");
    if ((polls = epoll_create1(0)) < 0 || (listener = socket(AF_INET, SOCK_STREAM, 0)) < 0 || bind(listener, (struct sockaddr *)&address, size)
        || listen(listener, 100) || getsockname(listener, (struct sockaddr *)&address, &size)) fails("listen");
    if (sup_begin(&sup, template) != SUP_DONE) fails("sup_begin");
    fputs(template, history);
    watches(listener, NULL);
    printf("%d\n", ntohs(address.sin_port));
    fflush(NULL);
    while (!down) {
        struct epoll_event event;
        uint64_t now = (uint64_t)time(NULL);
        if (epoll_wait(polls, &event, 1, -1) == 1) event.data.ptr ? wakes(event.data.ptr, now) : accepts(now);
        fflush(history);
    }
    sup_close(&sup);
    close(listener), close(polls), fclose(history);
    return 0;
}
