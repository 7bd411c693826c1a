/* A plain epoll server, to compare `logd serve` with: it makes the same reads and writes and prints the same lines. It reads pieces
   of 4,096 bytes, pauses after four reads in a row, writes the lines of the records that each piece completes in one write, and a
   closing line at the end of each connection.

   plain_epoll PORT [UNTIL [THREADS [grouped]]]: ends once UNTIL connections were closed, if that is above 0. THREADS (1 if left out)
   threads have an epoll set each; the first also accepts, and deals the connections out in turn. With `grouped` it keeps the lines of each connection, and
   writes those of one connection after another at its end. */
#define _GNU_SOURCE
#include <arpa/inet.h>
#include <errno.h>
#include <pthread.h>
#include <signal.h>
#include <sys/epoll.h>
#include <sys/socket.h>
#include <unistd.h>

#define NAME "plain_epoll"
#include "plain_lines.h"

enum { ROW = 4, MOST_EVENTS = 128, MOST_THREADS = 64, MOST_GROUPS = 1 << 16 };

static int sets[MOST_THREADS];
static int threads = 1;
static uint64_t until, accepted, closed;
static int listener;
static int grouped;
static struct text groups[MOST_GROUPS];

/* The text to which the lines of a connection go. */
static struct text *text_of(struct connection *c, struct text *t) { return grouped ? &groups[c->number % MOST_GROUPS] : t; }

static void write_groups(void) {
    for (uint64_t i = 0; grouped && i < accepted && i < MOST_GROUPS; i++) write_out(&groups[i]);
}

static void close_connection(struct connection *c, struct text *t, const char *how, int64_t number) {
    put_closing(c, t, how, number);
    if (!grouped) write_out(t);
    close(c->socket);
    free(c->rest);
    free(c);
    if (__atomic_add_fetch(&closed, 1, __ATOMIC_SEQ_CST) == until) {
        write_groups();
        exit(0);
    }
}

static void watch(int set, int how, int socket, void *of) {
    struct epoll_event e = {.events = EPOLLIN | EPOLLOUT | EPOLLRDHUP | EPOLLET, .data.ptr = of};
    if (epoll_ctl(set, how, socket, &e) < 0) stop(5, "epoll_ctl failed");
}

static void serve(int set, struct connection *c, struct text *t) {
    for (int row = 0; row < ROW; row++) {
        make_room(c);
        ssize_t n = recv(c->socket, c->rest + c->held, PIECE, 0);
        if (n < 0 && (errno == EAGAIN || errno == EINTR)) return;
        if (n < 0) return close_connection(c, t, "failed", -1);
        if (n == 0) return close_connection(c, t, c->held ? "partial" : "end", c->held ? (int64_t)c->held : -1);
        c->held += (size_t)n;
        if (!decode(c, t)) return close_connection(c, t, "malformed", (int64_t)c->decoded);
        if (t->length && !grouped) write_out(t);
    }
    watch(set, EPOLL_CTL_MOD, c->socket, c);
}

static void accept_all(void) {
    for (;;) {
        int socket = accept4(listener, 0, 0, SOCK_NONBLOCK | SOCK_CLOEXEC);
        if (socket < 0 && (errno == ECONNABORTED || errno == EINTR)) continue;
        if (socket < 0) return;
        struct connection *c = calloc(1, sizeof *c);
        if (!c) stop(6, "out of memory");
        c->socket = socket;
        c->number = accepted++;
        watch(sets[c->number % (uint64_t)threads], EPOLL_CTL_ADD, socket, c);
    }
}

static void *run(void *which) {
    int set = sets[(intptr_t)which];
    struct text t = {0, 0, 0};
    struct epoll_event events[MOST_EVENTS];
    for (;;) {
        int n = epoll_wait(set, events, MOST_EVENTS, 1000);
        if (n < 0 && errno != EINTR) stop(5, "wait failed");
        for (int i = 0; i < n; i++) {
            if (!events[i].data.ptr) accept_all();
            else if (events[i].events & ~(uint32_t)EPOLLOUT) serve(set, events[i].data.ptr, text_of(events[i].data.ptr, &t));
        }
    }
    return 0;
}

int main(int argc, char **argv) {
    if (argc < 2) stop(1, "usage: plain_epoll PORT [UNTIL [THREADS [grouped]]]");
    until = argc > 2 ? strtoull(argv[2], 0, 10) : 0;
    threads = argc > 3 ? atoi(argv[3]) : 1;
    grouped = argc > 4 && !strcmp(argv[4], "grouped");
    if (threads < 1 || threads > MOST_THREADS) stop(1, "1 to 64 threads");
    signal(SIGPIPE, SIG_IGN);
    int on = 1;
    struct sockaddr_in address = {.sin_family = AF_INET, .sin_port = htons((uint16_t)atoi(argv[1])), .sin_addr.s_addr = htonl(INADDR_LOOPBACK)};
    listener = socket(AF_INET, SOCK_STREAM | SOCK_NONBLOCK | SOCK_CLOEXEC, 0);
    setsockopt(listener, SOL_SOCKET, SO_REUSEADDR, &on, sizeof on);
    if (bind(listener, (struct sockaddr *)&address, sizeof address) < 0 || listen(listener, 65535) < 0) stop(7, "listen failed");
    for (int i = 0; i < threads; i++)
        if ((sets[i] = epoll_create1(EPOLL_CLOEXEC)) < 0) stop(7, "epoll_create failed");
    watch(sets[0], EPOLL_CTL_ADD, listener, 0);
    for (intptr_t i = 1; i < threads; i++) {
        pthread_t thread;
        if (pthread_create(&thread, 0, run, (void *)i)) stop(6, "no thread");
    }
    run(0);
}
