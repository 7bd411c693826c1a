/* A plain echo server on epoll, to compare an echo server with: it reads a piece of 4,096 bytes, writes it back, and reads the next piece once that was
   written. After four reads in a row that gave bytes it turns to the other connections. It ends after UNTIL connections.

   plain_echo PORT UNTIL */
#define _GNU_SOURCE
#include <arpa/inet.h>
#include <errno.h>
#include <netinet/in.h>
#include <netinet/tcp.h>
#include <stdint.h>
#include <stdio.h>
#include <stdlib.h>
#include <sys/epoll.h>
#include <sys/socket.h>
#include <unistd.h>

enum { PIECE = 4096, REPORTS = 256, ROW = 4 };

struct connection {
    int socket;
    size_t from, to; /* what waits to be written */
    unsigned char piece[PIECE];
};

static int set;

static void stop(int status, const char *why) {
    fprintf(stderr, "plain_echo: %s\n", why);
    exit(status);
}

static int listening(int port) {
    struct sockaddr_in at = {.sin_family = AF_INET, .sin_port = htons((uint16_t)port), .sin_addr = {htonl(INADDR_LOOPBACK)}};
    int listener = socket(AF_INET, SOCK_STREAM | SOCK_NONBLOCK, 0), one = 1;
    setsockopt(listener, SOL_SOCKET, SO_REUSEADDR, &one, sizeof one);
    if (listener < 0 || bind(listener, (struct sockaddr *)&at, sizeof at) < 0 || listen(listener, 65535) < 0) stop(7, "listen failed");
    return listener;
}

static void watch(int how, int socket, void *of) {
    struct epoll_event event = {.events = EPOLLIN | EPOLLOUT | EPOLLET, .data.ptr = of};
    epoll_ctl(set, how, socket, &event);
}

static void accept_all(int listener) {
    int peer, one = 1;
    while ((peer = accept4(listener, 0, 0, SOCK_NONBLOCK)) >= 0) {
        struct connection *c = calloc(1, sizeof *c);
        if (!c) stop(6, "out of memory");
        c->socket = peer;
        setsockopt(peer, IPPROTO_TCP, TCP_NODELAY, &one, sizeof one);
        watch(EPOLL_CTL_ADD, peer, c);
    }
}

/* Reads and writes until a call pauses, or a row of reads is over. False once the connection is over. */
static int serve(struct connection *c) {
    for (int row = 0; row < ROW;) {
        if (c->from == c->to) {
            ssize_t n = read(c->socket, c->piece, PIECE);
            if (n <= 0) return n < 0 && (errno == EAGAIN || errno == EINTR);
            c->from = 0;
            c->to = (size_t)n;
            row++;
        }
        ssize_t n = send(c->socket, c->piece + c->from, c->to - c->from, MSG_NOSIGNAL);
        if (n < 0) return errno == EAGAIN || errno == EINTR;
        c->from += (size_t)n;
    }
    watch(EPOLL_CTL_MOD, c->socket, c);
    return 1;
}

int main(int argc, char **argv) {
    if (argc != 3) stop(1, "usage: plain_echo PORT UNTIL");
    long left = atol(argv[2]);
    int listener = listening(atoi(argv[1]));
    set = epoll_create1(0);
    struct epoll_event first = {.events = EPOLLIN, .data.ptr = 0}, found[REPORTS];
    epoll_ctl(set, EPOLL_CTL_ADD, listener, &first);
    while (left > 0) {
        int count = epoll_wait(set, found, REPORTS, -1);
        for (int i = 0; i < count; i++) {
            struct connection *c = found[i].data.ptr;
            if (!c) accept_all(listener);
            else if (!serve(c)) {
                close(c->socket);
                free(c);
                left--;
            }
        }
    }
    return 0;
}
