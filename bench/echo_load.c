/* Loads an echo server, compares what comes back, and prints the seconds that it took.

   echo_load PORT bulk CONNECTIONS BYTES     each connection sends so many bytes while it reads what comes back
   echo_load PORT turns SIZE COUNT SILENT    beside SILENT connections that say nothing, one sends SIZE bytes and reads them back, COUNT times */
#include <arpa/inet.h>
#include <netinet/in.h>
#include <netinet/tcp.h>
#include <pthread.h>
#include <stdint.h>
#include <stdio.h>
#include <stdlib.h>
#include <string.h>
#include <sys/socket.h>
#include <time.h>
#include <unistd.h>

static int port;
static size_t bytes;
static unsigned char pattern[1 << 17];

static void stop(const char *why) {
    fprintf(stderr, "echo_load: %s\n", why);
    exit(2);
}

static double now(void) {
    struct timespec t;
    clock_gettime(CLOCK_MONOTONIC, &t);
    return (double)t.tv_sec + 1e-9 * (double)t.tv_nsec;
}

static int connected(void) {
    struct sockaddr_in to = {.sin_family = AF_INET, .sin_port = htons((uint16_t)port), .sin_addr = {htonl(INADDR_LOOPBACK)}};
    int peer = socket(AF_INET, SOCK_STREAM, 0), one = 1;
    if (peer < 0 || connect(peer, (struct sockaddr *)&to, sizeof to) < 0) stop("connect failed");
    setsockopt(peer, IPPROTO_TCP, TCP_NODELAY, &one, sizeof one);
    return peer;
}

/* The pattern repeats every 65,536 bytes, so from each place there are so many in one piece. */
static const unsigned char *at(size_t place) { return pattern + place % 65536; }

static void send_all(int peer, size_t from, size_t count) {
    while (count) {
        size_t piece = count < 65536 ? count : 65536;
        ssize_t n = send(peer, at(from), piece, MSG_NOSIGNAL);
        if (n <= 0) stop("send failed");
        from += (size_t)n;
        count -= (size_t)n;
    }
}

static void read_all(int peer, size_t from, size_t count) {
    static __thread unsigned char came[65536];
    while (count) {
        ssize_t n = recv(peer, came, count < sizeof came ? count : sizeof came, 0);
        if (n <= 0) stop("the echo ended too soon");
        if (memcmp(came, at(from), (size_t)n)) stop("other bytes came back");
        from += (size_t)n;
        count -= (size_t)n;
    }
}

static void *sender(void *peer) {
    send_all(*(int *)peer, 0, bytes);
    shutdown(*(int *)peer, SHUT_WR);
    return 0;
}

static void *reader(void *peer) {
    unsigned char last;
    read_all(*(int *)peer, 0, bytes);
    if (recv(*(int *)peer, &last, 1, 0) != 0) stop("more came back than was sent");
    return 0;
}

static double bulk(int connections) {
    int peers[64];
    pthread_t threads[128];
    if (connections < 1 || connections > 64) stop("1 to 64 connections");
    for (int i = 0; i < connections; i++) peers[i] = connected();
    double start = now();
    for (int i = 0; i < connections; i++) {
        pthread_create(&threads[2 * i], 0, sender, &peers[i]);
        pthread_create(&threads[2 * i + 1], 0, reader, &peers[i]);
    }
    for (int i = 0; i < 2 * connections; i++) pthread_join(threads[i], 0);
    double took = now() - start;
    for (int i = 0; i < connections; i++) close(peers[i]);
    return took;
}

static double turns(size_t size, int count, int silent) {
    int *others = calloc((size_t)silent + 1, sizeof *others);
    for (int i = 0; i < silent; i++) others[i] = connected();
    int peer = connected();
    send_all(peer, 0, size);
    read_all(peer, 0, size);
    double start = now();
    for (int i = 0; i < count; i++) {
        send_all(peer, 0, size);
        read_all(peer, 0, size);
    }
    double took = now() - start;
    close(peer);
    for (int i = 0; i < silent; i++) close(others[i]);
    free(others);
    return took;
}

int main(int argc, char **argv) {
    for (size_t i = 0; i < sizeof pattern; i++) pattern[i] = (unsigned char)(i % 65536 * 2654435761u >> 13);
    if (argc < 5) stop("usage: echo_load PORT bulk CONNECTIONS BYTES, or PORT turns SIZE COUNT SILENT");
    port = atoi(argv[1]);
    bytes = strtoull(argv[4], 0, 10);
    if (!strcmp(argv[2], "bulk")) printf("%.6f\n", bulk(atoi(argv[3])));
    else printf("%.6f\n", turns(strtoull(argv[3], 0, 10), atoi(argv[4]), argc > 5 ? atoi(argv[5]) : 0));
    return 0;
}
