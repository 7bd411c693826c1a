/* Loads a logging server and checks what it printed.

   serve_load PORT bulk CONNECTIONS RECORDS        connections at once, each of which sends so many records of 100 bytes
   serve_load PORT short CONNECTIONS               connections of one record each, eight at a time
   serve_load PORT silent SILENT RECORDS           so many connections that send nothing, and one that sends so many records
   serve_load PORT slow SLOW RECORDS BYTES         so many connections that send a record each, its first so many bytes a second apart, and
                                                   one that sends so many records meanwhile
   serve_load PORT hostile STREAMS RECORDS SEED    so many connections that send bytes drawn by the seed, of which some are
                                                   reset, while one sends so many records
   serve_load PORT latency SILENT RECORDS FIFO     so many connections that send nothing, and one that sends a record every 2 ms and looks
                                                   for its line in what the server prints into the FIFO
   serve_load PORT beside STREAMS RECORDS FIFO     so many endless streams, and one connection that sends a record every 5 ms and looks for
                                                   its line
   serve_load check FILE COUNTxRECORDS..           whether the file has, for each of so many connections, the lines of its
                                                   records in order and its closing line, each once, and nothing else;
                                                   COUNTxother stands for connections of which no more is asked than one
                                                   closing line, their last

   A load prints how many seconds passed from the first connect until the server had closed the last connection; one that looks for
   lines prints how many microseconds passed until a line was there, the median and the 99th percentile. */
#define _GNU_SOURCE
#include <arpa/inet.h>
#include <fcntl.h>
#include <poll.h>
#include <pthread.h>
#include <stdatomic.h>
#include <stdint.h>
#include <stdio.h>
#include <stdlib.h>
#include <string.h>
#include <sys/resource.h>
#include <sys/socket.h>
#include <time.h>
#include <unistd.h>

enum { MESSAGE = 100, RECORD = 28 + MESSAGE, AT_ONCE = 512, SHORT_THREADS = 8 };

static uint16_t port;

static void stop(const char *why) {
    fprintf(stderr, "serve_load: %s\n", why);
    exit(1);
}

static int dial(void) {
    struct sockaddr_in address = {.sin_family = AF_INET, .sin_port = htons(port), .sin_addr.s_addr = htonl(INADDR_LOOPBACK)};
    int s = socket(AF_INET, SOCK_STREAM, 0);
    if (s < 0 || connect(s, (struct sockaddr *)&address, sizeof address) < 0) stop("connect failed");
    return s;
}

/* The message of record number `at` of client number `client`. */
static void message(char *m, unsigned client, unsigned long at) {
    char head[32];
    int n = snprintf(head, sizeof head, "%u:%lu:", client, at);
    memset(m, 'a' + (int)(at % 26), MESSAGE);
    memcpy(m, head, (size_t)n);
}

static void record(unsigned char *r, unsigned client, unsigned long at) {
    static const unsigned char front[28] = {0, 0, 0, 0, 0, 0, 0, 20 + MESSAGE, 0, 0, 0, 4, 0, 0, 0, 7,
                                            0, 0, 0, 1, 0, 0, 0, 2, 0, 0, 0, MESSAGE};
    memcpy(r, front, sizeof front);
    message((char *)r + sizeof front, client, at);
}

static void send_all(int s, const unsigned char *bytes, size_t n) {
    while (n > 0) {
        ssize_t sent = send(s, bytes, n, MSG_NOSIGNAL);
        if (sent < 0) stop("send failed");
        bytes += sent;
        n -= (size_t)sent;
    }
}

/* Sends in pieces of so many records, as a client that collects some. */
static void send_records(int s, const unsigned char *bytes, size_t n) {
    for (size_t at = 0; at < n; at += AT_ONCE * RECORD) send_all(s, bytes + at, n - at < AT_ONCE * RECORD ? n - at : AT_ONCE * RECORD);
}

/* Ends a connection, after the server's own end. */
static void hang_up(int s) {
    char byte;
    shutdown(s, SHUT_WR);
    while (recv(s, &byte, 1, 0) > 0) {}
    close(s);
}

/* What one thread sends: the bytes of the records of each of its connections. */
struct task {
    unsigned first, many;
    unsigned long records;
    unsigned char *bytes;
};

/* Makes the bytes, before the clock starts, so that the load takes little of the processors that the server runs on. */
static void prepare(struct task *t) {
    unsigned char *end = t->bytes = malloc(t->many * t->records * RECORD + 1);
    if (!end) stop("out of memory");
    for (unsigned client = t->first; client < t->first + t->many; client++)
        for (unsigned long at = 0; at < t->records; at++, end += RECORD) record(end, client, at);
}

static void *talk(void *of) {
    struct task *t = of;
    const unsigned char *bytes = t->bytes;
    size_t each = t->records * RECORD;
    for (unsigned i = 0; i < t->many; i++, bytes += each) {
        int s = dial();
        send_records(s, bytes, each);
        hang_up(s);
    }
    return 0;
}

static double now(void) {
    struct timespec t;
    clock_gettime(CLOCK_MONOTONIC, &t);
    return (double)t.tv_sec + (double)t.tv_nsec / 1e9;
}

/* The tasks of so many threads, to which connections from `first` on are dealt out. */
static struct task *dealt(unsigned threads, unsigned first, unsigned many, unsigned long records) {
    struct task *tasks = calloc(threads, sizeof *tasks);
    if (!tasks) stop("out of memory");
    for (unsigned i = 0; i < threads; i++) {
        unsigned from = first + (unsigned)((uint64_t)many * i / threads), to = first + (unsigned)((uint64_t)many * (i + 1) / threads);
        tasks[i] = (struct task){.first = from, .many = to - from, .records = records};
        prepare(&tasks[i]);
    }
    return tasks;
}

static void talk_in_threads(unsigned threads, struct task *tasks) {
    pthread_t *started = calloc(threads, sizeof *started);
    if (!started) stop("out of memory");
    for (unsigned i = 0; i < threads; i++)
        if (pthread_create(&started[i], 0, talk, &tasks[i])) stop("no thread");
    for (unsigned i = 0; i < threads; i++) pthread_join(started[i], 0);
    free(started);
}

/* When the first connection of the load was made. */
static double begun;

static void together(unsigned threads, unsigned many, unsigned long records) {
    struct task *tasks = dealt(threads, 0, many, records);
    begun = now();
    talk_in_threads(threads, tasks);
}

static void silent(unsigned many, unsigned long records) {
    int *sockets = calloc(many + 1, sizeof *sockets);
    struct task *busy = dealt(1, many, 1, records);
    if (!sockets) stop("out of memory");
    begun = now();
    for (unsigned i = 0; i < many; i++) sockets[i] = dial();
    talk_in_threads(1, busy);
    for (unsigned i = 0; i < many; i++) hang_up(sockets[i]);
    free(sockets);
}

/* Peers that send a record each, a byte a second at first, and one that does not wait. */
static void slow(unsigned many, unsigned long records, unsigned bytes) {
    unsigned char r[RECORD];
    int *sockets = calloc(many, sizeof *sockets);
    struct task *busy = dealt(1, many, 1, records);
    if (!sockets) stop("out of memory");
    begun = now();
    for (unsigned i = 0; i < many; i++) sockets[i] = dial();
    talk_in_threads(1, busy);
    for (unsigned at = 0; at < bytes; at++, sleep(1)) {
        for (unsigned i = 0; i < many; i++) record(r, i, 0), send_all(sockets[i], r + at, 1);
    }
    for (unsigned i = 0; i < many; i++) record(r, i, 0), send_all(sockets[i], r + bytes, RECORD - bytes), hang_up(sockets[i]);
    free(sockets);
}

static uint64_t drawn;

/* The next number by the seed (xorshift64). */
static uint64_t draw(void) {
    drawn ^= drawn << 13;
    drawn ^= drawn >> 7;
    return drawn ^= drawn << 17;
}

/* A stream of bytes of which a server can expect nothing: one in four begins with a record, and one in three is reset. */
static void talk_garbage(void) {
    unsigned char bytes[4096];
    size_t n = draw() % sizeof bytes;
    for (size_t i = 0; i < n; i++) bytes[i] = (unsigned char)draw();
    if (draw() % 4 == 0) record(bytes, 0, 0);
    if (draw() % 4 == 0) memset(bytes, 0, 7);
    int s = dial();
    if (send(s, bytes, n, MSG_NOSIGNAL) >= 0 && draw() % 3 != 0) return hang_up(s);
    struct linger at_once = {.l_onoff = 1};
    setsockopt(s, SOL_SOCKET, SO_LINGER, &at_once, sizeof at_once);
    close(s);
}

static void hostile(unsigned streams, unsigned long records, uint64_t seed) {
    pthread_t honest;
    struct task one = {.first = 1, .many = 1, .records = records};
    drawn = seed ? seed : 1;
    prepare(&one);
    begun = now();
    if (pthread_create(&honest, 0, talk, &one)) stop("no thread");
    for (unsigned i = 0; i < streams; i++) talk_garbage();
    pthread_join(honest, 0);
}

/* ---- latency */

enum { PROBE = 1000000007 }; /* the number of the client whose lines are looked for */

static atomic_int streaming = 1;

/* Sends records until it is told to stop. */
static void *stream(void *of) {
    unsigned client = *(unsigned *)of;
    unsigned char *bytes = malloc(AT_ONCE * RECORD);
    if (!bytes) stop("out of memory");
    for (size_t n = 0; n < AT_ONCE; n++) record(bytes + n * RECORD, client, n);
    int s = dial();
    while (streaming) send_all(s, bytes, AT_ONCE * RECORD);
    hang_up(s);
    free(bytes);
    return 0;
}

static void *drain(void *of) {
    static char bytes[1 << 16];
    while (read(*(int *)of, bytes, sizeof bytes) > 0) {}
    return 0;
}

/* Reads what the server printed until the probe's line number `at` is there, and gives the moment. */
static double line_came(int lines, unsigned long at) {
    static char bytes[(1 << 16) + 64];
    static size_t held;
    char wanted[32];
    int n = snprintf(wanted, sizeof wanted, " %u:%lu:", (unsigned)PROBE, at);
    for (;;) {
        if (memmem(bytes, held, wanted, (size_t)n)) return now();
        size_t kept = held < 48 ? held : 48;
        memmove(bytes, bytes + held - kept, kept);
        ssize_t came = read(lines, bytes + kept, 1 << 16);
        if (came <= 0) stop("the server's lines ended");
        held = kept + (size_t)came;
    }
}

static int by_size(const void *a, const void *b) {
    double x = *(const double *)a, y = *(const double *)b;
    return x < y ? -1 : x > y;
}

static void probe(unsigned streams, unsigned silent, unsigned long records, long pause, const char *fifo) {
    pthread_t *started = calloc(streams + 1, sizeof *started);
    unsigned *clients = calloc(streams + 1, sizeof *clients);
    int *sockets = calloc(silent + 1, sizeof *sockets);
    double *took = calloc(records, sizeof *took);
    int lines = open(fifo, O_RDONLY);
    unsigned char bytes[RECORD];
    pthread_t drainer;
    if (!started || !clients || !sockets || !took || lines < 0) stop("no memory, or no fifo");
    for (unsigned i = 0; i < silent; i++) sockets[i] = dial();
    int s = dial();
    for (unsigned i = 0; i < streams; i++) {
        clients[i] = i;
        if (pthread_create(&started[i], 0, stream, &clients[i])) stop("no thread");
    }
    for (unsigned long at = 0; at < records; at++) {
        /* what the streams print is read all the while, so that the server never waits for its reader */
        double next = now() + (double)pause / 1e6;
        struct pollfd ready = {.fd = lines, .events = POLLIN};
        static char passed[1 << 16];
        while (now() < next)
            if (poll(&ready, 1, 1) > 0 && read(lines, passed, sizeof passed) <= 0) stop("the server's lines ended");
        record(bytes, PROBE, at);
        double sent = now();
        send_all(s, bytes, RECORD);
        took[at] = line_came(lines, at) - sent;
    }
    if (pthread_create(&drainer, 0, drain, &lines)) stop("no thread");
    streaming = 0;
    for (unsigned i = 0; i < streams; i++) pthread_join(started[i], 0);
    hang_up(s);
    for (unsigned i = 0; i < silent; i++) hang_up(sockets[i]);
    pthread_join(drainer, 0);
    qsort(took, records, sizeof *took, by_size);
    printf("%.0f %.0f\n", took[records / 2] * 1e6, took[records * 99 / 100] * 1e6);
}

/* ---- checking */

struct told {
    long client; /* the number by which its messages name the client, or -1 */
    unsigned long records;
    int closed;
    int other; /* it has a line that no client of the load sends */
};

static struct told *all;
static size_t many_told;

static struct told *told(unsigned long number) {
    if (number >= many_told) {
        size_t many = 2 * number + 16;
        all = realloc(all, many * sizeof *all);
        if (!all) stop("out of memory");
        for (size_t i = many_told; i < many; i++) all[i] = (struct told){.client = -1};
        many_told = many;
    }
    return &all[number];
}

/* Whether a line after the connection's number is that of the client's next record. */
static int is_next(struct told *t, const char *rest) {
    static const char front[] = " 1,2 7 LM_DEBUG: ";
    char wanted[MESSAGE + 64], text[MESSAGE + 1];
    if (strncmp(rest, front, sizeof front - 1)) return 0;
    long client = strtol(rest + sizeof front - 1, 0, 10);
    if (t->client < 0) t->client = client;
    message(text, (unsigned)t->client, t->records++);
    text[MESSAGE] = 0;
    snprintf(wanted, sizeof wanted, "%s%s\n", front, text);
    return !strcmp(rest, wanted);
}

static void check_line(const char *line, unsigned long at) {
    char *rest;
    unsigned long number = strtoul(line, &rest, 10);
    struct told *t = told(number);
    if (rest == line || t->closed) {
        fprintf(stderr, "serve_load: line %lu is wrong: %s", at, line);
        exit(1);
    }
    if (!strncmp(rest, " closed: ", 9)) {
        t->closed = 1;
        t->other |= strcmp(rest, " closed: end\n") != 0;
    } else if (!t->other) {
        t->other = !is_next(t, rest);
    }
}

static int check(const char *name, char **groups, int many_groups) {
    FILE *file = fopen(name, "r");
    char *line = 0;
    size_t room = 0;
    unsigned long lines = 0, connections = 0, records = 0, wanted = 0;
    if (!file) stop("no such file");
    while (getline(&line, &room, file) > 0) check_line(line, ++lines);
    for (size_t i = 0; i < many_told; i++) {
        if (!all[i].closed && (all[i].records || all[i].other)) stop("a connection has no closing line");
        connections += (unsigned long)all[i].closed;
        records += all[i].other ? 0 : all[i].records;
    }
    for (int g = 0; g < many_groups; g++) {
        char *end;
        unsigned long count = strtoul(groups[g], &end, 10), found = 0;
        int other = !strcmp(end, "xother");
        if (*end != 'x') stop("a group is COUNTxRECORDS or COUNTxother");
        for (size_t i = 0; i < many_told; i++)
            found += all[i].closed && all[i].other == other && (other || all[i].records == strtoul(end + 1, 0, 10));
        if (other ? found > count : found < count) stop("the numbers of records of the connections are others");
        wanted += count;
    }
    if (connections != wanted) stop("the number of connections is another");
    for (size_t i = 0; i < many_told; i++)
        for (size_t j = i + 1; many_told < 5000 && j < many_told; j++)
            if (!all[i].other && !all[j].other && all[i].client >= 0 && all[i].client == all[j].client) stop("two connections of one client");
    printf("%lu connections, %lu records: every line stands there once and in order\n", connections, records);
    return 0;
}

int main(int argc, char **argv) {
    struct rlimit files;
    if (!getrlimit(RLIMIT_NOFILE, &files)) {
        files.rlim_cur = files.rlim_max;
        setrlimit(RLIMIT_NOFILE, &files);
    }
    if (argc >= 4 && !strcmp(argv[1], "check")) return check(argv[2], argv + 3, argc - 3);
    if (argc < 4) stop("usage: serve_load PORT bulk|short|silent|slow|hostile|latency|beside .. or serve_load check FILE ..");
    port = (uint16_t)atoi(argv[1]);
    unsigned many = (unsigned)atoi(argv[3]);
    unsigned long records = argc > 4 ? strtoul(argv[4], 0, 10) : 1;
    if (argc == 6 && !strcmp(argv[2], "latency")) return probe(0, many, records, 2000, argv[5]), 0;
    if (argc == 6 && !strcmp(argv[2], "beside")) return probe(many, 0, records, 5000, argv[5]), 0;
    if (!strcmp(argv[2], "bulk")) together(many, many, records);
    else if (!strcmp(argv[2], "short")) together(SHORT_THREADS, many, 1);
    else if (!strcmp(argv[2], "silent")) silent(many, records);
    else if (!strcmp(argv[2], "slow")) slow(many, records, argc > 5 ? (unsigned)atoi(argv[5]) % RECORD : 10);
    else if (!strcmp(argv[2], "hostile")) hostile(many, records, argc > 5 ? strtoull(argv[5], 0, 10) : 1);
    else stop("bulk, short, silent, slow, hostile, latency or beside");
    printf("%.3f\n", now() - begun);
    return 0;
}
