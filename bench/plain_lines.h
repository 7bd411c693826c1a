/* What the plain server and the one on ACE do with the bytes of a connection: they decode records, and put their lines into a text. In C and in C++.

   A record is decoded where its bytes lie; what is left behind is kept for the next piece. */
#include <pthread.h>
#include <stdint.h>
#include <stdio.h>
#include <stdlib.h>
#include <string.h>
#include <unistd.h>

enum { PIECE = 4096 };

struct connection {
    int socket;
    uint64_t number;
    uint64_t decoded; /* the offset of what is left */
    unsigned char *rest;
    size_t held, room;
};

struct text {
    char *bytes;
    size_t length, room;
};

static pthread_mutex_t output = PTHREAD_MUTEX_INITIALIZER;

static void stop(int status, const char *why) {
    fprintf(stderr, "%s: %s\n", NAME, why);
    exit(status);
}

static void put(struct text *t, const char *bytes, size_t n) {
    if (t->length + n > t->room) {
        t->room = 2 * t->room + n;
        t->bytes = (char *)realloc(t->bytes, t->room);
        if (!t->bytes) stop(6, "out of memory");
    }
    memcpy(t->bytes + t->length, bytes, n);
    t->length += n;
}

static void put_word(struct text *t, const char *word) { put(t, word, strlen(word)); }

static void put_number(struct text *t, int64_t n) {
    char digits[24];
    char *front = digits + sizeof digits;
    uint64_t rest = n < 0 ? 0 - (uint64_t)n : (uint64_t)n;
    do *--front = (char)('0' + rest % 10);
    while (rest /= 10);
    if (n < 0) *--front = '-';
    put(t, front, (size_t)(digits + sizeof digits - front));
}

static void write_out(struct text *t) {
    pthread_mutex_lock(&output);
    for (size_t at = 0; at < t->length;) {
        ssize_t n = write(1, t->bytes + at, t->length - at);
        if (n < 0) stop(4, "write failed");
        at += (size_t)n;
    }
    pthread_mutex_unlock(&output);
    t->length = 0;
}

static uint32_t word(const unsigned char *p, int little) {
    return little ? (uint32_t)p[0] | (uint32_t)p[1] << 8 | (uint32_t)p[2] << 16 | (uint32_t)p[3] << 24
                  : (uint32_t)p[3] | (uint32_t)p[2] << 8 | (uint32_t)p[1] << 16 | (uint32_t)p[0] << 24;
}

static int64_t long_word(const unsigned char *p, int little) {
    uint64_t first = word(p, little), second = word(p + 4, little);
    return (int64_t)(little ? second << 32 | first : first << 32 | second);
}

static int is_plain(unsigned char b) { return b >= 0x20 && b <= 0x7e && b != '\\'; }

static void put_message(struct text *t, const unsigned char *m, uint32_t n) {
    for (uint32_t i = 0; i < n && m[i];) {
        uint32_t run = i;
        while (run < n && is_plain(m[run])) run++;
        put(t, (const char *)m + i, run - i);
        i = run;
        if (i < n && m[i]) {
            char escape[5];
            if (m[i] == '\\') put(t, "\\\\", 2);
            else {
                sprintf(escape, "\\x%02x", m[i]);
                put(t, escape, 4);
            }
            i++;
        }
    }
}

static void put_record(struct text *t, uint64_t number, const unsigned char *p, int wide, int little) {
    static const char *names[] = {"LM_SHUTDOWN", "LM_TRACE", "LM_DEBUG", "LM_INFO", "LM_NOTICE", "LM_WARNING",
                                  "LM_STARTUP", "LM_ERROR", "LM_CRITICAL", "LM_ALERT", "LM_EMERGENCY"};
    int32_t kind = (int32_t)word(p + 8, little);
    const unsigned char *behind = p + (wide ? 24 : 20);
    put_number(t, (int64_t)number);
    put(t, " ", 1);
    put_number(t, wide ? long_word(p + 16, little) : (int32_t)word(p + 16, little));
    put(t, ",", 1);
    put_number(t, (int32_t)word(behind, little));
    put(t, " ", 1);
    put_number(t, (int32_t)word(p + 12, little));
    put(t, " ", 1);
    int named = 0;
    for (int i = 0; i < 11; i++)
        if (kind == 1 << i) {
            put_word(t, names[i]);
            named = 1;
        }
    if (!named) put_number(t, kind);
    put(t, ": ", 2);
    put_message(t, behind + 8, word(behind + 4, little));
    put(t, "\n", 1);
}

/* Puts the lines of the records that are whole. False if one is malformed. */
static int decode(struct connection *c, struct text *t) {
    size_t at = 0;
    int good = 1;
    while (c->held - at >= 8) {
        const unsigned char *p = c->rest + at;
        int little = p[0] & 1, wide = p[0] > 1;
        uint32_t payload = word(p + 4, little), least = wide ? 24 : 20;
        good = p[0] <= 3 && payload >= least && payload <= 65536 + least;
        if (!good || c->held - at < 8 + (size_t)payload) break;
        good = word(p + 4 + least, little) <= payload - least;
        if (!good) break;
        put_record(t, c->number, p, wide, little);
        at += 8 + (size_t)payload;
    }
    memmove(c->rest, c->rest + at, c->held - at);
    c->held -= at;
    c->decoded += at;
    return good;
}

/* Makes room for one more piece. */
static void make_room(struct connection *c) {
    if (c->room >= c->held + PIECE) return;
    c->room = 2 * c->held + PIECE;
    c->rest = (unsigned char *)realloc(c->rest, c->room);
    if (!c->rest) stop(6, "out of memory");
}

/* Puts the line of a connection that is closed. */
static void put_closing(struct connection *c, struct text *t, const char *how, int64_t number) {
    put_number(t, (int64_t)c->number);
    put_word(t, " closed: ");
    put_word(t, how);
    if (number >= 0) {
        put(t, " ", 1);
        put_number(t, number);
    }
    put(t, "\n", 1);
}
