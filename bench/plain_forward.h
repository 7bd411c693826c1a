/* What the plain forwarder and the one on ACE do with their input: they decode records, and spell each again in its canonical form: big-endian, no
   slack, padding of 0, version 1 if its seconds fit 32 bits, and else version 2. In C and in C++.

   A record is decoded where its bytes lie; what is left behind is kept for the next piece. Whoever includes this defines `take_record`, which gets the
   spelling of a record. */
#include <stdint.h>
#include <stdio.h>
#include <stdlib.h>
#include <string.h>
#include <unistd.h>

enum { PIECE = 4096, LONGEST = 70000 };

static unsigned char rest[LONGEST + PIECE];
static size_t held;

static void take_record(const unsigned char *spelling, size_t length);

static void stop(int status, const char *why) {
    fprintf(stderr, "%s: %s\n", NAME, why);
    exit(status);
}

static uint32_t word(const unsigned char *p, int little) {
    return little ? (uint32_t)p[0] | (uint32_t)p[1] << 8 | (uint32_t)p[2] << 16 | (uint32_t)p[3] << 24
                  : (uint32_t)p[3] | (uint32_t)p[2] << 8 | (uint32_t)p[1] << 16 | (uint32_t)p[0] << 24;
}

static unsigned char *put_word(unsigned char *to, uint32_t n) {
    to[0] = (unsigned char)(n >> 24);
    to[1] = (unsigned char)(n >> 16);
    to[2] = (unsigned char)(n >> 8);
    to[3] = (unsigned char)n;
    return to + 4;
}

static int64_t seconds_of(const unsigned char *p, int little, int wide) {
    if (!wide) return (int32_t)word(p, little);
    uint64_t first = word(p, little), second = word(p + 4, little);
    return (int64_t)(little ? second << 32 | first : first << 32 | second);
}

/* Spells a record that stands whole in the input. */
static void spell(const unsigned char *p, int little, int wide) {
    static unsigned char made[LONGEST];
    int64_t seconds = seconds_of(p + 16, little, wide);
    int long_form = seconds != (int32_t)seconds;
    const unsigned char *after = p + (wide ? 24 : 20);
    uint32_t message = word(after + 4, little);
    unsigned char *to = made;
    *to = long_form ? 2 : 0;
    memset(to + 1, 0, 3);
    to = put_word(to + 4, (long_form ? 24 : 20) + message);
    to = put_word(to, word(p + 8, little));
    to = put_word(to, word(p + 12, little));
    if (long_form) to = put_word(to, (uint32_t)((uint64_t)seconds >> 32));
    to = put_word(to, (uint32_t)seconds);
    to = put_word(to, word(after, little));
    to = put_word(to, message);
    memcpy(to, after + 8, message);
    take_record(made, (size_t)(to - made) + message);
}

/* Takes the records that are whole. False if one is malformed. */
static int decode(void) {
    size_t at = 0;
    int good = 1;
    while (held - at >= 8) {
        const unsigned char *p = rest + at;
        int little = p[0] & 1, wide = p[0] > 1;
        uint32_t payload = word(p + 4, little), least = wide ? 24 : 20;
        good = p[0] <= 3 && payload >= least && payload <= 65536 + least;
        if (!good || held - at < 8 + (size_t)payload) break;
        good = word(p + 4 + least, little) <= payload - least;
        if (!good) break;
        spell(p, little, wide);
        at += 8 + (size_t)payload;
    }
    memmove(rest, rest + at, held - at);
    held -= at;
    return good;
}

/* Reads a piece of standard input, and takes the records that it completes. False at its end. */
static int read_piece(void) {
    ssize_t n = read(0, rest + held, PIECE);
    if (n < 0) stop(3, "read failed");
    held += (size_t)n;
    if (!decode() || (n == 0 && held)) stop(8, "bad record");
    return n > 0;
}
