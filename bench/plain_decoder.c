/* A plain decoder of log records, to compare logd with: it reads pieces of 4,096 bytes, writes the lines of the records that each
   piece completes in one write, and the closing line at the end. Version 1 of the record, both orders. */
#include <stdint.h>
#include <stdio.h>
#include <string.h>
#include <unistd.h>

static unsigned char rest[70000];
static size_t held;
static char out[1 << 16];
static size_t length;

static uint32_t word(const unsigned char *p, int little) {
    return little ? (uint32_t)p[0] | (uint32_t)p[1] << 8 | (uint32_t)p[2] << 16 | (uint32_t)p[3] << 24
                  : (uint32_t)p[3] | (uint32_t)p[2] << 8 | (uint32_t)p[1] << 16 | (uint32_t)p[0] << 24;
}

static void put(const char *text, size_t n) {
    if (length + n > sizeof out) {
        if (write(1, out, length) < 0) _exit(4);
        length = 0;
    }
    memcpy(out + length, text, n);
    length += n;
}

static void put_number(int64_t n) {
    char digits[24];
    char *front = digits + sizeof digits;
    uint64_t rest = n < 0 ? 0 - (uint64_t)n : (uint64_t)n;
    do *--front = (char)('0' + rest % 10);
    while (rest /= 10);
    if (n < 0) *--front = '-';
    put(front, (size_t)(digits + sizeof digits - front));
}

static int is_plain(unsigned char b) { return b >= 0x20 && b <= 0x7e && b != '\\'; }

static const char *name_of(int32_t kind) {
    static const char *names[] = {"LM_SHUTDOWN", "LM_TRACE", "LM_DEBUG", "LM_INFO", "LM_NOTICE", "LM_WARNING",
                                  "LM_STARTUP", "LM_ERROR", "LM_CRITICAL", "LM_ALERT", "LM_EMERGENCY"};
    for (int i = 0; i < 11; i++)
        if (kind == 1 << i) return names[i];
    return 0;
}

static void put_record(const unsigned char *p, int little) {
    uint32_t m = word(p + 24, little);
    int32_t kind = (int32_t)word(p + 8, little);
    put("0 ", 2);
    put_number((int32_t)word(p + 16, little));
    put(",", 1);
    put_number((int32_t)word(p + 20, little));
    put(" ", 1);
    put_number((int32_t)word(p + 12, little));
    put(" ", 1);
    if (name_of(kind)) put(name_of(kind), strlen(name_of(kind)));
    else put_number(kind);
    put(": ", 2);
    for (uint32_t i = 0; i < m && p[28 + i];) {
        uint32_t run = i;
        while (run < m && is_plain(p[28 + run])) run++;
        put((const char *)p + 28 + i, run - i);
        i = run;
        if (i < m && p[28 + i]) {
            char escape[5];
            if (p[28 + i] == '\\') put("\\\\", 2);
            else { sprintf(escape, "\\x%02x", p[28 + i]); put(escape, 4); }
            i++;
        }
    }
    put("\n", 1);
}

int main(void) {
    for (;;) {
        ssize_t n = read(0, rest + held, 4096);
        if (n < 0) return 3;
        if (n == 0) break;
        held += (size_t)n;
        size_t at = 0;
        while (held - at >= 8) {
            const unsigned char *p = rest + at;
            int little = p[0] & 1;
            uint32_t payload = word(p + 4, little);
            if (p[0] > 1 || payload < 20 || payload > 65556) return 1;
            if (held - at < 8 + (size_t)payload) break;
            put_record(p, little);
            at += 8 + (size_t)payload;
        }
        memmove(rest, rest + at, held - at);
        held -= at;
        if (length && write(1, out, length) < 0) return 4;
        length = 0;
    }
    put("0 closed: end\n", 14);
    return write(1, out, length) < 0 ? 4 : 0;
}
