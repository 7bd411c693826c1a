// A plain program that prints what `logd replay --grouped` prints for a script of network events, to compare the replay with: it parses the
// script from standard input and decodes the bytes of each connection. It tests its lines less closely, and knows `open`, `data`,
// `shut` and `at` alone. Of a record it knows version 1.
#include <algorithm>
#include <cstdint>
#include <cstdio>
#include <cstdlib>
#include <iterator>
#include <string>
#include <string_view>
#include <unistd.h>
#include <vector>

typedef std::string_view Text;

struct Connection {
    std::string bytes;
    bool shut = false;
};

static const char *names[] = {"LM_SHUTDOWN", "LM_TRACE", "LM_DEBUG", "LM_INFO", "LM_NOTICE", "LM_WARNING",
                              "LM_STARTUP", "LM_ERROR", "LM_CRITICAL", "LM_ALERT", "LM_EMERGENCY"};

static std::vector<Connection> connections;
static std::string out;

static int digit_of(char c)
{
    if (c >= '0' && c <= '9') return c - '0';
    if (c >= 'a' && c <= 'f') return c - 'a' + 10;
    if (c >= 'A' && c <= 'F') return c - 'A' + 10;
    return -1;
}

static bool number_of(Text word, uint64_t &number)
{
    if (word.empty() || (word[0] == '0' && word.size() > 1)) return false;
    number = 0;
    for (char c : word) {
        if (c < '0' || c > '9') return false;
        if (__builtin_mul_overflow(number, UINT64_C(10), &number) || __builtin_add_overflow(number, (uint64_t)(c - '0'), &number))
            return false;
    }
    return true;
}

static bool take_hex(Text digits, std::string &bytes)
{
    if (digits.empty() || digits.size() % 2 != 0) return false;
    for (size_t i = 0; i < digits.size(); i += 2) {
        int high = digit_of(digits[i]), low = digit_of(digits[i + 1]);
        if (high < 0 || low < 0) return false;
        bytes.push_back((char)(high << 4 | low));
    }
    return true;
}

static bool take(Text line)
{
    size_t first = line.find(' ');
    uint64_t number;
    if (first == Text::npos) return false;
    Text word = line.substr(0, first), value = line.substr(first + 1);
    size_t second = value.find(' ');
    Text digits = second == Text::npos ? Text() : value.substr(second + 1);
    if (!number_of(value.substr(0, second), number)) return false;
    if (word == "at") return true;
    if (word == "open") {
        if (number != connections.size()) return false;
        connections.emplace_back();
        return true;
    }
    if (number >= connections.size() || connections[number].shut) return false;
    if (word == "data") return take_hex(digits, connections[number].bytes);
    if (word != "shut") return false;
    connections[number].shut = true;
    return true;
}

static uint32_t word_at(const unsigned char *p, bool little)
{
    uint32_t word = 0;
    for (int i = 0; i < 4; i++) word |= (uint32_t)p[i] << (little ? 8 * i : 24 - 8 * i);
    return word;
}

static void put_message(const unsigned char *message, uint32_t length)
{
    for (uint32_t i = 0; i < length && message[i]; i++) {
        unsigned char byte = message[i];
        char escape[5];
        if (byte == '\\') out += "\\\\";
        else if (byte >= 0x20 && byte <= 0x7e) out += (char)byte;
        else out.append(escape, (size_t)snprintf(escape, sizeof escape, "\\x%02x", byte));
    }
}

static void put_record(size_t conn, const unsigned char *p, bool little)
{
    int32_t kind = (int32_t)word_at(p + 8, little);
    out += std::to_string(conn) + ' ' + std::to_string((int32_t)word_at(p + 16, little)) + ',';
    out += std::to_string((int32_t)word_at(p + 20, little)) + ' ' + std::to_string((int32_t)word_at(p + 12, little)) + ' ';
    const char *name = 0;
    for (int i = 0; i < 11; i++)
        if (kind == 1 << i) name = names[i];
    out += name ? name : std::to_string(kind);
    out += ": ";
    put_message(p + 28, word_at(p + 24, little));
    out += '\n';
}

static void put_connection(size_t conn, const Connection &of)
{
    const unsigned char *bytes = (const unsigned char *)of.bytes.data();
    size_t at = 0, size = of.bytes.size();
    while (size - at >= 8) {
        bool little = bytes[at] & 1;
        uint32_t payload = word_at(bytes + at + 4, little);
        if (size - at < 8 + (size_t)payload) break;
        put_record(conn, bytes + at, little);
        at += 8 + (size_t)payload;
    }
    out += std::to_string(conn) + (of.shut ? " closed: end\n" : " closed: stopped\n");
}

int main()
{
    std::vector<char> input;
    char piece[1 << 16];
    ssize_t n;
    while ((n = read(0, piece, sizeof piece)) > 0) input.insert(input.end(), piece, piece + n);
    Text text(input.data(), input.size());
    for (uint64_t line = 1; !text.empty(); line++) {
        size_t end = std::min(text.find('\n'), text.size());
        if (!take(text.substr(0, end))) {
            fprintf(stderr, "plain_replay: bad line %llu\n", (unsigned long long)line);
            return 2;
        }
        text.remove_prefix(std::min(end + 1, text.size()));
    }
    for (size_t conn = 0; conn < connections.size(); conn++) put_connection(conn, connections[conn]);
    for (size_t at = 0; at < out.size(); at += (size_t)n)
        if ((n = write(1, out.data() + at, out.size() - at)) <= 0) return 4;
    return 0;
}
