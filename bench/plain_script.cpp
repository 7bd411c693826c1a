// A plain parser of scripts, to compare ours with: it makes the same tests of each line and keeps the same things, the groups of steps with
// their moments and what each end has to tell. It reads standard input whole, parses it five times, and prints the number of the first bad
// line, or 0, and the nanoseconds of the fastest time.
#include <algorithm>
#include <chrono>
#include <cstdint>
#include <cstdio>
#include <optional>
#include <string_view>
#include <vector>

typedef std::string_view Text;

enum class Kind { Piece, Pause, Over, Failure };

struct Part {
    Kind kind;
    std::vector<uint8_t> bytes;
};

struct Group {
    uint64_t moment;
    std::vector<int64_t> ends; // a connection's number, or -1 for the listener
};

static std::optional<uint64_t> number_of(Text word)
{
    if (word.empty() || (word[0] == '0' && word.size() > 1)) return {};
    uint64_t number = 0;
    for (char c : word) {
        if (c < '0' || c > '9') return {};
        if (__builtin_mul_overflow(number, UINT64_C(10), &number) || __builtin_add_overflow(number, (uint64_t)(c - '0'), &number))
            return {};
    }
    return number;
}

static int digit_of(char c)
{
    if (c >= '0' && c <= '9') return c - '0';
    if (c >= 'a' && c <= 'f') return c - 'a' + 10;
    if (c >= 'A' && c <= 'F') return c - 'A' + 10;
    return -1;
}

static bool decode(Text digits, std::vector<uint8_t> &bytes)
{
    if (digits.size() % 2 != 0) return false;
    bytes.reserve(digits.size() / 2);
    for (size_t i = 0; i < digits.size(); i += 2) {
        int high = digit_of(digits[i]), low = digit_of(digits[i + 1]);
        if (high < 0 || low < 0) return false;
        bytes.push_back((uint8_t)(high << 4 | low));
    }
    return true;
}

class Script {
public:
    // The number of the first bad line, or 0.
    uint64_t parse(Text text)
    {
        for (uint64_t line = 1; !text.empty(); line++) {
            size_t end = std::min(text.find('\n'), text.size());
            if (!take(text.substr(0, end))) return line;
            text.remove_prefix(std::min(end + 1, text.size()));
        }
        flush();
        return 0;
    }

private:
    std::vector<Group> groups;
    std::vector<int64_t> current;
    uint64_t moment = 0, steps = 0;
    std::vector<bool> done;
    std::vector<int64_t> offers; // a connection's number, -1 for a pause and -2 for a failure
    std::vector<std::vector<Part>> connections;

    void flush()
    {
        if (current.empty()) return;
        groups.push_back({moment, std::move(current)});
        current.clear();
    }

    bool goes_on(uint64_t conn) const { return conn < done.size() && !done[conn]; }

    bool step(int64_t end)
    {
        current.push_back(end);
        steps++;
        return true;
    }

    bool two_words(Text word, Text value)
    {
        if (word == "fail" && value == "listener") {
            if (steps >= 1000000) return false;
            offers.push_back(-2);
            return step(-1);
        }
        std::optional<uint64_t> number = number_of(value);
        if (!number) return false;
        if (word == "at") {
            if (*number < moment || *number > 4294967295) return false;
            flush();
            moment = *number;
            return true;
        }
        if (steps >= 1000000) return false;
        if (word == "open") {
            if (*number != done.size() || *number >= 65536) return false;
            connections.emplace_back();
            done.push_back(false);
            offers.push_back((int64_t)*number);
            offers.push_back(-1);
            return step(-1);
        }
        if ((word != "shut" && word != "fail") || !goes_on(*number)) return false;
        connections[*number].push_back({word == "shut" ? Kind::Over : Kind::Failure, {}});
        done[*number] = true;
        return step((int64_t)*number);
    }

    bool data(Text value, Text digits)
    {
        std::optional<uint64_t> conn = number_of(value);
        std::vector<uint8_t> bytes;
        if (!conn || !decode(digits, bytes) || bytes.empty() || steps >= 1000000 || !goes_on(*conn)) return false;
        connections[*conn].push_back({Kind::Piece, std::move(bytes)});
        connections[*conn].push_back({Kind::Pause, {}});
        return step((int64_t)*conn);
    }

    bool take(Text line)
    {
        size_t first = line.find(' ');
        if (first == Text::npos) {
            if (line != "quiet") return false;
            flush();
            groups.push_back({moment, {}});
            return true;
        }
        Text word = line.substr(0, first), rest = line.substr(first + 1);
        size_t second = rest.find(' ');
        if (second == Text::npos) return two_words(word, rest);
        Text digits = rest.substr(second + 1);
        if (word != "data" || digits.find(' ') != Text::npos) return false;
        return data(rest.substr(0, second), digits);
    }
};

int main()
{
    std::vector<char> text(1 << 28);
    text.resize(std::fread(text.data(), 1, text.size(), stdin));
    uint64_t bad = 0, best = UINT64_MAX;
    for (int time = 0; time < 5; time++) {
        auto start = std::chrono::steady_clock::now();
        {
            Script script;
            bad = script.parse(Text(text.data(), text.size()));
        }
        auto spent = std::chrono::steady_clock::now() - start;
        best = std::min(best, (uint64_t)std::chrono::duration_cast<std::chrono::nanoseconds>(spent).count());
    }
    std::printf("%llu %llu\n", (unsigned long long)bad, (unsigned long long)best);
}
