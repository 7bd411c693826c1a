// Writes a script of network events to standard output: so many connections, each with 125 records that come in two pieces, in 125 rounds at
// moments 0 to 124. Its words are the number of connections, from 1 to 1000, and a seed below 2^32. A script of 1000 connections has
// 252,000 steps and some 15 MB. Connection c sends in round r a record of version 1 of type 2^((r + c) mod 11), of process 1000 + c,
// with r seconds and SEED mod 1000000 microseconds, little-endian if r + c is odd; its message has (SEED + 7 r + 3 c) mod 40 letters and
// a closing zero byte.
#include <cstdint>
#include <cstdio>
#include <cstdlib>
#include <string>

typedef std::string Bytes;

static void put_word(Bytes &record, uint32_t word, bool little)
{
    for (int i = 0; i < 4; i++)
        record += (char)(word >> (little ? 8 * i : 24 - 8 * i));
}

static Bytes record_of(uint64_t round, uint64_t conn, uint64_t seed)
{
    bool little = (round + conn) % 2 == 1;
    uint64_t letters = (seed + 7 * round + 3 * conn) % 40;
    Bytes record(1, (char)(little ? 1 : 0));
    record.append(3, (char)(round + conn));
    put_word(record, (uint32_t)(20 + letters + 1), little);
    put_word(record, UINT32_C(1) << ((round + conn) % 11), little);
    put_word(record, (uint32_t)(1000 + conn), little);
    put_word(record, (uint32_t)round, little);
    put_word(record, (uint32_t)(seed % 1000000), little);
    put_word(record, (uint32_t)(letters + 1), little);
    for (uint64_t j = 0; j < letters; j++)
        record += (char)(97 + (round + conn + j) % 26);
    record += '\0';
    return record;
}

static void put_piece(uint64_t conn, const Bytes &piece)
{
    std::printf("data %llu ", (unsigned long long)conn);
    for (unsigned char byte : piece)
        std::printf("%02x", byte);
    std::putchar('\n');
}

int main(int count, char **words)
{
    if (count != 3) return 1;
    uint64_t conns = std::strtoull(words[1], nullptr, 10), seed = std::strtoull(words[2], nullptr, 10);
    for (uint64_t conn = 0; conn < conns; conn++)
        std::printf("open %llu\n", (unsigned long long)conn);
    for (uint64_t round = 0; round < 125; round++) {
        std::printf("at %llu\n", (unsigned long long)round);
        for (uint64_t conn = 0; conn < conns; conn++)
            put_piece(conn, record_of(round, conn, seed).substr(0, 5));
        for (uint64_t conn = 0; conn < conns; conn++)
            put_piece(conn, record_of(round, conn, seed).substr(5));
    }
    for (uint64_t conn = 0; conn < conns; conn++)
        std::printf("shut %llu\n", (unsigned long long)conn);
    return std::fflush(stdout) == 0 ? 0 : 1;
}
