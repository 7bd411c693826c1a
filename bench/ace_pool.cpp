// A half-sync/half-async logging server on ACE (POSA2; C++NPv2, chapters 4 and 6), to compare `logd pool` with: THREADS threads run the event loop of a
// TP_Reactor, whose handlers read a piece of 4,096 bytes once and put each record into a message queue, as a message block. WRITERS threads take the
// blocks and make lines. At the end the lines of one connection after another are written.
//
// ace_pool PORT UNTIL [THREADS [WRITERS]]: ends once UNTIL connections were closed.
#include <ace/Acceptor.h>
#include <ace/INET_Addr.h>
#include <ace/Message_Block.h>
#include <ace/Reactor.h>
#include <ace/SOCK_Acceptor.h>
#include <ace/SOCK_Stream.h>
#include <ace/Svc_Handler.h>
#include <ace/TP_Reactor.h>
#include <ace/Task.h>
#include <ace/Thread_Manager.h>
#include <algorithm>
#include <atomic>
#include <csignal>
#include <memory>
#include <mutex>
#include <string>
#include <utility>
#include <vector>

#define NAME "ace_pool"
#include "plain_lines.h"

static uint64_t until;
static std::atomic<uint64_t> accepted, closed;

// The lines of a connection, each with its place.
struct Group {
    std::mutex lock;
    std::vector<std::pair<uint64_t, std::string>> lines;
    std::string closing;
};
static std::vector<Group> groups(1 << 13);

// The head of a message: which record of which connection it is, then the record's bytes.
struct Head {
    uint64_t number, place;
};

class Writers : public ACE_Task<ACE_MT_SYNCH> {
public:
    int svc()
    {
        text made = text();
        ACE_Message_Block *block = 0;
        while (getq(block) >= 0) {
            if (block->msg_type() == ACE_Message_Block::MB_STOP) {
                block->release();
                return 0;
            }
            Head head;
            memcpy(&head, block->rd_ptr(), sizeof head);
            const unsigned char *record = (const unsigned char *)block->rd_ptr() + sizeof head;
            put_record(&made, head.number, record, record[0] > 1, record[0] & 1);
            Group &group = groups[head.number];
            std::lock_guard<std::mutex> guard(group.lock);
            group.lines.emplace_back(head.place, std::string(made.bytes, made.length));
            made.length = 0;
            block->release();
        }
        return 0;
    }
};
static Writers writers;

class Logging_Handler : public ACE_Svc_Handler<ACE_SOCK_STREAM, ACE_NULL_SYNCH> {
    typedef ACE_Svc_Handler<ACE_SOCK_STREAM, ACE_NULL_SYNCH> Base;
    connection held = connection();
    uint64_t place = 0;
    const char *how = "end";
    int64_t number = -1;

    int end(const char *why, int64_t at)
    {
        how = why;
        number = at;
        return -1;
    }

    // Puts the records that are whole into the queue. False if one is malformed.
    bool put_records()
    {
        size_t at = 0;
        bool good = true;
        while (good && held.held - at >= 8) {
            const unsigned char *p = held.rest + at;
            uint32_t payload = word(p + 4, p[0] & 1), least = p[0] > 1 ? 24 : 20;
            good = p[0] <= 3 && payload >= least && payload <= 65536 + least;
            if (!good || held.held - at < 8 + (size_t)payload) break;
            good = word(p + 4 + least, p[0] & 1) <= payload - least;
            if (!good) break;
            Head head = {held.number, place++};
            ACE_Message_Block *block = new ACE_Message_Block(sizeof head + 8 + payload);
            block->copy((const char *)&head, sizeof head);
            block->copy((const char *)p, 8 + payload);
            writers.putq(block);
            at += 8 + (size_t)payload;
        }
        memmove(held.rest, held.rest + at, held.held - at);
        held.held -= at;
        held.decoded += at;
        return good;
    }

public:
    virtual ~Logging_Handler() { free(held.rest); }

    int open(void *acceptor)
    {
        held.number = accepted++;
        peer().enable(ACE_NONBLOCK);
        return Base::open(acceptor);
    }

    int handle_input(ACE_HANDLE)
    {
        make_room(&held);
        ssize_t n = peer().recv(held.rest + held.held, PIECE);
        if (n < 0 && (errno == EAGAIN || errno == EINTR)) return 0;
        if (n < 0) return end("failed", -1);
        if (n == 0) return held.held ? end("partial", (int64_t)held.held) : end("end", -1);
        held.held += (size_t)n;
        return put_records() ? 0 : end("malformed", (int64_t)held.decoded);
    }

    int handle_close(ACE_HANDLE handle, ACE_Reactor_Mask mask)
    {
        text made = text();
        put_closing(&held, &made, how, number);
        groups[held.number].closing.assign(made.bytes, made.length);
        free(made.bytes);
        int told = Base::handle_close(handle, mask);
        if (++closed == until) ACE_Reactor::instance()->end_reactor_event_loop();
        return told;
    }
};

static ACE_THR_FUNC_RETURN run(void *reactor)
{
    static_cast<ACE_Reactor *>(reactor)->run_reactor_event_loop();
    return 0;
}

static void write_groups()
{
    text out = text();
    for (uint64_t i = 0; i < accepted; i++) {
        std::sort(groups[i].lines.begin(), groups[i].lines.end());
        for (const auto &line : groups[i].lines) put(&out, line.second.data(), line.second.size());
        put(&out, groups[i].closing.data(), groups[i].closing.size());
        write_out(&out);
    }
}

int main(int argc, char **argv)
{
    if (argc < 3) stop(1, "usage: ace_pool PORT UNTIL [THREADS [WRITERS]]");
    until = strtoull(argv[2], 0, 10);
    int threads = argc > 3 ? atoi(argv[3]) : 1, many = argc > 4 ? atoi(argv[4]) : 2;
    if (threads < 1 || threads > 64 || many < 1 || many > 16) stop(1, "1 to 64 threads, 1 to 16 writers");
    signal(SIGPIPE, SIG_IGN);
    std::unique_ptr<ACE_Reactor_Impl> implementation(new ACE_TP_Reactor);
    ACE_Reactor reactor(implementation.get());
    ACE_Reactor::instance(&reactor);
    ACE_Acceptor<Logging_Handler, ACE_SOCK_ACCEPTOR> acceptor;
    ACE_INET_Addr address((u_short)atoi(argv[1]), (ACE_UINT32)INADDR_LOOPBACK);
    if (acceptor.open(address, &reactor, ACE_NONBLOCK) < 0) stop(7, "listen failed");
    // (its own queue of 5 would lose connections)
    if (listen(acceptor.get_handle(), 65535) < 0) stop(7, "listen failed");
    writers.msg_queue()->high_water_mark(1 << 18);
    writers.msg_queue()->low_water_mark(1 << 18);
    writers.activate(THR_NEW_LWP | THR_JOINABLE, many);
    ACE_Thread_Manager loops;
    if (threads > 1 && loops.spawn_n((size_t)(threads - 1), run, &reactor) < 0) stop(6, "no thread");
    run(&reactor);
    loops.wait();
    for (int i = 0; i < many; i++) writers.putq(new ACE_Message_Block((size_t)0, ACE_Message_Block::MB_STOP));
    writers.wait();
    write_groups();
    return 0;
}
