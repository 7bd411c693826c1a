// A logging server on ACE's TP_Reactor (C++NPv2, chapters 3 and 4), or on its Dev_Poll_Reactor, to compare `logd serve` with: an acceptor that makes
// a handler for each connection, whose upcall reads a piece of 4,096 bytes once, writes the lines of the records that it completes in one write, and
// at the end a closing line. It decodes and prints as `plain_epoll.c` does.
//
// ace_serve REACTOR PORT [UNTIL [THREADS]]: REACTOR is `tp`, which waits by `select` and has at most some 1,000 connections at once, or `dev_poll`, which
// waits by epoll. It ends once UNTIL connections were closed, if that is above 0. THREADS (1 if left out) threads run the reactor's event loop.
#define ACE_HAS_EVENT_POLL
#include <ace/Acceptor.h>
#include <ace/Dev_Poll_Reactor.h>
#include <ace/INET_Addr.h>
#include <ace/Reactor.h>
#include <ace/SOCK_Acceptor.h>
#include <ace/SOCK_Stream.h>
#include <ace/Svc_Handler.h>
#include <ace/TP_Reactor.h>
#include <ace/Thread_Manager.h>
#include <atomic>
#include <csignal>
#include <memory>

#define NAME "ace_serve"
#include "plain_lines.h"

static uint64_t until;
static std::atomic<uint64_t> accepted, closed;
static thread_local text lines;

class Logging_Handler : public ACE_Svc_Handler<ACE_SOCK_STREAM, ACE_NULL_SYNCH> {
    typedef ACE_Svc_Handler<ACE_SOCK_STREAM, ACE_NULL_SYNCH> Base;
    connection held = connection();
    const char *how = "end";
    int64_t number = -1;

    int end(const char *why, int64_t at)
    {
        how = why;
        number = at;
        return -1;
    }

public:
    virtual ~Logging_Handler() { free(held.rest); }

    int open(void *acceptor)
    {
        held.number = accepted++;
        peer().enable(ACE_NONBLOCK);
        return Base::open(acceptor);
    }

    int handle_input(ACE_HANDLE)
    {
        make_room(&held);
        ssize_t n = peer().recv(held.rest + held.held, PIECE);
        if (n < 0 && (errno == EAGAIN || errno == EINTR)) return 0;
        if (n < 0) return end("failed", -1);
        if (n == 0) return held.held ? end("partial", (int64_t)held.held) : end("end", -1);
        held.held += (size_t)n;
        if (!decode(&held, &lines)) return end("malformed", (int64_t)held.decoded);
        if (lines.length) write_out(&lines);
        return 0;
    }

    int handle_close(ACE_HANDLE handle, ACE_Reactor_Mask mask)
    {
        put_closing(&held, &lines, how, number);
        write_out(&lines);
        int told = Base::handle_close(handle, mask);
        if (++closed == until) exit(0);
        return told;
    }
};

static ACE_THR_FUNC_RETURN run(void *reactor)
{
    static_cast<ACE_Reactor *>(reactor)->run_reactor_event_loop();
    return 0;
}

int main(int argc, char **argv)
{
    if (argc < 3) stop(1, "usage: ace_serve tp|dev_poll PORT [UNTIL [THREADS]]");
    until = argc > 3 ? strtoull(argv[3], 0, 10) : 0;
    int threads = argc > 4 ? atoi(argv[4]) : 1;
    if (threads < 1 || threads > 64) stop(1, "1 to 64 threads");
    signal(SIGPIPE, SIG_IGN);
    std::unique_ptr<ACE_Reactor_Impl> implementation;
    if (!strcmp(argv[1], "dev_poll")) implementation.reset(new ACE_Dev_Poll_Reactor);
    else implementation.reset(new ACE_TP_Reactor);
    ACE_Reactor reactor(implementation.get());
    ACE_Reactor::instance(&reactor);
    ACE_Acceptor<Logging_Handler, ACE_SOCK_ACCEPTOR> acceptor;
    ACE_INET_Addr address((u_short)atoi(argv[2]), (ACE_UINT32)INADDR_LOOPBACK);
    if (acceptor.open(address, &reactor, ACE_NONBLOCK) < 0) stop(7, "listen failed");
    // (its own queue of 5 would lose connections)
    if (listen(acceptor.get_handle(), 65535) < 0) stop(7, "listen failed");
    if (threads > 1 && ACE_Thread_Manager::instance()->spawn_n((size_t)(threads - 1), run, &reactor) < 0) stop(6, "no thread");
    run(&reactor);
    return 0;
}
