// A forwarding daemon on ACE as C++NPv2 has it in chapter 7 (AC_Client_Logging_Daemon), to compare `logd forward` with. Who reads puts each record into a
// message queue, as a message block. A thread takes messages from the queue, and sends those that wait, up to ACE_IOV_MAX, in one gathered write. It
// reads pieces of 4,096 bytes from standard input, where the book's daemon has local clients.
//
// ace_forward PORT
#include <ace/INET_Addr.h>
#include <ace/Message_Block.h>
#include <ace/SOCK_Connector.h>
#include <ace/SOCK_Stream.h>
#include <ace/Task.h>
#include <csignal>
#include <netinet/tcp.h>

#define NAME "ace_forward"
#include "plain_forward.h"

class Output_Handler : public ACE_Task<ACE_MT_SYNCH> {
    ACE_SOCK_Stream peer;

    // Sends the messages that were gathered, and lets them go.
    void send(ACE_Message_Block **chunk, int count)
    {
        iovec parts[ACE_IOV_MAX];
        for (int i = 0; i < count; i++) {
            parts[i].iov_base = chunk[i]->rd_ptr();
            parts[i].iov_len = chunk[i]->length();
        }
        if (peer.sendv_n(parts, count) < 0) stop(13, "send failed");
        for (int i = 0; i < count; i++) chunk[i]->release();
    }

public:
    int open(int port)
    {
        ACE_SOCK_Connector connector;
        ACE_INET_Addr to((u_short)port, (ACE_UINT32)INADDR_LOOPBACK);
        if (connector.connect(peer, to) < 0) stop(13, "connect failed");
        int one = 1;
        peer.set_option(IPPROTO_TCP, TCP_NODELAY, &one, sizeof one);
        msg_queue()->high_water_mark(65536);
        msg_queue()->low_water_mark(65536);
        return activate(THR_NEW_LWP | THR_JOINABLE);
    }

    int svc()
    {
        ACE_Message_Block *chunk[ACE_IOV_MAX];
        for (bool over = false; !over;) {
            int count = 0;
            ACE_Message_Block *next = 0;
            ACE_Time_Value now(ACE_Time_Value::zero);
            ACE_Time_Value *limit = 0;
            while (count < ACE_IOV_MAX && !over && getq(next, limit) >= 0) {
                over = next->msg_type() == ACE_Message_Block::MB_STOP;
                if (over) next->release();
                else chunk[count++] = next;
                limit = &now;
            }
            if (count) send(chunk, count);
        }
        peer.close();
        return 0;
    }
};

static Output_Handler output;

static void take_record(const unsigned char *spelling, size_t n)
{
    ACE_Message_Block *block = new ACE_Message_Block(n);
    block->copy((const char *)spelling, n);
    if (output.putq(block) < 0) stop(6, "no place in the queue");
}

int main(int argc, char **argv)
{
    if (argc != 2) stop(1, "usage: ace_forward PORT");
    signal(SIGPIPE, SIG_IGN);
    output.open(atoi(argv[1]));
    while (read_piece()) {}
    output.putq(new ACE_Message_Block((size_t)0, ACE_Message_Block::MB_STOP));
    output.wait();
    return 0;
}
