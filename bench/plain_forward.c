/* A plain forwarder of log records, to compare `logd forward` with: it reads pieces of 4,096 bytes from standard input, and sends what a piece
   completes to 127.0.0.1 in one write.

   plain_forward PORT */
#include <arpa/inet.h>
#include <netinet/in.h>
#include <netinet/tcp.h>
#include <sys/socket.h>

#define NAME "plain_forward"
#include "plain_forward.h"

static unsigned char out[2 * LONGEST];
static size_t length;

static void take_record(const unsigned char *spelling, size_t n) {
    memcpy(out + length, spelling, n);
    length += n;
}

static int connected(int port) {
    struct sockaddr_in to = {.sin_family = AF_INET, .sin_port = htons((uint16_t)port), .sin_addr = {htonl(INADDR_LOOPBACK)}};
    int peer = socket(AF_INET, SOCK_STREAM, 0), one = 1;
    if (peer < 0 || connect(peer, (struct sockaddr *)&to, sizeof to) < 0) stop(13, "connect failed");
    setsockopt(peer, IPPROTO_TCP, TCP_NODELAY, &one, sizeof one);
    return peer;
}

int main(int argc, char **argv) {
    if (argc != 2) stop(1, "usage: plain_forward PORT");
    int peer = connected(atoi(argv[1]));
    for (int more = 1; more;) {
        more = read_piece();
        for (size_t at = 0; at < length;) {
            ssize_t n = send(peer, out + at, length - at, MSG_NOSIGNAL);
            if (n < 0) stop(13, "send failed");
            at += (size_t)n;
        }
        length = 0;
    }
    return 0;
}
