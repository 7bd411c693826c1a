// A client that logs with ACE as it stands: ace7_client HOST:PORT. It logs over the socket (ACE_Log_Msg::LOGGER), with the macros that users of
// ACE write, and ends.
#include <ace/Log_Msg.h>
#include <cstdio>

int main(int argc, char *argv[]) {
    if (argc != 2) {
        std::fputs("usage: ace7_client HOST:PORT\n", stderr);
        return 1;
    }
    if (ACE_LOG_MSG->open(argv[0], ACE_Log_Msg::LOGGER, argv[1]) == -1) {
        std::perror("ace7_client");
        return 1;
    }
    ACE_DEBUG((LM_DEBUG, "hi\n"));
    ACE_ERROR((LM_ERROR, "a worse one: %d\n", 42));
    for (int i = 0; i < 1000; ++i)
        ACE_DEBUG((LM_INFO, "%d %s\n", i, "and more, since a long line goes the same way as a short one"));
    return 0;
}
