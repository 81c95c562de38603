/* A server over poll(2) on a port of the system's choice, which it prints. Who includes this has `struct line`, what is kept of a
   connection, of which zeros are a new one; `serve`, which reads and writes what the socket takes and answers whether the connection
   stays open; `waits`, whether something is still to be written; and `drop`, which frees what is kept. */
#include <arpa/inet.h>
#include <fcntl.h>
#include <netinet/tcp.h>
#include <poll.h>
#include <signal.h>
#include <stdio.h>
#include <unistd.h>

enum { MOST = 1025 };

static struct pollfd polls[MOST];

static struct line lines[MOST];

/* Listens, and prints the port; 0 where that is not possible. */
static int listens(int listener) {
    struct sockaddr_in at = {.sin_family = AF_INET, .sin_addr.s_addr = htonl(INADDR_LOOPBACK)};
    socklen_t size = sizeof at;
    if (bind(listener, (struct sockaddr *)&at, size) || listen(listener, 128) || getsockname(listener, (struct sockaddr *)&at, &size))
        return 0;
    printf("%d\n", ntohs(at.sin_port));
    fflush(stdout);
    return 1;
}

static int run(void) {
    int listener = socket(AF_INET, SOCK_STREAM, 0), count = 1, one = 1;
    signal(SIGPIPE, SIG_IGN);
    if (!listens(listener))
        return 1;
    polls[0] = (struct pollfd){listener, POLLIN, 0};
    while (poll(polls, count, -1) > 0) {
        for (int i = count; --i;) {
            if (!polls[i].revents)
                continue;
            if (serve(polls[i].fd, &lines[i])) {
                polls[i].events = waits(&lines[i]) ? POLLOUT : POLLIN;
                continue;
            }
            close(polls[i].fd);
            drop(&lines[i]);
            polls[i] = polls[--count];
            lines[i] = lines[count];
        }
        if (polls[0].revents && count < MOST) {
            int fd = accept(listener, NULL, NULL);
            fcntl(fd, F_SETFL, O_NONBLOCK);
            setsockopt(fd, IPPROTO_TCP, TCP_NODELAY, &one, sizeof one);
            polls[count] = (struct pollfd){fd, POLLIN, 0};
            lines[count++] = (struct line){0};
        }
    }
    return 1;
}
