/* Measures one client of a tenant while another tenant floods the broker, and prints a line for each figure: what, the median, the
   99th percentile and the longest in microseconds, how many requests of the flood were answered in a second, and how often it was
   measured, between bars.

       flood PORT [SECONDS]

   `ann` of the tenant `a` floods, in a process of its own; `bob` of the tenant `b` sends a message of 100 bytes at a time on one
   connection, and then has a second one wait for each of them by a fetch. */
#include <arpa/inet.h>
#include <netinet/tcp.h>
#include <signal.h>
#include <stdint.h>
#include <stdio.h>
#include <stdlib.h>
#include <string.h>
#include <sys/epoll.h>
#include <sys/mman.h>
#include <sys/prctl.h>
#include <sys/wait.h>
#include <time.h>
#include <unistd.h>

#include "batch.h"

enum { SAMPLES = 1 << 20, MOST = 500 };

static int port;

static double seconds = 2;

/* A request in bytes, the size of its reply, and where the two bytes of the reply's error code are. */
struct request {
    uint8_t bytes[(1 << 20) + 4096];
    size_t size, reply, code;
};

/* A connection of the flood: how much of its request is written, and of the reply read. */
struct connection {
    int fd;
    size_t written, read;
};

static void fail(const char *what) {
    fprintf(stderr, "flood: %s\n", what);
    exit(1);
}

static double now(void) {
    struct timespec t;
    clock_gettime(CLOCK_MONOTONIC, &t);
    return t.tv_sec + t.tv_nsec * 1e-9;
}

/* ---- Requests ---- */

static uint8_t *begin(struct request *r, int key, int version) {
    uint8_t *p = put(r->bytes + 4, key, 2);
    p = put(p, version, 2);
    p = put(p, 1, 4);
    return put(p, -1, 2);
}

static void end(struct request *r, uint8_t *p, size_t reply, size_t code) {
    r->size = p - r->bytes;
    r->reply = reply;
    r->code = code;
    put(r->bytes, r->size - 4, 4);
}

/* One topic `t`, of which one partition 0. */
static uint8_t *put_place(uint8_t *p) {
    return put_bytes(p, "\0\0\0\1\0\1t\0\0\0\1\0\0\0\0", 15);
}

/* Produces a batch; how many bytes it has. */
static size_t produce(struct request *r, int messages, int bytes) {
    uint8_t *p = put(begin(r, 0, 3), -1, 2);
    p = put(p, 1, 2);
    p = put_place(put(p, 1000, 4));
    size_t batch = put_batch(p + 4, messages, bytes);
    end(r, put(p, batch, 4) + batch, 45, 23);
    return batch;
}

/* Fetches a batch from an offset on, which stands 12 bytes before the request's end, and waits for it. */
static void fetch(struct request *r, size_t batch) {
    uint8_t *p = put(begin(r, 1, 4), -1, 4);
    p = put(p, 60000, 4);
    p = put(p, 1, 4);
    p = put(p, batch, 4);
    p = put_place(put(p, 0, 1));
    p = put(p, 0, 8);
    end(r, put(p, batch, 4), 53 + batch, 27);
}

/* ---- Connections ---- */

static void send_all(int fd, const uint8_t *p, size_t n) {
    while (n) {
        ssize_t k = write(fd, p, n);
        if (k <= 0)
            fail("the broker closed");
        p += k;
        n -= k;
    }
}

static void receive(int fd, const struct request *r) {
    static uint8_t reply[1 << 12];
    for (size_t n = 0; n < r->reply;) {
        ssize_t k = read(fd, reply + n, r->reply - n);
        if (k <= 0)
            fail("the broker closed");
        n += k;
    }
    if (reply[r->code] || reply[r->code + 1])
        fail("an error code");
}

static void ask(int fd, const struct request *r) {
    send_all(fd, r->bytes, r->size);
    receive(fd, r);
}

/* A connection that is logged in, as `ann` or as `bob`. */
static int connected(const char *words) {
    static struct request r;
    struct sockaddr_in to = {.sin_family = AF_INET, .sin_port = htons(port), .sin_addr.s_addr = htonl(INADDR_LOOPBACK)};
    int fd = socket(AF_INET, SOCK_STREAM, 0), one = 1;
    if (fd < 0 || connect(fd, (struct sockaddr *)&to, sizeof to))
        fail("cannot connect");
    setsockopt(fd, IPPROTO_TCP, TCP_NODELAY, &one, sizeof one);
    end(&r, put_bytes(begin(&r, 17, 1), "\0\5PLAIN", 7), 21, 8);
    ask(fd, &r);
    end(&r, put_bytes(put_bytes(begin(&r, 36, 0), "\0\0\0\10", 4), words, 8), 16, 8);
    ask(fd, &r);
    return fd;
}

/* Deletes the topic `t`. */
static void without_topic(int fd) {
    static struct request r;
    uint8_t *p = put_bytes(put(begin(&r, 20, 0), 1, 4), "\0\1t", 3);
    end(&r, put(p, 5000, 4), 17, 15);
    ask(fd, &r);
}

/* Makes the topic `t`, which keeps so many bytes. No record of it goes by its timestamp: they are old. */
static void with_topic(int fd, const char *kept) {
    static struct request r;
    uint8_t *p = put_bytes(put(begin(&r, 19, 0), 1, 4), "\0\1t", 3);
    p = put_bytes(p, "\0\0\0\1\0\1\0\0\0\0\0\0\0\2", 14);
    p = put_bytes(p, "\0\14retention.ms\0\2-1\0\17retention.bytes", 35);
    p = put_bytes(put(p, strlen(kept), 2), kept, strlen(kept));
    end(&r, put(p, 5000, 4), 17, 15);
    ask(fd, &r);
}

/* ---- The flood ---- */

/* Goes on with a connection: false once it can do no more now. Each answer is counted. */
static int goes_on(struct connection *it, const struct request *r, volatile long *answered) {
    uint8_t reply[64];
    if (it->written < r->size) {
        ssize_t k = send(it->fd, r->bytes + it->written, r->size - it->written, MSG_DONTWAIT);
        it->written += k > 0 ? k : 0;
        return k > 0;
    }
    ssize_t k = recv(it->fd, reply + it->read, r->reply - it->read, MSG_DONTWAIT);
    if (!k)
        fail("the broker closed the flood");
    if (k < 0)
        return 0;
    it->read += k;
    if (it->read == r->reply) {
        if (reply[r->code] || reply[r->code + 1])
            fail("the flood has an error code");
        it->written = it->read = 0;
        ++*answered;
    }
    return 1;
}

/* So many connections send a batch again and again, each once it has the answer to the last one. It never ends. */
static void flood(int connections, int messages, int bytes, volatile long *answered) {
    static struct request r;
    static struct connection all[MOST];
    struct epoll_event events[64];
    int poll = epoll_create1(0);
    produce(&r, messages, bytes);
    for (int i = 0; i < connections; i++) {
        struct epoll_event event = {.events = EPOLLIN | EPOLLOUT | EPOLLET, .data.ptr = &all[i]};
        all[i].fd = connected("\0ann\0pw1");
        if (epoll_ctl(poll, EPOLL_CTL_ADD, all[i].fd, &event))
            fail("cannot poll");
    }
    for (;;)
        for (int n = epoll_wait(poll, events, 64, -1), i = 0; i < n; i++)
            while (goes_on(events[i].data.ptr, &r, answered))
                ;
}

/* ---- Figures ---- */

static int by_size(const void *a, const void *b) {
    float x = *(const float *)a, y = *(const float *)b;
    return (x > y) - (x < y);
}

/* What a message takes: until it is acknowledged, or until a second connection has it, whose fetch waits. */
static void measure(const char *what, int waits, int *fds, volatile long *answered) {
    static struct request one, all;
    static float took[SAMPLES];
    static int64_t offset;
    struct timespec rest = {.tv_nsec = 2000000};
    size_t batch = produce(&one, 1, 100);
    long before = *answered;
    double began = now();
    int n = 0;
    fetch(&all, batch);
    for (; n < SAMPLES && now() < began + seconds; n++, offset++) {
        if (waits) {
            put(all.bytes + all.size - 12, offset, 8);
            send_all(fds[1], all.bytes, all.size);
            nanosleep(&rest, NULL);
        }
        double start = now();
        send_all(fds[0], one.bytes, one.size);
        if (waits)
            receive(fds[1], &all);
        else
            receive(fds[0], &one);
        took[n] = (now() - start) * 1e6;
        if (waits)
            receive(fds[0], &one);
    }
    double flooded = (*answered - before) / (now() - began);
    qsort(took, n, sizeof *took, by_size);
    printf("%s, %s|%.0f|%.0f|%.0f|%.0f|%d\n", waits ? "a fetch that waits" : "a produce", what, took[n / 2], took[n - 1 - n / 100],
           took[n - 1], flooded, n);
    fflush(stdout);
}

static void both(const char *what, int *fds, volatile long *answered) {
    measure(what, 0, fds, answered);
    measure(what, 1, fds, answered);
}

/* Waits until the broker has done what a flood left to it, as far as a hundred quick answers in a row tell, or twenty seconds. */
static void rest(int fd) {
    static struct request one;
    double end = now() + 20;
    produce(&one, 1, 100);
    for (int quick = 0; quick < 100 && now() < end;) {
        double start = now();
        ask(fd, &one);
        quick = now() - start < 0.001 ? quick + 1 : 0;
    }
}

/* The same while a process floods a topic that keeps so many bytes. */
static void beside(const char *what, int connections, int messages, int bytes, const char *kept, int *fds, volatile long *answered) {
    int other = connected("\0ann\0pw1");
    with_topic(other, kept);
    pid_t child = fork();
    if (child < 0)
        fail("cannot fork");
    if (!child) {
        prctl(PR_SET_PDEATHSIG, SIGKILL);
        flood(connections, messages, bytes, answered);
    }
    sleep(2);
    both(what, fds, answered);
    kill(child, SIGKILL);
    waitpid(child, NULL, 0);
    rest(other);
    without_topic(other);
    close(other);
}

int main(int count, char **words) {
    if (count != 2 && count != 3)
        fail("flood PORT [SECONDS]");
    port = atoi(words[1]);
    seconds = count == 3 ? atof(words[2]) : seconds;
    prctl(PR_SET_TIMERSLACK, 1);
    volatile long *answered = mmap(NULL, sizeof *answered, PROT_READ | PROT_WRITE, MAP_SHARED | MAP_ANONYMOUS, -1, 0);
    int fds[2] = {connected("\0bob\0pw2"), connected("\0bob\0pw2")};
    with_topic(fds[0], "-1");
    both("alone", fds, answered);
    beside("100 connections of 150 bytes", 100, 1, 80, "-1", fds, answered);
    beside("500 connections of 1 MB", 500, 48400, 10, "-1", fds, answered);
    beside("500 connections of 1 MB and 64 MB are kept", 500, 48400, 10, "64000000", fds, answered);
    both("alone again", fds, answered);
    without_topic(fds[0]);
    return 0;
}
