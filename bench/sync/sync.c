/* Produces to `kbroker serve` over the loopback, as the user `ann`, and prints what one answer takes and how many come in a second.

       sync PORT PRODUCERS PARTITIONS RECORDS IN_FLIGHT SECONDS

   Each producer has a connection and so many requests in flight, of one batch of so many records of 100 bytes each. The topic `t` is made
   before and deleted after, and producers take its partitions in turn. It prints the median and the 99th percentile of an answer, in
   microseconds, and how many answers come in a second. */
#include <arpa/inet.h>
#include <netinet/tcp.h>
#include <poll.h>
#include <stdio.h>
#include <stdlib.h>
#include <string.h>
#include <time.h>
#include <unistd.h>

#include "batch.h"

enum { MOST = 64, DEEP = 16, SAMPLES = 1 << 22, LARGE = 1 << 18, REPLY = 45, CODE = 23 };

struct producer {
    int fd;
    size_t got;
    uint8_t reply[REPLY];
    double sent[DEEP];
    unsigned asked, answered;
    uint8_t request[LARGE];
    size_t size;
};

static struct producer producers[MOST];

static float took[SAMPLES];

static void fail(const char *what) {
    fprintf(stderr, "sync: %s\n", what);
    exit(1);
}

static double now(void) {
    struct timespec t;
    clock_gettime(CLOCK_MONOTONIC, &t);
    return t.tv_sec + t.tv_nsec * 1e-9;
}

/* ---- Requests ---- */

static uint8_t *begin(uint8_t *p, int key, int version) {
    p = put(p + 4, key, 2);
    p = put(p, version, 2);
    p = put(p, 1, 4);
    return put(p, -1, 2);
}

static size_t end(uint8_t *request, uint8_t *p) {
    put(request, p - request - 4, 4);
    return p - request;
}

static void send_all(int fd, const uint8_t *p, size_t n) {
    while (n) {
        ssize_t k = write(fd, p, n);
        if (k <= 0)
            fail("the server closed");
        p += k;
        n -= k;
    }
}

static void receive(int fd, uint8_t *p, size_t n) {
    while (n) {
        ssize_t k = read(fd, p, n);
        if (k <= 0)
            fail("the server closed");
        p += k;
        n -= k;
    }
}

/* Asks, and looks whether the error code that stands at a place of the reply is 0. */
static void ask(int fd, uint8_t *request, uint8_t *p, size_t code) {
    static uint8_t reply[1 << 16];
    send_all(fd, request, end(request, p));
    receive(fd, reply, 4);
    size_t size = (size_t)reply[0] << 24 | reply[1] << 16 | reply[2] << 8 | reply[3];
    if (size > sizeof reply - 4)
        fail("a long reply");
    receive(fd, reply + 4, size);
    if (reply[code] || reply[code + 1])
        fail("an error code");
}

static int log_in(int port) {
    static uint8_t r[1 << 10];
    struct sockaddr_in to = {.sin_family = AF_INET, .sin_port = htons(port), .sin_addr.s_addr = htonl(INADDR_LOOPBACK)};
    int fd = socket(AF_INET, SOCK_STREAM, 0), one = 1;
    if (fd < 0 || connect(fd, (struct sockaddr *)&to, sizeof to))
        fail("cannot connect");
    setsockopt(fd, IPPROTO_TCP, TCP_NODELAY, &one, sizeof one);
    ask(fd, r, put_bytes(begin(r, 17, 1), "\0\5PLAIN", 7), 8);
    ask(fd, r, put_bytes(begin(r, 36, 0), "\0\0\0\10\0ann\0pw1", 12), 8);
    return fd;
}

/* Makes the topic `t` with so many partitions, which keeps its records for ever, since their timestamps are old; or deletes it. */
static void topic(int fd, int partitions) {
    static uint8_t r[1 << 10];
    uint8_t *p = put(begin(r, partitions ? 19 : 20, 0), 1, 4);
    p = put_bytes(p, "\0\1t", 3);
    if (partitions) {
        p = put(p, partitions, 4);
        p = put_bytes(p, "\0\1\0\0\0\0\0\0\0\1\0\14retention.ms\0\2-1", 28);
    }
    ask(fd, r, put(p, 5000, 4), 15);
}

static void make_request(struct producer *it, int partition, int records) {
    uint8_t *p = put(begin(it->request, 0, 3), -1, 2);
    p = put(p, 1, 2);
    p = put(p, 1000, 4);
    p = put_bytes(p, "\0\0\0\1\0\1t\0\0\0\1", 11);
    p = put(p, partition, 4);
    size_t size = put_batch(p + 4, records, 100);
    it->size = end(it->request, put(p, size, 4) + size);
}

/* ---- The load ---- */

static void send_one(struct producer *it) {
    it->sent[it->asked++ % DEEP] = now();
    send_all(it->fd, it->request, it->size);
}

/* Takes what has come; how many answers. */
static int take(struct producer *it, int *samples) {
    ssize_t k = read(it->fd, it->reply + it->got, REPLY - it->got);
    if (k <= 0)
        fail("the server closed");
    it->got += k;
    if (it->got < REPLY)
        return 0;
    if (it->reply[CODE] || it->reply[CODE + 1])
        fail("an error code");
    it->got = 0;
    if (*samples < SAMPLES)
        took[(*samples)++] = (now() - it->sent[it->answered % DEEP]) * 1e6;
    it->answered++;
    return 1;
}

static int by_size(const void *a, const void *b) {
    float x = *(const float *)a, y = *(const float *)b;
    return (x > y) - (x < y);
}

int main(int words, char **word) {
    if (words != 7)
        fail("sync PORT PRODUCERS PARTITIONS RECORDS IN_FLIGHT SECONDS");
    int count = atoi(word[2]), partitions = atoi(word[3]), deep = atoi(word[5]), samples = 0, open = 0;
    struct pollfd polled[MOST];
    long answers = 0;
    for (int k = 0; k < count; k++) {
        producers[k].fd = log_in(atoi(word[1]));
        make_request(&producers[k], k % partitions, atoi(word[4]));
        polled[k] = (struct pollfd){.fd = producers[k].fd, .events = POLLIN};
    }
    topic(producers[0].fd, partitions);
    double start = now(), until = start + atof(word[6]);
    for (int i = 0; i < deep; i++)
        for (int k = 0; k < count; k++, open++)
            send_one(&producers[k]);
    while (open) {
        poll(polled, count, -1);
        for (int k = 0; k < count; k++)
            if (polled[k].revents && take(&producers[k], &samples)) {
                answers++;
                open--;
                if (now() < until) {
                    send_one(&producers[k]);
                    open++;
                }
            }
    }
    double seconds = now() - start;
    topic(producers[0].fd, 0);
    qsort(took, samples, sizeof *took, by_size);
    printf("%.1f %.1f %.0f\n", took[samples / 2], took[samples - 1 - samples / 100], answers / seconds);
    return 0;
}
