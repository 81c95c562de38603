/* Puts a load on a peer over the loopback, as load.c does on the broker, and prints a line for each figure: what, as load.c calls
   it, and its two numbers, between bars.

       redis PORT
       nats PORT
       redis PORT PRODUCERS     prints what one of so many producers waits for an acknowledgement, and how many come in a second

   Which peer it is says the file that is linked with this one. */
#include <arpa/inet.h>
#include <netinet/tcp.h>
#include <poll.h>
#include <stdio.h>
#include <stdlib.h>
#include <string.h>
#include <sys/prctl.h>
#include <time.h>
#include <unistd.h>

#include "peers.h"

enum { IN_FLIGHT = 4, MESSAGES = 100, ROOM = 256, SAMPLES = 1 << 20 };

static const double SECONDS = 2;

static int port;

static struct connection connections[MOST];

void fail(const char *what) {
    fprintf(stderr, "peers: %s\n", what);
    exit(1);
}

static double now(void) {
    struct timespec t;
    clock_gettime(CLOCK_MONOTONIC, &t);
    return t.tv_sec + t.tv_nsec * 1e-9;
}

/* ---- Connections ---- */

void tell(struct connection *c, const char *text) {
    size_t n = strlen(text);
    if (write(c->fd, text, n) != (ssize_t)n)
        fail("the server closed");
}

static void read_more(struct connection *c) {
    c->to -= c->from;
    memmove(c->bytes, c->bytes + c->from, c->to);
    c->from = 0;
    ssize_t k = read(c->fd, c->bytes + c->to, sizeof c->bytes - c->to);
    if (k <= 0)
        fail("the server closed, or says too much");
    c->to += k;
}

char *take(struct connection *c, size_t n) {
    while (c->to - c->from < n)
        read_more(c);
    c->from += n;
    return c->bytes + c->from - n;
}

char *take_line(struct connection *c) {
    char *end;
    while (!(end = memchr(c->bytes + c->from, '\n', c->to - c->from)))
        read_more(c);
    *end = 0;
    return take(c, end + 1 - (c->bytes + c->from));
}

/* Has that many connections open. */
static void open_to(int count) {
    static int open;
    struct sockaddr_in to = {.sin_family = AF_INET, .sin_port = htons(port), .sin_addr.s_addr = htonl(INADDR_LOOPBACK)};
    for (; open < count; open++) {
        struct connection *c = &connections[open];
        int one = 1;
        c->number = open;
        c->fd = socket(AF_INET, SOCK_STREAM, 0);
        if (c->fd < 0 || connect(c->fd, (struct sockaddr *)&to, sizeof to))
            fail("cannot connect");
        setsockopt(c->fd, IPPROTO_TCP, TCP_NODELAY, &one, sizeof one);
        greet(c);
    }
}

/* ---- Figures ---- */

/* Puts down a request that adds a message; where it ends. */
static char *put_message(char *p) {
    return p + sprintf(p, "%s%0*d\r\n", ADD, BYTES, 0);
}

/* How many messages are acknowledged in a second, and in MB, with a few writes of many messages each in flight. */
static void produce(const char *what) {
    static char some[MESSAGES * ROOM];
    struct connection *c = &connections[0];
    char *p = some;
    int sent = 0, done = 0;
    for (int i = 0; i < MESSAGES; i++)
        p = put_message(p);
    renew(c);
    double start = now(), end = start + SECONDS;
    for (; sent < IN_FLIGHT; sent++)
        tell(c, some);
    for (; done < sent; done++) {
        for (int i = 0; i < MESSAGES; i++)
            hear_ack(c);
        if (now() < end) {
            tell(c, some);
            sent++;
        }
    }
    double messages = done * MESSAGES / (now() - start);
    printf("%s|%.0f|%.1f\n", what, messages, messages * BYTES * 1e-6);
    fflush(stdout);
    renew(c);
}

static int by_size(const void *a, const void *b) {
    float x = *(const float *)a, y = *(const float *)b;
    return (x > y) - (x < y);
}

/* The median and the 99th percentile, in microseconds, of the time from a message until it is acknowledged, or until all have it
   that wait for it. */
static void told(const char *what, int consumers) {
    static float took[SAMPLES];
    struct timespec rest = {.tv_nsec = 5000000};
    char message[ROOM];
    int n = 0;
    put_message(message);
    for (double end = now() + SECONDS; n < SAMPLES && now() < end; n++) {
        for (int k = 1; k <= consumers; k++)
            await(&connections[k]);
        if (consumers)
            nanosleep(&rest, NULL);
        double start = now();
        tell(&connections[0], message);
        for (int k = 1; k <= consumers; k++)
            hear_message(&connections[k]);
        if (!consumers)
            hear_ack(&connections[0]);
        took[n] = (now() - start) * 1e6;
        if (consumers)
            hear_ack(&connections[0]);
    }
    qsort(took, n, sizeof *took, by_size);
    printf("%s|%.0f|%.0f\n", what, took[n / 2], took[n - 1 - n / 100]);
    fflush(stdout);
}

/* What sync/sync.c prints of the broker: the median and the 99th percentile of an acknowledgement, in microseconds, and how many come in
   a second, where each of some producers has one message in flight. */
static void at_once(int count) {
    static float took[SAMPLES];
    static double sent[MOST];
    static struct pollfd polled[MOST];
    char message[ROOM];
    int n = 0;
    put_message(message);
    renew(&connections[0]);
    double start = now(), end = start + SECONDS;
    for (int k = 0; k < count; k++) {
        polled[k] = (struct pollfd){.fd = connections[k].fd, .events = POLLIN};
        sent[k] = now();
        tell(&connections[k], message);
    }
    for (int open = count; open;) {
        poll(polled, count, -1);
        for (int k = 0; k < count; k++)
            if (polled[k].revents) {
                hear_ack(&connections[k]);
                if (n < SAMPLES)
                    took[n++] = (now() - sent[k]) * 1e6;
                if ((sent[k] = now()) < end) {
                    tell(&connections[k], message);
                } else {
                    polled[k].fd = -1;
                    open--;
                }
            }
    }
    double seconds = now() - start;
    qsort(took, n, sizeof *took, by_size);
    printf("%.1f %.1f %.0f\n", took[n / 2], took[n - 1 - n / 100], n / seconds);
}

int main(int count, char **words) {
    if (count != 2 && count != 3)
        fail("the arguments are the port, and how many producers where they alone are measured");
    port = atoi(words[1]);
    prctl(PR_SET_TIMERSLACK, 1);
    if (count == 3) {
        int producers = atoi(words[2]);
        open_to(producers);
        at_once(producers);
        return 0;
    }
    open_to(1);
    produce("Produce, 100 messages of 100 bytes");
    told("1 connection", 0);
    open_to(MOST);
    told("1000 connections, one works", 0);
    told("a consumer waits", 1);
    told("999 consumers wait", MOST - 1);
    return 0;
}
