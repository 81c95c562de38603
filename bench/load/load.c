/* Puts a load on a server over the loopback, and prints a line for each figure: what, and its two numbers, between bars.

       load PORT PID broker|echo [waits|brief|produce]

   The server is `kbroker serve` with the user `ann`, or echo.c, which answers with as many bytes as it is asked for: then each
   request has the broker's size, and the size of the broker's reply in the place of its key and version. With `waits` there are
   only the figures in which others wait. With `brief` there are a few figures, each of one run. With `produce` there are those of
   Produce alone, each of one run: floor.c understands these requests, too. */
#include <arpa/inet.h>
#include <netinet/tcp.h>
#include <stdint.h>
#include <stdio.h>
#include <stdlib.h>
#include <string.h>
#include <sys/prctl.h>
#include <time.h>
#include <unistd.h>

#include "batch.h"

enum { IN_FLIGHT = 4, MESSAGES = 100, MOST = 1000, SAMPLES = 1 << 20 };

static const double SECONDS = 2, IDLE_SECONDS = 10;

static int port, pid, echo, runs = 3;

static int sockets[MOST];

/* A request in bytes, the size of its reply, and where the two bytes of the reply's error code are. */
struct request {
    uint8_t bytes[1 << 18];
    size_t size, reply, code;
};

static void fail(const char *what) {
    fprintf(stderr, "load: %s\n", what);
    exit(1);
}

static double now(void) {
    struct timespec t;
    clock_gettime(CLOCK_MONOTONIC, &t);
    return t.tv_sec + t.tv_nsec * 1e-9;
}

/* ---- Requests ---- */

static uint8_t *begin(struct request *r, int key, int version) {
    uint8_t *p = put(r->bytes + 4, key, 2);
    p = put(p, version, 2);
    p = put(p, 1, 4);
    return put(p, -1, 2);
}

static void end(struct request *r, uint8_t *p, size_t reply, size_t code) {
    r->size = p - r->bytes;
    r->reply = reply;
    r->code = code;
    put(r->bytes, r->size - 4, 4);
    if (echo)
        put(r->bytes + 4, reply, 4);
}

/* One topic `t`, of which one partition 0. */
static uint8_t *put_place(uint8_t *p) {
    return put_bytes(p, "\0\0\0\1\0\1t\0\0\0\1\0\0\0\0", 15);
}

/* Produces a batch; how many bytes it has. */
static size_t produce(struct request *r, int messages, int bytes) {
    uint8_t *p = put(begin(r, 0, 3), -1, 2);
    p = put(p, 1, 2);
    p = put_place(put(p, 1000, 4));
    size_t batch = put_batch(p + 4, messages, bytes);
    end(r, put(p, batch, 4) + batch, 45, 23);
    return batch;
}

/* Fetches as many batches from an offset on, which stands 12 bytes before the request's end. Where there are fewer bytes than the
   least it waits for so many milliseconds. */
static void fetch(struct request *r, size_t batch, int batches, int least, int wait) {
    uint8_t *p = put(begin(r, 1, 4), -1, 4);
    p = put(p, wait, 4);
    p = put(p, least, 4);
    p = put(p, batch * batches, 4);
    p = put_place(put(p, 0, 1));
    p = put(p, 0, 8);
    end(r, put(p, batch * batches, 4), 53 + batch * batches, 27);
}

/* ---- Connections ---- */

static void send_all(int fd, const uint8_t *p, size_t n) {
    while (n) {
        ssize_t k = write(fd, p, n);
        if (k <= 0)
            fail("the server closed");
        p += k;
        n -= k;
    }
}

static void receive(int fd, const struct request *r) {
    static uint8_t reply[1 << 21];
    for (size_t n = 0; n < r->reply;) {
        ssize_t k = read(fd, reply + n, r->reply - n);
        if (k <= 0)
            fail("the server closed");
        n += k;
        if (n >= 4 && (reply[0] << 24 | reply[1] << 16 | reply[2] << 8 | reply[3]) != (int)r->reply - 4)
            fail("a reply of another size");
    }
    if (reply[r->code] || reply[r->code + 1])
        fail("an error code");
}

static void ask(int fd, const struct request *r) {
    send_all(fd, r->bytes, r->size);
    receive(fd, r);
}

/* Makes the topic `t`, which keeps its records for ever, since their timestamps are old; or deletes it. */
static void topic(int is_made) {
    static struct request r;
    uint8_t *p = put(begin(&r, is_made ? 19 : 20, 0), 1, 4);
    p = put_bytes(p, "\0\1t", 3);
    if (is_made)
        p = put_bytes(p, "\0\0\0\1\0\1\0\0\0\0\0\0\0\1\0\14retention.ms\0\2-1", 32);
    end(&r, put(p, 5000, 4), 17, 15);
    ask(sockets[0], &r);
}

static void log_in(int fd) {
    static struct request r;
    end(&r, put_bytes(begin(&r, 17, 1), "\0\5PLAIN", 7), 21, 8);
    ask(fd, &r);
    end(&r, put_bytes(begin(&r, 36, 0), "\0\0\0\10\0ann\0pw1", 12), 16, 8);
    ask(fd, &r);
}

/* Has that many connections open, each logged in. */
static void open_to(int connections) {
    static int count;
    struct sockaddr_in to = {.sin_family = AF_INET, .sin_port = htons(port), .sin_addr.s_addr = htonl(INADDR_LOOPBACK)};
    for (; count < connections; count++) {
        int fd = sockets[count] = socket(AF_INET, SOCK_STREAM, 0), one = 1;
        if (fd < 0 || connect(fd, (struct sockaddr *)&to, sizeof to))
            fail("cannot connect");
        setsockopt(fd, IPPROTO_TCP, TCP_NODELAY, &one, sizeof one);
        log_in(fd);
    }
}

/* ---- Figures ---- */

/* How often a request is answered in a second, with a few in flight. Those of a fetch go through the topic's batches: `batches`
   of them, `step` at a time; at 0 the request is sent as it is. How many were answered is added to `answered`. */
static double rate(struct request *r, int batches, int step, int *answered) {
    double start = now(), end = start + SECONDS;
    int sent = 0, done = 0, place = 0;
    while (sent < IN_FLIGHT || done < sent) {
        if (sent - done < IN_FLIGHT && (sent < IN_FLIGHT || now() < end)) {
            if (batches) {
                put(r->bytes + r->size - 12, (int64_t)place * MESSAGES, 8);
                place = place + 2 * step <= batches ? place + step : 0;
            }
            send_all(sockets[0], r->bytes, r->size);
            sent++;
        } else {
            receive(sockets[0], r);
            done++;
        }
    }
    *answered += done;
    return done / (now() - start);
}

static void print_rate(const char *what, int bytes, double messages) {
    printf("%s of %d bytes|%.0f|%.1f\n", what, bytes, messages, messages * bytes * 1e-6);
    fflush(stdout);
}

static void throughput(int bytes) {
    static struct request make, one, many;
    double best[3] = {0};
    size_t batch = produce(&make, MESSAGES, bytes);
    int step = 1000000 / batch;
    fetch(&one, batch, 1, 1, 0);
    fetch(&many, batch, step, 1, 0);
    for (int i = 0; i < runs; i++) {
        int batches = 0, fetched = 0;
        topic(1);
        double got[3] = {rate(&make, 0, 0, &batches)};
        while (batches < step) {
            ask(sockets[0], &make);
            batches++;
        }
        got[1] = rate(&one, batches, 1, &fetched);
        got[2] = rate(&many, batches, step, &fetched) * step;
        topic(0);
        for (int k = 0; k < 3; k++)
            best[k] = got[k] > best[k] ? got[k] : best[k];
    }
    print_rate("Produce, 100 messages", bytes, best[0] * MESSAGES);
    print_rate("Fetch, 100 messages", bytes, best[1] * MESSAGES);
    print_rate("Fetch, 1 MB of messages", bytes, best[2] * MESSAGES);
}

/* The same of Produce alone, in one run. */
static void produced(int bytes) {
    static struct request make;
    int answered = 0;
    produce(&make, MESSAGES, bytes);
    topic(1);
    print_rate("Produce, 100 messages", bytes, rate(&make, 0, 0, &answered) * MESSAGES);
    topic(0);
}

static int by_size(const void *a, const void *b) {
    float x = *(const float *)a, y = *(const float *)b;
    return (x > y) - (x < y);
}

/* The median and the 99th percentile, in microseconds, of the time from a request of one message of 100 bytes to its reply, one
   at a time on connections that take turns. */
static void latency(const char *what, int connections, double pause) {
    static struct request r;
    static float took[SAMPLES];
    double best[2] = {1e9, 1e9};
    struct timespec rest = {.tv_nsec = pause * 1e9};
    produce(&r, 1, 100);
    for (int i = 0; i < runs; i++) {
        int n = 0;
        for (double end = now() + SECONDS; n < SAMPLES && now() < end; n++) {
            double start = now();
            ask(sockets[n % connections], &r);
            took[n] = (now() - start) * 1e6;
            if (pause > 0)
                nanosleep(&rest, NULL);
        }
        qsort(took, n, sizeof *took, by_size);
        double got[2] = {took[n / 2], took[n - 1 - n / 100]};
        for (int k = 0; k < 2; k++)
            best[k] = got[k] < best[k] ? got[k] : best[k];
    }
    printf("%s|%.0f|%.0f\n", what, best[0], best[1]);
    fflush(stdout);
}

/* The median and the 99th percentile, in microseconds, of the time from a request of one message of 100 bytes until all have it that
   wait for it, each by a fetch on a connection of its own. */
static void woken(const char *what, int consumers) {
    static struct request one, all;
    static float took[SAMPLES];
    struct timespec rest = {.tv_nsec = 5000000};
    size_t batch = produce(&one, 1, 100);
    int n = 0;
    if (echo) {
        printf("%s||\n", what);
        return;
    }
    topic(0);
    topic(1);
    fetch(&all, batch, 1, 1, 60000);
    for (double end = now() + SECONDS; n < SAMPLES && now() < end; n++) {
        put(all.bytes + all.size - 12, n, 8);
        for (int k = 1; k <= consumers; k++)
            send_all(sockets[k], all.bytes, all.size);
        nanosleep(&rest, NULL);
        double start = now();
        send_all(sockets[0], one.bytes, one.size);
        for (int k = 1; k <= consumers; k++)
            receive(sockets[k], &all);
        took[n] = (now() - start) * 1e6;
        receive(sockets[0], &one);
    }
    qsort(took, n, sizeof *took, by_size);
    printf("%s|%.0f|%.0f\n", what, took[n / 2], took[n - 1 - n / 100]);
    fflush(stdout);
}

/* What one message takes while a consumer waits, on the last connection, for more than it may be given at once: 2 GB, of 8 MB. */
static void patient(const char *what) {
    static struct request all;
    if (echo) {
        printf("%s||\n", what);
        return;
    }
    topic(0);
    topic(1);
    fetch(&all, 8 << 20, 1, INT32_MAX, 60000);
    send_all(sockets[MOST - 1], all.bytes, all.size);
    latency(what, 1, 0);
}

/* How long it takes to have that many connections more, each logged in, in microseconds a connection. */
static void log_in_to(const char *what, int from, int connections) {
    double start = now();
    open_to(connections);
    printf("%s|%.0f|\n", what, (now() - start) * 1e6 / (connections - from));
    fflush(stdout);
}

/* The server's processor time so far, in seconds. */
static double used(void) {
    char path[64], text[1024];
    unsigned long user, system;
    snprintf(path, sizeof path, "/proc/%d/stat", pid);
    FILE *file = fopen(path, "r");
    size_t n = file ? fread(text, 1, sizeof text - 1, file) : 0;
    text[n] = 0;
    char *rest = strrchr(text, ')');
    if (!rest || sscanf(rest, ") %*c %*d %*d %*d %*d %*d %*u %*u %*u %*u %*u %lu %lu", &user, &system) != 2)
        fail("no such process");
    fclose(file);
    return (double)(user + system) / sysconf(_SC_CLK_TCK);
}

/* The server's memory, in MB. */
static double memory(void) {
    char path[64];
    long size, pages = 0;
    snprintf(path, sizeof path, "/proc/%d/statm", pid);
    FILE *file = fopen(path, "r");
    if (!file || fscanf(file, "%ld %ld", &size, &pages) != 2)
        fail("no such process");
    fclose(file);
    return pages * (double)sysconf(_SC_PAGESIZE) * 1e-6;
}

/* Twenty clients ask for 8 MB forty times at once and read nothing: what one message takes of another client, and what is kept for
   them, in MB. */
static void unread(void) {
    static struct request one, all;
    static uint8_t asked[1 << 14];
    int batches = 80;
    size_t n = 0, batch = produce(&one, MESSAGES, 1000);
    topic(0);
    topic(1);
    for (int k = 0; k < batches; k++)
        ask(sockets[0], &one);
    fetch(&all, batch, batches, 1, 0);
    for (int k = 0; k < 40; k++)
        n = put_bytes(asked + n, (char *)all.bytes, all.size) - asked;
    double before = memory();
    for (int k = 1; k <= 20; k++)
        send_all(sockets[k], asked, n);
    latency("20 clients do not read", 1, 0);
    printf("MB kept for 20 that do not read|%.0f|\n", memory() - before);
}

/* The percentage of a processor that the server takes while nobody asks. */
static void idle(const char *what) {
    double best = 1e9;
    for (int i = 0; i < runs; i++) {
        double before = used();
        sleep(IDLE_SECONDS);
        double got = (used() - before) / IDLE_SECONDS * 100;
        best = got < best ? got : best;
    }
    printf("%s|%.1f|\n", what, best);
    fflush(stdout);
}

int main(int count, char **words) {
    if (count != 4 && count != 5)
        fail("load PORT PID broker|echo [waits|brief|produce]");
    port = atoi(words[1]);
    pid = atoi(words[2]);
    echo = !strcmp(words[3], "echo");
    prctl(PR_SET_TIMERSLACK, 1);
    if (count == 5 && !strcmp(words[4], "brief")) {
        runs = 1;
        open_to(1);
        throughput(100);
        throughput(1000);
        topic(1);
        latency("1 connection", 1, 0);
        open_to(100);
        latency("100 connections, all in turn", 100, 0);
        topic(0);
        return 0;
    }
    if (count == 5 && !strcmp(words[4], "produce")) {
        open_to(1);
        produced(100);
        produced(1000);
        return 0;
    }
    if (count == 5) {
        open_to(1);
        topic(1);
        log_in_to("connect and log in", 1, MOST);
        latency("one message among 1000 connections", 1, 0);
        woken("a consumer waits", 1);
        woken("999 consumers wait", MOST - 1);
        unread();
        patient("one message while one waits for 2 GB");
        return 0;
    }
    idle("idle, no connection");
    open_to(1);
    throughput(100);
    throughput(1000);
    topic(1);
    latency("1 connection", 1, 0);
    latency("pause of 0.1 ms", 1, 1e-4);
    latency("pause of 1 ms", 1, 1e-3);
    open_to(100);
    latency("100 connections, one works", 1, 0);
    latency("100 connections, all in turn", 100, 0);
    log_in_to("connect and log in", 100, MOST);
    latency("1000 connections, one works", 1, 0);
    latency("1000 connections, all in turn", MOST, 0);
    woken("a consumer waits", 1);
    woken("999 consumers wait", MOST - 1);
    idle("idle, 1000 connections");
    patient("one message while one waits for 2 GB");
    return 0;
}
