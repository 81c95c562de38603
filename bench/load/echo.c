/* A plain server over poll(2) on a port of the system's choice, which it prints: each request is a size, the size of its reply
   (its own 4 bytes included) and any bytes, and the reply is a size and zeros. */
#include <errno.h>
#include <stdint.h>
#include <stdlib.h>
#include <string.h>
#include <unistd.h>

enum { PIECE = 65536 };

/* A connection: the head of the request that comes now and how many of its bytes are still to come, and what is to be written. */
struct line {
    uint8_t head[8];
    size_t known, rest;
    uint8_t *output;
    size_t written, size, room;
};

static uint32_t big(const uint8_t *p) {
    return (uint32_t)p[0] << 24 | p[1] << 16 | p[2] << 8 | p[3];
}

static void reply(struct line *l, uint32_t size) {
    if (l->room < l->size + size)
        l->output = realloc(l->output, l->room = 2 * (l->size + size));
    uint8_t *p = l->output + l->size;
    memset(p, 0, size);
    for (int i = 0; i < 4; i++)
        p[i] = (size - 4) >> (24 - 8 * i);
    l->size += size;
}

static void take(struct line *l, const uint8_t *p, size_t n) {
    while (n) {
        if (l->known < 8) {
            l->head[l->known++] = *p++;
            n--;
            if (l->known == 8)
                l->rest = big(l->head) - 4;
        } else {
            size_t k = n < l->rest ? n : l->rest;
            p += k;
            n -= k;
            l->rest -= k;
        }
        if (l->known == 8 && !l->rest) {
            reply(l, big(l->head + 4));
            l->known = 0;
        }
    }
}

/* Reads where all is written, and writes what the socket takes; whether the connection stays open. */
static int serve(int fd, struct line *l) {
    static uint8_t piece[PIECE];
    if (!l->size) {
        ssize_t n = read(fd, piece, PIECE);
        if (n <= 0)
            return 0;
        take(l, piece, n);
    }
    ssize_t k = l->size ? write(fd, l->output + l->written, l->size - l->written) : 0;
    if (k < 0)
        return errno == EAGAIN;
    l->written += k;
    if (l->written == l->size)
        l->written = l->size = 0;
    return 1;
}

static int waits(const struct line *l) {
    return l->size > 0;
}

static void drop(struct line *l) {
    free(l->output);
}

#include "polls.h"

int main(void) {
    return run();
}
