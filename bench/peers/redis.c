/* Redis Streams: a message is one XADD to a stream, and a waiting consumer an XREAD that blocks for what comes next. */
#include <stdlib.h>

#include "peers.h"

const char ADD[] = "*5\r\n$4\r\nXADD\r\n$1\r\nt\r\n$1\r\n*\r\n$1\r\nv\r\n$100\r\n";

static const char XREAD[] = "*6\r\n$5\r\nXREAD\r\n$5\r\nBLOCK\r\n$5\r\n60000\r\n$7\r\nSTREAMS\r\n$1\r\nt\r\n$1\r\n$\r\n";

static const char DEL[] = "*2\r\n$3\r\nDEL\r\n$1\r\nt\r\n";

static const char PING[] = "*1\r\n$4\r\nPING\r\n";

/* Takes a reply with all its parts. */
static void hear(struct connection *c) {
    char *line = take_line(c);
    long n = atol(line + 1);
    if (line[0] == '-' || n < 0)
        fail("Redis refused, or had nothing");
    if (line[0] == '$')
        take(c, n + 2);
    if (line[0] == '*')
        while (n--)
            hear(c);
}

void greet(struct connection *c) {
    tell(c, PING);
    hear(c);
}

void renew(struct connection *c) {
    tell(c, DEL);
    hear(c);
}

void hear_ack(struct connection *c) {
    hear(c);
}

void await(struct connection *c) {
    tell(c, XREAD);
}

void hear_message(struct connection *c) {
    hear(c);
}
