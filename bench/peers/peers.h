/* Between the load on a peer (peers.c) and what it has to know of the peer's protocol (redis.c, nats.c). */
#include <stddef.h>

enum { BYTES = 100, MOST = 1000 };

/* A connection, and what was read of it and is not taken yet. */
struct connection {
    int fd, number;
    size_t from, to;
    char bytes[1 << 14];
};

void fail(const char *what);

void tell(struct connection *c, const char *text);

/* The next n bytes, or the next line, which stand there until more is taken. */
char *take(struct connection *c, size_t n);
char *take_line(struct connection *c);

/* ---- What a peer's protocol gives ---- */

/* What a request that adds a message says before its BYTES; after them it ends with a line's end. */
extern const char ADD[];

/* What a new connection says before all else. */
void greet(struct connection *c);

/* Makes the stream anew, with nothing in it. */
void renew(struct connection *c);

void hear_ack(struct connection *c);

/* From then on the connection waits for the next message. */
void await(struct connection *c);

void hear_message(struct connection *c);
