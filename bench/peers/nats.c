/* NATS JetStream: a message is one PUB to a stream in memory, with an inbox for what acknowledges it, and a waiting consumer an
   ephemeral one of the stream's that pushes what comes next to an inbox. */
#include <stdio.h>
#include <stdlib.h>
#include <string.h>

#include "peers.h"

const char ADD[] = "PUB t i.0 100\r\n";

static const char STREAM[] = "{\"name\":\"t\",\"subjects\":[\"t\"],\"storage\":\"memory\"}";

static const char CONSUMER[] =
    "{\"stream_name\":\"t\",\"config\":{\"deliver_subject\":\"i.%d\",\"deliver_policy\":\"new\",\"ack_policy\":\"none\"}}";

/* Takes the next message, and answers the server's pings until it comes. */
static char *hear(struct connection *c) {
    char *line;
    while (strncmp(line = take_line(c), "MSG ", 4)) {
        if (strcmp(line, "PING\r"))
            fail(line);
        tell(c, "PONG\r\n");
    }
    size_t n = atol(strrchr(line, ' '));
    char *message = take(c, n + 2);
    message[n] = 0;
    return message;
}

static void ask(struct connection *c, const char *what, const char *text) {
    char request[256];
    snprintf(request, sizeof request, "PUB $JS.API.%s.t i.%d %zu\r\n%s\r\n", what, c->number, strlen(text), text);
    tell(c, request);
}

/* Each connection has an inbox of its own, so that idle ones are as a client's library leaves them. */
void greet(struct connection *c) {
    char text[128];
    snprintf(text, sizeof text, "CONNECT {\"verbose\":false,\"pedantic\":false}\r\nSUB i.%d 1\r\nPING\r\n", c->number);
    take_line(c);
    tell(c, text);
    char *line = take_line(c);
    if (strcmp(line, "PONG\r"))
        fail(line);
}

void renew(struct connection *c) {
    ask(c, "STREAM.DELETE", "");
    hear(c);
    ask(c, "STREAM.CREATE", STREAM);
    hear_ack(c);
}

void hear_ack(struct connection *c) {
    char *message = hear(c);
    if (strstr(message, "\"error\""))
        fail(message);
}

/* A consumer is made once, and then waits again by itself. */
void await(struct connection *c) {
    static char is_made[MOST];
    char text[128];
    if (is_made[c->number])
        return;
    snprintf(text, sizeof text, CONSUMER, c->number);
    ask(c, "CONSUMER.CREATE", text);
    hear_ack(c);
    is_made[c->number] = 1;
}

void hear_message(struct connection *c) {
    if (strlen(hear(c)) != BYTES)
        fail("a message of another size");
}
