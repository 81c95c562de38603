/* Writes a script of events for `kbroker script`: a set-up, and so many requests behind it.

       script Produce|Fetch|text BYTES TOPICS IDLE REQUESTS
       script Heartbeat|Join MEMBERS GROUPS IDLE REQUESTS

   Connection 1 asks before it logs in, and is shut. Connection 2 is of the first tenant: it makes the topics, 1,000 at most, and
   fills them where they are to be fetched from. That many idle ones, of all tenants in turn, log in and then say nothing.
   The requests go through the topics in turn, each with one batch of one record of so many bytes. They come on connection 2;
   at `text` they are those of Produce and come on the connection that was shut, so that they are read and go no further.

   Groups are of the first tenant too, 1,000 at most, with 200 members each at most. The members of a place in all groups have one
   connection, the first ones connection 2. They join one after another, and then the first one again, with which all are in. Heartbeats
   come on connection 2, one of each group in turn and then one of the next member of each. At `Join` the members of a group join
   again, the first one last, which answers all, and then those of the next group. */
#include <stdio.h>
#include <stdlib.h>

#include "batch.h"
#include "hex.h"

enum { SHUT = 1, ASKING, TENANTS = 16, FILLED = 10000, MOST = 1 << 15, MEMBERS = 200 };

static uint8_t request[MOST + 256];

static uint8_t *begin(int key, int version) {
    uint8_t *p = put(request + 4, key, 2);
    p = put(p, version, 2);
    p = put(p, 1, 4);
    return put(p, -1, 2);
}

/* The request, which ends there, comes on a connection. */
static void ask(int connection, const uint8_t *end) {
    static char line[2 * sizeof request + 32];
    put(request, end - request - 4, 4);
    char *q = line + sprintf(line, "in %d ", connection);
    q = put_hex(q, request, end - request);
    *q++ = '\n';
    fwrite(line, 1, q - line, stdout);
}

static uint8_t *put_name(uint8_t *p, int topic) {
    char name[16];
    int n = sprintf(name, "t%04d", topic);
    return put_bytes(put(p, n, 2), name, n);
}

/* One topic, of which one partition 0. */
static uint8_t *put_place(uint8_t *p, int topic) {
    p = put_name(put(p, 1, 4), topic);
    return put(put(p, 1, 4), 0, 4);
}

static void log_in(int connection, int tenant) {
    char login[16];
    int n = sprintf(login, "%cu%02d%cpw", 0, tenant, 0);
    printf("open %d\n", connection);
    ask(connection, put_bytes(begin(17, 1), "\0\5PLAIN", 7));
    ask(connection, put_bytes(put(begin(36, 0), n, 4), login, n));
}

static void make(int topic) {
    uint8_t *p = put_name(put(begin(19, 0), 1, 4), topic);
    p = put_bytes(p, "\0\0\0\1\0\1\0\0\0\0\0\0\0\0", 14);
    ask(ASKING, put(p, 5000, 4));
}

static void produce(int connection, int topic, const uint8_t *batch, size_t size) {
    uint8_t *p = put(begin(0, 3), -1, 2);
    p = put(p, 1, 2);
    p = put_place(put(p, 1000, 4), topic);
    ask(connection, put_bytes(put(p, size, 4), batch, size));
}

/* Fetches the one batch at an offset. */
static void fetch(int topic, int offset, size_t size) {
    uint8_t *p = put(begin(1, 4), -1, 4);
    p = put(p, 0, 4);
    p = put(p, 1, 4);
    p = put(p, size, 4);
    p = put_place(put(p, 0, 1), topic);
    p = put(p, offset, 8);
    ask(ASKING, put(p, size, 4));
}

/* The name of a member: numbers are given out as they join, from 1 on. */
static uint8_t *put_member(uint8_t *p, int number) {
    char name[16];
    int n = number ? sprintf(name, "m-%d", number) : 0;
    return put_bytes(put(p, n, 2), name, n);
}

/* The member of a number joins a group, as a new one where it has none yet. */
static void join(int connection, int group, int number) {
    uint8_t *p = put_name(begin(11, 1), group);
    p = put(put(p, 10000, 4), 20000, 4);
    p = put_bytes(put_member(p, number), "\0\10consumer\0\0\0\1\0\5range\0\0\0\1\1", 26);
    ask(connection, p);
}

/* The members of a group, of which the first has a number, join again. */
static void join_again(int group, int members, int first) {
    for (int i = members; i--;)
        join(ASKING + i, group, first + i);
}

static void beat(int group, int number) {
    uint8_t *p = put(put_name(begin(12, 0), group), 2, 4);
    ask(ASKING, put_member(p, number));
}

static void ask_groups(int joins, int members, int groups, int requests) {
    for (int i = 0; i < groups; i++) {
        for (int k = 0; k < members; k++)
            join(ASKING + k, i, 0);
        join(ASKING, i, i * members + 1);
    }
    for (int i = 0; joins && i < requests / members; i++)
        join_again(i % groups, members, i % groups * members + 1);
    for (int i = 0; !joins && i < requests; i++)
        beat(i % groups, i % groups * members + i / groups % members + 1);
}

int main(int count, char **words) {
    static uint8_t batch[MOST + 128];
    if (count != 6 || atoi(words[2]) > MOST)
        return 2;
    int topics = atoi(words[3]), idle = atoi(words[4]), requests = atoi(words[5]);
    int fetches = *words[1] == 'F', connection = *words[1] == 't' ? SHUT : ASKING;
    int joins = *words[1] == 'J', members = joins || *words[1] == 'H' ? atoi(words[2]) : 1;
    if (members < 1 || members > MEMBERS)
        return 2;
    size_t size = put_batch(batch, 1, atoi(words[2]));

    printf("open %d\n", SHUT);
    ask(SHUT, put(begin(3, 1), -1, 4));
    for (int i = 0; i < members; i++)
        log_in(ASKING + i, 0);
    for (int i = 0; i < idle; i++)
        log_in(ASKING + members + i, i % TENANTS);
    if (joins || *words[1] == 'H')
        ask_groups(joins, members, topics, requests);
    if (joins || *words[1] == 'H')
        return fflush(stdout) || ferror(stdout);
    for (int i = 0; i < topics; i++)
        make(i);
    for (int i = 0; fetches && i < FILLED; i++)
        produce(ASKING, i % topics, batch, size);

    for (int i = 0; i < requests; i++)
        if (fetches)
            fetch(i % topics, i % FILLED / topics, size);
        else
            produce(connection, i % topics, batch, size);
    return fflush(stdout) || ferror(stdout);
}
