#!/usr/bin/env python3
"""A stored batch takes no more memory than it has bytes, whoever produces it, and a broker starts again under the limit that it ran under.

    trials/producers_memory.py KBROKER

First 40,000 of the smallest batches, 68 bytes each, come without a producer id, then as many of one idempotent producer, then as many of a
new one each. The memory of the process may grow by 68 bytes for each of them at most: so `bytes` of a tenant bounds its memory, too.

Then the process may have 40 MB (`ulimit -v`), and a tenant takes a new producer id for each batch, until 2,000 batches were refused or
120,000 sent. It has to be answered each of them. Another tenant produces 100,000 bytes twenty times then. It has to be answered 0, and once
more behind a `kill -9` and a start under the same limit. The last line is `N of M wrong`.

A log keeps some 35 bytes of each batch of an idempotent producer, and 64 to 71 where that is its only one in the partition, by how full the
table of producers is: that is more than 68 at times. Nothing but `bytes` bounds how many producers a tenant has.
"""

import collections
import itertools
import random
import resource
import struct
import sys
import tempfile
import time

from wire import Broker, Client, batch, create, produce, producer_id

BATCHES, EACH, SMALLEST = 40_000, 500, 68
LIMIT, REFUSED, SENT, SECONDS = 40_960_000, 2_000, 120_000, 100
TOPICS, PARTITIONS = 4, 64
OTHERS = 20


def grown(broker, client, name, producers):
    """Whether memory grew by no more than the bytes of batches, of which each has a producer and a sequence."""
    topic, now, codes = name.replace(" ", "-").encode(), int(time.time() * 1000), collections.Counter()
    client.create(topic)
    before = broker.resident()
    for _ in range(0, BATCHES, EACH):
        told = client.all([produce(topic, batch(b"", now, next(producers))) for _ in range(EACH)])
        codes.update(code for code, _ in told)
    each = (broker.resident() - before) / BATCHES
    print(f"{name}: {each:.0f} bytes of memory for each of {BATCHES} batches; answered {dict(codes)}", flush=True)
    return each <= SMALLEST and codes == {0: BATCHES}


def by_batch(program):
    """Whether each kind of batch takes no more memory than it has bytes."""
    with tempfile.TemporaryDirectory() as room:
        broker = Broker(program, room, 'sync = "never"')
        try:
            client = listening(broker)
            ids = [it for _ in range(0, BATCHES, EACH) for _, it in client.all([producer_id()] * EACH)]
            one = client.all([producer_id()])[0][1]
            yield grown(broker, client, "without a producer", itertools.repeat((-1, -1, -1)))
            yield grown(broker, client, "of one producer", ((one, 0, n) for n in itertools.count()))
            yield grown(broker, client, "of a producer each", ((it, 0, 0) for it in ids))
        finally:
            broker.stop()


def listening(broker, user=b"ann", password=b"pw1"):
    """A client of a broker that listens."""
    if not any(broker.listens() for _ in range(5)):
        sys.exit(f"it does not listen: {broker.log()}")
    return Client(broker.port, user, password)


def flood(client):
    """Produces batches of a new producer each until enough were refused; how often each code was answered, and whether it was cut."""
    rng, now, codes, end = random.Random(1), int(time.time() * 1000), collections.Counter(), time.monotonic() + SECONDS
    client.all([create(b"t%d" % n, PARTITIONS) for n in range(TOPICS)])
    try:
        while sum(codes.values()) < SENT and sum(codes.values()) - codes[0] < REFUSED and time.monotonic() < end:
            told = client.all([producer_id()] * 200)
            codes.update(f"id {code}" for code, _ in told if code)
            # (some partitions get more than others, so that not all of them grow at once)
            places = [(b"t%d" % rng.randrange(TOPICS), int(PARTITIONS * rng.random() * rng.random())) for _ in told]
            told = client.all([produce(topic, batch(b"", now, (it, 0, 0)), at) for (_, it), (topic, at) in zip(told, places)])
            codes.update(code for code, _ in told)
    except (OSError, struct.error):
        codes["cut"] += 1
    return codes


def others(broker):
    """How often each code is answered to another tenant, and how often it is cut."""
    codes = collections.Counter()
    for _ in range(OTHERS):
        try:
            client = Client(broker.port, b"bob", b"pw2")
            codes[client.produce(b"own", batch(bytes(100_000)))[0]] += 1
            client.socket.close()
        except (OSError, struct.error):
            codes["cut"] += 1
    return codes


def under_a_limit(program):
    """Whether others are served where memory ends, and the next start is."""
    def before():
        resource.setrlimit(resource.RLIMIT_AS, (LIMIT, LIMIT))

    with tempfile.TemporaryDirectory() as room:
        broker = Broker(program, room, 'sync = "never"', before)
        try:
            listening(broker, b"bob", b"pw2").create(b"own")
            began, codes = time.monotonic(), flood(Client(broker.port))
            print(f"one tenant was answered {dict(codes)} in {time.monotonic() - began:.0f} s", flush=True)
            yield "cut" not in codes
            told = others(broker)
            print(f"another was answered {dict(told)}", flush=True)
            yield told == {0: OTHERS}
            broker.stop()
            broker = Broker(program, room, 'sync = "never"', before)
            starts = any(broker.listens() for _ in range(5))
            print("it starts again" if starts else f"it does not start: {broker.log().splitlines()[-1]}")
            yield starts
            told = others(broker)
            print(f"another is answered {dict(told)}")
            yield told == {0: OTHERS}
        finally:
            broker.stop()


def main(program):
    """Whether producers' memory is bounded."""
    looks = [*by_batch(program), *under_a_limit(program)]
    print(f"{looks.count(False)} of {len(looks)} wrong")
    return 1 if not all(looks) else 0


if __name__ == "__main__":
    if len(sys.argv) != 2:
        sys.exit(__doc__)
    sys.exit(main(sys.argv[1]))
