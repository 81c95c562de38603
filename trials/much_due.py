#!/usr/bin/env python3
"""Retention by time holds another tenant up for at most 100 ms, however much is due in one moment.

    trials/much_due.py KBROKER

Two topics of one tenant keep their records for five seconds. Each has 128,000 batches of last hour: one in a single partition, the other
in 64 of them. In front of each partition stands a batch of the next hour, so that all of it stays. Then that batch is deleted by
DeleteRecords, and all else is due in one moment. Another tenant asks for the versions again and again.

Within 60 seconds all that is due has to be gone, and it may hold the other tenant up for 100 ms. Its longest wait is printed too; what it
was held up is that without the time for which other programs had the processors. The last line is `N of M wrong`.
"""

import struct
import sys
import tempfile
import time

from wire import Beside, Broker, Client, batch, create, offset_at, produce, text

MOST = 0.1
BATCHES, PARTITIONS = 128_000, 64
HOUR, GONE = 3_600_000, 60


def fill(client, topic, partitions):
    """Makes a topic and fills its partitions with batches of last hour, behind one of the next."""
    now, codes = int(time.time() * 1000), client.all([create(topic, partitions, retention_ms=5000)])
    told = client.all([produce(topic, batch(b"", now + HOUR), n) for n in range(partitions)])
    one = batch(b"", now - HOUR)
    for n in range(0, BATCHES, 1000):
        told += client.all([produce(topic, one, n // 1000 % partitions)] * 1000)
    if any(codes + [code for code, _ in told]) or starts(client, topic, partitions) != 0:
        sys.exit("the topics were not filled")


def starts(client, topic, partitions):
    """The sum of the starts of a topic's partitions: so many records went."""
    return sum(start for _, start in client.all([offset_at(topic, -2, n) for n in range(partitions)]))


def free(client, topic, partitions):
    """Deletes the first batch of each partition."""
    each = b"".join(struct.pack(">iq", n, 1) for n in range(partitions))
    client.ask(21, 0, struct.pack(">i", 1) + text(topic) + struct.pack(">i", partitions) + each + struct.pack(">i", 5000))


def looked_at(broker, client, topic, partitions):
    """Whether all of a topic goes as it is due, and another tenant is answered meanwhile."""
    beside = Beside(broker)
    time.sleep(0.05)
    began, before, gone, all_of = time.monotonic(), broker.processor(), 0, BATCHES + partitions
    free(client, topic, partitions)
    while gone < all_of and time.monotonic() < began + GONE:
        time.sleep(0.1)
        gone = starts(client, topic, partitions)
    took, cost = time.monotonic() - began, broker.processor() - before
    most, held = beside.end()
    print(f"of {partitions:2} partitions {gone} of {all_of} batches went in {took:.1f} s, of the processor {cost:.2f}; "
          f"another waited {most * 1000:.0f} ms, held up {held * 1000:.0f}", flush=True)
    yield gone == all_of
    yield held <= MOST


def main(program):
    """Whether retention by time holds nobody up."""
    looks = []
    with tempfile.TemporaryDirectory() as room:
        broker = Broker(program, room)
        try:
            if not any(broker.listens() for _ in range(5)):
                sys.exit(f"it does not listen: {broker.log()}")
            client = Client(broker.port)
            client.socket.settimeout(120)
            for kind in ((b"one", 1), (b"many", PARTITIONS)):
                fill(client, *kind)
                looks += looked_at(broker, client, *kind)
        finally:
            broker.stop()
    print(f"{looks.count(False)} of {len(looks)} wrong")
    return 1 if not all(looks) else 0


if __name__ == "__main__":
    if len(sys.argv) != 2:
        sys.exit(__doc__)
    sys.exit(main(sys.argv[1]))
