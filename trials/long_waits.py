#!/usr/bin/env python3
"""Fetches that wait hold another tenant up for at most 100 ms, however many partitions they name, also where their topic gets a record.

    trials/long_waits.py KBROKER

150 connections of a tenant fetch. Each names one partition of an empty topic 20,000 times, and wants more bytes than there will be. Then
the tenant asks for metadata five times, produces five batches to another topic, and five to that one. Another tenant asks for the versions
again and again meanwhile.

Each step has to be answered rightly, and may hold the other tenant up for 100 ms. Its longest wait is printed too; what it was held up is
that without the time for which other programs had the processors. The last line is `N of M wrong`.

Today each fetch that waits for a topic is looked at whole behind each Produce to it, and all others wait for the sum.
"""

import struct
import sys
import tempfile
import time

from wire import Beside, Broker, Client, batch, create, partitions, produce, text

MOST = 0.1
CONNECTIONS, ENTRIES, TIMES = 150, 20_000, 5
NEVER = 2**31 - 1


def fetches(topic):
    """A fetch that names a partition again and again, and waits for more than there will be."""
    head = struct.pack(">iiiib", -1, NEVER, NEVER, 1 << 20, 0) + struct.pack(">i", 1) + text(topic)
    return 1, 4, head + struct.pack(">i", ENTRIES) + struct.pack(">iqi", 0, 0, 1 << 20) * ENTRIES


def wait(port, clients):
    """Begins the fetches, each on a connection of its own, and gives them time to be read."""
    fetch = fetches(b"awaited")
    for _ in range(CONNECTIONS):
        clients.append(Client(port))
        clients[-1].socket.settimeout(120)
        clients[-1].send([fetch])
    time.sleep(2)
    return True


def looked_at(broker, name, step):
    """Whether a step is answered as it has to be, and another tenant is meanwhile."""
    beside = Beside(broker)
    time.sleep(0.05)
    began, before = time.monotonic(), broker.processor()
    is_right = step()
    took, cost = time.monotonic() - began, broker.processor() - before
    time.sleep(0.05)
    most, held = beside.end()
    print(f"{name:29} {took:5.2f} s, of the processor {cost:5.2f}; "
          f"another waited {most * 1000:6.0f} ms, held up {held * 1000:6.0f}", flush=True)
    return is_right and held <= MOST


def looks(broker):
    """Each step, and whether it is well."""
    client, clients = Client(broker.port), []
    client.socket.settimeout(120)
    client.all([create(b"awaited"), create(b"other")])

    def produces(topic):
        return [client.produce(topic, batch(b"x")) for _ in range(TIMES)] == [(0, n) for n in range(TIMES)]

    yield looked_at(broker, f"{CONNECTIONS} fetches begin to wait", lambda: wait(broker.port, clients))
    yield looked_at(broker, "metadata", lambda: all(len(client.all([partitions()])[0]) == 2 for _ in range(TIMES)))
    yield looked_at(broker, "records of another topic", lambda: produces(b"other"))
    yield looked_at(broker, "records of the topic", lambda: produces(b"awaited"))
    for it in clients:
        it.socket.close()


def main(program):
    """Whether fetches that wait hold nobody up."""
    with tempfile.TemporaryDirectory() as room:
        broker = Broker(program, room)
        try:
            if not any(broker.listens() for _ in range(5)):
                sys.exit(f"it does not listen: {broker.log()}")
            found = [*looks(broker)]
        finally:
            broker.stop()
    print(f"{found.count(False)} of {len(found)} wrong")
    return 1 if not all(found) else 0


if __name__ == "__main__":
    if len(sys.argv) != 2:
        sys.exit(__doc__)
    sys.exit(main(sys.argv[1]))
