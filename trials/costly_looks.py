#!/usr/bin/env python3
"""A request for offsets by time holds another tenant up for at most 100 ms, wherever its records stand and however many it asks for.

    trials/costly_looks.py KBROKER

One topic has a single batch of 104,000 records, of which the last one alone is later than the others. Another has 80,000 batches of one
record each behind a later one that was deleted. A request asks each topic for one offset by time, and then for many of them: in the first
it is the last record's, in the other there is none so late. Another tenant asks for the versions again and again meanwhile.

Each request has to be answered rightly, and may hold the other tenant up for 100 ms. Its longest wait is printed too; what it was held up
is that without the time for which other programs had the processors. The last line is `N of M wrong`.

Today a look into the batch reads its records from the first on, and the request is served whole: all others wait for the sum.
"""

import struct
import sys
import tempfile
import time

from wire import Beside, Broker, Client, batch, castagnoli, create, produce, text, varint

MOST = 0.1
RECORDS, BATCHES = 104_000, 80_000
LATER = 1_000_000


def wide(count, moment):
    """A batch of so many records without keys and values, whose last one is a millisecond later than the others."""
    each = []
    for n in range(count):
        record = b"\0" + varint(int(n == count - 1)) + varint(n) + varint(-1) + varint(-1) + varint(0)
        each.append(varint(len(record)) + record)
    body = struct.pack(">hiqqqhii", 0, count - 1, moment, moment + 1, -1, -1, -1, count) + b"".join(each)
    head = struct.pack(">ib", 0, 2) + struct.pack(">I", castagnoli(body))
    return struct.pack(">qi", 0, len(head) + len(body)) + head + body


def fill(client, moment):
    """Makes both topics."""
    client.all([create(it, retention_ms=-1) for it in (b"wide", b"long")])
    told = client.all([produce(b"wide", wide(RECORDS, moment)), produce(b"long", batch(b"", moment + LATER))])
    one = produce(b"long", batch(b"", moment))
    for _ in range(0, BATCHES, 1000):
        told += client.all([one] * 1000)
    if any(code for code, _ in told) or client.delete_records(b"long", 1) != 0:
        sys.exit("the topics were not filled")


def ask(client, topic, moment, count):
    """Asks so many times in one request for the first record of a moment or later; the answers' codes and offsets."""
    body = struct.pack(">i", -1) + struct.pack(">i", 1) + text(topic) + struct.pack(">i", count)
    got, at = client.ask(2, 1, body + struct.pack(">iq", 0, moment) * count), 14 + len(topic)
    return {struct.unpack_from(">hxxxxxxxxq", got, at + 22 * n) for n in range(count)}


def looked_at(broker, name, topic, moment, count, wanted):
    """Whether a request is answered as it has to be, and another tenant is meanwhile."""
    beside, client = Beside(broker), Client(broker.port)
    client.socket.settimeout(120)
    time.sleep(0.05)
    began, before = time.monotonic(), broker.processor()
    told = ask(client, topic, moment, count)
    took, cost = time.monotonic() - began, broker.processor() - before
    time.sleep(0.05)
    most, held = beside.end()
    print(f"{name:26} {count:4} looks, answered {told}: {took:.2f} s, of the processor {cost:.2f}; "
          f"another waited {most * 1000:.0f} ms, held up {held * 1000:.0f}", flush=True)
    return held <= MOST and told == {(0, wanted)}


def main(program):
    """Whether looks by time hold nobody up."""
    with tempfile.TemporaryDirectory() as room:
        broker = Broker(program, room)
        try:
            if not any(broker.listens() for _ in range(5)):
                sys.exit(f"it does not listen: {broker.log()}")
            client, moment = Client(broker.port), int(time.time() * 1000)
            client.socket.settimeout(120)
            fill(client, moment)
            beside = Beside(broker)
            time.sleep(1)
            most, held = beside.end()
            print(f"beside nothing another waited {most * 1000:.0f} ms, held up {held * 1000:.0f}", flush=True)
            looks = [
                looked_at(broker, "the last record of a batch", b"wide", moment + 1, 1, RECORDS - 1),
                looked_at(broker, "the last record of a batch", b"wide", moment + 1, 100, RECORDS - 1),
                looked_at(broker, "later than all that is left", b"long", moment + 10, 1, -1),
                looked_at(broker, "later than all that is left", b"long", moment + 10, 10, -1),
            ]
        finally:
            broker.stop()
    print(f"{looks.count(False)} of {len(looks)} wrong")
    return 1 if not all(looks) else 0


if __name__ == "__main__":
    if len(sys.argv) != 2:
        sys.exit(__doc__)
    sys.exit(main(sys.argv[1]))
