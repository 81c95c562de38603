#!/usr/bin/env python3
"""One request of a tenant, whatever it is, holds another tenant up for at most 100 ms.

    trials/one_request.py KBROKER

Each kind of request names as much as a request may: its greatest size is 2,097,152 bytes, and it has at most 65,535 entries. Another
tenant asks for the versions again and again meanwhile, which costs nothing by itself, and its longest wait is printed.
"""

import struct
import sys
import tempfile
import time

from wire import Beside, Broker, Client, batch, commit, create, delete_records, offset_at, produce, text

MOST = 0.1
ENTRIES = 65_500
SMALL = 4000
NAMES = b"t"

# the timestamp of the first small batch, each later one is of the next millisecond: none is so old that retention drops it
BEGUN = int(time.time() * 1000) - SMALL


def entries(topic, form, *fields, count=ENTRIES):
    """An array of one topic, of which partition 0 is named again and again, with the fields that `fields` gives for the number of each."""
    each = b"".join(struct.pack(">i" + form, 0, *(it(n) if callable(it) else it for it in fields)) for n in range(count))
    return struct.pack(">i", 1) + text(topic) + struct.pack(">i", count) + each


def creations(names, partitions=1):
    """A request that topics of these names be made."""
    each = b"".join(text(it) + struct.pack(">ihii", partitions, 1, 0, 0) for it in names)
    return struct.pack(">i", len(names)) + each + struct.pack(">i", 0)


def requests():
    """Each kind: what it is called, and its key, version and body."""
    many = batch(b"x")
    yield "ListOffsets, a time each", 2, 1, struct.pack(">i", -1) + entries(NAMES, "q", lambda n: BEGUN + n % SMALL)
    yield "ListOffsets, the ends", 2, 1, struct.pack(">i", -1) + entries(NAMES, "q", -1)
    yield "Fetch, inside a file", 1, 4, struct.pack(">iiiib", -1, 0, 0, 8 << 20, 0) + entries(NAMES, "qi", lambda n: n % SMALL, 100)
    yield "Fetch, the rest each", 1, 4, struct.pack(">iiiib", -1, 0, 0, 8 << 20, 0) + entries(NAMES, "qi", lambda n: n % SMALL, 1 << 20)
    yield "Fetch that waits", 1, 4, struct.pack(">iiiib", -1, 500, 9 << 20, 8 << 20, 0) + entries(NAMES, "qi", SMALL, 100)
    yield "Metadata, one topic of 64", 3, 1, struct.pack(">i", ENTRIES) + text(b"wide") * ENTRIES
    yield "Metadata, unknown topics", 3, 1, struct.pack(">i", ENTRIES) + text(b"none") * ENTRIES
    yield "OffsetFetch", 9, 1, text(b"g") + entries(NAMES, "")
    yield "OffsetCommit", 8, 2, text(b"g") + struct.pack(">i", -1) + text(b"") + struct.pack(">q", -1) + entries(NAMES, "qh", lambda n: n, 0)
    yield "DeleteRecords, nothing", 21, 0, entries(NAMES, "q", 0) + struct.pack(">i", 0)
    yield "DeleteRecords, one each", 21, 0, entries(NAMES, "q", lambda n: min(n, SMALL - 2)) + struct.pack(">i", 0)
    count = 2_000_000 // (8 + len(many))
    each = (struct.pack(">ii", 0, len(many)) + many) * count
    yield "Produce", 0, 3, struct.pack(">hhi", -1, 1, 0) + struct.pack(">i", 1) + text(b"p") + struct.pack(">i", count) + each
    names = [b"n%d" % n for n in range(ENTRIES)]
    yield "CreateTopics, each name twice", 19, 0, creations([b"n%d" % (n // 2) for n in range(ENTRIES)])
    yield "CreateTopics", 19, 0, creations(names)
    yield "DeleteTopics", 20, 0, struct.pack(">i", ENTRIES) + b"".join(text(it) for it in names) + struct.pack(">i", 0)
    yield "CreateTopics of 64", 19, 0, creations([b"w%d" % n for n in range(900)], 64)
    yield "DescribeGroups", 15, 0, struct.pack(">i", ENTRIES) + text(b"g") * ENTRIES
    yield "DescribeConfigs of a topic", 32, 0, struct.pack(">i", ENTRIES) + (b"\2" + text(NAMES) + struct.pack(">i", -1)) * ENTRIES
    yield "DescribeConfigs of the broker", 32, 0, struct.pack(">i", ENTRIES) + (b"\4" + text(b"0") + struct.pack(">i", -1)) * ENTRIES
    keys = struct.pack(">i", ENTRIES) + text(b"retention.bytes.of.none") * ENTRIES
    yield "DescribeConfigs, many names", 32, 0, struct.pack(">i", 1) + b"\4" + text(b"0") + keys
    # (a group counts 512: of more the connection is closed)
    yield "DeleteGroups, unknown groups", 42, 0, struct.pack(">i", ENTRIES // 512) + b"".join(text(b"g%d" % n) for n in range(ENTRIES // 512))


def looked_at(broker, name, key, version, body):
    """The longest wait of another beside a request, and whether it was answered."""
    beside = Beside(broker)
    client = Client(broker.port)
    client.socket.settimeout(120)
    time.sleep(0.05)
    began = time.monotonic()
    try:
        client.ask(key, version, body)
        answer = "answered"
    except OSError:
        answer = "closed"
    took = time.monotonic() - began
    time.sleep(0.05)
    most, _ = beside.end()
    client.socket.close()
    print(f"{name:29} {len(body) / 1e6:5.2f} MB {answer:9} after {took * 1000:7.1f} ms; another waited {most * 1000:7.1f} ms", flush=True)
    return most <= MOST


def main(program):
    with tempfile.TemporaryDirectory() as room:
        broker = Broker(program, room)
        try:
            if not broker.listens():
                sys.exit(f"does not listen: {broker.log()}")
            client = Client(broker.port)
            client.all([create(NAMES), create(b"wide", 64), create(b"p"), commit(b"g", NAMES)])
            for begin in range(0, SMALL, 500):
                client.all([produce(NAMES, batch(b"x", BEGUN + n)) for n in range(begin, begin + 500)])
            if client.all([offset_at(NAMES, -2), offset_at(NAMES, -1)]) != [(0, 0), (0, SMALL)]:
                sys.exit("not all of the small batches are there")
            slow = [it[0] for it in requests() if not looked_at(broker, *it)]
        finally:
            broker.stop()
    print(f"{len(slow)} held another tenant up for more than {MOST * 1000:.0f} ms{': ' + ', '.join(slow) if slow else ''}")
    sys.exit(bool(slow))


if __name__ == "__main__":
    main(*sys.argv[1:])
