#!/usr/bin/env python3
"""How long a tenant waits while the catalog of another one is written anew, whose snapshot is nearly as long as is written.

    trials/long_snapshots.py KBROKER

One tenant has 200 topics of 64 partitions, and a group commits to each of them again and again, until the catalog was written anew (its
snapshot has some 13,000 commands of at most 16,384). Another tenant produces a record each two milliseconds. It prints the longest
answers of the other one: where only commits came, and around the renewals.
"""

import os
import struct
import sys
import tempfile
import threading
import time

from wire import Broker, Client, batch, commit, text

TOPICS, PARTITIONS, RENEWALS = 200, 64, 2


def create_wide(topic):
    """Makes a topic of so many partitions; the error code."""
    body = struct.pack(">i", 1) + text(topic) + struct.pack(">ih", PARTITIONS, 1) + struct.pack(">iii", 0, 0, 5000)
    return 19, 0, body, lambda got: struct.unpack_from(">h", got, 6 + len(topic))[0]


def commit_all(group, topic, offset):
    """Commits an offset of a group to all partitions of a topic; the number of partitions that were answered."""
    body = text(group) + struct.pack(">i", -1) + text(b"") + struct.pack(">q", -1) + struct.pack(">i", 1) + text(topic)
    body += struct.pack(">i", PARTITIONS)
    for partition in range(PARTITIONS):
        body += struct.pack(">iq", partition, offset) + text(b"")
    return 8, 2, body, lambda got: struct.unpack_from(">i", got, 6 + len(topic))[0]


def catalogs(folder):
    """The generations of the catalogs' files that a folder has, by their headers' last fields, as their names."""
    names = set()
    for name in os.listdir(folder):
        try:
            with open(f"{folder}/{name}", "rb") as it:
                front = it.read(8)
        except FileNotFoundError:
            continue
        if front[:4] == b"KBSG" and front[6:8] == b"\0\1":
            names.add(name)
    return names


def main(program):
    """Prints the longest waits."""
    waits, stop = [], threading.Event()
    with tempfile.TemporaryDirectory() as room:
        broker = Broker(program, room)
        if not broker.listens():
            raise SystemExit(broker.log())

        def produce():
            client = Client(broker.port, b"bob", b"pw2")
            client.create(b"mine")
            while not stop.is_set():
                begun = time.monotonic()
                client.produce(b"mine", batch(b"x"))
                waits.append((begun, time.monotonic() - begun))
                time.sleep(0.002)

        ann = Client(broker.port)
        topics = [b"t%d" % it for it in range(TOPICS)]
        for topic in topics:
            if ann.all([create_wide(topic)])[0] != 0:
                raise SystemExit("a topic is not made")
        thread = threading.Thread(target=produce)
        thread.start()
        moments, seen, offset, until = [], catalogs(f"{room}/data"), 0, time.monotonic() + 120
        while len(moments) < RENEWALS and time.monotonic() < until:
            offset += 1
            for topic in topics:
                begun = time.monotonic()
                ann.all([commit_all(b"g", topic, offset)])
                now = catalogs(f"{room}/data") if topic == topics[-1] or time.monotonic() - begun > 0.02 else seen
                if now - seen:
                    moments.append(begun)
                seen = seen | now
        stop.set()
        thread.join()
        broker.stop()
    near = [it for begun, it in waits if any(abs(begun - at) < 0.5 for at in moments)]
    far = [it for begun, it in waits if not any(abs(begun - at) < 0.5 for at in moments)]
    print(f"renewals: {len(moments)}, commits: {offset * TOPICS * PARTITIONS}")
    for name, found in (("around them", near), ("else", far)):
        found.sort()
        if found:
            print(f"{name}: {1000 * found[len(found) // 2]:.1f} ms in the median, {1000 * found[-1]:.1f} at most")
    return 0 if moments else 1


if __name__ == "__main__":
    if len(sys.argv) != 2:
        sys.exit(__doc__)
    sys.exit(main(os.path.abspath(sys.argv[1])))
