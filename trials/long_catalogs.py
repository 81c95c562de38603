#!/usr/bin/env python3
"""A start writes a catalog anew that is too long for a broker that runs, and the tenants have what they had.

    trials/long_catalogs.py KBROKER

One tenant has 300 topics of 64 partitions, and a group commits to each of them five times. Its snapshot has more than 16,384 commands, so
that nothing is written anew while the broker runs. It is killed and starts three times. It prints the bytes of the catalogs behind each
start, how long that took, and how many offsets are not those that were committed. The line of each start has to tell the files and bytes
that the folder has behind it.
"""

import os
import re
import struct
import sys
import tempfile
import time

from long_snapshots import PARTITIONS, catalogs, commit_all, create_wide
from wire import Broker, Client, text

TOPICS, COMMITS = 300, 5


def committed_all(group, topic):
    """Asks what a group committed to all partitions of a topic; the offsets."""
    body = text(group) + struct.pack(">i", 1) + text(topic) + struct.pack(">i", PARTITIONS)
    body += b"".join(struct.pack(">i", it) for it in range(PARTITIONS))

    def read(got):
        at, offsets = 4 + 2 + len(topic) + 4, []
        for _ in range(PARTITIONS):
            offsets.append(struct.unpack_from(">q", got, at + 4)[0])
            at += 12
            at += 2 + max(struct.unpack_from(">h", got, at)[0], 0) + 2
        return offsets

    return 9, 1, body, read


def catalog_bytes(folder):
    return sum(os.path.getsize(f"{folder}/{name}") for name in catalogs(folder))


def held(folder):
    """How many files of logs a folder has, and how many bytes."""
    sizes = [os.path.getsize(f"{folder}/{name}") for name in os.listdir(folder) if name.endswith(".seg")]
    return len(sizes), sum(sizes)


def told(log):
    """The same as the last start has it in its line."""
    return tuple(map(int, re.findall(r" start: .* files (\d+), bytes (\d+), stray files 0", log)[-1]))


def main(program):
    """Prints what each start leaves; the status is 0 where the catalog got shorter once, nothing was lost, and each start told what it left."""
    topics = [b"t%d" % it for it in range(TOPICS)]
    with tempfile.TemporaryDirectory() as room:
        broker = Broker(program, room)
        if not broker.listens():
            raise SystemExit(broker.log())
        ann = Client(broker.port)
        for topic in topics:
            if ann.all([create_wide(topic)])[0] != 0:
                raise SystemExit("a topic is not made")
        for offset in range(1, COMMITS + 1):
            for topic in topics:
                ann.all([commit_all(b"g", topic, offset)])
        sizes, wrong, untold = [catalog_bytes(f"{room}/data")], 0, 0
        broker.stop()
        for number in range(3):
            begun = time.monotonic()
            broker = Broker(program, room)
            if not broker.listens():
                raise SystemExit(broker.log())
            took = time.monotonic() - begun
            sizes.append(catalog_bytes(f"{room}/data"))
            untold += told(broker.log()) != held(f"{room}/data")
            ann = Client(broker.port)
            for topic in topics:
                wrong += sum(it != COMMITS for it in ann.all([committed_all(b"g", topic)])[0])
            print(f"start {number + 1}: {sizes[-2]} bytes of catalogs before, {sizes[-1]} behind it, {took:.2f} s")
            broker.stop()
    print(f"{wrong} of {3 * TOPICS * PARTITIONS} offsets wrong, {untold} of 3 starts told other files or bytes than there were")
    shorter = sizes[1] * 3 < sizes[0] and sizes[1] == sizes[2] == sizes[3]
    return 0 if shorter and not wrong and not untold else 1


if __name__ == "__main__":
    if len(sys.argv) != 2:
        sys.exit(__doc__)
    sys.exit(main(os.path.abspath(sys.argv[1])))
