#!/usr/bin/env python3
"""A hundred fetches of a tenant that wait are answered at once, and the process takes no more memory than the tenant's `fetch_bytes` let it.

    trials/waiting_fetches.py KBROKER

A topic of eight partitions has a batch of 930,000 bytes in each. A hundred connections fetch from all of them, and want 7,500,000 bytes,
which are not there yet. Then another batch comes. With `fetch_bytes` = 1048576 each is answered with at most so many bytes of records, once
it wants no more than that or its time is over, and the process has to stay below 120,000,000 bytes. Nobody reads before all are answered.
Each reply is then looked at: one whole batch of the first partition, and nothing that there is no room for. It prints `N of M wrong`.
"""

import struct
import sys
import tempfile
import time

from wire import Broker, Client, batch, create, produce, text

LIMITED = """
[[tenant]]
name = "a"
fetch_bytes = 1048576
"""

PARTITIONS, CONNECTIONS, BATCH = 8, 100, batch(bytes(930_000))
LIMIT, MOST, PATIENCE = 1_048_576, 120_000_000, 3_000


def fetch_all(topic, least):
    """Asks for all partitions from 0 on, at least so many bytes, for three seconds."""
    asked = b"".join(struct.pack(">iqi", at, 0, 1 << 23) for at in range(PARTITIONS))
    head = struct.pack(">iiiib", -1, PATIENCE, least, 1 << 23, 0)
    return 1, 4, head + struct.pack(">i", 1) + text(topic) + struct.pack(">i", PARTITIONS) + asked


def records_of(got, topic):
    """The records of each partition of a reply."""
    at, found = 4 + 4 + 2 + len(topic) + 4, []
    for _ in range(PARTITIONS):
        size = struct.unpack_from(">i", got, at + 26)[0]
        found.append(got[at + 30:at + 30 + max(size, 0)])
        at += 30 + max(size, 0)
    return found


def peak(broker):
    """The most memory that the process had."""
    with open(f"/proc/{broker.process.pid}/status") as it:
        return next(int(line.split()[1]) * 1024 for line in it if line.startswith("VmHWM:"))


def answered(program, least):
    """The replies to a hundred fetches that wait, by partition, and the most memory of the process."""
    with tempfile.TemporaryDirectory() as room:
        broker = Broker(program, room, LIMITED)
        try:
            if not broker.listens():
                raise SystemExit(f"it does not listen: {broker.log()}")
            writer = Client(broker.port)
            writer.all([create(b"big", PARTITIONS)])
            for at in range(PARTITIONS):
                writer.all([produce(b"big", BATCH, at)])
            clients = [Client(broker.port) for _ in range(CONNECTIONS)]
            for it in clients:
                it.send([fetch_all(b"big", least)])
            time.sleep(0.5)
            writer.all([produce(b"big", BATCH, 0)])
            time.sleep(PATIENCE / 1000 + 0.5)
            return [records_of(it.hear(), b"big") for it in clients], peak(broker)
        finally:
            broker.stop()


def is_front(found):
    """Whether a reply has one whole batch of the first partition, and none that the limit leaves no room for."""
    sizes = [len(it) for it in found]
    return sizes[0] == len(BATCH) <= LIMIT and not any(sizes[1:])


def main():
    program, wrong, looked = sys.argv[1], 0, 0
    for least in (7_500_000, 900_000):
        replies, most = answered(program, least)
        bad = sum(not is_front(it) for it in replies)
        print(f"with fetch_bytes, {least} wanted: {most} bytes of memory, {bad} replies otherwise")
        wrong, looked = wrong + bad + (most >= MOST), looked + len(replies) + 1
    print(f"{wrong} of {looked} wrong")
    sys.exit(wrong > 0)


if __name__ == "__main__":
    main()
