#!/usr/bin/env python3
"""A full disk can be emptied: by the deletion of a topic, of records, and by retention.

    trials/full_disk.py KBROKER

The data folder is on a file system of 12 MB in memory, which the script mounts and unmounts: it needs root. It is filled by produces
until one is refused. Then what should free it is asked for, and produces go on. It prints how many of the ways did not free it.
Of each the log says once that the disk is full.
"""

import signal
import subprocess
import sys
import tempfile
import time

from wire import Broker, Client, batch

SIZE = "12m"
MORE = "segment_bytes = 1048576"
BIG = b"x" * 300_000


def fill(client, topic):
    """Produces until the disk is full, and answers how many batches were taken, and the error code."""
    sent, taken = batch(BIG), 0
    while True:
        code, _ = client.produce(topic, sent)
        if code != 0:
            break
        taken += 1
    # What groups commit fills the catalog's last block, and each further block that is still free.
    small = batch(b"y" * 100)
    for size in [1000] * 20 + [100] * 20 + [0] * 60:
        for _ in range(300):
            if client.produce(topic, small)[0] != 0:
                break
        client.commit(b"g", topic, b"m" * size)
    return taken, code


def topic_deleted(client, _):
    """Deletes the topic."""
    code = client.delete(b"big")
    return f"the deletion of the topic is answered {code}" if code else ""


def records_deleted(client, taken):
    """Deletes most of its records."""
    code = client.delete_records(b"big", taken - 2)
    return f"the deletion of records is answered {code}" if code else ""


def retained(client, _):
    """Waits until retention has let its records go, which are old at once."""
    time.sleep(12)
    return ""


def way(program, name, free, again, **config):
    """What is wrong with one way to free the disk, with a broker that is started again when it is full, or without."""
    with tempfile.TemporaryDirectory() as room:
        subprocess.run(["mount", "-t", "tmpfs", "-o", f"size={SIZE}", "tmpfs", room], check=True)
        try:
            broker = Broker(program, room, MORE, data=f"{room}/data")
            if not broker.listens():
                return f"{name}: the broker does not start: {broker.log()}"
            client = Client(broker.port)
            client.create(b"other", retention_ms=-1)
            client.create(b"big", **config)
            taken, code = fill(client, b"big")
            if code != 56:
                return f"{name}: a full disk is answered {code}"
            said = broker.log().count("disk full: cannot write")
            if said != 1:
                return f"{name}: the log says {said} times that the disk is full"
            if again:
                broker.stop()
                broker = Broker(program, room, MORE, data=f"{room}/data")
                if not broker.listens():
                    return f"{name}: the broker does not start on a full disk: {broker.log()}"
                client = Client(broker.port)
            wrong = free(client, taken)
            # Files go with the next commit, which comes within a second. The log has room of its own where the disk has none.
            until = time.monotonic() + 3
            for _ in range(3):
                code, _ = client.produce(b"other", batch(BIG))
                while code and time.monotonic() < until:
                    time.sleep(0.1)
                    code, _ = client.produce(b"other", batch(BIG))
                if code:
                    wrong = wrong or f"a produce is answered {code} afterwards"
            return wrong and f"{name}: {wrong}"
        finally:
            broker.stop()
            subprocess.run(["umount", "-l", room], check=True)


WAYS = [
    ("a topic deleted", topic_deleted, False, {"retention_ms": -1}),
    ("a topic deleted after a start", topic_deleted, True, {"retention_ms": -1}),
    ("records deleted", records_deleted, False, {"retention_ms": -1}),
    ("retention", retained, False, {"retention_ms": 8000}),
]


def main():
    # So that the file system is unmounted where the script is ended.
    signal.signal(signal.SIGTERM, lambda *_: sys.exit(1))
    wrong = []
    for name, free, again, config in WAYS:
        what = way(sys.argv[1], name, free, again, **config)
        if what:
            wrong.append(what)
            print(what)
    print(f"{len(wrong)} of {len(WAYS)} ways do not free a full disk")
    sys.exit(1 if wrong else 0)


if __name__ == "__main__":
    main()
