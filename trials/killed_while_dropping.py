#!/usr/bin/env python3
"""A broker that is killed while records are dropped starts again without being told to.

    trials/killed_while_dropping.py KBROKER

Files are small. Two tenants produce to topics with a limit by bytes, delete records, and delete and make a topic anew, until the broker is
killed (SIGKILL) at some moment. That is done twenty times. Each start has to listen, with no flag, and has what was acknowledged last. It
prints how many starts were refused, and how many records were missing.
"""

import os
import random
import sys
import tempfile
import threading
import time

from wire import Broker, Client, batch

ROUNDS = 20
USERS = [(b"ann", b"pw1"), (b"bob", b"pw2")]


def work(port, user, ends):
    """Produces, deletes records and topics until the connection ends. The end of `kept` that was acknowledged last is in `ends`."""
    try:
        client = Client(port, *user)
        client.create(b"kept", retention_bytes=9000)
        client.create(b"all")
        for number in range(1_000_000):
            code, offset = client.produce(b"kept", batch(b"x" * 700))
            if code == 0:
                ends[user] = offset + 1
            client.produce(b"all", batch(b"y" * 700))
            if number % 7 == 6:
                client.delete_records(b"all", -1 if number % 2 else 1)
            if number % 40 == 39:
                client.delete(b"all")
                client.create(b"all")
    except OSError:
        pass


def main(program):
    """Whether each start listened and had what was acknowledged."""
    refused = missing = 0
    ends = {}
    with tempfile.TemporaryDirectory() as room:
        for number in range(ROUNDS):
            broker = Broker(program, room, more="segment_bytes = 4096")
            if not broker.listens():
                refused += 1
                print(f"start {number} did not listen:\n{broker.log()[-600:]}")
                broker.stop()
                break
            for user, end in ends.items():
                client = Client(broker.port, *user)
                code, offset = client.produce(b"kept", batch(b"z"))
                client.socket.close()
                if code != 0 or offset < end:
                    missing += 1
                    print(f"start {number}: {user[0]} gets the offset {offset} ({code}) behind {end} records")
            threads = [threading.Thread(target=work, args=(broker.port, user, ends)) for user in USERS]
            for it in threads:
                it.start()
            time.sleep(0.2 + random.random())
            broker.stop()
            for it in threads:
                it.join()
    print(f"starts refused: {refused} of {ROUNDS}, records missing: {missing}, acknowledged: {sum(ends.values())}")
    return 1 if refused or missing else 0


if __name__ == "__main__":
    if len(sys.argv) != 2:
        sys.exit(__doc__)
    sys.exit(main(os.path.abspath(sys.argv[1])))
