#!/usr/bin/env python3
"""With `sync = "always"` a client is answered though those in front of it always have more to ask.

    trials/served_in_turn.py KBROKER

`output_bytes` is as small as it may be. Eight connections of a user ask forty times each, all at once, for a megabyte. Then another
user's connection asks once for as much. It prints how many replies the eight got meanwhile: with turns it is a few for each of them.
"""

import os
import sys
import tempfile
import threading

from wire import Broker, Client, batch, fetch

EIGHT, ASKED = 8, 40
# Turns give each of the eight some replies meanwhile, in the sockets' buffers too, and not all of them.
MOST = 10 * EIGHT


def fill(port, user):
    """Makes a topic with a megabyte of records."""
    client = Client(port, *user)
    client.create(b"t")
    for _ in range(21):
        client.produce(b"t", batch(b"x" * 50_000))
    return client


def hear(client, counts, number):
    """Hears all replies of one of the eight."""
    for _ in range(ASKED):
        client.hear()
        counts[number] += 1


def main(program):
    """Whether the other one was answered in its turn."""
    with tempfile.TemporaryDirectory() as room:
        broker = Broker(program, room, more='sync = "always"\noutput_bytes = 1048576')
        if not any(broker.listens() for _ in range(5)):
            raise SystemExit(broker.log())
        fill(broker.port, (b"ann", b"pw1"))
        other = fill(broker.port, (b"bob", b"pw2"))
        other.socket.settimeout(120)
        eight, counts = [Client(broker.port) for _ in range(EIGHT)], [0] * EIGHT
        for it in eight:
            it.socket.settimeout(120)
            it.send([fetch(b"t", 0)] * ASKED)
        threads = [threading.Thread(target=hear, args=(it, counts, number)) for number, it in enumerate(eight)]
        for it in threads:
            it.start()
        began = sum(counts)
        other.fetch(b"t", 0)
        before = sum(counts) - began
        for it in threads:
            it.join()
        broker.stop()
    print(f"replies of the eight until the other one had its own: {before} of {EIGHT * ASKED}")
    return 1 if before > MOST else 0


if __name__ == "__main__":
    if len(sys.argv) != 2:
        sys.exit(__doc__)
    sys.exit(main(os.path.abspath(sys.argv[1])))
