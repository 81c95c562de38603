#!/usr/bin/env python3
"""A broker with nothing to do takes no processor, whatever retention dropped before.

    trials/idle_retention.py KBROKER

64 topics have a limit by bytes, 64 others a time to keep, and 64 both. Each had something dropped inside a file that stays, and one more
of each kind has a single batch above its limit. Nobody is connected for ten seconds. It prints how much of a processor the broker took
meanwhile, and how long a login took then, and is content below half a percent.
"""

import sys
import tempfile
import time

from wire import Broker, Client, batch

TOPICS = 64
SECONDS = 10
LIMITS = [{"retention_bytes": 1500}, {"retention_ms": 600_000}, {"retention_bytes": 1500, "retention_ms": 600_000}]


def fill(client):
    """Makes the topics, and has something dropped in each: by size, and by records that are old."""
    for kind, limits in enumerate(LIMITS):
        for number in range(TOPICS + 1):
            topic = b"t%d-%d" % (kind, number)
            assert client.create(topic, **limits) == 0
            if number == TOPICS:
                assert client.produce(topic, batch(b"x" * 4000))[0] == 0
                continue
            old = int((time.time() - 86_400) * 1000)
            assert client.produce(topic, batch(b"x" * 500, old))[0] == 0
            for _ in range(4):
                assert client.produce(topic, batch(b"x" * 500))[0] == 0


def main(program):
    """Whether the broker is idle."""
    with tempfile.TemporaryDirectory() as room:
        broker = Broker(program, room)
        try:
            if not broker.listens():
                print("the broker does not listen")
                return 1
            client = Client(broker.port)
            fill(client)
            time.sleep(1)
            kept = [client.fetch(b"t%d-0" % kind, 0)[0] for kind in range(len(LIMITS))]
            client.socket.close()
            before = broker.processor()
            time.sleep(SECONDS)
            share = (broker.processor() - before) / SECONDS
            began = time.monotonic()
            Client(broker.port).socket.close()
            login = time.monotonic() - began
        finally:
            broker.stop()
    # (1: what was at the offset 0 is gone)
    print(f"processor while idle: {share * 100:.2f} %, a login after it: {login * 1000:.1f} ms, dropped in each: {kept == [1, 1, 1]}")
    return 0 if share < 0.005 and kept == [1, 1, 1] else 1


if __name__ == "__main__":
    if len(sys.argv) != 2:
        sys.exit(__doc__)
    sys.exit(main(sys.argv[1]))
