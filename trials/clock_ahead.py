#!/usr/bin/env python3
"""A wall clock that goes ahead for a second deletes no records, and one that is set back stops no wait.

    trials/clock_ahead.py KBROKER

It needs libfaketime (apt-get install faketime), which shows the broker another wall clock while it runs. First the clock is eight
days ahead for a second: a topic that keeps its records for seven days loses none, before and after. Then it is set back an hour, and
a fetch that waits for 500 ms is answered within two seconds. It prints how many of these do not hold.
"""

import glob
import os
import struct
import sys
import tempfile
import time

from wire import Broker, Client, batch, text

TOPIC = b"kept"


def ahead(client, show):
    """What is wrong after a second in which the clock was eight days ahead."""
    show("+8d")
    time.sleep(1)
    code, mark, records = client.fetch(TOPIC, 0)
    if (code, mark) != (0, 3) or len(records) < 3 * 61:
        yield f"while it is ahead a fetch is answered {code}, with {len(records)} bytes"
    show("+0")
    time.sleep(0.5)
    for _ in range(3):
        client.produce(TOPIC, batch(b"later"))
    time.sleep(0.5)
    code, mark, records = client.fetch(TOPIC, 0)
    if (code, mark) != (0, 6) or len(records) < 6 * 61:
        yield f"later a fetch is answered {code}, with {len(records)} bytes"


def back(client, show):
    """What is wrong while the clock is set back."""
    show("-1h")
    time.sleep(0.2)
    client.socket.settimeout(2)
    began = time.monotonic()
    body = struct.pack(">iiiibi", -1, 500, 1, 1 << 20, 0, 1) + text(TOPIC) + struct.pack(">iiqi", 1, 0, 6, 1 << 20)
    try:
        client.ask(1, 4, body)
        print(f"set back, a fetch of 500 ms waited for {(time.monotonic() - began) * 1000:.0f} ms")
    except TimeoutError:
        yield "a fetch that waits for 500 ms has no answer after two seconds"


def main(program):
    """Whether all holds."""
    found = glob.glob("/usr/lib/*/faketime/libfaketime.so.1")
    if not found:
        print("libfaketime is missing: apt-get install faketime")
        return 2
    with tempfile.TemporaryDirectory() as room:
        shown = f"{room}/clock"

        def show(offset):
            with open(f"{shown}.new", "w", encoding="utf-8") as out:
                out.write(f"{offset}\n")
            os.replace(f"{shown}.new", shown)

        def before():
            os.environ.update(LD_PRELOAD=found[0], FAKETIME_TIMESTAMP_FILE=shown, FAKETIME_NO_CACHE="1")
            os.environ.update(DONT_FAKE_MONOTONIC="1", NO_FAKE_STAT="1")

        show("+0")
        broker = Broker(program, room, before=before)
        try:
            if not broker.listens():
                print("the broker does not listen")
                return 1
            client = Client(broker.port)
            client.create(TOPIC)
            for _ in range(3):
                client.produce(TOPIC, batch(b"kept"))
            wrong = [*ahead(client, show), *back(client, show)]
        except OSError as error:
            wrong = [f"the broker does not answer: {error!r}"]
        finally:
            broker.stop()
        for line in wrong + broker.log().splitlines():
            print(line)
    print(f"wrong: {len(wrong)}")
    return 1 if wrong else 0


if __name__ == "__main__":
    sys.exit(main(sys.argv[1]))
