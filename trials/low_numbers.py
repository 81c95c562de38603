#!/usr/bin/env python3
"""What is recorded behind a catalog that was written anew is there at the next start, whatever number somebody gave its former file.

    trials/low_numbers.py KBROKER

It needs root. A folder has one log file, a catalog that was written anew some times, and somebody named it by the number 0. A start
writes it anew, and cannot remove the former file: something is mounted on it. A topic is made then, and answered. The next start, with
nothing mounted, has to have that topic. `sync` is "never": with a sync, a removal that is refused ends the broker. It prints how many of
these folders lost it.
"""

import os
import subprocess
import sys
import tempfile

from wire import Broker, Client, topics

RENEWALS = range(1, 6)


def logs(room):
    """The paths of the log files, by rising numbers."""
    return [f"{room}/data/{it}" for it in sorted(os.listdir(f"{room}/data")) if it.endswith(".seg")]


def served(program, room, *made):
    """What topics there are at a start, once those are made, each with another that is deleted again. There are none where it is refused."""
    broker = Broker(program, room, more='sync = "never"')
    if not broker.listens():
        return []
    client = Client(broker.port)
    for topic in made:
        assert client.create(topic) == client.create(b"other") == client.delete(b"other") == 0
    found = client.all([topics()])[0]
    broker.stop()
    return found


def is_lost(program, room, renewals):
    """Whether a topic is not there that was made behind a catalog that was written anew so often, and once more from a file with the number 0."""
    for number in range(renewals + 1):
        served(program, room, b"t%d" % number)
    (path,) = logs(room)
    first = f"{room}/data/{0:020}.seg"
    os.rename(path, first)
    subprocess.run(["mount", "--bind", first, first], check=True)
    try:
        assert b"last" in served(program, room, b"last")
    finally:
        subprocess.run(["umount", first], check=True)
    if first not in logs(room) or len(logs(room)) != 2:
        raise SystemExit(f"the former file does not stand beside the new one: {logs(room)}")
    return b"last" not in served(program, room)


def main():
    """Prints which are lost."""
    lost = []
    for renewals in RENEWALS:
        with tempfile.TemporaryDirectory() as room:
            if is_lost(sys.argv[1], room, renewals):
                lost.append(renewals)
    for renewals in lost:
        print(f"written anew {renewals} times before")
    print(f"{len(lost)} of {len(RENEWALS)} lost it")
    sys.exit(1 if lost else 0)


if __name__ == "__main__":
    main()
