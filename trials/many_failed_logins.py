#!/usr/bin/env python3
"""Strangers do not fill the log.

    trials/many_failed_logins.py KBROKER

For five seconds twelve threads log in with a wrong password, again and again, and two ask for something before a login. A thread fails ten
times a second at most. Of each second the log has 16 lines of failed logins and 16 of closed connections at most, and one of each kind with
how many more there were. All that were refused are counted. It prints how many lines and bytes the log has.
"""

import re
import socket
import struct
import sys
import tempfile
import threading
import time

from wire import Broker, Client

SECONDS = 5
GUESSERS = 12
INTRUDERS = 2


def fail(port):
    """A login with a wrong password."""
    Client(port, password=b"wrong").socket.close()


def intrude(port):
    """Asks for metadata before a login, for which the connection is closed."""
    with socket.create_connection(("127.0.0.1", port)) as it:
        it.sendall(struct.pack(">ihhihi", 14, 3, 1, 7, -1, 0))
        it.recv(1)


def again(ask, port, until, asked):
    """Asks until a moment, and counts how often."""
    while time.monotonic() < until:
        ask(port)
        asked.append(1)


def counted(log, line, more):
    """How many lines there are of a kind, and how many things they tell of with those that were passed over."""
    lines, others = re.findall(line, log), re.findall(more, log)
    return len(lines), len(others), len(lines) + sum(map(int, others))


def main(program):
    """Whether all holds."""
    wrong, failed, shut = [], [], []
    with tempfile.TemporaryDirectory() as room:
        broker = Broker(program, room)
        if not broker.listens():
            print("the broker does not listen")
            return 1
        until = time.monotonic() + SECONDS
        works = [(fail, broker.port, until, failed)] * GUESSERS + [(intrude, broker.port, until, shut)] * INTRUDERS
        threads = [threading.Thread(target=again, args=it) for it in works]
        for it in threads:
            it.start()
        for it in threads:
            it.join()
        time.sleep(2.5)
        broker.stop()
        log = broker.log()
    kinds = [("failed logins", len(failed), "login failed from [0-9]", "login failed from others: ([0-9]+)"),
             ("closed connections", len(shut), "closed [0-9.]+:[0-9]+: Metadata", "closed others: ([0-9]+)")]
    for name, count, line, more in kinds:
        lines, others, told = counted(log, line, more)
        print(f"{name}: {count}, lines: {lines}, lines with more: {others}, told of: {told}")
        if lines > 16 * (SECONDS + 2) or others > SECONDS + 2:
            wrong.append(f"too many lines of {name}")
        if told != count or count < 200:
            wrong.append(f"{name} are not all told of")
    if len(failed) > GUESSERS * 10 * (SECONDS + 1):
        wrong.append("guessing is not slow")
    print(f"the log has {len(log)} bytes")
    print("\n".join(wrong) or "0 things were wrong")
    return 1 if wrong else 0


if __name__ == "__main__":
    sys.exit(main(sys.argv[1]))
