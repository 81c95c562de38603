#!/usr/bin/env python3
"""A broker with few descriptors keeps what is produced.

    trials/few_descriptors.py KBROKER

With `connections = 48` and the least limit of open files with which it starts, 80, 40 clients produce into 64 topics, each
with a file of its own: all of it is taken, twice, and read again. The broker says in a line of its log that the limit is too low for all
files that it may have open. Below that limit it ends with status 1, and with 48 + 272 it says nothing. It prints how many answers were
wrong.
"""

import resource
import sys
import tempfile

from wire import Broker, Client, batch

CONNECTIONS = 48
TOPICS = 64


def limited(number):
    """Sets the limit of descriptors, in the process that becomes the program."""
    def before():
        resource.setrlimit(resource.RLIMIT_NOFILE, (number, number))
    return before


def refusals(program):
    """How many of the batches that 40 clients send into 64 topics are refused, or not there afterwards, at the least limit."""
    with tempfile.TemporaryDirectory() as room:
        broker = Broker(program, room, f"connections = {CONNECTIONS}", limited(CONNECTIONS + 32))
        if not broker.listens():
            broker.stop()
            return 2 * TOPICS, broker.log()
        clients = [Client(broker.port) for _ in range(40)]
        topics = [b"t%d" % number for number in range(TOPICS)]
        lost = 0
        for topic in topics:
            clients[0].create(topic)
        for turn in range(2):
            for number, topic in enumerate(topics):
                code, _ = clients[number % len(clients)].produce(topic, batch(b"line"))
                lost += code != 0
        for topic in topics:
            code, mark, _ = clients[1].fetch(topic, 0)
            lost += code != 0 or mark != 2
        broker.stop()
        return lost, broker.log()


def start(program, limit):
    """Whether a broker starts at a limit, and what it says."""
    with tempfile.TemporaryDirectory() as room:
        broker = Broker(program, room, f"connections = {CONNECTIONS}", limited(limit))
        listens = broker.listens()
        status = broker.stop()
        return listens, status, broker.log()


def main():
    wrong = []
    lost, log = refusals(sys.argv[1])
    if lost:
        wrong.append(f"{lost} of {3 * TOPICS} answers are wrong: {log.strip().splitlines()[-1:]}")
    if "open files" not in log:
        wrong.append("nothing is said of a limit that is too low for all open files")
    listens, status, log = start(sys.argv[1], CONNECTIONS + 31)
    if listens or status != 1 or "open files" not in log:
        wrong.append(f"below the least limit: listens {listens}, status {status}, {log!r}")
    listens, _, log = start(sys.argv[1], CONNECTIONS + 256 + 16)
    if not listens or "open files" in log:
        wrong.append(f"with enough descriptors: listens {listens}, {log!r}")
    for line in wrong:
        print(line)
    print(f"{lost} of {3 * TOPICS} answers wrong with {CONNECTIONS + 32} descriptors")
    sys.exit(1 if wrong else 0)


if __name__ == "__main__":
    main()
