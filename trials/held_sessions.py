#!/usr/bin/env python3
"""A broker that stood still expels no member whose heartbeats came meanwhile, and still expels one that says nothing.

    trials/held_sessions.py KBROKER

Ten groups of each of two tenants have a member with a session timeout of 6 seconds, which sends a heartbeat each second. The process is
stopped for 3 seconds, and then for 8 (SIGSTOP), as in a machine that is paused or in a commit that the disk holds up. What members sent
meanwhile is in their sockets. Each heartbeat has to be answered 0, also those behind it. Last one member of each tenant falls silent:
within 12 seconds it has to be expelled (25, UNKNOWN_MEMBER_ID), and no other may be.

How often each code is answered is printed. The last line is `N of M wrong`.
"""

import collections
import signal
import struct
import sys
import tempfile
import time

from group_memory import heartbeat, join, joined, sync
from wire import Broker, Client

USERS = [(b"ann", b"pw1"), (b"bob", b"pw2")]
GROUPS, SESSION = 10, 6
SHORT, LONG = 3, 8
UNKNOWN_MEMBER_ID = 25


class Member:
    """The one member of a group, on a connection of its own."""

    def __init__(self, port, user, group):
        self.client, self.group = Client(port, *user), group
        self.client.socket.settimeout(60)
        self.unheard = 0
        code, self.generation, self.name = joined(self.client.ask(*join(group, b"", SESSION * 1000)))
        given = struct.unpack_from(">h", self.client.ask(*sync(group, self.generation, self.name)))[0]
        if code or given:
            sys.exit(f"a member was not taken: {code}, {given}")

    def beat(self):
        """Sends a heartbeat, and reads no answer."""
        self.client.send([heartbeat(self.group, self.generation, self.name)])
        self.unheard += 1

    def heard(self):
        """The codes of the answers that have not been read."""
        codes, self.unheard = [struct.unpack_from(">h", self.client.hear())[0] for _ in range(self.unheard)], 0
        return codes


def joined_by(port, name):
    """The members of some groups of each tenant, whose names begin so."""
    return [Member(port, user, name + b"%d" % n) for user in USERS for n in range(GROUPS)]


def beats(members, seconds):
    """Each member sends a heartbeat now, and then each second for so many of them."""
    end = time.monotonic() + seconds
    while True:
        for it in members:
            it.beat()
        if time.monotonic() >= end:
            return
        time.sleep(min(1, max(0, end - time.monotonic())))


def heard(name, members):
    """How often each code was answered to members, which is printed."""
    codes = collections.Counter(code for it in members for code in it.heard())
    print(f"{name}: {dict(codes)}", flush=True)
    return codes


def stopped(broker, members, seconds):
    """Whether no member is expelled where the process is stopped for so long."""
    broker.process.send_signal(signal.SIGSTOP)
    try:
        beats(members, seconds)
    finally:
        broker.process.send_signal(signal.SIGCONT)
    yield set(heard(f"while it was stopped for {seconds} s", members)) == {0}
    beats(members, 2)
    yield set(heard("in two seconds behind it", members)) == {0}
    for it in members:
        it.client.socket.close()


def silent(members):
    """Whether members that say nothing are expelled, and no others."""
    quiet, others = members[::GROUPS], [it for n, it in enumerate(members) if n % GROUPS]
    beats(others, 2 * SESSION)
    yield set(heard("others beside silent members", others)) == {0}
    beats(quiet, 0)
    yield set(heard(f"members that said nothing for {2 * SESSION} s", quiet)) == {UNKNOWN_MEMBER_ID}


def main(program):
    """Whether members stay that are alive."""
    looks = []
    with tempfile.TemporaryDirectory() as room:
        broker = Broker(program, room)
        try:
            if not any(broker.listens() for _ in range(5)):
                sys.exit(f"it does not listen: {broker.log()}")

            for seconds in (SHORT, LONG):
                looks += stopped(broker, joined_by(broker.port, b"stopped-%d-" % seconds), seconds)
            looks += silent(joined_by(broker.port, b"silent-"))
        finally:
            broker.stop()
    print(f"{looks.count(False)} of {len(looks)} wrong")
    return 1 if not all(looks) else 0


if __name__ == "__main__":
    if len(sys.argv) != 2:
        sys.exit(__doc__)
    sys.exit(main(sys.argv[1]))
