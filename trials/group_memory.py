#!/usr/bin/env python3
"""A tenant whose clients join groups with much metadata, and go, takes its share of memory and no more, and no other tenant hears of it.

    trials/group_memory.py KBROKER [JOINS]

One connection after the other joins a group of one tenant with 2,000,000 bytes of metadata, and closes: 10,000 of them, or so many. None
waits for the end of its member's session, which is thirty minutes away. The process has to stay below 90,000,000 bytes. From the first join
on that is refused each has to be answered 81 (GROUP_MAX_SIZE_REACHED). A member of another tenant joins, is given its assignment, and is
answered its heartbeats all the while.

Then the settings give one tenant two groups and 3,000,000 bytes. Its second join of that size is answered 81, and its third group 15
(COORDINATOR_NOT_AVAILABLE); the other tenant has what it had.

Last a tenant commits offsets of new groups with 4,000 bytes beside each, 20,000 of them. Those up to 67,108,864 bytes of texts are taken, and
all others are answered 44 (POLICY_VIOLATION). The process has to stay below 90,000,000 bytes. What moves, and what is shorter, is taken at the limit,
also after the broker was killed; DeleteGroups makes room. Another tenant commits and is given its offset. It prints `N of M wrong`.
"""

import struct
import sys
import tempfile
import time

from wire import Broker, Client, commit, committed, text

JOINS = 10_000
METADATA = 2_000_000
MOST = 90_000_000
SESSION = 1_800_000

# The bytes of texts that a tenant's committed offsets may have, where the settings do not say.
TEXTS = 67_108_864
OFFSETS, BESIDE = 20_000, 4_000

SMALL = """
[[tenant]]
name = "a"
groups = 2
group_bytes = 3000000
"""


def blob(value):
    """BYTES."""
    return struct.pack(">i", len(value)) + value


def join(group, metadata, session=SESSION):
    """Joins a group as a new member."""
    body = text(group) + struct.pack(">ii", session, 60_000) + text(b"") + text(b"consumer")
    return 11, 1, body + struct.pack(">i", 1) + text(b"range") + blob(metadata)


def joined(got):
    """A join's error code, generation and member."""
    code, generation = struct.unpack_from(">hi", got)
    at = 6
    for _ in range(2):
        at += 2 + struct.unpack_from(">h", got, at)[0]
    return code, generation, got[at + 2:at + 2 + struct.unpack_from(">h", got, at)[0]]


def sync(group, generation, member):
    """The leader's sync, which gives the member itself nine bytes."""
    body = text(group) + struct.pack(">i", generation) + text(member)
    return 14, 0, body + struct.pack(">i", 1) + text(member) + blob(b"partition")


def heartbeat(group, generation, member):
    """A heartbeat."""
    return 12, 0, text(group) + struct.pack(">i", generation) + text(member)


def flood(broker, joins, beat):
    """The codes of the joins in their order, and the most memory; it beats at each hundredth."""
    codes, most, metadata = [], 0, bytes(METADATA)
    for number in range(joins):
        client = Client(broker.port)
        codes.append(joined(client.ask(*join(b"big%d" % number, metadata)))[0])
        client.socket.close()
        most = max(most, broker.resident())
        if number % 100 == 0:
            beat()
    return codes, most


def told(looks):
    """How many looks are wrong, and how many there are."""
    for name, is_well in looks.items():
        if not is_well:
            print(f"wrong: {name}")
    return sum(not it for it in looks.values()), len(looks)


def looked_at(broker, joins):
    """What is wrong, of what was looked at."""
    other, beats = Client(broker.port, b"bob", b"pw2"), []
    code, generation, member = joined(other.ask(*join(b"quiet", b"topics")))
    own = other.ask(*sync(b"quiet", generation, member))
    before, began = broker.resident(), time.monotonic()
    codes, most = flood(broker, joins, lambda: beats.append(struct.unpack(">h", other.ask(*heartbeat(b"quiet", generation, member)))[0]))
    taken = codes.count(0)
    looks = {
        "another tenant's join": code == 0,
        "another tenant's assignment": own.endswith(b"partition"),
        "another tenant's heartbeats": beats and not any(beats),
        "some joins are taken": taken > 20,
        "the first ones are taken, and all others refused with 81": codes == [0] * taken + [81] * (joins - taken),
        "most are refused": joins - taken > 100,
        "memory": most < MOST,
    }
    print(f"{joins} joins in {time.monotonic() - began:.0f} s: {taken} taken, {codes.count(81)} answered 81; "
          f"{before} bytes before, {most} at most; {len(beats)} heartbeats of another tenant")
    return told(looks)


def limited(broker):
    """What is wrong where the settings limit a tenant's groups."""
    def code(name, password, group, size):
        return joined(Client(broker.port, name, password).ask(*join(group, bytes(size))))[0]

    looks = {
        "a group within its limits": code(b"ann", b"pw1", b"one", METADATA) == 0,
        "more bytes than it may keep": code(b"ann", b"pw1", b"two", METADATA) == 81,
        "a second group": code(b"ann", b"pw1", b"two", 100) == 0,
        "a third group": code(b"ann", b"pw1", b"three", 100) == 15,
        "three groups of another tenant": [code(b"bob", b"pw2", b"g%d" % n, METADATA) for n in range(3)] == [0, 0, 0],
    }
    return told(looks)


def deletion(group):
    """Deletes a group; the error code."""
    return 42, 0, struct.pack(">i", 1) + text(group), lambda got: struct.unpack_from(">h", got, 10 + len(group))[0]


def group_of(number):
    """A group's id of ten bytes."""
    return b"group%05d" % number


def full(broker):
    """What is wrong where a tenant commits texts until it is refused."""
    ann, bob, beside = Client(broker.port), Client(broker.port, b"bob", b"pw2"), b"x" * BESIDE
    made = [it.create(b"read") for it in (ann, bob)]
    before, most, codes, began = broker.resident(), 0, [], time.monotonic()
    for first in range(0, OFFSETS, 400):
        codes += ann.all([commit(group_of(it), b"read", beside, it) for it in range(first, first + 400)])
        most = max(most, broker.resident())
    fit = TEXTS // (BESIDE + len(group_of(0)))
    print(f"{OFFSETS} commits in {time.monotonic() - began:.0f} s: {codes.count(0)} taken; {before} bytes before, {most} at most")
    looks = {
        "topics are made": made == [0, 0],
        "the commits that fit are taken, and all others refused with 44": codes == [0] * fit + [44] * (OFFSETS - fit),
        "memory with texts": most < MOST,
        "one that moves": ann.all([commit(group_of(7), b"read", beside, 99), committed(group_of(7), b"read")]) == [0, 99],
        "another tenant's commit": bob.all([commit(b"own", b"read", beside, 5), committed(b"own", b"read")]) == [0, 5],
    }
    return told(looks)


def full_again(broker):
    """What is wrong after a kill: the texts are counted."""
    ann, beside, more = Client(broker.port), b"x" * BESIDE, b"x" * (BESIDE + 96)
    left = TEXTS % (BESIDE + len(group_of(0))) // 96
    looks = {
        "a commit that moved is there": ann.all([committed(group_of(7), b"read")]) == [99],
        "texts are counted after a start": ann.commit(b"another-group", b"read", beside) == 44,
        "longer texts, as far as there is room": [ann.commit(group_of(20 + it), b"read", more) for it in range(left + 2)] == [0] * left + [44] * 2,
        "a shorter text makes room": [ann.commit(group_of(it), b"read", b"") for it in (9, 10)] == [0, 0]
        and ann.commit(b"another-group", b"read", beside) == 0,
        "a deleted group makes room": ann.all([deletion(group_of(11)), deletion(group_of(12))]) == [0, 0]
        and [ann.commit(b"new-group-%d" % it, b"read", beside) for it in range(2)] == [0, 0],
    }
    print(f"{broker.resident()} bytes after a start")
    return told(looks)


def main(program, joins=JOINS):
    """Whether groups' memory has its limit."""
    sums = [0, 0]
    for more, *looks in (("", lambda broker: looked_at(broker, joins)), (SMALL, limited), ("", full, full_again)):
        with tempfile.TemporaryDirectory() as room:
            for look in looks:
                broker = Broker(program, room, more)
                try:
                    if not broker.listens():
                        print(f"the broker does not listen: {broker.log()}")
                        return 1
                    sums = [before + here for before, here in zip(sums, look(broker))]
                finally:
                    broker.stop()
    print(f"{sums[0]} of {sums[1]} wrong")
    return 1 if sums[0] else 0


if __name__ == "__main__":
    if not 2 <= len(sys.argv) <= 3:
        sys.exit(__doc__)
    sys.exit(main(sys.argv[1], *map(int, sys.argv[2:])))
