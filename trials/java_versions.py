#!/usr/bin/env python3
"""The versions that Kafka's Java client 4.x chooses, one cycle of admin, producer and group for each of two tenants.

    trials/java_versions.py KBROKER

It asks for the list as that client does, by an ApiVersions above 0 and then by 0, and takes of each API the greatest version that
both have, none below what the client has. Each tenant makes a topic, writes to it, reads it by two members of a group, commits, and
deletes it. Both use the same names at the same time, and neither sees the other.
"""

import struct
import sys
import tempfile
import time

from wire import Broker, Client, Cursor, batch, place, text

# The versions that the client has of an API, from the least to the greatest (Apache Kafka 4.0, `clients/src/main/resources/common/message`).
CLIENT = {
    "Produce": (0, 3, 12), "Fetch": (1, 4, 17), "ListOffsets": (2, 1, 10), "Metadata": (3, 0, 13), "OffsetCommit": (8, 2, 9),
    "OffsetFetch": (9, 1, 9), "FindCoordinator": (10, 0, 6), "JoinGroup": (11, 2, 9), "Heartbeat": (12, 0, 4), "LeaveGroup": (13, 0, 5),
    "SyncGroup": (14, 0, 5), "CreateTopics": (19, 2, 7), "DeleteTopics": (20, 1, 6), "DeleteRecords": (21, 0, 2),
    "InitProducerId": (22, 0, 5),
}
GROUP, TOPIC = b"orders-readers", b"orders"


class Java(Client):
    """A connection that asks by these versions, and reads their replies field by field."""

    def __init__(self, port, user, password):
        super().__init__(port, user, password)
        code, _ = self.listed(4, b"\x0bkafka-java\x064.0.0\0")
        if code != 35:
            raise SystemExit(f"an ApiVersions of version 4 is answered {code}")
        _, listed = self.listed(0, b"")
        if [self.listed(version, b"")[1] for version in (1, 2)] != [listed, listed]:
            raise SystemExit("ApiVersions 1 and 2 list something else than 0")
        self.versions = {}
        for name, (key, least, greatest) in CLIENT.items():
            self.versions[name] = min(greatest, listed[key][1])
            if self.versions[name] < max(least, listed[key][0]):
                raise SystemExit(f"no version of {name} is both the client's and listed")

    def listed(self, version, body):
        """The error code of an ApiVersions, and the least and greatest version of each key."""
        got = Cursor(self.ask(18, version, body))
        code = got.take(">h")
        versions = {got.take(">h"): (got.take(">h"), got.take(">h")) for _ in range(got.take(">i"))}
        if code == 0 and version >= 1 and got.take(">i") != 0:
            raise SystemExit("ApiVersions: it does not end with a throttle time of 0")
        return code, versions

    def call(self, name, body, throttled):
        """The reply to a request of the version that was chosen. A throttle time in front of it is 0."""
        got = Cursor(self.ask(CLIENT[name][0], self.versions[name], body))
        if throttled <= self.versions[name] and got.take(">i") != 0:
            raise SystemExit(f"{name}: it does not begin with a throttle time of 0")
        return got

    @staticmethod
    def no_epoch(name, got):
        """An epoch of a leader, which is -1: none is known."""
        if got.take(">i") != -1:
            raise SystemExit(f"{name}: the epoch of a leader is not -1")

    def ask_all(self, name, body):
        """Sends a request whose reply is to be awaited with `heard`."""
        self.send([(CLIENT[name][0], self.versions[name], body)])

    def heard(self):
        """The reply to a join or a sync, behind its throttle time."""
        got = Cursor(self.hear())
        if got.take(">i") != 0:
            raise SystemExit("it does not begin with a throttle time of 0")
        return got

    # ---- Admin

    def make(self, name):
        """CreateTopics: the error code."""
        body = struct.pack(">i", 1) + text(name) + struct.pack(">ihii", 2, 1, 0, 0) + struct.pack(">ib", 5000, 0)
        got = self.call("CreateTopics", body, 2)
        return [(got.text(), got.take(">h"), got.text()) for _ in range(got.take(">i"))]

    def drop(self, name):
        """DeleteTopics: the error codes."""
        got = self.call("DeleteTopics", struct.pack(">i", 1) + text(name) + struct.pack(">i", 5000), 1)
        return [(got.text(), got.take(">h")) for _ in range(got.take(">i"))]

    def cut(self, name, offset):
        """DeleteRecords: the log's start and the error code."""
        got = self.call("DeleteRecords", place(name) + struct.pack(">qi", offset, 5000), 0)
        got.take(">i"), got.text(), got.take(">i"), got.take(">i")
        return got.take(">q"), got.take(">h")

    def names(self):
        """Metadata: the names of all topics, and the error code of each."""
        got = self.call("Metadata", struct.pack(">ib", -1, 0), 3)
        for _ in range(got.take(">i")):
            got.take(">i"), got.text(), got.take(">i"), got.text()
        got.text(), got.take(">i")
        names = []
        for _ in range(got.take(">i")):
            names.append((got.take(">h"), got.text()))
            got.take(">?")
            for _ in range(got.take(">i")):
                got.take(">h"), got.take(">i"), got.take(">i")
                if self.versions["Metadata"] >= 7:
                    self.no_epoch("Metadata", got)
                got.array(">i"), got.array(">i")
                if self.versions["Metadata"] >= 5 and got.array(">i") != []:
                    raise SystemExit("Metadata: a replica is offline")
        return names

    # ---- Producer

    def id(self):
        """InitProducerId: the error code, the id and the epoch."""
        got = self.call("InitProducerId", struct.pack(">hi", -1, 60_000), 0)
        return got.take(">h"), got.take(">q"), got.take(">h")

    def write(self, name, value):
        """Produce: the error code, the offset, and from version 5 on where the log starts."""
        sent = batch(value)
        body = struct.pack(">hhi", -1, -1, 5000) + place(name) + struct.pack(">i", len(sent)) + sent
        got = self.call("Produce", body, 99)
        got.take(">i"), got.text(), got.take(">i"), got.take(">i")
        code, offset, _ = got.take(">h"), got.take(">q"), got.take(">q")
        return code, offset, got.take(">q") if self.versions["Produce"] >= 5 else 0

    # ---- Consumer

    def find(self):
        """FindCoordinator: the error code and the port."""
        return self.coordinator(GROUP, 0)

    def coordinator(self, key, kind):
        """FindCoordinator for a key of a type, which version 0 does not say: the error code and the port."""
        typed = self.versions["FindCoordinator"] >= 1
        got = self.call("FindCoordinator", text(key) + (struct.pack(">b", kind) if typed else b""), 1)
        code = got.take(">h")
        if typed and got.text() is not None:
            raise SystemExit("FindCoordinator: a message that is not null")
        got.take(">i"), got.text()
        return code, got.take(">i")

    def join(self, member):
        """Asks to join."""
        self.ask_all("JoinGroup", text(GROUP) + struct.pack(">ii", 10_000, 20_000) + text(member) + text(b"consumer")
                     + struct.pack(">i", 1) + text(b"range") + struct.pack(">i", 2) + b"\0\0")

    def joined(self):
        """JoinGroup: the error code, the generation, the member, and those that the leader is told of."""
        got = self.heard()
        code, generation = got.take(">h"), got.take(">i")
        got.text(), got.text()
        member, members = got.text(), []
        for _ in range(got.take(">i")):
            members.append(got.text())
            got.take(f"{got.take('>i')}s")
        return code, generation, member, members

    def sync(self, generation, member, parts):
        """Asks for its part, which a leader gives to each."""
        given = b"".join(text(k) + struct.pack(">i", len(v)) + v for k, v in parts.items())
        self.ask_all("SyncGroup", text(GROUP) + struct.pack(">i", generation) + text(member) + struct.pack(">i", len(parts)) + given)

    def synced(self):
        """SyncGroup: the error code and the part."""
        got = self.heard()
        return got.take(">h"), got.take(f"{got.take('>i')}s")

    def beat(self, generation, member):
        """Heartbeat: the error code."""
        return self.call("Heartbeat", text(GROUP) + struct.pack(">i", generation) + text(member), 1).take(">h")

    def leave(self, member):
        """LeaveGroup: the error code."""
        return self.call("LeaveGroup", text(GROUP) + text(member), 1).take(">h")

    def commit(self, generation, member, offset):
        """OffsetCommit: the error code."""
        retention = struct.pack(">q", -1) if self.versions["OffsetCommit"] < 5 else b""
        body = text(GROUP) + struct.pack(">i", generation) + text(member) + retention + place(TOPIC)
        epoch = struct.pack(">i", 3) if self.versions["OffsetCommit"] >= 6 else b""
        got = self.call("OffsetCommit", body + struct.pack(">q", offset) + epoch + text(b""), 3)
        got.take(">i"), got.text(), got.take(">i"), got.take(">i")
        return got.take(">h")

    def committed(self):
        """OffsetFetch: the offset."""
        got = self.call("OffsetFetch", text(GROUP) + place(TOPIC), 3)
        got.take(">i"), got.text(), got.take(">i"), got.take(">i")
        offset = got.take(">q")
        if self.versions["OffsetFetch"] >= 5:
            self.no_epoch("OffsetFetch", got)
        return offset

    def end(self):
        """ListOffsets: the end of the log."""
        level = struct.pack(">b", 1) if self.versions["ListOffsets"] >= 2 else b""
        epochs = self.versions["ListOffsets"] >= 4
        epoch = struct.pack(">i", 3) if epochs else b""
        got = self.call("ListOffsets", struct.pack(">i", -1) + level + place(TOPIC) + epoch + struct.pack(">q", -1), 2)
        got.take(">i"), got.text(), got.take(">i"), got.take(">i")
        found = got.take(">h"), got.take(">q"), got.take(">q")
        if epochs:
            self.no_epoch("ListOffsets", got)
        return found

    def fetch(self, offset, epoch, named=0):
        """Fetch: the error code of its session, the session, and how many topics follow. A version without sessions has neither."""
        version = self.versions["Fetch"]
        session = struct.pack(">ii", named, epoch) if version >= 7 else b""
        leader = struct.pack(">i", 7) if version >= 9 else b""
        asked = place(TOPIC) + leader + struct.pack(">qqi", offset, -1, 1 << 20)
        body = struct.pack(">iiiib", -1, 0, 1, 1 << 20, 0) + session + asked + (struct.pack(">i", 0) if version >= 7 else b"")
        got = self.call("Fetch", body, 1)
        code, found = (got.take(">h"), got.take(">i")) if version >= 7 else (0, 0)
        return code, found, got.take(">i"), got

    def goes_on(self, named):
        """A fetch that goes on with a session: its error code, the session and how many topics follow. The client begins anew then."""
        return self.fetch(0, 1, named)[:3] if self.versions["Fetch"] >= 7 else (70, 0, 0)

    def read(self, offset):
        """A full fetch, which begins a session: the error code, the high watermark, the log's start, and the bytes."""
        code, found, _, got = self.fetch(offset, 0)
        must("the session of a full fetch", (code, found), (0, 0))
        got.text(), got.take(">i"), got.take(">i")
        code, mark = got.take(">h"), got.take(">q")
        got.take(">q")
        start, _ = got.take(">q"), got.take(">i")
        return code, mark, start, got.take(f"{got.take('>i')}s")


def must(what, got, wanted):
    """Ends where something else came than is wanted."""
    if got != wanted:
        raise SystemExit(f"{what}: {got!r}, and not {wanted!r}")


def soon(ask, wanted):
    """What is answered, once it is what is wanted or two seconds are over: another connection's request may be read after this one's."""
    over = time.monotonic() + 2
    got = ask()
    while got != wanted and time.monotonic() < over:
        got = ask()
    return got


def group(port, one, two, value):
    """Two members of a group share a topic; the first one leads, and commits."""
    must("FindCoordinator", one.find(), (0, port))
    must("FindCoordinator of a transaction", one.coordinator(b"payments", 1), (53, -1))
    one.join(b"")
    code, first, lead, members = one.joined()
    must("JoinGroup", (code, members), (0, [lead]))
    one.sync(first, lead, {lead: b"all"})
    must("SyncGroup", one.synced(), (0, b"all"))
    two.join(b"")
    must("Heartbeat in a rebalance", soon(lambda: one.beat(first, lead), 27), 27)
    one.join(lead)
    code, second, again, members = one.joined()
    other_code, generation, other, none = two.joined()
    must("JoinGroup of two", (code, other_code, again, generation, none), (0, 0, lead, second, []))
    must("the members", sorted(members), sorted([lead, other]))
    two.sync(second, other, {})
    one.sync(second, lead, {lead: b"0", other: b"1"})
    must("SyncGroup of two", (one.synced(), two.synced()), ((0, b"0"), (0, b"1")))
    must("Heartbeat", (one.beat(second, lead), two.beat(second, other)), (0, 0))
    for _ in range(2):
        code, mark, start, got = one.read(0)
        must("Fetch", (code, mark, start, value in got), (0, 2, 0, True))
        must("Fetch in a session", [one.goes_on(named) for named in (0, 5)], [(70, 0, 0)] * 2)
        must("Fetch that ends a session", [one.fetch(0, epoch, 5)[:3] for epoch in (0, -1)], [(0, 0, 1)] * 2)
    must("OffsetCommit", (one.commit(second, lead, 2), one.commit(first, lead, 1), one.committed()), (0, 22, 2))
    must("LeaveGroup", (two.leave(other), one.leave(lead), one.leave(lead)), (0, 0, 25))


def cycle(port, one, two, value):
    """What one tenant does, with a value of its own."""
    must("CreateTopics", one.make(TOPIC), [(TOPIC, 0, None)])
    must("CreateTopics again", one.make(TOPIC)[0][1], 36)
    must("Metadata", one.names(), [(0, TOPIC)])
    must("InitProducerId", one.id()[::2], (0, 0))
    must("Produce", [one.write(TOPIC, value) for _ in range(2)], [(0, 0, 0), (0, 1, 0)])
    must("ListOffsets", one.end()[::2], (0, 2))
    group(port, one, two, value)
    must("DeleteRecords", one.cut(TOPIC, 1), (1, 0))
    must("Produce behind a start", one.write(TOPIC, value), (0, 2, 1 if one.versions["Produce"] >= 5 else 0))


def main(program):
    """Both tenants, each with two connections."""
    with tempfile.TemporaryDirectory() as room:
        broker = Broker(program, room)
        try:
            if not broker.listens():
                raise SystemExit(broker.log())
            tenants = []
            for user, value in (((b"ann", b"pw1"), b"of-ann"), ((b"bob", b"pw2"), b"of-bob")):
                one, two = Java(broker.port, *user), Java(broker.port, *user)
                cycle(broker.port, one, two, value)
                tenants.append((one, value))
            for one, value in tenants:
                must("its own records", [other in one.read(1)[3] for _, other in tenants], [other == value for _, other in tenants])
            for one, _ in tenants:
                must("DeleteTopics", (one.drop(TOPIC), one.drop(TOPIC), one.names()), ([(TOPIC, 0)], [(TOPIC, 3)], []))
            print("two tenants, by", ", ".join(f"{name} {version}" for name, version in tenants[0][0].versions.items()))
        finally:
            broker.stop()


if __name__ == "__main__":
    if len(sys.argv) != 2:
        raise SystemExit(__doc__)
    main(sys.argv[1])
