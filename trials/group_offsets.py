#!/usr/bin/env python3
"""What tools ask of the offsets of groups: OffsetFetch of versions 1 to 5, of some partitions and of all that a group committed.

    trials/group_offsets.py KBROKER

Two tenants use the same names. Each version is asked by hand-made frames, and each reply is read to its end. What is committed by
OffsetCommit of versions 1 to 6 is read back. Then kafka-python's
`list_consumer_group_offsets` asks the same, where the package python3-kafka is there. It prints how many answers were wrong.
"""

import struct
import sys
import tempfile

from wire import Broker, Client, Cursor, commit, in_debians_python, text

in_debians_python("kafka")

GROUP, OTHER = b"readers", b"writers"
MANY, ONE = b"b-many", b"a-one"


def named(topics):
    """An array of topics, each with its partitions."""
    return struct.pack(">i", len(topics)) + b"".join(
        text(name) + struct.pack(f">i{len(parts)}i", len(parts), *parts) for name, parts in topics)


def offsets(client, version, group, topics):
    """The answers to an OffsetFetch; None asks for all. The reply has to end behind its last field."""
    body = text(group) + (struct.pack(">i", -1) if topics is None else named(topics))
    got = Cursor(client.ask(9, version, body))
    if version >= 3 and got.take(">i") != 0:
        return "it does not begin with a throttle time of 0"
    answers = []
    for _ in range(got.take(">i")):
        name = got.text()
        for _ in range(got.take(">i")):
            partition, offset = got.take(">i"), got.take(">q")
            if version >= 5 and got.take(">i") != -1:
                return "the epoch of a leader is not -1"
            answers.append((name, partition, offset, got.text(), got.take(">h")))
    if version >= 2 and got.take(">h") != 0:
        return "the code of the whole request is not 0"
    return answers if got.at == len(got.got) else "bytes stand behind it"


def create(client, topic, partitions):
    """CreateTopics 0: the error code."""
    body = struct.pack(">i", 1) + text(topic) + struct.pack(">ihiii", partitions, 1, 0, 0, 5000)
    return struct.unpack_from(">h", client.ask(19, 0, body), 6 + len(topic))[0]


def commit_at(client, group, topic, partition, offset, metadata, version=2):
    """OffsetCommit: the error code. A timestamp or an epoch of a leader, where the version has one, is 77."""
    place = struct.pack(">i", 1) + text(topic) + struct.pack(">ii", 1, partition)
    retention = struct.pack(">q", -1) if 2 <= version <= 4 else b""
    beside = struct.pack(">q", 77) if version == 1 else struct.pack(">i", 77) if version >= 6 else b""
    body = text(group) + struct.pack(">i", -1) + text(b"") + retention + place + struct.pack(">q", offset) + beside + text(metadata)
    got = Cursor(client.ask(8, version, body))
    if version >= 3 and got.take(">i") != 0:
        return "it does not begin with a throttle time of 0"
    told = got.take(">i"), got.text(), got.take(">i"), got.take(">i")
    code = got.take(">h")
    return code if told == (1, topic, 1, partition) and got.at == len(got.got) else "it is not the reply of one partition"


class Tried:
    """What was tried, and what of it was wrong."""

    def __init__(self):
        self.count, self.wrong = 0, 0

    def is_so(self, what, got, wanted):
        self.count += 1
        if got != wanted:
            self.wrong += 1
            print(f"WRONG {what}: {got!r}, and not {wanted!r}")


def frames(tried, ann, bob):
    """Hand-made frames of each version."""
    nothing = [(MANY, 1, -1, b"", 0), (b"none", 0, -1, b"", 0)]
    some = [(MANY, [1]), (b"none", [0])]
    for version in (1, 2, 3, 4, 5):
        tried.is_so(f"version {version}, nothing committed", offsets(ann, version, GROUP, some), nothing)
    for version in (2, 3, 4, 5):
        tried.is_so(f"version {version}, all of nothing", offsets(ann, version, GROUP, None), [])
    for client, first in ((ann, 10), (bob, 20)):
        tried.is_so("topics", [create(client, MANY, 3), create(client, ONE, 1)], [0, 0])
        told = [commit_at(client, GROUP, MANY, 2, first, b"m"), commit_at(client, GROUP, MANY, 0, first + 1, b""),
                client.all([commit(GROUP, ONE, b"", first + 2)])[0], commit_at(client, OTHER, MANY, 1, first + 3, b"w")]
        tried.is_so("commits", told, [0, 0, 0, 0])
    for client, first in ((ann, 10), (bob, 20)):
        every = [(ONE, 0, first + 2, b"", 0), (MANY, 0, first + 1, b"", 0), (MANY, 2, first, b"m", 0)]
        for version in (2, 3, 4, 5):
            tried.is_so(f"version {version}, all", offsets(client, version, GROUP, None), every)
            other = offsets(client, version, OTHER, None)
            tried.is_so(f"version {version}, all of the other group", other, [(MANY, 1, first + 3, b"w", 0)])
            tried.is_so(f"version {version}, all of no group", offsets(client, version, b"nobody", None), [])
        for version in (1, 2, 3, 4, 5):
            asked = [(MANY, 2, first, b"m", 0), (MANY, 1, -1, b"", 0), (ONE, 0, first + 2, b"", 0)]
            tried.is_so(f"version {version}, some", offsets(client, version, GROUP, [(MANY, [2, 1]), (ONE, [0])]), asked)
            tried.is_so(f"version {version}, none", offsets(client, version, GROUP, []), [])


def versions(tried, ann):
    """An offset that is committed by each version of OffsetCommit is read by each of OffsetFetch."""
    for version in (1, 2, 3, 4, 5, 6):
        offset = 100 + version
        tried.is_so(f"a commit of version {version}", commit_at(ann, b"versions", MANY, 1, offset, b"v", version), 0)
        for reader in (1, 2, 3, 4, 5):
            told = offsets(ann, reader, b"versions", [(MANY, [1])])
            tried.is_so(f"version {reader}, behind a commit of version {version}", told, [(MANY, 1, offset, b"v", 0)])


def deleted(tried, ann, bob):
    """What was committed to a topic that is deleted is gone, also where one of its name is made again."""
    tried.is_so("a topic is deleted", ann.delete(MANY), 0)
    tried.is_so("all, behind it", offsets(ann, 2, GROUP, None), [(ONE, 0, 12, b"", 0)])
    tried.is_so("all of the other group, behind it", offsets(ann, 2, OTHER, None), [])
    tried.is_so("a topic is made again", create(ann, MANY, 3), 0)
    tried.is_so("all of the one that is made again", offsets(ann, 4, GROUP, None), [(ONE, 0, 12, b"", 0)])
    tried.is_so("all of the other tenant", len(offsets(bob, 4, GROUP, None)), 3)


def refused(tried, port):
    """A version above those that are listed, and null in version 1, cut the connection."""
    for version, body in ((6, text(GROUP) + struct.pack(">i", -1)), (1, text(GROUP) + struct.pack(">i", -1)), (2, text(GROUP))):
        try:
            tried.is_so(f"version {version}", Client(port).ask(9, version, body), "a cut")
        except ConnectionError:
            tried.is_so(f"version {version}", "a cut", "a cut")


def kafka_python(tried, port):
    """The admin client of kafka-python, if it is there."""
    try:
        from kafka import KafkaAdminClient
    except ImportError:
        print("no kafka-python here: hand-made frames alone")
        return
    for user, word, wanted in (("ann", "pw1", [(ONE.decode(), 0, 12)]),
                               ("bob", "pw2", [(ONE.decode(), 0, 22), (MANY.decode(), 0, 21), (MANY.decode(), 2, 20)])):
        admin = KafkaAdminClient(bootstrap_servers=f"127.0.0.1:{port}", security_protocol="SASL_PLAINTEXT", sasl_mechanism="PLAIN",
                                 sasl_plain_username=user, sasl_plain_password=word, api_version=(0, 11, 0))
        got = admin.list_consumer_group_offsets(GROUP.decode())
        tried.is_so(f"kafka-python, {user}", sorted((at.topic, at.partition, it.offset) for at, it in got.items()), wanted)
        admin.close()


def main(program):
    """All of it, on one broker."""
    tried = Tried()
    with tempfile.TemporaryDirectory() as room:
        broker = Broker(program, room)
        try:
            if not broker.listens():
                raise SystemExit(broker.log())
            ann, bob = Client(broker.port), Client(broker.port, b"bob", b"pw2")
            frames(tried, ann, bob)
            versions(tried, ann)
            deleted(tried, ann, bob)
            refused(tried, broker.port)
            kafka_python(tried, broker.port)
        finally:
            broker.stop()
    print(f"{tried.wrong} of {tried.count} wrong")
    return tried.wrong != 0


if __name__ == "__main__":
    if len(sys.argv) != 2:
        raise SystemExit(__doc__)
    sys.exit(main(sys.argv[1]))
