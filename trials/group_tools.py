#!/usr/bin/python3
"""Tools that list, describe and delete consumer groups, for each of two tenants.

    trials/group_tools.py KBROKER

Two tenants have groups of the same name and others, in each state that a group has. Each is asked by frames of each version of
ListGroups and DescribeGroups, whose bytes are composed here, by kafka-python's admin client and by confluent_kafka's `list_groups`.

Then groups are deleted by kafka-python's `delete_consumer_groups`, by librdkafka's `rd_kafka_DeleteGroups` and by frames of each version:
such as committed, such as have members, and such as are not there. The broker is killed (SIGKILL) between, and starts again. What each
tenant's groups committed is asked after each.

It says what each tenant has, and how many of the answers are wrong. It needs Debian's python3-kafka and python3-confluent-kafka.
"""

import ctypes
import itertools
import struct
import sys
import tempfile
import time

from wire import Broker, Client, Cursor, commit, create, in_debians_python, text

in_debians_python("confluent_kafka", "kafka")

import confluent_kafka.admin
import kafka

USERS = {"ann": "pw1", "bob": "pw2"}
LIST, DESCRIBE, DELETE = 16, 15, 42
DELETED, ILLEGAL, NON_EMPTY, NOT_FOUND = 0, 24, 68, 69
VERSIONS = (0, 1, 2)


def blob(value):
    """BYTES."""
    return struct.pack(">i", len(value)) + value


def topics(*names):
    """What a consumer says of itself under its protocol: the topics that it asks for."""
    return struct.pack(">hi", 0, len(names)) + b"".join(text(name) for name in names) + struct.pack(">i", -1)


def share(topic, *partitions):
    """What a consumer is assigned: partitions of a topic."""
    numbers = struct.pack(f">{len(partitions)}i", *partitions)
    return struct.pack(">hi", 0, 1) + text(topic) + struct.pack(">i", len(partitions)) + numbers + struct.pack(">i", -1)


class Member(Client):
    """A member of a group, on a connection of its own."""

    def __init__(self, port, user, group, metadata):
        super().__init__(port, user.encode(), USERS[user].encode())
        self.group, self.metadata, self.id = group, metadata, b""

    def asks_to_join(self):
        """JoinGroup, by the protocols `range` and `roundrobin`."""
        protocols = text(b"range") + blob(self.metadata) + text(b"roundrobin") + blob(b"other")
        body = text(self.group) + struct.pack(">ii", 600_000, 600_000) + text(self.id) + text(b"consumer") + struct.pack(">i", 2) + protocols
        self.send([(11, 1, body)])

    def joined(self):
        """The reply to it: the member's id is kept, and its generation given."""
        got = Cursor(self.hear())
        code, generation = got.take(">h"), got.take(">i")
        got.text(), got.text()
        self.id = got.text()
        if code:
            raise SystemExit(f"JoinGroup: {code}")
        return generation

    def syncs(self, generation, shares):
        """SyncGroup: a leader gives each member its share."""
        given = b"".join(text(name) + blob(part) for name, part in shares.items())
        self.ask(14, 0, text(self.group) + struct.pack(">i", generation) + text(self.id) + struct.pack(">i", len(shares)) + given)

    def sees_another(self, generation):
        """Waits until another one's join has come: Heartbeat is answered 27 then."""
        for _ in range(1000):
            if struct.unpack(">h", self.ask(12, 0, text(self.group) + struct.pack(">i", generation) + text(self.id)))[0] == 27:
                return
            time.sleep(0.01)
        raise SystemExit("no other member has joined")

    def leaves(self):
        """LeaveGroup."""
        self.ask(13, 0, text(self.group) + text(self.id))


class Group:
    """What is to be told of a group."""

    def __init__(self, name, state, protocol=b"", members=(), kind=b"consumer"):
        self.name, self.state, self.protocol, self.members, self.kind = name, state, protocol, list(members), kind

    def spelled(self):
        """Its bytes in the reply of DescribeGroups (Kafka protocol guide). Which client a member is, and where, is not told."""
        members = b"".join(text(name) + text(b"") + text(b"") + blob(metadata) + blob(part) for name, metadata, part in self.members)
        head = struct.pack(">h", 0) + text(self.name) + text(self.state) + text(self.kind) + text(self.protocol)
        return head + struct.pack(">i", len(self.members)) + members


def make_groups(port, user, topic):
    """Groups of a user in each state: what is to be told of them, by name, and the members, who stay connected."""
    words = topics(topic)
    lead, other = Member(port, user, b"orders", words), Member(port, user, b"orders", words)
    lead.asks_to_join()
    first = lead.joined()
    lead.syncs(first, {lead.id: share(topic, 0)})
    other.asks_to_join()
    lead.sees_another(first)
    lead.asks_to_join()
    second, _ = lead.joined(), other.joined()
    parts = {lead.id: share(topic, 0), other.id: share(topic, 1, 2)}
    lead.syncs(second, parts)
    new, gone = Member(port, user, b"new", words), Member(port, user, b"gone", words)
    old, late = Member(port, user, b"waiting", words), Member(port, user, b"waiting", words)
    for member in (new, gone, old):
        member.asks_to_join()
        member.joined()
    gone.leaves()
    old.syncs(1, {old.id: share(topic, 0)})
    late.asks_to_join()
    old.sees_another(1)
    numbers = sorted(int(it.id[2:]) for it in (lead, other, new, gone, old))
    late.id = b"m-%d" % (numbers[-1] + 1)
    groups = [
        Group(b"gone", b"Empty"),
        Group(b"new", b"CompletingRebalance", members=[(new.id, b"", b"")]),
        Group(b"orders", b"Stable", b"range", [(it.id, words, parts[it.id]) for it in (lead, other)]),
        Group(b"waiting", b"PreparingRebalance", members=[(it.id, b"", b"") for it in (old, late)]),
    ]
    return groups, [lead, other, new, gone, old, late]


class Count:
    """How many answers were looked at, and how many are wrong."""

    def __init__(self):
        self.all = self.wrong = 0

    def must(self, what, got, wanted):
        """Counts an answer, and says where it is another one than is wanted."""
        self.all += 1
        if got != wanted:
            self.wrong += 1
            print(f"WRONG {what}: {got!r}, and not {wanted!r}")


def ask_by_frames(count, port, user, groups):
    """Each version of both, for all groups, for each alone, for one that is named twice, and for one that is not there."""
    client = Client(port, user.encode(), USERS[user].encode())
    dead = Group(b"of-nobody", b"Dead", kind=b"")
    listed = struct.pack(">hi", 0, len(groups)) + b"".join(text(it.name) + text(it.kind) for it in groups)
    for version in VERSIONS:
        front = struct.pack(">i", 0) if version else b""
        count.must(f"{user}, ListGroups {version}", client.ask(LIST, version, b""), front + listed)
        for asked in ([], groups, [dead], [*groups[:2], dead, groups[0]], *([it] for it in groups)):
            body = struct.pack(">i", len(asked)) + b"".join(text(it.name) for it in asked)
            wanted = front + struct.pack(">i", len(asked)) + b"".join(it.spelled() for it in asked)
            names = b", ".join(it.name for it in asked).decode()
            count.must(f"{user}, DescribeGroups {version} of {names}", client.ask(DESCRIBE, version, body), wanted)


def ask_kafka_python(count, port, user, groups):
    """kafka-python's admin client lists and describes groups, and reads what members say of themselves and are assigned."""
    admin = kafka.KafkaAdminClient(
        bootstrap_servers=f"127.0.0.1:{port}", security_protocol="SASL_PLAINTEXT", sasl_mechanism="PLAIN",
        sasl_plain_username=user, sasl_plain_password=USERS[user])
    listed = admin.list_consumer_groups()
    count.must(f"{user}, kafka-python lists", sorted(listed), [(it.name.decode(), it.kind.decode()) for it in groups])
    told = {it.group: it for it in admin.describe_consumer_groups([it.name.decode() for it in groups])}
    for group in groups:
        name = group.name.decode()
        it = told[name]
        count.must(f"{user}, kafka-python, {name}", (it.state, it.protocol_type, it.protocol),
                   (group.state.decode(), group.kind.decode(), group.protocol.decode()))
        members = [(m.member_id.encode(), m.member_metadata and m.member_metadata.encode(), m.member_assignment and m.member_assignment.encode())
                   for m in it.members]
        count.must(f"{user}, kafka-python, members of {name}", members, group.members)
    admin.close()
    return listed


def ask_librdkafka(count, port, user, groups):
    """confluent_kafka's `list_groups`, of all groups and of one."""
    admin = confluent_kafka.admin.AdminClient({
        "bootstrap.servers": f"127.0.0.1:{port}", "security.protocol": "SASL_PLAINTEXT", "sasl.mechanisms": "PLAIN",
        "sasl.username": user, "sasl.password": USERS[user]})
    for name in (None, "orders"):
        told = admin.list_groups(name, timeout=10) if name else admin.list_groups(timeout=10)
        got = sorted((it.id, it.state, it.protocol_type, it.protocol, [(m.id, m.metadata, m.assignment) for m in it.members]) for it in told)
        wanted = [(it.name.decode(), it.state.decode(), it.kind.decode(), it.protocol.decode(),
                   [(m[0].decode(), m[1], m[2]) for m in it.members]) for it in groups if name in (None, it.name.decode())]
        count.must(f"{user}, confluent_kafka, {name or 'all groups'}", got, wanted)


def offsets_of(client, group):
    """All that a group committed, by topic and partition: OffsetFetch 2 of all topics."""
    got, offsets = Cursor(client.ask(9, 2, text(group) + struct.pack(">i", -1))), {}
    for _ in range(got.take(">i")):
        topic = got.text()
        for _ in range(got.take(">i")):
            partition = got.take(">i")
            offsets[topic, partition] = got.take(">q")
            got.text(), got.take(">h")
    return offsets


class Committed:
    """What groups of both users committed, as it is to be."""

    def __init__(self, count):
        self.count, self.groups = count, {}

    def make(self, port):
        """Both users have a topic of three partitions, to each of which some groups commit. `gone` has a member that left it."""
        for user in USERS:
            client, topic = Client(port, user.encode(), USERS[user].encode()), b"of-" + user.encode()
            self.count.must(f"{user} makes a topic", client.all([create(topic, 3)]), [0])
            for number, group in enumerate((b"done", b"gone", b"kept", b"late")):
                offsets = {(topic, part): 100 * number + part for part in range(3)}
                codes = client.all([commit(group, topic, offset=offset, partition=part) for (_, part), offset in offsets.items()])
                self.count.must(f"{user} commits", codes, [0, 0, 0])
                self.groups[user, group] = offsets

    def look(self, port, when):
        """Each group of each user has what it is to have."""
        for (user, group), wanted in self.groups.items():
            got = offsets_of(Client(port, user.encode(), USERS[user].encode()), group)
            self.count.must(f"{when}: offsets of {user}'s {group.decode()}", got, wanted)

    def deleted(self, user, what, got, wanted):
        """Counts what a deletion was answered, group by group. What was deleted has committed nothing."""
        self.count.must(f"{user}, {what}", got, wanted)
        for group, code in wanted.items():
            if code == DELETED and (user, group) in self.groups:
                self.groups[user, group] = {}


def delete_by_frames(port, user, version, groups):
    """DeleteGroups; the error code of each entry, in order."""
    client = Client(port, user.encode(), USERS[user].encode())
    got = Cursor(client.ask(DELETE, version, struct.pack(">i", len(groups)) + b"".join(text(it) for it in groups)))
    throttled = got.take(">i")
    codes = [(got.text(), got.take(">h")) for _ in range(got.take(">i"))]
    if throttled or got.at != len(got.got):
        raise SystemExit(f"a reply of DeleteGroups: {got.got!r}")
    return codes


def delete_by_kafka_python(port, user, groups):
    """The error code of each group, as kafka-python's admin client tells it."""
    admin = kafka.KafkaAdminClient(
        bootstrap_servers=f"127.0.0.1:{port}", security_protocol="SASL_PLAINTEXT", sasl_mechanism="PLAIN",
        sasl_plain_username=user, sasl_plain_password=USERS[user])
    told = admin.delete_consumer_groups([it.decode() for it in groups])
    admin.close()
    return {name.encode(): error.errno for name, error in told}


def delete_by_librdkafka(port, user, groups):
    """The error code of each group, as librdkafka tells it. Debian's confluent_kafka has no call for it: the library's own is made."""
    lib, words = ctypes.CDLL("librdkafka.so.1"), ctypes.create_string_buffer(512)

    def call(name, result, *values):
        it = getattr(lib, f"rd_kafka_{name}")
        it.restype = result
        return it(*values)

    pointer = ctypes.c_void_p
    conf = pointer(call("conf_new", pointer))
    for key, value in (("bootstrap.servers", f"127.0.0.1:{port}"), ("security.protocol", "SASL_PLAINTEXT"),
                       ("sasl.mechanisms", "PLAIN"), ("sasl.username", user), ("sasl.password", USERS[user])):
        if call("conf_set", ctypes.c_int, conf, key.encode(), value.encode(), words, ctypes.c_size_t(512)):
            raise SystemExit(words.value)
    client = pointer(call("new", pointer, 0, conf, words, ctypes.c_size_t(512)))
    queue = pointer(call("queue_new", pointer, client))
    asked = (pointer * len(groups))(*(call("DeleteGroup_new", pointer, it) for it in groups))
    call("DeleteGroups", None, client, asked, ctypes.c_size_t(len(groups)), None, queue)
    event = pointer(call("queue_poll", pointer, queue, 60_000))
    count, codes = ctypes.c_size_t(0), {}
    if event:
        result = pointer(call("event_DeleteGroups_result", pointer, event))
        told = call("DeleteGroups_result_groups", ctypes.POINTER(pointer), result, ctypes.byref(count))
        for place in range(count.value):
            name = call("group_result_name", ctypes.c_char_p, pointer(told[place]))
            error = call("group_result_error", pointer, pointer(told[place]))
            codes[name] = call("error_code", ctypes.c_int, pointer(error)) if error else DELETED
        call("event_destroy", None, event)
    call("queue_destroy", None, queue)
    call("destroy", None, client)
    return codes


def delete_groups(count, committed, port):
    """Groups are deleted by each client, of one tenant after the other."""
    wanted = {b"done": DELETED, b"orders": NON_EMPTY, b"of-nobody": NOT_FOUND}
    committed.deleted("ann", "kafka-python deletes", delete_by_kafka_python(port, "ann", list(wanted)), wanted)
    committed.look(port, "after kafka-python")
    wanted = {b"gone": DELETED, b"waiting": NON_EMPTY, b"done": NOT_FOUND}
    committed.deleted("ann", "librdkafka deletes", delete_by_librdkafka(port, "ann", list(wanted)), wanted)
    committed.look(port, "after librdkafka")
    twice = [(b"late", DELETED), (b"", ILLEGAL), (b"late", NOT_FOUND), (b"new", NON_EMPTY), (b"gone", NOT_FOUND)]
    count.must("ann, DeleteGroups 0", delete_by_frames(port, "ann", 0, [it[0] for it in twice]), twice)
    committed.groups["ann", b"late"] = {}
    committed.look(port, "after DeleteGroups 0")
    ann = Client(port, b"ann", b"pw1")
    listed = struct.pack(">hi", 0, 3) + b"".join(text(it) + text(b"consumer") for it in (b"new", b"orders", b"waiting"))
    count.must("ann, ListGroups after deletions", ann.ask(LIST, 0, b""), listed)


def main(program):
    """Both tenants."""
    count = Count()
    with tempfile.TemporaryDirectory() as room:
        broker = Broker(program, room)
        try:
            if not broker.listens():
                raise SystemExit(broker.log())
            made = {user: make_groups(broker.port, user, f"of-{user}".encode()) for user in USERS}
            only = Member(broker.port, "bob", b"bobs", topics(b"of-bob"))
            only.asks_to_join()
            only.joined()
            made["bob"][0].insert(0, Group(b"bobs", b"CompletingRebalance", members=[(only.id, b"", b"")]))
            for (user, (groups, _)), ask in itertools.product(made.items(), (ask_by_frames, ask_kafka_python, ask_librdkafka)):
                ask(count, broker.port, user, groups)
            for user, (groups, _) in made.items():
                print(f"{user}: " + ", ".join(f"{it.name.decode()} {it.state.decode()}" for it in groups))
            committed = Committed(count)
            committed.make(broker.port)
            committed.look(broker.port, "before a deletion")
            delete_groups(count, committed, broker.port)
            broker.stop()
            broker = Broker(program, room)
            if not broker.listens():
                raise SystemExit(broker.log())
            committed.look(broker.port, "after a kill and a start")
            # (nobody is a member of a group any more)
            again = [(b"orders", NOT_FOUND), (b"done", DELETED), (b"kept", DELETED)]
            count.must("bob, DeleteGroups 1", delete_by_frames(broker.port, "bob", 1, [it[0] for it in again]), again)
            committed.groups["bob", b"done"] = committed.groups["bob", b"kept"] = {}
            committed.look(broker.port, "after DeleteGroups 1")
            broker.stop()
            broker = Broker(program, room)
            if not broker.listens():
                raise SystemExit(broker.log())
            committed.look(broker.port, "after another start")
            left = [f"{user}'s {group.decode()}" for (user, group), offsets in committed.groups.items() if offsets]
            print("what was committed is left of " + ", ".join(left))
        finally:
            broker.stop()
    print(f"{count.wrong} of {count.all} wrong")
    return 1 if count.wrong else 0


if __name__ == "__main__":
    if len(sys.argv) != 2:
        raise SystemExit(__doc__)
    sys.exit(main(sys.argv[1]))
