#!/usr/bin/env python3
"""Starts a broker on folders whose catalog was being written anew when it ended.

    trials/stopped_snapshots.py KBROKER

A broker makes topics, records and commits. From what its catalog says a snapshot is written by hand, as a new generation in a file of its
own, which is put into the folder whole, cut short or damaged, beside the catalog or in its place. Of each state all topics, records and
commits have to be there, with what is written then, over two more starts; or the start is refused and nothing was changed. It prints what
a start did on each, and how many were not so.
"""

import os
import struct
import sys
import tempfile

import wire
from ledger import records_of
from states_after_a_loss import Place, Refused
from wire import batch, castagnoli, text

TOPICS = [b"one", b"two", b"three"]


# ---- A catalog's commands


def number_in(data, at):
    """A zigzag VARINT, and where it ends."""
    number = shift = 0
    while True:
        byte = data[at]
        number |= (byte & 127) << shift
        at, shift = at + 1, shift + 7
        if byte < 128:
            return number >> 1 ^ -(number & 1), at


def commands_in(data):
    """The commands of a catalog's file, one in each batch."""
    at = 48 + struct.unpack_from(">h", data, 28)[0] - 6
    while at + 12 <= len(data):
        size = 12 + struct.unpack_from(">i", data, at + 8)[0]
        _, here = number_in(data, at + 61)
        here += 1
        for _ in range(3):
            _, here = number_in(data, here)
        length, here = number_in(data, here)
        yield data[here:here + length]
        at += size


def snapshot_of(commands):
    """The commands of a snapshot of what a generation's commands come to: topics, starts and commits."""
    topics, starts, commits, instances, issues = {}, {}, {}, 0, 0
    for command in commands:
        kind, rest = command[0], command[1:]
        if kind == 1:
            name = rest[2:2 + struct.unpack_from(">h", rest)[0]]
            topics[name], instances = rest, instances + 1
        elif kind == 2:
            del topics[rest[2:]]
        elif kind == 3:
            issues += 1
        elif kind == 4:
            size = struct.unpack_from(">h", rest)[0]
            commits[rest[:14 + size]] = command
        elif kind == 5:
            starts[rest[:12]] = command
    alive = {struct.unpack_from(">q", it, 2 + struct.unpack_from(">h", it)[0])[0] for it in topics.values()}
    behind = [b"\7" + it for it in topics.values()]
    behind += [it for at, it in starts.items() if struct.unpack_from(">q", at)[0] in alive]
    behind += [it for at, it in commits.items() if struct.unpack_from(">q", at[-12:])[0] in alive]
    return [b"\6" + struct.pack(">iqq", len(behind), instances, issues)] + behind


def header(tenant, generation):
    """The header of a catalog's first file."""
    said = b"KBSG" + struct.pack(">hhqqi", 2, 1, 0, 0, 0) + text(tenant) + struct.pack(">q", generation)
    return said + struct.pack(">I", castagnoli(said))


def batches_of(commands):
    """A batch for each command, at the offsets from 0 on."""
    return [struct.pack(">q", offset) + batch(it, 0)[8:] for offset, it in enumerate(commands)]


# ---- A folder


class Snapshot:
    """A folder whose broker has ended, and a snapshot of its catalog that is not in it yet."""

    def __init__(self, place):
        self.place = place
        client = place.start()
        for topic in TOPICS + [b"gone"]:
            client.create(topic, retention_ms=-1)
            for number in range(3):
                client.produce(topic, batch(b"%s %d" % (topic, number)))
            client.all([wire.commit(b"group", topic, b"before", 1), wire.commit(b"group", topic, b"", 2)])
        client.delete_records(b"two", 1)
        client.delete(b"gone")
        client.all([wire.producer_id()])
        place.stop()
        self.old = place.files()[0]
        numbers = [int(it[:-4]) for it in os.listdir(place.data) if it.endswith(".seg")]
        self.name = f"{max(numbers) + 1:020}.seg"
        tenant = place.read(self.old[0])[30:][:struct.unpack_from(">h", place.read(self.old[0]), 28)[0]]
        self.front = header(tenant, max(numbers) + 1)
        commands = [command for it in self.old for command in commands_in(place.read(it))]
        self.batches = batches_of(snapshot_of(commands))

    def put(self, data):
        self.place.write(self.name, data)

    def whole(self):
        return self.front + b"".join(self.batches)

    def damaged(self):
        """With one bit turned over in a batch that others stand behind."""
        at = len(self.front) + len(self.batches[0]) + 70
        data = bytearray(self.whole())
        data[at] ^= 1
        return bytes(data)

    def drop_old(self):
        for name in self.old:
            self.place.drop(name)

    def has(self, name):
        return os.path.exists(f"{self.place.data}/{name}")


def found(client):
    """All topics, with the values of their records and what was committed."""
    out = {}
    for topic in sorted(client.all([wire.topics()])[0]):
        (_, start), offset = client.all([wire.offset_at(topic, -2), wire.committed(b"group", topic)])
        code, _, data = client.fetch(topic, start)
        out[topic] = code or [(at, value) for at, value, _ in records_of(data)], offset
    return out


def expected(*more):
    """The same as it has to be, with topics that were made since."""
    out = {it: ([(at, b"%s %d" % (it, at)) for at in range(3)], 2) for it in TOPICS}
    out[b"two"] = out[b"two"][0][1:], 2
    for topic in more:
        out[topic] = [(0, topic)], -1
    return dict(sorted(out.items()))


def serves(place, *flags, behind=lambda number: ""):
    """What is wrong over three starts, on the first two of which something is written, and behind each, where that is looked at."""
    made = []
    for number in range(3):
        client = place.start(*(flags if not number else ()))
        got = found(client)
        if got != expected(*made):
            return f"at start {number + 1} there is {got}"
        topic = b"new %d" % number
        made.append(topic.replace(b" ", b"-"))
        client.create(made[-1], retention_ms=-1)
        client.produce(made[-1], batch(made[-1]))
        place.stop()
        wrong = behind(number)
        if wrong:
            return wrong
    return ""


def refuses(place):
    """What is wrong with a start that has to be refused for damage, and to change nothing."""
    before = {it: place.read(it) for it in os.listdir(place.data) if it.endswith(".seg")}
    try:
        place.start()
    except Refused as refused:
        if " has damage: " not in str(refused):
            return f"it is refused otherwise: {refused}"
        now = {it: place.read(it) for it in os.listdir(place.data) if it.endswith(".seg")}
        return "" if now == before else "the folder was changed"
    return "it is not refused"


def stays(snapshot):
    """What is wrong with three starts beside a snapshot that the first one tells of and leaves alone. That one writes the catalog anew, as
    a topic is gone, and so the second removes the snapshot."""
    kept = snapshot.place.read(snapshot.name)

    def behind(number):
        if number:
            return "the snapshot is not removed" if snapshot.has(snapshot.name) else ""
        is_left = snapshot.has(snapshot.name) and snapshot.place.read(snapshot.name) == kept
        return "" if is_left else "the snapshot is not left alone"

    wrong = serves(snapshot.place, behind=behind)
    if wrong:
        return wrong
    log = snapshot.place.broker.log()
    if log.count("snapshots that were not finished: 1\n") != 1:
        return "it is not told once"
    return "" if log.count(f"dropped file {int(snapshot.name[:-4])} whole, ") == 1 else "its removal is not told"


# ---- The states


def header_alone(snapshot):
    """A snapshot has its header alone, beside the catalog."""
    snapshot.put(snapshot.front)
    return stays(snapshot)


def cut_short(snapshot):
    """A snapshot ends within a batch, beside the catalog."""
    snapshot.put(snapshot.whole()[:-20])
    return stays(snapshot)


def not_all(snapshot):
    """A snapshot ends behind a batch that is not its last, beside the catalog."""
    snapshot.put(snapshot.front + b"".join(snapshot.batches[:-1]))
    return stays(snapshot)


def both(snapshot):
    """A whole snapshot beside the catalog that it takes the place of."""
    snapshot.put(snapshot.whole())
    wrong = serves(snapshot.place)
    return wrong or ("the old catalog is there" if any(map(snapshot.has, snapshot.old)) else "")


def alone(snapshot):
    """A whole snapshot in the catalog's place."""
    snapshot.put(snapshot.whole())
    snapshot.drop_old()
    return serves(snapshot.place)


def damaged_alone(snapshot):
    """A damaged snapshot in the catalog's place: refused."""
    snapshot.put(snapshot.damaged())
    snapshot.drop_old()
    return refuses(snapshot.place)


def damaged_beside(snapshot):
    """A damaged snapshot beside the catalog: that says all of it."""
    snapshot.put(snapshot.damaged())
    return stays(snapshot)


def damaged_old(snapshot):
    """A whole snapshot beside the catalog, which is damaged: that is to go."""
    snapshot.put(snapshot.whole())
    data = bytearray(snapshot.place.read(snapshot.old[0]))
    data[150] ^= 1
    snapshot.place.write(snapshot.old[0], bytes(data))
    return serves(snapshot.place)


STATES = [header_alone, cut_short, not_all, both, alone, damaged_alone, damaged_beside, damaged_old]


def main(program):
    count = 0
    for number, state in enumerate(STATES, 1):
        with tempfile.TemporaryDirectory() as room:
            place = Place(program, room, "")
            try:
                wrong = state(Snapshot(place))
            except Refused as refused:
                wrong = f"refused: {refused}"
            finally:
                place.stop()
        count += bool(wrong)
        print(f"{number}. {state.__doc__}\n   {wrong or 'as it has to be'}")
    print(f"{count} of {len(STATES)} states are not as they have to be")
    return 1 if count else 0


if __name__ == "__main__":
    if len(sys.argv) != 2:
        sys.exit(__doc__)
    sys.exit(main(os.path.abspath(sys.argv[1])))
