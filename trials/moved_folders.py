#!/usr/bin/env python3
"""Tenants of random folders have in the folders to which they move all that they had.

    trials/moved_folders.py KBROKER [SEEDS [FIRST]]

For each seed, 20 where no number is given, a broker serves two to five tenants. Their clients make and delete topics with settings, produce
batches of records with keys, headers, nulls and timestamps, some of them idempotent, delete records, and commit offsets. Meanwhile it is
killed, also while requests are under way, and started again. Then `kbroker tenant export` takes each tenant out. `import` puts them, in
random order, into up to three other folders, which are empty or have tenants with a past of their own.

What is compared is, of each tenant that moved, what `kbroker dump` says but for the numbers of files, the bytes of its files, and all that
a client sees. The same random requests to both folders then get the same replies, also behind a `kill -9`. By these the settings of topics,
the producers and the next producer id are compared. The other tenants' files have the same bytes as before. It prints what differs, and
`N of M wrong`.
"""

import copy
import os
import random
import struct
import subprocess
import sys
import tempfile
import time

from wire import (Broker, Client, castagnoli, commit, create, delete, delete_records, fetch, offset_at, partitions, produce, producer_id,
                  text, varint)

NAMES = ["a", "b", "c", "d", "e"]
USERS = {"a": (b"ann", b"pw1"), "b": (b"bob", b"pw2")} | {it: (b"user-" + it.encode(), b"pw") for it in NAMES[2:]}
TABLES = "".join(f'\n[[user]]\nname = "user-{it}"\npassword = "pw"\ntenant = "{it}"\n' for it in NAMES[2:])
TOPICS = [b"topic-%d" % number for number in range(7)]
GROUPS = [b"readers", b"writers", b"third"]
HOUR = 3_600_000


# ---- Batches, and what is read of them.


def unsigned(data, at):
    """A zigzag VARINT of some bytes, and where it ends."""
    number = shift = 0
    while True:
        number |= (data[at] & 127) << shift
        shift, at = shift + 7, at + 1
        if data[at - 1] < 128:
            return number >> 1 ^ -(number & 1), at


def blob(value):
    """A length and so many bytes, or a null."""
    return varint(-1) if value is None else varint(len(value)) + value


def batch_of(records, producer=-1, sequence=-1):
    """A batch of records, each a timestamp, a key, a value and headers."""
    first, body = records[0][0], b""
    for number, (moment, key, value, headers) in enumerate(records):
        record = b"\0" + varint(moment - first) + varint(number) + blob(key) + blob(value) + varint(len(headers))
        record += b"".join(varint(len(name)) + name + blob(it) for name, it in headers)
        body += varint(len(record)) + record
    epoch, last = -1 if producer < 0 else 0, max(moment for moment, *_ in records)
    body = struct.pack(">hiqqqhii", 0, len(records) - 1, first, last, producer, epoch, sequence, len(records)) + body
    head = struct.pack(">ib", 0, 2) + struct.pack(">I", castagnoli(body))
    return struct.pack(">qi", 0, len(head) + len(body)) + head + body


def records_of(data):
    """The records of whole batches: an offset, a timestamp, a key, a value and headers of each."""
    def take():
        nonlocal at
        size, at = unsigned(data, at)
        at += max(size, 0)
        return data[at - size:at] if size >= 0 else None

    out, begin = [], 0
    while begin < len(data):
        base, size = struct.unpack_from(">qi", data, begin)
        first, at = struct.unpack_from(">q", data, begin + 27)[0], begin + 61
        for _ in range(struct.unpack_from(">i", data, begin + 57)[0]):
            _, at = unsigned(data, at)
            moment, at = unsigned(data, at + 1)
            number, at = unsigned(data, at)
            key, value = take(), take()
            count, at = unsigned(data, at)
            out.append((base + number, first + moment, key, value, [(take(), take()) for _ in range(count)]))
        begin += 12 + size
    return out


# ---- What clients do by chance.


class Past:
    """What a tenant's clients did: the topics and producers that it has, and what is to be done next."""

    def __init__(self, now, rng):
        self.now, self.rng, self.topics, self.producers, self.last, self.greatest = now, rng, {}, {}, None, -1

    def next(self):
        """The next request, and what to do with its reply."""
        rng = self.rng
        if not self.topics or rng.random() < 0.06:
            return self.creation()
        topic = rng.choice(sorted(self.topics))
        number = rng.randrange(self.topics[topic])
        kind = rng.choices(("produce", "commit", "drop", "id", "again", "delete"), (60, 18, 6, 4, 6, 2))[0]
        if kind == "commit":
            note = bytes(rng.randrange(97, 123) for _ in range(rng.randrange(40)))
            return commit(rng.choice(GROUPS), topic, note, rng.randrange(1000), number), None
        if kind == "drop":
            return delete_records(topic, rng.choice((-1, rng.randrange(30))), number), None
        if kind == "id":
            return producer_id(), self.has_id
        if kind == "delete":
            return delete(topic), lambda code: self.topics.pop(topic, None)
        if kind == "again" and self.last:
            return self.last, None
        return self.production(topic, number)

    def creation(self):
        name, count = self.rng.choice(TOPICS), self.rng.randint(1, 4)
        config = self.rng.choice(({}, {"retention_ms": -1}, {"retention_ms": 24 * HOUR}, {"cleanup_policy": "delete"},
                                  {"retention_bytes": self.rng.randint(2000, 20000)}, {"retention_ms": -1, "retention_bytes": 9000}))
        return create(name, count, **config), lambda code: self.topics.setdefault(name, count) if code == 0 else None

    def production(self, topic, number):
        """A batch of random records, by a producer with an id or without one."""
        rng = self.rng
        base = self.now - rng.randrange(HOUR) - rng.choice((0, 0, 0, 0, 0, 0, 3 * 24 * HOUR, 10 * 24 * HOUR))
        records = [self.record(base + rng.randrange(-2000, 2000)) for _ in range(rng.randint(1, 8))]
        producer = rng.choice([-1, *self.producers])
        sequence = self.producers.get(producer, {}).get((topic, number), 0) if producer >= 0 else -1
        request = produce(topic, batch_of(records, producer, sequence), number)

        def goes_on(reply):
            if producer >= 0 and reply[0] == 0:
                self.producers[producer][topic, number] = sequence + len(records)
                self.last = request

        return request, goes_on

    def record(self, moment):
        rng = self.rng
        key, value = (rng.choice((None, b"", rng.randbytes(rng.randrange(200)))) for _ in range(2))
        headers = [(b"h%d" % rng.randrange(3), rng.choice((None, b"", rng.randbytes(20)))) for _ in range(rng.choice((0, 0, 1, 3)))]
        return moment, key, value, headers

    def has_id(self, reply):
        if reply[0] == 0:
            self.producers[reply[1]] = {}
            self.greatest = max(self.greatest, reply[1])

    def goes(self, client, steps):
        """Does so many things by a client; the replies."""
        told = []
        for _ in range(steps):
            request, then = self.next()
            told.append(client.all([request])[0])
            if then:
                then(told[-1])
        return told

    def killed(self, client):
        """What is known after a kill while requests were under way: the topics that are there, and no producer's place."""
        self.topics, self.producers, self.last = client.all([partitions()])[0], {}, None


class Place:
    """A data folder, and the broker on it."""

    def __init__(self, program, room, name, segment):
        self.program, self.room, self.data = program, f"{room}/{name}", f"{room}/{name}/data"
        self.more, self.broker, self.pasts = f"segment_bytes = {segment}\n{TABLES}", None, {}
        os.mkdir(self.room)

    def start(self):
        self.broker = Broker(self.program, self.room, self.more)
        if not any(self.broker.listens() for _ in range(5)):
            raise SystemExit(f"the broker does not listen: {self.broker.log()}")

    def client(self, tenant):
        return Client(self.broker.port, *USERS[tenant])

    def stop(self):
        self.broker.stop()

    def files(self):
        """The bytes of each file of a log, by its name."""
        out = {}
        for name in os.listdir(self.data) if os.path.exists(self.data) else []:
            if name.endswith(".seg"):
                with open(f"{self.data}/{name}", "rb") as it:
                    out[name] = it.read()
        return out

    def records(self):
        """Those of partitions: a start may write a catalog anew."""
        return {name: it for name, it in self.files().items() if it[6:8] == b"\0\0"}

    def lives(self, rng, tenants, steps):
        """Lets tenants' clients do what they do, over some stops and kills; at last the broker is stopped."""
        now = int(time.time() * 1000)
        self.pasts = {it: Past(now, random.Random(rng.random())) for it in tenants}
        for _ in range(rng.randint(1, 4)):
            self.start()
            clients = {it: self.client(it) for it in tenants}
            for tenant, client in clients.items():
                if not self.pasts[tenant].topics:
                    self.pasts[tenant].killed(client)
                self.pasts[tenant].goes(client, rng.randint(steps // 4, steps))
            if rng.random() < 0.5:
                for tenant, client in clients.items():
                    client.send([self.pasts[tenant].next()[0] for _ in range(20)])
                    self.pasts[tenant].topics, self.pasts[tenant].producers, self.pasts[tenant].last = {}, {}, None
                time.sleep(rng.random() * 0.01)
            self.stop()


# ---- What is compared.


def view(client):
    """All that a client sees of its tenant, by what it is."""
    out = {"topics": client.all([partitions()])[0]}
    for topic, count in sorted(out["topics"].items()):
        for number in range(count):
            start, end = (client.all([offset_at(topic, moment, number)])[0] for moment in (-2, -1))
            records, at = [], start[1]
            while at < end[1]:
                code, mark, data = client.all([fetch(topic, at, number)])[0]
                records += records_of(data)
                if code or not data:
                    raise SystemExit(f"{topic} {number} at {at}: code {code}, mark {mark}, and no records")
                at = records[-1][0] + 1
            moments = [it[1] for it in records[::5]]
            out[topic, number] = start, end, records, [client.all([offset_at(topic, it, number)])[0] for it in moments]
    for group in GROUPS:
        out[group] = client.ask(9, 2, text(group) + struct.pack(">i", -1))
    return out


def settled(client):
    """The same, once retention has nothing more to drop."""
    before, now = None, view(client)
    while before != now:
        time.sleep(0.02)
        before, now = now, view(client)
    return now


def dumped(program, data):
    """The lines of each file by its tenant, in order of these lines, which have no file's number."""
    out, lines = {}, None
    for line in subprocess.run([program, "dump", data], check=True, capture_output=True, text=True).stdout.splitlines():
        words = line.split()
        if words[0] == "file":
            lines = [" ".join(words[4:])]
            out.setdefault(words[3] if words[2] == "tenant" else None, []).append(lines)
        else:
            lines.append(line)
    return {tenant: sorted(files) for tenant, files in out.items()}


def difference(one, other):
    """Where two views first differ, in words."""
    for what in sorted({*one, *other}, key=repr):
        if one.get(what) != other.get(what):
            return f"{what}: {str(one.get(what))[:300]} and {str(other.get(what))[:300]}"
    return "nothing"


class Looks:
    """What was looked at, and what was wrong."""

    def __init__(self):
        self.count, self.wrong, self.records, self.moves = 0, 0, 0, 0

    def see(self, what, holds, *more):
        self.count += 1
        if not holds:
            self.wrong += 1
            print(f"wrong: {what}", *more, flush=True)

    def same(self, what, one, other):
        self.see(what, one == other, *([] if one == other else [difference(one, other)]))


def run(looks, what, *words):
    """Runs the program, which has to succeed."""
    ran = subprocess.run(words, capture_output=True, text=True)
    looks.see(what, ran.returncode == 0, ran.stdout, ran.stderr)


def seen(place, tenants):
    """What clients of tenants see at a place, which is started and stopped."""
    place.start()
    out = {it: settled(place.client(it)) for it in tenants}
    place.stop()
    return out


def moved(looks, program, rng, source, goes_to):
    """Takes each tenant out, and puts them into their folders in random order. What is there already stays as it was."""
    before = {place: place.files() for place in dict.fromkeys(goes_to.values())}
    tenants = list(goes_to)
    for tenant in rng.sample(tenants, len(tenants)):
        run(looks, "export", program, "tenant", "export", "--data", source.data, "--tenant", tenant, f"{source.room}/{tenant}")
    for tenant in rng.sample(tenants, len(tenants)):
        run(looks, "import", program, "tenant", "import", "--data", goes_to[tenant].data, "--tenant", tenant, f"{source.room}/{tenant}")
    texts, bodies = dumped(program, source.data), sorted(source.files().values())
    for place, files in before.items():
        now, text_of = place.files(), dumped(program, place.data)
        looks.see("files that were there have their bytes", {name: now[name] for name in files} == files)
        looks.see("each new file is one of the first folder", all(it in bodies for name, it in now.items() if name not in files))
        for tenant in tenants:
            if goes_to[tenant] is place:
                looks.see(f"the dump of tenant {tenant}", text_of.get(tenant) == texts.get(tenant))


def goes_on(looks, seed, source, place, tenant):
    """The same requests to both folders get the same replies, and leave the same."""
    past, told = source.pasts[tenant], []
    first, second = source.client(tenant), place.client(tenant)
    ids = [it.all([producer_id()])[0] for it in (first, second)]
    looks.see(f"seed {seed}: the next producer id of tenant {tenant}", ids[0] == ids[1] and ids[1][1] > past.greatest, ids)
    if not past.topics:
        past.killed(first)
    for client in (first, second):
        twin = copy.deepcopy(past)
        told.append(twin.goes(client, 40))
    looks.see(f"seed {seed}: replies to tenant {tenant}", told[0] == told[1], [it for it in zip(*told) if it[0] != it[1]][:3])
    looks.same(f"seed {seed}: tenant {tenant} after them", settled(first), settled(second))


class Move:
    """The folders of one seed, which of them each tenant goes to, and who is there already."""

    def __init__(self, program, rng, room):
        self.rng, self.source = rng, Place(program, room, "source", rng.choice((4096, 6000, 20000)))
        self.tenants = rng.sample(NAMES, rng.randint(2, 5))
        self.source.lives(rng, self.tenants, rng.choice((20, 80, 160)))
        places = [Place(program, room, f"place-{number}", rng.choice((4096, 20000))) for number in range(rng.randint(1, 3))]
        self.goes_to, self.natives = {it: rng.choice(places) for it in self.tenants}, {}
        self.places = [it for it in places if it in self.goes_to.values()]
        for place in self.places:
            others = [it for it in NAMES if self.goes_to.get(it) is not place]
            has_some = others and rng.random() < 0.7
            self.natives[place] = rng.sample(others, rng.randint(1, len(others))) if has_some else []
            if has_some:
                place.lives(rng, self.natives[place], 30)

    def come(self, place):
        """The tenants that come to a place."""
        return [it for it in self.tenants if self.goes_to[it] is place]


def after(looks, seed, move, wanted, beside):
    """Looks at each folder once all came, and goes on in both."""
    for place in move.places:
        records, came = place.records(), move.come(place)
        for tenant, now in seen(place, [*move.natives[place], *came]).items():
            looks.same(f"seed {seed}: what tenant {tenant} sees", wanted[tenant] if tenant in came else beside[place][tenant], now)
            looks.records += sum(len(it[2]) for what, it in now.items() if isinstance(what, tuple))
        looks.see(f"seed {seed}: files of records after a start", place.records() == records)
        move.source.start()
        place.start()
        for tenant in came:
            goes_on(looks, seed, move.source, place, tenant)
        now = {it: settled(place.client(it)) for it in came}
        place.stop()
        move.source.stop()
        for tenant, again in seen(place, [*came, *move.natives[place]]).items():
            looks.same(f"seed {seed}: tenant {tenant} after a kill", now[tenant] if tenant in came else beside[place][tenant], again)


def tried(looks, program, seed, room):
    """One seed."""
    move = Move(program, random.Random(seed), room)
    wanted = seen(move.source, move.tenants)
    beside = {place: seen(place, it) for place, it in move.natives.items() if it}
    moved(looks, program, move.rng, move.source, move.goes_to)
    after(looks, seed, move, wanted, beside)
    looks.moves += len(move.tenants)


def main(program, seeds=20, first=0):
    """Whether all tenants had all that they had."""
    looks, began = Looks(), time.monotonic()
    for seed in range(first, first + seeds):
        with tempfile.TemporaryDirectory() as room:
            tried(looks, program, seed, room)
    print(f"{seeds} seeds, {looks.moves} moves, {looks.records} records read, {time.monotonic() - began:.0f} s")
    print(f"{looks.wrong} of {looks.count} wrong")
    return 1 if looks.wrong else 0


if __name__ == "__main__":
    if not 2 <= len(sys.argv) <= 4:
        sys.exit(__doc__)
    sys.exit(main(os.path.abspath(sys.argv[1]), *map(int, sys.argv[2:])))
