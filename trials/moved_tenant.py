#!/usr/bin/env python3
"""A tenant that moves to another broker has there what it had here, and nobody else has less.

    trials/moved_tenant.py KBROKER

Tenant a has topics, records, a start that moved, committed offsets, a deleted topic and producer ids. `kbroker tenant export` and `import`
take it from one broker to another, on which tenant b has its own. Then each of its partitions gives the same bytes at the same offsets, its
groups have their offsets, and what it writes goes on behind that, also once its catalog was written anew and the broker was killed. Tenant b
has on both brokers what it had. What must be refused is: a folder that is served, a tenant that is there already or nowhere, an export
into a folder that is there, and a removal without `--yes`.
"""

import os
import subprocess
import sys
import tempfile

from wire import Broker, Client, batch, commit, committed, offset_at, producer_id, topics

ANN, BOB = (b"ann", b"pw1"), (b"bob", b"pw2")
SMALL = "segment_bytes = 4096"
RECORDS = 120
COMMITS = 5000


class Faults:
    """What was otherwise than it should be, in words."""

    def __init__(self):
        self.looked_at, self.wrong = 0, []

    def see(self, what, holds):
        self.looked_at += 1
        if not holds:
            self.wrong.append(what)
            print(f"not so: {what}", flush=True)


def fill(client, tenant):
    """Makes topics, records and commits of a tenant."""
    client.create(b"orders")
    client.create(b"short", retention_bytes=9000)
    client.create(b"gone")
    client.produce(b"gone", batch(b"z" * 700))
    for number in range(RECORDS):
        client.produce(b"orders", batch(tenant + b" %d " % number + b"x" * 300))
        client.produce(b"short", batch(b"y" * 500))
    client.delete_records(b"orders", 50)
    client.delete(b"gone")
    client.all([commit(b"readers", b"orders", b"half", 77)])


def kept(client, names=(b"orders", b"short")):
    """What a tenant has of some topics: names, starts, ends, all bytes, and what the group committed."""
    out = {"topics": sorted(client.all([topics()])[0])}
    for name in names:
        start, end = (client.all([offset_at(name, moment)])[0] for moment in (-2, -1))
        data, at = b"", start[1]
        while at < end[1]:
            code, _, more = client.fetch(name, at)
            if code or not more:
                break
            data += more
            at = last_offset(more) + 1
        out[name] = (start, end, data, client.all([committed(b"readers", name)])[0])
    return out


def last_offset(data):
    """The offset of the last record in some batches."""
    at = last = 0
    while at + 61 <= len(data):
        base, size = int.from_bytes(data[at:at + 8], "big"), int.from_bytes(data[at + 8:at + 12], "big")
        last = base + int.from_bytes(data[at + 23:at + 27], "big")
        at += 12 + size
    return last


class Place:
    """A folder with a data folder, and the broker on it."""

    def __init__(self, program, room, name):
        self.program, self.room = program, f"{room}/{name}"
        self.data = f"{self.room}/data"
        self.broker = None
        os.mkdir(self.room)

    def start(self):
        self.broker = Broker(self.program, self.room, more=SMALL)
        if not any(self.broker.listens() for _ in range(3)):
            raise SystemExit(self.broker.log())

    def client(self, user):
        return Client(self.broker.port, *user)

    def stop(self):
        self.broker.stop()


def tenant(program, *words):
    """The status and the words of a run of `kbroker tenant`."""
    ran = subprocess.run([program, "tenant", *words], capture_output=True, text=True)
    return ran.returncode, ran.stdout.strip(), ran.stderr.strip()


def moved(program, room, faults, here, there):
    """Moves tenant a, and sees that what must be refused is."""
    out = f"{room}/a-files"
    status, _, said = tenant(program, "export", "--data", here.data, "--tenant", "a", out)
    faults.see(f"a served folder is refused: {said}", status == 1 and "serves" in said and not os.path.exists(out))
    here.stop()
    status, _, said = tenant(program, "export", "--data", here.data, "--tenant", "nobody", out)
    faults.see(f"a tenant of no file is refused: {said}", status == 1 and "no file" in said and not os.path.exists(out))
    status, told, said = tenant(program, "export", "--data", here.data, "--tenant", "a", out)
    faults.see(f"the export: {told} {said}", status == 0 and told.startswith("tenant a: files "))
    status, _, said = tenant(program, "export", "--data", here.data, "--tenant", "a", out)
    faults.see(f"a folder that is there is refused: {said}", status == 1 and "there already" in said)
    status, _, said = tenant(program, "import", "--data", there.data, "--tenant", "a", out)
    faults.see(f"an import into a served folder is refused: {said}", status == 1 and "serves" in said)
    there.stop()
    status, again, said = tenant(program, "import", "--data", there.data, "--tenant", "a", out)
    faults.see(f"the import: {again} {said}", status == 0 and again.split(",")[:2] == told.split(",")[:2])
    status, _, said = tenant(program, "import", "--data", there.data, "--tenant", "a", out)
    faults.see(f"a second import is refused: {said}", status == 1 and "already" in said)


def goes_on(faults, there, wanted):
    """Tenant a writes on behind what it had, its catalog is written anew, and the broker is killed."""
    client = there.client(ANN)
    end = wanted[b"orders"][1][1]
    faults.see("the next record has the next offset", client.produce(b"orders", batch(b"more")) == (0, end))
    for number in range(0, COMMITS, 100):
        client.all([commit(b"many", b"orders", b"", number + it) for it in range(100)])
    client.create(b"new")
    faults.see("a new topic is empty", client.all([offset_at(b"new", -1)])[0] == (0, 0))
    there.stop()
    there.start()
    client = there.client(ANN)
    faults.see("the last commit is there after a kill", client.all([committed(b"many", b"orders")])[0] == COMMITS - 1)
    now = kept(client)
    faults.see("the group's offset is there after a kill", now[b"orders"][3] == wanted[b"orders"][3])
    faults.see("the records are there after a kill", now[b"orders"][2].startswith(wanted[b"orders"][2]))


def removed(program, faults, here, others):
    """Tenant a goes from the broker that it left."""
    status, _, said = tenant(program, "remove", "--data", here.data, "--tenant", "a")
    faults.see(f"a removal without --yes is refused: {said}", status != 0 and "--yes" in said)
    status, told, said = tenant(program, "remove", "--data", here.data, "--tenant", "a", "--yes")
    faults.see(f"the removal: {told} {said}", status == 0)
    here.start()
    faults.see("tenant a has nothing any more", here.client(ANN).all([topics()])[0] == [])
    faults.see("tenant b has here what it had", kept(here.client(BOB)) == others)
    here.stop()


def main(program):
    """Whether all was as it should be."""
    faults = Faults()
    with tempfile.TemporaryDirectory() as room:
        here, there = Place(program, room, "here"), Place(program, room, "there")
        for place in (here, there):
            place.start()
            fill(place.client(BOB), b"b")
        fill(here.client(ANN), b"a")
        first = here.client(ANN).all([producer_id()])[0][1]
        wanted, others = kept(here.client(ANN)), [kept(place.client(BOB)) for place in (here, there)]
        moved(program, room, faults, here, there)
        there.start()
        faults.see("tenant a has all that it had", kept(there.client(ANN)) == wanted)
        faults.see("tenant b has there what it had", kept(there.client(BOB)) == others[1])
        faults.see("the next producer id is a new one", there.client(ANN).all([producer_id()])[0][1] > first)
        goes_on(faults, there, wanted)
        faults.see("tenant b has there still what it had", kept(there.client(BOB)) == others[1])
        there.stop()
        removed(program, faults, here, others[0])
    print(f"moves that were wrong: {len(faults.wrong)} of {faults.looked_at}")
    return 1 if faults.wrong else 0


if __name__ == "__main__":
    if len(sys.argv) != 2:
        sys.exit(__doc__)
    sys.exit(main(os.path.abspath(sys.argv[1])))
