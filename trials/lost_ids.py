#!/usr/bin/env python3
"""Starts a broker on folders in which batches have producer ids that the tenants' catalogs do not know any more.

    trials/lost_ids.py KBROKER

Two tenants give producer ids out and take a batch of each. Then the last of these ids go from their catalogs, as a loss of power may
leave it, or older catalogs are put back, whole or of one tenant alone. After a start each tenant gives an id out, and its producer sends a
first batch. That has to be stored: where it is answered and not stored, it was lost. The former producers go on, and nothing of theirs is
lost either. The ids are told once, and not again by a start behind a kill. With an id that no catalog can have lost the start is refused,
and says why; and where a write of the ids is, which needs gcc. It prints how many batches were lost, of how many, and what else was wrong.
"""

import os
import struct
import subprocess
import sys
import tempfile

from flipped_bits import contents
from ledger import records_of
from states_after_a_loss import REFUSES, Place, Refused
from wire import Client, batch, producer_id

USERS = {b"a": (b"ann", b"pw1"), b"b": (b"bob", b"pw2")}
ISSUE = b"\3"


class Folder(Place):
    """A data folder of two tenants."""

    def __init__(self, program, room):
        super().__init__(program, room, "")
        self.wrong, self.lost, self.sent = [], 0, 0
        self.former = {}

    def clients(self):
        """A client of each tenant, of a broker that is started."""
        self.start()
        return {tenant: Client(self.broker.port, *user) for tenant, user in USERS.items()}

    def named(self, tenant, kind):
        """The last file of a tenant's catalog (1), or of its partitions (0), by the headers."""
        found = None
        for name in sorted(it for it in os.listdir(self.data) if it.endswith(".seg")):
            data = self.read(name)
            size = struct.unpack_from(">h", data, 28)[0]
            if data[30:30 + size] == tenant and struct.unpack_from(">h", data, 6)[0] == kind:
                found = name
        return found

    def batches(self, name):
        """The header of a file, and its batches."""
        data = self.read(name)
        at = 42 + struct.unpack_from(">h", data, 28)[0]
        front, out = data[:at], []
        while at < len(data):
            size = 12 + struct.unpack_from(">i", data, at + 8)[0]
            out.append(data[at:at + size])
            at += size
        return front, out

    def cut(self, tenant, count):
        """Takes the last commands off a tenant's catalog, each of which gave an id out."""
        name = self.named(tenant, 1)
        front, commands = self.batches(name)
        left, gone = commands[:len(commands) - count], commands[len(commands) - count:]
        if any(ISSUE + b"\0\0\0" not in it for it in gone):
            raise SystemExit("the last commands of a catalog did not give ids out")
        self.write(name, front + b"".join(left))

    def fill(self, count):
        """Each tenant makes a topic, if it has none, and gives ids out, of each of which it takes a batch."""
        for tenant, client in self.clients().items():
            client.create(b"t")
            for _ in range(count):
                (code, number), = client.all([producer_id()])
                said = client.produce(b"t", batch(b"old %d" % number, producer=(number, 0, 0)))
                if code or said[0]:
                    raise SystemExit(f"an id is answered {code}, and its batch {said}")
                self.former.setdefault(tenant, []).append(number)
        self.stop()

    def stored(self, client):
        """The values in the topic, by their offsets."""
        return {offset: value for offset, value, _ in records_of(client.fetch(b"t", 0)[2])}

    def send(self, tenant, client, word, producer):
        """Sends a batch, and looks whether it is stored where it is answered."""
        value = b"%s of %s, %d" % (word, tenant, producer[0])
        code, offset = client.produce(b"t", batch(value, producer=producer))
        self.sent += 1
        if not code and self.stored(client).get(offset) != value:
            self.lost += 1
        elif code:
            self.wrong.append(f"{value.decode()}: it is answered {code}")

    def judge(self, told):
        """New producers, and then the former ones, send batches. The start says of each tenant how many ids it had lost."""
        for tenant, client in self.clients().items():
            (code, number), = client.all([producer_id()])
            if code or number in self.former[tenant]:
                self.wrong.append(f"tenant {tenant.decode()}: the id {number} is given out again")
            self.send(tenant, client, b"new", (number, 0, 0))
            for former in self.former[tenant]:
                self.send(tenant, client, b"former", (former, 0, 1))
        self.stop()
        said = [it.split(" ", 1)[1] for it in self.broker.log().splitlines() if "had lost" in it]
        if said != [f"producer ids that the catalog of tenant {name} had lost: {count}" for name, count in told]:
            self.wrong.append(f"it is told {said}")

    def again(self):
        """A start behind the kill: nothing is lost any more, and nothing is told again."""
        before = len(self.broker.log().splitlines())
        for tenant, client in self.clients().items():
            (_, number), = client.all([producer_id()])
            self.send(tenant, client, b"next", (number, 0, 0))
        self.stop()
        if any("had lost" in it for it in self.broker.log().splitlines()[before:]):
            self.wrong.append("a further start tells of lost ids again")


# ---- The states


def last_id(folder):
    """The last id of each catalog is gone."""
    folder.fill(2)
    for tenant in USERS:
        folder.cut(tenant, 1)
    folder.judge([("a", 1), ("b", 1)])
    folder.again()


def all_ids(folder):
    """All ids of one catalog are gone."""
    folder.fill(5)
    folder.cut(b"b", 5)
    folder.judge([("b", 5)])
    folder.again()


def older_catalog(folder):
    """The catalogs of before are put back beside newer files of the same topics."""
    folder.fill(1)
    older = {name: folder.read(name) for name in (folder.named(tenant, 1) for tenant in USERS)}
    folder.fill(3)
    for name, data in older.items():
        folder.write(name, data)
    folder.judge([("a", 3), ("b", 3)])
    folder.again()


def nothing_lost(folder):
    """Nothing is gone, and nothing is told."""
    folder.fill(2)
    folder.judge([])
    folder.again()


def id_of_another(folder):
    """A batch has an id that no catalog can have lost: the start is refused, changes nothing, and says why."""
    folder.fill(1)
    name = folder.named(b"a", 0)
    front, batches = folder.batches(name)
    strange = struct.pack(">q", len(batches)) + batch(b"strange", producer=(1 << 40, 0, 0))[8:]
    folder.write(name, front + b"".join(batches) + strange)
    before = contents(folder.data)
    try:
        folder.start()
    except Refused as refused:
        if "tenant a: a batch has a producer id" not in str(refused):
            folder.wrong.append(f"the refusal does not say why: {refused}")
    else:
        folder.wrong.append("the start was not refused")
    folder.stop()
    if contents(folder.data) != before:
        folder.wrong.append("the refused start changed the folder")


def refused_write(folder):
    """The system refuses to write the first of the ids: the start ends and says why, and the next one goes on."""
    library, source, flag = (f"{folder.room}/{it}" for it in ("refuses.so", "refuses.c", "flag"))
    with open(source, "w", encoding="utf-8") as out:
        out.write(REFUSES)
    subprocess.run(["gcc", "-shared", "-fPIC", "-O1", "-o", library, source], check=True)
    folder.fill(3)
    folder.cut(b"a", 2)
    folder.cut(b"b", 1)
    with open(flag, "wb"):
        pass
    try:
        folder.start(under=("env", f"LD_PRELOAD={library}", f"REFUSES={flag}"))
    except Refused as refused:
        if "store fault" not in str(refused) or ".seg: " not in str(refused):
            folder.wrong.append(f"the refused start does not say why: {refused}")
    else:
        folder.wrong.append("the start goes on without the ids")
    folder.stop()
    folder.judge([("a", 2), ("b", 1)])
    folder.again()


def main():
    program = os.path.abspath(sys.argv[1])
    wrong, lost, sent = [], 0, 0
    for state in (last_id, all_ids, older_catalog, nothing_lost, id_of_another, refused_write):
        with tempfile.TemporaryDirectory() as room:
            folder = Folder(program, room)
            try:
                state(folder)
            finally:
                folder.stop()
            wrong += [f"{state.__name__}: {it}" for it in folder.wrong]
            lost, sent = lost + folder.lost, sent + folder.sent
    for line in wrong:
        print(line)
    print(f"batches that were answered and not stored: {lost} of {sent}; wrong {len(wrong)}")
    sys.exit(1 if wrong or lost else 0)


if __name__ == "__main__":
    main()
