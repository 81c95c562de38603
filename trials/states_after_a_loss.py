#!/usr/bin/env python3
"""Starts a broker on folders that were put by hand into states that a loss of power may leave.

    trials/states_after_a_loss.py KBROKER

In nine of ten states a file or a command came back, or is gone, though others are there that were written later. All that was
acknowledged has to be there, or the start is refused and says what would be lost. In the eighth the system refuses a write whose bytes
are on the disk all the same; it needs gcc. In the tenth a file's first write was never synced: nothing of it was acknowledged, so the
start has to go on. It prints what a start did in each, and how many lost something without a word, or were refused without need.
"""

import os
import random
import struct
import subprocess
import sys
import tempfile

import wire
from ledger import records_of
from wire import Broker, Client, batch

BIG = b"x" * 2500

# Writes, and says once that it did not, where a file says so.
REFUSES = r"""
#define _GNU_SOURCE
#include <errno.h>
#include <stdlib.h>
#include <sys/syscall.h>
#include <unistd.h>
ssize_t pwrite64(int fd, const void *bytes, size_t size, off_t at) {
    ssize_t done = syscall(SYS_pwrite64, fd, bytes, size, at);
    const char *flag = getenv("REFUSES");
    if (flag && !unlink(flag)) {
        errno = EIO;
        return -1;
    }
    return done;
}
ssize_t pwrite(int fd, const void *bytes, size_t size, off_t at) { return pwrite64(fd, bytes, size, at); }
"""


class Refused(Exception):
    """A start was refused, with what it said."""


class Place:
    """A data folder of files of 4,096 bytes, and a broker on it."""

    def __init__(self, program, room, more):
        self.program, self.room, self.more = program, room, "segment_bytes = 4096\n" + more
        self.data, self.broker = f"{room}/data", None

    def start(self, *flags, under=()):
        """A client of a broker that is started."""
        self.broker = Broker(self.program, self.room, self.more, flags=flags, under=under)
        while not self.broker.listens():
            if self.broker.process.poll() is not None:
                raise Refused(self.broker.log())
        return Client(self.broker.port)

    def stop(self):
        if self.broker:
            self.broker.stop()

    def files(self):
        """The names of a tenant's files: of its catalog, and of its topics by their instances, in order."""
        catalogs, topics = [], {}
        for name in sorted(it for it in os.listdir(self.data) if it.endswith(".seg")):
            kind, _, instance = struct.unpack_from(">hqq", self.read(name), 6)
            if kind:
                catalogs.append(name)
            else:
                topics.setdefault(instance, []).append(name)
        return catalogs, topics

    def read(self, name):
        with open(f"{self.data}/{name}", "rb") as it:
            return it.read()

    def write(self, name, data):
        with open(f"{self.data}/{name}", "wb") as out:
            out.write(data)

    def drop(self, name):
        os.remove(f"{self.data}/{name}")

    def forget(self):
        """Takes the last command off the catalog."""
        name = self.files()[0][-1]
        data = self.read(name)
        at = last = 48 + struct.unpack_from(">h", data, 28)[0] - 6
        while at < len(data):
            last, at = at, at + 12 + struct.unpack_from(">i", data, at + 8)[0]
        self.write(name, data[:last])


def values(client, topic):
    """The first bytes of each record from the start on, or the error code."""
    (_, start), = client.all([wire.offset_at(topic, -2)])
    code, _, data = client.fetch(topic, start)
    return code or [(offset, value[:6]) for offset, value, _ in records_of(data)]


def numbered(word, numbers):
    return [(number, b"%s %d" % (word, number)) for number in numbers]


def give(client, topic, word, numbers, size=BIG):
    """Produces records, all of which are taken."""
    for offset, value in numbered(word, numbers):
        said = client.produce(topic, batch(value[:6].ljust(6) + size))
        if said != (0, offset):
            raise SystemExit(f"a record is answered {said}")


def filled(place, count):
    """A topic `t` with so many records, of a file each, beside a topic that was made before it. The names of its files."""
    client = place.start()
    client.create(b"first", retention_ms=-1)
    client.create(b"t", retention_ms=-1)
    give(client, b"t", b"old", range(count))
    return client, place.files()[1][1]


def look(place, *allowed):
    """What is wrong with what a start finds of the topic `t`: it is none of what is allowed."""
    client = place.start()
    got = values(client, b"t")
    rows = [numbered(b"old", it) if not isinstance(it, int) else it for it in allowed]
    rows = [[(offset, value.ljust(6)) for offset, value in it] if isinstance(it, list) else it for it in rows]
    return "" if got in rows else f"there is {got}"


# ---- The states


def creation_lost(place):
    """The creation of a topic is lost, and its first file is there; the next topic has its number."""
    client, _ = filled(place, 1)
    place.stop()
    place.forget()
    client = place.start()
    client.create(b"t", retention_ms=-1)
    give(client, b"t", b"old", range(3), b"")
    place.stop()
    return look(place, range(3))


def one_of_two_back(place):
    """Of two files that were removed the first is back, and the second is gone."""
    client, names = filled(place, 5)
    kept = place.read(names[0])
    client.delete_records(b"t", 2)
    place.stop()
    place.write(names[0], kept)
    return look(place, range(2, 5))


def one_back_and_no_start(place):
    """The same, and the start that was recorded is lost."""
    client, names = filled(place, 5)
    kept = place.read(names[0])
    client.delete_records(b"t", 2)
    place.stop()
    place.write(names[0], kept)
    place.forget()
    return look(place, range(2, 5), range(5))


def cut_undone(place):
    """Bytes that were cut off are back, behind which a further file was begun."""
    _, names = filled(place, 3)
    place.stop()
    place.write(names[0], place.read(names[0]) + b"\x07" * 20)
    return look(place, range(3))


def opening_undone(place):
    """An opening removed a file behind a torn one; new records were acknowledged, and the file is back."""
    _, names = filled(place, 3)
    place.stop()
    kept = place.read(names[2])
    place.write(names[1], place.read(names[1])[:-100])
    client = place.start("--drop-damaged")
    give(client, b"t", b"new", range(1, 3))
    place.stop()
    place.write(names[2], kept)
    client = place.start()
    got = values(client, b"t")
    return "" if got == [(0, b"old 0 "), (1, b"new 1 "), (2, b"new 2 ")] else f"there is {got}"


def half_deleted(place):
    """The deletion of a topic is lost, and so is the second of its four files."""
    _, names = filled(place, 4)
    place.stop()
    place.drop(names[1])
    return look(place, range(4), 3)


def one_back(place):
    """A file that was removed is back."""
    client, names = filled(place, 5)
    kept = place.read(names[0])
    client.delete_records(b"t", 1)
    place.stop()
    place.write(names[0], kept)
    return look(place, range(1, 5))


def refused_whole(place):
    """The system refuses to write the deletion of a topic, but its bytes are there. Two records are acknowledged behind it."""
    source, library, flag = (f"{place.room}/{it}" for it in ("refuses.c", "refuses.so", "flag"))
    with open(source, "w", encoding="ascii") as out:
        out.write(REFUSES)
    subprocess.run(["gcc", "-shared", "-fPIC", "-O1", "-o", library, source], check=True)
    filled(place, 1)
    place.stop()
    client = place.start(under=("env", f"LD_PRELOAD={library}", f"REFUSES={flag}"))
    with open(flag, "wb"):
        pass
    try:
        code = client.delete(b"t")
        if os.path.exists(flag) or code == 0:
            raise SystemExit(f"the deletion is answered {code}")
        give(client, b"t", b"old", range(1, 3))
    except ConnectionError:
        place.stop()
        return look(place, range(1), 3)
    place.stop()
    return look(place, range(3))


def start_ahead(place):
    """The start that a deletion of records led to is there, and the last record below it is lost."""
    client, names = filled(place, 3)
    give(client, b"t", b"old", range(3, 4))
    kept = {it: place.read(it) for it in names}
    last = place.files()[1][1][-1]
    client.delete_records(b"t", 4)
    place.stop()
    for name, data in kept.items():
        place.write(name, data)
    if os.path.exists(f"{place.data}/{last}"):
        place.drop(last)
    return look(place, [])


def first_write_torn(place):
    """The first write of a file was not synced: a part of it is there, of any length, and zeros or other bytes behind it."""
    _, names = filled(place, 4)
    place.stop()
    data, chance = place.read(names[3]), random.Random(1)
    place.drop(names[3])
    number = int(names[3][:20])
    for size in (*range(60), *range(60, len(data), 500)):
        for rest in (b"", bytes(300), chance.randbytes(300)):
            place.write(f"{number:020}.seg", data[:size] + rest)
            number += 1
    return look(place, range(3))


STATES = [creation_lost, one_of_two_back, one_back_and_no_start, cut_undone, opening_undone, half_deleted, one_back, refused_whole, start_ahead,
          first_write_torn]
# In these no start may be refused: nothing was acknowledged of what is not there.
GOES_ON = [first_write_torn]


def outcome(program, more, state):
    """What a start does on a state, and whether it loses something without a word, or is refused without need."""
    with tempfile.TemporaryDirectory() as room:
        place = Place(program, room, more)
        try:
            wrong = state(place)
            return (f"LOST: {wrong}", True) if wrong else ("all is there", False)
        except Refused as refused:
            lines = [it for it in str(refused).splitlines() if " damage" in it or " do not fit" in it]
            said = lines[-1].partition("data has ")[2].partition(". Nothing")[0] if lines else f"without a reason: {refused}"
            return f"refused: {said}", not lines or state in GOES_ON
        finally:
            place.stop()


def main(program):
    with tempfile.TemporaryDirectory() as room:
        broker = Broker(program, room, 'sync = "always"')
        more = 'sync = "always"\n' if broker.listens() else ""
        broker.stop()
    lost = 0
    for number, state in enumerate(STATES, 1):
        said, is_lost = outcome(program, more, state)
        lost += is_lost
        print(f"{number}. {state.__doc__}\n   {said}")
    print(f"{lost} of {len(STATES)} states lost what was acknowledged without a word, or were refused without need")
    return 1 if lost else 0


if __name__ == "__main__":
    if len(sys.argv) != 2:
        sys.exit(__doc__)
    sys.exit(main(os.path.abspath(sys.argv[1])))
