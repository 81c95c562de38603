#!/usr/bin/env python3
"""Starts a broker on folders in which a snapshot that was being written has holes, as a loss of power may leave them.

    trials/cut_snapshots.py KBROKER

A broker makes topics, records and commits. A snapshot of its catalog is put beside the catalog, as a new generation, of which each batch in
turn is zeros, or missing. Behind the first batch a hole takes nothing: the start goes on, tells of the snapshot and leaves it alone, and all
is there, over three starts, of which the second removes the snapshot. Where a command stands behind the snapshot, where the catalog is not there any more, where the first batch is
gone that says how far the snapshot reaches, or where the generation with the hole is in use, the start is refused and nothing is changed.
Before each start `kbroker check --data` has to say the same, and to change nothing. It prints what was wrong, and how many states of how
many.
"""

import os
import struct
import subprocess
import sys
import tempfile

from states_after_a_loss import Place, Refused
from stopped_snapshots import Snapshot, castagnoli, header, refuses, serves, stays
from wire import batch, text


class Checked(Place):
    """A place that is looked at before each start: what is said of it has to be what the start does."""

    def bytes_of_all(self):
        """Each file below the data folder, with its bytes."""
        out = {}
        for folder, _, names in os.walk(self.data):
            for name in names:
                with open(f"{folder}/{name}", "rb") as it:
                    out[f"{folder}/{name}"] = it.read()
        return out

    def start(self, *flags, under=()):
        if flags or under or not os.path.isdir(self.data):
            return super().start(*flags, under=under)
        before = self.bytes_of_all()
        said = subprocess.run([self.program, "check", "--data", self.data], capture_output=True, text=True, check=False)
        if self.bytes_of_all() != before:
            raise SystemExit("check --data has changed the folder")
        verdict = said.stdout.splitlines()[-1:] == ["a start goes on"]
        try:
            client = super().start()
        except Refused as refused:
            if verdict or said.returncode != 1 or said.stderr.splitlines()[-1] not in str(refused):
                raise SystemExit(f"the start is refused, but check --data says {said.stdout}{said.stderr}") from refused
            raise
        if not verdict or said.returncode:
            raise SystemExit(f"the start goes on, but check --data says {said.stdout}{said.stderr}")
        held = subprocess.run([self.program, "check", "--data", self.data], capture_output=True, text=True, check=False)
        if held.returncode != 1 or "another process serves" not in held.stderr:
            raise SystemExit(f"a broker serves the folder, but check --data says {held.stdout}{held.stderr}")
        return client


def put_parts(snapshot, parts):
    """Puts a generation into files of so many batches each; the first file has the generation's number."""
    number = int(snapshot.name[:-4])
    base = 0
    for at, batches in enumerate(parts):
        front = snapshot.front if not base else header_at(snapshot, base)
        snapshot.place.write(f"{number + at:020}.seg", front + b"".join(batches))
        base += len(batches)


def header_at(snapshot, base):
    """The header of a further file of the same generation."""
    said = bytearray(snapshot.front[:-4])
    struct.pack_into(">q", said, 8, base)
    return bytes(said) + struct.pack(">I", castagnoli(bytes(said)))


def command_behind(snapshot, value):
    """A command behind the snapshot's last one."""
    return struct.pack(">q", len(snapshot.batches)) + batch(value, 0)[8:]


def commit(offset):
    """A commit of a group to the topic that was made first."""
    return b"\4" + text(b"group") + struct.pack(">qiq", 0, 0, offset) + text(b"later")


def holes(batches):
    """The batches with each in turn zeros, and missing."""
    for at, it in enumerate(batches):
        for word, hole in (("zeros", bytes(len(it))), ("missing", b"")):
            yield at, word, batches[:at] + [hole] + batches[at + 1:]


def hole_beside(snapshot, batches, first):
    """What is wrong with a snapshot with a hole beside the catalog: nothing of it is a loss, but where the first batch is gone."""
    put_parts(snapshot, [batches])
    return refuses(snapshot.place) if first else stays(snapshot)


# ---- Other states


def hole_in_the_first_file(snapshot):
    """Of two files of a snapshot the first has a hole, beside the catalog."""
    half = len(snapshot.batches) // 2
    first = list(snapshot.batches[:half])
    first[2] = bytes(len(first[2]))
    put_parts(snapshot, [first, snapshot.batches[half:]])
    return serves(snapshot.place)


def first_file_missing(snapshot):
    """Of two files of a snapshot the first is missing: refused."""
    half = len(snapshot.batches) // 2
    put_parts(snapshot, [snapshot.batches[:half], snapshot.batches[half:]])
    snapshot.place.drop(snapshot.name)
    return refuses(snapshot.place)


def hole_and_a_command(snapshot):
    """A snapshot with a hole, and a command behind it: refused."""
    batches = list(snapshot.batches) + [command_behind(snapshot, commit(3))]
    batches[2] = bytes(len(batches[2]))
    put_parts(snapshot, [batches])
    return refuses(snapshot.place)


def hole_and_a_command_in_a_further_file(snapshot):
    """The same, with the command in a file of its own: refused."""
    batches = list(snapshot.batches)
    batches[2] = bytes(len(batches[2]))
    put_parts(snapshot, [batches, [command_behind(snapshot, commit(3))]])
    return refuses(snapshot.place)


def hole_alone(snapshot):
    """A snapshot with a hole in the catalog's place: refused."""
    batches = list(snapshot.batches)
    batches[2] = bytes(len(batches[2]))
    put_parts(snapshot, [batches])
    snapshot.drop_old()
    return refuses(snapshot.place)


def short_alone(snapshot):
    """A snapshot without its last batch in the catalog's place: refused."""
    put_parts(snapshot, [snapshot.batches[:-1]])
    snapshot.drop_old()
    return refuses(snapshot.place)


def hole_in_use(snapshot):
    """A whole snapshot, and of two commands behind it the first is zeros: refused, since the generation is in use."""
    behind = [command_behind(snapshot, commit(3)), command_behind(snapshot, commit(3))]
    behind[1] = struct.pack(">q", len(snapshot.batches) + 1) + behind[1][8:]
    put_parts(snapshot, [list(snapshot.batches) + [bytes(len(behind[0])), behind[1]]])
    return refuses(snapshot.place)


def twice(snapshot):
    """Two snapshots with holes, of two generations, beside the catalog."""
    batches = list(snapshot.batches)
    batches[2] = bytes(len(batches[2]))
    put_parts(snapshot, [batches])
    number = int(snapshot.name[:-4]) + 1
    tenant = snapshot.front[30:][:struct.unpack_from(">h", snapshot.front, 28)[0]]
    snapshot.place.write(f"{number:020}.seg", header(tenant, number) + b"".join(batches))
    return serves(snapshot.place)


OTHERS = [hole_in_the_first_file, first_file_missing, hole_and_a_command, hole_and_a_command_in_a_further_file, hole_alone, short_alone,
          hole_in_use, twice]


def tried(program, state):
    """What is wrong with a state of a new folder."""
    with tempfile.TemporaryDirectory() as room:
        place = Checked(program, room, "")
        try:
            return state(Snapshot(place))
        except Refused as refused:
            return f"refused: {refused}"
        finally:
            place.stop()


def main(program):
    rows = [(it.__doc__, it) for it in OTHERS]
    with tempfile.TemporaryDirectory() as room:
        count = len(Snapshot(Place(program, room, "")).batches)
    for at, word, _ in holes([b""] * count):
        def state(snapshot, at=at, word=word):
            batches = next(it for place, way, it in holes(snapshot.batches) if (place, way) == (at, word))
            return hole_beside(snapshot, batches, not at)
        rows.append((f"batch {at} of {count} is {word}, beside the catalog", state))
    wrong = 0
    for text_of, state in rows:
        said = tried(program, state)
        if said:
            wrong += 1
            print(f"{text_of}\n   {said}")
    print(f"{wrong} of {len(rows)} wrong")
    return 1 if wrong else 0


if __name__ == "__main__":
    if len(sys.argv) != 2:
        sys.exit(__doc__)
    sys.exit(main(os.path.abspath(sys.argv[1])))
