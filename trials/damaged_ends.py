#!/usr/bin/env python3
"""A batch that is damaged at the end of its log is kept before a start drops it, and a write that stopped is not.

    trials/damaged_ends.py KBROKER

A broker fills a topic, and the end of a file is changed: a bit of the last batch or of the only one is turned over, at each place of its
header and in its record; it is cut short; zeros stand in its place or behind it. Some have a start that records were deleted up to, one is a
catalog. Where the batch may have been whole the start goes on, and what it drops stands in dropped-N, byte by byte; the log says so, and
where. Where the batch was cut short, or there are zeros alone, nothing is kept. Where a flipped bit leaves the batch whole nothing is lost,
or the start is refused. Where the copy cannot be made the start is refused, and nothing is changed; for that it needs gcc. It prints what was
wrong, and how many starts of how many.
"""

import os
import shutil
import struct
import subprocess
import sys
import tempfile

from cut_snapshots import Checked
from kept_parts import REFUSES, all_of, filled
from states_after_a_loss import Refused, give

HEADER = 43
MARK = "maybe with a damaged batch"
KEPT = "kept what is dropped of damaged files: 1, in "


def last_of(data):
    """Where the last batch of a file begins."""
    at = last = HEADER
    while at < len(data):
        last, at = at, at + 12 + struct.unpack_from(">i", data, at + 8)[0]
    return last


def with_bit(data, at, bit):
    """The bytes with one bit turned over."""
    return data[:at] + bytes([data[at] ^ 1 << bit]) + data[at + 1:]


def last_line(refused):
    """Why a start was refused."""
    return str(refused).splitlines()[-1]


def put(place, files):
    """A data folder with those files alone."""
    shutil.rmtree(place.data)
    for name, data in files.items():
        os.makedirs(os.path.dirname(f"{place.data}/{name}"), mode=0o700, exist_ok=True)
        with open(f"{place.data}/{name}", "wb") as out:
            out.write(data)


def found(place):
    """Each file behind a start and a write, those in folders of dropped parts, and the start's log. A start that is refused raises."""
    told = len(place.broker.log())
    client = place.start()
    client.create(b"next", retention_ms=-1)
    log = place.broker.log()[told:]
    place.stop()
    now = all_of(place)
    return now, {it: data for it, data in now.items() if "/" in it}, log


def keeps(place, name, at=None):
    """What is wrong with a start that has to keep what it drops of a file, which is all from a place on, and to go on without it."""
    data = place.read(name)
    now, kept, log = found(place)
    at = 0 if name not in now else at
    if kept != {f"dropped-1/{name}.{at}": data[at:]}:
        return f"{ {it: len(had) for it, had in kept.items()} } is kept, not {len(data) - at} bytes of {name} from {at} on"
    if name in now and now[name][:at] != data[:at]:
        return f"{name} has {len(now[name])} bytes, not {at}"
    if log.count(MARK) != 1 or log.count(f"{KEPT}{place.data}/dropped-1") != 1:
        return f"it is not told: {log}"
    return ""


def drops(place, name, at):
    """What is wrong with a start that has to drop what a file has from a place on, and to keep nothing."""
    data = place.read(name)
    now, kept, log = found(place)
    if kept or MARK in log or KEPT in log:
        return f"{list(kept)} is kept: {log}"
    if now.get(name, b"")[:at] != data[:at]:
        return f"{name} has {len(now[name])} bytes, not {at}"
    return "" if len(data) == at or f"dropped file {int(name[:20])}: {len(data) - at} bytes" in log else f"it is not told: {log}"


# ---- The states: each gives a name, and what is wrong with it


def flips(place, records):
    """One bit turned over, at each place of the last batch's header and in its record."""
    name = filled(place, 10)[0] if records == 6 else one_record(place)
    files, data = all_of(place), place.read(name)
    at = last_of(data)
    for where in (*range(61), 62, len(data) - at - 2):
        for bit in (0, 7):
            put(place, {**files, name: with_bit(data, at + where, bit)})
            try:
                wrong = flipped_at(place, name, at, where)
            except Refused as refused:
                # The batch is whole, but elsewhere in the log.
                wrong = "" if where < 8 and " has damage: " in last_line(refused) else f"byte {where} is refused: {refused}"
            yield f"{records} batches, byte {where}, bit {bit}", wrong


def flipped_at(place, name, at, where):
    """The same of one place. No checksum is over the leader epoch, which is not looked at."""
    if 12 <= where < 16:
        now, kept, log = found(place)
        return "" if not kept and MARK not in log and len(now[name]) > at else f"the batch is not there: {log}"
    if where < 8:
        found(place)
        return "a whole batch at another place is passed over"
    return keeps(place, name, at)


def one_record(place):
    """The name of the file of a topic with one record."""
    client = place.start()
    client.create(b"t", retention_ms=-1)
    give(client, b"t", b"old", range(1), b"x" * 10)
    place.stop()
    return place.files()[1][0][0]


def six_batches(place):
    """Bits of the last of six batches."""
    yield from flips(place, 6)


def only_batch(place):
    """Bits of the only batch."""
    yield from flips(place, 1)


def cut_short(place):
    """The last batch cut to each of some lengths, also of the only one."""
    for records in (6, 1):
        name = filled(place, 10)[0] if records == 6 else one_record(place)
        files, data = all_of(place), place.read(name)
        at = last_of(data)
        for left in (0, 1, 8, 12, 16, 21, 60, 61, 70, len(data) - at - 1):
            put(place, {**files, name: data[:at + left]})
            yield f"{left} of {len(data) - at} bytes", drops(place, name, at)
        shutil.rmtree(place.data)


def zeros(place):
    """Zeros in the last batch's place, behind it, and in its second half."""
    name = filled(place, 10)[0]
    files, data = all_of(place), place.read(name)
    at = last_of(data)
    size = len(data) - at
    put(place, {**files, name: data[:at] + bytes(size)})
    yield "in its place", drops(place, name, at)
    put(place, {**files, name: data + bytes(5000)})
    yield "behind it", drops(place, name, len(data))
    put(place, {**files, name: data[:at + 65] + bytes(size - 65)})
    yield "in its second half", keeps(place, name, at)


def moved_start(place):
    """A start in front of the damaged batch, and behind it: then the file goes whole."""
    for start in (5, 6):
        name = filled(place, 10)[0]
        client = place.start()
        client.delete_records(b"t", start)
        place.stop()
        if name not in all_of(place):
            yield f"{start}", "the file went with the deletion"
            continue
        data = place.read(name)
        at = last_of(data)
        place.write(name, with_bit(data, at + 70, 3))
        yield f"{start}", keeps(place, name, at)
        shutil.rmtree(place.data)


def catalog(place):
    """The last command of a catalog, a commit."""
    client = place.start()
    client.create(b"t", retention_ms=-1)
    client.commit(b"group", b"t", b"")
    place.stop()
    name = place.files()[0][-1]
    data = place.read(name)
    at = last_of(data)
    place.write(name, with_bit(data, at + 70, 3))
    yield "a commit", keeps(place, name, at)


def refused_copy(place):
    """A copy that cannot be made."""
    source, library = (f"{place.room}/{it}" for it in ("refuses.c", "refuses.so"))
    with open(source, "w", encoding="ascii") as out:
        out.write(REFUSES)
    subprocess.run(["gcc", "-shared", "-fPIC", "-O1", "-o", library, source], check=True)
    name = filled(place, 10)[0]
    data = place.read(name)
    at = last_of(data)
    place.write(name, with_bit(data, at + 70, 3))
    before = all_of(place)
    for call in ("make", "write", "sync"):
        try:
            place.start(under=("env", f"LD_PRELOAD={library}", f"REFUSES={call}"))
            place.stop()
            yield call, "it is not refused"
        except Refused as refused:
            good = "cannot keep what the start would drop" in last_line(refused) and all_of(place) == before
            yield call, "" if good else f"it is refused otherwise, or something was changed: {refused}"
    yield "none", keeps(place, name, at)


STATES = [six_batches, only_batch, cut_short, zeros, moved_start, catalog, refused_copy]


def main(program):
    wrong = starts = 0
    for state in STATES:
        with tempfile.TemporaryDirectory() as room:
            place = Checked(program, room, "")
            try:
                for name, said in state(place):
                    starts += 1
                    if said:
                        wrong += 1
                        print(f"{state.__doc__} {name}:\n   {said}")
            except Refused as refused:
                wrong += 1
                print(f"{state.__doc__}\n   refused: {refused}")
            finally:
                place.stop()
    print(f"{wrong} of {starts} wrong")
    return 1 if wrong else 0


if __name__ == "__main__":
    if len(sys.argv) != 2:
        sys.exit(__doc__)
    sys.exit(main(os.path.abspath(sys.argv[1])))
