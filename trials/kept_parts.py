#!/usr/bin/env python3
"""What a start drops of damaged files is kept beside them.

    trials/kept_parts.py KBROKER

A broker fills a topic, in one file and in several. Then a bit is turned over, and a start is asked for, without and with --drop-damaged. What
is dropped has to stand in the folder dropped-N, byte by byte, with the file's name and the place in its name; the log says where. A torn end
is not kept. Where the copy cannot be made the start is refused, and nothing is changed; for that it needs gcc. A file of a later version is
refused, and kept whole with --accept-strays. It prints what was wrong, and how many states of how many.
"""

import os
import subprocess
import sys
import tempfile

from cut_snapshots import Checked
from states_after_a_loss import Refused, give, values
from wire import batch, castagnoli

# Refuses to write into a folder of dropped parts, or to make one.
REFUSES = r"""
#define _GNU_SOURCE
#include <errno.h>
#include <fcntl.h>
#include <stdio.h>
#include <stdlib.h>
#include <string.h>
#include <sys/stat.h>
#include <sys/syscall.h>
#include <unistd.h>
static int is_refused(int fd, const char *what) {
    char link[64], path[4096];
    const char *wanted = getenv("REFUSES");
    if (!wanted || strcmp(wanted, what)) return 0;
    snprintf(link, sizeof link, "/proc/self/fd/%d", fd);
    ssize_t size = readlink(link, path, sizeof path - 1);
    if (size < 0) return 0;
    path[size] = 0;
    return strstr(path, "/dropped-") != 0;
}
ssize_t write(int fd, const void *bytes, size_t size) {
    if (is_refused(fd, "write")) { errno = ENOSPC; return -1; }
    return syscall(SYS_write, fd, bytes, size);
}
int fsync(int fd) {
    if (is_refused(fd, "sync")) { errno = EIO; return -1; }
    return syscall(SYS_fsync, fd);
}
int mkdirat(int at, const char *path, mode_t mode) {
    const char *wanted = getenv("REFUSES");
    if (wanted && !strcmp(wanted, "make") && strstr(path, "/dropped-")) { errno = ENOSPC; return -1; }
    return syscall(SYS_mkdirat, at, path, mode);
}
int mkdir(const char *path, mode_t mode) { return mkdirat(AT_FDCWD, path, mode); }
"""


def all_of(place):
    """Each file below the data folder, but the reserve, with its bytes."""
    out = {}
    for folder, _, names in os.walk(place.data):
        for name in names:
            if name != "reserve":
                with open(f"{folder}/{name}", "rb") as it:
                    out[os.path.relpath(f"{folder}/{name}", place.data)] = it.read()
    return out


def flipped(data, at):
    """The bytes with one bit turned over."""
    return data[:at] + bytes([data[at] ^ 1]) + data[at + 1:]


def filled(place, big):
    """The names of the files of a topic with six records, in one file or in one each."""
    client = place.start()
    client.create(b"first", retention_ms=-1)
    client.create(b"t", retention_ms=-1)
    give(client, b"t", b"old", range(6), b"x" * big)
    place.stop()
    return place.files()[1][1]


def damage(place, name, record):
    """Turns a bit over in a record of a file that has several of one size, behind the header of 43 bytes."""
    data = place.read(name)
    size = (len(data) - 43) // 6 if record else 0
    place.write(name, flipped(data, 43 + record * size + 70))


def is_refused(place, *flags, under=(), with_text=" has damage: "):
    """What is wrong with a start that has to be refused and to change nothing."""
    before = all_of(place)
    try:
        place.start(*flags, under=under)
    except Refused as refused:
        if with_text not in str(refused):
            return f"it is refused otherwise: {refused}"
        now = all_of(place)
        left = [it for it in os.listdir(place.data) if it.startswith("dropped-") and not os.listdir(f"{place.data}/{it}")]
        return "" if now == before and not left else f"the folder was changed: {sorted(now.keys() ^ before.keys())} {left}"
    return "it is not refused"


def keeps(place, number):
    """What is wrong with a start with --drop-damaged: what is gone has to stand in the folder of that number."""
    before = all_of(place)
    client = place.start("--drop-damaged")
    client.create(b"next%d" % number, retention_ms=-1)
    log = place.broker.log()
    place.stop()
    now = all_of(place)
    want = {}
    for name, data in before.items():
        left = now.get(name, b"")
        if not data.startswith(left) and not left.startswith(data):
            return f"{name} has other bytes"
        if len(left) < len(data):
            want[f"dropped-{number}/{name}.{len(left)}"] = data[len(left):]
    kept = {name: data for name, data in now.items() if name.startswith(f"dropped-{number}/")}
    if kept != want or not want:
        return f"{sorted(kept)} is kept, not {sorted(want)}"
    return "" if f"dropped-{number}" in log else "it is not told where"


# ---- The states


def one_file(place):
    """A batch of one file is damaged."""
    name, = filled(place, 10)
    damage(place, name, 2)
    return is_refused(place) or keeps(place, 1)


def several_files(place):
    """The first of six files is damaged."""
    names = filled(place, 2500)
    place.write(names[0], flipped(place.read(names[0]), 200))
    return is_refused(place) or keeps(place, 1)


def twice(place):
    """A second damage, on a folder with a folder of dropped parts, that has files with names of logs."""
    name, = filled(place, 10)
    damage(place, name, 4)
    wrong = is_refused(place) or keeps(place, 1)
    if wrong:
        return wrong
    os.rename(f"{place.data}/dropped-1/{os.listdir(place.data + '/dropped-1')[0]}", f"{place.data}/dropped-1/{99:020}.seg")
    data = place.read(name)
    size = (len(data) - 43) // 4
    place.write(name, flipped(data, 43 + size + 70))
    wrong = is_refused(place) or keeps(place, 2)
    if wrong:
        return wrong
    client = place.start()
    got = values(client, b"t")
    place.stop()
    return "" if got == [(0, b"old 0 ")] else f"there is {got}"


def torn(place):
    """The last batch is cut short: nothing is kept."""
    name, = filled(place, 10)
    place.write(name, place.read(name)[:-5])
    client = place.start()
    give(client, b"t", b"new", range(5, 6), b"")
    place.stop()
    return "it is kept" if any(it.startswith("dropped") for it in os.listdir(place.data)) else ""


def refused_at(place, call):
    """What is wrong with a start on a damaged folder where the copy is refused, and with the next one."""
    source, library = (f"{place.room}/{it}" for it in ("refuses.c", "refuses.so"))
    with open(source, "w", encoding="ascii") as out:
        out.write(REFUSES)
    subprocess.run(["gcc", "-shared", "-fPIC", "-O1", "-o", library, source], check=True)
    names = filled(place, 2500)
    place.write(names[0], flipped(place.read(names[0]), 200))
    under = ("env", f"LD_PRELOAD={library}", f"REFUSES={call}")
    wrong = is_refused(place, "--drop-damaged", under=under, with_text="cannot keep what the start would drop")
    return wrong or keeps(place, 1)


def cannot_make(place):
    """The folder cannot be made."""
    return refused_at(place, "make")


def cannot_write(place):
    """A copy cannot be written."""
    return refused_at(place, "write")


def cannot_sync(place):
    """A copy cannot be synced."""
    return refused_at(place, "sync")


def sets_aside(place, flag, name, whole, number):
    """What is wrong with a start with a flag: a file has to stand in the folder of that number, whole, and the next start to go on."""
    place.write(name, whole)
    before = all_of(place)
    place.start(flag).create(b"next%d" % number, retention_ms=-1)
    log = place.broker.log()
    place.stop()
    now = all_of(place)
    kept = {it: data for it, data in now.items() if it.startswith(f"dropped-{number}/")}
    if list(kept.values()) != [whole] or name in now or before.keys() - now.keys() != {name}:
        return f"{flag} leaves {sorted(now)}"
    place.start()
    place.stop()
    return "" if f"dropped-{number}" in log else f"with {flag} it is not told where"


def header_damaged(place):
    """A header is damaged, in a file with a batch and in one without, which is left where it is."""
    name, other = filled(place, 10)[0], f"{99:020}.seg"
    damaged = flipped(place.read(name)[:60], 20)
    place.write(other, damaged)
    place.start()
    place.stop()
    if place.read(other) != damaged:
        return "a file without a batch is changed"
    place.write(other, damaged + batch(b"line"))
    return is_refused(place) or sets_aside(place, "--drop-damaged", other, damaged + batch(b"line"), 1)


def later_version(place):
    """A file is of a later version, and another was before its header was damaged."""
    filled(place, 10)
    name, other = f"{98:020}.seg", f"{99:020}.seg"
    front = b"KBSG\0\3" + bytes(range(150))
    header = front + castagnoli(front).to_bytes(4, "big")
    place.write(name, flipped(header, 20))
    place.start()
    place.stop()
    whole = header + batch(b"line")
    place.write(other, whole)
    wrong = is_refused(place, with_text="1 files that the settings do not fit, 1 with a header of a later version.")
    return wrong or sets_aside(place, "--accept-strays", other, whole, 1)


STATES = [one_file, several_files, twice, torn, cannot_make, cannot_write, cannot_sync, header_damaged, later_version]


def main(program):
    wrong = 0
    for state in STATES:
        with tempfile.TemporaryDirectory() as room:
            place = Checked(program, room, "")
            try:
                said = state(place)
            except Refused as refused:
                said = f"refused: {refused}"
            finally:
                place.stop()
        if said:
            wrong += 1
            print(f"{state.__doc__}\n   {said}")
    print(f"{wrong} of {len(STATES)} wrong")
    return 1 if wrong else 0


if __name__ == "__main__":
    if len(sys.argv) != 2:
        sys.exit(__doc__)
    sys.exit(main(os.path.abspath(sys.argv[1])))
