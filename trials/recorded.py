"""What a broker does to its folder and says on its sockets, call by call, for the scripts beside this file. It is no script by itself.

The broker runs under strace (Debian: strace). It has one thread, so that its calls stand in one order.
"""

import os
import re
import struct
import time
from typing import NamedTuple

from wire import Broker

CALLS = ("openat,open,creat,write,pwrite64,writev,pwritev,pwritev2,ftruncate,truncate,fallocate,copy_file_range,unlink,unlinkat,"
         "rename,renameat,renameat2,link,linkat,fsync,fdatasync,syncfs,sync,sync_file_range,read,recvfrom,recvmsg,readv,sendto,sendmsg,accept4")
# Files that are of no log: one keeps room on a full disk, the other is made and removed to see whether a folder can be written.
OTHERS = (b"reserve", b"trial")

SYNCS = ("fsync", "fdatasync", "syncfs")
LINE = re.compile(r"\d+ +(\d+\.\d+) (\w+)\((.*)\) += (-?\d+)(.*)")
HEX = r'(?:\\x[0-9a-f]{2})*'
FILE = re.compile(rf"(?:AT_FDCWD|\d+)<({HEX})>(\(deleted\))?")
TEXT = re.compile(rf'"({HEX})"(\.\.\.)?')


class Call(NamedTuple):
    """A call: its time; `make`, `write`, `cut`, `remove`, `rename`, `sync`, `heard` or `told`, which went well, or `refused`, a sync that
    did not; the file, the folder ("") or the request; a place or a length; and bytes, the new name, or which sync it is."""
    when: float
    what: str
    name: object
    at: int = 0
    data: object = b""


def plain(digits):
    """The bytes of what strace writes as hexadecimal."""
    return bytes.fromhex(digits.replace("\\x", ""))


class Stream:
    """The frames of one direction of a socket. Each is told by the correlation id at a place in it."""

    def __init__(self, place):
        self.place, self.rest = place, b""

    def take(self, data):
        """The correlation ids of the frames that end with these bytes."""
        self.rest += data
        ids = []
        while len(self.rest) >= 4:
            size = struct.unpack_from(">i", self.rest)[0]
            if len(self.rest) < 4 + size:
                break
            ids.append(struct.unpack_from(">i", self.rest, 4 + self.place)[0])
            self.rest = self.rest[4 + size:]
        return ids


class Reader:
    """Reads a record of calls on a folder."""

    def __init__(self, folder):
        self.folder = os.path.realpath(folder).encode()
        self.calls, self.streams = [], {}

    def name_of(self, path):
        """A file's name in the folder, "" for the folder itself, and None for what is not in it."""
        if path == self.folder:
            return ""
        head, _, name = path.rpartition(b"/")
        return name.decode() if head == self.folder and name not in OTHERS else None

    def add(self, when, what, name, *more):
        self.calls.append(Call(when, what, name, *more))

    def socket(self, when, call, words, size):
        """Bytes that were read from a socket, or written to it."""
        where = words[:words.index(">")].partition("<")[2]
        what, place = ("heard", 4) if call in ("read", "recvfrom") else ("told", 0)
        found = TEXT.search(words)
        if found and size > 0:
            for name in self.streams.setdefault((where, what), Stream(place)).take(plain(found[1])[:size]):
                self.add(when, what, name)

    def named(self, when, call, words):
        """A call that names files by their paths."""
        paths = [plain(it[0]) for it in TEXT.findall(words)]
        names = [self.name_of(os.path.join(self.folder, it)) for it in paths]
        if call == "openat":
            if "O_CREAT" in words and names[0]:
                self.add(when, "make", names[0])
            if "O_TRUNC" in words and names[0]:
                self.add(when, "cut", names[0], 0)
        elif call.startswith("unlink") and names[0]:
            self.add(when, "remove", names[0])
        elif call.startswith("rename") and any(names):
            self.add(when, "rename", names[0], 0, names[1])

    def filed(self, when, call, words, size):
        """A call on an open file."""
        found = FILE.match(words)
        name = self.name_of(plain(found[1])) if found and not found[2] else None
        if name is None:
            return
        if call == "pwrite64":
            bytes_of = TEXT.search(words)
            if bytes_of[2]:
                raise SystemExit("a write is too long to be recorded")
            self.add(when, "write", name, int(words.rsplit(", ", 1)[1]), plain(bytes_of[1])[:size])
        elif call == "ftruncate":
            self.add(when, "cut", name, int(words.rsplit(", ", 1)[1]))
        elif call in SYNCS:
            self.add(when, "sync" if call != "syncfs" else "sync all", name, 0, call)
        elif call not in ("read", "openat"):
            raise SystemExit(f"the call {call} on a file of the folder is not known here")

    def read(self, lines):
        """The calls of a record, in their order."""
        for line in lines:
            found = LINE.match(line)
            if not found:
                continue
            when, call, words, size, rest = float(found[1]), found[2], found[3], int(found[4]), found[5]
            if size < 0:
                if call in SYNCS:
                    self.add(when, "refused", self.name_of(plain(FILE.match(words)[1])))
                continue
            if call == "accept4":
                where = rest[:rest.index(">")].partition("<")[2]
                self.streams.pop((where, "heard"), None)
                self.streams.pop((where, "told"), None)
            elif r"<\x73\x6f\x63\x6b\x65\x74" in words[:40]:
                self.socket(when, call, words, size)
            elif call in ("openat", "unlink", "unlinkat", "rename", "renameat", "renameat2"):
                self.named(when, call, words)
            else:
                self.filed(when, call, words, size)
        return self.calls


class Recorded(Broker):
    """A broker whose calls are recorded, and refused by strace's own words where some are given."""

    def __init__(self, program, room, more="", inject=()):
        self.record, self.folder = f"{room}/record", f"{room}/data"
        under = ["strace", "-D", "-f", "--seccomp-bpf", "-e", f"trace={CALLS}", "-ttt", "-y", "-xx", "-s", "2000000", "-o", self.record]
        super().__init__(program, room, more, under=[*under, *inject])

    def calls(self):
        """The calls, once the process has ended."""
        for _ in range(500):
            with open(self.record, encoding="ascii", errors="replace") as it:
                lines = it.read().splitlines()
            if lines and " +++ " in lines[-1]:
                return Reader(self.folder).read(lines)
            time.sleep(0.01)
        raise SystemExit("strace did not end")
