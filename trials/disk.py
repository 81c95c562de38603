"""A disk that the system writes, of which each write and flush is known, for the scripts beside this file. It is no script by itself.

It is a file of FUSE that a thread of this process serves, from memory. A file system is mounted from it by a loop device, which asks for
a sync of the file where the file system asks its disk for a flush. So at each moment it is known what a loss of power may leave: all that
was written before the last flush, and of what was written since each sector or not. It needs root.
"""

import ctypes
import errno
import os
import struct
import subprocess
import threading

SECTOR = 512
# Requests of FUSE (the kernel's include/uapi/linux/fuse.h), as far as they are answered.
FORGET, GETATTR, SETATTR, OPEN, READ, WRITE, RELEASE, FSYNC, FLUSH = 2, 3, 4, 14, 15, 16, 18, 20, 25
INIT, INTERRUPT, DESTROY, FORGET_MANY = 26, 36, 38, 42
LARGEST = 131_072
LIBC = ctypes.CDLL(None, use_errno=True)


def mount(path, *words):
    """Mounts by the words of the command."""
    subprocess.run(["mount", *words, path], check=True, stdout=subprocess.DEVNULL, stderr=subprocess.PIPE, timeout=60)


def unmount(path):
    """Unmounts what is mounted there, if anything is. What is busy goes once it is not."""
    if subprocess.run(["umount", path], check=False, stderr=subprocess.DEVNULL).returncode:
        subprocess.run(["umount", "-l", path], check=False, stderr=subprocess.DEVNULL)


class Disk:
    """A disk with what it has at first, as the file `path`. `record` has its writes, as place and bytes, and None for a flush."""

    def __init__(self, path, data):
        self.path, self.base, self.now, self.record = path, bytes(data), bytearray(data), []
        with open(path, "wb"):
            pass
        self.device = os.open("/dev/fuse", os.O_RDWR)
        words = f"fd={self.device},rootmode=100600,user_id=0,group_id=0".encode()
        if LIBC.mount(b"disk", path.encode(), b"fuse", 0, words):
            raise OSError(ctypes.get_errno(), "the disk is not mounted")
        self.thread = threading.Thread(target=self.serve, daemon=True)
        self.thread.start()

    def close(self):
        """The disk is gone."""
        unmount(self.path)
        self.thread.join(5)
        os.close(self.device)

    def serve(self):
        """Answers the system's requests, one after the other, until it is unmounted."""
        while True:
            try:
                request = os.read(self.device, LARGEST + 8192)
            except OSError:
                return
            kind, number = struct.unpack_from("=4xIQ", request)
            if kind in (FORGET, FORGET_MANY, INTERRUPT):
                continue
            answer = self.answer(kind, request[40:])
            error, data = (0, answer) if isinstance(answer, bytes) else (answer, b"")
            try:
                os.write(self.device, struct.pack("=IiQ", 16 + len(data), -error, number) + data)
            except OSError:
                return
            if kind == DESTROY:
                return

    def answer(self, kind, body):
        """The bytes that a request is answered, or an error."""
        if kind == INIT:
            major, minor, ahead, _ = struct.unpack_from("=IIII", body)
            return struct.pack("=IIIIHHII32x", major, min(minor, 31), ahead, 0, 16, 12, LARGEST, 1)
        if kind in (GETATTR, SETATTR):
            size, times, owner = len(self.now), (0, 0, 0), (0, 0)
            return struct.pack("=QII6Q10I", 3600, 0, 0, 1, size, size // SECTOR, *times, *times, 0o100600, 1, *owner, 0, 4096, 0)
        if kind == OPEN:
            return struct.pack("=QII", 0, 0, 0)
        if kind == READ:
            _, at, size = struct.unpack_from("=QQI", body)
            return bytes(self.now[at:at + size])
        if kind == WRITE:
            _, at, size = struct.unpack_from("=QQI", body)
            data = body[40:40 + size]
            self.now[at:at + size] = data
            self.record.append((at, data))
            return struct.pack("=II", size, 0)
        if kind == FSYNC:
            self.record.append(None)
        return b"" if kind in (FSYNC, FLUSH, RELEASE, DESTROY) else errno.ENOSYS


class Loss:
    """What a loss of power leaves of a disk, after more and more of its record."""

    def __init__(self, disk):
        self.disk, self.flushed, self.since, self.at = disk, bytearray(disk.base), [], 0

    def go(self, moment):
        """Goes on to a moment: so many writes and flushes."""
        for call in self.disk.record[self.at:moment]:
            if call is None:
                for at, data in self.since:
                    self.flushed[at:at + len(data)] = data
                self.since = []
            else:
                self.since.append(call)
        self.at = moment

    def left(self, chance, part):
        """The disk with each sector that was written since the last flush, or not, by a chance of so much."""
        data = bytearray(self.flushed)
        for at, new in self.since:
            for place in range(0, len(new), SECTOR):
                if chance.random() < part:
                    data[at + place:at + place + SECTOR] = new[place:place + SECTOR]
        return data
