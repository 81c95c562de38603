"""A broker that is started and asked, for the scripts beside this file. It is no script by itself."""

import importlib.util
import itertools
import os
import resource
import secrets
import signal
import socket
import struct
import subprocess
import sys
import threading
import time

TABLE = []
for number in range(256):
    for _ in range(8):
        number = number >> 1 ^ (0x82F63B78 if number & 1 else 0)
    TABLE.append(number)

PORTS, LOCK = set(), threading.Lock()

SETTINGS = """host = "127.0.0.1"
port = {port}
data = "{data}"
{more}
[[user]]
name = "ann"
password = "pw1"
tenant = "a"

[[user]]
name = "bob"
password = "pw2"
tenant = "b"
"""


def allow_files(count):
    """Lets this process, and those that it starts, have so many open files, where it may. A shell mostly allows 1,024."""
    soft, hard = resource.getrlimit(resource.RLIMIT_NOFILE)
    most = count if hard == resource.RLIM_INFINITY else min(hard, count)
    if soft != resource.RLIM_INFINITY and soft < most:
        resource.setrlimit(resource.RLIMIT_NOFILE, (most, hard))


# (a broker of the standard settings asks for 1,056)
allow_files(4096)


def in_debians_python(*modules):
    """Begins the script anew in Debian's Python where this one has not these modules, which are Debian's packages."""
    python = "/usr/bin/python3"
    is_other = os.path.exists(python) and os.path.realpath(sys.executable) != os.path.realpath(python)
    if is_other and not all(importlib.util.find_spec(it) for it in modules):
        os.execv(python, [python, *sys.argv])


def castagnoli(data):
    """The CRC-32C of bytes."""
    crc = 0xFFFFFFFF
    for byte in data:
        crc = crc >> 8 ^ TABLE[(crc ^ byte) & 255]
    return crc ^ 0xFFFFFFFF


def varint(number):
    """A number as a zigzag VARINT."""
    number = number << 1 ^ number >> 63
    out = b""
    while number > 127:
        out += bytes([number & 127 | 128])
        number >>= 7
    return out + bytes([number])


def batch(value, now=None, producer=(-1, -1, -1)):
    """A record batch of magic 2 with one record, whose timestamp is now, or the one that is given. A producer is its id, its epoch and the
    batch's sequence."""
    time_of = int(time.time() * 1000) if now is None else now
    record = b"\0" + varint(0) + varint(0) + varint(-1) + varint(len(value)) + value + varint(0)
    records = varint(len(record)) + record
    body = struct.pack(">hiqqqhii", 0, 0, time_of, time_of, *producer, 1) + records
    head = struct.pack(">ib", 0, 2) + struct.pack(">I", castagnoli(body))
    return struct.pack(">qi", 0, len(head) + len(body)) + head + body


def text(value):
    """A STRING."""
    return struct.pack(">h", len(value)) + value


def free_port():
    """A port of the loopback that nobody listens on, which is not given out again. It is below those that clients get."""
    while True:
        port = 10_240 + secrets.randbelow(20_000)
        with socket.socket() as it:
            try:
                it.bind(("127.0.0.1", port))
            except OSError:
                continue
        with LOCK:
            if port not in PORTS:
                PORTS.add(port)
                return port


def place(topic, partition=0):
    """An array of one topic, of which one partition."""
    return struct.pack(">i", 1) + text(topic) + struct.pack(">ii", 1, partition)


# ---- Requests: a key, a version, a body, and what reads the reply. Where no partition is named it is the partition 0.


def create(topic, partitions=1, **config):
    """Makes a topic; the reply's error code. A setting's name has _ for a dot."""
    pairs = b"".join(text(k.replace("_", ".").encode()) + text(str(v).encode()) for k, v in config.items())
    body = struct.pack(">i", 1) + text(topic) + struct.pack(">ihi", partitions, 1, 0) + struct.pack(">i", len(config)) + pairs
    return 19, 0, body + struct.pack(">i", 5000), lambda got: struct.unpack_from(">h", got, 6 + len(topic))[0]


def delete(topic):
    """Deletes a topic; the error code."""
    body = struct.pack(">i", 1) + text(topic) + struct.pack(">i", 5000)
    return 20, 0, body, lambda got: struct.unpack_from(">h", got, 6 + len(topic))[0]


def produce(topic, sent, partition=0):
    """Sends a batch; the error code and the offset."""
    body = struct.pack(">hhi", -1, 1, 5000) + place(topic, partition) + struct.pack(">i", len(sent)) + sent
    return 0, 3, body, lambda got: struct.unpack_from(">hq", got, 14 + len(topic))


def delete_records(topic, offset, partition=0):
    """Deletes the records below an offset; the error code."""
    body = place(topic, partition) + struct.pack(">qi", offset, 5000)
    return 21, 0, body, lambda got: struct.unpack_from(">h", got, 26 + len(topic))[0]


def commit(group, topic, metadata=b"", offset=0, partition=0):
    """Commits an offset of a group; the error code."""
    body = text(group) + struct.pack(">i", -1) + text(b"") + struct.pack(">q", -1) + place(topic, partition)
    return 8, 2, body + struct.pack(">q", offset) + text(metadata), lambda got: struct.unpack_from(">h", got, 14 + len(topic))[0]


def committed(group, topic):
    """Asks what a group committed; the offset, or -1."""
    return 9, 1, text(group) + place(topic), lambda got: struct.unpack_from(">q", got, 14 + len(topic))[0]


def fetch(topic, offset, partition=0):
    """Asks for at most 1 MiB from an offset on; the error code, the high watermark and the bytes."""
    at = 18 + len(topic)

    def read(got):
        code, mark = struct.unpack_from(">hq", got, at)
        return code, mark, got[at + 26:at + 26 + struct.unpack_from(">i", got, at + 22)[0]]

    return 1, 4, struct.pack(">iiiib", -1, 0, 1, 1 << 20, 0) + place(topic, partition) + struct.pack(">qi", offset, 1 << 20), read


def offset_at(topic, moment, partition=0):
    """Asks for the start of a log (-2), its end (-1), or a record by time; the error code and the offset."""
    body, at = struct.pack(">i", -1) + place(topic, partition) + struct.pack(">q", moment), 14 + len(topic)
    return 2, 1, body, lambda got: struct.unpack_from(">hxxxxxxxxq", got, at)


def producer_id():
    """Asks for a producer id; the error code and the id."""
    return 22, 0, struct.pack(">hi", -1, 5000), lambda got: struct.unpack_from(">hq", got, 4)


class Cursor:
    """Reads the fields of a reply, one after another."""

    def __init__(self, got):
        self.got, self.at = got, 0

    def take(self, form):
        self.at += struct.calcsize(form)
        return struct.unpack_from(form, self.got, self.at - struct.calcsize(form))[0]

    def text(self):
        """A STRING, or a NULLABLE_STRING."""
        size = self.take(">h")
        return self.take(f"{size}s") if size >= 0 else None

    def array(self, form):
        return [self.take(form) for _ in range(self.take(">i"))]


def partitions():
    """Asks for all topics; how many partitions each has, by its name."""
    def read(got):
        it, counts = Cursor(got), {}
        for _ in range(it.take(">i")):
            it.take(">i"), it.text(), it.take(">i"), it.text()
        it.take(">i")
        for _ in range(it.take(">i")):
            it.take(">h")
            name = it.text()
            it.take(">?")
            counts[name] = it.take(">i")
            for _ in range(counts[name]):
                it.take(">h"), it.take(">i"), it.take(">i"), it.array(">i"), it.array(">i")
        return counts

    return 3, 1, struct.pack(">i", -1), read


def topics():
    """Asks for all topics; their names."""
    key, version, body, read = partitions()
    return key, version, body, lambda got: list(read(got))


class Client:
    """A connection that is logged in. No two requests of this process have the same correlation id."""

    ids = itertools.count(1)

    def __init__(self, port, user=b"ann", password=b"pw1"):
        self.socket = socket.create_connection(("127.0.0.1", port), timeout=20)
        self.socket.setsockopt(socket.IPPROTO_TCP, socket.TCP_NODELAY, 1)
        self.ask(17, 1, text(b"PLAIN"))
        words = b"\0" + user + b"\0" + password
        self.ask(36, 0, struct.pack(">i", len(words)) + words)

    def take(self, size):
        """So many bytes of what the broker sends."""
        out = b""
        while len(out) < size:
            piece = self.socket.recv(size - len(out))
            if not piece:
                raise ConnectionError
            out += piece
        return out

    def send(self, requests):
        """Sends requests in one piece, and answers their correlation ids."""
        ids, sent = [], b""
        for key, version, body, *_ in requests:
            ids.append(next(Client.ids))
            request = struct.pack(">hhih", key, version, ids[-1], -1) + body
            sent += struct.pack(">i", len(request)) + request
        self.socket.sendall(sent)
        return ids

    def hear(self):
        """The next reply, without its header."""
        return self.take(struct.unpack(">i", self.take(4))[0])[4:]

    def ask(self, key, version, body):
        """The reply to a request, without its header."""
        self.send([(key, version, body)])
        return self.hear()

    def all(self, requests):
        """What the replies to requests say, which are sent in one piece."""
        self.send(requests)
        return [read(self.hear()) for *_, read in requests]

    def create(self, topic, **config):
        """Makes a topic, and answers the error code. A setting's name has _ for a dot."""
        return self.all([create(topic, **config)])[0]

    def delete(self, topic):
        """Deletes a topic, and answers the error code."""
        return self.all([delete(topic)])[0]

    def produce(self, topic, sent):
        """Sends a batch. It answers the error code and the offset."""
        return self.all([produce(topic, sent)])[0]

    def delete_records(self, topic, offset):
        """Deletes the records below an offset, and answers the error code."""
        return self.all([delete_records(topic, offset)])[0]

    def commit(self, group, topic, metadata):
        """Commits the offset 0 of a group, and answers the error code."""
        return self.all([commit(group, topic, metadata)])[0]

    def fetch(self, topic, offset):
        """The error code, the high watermark and the bytes of a fetch."""
        return self.all([fetch(topic, offset)])[0]


class Broker:
    """A broker that listens, with words before and behind its own where some are given. `log` gives what it said on standard error."""

    def __init__(self, program, room, more="", before=None, user=None, data=None, under=(), flags=(), mode=0o600):
        self.port = free_port()
        self.settings = f"{room}/settings.toml"
        with open(self.settings, "w", encoding="utf-8") as out:
            out.write(SETTINGS.format(port=self.port, data=data or f"{room}/data", more=more))
        os.chmod(self.settings, mode)
        if user is not None:
            os.chown(self.settings, user, -1)
        self.errors = f"{room}/errors"
        with open(self.errors, "ab") as errors, open(f"{room}/out", "wb") as out:
            words = [*under, os.path.abspath(program), "serve", "--config", self.settings, "--stock-clients", *flags]
            self.process = subprocess.Popen(words, stdout=out, stderr=errors, preexec_fn=before, user=user, close_fds=False)

    def listens(self):
        """Whether clients can connect, within four seconds. It does not where the broker ends."""
        for _ in range(400):
            try:
                socket.create_connection(("127.0.0.1", self.port), timeout=1).close()
                return True
            except OSError:
                if self.process.poll() is not None:
                    return False
                time.sleep(0.01)
        return False

    def log(self):
        """What was said on standard error."""
        with open(self.errors, encoding="utf-8") as it:
            return it.read()

    def processor(self):
        """The processor seconds of the process so far."""
        with open(f"/proc/{self.process.pid}/stat", encoding="ascii") as it:
            fields = it.read().rpartition(")")[2].split()
        return (int(fields[11]) + int(fields[12])) / os.sysconf("SC_CLK_TCK")

    def resident(self):
        """The resident size of the process, in bytes."""
        with open(f"/proc/{self.process.pid}/status", encoding="ascii") as it:
            return next(int(line.split()[1]) * 1024 for line in it if line.startswith("VmRSS:"))

    def stop(self):
        """Ends the process."""
        if self.process.poll() is None:
            self.process.send_signal(signal.SIGKILL)
        return self.process.wait()


def scheduled(process):
    """How long a process of one thread, or "thread-self", had a processor, and how long it could run and had none: seconds. Both are 0
    where the system does not tell."""
    try:
        with open(f"/proc/{process}/schedstat", encoding="ascii") as it:
            return tuple(int(word) / 1e9 for word in it.read().split()[:2])
    except OSError:
        return 0.0, 0.0


class Beside:
    """Another tenant, that asks for the versions each millisecond, and its longest wait. What it was held up is that without the time for
    which other programs had the processors, so that a busy machine is not taken for a busy broker."""

    def __init__(self, broker):
        self.client, self.broker = Client(broker.port, b"bob", b"pw2"), broker.process.pid
        self.most, self.held, self.done = 0.0, 0.0, False
        self.client.socket.settimeout(120)
        self.thread = threading.Thread(target=self.run)
        self.thread.start()

    def scheduled(self):
        """How long the broker had a processor, and how long it or this thread had none."""
        (ran, lacked), (_, own) = scheduled(self.broker), scheduled("thread-self")
        return ran, lacked + own

    def run(self):
        while not self.done:
            began, before = time.monotonic(), self.scheduled()
            self.client.ask(18, 0, b"")
            ran, lacked = (now - then for now, then in zip(self.scheduled(), before))
            took = time.monotonic() - began
            # (it is held up at least while the broker works, also where this thread has no processor meanwhile)
            self.most, self.held = max(self.most, took), max(self.held, ran, took - lacked)
            time.sleep(0.001)

    def end(self):
        """The longest wait, and the longest time for which it was held up: seconds."""
        self.done = True
        self.thread.join()
        self.client.socket.close()
        return self.most, self.held
