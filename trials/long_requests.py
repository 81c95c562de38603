#!/usr/bin/env python3
"""A request may be as long as `request_bytes` says, on each connection, and what is longer is cut and told.

    trials/long_requests.py KBROKER

A Produce has a batch of some 94,000 bytes for each of many partitions. Two clients send it, of two tenants.

- With `request_bytes` = 8388608 one of 6 MB is stored whole, and one of 9 MB cuts its connection. The log names the limit.
- Sizes of 8388608 and 8388609 bytes are announced: the first is waited for, the second cuts.
- Without the setting 2 MB less a little are stored, 6 MB cut, and the log names 2097152.
- Before the login 65,537 bytes cut, with the setting as without.

It prints `N of M wrong`.
"""

import socket
import struct
import sys
import tempfile

from why_closed import within
from wire import Broker, Client, batch, create, text

LIMIT = 8_388_608
USUAL = 2_097_152
PARTITIONS = 64
VALUE = b"v" * 94_000
USERS = ((b"ann", b"pw1", "a"), (b"bob", b"pw2", "b"))


def entries(topic, count):
    """A topic of a Produce with the same batch for each of its first partitions. The batch is made once: its checksum takes long."""
    sent = entries.batch
    parts = b"".join(struct.pack(">ii", it, len(sent)) + sent for it in range(count))
    return text(topic) + struct.pack(">i", count) + parts


def produce_of(count):
    """A Produce of so many batches, 64 to a topic, and how many bytes the request has."""
    topics = [min(PARTITIONS, count - at) for at in range(0, count, PARTITIONS)]
    body = struct.pack(">hhi", -1, 1, 5000) + struct.pack(">i", len(topics))
    body += b"".join(entries(b"t%d" % at, size) for at, size in enumerate(topics))
    return body, len(body) + 10


def codes_of(got):
    """The error codes in a reply to Produce 3."""
    codes, at = [], 4
    for _ in range(struct.unpack_from(">i", got)[0]):
        at += 2 + struct.unpack_from(">h", got, at)[0]
        count = struct.unpack_from(">i", got, at)[0]
        at += 4
        for _ in range(count):
            codes.append(struct.unpack_from(">ih", got, at)[1])
            at += 22
    return codes


def is_cut(peer):
    """Whether the broker closes a socket, which sends nothing before."""
    peer.settimeout(20)
    try:
        return peer.recv(1) == b""
    except ConnectionError:
        return True


def stored(broker, user, count):
    """Whether a Produce of so many batches is stored whole."""
    client = Client(broker.port, *user[:2])
    body, size = produce_of(count)
    codes = codes_of(client.ask(0, 3, body))
    print(f"{user[2]}: {size} bytes, {count} batches: {len(codes)} answered, {sum(it != 0 for it in codes)} with an error")
    return codes == [0] * count


def cut(broker, user, count, limit):
    """Whether a Produce of so many batches cuts its connection, with one line in the log that names the limit."""
    client = Client(broker.port, *user[:2])
    line = "closed 127.0.0.1:{} of tenant {}: a request is longer than {} bytes".format(
        client.socket.getsockname()[1], user[2], limit)
    body, size = produce_of(count)
    try:
        client.send([(0, 3, body)])
    except ConnectionError:
        pass
    was_cut = is_cut(client.socket)
    told = within(4, lambda: broker.log().count(line) == 1)
    print(f"{user[2]}: {size} bytes: {'cut' if was_cut else 'not cut'}, {'told' if told else 'not told'}")
    return was_cut and told


def announced(broker, size, expected):
    """Whether a size that is announced behind a login cuts, as is expected."""
    peer = Client(broker.port).socket
    peer.sendall(struct.pack(">i", size))
    peer.settimeout(1)
    try:
        got = peer.recv(1) == b""
    except socket.timeout:
        got = False
    return got == expected


def stranger_is_cut(broker):
    """Whether 65,537 bytes are too many before the login."""
    peer = socket.create_connection(("127.0.0.1", broker.port), timeout=20)
    peer.sendall(struct.pack(">i", 65_537))
    return is_cut(peer)


def ready(broker):
    """Whether it listens, and both tenants have the topics."""
    if not broker.listens():
        return False
    made = [Client(broker.port, *user[:2]).all([create(b"t%d" % it, PARTITIONS) for it in range(2)]) for user in USERS]
    return made == [[0, 0]] * len(USERS)


def with_setting(program, room):
    broker = Broker(program, room, more=f"request_bytes = {LIMIT}")
    try:
        yield ready(broker)
        for user in USERS:
            yield stored(broker, user, 64)
            yield cut(broker, user, 96, LIMIT)
        yield announced(broker, LIMIT, False)
        yield announced(broker, LIMIT + 1, True)
        yield stranger_is_cut(broker)
    finally:
        broker.stop()


def without(program, room):
    broker = Broker(program, room)
    try:
        yield ready(broker)
        yield stored(broker, USERS[0], 22)
        yield cut(broker, USERS[1], 64, USUAL)
        yield announced(broker, USUAL, False)
        yield announced(broker, USUAL + 1, True)
        yield stranger_is_cut(broker)
    finally:
        broker.stop()


def main(program):
    """Whether all holds."""
    entries.batch = batch(VALUE)
    held = []
    for case in (with_setting, without):
        with tempfile.TemporaryDirectory() as room:
            held += case(program, room)
    print(f"{held.count(False)} of {len(held)} wrong")
    return 1 if False in held else 0


if __name__ == "__main__":
    sys.exit(main(sys.argv[1]))
