#!/usr/bin/env python3
"""A broker tells of logins, and answers one that fails 100 ms later.

    trials/logins.py KBROKER

Logins are right, and have a line each with the user, the address and the tenant. Logins with a wrong password, within a request and by
themselves, have a line at once, and are answered and closed 100 to 150 ms later; what came behind them is not read. A client that goes
meanwhile is closed at once. 300 clients wait for such an answer at the same time, and a right login is answered in 20 ms beside them. With
`logins = false` a right login has no line, and a wrong one has. It prints `N of M wrong`.
"""

import os
import socket
import struct
import sys
import tempfile
import time

from why_closed import within
from wire import Broker, Client, text

DELAY = 0.1
SLACK = 0.05
CROWD = 300


def frame(key, version, body):
    """A request with a null client id."""
    request = struct.pack(">hhih", key, version, 7, -1) + body
    return struct.pack(">i", len(request)) + request


def words(password):
    """PLAIN's message of ann, behind its size."""
    message = b"\0ann\0" + password
    return struct.pack(">i", len(message)) + message


def within_requests(password):
    """A handshake of version 1, and a login behind it."""
    return frame(17, 1, text(b"PLAIN")), frame(36, 0, words(password))


def by_themselves(password):
    """A handshake of version 0, and PLAIN's message behind it."""
    return frame(17, 0, text(b"PLAIN")), words(password)


def reply(peer):
    """A frame that is read, its size among its bytes."""
    got = b""
    while len(got) < 4 or len(got) < 4 + struct.unpack_from(">i", got)[0]:
        piece = peer.recv(4096)
        if not piece:
            return got
        got += piece
    return got


def greeted(port, frames):
    """A socket behind its handshake, and its address."""
    peer = socket.create_connection(("127.0.0.1", port), timeout=20)
    peer.sendall(frames[0])
    reply(peer)
    return peer, "127.0.0.1:{}".format(peer.getsockname()[1])


def is_told(broker, line):
    """Whether a line is in the log, once, and soon."""
    return within(1, lambda: broker.log().count(line) == 1)


def is_late(broker, frames, answers):
    """Whether a login that fails has its line at once, and is answered and closed 100 ms later."""
    peer, address = greeted(broker.port, frames)
    began = time.monotonic()
    peer.sendall(frames[1] + frame(18, 0, b""))
    told = is_told(broker, f"login failed from {address} as ann")
    seen = time.monotonic() - began
    got = reply(peer)
    took = time.monotonic() - began
    try:
        rest = peer.recv(4096)
    except ConnectionResetError:
        rest = b""
    peer.close()
    print(f"told after {seen * 1000:.0f} ms, answered after {took * 1000:.0f} ms, with {len(got)} bytes")
    return told and seen < DELAY and DELAY - 0.002 <= took < DELAY + SLACK and (len(got) > 0) == answers and rest == b""


def open_sockets(broker):
    """How many sockets the process has."""
    folder = f"/proc/{broker.process.pid}/fd"
    return sum(os.path.islink(f"{folder}/{it}") and os.readlink(f"{folder}/{it}").startswith("socket:") for it in os.listdir(folder))


def goes_at_once(broker):
    """Whether the socket of a failed login is closed once its client goes."""
    before = open_sockets(broker)
    peer, _ = greeted(broker.port, within_requests(b"wrong"))
    peer.sendall(within_requests(b"wrong")[1])
    time.sleep(0.02)
    has_more = open_sockets(broker) == before + 1
    peer.close()
    time.sleep(0.03)
    return has_more and open_sockets(broker) == before


def crowd_waits(broker):
    """Whether a right login is answered at once while many failed ones wait, and they are all answered."""
    frames = within_requests(b"wrong")
    peers = [greeted(broker.port, frames)[0] for _ in range(CROWD)]
    for peer in peers:
        peer.sendall(frames[1])
    began = time.monotonic()
    Client(broker.port).socket.close()
    took = time.monotonic() - began
    answered = sum(len(reply(peer)) > 0 for peer in peers)
    for peer in peers:
        peer.close()
    print(f"beside {CROWD} failed logins a right one takes {took * 1000:.1f} ms; {answered} are answered")
    return took < 0.02 and answered == CROWD


def right_is_told(broker):
    """Whether a right login has its line."""
    client = Client(broker.port)
    address = "127.0.0.1:{}".format(client.socket.getsockname()[1])
    told = is_told(broker, f"login of ann from {address}, tenant a")
    client.socket.close()
    return told


def bare_is_told(broker):
    """Whether a right login by itself is answered and has its line."""
    frames = by_themselves(b"pw1")
    peer, address = greeted(broker.port, frames)
    peer.sendall(frames[1])
    is_answered = reply(peer) == b"\0\0\0\0"
    told = is_told(broker, f"login of ann from {address}, tenant a")
    peer.close()
    return is_answered and told


def many_are_counted(broker):
    """Whether of many logins in a second 16 have a line, and the others are counted."""
    before = len(broker.log())
    for _ in range(40):
        Client(broker.port).socket.close()

    def told():
        said = broker.log()[before:].split("\n")
        lines = sum(" login of ann from " in it for it in said)
        return lines + sum(int(it.split(": ")[1]) for it in said if " login of others: " in it)

    return within(4, lambda: told() == 40)


def main(program):
    """Whether all holds."""
    with tempfile.TemporaryDirectory() as room:
        broker = Broker(program, room)
        try:
            if not broker.listens():
                print("the broker does not listen")
                return 1
            holds = [
                right_is_told(broker), bare_is_told(broker), is_late(broker, within_requests(b"wrong"), True),
                is_late(broker, by_themselves(b"wrong"), False), goes_at_once(broker), crowd_waits(broker), many_are_counted(broker),
                "wrong" not in broker.log() and "pw1" not in broker.log(),
            ]
        finally:
            broker.stop()
    with tempfile.TemporaryDirectory() as room:
        broker = Broker(program, room, more="logins = false")
        try:
            if not broker.listens():
                print("the broker does not listen")
                return 1
            late = is_late(broker, within_requests(b"wrong"), True)
            holds.append(late and not right_is_told(broker))
        finally:
            broker.stop()
    print(f"{holds.count(False)} of {len(holds)} wrong")
    return 1 if holds.count(False) else 0


if __name__ == "__main__":
    sys.exit(main(sys.argv[1]))
