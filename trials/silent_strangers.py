#!/usr/bin/env python3
"""Sockets that never log in keep nobody out.

    trials/silent_strangers.py KBROKER

As many silent sockets as a broker of the standard settings takes stay open. A client that comes then has to be served within a second. After
ten seconds the silent ones have to be closed, also one that sends a byte each second, and the log has to tell it. A client that logged in and
one whose fetch waits for 30 seconds have to stay.
"""

import socket
import struct
import sys
import tempfile
import time

from wire import Broker, Client, batch, text

SOCKETS = 1024
LOGIN = 10
WAIT = 30


def is_closed(stranger):
    """Whether the broker has closed a socket that it said nothing to."""
    stranger.setblocking(False)
    try:
        return stranger.recv(1) == b""
    except BlockingIOError:
        return False
    except OSError:
        return True


def first_answer(port):
    """In how many seconds a new client is logged in and answered. None where it is not."""
    began = time.monotonic()
    try:
        code = Client(port).produce(b"t", batch(b"hi"))[0]
    except OSError:
        return None
    return time.monotonic() - began if code == 0 else None


def trickle(slow, until):
    """Sends a byte of a request each second until then, or until the broker closes."""
    while time.monotonic() < until:
        time.sleep(1)
        try:
            slow.send(b"\0")
        except OSError:
            return


def looked_at(broker):
    """Whether the strangers go and the others stay."""
    idle, waiting = Client(broker.port), Client(broker.port)
    if idle.create(b"t") != 0:
        return False
    idle.create(b"empty")
    body = struct.pack(">iiiibi", -1, WAIT * 1000, 1, 1 << 20, 0, 1) + text(b"empty") + struct.pack(">iiqi", 1, 0, 0, 1 << 20)
    request = struct.pack(">hhih", 1, 4, 7, -1) + body
    waiting.socket.sendall(struct.pack(">i", len(request)) + request)
    asked = time.monotonic()
    silent = [socket.create_connection(("127.0.0.1", broker.port)) for _ in range(SOCKETS)]
    slow = socket.create_connection(("127.0.0.1", broker.port))
    slow.send(b"\0\0\1\0")
    time.sleep(0.3)
    answered = first_answer(broker.port)
    trickle(slow, time.monotonic() + LOGIN + 0.5)
    gone = sum(is_closed(it) for it in silent)
    is_slow_gone = is_closed(slow)
    served = "not" if answered is None else f"within {answered * 1000:.0f} ms"
    print(f"beside {SOCKETS} silent sockets a client is served {served}; {gone} of them are closed after {LOGIN} s, and a slow one is {'too' if is_slow_gone else 'not'}")
    is_idle_served = idle.produce(b"t", batch(b"ho"))[0] == 0
    waiting.socket.settimeout(WAIT + 5)
    waiting.take(struct.unpack(">i", waiting.take(4))[0])
    waited = time.monotonic() - asked
    is_told = "before a login" in "".join(it for it in broker.log().splitlines() if "connections closed:" in it)
    print(f"a client that logged in is {'served' if is_idle_served else 'not served'}, a fetch is answered after {waited:.1f} s, and the log tells it: {is_told}")
    return answered is not None and answered < 1 and gone == SOCKETS and is_slow_gone and is_idle_served and WAIT - 0.1 <= waited < WAIT + 1 and is_told


def main(program):
    """Whether strangers keep nobody out."""
    with tempfile.TemporaryDirectory() as room:
        broker = Broker(program, room)
        try:
            if not broker.listens():
                print("the broker does not listen")
                return 1
            return 0 if looked_at(broker) else 1
        finally:
            broker.stop()


if __name__ == "__main__":
    if len(sys.argv) != 2:
        sys.exit(__doc__)
    sys.exit(main(sys.argv[1]))
