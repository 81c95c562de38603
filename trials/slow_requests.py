#!/usr/bin/env python3
"""A request that does not become whole, and a client that asks for nothing, hold nobody up.

    trials/slow_requests.py KBROKER

A broker asks for whole requests within 4 seconds, closes what is idle for 5, and takes 64 MiB of begun requests.

- A request whose bytes come one a second is closed after 4 seconds, and one that comes whole in 3 is answered.
- A client that asks for nothing is closed after 5 seconds. One that asks now and then is not, nor is a fetch that waits for 12 seconds,
  nor a member of a group that sends a heartbeat each second.
- Before a login a request of 65,536 bytes begins, and a longer one closes its socket.
- 500 sockets of one tenant begin requests of 2 MB each. A Produce of another tenant is answered within a second all the same, each
  time, and the process grows by no more than `input_bytes`. After 4 seconds those that began are closed.

The log has to tell of both kinds. It prints how many of the cases went otherwise.
"""

import collections
import os
import socket
import struct
import sys
import tempfile
import threading
import time

from wire import Broker, Client, batch, text

REQUEST, IDLE, INPUT = 4, 5, 64 << 20
SETTINGS = f"""connections = 1024
request_seconds = {REQUEST}
idle_seconds = {IDLE}
input_bytes = {INPUT}
"""
SOCKETS = 500
BEGUN = 2_000_000
SLACK = 1.5


def closed_after(it, most):
    """After how many seconds a socket is closed that is sent nothing, or None where it is open after so many."""
    began = time.monotonic()
    it.settimeout(most)
    try:
        if it.recv(1):
            return None
    except socket.timeout:
        return None
    except OSError:
        pass
    return time.monotonic() - began


def trickle(broker, seconds, count):
    """Sends a request of so many bytes, one by one in so many seconds. After how many it is closed, or None where it is answered."""
    client = Client(broker.port)
    body = struct.pack(">hhih", 18, 0, 1, count - 10) + b"x" * (count - 10)
    began = time.monotonic()
    for byte in struct.pack(">i", len(body)) + body:
        try:
            client.socket.sendall(bytes([byte]))
        except OSError:
            return time.monotonic() - began
        # (a send finds a closed socket only once the one before it came back)
        if closed_after(client.socket, seconds / (count + 4)) is not None:
            return time.monotonic() - began
    client.socket.settimeout(3)
    try:
        return None if client.socket.recv(4) else time.monotonic() - began
    except OSError:
        return time.monotonic() - began


def of_trickles(broker):
    """Whether a slow request is closed in time, and one that is whole before is answered."""
    slow, quick = trickle(broker, 20, 16), trickle(broker, REQUEST - 1, 16)
    return [
        ("a byte each second is closed in time", slow is not None and REQUEST - 0.2 <= slow <= REQUEST + SLACK, slow),
        ("a request that is whole before is answered", quick is None, quick),
    ]


def waiting_fetch(broker):
    """Whether a fetch that waits for longer than a client may be idle is answered."""
    client = Client(broker.port)
    client.socket.settimeout(30)
    wait = 12_000
    places = struct.pack(">i", 1) + text(b"empty") + struct.pack(">iiqi", 1, 0, 0, 1 << 20)
    body = struct.pack(">iiiib", -1, wait, 1, 1 << 20, 0) + places
    request = struct.pack(">hhih", 1, 4, 7, -1) + body
    began = time.monotonic()
    client.socket.sendall(struct.pack(">i", len(request)) + request)
    try:
        return bool(client.socket.recv(4)) and time.monotonic() - began > 10
    except OSError:
        return False


def asks(broker, ask, seconds):
    """Whether a client is served that asks each second, for so long."""
    client = Client(broker.port)
    until = time.monotonic() + seconds
    while time.monotonic() < until:
        try:
            ask(client)
        except OSError:
            return False
        time.sleep(1)
    return True


def member(client):
    """What a client asks as the member of a group: it joins first, and then sends heartbeats."""
    if not hasattr(client, "member"):
        body = text(b"g") + struct.pack(">ii", 30_000, 30_000) + text(b"") + text(b"consumer")
        joined = client.ask(11, 1, body + struct.pack(">i", 1) + text(b"range") + struct.pack(">i", 0))
        client.generation = struct.unpack_from(">i", joined, 2)[0]
        at = 6
        for _ in range(2):
            at += 2 + struct.unpack_from(">h", joined, at)[0]
        client.member = joined[at + 2:at + 2 + struct.unpack_from(">h", joined, at)[0]]
    client.ask(12, 0, text(b"g") + struct.pack(">i", client.generation) + text(client.member))


def together(calls):
    """What the calls answer, made side by side."""
    found = [None] * len(calls)

    def run(at):
        try:
            found[at] = calls[at]()
        except (OSError, struct.error) as error:
            found[at] = error

    threads = [threading.Thread(target=run, args=(at,)) for at in range(len(calls))]
    for it in threads:
        it.start()
    for it in threads:
        it.join()
    return found


def of_idle(broker):
    """Whether a client that asks for nothing is closed in time, and others are not."""
    Client(broker.port).create(b"empty")
    idle, fetch, now_and_then, heartbeats = together([
        lambda: closed_after(Client(broker.port).socket, 20),
        lambda: waiting_fetch(broker),
        lambda: asks(broker, lambda client: client.create(b"empty"), 12),
        lambda: asks(broker, member, 12),
    ])
    return [
        ("one that asks for nothing is closed in time", isinstance(idle, float) and IDLE - 0.2 <= idle <= IDLE + SLACK, idle),
        ("a fetch that waits is answered", fetch is True, fetch),
        ("one that asks now and then is served", now_and_then is True, now_and_then),
        ("a member that sends heartbeats is served", heartbeats is True, heartbeats),
    ]


def stranger(broker, size):
    """After how many seconds a socket is closed that announces a request of so many bytes before its login, or None in two seconds."""
    it = socket.create_connection(("127.0.0.1", broker.port))
    it.sendall(struct.pack(">i", size) + b"\0\x12\0\0")
    return closed_after(it, 2)


def of_strangers(broker):
    """Whether a long request before the login closes its socket."""
    long, short = stranger(broker, 65_537), stranger(broker, 65_536)
    return [
        ("a long request before the login is closed", long is not None and long < 1, long),
        ("one of 65,536 bytes begins", short is None, short),
    ]


def memory(broker):
    """How many bytes of memory the process has."""
    with open(f"/proc/{broker.process.pid}/statm", encoding="ascii") as it:
        return int(it.read().split()[1]) * os.sysconf("SC_PAGE_SIZE")


def begin(broker):
    """A client that has begun a request of 2 MB, all but its last byte, as far as it is read."""
    client = Client(broker.port)
    client.socket.setblocking(False)
    request = struct.pack(">hhih", 0, 3, 7, -1) + b"\0" * (BEGUN - 10)
    left = (struct.pack(">i", len(request)) + request)[:-1]
    return [client, left]


def push(begun, seconds):
    """Sends on what was begun, as far as it is taken, for so many seconds at most. The next call goes on where this one ended."""
    until = time.monotonic() + seconds
    for _ in range(40 * len(begun)):
        it = begun[0]
        begun.rotate(-1)
        try:
            it[1] = it[1][it[0].socket.send(it[1][:65_536]):]
        except OSError:
            pass
        if time.monotonic() > until:
            break


def apart_from(broker):
    """A client of another tenant."""
    client = Client(broker.port, b"bob", b"pw2")
    client.socket.settimeout(20)
    return client


def of_begun(broker):
    """Whether begun requests of one tenant stay within their share, and hold up no other."""
    before, most, worst = memory(broker), 0, 0.0
    begun = collections.deque(begin(broker) for _ in range(SOCKETS))
    apart = apart_from(broker)
    apart.create(b"t")
    until = time.monotonic() + REQUEST - 1
    while time.monotonic() < until:
        push(begun, 0.1)
        began = time.monotonic()
        if apart.produce(b"t", batch(b"hi"))[0] != 0:
            worst = 99.0
        worst = max(worst, time.monotonic() - began)
        most = max(most, memory(broker) - before)
    time.sleep(2 * REQUEST)
    # (the first one was idle meanwhile)
    apart_from(broker).produce(b"t", batch(b"hi"))
    for it in begun:
        it[0].socket.close()
    # a socket that may not begin keeps what was read of it, and the process has its own
    return [
        ("another tenant is served beside begun requests", worst < 1, f"{worst:.3f} s"),
        ("begun requests stay within their bytes", most < INPUT + (16 << 20), f"{most} bytes"),
    ]


def of_log(broker):
    """Whether the log tells of both."""
    log = [it for it in broker.log().splitlines() if "connections closed:" in it]
    slow = any("whose request took too long" in it and ", 0 whose request took too long" not in it for it in log)
    idle = any("that were idle" in it and ", 0 that were idle" not in it for it in log)
    return [("the log tells of slow requests", slow, log[-2:]), ("the log tells of idle clients", idle, log[-2:])]


def main(program):
    """How many cases went otherwise."""
    with tempfile.TemporaryDirectory() as room:
        broker = Broker(program, room, more=SETTINGS)
        try:
            if not broker.listens():
                print("the broker does not listen")
                return 1
            cases = of_trickles(broker) + of_idle(broker) + of_strangers(broker) + of_begun(broker)
            time.sleep(1.2)
            cases += of_log(broker)
        finally:
            broker.stop()
    wrong = [it for it in cases if not it[1]]
    for name, _, found in wrong:
        print(f"WRONG: {name}: {found}")
    print(f"{len(wrong)} of {len(cases)} wrong")
    return 1 if wrong else 0


if __name__ == "__main__":
    if len(sys.argv) != 2:
        sys.exit(__doc__)
    sys.exit(main(sys.argv[1]))
