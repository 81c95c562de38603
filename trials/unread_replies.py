#!/usr/bin/env python3
"""Clients that ask for much and read nothing hold their tenant up for ten seconds at most, and no other tenant.

    trials/unread_replies.py KBROKER

A broker may keep 1,048,576 bytes of unread replies. Three connections of one user ask for 8 MB each and never read, so that its tenant is
asked for nothing. A Produce of another user of it that comes behind theirs has to be answered within 11 seconds, and one right behind it
within 11 more. The log has to tell it, and that the tenant waits, once a second at most, and of no other tenant. Another tenant's Produce is answered within a second. A client that asks for 8 MB and reads 2,048
bytes every half a second is not closed within 30 seconds, though its tenant waits.
"""

import re
import socket
import struct
import sys
import tempfile
import time

from wire import Broker, Client, batch, text

MANY = 8 << 20
UNREAD = 3
STALL = 11
SETTINGS = """output_bytes = 1048576

[[user]]
name = "amy"
password = "pw3"
tenant = "a"
"""
SLOW = 30


def closings(broker):
    """What the log tells of closed connections."""
    return [it for it in broker.log().splitlines() if "connections closed:" in it]


def waits(broker):
    """The tenants that wait for their readers by the log: for each line the second of the day, the tenant and the bytes."""
    form = r"T(\d+):(\d+):([\d.]+)Z tenant (\S+) waits for its readers: (\d+) bytes of replies are not read"
    lines = re.findall(form, broker.log())
    return [(int(h) * 3600 + int(m) * 60 + float(s), tenant, int(n)) for h, m, s, tenant, n in lines]


def are_told(lines):
    """Whether lines tell of the tenant `a` alone, of some bytes, and a second apart."""
    times = [it[0] for it in lines]
    apart = all((after - before) % 86400 > 0.9 for before, after in zip(times, times[1:]))
    return bool(lines) and apart and all(tenant == "a" and count > 0 for _, tenant, count in lines)


def ask_for(client, topic):
    """Sends a fetch of 8 MB."""
    body = struct.pack(">iiiibi", -1, 0, 1, MANY, 0, 1) + text(topic) + struct.pack(">iiqi", 1, 0, 0, MANY)
    request = struct.pack(">hhih", 1, 4, 7, -1) + body
    client.socket.sendall(struct.pack(">i", len(request)) + request)


def unread(broker):
    """In how many seconds a Produce of another tenant is answered beside those that do not read, and then one of their own, and the next.
    None where it is not."""
    others = [Client(broker.port) for _ in range(UNREAD)]
    apart, client = Client(broker.port, b"bob", b"pw2"), Client(broker.port, b"amy", b"pw3")
    for it in (apart, client):
        it.socket.settimeout(60)
        it.create(b"t")
    for other in others:
        ask_for(other, b"big")
        time.sleep(0.05)
    began = time.monotonic()
    apart.produce(b"t", batch(b"hi"))
    times = [time.monotonic() - began]
    for _ in range(2):
        began = time.monotonic()
        try:
            code = client.produce(b"t", batch(b"hi"))[0]
        except OSError:
            break
        if code != 0:
            break
        times.append(time.monotonic() - began)
    for it in others + [apart, client]:
        it.socket.close()
    return times


def slow(broker):
    """For how many seconds a client that reads slowly is served, and how many bytes it gets."""
    client = Client.__new__(Client)
    client.socket = socket.socket()
    client.socket.setsockopt(socket.SOL_SOCKET, socket.SO_RCVBUF, 4096)
    client.socket.settimeout(20)
    client.socket.connect(("127.0.0.1", broker.port))
    client.ask(17, 1, text(b"PLAIN"))
    client.ask(36, 0, struct.pack(">i", 8) + b"\0ann\0pw1")
    before = closings(broker)
    ask_for(client, b"big")
    began, got = time.monotonic(), 0
    while time.monotonic() < began + SLOW:
        time.sleep(0.5)
        try:
            piece = client.socket.recv(2048)
        except OSError:
            break
        if not piece:
            break
        got += len(piece)
    lasted = time.monotonic() - began
    is_open = closings(broker) == before
    client.socket.close()
    return lasted, got, is_open


def looked_at(broker):
    """Whether those that do not read are closed, and one that reads is not."""
    client = Client(broker.port)
    client.create(b"big")
    for _ in range(10):
        client.produce(b"big", batch(b"x" * 1_000_000))
    times = unread(broker)
    time.sleep(2)
    told, waiting = closings(broker), waits(broker)
    print(f"beside {UNREAD} that do not read, another tenant's Produce is answered after {times[0]:.1f} s, and their own after")
    print(f"{' and '.join(f'{it:.1f}' for it in times[1:]) or 'never'} s; {told}")
    print(f"the log tells {len(waiting)} times that their tenant waits, the first time for {waiting[0][2] if waiting else 0} bytes")
    lasted, got, is_open = slow(broker)
    print(f"one that reads slowly is served for {lasted:.0f} s, and gets {got} bytes; it is {'not ' if is_open else ''}closed")
    return len(times) == 3 and times[0] < 1 and max(times) < STALL and bool(told) and are_told(waiting) and lasted >= SLOW and is_open


def main(program):
    """Whether unread replies hold nobody up."""
    with tempfile.TemporaryDirectory() as room:
        broker = Broker(program, room, more=SETTINGS)
        try:
            if not broker.listens():
                print("the broker does not listen")
                return 1
            return 0 if looked_at(broker) else 1
        finally:
            broker.stop()


if __name__ == "__main__":
    if len(sys.argv) != 2:
        sys.exit(__doc__)
    sys.exit(main(sys.argv[1]))
