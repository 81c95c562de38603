#!/usr/bin/env python3
"""A tenant whose clients ask for much and read nothing, or ask again and again, holds no other tenant up.

    trials/greedy_tenant.py KBROKER

First 52 connections of one tenant ask for 8 MB each and never read. Then 300 connections of it, with 1,000 topics, ask for metadata again
and again. Another tenant logs in meanwhile and produces a message every 100 ms. Its answers are printed, and none may take half a second.
"""

import select
import struct
import sys
import tempfile
import threading
import time

from wire import Broker, Client, batch, text

SILENT, EACH, BYTES = 52, 10, 8 << 20
BUSY, TOPICS = 300, 1000
SECONDS = 8
MOST = 0.5


def ask_for(client, topic):
    """Sends a fetch of 8 MB."""
    body = struct.pack(">iiiibi", -1, 0, 1, BYTES, 0, 1) + text(topic) + struct.pack(">iiqi", 1, 0, 0, BYTES)
    request = struct.pack(">hhih", 1, 4, 7, -1) + body
    client.socket.sendall(struct.pack(">i", len(request)) + request)


def beside(broker, seconds):
    """How long the answers to another tenant took in so many seconds, by rising time."""
    client = Client(broker.port, b"bob", b"pw2")
    client.socket.settimeout(seconds + 20)
    client.create(b"t")
    times, end = [], time.monotonic() + seconds
    while time.monotonic() < end:
        began = time.monotonic()
        try:
            client.produce(b"t", batch(b"hi"))
        except OSError:
            break
        times.append(time.monotonic() - began)
        time.sleep(0.1)
    client.socket.close()
    times.sort()
    return times


def silent(broker):
    """Beside those that do not read."""
    others = [Client(broker.port) for _ in range(SILENT)]
    for it in others:
        ask_for(it, b"big")
    time.sleep(1)
    times = beside(broker, SECONDS)
    for it in others:
        it.socket.close()
    return times


def ask_again(clients, done):
    """Each asks for metadata as soon as it has the reply."""
    request = struct.pack(">hhih", 3, 1, 7, -1) + struct.pack(">i", -1)
    request = struct.pack(">i", len(request)) + request
    by_number = {it.socket.fileno(): it.socket for it in clients}
    poll = select.poll()
    for number, it in by_number.items():
        it.setblocking(True)
        it.sendall(request)
        poll.register(number, select.POLLIN)
    left = dict.fromkeys(by_number, None)
    while not done.is_set():
        for number, _ in poll.poll(100):
            it = by_number[number]
            if left[number] is None:
                size = it.recv(4)
                while 0 < len(size) < 4:
                    size += it.recv(4 - len(size))
                if not size:
                    return
                left[number] = struct.unpack(">i", size)[0]
            left[number] -= len(it.recv(min(left[number], 1 << 16)))
            if left[number] == 0:
                left[number] = None
                it.sendall(request)


def busy(broker):
    """Beside those that ask for metadata again and again."""
    first = Client(broker.port)
    for number in range(TOPICS):
        first.create(b"topic-%d" % number)
    others, done = [Client(broker.port) for _ in range(BUSY)], threading.Event()
    thread = threading.Thread(target=ask_again, args=(others, done))
    thread.start()
    time.sleep(1)
    times = beside(broker, SECONDS)
    done.set()
    thread.join()
    return times


def looked_at(name, times):
    """Whether the other tenant's answers came in time."""
    if not times:
        print(f"{name}: no answer")
        return False
    middle, worst = times[len(times) // 2], times[-1]
    print(f"{name}: {len(times)} answers, {middle * 1000:.1f} ms in the median, {worst * 1000:.1f} at most")
    return worst < MOST


def main(program):
    """Whether another tenant is answered in time."""
    with tempfile.TemporaryDirectory() as room:
        broker = Broker(program, room)
        try:
            if not any(broker.listens() for _ in range(5)):
                print("the broker does not listen")
                return 1
            client = Client(broker.port)
            client.create(b"big")
            for _ in range(EACH):
                client.produce(b"big", batch(b"x" * 1_000_000))
            alone = looked_at("alone", beside(broker, 2))
            unread = looked_at(f"beside {SILENT} that ask for 8 MB and do not read", silent(broker))
            asked = looked_at(f"beside {BUSY} that ask for metadata again and again", busy(broker))
            return 0 if alone and unread and asked else 1
        finally:
            broker.stop()


if __name__ == "__main__":
    if len(sys.argv) != 2:
        sys.exit(__doc__)
    sys.exit(main(sys.argv[1]))
