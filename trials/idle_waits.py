#!/usr/bin/env python3
"""A broker with consumers that wait sleeps, and wakes in time.

    trials/idle_waits.py KBROKER

One fetch waits for a minute, and then 1,000 do: how often the broker wakes meanwhile is counted by its voluntary context switches, at most
twice in a second. A fetch that waits for 500 ms is answered within 1 ms of that, in the median of 21. A member of a group that is silent
for its 6 seconds is expelled within 20 ms of that, in each of five groups, which is told to another that joins.
"""

import select
import struct
import sys
import tempfile
import time

from wire import Broker, Client, text

SECONDS = 5
MANY = 1000
WAIT = 500
WAITS = 21
SESSION = 6000
GROUPS = 5

# What is asked: wakes in a second, and by how many milliseconds a wait, in the median, and a session end late at most.
WAKES, LATE, OVER = 2, 1, 20


def send(client, key, version, body):
    """Sends a request."""
    request = struct.pack(">hhih", key, version, 7, -1) + body
    client.socket.sendall(struct.pack(">i", len(request)) + request)


def reply(client):
    """The reply to the first request that was not answered yet, without its header."""
    return client.take(struct.unpack(">i", client.take(4))[0])[4:]


def ask_to_wait(client, topic, millis):
    """Sends a fetch of an empty topic that may wait for so long."""
    body = struct.pack(">iiiibi", -1, millis, 1, 1 << 20, 0, 1) + text(topic) + struct.pack(">iiqi", 1, 0, 0, 1 << 20)
    send(client, 1, 4, body)


def wakes(pid):
    """How often a process has gone to sleep so far."""
    with open(f"/proc/{pid}/status", encoding="ascii") as it:
        return int(next(line for line in it if line.startswith("voluntary_ctxt_switches")).split()[1])


def wakes_with(broker, count):
    """How often in a second the broker wakes while so many fetches wait."""
    clients = [Client(broker.port) for _ in range(count)]
    for client in clients:
        ask_to_wait(client, b"t", 60_000)
    time.sleep(1.5)
    before, began = wakes(broker.process.pid), time.monotonic()
    time.sleep(SECONDS)
    often = (wakes(broker.process.pid) - before) / (time.monotonic() - began)
    for client in clients:
        client.socket.close()
    return often


def lates(broker):
    """By how many milliseconds each of some waits ended late, ascending."""
    client, out = Client(broker.port), []
    for _ in range(WAITS):
        began = time.monotonic()
        ask_to_wait(client, b"t", WAIT)
        reply(client)
        out.append((time.monotonic() - began) * 1000 - WAIT)
    client.socket.close()
    return sorted(out)


def join(client, group):
    """Sends the join of a new member."""
    send(client, 11, 1, text(group) + struct.pack(">ii", SESSION, 60_000) + text(b"") + text(b"consumer") + struct.pack(">i", 1) + text(b"range") + struct.pack(">i", 0))


def member(client, group):
    """Joins a group alone and takes its share, and gives the member's id and the generation."""
    join(client, group)
    answer = reply(client)
    code, generation = struct.unpack_from(">hi", answer)
    at = 6 + 2 + struct.unpack_from(">h", answer, 6)[0]
    at += 2 + struct.unpack_from(">h", answer, at)[0]
    size = struct.unpack_from(">h", answer, at)[0]
    name = answer[at + 2:at + 2 + size]
    shared = client.ask(14, 0, text(group) + struct.pack(">i", generation) + text(name) + struct.pack(">i", 0))
    if code != 0 or shared[:2] != b"\0\0":
        raise ValueError(f"{group} was not joined: {code}, {shared[:2]}")
    return name, generation


def ends(broker):
    """By how many milliseconds each of some sessions ended late, ascending."""
    last, joining = {}, {}
    kept = []
    for number in range(GROUPS):
        group, silent, other = b"g%d" % number, Client(broker.port), Client(broker.port)
        name, generation = member(silent, group)
        time.sleep(0.137)
        began = time.monotonic()
        if silent.ask(12, 0, text(group) + struct.pack(">i", generation) + text(name)) != b"\0\0":
            raise ValueError("a heartbeat was refused")
        join(other, group)
        last[other.socket], joining[other.socket] = began, other
        kept.append(silent)
    out = []
    while joining and time.monotonic() < max(last.values()) + SESSION / 1000 + 5:
        for it in select.select(list(joining), [], [], 1)[0]:
            now = time.monotonic()
            if reply(joining.pop(it))[:2] != b"\0\0":
                raise ValueError("a join was refused")
            out.append((now - last[it]) * 1000 - SESSION)
    if joining:
        raise TimeoutError(f"{len(joining)} sessions did not end")
    return sorted(out)


def main(program):
    """Whether the broker sleeps, and wakes in time."""
    with tempfile.TemporaryDirectory() as room:
        broker = Broker(program, room)
        try:
            if not broker.listens():
                print("the broker does not listen")
                return 1
            client = Client(broker.port)
            assert client.create(b"t") == 0
            nobody, one, many = wakes_with(broker, 0), wakes_with(broker, 1), wakes_with(broker, MANY)
            late, over = lates(broker), ends(broker)
        finally:
            broker.stop()
    median = late[len(late) // 2]
    print(f"wakes in a second: {nobody:.1f} with no fetch that waits, {one:.1f} with one, {many:.1f} with {MANY}")
    print(f"waits of {WAIT} ms are {late[0]:.1f} to {late[-1]:.1f} ms late, {median:.1f} in the median; sessions {over[0]:.1f} to {over[-1]:.1f} ms")
    return 0 if max(nobody, one, many) <= WAKES and abs(median) <= LATE and over[-1] <= OVER else 1


if __name__ == "__main__":
    if len(sys.argv) != 2:
        sys.exit(__doc__)
    sys.exit(main(sys.argv[1]))
