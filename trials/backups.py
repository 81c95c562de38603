#!/usr/bin/env python3
"""A backup of a broker that runs has all that was acknowledged by then.

    trials/backups.py KBROKER

Two tenants produce, commit, delete records, and make and delete topics, with small files and a limit by bytes, while `examples/backup.sh`
is run ten times. Each backup is opened by a broker of its own, with no flag. It has each record and commit that was acknowledged before the
backup began, at its offset and with its bytes, and nothing that was not sent by its end. It prints what was missing, and for how long the
broker stood still.
"""

import os
import re
import struct
import subprocess
import sys
import tempfile
import threading
import time

from wire import Broker, Client, batch, commit, committed, offset_at

BACKUPS = 10
USERS = [(b"ann", b"pw1"), (b"bob", b"pw2")]
SCRIPT = os.path.join(os.path.dirname(os.path.realpath(__file__)), "..", "examples", "backup.sh")


class Told:
    """What a tenant was told: the end of `kept`, the last commit, how far each was asked for, and what was answered otherwise."""

    def __init__(self):
        self.end = self.offset = 0
        self.sent = self.asked = 0
        self.fault = ""

    def copy(self):
        it = Told()
        it.__dict__.update(self.__dict__)
        return it


def value_of(user, number):
    """The value of the record at an offset of `kept`."""
    return user + b" %d " % number + b"x" * 300


def work(port, user, told, stop):
    """Asks for changes until it is told to stop, and keeps what was answered."""
    client = Client(port, *user)
    client.create(b"kept")
    client.create(b"short", retention_bytes=9000)
    number = 0
    while not stop.is_set():
        told.sent = number + 1
        code, offset = client.produce(b"kept", batch(value_of(user[0], number)))
        if code != 0 or offset != number:
            told.fault = f"{user[0]} got {code}, {offset} at {number}"
            return
        told.end = number = offset + 1
        told.asked = number
        client.all([commit(b"g", b"kept", b"", number)])
        told.offset = number
        client.produce(b"short", batch(b"y" * 900))
        if number % 9 == 8:
            client.delete_records(b"short", -1)
        if number % 30 == 29:
            client.delete(b"gone")
            client.create(b"gone")
            client.produce(b"gone", batch(b"z"))
        time.sleep(0.005)
    client.socket.close()


def values_from(client, topic):
    """The values of all records of a topic, by offset."""
    out, at = {}, 0
    while True:
        code, mark, data = client.fetch(topic, at)
        if code != 0 or not data:
            return out
        place = 0
        while place + 61 <= len(data):
            base, size = struct.unpack_from(">qi", data, place)
            out[base] = data[place + 61:place + 12 + size]
            place += 12 + size
            at = base + 1


def missing_in(port, before, after):
    """What a broker over a backup has not, or has too much, in words."""
    out = []
    for user in USERS:
        client = Client(port, *user)
        found = values_from(client, b"kept")
        if len(found) < before[user].end:
            out.append(f"{user[0]} has {len(found)} records of {before[user].end}")
        if len(found) > after[user].sent:
            out.append(f"{user[0]} has {len(found)} records and sent {after[user].sent}")
        wrong = [it for it, data in found.items() if value_of(user[0], it) not in data]
        if wrong:
            out.append(f"{user[0]} has another record at {wrong[0]}")
        offset = client.all([committed(b"g", b"kept")])[0]
        if not max(before[user].offset, 0) <= max(offset, 0) <= after[user].asked:
            out.append(f"{user[0]} has committed {offset}, not {before[user].offset} to {after[user].asked}")
        end = client.all([offset_at(b"kept", -1)])[0][1]
        code, got = client.produce(b"kept", batch(b"more"))
        if (code, got) != (0, end):
            out.append(f"{user[0]} gets {code}, {got} behind the end {end}")
        client.socket.close()
    return out


def back_up(broker, room, number, told):
    """Makes a backup and opens it; what is wrong with it, and what the script said."""
    before = {user: told[user].copy() for user in USERS}
    ran = subprocess.run([SCRIPT, str(broker.process.pid), f"{room}/data", f"{room}/copy{number}"], capture_output=True, text=True)
    after = {user: told[user].copy() for user in USERS}
    if ran.returncode != 0:
        return [f"no backup: {ran.stderr.strip()}"], ""
    os.makedirs(f"{room}/opened{number}")
    other = Broker(broker.program, f"{room}/opened{number}", more="segment_bytes = 4096", data=f"{room}/copy{number}")
    try:
        opened = any(other.listens() for _ in range(5))
        wrong = missing_in(other.port, before, after) if opened else [f"it does not open: {other.log()[-400:]}"]
    finally:
        other.stop()
    return wrong, ran.stdout.strip()


def main(program):
    """Whether each backup opened and had what it should."""
    told, stop, faults, stills = {user: Told() for user in USERS}, threading.Event(), 0, []
    with tempfile.TemporaryDirectory() as room:
        broker = Broker(program, room, more="segment_bytes = 4096")
        broker.program = program
        if not broker.listens():
            raise SystemExit(broker.log())
        threads = [threading.Thread(target=work, args=(broker.port, user, told[user], stop)) for user in USERS]
        for it in threads:
            it.start()
        for number in range(BACKUPS):
            time.sleep(0.3)
            wrong, said = back_up(broker, room, number, told)
            for line in wrong:
                print(f"backup {number}: {line}")
            faults += bool(wrong)
            stills += [int(it) for it in re.findall(r"still for (\d+) ms", said)]
        last = said
        stop.set()
        for it in threads:
            it.join()
        broker.stop()
    for it in told.values():
        if it.fault:
            print(it.fault)
            faults += 1
    print(f"backups that were wrong: {faults} of {BACKUPS}; the last: {last}; longest standstill {max(stills, default=0)} ms")
    return 1 if faults else 0


if __name__ == "__main__":
    if len(sys.argv) != 2:
        sys.exit(__doc__)
    sys.exit(main(os.path.abspath(sys.argv[1])))
