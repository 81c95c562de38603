#!/usr/bin/env python3
"""Kills a broker at random moments under a producer, and starts it again.

    bench/restarts.py KBROKER [ROUNDS]

A client of the tenant a sends one record a request and waits for each answer. In each round `kbroker serve` is killed by SIGKILL
at a random moment and started again on the same folder. Then each record that was acknowledged in any round is there, once, in
order; beside them only records may be there whose answer was not seen, at most one a round. Nothing but Python is needed.
"""

import os
import random
import signal
import socket
import struct
import subprocess
import sys
import tempfile
import time

HOST, PORT = "127.0.0.1", 19192
SETTINGS = """host = "127.0.0.1"
port = {port}
data = "{folder}"
segment_bytes = 4096

[[user]]
name = "ann"
password = "pw1"
tenant = "a"
"""


def castagnoli(data):
    """The CRC-32C of bytes, bit by bit."""
    crc = 0xFFFFFFFF
    for byte in data:
        crc ^= byte
        for _ in range(8):
            crc = crc >> 1 ^ (0x82F63B78 if crc & 1 else 0)
    return crc ^ 0xFFFFFFFF


def varint(number):
    """A number as a zigzag VARINT."""
    number = number << 1 ^ number >> 63
    out = b""
    while number > 127:
        out += bytes([number & 127 | 128])
        number >>= 7
    return out + bytes([number])


def batch(value):
    """A record batch of magic 2 with one record of at most 50 bytes (Kafka message format)."""
    record = b"\0" + varint(0) + varint(0) + varint(-1) + varint(len(value)) + value + varint(0)
    records = varint(len(record)) + record
    body = struct.pack(">hiqqqhii", 0, 0, 0, 0, -1, -1, -1, 1) + records
    head = struct.pack(">ib", 0, 2) + struct.pack(">I", castagnoli(body))
    return struct.pack(">qi", 0, len(head) + len(body)) + head + body


class Client:
    """A connection that is logged in."""

    def __init__(self):
        self.socket = socket.create_connection((HOST, PORT), timeout=10)
        self.socket.setsockopt(socket.IPPROTO_TCP, socket.TCP_NODELAY, 1)
        self.ask(17, 1, b"\0\5PLAIN")
        self.ask(36, 0, struct.pack(">i", 8) + b"\0ann\0pw1")

    def take(self, size):
        out = b""
        while len(out) < size:
            piece = self.socket.recv(size - len(out))
            if not piece:
                raise ConnectionError
            out += piece
        return out

    def ask(self, key, version, body):
        request = struct.pack(">hhih", key, version, 7, -1) + body
        self.socket.sendall(struct.pack(">i", len(request)) + request)
        return self.take(struct.unpack(">i", self.take(4))[0])[4:]

    def create(self):
        """Makes the topic, whose records are kept for ever."""
        config = struct.pack(">ih12sh2s", 1, 12, b"retention.ms", 2, b"-1")
        self.ask(19, 0, struct.pack(">ih1sihi", 1, 1, b"t", 1, 1, 0) + config + struct.pack(">i", 5000))

    def produce(self, value):
        """Sends a value. True where it is acknowledged."""
        sent = batch(value)
        body = struct.pack(">hhiih1siii", -1, 1, 5000, 1, 1, b"t", 1, 0, len(sent)) + sent
        return struct.unpack_from(">h", self.ask(0, 3, body), 15)[0] == 0

    def fetch(self, offset):
        """The records' values from an offset on, as far as one answer goes."""
        body = struct.pack(">iiiibih1siiqi", -1, 0, 1, 1 << 20, 0, 1, 1, b"t", 1, 0, offset, 1 << 20)
        answer = self.ask(1, 4, body)
        size = struct.unpack_from(">i", answer, 4 + 4 + 3 + 4 + 4 + 2 + 8 + 8 + 4)[0]
        records, values = answer[len(answer) - size:], []
        while records:
            length = 12 + struct.unpack_from(">i", records, 8)[0]
            values.append(records[67:length - 1])
            records = records[length:]
        return values


def start(program, settings):
    """A broker that listens."""
    broker = subprocess.Popen([program, "serve", "--config", settings, "--quiet"], stdout=subprocess.PIPE)
    line = broker.stdout.readline()
    if not line.startswith(b"listening"):
        sys.exit("the broker did not start")
    return broker


def send(client, sent, until):
    """Sends records up to a time. The last one that was sent may not have been answered."""
    while time.time() < until:
        value = b"line %06d" % (sent[-1] + 1 if sent else 0)
        sent.append(int(value[5:]))
        if not client.produce(value):
            sys.exit("a record was refused")


def main():
    program, rounds = os.path.abspath(sys.argv[1]), int(sys.argv[2]) if len(sys.argv) > 2 else 10
    random.seed(1)
    with tempfile.TemporaryDirectory() as folder:
        settings = f"{folder}/settings.toml"
        with open(settings, "w", encoding="utf-8") as out:
            out.write(SETTINGS.format(port=PORT, folder=f"{folder}/data"))
        sent, unsure = [], set()
        for number in range(rounds):
            broker = start(program, settings)
            client = Client()
            client.create()
            delay = random.uniform(0.05, 0.6)
            pid = os.fork()
            if pid == 0:
                time.sleep(delay)
                os.kill(broker.pid, signal.SIGKILL)
                os._exit(0)
            before = len(sent)
            try:
                send(client, sent, time.time() + 30)
            except (ConnectionError, OSError):
                unsure.add(sent[-1])
            os.waitpid(pid, 0)
            broker.wait()
            print(f"round {number + 1}: killed after {len(sent) - before - 1} acknowledged records")
        broker = start(program, settings)
        client, found = Client(), []
        while True:
            values = client.fetch(len(found))
            if not values:
                break
            found += [int(value[5:]) for value in values]
        broker.kill()
        broker.wait()
    missing = [number for number in sent if number not in unsure and number not in set(found)]
    extra = [number for number in found if number in unsure]
    if missing or found != sorted(set(found)):
        sys.exit(f"missing: {missing[:9]}, or out of order")
    print(f"{len(sent) - len(unsure)} acknowledged, all there once, in order; {len(extra)} more whose answer was not seen")


if __name__ == "__main__":
    main()
