#!/usr/bin/env python3
"""How long pages take, what promtool says of them, and whether Prometheus sees the rates of a load.

    bench/metrics.py KBROKER [--minute]

It asks for each page of a broker with 50 tenants, 20 topics of 6 partitions and 100 groups each, and of one with a tenant of 64,000 partitions.
`promtool check metrics` of Debian's `prometheus` reads each page of metrics. With `--minute` a Prometheus scrapes for a minute, once a second,
while a client produces at a pace, and PromQL is asked for the rates that it had.
"""

import json
import os
import shutil
import statistics
import struct
import subprocess
import sys
import tempfile
import time
import urllib.parse
import urllib.request

sys.path.insert(0, os.path.join(os.path.dirname(os.path.abspath(__file__)), "..", "trials"))
from metrics import page  # noqa: E402
from wire import Broker, Client, batch, free_port, text  # noqa: E402

USER = '\n[[user]]\nname = "u{0}"\npassword = "pw{0}"\ntenant = "t{0}"\n'


def create_many(client, names, partitions):
    """CreateTopics 0, of all topics at once."""
    body = struct.pack(">i", len(names)) + b"".join(text(it) + struct.pack(">ihii", partitions, 1, 0, 0) for it in names)
    got = client.ask(19, 0, body + struct.pack(">i", 30_000))
    assert got.endswith(b"\0\0"), got[-20:]


def commit_all(client, group, topic, partitions):
    """OffsetCommit 2 of all partitions of a topic."""
    body = text(group) + struct.pack(">i", -1) + text(b"") + struct.pack(">q", -1) + struct.pack(">i", 1) + text(topic)
    body += struct.pack(">i", partitions) + b"".join(struct.pack(">iq", it, 0) + text(b"") for it in range(partitions))
    assert client.ask(8, 2, body)[-2:] == b"\0\0"


def at_work(broker):
    """For how many milliseconds processors were at work for the broker."""
    with open(f"/proc/{broker.process.pid}/schedstat", encoding="ascii") as it:
        return int(it.read().split()[0]) / 1e6


def times(broker, port, words, count=10):
    """How long a page takes, in milliseconds: the median, and the broker's processor time; and the page."""
    took, worked = [], at_work(broker)
    for _ in range(count):
        began = time.monotonic()
        status, _, body = page(port, words)
        took.append(1000 * (time.monotonic() - began))
        assert status == 200, status
    return statistics.median(took), (at_work(broker) - worked) / count, body


def told(broker, port, words):
    """Prints how long a page takes, and lets promtool read it where it has metrics."""
    middle, worked, body = times(broker, port, words)
    print(f"{words}: {middle:.1f} ms, {worked:.1f} ms of the broker's processor time, {len(body)} bytes")
    if "metrics" in words and shutil.which("promtool"):
        ran = subprocess.run(["promtool", "check", "metrics"], input=body, capture_output=True)
        print(f"  promtool: status {ran.returncode} {ran.stderr.decode()[:300]}")


def fifty(program):
    """Fifty tenants."""
    with tempfile.TemporaryDirectory() as room:
        port = free_port()
        users = "".join(USER.format(it) for it in range(48))
        broker = Broker(program, room, more=f'metrics = "127.0.0.1:{port}"\n{users}')
        try:
            assert broker.listens(), broker.log()
            logins = [(f"u{it}".encode(), f"pw{it}".encode()) for it in range(48)] + [(b"ann", b"pw1"), (b"bob", b"pw2")]
            for name, word in logins:
                client = Client(broker.port, name, word)
                create_many(client, [b"topic-%d" % it for it in range(20)], 6)
                for group in range(100):
                    commit_all(client, b"group-%d" % group, b"topic-%d" % (group % 20), 6)
            print("50 tenants, each with 20 topics of 6 partitions and 100 groups")
            for words in ("GET /healthz", "GET /metrics", "GET /", "GET /?tenant=t0", "GET /metrics/partitions?tenant=t0"):
                told(broker, port, words)
        finally:
            broker.stop()


def many(program):
    """A tenant of 64,000 partitions."""
    with tempfile.TemporaryDirectory() as room:
        port = free_port()
        broker = Broker(program, room, more=f'metrics = "127.0.0.1:{port}"\n')
        try:
            assert broker.listens(), broker.log()
            client = Client(broker.port)
            for part in range(10):
                create_many(client, [b"topic-%d" % (100 * part + it) for it in range(100)], 64)
            commit_all(client, b"readers", b"topic-0", 64)
            print("a tenant of 1,000 topics of 64 partitions")
            for words in ("GET /metrics", "GET /", "GET /?tenant=a", "GET /metrics/partitions?tenant=a"):
                told(broker, port, words)
        finally:
            broker.stop()


def asked(port, query):
    """What PromQL answers, by labels."""
    at = f"http://127.0.0.1:{port}/api/v1/query?" + urllib.parse.urlencode({"query": query})
    with urllib.request.urlopen(at, timeout=10) as it:
        return {tuple(sorted(one["metric"].items())): float(one["value"][1]) for one in json.load(it)["data"]["result"]}


def minute(program, pace=50, seconds=60):
    """A Prometheus that scrapes each second, beside a client that produces so often a second."""
    with tempfile.TemporaryDirectory() as room:
        port, shown = free_port(), free_port()
        broker = Broker(program, room, more=f'metrics = "127.0.0.1:{port}"\n')
        with open(f"{room}/prometheus.yml", "w", encoding="ascii") as out:
            out.write(f'scrape_configs:\n  - job_name: kbroker\n    scrape_interval: 1s\n    static_configs:\n      - targets: ["127.0.0.1:{port}"]\n')
        words = ["prometheus", f"--config.file={room}/prometheus.yml", f"--storage.tsdb.path={room}/tsdb", f"--web.listen-address=127.0.0.1:{shown}"]
        with open(f"{room}/said", "wb") as said:
            prometheus = subprocess.Popen(words, stdout=said, stderr=said)
        try:
            assert broker.listens(), broker.log()
            client = Client(broker.port)
            create_many(client, [b"orders"], 1)
            sent, began = batch(b"x" * 100), time.monotonic()
            for number in range(pace * seconds):
                client.produce(b"orders", sent)
                time.sleep(max(0.0, began + (number + 1) / pace - time.monotonic()))
            rates = asked(shown, 'rate(kbroker_requests_total{api="Produce"}[30s])')
            size = len(sent) + 4 + 8 + 2 + 8 + 4 + 2 + 6 + 12  # the request around it: size, header, body up to the batch
            print(f"{pace} requests a second: Prometheus says {list(rates.values())}")
            print(f"{pace * size} bytes of requests a second: {list(asked(shown, 'rate(kbroker_request_bytes_total{tenant=%sa%s}[30s])' % (chr(34), chr(34))).values())}")
            print(f"scrapes that failed in that minute: {list(asked(shown, 'count_over_time((up == 0)[1m:1s])').values()) or 0}")
            print(f"a scrape: {list(asked(shown, 'max_over_time(scrape_duration_seconds[1m])').values())} s at most")
        finally:
            prometheus.terminate()
            prometheus.wait()
            broker.stop()


def main(program, *flags):
    fifty(program)
    many(program)
    if "--minute" in flags:
        minute(program)
    return 0


if __name__ == "__main__":
    sys.exit(main(*sys.argv[1:]))
