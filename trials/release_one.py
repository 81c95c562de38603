#!/usr/bin/python3
"""Clients that take the broker for one of a release by its list, for each of two tenants.

    trials/release_one.py KBROKER

kafka-python is left to itself: it infers a release from the list, and sends that release's versions. Its admin client makes a topic of
four partitions, its producer writes to it, and two of its consumers share it in a group. Behind what they committed a third one reads
nothing. sarama makes, writes, reads and deletes a topic, at 0.11.0.0, 1.0.0 and 2.2.0. Both tenants use the same names at the same time. It
needs Debian's python3-kafka, golang-go and golang-github-shopify-sarama-dev.
"""

import os
import subprocess
import sys
import tempfile
import threading
import time

from wire import Broker, in_debians_python

in_debians_python("kafka")

import kafka
from kafka.admin import NewTopic

USERS = {"ann": "pw1", "bob": "pw2"}
TOPIC, GROUP, LINES = "orders", "readers", 100
EXAMPLE = os.path.join(os.path.dirname(os.path.realpath(__file__)), "..", "examples", "sarama.go")


class Count:
    """How many answers were looked at, and how many are wrong."""

    def __init__(self):
        self.all = self.wrong = 0

    def must(self, what, got, wanted):
        """Counts an answer, and says where it is another one than is wanted."""
        self.all += 1
        if got != wanted:
            self.wrong += 1
            print(f"WRONG {what}: {got!r}, and not {wanted!r}")


def login(port, user):
    """The settings of a client of kafka-python: no release is named."""
    return {"bootstrap_servers": f"127.0.0.1:{port}", "security_protocol": "SASL_PLAINTEXT", "sasl_mechanism": "PLAIN",
            "sasl_plain_username": user, "sasl_plain_password": USERS[user]}


class Member(threading.Thread):
    """A member of the group, which begins at the start where nothing is committed, and commits what it has read."""

    def __init__(self, port, user):
        super().__init__()
        self.consumer = kafka.KafkaConsumer(TOPIC, group_id=GROUP, auto_offset_reset="earliest", enable_auto_commit=False,
                                            session_timeout_ms=6000, heartbeat_interval_ms=1000, **login(port, user))
        self.values, self.partitions, self.ends, self.over = [], set(), {}, threading.Event()

    def run(self):
        while not self.over.is_set():
            got = self.consumer.poll(timeout_ms=200)
            self.values += [it.value for records in got.values() for it in records]
            self.partitions = {it.partition for it in self.consumer.assignment()}
            if got:
                self.consumer.commit()
        self.ends = self.consumer.end_offsets([kafka.TopicPartition(TOPIC, it) for it in range(4)])
        self.consumer.close()


def read(members, done, seconds):
    """Lets members of a group read until that is so, or the time is over."""
    end = time.monotonic() + seconds
    for it in members:
        it.start()
    while not done() and time.monotonic() < end:
        time.sleep(0.1)
    for it in members:
        it.over.set()
    for it in members:
        it.join()


def kafka_python(count, port):
    """Admin, producer and a group of each tenant."""
    for user in USERS:
        admin = kafka.KafkaAdminClient(**login(port, user))
        count.must(f"{user}, the release that is inferred", admin.config["api_version"], (2, 0, 0))
        admin.create_topics([NewTopic(TOPIC, 4, 1)])
        count.must(f"{user}, topics", admin.list_topics(), [TOPIC])
        producer = kafka.KafkaProducer(acks="all", **login(port, user))
        sent = [producer.send(TOPIC, b"%s-%03d" % (user.encode(), it), partition=it % 4) for it in range(LINES)]
        count.must(f"{user}, offsets", [it.get(10).offset for it in sent], [it // 4 for it in range(LINES)])
        producer.close()
        admin.close()
    members = {user: [Member(port, user), Member(port, user)] for user in USERS}
    all_members = [it for two in members.values() for it in two]

    def is_shared():
        """Each has two partitions, and all that was written was read."""
        return all(len(it.partitions) == 2 for it in all_members) and sum(len(it.values) for it in all_members) >= 2 * LINES

    read(all_members, is_shared, 90)
    for user, two in members.items():
        own = {b"%s-%03d" % (user.encode(), it) for it in range(LINES)}
        count.must(f"{user}, a group of two reads", {it for member in two for it in member.values}, own)
        count.must(f"{user}, partitions of the two", sorted(it for member in two for it in member.partitions), [0, 1, 2, 3])
        third = Member(port, user)
        read([third], lambda: third.values, 8)
        count.must(f"{user}, a third one reads", third.values, [])
        count.must(f"{user}, the ends", sorted(third.ends.values()), [LINES // 4] * 4)
        admin = kafka.KafkaAdminClient(**login(port, user))
        told = admin.list_consumer_group_offsets(GROUP)
        count.must(f"{user}, what was committed", sorted((k.topic, k.partition, v.offset) for k, v in told.items()),
                   [(TOPIC, it, LINES // 4) for it in range(4)])
        admin.close()


def sarama(count, port):
    """Each tenant's, at each release."""
    goes = {**os.environ, "GO111MODULE": "off", "GOPATH": "/usr/share/gocode"}
    with tempfile.TemporaryDirectory() as room:
        program = f"{room}/sarama"
        subprocess.run(["go", "build", "-o", program, EXAMPLE], env={**goes, "GOCACHE": f"{room}/cache"}, check=True, stderr=subprocess.DEVNULL)
        for release in ("0.11.0.0", "1.0.0", "2.2.0"):
            for user, password in USERS.items():
                words = [program, f"127.0.0.1:{port}", user, password, f"sarama-{release}", release]
                ran = subprocess.run(words, capture_output=True, text=True, timeout=120)
                count.must(f"{user}, sarama at {release}", (ran.returncode, ran.stdout, ran.stderr), (0, "0 one\n1 two\n2 three\n", ""))


def main(program):
    """Both clients."""
    count = Count()
    with tempfile.TemporaryDirectory() as room:
        broker = Broker(program, room)
        try:
            if not broker.listens():
                raise SystemExit(broker.log())
            kafka_python(count, broker.port)
            sarama(count, broker.port)
        finally:
            broker.stop()
    print(f"{count.wrong} of {count.all} answers wrong")
    return 1 if count.wrong else 0


if __name__ == "__main__":
    if len(sys.argv) != 2:
        raise SystemExit(__doc__)
    sys.exit(main(sys.argv[1]))
