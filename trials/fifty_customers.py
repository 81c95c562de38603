#!/usr/bin/env python3
"""Fifty customers with stock clients on one broker, which is killed twice: each gets its own messages, each stored once.

    trials/fifty_customers.py KBROKER

Each of fifty tenants has a topic and a group of the same names, an idempotent producer, and a consumer that commits each message. The broker is
killed by SIGKILL twice and started again. In the end each consumer was given all that was acknowledged to its own producer, and nothing of
another's. No message has two offsets. It prints how many were otherwise, and the process's resident size.

It needs Python's confluent_kafka (Debian: python3-confluent-kafka).
"""

import os
import subprocess
import sys
import tempfile
import threading
import time

from wire import Broker, in_debians_python

in_debians_python("confluent_kafka")

from confluent_kafka import Consumer, KafkaException, Producer
from confluent_kafka.admin import AdminClient, NewTopic

CUSTOMERS = 50
KILLS = 2
BETWEEN = 6.0
KEYS = 7
USERS = "".join(f'[[user]]\nname = "user{n}"\npassword = "secret{n}"\ntenant = "customer{n}"\n\n' for n in range(CUSTOMERS))
LIMITS = "".join(f'[[tenant]]\nname = "customer{n}"\nconnections = 20\nreserved_connections = 4\n\n' for n in range(CUSTOMERS))


class Customer:
    """A producer and a consumer of one tenant, each in a thread of its own."""

    def __init__(self, port, number):
        self.port, self.number = port, number
        self.sent, self.given, self.faults = [], [], []
        self.is_full, self.is_over = threading.Event(), threading.Event()
        self.threads = [threading.Thread(target=it) for it in (self.produce, self.consume)]

    def login(self, **more):
        return {
            "bootstrap.servers": f"127.0.0.1:{self.port}",
            "broker.address.family": "v4",
            "security.protocol": "SASL_PLAINTEXT",
            "sasl.mechanisms": "PLAIN",
            "sasl.username": f"user{self.number}",
            "sasl.password": f"secret{self.number}",
            "reconnect.backoff.max.ms": 500,
            "log_level": 0,
            **{key.replace("_", "."): value for key, value in more.items()},
        }

    def note(self, fault, message):
        """What the library says of a message that was sent."""
        if fault:
            self.faults.append(str(fault))
        else:
            self.sent.append(message.value())

    def produce(self):
        admin = AdminClient(self.login())
        admin.create_topics([NewTopic("orders", num_partitions=2, replication_factor=1)])["orders"].result(30)
        producer = Producer(self.login(enable_idempotence=True, linger_ms=5, message_timeout_ms=60000))
        number = 0
        while not self.is_full.is_set():
            producer.produce("orders", b"%d-%d" % (self.number, number), key=b"%d" % (number % KEYS), on_delivery=self.note)
            producer.poll(0)
            number += 1
            time.sleep(0.05)
        if producer.flush(30):
            self.faults.append("messages were not taken")

    def consume(self):
        time.sleep(2)
        consumer = Consumer(self.login(group_id="billing", session_timeout_ms=10000, auto_offset_reset="earliest", enable_auto_commit=False))
        consumer.subscribe(["orders"])
        while not self.is_over.is_set():
            message = consumer.poll(0.3)
            if message is None or message.error():
                continue
            self.given.append((message.partition(), message.offset(), message.value()))
            try:
                consumer.commit(message=message, asynchronous=False)
            except KafkaException:
                pass
        consumer.close()

    def missing(self):
        """What was acknowledged and is not given."""
        return set(self.sent) - {value for _, _, value in list(self.given)}

    def counts(self):
        """How many messages are missing, of another, and stored twice, and how many faults there were."""
        others = [value for _, _, value in self.given if not value.startswith(b"%d-" % self.number)]
        places, values = {it[:2] for it in self.given}, {it[2] for it in self.given}
        return len(self.missing()), len(others), len(places) - len(values), len(self.faults)


def again(program, broker):
    """Kills the broker, and starts it again on its settings."""
    broker.stop()
    time.sleep(0.5)
    with open(broker.errors, "ab") as errors:
        words = [program, "serve", "--config", broker.settings, "--stock-clients"]
        broker.process = subprocess.Popen(words, stdout=subprocess.DEVNULL, stderr=errors)
    return broker.listens()


def play(program, broker, customers):
    """Whether each start listened. In the end all was sent, and given or waited for."""
    threads = [it for one in customers for it in one.threads]
    for it in threads:
        it.start()
    listened = []
    for _ in range(KILLS):
        time.sleep(BETWEEN)
        listened.append(again(program, broker))
    time.sleep(BETWEEN)
    for one in customers:
        one.is_full.set()
    for one in customers:
        one.threads[0].join()
    until = time.monotonic() + 30
    while time.monotonic() < until and any(one.missing() for one in customers):
        time.sleep(0.3)
    for one in customers:
        one.is_over.set()
    for it in threads:
        it.join()
    return all(listened)


def resident(broker):
    """The resident size of the process, in kB."""
    with open(f"/proc/{broker.process.pid}/status", encoding="ascii") as it:
        return next(line.split()[1] for line in it if line.startswith("VmRSS:"))


def main(program):
    """Whether each customer had its own."""
    with tempfile.TemporaryDirectory() as room:
        broker = Broker(program, room, more=LIMITS + USERS)
        try:
            if not broker.listens():
                print("the broker does not listen")
                return 1
            customers = [Customer(broker.port, number) for number in range(CUSTOMERS)]
            listened = play(program, broker, customers)
            size = resident(broker) if listened else "?"
        finally:
            broker.stop()
    missing, others, twice, faults = map(sum, zip(*(it.counts() for it in customers)))
    for it in customers:
        for fault in it.faults[:1]:
            print(f"customer {it.number}: {fault}")
    sent = sum(len(it.sent) for it in customers)
    print(f"of {sent} messages missing: {missing}, of another: {others}, stored twice: {twice}, faults: {faults}; {size} kB")
    return 1 if missing or others or twice or faults or not listened or not sent else 0


if __name__ == "__main__":
    if len(sys.argv) != 2:
        sys.exit(__doc__)
    sys.exit(main(os.path.abspath(sys.argv[1])))
