#!/usr/bin/env python3
"""Three consumers of a group share its partitions again once the broker was killed and started anew, for each of two tenants.

    trials/consumers_over_restarts.py KBROKER

Three stock clients of one group consume a topic of six partitions. Three of another tenant do so at the same time, under the same names.
Twice the broker is killed by SIGKILL and started again after half a second. Each time each partition of each tenant has one owner within 15
seconds, which is so for three seconds then. Sixty messages are given to each tenant after each start, each once, and none of the other's. None
is given that stands before what its partition has committed. The longest time to share is printed.

It needs Python's confluent_kafka (Debian: python3-confluent-kafka).
"""

import os
import shutil
import signal
import socket
import subprocess
import sys
import tempfile
import threading
import time

from wire import in_debians_python

in_debians_python("confluent_kafka")

from confluent_kafka import Consumer, KafkaException, Producer

PARTITIONS = 6
MESSAGES = 60
RESTARTS = 2
WITHIN = 15.0
STEADY = 3.0
# How often each member asks after its group, in milliseconds: who joined first is the last to hear of a restart.
HEARTBEATS = (3000, 700, 500)

SETTINGS = """host = "127.0.0.1"
port = {port}
data = "{data}"

[[user]]
name = "ann"
password = "pw1"
tenant = "a"

[[user]]
name = "bob"
password = "pw2"
tenant = "b"
"""
# The users, each of a tenant of its own.
USERS = [("ann", "pw1"), ("bob", "pw2")]


def free_port():
    """A port that nobody listens on."""
    with socket.socket() as probe:
        probe.bind(("127.0.0.1", 0))
        return probe.getsockname()[1]


def login(port, user):
    """What a client of a user needs to log in."""
    return {
        "bootstrap.servers": f"127.0.0.1:{port}",
        "broker.address.family": "v4",
        "security.protocol": "SASL_PLAINTEXT",
        "sasl.mechanisms": "PLAIN",
        "sasl.username": user[0],
        "sasl.password": user[1],
        "reconnect.backoff.max.ms": 500,
        "log_level": 0,
    }


class Broker:
    """`kbroker serve` on a folder, which is killed and started again."""

    def __init__(self, program, room):
        self.program, self.port = program, free_port()
        self.settings = f"{room}/settings.toml"
        with open(self.settings, "w", encoding="utf-8") as out:
            out.write(SETTINGS.format(port=self.port, data=f"{room}/data"))
        self.process = None

    def start(self):
        words = [self.program, "serve", "--config", self.settings, "--stock-clients", "--quiet"]
        self.process = subprocess.Popen(words, stdout=subprocess.PIPE, stderr=subprocess.DEVNULL)
        if not self.process.stdout.readline().startswith(b"listening"):
            sys.exit("the broker did not start")

    def kill(self):
        if self.process is not None:
            self.process.send_signal(signal.SIGKILL)
            self.process.wait()
            self.process.stdout.close()
            self.process = None

    def create(self, topic, partitions, user):
        words = [self.program, "topic", "create", "--broker", f"127.0.0.1:{self.port}", "--user", user[0], "--password", user[1]]
        subprocess.run([*words, "--partitions", str(partitions), topic], check=True, stdout=subprocess.DEVNULL, timeout=20)


class Told:
    """What the members of the group were given."""

    def __init__(self):
        self.lock = threading.Lock()
        self.values = []
        self.committed = {}
        self.behind = []

    def give(self, message):
        with self.lock:
            place = message.partition(), message.offset()
            self.values.append(message.value())
            if place[1] < self.committed.get(place[0], 0):
                self.behind.append(place)

    def commit(self, message):
        with self.lock:
            at = self.committed.get(message.partition(), 0)
            self.committed[message.partition()] = max(at, message.offset() + 1)


class Member(threading.Thread):
    """A consumer of the group, which commits each message by itself."""

    def __init__(self, port, heartbeat, told, user):
        super().__init__()
        self.told, self.ends, self.assigned, self.owns = told, False, 0, ()
        self.consumer = Consumer({
            **login(port, user),
            "group.id": "g",
            "session.timeout.ms": 10000,
            "heartbeat.interval.ms": heartbeat,
            "enable.auto.commit": False,
            "auto.offset.reset": "earliest",
        })
        self.consumer.subscribe(["t"], on_assign=self.gets, on_revoke=self.loses)

    def gets(self, _, partitions):
        self.assigned, self.owns = self.assigned + 1, tuple(p.partition for p in partitions)

    def loses(self, _, partitions):
        self.owns = ()

    def run(self):
        while not self.ends:
            message = self.consumer.poll(0.1)
            if message is None or message.error():
                continue
            self.told.give(message)
            try:
                self.consumer.commit(message=message, asynchronous=False)
                self.told.commit(message)
            except KafkaException:
                pass
        self.consumer.close()


def shared(members, before):
    """Whether each member was given its share since then, and each partition has one owner."""
    if any(member.assigned == was for member, was in zip(members, before)):
        return False
    return sorted(p for member in members for p in member.owns) == list(range(PARTITIONS))


class Group:
    """The three members of a user, and what they were given."""

    def __init__(self, port, user):
        self.port, self.user, self.told, self.members = port, user, Told(), []

    def start(self):
        for heartbeat in HEARTBEATS:
            self.members.append(Member(self.port, heartbeat, self.told, self.user))
            self.members[-1].start()
            time.sleep(0.3)

    def stop(self):
        for member in self.members:
            member.ends = True
        for member in self.members:
            member.join(10)

    def send(self, number):
        """Sends some messages to each partition in turn."""
        producer = Producer({**login(self.port, self.user), "message.timeout.ms": 10000})
        sent = [b"%s-%d-%d" % (self.user[0].encode(), number, at) for at in range(MESSAGES)]
        for at, value in enumerate(sent):
            producer.produce("t", value, partition=at % PARTITIONS)
        if producer.flush(15):
            sys.exit("the messages were not taken")
        return sent

    def strange(self):
        """What came that this user did not send."""
        with self.told.lock:
            return [value for value in self.told.values if not value.startswith(self.user[0].encode() + b"-")]


def settle(groups, before, since):
    """How long it takes from a time until each partition has one owner for some seconds; None where that is too long."""
    good = None
    while time.time() < since + WITHIN + STEADY + 0.5:
        now = time.time()
        if not all(shared(group.members, was) for group, was in zip(groups, before)):
            good = None
        elif good is None:
            good = now
        elif now - good >= STEADY:
            return good - since if good - since <= WITHIN else None
        time.sleep(0.05)
    return None


def given(told, sent):
    """Whether each of those messages came once."""
    until = time.time() + 8
    while time.time() < until and not set(sent) <= set(told.values):
        time.sleep(0.1)
    time.sleep(1)
    with told.lock:
        return sorted(v for v in told.values if v in set(sent)) == sorted(sent)


def assignments(groups):
    """How often each member was given its share so far."""
    return [[member.assigned for member in group.members] for group in groups]


def faults(broker, groups):
    """What went wrong, and the longest time to share."""
    found, longest = [], 0.0
    before = [[0] * len(group.members) for group in groups]
    began = time.time()
    for number in range(RESTARTS + 1):
        took = settle(groups, before, began)
        if took is None:
            owners = [[member.owns for member in group.members] for group in groups]
            found.append(f"start {number}: after {WITHIN:.0f} s the owners are {owners}")
        longest = max(longest, took or WITHIN)
        sent = [group.send(number) for group in groups]
        if not all([given(group.told, of) for group, of in zip(groups, sent)]):
            found.append(f"start {number}: not each message came once")
        if number < RESTARTS:
            broker.kill()
            before = assignments(groups)
            time.sleep(0.5)
            broker.start()
            began = time.time()
    for group in groups:
        if group.told.behind:
            found.append(f"{len(group.told.behind)} messages were given again behind what was committed: {group.told.behind[:5]} ..")
        if group.strange():
            found.append(f"{group.user[0]} was given what another sent: {group.strange()[:5]} ..")
    return found, longest


def main():
    program = shutil.which(sys.argv[1]) or os.path.abspath(sys.argv[1])
    with tempfile.TemporaryDirectory() as room:
        broker, groups = Broker(program, room), []
        try:
            broker.start()
            for user in USERS:
                broker.create("t", PARTITIONS, user)
                groups.append(Group(broker.port, user))
                groups[-1].start()
            found, longest = faults(broker, groups)
        finally:
            for group in groups:
                group.stop()
            broker.kill()
    for fault in found:
        print(fault)
    print(f"consumers_over_restarts: each partition has one owner after {longest:.1f} s; {len(found)} faults")
    sys.exit(1 if found else 0)


if __name__ == "__main__":
    if len(sys.argv) != 2:
        sys.exit(__doc__)
    main()
