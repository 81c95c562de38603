#!/usr/bin/env python3
"""What kafka-go 0.2.1 gets, for each of two tenants under the same names.

    trials/kafka_go.py KBROKER

This version has no SASL, so a forwarder in this script logs in for it, and each tenant is told the forwarder's address. It makes a topic,
tells partitions and offsets, is a member of a group, commits and deletes. It writes by Produce 2 and reads by Fetch 2, which are not
served: it sees that the connection has ended, and the broker's log says why. It needs Debian's golang-go and
golang-github-segmentio-kafka-go-dev.
"""

import os
import socket
import subprocess
import sys
import tempfile
import threading

from wire import Broker, Client, batch, committed, free_port, produce, topics

USERS = {b"ann": b"pw1", b"bob": b"pw2"}
TENANTS = {b"ann": "a", b"bob": "b"}
TOPIC, GROUP = "orders", "readers"
# How many records each has, and behind which one its member commits.
RECORDS, READ = {b"ann": 3, b"bob": 5}, {b"ann": 1, b"bob": 3}
PROGRAM = os.path.join(os.path.dirname(os.path.realpath(__file__)), "kafka_go.go")
UNSERVED = "written: EOF\nread: unexpected EOF\n"


class Forwarder:
    """Listens on a port of its own. Each connection goes on to the broker, behind a login."""

    def __init__(self, user):
        self.user, self.port = user, free_port()
        self.listener = socket.create_server(("127.0.0.1", self.port))

    def begin(self, broker):
        threading.Thread(target=self.run, args=(broker,), daemon=True).start()

    def run(self, broker):
        while True:
            client, _ = self.listener.accept()
            to = Client(broker, self.user, USERS[self.user]).socket
            for ends in ((client, to), (to, client)):
                threading.Thread(target=carry, args=ends, daemon=True).start()


def carry(begin, end):
    """Carries bytes until either is closed, and then closes both."""
    try:
        while piece := begin.recv(65536):
            end.sendall(piece)
    except OSError:
        pass
    for it in (begin, end):
        try:
            it.shutdown(socket.SHUT_RDWR)
        except OSError:
            pass


class Trial:
    """The client's program, and how many of its answers were looked at, and are wrong."""

    def __init__(self, room):
        self.all = self.wrong = 0
        self.program = f"{room}/kafka_go"
        goes = {**os.environ, "GO111MODULE": "off", "GOPATH": "/usr/share/gocode", "GOCACHE": f"{room}/cache"}
        subprocess.run(["go", "build", "-o", self.program, PROGRAM], env=goes, check=True, stderr=subprocess.DEVNULL)

    def must(self, what, got, wanted):
        """Counts an answer, and says where it is another one than is wanted."""
        self.all += 1
        if got != wanted:
            self.wrong += 1
            print(f"WRONG {what}: {got!r}, and not {wanted!r}")

    def says(self, port, *words):
        """What the program prints."""
        ran = subprocess.run([self.program, f"127.0.0.1:{port}", *words], stdout=subprocess.PIPE, stderr=subprocess.STDOUT, text=True, timeout=60)
        return ran.stdout

    def member(self, port, user):
        """A member of the group, which reads nothing, and commits."""
        said = self.says(port, "group", TOPIC, GROUP, str(READ[user]))
        self.must(f"{user}, a member", said, "read: context deadline exceeded\ncommitted: <nil>\nclosed: <nil>\n")

    def run(self, broker, ports):
        """One thing after another, but for the groups, which are there at once."""
        self.must("no login", self.says(broker.port, "make", TOPIC).split("\n")[0], "made: EOF")
        self.must("the log of no login", ": CreateTopics 0 before a login" in broker.log(), True)
        clients = {it: Client(broker.port, it, USERS[it]) for it in USERS}
        for user, client in clients.items():
            self.must(f"{user}, a topic", self.says(ports[user], "make", TOPIC), "made: <nil>\npartitions: 2 <nil>\n")
            client.all([produce(TOPIC.encode(), batch(b"%s-%d" % (user, it))) for it in range(RECORDS[user])])
        for user in USERS:
            self.must(f"{user}, records", self.says(ports[user], "records", TOPIC), f"offsets: 0 {RECORDS[user]} <nil>\n{UNSERVED}")
            for api in ("Produce", "Fetch"):
                told = f"of tenant {TENANTS[user]}: version 2 of {api} is not served"
                self.must(f"{user}, the log of {api}", told in broker.log(), True)
        members = [threading.Thread(target=self.member, args=(ports[it], it)) for it in USERS]
        for it in members:
            it.start()
        for it in members:
            it.join()
        for user, client in clients.items():
            self.must(f"{user}, what was committed", client.all([committed(GROUP.encode(), TOPIC.encode())]), [READ[user] + 1])
        self.must("ann deletes", self.says(ports[b"ann"], "delete", TOPIC), "deleted: <nil>\n")
        self.must("ann's topics", clients[b"ann"].all([topics()]), [[]])
        self.must("bob's topics", clients[b"bob"].all([topics()]), [[TOPIC.encode()]])


def main(program):
    """Both tenants."""
    with tempfile.TemporaryDirectory() as room:
        trial = Trial(room)
        forwarders = [Forwarder(it) for it in USERS]
        tables = [f'[[tenant]]\nname = "{TENANTS[it.user]}"\nadvertise = "127.0.0.1:{it.port}"\n' for it in forwarders]
        broker = Broker(program, room, "\n".join(tables))
        try:
            if not broker.listens():
                raise SystemExit(broker.log())
            for it in forwarders:
                it.begin(broker.port)
            trial.run(broker, {it.user: it.port for it in forwarders})
        finally:
            broker.stop()
    print(f"{trial.wrong} of {trial.all} answers wrong")
    return 1 if trial.wrong else 0


if __name__ == "__main__":
    if len(sys.argv) != 2:
        raise SystemExit(__doc__)
    sys.exit(main(sys.argv[1]))
