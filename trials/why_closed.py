#!/usr/bin/env python3
"""A broker says in its log why it shut a connection.

    trials/why_closed.py KBROKER

Hand-made frames shut a connection each: too short, too long, a version that is not served, a body that does not match, a request before
the login, and a wrong password. The fronts of a TLS hello and of an HTTP request close theirs, as each size above 65,536 before the login.
Each has its line, with the address and the tenant, and no line has a password. kafka-python is told that
the broker is Kafka 2.1, and sends Produce 7: that has its line too. The process may then take 4 MB more alone, and twelve connections
send the front of a long request each: those that are shut have a line, and no other; the broker serves on. At last 200 connections are
shut at once: each has a line, or is in the count of the others. It prints `N of M wrong`. It needs Debian's python3-kafka.
"""

import re
import resource
import socket
import struct
import sys
import tempfile
import time

from wire import Broker, Client, in_debians_python, text

in_debians_python("kafka")

import kafka
import kafka.errors

MANY, FULL = 200, 12

TLS_HELLO = bytes.fromhex("1603010200 010001fc 0303")
HTTP_REQUEST = b"GET / HTTP/1.1\r\n"
LONG = "closed {}: a request is longer than 65536 bytes before its login"


def frame(key, version, body):
    """A request with a null client id."""
    request = struct.pack(">hhih", key, version, 7, -1) + body
    return struct.pack(">i", len(request)) + request


def shut_by(port, sent, logged_in):
    """Sends bytes on a connection of its own, and waits until it is closed. It answers the address that it had."""
    if logged_in:
        peer = Client(port).socket
    else:
        peer = socket.create_connection(("127.0.0.1", port), timeout=20)
    address = "127.0.0.1:{}".format(peer.getsockname()[1])
    peer.sendall(sent)
    while peer.recv(65536):
        pass
    peer.close()
    return address


def login(password):
    """The frames of a login as ann."""
    words = b"\0ann\0" + password
    return frame(17, 1, text(b"PLAIN")) + frame(36, 0, struct.pack(">i", len(words)) + words)


def cases():
    """What is sent, whether behind a login, and the line: `{}` stands for the address."""
    return [
        (struct.pack(">i", 4), False, "closed {}: a request is too short for its header"),
        (struct.pack(">i", -1), True, "closed {} of tenant a: a request is too short for its header"),
        (struct.pack(">i", 2_097_153), True, "closed {} of tenant a: a request is longer than 2097152 bytes"),
        (TLS_HELLO, False, LONG),
        (HTTP_REQUEST, False, LONG),
        (struct.pack(">i", 65_537), False, LONG),
        (struct.pack(">i", -1), False, LONG),
        (frame(1, 12, b""), False, "closed {}: version 12 of Fetch is not served"),
        (frame(32, 4, b""), True, "closed {} of tenant a: version 4 of DescribeConfigs is not served"),
        (frame(99, 1, b""), True, "closed {} of tenant a: version 1 of API 99 is not served"),
        (frame(0, 3, b"\1"), True, "closed {} of tenant a: the body of Produce 3 does not match"),
        (frame(1, 4, b""), False, "closed {}: Fetch 4 before a login"),
        (login(b"secret"), False, "login failed from {} as ann"),
    ]


def within(seconds, holds):
    """Whether something holds within so many seconds."""
    until = time.monotonic() + seconds
    while not holds():
        if time.monotonic() > until:
            return False
        time.sleep(0.02)
    return True


def wrong_lines(broker):
    """How many of the cases do not have their line once, and how many cases there are."""
    wrong, all_of_them = 0, cases()
    for sent, logged_in, line in all_of_them:
        told = line.format(shut_by(broker.port, sent, logged_in))
        if not within(4, lambda: broker.log().count(told) == 1):
            print(f"not told once: {told}")
            wrong += 1
    return wrong, len(all_of_them)


def later_client_is_told(broker):
    """Whether kafka-python, which takes the broker for a later one, is refused its Produce, and the log has the version once."""
    Client(broker.port).create(b"t")
    producer = kafka.KafkaProducer(bootstrap_servers=f"127.0.0.1:{broker.port}", security_protocol="SASL_PLAINTEXT", sasl_mechanism="PLAIN",
                                   sasl_plain_username="ann", sasl_plain_password="pw1", api_version=(2, 1, 0), retries=0)
    try:
        producer.send("t", b"line").get(10)
        print("a later Produce was answered")
        return False
    except kafka.errors.KafkaError:
        line = "closed [0-9.]+:[0-9]+ of tenant a: version 7 of Produce is not served\n"
        if within(4, lambda: len(re.findall(line, broker.log())) == 1):
            return True
        print("not told once: version 7 of Produce")
        return False
    finally:
        producer.close(1)


def is_closed(peer):
    """Whether the other side closed a connection, on which it has nothing to say."""
    peer.settimeout(0.5)
    try:
        return not peer.recv(1)
    except socket.timeout:
        return False
    except OSError:
        return True


def want_of_memory_is_told(broker):
    """Whether connections whose bytes find no memory are told, and no others, and the broker serves on."""
    time.sleep(1.1)  # (so many lines of a second are told)
    pid, peers = broker.process.pid, [Client(broker.port).socket for _ in range(FULL)]
    with open(f"/proc/{pid}/statm", encoding="ascii") as it:
        most = int(it.read().split()[0]) * resource.getpagesize() + 4_194_304
    before = resource.prlimit(pid, resource.RLIMIT_AS)
    resource.prlimit(pid, resource.RLIMIT_AS, (most, before[1]))
    for peer in peers:
        try:
            peer.sendall(struct.pack(">i", 2_000_000) + bytes(1_000_000))
        except OSError:
            pass
    shut = {"127.0.0.1:{}".format(it.getsockname()[1]) for it in peers if is_closed(it)}
    resource.prlimit(pid, resource.RLIMIT_AS, before)

    def told():
        return re.findall("closed ([0-9.]+:[0-9]+) of tenant a: out of memory\n", broker.log())

    right = within(4, lambda: sorted(told()) == sorted(shut)) and shut and Client(broker.port).create(b"u") == 0
    if not right:
        print(f"of {FULL} connections {len(shut)} were shut for want of memory, and {len(told())} are told")
    return right


def many_are_told(broker):
    """Whether each of many connections that are shut at once has a line or is counted."""
    before = broker.log()
    peers = [socket.create_connection(("127.0.0.1", broker.port), timeout=20) for _ in range(MANY)]
    for peer in peers:
        peer.sendall(struct.pack(">i", 4))
    for peer in peers:
        while peer.recv(4096):
            pass
        peer.close()

    def told():
        said = broker.log()[len(before):]
        lines = len(re.findall("closed [0-9.]+:[0-9]+: ", said))
        return lines + sum(int(n) for n in re.findall("closed others: ([0-9]+)", said))

    if within(4, lambda: told() == MANY):
        return True
    print(f"of {MANY} connections {told()} are told")
    return False


def main(program):
    """Whether all holds."""
    with tempfile.TemporaryDirectory() as room:
        broker = Broker(program, room)
        try:
            if not broker.listens():
                print("the broker does not listen")
                return 1
            wrong, count = wrong_lines(broker)
            wrong += not later_client_is_told(broker)
            wrong += not want_of_memory_is_told(broker)
            wrong += not many_are_told(broker)
            wrong += "secret" in broker.log() or "pw1" in broker.log()
        finally:
            broker.stop()
    print(f"{wrong} of {count + 4} wrong")
    return 1 if wrong else 0


if __name__ == "__main__":
    sys.exit(main(sys.argv[1]))
