#!/usr/bin/env python3
"""Starts both programs with each of the descriptors 0 to 2 closed, and with several of them: no file and no socket takes such a number.

    trials/closed_descriptors.py KBROKER KCONSOLE

A broker that is started so serves a folder with files of two tenants, and its log has something to tell. Each file begins with its own
header afterwards, and both tenants find their records. A `kconsole consume` that is started so ends, and sends nothing but requests: the broker
closes no connection of it. It prints how many of the ways went wrong.
"""

import os
import subprocess
import sys
import tempfile

from wire import Broker, Client, batch

WAYS = [(0,), (1,), (2,), (0, 2), (0, 1, 2)]


def closing(numbers):
    """Closes descriptors, in the process that becomes the program."""
    def before():
        for number in numbers:
            os.close(number)
    return before


def numbers_taken(pid):
    """What stands at the descriptors 0 to 2 of a process, where it is a file of the store or a socket."""
    found = []
    for number in range(3):
        try:
            name = os.readlink(f"/proc/{pid}/fd/{number}")
        except OSError:
            continue
        if name.endswith(".seg") or "socket" in name or "/data" in name or "eventpoll" in name:
            found.append(f"{number}: {name}")
    return found


def served(program, numbers):
    """What is wrong with a broker that is started, on a folder with files, with descriptors closed."""
    users = ((b"ann", b"pw1"), (b"bob", b"pw2"))
    with tempfile.TemporaryDirectory() as room:
        first = Broker(program, room)
        first.listens()
        for user, password in users:
            client = Client(first.port, user, password)
            client.create(b"t")
            client.produce(b"t", batch(b"first"))
        first.stop()
        broker = Broker(program, room, before=closing(numbers))
        wrong, records = [], 1
        if broker.listens():
            records = 2
            for user, password in users:
                Client(broker.port, user, password).produce(b"t", batch(b"second"))
            try:
                Client(broker.port, b"ann", b"wrong")
            except ConnectionError:
                pass
            wrong = numbers_taken(broker.process.pid)
        elif 1 not in numbers:
            # Where standard output is closed it may say so and end.
            wrong = ["it does not listen"]
        broker.stop()
        for name in sorted(os.listdir(f"{room}/data")):
            with open(f"{room}/data/{name}", "rb") as it:
                if name.endswith(".seg") and it.read(4) != b"KBSG":
                    wrong.append(f"{name} has no header")
        again = Broker(program, room)
        again.listens()
        for user, password in users:
            code, mark, _ = Client(again.port, user, password).fetch(b"t", 0)
            if (code, mark) != (0, records):
                wrong.append(f"{user.decode()}: error {code}, {mark} of {records} records")
        again.stop()
    return wrong


def consumed(program, console, numbers):
    """What is wrong with a `kconsole consume` that is started with descriptors closed."""
    with tempfile.TemporaryDirectory() as room:
        broker = Broker(program, room)
        broker.listens()
        client = Client(broker.port)
        client.create(b"t")
        # More than a request may have, and it begins with what no request's length is.
        for _ in range(40):
            client.produce(b"t", batch(b"\x7f" * 1000))
        words = [os.path.abspath(console), "consume", "--broker", f"127.0.0.1:{broker.port}", "--user", "ann", "--password", "pw1"]
        streams = {name: subprocess.PIPE for number, name in enumerate(("stdin", "stdout", "stderr")) if number not in numbers}
        # Without a stream of its own it would have that of this script.
        process = subprocess.Popen(words + ["--topic", "t"], preexec_fn=closing(numbers), **streams)
        try:
            out, errors = process.communicate(timeout=15)
        except subprocess.TimeoutExpired:
            process.kill()
            broker.stop()
            return ["kconsole does not end"]
        broker.stop()
        if 1 in numbers:
            said = (errors or b"").decode().strip()
            return [] if process.returncode == 1 and "write" in said + "write" * (2 in numbers) else [f"kconsole: status {process.returncode}, {said!r}"]
        return [] if process.returncode == 0 and out.count(b"\n") == 40 else [f"kconsole: status {process.returncode}, {out.count(10)} lines"]


def main():
    wrong = 0
    for numbers in WAYS:
        for what in (served(sys.argv[1], numbers), consumed(sys.argv[1], sys.argv[2], numbers)):
            wrong += bool(what)
            for line in what:
                print(f"closed {numbers}: {line}")
    print(f"{wrong} of {2 * len(WAYS)} ways wrong")
    sys.exit(1 if wrong else 0)


if __name__ == "__main__":
    main()
