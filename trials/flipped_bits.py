#!/usr/bin/env python3
"""Flips single bits in the files of a small data folder, one at a time, and starts a broker on each.

    trials/flipped_bits.py KBROKER KCONSOLE [FLIPS]

Each start refuses and changes nothing, or all that was acknowledged is there. One thing more is allowed: the damaged batch itself is
gone where it was the last of its log, and the log tells the bytes that were dropped. It prints how often each was so. Nothing but
Python is needed.
"""

import os
import random
import shutil
import socket
import subprocess
import sys
import tempfile

SETTINGS = """host = "127.0.0.1"
connections = 64
port = {port}
data = "{folder}"
segment_bytes = 4096

[[user]]
name = "ann"
password = "pw1"
tenant = "a"
"""
ROUNDS, LINES = 12, 40


def free_port():
    """A port that nobody listens on."""
    with socket.socket() as probe:
        probe.bind(("127.0.0.1", 0))
        return probe.getsockname()[1]


class Place:
    """A folder with settings, and the programs."""

    def __init__(self, kbroker, kconsole, folder):
        self.kbroker, self.kconsole, self.folder = kbroker, kconsole, folder
        self.port = free_port()
        self.data = f"{folder}/data"
        self.settings = f"{folder}/settings.toml"
        with open(self.settings, "w", encoding="utf-8") as out:
            out.write(SETTINGS.format(port=self.port, folder=self.data))

    def start(self, *flags):
        """A broker that listens, or None and its status where it ends; and the file with what it told."""
        told = open(f"{self.folder}/told", "w+", encoding="utf-8")
        words = [self.kbroker, "serve", "--config", self.settings, "--stock-clients", *flags]
        broker = subprocess.Popen(words, stdout=subprocess.PIPE, stderr=told)
        if broker.stdout.readline().startswith(b"listening"):
            return broker, told
        broker.wait()
        return None, told

    def ask(self, word, topic, *flags, lines=None):
        """What the console answers for a topic."""
        words = [self.kconsole, word, "--broker", f"127.0.0.1:{self.port}", "--user", "ann", "--password", "pw1"]
        done = subprocess.run([*words, "--topic", topic, *flags], input=lines, capture_output=True, timeout=30)
        return done.returncode, done.stdout

    def produce(self, topic, numbers):
        """Sends lines, which are acknowledged."""
        text = "".join(f"{topic} line {n:06d}\n" for n in numbers).encode()
        status, _ = self.ask("produce", topic, "--create", "1", lines=text)
        if status != 0:
            sys.exit("lines were not acknowledged")
        return text


def contents(folder):
    """The bytes of each segment file of a folder."""
    found = {}
    for name in sorted(name for name in os.listdir(folder) if name.endswith(".seg")):
        with open(f"{folder}/{name}", "rb") as file:
            found[name] = file.read()
    return found


def stop(broker):
    broker.kill()
    broker.wait()


def fill(place):
    """Two topics with lines, and what was sent to each. The last batch of each has the last LINES lines."""
    broker, _ = place.start()
    if broker is None:
        sys.exit("the broker did not start")
    sent = {"t": b"", "u": b""}
    for number in range(ROUNDS):
        for topic in sent:
            sent[topic] += place.produce(topic, range(number * LINES, (number + 1) * LINES))
    stop(broker)
    return sent


def judge(place, sent, before):
    """What became of a start: 'refused', 'whole', 'told' or what went wrong."""
    broker, told = place.start()
    told.seek(0)
    text = told.read()
    if broker is None:
        if contents(place.data) != before:
            return "refused, but something was changed"
        if "has damage" in text or "do not fit" in text:
            return "refused"
        return f"ended without a reason: {text!r}"
    missing = 0
    for topic, all_lines in sent.items():
        _, got = place.ask("consume", topic)
        if got != all_lines:
            lost = all_lines[len(got):]
            if not all_lines.startswith(got) or lost.count(b"\n") > LINES or "dropped file" not in text:
                stop(broker)
                return f"of {topic} {len(got)} of {len(all_lines)} bytes are there, told: {text!r}"
            missing += 1
    stop(broker)
    return "told" if missing else "whole"


def place_in(size, number):
    """A place in a file: of three, one in its header or close behind, one in its last batch, and one anywhere."""
    if number % 3 == 0:
        return random.randrange(min(90, size))
    if number % 3 == 1:
        return random.randrange(max(0, size - 300), size)
    return random.randrange(size)


def main():
    kbroker, kconsole = (os.path.abspath(path) for path in sys.argv[1:3])
    flips = int(sys.argv[3]) if len(sys.argv) > 3 else 60
    random.seed(7)
    counts, bad = {"refused": 0, "whole": 0, "told": 0}, 0
    with tempfile.TemporaryDirectory() as folder:
        place = Place(kbroker, kconsole, folder)
        sent = fill(place)
        kept = contents(place.data)
        for number in range(flips):
            name = sorted(kept)[number % len(kept)]
            damaged = bytearray(kept[name])
            if not damaged:
                continue
            at = place_in(len(damaged), number)
            damaged[at] ^= 1 << random.randrange(8)
            shutil.rmtree(place.data)
            os.mkdir(place.data)
            for other, data in kept.items():
                with open(f"{place.data}/{other}", "wb") as out:
                    out.write(bytes(damaged) if other == name else data)
            outcome = judge(place, sent, contents(place.data))
            if outcome in counts:
                counts[outcome] += 1
            else:
                bad += 1
                print(f"{name} at {at} of {len(damaged)}: {outcome}")
    print(f"{len(kept)} files, {flips} flips: refused {counts['refused']}, nothing lost {counts['whole']}, "
          f"the damaged last batch told {counts['told']}, wrong {bad}")
    sys.exit(1 if bad else 0)


if __name__ == "__main__":
    main()
