#!/usr/bin/env python3
"""Who starts a broker, or asks for a topic, is told what is wrong and what to do.

    trials/why_not.py KBROKER

The standard settings are started with fewer open files than they take: the line names the number for `ulimit -n`, with which the next start
goes on. A start on a port that is in use leaves no new folder, and one that was there stays. `kbroker topic` says why there is no
connection, and which word the broker refused, and what it may be. It prints what was wrong.
"""

import os
import re
import resource
import subprocess
import sys
import tempfile

from wire import Broker, free_port


def limited(soft, hard):
    """Sets the limits of descriptors, in the process that becomes the program."""
    def before():
        resource.setrlimit(resource.RLIMIT_NOFILE, (soft, hard))
    return before


def started(program, soft, hard, more=""):
    """Whether a broker starts with these limits, and what it says."""
    with tempfile.TemporaryDirectory() as room:
        broker = Broker(program, room, more, limited(soft, hard))
        listens = broker.listens()
        broker.stop()
        return listens, broker.log()


def open_files(program):
    """What is wrong with what is said of too few open files."""
    wrong = []
    listens, log = started(program, 1024, 4096)
    said = re.search("open files: at most 1024, and 1024 connections take at least 1056: .*ulimit -n ([0-9]+).*LimitNOFILE=([0-9]+)", log)
    if listens or not said:
        return [f"with 1,024 of 4,096 open files: {listens} {log}"]
    listens, log = started(program, int(said[1]), 4096)
    if not listens or "open files" in log or said[1] != said[2]:
        wrong.append(f"with what it asked for: {listens} {log}")
    listens, log = started(program, 1024, 1100)
    if listens or "ulimit -n 1100" not in log:
        wrong.append(f"with a hard limit that is enough to start: {listens} {log}")
    listens, log = started(program, 1024, 1024)
    if listens or "hard limit is 1024" not in log or "LimitNOFILE=1296" not in log or "ulimit" in log:
        wrong.append(f"with a hard limit of 1,024: {listens} {log}")
    listens, log = started(program, 1024, 4096, "connections = 900")
    if not listens or "ulimit -n 1172" not in log:
        wrong.append(f"with enough to start: {listens} {log}")
    return wrong


def port_in_use(program):
    """What is wrong with what a start leaves that cannot listen."""
    wrong = []
    with tempfile.TemporaryDirectory() as room:
        broker = Broker(program, room)
        broker.listens()
        os.mkdir(f"{room}/there")
        for name, stays in (("new", False), ("there", True)):
            settings = f"{room}/{name}.toml"
            with open(broker.settings, encoding="utf-8") as it:
                text = it.read().replace(f"{room}/data", f"{room}/{name}")
            with open(settings, "w", encoding="utf-8") as out:
                out.write(text)
            ran = subprocess.run([program, "serve", "--config", settings], capture_output=True, text=True, check=False)
            if ran.returncode != 1 or "cannot listen" not in ran.stderr or os.path.exists(f"{room}/{name}") != stays:
                wrong.append(f"the folder {name}: {ran} {os.path.exists(f'{room}/{name}')}")
        broker.stop()
    return wrong


def topics(program):
    """What is wrong with what `kbroker topic` says."""
    wrong = []
    with tempfile.TemporaryDirectory() as room:
        broker = Broker(program, room)
        broker.listens()

        def said(*words, port=broker.port, host="127.0.0.1"):
            words = [program, "topic", *words, "--broker", f"{host}:{port}", "--user", "ann", "--password", "pw1"]
            return subprocess.run(words, capture_output=True, text=True, check=False).stderr

        for words, want in [
            (["create", "t", "--partitions", "0"], "INVALID_PARTITIONS: --partitions 0: a topic has 1 to 64 partitions"),
            (["create", "t", "--partitions", "65"], "INVALID_PARTITIONS: --partitions 65: a topic has 1 to 64 partitions"),
            (["create", "t", "--config", "retention.bytes=7", "--config", "retention.ms=soon"], "INVALID_CONFIG: --config retention.ms=soon: it is"),
            (["create", "t", "--config", "retention.ms=7", "--config", "retention.ms=8"], "--config retention.ms=8: it is given twice"),
            (["create", "t", "--config", "compression.type=zstd"], "the settings of a topic are retention.ms, retention.bytes and cleanup.policy"),
            (["create", "t/"], "INVALID_TOPIC_EXCEPTION: a name has 1 to 249"),
            (["create", "t"], ""),
            (["create", "t"], "TOPIC_ALREADY_EXISTS"),
        ]:
            if want not in (text := said(*words)) or not want and text:
                wrong.append(f"{words}: {text!r}")
        for words, want in [
            ({"port": free_port()}, "connection refused"),
            ({"host": "no.such.host.invalid"}, "no.such.host.invalid"),
            ({"port": "many"}, "it is no HOST:PORT"),
        ]:
            text = said("list", **words)
            if "cannot connect to " not in text or want not in text:
                wrong.append(f"{words}: {text!r}")
        broker.stop()
    return wrong


def main(program):
    program = os.path.abspath(program)
    wrong = open_files(program) + port_in_use(program) + topics(program)
    print("\n".join(wrong) or "0 things were wrong")
    return 1 if wrong else 0


if __name__ == "__main__":
    sys.exit(main(sys.argv[1]))
