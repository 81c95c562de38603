#!/usr/bin/env python3
"""The commands of README.md, docs/OPERATING.md, docs/CLIENTS.md and docs/FLEET.md do what stands beside them, in a fresh clone.

    trials/documents.py KBROKER KCONSOLE

Each block of commands (```sh) is run as it stands, by bash, at the top of a clone of this repository, where both programs lie as the build
leaves them, with 1,024 open files, as a shell mostly has. What has to be said is in SAID, by a piece of the command. A block that is not run
is in LEFT, with the reason; one that is in neither is wrong. It needs kcat, python3-confluent-kafka and ports 9092 and 19092, and takes two
minutes; where there is Go it needs Debian's sarama. As root it runs where no other process is seen, so that `pidof kbroker` finds the one that it started.
"""

import os
import re
import resource
import shutil
import signal
import subprocess
import sys
import tempfile
import time

TOP = os.path.join(os.path.dirname(os.path.realpath(__file__)), "..")
DOCUMENTS = ["README.md", "docs/OPERATING.md", "docs/CLIENTS.md", "docs/FLEET.md"]
BLOCK = re.compile(r"```sh\n(.*?)```", re.S)
# Blocks that are not run here, by a piece of them, and why.
LEFT = {
    "apt-get install /tmp/kbroker": "installs: packaging/try does it",
    "systemctl enable": "needs systemd",
    "adduser --system": "makes a user: packaging/try does it",
    "--broker HOST:PORT": "how a command line looks",
    "examples/copy.py": "needs a second broker",
    "tenant export --data /var/lib": "needs the folders of two machines: `trials/moved_tenant.py` does it",
}
# Lines that are not run in blocks that are, by a piece of them: builds whose programs are here already, and what asks for a person.
BUILDS = ("gate/unproved", "gate/build", "apt-get install", "examples/try_clients.sh", "-G grp")
# What a command has to say, by a piece of it.
SAID = {
    "k produce --create 1": ["3 sent"],
    "--from 1 --follow": ["two", "three"],
    "k consume ": ["one", "two", "three"],
    "topic list --broker localhost:9092": ["orders"],
    "kc -L": ["broker 0", 'topic "orders"'],
    "kc -C -t orders": ["one", "two", "three", "four"],
    "kcat -F examples/kcat.conf -C": ["hello"],
    "check --data backup-1": ["a start goes on", "ok"],
    "k -C -t orders -o -2": ["k1 one", "k2 two"],
    "k -Q -t orders:0:0": ["orders [0] offset"],
    "-t nothere": ["Unknown topic or partition"],
    "-z gzip": ["does not support compression type"],
    "go run": ["0 one", "1 two", "2 three"],
}
SERVES = re.compile(r"\bserve\b")


def blocks():
    """The blocks of each document, with its name."""
    for name in DOCUMENTS:
        with open(os.path.join(TOP, name), encoding="utf-8") as text:
            for block in BLOCK.findall(text.read()):
                yield name, block


def commands(block):
    """The commands of a block: its lines, where those that end with a backslash go on. In a transcript they stand behind `$ `."""
    joined = block.replace("\\\n", " ")
    lines = [it.strip() for it in joined.split("\n") if it.strip()]
    if any(it.startswith("$ ") for it in lines):
        return [it[2:] for it in lines if it.startswith("$ ")]
    return lines


def wanted_of(line):
    """What a line has to say."""
    return next((wanted for piece, wanted in SAID.items() if piece in line), [])


class Session:
    """A clone, and the names and brokers that its commands made so far."""

    def __init__(self, place, kbroker, kconsole):
        self.clone = os.path.join(place, "clone")
        subprocess.run(["git", "clone", "-q", TOP, self.clone], check=True)
        bin = os.path.join(place, "bin")
        os.makedirs(bin)
        for name, program in (("kbroker", kbroker), ("kconsole", kconsole)):
            out = os.path.join(self.clone, "crates", name, "out")
            os.makedirs(out)
            for target in (f"{out}/{name}", f"{out}/{name}-unproved", f"{bin}/{name}"):
                shutil.copy(program, target)
        # Debian's clients are for Debian's Python.
        self.environment = {**os.environ, "PATH": f"{bin}:/usr/bin:{os.environ['PATH']}"}
        self.defined = []
        self.broker = None

    def stop(self):
        """Ends the broker that runs, if there is one."""
        if self.broker:
            self.broker.send_signal(signal.SIGINT)
            self.broker.wait()
            self.broker = None

    def serve(self, words):
        """Starts a broker in place of the one that runs; what was wrong with it, or nothing."""
        self.stop()
        self.broker = subprocess.Popen(words, cwd=self.clone, env=self.environment, stdout=subprocess.DEVNULL, stderr=subprocess.DEVNULL)
        time.sleep(2)
        return "it ended" if self.broker.poll() is not None else ""

    def begin(self):
        """A document begins: nothing is kept, and the broker of the first session runs."""
        self.stop()
        self.defined = []
        shutil.rmtree(os.path.join(self.clone, "kbroker-data"), ignore_errors=True)
        self.serve(["kbroker", "serve", "--config", "examples/kbroker.toml", "--stock-clients"])

    def run(self, line):
        """Runs a command, and answers what was wrong with it, or nothing."""
        bare = line.split("  #")[0].split(" & sleep")[0].rstrip()
        if SERVES.search(bare):
            return self.serve(bare.split())
        if re.match(r"(alias \w+=|\w+\(\) \{)", bare):
            self.defined.append(bare)
            return ""
        wanted = wanted_of(line)
        script = "shopt -s expand_aliases\n" + "\n".join(self.defined) + "\n" + bare + "\n"
        timeout = "5" if "--follow" in bare else "120"
        ran = subprocess.run(
            ["timeout", timeout, "bash", "-c", script], cwd=self.clone, env=self.environment, stdout=subprocess.PIPE, stderr=subprocess.STDOUT, text=True
        )
        if not all(it in ran.stdout for it in wanted):
            return f"it said {ran.stdout[:300]!r}"
        if ran.returncode != 0 and not wanted:
            return f"status {ran.returncode}: {ran.stdout[:300]!r}"
        return ""


def play(session, name, block):
    """Runs a block, and answers how many of its commands were run, and the lines that tell what was wrong."""
    reason = next((why for piece, why in LEFT.items() if piece in block), None)
    if reason:
        print(f"{name}: not run ({reason}): {block.strip().splitlines()[0][:80]}")
        return 0, []
    wrong, count = [], 0
    for line in commands(block):
        if any(it in line for it in BUILDS) or line.startswith("#"):
            continue
        if "go run" in line and not shutil.which("go"):
            print(f"{name}: not run (there is no Go): {line[:80]}")
            continue
        fault = session.run(line)
        count += 1
        if fault:
            wrong.append(f"{name}: {line}: {fault}")
    return count, wrong


def go_apart():
    """Begins the script anew in a namespace of processes of its own, where it may."""
    if os.geteuid() == 0 and "APART" not in os.environ:
        os.environ["APART"] = "1"
        os.execvp("unshare", ["unshare", "--pid", "--fork", "--kill-child", "--mount-proc", sys.executable, *sys.argv])


def main(kbroker, kconsole):
    wrong, count = [], 0
    resource.setrlimit(resource.RLIMIT_NOFILE, (1024, resource.getrlimit(resource.RLIMIT_NOFILE)[1]))
    with tempfile.TemporaryDirectory() as place:
        session = Session(place, os.path.realpath(kbroker), os.path.realpath(kconsole))
        document = None
        for name, block in blocks():
            if name != document:
                session.begin()
                document = name
            done, faults = play(session, name, block)
            count += done
            wrong += faults
        session.stop()
    for line in wrong:
        print("WRONG", line)
    print(f"{len(wrong)} of {count} commands are wrong")
    return 1 if wrong else 0


if __name__ == "__main__":
    if len(sys.argv) != 3:
        sys.exit(__doc__)
    go_apart()
    sys.exit(main(*sys.argv[1:]))
