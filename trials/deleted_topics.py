#!/usr/bin/env python3
"""A start removes the files of deleted topics, and no others.

    trials/deleted_topics.py KBROKER

Two tenants fill topics whose files are small, and one deletes two of his. The broker is killed before it removed their files. `kbroker
check` then tells how many there are, and changes nothing. So does a start that is refused, since another file is damaged. A start that goes
on tells it too, removes them, and has all other topics as before; the next one finds none. But for that tenant's catalog, which it may
write anew, no other file changes. Files of a topic that an older catalog does not know stay, though they are agreed to. It prints what was
wrong.
"""

import os
import shutil
import subprocess
import sys
import tempfile
import time

from wire import Broker, Client, batch

MORE = "segment_bytes = 4096\nsync_ms = 60000"


def files(data):
    """The logs' files of a folder, with their bytes."""
    out = {}
    for name in os.listdir(data):
        if name.endswith(".seg"):
            with open(f"{data}/{name}", "rb") as it:
                out[name] = it.read()
    return out


def is_catalog(it):
    """Whether a file's bytes are of a tenant's catalog."""
    return it[6:8] == b"\0\1"


def of_topic(data, topic):
    """The names of a's files of the topic of a number, by their headers (docs/STORAGE.md)."""
    def is_of(head):
        return head[6:8] == b"\0\0" and int.from_bytes(head[16:24], "big") == topic and head[28:31] == b"\0\x01a"
    return sorted(name for name, it in files(data).items() if is_of(it[:64]))


def begun(program, room, *flags):
    """A broker that listens, or None, and what it said since."""
    broker = Broker(program, room, MORE, flags=flags)
    before = len(broker.log())
    return broker, broker.listens(), lambda: broker.log()[max(0, before - 1):]


def fill(client, topic, count):
    """Produces so many batches, of a file each."""
    return all(client.produce(topic, batch(b"x" * 3500))[0] == 0 for _ in range(count))


def made(program, room):
    """A folder with three topics of a, two of which are deleted, and one of b: the files that are to go."""
    broker, listens, _ = begun(program, room)
    ann, bob = Client(broker.port), Client(broker.port, b"bob", b"pw2")
    for topic in (b"first", b"kept", b"second"):
        ann.create(topic, retention_ms=-1)
        fill(ann, topic, 20)
    bob.create(b"his", retention_ms=-1)
    fill(bob, b"his", 5)
    names = of_topic(f"{room}/data", 0) + of_topic(f"{room}/data", 2)
    answers = (ann.delete(b"first"), ann.delete(b"second"))
    broker.stop()
    return names if listens and answers == (0, 0) else []


def checked(program, room):
    """What `kbroker check --data` says."""
    words = [program, "check", "--config", f"{room}/settings.toml", "--data", f"{room}/data"]
    return subprocess.run(words, capture_output=True, text=True, check=False).stdout


def refused(program, room, gone):
    """What is wrong with a start that a damaged file refuses."""
    name = of_topic(f"{room}/data", 1)[3]
    path = f"{room}/data/{name}"
    with open(path, "rb") as it:
        whole = it.read()
    with open(path, "wb") as it:
        it.write(whole[:150] + bytes([whole[150] ^ 1]) + whole[151:])
    broker, listens, _ = begun(program, room)
    broker.stop()
    wrong = []
    if listens:
        wrong.append("a start over damage goes on")
    if not gone <= set(files(f"{room}/data")):
        wrong.append("a start that was refused removed files")
    with open(path, "wb") as it:
        it.write(whole)
    return wrong


def removed(program, room):
    """What is wrong with the starts that go on."""
    data = f"{room}/data"
    gone = set(made(program, room))
    left = gone & set(files(data))
    if len(left) < 30:
        return [f"the trial says nothing: {len(gone)} files, {len(left)} of them left by the kill"]
    before = files(data)
    want = f"removes files of deleted topics: {len(left)}, of tenant a {len(left)}"
    wrong = [] if want in checked(program, room) else ["`check` does not tell of the files"]
    if files(data) != before:
        wrong.append("`check` changed the folder")
    wrong += refused(program, room, left)
    broker, listens, log = begun(program, room)
    if not listens:
        return [*wrong, f"a start is refused: {log()}"]
    until = time.monotonic() + 4
    while "start: " not in log() and time.monotonic() < until:
        time.sleep(0.05)
    if want not in log() or "stray files 0" not in log():
        wrong.append(f"the start does not tell it: {log()}")
    now = files(data)
    if set(now) & gone:
        wrong.append(f"{len(set(now) & gone)} files are still there")
    changed = [it for name, it in before.items() if name not in gone and now.get(name) != it]
    if not all(is_catalog(it) and it[28:31] == b"\0\x01a" for it in changed):
        wrong.append("another file is changed")
    ann, bob = Client(broker.port), Client(broker.port, b"bob", b"pw2")
    marks = [ann.fetch(b"kept", 0)[1], bob.fetch(b"his", 0)[1], ann.fetch(b"first", 0)[0], ann.create(b"first")]
    if marks != [20, 5, 3, 0]:
        wrong.append(f"the topics are other ones: {marks}")
    broker.stop()
    broker, listens, log = begun(program, room)
    broker.stop()
    if not listens or "removes files" in log():
        wrong.append(f"the next start finds some again: {log()}")
    return wrong


def older(program, room):
    """What is wrong where the catalog is older than a topic whose files are there."""
    data = f"{room}/data"
    broker, _, _ = begun(program, room)
    Client(broker.port).create(b"gone", retention_ms=-1)
    fill(Client(broker.port), b"gone", 3)
    Client(broker.port).delete(b"gone")
    broker.stop()
    shutil.copytree(data, f"{room}/older")
    broker, _, _ = begun(program, room)
    Client(broker.port).create(b"new", retention_ms=-1)
    fill(Client(broker.port), b"new", 3)
    names = of_topic(data, 1)
    broker.stop()
    for name in names:
        shutil.copy(f"{data}/{name}", f"{room}/older")
    shutil.rmtree(data)
    shutil.move(f"{room}/older", data)
    broker, listens, log = begun(program, room)
    broker.stop()
    wrong = [f"a start beside files of a later topic goes on: {log()}"] if listens else []
    broker, listens, log = begun(program, room, "--accept-strays")
    Client(broker.port).create(b"other")
    broker.stop()
    kept = {it.removesuffix(".0") for it in os.listdir(f"{data}/dropped-1")}
    if len(names) < 3 or not listens or kept != set(names) or kept & set(files(data)):
        wrong.append(f"files of a topic that the catalog does not know are not set aside: {log()}")
    return wrong


def main():
    program = os.path.abspath(sys.argv[1])
    wrong = []
    for trial in (removed, older):
        with tempfile.TemporaryDirectory() as room:
            wrong += [f"{trial.__name__}: {it}" for it in trial(program, room)]
    print("\n".join(wrong) or "0 things were wrong")
    return 1 if wrong else 0


if __name__ == "__main__":
    sys.exit(main())
