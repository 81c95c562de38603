#!/usr/bin/env python3
"""What was acknowledged is there after a loss of power at each moment of short runs, whichever of the calls that were not synced it took.

    trials/every_subset.py KBROKER

A broker with `sync = "always"` serves two tenants under strace (Debian: strace). In a few steps clients make and delete topics, produce,
delete records and commit. It is stopped while they send, so that it reads all of a step in one turn. Then it is killed, and a further run
begins on what is left. Two more begin on what a loss of power leaves: one where writes are there in part, one where a file is back that
was removed.

At each call of a run every folder is made that a loss of power may leave then (leftovers.py). Of the calls that were not synced each one
is there or not, or in part: a write with nothing, zeros or other bytes behind, or zeros in its place. Where that is over 2,048 ways, at
most so many calls are in part at once as make fewer. Where to be there or not is over 2,048 ways, it is all in which few are not there,
or few are. A broker is started on each folder, and on none twice. What was acknowledged by then has to be there, and no start may be
refused, but for damage where there are gaps: such a start is made once more with --drop-damaged (lost_power.py).
"""

import copy
import hashlib
import itertools
import math
import os
import random
import signal
import struct
import sys
import tempfile
import time

import ledger
import wire
from ledger import Bound, Times, Worker, look
from leftovers import Folder, written
from lost_power import MEMORY, MODES, USERS, asked, fill, said
from recorded import Recorded

# In so many ways at most the calls of a moment are left.
MOST = 2048
# A write in part has one of so many lengths, where no other call is not synced, and otherwise.
LENGTHS, FEWER = 40, 3
# To so many bytes topics with a limit are retained.
ledger.LIMIT = 1800


# ---- What a loss may leave


def forms(new, lengths):
    """A write, or a cut, that is not synced, as it may be there: not at all (None) first, and whole (a cut: "") last."""
    if new is None:
        return [None, b""]
    sizes = sorted({1 + (len(new) - 2) * number // (lengths - 1) for number in range(lengths)})
    half, rest = new[:len(new) // 2], random.Random(len(new)).randbytes(len(new))
    return [None, *(new[:size] for size in sizes), bytes(len(new)), half + bytes(len(new) - len(half)), half + rest, new]


def in_part(sizes, count):
    """The ways in which so many calls are neither first nor last of their forms, and each other one is the one or the other."""
    ends = [(0, size - 1) for size in sizes]
    for places in itertools.combinations(range(len(sizes)), count):
        yield from itertools.product(*(range(1, size - 1) if at in places else ends[at] for at, size in enumerate(sizes)))


def near(sizes, count):
    """The ways in which all calls but so many are the last of their forms, or the first."""
    for end in (0, 1):
        for places in itertools.combinations(range(len(sizes)), count):
            yield from itertools.product(*((end * (size - 1),) if at not in places else
                                           (it for it in range(size) if it != end * (size - 1)) for at, size in enumerate(sizes)))


def ways(sizes):
    """Of each call one of so many forms, in as many ways as may be; how many are in part at most, or fail; and whether these are all."""
    if math.prod(sizes) <= MOST:
        return list(itertools.product(*(range(size) for size in sizes))), True
    pick = in_part if 2 ** len(sizes) <= MOST else near
    found = []
    for count in range(len(sizes)):
        further = list(itertools.islice(pick(sizes, count), MOST + 1))
        if len(found) + len(further) > MOST:
            break
        found += further
    return found, False


def is_snapshot(data):
    """Whether a file begins with the header of a catalog that was written anew."""
    kind, size = struct.unpack_from(">h", data, 6)[0], struct.unpack_from(">h", data, 28)[0]
    return kind == 1 and struct.unpack_from(">q", data, 30 + size)[0] > 0


class Front:
    """A folder after some calls: what may be left of it."""

    def __init__(self, folder):
        self.folder, self.names, self.files = folder, {}, {}
        self.sizes = sizes = []
        for name in sorted({name for name, _ in folder.renamed}):
            choices = [folder.named.get(name), *(file for it, file in folder.renamed if it == name)]
            self.names[name] = len(sizes), choices
            sizes.append(len(choices))
        known = {id(it): it for it in [*folder.named.values(), *(file for _, file in folder.renamed if file)]}
        self.count = len(sizes) + sum(len(it.changes) for it in known.values())
        for key, file in known.items():
            choices = [forms(new, LENGTHS if self.count == 1 else FEWER) for _, new in file.changes]
            self.files[key] = len(sizes), choices
            sizes += [len(it) for it in choices]
        self.ways, self.has_all = ways(sizes)

    def file(self, file, way):
        """What is left of a file, and whether there are gaps: a write is not whole before another one that is. What is missing of a
        snapshot that was not finished is no gap, but for its first write."""
        data, (at, choices) = file.synced, self.files[id(file)]
        picked = [(place, new, it[form], form == len(it) - 1) for (place, new), it, form in zip(file.changes, choices, way[at:])]
        for place, new, part, _ in picked:
            if part is not None:
                data = written(data, place, None if new is None else part)
        # (the last byte of a batch may be 0, and so be there where it is missing before others)
        whole = [is_last or data[place:place + len(new)] == new for place, new, _, is_last in picked if new is not None]
        if False not in whole or True not in whole[whole.index(False):]:
            return data, False
        return data, bool(file.synced) or not (whole[0] and is_snapshot(file.now))

    def left(self):
        """Each folder that may be left: its files, whether there are gaps, and how many calls are in part."""
        for way in self.ways:
            found, gaps = {}, False
            for name in sorted({*self.folder.named, *self.names}):
                at, choices = self.names.get(name, (None, None))
                file = self.folder.named[name] if choices is None else choices[way[at]]
                if file is not None:
                    found[name], gap = self.file(file, way)
                    gaps |= gap
            yield found, gaps, sum(0 < form < size - 1 for form, size in zip(way, self.sizes))


# ---- What is asked


def produce(worker, name, size):
    """A record of a size."""
    life = worker.alive(name)
    value = b"%s %d %d " % (name, life.number, len(life.records)) + b"x" * size
    sent = wire.batch(value, 1_000_000)
    return wire.produce(name, sent), lambda number: life.records.append((number, value, len(sent)))


def twice(worker, name, size):
    """Two such records that are the same, so that it does not matter which is written first."""
    return [produce(worker, name, size)] * 2


def drop(worker, name, to):
    """The records below an offset go."""
    return wire.delete_records(name, to), lambda number: worker.alive(name).starts.append((number, to))


def commit(worker, name, offset):
    """An offset of the group."""
    return wire.commit(ledger.GROUP, name, b"m", offset), lambda number: worker.alive(name).commits.append((number, offset))


def issue(worker):
    """A producer id."""
    return wire.producer_id(), lambda number: worker.ids.append([number, None])


def first_steps(x, y, z):
    """What is asked on an empty folder in steps, by each of four connections. The last one is of the first one's topics, too."""
    keep, _, _, gone, other, _ = x.names()
    short, mine = y.names()[1], z.names()[0]
    yield [x.toggle(keep), x.toggle(gone)], [y.toggle(short)], [z.toggle(mine)], []
    yield [produce(x, keep, 600)], [produce(y, short, 700)], [produce(z, mine, 900)], []
    yield [produce(x, keep, 300)], [produce(y, short, 700)], [commit(z, mine, 1)], []
    one, two = twice(x, keep, 90)
    yield [one, issue(x)], [produce(y, short, 700)], [produce(z, mine, 100)], [two]
    yield [x.toggle(gone)], [produce(y, short, 700)], [produce(z, mine, 2500)], []
    yield [produce(x, keep, 3000)], [commit(y, short, 2)], [produce(z, mine, 3000)], [produce(x, keep, 50)]
    yield [commit(x, keep, 2)], [produce(y, short, 900)], [drop(z, mine, 2)], []
    yield [drop(x, keep, 3), x.toggle(other)], [issue(y)], [produce(z, mine, 20)], []
    yield [produce(x, other, 10), x.toggle(other)], [produce(y, short, 3000)], [z.toggle(mine)], []


def more_steps(x, y, z):
    """What is asked where all of that was left."""
    keep, _, cut, _, _, gone = x.names()
    short, mine = y.names()[1], z.names()[2]
    one, two = twice(x, keep, 500)
    yield [one], [produce(y, short, 700)], [z.toggle(mine)], [two]
    yield [commit(x, keep, 4), x.toggle(gone)], [produce(y, short, 400)], [produce(z, mine, 3500)], [x.toggle(cut)]
    yield [produce(x, gone, 30)], [issue(y)], [produce(z, mine, 800)], [produce(x, cut, 30)]
    one, two = twice(x, cut, 60)
    yield [one], [produce(y, short, 700)], [drop(z, mine, 1)], [two]
    yield [drop(x, keep, 7)], [y.toggle(short)], [produce(z, mine, 10), commit(z, mine, 2)], [x.toggle(cut)]


def any_steps(*workers):
    """What is asked whatever was left: each worker's first topic gets a record, or is made."""
    for size in (300, 3900):
        yield [[produce(it, name, size)] if it.alive(name) else [it.toggle(name)] for it in workers for name in it.names()[:1]]


# ---- A run


class Run:
    """A broker that is recorded in some steps, on files that were left, with what had to be there of whom."""

    def __init__(self, program, steps, files, before=None):
        self.before, self.start = before, Folder(files)
        with tempfile.TemporaryDirectory(dir=MEMORY) as room:
            fill(f"{room}/data", files)
            broker = Recorded(program, room, MODES["always"])
            try:
                if not broker.listens():
                    raise SystemExit(f"the broker does not start: {broker.log()}")
                self.load(broker, steps)
            finally:
                broker.stop()
            self.calls = broker.calls()
        self.times = Times(self.calls)
        self.begun = min(at for name, at in self.times.heard.items() if name >= self.first)

    def load(self, broker, steps):
        """All that is asked in a step is there before the broker reads any of it."""
        whose = [(b"a", b"x-"), (b"a", b"y-"), (b"b", b"x-")]
        clients = [wire.Client(broker.port, *USERS[tenant]) for tenant, _ in [*whose, whose[0]]]
        have = {tenant: look(clients[number]) for number, (tenant, _) in enumerate(whose) if number != 1}
        self.workers = [Worker(*it).found(*have[it[0]]) for it in whose]
        self.first = next(wire.Client.ids)
        for step in steps(*self.workers):
            halt(broker.process.pid)
            sent = []
            for worker, client, deeds in zip([*self.workers, self.workers[0]], clients, step):
                start = next(wire.Client.ids) + 1
                for number, (_, note) in enumerate(deeds, start):
                    note(number)
                sent.append((worker, client, (start, [form for form, _ in deeds])))
                client.send(sent[-1][2][1])
            os.kill(broker.process.pid, signal.SIGCONT)
            for worker, client, it in sent:
                worker.hear(client, it)
            time.sleep(0.02)

    def fronts(self):
        """After each call that changes anything: the front, and what has to be there of whom."""
        folder, front = copy.deepcopy(self.start), None
        for number, call in enumerate(self.calls):
            folder.do(call)
            if call.what in ("heard", "refused"):
                continue
            if front is None or call.what != "told":
                front = Front(copy.deepcopy(folder))
            is_before = number < self.begun and self.before
            yield front, *(self.before if is_before else (Bound(self.times, number + 1, number + 1), self.workers))

    def end(self):
        """What a kill leaves, with what has to be there of whom."""
        folder, count = copy.deepcopy(self.start), len(self.calls)
        for call in self.calls:
            folder.do(call)
        return {name: it.now for name, it in folder.now.items()}, (Bound(self.times, count, count), self.workers)


def halt(process):
    """Stops a process, and waits until it stands."""
    os.kill(process, signal.SIGSTOP)
    for _ in range(400):
        with open(f"/proc/{process}/stat", encoding="ascii") as it:
            if it.read().rpartition(") ")[2][0] in "Tt":
                return
        time.sleep(0.005)
    raise SystemExit("the broker does not stop")


# ---- What starts make of it


class Judge:
    """What became of starts on the folders that were left. None is opened twice."""

    def __init__(self, program):
        self.program, self.opened = program, {}
        self.lost, self.refused, self.for_gaps, self.judged = [], [], 0, 0

    def open(self, files, *flags):
        """What a start says that is refused, or what each tenant has."""
        key = hashlib.sha256(repr((sorted(files.items()), flags)).encode()).digest()
        if key not in self.opened:
            with tempfile.TemporaryDirectory(dir=MEMORY) as room:
                fill(f"{room}/data", files)
                broker, clients = asked(self.program, room, MODES["always"], *flags)
                try:
                    self.opened[key] = broker.log() if clients is None else {tenant: look(it) for tenant, it in clients.items()}
                finally:
                    broker.stop()
        return self.opened[key]

    def judge(self, files, gaps, bound, workers):
        """Looks at what is there of a folder that was left, and whether what had to be there is."""
        found = self.open(files)
        self.judged += 1
        if gaps and isinstance(found, str) and said(found).startswith("damage: "):
            self.for_gaps += 1
            found = self.open(files, "--drop-damaged")
        if isinstance(found, str):
            self.refused.append((said(found), files))
            return False
        known = {name for it in workers for name in it.names()}
        wrong = [f"{it.decode()}: no such topic was made" for has, _ in found.values() for it in has.keys() - known]
        wrong += [it for worker in workers for it in bound.wrong(worker, *found[worker.tenant])]
        if wrong:
            self.lost.append((wrong[0], files))
        return not wrong

    def keep(self):
        """Tells the first folders that were wrong, which are kept."""
        for what, rows in (("lost", self.lost), ("refused", self.refused)):
            for said_of, files in rows[:3]:
                folder = tempfile.mkdtemp(prefix="every_subset-")
                fill(f"{folder}/data", files)
                print(f"{what}: {said_of}; the folder is {folder}/data")


class Whole:
    """How all went, over the runs."""

    def __init__(self, program):
        self.program, self.judge = program, Judge(program)
        self.calls, self.moments, self.at_once, self.not_all = 0, 0, 0, 0

    def play(self, steps, files, before=None):
        """A run. What a kill leaves of it; what a loss does with the most calls in part; and with a file that was removed."""
        run, torn, back, most = Run(self.program, steps, files, before), None, None, 0
        self.calls += sum(it.what not in ("heard", "told") for it in run.calls)
        for front, *bound in run.fronts():
            self.moments += 1
            self.at_once = max(self.at_once, front.count)
            self.not_all += not front.has_all
            for left, gaps, parts in front.left():
                if not self.judge.judge(left, gaps, *bound) or gaps:
                    continue
                if parts > most:
                    torn, most = (left, bound), parts
                if left.keys() - front.folder.now.keys():
                    back = left, bound
        return run.end(), torn, back

    def tell(self):
        """Prints the figures, and answers whether something was wrong."""
        it = self.judge
        it.keep()
        print(f"{len(it.lost)} of {it.judged} states lost what was acknowledged, {len(it.refused)} were refused without need, "
              f"{it.for_gaps} for gaps; {len(it.opened)} starts, {self.calls} calls, {self.moments} moments; at most {self.at_once} calls "
              f"were not synced at once, at {self.not_all} moments not all ways were made")
        return bool(it.lost or it.refused)


def main(program):
    whole = Whole(program)
    killed, *_ = whole.play(first_steps, {})
    _, torn, back = whole.play(more_steps, *killed)
    whole.play(any_steps, *torn)
    whole.play(any_steps, *back)
    return whole.tell()


if __name__ == "__main__":
    if len(sys.argv) != 2:
        sys.exit(__doc__)
    sys.exit(main(os.path.abspath(sys.argv[1])))
