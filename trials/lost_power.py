#!/usr/bin/env python3
"""What was acknowledged is there after a loss of power.

    trials/lost_power.py KBROKER [SEED [ROUNDS]]

A broker serves two tenants under strace (Debian: strace), which records each call on its folder and its sockets. Records are produced in
small files, topics made and deleted, records deleted and retained, offsets committed. Then folders are made that a loss of power may
leave at moments of the record: what was synced is there, and of all else any part (leftovers.py). A broker is started on each and
asked for all. It is given more, killed and started once more. Each round begins on a folder that a loss, or a kill, of the round before
left.

With `sync = "always"` what was acknowledged has to be there, with "interval" what was acknowledged before all was last synced. No start
may be refused, but for damage where there are gaps: where a write is lost and a later one of the same file is not, nothing tells what is
left from damage. Such a start is made once more with --drop-damaged, and then the same has to be there. With "never" what is lost is
counted, and nothing is asked. Moments and losses go by the seed, but the system's own timing does not.
"""

import copy
import os
import random
import sys
import tempfile
import time
from concurrent.futures import ThreadPoolExecutor
from typing import NamedTuple

import wire
from ledger import Bound, Found, Times, Worker, look, records_of
from leftovers import WAYS, Folder
from recorded import OTHERS, Recorded
from wire import Broker, Client

USERS = {b"a": (b"ann", b"pw1"), b"b": (b"bob", b"pw2")}
STEPS, MOMENTS, OPENINGS = 60, 40, 4
SYNC_MS = 50
# All is in memory where the system has a place for that: what a disk would lose is made from the record.
MEMORY = "/dev/shm" if os.path.isdir("/dev/shm") else None
MODES = {
    "always": 'segment_bytes = 4096\nsync = "always"',
    "interval": f'segment_bytes = 4096\nsync = "interval"\nsync_ms = {SYNC_MS}',
    "never": 'segment_bytes = 4096\nsync = "never"',
}


class State(NamedTuple):
    """A folder that a loss leaves, or a kill: how, its files, what has to be there of whom, and what is synced of it."""
    way: str
    files: dict
    bound: Bound
    workers: list
    folder: Folder


class Outcome(NamedTuple):
    """What became of a start on such a folder: what was wrong, and what it said where it was refused."""
    state: State
    wrong: list
    refusal: str


def fill(folder, files):
    """A folder with files, and with the room that a broker keeps, which takes none."""
    os.makedirs(folder)
    for name, data in files.items():
        with open(f"{folder}/{name}", "wb") as out:
            out.write(data)
    with open(f"{folder}/{OTHERS[0].decode()}", "wb") as out:
        out.truncate(4_194_304)


def connect(port):
    """A client of each tenant."""
    return {tenant: Client(port, *user) for tenant, user in USERS.items()}


# ---- A start on what is left


def give_more(client, found):
    """Makes a topic and gives each a record; what a tenant has then."""
    names = [*found, b"next", b"next", b"next"]
    values = [b"more %d" % number for number in range(len(names))]
    said = client.all([wire.create(b"next"), *(wire.produce(name, wire.batch(value)) for name, value in zip(names, values))])
    more = {name: Found(it.start, it.end, it.committed, dict(it.records)) for name, it in found.items()}
    more[b"next"] = Found(0, 0, -1, {})
    wrong = [f"the topic next is answered {said[0]}"] if said[0] else []
    for name, value, (code, offset) in zip(names, values, said[1:]):
        if code or offset != more[name].end:
            wrong.append(f"{name.decode()}: a record is answered {code}, {offset}")
        more[name].records[offset] = (value, 0)
        more[name].end = offset + 1
    return more, wrong


def changed(before, after):
    """What is not there any more of what a tenant had, though nothing was lost but the process."""
    wrong = [f"{name.decode()}: is there after a kill, or not" for name in before.keys() ^ after.keys()]
    for name in before.keys() & after.keys():
        old, new = before[name], after[name]
        had = {offset: value for offset, (value, _) in old.records.items() if offset >= new.start}
        has = {offset: value for offset, (value, _) in new.records.items() if offset >= new.start}
        is_short = name.endswith(b"short")
        if old.end != new.end or had != has or (new.start != old.start and not is_short) or old.committed != new.committed:
            wrong.append(f"{name.decode()}: after a kill it has {new.start} to {new.end}, it had {old.start} to {old.end}, or others")
    return wrong


def said(refusal):
    """What a refused start says at last, in short."""
    last = refusal.strip().rpartition("\n")[2]
    return (last.partition("data has ")[2] or last).partition(". Nothing")[0]


def is_by_need(state, refusal):
    """Whether the first start had to be refused: a whole batch stands behind a gap, and may be one that was synced."""
    return state.way == "gaps" and said(refusal).startswith("damage: ")


def asked(program, room, more, *flags, data=None):
    """A broker on a folder and a client of each tenant, or none where the start is refused."""
    broker = Broker(program, room, more, data=data, flags=flags)
    while not broker.listens():
        if broker.process.poll() is not None:
            return broker, None
    return broker, connect(broker.port)


def judge(program, more, state):
    """What becomes of starts on a folder that a loss left."""
    with tempfile.TemporaryDirectory(dir=MEMORY) as room:
        fill(f"{room}/data", state.files)
        broker, clients = asked(program, room, more)
        refusal = "" if clients else broker.log()
        try:
            if is_by_need(state, refusal):
                broker, clients = asked(program, room, more, "--drop-damaged")
            if clients is None:
                return Outcome(state, [], broker.log())
            wrong, given = [], {}
            for tenant, client in clients.items():
                found, number = look(client)
                for worker in state.workers:
                    if worker.tenant == tenant:
                        wrong += state.bound.wrong(worker, found, number)
                known = {name for worker in state.workers for name in worker.names()}
                wrong += [f"{name.decode()}: no such topic was made" for name in found.keys() - known]
                given[tenant], later = give_more(client, found)
                wrong += later
            broker.stop()
            broker, clients = asked(program, room, more)
            if clients is None:
                return Outcome(state, wrong, f"after a kill: {said(broker.log())}")
            for tenant, client in clients.items():
                wrong += changed(given[tenant], look(client)[0])
            return Outcome(state, wrong, refusal)
        finally:
            broker.stop()


# ---- A round


class Round:
    """A broker that is recorded under load, on a folder that may be a loss's."""

    def __init__(self, program, more, before, chance):
        self.before, self.chance = before, chance
        self.folder = before.folder if before else Folder({})
        with tempfile.TemporaryDirectory(dir=MEMORY) as room:
            fill(f"{room}/data", before.files if before else {})
            broker = Recorded(program, room, more)
            try:
                if not broker.listens():
                    raise SystemExit(f"the broker does not start: {broker.log()}")
                self.load(broker)
            finally:
                broker.stop()
            self.calls = broker.calls()
        self.times = Times(self.calls)
        self.begun = min((at for name, at in self.times.heard.items() if name >= self.first), default=len(self.calls))
        self.look()

    def load(self, broker):
        """Workers take what is there, and go on. Once they do nothing for a while, and at the end it is not waited for the replies."""
        tenants = connect(broker.port)
        have = {tenant: look(client) for tenant, client in tenants.items()}
        workers = [Worker(tenant, prefix) for tenant in USERS for prefix in (b"x-", b"y-")]
        self.workers = [it.found(*have[it.tenant]) for it in workers] if self.before else workers
        clients = [Client(broker.port, *USERS[it.tenant]) for it in self.workers]
        self.first = next(wire.Client.ids)
        for step in range(STEPS):
            sent = [worker.send(client, self.chance) for worker, client in zip(self.workers, clients)]
            if step < STEPS - 1:
                for worker, client, it in zip(self.workers, clients, sent):
                    worker.hear(client, it)
            time.sleep(0.005 if step != STEPS // 2 else 6 * SYNC_MS / 1000)

    def look(self):
        """How the calls went by: where all was synced last, what was not yet, and how long what was told was at risk."""
        folder, self.clean, self.open, self.early, self.risk = copy.deepcopy(self.folder), [], [], 0, 0.0
        last, since = 0, None
        for number, call in enumerate(self.calls):
            folder.do(call)
            is_clean = folder.is_clean()
            if call.what == "told":
                self.early += not is_clean
                since = since or (None if is_clean else call.when)
            if is_clean:
                self.risk = max(self.risk, call.when - since if since else 0)
                last, since = number + 1, None
            self.clean.append(last)
            self.open.append(folder.open())

    def moments(self):
        """Numbers of calls after which the power may be lost, more of them where more is not synced."""
        weights = [1 + 10 * it for it in self.open]
        picked = self.chance.choices(range(self.begun, len(weights)), weights[self.begun:], k=MOMENTS)
        if self.before and self.begun:
            picked += self.chance.choices(range(self.begun), weights[:self.begun], k=OPENINGS)
        return sorted(set(picked))

    def left(self, is_interval):
        """States that a loss may leave, two at each of some moments, and at last what a kill leaves."""
        folder, moments, states = copy.deepcopy(self.folder), self.moments(), []
        for number, call in enumerate(self.calls):
            folder.do(call)
            bound, workers = Bound(self.times, self.clean[number] if is_interval else number + 1, number + 1), self.workers
            if number < self.begun and self.before:
                bound, workers = self.before.bound, self.before.workers
            for way in self.chance.sample(WAYS[1:], 2) if number in moments else []:
                files = folder.left(way, self.chance)
                states.append(State(way, files, bound, workers, Folder(files)))
        return [*states, State(WAYS[0], folder.left(WAYS[0], self.chance), bound, workers, folder)]


def tell(mode, outcomes, rounds):
    """Prints what became of the states of a mode, and answers how many lost something, or were refused without need."""
    lost = [it for it in outcomes if it.wrong]
    gaps = [it for it in outcomes if it.state.way == "gaps"]
    refused = [it for it in outcomes if it.refusal and not is_by_need(it.state, it.refusal)]
    for it in lost[:6]:
        print(f"{mode}, {it.state.way}: {it.wrong[0]}")
    for it in refused[:6]:
        print(f"{mode}, {it.state.way}: refused: {said(it.refusal)}")
    told = sum(call.what == "told" for it in rounds for call in it.calls)
    print(f"{mode}: {len(lost)} of {len(outcomes)} states lost what was acknowledged, {len(refused)} starts refused, and "
          f"{sum(is_by_need(it.state, it.refusal) for it in gaps)} of {len(gaps)} for gaps; {sum(it.early for it in rounds)} of {told} replies before "
          f"a sync, the longest wait for it {max(it.risk for it in rounds) * 1000:.0f} ms")
    sys.stdout.flush()
    return len(lost) + len(refused)


def play(program, mode, more, seed, count):
    """Rounds with one mode; how many states were lost or refused."""
    chance, before, outcomes, rounds = random.Random(f"{seed} {mode}"), None, [], []
    with ThreadPoolExecutor(3) as pool:
        for _ in range(count):
            rounds.append(Round(program, more, before, chance))
            got = list(pool.map(lambda it: judge(program, more, it), rounds[-1].left(mode == "interval")))
            outcomes += got
            good = [it.state for it in got if not it.wrong and not it.refusal]
            before = chance.choice(good) if good and chance.random() < 0.7 else got[-1].state
    return tell(mode, outcomes, rounds)


def has_modes(program):
    """Whether the broker knows the key `sync`."""
    with tempfile.TemporaryDirectory(dir=MEMORY) as room:
        broker = Broker(program, room, MODES["always"])
        knows = broker.listens()
        broker.stop()
        return knows


def main(program, seed=1, rounds=6):
    if not has_modes(program):
        print("this broker has no key `sync`")
        return bool(play(program, "as it is", MODES["never"].partition("\n")[0], seed, rounds))
    bad = [play(program, mode, more, seed, rounds if mode == "always" else max(1, rounds // 2)) for mode, more in MODES.items()]
    return bool(bad[0] or bad[1])


if __name__ == "__main__":
    if not 2 <= len(sys.argv) <= 4:
        sys.exit(__doc__)
    sys.exit(main(os.path.abspath(sys.argv[1]), *(int(it) for it in sys.argv[2:])))
