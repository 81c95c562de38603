#!/usr/bin/env python3
"""A broker whose disk refuses a sync answers nothing more, and ends.

    trials/refused_sync.py KBROKER

It runs under strace (Debian: strace), which refuses each fdatasync, or each fsync, from some number on (EIO). It serves clients that
produce, make and delete topics. That is done for a dozen numbers with `sync = "always"`, and for some with "interval". With "always" no
reply goes out behind the refused sync. The process ends with a line `cannot sync PATH: CAUSE`, or at a start `store fault: PATH: CAUSE`,
and a status that is not 0. What was acknowledged is there when a broker is started again, on what a disk that lost what was not synced
may have. It prints how many of the runs went otherwise.
"""

import os
import random
import subprocess
import sys
import tempfile
from collections import Counter

from ledger import Bound, Refused, Times, Worker
from leftovers import Folder
from lost_power import MODES, USERS, State, fill, has_modes, judge, said
from recorded import Recorded
from wire import Broker, Client

STEPS = 12
RUNS = {"always": 12, "interval": 4}
# (strace counts each call by itself)
REFUSED = "inject={}:error=EIO:when={}+"


def work(broker, chance, steps):
    """Workers that go on until nobody answers or a request is refused, or for so many steps."""
    workers = [Worker(tenant, b"x-") for tenant in USERS]
    try:
        clients = [Client(broker.port, *USERS[it.tenant]) for it in workers]
        for _ in range(steps):
            sent = [it.send(client, chance) for it, client in zip(workers, clients)]
            for worker, client, it in zip(workers, clients, sent):
                worker.hear(client, it)
    except (OSError, Refused):
        pass
    return workers


def ended(broker):
    """The status with which the process ended by itself, or None."""
    try:
        return broker.process.wait(5)
    except subprocess.TimeoutExpired:
        return None


def recorded(program, mode, inject, chance):
    """A broker with some of its syncs refused: its calls, its workers, and the status and the words with which it ended."""
    with tempfile.TemporaryDirectory() as room:
        fill(f"{room}/data", {})
        broker = Recorded(program, room, MODES[mode], inject)
        workers = work(broker, chance, 3 * STEPS if inject else STEPS) if broker.listens() else []
        status = ended(broker) if inject else None
        broker.stop()
        return broker.calls(), workers, status, broker.log()


def wrong_of(program, mode, name, number, chance):
    """What is wrong in a run whose calls of that name are refused from a number on."""
    calls, workers, status, log = recorded(program, mode, ["-e", REFUSED.format(name, number)], chance)
    # (a folder above the data folder may refuse its sync: a file system that syncs no folders does)
    refused = [at for at, call in enumerate(calls) if call.what == "refused" and call.name is not None]
    if not refused:
        return ["no sync was asked for"]
    wrong = []
    told = sum(call.what == "told" for call in calls[refused[0]:])
    if mode == "always" and told:
        wrong.append(f"{told} replies behind the refused sync")
    if len(refused) > 1:
        wrong.append(f"{len(refused)} syncs were asked for again")
    if not status or status < 0:
        wrong.append(f"the status is {status}")
    if not ("cannot sync" in log or "store fault" in log) or "os error 5" not in log:
        wrong.append(f"it said {log[-200:]!r}")
    folder, least = Folder({}), 0
    for at, call in enumerate(calls):
        folder.do(call)
        least = at + 1 if mode == "always" or folder.is_clean() else least
    for way in ("none", "front"):
        state = State(way, folder.left(way, chance), Bound(Times(calls), least, len(calls)), workers, folder)
        outcome = judge(program, MODES[mode], state)
        wrong += outcome.wrong[:2] + ([f"the next start, {way}, is refused: {said(outcome.refusal)}"] if outcome.refusal else [])
    return wrong


def main(program):
    if not has_modes(program):
        print("this broker has no key `sync`: no sync is asked for that could be refused")
        return 1
    bad = tried = 0
    for mode, runs in RUNS.items():
        calls = recorded(program, mode, (), random.Random(0))[0]
        counts = Counter(call.data for call in calls if call.what.startswith("sync"))
        numbers = {(name, 1 + run * count // (runs // len(counts))) for name, count in counts.items() for run in range(runs // len(counts))}
        for name, number in sorted(numbers):
            wrong = wrong_of(program, mode, name, number, random.Random(number))
            tried, bad = tried + 1, bad + bool(wrong)
            for it in wrong:
                print(f"{mode}, {name} {number} of {counts[name]}: {it}")
    print(f"{bad} of {tried} refused syncs went otherwise")
    return 1 if bad else 0


if __name__ == "__main__":
    if len(sys.argv) != 2:
        sys.exit(__doc__)
    sys.exit(main(os.path.abspath(sys.argv[1])))
