#!/usr/bin/env python3
"""What was acknowledged is there after a loss of power, on ext4.

    trials/ext4_images.py KBROKER [SEED [MOMENTS]]

A broker serves two tenants from an ext4 on a loop device, whose disk tells each write and each flush (disk.py). It needs root, FUSE and
mkfs.ext4 (Debian: e2fsprogs). At fifty moments under load images of the disk are made as a loss of power may leave them: with nothing
that was written since the last flush, with half of its sectors, and with all of them. Each image is mounted, so that ext4 replays its
journal, and a broker is started on it. With `sync = "always"` what was answered by then has to be there, and no start may be refused.
That is done with blocks of 4,096 bytes and of 1,024, and with data that ext4 does not order. With "never" what is lost is counted, and
nothing is asked. Moments and losses go by the seed, but the system's own timing does not.
"""

import os
import random
import struct
import subprocess
import sys
import tempfile

import wire
from disk import Disk, Loss, mount, unmount
from ledger import Bound, Times, Worker, look
from lost_power import MEMORY, MODES, USERS, asked, connect, said

SIZE, STEPS = 32 << 20, 120
PARTS = (0, 0.5, 1)
# How the file system is made and mounted, and how the broker syncs.
KINDS = {
    "blocks of 4096": (("-b", "4096"), "loop", "always"),
    "blocks of 1024": (("-b", "1024"), "loop", "always"),
    "data=writeback": (("-b", "4096"), "loop,data=writeback", "always"),
    'sync = "never"': (("-b", "4096"), "loop", "never"),
}


def empty(room, words):
    """The bytes of an ext4 without files."""
    path = f"{room}/empty"
    with open(path, "wb") as it:
        it.truncate(SIZE)
    lazy = "lazy_itable_init=0,lazy_journal_init=0"
    subprocess.run(["mkfs.ext4", "-q", *words, "-N", "8192", "-J", "size=4", "-E", lazy, path], check=True)
    with open(path, "rb") as it:
        return it.read()


def load(broker, disk, chance):
    """Workers of both tenants, and where in the disk's record each request was sent and answered. The last replies are not waited for."""
    workers = [Worker(tenant, prefix) for tenant in USERS for prefix in (b"x-", b"y-")]
    clients = [wire.Client(broker.port, *USERS[it.tenant]) for it in workers]
    times = Times([])
    for step in range(STEPS):
        at = len(disk.record)
        sent = [worker.send(client, chance) for worker, client in zip(workers, clients)]
        for first, forms in sent:
            times.heard.update((first + number, at) for number in range(len(forms)))
        for worker, client, (first, forms) in zip(workers, clients, sent) if step < STEPS - 1 else []:
            worker.hear(client, (first, forms))
            times.told.update((first + number, len(disk.record) - 1) for number in range(len(forms)))
    return workers, times


class Trial:
    """A broker on such a disk under load, and what is left of it."""

    def __init__(self, program, kind, chance):
        self.program, self.chance, (made, self.options, self.mode) = program, chance, KINDS[kind]
        with tempfile.TemporaryDirectory(dir=MEMORY) as room:
            self.disk, place = Disk(f"{room}/disk", empty(room, made)), f"{room}/place"
            os.mkdir(place)
            broker = None
            try:
                mount(place, "-t", "ext4", "-o", self.options, self.disk.path)
                self.begun = len(self.disk.record)
                broker, _ = asked(program, room, MODES[self.mode], data=f"{place}/data")
                self.workers, self.times = load(broker, self.disk, chance)
                self.ended = len(self.disk.record)
            finally:
                if broker:
                    broker.stop()
                unmount(place)
                self.disk.close()

    def images(self, count):
        """Images at so many moments, each with what has to be there."""
        loss = Loss(self.disk)
        for moment in sorted(self.chance.choices(range(self.begun, self.ended + 1), k=count)):
            loss.go(moment)
            for part in PARTS:
                yield loss.left(self.chance, part), Bound(self.times, moment, moment)

    def judge(self, image, bound):
        """What is wrong with what a broker finds on an image, and what it says where it does not start."""
        with tempfile.TemporaryDirectory(dir=MEMORY) as room:
            with open(f"{room}/disk", "wb") as out:
                out.write(image)
            os.mkdir(f"{room}/place")
            broker = None
            try:
                mount(f"{room}/place", "-t", "ext4", "-o", self.options, f"{room}/disk")
                broker, clients = asked(self.program, room, MODES[self.mode], data=f"{room}/place/data")
                if clients is None:
                    return [], said(broker.log())
                found = {tenant: look(client) for tenant, client in clients.items()}
                return [it for worker in self.workers for it in bound.wrong(worker, *found[worker.tenant])], ""
            finally:
                if broker:
                    broker.stop()
                unmount(f"{room}/place")


def is_replayed(image):
    """Whether the superblock says that the journal has something."""
    return bool(struct.unpack_from("<I", image, 1024 + 96)[0] & 4)


def play(program, kind, chance, moments):
    """A trial of a kind; how many images lost something, or were refused."""
    trial = Trial(program, kind, chance)
    lost, refused, count, replayed = [], [], 0, 0
    for image, bound in trial.images(moments):
        wrong, refusal = trial.judge(image, bound)
        count, replayed = count + 1, replayed + is_replayed(image)
        lost += wrong[:1]
        refused += [refusal] if refusal else []
    for what in [*lost[:3], *(f"refused: {it}" for it in refused[:3])]:
        print(f"{kind}: {what}")
    flushes = sum(it is None for it in trial.disk.record)
    print(f"{kind}: {len(lost)} of {count} images lost what was acknowledged, {len(refused)} starts refused; {replayed} had a journal to "
          f"replay; {len(trial.disk.record) - flushes} writes and {flushes} flushes, {len(trial.times.told) - 1} replies")
    sys.stdout.flush()
    return len(lost) + len(refused) if trial.mode == "always" else 0


def main(program, seed=1, moments=50):
    chance = random.Random(seed)
    return bool(sum([play(program, kind, chance, moments) for kind in KINDS]))


if __name__ == "__main__":
    if not 2 <= len(sys.argv) <= 4:
        sys.exit(__doc__)
    sys.exit(main(os.path.abspath(sys.argv[1]), *(int(it) for it in sys.argv[2:])))
