#!/usr/bin/env python3
"""A broker whose disk is slow to sync tells how long a commit took.

    trials/slow_sync.py KBROKER

It runs under strace, which holds up each fdatasync by 1.3 seconds, or by none, with `sync = "always"`, `"interval"` and
`"never"`. A topic is made in it, and a batch is produced. With a slow disk, and a `sync` that is not `"never"`, the log has a line
`a commit took N ms` of over a second, and no more lines than seconds went by. Else it has none. It prints how many of the six runs went
otherwise. It needs Debian's strace, and takes half a minute.
"""

import re
import sys
import tempfile
import time

from wire import Broker, Client, batch

SLOW = 1_300_000  # microseconds
LINE = re.compile(r"^\S+ a commit took (\d+) ms$", re.MULTILINE)


def took(program, sync, delay):
    """The lengths that a broker told of its commits, in milliseconds, and how many seconds it ran."""
    with tempfile.TemporaryDirectory() as room:
        under = ["strace", "-D", "-f", "--seccomp-bpf", "-e", "trace=fdatasync", "-o", f"{room}/record"]
        under += ["-e", f"inject=fdatasync:delay_enter={delay}"] if delay else []
        broker, began = Broker(program, room, f'sync = "{sync}"', under=under), time.monotonic()
        try:
            if not broker.listens():
                raise SystemExit(broker.log())
            client = Client(broker.port)
            if client.create(b"t") or client.produce(b"t", batch(b"x"))[0]:
                raise SystemExit("a request was refused")
            time.sleep(4)
            return [int(it) for it in LINE.findall(broker.log())], time.monotonic() - began
        finally:
            broker.stop()


def main(program):
    bad = 0
    for sync in ("always", "interval", "never"):
        for delay in (SLOW, 0):
            told, seconds = took(program, sync, delay)
            is_told = bool(told) and min(told) > 1000 and len(told) <= seconds
            is_wrong = not is_told if delay and sync != "never" else bool(told)
            bad += is_wrong
            print(f"{sync}, each sync {delay // 1000} ms late: commits told of {told} ms")
    print(f"{bad} of 6 runs went otherwise")
    return 1 if bad else 0


if __name__ == "__main__":
    if len(sys.argv) != 2:
        sys.exit(__doc__)
    sys.exit(main(sys.argv[1]))
