#!/usr/bin/env python3
"""Groups that commit all day do not make a folder grow, and lose no commit when the broker is killed.

    trials/endless_commits.py KBROKER [COMMITS]

Ten groups of each of two tenants commit offsets as fast as they are answered, COMMITS of them (a million, where it is not given). Meanwhile
the broker is killed (SIGKILL) twelve times, at some moment. Each start has to listen, with no flag; no group's offset may be behind the one
that was acknowledged last; and a new topic works. It prints how large the folder became, and how long the last start took.
"""

import os
import random
import sys
import tempfile
import threading
import time

from wire import Broker, Client, batch, commit, committed

KILLS = 12
USERS = [(b"ann", b"pw1"), (b"bob", b"pw2")]
GROUPS = [b"group %d" % it for it in range(10)]
# How many commits are under way at a time. How many bytes a folder may have meanwhile, where files that are done with go at each sync, and
# behind it.
AT_A_TIME = 500
MOST_BYTES = 20_000_000
LEFT_BYTES = 2_000_000


def folder_bytes(room):
    """How many bytes the files of the data folder have, one that goes meanwhile left out."""
    total = 0
    for name in os.listdir(f"{room}/data"):
        if name.endswith(".seg"):
            try:
                total += os.path.getsize(f"{room}/data/{name}")
            except FileNotFoundError:
                pass
    return total


def work(port, user, told, count, stop):
    """Commits until the connection ends, or so many were acknowledged, and keeps the last offset of each group that was."""
    try:
        client = Client(port, *user)
        client.create(b"read")
        while told["count"] < count and not stop.is_set():
            first = told["next"]
            sent = [(GROUPS[(first + it) % len(GROUPS)], first + it) for it in range(AT_A_TIME)]
            told["next"] = first + AT_A_TIME
            codes = client.all([commit(group, b"read", b"", offset) for group, offset in sent])
            for (group, offset), code in zip(sent, codes):
                if code != 0:
                    told["fault"] = f"{user[0]} got {code} for a commit"
                    return
                told[group] = offset
            told["count"] += AT_A_TIME
        client.socket.close()
    except OSError:
        pass


def wrong_of(port, told, start):
    """What groups have committed that is behind what was acknowledged, and what a new topic of that start has, in words."""
    out = []
    for user in USERS:
        client = Client(port, *user)
        for group in GROUPS:
            wanted = told[user].get(group)
            found = client.all([committed(group, b"read")])[0] if wanted is not None else None
            if wanted is not None and not wanted <= found < told[user]["next"]:
                out.append(f"{user[0]} {group} has {found}, and {wanted} was acknowledged")
        topic = b"new-%d" % start
        client.create(topic)
        code, offset = client.produce(topic, batch(b"first"))
        if (code, offset) != (0, 0):
            out.append(f"{user[0]} gets {code}, {offset} on a new topic")
        client.socket.close()
    return out


def main(program, count):
    """Whether each start listened, had the commits, and the folder stayed small."""
    told = {user: {"next": 0, "count": 0, "fault": ""} for user in USERS}
    faults, largest, kills, begun = [], 0, 0, 0.0
    with tempfile.TemporaryDirectory() as room:
        while True:
            is_last = all(told[user]["count"] >= count // 2 for user in USERS)
            begun = time.monotonic()
            broker = Broker(program, room)
            if not broker.listens():
                faults.append(f"a start is refused: {broker.log()[-600:]}")
                broker.stop()
                break
            begun = time.monotonic() - begun
            faults += wrong_of(broker.port, told, kills)
            if is_last:
                broker.stop()
                break
            stop = threading.Event()
            threads = [threading.Thread(target=work, args=(broker.port, user, told[user], count // 2, stop)) for user in USERS]
            for it in threads:
                it.start()
            until = time.monotonic() + (0.2 + 3 * random.random() if kills < KILLS else 3600)
            while time.monotonic() < until and any(it.is_alive() for it in threads):
                largest = max(largest, folder_bytes(room))
                time.sleep(0.05)
            kills += 1
            broker.stop()
            for it in threads:
                it.join()
        left = folder_bytes(room)
    faults += [told[user]["fault"] for user in USERS if told[user]["fault"]]
    if largest > MOST_BYTES or left > LEFT_BYTES:
        faults.append("the folder became too large")
    for line in faults:
        print(line)
    commits = sum(told[user]["count"] for user in USERS)
    print(f"{len(faults)} faults; {commits} commits acknowledged over {kills} kills; at most {largest} bytes, {left} at the end")
    print(f"the last start took {begun:.2f} s")
    return 1 if faults else 0


if __name__ == "__main__":
    if len(sys.argv) not in (2, 3):
        sys.exit(__doc__)
    sys.exit(main(os.path.abspath(sys.argv[1]), int(sys.argv[2]) if len(sys.argv) == 3 else 1_000_000))
