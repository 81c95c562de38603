#!/usr/bin/env python3
"""A folder that has a log's file name is left alone, and a file that cannot be opened is named by the line that refuses the start.

    trials/names_of_files.py KBROKER

A folder `00000000000000000007.seg` is told as a stray, and records are written and found again beside it. A link of such a name that leads
nowhere refuses the start, with its path and the cause, by `serve` and by `script`; `dump` names it too. And a start that is refused
while standard error is a pipe that is full ends at once. It prints how many of these are not so.
"""

import os
import subprocess
import sys
import tempfile
import time

from wire import Broker, Client, batch


def beside_a_folder(program, room):
    """What is wrong with two starts on a data folder that has a folder of a log's name."""
    os.makedirs(f"{room}/data/00000000000000000007.seg", mode=0o700)
    for start in range(2):
        broker = Broker(program, room)
        listens = broker.listens()
        if listens:
            client = Client(broker.port)
            client.create(b"t")
            for n in range(3):
                code, offset = client.produce(b"t", batch(b"line"))
                if (code, offset) != (0, 3 * start + n):
                    return f"start {start}: produce {n} answers {code}, {offset}"
            code, mark, _ = client.fetch(b"t", 0)
            if (code, mark) != (0, 3 * start + 3):
                return f"start {start}: fetch answers {code}, {mark}"
        time.sleep(0.3)
        broker.stop()
        log = broker.log()
        if not listens or "00000000000000000007.seg: " not in log or "stray files 1" not in log:
            return f"start {start}: listens {listens}, {log!r}"
    return "" if os.listdir(f"{room}/data/00000000000000000007.seg") == [] else "it is not empty"


def beside_a_link(program, room):
    """What is wrong with a start on a data folder that has a link that leads nowhere."""
    os.makedirs(f"{room}/data", mode=0o700)
    path = f"{room}/data/00000000000000000007.seg"
    os.symlink("nowhere", path)
    wanted = f"kbroker: store fault: {path}: No such file"
    broker = Broker(program, room)
    listens, status = broker.listens(), broker.stop()
    if listens or status != 1 or wanted not in broker.log():
        return f"serve: listens {listens}, status {status}, {broker.log()!r}"
    for words in (["script", "--data", f"{room}/data"], ["dump", f"{room}/data"]):
        ran = subprocess.run([program, *words], stdin=subprocess.DEVNULL, capture_output=True, text=True, timeout=60)
        if ran.returncode != 1 or wanted not in ran.stderr:
            return f"{words[0]}: status {ran.returncode}, {ran.stderr!r}"
    return "" if os.path.islink(path) else "the link is gone"


def nobody_reads(program, room):
    """What is wrong with a refused start whose standard error takes nothing."""
    reader, writer = os.pipe()
    # (a program of gate/unproved first says that it is one, which still fits)
    for size in [4096] * 15 + [4000]:
        os.write(writer, b"x" * size)
    ran = subprocess.Popen([program, "check", "--config", f"{room}/none.toml"], stdin=subprocess.DEVNULL, stdout=subprocess.DEVNULL, stderr=writer)
    try:
        status = ran.wait(20)
        return "" if status == 1 else f"status {status}"
    except subprocess.TimeoutExpired:
        ran.kill()
        return "it waits"
    finally:
        os.close(reader)
        os.close(writer)


def main():
    """Prints what is wrong."""
    wrong = []
    for case in (beside_a_folder, beside_a_link, nobody_reads):
        with tempfile.TemporaryDirectory() as room:
            said = case(sys.argv[1], room)
            if said:
                wrong.append(f"{case.__name__}: {said}")
    for line in wrong:
        print(line)
    print(f"{len(wrong)} of 3 wrong")
    sys.exit(1 if wrong else 0)


if __name__ == "__main__":
    main()
