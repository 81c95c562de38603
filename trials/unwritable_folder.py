#!/usr/bin/env python3
"""A folder that cannot be written is not served, and what the broker writes is its own user's alone.

    trials/unwritable_folder.py KBROKER

It needs root: the folder is a read-only mount of another one, and once it is root's own with the broker run as another user. The broker
ends with status 1 and names the path and the cause. A folder that it makes has the mode 700, its files 600. Settings that others may
read are told in a line of the log. It prints how many of these are not so.
"""

import os
import signal
import stat
import subprocess
import sys
import tempfile

from wire import Broker, Client, batch

NOBODY = 65534


def read_only(program, room):
    """The folder is mounted without leave to write."""
    os.makedirs(f"{room}/written")
    os.makedirs(f"{room}/data")
    subprocess.run(["mount", "--bind", f"{room}/written", f"{room}/data"], check=True)
    try:
        subprocess.run(["mount", "-o", "remount,bind,ro", f"{room}/data"], check=True)
        broker = Broker(program, room)
        listens = broker.listens()
        return listens, broker.stop(), broker.log()
    finally:
        subprocess.run(["umount", f"{room}/data"], check=True)


def of_another(program, room):
    """The folder is another user's."""
    os.chmod(room, 0o755)
    os.makedirs(f"{room}/data", mode=0o755)
    broker = Broker(program, room, user=NOBODY)
    listens = broker.listens()
    return listens, broker.stop(), broker.log()


def modes(program, room):
    """The modes of the folder and of its files, and what the log says of settings that others may read."""
    os.umask(0o022)
    broker = Broker(program, room, data=f"{room}/under/data", mode=0o644)
    broker.listens()
    client = Client(broker.port)
    client.create(b"t")
    client.produce(b"t", batch(b"line"))
    broker.stop()
    found = [stat.S_IMODE(os.stat(f"{room}/under/data").st_mode)]
    for name in os.listdir(f"{room}/under/data"):
        found.append(stat.S_IMODE(os.stat(f"{room}/under/data/{name}").st_mode))
    return found, broker.log()


def main():
    # So that the folder is unmounted where the script is ended.
    signal.signal(signal.SIGTERM, lambda *_: sys.exit(1))
    wrong = []
    for name, case, cause in (("read-only", read_only, "Read-only"), ("another user's", of_another, "Permission denied")):
        with tempfile.TemporaryDirectory() as room:
            listens, status, log = case(sys.argv[1], room)
            if listens or status != 1 or f"{room}/data" not in log or cause not in log:
                wrong.append(f"{name}: listens {listens}, status {status}, {log!r}")
    with tempfile.TemporaryDirectory() as room:
        found, log = modes(sys.argv[1], room)
        if found[0] != 0o700 or any(mode != 0o600 for mode in found[1:]):
            wrong.append(f"modes {[oct(mode) for mode in found]}")
        if f"{room}/settings.toml" not in log:
            wrong.append(f"nothing is said of settings that others may read: {log!r}")
    for line in wrong:
        print(line)
    print(f"{len(wrong)} of 4 wrong")
    sys.exit(1 if wrong else 0)


if __name__ == "__main__":
    main()
