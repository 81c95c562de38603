#!/usr/bin/env python3
"""A broker whose standard error nobody reads goes on, and tells later how many of its lines were lost.

    trials/unread_log.py KBROKER

Standard error is a pipe of one page that is not read. 640 logins with a wrong password, of eight threads, make more lines than it holds,
though only some of each second have one. Then a right one is served, and the pipe is read. The next line that is taken says how many were not. It prints how
many lines there were, and how many were lost.
"""

import fcntl
import os
import re
import select
import sys
import tempfile
import time
from concurrent.futures import ThreadPoolExecutor

from wire import Broker, Client

LOGINS = 640
THREADS = 8

# (Linux: sets how many bytes a pipe holds)
F_SETPIPE_SZ = 1031


def fail(port):
    """A login with a wrong password."""
    try:
        client = Client(port, password=b"wrong")
        client.socket.close()
    except ConnectionError:
        pass


def read(pipe, seconds):
    """What comes out of a pipe in so many seconds."""
    out, until = b"", time.monotonic() + seconds
    while (left := until - time.monotonic()) > 0:
        if select.select([pipe], [], [], left)[0]:
            out += os.read(pipe, 65536)
    return out.decode()


def main(program):
    """Whether all holds."""
    reader, writer = os.pipe()
    fcntl.fcntl(writer, F_SETPIPE_SZ, 4096)
    with tempfile.TemporaryDirectory() as room:
        broker = Broker(program, room, before=lambda: os.dup2(writer, 2))
        try:
            if not broker.listens():
                print("the broker does not listen")
                return 1
            with ThreadPoolExecutor(THREADS) as pool:
                list(pool.map(fail, [broker.port] * LOGINS))
            Client(broker.port).socket.close()
        except OSError as error:
            print(f"the broker does not answer: {error!r}")
            return 1
        else:
            said = read(reader, 2)
            for _ in range(4):
                fail(broker.port)
                said += read(reader, 0.5)
        finally:
            broker.stop()
    told = len(re.findall("login failed from ", said))
    missed = sum(int(n) for n in re.findall("lines of this log were not taken: ([0-9]+)", said))
    print(f"failed logins: {LOGINS}, lines on them that were taken: {told}, lines that were not: {missed}")
    return 0 if missed > 0 and told > 0 else 1


if __name__ == "__main__":
    sys.exit(main(sys.argv[1]))
