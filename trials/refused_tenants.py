#!/usr/bin/env python3
"""Of more than 30 tenants, too, each line of refusals says that the disk refused, and each tenant how many of its own.

    trials/refused_tenants.py KBROKER

Fifty tenants have a topic each, and the system lets no file grow beyond 8,192 bytes (RLIMIT_FSIZE). Then all produce at once what is refused.
Nothing is refused for want of memory. So each line that tells of a tenant's refusals has to say how many calls the disk refused, and no
fewer than the line tells of. In brackets behind each tenant's has to stand the same number, by the disk. It prints how many lines do not.
"""

import re
import resource
import signal
import sys
import tempfile
import time

import wire
from wire import Broker, Client, batch

TENANTS = [b"t%02d" % number for number in range(50)]
USER = '[[user]]\nname = "{0}"\npassword = "{0}"\ntenant = "{0}"\n'


def short_files():
    """Lets no file grow beyond 8,192 bytes, in the process that becomes the program."""
    signal.signal(signal.SIGXFSZ, signal.SIG_IGN)
    resource.setrlimit(resource.RLIMIT_FSIZE, (8192, 8192))


def main(program):
    """Whether all holds."""
    more = "connections = 200\nsync = \"never\"\n" + "".join(USER.format(name.decode()) for name in TENANTS)
    with tempfile.TemporaryDirectory() as room:
        broker = Broker(program, room, more, short_files)
        if not broker.listens():
            print(f"the broker does not listen: {broker.log()}")
            return 1
        clients = [Client(broker.port, name, name) for name in TENANTS]
        for client in clients:
            client.create(b"t", retention_ms=-1)
            client.produce(b"t", batch(b"x" * 4000))
        time.sleep(1.2)
        for client in clients:
            client.send([wire.produce(b"t", batch(b"x" * 5000))])
        codes = [wire.produce(b"t", b"")[3](client.hear())[0] for client in clients]
        time.sleep(4)
        broker.stop()
        log = broker.log()
    wrong, told = [], 0
    for line in re.findall("refusals: .*", log):
        counts = [int(n) for n in re.findall(", tenant [^ ]+ ([0-9]+)", line)]
        by_disk = [int(n) for n in re.findall(r", tenant [^ ]+ [0-9]+ \(([0-9]+) by the disk\)", line)]
        disk = re.search("; by the disk ([0-9]+)", line)
        told += sum(counts)
        if not disk or int(disk[1]) < sum(counts) or by_disk != counts:
            wrong.append(line)
    if set(codes) != {56} or told != len(TENANTS):
        wrong.append(f"the trial says nothing: the codes {sorted(set(codes))}, {told} refusals told of")
    print("\n".join([*wrong, f"{len(wrong)} lines were wrong"]))
    return 1 if wrong else 0


if __name__ == "__main__":
    sys.exit(main(sys.argv[1]))
