#!/usr/bin/env python3
"""A tenant has no more connections than the settings say, and those that are kept free for it.

    trials/tenant_connections.py KBROKER

A broker takes 12 connections, of which tenant `a` may have 6, with 4 kept free for it, and tenant `b` has 2 kept free. One more login than a
tenant may have is closed before it is answered, and when one of its connections ends there is room again. `b` gets what nobody has kept free,
and no more; `a` still gets its 4. Of sockets that do not log in 4 stay, where the oldest goes for each new one, and none after two seconds.
The log tells of all of them.
"""

import socket
import sys
import tempfile
import time

from wire import Broker, Client, batch

SETTINGS = """connections = 12
strangers = 4
login_seconds = 2
sync = "{sync}"

[[tenant]]
name = "a"
connections = 6
reserved_connections = 4

[[tenant]]
name = "b"
reserved_connections = 2
"""
USERS = {"a": (b"ann", b"pw1"), "b": (b"bob", b"pw2")}


def login(broker, tenant):
    """A client of a tenant, or None where it is closed before its login is answered."""
    try:
        return Client(broker.port, *USERS[tenant])
    except OSError:
        return None


def logins(broker, tenant, most):
    """Clients of a tenant, as many as are let in of so many."""
    return [it for it in [login(broker, tenant) for _ in range(most)] if it]


def leave(clients):
    """Ends connections, and gives the broker a moment to see it."""
    for client in clients:
        client.socket.close()
    clients.clear()
    time.sleep(0.2)


def is_closed(stranger):
    """Whether the broker has closed a socket that it said nothing to."""
    stranger.setblocking(False)
    try:
        return stranger.recv(1) == b""
    except BlockingIOError:
        return False
    except OSError:
        return True


def strangers_left(broker, count):
    """How many of so many silent sockets are open at once, and after their time."""
    silent = [socket.create_connection(("127.0.0.1", broker.port)) for _ in range(count)]
    time.sleep(0.3)
    gone = [is_closed(it) for it in silent]
    is_oldest_first = gone == sorted(gone, reverse=True)
    time.sleep(2.2)
    return gone.count(False), is_oldest_first, sum(not is_closed(it) for it in silent)


def wrong_of(broker):
    """What went otherwise."""
    wrong = []

    def expect(what, found, wanted):
        if found != wanted:
            wrong.append(f"{what}: {found}, and not {wanted}")

    mine = logins(broker, "a", 9)
    expect("logins of a", len(mine), 6)
    mine[0].create(b"t")
    expect("the first one is served", mine[0].produce(b"t", batch(b"hi"))[0], 0)
    leave([mine.pop()])
    mine += logins(broker, "a", 2)
    expect("logins of a once one has left", len(mine), 6)
    leave(mine)
    others = logins(broker, "b", 10)
    expect("logins of b alone", len(others), 8)
    mine = logins(broker, "a", 4)
    expect("logins of a beside them", len(mine), 4)
    leave(mine)
    leave(others)
    expect("silent sockets", strangers_left(broker, 7), (4, True, 0))
    time.sleep(1.2)
    log = "".join(it for it in broker.log().splitlines() if "connections closed:" in it)
    for words in ("of tenant a over its 6", "of tenant b over its 12", "before a login"):
        expect(f"the log has {words!r}", words in log, True)
    return wrong


def main(program):
    """Whether tenants have their connections, whenever replies go out."""
    bad = []
    for sync in ("interval", "always"):
        with tempfile.TemporaryDirectory() as room:
            broker = Broker(program, room, SETTINGS.format(sync=sync))
            try:
                bad += [f"{sync}: {it}" for it in (wrong_of(broker) if broker.listens() else ["the broker does not listen"])]
            finally:
                broker.stop()
    print("\n".join(bad) or "each tenant had its connections")
    return 1 if bad else 0


if __name__ == "__main__":
    if len(sys.argv) != 2:
        sys.exit(__doc__)
    sys.exit(main(sys.argv[1]))
