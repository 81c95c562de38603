#!/usr/bin/env python3
"""A proxy between a client and a broker that ends connections at random: cut.py LISTEN_PORT BROKER_PORT CUTS SEED

It passes bytes on in pieces of random sizes, and ends a connection after a random number of them, CUTS times in all; later
connections are left alone. It prints `cut N` for each, and ends when it is killed.
"""
import random
import select
import socket
import sys


def serve(listener, broker, cuts, dice):
    done = 0
    while True:
        client, _ = listener.accept()
        server = socket.create_connection(("localhost", broker))
        for end in (client, server):
            end.setsockopt(socket.IPPROTO_TCP, socket.TCP_NODELAY, 1)
        left = dice.randrange(1, 100_000) if done < cuts else None
        if pass_on(client, server, left, dice):
            done += 1
            print("cut", done, flush=True)
        client.close()
        server.close()


def pass_on(client, server, left, dice):
    """Passes bytes both ways, until an end or until so many were passed. Whether it was cut."""
    other = {client: server, server: client}
    while True:
        for source in select.select([client, server], [], [])[0]:
            most = dice.randrange(1, 4000) if left is not None else 65536
            try:
                piece = source.recv(most if left is None else min(most, left))
                if not piece:
                    return False
                other[source].sendall(piece)
            except OSError:
                return False
            if left is not None:
                left -= len(piece)
                if left == 0:
                    return True


def main():
    port, broker, cuts, seed = (int(word) for word in sys.argv[1:5])
    listener = socket.create_server(("localhost", port))
    serve(listener, broker, cuts, random.Random(seed))


main()
