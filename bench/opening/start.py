"""Starts a broker, and says how many seconds it took until it listens. With `create` it makes topics whose records are kept for ever: one
of one partition, or as many as are given, of so many partitions each.

    start.py KBROKER SETTINGS create [TOPICS PARTITIONS]
    start.py KBROKER SETTINGS open
"""

import socket
import struct
import subprocess
import sys
import time


def ask(connection, key, version, body):
    request = struct.pack(">hhih", key, version, 7, -1) + body
    connection.sendall(struct.pack(">i", len(request)) + request)
    connection.recv(65536)


began = time.time()
broker = subprocess.Popen([sys.argv[1], "serve", "--config", sys.argv[2], "--quiet"], stdout=subprocess.PIPE)
line = broker.stdout.readline()
took = time.time() - began
if not line.startswith(b"listening"):
    sys.exit("the broker did not start")
if sys.argv[3] == "create":
    connection = socket.create_connection(("127.0.0.1", 19292), timeout=10)
    ask(connection, 17, 1, b"\0\5PLAIN")
    ask(connection, 36, 0, struct.pack(">i", 8) + b"\0ann\0pw1")
    config = struct.pack(">ih12sh2s", 1, 12, b"retention.ms", 2, b"-1")
    topics, partitions = (int(word) for word in sys.argv[4:6] or ("1", "1"))
    for number in range(topics):
        name = b"t%d" % number
        ask(connection, 19, 0, struct.pack(f">ih{len(name)}sihi", 1, len(name), name, partitions, 1, 0) + config + struct.pack(">i", 5000))
broker.kill()
broker.wait()
print(f"{took:.3f}")
