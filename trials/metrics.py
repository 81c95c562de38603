#!/usr/bin/env python3
"""What the pages of metrics say of a load with known numbers, and who gets them.

    trials/metrics.py KBROKER

Two tenants use the same names. Each sample is read by the parser of `python3-prometheus-client`, where that is there, and compared with the
load: requests by API and bytes are those that the clients counted, and bytes of batches those that came and did not go. Groups have ids with
a quote, a backslash, a line feed and a tag. Then the status pages are read, and wrong paths, methods, bodies, long heads and tokens are tried,
and what a broker says of wrong settings. Last, 1,000 slow and garbled clients come while a producer asks, and a page is asked for beside them.
It prints how many of the answers were wrong.
"""

import os
import socket
import sys
import tempfile
import threading
import time

from group_offsets import Tried, commit_at, create
from wire import Broker, Client, batch, free_port, struct, text

TOKEN = "0123456789abcdefXYZ"
ODD = b'quote " back \\ line\nend'
TAG = b"<script>alert(1)</script>"
FORGED = b'x"} 1\nkbroker_topics{tenant="a"} 9'
OVER = ("topics", "partitions", "offsets", "bytes", "groups", "group_bytes")
APIS = {0: "Produce", 1: "Fetch", 2: "ListOffsets", 3: "Metadata", 8: "OffsetCommit", 11: "JoinGroup", 19: "CreateTopics"}


def page(port, words, rest=b"", token=None, most=20):
    """What is answered to a request, as status, fields and body; status 0 where nothing is."""
    with socket.create_connection(("127.0.0.1", port), timeout=most) as it:
        field = f"authorization: Bearer {token}\r\n" if token else ""
        it.sendall(f"{words} HTTP/1.1\r\nhost: x\r\n{field}".encode() + (rest or b"\r\n"))
        pieces = []
        try:
            while piece := it.recv(1 << 20):
                pieces.append(piece)
        except OSError:
            pass
    head, _, body = b"".join(pieces).partition(b"\r\n\r\n")
    lines = head.decode().split("\r\n")
    if not lines[0]:
        return 0, {}, b""
    return int(lines[0].split()[1]), dict(line.lower().split(": ", 1) for line in lines[1:]), body


def samples(body):
    """The samples of a page, by name and labels."""
    try:
        from prometheus_client.parser import text_string_to_metric_families as families
    except ImportError:
        print("the package python3-prometheus-client is missing")
        sys.exit(1)
    return {(it.name, tuple(sorted(it.labels.items()))): it.value for family in families(body.decode()) for it in family.samples}


def produce_to(client, topic, partition, count):
    """Produces so many records of one batch each to a partition."""
    for _ in range(count):
        sent = batch(b"secret-record")
        body = struct.pack(">hhi", -1, 1, 5000) + struct.pack(">i", 1) + text(topic) + struct.pack(">ii", 1, partition)
        client.ask(0, 3, body + struct.pack(">i", len(sent)) + sent)


def lines_of(port, tenant):
    """The lines of the page of metrics whose first label is that tenant's."""
    lines = page(port, "GET /metrics", token=TOKEN)[2].split(b"\n")
    return [it for it in lines if it.partition(b"{")[2].startswith(b'tenant="' + tenant + b'"')]


def beside(tried, port, bob):
    """What is said of a tenant that does nothing stays as it is, whatever another does and whatever names it gives."""
    quiet, busy = lines_of(port, b"a"), lines_of(port, b"b")
    tried.is_so("topics of another", create(bob, b"more", 3), 0)
    produce_to(bob, b"more", 0, 5)
    tried.is_so("a group with a line for its name", commit_at(bob, FORGED, b"more", 0, 1, b""), 0)
    time.sleep(0.2)
    tried.is_so("lines of a tenant that does nothing", lines_of(port, b"a"), quiet)
    tried.is_so("lines of the other", len(lines_of(port, b"b")) > len(busy), True)


def told(tried, broker, port):
    """A load, and what is said of it."""
    ann, bob = Client(broker.port), Client(broker.port, b"bob", b"pw2")
    second = Client(broker.port)
    tried.is_so("topics", [create(ann, b"orders", 3), create(ann, b"idle", 1), create(bob, b"orders", 2)], [0, 0, 0])
    for client, most in ((ann, 3), (bob, 2)):
        for partition in range(most):
            produce_to(client, b"orders", partition, 10 * (partition + 1))
    tried.is_so("commits", [commit_at(ann, b"readers", b"orders", 0, 4, b""), commit_at(ann, b"readers", b"orders", 2, 25, b""),
                            commit_at(ann, b"ahead", b"orders", 1, 20, b""), commit_at(ann, ODD, b"orders", 1, 1, b""),
                            commit_at(bob, b"readers", b"orders", 1, 0, b"")], [0] * 5)
    status, fields, body = page(port, "GET /metrics", token=TOKEN)
    tried.is_so("status", status, 200)
    tried.is_so("kind", fields.get("content-type"), "text/plain; version=0.0.4; charset=utf-8")
    tried.is_so("closed", fields.get("connection"), "close")
    for secret in (b"pw1", b"pw2", b"secret-record", TOKEN.encode()):
        tried.is_so(f"{secret} on the page", secret in body, False)
    got = samples(body)

    def value(name, **labels):
        return got.get((name, tuple(sorted(labels.items()))))

    for tenant, connections, topics, partitions in (("a", 2, 2, 4), ("b", 1, 1, 2)):
        tried.is_so("connections", value("kbroker_connections", tenant=tenant), connections)
        tried.is_so("topics", value("kbroker_topics", tenant=tenant), topics)
        tried.is_so("partitions", value("kbroker_partitions", tenant=tenant), partitions)
        tried.is_so("refusals", [value("kbroker_refusals_total", tenant=tenant, cause=it) for it in ("memory", "store")], [0, 0])
        tried.is_so("past limits", [value("kbroker_over_limit_total", tenant=tenant, what=it) for it in OVER], [0] * len(OVER))
        tried.is_so("groups at most", value("kbroker_limit", tenant=tenant, what="groups"), 1000)
        tried.is_so("topics at most", value("kbroker_limit", tenant=tenant, what="topics"), None)
    tried.is_so("offsets", [value("kbroker_committed_offsets", tenant=it) for it in "ab"], [4, 1])
    lags = {key[1]: it for key, it in got.items() if key[0] == "kbroker_group_lag"}
    wanted = {("a", "readers"): 6 + 5, ("a", "ahead"): 0, ("a", ODD.decode()): 19, ("b", "readers"): 20}
    tried.is_so("lags", lags, {(("group", group), ("tenant", tenant), ("topic", "orders")): it for (tenant, group), it in wanted.items()})
    tried.is_so("sockets", value("kbroker_sockets"), 3)
    tried.is_so("limit", value("kbroker_sockets_limit"), 64)
    with open(f"/proc/{broker.process.pid}/statm", encoding="ascii") as it:
        resident = int(it.read().split()[1]) * 4096
    tried.is_so("memory", abs(value("process_resident_memory_bytes") - resident) < 4 << 20, True)
    tried.is_so("files", value("process_open_fds") > 5, True)
    tried.is_so("start", abs(value("process_start_time_seconds") - time.time()) < 60, True)
    try:
        Client(broker.port, b"ann", b"wrong")
    except (ConnectionError, OSError, struct.error):
        pass
    second.socket.close()
    time.sleep(1)
    got = samples(page(port, "GET /metrics", token=TOKEN)[2])
    tried.is_so("failed logins", value("kbroker_logins_failed_total"), 1)
    tried.is_so("connections then", value("kbroker_connections", tenant="a"), 1)
    beside(tried, port, bob)


class Counting(Client):
    """A client that counts what it asks and what it is told, once it is logged in."""

    def __init__(self, *words):
        self.sent, self.got, self.asked = 0, 0, {}
        super().__init__(*words)
        self.sent, self.got, self.asked = 0, 0, {}

    def send(self, requests):
        for key, _, body, *_ in requests:
            self.asked[key] = self.asked.get(key, 0) + 1
            self.sent += 14 + len(body)
        return super().send(requests)

    def take(self, size):
        self.got += size
        return super().take(size)


def join(client, group):
    """JoinGroup 1 by a new member, in a generation of its own: sent, and not waited for."""
    client.send([(11, 1, text(group) + struct.pack(">ii", 30_000, 200) + text(b"") + text(b"consumer") + struct.pack(">i", 1) + text(b"range")
                  + struct.pack(">i", 0))])


def counted(tried, broker, port):
    """Each number that counts what tenants ask, and what a group with a tag for its name looks like."""
    ann, bob, waits = Counting(broker.port), Counting(broker.port, b"bob", b"pw2"), Counting(broker.port)
    tried.is_so("topics", [create(ann, b"orders", 3), create(bob, b"orders", 2)], [0, 0])
    for count, client in ((7, ann), (3, bob)):
        produce_to(client, b"orders", 0, count)
    tried.is_so("a commit", commit_at(ann, TAG, b"orders", 0, 5, b""), 0)
    ann.fetch(b"orders", 0)
    # a request whose size, whose key's first byte and whose rest come apart
    asked = struct.pack(">hhih", 3, 1, 900, -1) + struct.pack(">i", -1)
    frame = struct.pack(">i", len(asked)) + asked
    for piece in (frame[:4], frame[4:5], frame[5:9], frame[9:]):
        bob.socket.sendall(piece)
        time.sleep(0.05)
    bob.hear()
    bob.sent, bob.asked[3] = bob.sent + len(frame), bob.asked.get(3, 0) + 1
    join(waits, TAG)
    waits.hear()
    # a fetch that waits for more than there is
    waits.send([(1, 4, struct.pack(">iiiib", -1, 5000, 1 << 20, 1 << 20, 0) + struct.pack(">i", 1) + text(b"orders")
                 + struct.pack(">iiqi", 1, 0, 7, 1 << 20))])
    time.sleep(0.3)
    status, _, body = page(port, "GET /metrics", token=TOKEN)
    tried.is_so("status", status, 200)
    got = samples(body)

    def value(name, **labels):
        return got.get((name, tuple(sorted(labels.items()))))

    asked = {key: ann.asked.get(key, 0) + waits.asked.get(key, 0) for key in {*ann.asked, *waits.asked}}
    for tenant, keys, sent, told_ in (("a", asked, ann.sent + waits.sent, ann.got + waits.got), ("b", bob.asked, bob.sent, bob.got)):
        said = {labels: it for (name, labels), it in got.items() if name == "kbroker_requests_total" and ("tenant", tenant) in labels}
        tried.is_so(f"requests of {tenant}", said, {(("api", APIS[key]), ("tenant", tenant)): count for key, count in keys.items()})
        tried.is_so(f"bytes of requests of {tenant}", value("kbroker_request_bytes_total", tenant=tenant), sent)
        tried.is_so(f"bytes of responses of {tenant}", value("kbroker_response_bytes_total", tenant=tenant), told_)
    tried.is_so("waiting", [value("kbroker_waiting_requests", tenant=it) for it in "ab"], [1, 0])
    tried.is_so("members", value("kbroker_group_members", tenant="a", group=TAG.decode()), 1)
    tried.is_so("lag", value("kbroker_group_lag", tenant="a", group=TAG.decode(), topic="orders"), 2)
    tried.is_so("strangers", value("kbroker_strangers"), 0)
    with socket.create_connection(("127.0.0.1", broker.port)):
        time.sleep(0.2)
        got = samples(page(port, "GET /metrics", token=TOKEN)[2])
        tried.is_so("a stranger", value("kbroker_strangers"), 1)
    tried.is_so("files at most", value("process_max_fds"), int(open(f"/proc/{broker.process.pid}/limits").read().split("Max open files")[1].split()[0]))
    tried.is_so("time of processors", 0 <= value("process_cpu_seconds_total") < 60, True)
    tried.is_so("the longest turn", 0 < value("kbroker_turn_seconds_max") < 5, True)
    got = samples(page(port, "GET /metrics/partitions?tenant=a", token=TOKEN)[2])
    tried.is_so("ends", [value("kbroker_partition_end_offset", tenant="a", topic="orders", partition=str(it)) for it in range(3)], [7, 0, 0])
    tried.is_so("starts", [value("kbroker_partition_start_offset", tenant="a", topic="orders", partition=str(it)) for it in range(3)], [0] * 3)
    tried.is_so("committed", value("kbroker_group_committed_offset", tenant="a", group=TAG.decode(), topic="orders", partition="0"), 5)
    tried.is_so("nothing of others", [it for it in got if ("tenant", "a") not in it[1]], [])
    html(tried, port)


def gone(tried, program, room):
    """The bytes of the batches of a tenant that has a limit of them are told as they come, and as records and topics go: no batch has to
    come behind. Of a tenant without that limit they are not."""
    port = free_port()
    limited = '[[tenant]]\nname = "a"\nbytes = 1048576\n'
    broker = Broker(program, room, more=f'metrics = "127.0.0.1:{port}"\nmetrics_token = "{TOKEN}"\n\n{limited}')

    def stored(tenant="a"):
        time.sleep(0.2)
        return samples(page(port, "GET /metrics", token=TOKEN)[2]).get(("kbroker_stored_bytes", (("tenant", tenant),)))

    try:
        tried.is_so("it listens", broker.listens(), True)
        ann, one = Client(broker.port), len(batch(b"secret-record"))
        tried.is_so("topics to delete", [create(ann, b"goes", 2), create(ann, b"stays", 1)], [0, 0])
        for topic, partition, count in ((b"goes", 0, 10), (b"goes", 1, 5), (b"stays", 0, 7)):
            produce_to(ann, topic, partition, count)
        tried.is_so("bytes that came", stored(), 22 * one)
        tried.is_so("records go", [ann.delete_records(b"goes", 4), stored()], [0, 18 * one])
        tried.is_so("all of a partition go", [ann.delete_records(b"goes", -1), stored()], [0, 12 * one])
        tried.is_so("a topic goes", [ann.delete(b"goes"), stored()], [0, 7 * one])
        bob = Client(broker.port, b"bob", b"pw2")
        tried.is_so("a tenant without that limit", [create(bob, b"stays", 1), bob.produce(b"stays", batch(b"x")), stored("b")], [0, (0, 0), None])
    finally:
        broker.stop()


def html(tried, port):
    """The status page, and that of a tenant."""
    for words in ("GET /", "GET /?tenant=a", "GET /?tenant=%61", "GET /?tenant=b"):
        status, fields, body = page(port, words, token=TOKEN)
        tried.is_so(words, status, 200)
        tried.is_so(f"kind of {words}", fields.get("content-type"), "text/html; charset=utf-8")
        tried.is_so(f"policy of {words}", fields.get("content-security-policy"), "default-src 'none'; style-src 'unsafe-inline'")
        tried.is_so(f"{words} ends", body.rstrip().endswith(b"</html>"), True)
        tried.is_so(f"a tag in {words}", b"<script" in body.lower(), False)
        for secret in (b"pw1", b"pw2", b"secret-record", TOKEN.encode()):
            tried.is_so(f"{secret} on {words}", secret in body, False)
    tried.is_so("the group on the page", b"&lt;script&gt;" in page(port, "GET /?tenant=a", token=TOKEN)[2], True)
    tried.is_so("nothing of a on b's page", b"script" in page(port, "GET /?tenant=b", token=TOKEN)[2], False)
    for words, status in (("GET /?tenant=c", 404), ("GET /?tenant=", 404), ("GET /?other=a", 404), ("GET /metrics/partitions", 404),
                          ("GET /metrics/partitions?tenant=c", 404), ("GET /metrics/partitions?tenant=%zz", 404), ("POST /", 405)):
        tried.is_so(words, page(port, words, token=TOKEN)[0], status)
    for words in ("GET /", "GET /?tenant=a", "GET /metrics/partitions?tenant=a"):
        status, fields, _ = page(port, words)
        tried.is_so(f"{words} without the token", (status, fields.get("www-authenticate")), (401, "bearer"))
    tried.is_so("what is allowed", page(port, "PUT /metrics", token=TOKEN)[1].get("allow"), "get")


def refused(tried, broker, port):
    """Who gets no page."""
    for words, status, token in (("GET /healthz", 200, None), ("GET /readyz", 200, TOKEN), ("GET /readyz", 401, None), ("GET /metrics", 401, None),
                                 ("GET /metrics", 401, TOKEN[:-1]), ("GET /metrics", 401, TOKEN + "x"), ("GET /nothing", 404, TOKEN),
                                 ("GET /nothing", 401, None), ("POST /metrics", 405, TOKEN), ("HEAD /healthz", 405, None),
                                 ("DELETE /readyz", 405, TOKEN)):
        tried.is_so(f"{words} with {token}", page(port, words, token=token)[0], status)
    tried.is_so("healthz", page(port, "GET /healthz")[2], b"ok\n")
    tried.is_so("readyz", page(port, "GET /readyz", token=TOKEN)[2], b"ready\n")
    tried.is_so("a body", page(port, "POST /metrics", b"content-length: 5\r\n\r\nhello", TOKEN)[0], 413)
    tried.is_so("a long head", page(port, "GET /metrics", b"x: " + b"y" * 9000 + b"\r\n\r\n", TOKEN)[0], 431)
    tried.is_so("Kafka's bytes", page(port, "\0\0\0\x10\0\x12")[0], 400)
    with socket.create_connection(("127.0.0.1", port), timeout=20) as it:
        began = time.monotonic()
        it.sendall(b"GET /healthz HTTP/1.1\r\n")
        try:
            it.recv(1)
        except OSError:
            pass
        tried.is_so("a slow request is closed after 5 seconds", 4.5 < time.monotonic() - began < 7, True)


def faults(tried, program, room):
    """What wrong settings are called."""
    for more, said in (('metrics = "0.0.0.0:9100"\n', "metrics"), ('metrics = "10.0.0.1:9100"\n', "metrics_token"),
                       ('metrics = "127.example.org:9100"\n', "metrics_token"), ('metrics_token = "short"\n', "metrics_token")):
        broker = Broker(program, room, more=more)
        tried.is_so(f"{more.strip()} listens", broker.listens(), False)
        broker.stop()
        last = broker.log().strip().split("\n")[-1]
        tried.is_so(f"the fault of {more.strip()}", last.startswith(f"kbroker: bad settings: {said}:") and "short" not in last, True)


def hostile(tried, broker, port):
    """Slow and garbled clients beside a producer."""
    ann = Client(broker.port)
    held, worst, stop = [], [0.0], threading.Event()

    def ask():
        while not stop.is_set():
            began = time.monotonic()
            ann.produce(b"idle", batch(b"x"))
            worst[0] = max(worst[0], time.monotonic() - began)

    producer = threading.Thread(target=ask)
    producer.start()
    for number in range(1000):
        try:
            it = socket.create_connection(("127.0.0.1", port), timeout=5)
            it.sendall((b"GET /met", b"\x16\x03\x01\x02\0\x01", b"GET /metrics HTTP/1.1\r\nx: ", os.urandom(64))[number % 4])
            held.append(it)
        except OSError:
            pass
    time.sleep(2)
    stop.set()
    producer.join()
    tried.is_so(f"a produce took {worst[0]:.2f} s beside 1,000 clients", worst[0] < 1, True)
    time.sleep(5)
    tried.is_so("a page then", page(port, "GET /metrics", token=TOKEN)[0], 200)
    for it in held:
        it.close()
    time.sleep(1)
    files = samples(page(port, "GET /metrics", token=TOKEN)[2])[("process_open_fds", ())]
    tried.is_so(f"{files} files are open in the end", files < 60, True)


def main(program):
    tried = Tried()
    with tempfile.TemporaryDirectory() as room:
        port = free_port()
        broker = Broker(program, room, more=f'connections = 64\nmetrics = "127.0.0.1:{port}"\nmetrics_token = "{TOKEN}"\n')
        try:
            tried.is_so("it listens", broker.listens(), True)
            time.sleep(0.2)
            told(tried, broker, port)
            refused(tried, broker, port)
            hostile(tried, broker, port)
        finally:
            broker.stop()
    with tempfile.TemporaryDirectory() as room:
        port = free_port()
        broker = Broker(program, room, more=f'metrics = "127.0.0.1:{port}"\nmetrics_token = "{TOKEN}"\n')
        try:
            tried.is_so("it listens", broker.listens(), True)
            counted(tried, broker, port)
        finally:
            broker.stop()
    with tempfile.TemporaryDirectory() as room:
        gone(tried, program, room)
    with tempfile.TemporaryDirectory() as room:
        faults(tried, program, room)
    print(f"{tried.wrong} of {tried.count} wrong")
    return tried.wrong > 0


if __name__ == "__main__":
    sys.exit(main(*sys.argv[1:]))
