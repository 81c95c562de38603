#!/usr/bin/env python3
"""A tenant at its limits is told so, and goes on once it made room; no other tenant hears of it.

    trials/quotas.py KBROKER

The settings give one tenant 10,000,000 bytes of batches, 4 topics, 12 partitions and 5 committed offsets; another has no limits. A request
may name 2,000 entries. What is looked at is what stands in OPERATING, "What happens at each limit": which request is answered 44
(POLICY_VIOLATION), that nothing of it is kept, and that deletions make room, also after the broker was killed and started again. Then it is
started with lower limits: nothing is dropped, and what grows is refused.

Then that tenant has two groups of 3,000,000 bytes. A join and a sync past these bytes are answered 81 (GROUP_MAX_SIZE_REACHED), and a join that would
begin a third group 15 (COORDINATOR_NOT_AVAILABLE).

Where kcat is installed, `kcat -P` sends 160 messages of 100,000 bytes to a tenant that may have 10,485,760, without idempotence and with it.
Each message that does not fit has to fail at once, by the word for 44, and those before it are there. It goes on once the records are deleted.
Another tenant's metrics stay as they are. Metrics count each of these refusals for the tenant, by the limit, and none for another tenant.

A start on a disk that has less than all tenants may store says so, where the system tells the size of the disk; one that has more says nothing. So
does `check`. It prints `N of M wrong`.
"""

import os
import re
import shutil
import struct
import subprocess
import sys
import tempfile
import time
import urllib.request

from group_memory import blob, join, joined
from wire import Broker, Client, batch, castagnoli, committed, free_port, offset_at, text, topics

LIMITED = """request_entries = 2000
metrics = "127.0.0.1:{port}"

[[tenant]]
name = "a"
bytes = 10000000
topics = 4
partitions = 12
offsets = 5
"""

LOWER = """request_entries = 2000

[[tenant]]
name = "a"
bytes = 1048576
topics = 1
partitions = 2
offsets = 1
"""

GROUPS = """metrics = "127.0.0.1:{port}"

[[tenant]]
name = "a"
groups = 2
group_bytes = 3000000
"""

STOCK = """metrics = "127.0.0.1:{port}"

[[tenant]]
name = "a"
bytes = 10485760
"""

BOTH = """[[tenant]]
name = "a"
bytes = {0}

[[tenant]]
name = "b"
bytes = {0}
"""

VALUE = bytes(900_000)

MESSAGES, LONG, AT_ONCE = 160, 100_000, 20
OVER = re.compile(r'kbroker_over_limit_total\{tenant="\w+",what="(\w+)"\} (\d+)')
DELIVERY = re.compile(r"Message delivered to partition 0 \(offset (\d+)\)|Delivery failed for message: (.*)")


def creation(names, only_checked=False):
    """Makes topics, each with so many partitions; their error codes."""
    body = struct.pack(">i", len(names))
    for name, partitions in names:
        body += text(name) + struct.pack(">ihii", partitions, 1, 0, 0)

    def read(got):
        at, codes = 4, []
        for name, _ in names:
            codes.append(struct.unpack_from(">h", got, at + 2 + len(name))[0])
            at += 4 + len(name) + 2
        return codes

    return 19, 1, body + struct.pack(">i?", 5000, only_checked), read


def commits(group, topic, partitions):
    """A group commits offsets of partitions; the error codes."""
    body = text(group) + struct.pack(">i", -1) + text(b"") + struct.pack(">q", -1) + struct.pack(">i", 1) + text(topic)
    body += struct.pack(">i", len(partitions))
    for number in partitions:
        body += struct.pack(">iq", number, 7) + text(b"")
    at = 10 + len(topic)
    return 8, 2, body, lambda got: [struct.unpack_from(">h", got, at + 4 + 6 * n)[0] for n in range(len(partitions))]


def idempotent(sent, producer, sequence):
    """The batch with the id of a producer, its epoch 0 and a sequence."""
    body = sent[21:43] + struct.pack(">qhi", producer, 0, sequence) + sent[57:]
    return sent[:17] + struct.pack(">I", castagnoli(body)) + body


def many_names(count):
    """A request of Metadata that names one topic so often."""
    return 3, 1, struct.pack(">i", count) + text(b"one") * count


def is_closed(client, request):
    """Whether the broker closes the connection at a request."""
    try:
        client.ask(*request)
    except ConnectionError:
        return True
    return False


def is_told(broker, word):
    """Whether the log says that within two seconds: it is written behind the close."""
    for _ in range(200):
        if word in broker.log():
            return True
        time.sleep(0.01)
    return False


def at_limits(broker, shown):
    """What is wrong at each limit, by name, and in what metrics count of it."""
    ann, bob = Client(broker.port), Client(broker.port, b"bob", b"pw2")
    checked = ann.all([creation([(b"one", 3), (b"two", 3), (b"three", 3), (b"four", 4)], True)])[0]
    made = ann.all([creation([(b"one", 3), (b"two", 3), (b"three", 3), (b"four", 4), (b"four", 3)])])[0]
    yield "a check counts partitions", checked == [0, 0, 0, 44]
    yield "a name that stands twice is no limit's", made[3] == made[4] == 42
    yield "three topics are made, the fourth by itself", made[:3] == [0, 0, 0] and ann.all([creation([(b"four", 4)])])[0] == [44]
    yield "the last partitions fit", ann.all([creation([(b"four", 3)])])[0] == [0]
    yield "a topic too many", ann.all([creation([(b"five", 1)])])[0] == [44]
    yield "another tenant's topics", bob.all([creation([(b"t%d" % n, 5) for n in range(20)])])[0] == [0] * 20
    yield "only what was made is there", sorted(ann.all([topics()])[0]) == [b"four", b"one", b"three", b"two"]

    sent = batch(VALUE)
    codes = [ann.produce(b"one", sent) for _ in range(14)]
    fit = 10_000_000 // len(sent)
    yield "batches up to the limit", [code for code, _ in codes] == [0] * fit + [44] * (14 - fit) and codes[-1] == (44, -1)
    yield "what was refused is not there", ann.all([offset_at(b"one", -1)])[0] == (0, fit)
    yield "a smaller batch that fits", ann.produce(b"two", batch(b"x"))[0] == 0
    yield "another tenant's batches", [bob.produce(b"t1", sent)[0] for _ in range(15)] == [0] * 15
    yield "deletion of records makes room", ann.delete_records(b"one", 2) == 0 and ann.produce(b"one", sent) == (0, fit)

    first = ann.all([commits(b"g", b"one", [0, 1, 2]), commits(b"h", b"two", [0, 1, 2])])
    yield "offsets up to the limit", first == [[0, 0, 0], [0, 0, 44]]
    yield "an offset that is there moves", ann.all([commits(b"g", b"one", [0, 1, 2])])[0] == [0, 0, 0]
    yield "what was refused was not committed", ann.all([committed(b"k", b"one")])[0] == -1 and ann.commit(b"k", b"one", b"") == 44
    yield "an unknown partition is told as that", ann.commit(b"k", b"none", b"") == 3
    yield "another tenant's offsets", [bob.commit(b"g%d" % n, b"t1", b"") for n in range(20)] == [0] * 20

    yield "2,000 entries are served", not is_closed(Client(broker.port), many_names(1_999))
    yield "a request with more closes its connection", is_closed(Client(broker.port), many_names(2_001))
    yield "the log names it", is_told(broker, "Metadata")
    yield "deleted topics make room", ann.delete(b"three") == 0 and ann.all([creation([(b"five", 3)])])[0] == [0]
    wanted = {"topics": 1, "partitions": 2, "offsets": 2, "bytes": 14 - fit, "groups": 0, "group_bytes": 0}
    yield "each refusal is counted by its limit", past_limits(shown, "a") == wanted
    yield "none is counted for another tenant", past_limits(shown, "b") == dict.fromkeys(wanted, 0)


def repeats(broker):
    """What is wrong with a repeat at the limit: it is answered as ever."""
    ann = Client(broker.port)
    producer = struct.unpack_from(">q", ann.ask(22, 0, struct.pack(">hi", -1, 5000)), 6)[0]
    ann.delete_records(b"one", -1)
    sent = idempotent(batch(VALUE), producer, 0)
    code, offset = ann.produce(b"one", sent)
    while ann.produce(b"two", batch(VALUE))[0] == 0:
        pass
    yield "a repeat at the limit", code == 0 and ann.produce(b"one", sent) == (0, offset)
    yield "the next of that producer", ann.produce(b"one", idempotent(batch(VALUE), producer, 1)) == (44, -1)


def started_again(broker):
    """What is wrong after a kill: what was stored is counted."""
    ann = Client(broker.port)
    yield "bytes are counted after a start", ann.produce(b"two", batch(VALUE)) == (44, -1)
    yield "topics are counted after a start", ann.all([creation([(b"six", 1)])])[0] == [44]
    yield "offsets are counted after a start", ann.commit(b"k", b"one", b"") == 44


def lowered(broker):
    """What is wrong where the limits are below what is there: nothing is dropped."""
    ann = Client(broker.port)
    yield "topics stay", len(ann.all([topics()])[0]) == 4
    yield "records stay", ann.all([offset_at(b"two", -1)])[0][1] > 1
    yield "a batch is refused", ann.produce(b"two", batch(b"x")) == (44, -1)
    yield "a committed offset moves", ann.commit(b"g", b"one", b"") == 0
    yield "a new one does not come", ann.commit(b"k", b"one", b"") == 44
    yield "deletions are never refused", [ann.delete(it) for it in (b"two", b"four", b"five")] == [0, 0, 0]
    yield "what is below the limit is taken", ann.delete_records(b"one", -1) == 0 and ann.produce(b"one", batch(b"x"))[0] == 0


def sync(group, generation, member, size):
    """The leader's sync, which gives itself an assignment of that size; the error code."""
    body = text(group) + struct.pack(">i", generation) + text(member)
    body += struct.pack(">i", 1) + text(member) + blob(bytes(size))
    return 14, 0, body, lambda got: struct.unpack_from(">h", got)[0]


def groups_at_limits(broker, shown):
    """What is wrong where joins and syncs pass the limits of groups, and in what metrics count of it."""
    ann, bob = Client(broker.port), Client(broker.port, b"bob", b"pw2")
    wanted = dict.fromkeys(("topics", "partitions", "offsets", "bytes", "groups", "group_bytes"), 0)

    def code(client, group, size):
        return joined(client.ask(*join(group, bytes(size))))[0]

    told, generation, leader = joined(ann.ask(*join(b"one", bytes(2_000_000))))
    yield "a group within its limits", told == 0 and past_limits(shown, "a") == wanted
    wanted["group_bytes"] += 1
    yield "a join past the bytes", code(ann, b"two", 1_500_000) == 81 and past_limits(shown, "a") == wanted
    wanted["group_bytes"] += 1
    yield "a sync past the bytes", ann.all([sync(b"one", generation, leader, 1_500_000)]) == [81] and past_limits(shown, "a") == wanted
    yield "a sync within them", ann.all([sync(b"one", generation, leader, 500_000)]) == [0] and past_limits(shown, "a") == wanted
    yield "a second group", code(ann, b"two", 100) == 0 and past_limits(shown, "a") == wanted
    wanted["groups"] += 1
    yield "a third group", code(ann, b"three", 100) == 15 and past_limits(shown, "a") == wanted
    yield "another tenant's groups", [code(bob, b"g%d" % n, 2_000_000) for n in range(3)] == [0, 0, 0]
    yield "nothing is counted for another tenant", past_limits(shown, "b") == dict.fromkeys(wanted, 0)


def kcat(broker, *settings):
    """What `kcat -P` is told of each message, in their order: its offset, or why it failed; and in how many seconds."""
    words = ["kcat", "-P", "-t", "stock", "-vvv", "-b", f"127.0.0.1:{broker.port}"]
    for it in ("security.protocol=SASL_PLAINTEXT", "sasl.mechanisms=PLAIN", "sasl.username=ann", "sasl.password=pw1", *settings):
        words += ["-X", it]
    lines = "".join(f"{number}".ljust(LONG, "x") + "\n" for number in range(MESSAGES))
    began = time.monotonic()
    said = subprocess.run(words, input=lines, capture_output=True, text=True, timeout=200).stderr
    return [int(offset) if offset else fault for offset, fault in DELIVERY.findall(said)], time.monotonic() - began


def figures(port, tenant):
    """The lines of metrics that name a tenant."""
    with urllib.request.build_opener(urllib.request.ProxyHandler({})).open(f"http://127.0.0.1:{port}/metrics", timeout=10) as it:
        return [line for line in it.read().decode().split("\n") if f'tenant="{tenant}"' in line]


def past_limits(port, tenant):
    """How often metrics say that a tenant was told of each limit."""
    return {it[1]: int(it[2]) for it in map(OVER.match, figures(port, tenant)) if it}


def stock_client(broker, shown):
    """What is wrong where a stock client comes to the limit."""
    ann, bob, first, refused = Client(broker.port), Client(broker.port, b"bob", b"pw2"), 0, 0
    ann.create(b"stock")
    bob.create(b"other")
    bob.produce(b"other", batch(VALUE))
    before = figures(shown, "b")
    for name, settings in (("kcat", ()), ("idempotent kcat", ("enable.idempotence=true",))):
        told, took = kcat(broker, "batch.num.messages=1", *settings)
        fit = sum(isinstance(it, int) for it in told)
        size = 12 + struct.unpack_from(">i", ann.fetch(b"stock", first)[2], 8)[0]
        print(f"{name}: {fit} of {len(told)} messages are there, each a batch of {size} bytes; all were told in {took:.1f} s")
        yield f"{name} is told of each message", len(told) == MESSAGES
        yield f"{name}: those before the limit are there", told[:fit] == list(range(first, first + fit)) and fit == 10_485_760 // size
        yield f"{name}: all others fail by 44", set(told[fit:]) == {"Broker: Policy violation"}
        yield f"{name}: they fail at once", took < AT_ONCE
        refused += len(told) - fit
        yield f"{name}: each of them is counted", past_limits(shown, "a")["bytes"] == refused
        yield f"{name}: nothing else is there", ann.all([offset_at(b"stock", -1)])[0] == (0, first + fit)
        yield f"{name}: a deletion makes room", ann.delete_records(b"stock", -1) == 0
        first += fit
    yield "another tenant's figures are as before", figures(shown, "b") == before
    yield "another tenant's batches", bob.produce(b"other", batch(VALUE)) == (0, 1)


def played(program, rounds):
    """How many looks were wrong, and how many there were, of brokers that follow each other on a new folder."""
    wrong = count = 0
    with tempfile.TemporaryDirectory() as room:
        for more, looks in rounds:
            broker = Broker(program, room, more)
            try:
                if not broker.listens():
                    raise SystemExit(f"the broker does not listen: {broker.log()}")
                for name, is_well in looks(broker):
                    count += 1
                    if not is_well:
                        wrong += 1
                        print(f"wrong: {name}")
            finally:
                broker.stop()
    return wrong, count


def disk_bytes(folder):
    """The size of the device of a folder, where the system tells it."""
    device = os.stat(folder).st_dev
    try:
        with open(f"/sys/dev/block/{os.major(device)}:{os.minor(device)}/size", encoding="ascii") as it:
            return 512 * int(it.read())
    except OSError:
        return None


def on_disk(program, each, wanted):
    """What a start and a check say of the disk, where two tenants have so many bytes each: how much of it is wrong, and how much there is."""
    with tempfile.TemporaryDirectory() as room:
        broker = Broker(program, room, more=BOTH.format(each))
        listens = broker.listens()
        broker.stop()
        words = [os.path.abspath(program), "check", "--config", broker.settings]
        checked = subprocess.run(words, stdout=subprocess.PIPE, check=True, text=True).stdout
        size = disk_bytes(room)
        line = f"the disk of {room}/data has {size} bytes, and tenants may store {2 * each}"
        is_due = wanted and size is not None
        looks = [("listens", listens), ("serve", (line in broker.log()) == is_due), ("check", (line in checked) == is_due)]
    for name, is_well in looks:
        if not is_well:
            print(f"wrong: {name} on a disk of {size} bytes, of {2 * each} that may be stored")
    return sum(not it[1] for it in looks), len(looks)


def main(program):
    """Whether each limit holds, and holds nobody else."""
    shown = free_port()
    limited = LIMITED.format(port=shown)
    rounds = ((limited, lambda broker: at_limits(broker, shown)), (limited, repeats), (limited, started_again), (LOWER, lowered))
    wrong, count = played(program, rounds)
    more = played(program, [(GROUPS.format(port=shown), lambda broker: groups_at_limits(broker, shown))])
    wrong, count = wrong + more[0], count + more[1]
    if shutil.which("kcat"):
        more = played(program, [(STOCK.format(port=shown), lambda broker: stock_client(broker, shown))])
        wrong, count = wrong + more[0], count + more[1]
    else:
        print("there is no kcat here: its part is left out")
    for each, wanted in ((1 << 62, True), (1 << 20, False)):
        more = on_disk(program, each, wanted)
        wrong, count = wrong + more[0], count + more[1]
    print(f"{wrong} of {count} wrong")
    return 1 if wrong else 0


if __name__ == "__main__":
    if len(sys.argv) != 2:
        sys.exit(__doc__)
    sys.exit(main(sys.argv[1]))
