#!/usr/bin/env python3
"""Three brokers and a proxy, each with an address of its own: a tenant moves under load, and a standby takes a broker's place.

    trials/fleet.py KBROKER

It wants root, `ip netns`, `arping`, HAProxy and OpenSSL. Settings come from `examples/fleet/settings.py`. Six tenants produce through the proxy, each by
the name of its own, which TLS tells (SNI), and commit offsets. Then one moves by the steps of FLEET, and later a broker is killed with its
network, and a standby goes on with the last backup. What is looked at: each tenant is told its own address; each acknowledged record is
where it was acknowledged, also after the move; groups go on from their offsets; on the standby all is there that was acknowledged before
the backup began. Prometheus, where it is installed, scrapes all of them by the fleet's file: each target is up, before and after; each tenant
is on its own broker's page; and what it says of topics, bytes and lag over the fleet is so. It prints the longest pause of each tenant, and
`N of M wrong`.
"""

import contextlib
import json
import os
import shutil
import signal
import socket
import ssl
import struct
import subprocess
import sys
import tempfile
import threading
import time
import tomllib
import urllib.error
import urllib.parse
import urllib.request

from wire import Client, batch, commit, committed, create, fetch, offset_at, text

HERE = os.path.dirname(os.path.realpath(__file__))
EXAMPLES = f"{HERE}/../examples"
NET, PROXY, PORT, SHOWN = "kb-fleet", "10.77.0.1", 9093, "127.0.0.1:9090"
ADDRESS = {"one": "10.77.0.11", "two": "10.77.0.12", "three": "10.77.0.13", "standby": "10.77.0.14"}


def run(*words, **more):
    """Runs a command, which has to succeed, and answers what it printed."""
    return subprocess.run(words, check=True, capture_output=True, text=True, **more).stdout


def made_network():
    """A namespace with a bridge, and one for each machine."""
    run("ip", "netns", "add", NET)
    inside = ["ip", "-n", NET]
    for words in ("link set lo up", "link add bridge type bridge", "link set bridge up", f"addr add {PROXY}/24 dev bridge"):
        run(*inside, *words.split())
    for name, address in ADDRESS.items():
        run("ip", "netns", "add", f"{NET}-{name}")
        run(*inside, "link", "add", name, "type", "veth", "peer", "name", "eth0", "netns", f"{NET}-{name}")
        run(*inside, *f"link set {name} master bridge up".split())
        for words in ("link set lo up", f"addr add {address}/24 dev eth0", "link set eth0 up"):
            run("ip", "-n", f"{NET}-{name}", *words.split())


def without_network():
    """Removes the namespaces that are there."""
    for name in [NET, *(f"{NET}-{it}" for it in ADDRESS)]:
        subprocess.run(["ip", "netns", "del", name], capture_output=True)


class Machine:
    """A machine with a broker on a data folder of its own."""

    def __init__(self, program, room, name):
        self.program, self.room, self.name = os.path.abspath(program), room, name
        self.data, self.process = f"{room}/{name}-data", None

    def start(self, settings):
        """Starts the broker by that file, with this machine's folder."""
        with open(settings, encoding="utf-8") as it:
            words = "\n".join(f'data = "{self.data}"' if line.startswith("data = ") else line for line in it.read().split("\n"))
        path = f"{self.room}/{self.name}.toml"
        with open(path, "w", encoding="utf-8") as out:
            out.write(words)
        os.chmod(path, 0o600)
        with open(f"{self.room}/{self.name}.log", "ab") as log:
            self.process = subprocess.Popen(["ip", "netns", "exec", f"{NET}-{self.name}", self.program, "serve", "--config", path], stderr=log)

    def stop(self, how=signal.SIGTERM):
        self.process.send_signal(how)
        self.process.wait()


class Named(Client):
    """A client that connects through the proxy by its tenant's name."""

    def __init__(self, host, user, password, authority, timeout):
        context = ssl.create_default_context(cafile=authority)
        plain = socket.create_connection((PROXY, PORT), timeout=timeout)
        self.socket = context.wrap_socket(plain, server_hostname=host)
        self.ask(17, 1, text(b"PLAIN"))
        words = b"\0" + user.encode() + b"\0" + password.encode()
        self.ask(36, 0, struct.pack(">i", len(words)) + words)

    def told(self):
        """The address that Metadata tells."""
        got = self.ask(3, 1, struct.pack(">i", 0))
        size = struct.unpack_from(">h", got, 8)[0]
        return got[10:10 + size].decode(), struct.unpack_from(">i", got, 10 + size)[0]


class Customer(threading.Thread):
    """A tenant's producer, which sends record after record, and commits an offset with each tenth."""

    def __init__(self, name, table, authority):
        super().__init__(daemon=True)
        self.name, self.host = name, table["host"]
        self.words = [self.host, *next(iter(table["users"].items())), authority]
        self.acknowledged, self.commits, self.pause, self.ends = {}, [], 0.0, False

    def client(self, timeout=20):
        return Named(*self.words, timeout)

    def run(self):
        client, number, last = None, 0, time.monotonic()
        while not self.ends:
            number += 1
            value = f"{self.name} {number}".encode()
            try:
                client = client or self.client(5)
                code, offset = client.produce(b"orders", batch(value))
                if code == 0:
                    self.acknowledged[offset] = value
                    self.pause, last = max(self.pause, time.monotonic() - last), time.monotonic()
                if code == 0 and number % 10 == 0 and client.all([commit(b"readers", b"orders", b"", offset)])[0] == 0:
                    self.commits.append(offset)
            except (OSError, struct.error):
                client = None
                time.sleep(0.02)
            time.sleep(0.005)

    def kept(self, before=None):
        """Whether what was acknowledged is where it was, and the group's offset is what it committed last."""
        client = self.client()
        expected = dict(list(self.acknowledged.items())[:before])
        end, at, there = client.all([offset_at(b"orders", -1)])[0][1], 0, set()
        while at < end:
            code, _, data = client.fetch(b"orders", at)
            if code or not data:
                return False
            while len(data) > 12:
                base, size = struct.unpack_from(">qi", data)
                there.add(base) if expected.get(base, b"") in data[:12 + size] else None
                at, data = base + 1, data[12 + size:]
        offset = client.all([committed(b"readers", b"orders")])[0]
        return set(expected) <= there and (before is not None or offset == self.commits[-1])


def soon(holds):
    """Whether that holds within twenty seconds."""
    for _ in range(200):
        with contextlib.suppress(OSError, KeyError):
            if holds():
                return True
        time.sleep(0.1)
    return False


def listens(address, port):
    """Whether somebody listens there, within twenty seconds."""
    return soon(lambda: socket.create_connection((address, port), timeout=1).close() is None)


def page(address, token=None):
    """A page over HTTP, or the status where it is refused."""
    request = urllib.request.Request(f"http://{address}", headers={"Authorization": f"Bearer {token}"} if token else {})
    try:
        with urllib.request.build_opener(urllib.request.ProxyHandler({})).open(request, timeout=5) as it:
            return it.read()
    except urllib.error.HTTPError as fault:
        return fault.code


class Prometheus:
    """A Prometheus that scrapes by the fleet's file, but twice a second."""

    def __init__(self, room):
        with open(f"{room}/fleet/prometheus.yml", encoding="utf-8") as it:
            words = it.read()
        with open(f"{room}/prometheus.yml", "w", encoding="utf-8") as out:
            out.write("global: {scrape_interval: 500ms, scrape_timeout: 500ms}\n" + words)
        words = ["prometheus", f"--config.file={room}/prometheus.yml", f"--storage.tsdb.path={room}/tsdb", f"--web.listen-address={SHOWN}"]
        self.process = subprocess.Popen(words, stdout=subprocess.DEVNULL, stderr=subprocess.DEVNULL)

    def targets(self):
        """Whether each target is up, by its address."""
        told = json.loads(page(f"{SHOWN}/api/v1/targets?state=active"))["data"]["activeTargets"]
        return {it["labels"]["instance"]: it["health"] == "up" for it in told}

    def says(self, query, *labels):
        """The values of a query, by these labels."""
        words = urllib.parse.urlencode({"query": query})
        told = json.loads(page(f"{SHOWN}/api/v1/query?{words}"))["data"]["result"]
        return {tuple(it["metric"].get(label) for label in labels): float(it["value"][1]) for it in told}

    def stop(self):
        self.process.kill()
        self.process.wait()


def pages_are_well(room, token):
    """What promtool says of the fleet's file and of each broker's page, and who is shown no page."""
    checked = subprocess.run(["promtool", "check", "config", f"{room}/fleet/prometheus.yml"], capture_output=True, text=True)
    yield f"promtool of the configuration: {checked.stdout}{checked.stderr}", checked.returncode == 0
    for name in ("one", "two", "three"):
        address = f"{ADDRESS[name]}:9644/metrics"
        checked = subprocess.run(["promtool", "check", "metrics"], input=page(address, token), capture_output=True)
        yield f"promtool of the page of {name}: {checked.stderr.decode()}", checked.returncode == 0
        yield f"the page of {name} without its token", page(address) == 401


def watched(prometheus, table):
    """Whether Prometheus sees each broker, and each tenant on its own one."""
    up = {f"{ADDRESS[name]}:9644": True for name in ("one", "two", "three")}
    yield "all targets are up", soon(lambda: prometheus.targets() == up)
    topics = {(name, f'{ADDRESS[it["broker"]]}:9644'): 1.0 for name, it in table.items()}
    yield "each tenant's topic is on its broker", soon(lambda: prometheus.says("kbroker_topics", "tenant", "instance") == topics)
    groups = {(name, "readers") for name in table}
    lag = "max by (tenant, group) (kbroker_group_lag)"
    yield "each group has its lag", soon(lambda: set(prometheus.says(lag, "tenant", "group")) == groups)
    sent = "sum by (tenant) (rate(kbroker_request_bytes_total[5m]))"
    yield "each tenant sends", soon(lambda: [it > 0 for it in prometheus.says(sent, "tenant").values()] == [True] * len(table))


def lags(customers):
    """By how much each tenant's group is behind, as its client is told."""
    out = {}
    for it in customers:
        (_, end), offset = it.client().all([offset_at(b"orders", -1), committed(b"readers", b"orders")])
        out[it.name, "readers"] = float(end - offset)
    return out


def settings_of(fleet, room):
    """Makes all files of a fleet's table, with the certificate beside them."""
    run(f"{EXAMPLES}/fleet/settings.py", fleet, f"{room}/fleet")


def certificate(room):
    """A certificate of all names of the fleet, by OpenSSL."""
    folder = f"{room}/fleet"
    os.makedirs(folder, exist_ok=True)
    run("openssl", "req", "-x509", "-newkey", "rsa:2048", "-nodes", "-days", "2", "-subj", "/CN=logs.example", "-addext",
        "subjectAltName=DNS:*.logs.example", "-keyout", f"{folder}/key.pem", "-out", f"{folder}/cert.pem")
    with open(f"{folder}/both.pem", "wb") as out:
        for name in ("cert.pem", "key.pem"):
            with open(f"{folder}/{name}", "rb") as it:
                shutil.copyfileobj(it, out)
    return f"{folder}/cert.pem"


def moved(program, room, fleet, machines, proxy):
    """Moves the bakery from one to three, step by step; the seconds that each broker did not listen."""
    with open(fleet, encoding="utf-8") as it:
        words = it.read().replace('[tenants.bakery]\nbroker = "one"', '[tenants.bakery]\nbroker = "three"')
    with open(fleet, "w", encoding="utf-8") as out:
        out.write(words)
    settings_of(fleet, room)
    stood = {}
    for name, step in (("one", "export"), ("three", "import")):
        machine, began = machines[name], time.monotonic()
        machine.stop()
        print(run(program, "tenant", step, "--data", machine.data, "--tenant", "bakery", f"{room}/bakery-files").strip())
        machine.start(f"{room}/fleet/{name}.toml")
        stood[name] = time.monotonic() - began
    proxy.send_signal(signal.SIGUSR2)
    return stood


def removed(program, room, machine):
    """Removes what the bakery left on the broker that it went from."""
    machine.stop()
    print(run(program, "tenant", "remove", "--data", machine.data, "--tenant", "bakery", "--yes").strip())
    machine.start(f"{room}/fleet/{machine.name}.toml")


def is_up(customers):
    """Whether each customer has something acknowledged from now on, within twenty seconds."""
    counts = [len(it.acknowledged) for it in customers]
    for _ in range(400):
        if all(len(it.acknowledged) > count for it, count in zip(customers, counts)):
            return True
        time.sleep(0.05)
    return False


def standby(room, machines, customers):
    """Takes a backup, kills a broker with its network, and starts the standby on the backup under its address."""
    machine, other = machines["two"], machines["standby"]
    before = {it.name: len(it.acknowledged) for it in customers}
    run(f"{EXAMPLES}/backup.sh", str(machine.process.pid), machine.data, other.data)
    time.sleep(0.5)
    machine.stop(signal.SIGKILL)
    run("ip", "netns", "del", f"{NET}-two")
    run("ip", "-n", f"{NET}-standby", "addr", "add", f'{ADDRESS["two"]}/24', "dev", "eth0")
    other.start(f"{room}/fleet/two.toml")
    run("ip", "netns", "exec", f"{NET}-standby", "arping", "-c", "1", "-U", "-I", "eth0", ADDRESS["two"])
    return before


def began(program, room):
    """The machines, the proxy, the tenants' table, and their customers, none of whom has begun."""
    fleet, authority = f"{room}/fleet.toml", certificate(room)
    shutil.copy(f"{EXAMPLES}/fleet/fleet.toml", fleet)
    settings_of(fleet, room)
    machines = {name: Machine(program, room, name) for name in ADDRESS}
    for name in ("one", "two", "three"):
        machines[name].start(f"{room}/fleet/{name}.toml")
    proxy = subprocess.Popen(["haproxy", "-W", "-db", "-f", f"{room}/fleet/haproxy.cfg"], stderr=subprocess.DEVNULL)
    table = table_of(fleet)
    if not all([*(listens(ADDRESS[name], 9092) for name in ("one", "two", "three")), listens(PROXY, PORT)]):
        raise SystemExit("a broker or the proxy does not listen")
    return fleet, machines, proxy, table, [Customer(name, it, authority) for name, it in table.items()]


def table_of(fleet, what="tenants"):
    """The tenants of a fleet's file, or what else stands in it."""
    with open(fleet, "rb") as it:
        return tomllib.load(it)[what]


def looked_at(program, room):
    """What holds, by name. At last everything that was started is ended."""
    fleet, machines, proxy, table, customers = began(program, room)
    prometheus = Prometheus(room) if shutil.which("prometheus") and shutil.which("promtool") else None
    if not prometheus:
        print("there is no Prometheus here: its part is left out")
    try:
        for it in customers:
            client = it.client()
            yield f"{it.name} is told its address", client.told() == (it.host, PORT)
            client.create(b"orders")
            it.start()
        yield "all produce", is_up(customers)
        if prometheus:
            yield from pages_are_well(room, table_of(fleet, "metrics_token"))
            yield from watched(prometheus, table)
        yield from tenant_moves(program, room, fleet, machines, proxy, customers, prometheus)
        yield from standby_goes_on(room, fleet, machines, table, customers, prometheus)
    finally:
        for it in machines.values():
            if it.process and it.process.poll() is None:
                it.stop(signal.SIGKILL)
        proxy.terminate()
        proxy.wait()
        if prometheus:
            prometheus.stop()


def tenant_moves(program, room, fleet, machines, proxy, customers, prometheus):
    """What holds when a tenant moves."""
    stood = moved(program, room, fleet, machines, proxy)
    yield "all produce after the move", is_up(customers)
    pauses = {it.name: round(it.pause, 2) for it in customers}
    print(f"brokers stood still for { {name: round(it, 2) for name, it in stood.items()} } s; the longest pause of each: {pauses}")
    yield from watched(prometheus, table_of(fleet)) if prometheus else []
    removed(program, room, machines["one"])
    yield "all produce after the removal", is_up(customers)


def standby_goes_on(room, fleet, machines, table, customers, prometheus):
    """What holds when a standby takes the place of a broker, and what all tenants have at last."""
    for it in customers:
        it.pause = 0.0
    before = standby(room, machines, [it for it in customers if table[it.name]["broker"] == "two"])
    yield "all produce on the standby", is_up(customers)
    print(f"the longest pause of each at the standby: { {it.name: round(it.pause, 2) for it in customers} }")
    for it in customers:
        it.ends = True
        it.join()
        yield f"{it.name} has what was acknowledged", it.kept(before.get(it.name))
    if prometheus:
        yield from watched(prometheus, table_of(fleet))
        lag = "max by (tenant, group) (kbroker_group_lag)"
        yield "each group's lag is what its client is told", soon(lambda: prometheus.says(lag, "tenant", "group") == lags(customers))


def main(program):
    """Whether a fleet does what its page says."""
    if "KB_FLEET" not in os.environ:
        without_network()
        made_network()
        with contextlib.suppress(KeyboardInterrupt):
            words = ["ip", "netns", "exec", NET, sys.executable, os.path.realpath(__file__), program]
            status = subprocess.run(words, env={**os.environ, "KB_FLEET": "1"}).returncode
        without_network()
        return status
    wrong = count = 0
    with tempfile.TemporaryDirectory() as room:
        for name, holds in looked_at(program, room):
            count += 1
            if not holds:
                wrong += 1
                print(f"wrong: {name}", flush=True)
    print(f"{wrong} of {count} wrong")
    return 1 if wrong else 0


if __name__ == "__main__":
    if len(sys.argv) != 2:
        sys.exit(__doc__)
    sys.exit(main(sys.argv[1]))
