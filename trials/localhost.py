#!/usr/bin/env python3
"""localhost.py KBROKER [KCONSOLE]: a broker on `localhost` answers at each address of it, and tells clients what is advertised.

`localhost` is to be `::1` and, twice, `127.0.0.1`, which is listened on once. The script runs itself in a mount namespace of its own with
another file bound over it (`unshare -m`, as root); the system's file is not changed. A second run is in a network namespace without
IPv6: the broker goes on with `127.0.0.1`. It takes some seconds, uses 127.0.0.1 and ::1 alone, and prints how many addresses answered."""
import fcntl, os, shutil, socket, struct, subprocess, sys, tempfile, time

ADDRESSES = ("127.0.0.1", "::1")
HOSTS = "127.0.0.1 localhost\n::1 localhost ip6-localhost\n127.0.0.1 localhost\n"
USER = 'connections = 64\n[[user]]\nname = "ann"\npassword = "pw1"\ntenant = "a"\n'


def text(value):
    return struct.pack(">h", len(value)) + value.encode()


def exactly(sock, size):
    got = b""
    while len(got) < size:
        piece = sock.recv(size - len(got))
        if not piece:
            raise EOFError("the connection was closed")
        got += piece
    return got


def ask(sock, key, version, body):
    """The reply to a request, behind its correlation id."""
    request = struct.pack(">hhih", key, version, 7, -1) + body
    sock.sendall(struct.pack(">i", len(request)) + request)
    reply = exactly(sock, struct.unpack(">i", exactly(sock, 4))[0])
    assert struct.unpack(">i", reply[:4])[0] == 7, "another correlation id"
    return reply[4:]


def connect(address, port):
    return socket.create_connection((address, port), timeout=10)


def versions_of(address, port):
    with connect(address, port) as sock:
        return struct.unpack(">h", ask(sock, 18, 0, b"")[:2])[0]


def told_at(address, port):
    """The host and the port that Metadata tells."""
    with connect(address, port) as sock:
        ask(sock, 17, 1, text("PLAIN"))
        login = b"\0ann\0pw1"
        answer = ask(sock, 36, 0, struct.pack(">i", len(login)) + login)
        assert answer[:2] == b"\0\0", "the login failed"
        reply = ask(sock, 3, 1, struct.pack(">i", -1))
    brokers, _node, length = struct.unpack(">iih", reply[:10])
    assert brokers == 1, "another number of brokers"
    host = reply[10:10 + length].decode()
    return host, struct.unpack(">i", reply[10 + length:14 + length])[0]


def free_port():
    """A port that is free on all addresses that there are."""
    for _ in range(100):
        with socket.socket() as first:
            first.bind(("127.0.0.1", 0))
            port = first.getsockname()[1]
            try:
                with socket.socket(socket.AF_INET6) as second:
                    second.bind(("::1", port))
            except OSError as error:
                if error.errno == 98:
                    continue
            return port
    raise OSError("no free port")


class Broker:
    def __init__(self, program, folder, keys):
        self.program, self.folder = program, folder
        os.makedirs(folder, exist_ok=True)
        self.config = f"{folder}/kbroker.toml"
        with open(self.config, "w") as file:
            file.write(f'{keys}data = "{folder}/data"\n{USER}')

    def __enter__(self):
        self.process = subprocess.Popen([self.program, "serve", "--config", self.config, "--quiet"],
                                        stdout=subprocess.PIPE, stderr=subprocess.PIPE, text=True)
        self.line = self.process.stdout.readline().strip()
        return self

    def __exit__(self, *_):
        self.process.kill()
        self.process.communicate()

    def fault(self):
        """What it says where it does not start."""
        done = subprocess.run([self.program, "serve", "--config", self.config, "--quiet"],
                              capture_output=True, text=True, timeout=10)
        # (an executable without a proof says so first)
        return "\n".join(line for line in done.stderr.split("\n") if ": unproved, " not in line).strip()


def expect(what, found, wanted):
    right = found == wanted
    print(f"{'ok' if right else 'NOT AS WANTED'}: {what}: {found}" + ("" if right else f", and not {wanted}"))
    return right


def answering(port, addresses):
    return [address for address in addresses if answers(address, port)]


def answers(address, port):
    try:
        return versions_of(address, port) == 0
    except (OSError, EOFError):
        return False


def with_both(program, home):
    """Both addresses answer, and clients are told what is advertised, or the host."""
    port, right = free_port(), True
    address = f'host = "localhost"\nport = {port}\n'
    with Broker(program, f"{home}/told", address + 'advertise = "broker.example:19999"\n') as broker:
        print(broker.line)
        right &= expect("times that 127.0.0.1 is listened on", broker.line.count(f"127.0.0.1:{port}"), 1)
        right &= expect("ApiVersions answered at", answering(port, ADDRESSES), list(ADDRESSES))
        right &= expect("Metadata tells", told_at("127.0.0.1", port), ("broker.example", 19999))
        taken = Broker(program, f"{home}/taken", address).fault()
        right &= expect("a taken port", taken.startswith("kbroker: cannot listen: ") and taken.endswith(": address in use"), True)
        print(f"    {taken}")
    with Broker(program, f"{home}/host", address) as broker:
        right &= expect("without advertise Metadata tells", told_at("127.0.0.1", port), ("localhost", port))
    every = 'host = "0.0.0.0"\n'
    right &= expect("0.0.0.0 alone", Broker(program, f"{home}/every", every).fault().split(": ")[:3],
                    ["kbroker", "bad settings", "host"])
    with Broker(program, f"{home}/every", f'host = "::"\nport = {port}\nadvertise = "[::1]:{port}"\n') as broker:
        print(broker.line)
        right &= expect(":: with advertise tells", told_at("::1", port), ("::1", port))
    return right


def without_ipv6(program, home):
    """With no IPv6 the broker goes on with IPv4."""
    with open("/proc/sys/net/ipv6/conf/all/disable_ipv6", "w") as file:
        file.write("1")
    with socket.socket(socket.AF_INET, socket.SOCK_DGRAM) as sock:  # the loopback of a new namespace is down
        fcntl.ioctl(sock, 0x8914, struct.pack("16sh14x", b"lo", 0x49))
    port = free_port()
    with Broker(program, f"{home}/four", f'host = "localhost"\nport = {port}\n') as broker:
        print(broker.line)
        return expect("without IPv6 ApiVersions answered at", answering(port, ADDRESSES), ["127.0.0.1"])


def within(part, program, words):
    """A part of the trial in namespaces of its own."""
    home = tempfile.mkdtemp(prefix="localhost-")
    try:
        with open(f"{home}/hosts", "w") as file:
            file.write(HOSTS)
        shell = f'mount --bind {home}/hosts /etc/hosts && exec "$0" "$@"'
        return subprocess.run(["unshare", *words, "sh", "-c", shell, sys.executable, os.path.abspath(sys.argv[0]), part, program, home],
                              timeout=60).returncode == 0
    finally:
        shutil.rmtree(home, ignore_errors=True)


def main():
    if sys.argv[1] in ("--both", "--four"):
        trial = {"--both": with_both, "--four": without_ipv6}[sys.argv[1]]
        sys.exit(0 if trial(sys.argv[2], sys.argv[3]) else 1)
    program, began = os.path.abspath(sys.argv[1]), time.time()
    right = [within("--both", program, ["-m"]), within("--four", program, ["-m", "-n"])]
    print(f"{sum(right)} of {len(right)} parts as wanted, {time.time() - began:.1f} s")
    sys.exit(0 if all(right) else 1)


if __name__ == "__main__":
    main()
