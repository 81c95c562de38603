#!/usr/bin/env python3
"""Makes the settings of each broker of a fleet, of the proxy in front of them and of Prometheus.

    examples/fleet/settings.py FLEET.toml OUT

OUT/NAME.toml is for the broker NAME, OUT/haproxy.cfg and OUT/brokers.map for HAProxy, OUT/prometheus.yml for Prometheus. They have
passwords and the token of metrics: only their owner may read them. A file that is there keeps the owner and the mode that it has. Python 3.11
or later.
"""

import json
import os
import sys
import tomllib

PROXY = """defaults
    mode tcp
    timeout connect 5s
    timeout client 10m
    timeout server 10m
frontend clients
    bind :{port} ssl crt {folder}/both.pem
    use_backend %[ssl_fc_sni,lower,map({folder}/brokers.map)]
"""


def value(it):
    """A value in TOML. It is JSON's, but that no character is written there as two halves, nor DEL as itself."""
    return json.dumps(it, ensure_ascii=False).replace("\x7f", "\\u007f")


def broker_settings(fleet, name, address):
    """The settings of a broker, as text."""
    host, port = address.rsplit(":", 1)
    lines = [f'host = "{host}"', f"port = {port}", f'data = "{fleet["data"]}"', "stock_clients = true"]
    lines += [f'advertise = "{address}"', f'metrics = "{host}:9644"', f'metrics_token = {value(fleet["metrics_token"])}']
    for tenant, table in fleet["tenants"].items():
        if table["broker"] == name:
            words = {"name": tenant, "advertise": f'{table["host"]}:{fleet["clients"]}'}
            words |= {key: it for key, it in table.items() if key not in ("broker", "host", "users")}
            lines += ["", "[[tenant]]", *(f"{key} = {value(it)}" for key, it in words.items())]
            for user, password in table["users"].items():
                words = {"name": user, "password": password, "tenant": tenant}
                lines += ["", "[[user]]", *(f"{key} = {value(it)}" for key, it in words.items())]
    return "\n".join(lines) + "\n"


def wrong(fleet):
    """What is wrong with a fleet that no broker would say, or nothing."""
    for key in ("clients", "data", "metrics_token", "brokers", "tenants"):
        if key not in fleet:
            return f"{key} is missing"
    hosts = {}
    for tenant, table in fleet["tenants"].items():
        for key in ("broker", "host", "users"):
            if key not in table:
                return f"tenant {tenant}: {key} is missing"
        if table["broker"] not in fleet["brokers"]:
            return f"tenant {tenant}: there is no broker {table['broker']}"
        if hosts.setdefault(table["host"].lower(), tenant) != tenant:
            return f"tenant {tenant}: tenant {hosts[table['host'].lower()]} has the same host"
    return ""


def main(path, out):
    """Writes all files, where nothing is wrong."""
    with open(path, "rb") as it:
        fleet = tomllib.load(it)
    fault = wrong(fleet)
    if fault:
        sys.exit(f"settings: {path}: {fault}")
    files = {f"{name}.toml": broker_settings(fleet, name, address) for name, address in fleet["brokers"].items()}
    proxy = PROXY.format(port=fleet["clients"], folder=os.path.abspath(out))
    files["haproxy.cfg"] = proxy + "".join(f"backend {name}\n    server {name} {at}\n" for name, at in fleet["brokers"].items())
    files["brokers.map"] = "".join(f'{it["host"].lower()} {it["broker"]}\n' for it in fleet["tenants"].values())
    targets = json.dumps([f'{at.rsplit(":", 1)[0]}:9644' for at in fleet["brokers"].values()])
    token = json.dumps(fleet["metrics_token"])
    files["prometheus.yml"] = (f"scrape_configs:\n  - job_name: kbroker\n    authorization: {{credentials: {token}}}\n"
                               f"    static_configs: [{{targets: {targets}}}]\n")
    os.makedirs(out, exist_ok=True)
    for name, text in files.items():
        with open(f"{out}/{name}", "w", encoding="utf-8", opener=lambda path, flags: os.open(path, flags, 0o600)) as it:
            it.write(text)


if __name__ == "__main__":
    if len(sys.argv) != 3:
        sys.exit(__doc__)
    main(*sys.argv[1:])
