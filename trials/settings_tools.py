#!/usr/bin/python3
"""Tools that look at the settings of topics and of the broker, for each of two tenants.

    trials/settings_tools.py KBROKER

Two tenants have a topic of the same name with other settings, and one has a topic that was given none. Each is asked by frames of each
version of DescribeConfigs, whose bytes are composed here, by kafka-python's admin client and by confluent_kafka's `describe_configs`. It
says how many of the answers are wrong. It needs Debian's python3-kafka and python3-confluent-kafka.
"""

import itertools
import struct
import sys
import tempfile

from wire import Broker, Client, create, in_debians_python, text

in_debians_python("confluent_kafka", "kafka")

import confluent_kafka
import confluent_kafka.admin
import kafka
from kafka.admin import ConfigResource, ConfigResourceType

USERS = {"ann": "pw1", "bob": "pw2"}
DESCRIBE, TOPIC, BROKER = 32, 2, 4
VERSIONS = (0, 1, 2)
UNKNOWN, INVALID = 3, 42
DEFAULTS = {"cleanup.policy": "delete", "retention.bytes": "-1", "retention.ms": "604800000"}
OF_BROKER = {"auto.create.topics.enable": "false", "broker.id": "0", "default.replication.factor": "1", "log.cleanup.policy": "delete",
             "log.retention.bytes": "-1", "log.retention.ms": "604800000"}
GIVEN = {
    "ann": {"both": {"retention_ms": 86_400_000}, "plain": {}},
    "bob": {"both": {"retention_bytes": 1_000_000, "retention_ms": 3_600_000}},
}


def settings_of(given):
    """What a topic of these settings is told to have: a value, and whether it is the default, by name."""
    values = {**DEFAULTS, **{name.replace("_", "."): str(value) for name, value in given.items()}}
    return {name: (value, value == DEFAULTS[name]) for name, value in values.items()}


class Count:
    """How many answers were looked at, and how many are wrong."""

    def __init__(self):
        self.all = self.wrong = 0

    def must(self, what, got, wanted):
        """Counts an answer, and says where it is another one than is wanted."""
        self.all += 1
        if got != wanted:
            self.wrong += 1
            print(f"WRONG {what}: {got!r}, and not {wanted!r}")


def asked(kind, name, keys):
    """A resource in a request."""
    names = struct.pack(">i", -1) if keys is None else struct.pack(">i", len(keys)) + b"".join(text(key.encode()) for key in keys)
    return struct.pack(">b", kind) + text(name.encode()) + names


def spelled(version, kind, name, code, settings):
    """A resource in a reply, by the layout of a version."""
    out = struct.pack(">hhb", code, -1, kind) + text(name.encode()) + struct.pack(">i", len(settings))
    for key, (value, is_default) in sorted(settings.items()):
        source = struct.pack(">b", is_default) if version == 0 else struct.pack(">b", 5 if is_default else 1)
        out += text(key.encode()) + text(value.encode()) + b"\1" + source + b"\0" + (struct.pack(">i", 0) if version else b"")
    return out


def ask_by_frames(count, port, user, topics):
    """Each version, for each topic, for the broker, for some settings alone, for what is not there, and for all of it at once."""
    client = Client(port, user.encode(), USERS[user].encode())
    of_broker = {name: (value, True) for name, value in OF_BROKER.items()}
    some = {"broker.id": of_broker["broker.id"]}
    cases = [(TOPIC, name, None, 0, settings) for name, settings in topics.items()]
    cases += [(TOPIC, name, ["retention.ms", "nothing"], 0, {"retention.ms": it["retention.ms"]}) for name, it in topics.items()]
    cases += [(TOPIC, "nobodys", None, UNKNOWN, {}), (TOPIC, "both", [], 0, {}), (BROKER, "0", None, 0, of_broker)]
    cases += [(BROKER, "0", ["broker.id", "broker.id"], 0, some), (BROKER, "1", None, INVALID, {}), (BROKER, "", None, INVALID, {})]
    cases += [(8, "both", None, INVALID, {}), (TOPIC, "plain", None, *((0, topics["plain"]) if "plain" in topics else (UNKNOWN, {})))]
    for version, part in itertools.product(VERSIONS, [[it] for it in cases] + [cases, []]):
        body = struct.pack(">i", len(part)) + b"".join(asked(*it[:3]) for it in part) + (b"\1" if version else b"")
        wanted = struct.pack(">ii", 0, len(part)) + b"".join(spelled(version, it[0], it[1], *it[3:]) for it in part)
        count.must(f"{user}, DescribeConfigs {version} of {[it[:3] for it in part]}", client.ask(DESCRIBE, version, body), wanted)


def ask_kafka_python(count, port, user, topics):
    """kafka-python's admin client describes each topic, and the broker."""
    admin = kafka.KafkaAdminClient(
        bootstrap_servers=f"127.0.0.1:{port}", security_protocol="SASL_PLAINTEXT", sasl_mechanism="PLAIN",
        sasl_plain_username=user, sasl_plain_password=USERS[user])
    of_broker = {name: (value, True) for name, value in OF_BROKER.items()}
    wanted = [(ConfigResourceType.TOPIC, *it) for it in topics.items()] + [(ConfigResourceType.BROKER, "0", of_broker)]
    for kind, name, settings in wanted:
        replies = admin.describe_configs([ConfigResource(kind, name)])
        told = [it for reply in replies for it in reply.resources]
        got = [(it[0], it[3], {c[0]: (c[1], c[3] is True or c[3] == 5) for c in it[4]}) for it in told]
        count.must(f"{user}, kafka-python, {name}", got, [(0, name, settings)])
    admin.close()


def ask_librdkafka(count, port, user, topics):
    """confluent_kafka's `describe_configs`, of each topic, of one that is not there, and of the broker."""
    admin = confluent_kafka.admin.AdminClient({
        "bootstrap.servers": f"127.0.0.1:{port}", "security.protocol": "SASL_PLAINTEXT", "sasl.mechanisms": "PLAIN",
        "sasl.username": user, "sasl.password": USERS[user]})
    of_broker = {name: (value, True) for name, value in OF_BROKER.items()}
    kinds = confluent_kafka.admin.ConfigResource.Type
    cases = [(kinds.TOPIC, *it) for it in topics.items()] + [(kinds.BROKER, "0", of_broker), (kinds.TOPIC, "nobodys", None)]
    for kind, name, settings in cases:
        (told,) = admin.describe_configs([confluent_kafka.admin.ConfigResource(kind, name)], request_timeout=10).values()
        try:
            got = {it.name: (it.value, it.is_default) for it in told.result().values()}
        except confluent_kafka.KafkaException as refused:
            got = None if refused.args[0].code() == confluent_kafka.KafkaError.UNKNOWN_TOPIC_OR_PART else refused
        count.must(f"{user}, confluent_kafka, {name}", got, settings)


def main(program):
    """Both tenants."""
    count = Count()
    with tempfile.TemporaryDirectory() as room:
        broker = Broker(program, room)
        try:
            if not broker.listens():
                raise SystemExit(broker.log())
            for user, topics in GIVEN.items():
                client = Client(broker.port, user.encode(), USERS[user].encode())
                for name, given in topics.items():
                    key, version, body, read = create(name.encode(), **given)
                    count.must(f"{user} makes {name}", read(client.ask(key, version, body)), 0)
            told = {user: {name: settings_of(given) for name, given in topics.items()} for user, topics in GIVEN.items()}
            for (user, topics), ask in itertools.product(told.items(), (ask_by_frames, ask_kafka_python, ask_librdkafka)):
                ask(count, broker.port, user, topics)
        finally:
            broker.stop()
    print(f"{count.wrong} of {count.all} wrong")
    return 1 if count.wrong else 0


if __name__ == "__main__":
    if len(sys.argv) != 2:
        raise SystemExit(__doc__)
    sys.exit(main(sys.argv[1]))
