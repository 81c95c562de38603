#!/usr/bin/env python3
"""Prints a group's share of a topic: group_consumer.py HOST:PORT USER PASSWORD TOPIC GROUP [SECONDS]

Each line is a partition, an offset and a value. It begins where the group has committed, or at the start of a partition where it has
not, and commits by itself, once a second and at its end. It ends once nothing has come for so many seconds (10 where that is left
out), or at an interrupt. Start two of them to share the topic's partitions.
"""
import sys

from confluent_kafka import Consumer


def told(what):
    """Says on standard error which partitions come and go."""
    return lambda _, partitions: print(what, sorted(p.partition for p in partitions), file=sys.stderr, flush=True)


def main(address, user, password, topic, group, seconds="10"):
    consumer = Consumer({
        "bootstrap.servers": address,
        "security.protocol": "SASL_PLAINTEXT",
        "sasl.mechanisms": "PLAIN",
        "sasl.username": user,
        "sasl.password": password,
        "group.id": group,
        "session.timeout.ms": 6000,
        "heartbeat.interval.ms": 1000,
        "enable.auto.commit": True,
        "auto.commit.interval.ms": 1000,
        "auto.offset.reset": "earliest",
        "log.connection.close": False,
    })
    consumer.subscribe([topic], on_assign=told("assigned"), on_revoke=told("revoked"))
    try:
        while (message := consumer.poll(float(seconds))) is not None:
            if message.error():
                sys.exit(f"group_consumer: {message.error().str()}")
            print(message.partition(), message.offset(), message.value().decode(), flush=True)
    except KeyboardInterrupt:
        pass
    finally:
        consumer.close()


if __name__ == "__main__":
    if len(sys.argv) not in (6, 7):
        sys.exit(__doc__)
    main(*sys.argv[1:])
