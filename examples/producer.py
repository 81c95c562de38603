#!/usr/bin/env python3
"""Writes the lines of standard input to a topic, in order and each once: producer.py HOST:PORT USER PASSWORD TOPIC"""
import sys

from confluent_kafka import Producer


def main(address, user, password, topic):
    producer = Producer({
        "bootstrap.servers": address,
        "security.protocol": "SASL_PLAINTEXT",
        "sasl.mechanisms": "PLAIN",
        "sasl.username": user,
        "sasl.password": password,
        # What was sent twice after a lost connection is kept once.
        "enable.idempotence": True,
        # The broker takes no compressed batch, and none above 1,048,588 bytes.
        "compression.type": "none",
        "message.max.bytes": 1000000,
        "message.timeout.ms": 10000,
    })
    offsets = []
    faults = []

    def delivered(fault, message):
        if fault:
            faults.append(fault.str())
        else:
            offsets.append(message.offset())

    for line in sys.stdin:
        producer.produce(topic, line.rstrip("\n"), on_delivery=delivered)
        producer.poll(0)
    unsent = producer.flush(15)
    if faults or unsent:
        sys.exit(f"producer: {len(faults) + unsent} not sent: {faults[0] if faults else 'no answer'}")
    print(f"{len(offsets)} sent")


if __name__ == "__main__":
    if len(sys.argv) != 5:
        sys.exit(__doc__)
    main(*sys.argv[1:])
