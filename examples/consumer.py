#!/usr/bin/env python3
"""Prints what stands in partition 0 of a topic, up to its end: consumer.py HOST:PORT USER PASSWORD TOPIC [FROM]

It asks for the partition by name and reads from the offset FROM (0 where it is left out), without a group: group_consumer.py has one.
"""
import sys

from confluent_kafka import Consumer, KafkaError, KafkaException, TopicPartition


def main(address, user, password, topic, start="0"):
    consumer = Consumer({
        "bootstrap.servers": address,
        "security.protocol": "SASL_PLAINTEXT",
        "sasl.mechanisms": "PLAIN",
        "sasl.username": user,
        "sasl.password": password,
        # The library wants a name and asks for the group's coordinator. With `assign` and no commits nothing else is asked of a group.
        "group.id": "none",
        "enable.auto.commit": False,
        "log.connection.close": False,
        "enable.partition.eof": True,
        "auto.offset.reset": "error",
    })
    try:
        fault = consumer.list_topics(topic, timeout=10).topics[topic].error
    except KafkaException as refused:
        sys.exit(f"consumer: {refused.args[0].str()}")
    if fault:
        sys.exit(f"consumer: {fault.str()}")
    consumer.assign([TopicPartition(topic, 0, int(start))])
    while True:
        message = consumer.poll(10)
        if message is None:
            sys.exit("consumer: nothing came for ten seconds")
        fault = message.error()
        if fault and fault.code() == KafkaError._PARTITION_EOF:
            break
        if fault:
            sys.exit(f"consumer: {fault.str()}")
        print(message.offset(), message.value().decode())
    consumer.close()


if __name__ == "__main__":
    if len(sys.argv) not in (5, 6):
        sys.exit(__doc__)
    main(*sys.argv[1:])
