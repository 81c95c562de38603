#!/usr/bin/env python3
"""Says what librdkafka gets from a broker, call by call, in a minute or two: probe_clients.py HOST:PORT USER PASSWORD

It makes topics named `probe-..` and deletes them in the end. docs/CLIENTS.md was written by what it printed.
"""
import os
import sys
import time

from confluent_kafka import OFFSET_BEGINNING, OFFSET_END, Consumer, KafkaException, Producer, TopicPartition
from confluent_kafka.admin import AdminClient, ConfigResource, NewPartitions, NewTopic

TOPIC = f"probe-{int(time.time())}"


class Probe:
    def __init__(self, address, user, password):
        self.settings = {
            "bootstrap.servers": address,
            "security.protocol": "SASL_PLAINTEXT",
            "sasl.mechanisms": "PLAIN",
            "sasl.username": user,
            "sasl.password": password,
        }
        self.admin = AdminClient(self.settings)

    def make(self, topic, partitions=1, replicas=1, settings=None):
        return answers(self.admin.create_topics([NewTopic(topic, partitions, replicas, config=settings or {})]))

    def delete(self, topic):
        return answers(self.admin.delete_topics([topic]))

    def send(self, values, topic=TOPIC, **settings):
        """The offset of each value, or why it was not sent."""
        producer = Producer({**self.settings, "message.timeout.ms": 6000, **dotted(settings)})
        told = []
        for value in values:
            producer.produce(topic, value, partition=0, on_delivery=lambda e, m: told.append(e.str() if e else m.offset()))
            producer.poll(0)
        producer.flush(15)
        return told

    def consumer(self, **settings):
        return Consumer({
            **self.settings, "group.id": "none", "enable.auto.commit": False, "auto.offset.reset": "error",
            "enable.partition.eof": True, "log.connection.close": False, **dotted(settings),
        })

    def read(self, consumer, offset, topic=TOPIC, seconds=6):
        """What comes from an offset on, up to the end of the partition."""
        consumer.assign([TopicPartition(topic, 0, offset)])
        return drained(consumer, seconds)

    def topics(self):
        print("make", self.make(TOPIC, 2, settings={"retention.ms": "3600000"}))
        print("make again", self.make(TOPIC))
        print("65 partitions", self.make(TOPIC + "-a", 65))
        print("3 replicas", self.make(TOPIC + "-a", 1, 3))
        print("cleanup.policy compact", self.make(TOPIC + "-a", settings={"cleanup.policy": "compact"}))
        print("delete one that is not there", self.delete(TOPIC + "-a"))
        print("list", sorted(self.admin.list_topics(timeout=5).topics))
        print("create_partitions", answers(self.admin.create_partitions([NewPartitions(TOPIC, 4)])))
        print("describe_configs", answers(self.admin.describe_configs([ConfigResource("topic", TOPIC)])))
        print("list_groups", tried(lambda: self.admin.list_groups(timeout=5)))

    def produce(self):
        for acks in ("0", "1", "all"):
            print("acks", acks, self.send([b"v"] * 3, acks=acks))
        print("idempotent", self.send([b"v"] * 3, enable_idempotence=True))
        for codec in ("gzip", "snappy", "lz4", "zstd"):
            print(codec, self.send([b"abc" * 1000], compression_type=codec))
        print("990,000 bytes", self.send([b"x" * 990_000]))
        print("1,100,000 bytes, no setting", tried(lambda: self.send([b"x" * 1_100_000])))
        print("1,100,000 bytes", self.send([b"x" * 1_100_000], message_max_bytes=4_000_000))
        print("2,200,000 bytes", self.send([b"x" * 2_200_000], message_max_bytes=4_000_000))
        print("unknown topic", self.send([b"v"], TOPIC + "-a"))
        print("transactions", tried(lambda: Producer({**self.settings, "transactional.id": "x"}).init_transactions(8)))

    def consume(self):
        producer = Producer(self.settings)
        producer.produce(TOPIC, b"value", b"key", 0, timestamp=1500000000000, headers=[("h", b"1"), ("n", None)])
        producer.produce(TOPIC, None, b"key", 0)
        producer.flush(5)
        consumer = self.consumer()
        end = consumer.get_watermark_offsets(TopicPartition(TOPIC, 0), timeout=5)[1]
        print("offsets by time, before assign", self.offsets_by_time(consumer))
        print("the last two", self.read(consumer, end - 2))
        print("from the beginning", len(self.read(consumer, OFFSET_BEGINNING)))
        print("from the end", self.read(consumer, OFFSET_END))
        print("offsets by time, after it", [self.offsets_by_time(consumer) for _ in range(6)])
        print("behind the end", self.read(consumer, end + 100))
        consumer.close()
        print("an unknown topic", self.read(self.consumer(), 0, TOPIC + "-a"))
        print("a new message after", self.latencies())

    def offsets_by_time(self, consumer):
        partition = TopicPartition(TOPIC, 0, 1600000000000)
        return tried(lambda: consumer.offsets_for_times([partition], timeout=3)[0].offset)

    def latencies(self):
        """How long a consumer at the end waits for a message, in milliseconds."""
        consumer = self.consumer(enable_partition_eof=False)
        consumer.assign([TopicPartition(TOPIC, 1, OFFSET_END)])
        consumer.poll(3)
        producer = Producer(self.settings)
        waited = []
        for _ in range(5):
            sent = time.time()
            producer.produce(TOPIC, b"v", partition=1)
            producer.poll(0)
            waited.append(round((time.time() - sent) * 1000, 1) if consumer.poll(5) else None)
            time.sleep(0.3)
        consumer.close()
        return waited

    def deleted_topic(self):
        topic = TOPIC + "-d"
        self.make(topic)
        self.send([b"a", b"b"], topic)
        consumer = self.consumer(enable_partition_eof=False)
        print("before", self.read(consumer, 0, topic, 3))
        self.delete(topic)
        print("deleted", drained(consumer, 6))
        self.make(topic)
        self.send([b"c", b"d", b"e"], topic)
        print("made again", drained(consumer, 8))
        consumer.close()
        self.delete(topic)

    def group(self):
        consumer = self.consumer(log_connection_close=True)
        consumer.subscribe([TOPIC])
        print("subscribe", drained(consumer, 6))
        print("commit", tried(lambda: consumer.commit(offsets=[TopicPartition(TOPIC, 0, 1)], asynchronous=False)))
        print("committed", tried(lambda: consumer.committed([TopicPartition(TOPIC, 0)], timeout=5)))


def dotted(settings):
    return {name.replace("_", "."): value for name, value in settings.items()}


def tried(call):
    try:
        return call()
    except KafkaException as fault:
        return fault.args[0].str()


def answers(futures):
    return [tried(lambda: future.result(10)) for future in futures.values()]


def drained(consumer, seconds):
    got = []
    until = time.time() + seconds
    while time.time() < until:
        message = consumer.poll(0.2)
        if message and message.error():
            return got + [message.error().str()]
        if message:
            got.append((message.offset(), message.key(), (message.value() or b"")[:9], message.timestamp()[1], message.headers()))
    return got


if __name__ == "__main__":
    if len(sys.argv) != 4:
        sys.exit(__doc__)
    probe = Probe(*sys.argv[1:])
    for part in (probe.topics, probe.produce, probe.consume, probe.deleted_topic, probe.group):
        print(f"== {part.__name__}", flush=True)
        part()
    probe.delete(TOPIC)
    # A consumer of a group that was never found does not close.
    sys.stdout.flush()
    os._exit(0)
