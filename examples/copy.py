#!/usr/bin/env python3
"""Copies topics from one broker to another, as to or from Apache Kafka: copy.py FROM TO STATE TOPIC.. [--group GROUP]..

FROM and TO are files of librdkafka's settings, a `key=value` a line, as kcat's -F takes them. Each partition is copied in order: keys,
values, headers, timestamps, and null where there is null. A topic that is not there is made with as many partitions. What was copied is
noted in the file STATE, so that the next run goes on where this one stopped. A record that was sent just before it stopped may come twice.
The groups' offsets are then committed there, each at the record that it stands at here; no member may be in them meanwhile.
"""
import json
import os
import sys

from confluent_kafka import Consumer, KafkaError, Producer, TopicPartition
from confluent_kafka.admin import AdminClient, NewTopic

# After so many records what was copied is noted. How long a reply is waited for, in seconds.
BATCH = 10000
PATIENCE = 15


def settings(path):
    """The settings in a file."""
    with open(path, encoding="utf-8") as text:
        lines = [line.strip() for line in text]
    return dict(line.split("=", 1) for line in lines if line and not line.startswith("#"))


def consumer(source, group):
    """A consumer of a group that commits nothing by itself."""
    return Consumer({**source, "group.id": group, "enable.auto.commit": False, "enable.partition.eof": True, "auto.offset.reset": "earliest"})


def make(target, topic, partitions):
    """Makes a topic, unless it is there."""
    admin = AdminClient(target)
    made = admin.create_topics([NewTopic(topic, num_partitions=partitions, replication_factor=1)], request_timeout=PATIENCE)
    try:
        made[topic].result()
    except Exception as fault:
        if fault.args[0].code() != KafkaError.TOPIC_ALREADY_EXISTS:
            sys.exit(f"copy: {topic}: {fault.args[0].str()}")


class State:
    """What was copied: of each partition the next offset here, and where the distance to the offsets there changed: [here, there]."""

    def __init__(self, path):
        self.path, self.parts = path, {}
        if os.path.exists(path):
            with open(path, encoding="utf-8") as text:
                self.parts = json.load(text)

    def part(self, topic, partition):
        return self.parts.setdefault(f"{topic} {partition}", {"next": None, "steps": []})

    def note(self, part, here, there):
        """A record at an offset here has that offset there."""
        steps = part["steps"]
        if not steps or here - steps[-1][0] != there - steps[-1][1]:
            steps.append([here, there])
        part["next"] = here + 1

    def save(self):
        with open(self.path + ".new", "w", encoding="utf-8") as out:
            json.dump(self.parts, out)
            out.flush()
            os.fsync(out.fileno())
        os.replace(self.path + ".new", self.path)

    def there(self, topic, partition, here):
        """The offset there of what has an offset here; none where nothing was copied."""
        before = [step for step in self.part(topic, partition)["steps"] if step[0] <= here]
        return before[-1][1] + here - before[-1][0] if before else None


def copy(source, target, state, topic, partition):
    """Copies what is new in a partition, and answers how many records."""
    part, count, faults = state.part(topic, partition), 0, []
    reader, writer = consumer(source, "copy"), Producer({**target, "enable.idempotence": True, "compression.type": "none"})
    low, _ = reader.get_watermark_offsets(TopicPartition(topic, partition), timeout=PATIENCE)
    reader.assign([TopicPartition(topic, partition, low if part["next"] is None else max(low, part["next"]))])
    while (message := reader.poll(PATIENCE)) is not None and not faults:
        if message.error():
            if message.error().code() == KafkaError._PARTITION_EOF:
                break
            sys.exit(f"copy: {topic} {partition}: {message.error().str()}")

        def told(fault, copied, here=message.offset()):
            faults.append(fault.str()) if fault else state.note(part, here, copied.offset())

        writer.produce(topic, message.value(), message.key(), partition, on_delivery=told, timestamp=message.timestamp()[1],
                       headers=message.headers() or [])
        count += 1
        if count % BATCH == 0:
            writer.flush(PATIENCE)
            state.save()
        writer.poll(0)
    left = writer.flush(PATIENCE)
    state.save()
    reader.close()
    if faults or left:
        sys.exit(f"copy: {topic} {partition}: {faults[0] if faults else 'no answer'}")
    return count


def commit(source, target, state, group, places):
    """Commits a group's offsets there, and answers how many."""
    here, there = consumer(source, group), consumer(target, group)
    found = here.committed([TopicPartition(*place) for place in places], timeout=PATIENCE)
    moved = [(it, state.there(it.topic, it.partition, it.offset)) for it in found if it.offset >= 0]
    wanted = [TopicPartition(it.topic, it.partition, offset) for it, offset in moved if offset is not None]
    for it in there.commit(offsets=wanted, asynchronous=False) if wanted else []:
        if it.error:
            sys.exit(f"copy: group {group}: {it.error.str()}")
    here.close(), there.close()
    return len(wanted)


def main(source, target, state, words):
    source, target, state = settings(source), settings(target), State(state)
    groups = [words[at + 1] for at, word in enumerate(words) if word == "--group"]
    topics = [word for at, word in enumerate(words) if word != "--group" and (at == 0 or words[at - 1] != "--group")]
    known, places = consumer(source, "copy").list_topics(timeout=PATIENCE).topics, []
    for topic in topics:
        if topic not in known:
            sys.exit(f"copy: no topic {topic} in {sys.argv[1]}")
        make(target, topic, len(known[topic].partitions))
        for partition in sorted(known[topic].partitions):
            places.append((topic, partition))
            print(topic, partition, copy(source, target, state, topic, partition), flush=True)
    for group in groups:
        print("group", group, commit(source, target, state, group, places), flush=True)


if __name__ == "__main__":
    if len(sys.argv) < 5:
        sys.exit(__doc__)
    main(*sys.argv[1:4], sys.argv[4:])
