#!/usr/bin/env python3
"""Prints the figures of run.sh as a table, the median of all rounds, and the ratios that are asked for."""
import sys
from statistics import median

ROWS = [
    ("disk", "pwrite and fdatasync in C"),
    ("one", "always, a producer"),
    ("many", "always, 64 producers, one partition"),
    ("spread", "always, 64 producers, 64 partitions"),
    ("redis-one", "Redis, appendfsync always, a producer"),
    ("redis-many", "Redis, appendfsync always, 64 producers"),
    ("slow-one", "always, a sync takes 5 ms more, a producer"),
    ("slow-many", "the same, 64 producers, one partition"),
    ("slow-spread", "the same, 64 producers, 64 partitions"),
    ("interval-small", "interval, 64 producers, one partition"),
    ("never-small", "never, 64 producers, one partition"),
    ("interval-large", "interval, a producer, 100 messages a batch"),
    ("never-large", "never, a producer, 100 messages a batch"),
]
RATIOS = [
    ("a producer's answer against C", "one", "disk", 0, "at most 1.3"),
    ("64 producers on one partition against one", "many", "one", 2, "at least 20"),
    ("64 producers on 64 partitions against one", "spread", "one", 2, ""),
    ("a producer's answers against Redis", "one", "redis-one", 2, ""),
    ("64 producers on one partition against Redis", "many", "redis-many", 2, ""),
    ("64 producers under always against never", "many", "never-small", 2, ""),
    ("64 producers on one partition against one, where a sync takes 5 ms more", "slow-many", "slow-one", 2, "at least 20"),
    ("64 producers on 64 partitions against one, where a sync takes 5 ms more", "slow-spread", "slow-one", 2, ""),
    ("interval against never, 64 producers", "interval-small", "never-small", 2, "at least 0.95"),
    ("interval against never, 100 messages a batch", "interval-large", "never-large", 2, "at least 0.95"),
]


def main(path):
    rows = {}
    with open(path, encoding="ascii") as figures:
        for line in figures:
            what, *numbers = line.split()
            rows.setdefault(what, []).append([float(it) for it in numbers])
    middle = {what: [median(column) for column in zip(*them)] for what, them in rows.items()}
    print("| what | p50, us | p99, us | answers/s |\n|---|---|---|---|")
    for what, text in ROWS:
        if what in middle:
            print("|", text, *("| {:,.0f}".format(it) for it in [*middle[what], *[float("nan")] * (3 - len(middle[what]))]), "|")
    print()
    for text, over, under, column, goal in RATIOS:
        if over in middle:
            print(f"{text}: {middle[over][column] / middle[under][column]:.2f}" + (f" ({goal})" if goal else ""))


if __name__ == "__main__":
    main(sys.argv[1])
