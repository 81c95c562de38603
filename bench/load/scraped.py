#!/usr/bin/env python3
"""A load on the broker with and without scrapes of its metrics, in turn, and the ratios.

    bench/load/scraped.py KBROKER [PAIRS]

It starts a broker with a tenant and puts the brief load of load.c on it twice as often as there are pairs, 10 where nothing is said. In one run of
each pair a client asks for /metrics 50 times a second. Which of the two comes first alternates. For each figure it prints the medians of both, the
mean of the pairs' ratios, and the standard error of that mean: within two of these the ratio is known.

What one scrape a second does is less than a run can tell from the next. So the last columns are a fiftieth of what 50 do, with its error: in
percent, how much worse the figure gets by one a second. A rate falls by as much for each page. A percentile may rise by less for the first.

At last it asks for 200 pages, one after the other, and prints what processors were at work for one of them. The broker serves in one loop, so a
page each second takes so much of each second from all else.
"""

import os
import statistics
import subprocess
import sys
import tempfile
import threading
import time

HERE = os.path.dirname(os.path.abspath(__file__))
sys.path.insert(0, os.path.join(HERE, "..", "..", "trials"))
from metrics import page  # noqa: E402
from wire import Broker, free_port  # noqa: E402


SCRAPES = 50


class Scraper:
    """Asks for the page of metrics so many times a second, in a thread of its own."""

    def __init__(self, port):
        self.port, self.pages, self.ended = port, 0, threading.Event()
        self.thread = threading.Thread(target=self.run)
        self.thread.start()

    def run(self):
        due = time.monotonic()
        while not self.ended.wait(max(0, due - time.monotonic())):
            status, _, body = page(self.port, "GET /metrics")
            assert status == 200 and b"kbroker_requests_total" in body, status
            self.pages += 1
            due = max(due + 1 / SCRAPES, time.monotonic() - 1)

    def stop(self):
        self.ended.set()
        self.thread.join()
        return self.pages


def build(folder):
    """The load, as a program."""
    with open(f"{folder}/tables.h", "w", encoding="ascii") as it:
        subprocess.run([sys.executable, f"{HERE}/../crc/tables.py", "--c"], stdout=it, check=True)
    subprocess.run(["gcc", "-O2", f"-I{folder}", f"-I{HERE}/..", "-o", f"{folder}/load", f"{HERE}/load.c"], check=True)
    return f"{folder}/load"


def figures(load, broker):
    """What a run of the load gives: a number by its name, the greater the better or not."""
    words = [load, str(broker.port), str(broker.process.pid), "broker", "brief"]
    told = subprocess.run(words, stdout=subprocess.PIPE, check=True, text=True).stdout
    found = {}
    for line in told.splitlines():
        what, first, second = line.split("|")
        if what.startswith(("Produce", "Fetch")):
            found[f"{what}, messages/s"] = float(first)
        else:
            found[f"{what}, p50 us"], found[f"{what}, p99 us"] = float(first), float(second)
    return found


def pair(load, broker, metrics, is_scraped_first):
    """The figures without a scrape and with it, and how many pages were asked for."""
    runs, pages = {}, 0
    for is_scraped in (is_scraped_first, not is_scraped_first):
        scraper = Scraper(metrics) if is_scraped else None
        runs[is_scraped] = figures(load, broker)
        pages += scraper.stop() if scraper else 0
    return runs[False], runs[True], pages


def at_work(broker):
    """For how many milliseconds processors were at work for the broker."""
    with open(f"/proc/{broker.process.pid}/schedstat", encoding="ascii") as it:
        return int(it.read().split()[0]) / 1e6


def page_cost(broker, metrics, count=200):
    """The milliseconds of processors for a page."""
    before = at_work(broker)
    for _ in range(count):
        assert page(metrics, "GET /metrics")[0] == 200
    return (at_work(broker) - before) / count


def show(pairs):
    """Prints a line for each figure."""
    print(f"what | without | with {SCRAPES} scrapes a second | ratio | its standard error | worse by one a second | its standard error")
    for what in pairs[0][0]:
        without, scraped = ([run[place][what] for run in pairs] for place in (0, 1))
        ratios = [b / a for a, b in zip(without, scraped)]
        error = statistics.stdev(ratios) / len(ratios) ** 0.5 if len(ratios) > 1 else float("nan")
        worse = statistics.mean(ratios) - 1 if what.endswith("us") else 1 - statistics.mean(ratios)
        print(
            f"{what} | {statistics.median(without):,.0f} | {statistics.median(scraped):,.0f} | {statistics.mean(ratios):.3f} | {error:.3f}"
            f" | {100 * worse / SCRAPES:.2f} % | {100 * error / SCRAPES:.2f} %"
        )


def main(words):
    if len(words) not in (1, 2):
        sys.exit(__doc__)
    count, metrics = int(words[1]) if len(words) == 2 else 10, free_port()
    with tempfile.TemporaryDirectory() as folder:
        load = build(folder)
        broker = Broker(words[0], folder, f'metrics = "127.0.0.1:{metrics}"\n')
        try:
            assert broker.listens(), broker.log()
            pairs = [pair(load, broker, metrics, place % 2 == 1) for place in range(count)]
            cost = page_cost(broker, metrics)
        finally:
            broker.stop()
    show(pairs)
    print(f"a page takes {cost:.2f} ms of the broker: {cost / 10:.3f} % of each second")
    print(f"{count} pairs, {sum(it[2] for it in pairs)} pages; 1, 5 and 15 minutes' load of the machine: {' '.join(f'{it:.1f}' for it in os.getloadavg())}")


if __name__ == "__main__":
    main(sys.argv[1:])
