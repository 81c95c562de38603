#!/usr/bin/env python3
"""Puts a catalog back that is older than the files of its partitions.

    trials/restored_copy.py KBROKER KCONSOLE

The start is refused, changes nothing and names the tenant; with --accept-strays it goes on, and what the older catalog knows is
there. The files that it does not know are kept in a folder of their own, whole. A topic that is made then gets their number: after a
further start, without a flag, it has its own lines and no others. Nothing but Python is needed.
"""

import os
import sys
import tempfile

from flipped_bits import Place, contents, stop


def is_catalog(data):
    """Whether a header says that a file is of a tenant's catalog."""
    return data[:4] == b"KBSG" and data[6:8] == b"\0\1"


def main():
    kbroker, kconsole = (os.path.abspath(path) for path in sys.argv[1:3])
    wrong = []
    with tempfile.TemporaryDirectory() as folder:
        place = Place(kbroker, kconsole, folder)
        broker, _ = place.start()
        first = place.produce("t", range(100))
        stop(broker)
        known = contents(place.data)
        copy = {name: data for name, data in known.items() if is_catalog(data)}
        broker, _ = place.start()
        place.produce("u", range(100))
        stop(broker)
        for name, data in copy.items():
            with open(f"{place.data}/{name}", "wb") as out:
                out.write(data)
        before = contents(place.data)
        broker, told = place.start()
        told.seek(0)
        text = told.read()
        if broker is not None:
            stop(broker)
            wrong.append("the start was not refused")
        elif "do not fit" not in text or "tenant a" not in text:
            wrong.append(f"the refusal does not say why: {text!r}")
        if contents(place.data) != before:
            wrong.append("the refused start changed the folder")
        broker, told = place.start("--accept-strays")
        if broker is None:
            told.seek(0)
            wrong.append(f"--accept-strays does not go on: {told.read()!r}")
        else:
            if place.ask("consume", "t")[1] != first:
                wrong.append("the lines that the older catalog knows are not all there")
            made = place.produce("v", range(10))
            stop(broker)
            kept = [open(f"{place.data}/dropped-1/{name}", "rb").read() for name in sorted(os.listdir(f"{place.data}/dropped-1"))]
            if kept != [data for name, data in before.items() if name not in known]:
                wrong.append("the files that the older catalog does not know are not kept as they were")
            broker, told = place.start()
            if broker is None:
                told.seek(0)
                wrong.append(f"a further start does not go on: {told.read()!r}")
            elif place.ask("consume", "v")[1] != made or place.ask("consume", "t")[1] != first:
                wrong.append("a topic that was made since has other lines than its own")
            if broker is not None:
                stop(broker)
    for line in wrong:
        print(line)
    print(f"refused once, accepted once, wrong {len(wrong)}")
    sys.exit(1 if wrong else 0)


if __name__ == "__main__":
    main()
