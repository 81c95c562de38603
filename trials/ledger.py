"""What clients asked of a broker and were told, and what has to be there by it, for the scripts beside this file. It is no script by
itself.

Each request has a correlation id; `Times` says when the broker read it and when it answered. What was answered up to a moment must
be there; what was read up to a later one may be.
"""

import struct

import wire

LIMIT = 9000
GROUP = b"g"


class Refused(Exception):
    """A request was answered with an error."""


class Times:
    """Where in a record of calls each request was read and answered. The id 0 is what was there before."""

    def __init__(self, calls):
        self.heard, self.told = {0: -1}, {0: -1}
        for number, call in enumerate(calls):
            if call.what in ("heard", "told"):
                getattr(self, call.what)[call.name] = number

    def must(self, deeds, moment):
        """Of deeds, whose ids come first, those that were answered in so many calls."""
        return [it for it in deeds if self.told.get(it[0], moment) < moment]

    def may(self, deeds, moment):
        """Those that were read in so many calls."""
        return [it for it in deeds if self.heard.get(it[0], moment) < moment]


class Life:
    """A topic from its creation to its deletion. Deeds are tuples of an id and what was asked."""

    count = 0

    def __init__(self, made, limit):
        Life.count += 1
        self.number, self.made, self.limit, self.gone = Life.count, [(made,)], limit, []
        self.records, self.starts, self.seen, self.commits = [], [], [], []

    def start(self):
        """Where its log starts, but for retention."""
        return max((it[1] for it in self.starts), default=0)

    def retained(self, records):
        """Where its log starts at most, by the size of its batches."""
        start, size = 0, 0
        for number, record in enumerate(records):
            size += record[2]
            while self.limit and size > self.limit and start < number:
                size -= records[start][2]
                start += 1
        return start


class Found:
    """What a partition has: its start and end, its records by offset, and what the group committed."""

    def __init__(self, start, end, committed, records):
        self.start, self.end, self.committed, self.records = start, end, committed, records


def varint(data, at):
    """A zigzag VARINT, and where it ends."""
    number, shift = 0, 0
    while data[at] > 127:
        number |= (data[at] & 127) << shift
        at, shift = at + 1, shift + 7
    number |= data[at] << shift
    return number >> 1 ^ -(number & 1), at + 1


def records_of(data):
    """The offsets of batches of one record each, with the record's value and the batch's size."""
    while data:
        base, length = struct.unpack_from(">qi", data)
        at = varint(data, 61)[1] + 1
        for _ in range(3):
            at = varint(data, at)[1]
        size, at = varint(data, at)
        yield base, data[at:at + size], 12 + length
        data = data[12 + length:]


def look(client):
    """What a tenant has: `Found` by topic, and the producer id that it gets, behind the correlation id of the request for it."""
    names = client.all([wire.topics()])[0]
    number = next(wire.Client.ids) + 1
    given = client.all([wire.producer_id()])[0][1]
    asked = [form for it in names for form in (wire.offset_at(it, -2), wire.offset_at(it, -1), wire.committed(GROUP, it))]
    said = client.all(asked)
    got = client.all([wire.fetch(it, said[3 * number][1]) for number, it in enumerate(names)])
    found = {}
    for at, name in enumerate(names):
        (_, start), (_, end), committed = said[3 * at:3 * at + 3]
        found[name] = Found(start, end, committed, {base: (value, size) for base, value, size in records_of(got[at][2])})
    return found, (number, given)


class Worker:
    """A client's own topics of a tenant, by what it asked. Deeds are noted as they are sent, as if all went well."""

    def __init__(self, tenant, prefix):
        self.tenant, self.prefix = tenant, prefix
        self.lives, self.ids, self.found_names = {}, [], []

    def names(self):
        """The names that it uses: for ever, with a limit by bytes, with deletions of records, and three that come and go."""
        return [self.prefix + it for it in (b"keep", b"short", b"cut", b"gone0", b"gone1", b"gone2")]

    def alive(self, name):
        """The topic that has a name now, or none."""
        lives = self.lives.get(name, [])
        return lives[-1] if lives and not lives[-1].gone else None

    def limit(self, name):
        return LIMIT if name.endswith(b"short") else 0

    def toggle(self, name):
        """A topic is made, or deleted where it is there."""
        life = self.alive(name)
        if life:
            return wire.delete(name), lambda number: life.gone.append((number,))
        config = {"retention_ms": -1, **({"retention_bytes": LIMIT} if self.limit(name) else {})}
        return wire.create(name, **config), lambda number: self.lives.setdefault(name, []).append(Life(number, self.limit(name)))

    def produce(self, name, size):
        life = self.alive(name)
        value = b"%s %s %d %d " % (self.tenant, name, life.number, len(life.records)) + b"x" * size
        sent = wire.batch(value)
        return wire.produce(name, sent), lambda number: life.records.append((number, value, len(sent)))

    def drop(self, name, chance):
        life, end = self.alive(name), len(self.alive(name).records)
        to = end if chance.random() < 0.3 else chance.randint(min(life.start(), end), end)
        return wire.delete_records(name, to), lambda number: life.starts.append((number, to))

    def commit(self, name, chance):
        life = self.alive(name)
        offset = max((it[1] for it in life.commits), default=0) + chance.randint(1, 9)
        return wire.commit(GROUP, name, b"m" * chance.randint(0, 40), offset), lambda number: life.commits.append((number, offset))

    def fetch(self, name):
        life, end = self.alive(name), len(self.alive(name).records)
        return wire.fetch(name, end), lambda number: life.seen.append((number, end))

    def act(self, chance):
        """A request, and what notes it by its id. Topics that were found are first given a record that begins a new file."""
        if self.found_names:
            return self.produce(self.found_names.pop(), 3500)
        missing = [it for it in self.names()[:3] if not self.alive(it)]
        if missing:
            return self.toggle(missing[0])
        what = chance.random()
        if what < 0.08:
            return self.toggle(chance.choice(self.names()[3:]))
        if what < 0.12:
            return self.drop(self.names()[2], chance)
        if what < 0.2:
            return self.commit(chance.choice([it for it in self.names() if self.alive(it)]), chance)
        if what < 0.23:
            return wire.producer_id(), lambda number: self.ids.append([number, None])
        if what < 0.26:
            return self.fetch(self.names()[0])
        return self.produce(chance.choice([it for it in self.names() if self.alive(it)]), chance.choice([0, 100, 700, 1500]))

    def send(self, client, chance):
        """Sends up to four requests in one piece; what reads their replies."""
        forms = []
        start = next(wire.Client.ids)
        for number in range(chance.randint(1, 4)):
            form, note = self.act(chance)
            note(start + 1 + number)
            forms.append(form)
        if client.send(forms) != list(range(start + 1, start + 1 + len(forms))):
            raise SystemExit("correlation ids are not in a row")
        return start + 1, forms

    def hear(self, client, sent):
        """Reads the replies. What was refused is forgotten, and told once all are read."""
        refused = []
        for number, (key, _, _, read) in enumerate(sent[1], sent[0]):
            said = read(client.hear())
            if (said[0] if isinstance(said, tuple) else said) != 0:
                refused.append(f"a request of the key {key} is answered {said}")
                self.forget(number)
            for it in self.ids:
                if it[0] == number:
                    it[1] = said[1]
        if refused:
            raise Refused(refused[0])

    def forget(self, number):
        """A request came to nothing."""
        for lives in self.lives.values():
            for life in lives:
                for deeds in (life.gone, life.records, life.starts, life.seen, life.commits):
                    deeds[:] = [it for it in deeds if it[0] != number]
            lives[:] = [life for life in lives if life.made[0][0] != number]

    def found(self, found, given):
        """A worker that has what is found, and nothing else."""
        worker = Worker(self.tenant, self.prefix)
        worker.ids = [given]
        for name in self.names():
            if name in found:
                it, life = found[name], Life(0, self.limit(name))
                life.records = [(0, *it.records.get(offset, (None, 0))) for offset in range(it.end)]
                life.starts = [(0, it.start)]
                life.commits = [(0, it.committed)] if it.committed >= 0 else []
                worker.lives[name] = [life]
                worker.found_names.append(name)
        return worker


class Bound:
    """What has to be there: all that was answered in so many calls of a record, and nothing that was read in none of so many."""

    def __init__(self, times, least, most):
        self.times, self.least, self.most = times, least, most

    def must(self, deeds):
        return self.times.must(deeds, self.least)

    def may(self, deeds):
        return self.times.may(deeds, self.most)

    def life(self, life, it):
        """What is wrong with a topic that is found, if it is that one."""
        low = max((deed[1] for deed in self.must(life.starts)), default=0)
        sent = self.may(life.records)
        high = max([low, life.retained(sent), *(deed[1] for deed in self.may(life.starts))])
        end = max([len(self.must(life.records)), *(deed[1] for deed in self.must(life.seen))])
        if it.start < low:
            yield f"records below {low} are there again, from {it.start} on"
        if it.end < end or (it.start > high and end > high):
            yield f"it has the offsets {it.start} to {it.end}, and {min(high, end)} to {end} were acknowledged"
        if it.end > max(len(sent), high):
            yield f"it has records up to {it.end}, and {len(sent)} were sent"
        for offset in range(it.start, min(it.end, len(sent))):
            if it.records.get(offset, (None, 0))[0] != sent[offset][1]:
                yield f"at the offset {offset} is {it.records.get(offset, (b'nothing',))[0][:40]}, not {(sent[offset][1] or b'')[:40]}"
                break
        committed = [deed[1] for deed in self.must(life.commits)]
        if committed and it.committed < committed[-1]:
            yield f"{committed[-1]} was committed, and {it.committed} is there"

    def topic(self, lives, it):
        """What is wrong with a name's topic, which is there or not."""
        made = [number for number, life in enumerate(lives) if self.must(life.made)]
        last = made[-1] if made else -1
        if it is None:
            return ["the topic is gone"] if made and not self.may(lives[last].gone) else []
        able = [life for life in lives[max(last, 0):] if self.may(life.made) and not self.must(life.gone)]
        if not able:
            return [f"a topic is there again, with the offsets {it.start} to {it.end}"]
        return min((list(self.life(life, it)) for life in able), key=len)

    def wrong(self, worker, found, given):
        """What is wrong with what is found of a worker's topics, and with the producer id that is given."""
        wrong = []
        for name in worker.names():
            wrong += [f"{name.decode()}: {it}" for it in self.topic(worker.lives.get(name, []), found.get(name))]
        ids = [it[1] for it in self.must(worker.ids) if it[1] is not None]
        if ids and given[1] <= max(ids):
            wrong.append(f"the producer id {given[1]} is given out again")
        return wrong
