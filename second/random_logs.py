"""Random logs and version orders, each made from its seed alone: logs that the scheduler
wrote, foreign ones, damaged ones and noise."""

from random import Random

import by_hand
from by_hand import HEADER, abort, begin, commit, fields_of, order, read, write
from fixed_graphs import readers_of_zero
from lines import run
from order import write_timestamp_order
from random_runs import random_run


# Foreign logs: whatever a well-formed log may tell.

def some_stamps(rng, count):
    """This many different stamps in any order, near one another or far apart."""
    highest = rng.choice([count, count + 50, 4294967295])
    if rng.random() < 0.1:
        return [8191 * stamp for stamp in rng.sample(range(1, count + 51), count)]
    return rng.sample(range(1, highest + 1), count)


class Writer:
    """Writes a random log, keeping in mind what is begun, written and ended."""

    def __init__(self, rng, transactions, items):
        self.rng = rng
        self.items = rng.sample(range(64), items)
        self.unbegun = some_stamps(rng, transactions)
        self.active = []
        self.committed = set()
        self.values = {}        # (item, stamp) of each version not aborted: its value
        self.fields = []
        self.dirty = rng.choice([0, 0, 0.2, 1])

    def begin(self):
        stamp = self.unbegun.pop()
        self.active.append(stamp)
        self.fields.append(begin(stamp))

    def write(self):
        stamp, item = self.rng.choice(self.active), self.rng.choice(self.items)
        if (item, stamp) not in self.values:
            self.values[item, stamp] = self.rng.randrange(4)
            self.fields.append(write(stamp, item, self.values[item, stamp]))

    def read(self):
        stamp, item = self.rng.choice(self.active), self.rng.choice(self.items)
        if (item, stamp) in self.values:
            version = stamp
        else:
            dirty = self.rng.random() < self.dirty
            version = self.rng.choice([0] + [
                writer for of, writer in sorted(self.values)
                if of == item and (dirty or writer in self.committed)])
        value = self.values.get((item, version), 0)
        self.fields.append(read(stamp, item, version, value))

    def end(self, by_commit):
        stamp = self.active.pop(self.rng.randrange(len(self.active)))
        if by_commit:
            self.committed.add(stamp)
            self.fields.append(commit(stamp))
        else:
            self.values = {at: value for at, value in self.values.items() if at[1] != stamp}
            self.fields.append(abort(stamp, self.rng.randrange(2)))

    def step(self):
        kind = self.rng.choices(["begin", "read", "write", "commit", "abort"],
                                [3, 6, 4, 2, 0.4])[0]
        if self.unbegun and (kind == "begin" or not self.active):
            self.begin()
        elif self.active and kind == "read":
            self.read()
        elif self.active and kind == "write":
            self.write()
        elif self.active and kind in ("commit", "abort"):
            self.end(kind == "commit")

    def order(self):
        """A version order: random, or by stamp, rising or falling."""
        versions = {}
        for item, stamp in sorted(self.values):
            if stamp in self.committed:
                versions.setdefault(item, []).append(stamp)
        way = self.rng.choice(["random", "rising", "falling"])
        for stamps in versions.values():
            if way == "random":
                self.rng.shuffle(stamps)
            elif way == "falling":
                stamps.reverse()
        return order(*versions.items())


def foreign_log(rng, transactions, items, steps):
    """A random log, and a version order for it."""
    writer = Writer(rng, transactions, items)
    for _ in range(steps):
        writer.step()
    while writer.active and rng.random() < 0.95:
        writer.end(rng.random() < 0.95)
    return by_hand.log(*writer.fields), writer.order()


def small_foreign_log(seed, transactions=5):
    """A small log and order, for checks that try everything."""
    rng = Random(f"small {seed}")
    return foreign_log(
        rng, rng.randrange(2, transactions + 1), rng.randrange(1, 4), rng.randrange(8, 36))


def any_foreign_log(rng):
    transactions = rng.choice([2, 4, 4, 6, 10, 30, 100, 280])
    return foreign_log(
        rng, transactions, rng.choice([1, 2, 4, 16]), transactions * rng.choice([3, 5, 8]))


def serial_log(rng):
    """The log of transactions run one at a time, in an order that is not that of their
    begins, commits or stamps; with the version order of that run. It is accepted."""
    count = rng.choice([3, 6, 12, 40, 120, 256])
    stamps = some_stamps(rng, count)
    items = rng.sample(range(64), rng.choice([1, 2, 5]))
    newest = {item: (0, 0) for item in items}
    fields, versions = [by_hand.begins(*sorted(stamps))], {}
    for stamp in stamps:
        for item in rng.sample(items, rng.randrange(len(items) + 1)):
            if rng.random() < 0.7:
                fields.append(read(stamp, item, *newest[item]))
            if rng.random() < 0.5:
                value = rng.randrange(3)
                newest[item] = (stamp, value)
                versions.setdefault(item, []).append(stamp)
                fields.append(write(stamp, item, value))
    fields.append(by_hand.commits(*rng.sample(stamps, count)))
    return by_hand.log(*fields), order(*sorted(versions.items()))


def sparse_log(rng):
    """A log and order whose graph has just the edges chosen: at most one way round, and a
    few more at random."""
    stamps = some_stamps(rng, rng.choice([3, 6, 12, 40]))
    way = list(zip(stamps, stamps[1:] + stamps[:1]))
    pairs = way[:rng.choice([len(way), len(way), len(way) - 1])]
    pairs += [tuple(rng.sample(stamps, 2)) for _ in range(rng.choice([0, 1, 3, 8]))]
    rng.shuffle(pairs)
    return readers_of_zero(pairs)


# Damage.

def damaged_bytes(rng, data):
    """The bytes with one thing changed."""
    if not data:
        return bytes([rng.choice([0, 16, 32])])
    at = rng.randrange(len(data))
    way = rng.choice(["bit", "byte", "out", "in", "cut", "more"])
    if way == "bit":
        return data[:at] + bytes([data[at] ^ (1 << rng.randrange(8))]) + data[at + 1:]
    if way == "byte":
        return data[:at] + bytes([rng.choice([0, 1, 2, 5, 64, 255])]) + data[at + 1:]
    if way == "out":
        return data[:at] + data[at + rng.randrange(1, 5):]
    if way == "in":
        return data[:at] + bytes([rng.randrange(256)]) + data[at:]
    if way == "cut":
        return data[:at]
    return data + data[at:at + 20]


def are_whole_fields(data):
    """Whether the bytes are a run of whole fields."""
    while data:
        if len(data) < 3 or len(data) < 3 + data[1] * 256 + data[2]:
            return False
        data = data[3 + data[1] * 256 + data[2]:]
    return True


def damaged_fields(rng, front, data):
    """The run of fields after the front with one field out, twice, moved or changed over
    with another; some byte changed where there are no two whole fields."""
    fields = fields_of(data[len(front):]) if are_whole_fields(data[len(front):]) else []
    if len(fields) < 2:
        return damaged_bytes(rng, data)
    one, other = rng.sample(range(len(fields)), 2)
    way = rng.choice(["out", "twice", "move", "change over"])
    if way == "out":
        del fields[one]
    elif way == "twice":
        fields.insert(other, fields[one])
    elif way == "move":
        fields.insert(other, fields.pop(one))
    else:
        fields[one], fields[other] = fields[other], fields[one]
    return front + b"".join(fields)


def damaged(rng, log, version_order):
    """The log and order with something changed in one of them or in both."""
    which = rng.choice(["log", "log", "order", "both"])
    if which != "order":
        log = damaged_fields(rng, HEADER, log) if rng.random() < 0.6 else damaged_bytes(rng, log)
    if which != "log":
        version_order = (damaged_fields(rng, b"", version_order) if rng.random() < 0.4
                         else damaged_bytes(rng, version_order))
    return log, version_order


def noise_field(rng):
    """A field of the right shape with any small numbers, or seldom of a wrong shape."""
    stamp, item = rng.randrange(5), rng.choice([0, 1, 63, 64])
    kind = rng.choices(["begin", "read", "write", "commit", "abort", "wrong"],
                       [6, 5, 5, 3, 2, 0.2])[0]
    if kind == "read":
        return read(stamp, item, rng.randrange(4), rng.randrange(2))
    if kind == "write":
        return write(stamp, item, rng.randrange(2))
    if kind == "abort":
        return abort(stamp, rng.choice([0, 1, 1, 2]))
    if kind == "wrong":
        return rng.randbytes(rng.randrange(1, 20))
    return begin(stamp) if kind == "begin" else commit(stamp)


def noise(rng):
    fields = [noise_field(rng) for _ in range(rng.randrange(1, 12))]
    start = by_hand.begins(*rng.sample(range(1, 5), rng.randrange(5)))
    return by_hand.log(start, *fields), order((0, [1]))


def scheduled_log(rng):
    """The log that a random run wrote, with its timestamp order."""
    _, log = run(random_run(rng.randrange(1000000)))
    buffer = bytearray(65536)
    _, length = write_timestamp_order(log, buffer)
    return log, bytes(buffer[:length])


SOURCES = (any_foreign_log, any_foreign_log, serial_log, sparse_log, sparse_log,
           scheduled_log, noise)


def random_check(seed):
    """A log, a version order and the length of an answer buffer."""
    rng = Random(f"check {seed}")
    source = rng.choice(SOURCES)
    log, version_order = source(rng)
    if source is not noise:
        for _ in range(rng.choice([0, 0, 0, 1, 1, 2])):
            log, version_order = damaged(rng, log, version_order)
    room = rng.choice([1024] * 12 + [1030, 40, 8, 0])
    return log, version_order, room
