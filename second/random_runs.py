"""Random inputs of the run program, each made from its seed alone."""

from random import Random

from fixed_runs import NO_OPERATION

STRANGE_LINES = [line for line in NO_OPERATION.values() if len(line) < 200]


class Lines:
    """Random lines, mostly operations of transactions that are likely open."""

    def __init__(self, rng):
        self.rng = rng
        self.items = rng.choice([1, 2, 2, 3, 5, 64])
        self.recent = rng.choice([2, 4, 8, 40])
        self.last = 0
        self.likely_open = []

    def begin(self):
        stamp = self.last + self.rng.choice([1, 1, 1, 2, 10, 1000])
        if self.rng.random() < 0.04:
            stamp = self.rng.choice([self.last, max(self.last - 1, 0), 0, 4294967296])
        elif stamp <= 4294967295:
            self.last = stamp
            self.likely_open.append(stamp)
        return f"begin {stamp}"

    def stamp(self):
        if self.likely_open and self.rng.random() < 0.97:
            return self.rng.choice(self.likely_open[-self.recent:])
        return self.rng.choice([0, 1, self.last, self.last + 1, 4294967295])

    def item(self):
        if self.rng.random() < 0.99:
            return self.rng.randrange(self.items)
        return self.rng.choice([63, 64, 255, 4294967295])

    def end(self, keyword):
        stamp = self.stamp()
        if stamp in self.likely_open:
            self.likely_open.remove(stamp)
        return f"{keyword} {stamp}"

    def line(self):
        kind = self.rng.choices(["begin", "read", "write", "commit", "abort", "strange"],
                                [16, 38, 30, 9, 5, 2])[0]
        if kind == "strange":
            return self.rng.choice(STRANGE_LINES)
        if kind == "begin":
            line = self.begin()
        elif kind == "read":
            line = f"read {self.stamp()} {self.item()}"
        elif kind == "write":
            value = self.rng.choice([self.rng.randrange(10), self.rng.randrange(4294967296)])
            line = f"write {self.stamp()} {self.item()} {value}"
        else:
            line = self.end(kind)
        return line.encode()


class LongLines(Lines):
    """Random lines that keep about so many transactions open, for as long as it goes."""

    def __init__(self, rng):
        super().__init__(rng)
        self.items = rng.choice([2, 5, 20, 64, 64])
        self.recent = 40
        self.most = rng.choice([3, 12, 31, 34])

    def line(self):
        if not self.likely_open:
            return self.begin().encode()
        if len(self.likely_open) > self.most:
            return self.end(self.rng.choice(["commit", "commit", "abort"])).encode()
        return super().line()


def random_long_run(seed):
    """An input of the run program that comes near the log's end, and mostly to it."""
    rng = Random(f"long run {seed}")
    lines = LongLines(rng)
    return b"\n".join(lines.line() for _ in range(rng.choice([3000, 6000, 9000]))) + b"\n"


def random_run(seed):
    """An input of the run program."""
    rng = Random(f"run {seed}")
    lines = Lines(rng)
    count = rng.choice([5, 20, 60, 60, 150, 400])
    return b"\n".join(lines.line() for _ in range(count)) + rng.choice([b"\n", b"\n", b""])
