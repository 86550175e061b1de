"""The checker's answers on small random logs against answers found by trying everything.

What is tried is read from the bytes here, and the edges are drawn here once more, word for
word as the page has them."""

from itertools import permutations

import checker
import lines
import order as the_order
import random_logs
import vectors
from by_hand import fields_of

TAGS = {1: "begin", 2: "read", 3: "write", 4: "commit", 5: "abort"}
SEEDS = range(700)


def four_at(data, at):
    return data[at] * 16777216 + data[at + 1] * 65536 + data[at + 2] * 256 + data[at + 3]


class Told:
    """What a well-formed log and its version order tell."""

    def __init__(self, log, order):
        self.events = []    # (kind, stamp, item, version, value)
        for field in fields_of(log[4:]):
            kind, stamp = TAGS[field[0]], four_at(field, 3)
            item = field[7] if kind in ("read", "write") else None
            version = four_at(field, 8) if kind == "read" else None
            value = {"read": 12, "write": 8}.get(kind)
            value = four_at(field, value) if value else None
            self.events.append((kind, stamp, item, version, value))
        self.committed = {event[1] for event in self.events if event[0] == "commit"}
        self.order = {}     # item: all its versions, oldest first, version 0 too
        for field in fields_of(order):
            stamps = [four_at(field, at) for at in range(4, len(field), 4)]
            self.order[field[3]] = [0] + stamps

    def edges(self):
        """For each committed k reading x from j, i another committed writer of x."""
        edges = set()
        wrote = {(stamp, item) for kind, stamp, item, _, _ in self.events if kind == "write"}
        for kind, k, x, j, _ in self.events:
            if kind != "read" or k not in self.committed or j == k:
                continue
            if j != 0:
                edges.add((j, k))
            for i in self.committed - {j, k}:
                if (i, x) in wrote:
                    before = self.order[x].index(i) < self.order[x].index(j)
                    edges.add((i, j) if before else (k, i))
        return edges

    def runs_serially(self, stamps):
        """Whether these, run one at a time from all zeros, each read the values in the log,
        from the versions in the log."""
        now = {item: (0, 0) for item in range(64)}
        for each in stamps:
            for kind, stamp, item, version, value in self.events:
                if stamp == each and kind == "write":
                    now[item] = (stamp, value)
                if stamp == each and kind == "read" and now[item] != (version, value):
                    return False
        return True

    def writes_in_order(self, stamps):
        """Whether these, one after the other, write each item's versions in their order."""
        rank = {stamp: place for place, stamp in enumerate(stamps)}
        return all(rank[one] < rank[other] for versions in self.order.values()
                   for one, other in zip(versions[1:], versions[2:]))


def respects(stamps, edges):
    rank = {stamp: place for place, stamp in enumerate(stamps)}
    return all(rank[one] < rank[other] for one, other in edges)


def reached(edges, start):
    """All that a path of at least one edge leads to from the start."""
    found, to_follow = set(), [start]
    while to_follow:
        here = to_follow.pop()
        for one, other in edges:
            if one == here and other not in found:
                found.add(other)
                to_follow.append(other)
    return found


def expected_cycle(nodes, edges):
    """The cycle that the page's walk comes to: those left are the ones that some closed
    path leads to."""
    on_cycles = {node for node in nodes if node in reached(edges, node)}
    left = on_cycles.union(*(reached(edges, node) for node in on_cycles))
    walk = [min(left)]
    while walk.count(walk[-1]) < 2:
        walk.append(min(one for one, other in edges if other == walk[-1] and one in left))
    repeated = walk[walk.index(walk[-1]):-1]
    along = repeated[::-1]
    start = along.index(min(along))
    return along[start:] + along[:start]


def told_line(log, order):
    word, *stamps = checker.check_line(log, order).split(" ")
    return word, [int(stamp) for stamp in stamps]


def judged(name, log, order, try_all):
    """What is to be so of a log that is not refused."""
    word, stamps = told_line(log, order)
    if word == "refused":
        return
    told = Told(log, order)
    edges = told.edges()
    if word == "accepted":
        yield f"{name}, all of them", sorted(stamps), sorted(told.committed)
        yield f"{name}, runs serially", told.runs_serially(stamps), True
        yield f"{name}, along the edges", respects(stamps, edges), True
    else:
        steps = list(zip(stamps, stamps[1:] + stamps[:1]))
        yield f"{name}, edge by edge", [step for step in steps if step not in edges], []
        yield f"{name}, each once", len(set(stamps)), len(stamps)
        yield f"{name}, the page's cycle", stamps, expected_cycle(told.committed, edges)
    if try_all:
        orders = list(permutations(sorted(told.committed)))
        right = [list(each) for each in orders if respects(each, edges)]
        yield f"{name}, first of all orders", right[:1], [stamps] if word == "accepted" else []
        if word == "cycle":
            fits = [each for each in orders
                    if told.runs_serially(each) and told.writes_in_order(each)]
            yield f"{name}, no order of all", fits, []


def test_small_logs():
    for seed in SEEDS:
        log, order = random_logs.small_foreign_log(seed)
        yield from judged(f"small log {seed}", log, order, True)


def test_larger_logs():
    for vector in vectors.random_checks(range(250)):
        if len(vector.log) < 6000:
            yield from judged(vector.name, vector.log, vector.order, False)


def test_fixed_logs():
    for vector in vectors.fixed_checks():
        if len(vector.log) < 3000:
            yield from judged(vector.name, vector.log, vector.order, False)


def test_enough_of_each():
    """Among the small logs there are many accepted ones and many cycles."""
    words = [told_line(*random_logs.small_foreign_log(seed))[0] for seed in SEEDS]
    yield "100 accepted", words.count("accepted") > 100, True
    yield "100 cycles", words.count("cycle") > 100, True


def test_scheduled_logs():
    """The log of any run, with its timestamp order, is accepted by rising stamp."""
    for vector in vectors.random_runs(range(200)):
        _, log = lines.run(vector.data)
        buffer = bytearray(65536)
        answer = the_order.write_timestamp_order(log, buffer)
        yield f"{vector.name}, order", answer.code, 0
        order = bytes(buffer[:answer.number])
        committed = sorted(Told(log, order).committed)
        yield vector.name, told_line(log, order), ("accepted", committed)
        yield f"{vector.name}, runs serially", Told(log, order).runs_serially(committed), True


TESTS = (
    test_small_logs, test_larger_logs, test_fixed_logs, test_enough_of_each,
    test_scheduled_logs)
