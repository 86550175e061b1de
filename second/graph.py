"""The graph of a log and a version order: its edges, its serial order or its cycle."""

from limits import INITIAL


def older_and_newer(stamps, writer):
    """The versions that come before the writer's and those that come after, of an item
    with these stamps, oldest first. Version 0 comes first."""
    if writer == INITIAL:
        return [], stamps
    rank = stamps.index(writer)
    return stamps[:rank], stamps[rank + 1:]


def edges_of_read(reader, writer, stamps):
    """The edges, from and to, of a committed transaction's read of a version of an item
    whose committed versions, oldest first, have these stamps."""
    if writer == reader:
        return
    older, newer = older_and_newer(stamps, writer)
    if writer != INITIAL:
        yield writer, reader
    for other in older:
        if other != reader:
            yield other, writer
    for other in newer:
        if other != reader:
            yield reader, other


def predecessors(history, versions):
    """For each committed transaction, those with an edge to it."""
    before = {stamp: set() for stamp in history.committed}
    different_reads = {
        (read.reader, read.version, read.item) for read in history.committed_reads()}
    for reader, writer, item in different_reads:
        for one, other in edges_of_read(reader, writer, versions.get(item, [])):
            before[other].add(one)
    return before


def smallest_free(left, before):
    """The smallest stamp left with no edge from one that is left, or None."""
    for stamp in sorted(left):
        if before[stamp].isdisjoint(left):
            return stamp
    return None


def take_in_order(before):
    """The stamps taken, one after the other the smallest that is free, and the set of
    those left when none is free any more."""
    left = set(before)
    taken = []
    while left:
        stamp = smallest_free(left, before)
        if stamp is None:
            break
        taken.append(stamp)
        left.remove(stamp)
    return taken, left


def smallest_predecessor(stamp, left, before):
    """The smallest of those left that have an edge to the stamp."""
    return min(before[stamp] & left)


def walk_back(walked, left, before):
    """The stamps that repeat when the walk goes on from its last stamp to its smallest
    remaining predecessor, and so on."""
    stamp = smallest_predecessor(walked[-1], left, before)
    if stamp in walked:
        return walked[walked.index(stamp):]
    return walk_back(walked + [stamp], left, before)


def smallest_first(cycle):
    """The same cycle, told from its smallest stamp."""
    start = cycle.index(min(cycle))
    return cycle[start:] + cycle[:start]


def cycle_among(left, before):
    """The cycle found from the smallest stamp left, along its edges."""
    against_edges = walk_back([min(left)], left, before)
    return smallest_first(against_edges[::-1])
