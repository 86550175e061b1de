"""Wrong edges, wrong serial orders and wrong cycles, one slip each."""

import graph
from limits import INITIAL
from wrong import wrong

RIGHT_TAKE = graph.take_in_order
RIGHT_WALK = graph.walk_back
RIGHT_CYCLE = graph.cycle_among


# Edges.

def edges(third, from_writer=True, own_read=False, own_version=False, of_initial=True):
    """An edge rule: `third` draws the edge for another writer, given reader, writer, other
    and whether the other comes before; the rest says which edges are drawn at all."""
    def edges_of_read(reader, writer, stamps):
        if (writer == reader and not own_read) or (writer == INITIAL and not of_initial):
            return
        older, newer = graph.older_and_newer(stamps, writer)
        drawn = [(writer, reader)] if from_writer else []
        for others, before in ((older, True), (newer, False)):
            drawn += [third(reader, writer, other, before)
                      for other in others if other != reader or own_version]
        for one, other in drawn:
            if INITIAL not in (one, other) and one != other:
                yield one, other
    return edges_of_read


def right_third(reader, writer, other, before):
    return (other, writer) if before else (reader, other)


def first_for_both(reader, writer, other, before):
    return other, writer


def second_for_both(reader, writer, other, before):
    return reader, other


def changed_over(reader, writer, other, before):
    return right_third(reader, writer, other, not before)


def by_stamp(stamps, writer):
    """The versions before and after, by stamp instead of by the order given."""
    return ([stamp for stamp in stamps if stamp < writer],
            [stamp for stamp in stamps if stamp > writer])


# Taking away, and the walk.

def queue(before):
    """Those that come free are taken in the order they come free."""
    left, taken = set(before), []
    waiting = [stamp for stamp in sorted(left) if not before[stamp]]
    while waiting:
        stamp = waiting.pop(0)
        taken.append(stamp)
        left.remove(stamp)
        waiting += [other for other in sorted(left)
                    if other not in waiting and before[other].isdisjoint(left)]
    return taken, left


def in_rounds(before):
    """All that are free are taken, then all that are free then."""
    left, taken = set(before), []
    while True:
        free = [stamp for stamp in sorted(left) if before[stamp].isdisjoint(left)]
        if not free:
            return taken, left
        taken += free
        left -= set(free)


def largest_free(left, before):
    free = [stamp for stamp in left if before[stamp].isdisjoint(left)]
    return max(free, default=None)


def any_order(before):
    taken, left = RIGHT_TAKE(before)
    return sorted(taken), left


def largest_predecessor(stamp, left, before):
    return max(before[stamp] & left)


def predecessor_of_all(stamp, left, before):
    return min(before[stamp])


def first_found_predecessor(stamp, left, before):
    """The first that is larger, else the smallest: a search that goes on from itself."""
    remaining = before[stamp] & left
    return min([one for one in remaining if one > stamp] or remaining)


def reversed_cycle(left, before):
    first, *rest = RIGHT_CYCLE(left, before)
    return [first] + rest[::-1]


def cycle_as_walked(left, before):
    return RIGHT_WALK([min(left)], left, before)[::-1]


def cycle_with_lead_in(walked, left, before):
    stamp = graph.smallest_predecessor(walked[-1], left, before)
    return walked if stamp in walked else cycle_with_lead_in(walked + [stamp], left, before)


def from_the_largest(left, before):
    return graph.smallest_first(RIGHT_WALK([max(left)], left, before)[::-1])


def walk_forward(left, before):
    after = {stamp: {other for other in left if stamp in before[other]} for stamp in left}
    walked = [min(left)]
    while True:
        onward = min(after[walked[-1]], default=walked[0])
        if onward in walked:
            return graph.smallest_first(walked[walked.index(onward):])
        walked.append(onward)


def all_left(left, before):
    return sorted(left)


EDGES = (
    wrong("first edge branch for both", graph, "edges_of_read", edges(first_for_both)),
    wrong("second edge branch for both", graph, "edges_of_read", edges(second_for_both)),
    wrong("edge branches changed over", graph, "edges_of_read", edges(changed_over)),
    wrong("an own read draws an edge", graph, "edges_of_read", edges(right_third, own_read=True)),
    wrong("the reader's own version is a third one", graph, "edges_of_read",
          edges(right_third, own_version=True)),
    wrong("no edge from the version's writer", graph, "edges_of_read",
          edges(right_third, from_writer=False)),
    wrong("no edges for reads of version 0", graph, "edges_of_read",
          edges(right_third, of_initial=False)),
    wrong("version order by stamp", graph, "older_and_newer", by_stamp),
)

WALKS = (
    wrong("taken as they come free", graph, "take_in_order", queue),
    wrong("taken in rounds", graph, "take_in_order", in_rounds),
    wrong("the largest free taken first", graph, "smallest_free", largest_free),
    wrong("accepted by rising stamp", graph, "take_in_order", any_order),
    wrong("cycle against its edges", graph, "cycle_among", reversed_cycle),
    wrong("cycle from where the walk repeats", graph, "cycle_among", cycle_as_walked),
    wrong("cycle with its lead-in", graph, "walk_back", cycle_with_lead_in),
    wrong("all that are left for the cycle", graph, "cycle_among", all_left),
    wrong("walk from the largest left", graph, "cycle_among", from_the_largest),
    wrong("walk along the edges", graph, "cycle_among", walk_forward),
    wrong("the largest predecessor", graph, "smallest_predecessor", largest_predecessor),
    wrong("the first found predecessor", graph, "smallest_predecessor",
          first_found_predecessor),
    wrong("a predecessor that was taken away", graph, "smallest_predecessor",
          predecessor_of_all),
)

WRONG = (*EDGES, *WALKS)
