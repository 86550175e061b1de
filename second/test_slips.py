"""The slips that the page names: a program that makes one answers as the page says, and
otherwise than the right one."""

import checker
import fixed_runs
import lines
import wrong_graphs
import wrong_schedulers
from fixed_logs import cases, own_reads
from wrong import in_place

NAMED = {program.name: program for program in
         (*wrong_graphs.WRONG, *wrong_schedulers.WRONG)}
CHECKS = {name: rest for name, *rest in (*cases(), *own_reads())}

LINES = (
    ("first edge branch for both", "E", "cycle 2 3", "accepted 2 3"),
    ("second edge branch for both", "D", "accepted 2 1 3", "accepted 1 3 2"),
    ("an own read draws an edge", "own reads, order 2 1", "accepted 1 2", "accepted 2 1"),
    ("version order by stamp", "D", "accepted 2 1 3", "accepted 1 3 2"),
)

REPLIES = (
    ("the newest version is read", "read the largest at or below",
     5, "value 0 from 0", "value 22 from 2"),
    ("late by the item's last read", "not late by a read of a later version",
     7, "ok", "late 4"),
    ("a waiting read leaves its mark", "a waiting read leaves no mark",
     5, "ok", "late 3"),
    ("marks lost on abort", "late by a reader that aborted", 4, "late 2", "ok"),
)


def reply_to(name, place):
    """The reply at this place, from 0, to a small input."""
    output, _ = lines.run(fixed_runs.data_of(fixed_runs.lines_of(fixed_runs.SMALL[name])))
    return output.decode().splitlines()[place]


def test_checks():
    for slip, name, right, wrong in LINES:
        yield f"{name}, right", checker.check_line(*CHECKS[name]), right
        with in_place(NAMED[slip]):
            yield f"{name}, {slip}", checker.check_line(*CHECKS[name]), wrong
        yield f"{name}, right again", checker.check_line(*CHECKS[name]), right


def test_runs():
    for slip, name, place, right, wrong in REPLIES:
        yield f"{name}, right", reply_to(name, place), right
        with in_place(NAMED[slip]):
            yield f"{name}, {slip}", reply_to(name, place), wrong
        yield f"{name}, right again", reply_to(name, place), right


TESTS = (test_checks, test_runs)
