#!/usr/bin/env python3
"""Writes what the programs `states` and `orders` are run on in the gate, and what they must print then: their files stdin and
stdout. `compare` puts many more cases to them.

    python3 write_cases.py states              writes crates/states/stdin and crates/states/stdout
    python3 write_cases.py orders              the same for crates/orders
    python3 write_cases.py states IN OUT       writes these files
"""

import os
import sys

from built import ROOT
import order_cases
import state_cases
import vectors

RANDOM_CALLS = 1400
LARGE_STATES = [f"call: all ones, kind {kind}" for kind in (2, 3, 4, 5)]
LARGE_LOG = 1000        # bytes


def states():
    """The fixed calls, but for a few large ones, and some random ones: bytes and lines."""
    calls = [*vectors.fixed_calls(), *vectors.random_calls(range(RANDOM_CALLS))]
    for vector in calls:
        if vector.name not in LARGE_STATES:
            case = state_cases.case_of(vector)
            yield state_cases.bytes_of(case), state_cases.line_of(case)


def orders():
    """The order call for the fixed logs that are not large: bytes and lines."""
    for vector in vectors.fixed_orders():
        if len(vector.log) < LARGE_LOG:
            yield order_cases.bytes_of(vector), order_cases.line_of(vector)


PROGRAMS = {"states": states, "orders": orders}


def main(program, *names):
    input_name, output_name = names or [
        os.path.join(ROOT, "crates", program, name) for name in ("stdin", "stdout")]
    with open(input_name, "wb") as given, open(output_name, "w", encoding="ascii") as printed:
        for data, line in PROGRAMS[program]():
            given.write(data)
            printed.write(line + "\n")


if __name__ == "__main__":
    main(*sys.argv[1:])
