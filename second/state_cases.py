"""Cases for the program `states`: a call of the scheduler with a state of any numbers, as the program reads it, and the line that
the second program says it prints.

A case is a run of numbers of four bytes, high byte first:

    kind, stamp, item, value, buffer length, number of settings, last begun, log bytes used, open count, version count
    then for each setting: place, number

The places are those of the state's tables, one after the other: 32 open stamps, 64 initial marks, then 1,024 items, 1,024
stamps, 1,024 values and 1,024 marks of the versions. A place without a setting is 0. The file ends after the last case. The line
for a case has the numbers

    code stamp value last-begun used open-count version-count hash-of-tables hash-of-buffer

of the reply, and of the state and the buffer after the call; `told.py` has the hash, and the buffer before the call.
"""

import struct
from typing import NamedTuple

from scheduler import Operation, call
from state import State, state_of_words
from told import buffer_before, hash_of


class Case(NamedTuple):
    name: str
    state: State
    buffer_length: int
    operation: Operation


def case_of(vector):
    """The case of a vector for a call; of its buffer, the length."""
    return Case(vector.name, state_of_words(vector.words), len(vector.buffer),
                Operation(*vector.operation))


def tables_of(state):
    """The numbers in the state's tables, place after place."""
    items, stamps, values, marks = zip(*state.version_table)
    return [*state.open_table, *state.initial_marks, *items, *stamps, *values, *marks]


def settings_of(state):
    return [(place, number) for place, number in enumerate(tables_of(state)) if number]


def numbers_of(case):
    """The case as a run of numbers."""
    state, settings = case.state, settings_of(case.state)
    numbers = [*case.operation, case.buffer_length, len(settings),
               state.last_begun, state.used, state.open_count, state.version_count]
    for setting in settings:
        numbers += setting
    return numbers


def bytes_of(case):
    """The case as the program reads it."""
    numbers = numbers_of(case)
    return struct.pack(f">{len(numbers)}I", *numbers)


def line_of(case):
    """The line that the program prints for the case."""
    buffer = buffer_before(case.buffer_length)
    after, reply = call(case.state, buffer, case.operation)
    numbers = [*reply, after.last_begun, after.used, after.open_count, after.version_count,
               hash_of(tables_of(after)), hash_of(buffer)]
    return " ".join(map(str, numbers))
