"""Tests of the cases for the programs `states` and `orders`: read back, they are the same; and some lines by hand."""

import struct

from fixed_states import LENGTH, MARKS, OPEN, OPEN_COUNT, USED, VERSION_COUNT, VERSIONS
import order_cases
import state_cases
from told import buffer_before, hash_of
import vectors


def numbers_in(data):
    return list(struct.unpack(f">{len(data) // 4}I", data))


def place_in_words(place):
    """Where a place of the tables stands in a vector's list of numbers."""
    if place < 32:
        return OPEN + place
    if place < 96:
        return MARKS + place - 32
    part, index = divmod(place - 96, 1024)
    return VERSIONS + 4 * index + part


def read_back(data):
    """Each case in the bytes: the state's numbers, the buffer's length and the operation."""
    numbers = numbers_in(data)
    while numbers:
        operation, (room, count, last, used, opens, versions) = numbers[:4], numbers[4:10]
        words = [0] * LENGTH
        words[0], words[USED] = last, used
        words[OPEN_COUNT], words[VERSION_COUNT] = opens, versions
        for place, number in zip(numbers[10:10 + 2 * count:2], numbers[11:10 + 2 * count:2]):
            words[place_in_words(place)] = number
        yield words, room, tuple(operation)
        numbers = numbers[10 + 2 * count:]


def test_states():
    calls = [*vectors.fixed_calls(), *vectors.random_calls(range(40)),
             *vectors.random_large_calls(range(4))]
    data = b"".join(state_cases.bytes_of(state_cases.case_of(vector)) for vector in calls)
    for vector, back in zip(calls, read_back(data), strict=True):
        yield vector.name, back, (list(vector.words), len(vector.buffer), vector.operation)


def test_told():
    yield "no number", hash_of([]), 1
    yield "two numbers", hash_of([5, 7]), (31 + 5) * 31 + 7
    yield "large numbers", hash_of([4294967295]), 31 + 4294967295 - 4294967291
    yield "buffer", bytes(buffer_before(40)), bytes((7 * at + 3) % 256 for at in range(40))
    yield "long buffer", buffer_before(65600)[-1], (7 * 65599 + 3) % 256


def line_of(operation, words, room):
    vector = vectors.Call("by hand", words, bytes(room), operation)
    return state_cases.line_of(state_cases.case_of(vector))


def test_state_lines():
    """The empty state is damaged; a fresh one begins 258."""
    zeros = [0] * LENGTH
    untouched = hash_of((7 * at + 3) % 256 for at in range(20))
    yield "damaged", line_of((1, 1, 0, 0), zeros, 20), (
        f"1 0 0 0 0 0 0 {hash_of([0] * 4192)} {untouched}")
    fresh = zeros[:USED] + [4]
    log = [3, 10, 17, 24, 1, 0, 4, 0, 0, 1, 2, *((7 * at + 3) % 256 for at in range(11, 20))]
    yield "begin", line_of((1, 258, 0, 0), fresh, 20), (
        f"0 0 0 258 11 1 0 {hash_of([258] + [0] * 4191)} {hash_of(log)}")


def test_order_lines():
    log = bytes([16, 0, 1, 1, 1, 0, 4, 0, 0, 0, 9, 3, 0, 9, 0, 0, 0, 9, 5, 0, 0, 0, 7,
                 4, 0, 4, 0, 0, 0, 9])
    written = [32, 0, 5, 5, 0, 0, 0, 9]
    for room, line in ((8, f"0 8 {hash_of(written)}"), (9, f"0 8 {hash_of(written + [59])}"),
                       (7, f"29 0 {hash_of([3, 10, 17, 24, 31, 38, 45])}")):
        vector = vectors.Order("by hand", log, room)
        yield f"{room} bytes", order_cases.line_of(vector), line
        yield f"{room} bytes, as read", order_cases.bytes_of(vector), (
            bytes([0, 0, 0, 30, 0, 0, 0, room]) + log)


TESTS = (test_states, test_told, test_state_lines, test_order_lines)
