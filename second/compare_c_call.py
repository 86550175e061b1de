"""Compares the C call with the second program: the number returned, and every byte of the answer buffer, for buffers that
are too short, just long enough and longer."""

import struct
from typing import NamedTuple

from built import HARNESS, output_of
from checker import c_call
from differences import Compared
from limits import STAMP_BYTES
from history import judged_history
from answers import Refused

NUMBER = struct.Struct(">I")
FRONT = struct.Struct(">IIII")
PATTERN = bytes(7 * at % 256 for at in range(4096))
SIDES = ("at the front", "at the end")      # of the room around each slice


class Case(NamedTuple):
    name: str
    log: bytes
    order: bytes
    room: int
    fill: int


def answer_filled(room, fill):
    """The answer buffer before the call."""
    return bytearray(PATTERN[fill:fill + room])


def least_room(log):
    """The bytes that the answer buffer needs for this log; none where it is refused before."""
    try:
        return STAMP_BYTES * len(judged_history(log).committed)
    except Refused:
        return 0


def every_room(vector):
    """The vector's own answer buffer; an empty one, one that is a byte too short, one that is just long enough, longer ones."""
    least = least_room(vector.log)
    return sorted({vector.room, 0, max(least - 1, 0), least, least + 1, least + 33})


def two_rooms(vector):
    """The vector's own answer buffer and one of the others."""
    others = [room for room in every_room(vector) if room != vector.room]
    return [vector.room, others[len(vector.log) % len(others)]]


def cases_of(vector, rooms):
    for room in rooms(vector):
        fill = (room + len(vector.log)) % 256
        yield Case(f"{vector.name}, answer of {room} bytes", vector.log, vector.order, room, fill)


def bytes_of(case):
    """The case as the harness reads it."""
    front = FRONT.pack(len(case.log), len(case.order), case.room, case.fill)
    return front + case.log + case.order


def number_told(number):
    return f"{number}: code {number // 65536}, number {number % 65536}"


def second_answer(case):
    answer = answer_filled(case.room, case.fill)
    number = c_call(case.log, case.order, answer)
    return {"number": number_told(number), "other bytes": "unchanged", "answer": bytes(answer)}


CHANGES = {1: "the log", 2: "the order", 4: "bytes beside a slice"}


def changes_told(changed):
    names = [name for bit, name in CHANGES.items() if changed & bit]
    return f"changed: {', '.join(names)}" if names else "unchanged"


def built_answer(output, place, case):
    """The answer at this place of the harness's output, and the place after it; None where the output ends."""
    end = place + NUMBER.size + 1 + case.room
    if end > len(output):
        return None, len(output)
    number, = NUMBER.unpack_from(output, place)
    changed = output[place + NUMBER.size]
    answer = output[place + NUMBER.size + 1:end]
    return {"number": number_told(number), "other bytes": changes_told(changed),
            "answer": answer}, end


def judge_case(compared, case, output, place):
    """Compares the case's two answers; the place after them, or None where one is not there."""
    second = second_answer(case)
    given = {"log": case.log, "order": case.order}
    for side in SIDES:
        built, place = built_answer(output, place, case)
        name = f"{case.name}, {side}"
        if built is None:
            compared.judge(name, {"number": "none"}, second, given)
            return None
        compared.judge(name, built, second, given)
        compared.counts["C calls"] += 1
    return place


def compare_cases(cases):
    """Puts the cases to the harness in one run."""
    compared = Compared()
    data = b"".join(map(bytes_of, cases))
    end, output = output_of([HARNESS], data)
    place = 0
    for case in cases:
        place = judge_case(compared, case, output, place)
        if place is None:
            break
    compared.judge("the harness", {"end": end, "bytes": place}, {
        "end": "ended well", "bytes": len(output)}, {"cases": data})
    return compared


def compare_with(vectors, rooms):
    vectors = list(vectors)
    compared = compare_cases([case for vector in vectors for case in cases_of(vector, rooms)])
    compared.counts["logs through the C call"] += len(vectors)
    return compared


def compare_every_room(vectors):
    return compare_with(vectors, every_room)


def compare(vectors):
    return compare_with(vectors, two_rooms)
