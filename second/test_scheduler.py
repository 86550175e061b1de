"""Tests of the scheduler. Each test tells what it tried, what came and what was to come."""

import fixed_runs
import history
import lines
import log as the_log
import scheduler
import state as the_state
import vectors
from limits import ABORT, BEGIN, COMMIT, READ, WRITE
from log import Record
from scheduler import Operation, Reply

WORKED_REPLIES = """ok; ok; ok; wait 10; ok; value 7 from 10; ok; value 0 from 0; late 30; no 5;
    no 3; ok"""

WORKED_LOG = bytes.fromhex("""
    10 0001 01
    01 0004 0000000a
    03 0009 0000000a 01 00000007
    01 0004 00000014
    04 0004 0000000a
    02 000d 00000014 01 0000000a 00000007
    01 0004 0000001e
    02 000d 0000001e 02 00000000 00000000
    05 0005 00000014 01
    04 0004 0000001e
""")

# The replies to each of the small inputs, worked out from the page.
REPLIES = {
    "the worked example": WORKED_REPLIES,
    "begin must rise": "ok; no 3; no 3; no 2; ok; ok; no 3; ok",
    "G, the last stamp": """ok; ok; no 3; no 3; no 2; no 2; value 0 from 0; ok;
        value 4294967295 from 4294967295; ok; no 3""",
    "H, item 63 and item 64": """ok; value 0 from 0; no 2; ok; no 2; value 5 from 1; no 2;
        no 2; no 2; no 2""",
    "stamp 0 for each kind": "no 2; no 2; no 2; no 2; no 2",
    "not begun": "no 5; no 5; no 5; no 5; ok; no 5; no 5",
    "ended by a commit": "ok; ok; no 5; no 5; no 5; no 5",
    "ended by an abort": "ok; ok; no 5; no 5; no 5; no 5",
    "2 before 3": "ok; no 2; no 2; no 2",
    "2 before 5": "no 2; no 2; no 2; no 2",
    "read the largest at or below": """ok; ok; ok; ok; ok; value 0 from 0; value 22 from 2; ok;
        ok; ok; value 33 from 3; value 0 from 0""",
    "read between versions": """ok; ok; ok; ok; ok; ok; ok; ok; value 11 from 1;
        value 11 from 1; ok; value 44 from 4""",
    "read own version": """ok; ok; value 5 from 1; ok; wait 1; value 5 from 1; ok;
        value 5 from 1; ok; value 6 from 2""",
    "read past another's open version": """ok; ok; ok; value 0 from 0; ok; wait 2; ok;
        value 5 from 2""",
    "wait, then the writer aborts": "ok; ok; ok; wait 1; ok; value 0 from 0",
    "wait for the largest only": """ok; ok; ok; ok; ok; wait 2; ok; value 6 from 2; no 5;
        ok""",
    "a waiting read leaves no mark": """ok; ok; ok; ok; wait 1; ok; ok; wait 2; ok;
        value 6 from 2""",
    "a waiting read leaves no initial mark": "ok; ok; ok; ok; wait 2; ok; ok; ok",
    "late by the initial mark": "ok; ok; value 0 from 0; late 2; no 5; ok",
    "late by a version's mark": "ok; ok; ok; ok; ok; value 5 from 1; late 3; no 5",
    "late by a reader that aborted": "ok; ok; value 0 from 0; ok; late 2; no 5",
    "late by a reader of a version that aborted": """ok; ok; ok; ok; ok; value 5 from 1; ok;
        late 3; no 5""",
    "late by a reader that committed": "ok; ok; value 0 from 0; ok; late 2",
    "not late by a read of a later version": """ok; ok; ok; ok; ok; ok; value 5 from 3; ok; ok;
        ok; ok""",
    "not late by a read of another item": "ok; ok; value 0 from 0; ok; late 2",
    "not late by an equal mark": "ok; value 0 from 0; ok; ok",
    "not late by a lower mark": "ok; value 0 from 0; ok; ok; ok",
    "a mark is not lowered": """ok; ok; ok; value 0 from 0; value 0 from 0; late 3; no 5""",
    "a version's mark is not lowered": """ok; ok; ok; ok; ok; ok; value 5 from 1;
        value 5 from 1; late 4; no 5""",
    "late judged beneath the write": """ok; ok; ok; ok; ok; ok; ok; ok; value 6 from 2; late 4;
        no 5""",
    "a late write takes all versions": """ok; ok; ok; ok; value 0 from 0; wait 1; late 2;
        value 0 from 0; value 0 from 0; no 5""",
    "a late write leaves others' versions": """ok; ok; ok; ok; ok; value 5 from 1; late 3;
        value 5 from 1; ok; value 5 from 1""",
    "an abort takes its versions only": """ok; ok; ok; ok; ok; ok; ok; ok; value 1 from 1;
        value 0 from 0""",
    "a commit keeps versions": "ok; ok; ok; ok; value 5 from 1",
    "a mark goes with its version": """ok; ok; value 5 from 1; ok; ok; ok; ok; wait 2; ok;
        value 6 from 2""",
    "a new version has mark 0": """ok; value 0 from 0; ok; ok; ok; value 0 from 0; ok; ok; ok;
        ok""",
    "an aborted stamp is not begun again": "ok; ok; no 3; ok",
    "7, each item once": "ok; ok; no 7; no 7; value 5 from 1; ok; ok; ok; ok; no 7",
    "two write the same item": "ok; ok; ok; ok; no 7; ok; ok; ok; value 5 from 2",
    "value 0 and the largest": """ok; ok; ok; value 0 from 1; value 4294967295 from 1; ok; ok;
        value 0 from 1; value 4294967295 from 1""",
    "a refused begin may be tried again": "ok; no 3; ok; no 2; ok",
    "two readers and an older writer": """ok; ok; ok; value 0 from 0; value 0 from 0; late 3;
        ok; ok; ok; ok; ok""",
}

# How the output ends at each limit, `log` and the bytes used included.
LAST_LINES = {
    "32 open": "ok; log 228",
    "33 open": "ok; no 4; no 4; no 3; no 2; log 228",
    "33 open, room after abort 7": "no 4; ok; ok; no 4; ok; log 250",
    "33 open, room after commit 7": "no 4; ok; ok; no 4; ok; log 249",
    "33 open, room after a late write": "value 0 from 0; no 4; late 32; ok; no 4; ok; log 266",
    "256 committed one after the other": "ok; ok; ok; log 6660",
    "257 committed one after the other": "ok; ok; ok; log 6686",
    "4 before 10": "ok; no 3; no 4; no 2; no 10; no 10; log 65536",
    "1,024 versions": "ok; value 1 from 2017; value 201500 from 2015; wait 2016; log 12555",
    "1,025 versions": "ok; no 9; no 9; no 7; no 2; no 5; value 201500 from 2015; log 12539",
    "1,025 versions, room after an abort": """no 9; ok; ok; no 9; ok; ok;
        value 201501 from 2015; log 12579""",
    "1,025 versions, no room after a commit": "no 9; ok; no 9; ok; no 9; log 12537",
    "1,025 versions, late": """value 201500 from 2015; late 2018; ok; late 2018; no 5; no 7;
        value 201501 from 2015; log 12583""",
    "1,024 versions and 0 bytes left": """no 9; no 7; wait 2017; no 3; no 10; no 9; no 10; no 9;
        log 65536""",
    "1,024 versions and 7 bytes left": """no 9; no 7; wait 2017; no 3; no 10; no 9; no 10; no 9;
        log 65529""",
    "1,024 versions and 8 bytes left": """no 9; no 7; wait 2017; no 3; late 2018; no 10; no 10;
        no 10; log 65536""",
    "1,024 versions and 20 bytes left": """no 9; no 7; wait 2017; no 3; late 2018; ok; no 10;
        no 7; log 65536""",
    "1,023 versions and 11 bytes left": "value 201500 from 2015; no 10; ok; no 10; log 65532",
    "begin with 6 bytes left": "no 10; no 10; no 10; wait 20; log 65530",
    "begin with 7 bytes left": "ok; no 3; no 10; wait 20; log 65536",
    "read with 15 bytes left": "no 10; no 10; ok; wait 20; log 65528",
    "read with 16 bytes left": "value 0 from 0; no 10; no 10; wait 20; log 65536",
    "read of own version with 15 bytes left": "no 10; no 10; ok; wait 20; log 65528",
    "read of own version with 16 bytes left": "value 5 from 20; no 10; no 10; wait 20; log 65536",
    "write with 11 bytes left": "no 10; no 10; ok; wait 20; log 65532",
    "write with 12 bytes left": "ok; no 7; no 10; wait 20; log 65536",
    "commit with 6 bytes left": "no 10; no 10; no 10; wait 20; log 65530",
    "commit with 7 bytes left": "ok; no 5; no 10; no 5; log 65536",
    "abort with 7 bytes left": "no 10; no 10; ok; wait 20; log 65536",
    "abort with 8 bytes left": "ok; no 5; no 10; no 5; log 65536",
    "late write with 7 bytes left": "no 10; no 10; ok; wait 20; log 65536",
    "late write with 8 bytes left": "late 30; no 5; no 5; wait 20; log 65536",
    "each code with 0 bytes left": """no 2; no 3; no 10; no 2; no 5; no 5; no 5; no 5; wait 20;
        no 10; no 10; no 7; no 10; no 10; no 10; no 10; no 10; no 10; no 10; wait 20;
        log 65536""",
    "late with 7 bytes left stays open": "no 10; no 10; no 10; ok; no 10; log 65536",
    "late with 8 bytes left": "late 30; no 5; no 5; no 5; no 10; log 65536",
    "abort with 7 bytes left, then commit": "ok; no 10; no 10; no 10; no 3; log 65536",
}

# What a call answers where no run comes to it.
UNREACHED = {
    "7 before 8": (7, 0, 0),
    "7 before 8 and 10": (7, 0, 0),
    "late by a mark on 1": (8, 6, 0),
    "not late, mark on 1 below": (0, 0, 0),
    "late, 8 bytes left": (8, 6, 0),
    "late, 7 bytes left": (10, 0, 0),
    "6 before 10": (6, 3, 0),
    "read past an open version": (0, 0, 0),
    "9": (9, 0, 0),
    "9 before 10": (9, 0, 0),
    "7 before 9": (7, 0, 0),
    "7 before 9 and 10": (7, 0, 0),
    "late with 1,024 versions": (8, 51, 0),
    "late with 1,024 versions, 7 bytes left": (10, 0, 0),
    "9 with a stamp below all": (9, 0, 0),
    "9 with 7 bytes left": (9, 0, 0),
    "4": (4, 0, 0),
    "3 before 4": (3, 0, 0),
    "4 before 10": (4, 0, 0),
    "3 before 10": (3, 0, 0),
    "first begin in 10 bytes": (10, 0, 0),
    "first begin in 11 bytes": (0, 0, 0),
    "second begin in 11 bytes": (10, 0, 0),
    "second begin in 18 bytes": (0, 0, 0),
    "all zeros, kind 1": (1, 0, 0),
    "all ones, kind 1": (1, 0, 0),
    "65,536 used of more, kind 1": (10, 0, 0),
    "65,537 used of more, kind 1": (1, 0, 0),
    "65,530 used of more, kind 1": (10, 0, 0),
    "kind 0": (2, 0, 0),
    "kind 257": (2, 0, 0),
    "kind 1, stamp 0, damaged": (1, 0, 0),
    "kind 4, item 1": (2, 0, 0),
    "kind 2, value 1": (2, 0, 0),
}


def answered(vector):
    """The state before a call, the state after it, the reply, the buffer after it."""
    before = the_state.state_of_words(vector.words)
    buffer = bytearray(vector.buffer)
    after, reply = scheduler.call(before, buffer, Operation(*vector.operation))
    return before, after, reply, bytes(buffer)


def test_worked_example():
    data = fixed_runs.data_of(fixed_runs.lines_of(fixed_runs.WORKED_EXAMPLE))
    output, log = lines.run(data)
    expected = fixed_runs.data_of(fixed_runs.lines_of(WORKED_REPLIES) + ["log 91"])
    yield "worked example, output", output, expected
    yield "worked example, log", log, WORKED_LOG
    yield "empty input", lines.run(b""), (b"log 4\n", bytes([16, 0, 1, 1]))


def test_small_runs():
    yield "each small input has its replies", set(REPLIES), set(fixed_runs.SMALL)
    for name, text in fixed_runs.SMALL.items():
        output, log = lines.run(fixed_runs.data_of(fixed_runs.lines_of(text)))
        *replies, last = output.decode().splitlines()
        yield name, replies, fixed_runs.lines_of(REPLIES[name])
        yield f"{name}, log", last, f"log {len(log)}"


def test_limits():
    inputs = dict(fixed_runs.fixed_runs())
    for name, text in LAST_LINES.items():
        output, _ = lines.run(inputs[name])
        expected = fixed_runs.lines_of(text)
        yield name, output.decode().splitlines()[-len(expected):], expected


def test_calls():
    calls = {vector.name: vector for vector in vectors.fixed_calls()}
    for name, reply in UNREACHED.items():
        yield name, answered(calls[f"call: {name}"])[2], Reply(*reply)


def test_damage():
    for vector in vectors.fixed_calls():
        if vector.name.startswith("call: damage"):
            yield vector.name, answered(vector)[2], Reply(1, 0, 0)
        elif vector.name.startswith("call: no damage"):
            yield vector.name, answered(vector)[2].code != 1, True


def test_what_a_call_leaves():
    """Refused, a call changes nothing; else just the bytes of one record behind the used
    ones, and the state is again not damaged."""
    sizes = {BEGIN: 7, READ: 16, WRITE: 12, COMMIT: 7, ABORT: 8}
    for vector in [*vectors.fixed_calls(), *vectors.random_calls(range(600))]:
        before, after, reply, buffer = answered(vector)
        if reply.code not in (0, 8):
            yield vector.name, (after, buffer), (before, vector.buffer)
            continue
        used = before.used
        new = used + (8 if reply.code == 8 else sizes[vector.operation[0]])
        yield f"{vector.name}, bytes used", after.used, new
        yield (f"{vector.name}, other bytes", buffer[:used] + buffer[new:],
               vector.buffer[:used] + vector.buffer[new:])
        yield f"{vector.name}, damaged after", the_state.damaged(after, len(buffer)), False


def test_marks():
    """What the marks are after a run, own reads included."""
    buffer = bytearray(200)
    _, state = scheduler.fresh(buffer)
    for operation in ((BEGIN, 1, 0, 0), (BEGIN, 2, 0, 0), (WRITE, 1, 5, 9), (READ, 1, 5, 0),
                      (READ, 2, 5, 0), (READ, 2, 6, 0), (READ, 1, 6, 0)):
        state, _ = scheduler.call(state, buffer, Operation(*operation))
    yield "own read raises its mark, a waiting one does not", state.versions(), ((5, 1, 9, 1),)
    yield "initial marks", state.initial_marks, (0,) * 6 + (2,) + (0,) * 57


def test_fresh():
    empty = the_state.State.empty()
    yield "the empty state is all zeros", set(the_state.words_of(empty)), {0}
    for length in (0, 1, 2, 3):
        buffer = bytearray([170] * length)
        yield f"fresh in {length} bytes", scheduler.fresh(buffer), (10, empty)
        yield f"fresh in {length} bytes, buffer", buffer, bytearray([170] * length)
        after = scheduler.call(empty, buffer, Operation(BEGIN, 1, 0, 0))
        yield f"call after fresh in {length} bytes", after, (empty, Reply(1, 0, 0))
    for length in (4, 5, 11, 65536, 65537, 70000):
        buffer = bytearray([170] * length)
        yield f"fresh in {length} bytes", scheduler.fresh(buffer), (0, empty._replace(used=4))
        yield (f"fresh in {length} bytes, buffer", bytes(buffer),
               bytes([16, 0, 1, 1]) + bytes([170] * (length - 4)))


def test_eleven_bytes():
    """I: an 11-byte buffer takes one begin; the second is 10."""
    buffer = bytearray(11)
    _, state = scheduler.fresh(buffer)
    state, first = scheduler.call(state, buffer, Operation(BEGIN, 1, 0, 0))
    state, second = scheduler.call(state, buffer, Operation(BEGIN, 2, 0, 0))
    yield "I", (first, second), (Reply(0, 0, 0), Reply(10, 0, 0))
    yield "I, log", bytes(buffer), bytes.fromhex("10000101 010004 00000001")


def test_adding_a_record():
    record = Record(ABORT, 5, cause=1)
    for used, length, expected in ((4, 12, (0, 12)), (4, 11, (10, 4)), (4, 3, (10, 4)),
                                   (65528, 70000, (0, 65536)), (65529, 70000, (10, 65529))):
        buffer = bytearray([170] * length)
        name = f"adding behind {used} of {length}"
        yield name, the_log.add_record(buffer, used, record), expected
        end = expected[1]
        added = bytes.fromhex("050005 00000005 01") if expected[0] == 0 else b""
        whole = bytes([170] * min(used, length)) + added + bytes([170] * (length - end))
        yield f"{name}, buffer", bytes(buffer), whole if added else bytes([170] * length)
    for length in (3, 4, 12, 100):
        buffer = bytearray(length)
        code = the_log.add_record(buffer, 4, record._replace(cause=2))
        yield f"cause 2 in {length} bytes", (code, any(buffer)), ((2, 4), False)


def rebuilt(log):
    """The state that a log of the scheduler tells, each thing found on its own."""
    records = [record for _, record in the_log.walk(log)]
    told = history.read_history(log)
    begun = [record.stamp for record in records if record.tag == BEGIN]
    marks = {}
    for record in records:
        if record.tag == READ:
            at = record.item, record.version
            marks[at] = max(marks.get(at, 0), record.stamp)
    held = sorted(at for at in told.values if at[1] not in told.aborted)
    return (
        max(begun, default=0),
        tuple(stamp for stamp in begun if not told.has_ended(stamp)),
        tuple((*at, told.values[at], marks.get(at, 0)) for at in held),
        tuple(marks.get((item, 0), 0) for item in range(64)),
        len(log))


def test_state_is_in_the_log():
    for vector in vectors.random_runs(range(150)):
        buffer = bytearray(65536)
        _, state = scheduler.fresh(buffer)
        for line in lines.lines_of(vector.data):
            operation = lines.operation_of(line)
            if operation is not None:
                state, _ = scheduler.call(state, buffer, operation)
        told = (state.last_begun, state.open_stamps(), state.versions(), state.initial_marks,
                state.used)
        yield vector.name, told, rebuilt(buffer[:state.used])


TESTS = (
    test_worked_example, test_small_runs, test_limits, test_calls, test_damage,
    test_what_a_call_leaves, test_marks, test_fresh, test_eleven_bytes,
    test_adding_a_record, test_state_is_in_the_log)
