"""Tests of the checker, of version orders and of the log's reader."""

import by_hand
import checker
import fixed_logs
import log as the_log
import order as the_order
import vectors
from answers import Answer, Refused
from by_hand import abort, begin, begins, commit, commits, four, log, order, read, write
from fixed_logs import GOOD_LOG, GOOD_ORDER, X, Y

CHECKS = {name: rest for name, *rest in fixed_logs.fixed_logs()}

# The check program's line for each of these, worked out from the page.
LINES = {
    "A": "cycle 1 2",
    "B": "accepted 2 1",
    "C": "accepted 1 3 2",
    "D": "accepted 2 1 3",
    "E": "cycle 2 3",
    "F": "accepted",
    "both read and both write": "cycle 1 2",
    "largest stamps": "accepted 4294967295 4294967294",
    "one that does nothing": "accepted 7",
    "without an end": "accepted",
    "aborted only": "accepted",
    "own reads, order 1 2": "accepted 1 2",
    "own reads, order 2 1": "accepted 1 2",
    "own read beside a read from 0": "accepted 1 2",
    "reader wrote it too, order [1, 2, 3]": "accepted 1 3 2",
    "reader wrote it too, order [3, 2, 1]": "accepted 2 1 3",
    "reader wrote it too, two versions turned round": "accepted 1 2",
    "header wrong and a bad field": "refused 21 0",
    "no header": "refused 21 0",
    "second header": "refused 22 11",
    "version order within the log": "refused 22 11",
    "length bytes turned round": "refused 22 11",
    "cause 1": "accepted",
    "cause 2": "refused 22 11",
    "cause 255": "refused 22 11",
    "begins that fall": "accepted 1 2 3",
    "begin of one begun": "refused 23 11",
    "begin after its commit": "refused 23 18",
    "begin after its abort": "refused 23 19",
    "read after its commit": "refused 23 18",
    "write after its late abort": "refused 23 19",
    "commit before any begin": "refused 23 4",
    "abort before its begin": "refused 23 4",
    "abort of stamp 0": "refused 23 11",
    "read of item 63": "accepted",
    "read of item 64": "refused 24 11",
    "write of item 64": "refused 24 11",
    "second write": "refused 24 23",
    "second write by another": "accepted 1 2",
    "second write after another's": "refused 24 42",
    "version never written": "refused 25 25",
    "version of one not begun": "refused 25 25",
    "version written later": "refused 25 25",
    "version of another item": "refused 25 37",
    "version aborted earlier": "refused 25 45",
    "version late earlier": "refused 25 45",
    "version aborted later, reader without an end": "accepted",
    "value differs": "refused 25 37",
    "value of 0 differs": "refused 25 25",
    "own write not read, 0 read": "refused 25 37",
    "own write not read, another read": "refused 25 49",
    "own write not read, same value": "refused 25 49",
    "own write of another item": "accepted 2",
    "own write after the read": "accepted 2",
    "own version not yet written": "refused 25 25",
    "own value differs": "refused 25 37",
    "value 0 written and read": "accepted 1 2",
    "reader that aborts": "refused 25 37",
    "257 committed": "refused 26 0",
    "257 committed and a 27": "refused 26 0",
    "257 committed, bad order": "refused 26 0",
    "256 committed and a 27": "refused 27 3600",
    "257 committed and a 25": "refused 25 3609",
    "257 committed and a 22": "refused 22 3602",
    "writer without an end": "refused 27 37",
    "writer aborts after the read": "refused 27 37",
    "writer aborts after the commit": "refused 27 37",
    "writer commits after the reader": "accepted 1 2",
    "reader without an end": "accepted 3",
    "reader aborts, writer aborts": "accepted",
    "the second read is the first such": "refused 27 72",
    "two such reads": "refused 27 49",
    "two such reads, the larger reader first": "refused 27 37",
    "the first such reader never commits": "refused 27 53",
    "own version, without an end": "accepted",
    "27 and a bad order": "refused 27 37",
    "27 and a later 25": "refused 25 60",
    "22 before 23 in a field": "refused 22 18",
    "22 before 23, cut": "refused 22 18",
    "23 before 24, write": "refused 23 18",
    "23 before 25": "refused 23 18",
    "24 before 25": "refused 24 18",
    "21 and every other": "refused 21 0",
    "25, order bad, answer short": "refused 25 11",
    "order [1, 2, 6]": "accepted 1 3 2 6",
    "order [2, 1, 6]": "accepted 2 1 3 6",
    "order [6, 2, 1]": "cycle 1 3 6",
    "28 before 29": "refused 28 0",
    "65,537 bytes": "refused 21 0",
    "65,536 bytes": "accepted 1 2",
    "65,552 bytes, all good": "refused 21 0",
    "65,536 bytes, bad in the last field": "refused 23 65529",
    "65,535 bytes, cut": "refused 22 65529",
    "a path": "accepted 3 1 4 2",
    "smallest first": "accepted 2 3 4 5 1 6",
    "two fans": "accepted 4 5 6 8 9 1 2 3",
    "freed in between": "accepted 2 1 5 3 9",
    "a ring of three": "cycle 1 2 3",
    "a ring of three the other way": "cycle 1 3 2",
    "two rings": "cycle 1 4",
    "two rings apart": "cycle 1 2",
    "two rings apart, the other first": "cycle 1 2",
    "the smallest left is on no ring": "cycle 3 4",
    "far from the ring": "cycle 8 9",
    "a free one before a ring": "cycle 2 3",
    "smallest predecessor": "cycle 1 2",
    "the smaller predecessor is taken away": "cycle 3 4",
    "the cycle's smallest is met last": "cycle 3 6 4 5",
    "a ring within a ring": "cycle 1 2 3 4",
    "100 read one item from 0 and write it": "cycle 1 2",
}

COUNTS = {
    "256 committed": (0, 256),
    "a cycle of 200": (30, 200),
    "a cycle of 256": (30, 256),
    "200 in a chain": (0, 200),
    "ring of 64": (30, 64),
    "four committed, 15 bytes": (29, 0),
    "four committed, 16 bytes": (0, 4),
    "cycle of two, 7 bytes": (29, 0),
    "cycle of two, 8 bytes": (30, 2),
    "three with a cycle of two, 11 bytes": (29, 0),
    "three with a cycle of two, 12 bytes": (30, 2),
    "none committed, 0 bytes": (0, 0),
    "256 committed, 1,023 bytes": (29, 0),
    "256 committed, 1,024 bytes": (0, 256),
    "257 committed, answer too short": (26, 0),
    "27 and a short answer": (27, 30),
}


def test_lines_of_checks():
    for name, line in LINES.items():
        log_bytes, order_bytes, _ = CHECKS[name]
        yield name, checker.check_line(log_bytes, order_bytes), line


def test_counts():
    for name, expected in COUNTS.items():
        log_bytes, order_bytes, room = CHECKS[name]
        yield name, checker.check(log_bytes, order_bytes, bytearray(room)), Answer(*expected)
    answer = bytearray(1024)
    checker.check(*CHECKS["a cycle of 200"][:2], answer)
    stamps = b"".join(map(four, [1, *range(200, 1, -1)]))
    yield "a cycle of 200, its stamps", bytes(answer), stamps + bytes(224)


def test_c_call():
    for name, expected in {"A": 30 * 65536 + 2, "D": 3, "F": 0, "257 committed": 26 * 65536,
                           "65,535 bytes, cut": 22 * 65536 + 65529}.items():
        log_bytes, order_bytes, room = CHECKS[name]
        yield name, checker.c_call(log_bytes, order_bytes, bytearray(room)), expected


def test_fronts():
    for name, log_bytes, order_bytes in fixed_logs.fronts():
        right = log_bytes[:4] == bytes([16, 0, 1, 1])
        line = "accepted 1" if right else "refused 21 0"
        yield name, checker.check_line(log_bytes, order_bytes), line


def test_bad_fields():
    good = ("cause 0", "cause 1")
    for name, log_bytes, order_bytes in fixed_logs.bad_fields():
        line = "accepted" if name in good else "refused 22 11"
        yield name, checker.check_line(log_bytes, order_bytes), line


def test_first_bad_field():
    for name, log_bytes, order_bytes, *_ in fixed_logs.precedence():
        if ", then " in name or "good one" in name:
            line = f"refused {name[:2]} 18"
            yield name, checker.check_line(log_bytes, order_bytes), line


def test_cuts():
    """A log cut between fields is refused by its order or its reads only; cut within a
    field, with 22 at that field's place."""
    places = [4]
    for field in by_hand.fields_of(GOOD_LOG[4:]):
        places.append(places[-1] + len(field))
    for length in range(len(GOOD_LOG)):
        code, number = checker.check(GOOD_LOG[:length], GOOD_ORDER, bytearray(1024))
        if length < 4:
            expected = (21, 0)
        elif length in places:
            expected = (28, 0)
        else:
            expected = (22, max(place for place in places if place < length))
        yield f"log cut to {length}", (code, number), expected
    for length in range(len(GOOD_ORDER)):
        line = checker.check_line(GOOD_LOG, GOOD_ORDER[:length])
        yield f"order cut to {length}", line, "refused 28 0"


def test_orders():
    for name, fields in fixed_logs.BAD_ORDERS.items():
        line = checker.check_line(GOOD_LOG, order(*fields))
        yield f"order with {name}", line, "refused 28 0"
    for name, log_bytes, order_bytes in fixed_logs.orders():
        if not name.startswith("order ["):
            yield name, checker.check_line(log_bytes, order_bytes), "refused 28 0"
    for at in range(len(GOOD_ORDER)):
        short = GOOD_ORDER[:at] + GOOD_ORDER[at + 1:]
        yield f"order byte {at} taken out", checker.check_line(GOOD_LOG, short), "refused 28 0"


def test_nothing_else_written():
    """Codes 21 to 29 write nothing; else just 4 bytes for each stamp told."""
    for vector in [*vectors.fixed_checks(), *vectors.random_checks(range(400))]:
        answer = bytearray([170] * vector.room)
        code, number = checker.check(vector.log, vector.order, answer)
        start = 4 * number if code in (0, 30) else 0
        rest = bytes([170] * (vector.room - start))
        yield vector.name, bytes(answer[start:]), rest


def test_timestamp_order():
    """The order call: its bytes, its answers, and nothing else written."""
    expected = order((X, [1, 2, 6]), (Y, [6]), (63, [3]))
    for length in (0, 31, 32, 33, 100):
        buffer = bytearray([170] * length)
        answer = the_order.write_timestamp_order(GOOD_LOG, buffer)
        fits = length >= 32
        yield f"order call in {length} bytes", answer, Answer(0, 32) if fits else Answer(29, 0)
        written = expected if fits else b""
        rest = bytes([170] * (length - len(written)))
        yield f"order call in {length} bytes, buffer", bytes(buffer), written + rest
    yield "order call, header alone", the_order.write_timestamp_order(
        by_hand.HEADER, bytearray()), Answer(0, 0)
    for vector in vectors.fixed_checks():
        buffer = bytearray(b"\xaa" * 30000)
        answer = the_order.write_timestamp_order(vector.log, buffer)
        code, number = checker.check(vector.log, bytes(buffer[:answer.number]), bytearray(1024))
        if 21 <= code <= 27:
            yield vector.name, (answer, set(buffer)), (Answer(code, number), {170})
        else:
            yield vector.name, (answer.code, code in (0, 30)), (0, True)


def test_records_write_back():
    """A log that passes 21 and 22 is read into records that write back to the same bytes."""
    for vector in [*vectors.fixed_checks(), *vectors.random_checks(range(300))]:
        code = checker.check(vector.log, vector.order, bytearray(vector.room)).code
        try:
            records = [record for _, record in the_log.walk(vector.log)]
        except Refused as refused:
            yield vector.name, refused.answer.code in (21, 22), True
            continue
        yield vector.name, the_log.log_of_records(records), vector.log
        yield f"{vector.name}, code", code in (21, 22), False


def test_limits_of_stamps_and_items():
    last = 4294967295
    both = log(begins(last, 1), write(last, 63, last), read(last, 63, last, last), commit(last),
               read(1, 63, last, last), write(1, 63, 0), commit(1))
    yield "stamp 4294967295", checker.check_line(
        both, order((63, [last, 1]))), f"accepted {last} 1"
    yield "item 64", checker.check_line(log(begin(1), read(1, 64, 0, 0)), b""), "refused 24 11"
    yield "late abort and asked", checker.check_line(
        log(begins(1, 2), abort(1, 0), abort(2, 1)), b""), "accepted"
    yield "unused end", checker.check_line(log(begins(1, 2), commits(2, 1)), b""), "accepted 1 2"


TESTS = (
    test_lines_of_checks, test_counts, test_c_call, test_fronts, test_bad_fields,
    test_first_bad_field, test_cuts, test_orders, test_nothing_else_written,
    test_timestamp_order, test_records_write_back, test_limits_of_stamps_and_items)
