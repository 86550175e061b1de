"""Tests of operation lines, replies and whole inputs."""

import fixed_runs
import lines
from limits import ABORT, BEGIN, COMMIT, READ, WRITE
from scheduler import Operation, Reply

OPERATIONS = {
    b"begin 1": (BEGIN, 1, 0, 0),
    b"begin 0": (BEGIN, 0, 0, 0),
    b"begin 4294967295": (BEGIN, 4294967295, 0, 0),
    b"read 10 0": (READ, 10, 0, 0),
    b"read 10 63": (READ, 10, 63, 0),
    b"read 10 4294967295": (READ, 10, 4294967295, 0),
    b"write 1 2 3": (WRITE, 1, 2, 3),
    b"write 4294967295 4294967295 4294967295": (WRITE, 4294967295, 4294967295, 4294967295),
    b"commit 7": (COMMIT, 7, 0, 0),
    b"abort 7": (ABORT, 7, 0, 0),
}

REPLY_LINES = (
    (BEGIN, (0, 0, 0), "ok"),
    (WRITE, (0, 0, 0), "ok"),
    (READ, (0, 0, 0), "value 0 from 0"),
    (READ, (0, 10, 7), "value 7 from 10"),
    (READ, (0, 4294967295, 4294967295), "value 4294967295 from 4294967295"),
    (READ, (6, 12, 0), "wait 12"),
    (WRITE, (8, 30, 0), "late 30"),
    *((READ, (code, 0, 0), f"no {code}") for code in (1, 2, 3, 4, 5, 7, 9, 10)),
)

OUTPUTS = {
    "empty input": "log 4",
    "one newline": "no 2; log 4",
    "two newlines": "no 2; no 2; log 4",
    "no final newline": "ok; ok; log 18",
    "no final newline, one line": "ok; log 11",
    "two final newlines": "ok; no 2; log 11",
    "newline first": "no 2; ok; log 11",
    "every newline with a carriage return": "no 2; no 2; no 2; log 4",
    "carriage returns for newlines": "no 2; log 4",
    "NUL at the very end": "ok; no 2; log 11",
    "a space at the very end": "ok; no 2; log 11",
    "no final newline after a bad line": "ok; no 2; log 11",
    "no final newline after a long line": "ok; no 2; log 11",
}


def test_operations():
    for line, operation in OPERATIONS.items():
        yield line, lines.operation_of(line), Operation(*operation)


def test_no_operations():
    for name, line in fixed_runs.NO_OPERATION.items():
        yield name, lines.operation_of(line), None
        output, _ = lines.run(b"begin 5\n" + line + b"\nread 5 1\n")
        yield f"{name}, run", output, b"ok\nno 2\nvalue 0 from 0\nlog 27\n"


def test_replies():
    for kind, reply, line in REPLY_LINES:
        yield line, lines.reply_line(kind, Reply(*reply)), line


def test_whole_inputs():
    for name, text in OUTPUTS.items():
        output, _ = lines.run(fixed_runs.WHOLE[name])
        yield name, output, fixed_runs.data_of(fixed_runs.lines_of(text))


def test_every_byte():
    """Of all bytes, only the newline ends a line and only the space parts words."""
    output, _ = lines.run(fixed_runs.WHOLE["every byte as the space"])
    yield "every byte as the space", output.count(b"ok\n"), 1
    output, _ = lines.run(fixed_runs.WHOLE["every byte after an operation"])
    after = [output.decode().splitlines().count(line) for line in ("ok", "no 3", "no 2")]
    # A newline leaves the operation as it is; a digit makes a larger one of it.
    yield "every byte after an operation", after, [11, 0, 246]


TESTS = (
    test_operations, test_no_operations, test_replies, test_whole_inputs, test_every_byte)
