"""Compares the check program with the second program: the line it prints, for the files that its arguments name."""

import os
import tempfile

from built import output_of, program
from checker import check_line
from differences import Compared
from fixed_logs import GOOD_LOG, GOOD_ORDER


def answers(arguments, log, order):
    """Both programs' answers: what the built one prints with these arguments, and what the second one
    says of this log and order."""
    end, output = output_of([program("check_log"), *arguments])
    second = {"end": "ended well", "line": check_line(log, order).encode() + b"\n"}
    return {"end": end, "line": output}, second


def write_files(folder, log, order):
    """The names of two new files with the log and the order."""
    names = [os.path.join(folder, name) for name in ("log", "order")]
    for name, data in zip(names, (log, order)):
        with open(name, "wb") as file:
            file.write(data)
    return names


def compare(vectors):
    compared = Compared()
    with tempfile.TemporaryDirectory() as folder:
        for vector in vectors:
            names = write_files(folder, vector.log, vector.order)
            compared.judge(f"{vector.name}, by check_log",
                           *answers(names, vector.log, vector.order),
                           {"log": vector.log, "order": vector.order})
            compared.counts["logs through check_log"] += 1
    return compared


def arguments_given(folder):
    """Arguments of every kind, each with the log and the order that they come to: a file not named or
    not opened counts as empty."""
    log, order = write_files(folder, GOOD_LOG, GOOD_ORDER)
    no_file = os.path.join(folder, "no file")
    below_a_file = os.path.join(log, "file")
    yield "no argument", [], b"", b""
    yield "the log alone", [log], GOOD_LOG, b""
    yield "both", [log, order], GOOD_LOG, GOOD_ORDER
    yield "a third argument", [log, order, no_file], GOOD_LOG, GOOD_ORDER
    yield "order for log", [order, log], GOOD_ORDER, GOOD_LOG
    yield "the log twice", [log, log], GOOD_LOG, GOOD_LOG
    for name, argument in (("no such file", no_file), ("a file below a file", below_a_file),
                           ("a folder", folder), ("an empty name", ""),
                           ("a long name", "n" * 300), ("a very long name", "n/" * 4000)):
        yield f"{name} for the log", [argument, order], b"", GOOD_ORDER
        yield f"{name} for the order", [log, argument], GOOD_LOG, b""
        yield f"{name} for both", [argument, argument], b"", b""
        yield f"{name} alone", [argument], b"", b""


def compare_arguments(_):
    compared = Compared()
    with tempfile.TemporaryDirectory() as folder:
        for name, arguments, log, order in arguments_given(folder):
            compared.judge(f"check_log, {name}", *answers(arguments, log, order),
                           {"arguments": "\n".join(arguments).encode()})
            compared.counts["argument lists of check_log"] += 1
    return compared
