"""Tests of the two commands."""

import os
import subprocess
import sys
import tempfile

import fixed_logs
import fixed_runs
from test_scheduler import WORKED_LOG, WORKED_REPLIES

HERE = os.path.dirname(os.path.abspath(__file__))
WORKED = fixed_runs.data_of(fixed_runs.lines_of(fixed_runs.WORKED_EXAMPLE))
WORKED_OUTPUT = fixed_runs.data_of(fixed_runs.lines_of(WORKED_REPLIES) + ["log 91"])


def output_of(program, *arguments, data=b""):
    """The program's exit code and output."""
    command = [sys.executable, os.path.join(HERE, program), *arguments]
    done = subprocess.run(command, input=data, stdout=subprocess.PIPE, check=False)
    return done.returncode, done.stdout


def bytes_in(name):
    if not os.path.exists(name):
        return None
    with open(name, "rb") as file:
        return file.read()


def test_run():
    yield "worked example", output_of("run", data=WORKED), (0, WORKED_OUTPUT)
    yield "empty input", output_of("run"), (0, b"log 4\n")


def test_run_and_check():
    with tempfile.TemporaryDirectory() as folder:
        log, order = os.path.join(folder, "log"), os.path.join(folder, "order")
        yield "worked example", output_of("run", log, order, data=WORKED), (0, WORKED_OUTPUT)
        yield "log written", bytes_in(log), WORKED_LOG
        yield "order written", bytes_in(order), bytes.fromhex("20 0005 01 0000000a")
        yield "check", output_of("check_log", log, order), (0, b"accepted 10 30\n")
        yield "no order named", output_of("check_log", log), (0, b"refused 28 0\n")
        missing = os.path.join(folder, "missing")
        yield "order missing", output_of("check_log", log, missing), (0, b"refused 28 0\n")
        yield "log missing", output_of("check_log", missing, order), (0, b"refused 21 0\n")
        yield "log is a folder", output_of("check_log", folder, order), (0, b"refused 21 0\n")
        yield "nothing named", output_of("check_log"), (0, b"refused 21 0\n")
        yield "no log, no order", output_of("check_log", "", ""), (0, b"refused 21 0\n")


def test_no_order():
    """A log with 257 committed has no timestamp order: no file is written for it."""
    lines = [line for stamp in range(1, 258) for line in (f"begin {stamp}", f"commit {stamp}")]
    with tempfile.TemporaryDirectory() as folder:
        log, order = os.path.join(folder, "log"), os.path.join(folder, "order")
        output_of("run", log, order, data=fixed_runs.data_of(lines))
        yield "log written", len(bytes_in(log)), 4 + 257 * 14
        yield "no order written", bytes_in(order), None
        yield "check", output_of("check_log", log, order), (0, b"refused 26 0\n")


def test_check_of_cases():
    (_, log_bytes, order_bytes), *_ = fixed_logs.cases()
    with tempfile.TemporaryDirectory() as folder:
        log, order = os.path.join(folder, "log"), os.path.join(folder, "order")
        for name, data in ((log, log_bytes), (order, order_bytes)):
            with open(name, "wb") as file:
                file.write(data)
        yield "A", output_of("check_log", log, order), (0, b"cycle 1 2\n")


TESTS = (test_run, test_run_and_check, test_no_order, test_check_of_cases)
