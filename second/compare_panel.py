"""Compares the panel's C example with the second program: the line it prints, and how it ends, for the files that its arguments
name."""

import subprocess
import tempfile

from built import EXAMPLE
from checker import check_line
from compare_check_log import arguments_given, write_files
from differences import Compared

ENDS = {"accepted": 0, "cycle": 1, "refused": 2}


def second_answer(log, order):
    line = check_line(log, order)
    return {"end": ENDS[line.split(" ")[0]], "line": line.encode() + b"\n"}


def built_answer(arguments):
    done = subprocess.run([EXAMPLE, *arguments], stdout=subprocess.PIPE, stderr=subprocess.PIPE, check=False)
    return {"end": done.returncode, "line": done.stdout}


def compare(vectors):
    compared = Compared()
    with tempfile.TemporaryDirectory() as folder:
        for vector in vectors:
            names = write_files(folder, vector.log, vector.order)
            compared.judge(f"{vector.name}, by the panel's example", built_answer(names),
                           second_answer(vector.log, vector.order),
                           {"log": vector.log, "order": vector.order})
            compared.counts["logs through the panel's example"] += 1
    return compared


def compare_arguments(_):
    compared = Compared()
    with tempfile.TemporaryDirectory() as folder:
        for name, arguments, log, order in arguments_given(folder):
            compared.judge(f"the panel's example, {name}", built_answer(arguments),
                           second_answer(log, order), {"arguments": "\n".join(arguments).encode()})
            compared.counts["argument lists of the panel's example"] += 1
    return compared
