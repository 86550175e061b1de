"""Compares the run program with the second program: standard output, log file, order file."""

import os
import tempfile

from built import output_of, program
from differences import Compared
import lines
from limits import MAX_LOG
from order import write_timestamp_order


def timestamp_order(log):
    """The log's timestamp order, or None where it has none."""
    buffer = bytearray(MAX_LOG)
    code, length = write_timestamp_order(log, buffer)
    return bytes(buffer[:length]) if code == 0 else None


def second_answer(data):
    output, log = lines.run(data)
    return {"end": "ended well", "output": output, "log": log, "order": timestamp_order(log)}


def bytes_in(name):
    """The file's bytes, or None where there is no such file."""
    if not os.path.exists(name):
        return None
    with open(name, "rb") as file:
        return file.read()


def built_answer(data, folder):
    log, order = os.path.join(folder, "log"), os.path.join(folder, "order")
    for name in (log, order):
        if os.path.exists(name):
            os.remove(name)
    end, output = output_of([program("run"), log, order], data)
    return {"end": end, "output": output, "log": bytes_in(log), "order": bytes_in(order)}


def compare(vectors):
    compared = Compared()
    with tempfile.TemporaryDirectory() as folder:
        for vector in vectors:
            compared.judge(vector.name, built_answer(vector.data, folder),
                           second_answer(vector.data), {"lines": vector.data})
            compared.counts["runs"] += 1
            compared.counts["operation lines"] += len(lines.lines_of(vector.data))
    return compared
