"""Operation lines, their replies, and a run of them."""

from limits import ABORT, BEGIN, COMMIT, MAX_LINE, MAX_LOG, MAX_NUMBER, READ, WRITE
import scheduler
from scheduler import Operation, Reply

# For each keyword, its kind and how many numbers follow.
KEYWORDS = {
    b"begin": (BEGIN, 1),
    b"read": (READ, 2),
    b"write": (WRITE, 3),
    b"commit": (COMMIT, 1),
    b"abort": (ABORT, 1),
}


def number_of(word):
    """The decimal's number, or None if it is no decimal, has a leading zero or is above
    4294967295."""
    if not word.isdigit() or (word[:1] == b"0" and word != b"0"):
        return None
    number = int(word)
    return number if number <= MAX_NUMBER else None


def operation_of(line):
    """The operation that the line tells, or None."""
    if len(line) > MAX_LINE:
        return None
    keyword, *words = line.split(b" ")
    if keyword not in KEYWORDS:
        return None
    kind, count = KEYWORDS[keyword]
    numbers = [number_of(word) for word in words]
    if len(numbers) != count or None in numbers:
        return None
    stamp, item, value = numbers + [0] * (3 - count)
    return Operation(kind, stamp, item, value)


def reply_line(kind, reply):
    """The line that tells the reply to an operation of this kind."""
    if reply.code == 0 and kind == READ:
        return f"value {reply.value} from {reply.stamp}"
    if reply.code == 0:
        return "ok"
    if reply.code == 6:
        return f"wait {reply.stamp}"
    if reply.code == 8:
        return f"late {reply.stamp}"
    return f"no {reply.code}"


def lines_of(data):
    """The lines of the input; a final newline starts no line."""
    lines = data.split(b"\n")
    if lines[-1] == b"":
        lines.pop()
    return lines


def run(data):
    """The output for the input, and the log then written."""
    buffer = bytearray(MAX_LOG)
    _, state = scheduler.fresh(buffer)
    output = []
    for line in lines_of(data):
        operation = operation_of(line)
        if operation is None:
            output.append(reply_line(None, Reply(2, 0, 0)))
            continue
        state, reply = scheduler.call(state, buffer, operation)
        output.append(reply_line(operation.kind, reply))
    output.append(f"log {state.used}")
    text = "".join(line + "\n" for line in output)
    return text.encode(), bytes(buffer[:state.used])
