"""The checker of logs, the C call's number, and the check program's line."""

from answers import Answer, Refused
import graph
import history as the_history
from limits import MAX_COMMITTED, STAMP_BYTES
import order as the_order


def write_stamps(answer, stamps):
    """Writes the stamps at the answer's front, changing no later byte."""
    written = b"".join(stamp.to_bytes(STAMP_BYTES, "big") for stamp in stamps)
    answer[:len(written)] = written


def refuse_short_answer(answer, history):
    """29: answer buffer under 4 bytes per committed transaction."""
    if len(answer) < STAMP_BYTES * len(history.committed):
        raise Refused(29, 0)


def well_formed(log, order):
    """The log's history and version order. Refuses with 21 to 28."""
    history = the_history.judged_history(log)
    return history, the_order.version_order(order, history)


def check(log, order, answer):
    """Answers 0 and the count, the serial order written; or 30 and the length, the cycle
    written; or 21 to 29 and the number, nothing written."""
    try:
        history, versions = well_formed(log, order)
        refuse_short_answer(answer, history)
    except Refused as refused:
        return refused.answer
    before = graph.predecessors(history, versions)
    taken, left = graph.take_in_order(before)
    if left:
        taken = graph.cycle_among(left, before)
    write_stamps(answer, taken)
    return Answer(30 if left else 0, len(taken))


def c_call(log, order, answer):
    """What the C call returns: code times 65,536 plus number."""
    code, number = check(log, order, answer)
    return code * 65536 + number


def check_line(log, order):
    """The line that the check program prints, without its newline."""
    answer = bytearray(STAMP_BYTES * MAX_COMMITTED)
    code, number = check(log, order, answer)
    if code not in (0, 30):
        return f"refused {code} {number}"
    stamps = [int.from_bytes(answer[at:at + STAMP_BYTES], "big")
              for at in range(0, STAMP_BYTES * number, STAMP_BYTES)]
    return " ".join(["cycle" if code == 30 else "accepted", *map(str, stamps)])
