"""Compares the scheduler's call with the second program on states of any numbers: reply, state and log buffer after the call, as
the program `states` tells them."""

from built import lines_of, program
from differences import Compared
from state_cases import bytes_of, case_of, line_of


def compare(vectors):
    compared = Compared()
    cases = [case_of(vector) for vector in vectors]
    data = b"".join(map(bytes_of, cases))
    end, printed = lines_of([program("states")], data)
    compared.judge("states", {"end": end, "lines": len(printed)}, {
        "end": "ended well", "lines": len(cases)}, {"cases": data})
    for case, line in zip(cases, printed):
        compared.judge(case.name, {"line": line}, {"line": line_of(case)}, {"case": bytes_of(case)})
        compared.counts["states"] += 1
    return compared
