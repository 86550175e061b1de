"""Would the comparison notice? Puts each wrong program in the right one's place, one at a
time, and shows by which inputs it is told apart. Prints a table; ends with 1 if one is not.

    python3 would_it_notice.py            all of them
    python3 would_it_notice.py WORD       those with this word in their names
    python3 would_it_notice.py --table    all of them, as docs/WOULD_IT_NOTICE.md has them

An input tells a program apart by what `compare` compares: a run by its output, log and order; a check by its line, its number and
its answer buffer; an order by code, number and buffer; a call by reply, state and buffer.
"""

import sys

import checker
import lines
import order as the_order
import scheduler
import state as the_state
import vectors
import wrong_checkers
import wrong_graphs
import wrong_lines
import wrong_schedulers
from scheduler import Operation
from wrong import in_place

LARGE = 10000       # bytes from which on an input is tried only if no smaller one tells
ORDER_BYTES = 30000     # of the buffer for a run's order


# An answer is a list of parts, each a name and what is told.

def order_call(log, room):
    buffer = bytearray(b"\xaa" * room)
    code, number = the_order.write_timestamp_order(log, buffer)
    return [("order", f"order {code} {number}"), ("order bytes", bytes(buffer))]


def of_run(vector):
    output, log = lines.run(vector.data)
    replies = [("reply", line) for line in output.decode().splitlines()]
    return [*replies, ("log", log), *order_call(log, ORDER_BYTES)]


def of_check(vector):
    answer = bytearray(b"\xaa" * vector.room)
    code, number = checker.check(vector.log, vector.order, answer)
    return [("line", checker.check_line(vector.log, vector.order)),
            ("answer", f"{code} {number} in {vector.room} bytes"),
            ("answer bytes", bytes(answer))]


def of_order(vector):
    return order_call(vector.log, vector.room)


def of_call(vector):
    buffer = bytearray(vector.buffer)
    after, reply = scheduler.call(vector.state, buffer, Operation(*vector.operation))
    return [("reply", " ".join(map(str, reply))), ("state", after), ("buffer", bytes(buffer))]


class Call:
    """A vector for a call, its state made ready."""

    def __init__(self, vector):
        self.name, words, self.buffer, self.operation = vector
        self.state = the_state.state_of_words(words)


def answer_of(vector):
    """What the program that stands there now answers; a crash is an answer too."""
    answer = {vectors.Run: of_run, vectors.Check: of_check, vectors.Order: of_order,
              Call: of_call}[type(vector)]
    try:
        return answer(vector)
    except Exception as crash:
        return [("crash", f"crash, {type(crash).__name__}")]


def shortened(text, length):
    return text if len(text) <= length else text[:length - 2] + ".."


def difference(right, wrong):
    """The first part in which two answers differ, in a few words."""
    for (name, told), (_, other_told) in zip(right, wrong):
        if told != other_told:
            if isinstance(told, str) and isinstance(other_told, str):
                return f"{shortened(told, 32)} / {shortened(other_told, 32)}"
            return f"{name} differs"
    return "more or fewer lines"


class Inputs:
    """The inputs, the large ones apart, and the right program's answers to them."""

    def __init__(self):
        runs = vectors.fixed_runs() + list(vectors.random_runs(range(60)))
        checks = vectors.fixed_checks() + list(vectors.random_checks(range(150)))
        orders = vectors.fixed_orders() + list(vectors.random_orders(range(40)))
        calls = vectors.fixed_calls() + list(vectors.random_calls(range(300)))
        self.runs = [run for run in runs if len(run.data) < LARGE]
        self.large_runs = [run for run in runs if len(run.data) >= LARGE]
        self.checks = [check for check in checks if len(check.log) < LARGE]
        self.large_checks = [check for check in checks if len(check.log) >= LARGE]
        self.orders = [order for order in orders if len(order.log) < LARGE]
        self.calls = [Call(call) for call in calls]
        self.right = {}

    def told_apart(self, inputs, enough=None):
        """The inputs that the program standing there now answers otherwise, each with the
        difference; as many as are enough."""
        told = []
        for vector in inputs:
            right, answer = self.right[vector.name], answer_of(vector)
            if answer != right:
                told.append((vector.name, difference(right, answer)))
            if len(told) == enough:
                break
        return told

    def learn(self, inputs):
        """Keeps the right answers."""
        self.right.update((vector.name, answer_of(vector)) for vector in inputs)

    def tell(self, program, inputs, enough=None):
        """The inputs that tell the program apart."""
        self.learn(vector for vector in inputs if vector.name not in self.right)
        with in_place(program):
            return self.told_apart(inputs, enough)


def tried(program, inputs, of_checker):
    """The inputs that tell the program apart, by kind; one large one if no smaller does."""
    if of_checker:
        told = {"checks": inputs.tell(program, inputs.checks)}
        if not told["checks"] and not program.by_orders:
            told["large check"] = inputs.tell(program, inputs.large_checks, 1)
        told["orders"] = inputs.tell(program, inputs.orders)
        return told
    told = {"runs": inputs.tell(program, inputs.runs)}
    if not told["runs"] and not program.by_calls:
        told["large run"] = inputs.tell(program, inputs.large_runs, 1)
    told["calls"] = inputs.tell(program, inputs.calls)
    return told


def programs(word):
    for wrongs, of_checker in ((wrong_schedulers.WRONG, False), (wrong_lines.WRONG, False),
                               (wrong_graphs.WRONG, True), (wrong_checkers.WRONG, True)):
        for program in wrongs:
            if word in program.name:
                yield program, of_checker


def told_by(told):
    """How many inputs of each kind tell the program apart."""
    return ", ".join(f"{len(vectors_told)} {kind}" for kind, vectors_told in told.items()
                     if vectors_told) or "NOT TOLD APART"


def first_of(told):
    """The first input that tells the program apart, and the right and the wrong answer."""
    return next((example for vectors_told in told.values() for example in vectors_told), ("", ""))


def row(program, told):
    name, differs = first_of(told)
    return f"{program.name:<50} | {told_by(told):<22} | {shortened(name, 46)}: {differs}"


def table_row(program, told):
    cells = [program.name, *first_of(told), told_by(told)]
    return "| " + " | ".join(cell.replace("|", "\\|") for cell in cells) + " |"


def as_promised(program, told):
    """Whether it is told apart: by a run or a check, unless only a call or an order can."""
    if program.by_calls:
        return bool(told["calls"])
    if program.by_orders:
        return bool(told["orders"])
    return any(told.get(kind) for kind in ("runs", "large run", "checks", "large check"))


HEADS = {row: f"{'wrong program':<50} | {'told apart by':<22} | first of these: right / wrong",
         table_row: """# Would the comparison notice?

Wrong programs, one slip each, put in the second program's place one at a time; for each, the first input of the comparison that
tells it apart, what the right and the wrong program say there, and how many inputs tell in all: runs of lines, checks of
logs, order calls, calls of the scheduler with a state. A large input is tried only where no smaller one tells. Written by
`python3 second/would_it_notice.py --table`.

| Wrong program | First told apart by | Right / wrong | In all |
|---|---|---|---|"""}


def main(arguments):
    show = table_row if arguments == ["--table"] else row
    word = "" if show is table_row else "".join(arguments)
    inputs = Inputs()
    print(HEADS[show])
    total = missed = 0
    for program, of_checker in programs(word):
        told = tried(program, inputs, of_checker)
        print(show(program, told), flush=True)
        total += 1
        missed += not as_promised(program, told)
    print("" if show is row else "\n", end="")
    print(f"{total} wrong programs, {total - missed} told apart, {missed} not")
    return 1 if missed or not total else 0


if __name__ == "__main__":
    sys.exit(main(sys.argv[1:]))
