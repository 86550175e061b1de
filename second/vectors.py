"""The inputs on which the two programs are compared.

`fixed_runs`, `fixed_checks` and `fixed_calls` are the same each time; `random_runs`,
`random_checks`, `random_calls` and those of large ones make one input from each seed, the same
each time too. A random one's name tells its seed, and `named` gives any of them back by its name.
The order call is put to the logs of the checks, by `fixed_orders` and `random_orders`.

    python3 vectors.py                    prints all fixed names
    python3 vectors.py NAME               writes a run's input to standard output
    python3 vectors.py NAME LOG ORDER     writes a check's log and order to these files
"""

import sys
from typing import NamedTuple

import fixed_logs
import fixed_runs as fixed_inputs
import fixed_states
from order import timestamp_order_length
from random_logs import random_check
from random_runs import random_long_run, random_run
from random_states import random_large_state, random_state


class Run(NamedTuple):
    """An input of the run program."""
    name: str
    data: bytes


class Check(NamedTuple):
    """A log and a version order for the checker, and its answer buffer's length. The check
    program's answer buffer has 1,024 bytes."""
    name: str
    log: bytes
    order: bytes
    room: int


class Order(NamedTuple):
    """A log for the order call, and its buffer's length."""
    name: str
    log: bytes
    room: int


class Call(NamedTuple):
    """A state's numbers, a log buffer and an operation for the scheduler."""
    name: str
    words: list
    buffer: bytes
    operation: tuple


def fixed_runs():
    """Every code, limit and precedence, and every kind of line that is no operation."""
    return [Run(f"run: {name}", data) for name, data in fixed_inputs.fixed_runs()]


def fixed_checks():
    """Every code 21 to 30, precedence, cut, damaged order and limit, and many graphs."""
    return [Check(f"check: {name}", *rest) for name, *rest in fixed_logs.fixed_logs()]


def orders_of(checks):
    """For each log among the checks, the order call with buffers just too short, just long enough and longer."""
    names = {}
    for check in checks:
        names.setdefault(check.log, check.name)
    for log, name in names.items():
        length = timestamp_order_length(log)
        for room in sorted({max(length - 1, 0), length, length + 9}):
            yield Order(f"{name}, order of {room} bytes", log, room)


def fixed_orders():
    """The logs of the fixed checks, for the order call."""
    return list(orders_of(fixed_checks()))


def fixed_calls():
    """Every damage of a state, and states that no run comes to."""
    return [Call(f"call: {name}", *rest) for name, *rest in fixed_states.fixed_states()]


def random_runs(seeds):
    return (Run(f"random run {seed}", random_run(seed)) for seed in seeds)


def random_long_runs(seeds):
    return (Run(f"random long run {seed}", random_long_run(seed)) for seed in seeds)


def random_checks(seeds):
    return (Check(f"random check {seed}", *random_check(seed)) for seed in seeds)


def random_orders(seeds):
    return orders_of(random_checks(seeds))


def random_calls(seeds):
    return (Call(f"random call {seed}", *random_state(seed)) for seed in seeds)


def random_large_calls(seeds):
    return (Call(f"random large call {seed}", *random_large_state(seed)) for seed in seeds)


RANDOM = {"run": random_runs, "long run": random_long_runs, "check": random_checks,
          "call": random_calls, "large call": random_large_calls}


def all_fixed():
    return fixed_runs() + fixed_checks() + fixed_calls()


def named(name):
    """The vector of this name."""
    if name.startswith("random "):
        kind, seed = name.removeprefix("random ").rsplit(" ", 1)
        return next(iter(RANDOM[kind]([int(seed)])))
    return next(vector for vector in all_fixed() if vector.name == name)


def main(arguments):
    if not arguments:
        for vector in all_fixed():
            print(vector.name)
        return
    vector = named(arguments[0])
    if isinstance(vector, Run):
        sys.stdout.buffer.write(vector.data)
    elif isinstance(vector, Check):
        for file_name, data in zip(arguments[1:], (vector.log, vector.order)):
            with open(file_name, "wb") as file:
                file.write(data)
    else:
        print(vector)


if __name__ == "__main__":
    main(sys.argv[1:])
