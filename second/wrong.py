"""What a wrong program is: the right one with some of its functions changed."""

from contextlib import contextmanager
from typing import NamedTuple


class Wrong(NamedTuple):
    """A wrong program's name, and each change: module, name there, what stands there
    instead. `by_calls` is said where no run of operations shows it: it takes a state that
    none comes to, or shows in the state alone; `by_orders` where only the order call does."""
    name: str
    changes: tuple
    by_calls: bool = False
    by_orders: bool = False


def wrong(name, module, attribute, instead, by_calls=False, by_orders=False):
    return Wrong(name, ((module, attribute, instead),), by_calls, by_orders)


@contextmanager
def in_place(program):
    """Has the wrong program stand for the right one for a while."""
    right = [(module, name, getattr(module, name)) for module, name, _ in program.changes]
    for module, name, instead in program.changes:
        setattr(module, name, instead)
    try:
        yield
    finally:
        for module, name, value in right:
            setattr(module, name, value)
