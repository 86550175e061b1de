"""What the checker and the order call answer: a code and a number."""

from typing import NamedTuple


class Answer(NamedTuple):
    code: int
    number: int


class Refused(Exception):
    """A log or a version order that is refused, with the code and its number."""

    def __init__(self, code, number):
        super().__init__(code, number)
        self.answer = Answer(code, number)
