"""What a comparison finds: how much was compared, and each difference with its input."""

from collections import Counter
import os
import re
import shutil
from typing import NamedTuple

from built import FOLDER, ROOT

KEPT = os.path.join(FOLDER, "differences")
SHOWN = 40      # bytes shown of an input or an answer


class Difference(NamedTuple):
    """An input that the two programs answer otherwise."""
    name: str           # of the vector
    part: str           # of the answer, the first that differs
    built: object       # what the built program answers there
    second: object      # what the second program says
    input: dict         # the input's parts, bytes by name


class Compared:
    """How much was compared, by what it is, and what differed."""

    def __init__(self):
        self.counts = Counter()
        self.differences = []

    def add(self, other):
        self.counts.update(other.counts)
        self.differences += other.differences

    def judge(self, name, built, second, given):
        """Compares two answers, each parts by name, and keeps the first part that differs. Tells whether all is the same."""
        for part, told in second.items():
            if built[part] != told:
                self.differences.append(Difference(name, part, built[part], told, given))
                return False
        return True


def is_text(data):
    return all(32 <= byte < 127 or byte == 10 for byte in data)


def short(data):
    """Bytes in a few signs, as text where they are text."""
    more = f" .. of {len(data)} bytes" if len(data) > SHOWN else ""
    start = data[:SHOWN]
    if data and is_text(start):
        return start.decode().replace("\n", "; ") + more
    return (start.hex(" ") or "no bytes") + more


def first_difference(one, other):
    """The place of the first byte that differs."""
    return next((at for at, (left, right) in enumerate(zip(one, other)) if left != right),
                min(len(one), len(other)))


def line_at(data, place):
    """The line in which the place is: its number, and the line."""
    number = data.count(b"\n", 0, place) + 1
    return f"line {number}: " + short(data.split(b"\n")[number - 1])


def told(built, second):
    """Both answers in a few words, from where they differ."""
    if not (isinstance(built, bytes) and isinstance(second, bytes)):
        return [str(answer) if not isinstance(answer, bytes) else short(answer)
                for answer in (built, second)]
    place = first_difference(built, second)
    if is_text(second):
        return line_at(built, place), line_at(second, place)
    return [f"{len(answer)} bytes, from byte {place}: {short(answer[place:])}"
            for answer in (built, second)]


def size(difference):
    """The bytes of the input."""
    return sum(map(len, difference.input.values()))


def forget():
    """Removes the inputs that an earlier comparison left."""
    shutil.rmtree(KEPT, ignore_errors=True)


def kept(difference):
    """Writes the input's parts to files under target/; answers their names."""
    os.makedirs(KEPT, exist_ok=True)
    stem = re.sub(r"[^A-Za-z0-9]+", "_", difference.name).strip("_")
    names = []
    for part, data in difference.input.items():
        name = os.path.join(KEPT, f"{stem}.{part}")
        with open(name, "wb") as file:
            file.write(data)
        names.append(os.path.relpath(name, ROOT))
    return names


def report(difference):
    """The difference in some lines; its input is left in files."""
    built, second = told(difference.built, difference.second)
    lines = [f"{difference.name}: {difference.part} differs"]
    for (part, data), file in zip(difference.input.items(), kept(difference)):
        lines.append(f"  {part:<8} {short(data)} ({file})")
    return "\n".join([*lines, f"  built    {built}", f"  second   {second}"])
