"""Lines, ways back and functions are short."""

import re

from checks import antt, rattle
from checks.tree import Finding, line_at

MOST_CHARACTERS = 160
MOST_STEPS = 4
MOST_LINES = 40
LONG_FUNCTIONS = "tools/long-functions.txt"

STEPS = re.compile(rf"(?:\.before(?![^{antt.ENDS}.])\s*){{{MOST_STEPS + 1},}}")
# between these lines stand the ways back that have names, which `tools/places` writes
PLACES = re.compile(r"^-- ---- places$.*?^-- ---- needs$", re.M | re.S)


def long_lines(tree):
    """Lines that a reader has to scroll for."""
    for path in tree.files("crates", ".antt", ".rt"):
        for number, line in enumerate(tree.text(path).split("\n"), 1):
            if len(line) > MOST_CHARACTERS:
                yield Finding(path, number, f"the line has {len(line)} characters, over {MOST_CHARACTERS}")


def long_ways(tree):
    """Ways back over many places that have no name."""
    for path in tree.files("crates", ".antt"):
        if "/proofs/" not in path:
            continue
        text = antt.plain(PLACES.sub(antt.blanked, tree.text(path)))
        for run in STEPS.finditer(text):
            steps = run.group().count(".before")
            yield Finding(path, line_at(text, run.start()), f"a way back of {steps} steps without a name")


def allowed(tree):
    """The functions that may be long, each with its line in the list."""
    lines = enumerate(tree.text(LONG_FUNCTIONS).split("\n"), 1)
    return {line.split()[0]: number for number, line in lines if line.strip() and not line.startswith("#")}


def long_functions(tree):
    """Functions over the limit that are not listed, and listed ones that are not over it."""
    listed, seen = allowed(tree), set()
    for path in tree.files("crates", ".rt"):
        for one in rattle.declared(tree.text(path)):
            lines = one.last - one.line + 1
            if one.kind != "fn" or lines <= MOST_LINES:
                continue
            name = "::".join(filter(None, (path.split("/")[1], one.owner, one.name)))
            seen.add(name)
            if name not in listed:
                yield Finding(path, one.line, f"`{name}` has {lines} lines, over {MOST_LINES}")
    for name, number in listed.items():
        if name not in seen:
            yield Finding(LONG_FUNCTIONS, number, f"`{name}` is no function over {MOST_LINES} lines")


def findings(tree):
    """All that is too long."""
    yield from long_ways(tree)
    yield from long_lines(tree)
    yield from long_functions(tree)
