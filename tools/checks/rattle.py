"""Reads .rt text: its code and its ghost text apart, what it imports and what it declares."""

import re
from typing import NamedTuple

from checks import antt
from checks.tree import line_at

HIDDEN = re.compile(r"""b?"(?:\\.|[^"\\])*"|b?'(?:\\.[^']*|[^'\\])'|//[^\n]*""")
GHOST_USE = re.compile(rf"^ *ghost use +{antt.BROUGHT} *;", re.M)
USE = re.compile(r"^ *use +(?P<path>[\w:]+)(?: +as +(?P<alias>\w+))? *;", re.M)
TACTIC = re.compile(r"#!?\[tactic\(([^\]]*)\)\]")
CLAUSE = re.compile(r"\b(?:requires|ensures|ghost +\w+)\b[^{;()]*\{")
DECLARED = re.compile(r'^( *)(?:pub +)?(extern +)?(fn|const|struct|enum) +(\w+)')
OWNER = re.compile(r"^impl +(\w+)")
# where a name stands by itself, neither behind `::` nor as a member; `..` is no member's dot
ALONE = r"(?<![\w:])(?<![^.]\.)"
# a field of a struct, a variant of an enum, or a field of a variant
PART = re.compile(r"^ +(?:pub +)?(\w+)(?:: |,|\(| \{)")


class Declared(NamedTuple):
    """A function, constant or type: its kind, its name, the type whose `impl` it stands in or "", whether C
    calls it, its lines, and the fields or variants where it is a type."""
    kind: str
    name: str
    owner: str
    outside: bool
    line: int
    last: int
    parts: tuple


class Halves(NamedTuple):
    """The code and the ghost text of a file, each with the other blanked."""
    code: str
    ghost: str


def plain(text):
    """The text without its comments and quoted texts."""
    return HIDDEN.sub(antt.blanked, text)


def closing(text, place):
    """The place after the brace that closes the one before a place."""
    depth = 1
    for match in re.compile(r"[{}]").finditer(text, place):
        depth += 1 if match.group() == "{" else -1
        if depth == 0:
            return match.end()
    return len(text)


def halves(text):
    """The code and the ghost text of a file, without comments and imports."""
    text = USE.sub(antt.blanked, GHOST_USE.sub(antt.blanked, plain(text)))
    code, ghost, done = [], [], 0
    blank = re.compile(r"[^\n]")
    for clause in CLAUSE.finditer(text):
        if clause.start() < done:
            continue
        end = closing(text, clause.end())
        before, said = text[done:clause.start()], text[clause.end():end - 1]
        code += [before, blank.sub(" ", text[clause.start():end])]
        ghost += [blank.sub(" ", before), blank.sub(" ", clause.group()), said, " "]
        done = end
    return Halves("".join(code) + text[done:], "".join(ghost))


def named_to_tactics(text, crate):
    """What the attributes name for the tactics, as its module and its name: `index.proofs.ChainLaws` and `kept` for
    `using(crate::proofs::ChainLaws::kept)` in the crate index."""
    for attribute in TACTIC.findall(plain(text)):
        for path in re.findall(r"\w+(?:::\w+)+", attribute):
            module, _, name = re.sub(r"^crate::", f"{crate}::", path).rpartition("::")
            yield module.replace("::", "."), name


def ghost_imports(text):
    """What the `ghost use` lines of a file bring in."""
    return antt.imports(plain(text), GHOST_USE)


def code_imports(text):
    """What the `use` lines of a file bring in, but for std's: its traits are used with no name, by their methods."""
    found = []
    text = plain(text)
    for use in USE.finditer(text):
        if use.group("path").startswith("std::"):
            continue
        module, _, origin = use.group("path").rpartition("::")
        found.append(antt.Import(module, origin, use.group("alias") or origin, line_at(text, use.start())))
    return found


def last_line(lines, number, indent):
    """The number of the line that ends what begins at a line: one that closes a brace at the same indent."""
    if lines[number - 1].endswith(("}", ";")):
        return number
    for after in range(number, len(lines)):
        if lines[after] in (indent + "}", indent + "};", indent + "];"):
            return after + 1
    return number


def declared(text):
    """What a file declares, in order."""
    found, owner = [], ""
    lines = [line.rstrip() for line in plain(text).split("\n")]
    for number, line in enumerate(lines, 1):
        if line and line[0] not in " }":
            owner = OWNER.match(line).group(1) if OWNER.match(line) else ""
        match = DECLARED.match(line)
        if not match:
            continue
        indent, outside, kind, name = match.groups()
        last = last_line(lines, number, indent)
        inside = lines[number:last] if kind in ("struct", "enum") else []
        parts = tuple(part.group(1) for part in map(PART.match, inside) if part)
        found.append(Declared(kind, name, owner, bool(outside), number, last, parts))
    return found
