"""Reads .antt text: its names, what it imports and what it defines."""

from functools import lru_cache
import re
from typing import NamedTuple

from checks.tree import line_at

# A name is a run of characters other than these; a dot ties a member to what it is a member of.
ENDS = r'\s(){};,@"«»'
NAME = rf"[^{ENDS}.]+"

HIDDEN = re.compile(rf'"(?:\\.|[^"\\])*"|(?<![^{ENDS}.])--[^\n]*|\{{-.*?-\}}', re.S)
# `x` in `record { x = 1; .. }`, in `record { x : T; .. }` and in `f {x = 1}` is a label, whatever else has that name.
LABEL = re.compile(rf"(?<=[{{;])\s*{NAME}(?=\s+[=:]\s)")
PATH = re.compile(rf"(?<![^{ENDS}])({NAME})((?:\.{NAME})*)")
# the part after `use` in an import line
BROUGHT = rf"(?P<module>[^\s{{;]+?)(?:\.\{{(?P<names>[^}}]*)\}}| +as +(?P<alias>{NAME}))?"
USE = re.compile(rf"^use +{BROUGHT} *$", re.M)
MARKS = r"(?:(?:pub|abbrev|unfoldable|axiom) +)*"
SIGNATURE = re.compile(rf"{MARKS}({NAME})(?: *\{{[^}}]*\}})? +:(?= |$)")
TYPE = re.compile(rf"{MARKS}(?:record|data) +({NAME})")
PARTS = re.compile(rf"(?:pub +)?({NAME}(?: +{NAME})*) +:(?= |$)")
APART = re.compile(r"(?:pub +)?(?:use|mod|module|mutual|infixl|infixr|infix|open|ruleset)(?=\s|$)")


class Import(NamedTuple):
    """A name that a file brings in: the module it comes from, its name there and here, its line."""
    module: str
    origin: str
    name: str
    line: int


class Word(NamedTuple):
    """A name that stands in a text, and the members behind it, as `.returns` in `goal.returns`."""
    name: str
    members: str
    line: int


class Definition(NamedTuple):
    """What a file defines: its name, the lines from its signature to its last clause, and the fields or
    constructors where it is a type."""
    name: str
    line: int
    last: int
    parts: tuple


def blanked(match):
    """Spaces in place of what was matched, so that every line and column stays."""
    return re.sub(r"[^\n]", " ", match.group())


@lru_cache(maxsize=None)
def plain(text):
    """The text without its comments and quoted texts."""
    return HIDDEN.sub(blanked, text)


@lru_cache(maxsize=None)
def body(text):
    """The text without its comments, its imports and the fixities of its operators."""
    return re.sub(r"^ *infix[lr]? .*$", blanked, USE.sub(blanked, plain(text)), flags=re.M)


@lru_cache(maxsize=None)
def words(text):
    """The names that stand in a text without comments. Members and labels are none."""
    found, line, seen = [], 1, 0
    text = LABEL.sub(blanked, text)
    for match in PATH.finditer(text):
        line += text.count("\n", seen, match.start())
        seen = match.start()
        found.append(Word(match.group(1), match.group(2), line))
    return found


def spelled(found):
    """How the names are spelled; `◌+◌` and `◌+` are spellings of `+` too."""
    names = {word.name for word in found}
    return names | {name.strip("◌") for name in names}


def stands(name, spellings):
    """Whether a name is among the spellings; an operator is where its visible parts are."""
    shown = [part for part in name.split("◌") if part]
    return name in spellings or ("◌" in name and shown != [] and spellings.issuperset(shown))


def item_of(module, text, line):
    """What an item of an import list brings in, `a`, `a as b` or `N.a`."""
    path, _, other = (part.strip() for part in text.partition(" as "))
    *between, origin = path.split(".")
    return Import(".".join([module] + between), origin, other or origin, line)


def items(names, place):
    """The items of an import list, each with its place in the text, where the list's place is given."""
    for item in names.split(","):
        if item.strip():
            yield item.strip(), place + len(item) - len(item.lstrip())
        place += len(item) + 1


def imports(text, pattern=USE):
    """What the `use` lines of a text without comments bring in. A module is brought in under a name, and has no
    origin; its members stand behind that name."""
    found = []
    for use in pattern.finditer(text):
        module, names, alias = use.group("module", "names", "alias")
        if names is None:
            line = line_at(text, use.start())
            found.append(Import(module, "", alias or module.split(".")[-1], line))
            continue
        for item, place in items(names, use.start("names")):
            found.append(item_of(module, item, line_at(text, place)))
    return found


def declarations(text):
    """The declarations of a file without comments, each as its numbered lines, those of `module` sections too."""
    found, sections, opened = [], [0], False
    for number, line in enumerate(text.split("\n"), 1):
        bare = line.strip()
        if not bare:
            continue
        indent = len(line) - len(line.lstrip())
        if opened and indent > sections[-1]:
            sections.append(indent)
        while indent < sections[-1]:
            sections.pop()
        if not found or (indent == sections[-1] and bare[0] not in "})]"):
            found.append([])
        found[-1].append((number, bare))
        # a section's first line may go over several, and ends in `where`
        opened = bool(re.match(r"(module|mutual)(?=\s|$)", found[-1][0][1])
                      and re.search(r"(?:^|\s)(where|mutual)$", bare))
    return found


def parts_of(declared):
    """The fields of a record, or the constructors of a data type."""
    found = []
    for _, line in declared[1:]:
        match = PARTS.match(line)
        found += match.group(1).split() if match else []
    return tuple(found)


def definitions(text):
    """What a file defines at its top and in its sections. Clauses belong to the signature above them."""
    found, own = [], False
    for declared in declarations(plain(text)):
        first, last = declared[0][0], declared[-1][0]
        kind, signature = TYPE.match(declared[0][1]), SIGNATURE.match(declared[0][1])
        if APART.match(declared[0][1]):
            own = False
        elif kind or signature:
            own = True
            name = (kind or signature).group(1)
            found.append(Definition(name, first, last, parts_of(declared) if kind else ()))
        elif own:
            found[-1] = found[-1]._replace(last=last)
    return found
