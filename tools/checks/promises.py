"""Every name and file in docs/PROMISES.md is there, and a name is where its row says."""

from collections import defaultdict
from functools import partial
import re
from typing import NamedTuple

from checks import antt, rattle
from checks.tree import PROMISES, Finding

ROOMS = ("specs", "proofs", "src", "must-fail")
# what stands between backticks, a file, or a folder
MENTION = re.compile(r"`([^`]+)`|((?:[\w-]+/)*\w+\.(?:antt|rt|md|h|c)\b|(?:[\w-]+/)+(?!\w))")
# `edges/` in "edges/ and cases/must-fail/", which is short for edges/must-fail/
SHORT = re.compile(r"\b(\w+/)(?=(?:, \w+/)*,? and \w+/must-fail/)")
HEADING_CRATE = re.compile(r"\((\w+)/\)")
# a word of program text that is no variable: `decodeAt`, `read-write`, `write_order`
COMPOUND = re.compile(r"[a-z][A-Z]|\w[-_]\w")
KEYWORDS = {"requires", "ensures"}
# `serial` in "`ordered`, its `serial`", a part of something that is defined elsewhere
ITS = re.compile(r"\bits (`[^`]+`(?:,? (?:and )?`[^`]+`)*)")
SENTENCES = re.compile(r"(?<=\.) (?=[A-Z`])")
# the columns whose names stand in the row's files
PROVED = ("Theorem", "Contract", "Field", "Edit", "File")


class Unit(NamedTuple):
    """A cell or a sentence: its line, its names and files in order, the places where its names are looked for, and
    whether they must be defined there, and not only said."""
    line: int
    mentions: list
    places: tuple
    strict: bool = False


class Mention(NamedTuple):
    """A text between backticks, or a file or folder by its path from the root; one of the two is empty."""
    quoted: str
    path: str


# ---- what the page says

def resolved(path, crates, crate, last):
    """The path from the root of a file that is named in short: by its crate, by its room in the crate at hand, or
    by its name alone, beside the file before it."""
    first = path.split("/")[0]
    if first in crates:
        return f"crates/{path}"
    if first in ROOMS:
        at_hand = last.split("/")[1] if last.startswith("crates/") else crate
        return f"crates/{at_hand}/{path}" if at_hand else path
    if "/" not in path and last:
        return f"{last.rpartition('/')[0]}/{path}"
    return path


def mentions(text, crates, crate):
    """The names and files in a text, in order."""
    found, last = [], ""
    for match in MENTION.finditer(SHORT.sub(r"\1must-fail/", text)):
        quoted, path = match.groups()
        if quoted and ("/" not in quoted or " " in quoted):
            found.append(Mention(quoted, ""))
            continue
        path = path or quoted
        # "the must-fail/ of .." names a room without its crate: it says no place
        last = resolved(path, crates, crate, "" if path == "must-fail/" else last)
        found.append(Mention("", last))
    return found


def places(found):
    """The files and folders of crates among mentions, but for the rooms of edits, which are looked at one by one."""
    return tuple(one.path for one in found if one.path.startswith("crates/") and "/must-fail/" not in one.path)


def apart(text):
    """A text without the parts of other things that it names, and those parts, if there are any."""
    its = " ".join(ITS.findall(text))
    return [ITS.sub("", text)] + ([its] if its else [])


def row_units(number, titles, cells, find, at):
    """The cells of a row. Names are looked for at its places where the column says the proof, not where it says
    the promise in words."""
    for title, cell in zip(titles, cells):
        first, *rest = apart(cell)
        yield Unit(number, find(first), at if title.startswith(PROVED) else (), title == "Field")
        yield from (Unit(number, find(piece), ()) for piece in rest)


def units(tree):
    """The cells and sentences of the page."""
    crate, above, at, titles = "", (), (), []
    lines = tree.text(PROMISES).split("\n")
    for number, (line, after) in enumerate(zip(lines, lines[1:] + [""]), 1):
        find = partial(mentions, crates=tree.crates(), crate=crate)
        if line.startswith("#"):
            crate = ""
        elif after.startswith("|--"):
            titles = [cell.strip() for cell in line.split("|")]
            crate = (HEADING_CRATE.findall(line) or [crate])[0]
        elif line.startswith("|") and not line.startswith("|--"):
            if "same file" not in line:
                # fields are those of the record that is named above the table
                at = above if "Field" in titles else places(find(line))
            yield from row_units(number, titles, line.split("|"), find, at)
        elif line and not line.startswith("|"):
            for sentence in SENTENCES.split(line):
                above = places(find(sentence))
                yield Unit(number, find(sentence), above)


def names_in(quoted):
    """The names between backticks that must be defined, and the words beside them that only must stand in the
    file. Of a piece of program text the compound words are names, the others may be variables."""
    said = [word for word in re.split(rf"[{antt.ENDS}.]+|::", quoted)
            if re.search(r"\w", word) and word not in KEYWORDS]
    if not re.search(r"\s", quoted):
        return said, []
    return ([word for word in said if COMPOUND.search(word)],
            [word for word in said if not COMPOUND.search(word)])


def named(tree):
    """All names of the page."""
    return {name for unit in units(tree) for one in unit.mentions for name in names_in(one.quoted)[0]}


# ---- what the tree has

def defined(tree):
    """For each name, the files that define it. Fields and constructors count in specs/ and in the code; those of
    a law's file are nobody's promise."""
    found = defaultdict(set)
    for path in tree.files("crates", ".antt"):
        for one in antt.definitions(tree.text(path)):
            for name in (one.name,) + (one.parts if "/specs/" in path else ()):
                found[name].add(path)
    for path in tree.files("crates", ".rt"):
        for one in rattle.declared(tree.text(path)):
            for name in (one.name,) + one.parts:
                found[name].add(path)
    for path in tree.files("crates", ".edit"):
        found[path.rpartition("/")[2][:-len(".edit")]].add(path)
    return found


def stands_in(tree, word, path):
    """Whether a word stands in a file outside comments."""
    plain = antt.plain if path.endswith(".antt") else rattle.plain
    return word in re.split(rf"[{antt.ENDS}.:]+", plain(tree.text(path)))


def under(tree, place):
    """The files that a place is or holds."""
    return [path for path in tree.files("crates", ".antt", ".rt")
            if path == place or (place.endswith("/") and path.startswith(place))]


def stands_at(tree, word, at):
    """Whether a word stands in one of the places."""
    return any(stands_in(tree, word, path) for place in at for path in under(tree, place))


def name_fault(tree, name, unit, homes):
    """What is wrong with a name that a unit says, or None. A theorem must be defined at the unit's places; what it
    speaks of, from a crate's specs or code, must be said there."""
    if not homes:
        return None if name in tree.crates() else f"`{name}` is defined nowhere under crates/"
    here = {path for place in unit.places for path in under(tree, place)}
    if not unit.places or homes & here:
        return None
    may_be_said = not unit.strict and any("/proofs/" not in home for home in homes)
    if may_be_said and stands_at(tree, name, unit.places):
        return None
    return f"`{name}` is not in {', '.join(unit.places)}"


# ---- the check

def missing_files(tree):
    """Files and folders that are not there."""
    for unit in units(tree):
        for one in unit.mentions:
            if one.path and one.path != "must-fail/" and not tree.exists(one.path):
                yield Finding(PROMISES, unit.line, f"there is no {one.path}")


def misplaced_names(tree, known):
    """Names that are not defined, or not where the row says."""
    for unit in units(tree):
        for one in unit.mentions:
            names, words = names_in(one.quoted)
            faults = [name_fault(tree, name, unit, known[name]) for name in names]
            faults += [f"`{word}` is not in {', '.join(unit.places)}" for word in words
                       if unit.places and not stands_at(tree, word, unit.places)]
            yield from (Finding(PROMISES, unit.line, fault) for fault in faults if fault)


def missing_edits(tree, known):
    """Edits that one of the rooms named after them lacks."""
    for unit in units(tree):
        names, ended = [], False
        for one in unit.mentions:
            if one.quoted:
                names = ([] if ended else names) + names_in(one.quoted)[0]
            ended = bool(one.path)
            if not one.path.endswith("/must-fail/"):
                continue
            for name in names:
                edits = {path for path in known[name] if path.endswith(".edit")}
                if edits and f"{one.path}{name}.edit" not in edits:
                    yield Finding(PROMISES, unit.line, f"there is no edit `{name}` in {one.path}")


def findings(tree):
    """All that the page says and the tree has not."""
    known = defined(tree)
    if not tree.exists(PROMISES):
        yield Finding(PROMISES, 1, "there is no such page")
    yield from missing_files(tree)
    yield from misplaced_names(tree, known)
    yield from missing_edits(tree, known)
