"""No law, definition, function or constant stands there that nothing cites."""

from collections import defaultdict
import re

from checks import antt, promises, rattle
from checks.tree import Finding

JUDGED = re.compile(r"crates/\w+/(specs|proofs)/[^/]+\.antt$")


def module_at(path):
    """The module of a file, `index.proofs.ChainLaws` for crates/index/proofs/ChainLaws.antt."""
    return re.sub(r"^crates/|\.antt$", "", path).replace("/", ".")


def module_named(name):
    """The same for a module's name in an import, `Rattle.index.proofs.ChainLaws`."""
    return re.sub(r"^Rattle\.", "", name)


def cited_by(brought, words):
    """The definitions of other modules that a file cites, by what it brings in and the words that stand in it."""
    spellings = antt.spelled(words)
    behind = defaultdict(set)
    for word in words:
        behind[word.name].add(word.members.split(".")[1] if word.members else "")
        if word.name == "Rattle":
            module, _, name = (word.name + word.members).rpartition(".")
            yield module_named(module), name
    for one in brought:
        if one.origin and antt.stands(one.name, spellings):
            yield module_named(one.module), one.origin
        elif not one.origin:
            yield from ((module_named(one.module), name) for name in behind[one.name])


def cited(tree):
    """Every definition that another file cites, as its module and its name."""
    found = set()
    for path in tree.files("crates", ".antt"):
        text = tree.text(path)
        found.update(cited_by(antt.imports(antt.plain(text)), antt.words(antt.body(text))))
    for path in tree.files("crates", ".rt"):
        text = tree.text(path)
        found.update(cited_by(rattle.ghost_imports(text), antt.words(rattle.halves(text).ghost)))
        found.update(rattle.named_to_tactics(text, path.split("/")[1]))
    return found


def lines_of(words):
    """For each spelling, the lines that it stands in."""
    found = defaultdict(list)
    for word in words:
        for spelling in {word.name, word.name.strip("◌")}:
            found[spelling].append(word.line)
    return found


def cited_at_home(one, lines):
    """Whether a definition is cited in its own file, outside its own lines."""
    shown = [part for part in one.name.split("◌") if part]
    return all(any(not one.line <= line <= one.last for line in lines[part]) for part in shown)


def dead_definitions(tree, spared):
    """Definitions and laws that nothing cites."""
    abroad = cited(tree)
    for path in filter(JUDGED.match, tree.files("crates", ".antt")):
        lines = lines_of(antt.words(antt.body(tree.text(path))))
        for one in antt.definitions(tree.text(path)):
            known = one.name in spared or (module_at(path), one.name) in abroad
            if not known and not cited_at_home(one, lines):
                yield Finding(path, one.line, f"nothing cites `{one.name}`")


def without_lines(text, one):
    """A text without the lines of a declaration."""
    lines = text.split("\n")
    return "\n".join(lines[:one.line - 1] + lines[one.last:])


def called(one, home, code, brought):
    """Whether a function or constant of a file is called: `code` has the code of each file, and `brought` the names
    under which each file imports others. Its own lines do not count."""
    crate = home.split("/")[1]
    for path, text in code.items():
        text = without_lines(text, one) if path == home else text
        here = one.name if path == home else brought[path].get((crate, one.name))
        ways = rf"\b{crate}::{one.name}\b" + (rf"|{rattle.ALONE}{here}\b" if here else "")
        if one.owner:
            ways = rf"\b(?:{one.owner}|Self)::{one.name}\b|\.{one.name}\("
        if re.search(ways, text):
            return True
    return False


def dead_functions(tree, spared):
    """Functions and constants that nothing calls. C calls those that are its own, and the system `main`."""
    paths = tree.files("crates", ".rt")
    code = {path: rattle.halves(tree.text(path)).code for path in paths}
    brought = {path: {(one.module, one.origin): one.name for one in rattle.code_imports(tree.text(path))}
               for path in paths}
    for path in paths:
        for one in rattle.declared(tree.text(path)):
            judged = one.kind in ("fn", "const") and not one.outside and one.name != "main"
            if judged and one.name not in spared and not called(one, path, code, brought):
                yield Finding(path, one.line, f"nothing calls `{one.name}`")


def findings(tree):
    """All that nothing cites or calls, but for what docs/PROMISES.md names."""
    spared = promises.named(tree)
    yield from dead_definitions(tree, spared)
    yield from dead_functions(tree, spared)
