"""No name is imported without use, or twice."""

import re

from checks import antt, edits, rattle
from checks.tree import Finding


def code_spellings(both):
    """The names in the code, and those that the ghost text says."""
    return set(re.findall(rattle.ALONE + r"\w+", both.code)) | antt.spelled(antt.words(both.ghost))


def read(path, text):
    """For each kind of import in a file: the pattern of its lines, what they bring in, and the names that stand
    where such an import counts."""
    if path.endswith(".antt"):
        return [(antt.USE, antt.imports(antt.plain(text)), antt.spelled(antt.words(antt.body(text))))]
    both = rattle.halves(text)
    return [(rattle.GHOST_USE, rattle.ghost_imports(text), antt.spelled(antt.words(both.ghost))),
            (rattle.USE, rattle.code_imports(text), code_spellings(both))]


def faults(brought, spellings):
    """For each import, in order, what is wrong with it, or None."""
    seen = set()
    for one in brought:
        if one.name in seen:
            yield f"imports `{one.name}` a second time"
        else:
            used = antt.stands(one.name, spellings)
            yield None if used else f"imports `{one.name}` and does not use it"
        seen.add(one.name)


def findings(tree):
    """Every import of no use."""
    for path in tree.files("crates", ".antt", ".rt"):
        for _, brought, spellings in read(path, tree.text(path)):
            for one, fault in zip(brought, faults(brought, spellings)):
                if fault:
                    yield Finding(path, one.line, fault)


def without(text, pattern, dropped):
    """A text whose import lines, those of a pattern, no longer bring in what is dropped, which is told for each
    import in order. A line that brings in nothing goes."""
    dropped = iter(dropped)

    def shortened(use):
        names = use.groupdict().get("names")
        if names is None:
            return "" if next(dropped) else use.group()
        left = [item for item in names.split(",") if not item.strip() or not next(dropped)]
        if not "".join(left).strip():
            return ""
        joined = ",".join(left)
        joined = joined if "\n" in names else joined.strip()
        return use.group().replace("{" + names + "}", "{" + joined + "}")

    return re.sub(pattern.pattern + r"\n?", shortened, text, flags=re.M)


def fixed(path, text):
    """The text of a file without the imports of no use."""
    for number in range(len(read(path, text))):
        pattern, brought, spellings = read(path, text)[number]
        text = without(text, pattern, list(faults(brought, spellings)))
    return text


def names(path, text, used=False):
    """The names that a file imports, or of these the ones that it uses."""
    return {one.name for _, brought, spellings in read(path, text) for one in brought
            if not used or antt.stands(one.name, spellings)}


def unsettled(tree, texts):
    """Edits that no longer fit files whose imports were taken out, which are given with their new texts: they quote
    a line that is gone, or use a name that is no longer imported, so that they would be refused for its lack."""
    for edit in edits.edits(tree):
        if edit.file not in texts:
            continue
        text, file = tree.text(edit.file), edit.file
        for line, old, _ in edit.changes:
            if old not in texts[file]:
                yield Finding(edit.path, line, f"quotes what {file} no longer has")
        gone = names(file, text) - names(file, texts[file])
        for name in sorted(gone & names(file, edits.edited(text, edit), used=True)):
            yield Finding(edit.path, edit.changes[0][0], f"uses `{name}`, which {file} no longer imports")


def fix(tree):
    """Takes the imports of no use out of every file, and finds the edits that no longer fit."""
    texts = {}
    for path in tree.files("crates", ".antt", ".rt"):
        text = fixed(path, tree.text(path))
        if text != tree.text(path):
            texts[path] = text
    found = list(unsettled(tree, texts))
    for path, text in texts.items():
        tree.write(path, text)
    return found
