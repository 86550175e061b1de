"""Reads must-fail edits."""

from typing import NamedTuple


class Edit(NamedTuple):
    """What an edit does to one file: its path, the file's path, and the texts that it puts in place of others, each
    as the old text's line, the old text and the new."""
    path: str
    file: str
    changes: list


def edits(tree):
    """Every edit; one of several files counts as several."""
    found = []
    for path in tree.files("crates", ".edit"):
        crate, old = "/".join(path.split("/")[:2]), (0, "")
        for number, line in enumerate(tree.text(path).split("\n"), 1):
            kind, _, said = line.partition(": ")
            if kind == "file":
                found.append(Edit(path, f"{crate}/{said}", []))
            elif kind == "old":
                old = (number, said)
            elif kind == "new":
                found[-1].changes.append(old + (said,))
    return found


def edited(text, edit):
    """The text of a file as an edit leaves it."""
    for _, old, new in edit.changes:
        text = text.replace(old, new, 1)
    return text
