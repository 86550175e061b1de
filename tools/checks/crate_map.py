"""README's map has every crate."""

import re

from checks.tree import Finding

README = "README.md"
HEADING = "## Map of crates"


def on_map(tree):
    """The names in the first column of the map, each with its line."""
    found, inside = {}, False
    for number, line in enumerate(tree.text(README).split("\n"), 1):
        if line.startswith("## "):
            inside = line == HEADING
        elif inside and line.startswith("|"):
            found.update({name: number for name in re.findall(r"`([^`]+)`", line.split("|")[1])})
    return found


def findings(tree):
    """Crates that the map lacks, and names on it that are no crate."""
    shown = on_map(tree)
    for name, number in tree.crates().items():
        if name not in shown:
            yield Finding("crates.txt", number, f"README's map lacks the crate `{name}`")
    for name, number in shown.items():
        if name not in tree.crates():
            yield Finding(README, number, f"`{name}` on the map is no crate of crates.txt")
