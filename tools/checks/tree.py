"""The tree that is checked, and what is found in it."""

from functools import lru_cache
import os
from typing import NamedTuple

PROMISES = "docs/PROMISES.md"


class Finding(NamedTuple):
    """Something wrong, and where."""
    path: str
    line: int
    what: str

    def __str__(self):
        return f"{self.path}:{self.line}: {self.what}"


class Tree:
    """A repository's files, by their paths from its root, each read once."""

    def __init__(self, root):
        self.root = root

    @lru_cache(maxsize=None)
    def text(self, path):
        """The text of a file; empty where there is none."""
        if not os.path.isfile(os.path.join(self.root, path)):
            return ""
        with open(os.path.join(self.root, path), encoding="utf-8", newline="") as file:
            return file.read()

    def exists(self, path):
        """Whether there is such a file or folder."""
        return os.path.exists(os.path.join(self.root, path))

    def write(self, path, text):
        """Puts a text in a file's place."""
        with open(os.path.join(self.root, path), "w", encoding="utf-8", newline="") as file:
            file.write(text)

    @lru_cache(maxsize=None)
    def files(self, folder, *endings):
        """The paths of the files under a folder whose names end so, in order. What rt made, in out/, is none of them."""
        found = []
        for place, folders, names in os.walk(os.path.join(self.root, folder)):
            folders[:] = [name for name in folders if name != "out"]
            inside = os.path.relpath(place, self.root).replace(os.sep, "/")
            found += [f"{inside}/{name}" for name in names if name.endswith(endings)]
        return sorted(found)

    @lru_cache(maxsize=None)
    def crates(self):
        """The crates that crates.txt lists, each with its line."""
        lines = enumerate(self.text("crates.txt").split("\n"), 1)
        return {line.split(":")[0].split()[0]: number for number, line in lines
                if ":" in line and not line.startswith("#")}


def line_at(text, place):
    """The number of the line that a place of a text stands in."""
    return text.count("\n", 0, place) + 1
