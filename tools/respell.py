#!/usr/bin/env python3
"""Spells this repository's own definitions and lemmas as today's library does: words in snake case, joined by `_`; a dash joins two names.

usage: tools/respell.py FOLDER

FOLDER holds crates/ as the kit's port.py left it; this runs once, right after it. A declared name of specs/ or of a file of lemmas in
proofs/ is cut at its dashes and humps into words. A dash stays where both sides of it are names (a definition of specs/, a type, or a
word of the library), as in `drop-splice`; every other seam is `_`. A name whose new spelling is taken keeps its old one, and is told.
Functions, fields and types of src/ keep their names, and so do strings. Prints the list of names, old and new.
"""
import glob
import os
import re
import sys

NAME = r"[^\s(){}.;,@\"«»`]+"
DECLARED = re.compile(rf"(?m)^( *)(?:(?:abbrev|pub|unfoldable|data|record) +)*({NAME}) +:(?= )")
TOKEN = re.compile(rf"(?<![^\s(){{}}.;,@«»`])({NAME})")
# Words of the library that stand as names in a lemma's name.
LIBRARY = set("length take drop append set get_or map filter reverse replicate insert cond slice min max encode".split())


def read(path):
    with open(path, encoding="utf-8") as f:
        return f.read()


def write(path, text):
    with open(path, "w", encoding="utf-8") as f:
        f.write(text)


def snake(part):
    if not re.match(r"[a-z]", part):
        return part
    return re.sub(r"(?<=[a-z0-9])([A-Z])", lambda m: "_" + m[1].lower(), part)


def spelled(name, names):
    parts = [snake(it) for it in name.split("-")]
    if "" in parts:
        return name
    out = parts[0]
    for before, after in zip(parts, parts[1:]):
        out += ("-" if before in names and after in names else "_") + after
    return out


def code_and_note(line, mark):
    """A line's code, and its comment with the mark."""
    at = line.find(mark)
    return (line, "") if at < 0 else (line[:at], line[at:])


def turn(text, names, fields, nested):
    """The text of an .antt file with the names respelled; in a function's own proof a word behind a dot is a field or stays."""
    def one(m):
        word = m[1]
        if m.start() and text_of[m.start() - 1] == "." and nested and word not in fields:
            return word
        return names.get(word, word)

    lines = []
    for line in text.split("\n"):
        text_of, note = code_and_note(line, "--")
        code = TOKEN.sub(one, text_of)
        lines.append(code + respell_note(note, names))
    return "\n".join(lines)


def respell_note(note, names):
    note = re.sub(r"`([^`]*)`", lambda m: "`" + TOKEN.sub(lambda w: names.get(w[1], w[1]), m[1]) + "`", note)
    return re.sub(r"\b[a-z]\w*[a-z0-9][A-Z]\w*\b", lambda m: names.get(m[0], m[0]), note)


def turn_source(text, names):
    """The text of a .rt file: its names have humps, since no lemma is named there; strings stay."""
    lines = []
    for line in text.split("\n"):
        pieces = re.split(r'("(?:\\.|[^"\\])*")', line)
        for k in range(0, len(pieces), 2):
            pieces[k] = re.sub(r"(?<![\w'-])[a-z]\w*[a-z0-9][A-Z]\w*(?![\w'-])", lambda m: names.get(m[0], m[0]), pieces[k])
        lines.append("".join(pieces))
    return "\n".join(lines)


def main(top):
    specs = sorted(glob.glob(f"{top}/crates/*/specs/**/*.antt", recursive=True))
    lemmas = sorted(glob.glob(f"{top}/crates/*/proofs/*.antt"))
    proofs = sorted(glob.glob(f"{top}/crates/*/proofs/*/**/*.antt", recursive=True))
    sources = sorted(glob.glob(f"{top}/crates/*/src/**/*.rt", recursive=True))
    real = lambda paths: [it for it in paths if "__" not in os.path.basename(it)]

    declared, tops, fields = set(), set(LIBRARY), set()
    for path in real(specs + lemmas):
        for indent, name in DECLARED.findall(read(path)):
            declared.add(name)
            if path in specs and "-" not in name and (not indent or re.match(r"[A-Z]", name)):
                tops.add(snake(name))
            if indent:
                fields.add(name)
    taken = set()
    for path in real(specs + lemmas + proofs):
        for line in read(path).split("\n"):
            code = re.sub(r"^use .*\.(?=\{)", "use ", code_and_note(line, "--")[0])
            taken |= {m[1] for m in TOKEN.finditer(code) if not m.start() or code[m.start() - 1] != "."}

    # The library's lemma of this name is imported in no file that speaks of ours.
    names, left = {"takeAll": "take_all"}, []
    declared.discard("takeAll")
    # Definitions first: a lemma that would have a definition's name says that it is the lemma.
    for old in sorted(declared, key=lambda it: ("-" in it, it)):
        new = spelled(old, tops)
        if new == old:
            continue
        if "-" in old and (new in taken or new in names.values()):
            new += "_lem"
        elif new in declared and new not in names.values():
            names[new] = new + "_lem"
            names[old] = new
            continue
        if new in taken or new in names.values():
            left.append((old, new))
            continue
        names[old] = new
    for path in specs + lemmas + proofs:
        write(path, turn(read(path), names, fields, path in proofs))
    for path in sources:
        write(path, turn_source(read(path), names))
    for old, new in names.items():
        print(f"{old}\t{new}")
    for old, new in left:
        print(f"left: {old}, since {new} is taken", file=sys.stderr)


if __name__ == "__main__":
    main(sys.argv[1])
