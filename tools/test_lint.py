#!/usr/bin/env python3
"""Tests tools/lint on small trees: a right one, in which nothing is found, and the same with one thing wrong at a time.

    python3 tools/test_lint.py      says nothing where all is well
"""

import io
import os
import subprocess
import sys
import tempfile
import unittest

LINT = os.path.join(os.path.dirname(os.path.abspath(__file__)), "lint")

LONG_FUNCTION = "pub fn long() {\n" + "    step();\n" * 39 + "}\n"
SHORT_FUNCTION = "pub fn long() {\n" + "    step();\n" * 38 + "}\n"

# A tree in which nothing is wrong. It has the forms that are nearly wrong: a line of 160 characters that are more bytes, a long way
# back among the places, an operator that is used in part, a function of 40 lines.
RIGHT = {
    "crates.txt": "# a line for each crate\nlow:\ntop: low\n",
    "README.md": "# Small\n\n## Map of crates\n\n| Crate | What |\n|---|---|\n| `low` ◇, `top` | `all` |\n\n## More\n\n| `x` |\n",
    "docs/PROMISES.md": """# Promises

Files are under `crates/`. No call has a `requires`.

| Promise | Theorem | File |
|---|---|---|
| Nothing added, as `add` says, is nothing more | `sum-zero`, `Sums`: `known`, its `whole` | low/proofs/SumLaws.antt |
| A sum | `add`: `result ≡ sum_of a b` | low/src/lib.rt |
| Its half | `half`, same file | |

| Promise | Theorem | File (low/) |
|---|---|---|
| One more | `one-more` | proofs/SumLaws.antt, MoreLaws.antt |

The fields of `Sums` in low/specs/Sum.antt:

| Promise | Field |
|---|---|
| known | `known` |

| Wrong program | Edit |
|---|---|
| adds something else | `adds_one` in low/must-fail/; `adds_nothing` in low/ and top/must-fail/ |
""",
    "crates/low/src/lib.rt": """// Sums.
ghost use mathlib.Core.Path.{◌≡◌};
ghost use Rattle.low.specs.Sum.{sum_of};

// The most.
pub const MOST: u32 = 8;

pub struct Stamp(pub u32);

pub fn add(a: u32, b: u32) -> u32
    ensures { result ≡ sum_of a b }
{
    a + b
}

fn step() {}

pub fn half(a: u32) -> u32 {
    a / 2
}

""" + SHORT_FUNCTION,
    "crates/low/specs/Sum.antt": """-- Sums.
use mathlib.Core.Path.{◌≡◌}
use Prim.Native.Nat.{ℕ, ◌+◌}

abbrev pub sum_of : ℕ → ℕ → ℕ
sum_of a b = a + b

pub record Whole (a : ℕ) : Type 0 where
  pub whole : a ≡ a

pub record Sums (a : ℕ) : Type 0 where
  pub known : Whole a
""",
    "crates/low/proofs/SumLaws.antt": """-- Sums.
use mathlib.Core.Path.{
  ◌≡◌,
  refl,
}
use Prim.Native.Nat.{ℕ, ◌+◌}
use mathlib.Core.List.{map, ◌∷◌ as ◌before◌}
use Rattle.low.specs.Sum as sums

zero-right : (a : ℕ) → a + 0 ≡ a
zero-right a = map (◌+ 0) (a before refl)

module _ (a : ℕ)
    (b : ℕ) where
  pub sum-zero : sums.Sums (sums.sum_of a 0) → a ≡ a
  unfolding zero-right
  sum-zero s = zero-right a (record { known = s.known })
""",
    "crates/low/proofs/MoreLaws.antt": """-- One more.
use Prim.Native.Nat.{ℕ, ◌+◌}

pub one-more : ℕ → ℕ
one-more a = a + 1
""",
    "crates/low/proofs/add/Proof.antt": """-- """ + "≡" * 157 + """
-- ---- places

abbrev start-from-then1 : tie.Then1 → tie.Start
start-from-then1 c = c.before.before.before.before.before

-- ---- needs

returns : tie.Need-returns
returns c = c.before.before.before.before.args
""",
    "tools/long-functions.txt": "# none\n",
    "crates/low/must-fail/adds_one.edit": "# adds one\nfile: src/lib.rt\nold:     a + b\nnew:     a + 1\n",
    "crates/low/must-fail/adds_nothing.edit": "# adds nothing\nfile: src/lib.rt\nold:     a + b\nnew:     a\n",
    "crates/top/must-fail/adds_nothing.edit": "# adds nothing\nfile: src/main.rt\nold: add(1, 2)\nnew: add(1, 0)\n",
    "crates/top/src/main.rt": """use low::MOST as LIMIT;
use low::Stamp;

fn main() {
    let s = Stamp(low::add(1, 2));
    low::long();
    io::write(s.0 + LIMIT, b"add // one");
}
""",
}

PAGE, LIST = "docs/PROMISES.md", "tools/long-functions.txt"
SUM, CODE, TOP = "crates/low/specs/Sum.antt", "crates/low/src/lib.rt", "crates/top/src/main.rt"
LAWS, MORE, PROOF = "crates/low/proofs/SumLaws.antt", "crates/low/proofs/MoreLaws.antt", "crates/low/proofs/add/Proof.antt"

# For each check: a file, what stands in it, what stands there instead, and what is then found.
WRONG = {
    "promises": [
        (LAWS, "sum-zero ", "sum-nought ",
         [f"{PAGE}:7: `sum-zero` is defined nowhere under crates/", f"{LAWS}:15: nothing cites `sum-nought`"]),
        (PAGE, "`sum-zero`, ", "`sum-zero`, `one-more`, ", [f"{PAGE}:7: `one-more` is not in {LAWS}"]),
        (PAGE, "low/proofs/SumLaws.antt", "low/proofs/Sums.antt",
         [f"{PAGE}:7: there is no crates/low/proofs/Sums.antt"]
         + [f"{PAGE}:7: `{name}` is not in crates/low/proofs/Sums.antt" for name in ("sum-zero", "Sums", "known")]),
        (PAGE, "its `whole`", "its `hole`", [f"{PAGE}:7: `hole` is defined nowhere under crates/"]),
        (PAGE, "sum_of a b`", "sum_of a z`", [f"{PAGE}:8: `z` is not in {CODE}"]),
        (PAGE, "sum_of a b`", "sum_by a b`", [f"{PAGE}:8: `sum_by` is defined nowhere under crates/"]),
        (PAGE, "`half`, same", "`half`, `main`, same", [f"{PAGE}:9: `main` is not in {CODE}"]),
        (PAGE, ", MoreLaws.antt", ", Most.antt",
         [f"{PAGE}:13: there is no crates/low/proofs/Most.antt",
          f"{PAGE}:13: `one-more` is not in {LAWS}, crates/low/proofs/Most.antt"]),
        (PAGE, "| `known` |", "| `one-more` |", [f"{PAGE}:19: `one-more` is not in {SUM}"]),
        (PAGE, "`adds_one` in low/must-fail/", "`adds_one` in low/ and top/must-fail/",
         [f"{PAGE}:23: there is no edit `adds_one` in crates/top/must-fail/"]),
        (PAGE, "`adds_nothing`", "`adds_little`", [f"{PAGE}:23: `adds_little` is defined nowhere under crates/"]),
    ],
    "ways back": [
        (PROOF, ".before.args\n", ".before.before.args\n", [f"{PROOF}:10: a way back of 5 steps without a name"]),
        (PROOF, "-- ---- needs\n", "-- ---- others\n", [f"{PROOF}:5: a way back of 5 steps without a name"]),
    ],
    "lines": [
        (PROOF, "≡\n", "≡≡\n", [f"{PROOF}:1: the line has 161 characters, over 160"]),
    ],
    "imports": [
        (LAWS, "refl,", "refl,\n  sym,", [f"{LAWS}:5: imports `sym` and does not use it"]),
        (LAWS, "{ℕ, ◌+◌}", "{ℕ, ◌+◌, ◌*◌}", [f"{LAWS}:6: imports `◌*◌` and does not use it"]),
        (LAWS, "{ℕ, ◌+◌}", "{ℕ, ◌+◌, known}", [f"{LAWS}:6: imports `known` and does not use it"]),
        (LAWS, "{map,", "{map, map,", [f"{LAWS}:7: imports `map` a second time"]),
        (LAWS, "(a before refl)", "refl", [f"{LAWS}:7: imports `◌before◌` and does not use it"]),
        (MORE, "◌+◌}\n", "◌+◌}\nuse lib.More as more\n", [f"{MORE}:3: imports `more` and does not use it"]),
        (CODE, "{◌≡◌}", "{◌≡◌, add}", [f"{CODE}:2: imports `add` and does not use it"]),
        (TOP, "use low::Stamp;", "use low::Stamp;\nuse low::add;", [f"{TOP}:3: imports `add` and does not use it"]),
    ],
    "functions": [
        (CODE, SHORT_FUNCTION, LONG_FUNCTION, [f"{CODE}:22: `low::long` has 41 lines, over 40"]),
        (LIST, "# none\n", "# none\nlow::long for a reason\n", [f"{LIST}:2: `low::long` is no function over 40 lines"]),
    ],
    "map": [
        ("crates.txt", "top: low\n", "top: low\nhigh: low\n", ["crates.txt:4: README's map lacks the crate `high`"]),
        ("README.md", "`top`", "`top`, `high`", ["README.md:7: `high` on the map is no crate of crates.txt"]),
    ],
    "uncited": [
        (SUM, "a + b\n", "a + b\n\nonly : ℕ → ℕ\nonly a = only a\n", [f"{SUM}:8: nothing cites `only`"]),
        (LAWS, "  unfolding zero-right\n  sum-zero s = zero-right a", "  sum-zero s = a",
         [f"{LAWS}:10: nothing cites `zero-right`"]),
        (CODE, "fn step() {}", "fn step() {}\n\nfn again() {\n    again();\n}", [f"{CODE}:18: nothing calls `again`"]),
        (TOP, " + LIMIT", "", [f"{TOP}:1: imports `LIMIT` and does not use it", f"{CODE}:6: nothing calls `MOST`"]),
    ],
}


class Small(unittest.TestCase):
    """A small tree in a folder of its own."""

    def setUp(self):
        folder = tempfile.TemporaryDirectory()
        self.addCleanup(folder.cleanup)
        self.root = folder.name
        for path, text in RIGHT.items():
            self.put(path, text)

    def put(self, path, text):
        place = os.path.join(self.root, path)
        os.makedirs(os.path.dirname(place), exist_ok=True)
        with open(place, "w", encoding="utf-8") as file:
            file.write(text)

    def change(self, path, right, wrong):
        """Puts another text in the place of one that stands in the right file."""
        self.assertIn(right, RIGHT[path])
        self.put(path, RIGHT[path].replace(right, wrong, 1))

    def text(self, path):
        with open(os.path.join(self.root, path), encoding="utf-8") as file:
            return file.read()

    def lint(self, *words):
        """What lint says of the tree, line by line, and its exit status."""
        ran = subprocess.run([sys.executable, LINT, *words, self.root], stdout=subprocess.PIPE, stderr=subprocess.STDOUT)
        return ran.stdout.decode().splitlines(), ran.returncode


class Finds(Small):
    """What is wrong is found, it alone, and no longer once it is put right."""

    def tries(self, check):
        self.assertEqual(self.lint(), ([], 0))
        for path, right, wrong, found in WRONG[check]:
            with self.subTest(path=path, wrong=wrong):
                self.change(path, right, wrong)
                self.assertEqual(self.lint(), (found, 1))
            self.put(path, RIGHT[path])


    def test_no_page(self):
        os.remove(os.path.join(self.root, PAGE))
        self.assertIn(f"{PAGE}:1: there is no such page", self.lint()[0])

    def test_no_tree(self):
        os.remove(os.path.join(self.root, "crates.txt"))
        self.assertEqual(self.lint()[1], 2)


for name in WRONG:
    setattr(Finds, "test_" + name.replace(" ", "_"), lambda self, check=name: self.tries(check))


class Fixes(Small):
    """--fix-imports takes out what is of no use, and tells the edits that no longer fit."""

    def test_imports_taken_out(self):
        self.change(LAWS, "refl,", "refl,\n  sym,")
        self.change(MORE, "{ℕ, ◌+◌}\n", "{zero, ℕ, ◌+◌, suc}\nuse lib.More as more\nuse lib.List.{any, all}\n")
        self.change(CODE, "{◌≡◌};", "{◌≡◌, add};\nghost use lib.List.{any};")
        self.change(TOP, "use low::Stamp;", "use low::Stamp;\nuse low::add;")
        self.assertEqual(self.lint("--fix-imports"), ([], 0))
        for path in (LAWS, MORE, CODE, TOP):
            self.assertEqual(self.text(path), RIGHT[path])

    def test_edits_told(self):
        self.change(MORE, "◌+◌}", "◌+◌, ◌*◌}")
        self.put("crates/low/must-fail/twice.edit",
                 "# twice\nfile: proofs/MoreLaws.antt\nold: one-more a = a + 1\nnew: one-more a = a * 2\n"
                 "old: {ℕ, ◌+◌, ◌*◌}\nnew: {ℕ, ◌+◌, ◌*◌, ◌^◌}\n")
        self.assertEqual(self.lint("--fix-imports"), (
            [f"crates/low/must-fail/twice.edit:5: quotes what {MORE} no longer has",
             f"crates/low/must-fail/twice.edit:3: uses `◌*◌`, which {MORE} no longer imports"], 1))


def main():
    said = io.StringIO()
    good = unittest.main(exit=False, testRunner=unittest.TextTestRunner(stream=said)).result.wasSuccessful()
    if not good:
        print(said.getvalue())
    return 0 if good else 1


if __name__ == "__main__":
    sys.exit(main())
