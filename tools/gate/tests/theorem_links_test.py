#!/usr/bin/env python3
"""What `tools/gate/theorem_links.py` has to report of docs/THEOREMS.md, and to rewrite there."""
import sys
import tempfile
import unittest
from pathlib import Path

sys.dont_write_bytecode = True
sys.path.insert(0, str(Path(__file__).resolve().parents[1]))

import theorem_links

LAWS = """//! Laws.

ghost use Rattle.a.specs.Sums.{IsSum, Fits};

pub fn sums()
    ensures first { IsSum 1
        (λ n. { n }) }
    ensures { Fits }
{}

pub fn others()
    ensures second { Fits }
{}
"""
CALLS = """pub struct Counter {}

impl Counter {
    pub fn count(&self) -> u32 {
        0
    }
}

impl Other {
    pub fn count(&self) -> u32 {
        1
    }
}
"""
SUMS = """-- Sums.
abbrev pub Fits : Type 0
Fits = Unit

-- a sum
pub record IsSum (n : ℕ) : Type 0 where
  pub exact : n ≡ n
"""
WORDS = "\n- `IsSum n`, `exact`: a sum. [Sums](../crates/a/specs/Sums.antt)\n"
LINKS = {
    "sums": "laws.rt#L5",
    "first": "laws.rt#L6",
    "IsSum": "Sums.antt#L6",
    "ensures": "laws.rt#L8",
    "Fits": "Sums.antt#L2",
    "others": "laws.rt#L11",
    "second": "laws.rt#L12",
    "Counter::count": "calls.rt#L4",
    "Counter": "calls.rt#L1",
    "count": "calls.rt#L4",
}


def item(*names, **other):
    """An item with the links of these names, and other targets of some."""
    targets = {**LINKS, **{name: target for name, target in other.items() if target}}
    folders = {"rt": "src", "antt": "specs"}
    links = []
    for name in names:
        file = targets[name]
        links.append(f"[`{name}`](../crates/a/{folders[file.partition('#')[0].rpartition('.')[2]]}/{file})")
    return f"- A law.\n  {' '.join(links)}\n"


class TheoremLinks(unittest.TestCase):
    def setUp(self):
        folder = tempfile.TemporaryDirectory()
        self.addCleanup(folder.cleanup)
        self.top = Path(folder.name).resolve()
        for name, text in (("src/laws.rt", LAWS), ("src/calls.rt", CALLS), ("specs/Sums.antt", SUMS)):
            file = self.top / "crates/a" / name
            file.parent.mkdir(parents=True, exist_ok=True)
            file.write_text(text, encoding="utf-8")

    def faults(self, text):
        return [fault for _, fault in theorem_links.check(self.top, text)[0]]

    def test_what_is_right(self):
        for names in (
            ("sums", "first", "IsSum", "Counter::count"),
            ("sums", "first", "IsSum", "ensures", "Fits", "Counter"),
            ("sums", "first", "IsSum", "others", "second", "Fits", "Counter"),
        ):
            with self.subTest(names=names):
                self.assertEqual(self.faults(item(*names)), [])
        self.assertEqual(self.faults("- An item without links.\n\n[`none`](../crates/a/src/laws.rt)\n" + WORDS), [])

    def test_lines(self):
        text = item("sums", "first", "IsSum", "Counter", sums="laws.rt#L4", IsSum="Sums.antt#L99")
        faults, written, count = theorem_links.check(self.top, WORDS + text)
        self.assertEqual(
            faults,
            [
                (3, "`sums` is at line 5 of ../crates/a/src/laws.rt, and not at 4"),
                (3, "`IsSum` is at line 6 of ../crates/a/specs/Sums.antt, and not at 99"),
            ],
        )
        self.assertEqual((written, count), (WORDS + item("sums", "first", "IsSum", "Counter"), 4))

    def test_the_order_of_links(self):
        for names in (("sums",), ("sums", "first", "IsSum"), ("sums", "Fits", "Counter"), ("sums", "Counter")):
            with self.subTest(names=names):
                self.assertIn("an item has a function, then clauses", self.faults(item(*names))[0])
        law = "## Over bytes\n\n- A law.\n\n## Premises\n\n- Another.\n"
        self.assertEqual([fault.endswith("this one has no link") for fault in self.faults(law)], [True])

    def test_names(self):
        for text, fault in (
            (item("sums", "second", "Fits", "Counter"), "has no clause second"),
            (item("sums", "first", "Fits", "Counter"), "does not name Fits"),
            (item("sums", "first", "IsSum", "count"), "has 2 functions and types of the name count"),
            (item("sums", "first", "IsSum", "Counter").replace("IsSum", "HasSum"), "does not define HasSum"),
            (item("sums", "first", "IsSum", "Counter").replace("calls", "none"), "there is no file"),
            (item("sums", "first", "IsSum", "Counter").replace("`Counter`", "`Meter`"), "has 0 functions"),
            ("- `IsProduct`: no sum. [Sums](../crates/a/specs/Sums.antt)\n", "does not declare IsProduct"),
            ("- `IsSum`: a sum. [Sums](../crates/a/specs/None.antt)\n", "there is no file"),
        ):
            with self.subTest(fault=fault):
                self.assertEqual([fault in it for it in self.faults(text)], [True])

    def test_links_that_are_not_checked(self):
        for text in (
            "See [`sums`](../crates/a/src/laws.rt#L5).\n",
            "- [sums](../crates/a/src/laws.rt#L5)\n",
            "[`sums`]: ../crates/a/src/laws.rt#L5\n",
            "- [`sums`](../crates/a/src/laws.rt#L5-L7)\n",
        ):
            with self.subTest(text=text):
                self.assertEqual(["nothing checks the line" in it for it in self.faults(text)], [True])

    def test_the_file_of_a_definition(self):
        other = self.top / "crates/a/specs/Others.antt"
        other.write_text(SUMS, encoding="utf-8")
        text = item("sums", "first", "IsSum", "Counter").replace("Sums.antt", "Others.antt")
        self.assertIn("has IsSum from Rattle.a.specs.Sums, and not from", self.faults(text)[0])


if __name__ == "__main__":
    unittest.main()
