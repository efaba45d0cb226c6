#!/usr/bin/env python3
"""What `tools/gate/pages.py` has to report: pages above their budgets."""
import sys
import unittest
from pathlib import Path

sys.dont_write_bytecode = True
sys.path.insert(0, str(Path(__file__).resolve().parents[1]))

import pages

BUDGET = {
    "README.md": (2, 4),
    "docs/A.md": (3, 9),
    "pages": (4, 10),
    "READMEs": (None, 3),
    "by-hand": (None, 70),
    "repository": (None, 90),
    "docs/WRONG_BODIES.md": (None, None),
    "CHANGELOG.md": (None, None),
}
SUMS = [(2720, 32000), (None, 45000), (None, 60000)]
FIT = {
    "README.md": "one two\nthree\n",
    "docs/A.md": "one\ntwo\n",
    "crates/a/README.md": "one two\n",
    "CHANGELOG.md": "one\n" * 50,
    "docs/WRONG_BODIES.md": "one\n" * 10,
    ".github/a.md": "one two\n",
}


class Pages(unittest.TestCase):
    def faults(self, **texts):
        named = {name.replace("__", "/") + ".md": text for name, text in texts.items()}
        return pages.faults_of({**FIT, **named}, BUDGET)[0]

    def test_fit(self):
        self.assertEqual(self.faults(), [])

    def test_above(self):
        self.assertEqual(
            self.faults(README="1\n2\n3\n"),
            ["README.md: 3 lines, and the budget is 2", "pages: 5 lines, and the budget is 4"],
        )
        self.assertEqual(self.faults(README="1 2 3 4 5\n"), ["README.md: 5 words, and the budget is 4"])
        self.assertEqual(self.faults(docs__A="1 2 3 4 5 6 7 8\n"), ["pages: 11 words, and the budget is 10"])
        self.assertEqual(self.faults(bench__README="1 2\n"), ["READMEs: 4 words, and the budget is 3"])

    def test_sums(self):
        self.assertEqual(self.faults(CHANGELOG="1 " * 63), ["by-hand: 72 words, and the budget is 70"])
        self.assertEqual(self.faults(docs__WRONG_BODIES="1 " * 32), ["repository: 91 words, and the budget is 90"])

    def test_width(self):
        self.assertEqual(
            self.faults(CHANGELOG="x" * 400 + "\n" + "x" * 401 + "\n"),
            ["CHANGELOG.md:2: 401 characters, and the widest line may have 400"],
        )

    def test_pages(self):
        self.assertEqual(self.faults(docs__B="one"), ["docs/B.md: a page without a budget"])
        self.assertEqual(
            pages.faults_of({name: FIT[name] for name in FIT if name != "docs/A.md"}, BUDGET)[0],
            ["docs/A.md: there is no such page"],
        )

    def test_paragraphs(self):
        text = (
            "one\n\n" + "word " * 81 + "\n\n- " + "word " * 40 + "\n- " + "word " * 45 + "\n\n| " + "word " * 90 + "|\n"
        )
        self.assertEqual(list(pages.long_paragraphs(text)), [(3, 81)])

    def test_budgets(self):
        found = pages.budgets()
        self.assertIn("README.md", found)
        self.assertEqual([found[name] for name in pages.SUMS if name != "READMEs"], SUMS)


if __name__ == "__main__":
    unittest.main()
