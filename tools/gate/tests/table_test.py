#!/usr/bin/env python3
"""The tables that `tools/gate/table.py` writes from the record of a run."""
import sys
import unittest
from pathlib import Path

sys.dont_write_bytecode = True
sys.path.insert(0, str(Path(__file__).resolve().parents[1]))

import table

RECORD = {
    "day": "2030-01-31",
    "anew": True,
    "passed": 3,
    "failed": 0,
    "processors": 4,
    "seconds": 10812,
    "others": 1200,
    "wall": 3960,
    "chain": {"seconds": 3360, "crates": ["low", "middle (tests)"]},
    "crates": {
        "low": {"proof": 1000.4, "tests": 20, "run": 1},
        "middle": {"proof": 7, "wrong": 80.6},
        "high": {"build": 9},
    },
}
PAGE = """\
Before.

<!--runs-->
| Run | Processors | Seconds | Minutes | Other work |
|---|---|---|---|---|
| one | two | 1 | 2 | none |
<!--/runs-->

Between.

<!--crates-->
A sample.

| Crates | Proof | What costs |
|---|---|---|
| `low`, `gone` | 1, 2 | the numbers |
| `gone` | 4 | |
| tools | 3 | not in the sample |
<!--/crates-->
"""
CRATES = """\
<!--crates-->
The run of 10,812 s, by a sample of its processes each second. The longest chain took 56 of 66 minutes: `low`, `middle` (tests).

| Crates | Proof | Tests, program | Wrong | What costs |
|---|---|---|---|---|
| `low` | 1,000 | 21 | | the numbers |
| `middle`, `high` | 7 | 9 | 81 | |
| the rest | 9,694 | | | the quick checks, the restarts, and what the sample missed |
<!--/crates-->
"""


class Table(unittest.TestCase):
    def test_both_tables(self):
        page = table.written(PAGE, RECORD)
        row = "| 2030-01-31 | 4 | 10,812 | 66 | 1,200 s of other processes |\n"
        self.assertIn("| one | two | 1 | 2 | none |\n" + row + "<!--/runs-->\n", page)
        self.assertTrue(page.endswith("Between.\n\n" + CRATES))
        self.assertEqual(table.written(page, RECORD), page)

    def test_four_runs_are_kept(self):
        page = PAGE
        for day in "abcde":
            page = table.written(page, RECORD | {"day": day})
        self.assertEqual([it[0] for it in table.rows_of(page.partition("Between")[0])], ["b", "c", "d", "e"])

    def test_a_page_without_marks(self):
        for mark in ("<!--runs-->", "<!--/crates-->"):
            with self.assertRaises(SystemExit):
                table.written(PAGE.replace(mark, ""), RECORD)

    def test_the_page_of_the_project(self):
        self.assertIn("| 2030-01-31 |", table.written(table.PAGE.read_text(encoding="utf-8"), RECORD))


if __name__ == "__main__":
    unittest.main(verbosity=0)
