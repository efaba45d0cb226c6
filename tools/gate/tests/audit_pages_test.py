#!/usr/bin/env python3
"""What `tools/generate/audit_pages.py` has to write of a wrong body, and to report of README.md."""
import sys
import unittest
from pathlib import Path

sys.dont_write_bytecode = True
sys.path.insert(0, str(Path(__file__).resolve().parents[2] / "generate"))

import audit_pages

SOURCE = """pub fn first() -> bool {
    true
}

impl<T> Reader<T> for Frame {
    fn next(&mut self) -> bool {
        false
    }
}
"""


class AuditPages(unittest.TestCase):
    def test_clauses(self):
        for refused, function, clause in (
            ("`ok` of `restore`", "Server::restore", "`ok`"),
            ("`ok` and `cost` of the client's `step`", "Client::step", "`ok`, `cost`"),
            ("the clause `all` of `step`", "step", "`all`"),
            ("clauses `one` and `two`", "step", "`one`, `two`"),
            ("its one clause (`Answers`)", "step", "`Answers`"),
            ("`IsInTurn`", "step", "`IsInTurn`"),
            ("the one clause of `step`", "step", ""),
            ("its one clause", "step", ""),
            ("the contract of `step`", "step", ""),
            ("", "step", ""),
            ("`ok` of `prepared`", "Config::tested", "`ok` of `prepared`"),
            ("the loop of `step`", "step", "the loop of `step`"),
        ):
            with self.subTest(refused=refused):
                self.assertEqual(audit_pages.WrongBody("edit", "A fault.", refused, function).clause(), clause)

    def test_a_row(self):
        self.assertEqual(
            audit_pages.WrongBody("no_test", "A fault.", "`ok` of `next`", "Frame::next").row("a"),
            "| [no_test](../crates/a/wrong-bodies/no_test.edit) | A fault. | `Frame::next`: `ok` |",
        )

    def test_the_function_of_an_edit(self):
        self.assertEqual(audit_pages.function_at(SOURCE, SOURCE.index("true")), "first")
        self.assertEqual(audit_pages.function_at(SOURCE, SOURCE.index("false")), "Frame::next")

    def test_counts(self):
        counts = (
            "5 lines for the theorem over frames, 6 over bytes, and 7 with the arguments of the laws. "
            "With `Server` and clients by a policy they are 8"
        )
        self.assertIsNone(audit_pages.counts_fault(f"It is {counts}.", counts))
        self.assertIn("is stale", audit_pages.counts_fault(f"It is 1{counts}.", counts))
        self.assertIn("has 0 places", audit_pages.counts_fault("", counts))


if __name__ == "__main__":
    unittest.main()
