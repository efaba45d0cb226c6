#!/usr/bin/env python3
"""What `tools/gate/refused.py` has to report, without the compiler: on a log as it prints one."""
import sys
import tempfile
import unittest
from pathlib import Path

sys.dont_write_bytecode = True
sys.path.insert(0, str(Path(__file__).resolve().parents[1]))

import refused

WANTED = [
    ("changed", f"{refused.FILE}:2", "error[borrow-e0502]"),
    ("dropped", f"{refused.FILE}:4", "error[borrow-e0505]"),
]
LOG = f"""\
rt: a line of another kind
{refused.FILE}:2:5: error[borrow-e0502]: cannot borrow
{refused.FILE}:4:10: error[borrow-e0505]: cannot move out
"""
EDIT = "A sentence.\nerror: borrow-e0502\nfile: src/views_and_bodies.rt\nold:     clear();\nnew:     clear(); drop(view);\n"


class Refused(unittest.TestCase):
    def wrong(self, *arguments):
        with self.assertRaises(refused.Wrong) as told:
            refused.compare(*arguments)
        return str(told.exception)

    def test_all_rejected(self):
        refused.compare(WANTED, 1, LOG)

    def test_all_accepted(self):
        self.assertEqual(self.wrong(WANTED, 0, ""), "all are accepted")

    def test_one_accepted(self):
        self.assertEqual(
            self.wrong(WANTED, 1, LOG.replace("e0505", "e0499")),
            f"dropped: wanted error[borrow-e0505] at {refused.FILE}:4",
        )
        self.assertEqual(
            self.wrong(WANTED, 1, LOG.replace(":2:5:", ":3:5:")),
            f"changed: wanted error[borrow-e0502] at {refused.FILE}:2",
        )

    def test_another_error(self):
        self.assertEqual(
            self.wrong(WANTED, 1, LOG + "src/lib.rt:1:1: error[unknown-name]: none\n"), "there are other errors"
        )

    def plant(self, source, edit):
        with tempfile.TemporaryDirectory() as folder:
            copy = Path(folder)
            (copy / "src").mkdir()
            (copy / refused.FILE).write_text(source)
            (copy / "one.edit").write_text(edit)
            return refused.plant(copy, [copy / "one.edit"]), (copy / refused.FILE).read_text()

    def test_planted(self):
        self.assertEqual(
            self.plant("fn one() {\n    clear();\n}\n", EDIT),
            ([("one", f"{refused.FILE}:2", "error[borrow-e0502]")], "fn one() {\n    clear(); drop(view);\n}\n"),
        )

    def test_not_planted(self):
        for source, edit in (
            ("fn one() {}\n", EDIT),
            ("    clear();\n    clear();\n", EDIT),
            ("    clear();\n", EDIT.replace("views_and_bodies", "lib")),
        ):
            with self.assertRaises(refused.Wrong):
                self.plant(source, edit)


if __name__ == "__main__":
    unittest.main()
