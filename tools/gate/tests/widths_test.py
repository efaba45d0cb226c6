#!/usr/bin/env python3
"""What `tools/gate/widths.py` has to report: the lines that are too wide."""
import sys
import tempfile
import unittest
from pathlib import Path

sys.dont_write_bytecode = True
sys.path.insert(0, str(Path(__file__).resolve().parents[1]))

import widths

WIDE = "x" * (widths.WIDEST + 1) + "\n"


class Widths(unittest.TestCase):
    def test_lines(self):
        text = (
            "≡" * widths.WIDEST
            + "\n"
            + WIDE
            + "    pub use crate::"
            + WIDE
            + "ghost use Rattle."
            + WIDE
            + "user "
            + WIDE
        )
        self.assertEqual([*widths.wide_lines(text)], [(2, 131), (5, 136)])

    def test_files(self):
        with tempfile.TemporaryDirectory() as folder:
            for name in (
                "crates/a/src/b/c.rt",
                "crates/a/proofs/D.antt",
                "crates/a/out/e.rt",
                "crates/a/src/f.txt",
                "g.rt",
            ):
                path = Path(folder, name)
                path.parent.mkdir(parents=True, exist_ok=True)
                path.write_text("\n" + WIDE)
            self.assertEqual(
                [*widths.wide_places(Path(folder))],
                [
                    "crates/a/proofs/D.antt:2: 131 characters, and not at most 130",
                    "crates/a/src/b/c.rt:2: 131 characters, and not at most 130",
                ],
            )


if __name__ == "__main__":
    unittest.main()
