#!/usr/bin/env python3
"""That README.md has no code that no test runs: each command is a target, and `make python` runs its block of Python."""
import re
import sys
import unittest
from pathlib import Path

sys.dont_write_bytecode = True
sys.path.insert(0, str(Path(__file__).resolve().parents[1]))

from quoted import TOP, blocks_of

MAKEFILES = (TOP / "Makefile", *TOP.glob("*/*.mk"))


class ReadMe(unittest.TestCase):
    def setUp(self):
        text = (TOP / "README.md").read_text(encoding="utf-8")
        self.blocks = {block.kind: [line for _, line in block.lines] for block in blocks_of(text)}

    def test_kinds(self):
        self.assertEqual(list(self.blocks), ["sh", "python"])
        tested = (TOP / "bindings/python/test_guide.py").read_text(encoding="utf-8")
        self.assertIn('printed("README.md")', tested)

    def test_commands(self):
        rules = "".join(path.read_text(encoding="utf-8") for path in MAKEFILES)
        for line in self.blocks["sh"]:
            command = re.fullmatch(r"make (\w+) +# .+", line)
            self.assertIsNotNone(command, line)
            self.assertRegex(rules, rf"(?m)^{command[1]}:")


if __name__ == "__main__":
    unittest.main()
