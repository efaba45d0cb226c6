#!/usr/bin/env python3
"""What `tools/gate/progress.py` reports of a process: by its command, its folder and its words."""
import os
import subprocess
import sys
import unittest
from pathlib import Path

sys.dont_write_bytecode = True
sys.path.insert(0, str(Path(__file__).resolve().parents[1]))

import progress

CRATE = f"{progress.TOP}/crates/a"


class Progress(unittest.TestCase):
    def test_stages(self):
        for command, place, line, wanted in (
            ("gate", CRATE, " rattle check --crate-name a src/lib.rt ", "proving a"),
            ("gate", CRATE, " rattle check --crate-name a --test tests/a.rt ", "proving the tests of a"),
            ("gate", "/copy", " rattle check --crate-checked --crate-name a ", "building a"),
            ("gate", "/rt-run-1", " program ", progress.RUNNING),
            ("bodies", "/copy", " rattle check --crate-name a ", "trying the wrong bodies of a"),
            ("refused", "/copy", " rattle check --crate-name a ", "trying what the borrow checker has to reject, in a"),
            ("other", "/copy", " rattle check --crate-name a ", None),
        ):
            self.assertEqual(progress.stage(command, place, line), wanted)

    def test_commands(self):
        with subprocess.Popen(
            [sys.executable, "-c", "input()", "tools/gate/refused.py", "x"],
            stdin=subprocess.PIPE,
            stderr=subprocess.DEVNULL,
        ) as child:
            pid, parent = str(child.pid), str(os.getpid())
            while "refused" not in progress.words(pid):
                pass
            self.assertEqual(progress.command_of(pid, parent), "refused")
            self.assertEqual(progress.stat(pid)[0], parent)
            child.kill()
        self.assertIsNone(progress.stat(pid))
        self.assertIsNone(progress.command_of(pid, parent))


if __name__ == "__main__":
    unittest.main()
