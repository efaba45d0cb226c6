#!/usr/bin/env python3
"""What `tools/gate/prose.py` has to find, and what it must not."""
import sys
import unittest
from pathlib import Path

sys.dont_write_bytecode = True
sys.path.insert(0, str(Path(__file__).resolve().parents[1]))

import prose

FAULTS, COUNTED, ANY_OF = prose.vocabulary()


class Prose(unittest.TestCase):
    def found(self, name, text):
        path = Path(name)
        blocks = [*prose.blocks_of(path, text)]
        return [(line, words) for line, words, _ in sorted(prose.faults_of(path, blocks, FAULTS, ANY_OF))]

    def test_words(self):
        for text in (
            "It stands there.",
            "Whoever reads it.",
            "It is handed in.",
            "so many bytes",
            "past ASCII",
            "It tells why.",
            "It comes to its end.",
            "as it came",
            "a made-up record",
            "hides users",
        ):
            self.assertEqual(len(self.found("a.md", text + "\n")), 1, text)

    def test_other_words(self):
        for text in (
            "understands",
            "It stands for a name.",
            "written by hand in Rust",
            "takes up 8 bytes",
            "withstands",
            "`stands`",
            "``a ` stands``",
            "[x](stands.md#stands)",
            "```text\nstands\n```",
        ):
            self.assertEqual(self.found("a.md", text + "\n"), [], text)

    def test_words_across_lines(self):
        self.assertEqual(self.found("a.md", "One line.\n\nA name is handed\nin.\n"), [(3, "handed in")])
        self.assertEqual(self.found("a.rt", "    // it is handed\n    // in\n"), [(1, "handed in")])
        self.assertEqual(self.found("a.md", "It is handed\n\nin.\n"), [])

    def test_sources(self):
        self.assertEqual(self.found("a.rt", 'let stands = "it stands"; // it stands\n'), [(1, "stands")])
        self.assertEqual(self.found("a.rt", "let c = '\"'; // it stands\nlet d = '\"';\n"), [(1, "stands")])
        self.assertEqual(self.found("a.antt", "stands : ℕ -- it stands\n"), [(1, "stands")])
        self.assertEqual(self.found("a.py", 'stands = "stands"  # it stands\n'), [(1, "stands")])
        self.assertEqual(self.found("a.py", '"""It\nstands."""\n'), [(1, "It"), (2, "stands")])
        self.assertEqual(self.found("a.h", "/* One.\n * It stands. */\nint stands;\n"), [(2, "stands")])

    def test_beginnings(self):
        for word in ("The same", "As", "So", "Such", "Likewise", "It"):
            self.assertEqual(self.found("a.rt", f"/// {word} of another.\n/// More.\nfn a() {{}}\n"), [(1, word)])
            self.assertEqual(self.found("a.rt", f"//! {word} of another.\n"), [(1, word)])
            self.assertEqual(self.found("a.antt", f"-- {word.lower()} of another\n"), [(1, word.lower())])
            self.assertEqual(self.found("a.h", f"/* {word} of another. */\n"), [(1, word)])
        for text in (
            "/// Assigns it.\n/// It is so.\n",
            "// It is no doc.\n",
            "/// The sameness.\n",
            "/// Its name.\n",
        ):
            self.assertEqual(self.found("a.rt", text), [], text)


if __name__ == "__main__":
    unittest.main()
