#!/usr/bin/env python3
"""What `tools/gate/links.py` has to report: links to a file, a heading or a line that is not there."""
import sys
import tempfile
import unittest
from pathlib import Path

sys.dont_write_bytecode = True
sys.path.insert(0, str(Path(__file__).resolve().parents[1]))

import links

PAGE = """# A page

## What is `x`, and *how*?

## Twice

## Twice

<a id="own"></a>

```text
## In a block
```
"""


class Links(unittest.TestCase):
    def setUp(self):
        folder = tempfile.TemporaryDirectory()
        self.addCleanup(folder.cleanup)
        self.top = Path(folder.name).resolve()
        for name, text in (
            ("docs/A.md", PAGE),
            ("src/lib.rt", "one\ntwo\n"),
            ("build/made.txt", "made\n"),
            ("docs/a (b).md", "# B\n"),
        ):
            (self.top / name).parent.mkdir(parents=True, exist_ok=True)
            (self.top / name).write_text(text)

    def faults(self, text, page="README.md"):
        (self.top / page).parent.mkdir(exist_ok=True)
        (self.top / page).write_text(text)
        return links.check(self.top)[0]

    def test_what_is_there(self):
        for target in (
            "docs/A.md",
            "docs",
            "docs/",
            "./docs/../docs/A.md",
            "docs/A.md#a-page",
            "docs/A.md#what-is-x-and-how",
            "docs/A.md#twice",
            "docs/A.md#twice-1",
            "docs/A.md#own",
            "src/lib.rt#L2",
            "src/lib.rt#L1-L2",
            "#top",
            "https://example.org/none#none",
            "mailto:a@b",
            "<docs/a (b).md>",
            "docs/a%20(b).md#b",
            'docs/A.md "a title"',
        ):
            with self.subTest(target=target):
                self.assertEqual(self.faults(f"# Top\n\nSee [it]({target}).\n"), [])

    def test_what_is_not_there(self):
        for target, fault in (
            ("docs/B.md", "there is no file docs/B.md"),
            ("docs/A.md#none", "docs/A.md has no none"),
            ("docs/A.md#A-page", "docs/A.md has no A-page"),
            ("docs/A.md#twice-2", "docs/A.md has no twice-2"),
            ("docs/A.md#in-a-block", "docs/A.md has no in-a-block"),
            ("docs#a-page", "docs has no a-page"),
            ("src/lib.rt#L3", "src/lib.rt has no L3"),
            ("src/lib.rt#one", "src/lib.rt has no one"),
            ("#none", "README.md has no none"),
            ("build/made.txt", "there is no file build/made.txt"),
            ("../outside.md", "../outside.md is outside the repository"),
            ("", "a link without a target"),
            ("crate::Item", "there is no file crate::Item"),
        ):
            with self.subTest(target=target):
                self.assertEqual(self.faults(f"# Top\n\nSee [it]({target}).\n"), [f"README.md:3: {fault}"])

    def test_each_place_of_a_link(self):
        none = ["README.md:1: there is no file none.md"]
        self.assertEqual(self.faults("[a](docs/A.md) ![image](none.md)\n"), none)
        self.assertEqual(self.faults("[![image](docs/A.md)](none.md)\n"), none)
        self.assertEqual(self.faults("[a]: none.md\n"), none)
        self.assertEqual(self.faults("| [a](none.md) |\n"), none)
        self.assertEqual(self.faults("`[a](none.md)`\n\n```text\n[a](none.md)\n[b]: none.md\n```\n"), [])

    def test_each_folder(self):
        self.assertEqual(
            self.faults("[a](A.md) [b](../README.md)", "docs/C.md"), ["docs/C.md:1: there is no file ../README.md"]
        )
        self.assertEqual(
            self.faults("[a](../docs/C.md) [b](none.md)", ".github/D.md"),
            ["docs/C.md:1: there is no file ../README.md", ".github/D.md:1: there is no file none.md"][::-1],
        )
        self.assertEqual(self.faults("[a](none.md)", "build/E.md"), self.faults("", "build/E.md"))


if __name__ == "__main__":
    unittest.main()
