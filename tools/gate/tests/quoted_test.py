#!/usr/bin/env python3
"""What `tools/gate/quoted.py` has to report: pages that quote a source wrongly."""
import sys
import tempfile
import unittest
from pathlib import Path

sys.dont_write_bytecode = True
sys.path.insert(0, str(Path(__file__).resolve().parents[1]))

import quoted

SOURCE = """\
fn first() {
    one();
    two();
}

fn second() {}
"""


class Quoted(unittest.TestCase):
    def check(self, page):
        with tempfile.TemporaryDirectory() as folder:
            top = Path(folder)
            (top / "crates").mkdir()
            (top / "crates/a.rt").write_text(SOURCE)
            (top / "README.md").write_text(page)
            return quoted.check([top / "README.md"], top)

    def fault(self, page):
        faults, _ = self.check(page)
        self.assertEqual(len(faults), 1)
        return faults[0]

    def test_what_is_quoted(self):
        for lines in ("one();\ntwo();", "fn first() {\n// ..\n}", "  two();\n\n// ..\nfn second() {}\n// ..\n"):
            self.assertEqual(self.check(f"A page.\n\n```rust\n// crates/a.rt\n{lines}\n```\n"), ([], 1))
        self.assertEqual(self.check("```rust\n// crates/a.rt\none();\n```\n```text\nany\n```\n"), ([], 1))

    def test_a_line_that_differs(self):
        self.assertEqual(
            self.fault("```rust\n// crates/a.rt\none();\n2();\n```\n"), "README.md:4: is not in crates/a.rt: 2();"
        )

    def test_lines_in_another_order(self):
        self.assertEqual(
            self.fault("```rust\n// crates/a.rt\ntwo();\n// ..\none();\n```\n"),
            "README.md:5: is not in crates/a.rt: one();",
        )

    def test_a_line_that_is_left_out_silently(self):
        self.assertEqual(
            self.fault("```rust\n// crates/a.rt\nfn first() {\ntwo();\n```\n"),
            "README.md:4: is not in crates/a.rt: two();",
        )

    def test_no_file(self):
        self.assertEqual(
            self.fault("\n```rust\n// crates/b.rt\none();\n```\n"), "README.md:3: there is no file crates/b.rt"
        )

    def test_a_block_that_names_no_file(self):
        for kind in ("rust", "antt"):
            self.assertEqual(
                self.fault(f"```{kind}\none();\n```\n"), f"README.md:1: a block of {kind} that names no file"
            )

    def test_a_block_without_an_end(self):
        self.assertEqual(self.fault("\n```rust\n// crates/a.rt\none();\n"), "README.md:2: a block without an end")

    def guide(self, source, *blocks):
        """The faults of the guide for Python, whose blocks these are, and of which this is the module."""
        with tempfile.TemporaryDirectory() as folder:
            top, file = Path(folder), "bindings/python/examples/guide.py"
            for name in (f"{folder}/docs", f"{folder}/bindings/python/examples"):
                Path(name).mkdir(parents=True)
            (top / file).write_text(source)
            page = top / "docs/GUIDE-python.md"
            page.write_text("".join(f"```python\n# {file}\n{block}```\n" for block in blocks))
            return quoted.check([page], top)

    def test_a_guide(self):
        source = '"""A module.\n\nOf two lines."""\n\nx = 1\n\n\ny = """2"""\n'
        whole = "the blocks, in their order, are not the whole file bindings/python/examples/guide.py"
        self.assertEqual(self.guide(source, "x = 1\n", 'y = """2"""\n'), ([], 2))
        for blocks in (["x = 1\n"], ['y = """2"""\n', "x = 1\n"], ['x = 1\n# ..\ny = """2"""\n']):
            self.assertEqual(self.guide(source, *blocks)[0], [f"docs/GUIDE-python.md:1: {whole}"])
        lines = "".join(f"x = {number}\n" for number in range(26))
        self.assertEqual(
            self.guide('"""A module."""\n' + lines, lines)[0],
            ["docs/GUIDE-python.md:1: a block of more than 25 lines"],
        )

    def test_nothing_quoted(self):
        self.assertEqual(self.fault("A page.\n"), "README.md:1: no page quotes anything")


if __name__ == "__main__":
    unittest.main()
