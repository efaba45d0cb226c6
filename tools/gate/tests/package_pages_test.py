#!/usr/bin/env python3
"""What `bindings/packages/pages.py` has to put into a package: pages, examples and signatures, with links that lead there."""
import importlib.util
import subprocess
import sys
import tempfile
import unittest
from pathlib import Path

TOP = Path(__file__).resolve().parents[3]
TOOL = TOP / "bindings/packages/pages.py"
GUIDES = ["GUIDE-c.md", "GUIDE-python.md", "GUIDE-rust.md", "GUIDE.md"]
PAGES = ["CHANGELOG.md", "COMPATIBILITY.md", *GUIDES, "README.md", "SECURITY.md"]


class PackagePages(unittest.TestCase):
    def made(self, how, *words):
        """The files that the tool writes, once it has tested their links."""
        with tempfile.TemporaryDirectory() as folder:
            subprocess.run([sys.executable, TOOL, how, folder, *words], check=True)
            subprocess.run([sys.executable, TOOL, "check", folder], check=True, stdout=subprocess.DEVNULL)
            return sorted(str(path.relative_to(folder)) for path in Path(folder).rglob("*") if path.is_file())

    def test_a_package(self):
        made = self.made("write")
        self.assertEqual([file for file in made if "/" not in file], PAGES)
        self.assertIn("signatures/fe2o3_scram.md", made)
        self.assertIn("examples/client.c", made)

    def test_the_crate_for_rust(self):
        made = self.made("pages", "bindings/rust/README.md=rust/README.md")
        self.assertEqual([file for file in made if "/" not in file], PAGES)
        self.assertIn("signatures/fe2o3_scram.md", made)
        self.assertIn("rust/README.md", made)

    def test_results_of_runs(self):
        found = importlib.util.spec_from_file_location("package_pages", TOOL)
        tool = importlib.util.module_from_spec(found)
        found.loader.exec_module(tool)
        with tempfile.TemporaryDirectory() as folder:
            runs, none, out = Path(folder, "runs"), Path(folder, "none"), Path(folder, "out")
            runs.mkdir()
            for day, text in (("2026-01-02", "new"), ("2025-12-31", "old")):
                (runs / f"{day}.md").write_text(text, encoding="utf-8")
            tool.write_results(out, {"interop": runs, "bench": none})
            self.assertEqual({it.name: it.read_text(encoding="utf-8") for it in out.iterdir()}, {"interop.md": "new"})


if __name__ == "__main__":
    unittest.main()
