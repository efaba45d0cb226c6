#!/usr/bin/env python3
"""What `tools/generate/notices.py` has to report: crates of the kit that are linked and have no notice."""
import sys
import tempfile
import unittest
from pathlib import Path

sys.dont_write_bytecode = True
sys.path.insert(0, str(Path(__file__).resolve().parents[2] / "generate"))

import notices

CRATES = "# The library.\nlow: base64\nsasl_c staticlib: low table\nscram: sasl_c\n"
USES = {"base64": ["std", "inner"], "inner": ["std"], "table": [], "std": ["core"], "core": []}
FILES = {
    "base64/LICENSE-MIT": "Copyright A\nas is\n",
    "inner/LICENSE": "\nCopyright A\nas is\n",
    "table/NOTICE": "Copyright B\n",
    "core/src/float.rt": "// After a crate under the MIT licence:\n//\n// as is\nfn one() {}\n",
    "std/src/lib.rt": "//! No other source.\n",
}
REASONS = {"std": "The kit's.", "core": "The kit's too."}


class Notices(unittest.TestCase):
    def setUp(self):
        folder = tempfile.TemporaryDirectory()
        self.addCleanup(folder.cleanup)
        self.top = self.kit = Path(folder.name)
        (self.top / "crates.txt").write_text(CRATES)
        (self.kit / "KIT-ID").write_text("kit 1\n")
        for name, uses in USES.items():
            (self.kit / "rattle" / name / "src").mkdir(parents=True)
            (self.kit / "rlibs" / f"{name}.rlib").mkdir(parents=True)
            (self.kit / "rlibs" / f"{name}.rlib" / "format").write_text(
                "rlib\n" + "".join(f"dep {it}\n" for it in uses)
            )
        for name, text in FILES.items():
            (self.kit / "rattle" / name).write_text(text)
        kept = notices.WITHOUT
        self.addCleanup(setattr, notices, "WITHOUT", kept)
        notices.WITHOUT = dict(REASONS)

    def text(self):
        return notices.text_of("sasl_c", self.top, self.kit)

    def fault(self):
        with self.assertRaises(notices.Fault) as found:
            self.text()
        return str(found.exception)

    def test_crates_of_crates_are_linked(self):
        rows = notices.lines_of(self.top)
        self.assertEqual(notices.linked("sasl_c", rows, self.kit), ["base64", "core", "inner", "std", "table"])

    def test_equal_texts_are_written_once(self):
        self.assertEqual(self.text().count("Copyright A"), 1)
        self.assertIn("base64 (LICENSE-MIT)\ninner (LICENSE)\n\nCopyright A\nas is\n", self.text())

    def test_reasons_and_heads_of_crates_without_a_notice(self):
        self.assertIn("core (src/float.rt)\n\nAfter a crate under the MIT licence:\n\nas is\n", self.text())
        self.assertIn("- std: The kit's.\n", self.text())
        self.assertNotIn("No other source", self.text())

    def test_no_notice(self):
        (self.kit / "rattle/inner/LICENSE").unlink()
        self.assertIn("inner has no notice", self.fault())

    def test_no_notice_of_what_the_line_names(self):
        (self.kit / "rattle/table/NOTICE").unlink()
        self.assertIn("table has no notice", self.fault())

    def test_a_reason_beside_a_notice(self):
        notices.WITHOUT["table"] = "None."
        self.assertEqual(self.fault(), "table is in WITHOUT, and has NOTICE")

    def test_an_unknown_crate(self):
        (self.top / "crates.txt").write_text(CRATES.replace("table", "absent"))
        self.assertIn("absent is no crate of crates.txt", self.fault())

    def test_the_text_of_unicodes_licence(self):
        (self.kit / "rattle/core/src/table.rt").write_text("// The data is under the Unicode License v3.\n")
        self.assertIn("no notice has its text", self.fault())
        (self.kit / "rattle/table/NOTICE").write_text("UNICODE LICENSE V3\n")
        self.assertIn("UNICODE LICENSE V3", self.text())

    def test_a_reason_for_a_crate_that_nothing_links(self):
        notices.WITHOUT["gone"] = "None."
        self.assertEqual(notices.unused(self.top, self.kit), ["gone"])


if __name__ == "__main__":
    unittest.main()
