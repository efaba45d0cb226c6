#!/usr/bin/env python3
"""What `tools/gate/versions.py` has to report: places that name another version."""
import sys
import tempfile
import unittest
from pathlib import Path

sys.dont_write_bytecode = True
sys.path.insert(0, str(Path(__file__).resolve().parents[1]))

import versions

FILES = {
    "bindings/rust/Cargo.toml": '[package]\nversion = "0.4.0"\nedition = "2021"\n',
    "interop/rust/Cargo.toml": '[package]\nversion = "0.4.0"\n',
    "README.md": "This is version 0.4.0. Names follow version 0.18.4.\n",
    "crates/scram_lib/src/manual.rt": '        .version("0.4.0")\n',
    "crates/test_driver_programs/data/words.txt": "$ scram --version\n> scram 0.4.0\n= 0\n",
    "crates/sasl_c/src/texts.rt": 'pub extern "C" fn fe2o3_version() -> u32\n    ensures { result ≡ 400 }\n{\n    400\n}\n',
    "bindings/callers.mk": "SONAME = libfe2o3_sasl.so.2\n",
    "bindings/python/fe2o3_sasl/__init__.py": '"""`libfe2o3_sasl.so.2`"""\n__version__ = "0.4.0"\n',
    "bindings/python/fe2o3_sasl/_native.py": '_FILE = "libfe2o3_sasl.so.2"\n',
    "CHANGELOG.md": "# Changelog\n\n## 0.4.0 (2026-11-29)\n\n- Now `libfe2o3_sasl.so.2`.\n\n## 0.3.0\n\n- `libfe2o3_sasl.so.1`\n",
}


class Versions(unittest.TestCase):
    def setUp(self):
        folder = tempfile.TemporaryDirectory()
        self.addCleanup(folder.cleanup)
        self.top = Path(folder.name)
        for name, text in FILES.items():
            (self.top / name).parent.mkdir(parents=True, exist_ok=True)
            (self.top / name).write_text(text)

    def turn(self, name, old, new):
        text = (self.top / name).read_text()
        self.assertIn(old, text)
        (self.top / name).write_text(text.replace(old, new))

    def faults(self):
        return "\n".join(versions.faults_of(self.top))

    def test_all_agree(self):
        self.assertEqual(self.faults(), "")

    def test_each_place(self):
        for name, old in (
            ("interop/rust/Cargo.toml", "0.4.0"),
            ("bindings/python/fe2o3_sasl/__init__.py", "0.4.0"),
            ("README.md", "0.4.0"),
            ("crates/scram_lib/src/manual.rt", "0.4.0"),
            ("crates/test_driver_programs/data/words.txt", "0.4.0"),
            ("crates/sasl_c/src/texts.rt", "≡ 400"),
            ("crates/sasl_c/src/texts.rt", "    400\n"),
        ):
            with self.subTest(name=name, old=old):
                new = old.replace("4", "3")
                self.turn(name, old, new)
                self.assertIn(f"{name} has {new.strip(' ≡').strip()}", self.faults())
                self.turn(name, new, old)

    def test_a_place_is_gone(self):
        self.turn("README.md", "This is version 0.4.0. ", "")
        self.assertIn("README.md has no place", self.faults())

    def test_the_leading_place(self):
        self.turn("bindings/rust/Cargo.toml", "0.4.0", "0.4")
        self.assertIn("no version like", self.faults())

    def test_shared_object(self):
        self.turn("bindings/python/fe2o3_sasl/_native.py", '"libfe2o3_sasl.so.2"', '"libfe2o3_sasl.so.1"')
        self.assertIn("_native.py names libfe2o3_sasl.so.1", self.faults())
        self.turn("CHANGELOG.md", "so.2", "so.3")
        self.assertIn("CHANGELOG.md names libfe2o3_sasl.so.3", self.faults())

    def test_changelog(self):
        log = "# Changelog\n\n## Unreleased\n\n{}## 0.4.0\n\n- one\n"
        for text, version, fault in (
            ("# Changelog\n", "0.4.0", "no section of a version"),
            (log.format(""), "0.4.0", None),
            (log.format("- two\n\n"), "0.4.0", "set NEXT-dev"),
            (log.format("- two\n\n"), "0.5.0-dev", None),
            (log.format(""), "0.4.0-dev", "has 0.4.0"),
            (log.format(""), "0.5.0", "newest section of CHANGELOG.md 0.4.0"),
            ("## 0.4.0\n", "0.5.0-dev", "no section Unreleased"),
        ):
            with self.subTest(text=text, version=version):
                found = versions.changelog_fault(text, version)
                self.assertIn(fault, found) if fault else self.assertIsNone(found)

    def test_set(self):
        self.turn("CHANGELOG.md", "## 0.4.0", "## Unreleased\n\n- two\n\n## 0.4.0")
        versions.write(self.top, "0.5.0-dev")
        self.assertEqual(self.faults(), "")
        self.assertIn("result ≡ 500 }\n{\n    500\n}", (self.top / "crates/sasl_c/src/texts.rt").read_text())
        package = (self.top / "bindings/python/fe2o3_sasl/__init__.py").read_text()
        self.assertIn('__version__ = "0.5.0.dev0"\n', package)


if __name__ == "__main__":
    unittest.main()
