#!/usr/bin/env python3
"""What `tools/generate/signatures.py` has to write: each public call with its first sentence and its clauses."""
import sys
import tempfile
import unittest
from pathlib import Path
from unittest import mock

sys.dont_write_bytecode = True
sys.path.insert(0, str(Path(__file__).resolve().parents[2] / "generate"))

import signatures

LIB = """//! A library.

ghost use Rattle.a.specs.Sums.{IsSum, Fits};

mod inner;
pub use inner::Counter;

/// Returns the sum. A second sentence.
pub fn sum(left: u32, right: u32) -> Result<u32, Overflow>
    ensures ok { IsSum left right result }
    ensures { Fits left }
{
    left.add(right)
}

/// Is not public.
fn hidden() {}
"""
INNER = """//! Counters.

ghost use Rattle.a.specs.Sums.{IsSum};

/// Counts.
pub struct Counter {
    count: u32,
}

impl Counter {
    /// Returns the count so far.
    pub fn count(&self) -> u32
        ensures count { IsSum self.now.count }
    {
        self.count
    }
}

/// Counts for C.
pub extern "C" fn counted(count: u32) -> u32
    ensures { result ≡ count }
{
    count
}
"""
PAGE = """## `a`

```rust
/// Returns the sum.
// Clauses: ok (IsSum); Fits.
pub fn sum(left: u32, right: u32) -> Result<u32, Overflow>;

/// Counts.
pub struct Counter { .. }

impl Counter {
    /// Returns the count so far.
    // Clauses: count (IsSum).
    pub fn count(&self) -> u32;
}

/// Counts for C.
// Clauses: unnamed.
pub extern "C" fn counted(count: u32) -> u32;
```
"""


class Signatures(unittest.TestCase):
    def setUp(self):
        folder = tempfile.TemporaryDirectory()
        self.addCleanup(folder.cleanup)
        self.top = Path(folder.name)
        for name, text in (("lib", LIB), ("inner", INNER)):
            file = self.top / "crates/a/src" / f"{name}.rt"
            file.parent.mkdir(parents=True, exist_ok=True)
            file.write_text(text, encoding="utf-8")

    def test_a_page(self):
        with mock.patch.multiple(signatures, CRATES=self.top / "crates", LIBRARIES=("a",)):
            signatures.write(self.top / "made")
        page = (self.top / "made/a.md").read_text(encoding="utf-8")
        self.assertEqual(page.partition("\n## ")[2], PAGE.removeprefix("## "))

    def test_the_end_of_a_head(self):
        block = ["pub fn a()", "    ensures { b }", "{}", "pub fn c() {}"]
        self.assertEqual(signatures.head_of(block), block[:2])
        self.assertEqual(signatures.head_of(["    fn a();", "    fn b();"]), ["    fn a();"])


if __name__ == "__main__":
    unittest.main()
