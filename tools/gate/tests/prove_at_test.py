#!/usr/bin/env python3
"""Which path `tools/prove_at.py` finds for a line of a source."""
import sys
import tempfile
import unittest
from pathlib import Path

sys.dont_write_bytecode = True
TOP = Path(__file__).resolve().parents[3]
sys.path.insert(0, str(TOP / "tools"))

import prove_at

# The files of a library, and the path of each function with a number in its body, as `rt check` prints such a path.
FILES = {
    "src/frames/items.rt": """\
impl<'a> Items<'a> {
    /// The next symbol.
    pub(crate) fn symbol(&mut self) -> Option<&'a str>
        ensures { result ≡ none }
    {
        1
    }
}

impl<'a> Iterator for Items<'a> {
    fn next(&mut self) -> Option<&'a [u8]> {
        2
    }
}

pub(super) fn symbol_at(at: usize) -> u32 {
    3
}

pub struct Items<'a> {
    pub rest: &'a [u8],
}
""",
    "src/error.rt": """\
pub enum Error {
    OutOfMemory,
}

impl From<AllocError> for Error {
    fn from(_error: AllocError) -> Error {
        4
    }
}

impl<T: Drop> From<AllocFailed<T>> for Error {
    fn from(_error: AllocFailed<T>) -> Error {
        5
    }
}

impl From<other_crate::Fault> for Error {
    fn from(_error: other_crate::Fault) -> Error {
        6
    }
}
""",
    "src/header.rt": """\
pub struct Header {
    pub id: u8,
}

impl From<Header> for [u8; 8] {
    fn from(value: Header) -> Self {
        7
    }
}

impl<'a> TryFrom<&'a [u8]> for Header {
    fn try_from(value: &'a [u8]) -> Result<Self, &'a [u8]> {
        8
    }
}
""",
    "src/hmac.rt": """\
pub enum Version {
    Sha1,
}
""",
    "src/hmac/hasher.rt": """\
impl Version {
    /// The methods of a type have the path of its module.
    pub fn h_i(self) -> u32 {
        9
    }
}

impl Hasher<20> for sha1::Sha1 {
    fn copy(&self) -> Self {
        10
    }
}

impl<T: Provider> Provider for Rc<T> {
    fn version(&self) -> &Version {
        11
    }
}
""",
    "src/lib.rt": """\
pub fn at_the_top() -> u32 {
    12
}
""",
}
PATHS = [
    "frames::items::Items::symbol",
    "frames::items::ItemsIterator::next",
    "frames::items::symbol_at",
    "error::ErrorFromAllocError::from",
    "error::ErrorFromAllocFailed::from",
    "error::ErrorFromOther_crateFault::from",
    "header::ArrayU88FromHeader::from",
    "header::HeaderTryFromRefSliceU8::try_from",
    "hmac::Version::h_i",
    "hmac::hasher::Sha1Sha1Hasher20::copy",
    "hmac::hasher::RcProvider::version",
    "at_the_top",
]

SOURCE = """\
//! A module.

/// A trait.
pub trait Named {
    /// Its name.
    fn name(&self) -> u32
        ensures { result ≡ 1 };

    /// Twice.
    fn twice(&self) -> u32 {
        2
    }
}

/// A function.
#[tactic(auto)]
pub extern "C" fn free(
    count: u32,
) -> u32
    ensures { result ≡ count }
{
    count
}

fn law()
    ensures { Law }
{}

fn last() {}
"""


class Prove(unittest.TestCase):
    def setUp(self):
        room = tempfile.TemporaryDirectory()
        self.addCleanup(room.cleanup)
        self.addCleanup(setattr, prove_at.wrong_bodies, "ROOT", prove_at.wrong_bodies.ROOT)
        prove_at.wrong_bodies.ROOT = room.name
        for file, text in FILES.items():
            path = Path(room.name) / "crates/library" / file
            path.parent.mkdir(parents=True, exist_ok=True)
            path.write_text(text, encoding="utf-8")

    def test_paths(self):
        found = {}
        for file, text in FILES.items():
            for at, line in enumerate(text.split("\n"), 1):
                if line.strip().isdecimal():
                    found[int(line)] = prove_at.function_at("library", file, text, at)
        self.assertEqual(found, {at: f"library::{path}" for at, path in enumerate(PATHS, 1)})

    def at(self, text):
        line = SOURCE[: SOURCE.index(text)].count("\n") + 1
        return prove_at.function_at("library", "src/some/module.rt", SOURCE, line)

    def test_lines_of_a_function(self):
        for text in ("/// A function.", "#[tactic", "pub extern", "ensures { result ≡ count }", "    count\n"):
            self.assertEqual(self.at(text), "library::some::module::free")
        self.assertEqual(self.at("ensures { Law }"), "library::some::module::law")
        self.assertEqual(self.at("fn last"), "library::some::module::last")

    def test_a_path_that_is_not_determined(self):
        self.assertEqual(self.at("        2\n"), "library::some::module")

    def test_lines_of_no_function(self):
        for text in ("//! A module.", "/// A trait.", "    /// Its name.", "    fn name"):
            with self.assertRaises(prove_at.NoFunction):
                self.at(text)

    def test_places(self):
        self.assertEqual(prove_at.place_of("crates/sasl_c/src/lib.rt:12:3:"), ("sasl_c", "src/lib.rt", 12))
        for word in ("crates/sasl_c/src/lib.rt", "README.md:1", "crates/sasl_c/src/none.rt:1"):
            with self.assertRaises(prove_at.NoFunction):
                prove_at.place_of(word)


if __name__ == "__main__":
    unittest.main()
