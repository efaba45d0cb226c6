#!/usr/bin/env python3
"""Finds the lines of .rt and .antt files that are wider than 130 characters. Imports do not count: `rt fmt` writes them.

    tools/gate/widths.py    prints each wide line's place and width

The exit status is 1 if there is such a line.
"""
import re
import sys
from pathlib import Path

TOP = Path(__file__).resolve().parents[2]
WIDEST = 130
IMPORT = re.compile(r"\s*(?:pub(?:\([\w ]+\))? )?(?:ghost )?(?:pub )?use\b")


def wide_lines(text):
    """The lines of a file that are too wide, each as its number and width."""
    for number, line in enumerate(text.split("\n"), 1):
        if len(line) > WIDEST and not IMPORT.match(line):
            yield number, len(line)


def wide_places(top):
    """The wide lines of the files, a sentence each, with the file's path from the repository's top."""
    files = sorted(path for suffix in ("rt", "antt") for path in top.glob(f"crates/*/*/**/*.{suffix}"))
    for path in files:
        file = path.relative_to(top)
        if file.parts[2] in ("src", "specs", "proofs"):
            for number, width in wide_lines(path.read_text(encoding="utf-8")):
                yield f"{file.as_posix()}:{number}: {width} characters, and not at most {WIDEST}"


def main():
    if sys.argv[1:]:
        sys.exit(__doc__)
    places = [*wide_places(TOP)]
    for place in places:
        print(f"widths: {place}")
    print(f"widths: {len(places)} wide lines")
    sys.exit(bool(places))


if __name__ == "__main__":
    main()
