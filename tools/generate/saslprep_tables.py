#!/usr/bin/env python3
"""Writes the tables of RFC 3454 that RFC 4013 names, for the crate `saslprep`.

    tools/generate/saslprep_tables.py write     writes the tables
    tools/generate/saslprep_tables.py check     compares the files with what would be written

The tables are those of Python's module `stringprep`, which were made of the text of RFC 3454. They are written
twice: as lists of ranges, which the definitions cite (specs/Tables.antt), and as sorted runs, which the code
searches (src/table_runs.rt); the proof shows that both say the same. `tools/models/saslprep_answers.py` compares
them with the tables of GNU libidn.
"""
import os
import stringprep
import sys
from functools import lru_cache

ROOT = os.path.dirname(os.path.dirname(os.path.dirname(os.path.realpath(__file__))))
CRATE = os.path.join(ROOT, "crates", "saslprep")
END = 0x110000

# The tables by their names in RFC 3454, with what they hold.
TABLES = {
    "A.1": (stringprep.in_table_a1, "code points that Unicode 3.2 does not assign"),
    "B.1": (stringprep.in_table_b1, "what is commonly mapped to nothing"),
    "C.1.2": (stringprep.in_table_c12, "spaces outside ASCII"),
    "C.2.1": (stringprep.in_table_c21, "control characters of ASCII"),
    "C.2.2": (stringprep.in_table_c22, "control characters outside ASCII"),
    "C.3": (stringprep.in_table_c3, "private use"),
    "C.4": (stringprep.in_table_c4, "noncharacters"),
    "C.5": (stringprep.in_table_c5, "surrogates"),
    "C.6": (stringprep.in_table_c6, "what is not fit for plain text"),
    "C.7": (stringprep.in_table_c7, "what is not fit for canonical representation"),
    "C.8": (stringprep.in_table_c8, "what changes display, and what is deprecated"),
    "C.9": (stringprep.in_table_c9, "tags"),
    "D.1": (stringprep.in_table_d1, "characters of the bidirectional classes R and AL"),
    "D.2": (stringprep.in_table_d2, "characters of the bidirectional class L"),
}
PROHIBITED = [name for name in TABLES if name.startswith("C.")]

# The runs that the code searches: the constant, the tables whose union it is, and what it holds.
RUNS = [
    ("UNASSIGNED", ["A.1"]),
    ("MAPPED_TO_NOTHING", ["B.1"]),
    ("SPACES", ["C.1.2"]),
    ("PROHIBITED", PROHIBITED),
    ("RIGHT_TO_LEFT", ["D.1"]),
    ("LEFT_TO_RIGHT", ["D.2"]),
]


@lru_cache(maxsize=None)
def table(name):
    """Whether a table has each code point."""
    test = TABLES[name][0]
    return [bool(test(chr(c))) for c in range(END)]


def members(names):
    """Whether one of these tables has each code point."""
    return [any(inside) for inside in zip(*map(table, names))]


def ranges(member):
    """The members as inclusive ranges."""
    found, start = [], None
    for c in range(END + 1):
        inside = c < END and member[c]
        if inside and start is None:
            start = c
        elif not inside and start is not None:
            found.append((start, c - 1))
            start = None
    return found


def runs(member):
    """The end of each run times 2048, and 1 where the run is of members."""
    packed = []
    for c in range(1, END + 1):
        if c == END or member[c] != member[c - 1]:
            packed.append(c * 2048 + member[c - 1])
    return packed


def lines_of(items, between, first, width):
    """The items in lines no wider than width."""
    lines, line = [], first
    for item in items:
        if line.strip() and len(line) + len(between) + len(item) > width:
            lines.append(line.rstrip())
            line = first
        line += (between if line.strip() else "") + item
    return lines + [line.rstrip()]


def definitions():
    """The text of specs/Tables.antt."""
    text = [
        "-- The tables of RFC 3454 that RFC 4013 names, each under its name, as inclusive ranges in order.",
        "-- Written by tools/generate/saslprep_tables.py. Do not edit.",
        "use Rattle.std.specs.Prelude.{List, [], ◌∷◌}",
        "use Rattle.ucd_table.specs.Rows.{Range}",
    ]
    for name, (_, what) in TABLES.items():
        word = name.lower().replace(".", "_")
        items = [f"(0x{a:04X}, 0x{b:04X}) ∷" for a, b in ranges(members([name]))] + ["[]"]
        text += ["", f"-- {name}: {what}", f"unfoldable pub {word} : List Range", f"{word} ="]
        text += lines_of(items, " ", "    ", 112)
    return "\n".join(text) + "\n"


def constants():
    """The text of src/table_runs.rt."""
    text = [
        "//! The tables of RFC 3454 as sorted runs, which `ucd_table::contains` searches: the end of each run times",
        "//! 2048, and 1 more where the run is of the table.",
        "// Written by tools/generate/saslprep_tables.py. Do not edit.",
    ]
    for constant, names in RUNS:
        packed = runs(members(names))
        named = "Table " + names[0] if len(names) == 1 else f"Tables {names[0]} to {names[-1]}"
        text += ["", f"/// {named}.", "#[rattlefmt::skip]"]
        text += [f"pub(crate) static {constant}: [u32; {len(packed)}] = ["]
        text += lines_of([f"0x{run:08X}," for run in packed], " ", "    ", 100) + ["];"]
    return "\n".join(text) + "\n"


def main():
    if sys.argv[1:] not in (["write"], ["check"]):
        sys.exit(__doc__)
    stale = 0
    for path, text in [("specs/Tables.antt", definitions()), ("src/table_runs.rt", constants())]:
        path = os.path.join(CRATE, path)
        if sys.argv[1] == "write":
            with open(path, "w", encoding="utf-8") as file:
                file.write(text)
            continue
        with open(path, encoding="utf-8") as file:
            if file.read() != text:
                print(f"{path} is not what {sys.argv[0]} writes")
                stale = 1
    if sys.argv[1] == "check" and not stale:
        print(f"saslprep_tables: {len(TABLES)} tables are as Python's stringprep has them")
    return stale


if __name__ == "__main__":
    sys.exit(main())
