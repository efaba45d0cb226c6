#!/usr/bin/env python3
"""Lists the names of specs/ that two or more files define with different meanings.

    tools/gate/names.py

There must be none: a reader who knows a name from one file may trust it in every other file, also in that of another
crate. A name is that of a definition, a record or a constructor, of any crates/*/specs, private ones too. It is listed if
its definitions differ in more than layout; the same text in two files counts as one meaning. Each name is printed with its
files. A file has a `*` if the headline rests on that definition, as `tools/trusted_definitions.py` finds it. What is local to a
definition is not counted: parameters, and fields of records, which are read as `value.field`.

The last line counts the names. The exit status is 0 if no name is listed, and 1 otherwise.
"""
import re
import sys
from collections import defaultdict
from pathlib import Path

sys.dont_write_bytecode = True
sys.path.insert(0, str(Path(__file__).resolve().parents[1]))

import trusted_definitions as trusted


def definitions():
    """Each definition of each crate: its name, file and module, its place there, and its text in one line."""
    for path in sorted(trusted.CRATES.glob("*/specs/**/*.antt")):
        file = path.relative_to(trusted.CRATES)
        module = trusted.module_of(path, file.parts[0])
        for place, (names, text, _) in enumerate(trusted.read(path)[3]):
            for name in names:
                yield name, str(file), (module, place), " ".join(text.split())


def main():
    reached, by_name = trusted.reached_from(trusted.HEADLINE), defaultdict(list)
    for name, file, place, text in definitions():
        if re.match(r"\w", name):
            by_name[name].append((file, place in reached, text))
    count = 0
    for name, found in sorted(by_name.items()):
        if len({file for file, _, _ in found}) > 1 and len({text for _, _, text in found}) > 1:
            count += 1
            print(f"{name}: " + ", ".join(file + " *" * is_reached for file, is_reached, _ in found))
    print(f"{count} names of {len(by_name)} have two or more meanings")
    sys.exit(bool(count))


if __name__ == "__main__":
    main()
