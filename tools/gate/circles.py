#!/usr/bin/env python3
"""Rejects a circle among the top-level modules of a library, and a module that lib.rt does not declare.

    tools/gate/circles.py [FOLDER]             checks the repository in FOLDER, or that of this script
    tools/gate/circles.py --order [FOLDER]     prints each library's modules too, lowest first

A module is a file or a folder directly below src/. lib.rt is no module; an item that it re-exports counts as
a use of the module that the name comes from. A module uses another if its code, without comments, has a path
of it: crate::MODULE, or super:: where that leads out of the module. A page holds only `pub use` lines. It is
above what it re-exports, and no other module may use it. Calls of methods are not seen: a method that a
module adds to a type of another module can be called without a path.

The order is computed from the uses and written nowhere: `rt fmt` sorts the `mod` lines of lib.rt by name.
Every module has a `mod` line, since a file without one is neither compiled nor proved.
"""
import re
import sys
from pathlib import Path

ORDER = "--order" in sys.argv[1:]
FOLDERS = [word for word in sys.argv[1:] if word != "--order"]
ABOVE = Path(__file__).resolve().parents
TOP = Path(FOLDERS[0]) if FOLDERS else next(folder for folder in ABOVE if (folder / "crates.txt").exists())
LIBRARIES = ("fe2o3_sasl_wire", "fe2o3_scram", "fe2o3_sasl_core", "fe2o3_sasl", "fe2o3_sasl_negotiation", "sasl_c")
NO_CODE = re.compile(r"""//[^\n]*|/\*.*?\*/|b?'(?:\\.|[^'\\])'|b?"(?:\\.|[^"\\])*"|#!?\[tactic\(.*?\)\]\n""", re.S)
PATH = re.compile(r"(?<![\w:])(crate|super)\s*::")
NAME = re.compile(r"\s*(r#)?(\w+|\*)\s*")
DECLARED = re.compile(r"^(?:pub(?:\(\w+\))? )?(?:const|enum|fn|macro_rules!|static|struct|trait|type) (\w+)", re.M)
MODULE = re.compile(r"^(?:pub(?:\(\w+\))? )?mod (\w+);", re.M)


class Wrong(Exception):
    """What the sources do that this script does not read."""


def without_comments(text):
    """The code alone, with as many lines."""
    return NO_CODE.sub(lambda found: "\n" * found[0].count("\n"), text)


def trees(text, at):
    """The paths that begin at a place, as lists of names: several where there are braces; and what follows them."""
    if text[at:].lstrip().startswith("{"):
        at = text.index("{", at) + 1
        paths = []
        while not text[at:].lstrip().startswith("}"):
            inner, at = trees(text, at)
            paths += inner
            comma = re.compile(r"\s*,").match(text, at)
            at = comma.end() if comma else at
        return paths, text.index("}", at) + 1
    name = NAME.match(text, at)
    if not name:
        return [[]], at
    at = name.end()
    if text.startswith("::", at):
        paths, at = trees(text, at + 2)
        return [[name[2]] + path for path in paths], at
    renamed = re.compile(r"as\s+(\w+)\s*").match(text, at)
    return [[name[2]] + ([f"as {renamed[1]}"] if renamed else [])], renamed.end() if renamed else at


def paths_in(text, place):
    """The paths of this crate that a file names, as lists of names from the crate's root, each with its line."""
    for found in PATH.finditer(text):
        up = 1 if found[1] == "super" else 0
        for path in trees(text, found.end())[0]:
            leaves = up
            while path and path[0] == "super":
                path, leaves = path[1:], leaves + 1
            start = list(place[: len(place) - leaves]) if leaves else []
            yield start + path, text.count("\n", 0, found.start()) + 1


def names_of_root(text):
    """The names that lib.rt has: from which module each comes, or None where it is of no module."""
    names = {}
    for use in re.finditer(r"^pub(?:\(crate\))? use (.*?);", text, re.M | re.S):
        for path in trees(use[1], 0)[0]:
            name = path[-1].removeprefix("as ")
            if name == "*":
                raise Wrong(f"lib.rt re-exports all of {'::'.join(path)}: name what it is")
            names[name] = path[1] if path[0] == "crate" else None
    return names | {name: None for name in DECLARED.findall(text)}


def is_page(texts):
    """Whether the module holds nothing but `pub use` lines."""
    return all(not re.sub(r"pub use [^;]*;", "", text).strip() for text in texts)


class Crate:
    """The modules of a crate, which of them each uses, and at which line first."""

    def __init__(self, name):
        self.name = name
        self.src = TOP / "crates" / name / "src"
        self.files = sorted(path for path in self.src.rglob("*.rt") if path != self.src / "lib.rt")
        texts = {path: without_comments(path.read_text(encoding="utf-8")) for path in self.files}
        self.uses = {self.module(path): {} for path in self.files}
        self.pages = {
            module
            for module in self.uses
            if is_page([texts[path] for path in self.files if self.module(path) == module])
        }
        top = without_comments((self.src / "lib.rt").read_text(encoding="utf-8"))
        self.declared = set(MODULE.findall(top))
        root = names_of_root(top)
        for path in self.files:
            self.read(path, texts[path], root)

    def module(self, path):
        return path.relative_to(self.src).with_suffix("").parts[0]

    def read(self, path, text, root):
        """Notes what a file uses."""
        own = self.module(path)
        for names, line in paths_in(text, path.relative_to(self.src).with_suffix("").parts):
            if not names or names[0] in ("proofs", "specs"):
                continue
            if names[0] not in self.uses and names[0] not in root:
                raise Wrong(f"{path.relative_to(TOP)}:{line}: crate::{names[0]} is no module and no name of lib.rt")
            used = names[0] if names[0] in self.uses else root[names[0]]
            if used and used != own:
                self.uses[own].setdefault(used, f"{path.relative_to(TOP)}:{line}")

    def circle(self):
        """A shortest circle of modules, or None."""
        found = [circle for module in self.uses if (circle := self.way_back(module))]
        return min(found, key=len, default=None)

    def way_back(self, module):
        """A shortest way from a module to itself, or None."""
        before, reached = {}, [module]
        for at in reached:
            for used in self.uses[at]:
                if used == module:
                    way = [module, at]
                    while way[-1] != module:
                        way.append(before[way[-1]])
                    return way[::-1]
                if used not in before:
                    before[used] = at
                    reached.append(used)
        return None

    def chain(self, module):
        """A longest chain of modules, each of which uses the next; there is no circle."""
        return max(([module] + self.chain(used) for used in self.uses[module]), key=len, default=[module])

    def order(self):
        """The modules, each after those that it uses, the lowest first; there is no circle."""
        return sorted(self.uses, key=lambda module: (len(self.chain(module)), module))

    def faults(self):
        """What is wrong with the modules."""
        circle = self.circle()
        if circle:
            yield f"{self.name}: modules use each other in a circle: {' -> '.join(circle)}"
            for user, used in zip(circle, circle[1:]):
                yield f"    {self.uses[user][used]}: {user} uses {used}"
        for user, all_used in self.uses.items():
            for used in sorted(self.pages & all_used.keys()):
                yield f"{all_used[used]}: {user} uses {used}, a page of re-exports"
        for module in sorted(self.uses.keys() - self.declared):
            yield f"{self.name}: src/lib.rt has no mod line for {module}"


def main():
    faults = []
    crates = {}
    for name in LIBRARIES:
        try:
            crates[name] = Crate(name)
        except Wrong as wrong:
            faults.append(f"{name}: {wrong}")
            continue
        faults += crates[name].faults()
    if faults:
        print(*(f"circles: {fault}" for fault in faults), sep="\n", file=sys.stderr)
        return 1
    for name, crate in crates.items():
        chain = max((crate.chain(module) for module in crate.uses), key=len)
        print(
            f"circles: {name}: {len(crate.uses)} modules, no circle, at most {len(chain)} above one another:"
            f" {', '.join(reversed(chain))}"
        )
        if ORDER:
            print(*(f"    {module}" for module in crate.order()), sep="\n")
    return 0


if __name__ == "__main__":
    sys.exit(main())
