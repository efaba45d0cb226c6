#!/usr/bin/env python3
"""Proves the function at a line of a source, and the lemma files that its proof cites.

    tools/prove_at.py FILE:LINE [FLAG..]    FILE is crates/NAME/src/.., from the current folder or the repository's top

Finds the path of the function, as `rt check` prints it, and runs `rt check --only PATH` with these flags in the crate's
folder. The line may be one of its comment, its head or its body. If the text does not determine the path, as for an
impl that a macro makes, the function's module is proved. It relies on the layout of `rt fmt`. The exit status is that of
`rt`, or 2 if there is no function at the line.
"""
import os
import re
import sys
from pathlib import Path

TOP = Path(__file__).resolve().parents[1]
sys.dont_write_bytecode = True
sys.path.insert(0, str(TOP / "tools/gate"))

import wrong_bodies

HEAD = re.compile(r"^( *)(?:pub(?:\([a-z]+\))? )?(?:const )?(?:unsafe )?(?:extern \"C\" )?fn (\w+)", re.M)
IMPL = re.compile(
    r"impl(?:<[^{]*?>)? (?:(?P<trait>[\w:]+(?:<[^{]*?>)?) for )?(?P<type>\S[^{]*?)\s*(?:where[^{]*)?\{$", re.M
)
TRAIT = re.compile(r"([\w:]+)(?:<(.*)>)?")
GENERIC = re.compile(r"([\w:]+)<((?:'\w+|[A-Z])(?:, (?:'\w+|[A-Z]))*)>")


class NoFunction(Exception):
    """Why no function can be proved at a place."""


def spelled(kind):
    """How a path spells a type, or None."""
    kind = re.sub(r"&'\w+ ", "&", kind.strip())
    if found := GENERIC.fullmatch(kind):
        kind = found[1]
    if re.fullmatch(r"[\w:]+", kind):
        return "".join(word[:1].upper() + word[1:] for word in kind.split("::") if word != "crate")
    for pattern, name in ((r"&(.*)", "Ref"), (r"\[(.*); (\d+)\]", "Array"), (r"\[(.*)\]", "Slice")):
        if found := re.fullmatch(pattern, kind):
            inner = spelled(found[1])
            return inner and "".join([name, inner, *found.groups()[1:]])
    return None


def path_of(crate, file, text, head):
    """The path of the function with this head, or that of its module."""
    if told := wrong_bodies.told_path(crate, file, text, head):
        return told
    module = "::".join([crate, *wrong_bodies.module_of(file)])
    blocks = [it for it in re.finditer(r"^\S.*\{$", text, re.M) if it.start() < head.start()]
    impl = IMPL.match(text, blocks[-1].start()) if blocks and len(head[1]) == 4 else None
    if not impl or not impl["trait"]:
        return module
    trait, argument = TRAIT.fullmatch(impl["trait"]).groups()
    words = [spelled(impl["type"]), trait.rpartition("::")[2], spelled(argument) if argument else ""]
    if None in words:
        return module
    modules = wrong_bodies.modules_of_types(wrong_bodies.ROOT, crate)
    modules = modules.get(re.sub(r"<.*", "", impl["type"]), {wrong_bodies.module_of(file)})
    return "::".join([crate, *[*modules][0], "".join(words), head[2]]) if len(modules) == 1 else module


def last_line(lines, at, indent):
    """The last line of the function whose head is at an index, as an index, or None if it has no body."""
    if re.search(r"\{.*\}$", lines[at]):
        return at
    for end in range(at + 1, len(lines)):
        if re.fullmatch(rf"{indent}(\{{\}}|\}})", lines[end]):
            return end
        if HEAD.match(lines[end]) and not lines[end].startswith(indent + " ") or lines[end] == "}":
            return None
    return None


def function_at(crate, file, text, line):
    """The path of the function at a line."""
    lines = text.split("\n")
    for head in HEAD.finditer(text):
        at = first = text.count("\n", 0, head.start())
        while first and re.match(r"\s*(///|//|#\[)", lines[first - 1]):
            first -= 1
        end = last_line(lines, at, head[1])
        if end is None and first < line <= at + 1:
            raise NoFunction(f"{head[2]} has no body there")
        if end is not None and first < line <= end + 1:
            return path_of(crate, file, text, head)
    raise NoFunction(f"no function at line {line}")


def place_of(word):
    """The crate, the file below it, and the line, of FILE:LINE."""
    found = re.fullmatch(r"(.+?):(\d+)(?::\d+)?:?", word)
    if not found:
        raise NoFunction("a place is FILE:LINE")
    for path in (Path(found[1]).resolve(), TOP / found[1]):
        if path.is_file():
            parts = path.relative_to(TOP).parts if path.is_relative_to(TOP) else ()
            if len(parts) < 4 or parts[0] != "crates" or parts[2] != "src" or path.suffix != ".rt":
                raise NoFunction(f"{path} is no source of a crate of this repository")
            return parts[1], "/".join(parts[2:]), int(found[2])
    raise NoFunction(f"there is no file {found[1]}")


def main():
    if len(sys.argv) < 2 or sys.argv[1].startswith("-"):
        sys.exit(__doc__)
    try:
        crate, file, line = place_of(sys.argv[1])
        path = function_at(crate, file, (TOP / "crates" / crate / file).read_text(encoding="utf-8"), line)
    except NoFunction as why:
        print(f"prove: {sys.argv[1]}: {why}", file=sys.stderr)
        sys.exit(2)
    print(f"cd crates/{crate} && rt check --only {path}", flush=True)
    os.chdir(TOP / "crates" / crate)
    os.execvp("rt", ["rt", "check", "--only", path, *sys.argv[2:]])


if __name__ == "__main__":
    main()
