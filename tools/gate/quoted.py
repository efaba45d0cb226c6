#!/usr/bin/env python3
"""Checks that README.md, the pages of docs/, and the README.md of crates, bindings and plugins quote the sources.

    tools/gate/quoted.py

A block names its file in its first line: `// crates/example_quick_start/src/client.rt`,
`# bindings/python/examples/login.py` or `# crates.txt`. What follows is in that file, line after line, whatever the
indentation. A line of the comment's mark and two dots leaves lines out. Every block of Rust, antt, Python and C names
its file. The blocks of a guide have at most 25 lines. Those of the guides for C, Python and Rust are, in their order, their
whole file but for its first comment: so what a test runs is what the page prints.

Faults go to standard error, and the exit status is 1 if there are any.
"""
import re
import sys
from pathlib import Path

TOP = Path(__file__).resolve().parents[2]
NAMED = re.compile(r"(//|--|#) ((crates|bindings|plugins)/\S+|crates\.txt)")
GUIDES, MOST_LINES = "docs/GUIDE", 25
WHOLE = {
    "docs/GUIDE-c.md": "bindings/c/guide.c",
    "docs/GUIDE-python.md": "bindings/python/examples/guide.py",
    "docs/GUIDE-rust.md": "bindings/rust/examples/guide/tasks.rs",
}
FIRST_COMMENT = re.compile(r'/\*((?!\*/).)*\*/|"""((?!""").)*"""|//![^\n]*(\n//![^\n]*)*', re.DOTALL)


class Block:
    """A block of a page: the line that opens it, its kind, its lines as pairs of number and text, and if it ends."""

    def __init__(self, opened, kind):
        self.opened, self.kind, self.lines, self.ends = opened, kind, [], False


def blocks_of(text):
    block = None
    for number, line in enumerate(text.splitlines(), 1):
        if line.startswith("```"):
            if block:
                block.ends = True
                yield block
                block = None
            else:
                block = Block(number, line.split()[0][3:])
        elif block:
            block.lines.append((number, line))
    if block:
        yield block


def without_empty_ends(lines):
    lines = list(lines)
    while lines and not lines[0][1]:
        lines.pop(0)
    while lines and not lines[-1][1]:
        lines.pop()
    return lines


def find(quote, source, start):
    """The place after the quoted lines in the source, from a place on, and None; or None, and the line that differs."""
    best = 0
    for at in range(start, len(source)):
        agreeing = 0
        while agreeing < len(quote) and at + agreeing < len(source) and quote[agreeing][1] == source[at + agreeing]:
            agreeing += 1
        if agreeing == len(quote):
            return at + agreeing, None
        best = max(best, agreeing)
    return (start, None) if not quote else (None, quote[best])


def faults_of(block, top):
    """What is wrong with a block, as pairs of line and text, and whether it names a file."""
    if not block.ends:
        return [(block.opened, "a block without an end")], False
    if not block.lines or not (named := NAMED.fullmatch(block.lines[0][1])):
        if block.kind in ("rust", "antt", "python", "c"):
            return [(block.opened, f"a block of {block.kind} that names no file")], False
        return [], False
    mark, name = named.group(1, 2)
    if not (top / name).is_file():
        return [(block.opened + 1, f"there is no file {name}")], True
    source = [line.strip() for line in (top / name).read_text(encoding="utf-8").splitlines()]
    parts = [[]]
    for number, line in block.lines[1:]:
        if line.strip() == f"{mark} ..":
            parts.append([])
        else:
            parts[-1].append((number, line.strip()))
    at = 0
    for part in parts:
        at, differs = find(without_empty_ends(part), source, at)
        if differs:
            return [(differs[0], f"is not in {name}: {differs[1]}")], True
    return [], True


def guide_faults(name, blocks, top):
    """What is wrong with the blocks of a guide, as pairs of line and text."""
    faults, printed = [], []
    for block in blocks:
        if len(block.lines) > MOST_LINES + 1:
            faults.append((block.opened, f"a block of more than {MOST_LINES} lines"))
        printed += [line.strip() for _, line in block.lines[1:] if line.strip()]
    if name in WHOLE:
        source = (top / WHOLE[name]).read_text(encoding="utf-8")
        code = source[FIRST_COMMENT.match(source).end() :] if FIRST_COMMENT.match(source) else source
        if printed != [line.strip() for line in code.splitlines() if line.strip()]:
            faults.append((1, f"the blocks, in their order, are not the whole file {WHOLE[name]}"))
    return faults


def check(pages, top):
    """The faults of all pages, as texts, and how many blocks name a file."""
    faults, count = [], 0
    for page in pages:
        name, blocks = page.relative_to(top).as_posix(), list(blocks_of(page.read_text(encoding="utf-8")))
        for block in blocks:
            found, is_named = faults_of(block, top)
            count += is_named
            faults += [f"{name}:{line}: {what}" for line, what in found]
        if name.startswith(GUIDES):
            faults += [f"{name}:{line}: {what}" for line, what in guide_faults(name, blocks, top)]
    if not faults and not count:
        faults.append("README.md:1: no page quotes anything")
    return faults, count


def main():
    pages = [
        TOP / "README.md",
        *sorted(TOP.glob("crates/*/README.md")),
        *sorted(TOP.glob("docs/*.md")),
        TOP / "bindings/README.md",
        TOP / "bindings/rust/README.md",
        TOP / "plugins/cyrus/README.md",
    ]
    faults, count = check(pages, TOP)
    for fault in faults:
        print(f"quoted: {fault}", file=sys.stderr)
    if faults:
        sys.exit(1)
    print(f"quoted: {count} blocks are in their files")


if __name__ == "__main__":
    main()
