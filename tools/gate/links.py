#!/usr/bin/env python3
"""Checks the links of all Markdown pages: that the file is there, and in it the heading or the line. It uses no network.

    tools/gate/links.py

A link is `[text](target)` or `[name]: target`, outside code. A target with a scheme (`https:`) is not followed. A path starts
at the folder of its page, does not leave the repository, and names a file that git would keep. An anchor is a heading of
that page as GitHub writes it, an `id` in HTML, or `L12` of a source with at least 12 lines.

The repository is the one that contains the current folder. The exit status is 1 if a link has no target.
"""
import re
import sys
from pathlib import Path
from urllib.parse import unquote

sys.dont_write_bytecode = True

from prose import INLINE_CODE, SKIPPED_FOLDERS, blank, top_of, without_fences

# (an image is a link too; a title may follow the target)
INLINE = re.compile(r"\]\(\s*(<[^>\n]*>|[^()\s]*(?:\([^()\s]*\)[^()\s]*)*)(?:\s+(?:\"[^\"]*\"|'[^']*'))?\s*\)")
NAMED = re.compile(r"^ {0,3}\[[^\]\n]+\]:\s*(<[^>\n]*>|\S+)", re.M)
SCHEME = re.compile(r"[a-z][a-z0-9+.-]*:(?!:)|//", re.I)
HEADING = re.compile(r"^ {0,3}#{1,6}[ \t]+(.*?)(?:[ \t]+#+)?[ \t]*$", re.M)
HTML_ID = re.compile(r"<\w+[^>]*?\s(?:id|name)=\"([^\"]+)\"")
LINES = re.compile(r"L(\d+)(?:-L(\d+))?")


def pages_of(top):
    """All Markdown pages, those of .github among them."""
    found = (path.relative_to(top) for path in [*top.glob("**/*.md"), *top.glob(".github/**/*.md")])
    return sorted(
        {
            path
            for path in found
            if not SKIPPED_FOLDERS.intersection(path.parts)
            and not any(part[0] == "." and part != ".github" for part in path.parts)
        }
    )


def slug(heading):
    """The anchor that GitHub gives to a heading."""
    text = re.sub(r"!?\[([^\]]*)\]\([^)]*\)", r"\1", heading).replace("`", "")
    return re.sub(r"[^\w\- ]", "", text.strip().lower()).replace(" ", "-")


def anchors_of(text):
    """The anchors of a page. The second heading of one text ends with -1, the third with -2."""
    text, anchors, counts = "\n".join(without_fences(text.split("\n"))), set(), {}
    for heading in HEADING.findall(text):
        name = slug(heading)
        count = counts[name] = counts.get(name, -1) + 1
        anchors.add(f"{name}-{count}" if count else name)
    return anchors.union(HTML_ID.findall(text))


def links_of(text):
    """The links of a page, each as its line and its target."""
    text = INLINE_CODE.sub(blank, "\n".join(without_fences(text.split("\n"))))
    for pattern in (INLINE, NAMED):
        for found in pattern.finditer(text):
            yield text.count("\n", 0, found.start(1)) + 1, found[1].strip("<>")


class Tree:
    """The files of the repository, and the anchors of those that were asked for."""

    def __init__(self, top):
        self.top, self.known = top, {}

    def has_anchor(self, path, anchor):
        if path not in self.known:
            text = path.read_text(encoding="utf-8")
            self.known[path] = (anchors_of(text) if path.suffix == ".md" else set(), text.count("\n"))
        anchors, lines = self.known[path]
        if numbers := path.suffix != ".md" and LINES.fullmatch(anchor):
            first, last = int(numbers[1]), int(numbers[2] or numbers[1])
            return 1 <= first <= last <= lines
        return anchor in anchors

    def fault(self, page, target):
        """What is wrong with a link of a page, or None."""
        if not target:
            return "a link without a target"
        if SCHEME.match(target):
            return None
        name, _, anchor = target.partition("#")
        path = (self.top / page).parent / unquote(name) if name else self.top / page
        path = path.resolve()
        if self.top not in (path, *path.parents):
            return f"{target} is outside the repository"
        inner = path.relative_to(self.top).parts
        if not path.exists() or SKIPPED_FOLDERS.intersection(inner):
            return f"there is no file {name}"
        if anchor and (path.is_dir() or not self.has_anchor(path, unquote(anchor))):
            return f"{name or page} has no {anchor}"
        return None


def check(top):
    """The faults of all pages, a sentence each, and how many links they have."""
    tree, faults, count = Tree(top), [], 0
    for page in pages_of(top):
        for line, target in links_of((top / page).read_text(encoding="utf-8")):
            count += 1
            if fault := tree.fault(page, target):
                faults.append(f"{page}:{line}: {fault}")
    return faults, count


def main():
    if sys.argv[1:]:
        sys.exit(__doc__)
    faults, count = check(top_of(Path.cwd().resolve()))
    for fault in faults:
        print(f"links: {fault}")
    print(f"links: {count} links, {len(faults)} without a target")
    sys.exit(bool(faults))


if __name__ == "__main__":
    main()
