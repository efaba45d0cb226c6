#!/usr/bin/env python3
"""Compares the sizes of the Markdown pages with the budgets of pages.txt.

    tools/gate/pages.py                 prints each page that is above its budget
    tools/gate/pages.py --table         prints the sizes and budgets of all pages
    tools/gate/pages.py --paragraphs    lists the paragraphs with more than 80 words, which are no faults

Words are separated by white space. A page at the top or in docs/ needs a budget. READMEs below the top share one. Three
budgets are of sums: `pages` is of the pages with a budget, `by-hand` of all pages but those that a tool writes, and
`repository` of all. No line of any page has more than 400 characters.

The repository is the one that contains the current folder. The exit status is 1 if anything is above its budget.
"""
import re
import sys
from pathlib import Path

sys.dont_write_bytecode = True

from links import pages_of
from prose import page_blocks, top_of

BUDGETS = Path(__file__).resolve().parent / "pages.txt"
WIDEST, LONGEST = 400, 80
# The pages that a tool writes, and the rows of sums.
WRITTEN = ("docs/WRONG_BODIES.md",)
SUMS = ("pages", "READMEs", "by-hand", "repository")


def budgets():
    """The budgets by page: lines and words, each None if there is none."""
    rows = [line.split() for line in BUDGETS.read_text().splitlines() if line and not line.startswith("#")]
    return {page: tuple(None if one == "-" else int(one) for one in (lines, words)) for page, lines, words in rows}


def size(text):
    return text.count("\n"), len(text.split())


def sums(sizes):
    return tuple(map(sum, zip(*sizes))) if sizes else (0, 0)


def faults_of(texts, budget):
    """What is above its budget, a sentence each; and the rows of the table: name, size, budget."""
    faults, rows = [], []
    main_pages = [page for page in texts if "/" not in page or page.startswith("docs/")]
    readmes = [page for page in texts if page not in main_pages and page.endswith("/README.md")]
    limited = [page for page in budget if budget[page] != (None, None) and page not in SUMS]
    for page in main_pages:
        if page not in budget:
            faults.append(f"{page}: a page without a budget")
    for page in limited:
        if page not in texts:
            faults.append(f"{page}: there is no such page")
    rows += [(page, size(texts[page]), budget.get(page, (None, None))) for page in main_pages]
    rows += [(page, size(text), (None, None)) for page, text in texts.items() if page not in main_pages]
    summed = {
        "pages": [page for page in main_pages if budget.get(page) != (None, None)],
        "READMEs": readmes,
        "by-hand": [page for page in texts if page not in WRITTEN],
        "repository": list(texts),
    }
    rows += [(name, sums([size(texts[page]) for page in summed[name]]), budget[name]) for name in SUMS]
    for name, found, limits in rows:
        for unit, count, limit in zip(("lines", "words"), found, limits):
            if limit is not None and count > limit:
                faults.append(f"{name}: {count} {unit}, and the budget is {limit}")
    for page, text in texts.items():
        for number, line in enumerate(text.split("\n"), 1):
            if len(line) > WIDEST:
                faults.append(f"{page}:{number}: {len(line)} characters, and the widest line may have {WIDEST}")
    return faults, rows


def table(rows):
    def of(count, limit):
        return f"{count:,} of {limit:,}" if limit is not None else f"{count:,}"

    for name, (lines, words), (most_lines, most_words) in rows:
        print(f"{name:44} {of(lines, most_lines):>16} lines {of(words, most_words):>18} words")


def long_paragraphs(text):
    """The paragraphs and items of lists with more than 80 words: line and words."""
    for block in page_blocks(text):
        start = 0
        lines = block.text.split("\n")
        for at in range(1, len(lines) + 1):
            if at == len(lines) or re.match(r"\s*(?:[-*]|\d+\.|\|) ?", lines[at]):
                count = len(" ".join(lines[start:at]).split())
                if count > LONGEST and not lines[start].startswith("|"):
                    yield block.line + start, count
                start = at


def main():
    if sys.argv[1:] not in ([], ["--table"], ["--paragraphs"]):
        sys.exit(__doc__)
    top = top_of(Path.cwd().resolve())
    texts = {str(path): (top / path).read_text(encoding="utf-8") for path in pages_of(top)}
    if sys.argv[1:] == ["--paragraphs"]:
        for page, text in texts.items():
            for line, count in long_paragraphs(text):
                print(f"{page}:{line}: {count} words")
        return
    faults, rows = faults_of(texts, budgets())
    if sys.argv[1:]:
        table(rows)
    for fault in faults:
        print(f"pages: {fault}")
    words = {name: f"{found[1]:,}" for name, found, _ in rows}
    print(f"pages: {words['repository']} words, {words['by-hand']} of them by hand, {len(faults)} faults")
    sys.exit(bool(faults))


if __name__ == "__main__":
    main()
