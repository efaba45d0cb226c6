#!/usr/bin/env python3
"""Finds words that the project's prose does not use, and doc comments that cannot be read without the item above.

    tools/gate/prose.py [PATH..]                files, or folders with all files below; without one, the whole repository
    tools/gate/prose.py --count [PATH..]        how often each word occurs that a reader has to judge, of `words.txt`
    tools/gate/prose.py --where WORD [PATH..]   the lines where one word or phrase of `words.txt`, or any other, occurs

Prose is the text of Markdown pages, and of comments in sources, specs, the C header, the bindings for Rust and Python,
and tools/. Code in backticks and fenced code are not part of it, nor are the change log and the generated pages.

The repository is the one that contains the current folder. The last line counts the places. The exit status is 1 if
there are any.
"""
import ast
import io
import re
import sys
import tokenize
from collections import Counter
from pathlib import Path

WORDS = Path(__file__).resolve().parent / "words.txt"
SKIPPED_FOLDERS = {"out", "build", "target"}
SKIPPED_PAGES = {"CHANGELOG.md", "WRONG_BODIES.md"}
SOURCES = (
    "crates/*/src/**/*.rt",
    "crates/*/specs/**/*.antt",
    "bindings/c/fe2o3_sasl.h",
    "bindings/rust/src/**/*.rs",
    "bindings/rust/tests/**/*.rs",
    "bindings/python/*.py",
    "bindings/python/fe2o3_sasl/*.py",
    "tools/**/*.py",
)

INLINE_CODE = re.compile(r"(?<!`)(`+)(?!`)(?:(?!\n\s*\n).)+?(?<!`)\1(?!`)", re.S)
LINK_TARGET = re.compile(r"\]\([^)\s]*\)|<https?:[^>]*>|https?:\S+")
LITERAL = r"""b?r(#*)".*?"\1|b?"(?:\\.|[^"\\])*"|b?'(?:\\.[^']*|[^'\\])'"""
C_TOKEN = re.compile(LITERAL + r"|(?P<line>//[^\n]*)|(?P<block>/\*.*?\*/)", re.S)
SPEC_TOKEN = re.compile(r'"(?:\\.|[^"\\])*"|(?P<line>(?<!\S)--(?!\S)[^\n]*)', re.S)
BLIND_START = re.compile(r"(The same|As|So|Such|Likewise|It)\b")


class Block:
    """Lines of prose that belong together: `text`, whose first line is line `line` of the file."""

    def __init__(self, line, text, doc=False):
        self.line, self.doc = line, doc
        self.text = LINK_TARGET.sub(blank, INLINE_CODE.sub(blank, text))


def blank(found):
    return re.sub(r"[^\n]", "`", found[0])


def without_fences(lines):
    """The lines, those of fenced code as empty ones."""
    fence = None
    for line in lines:
        mark = re.match(r"\s*(?:[-*] )?(```+|~~~+)", line)
        if fence is None and mark:
            fence = mark[1]
            yield ""
        elif fence is not None:
            if mark and line.strip().startswith(fence) and not line.strip().strip(fence[0]):
                fence = None
            yield ""
        else:
            yield line


def page_blocks(text):
    start, kept = 1, []
    for number, line in enumerate([*without_fences(text.split("\n")), ""], 1):
        if line.strip():
            start, kept = (start, kept) if kept else (number, [])
            kept.append(line)
        elif kept:
            yield Block(start, "\n".join(kept))
            kept = []


def comment_blocks(text, token, marks, doc_marks):
    """The blocks of line comments, whose marks and white space are left out, and the block comments."""
    before = None  # the block that the next line may continue: line, column, mark, texts
    for found in token.finditer(text):
        groups = found.groupdict()
        if not groups.get("line") and not groups.get("block"):
            continue
        line = text.count("\n", 0, found.start()) + 1
        column = found.start() - (text.rfind("\n", 0, found.start()) + 1)
        if groups.get("block"):
            inner = re.sub(r"\n[ \t]*\*? ?", "\n", found[0][2:-2])
            yield Block(line, inner, doc=True)
            continue
        mark = next(mark for mark in marks if found[0].startswith(mark))
        own = not text[found.start() - column : found.start()].strip()
        if before and own and before[:3] == (line - len(before[3]), column, mark):
            before[3].append(found[0][len(mark) :])
            continue
        if before:
            yield Block(before[0], "\n".join(without_fences(before[3])), before[2] in doc_marks and before[4])
        before = (line, column, mark, [found[0][len(mark) :]], own)
    if before:
        yield Block(before[0], "\n".join(without_fences(before[3])), before[2] in doc_marks and before[4])


def statements(tree):
    """A module and its statements, at any depth. (`ast.walk` also visits each expression.)"""
    left = [tree]
    while left:
        node = left.pop()
        yield node
        for field in ("body", "orelse", "finalbody", "handlers", "cases"):
            inner = getattr(node, field, None)
            left += inner if isinstance(inner, list) else []


def python_blocks(text):
    for node in statements(ast.parse(text)):
        if isinstance(node, (ast.Module, ast.ClassDef, ast.FunctionDef, ast.AsyncFunctionDef)) and ast.get_docstring(
            node
        ):
            first = node.body[0]
            yield Block(first.lineno, ast.get_docstring(node, clean=False), doc=True)
    last = None  # the block that the next line may continue: line, column, texts
    for found in tokenize.generate_tokens(io.StringIO(text).readline):
        if found.type != tokenize.COMMENT:
            continue
        (line, column), words = found.start, found.string.lstrip("#!")
        if last and not found.line[:column].strip() and last[:2] == (line - len(last[2]), column):
            last[2].append(words)
            continue
        if last:
            yield Block(last[0], "\n".join(last[2]))
        last = (line, column, [words])
    if last:
        yield Block(last[0], "\n".join(last[2]))


def blocks_of(path, text):
    if path.suffix == ".md":
        return page_blocks(text)
    if path.suffix == ".py":
        return python_blocks(text)
    if path.suffix == ".antt":
        return comment_blocks(text, SPEC_TOKEN, ("--",), ("--",))
    return comment_blocks(text, C_TOKEN, ("///", "//!", "//"), ("///", "//!"))


def top_of(folder):
    """The repository's top, above the folder or the folder itself."""
    for place in (folder, *folder.parents):
        if (place / "crates.txt").exists():
            return place
    sys.exit(f"{folder} is not in the repository")


def files_of(top, paths):
    """The files with prose, of the paths alone if there are any."""

    def skipped(path):
        inner = path.relative_to(top).parts
        hidden = any(part in SKIPPED_FOLDERS or part[0] == "." and part != ".github" for part in inner[:-1])
        return hidden or path.name in SKIPPED_PAGES

    found = {path for pattern in ("**/*.md", *SOURCES) for path in top.glob(pattern) if not skipped(path)}
    wanted = [Path(path).resolve() for path in paths]
    for path in wanted:
        if not path.exists():
            sys.exit(f"prose: no file {path}")
    if wanted:
        found = {path for path in found if any(path == one or one in path.parents for one in wanted)}
    return sorted(found)


def pattern_of(words):
    return re.compile(r"(?<![\w/-])(?:" + words.replace(" ", r"\s+") + r")(?!\w|\.(?:py|txt|md|rt)\b)", re.I)


def vocabulary():
    """The expressions that are faults, each with what to write instead; those that are counted; and one of all faults."""
    faults, counted, words_of_faults = [], [], []
    for line in WORDS.read_text().splitlines():
        if line.startswith("count: "):
            counted.append((line[7:], pattern_of(line[7:])))
        elif line and not line.startswith("#"):
            words, advice = line.split(" -> ")
            faults.append((pattern_of(words), advice))
            words_of_faults.append(words)
    return faults, counted, pattern_of("|".join(words_of_faults))


def faults_of(path, blocks, faults, any_of):
    """The faults of a file's blocks: line, the words, and what is wrong with them. (`any_of` is one of all, and quick.)"""
    if not any_of.search("\n\n".join(block.text for block in blocks)):
        faults = []
    for block in blocks:
        start = block.text.lstrip(' \n"')
        first = BLIND_START.match(start[:1].upper() + start[1:] if path.suffix == ".antt" else start)
        if block.doc and first:
            skipped = len(block.text) - len(start)
            line = block.line + block.text.count("\n", 0, skipped)
            yield line, start[: first.end()], "a doc comment begins with its own item"
        for pattern, advice in faults:
            for found in pattern.finditer(block.text):
                yield block.line + block.text.count("\n", 0, found.start()), " ".join(found[0].split()), advice


def main():
    arguments = sys.argv[1:]
    faults, counted, any_of = vocabulary()
    only_count = arguments[:1] == ["--count"]
    where = arguments[1] if arguments[:1] == ["--where"] and len(arguments) > 1 else None
    paths = arguments[2:] if where else arguments[1:] if only_count else arguments
    if any(path.startswith("-") for path in paths):
        sys.exit(__doc__)
    if where:
        known = [pattern for words, pattern in counted if pattern.fullmatch(where)]
        any_of = known[0] if known else pattern_of(where)
        faults = [(any_of, "")]
    top, counts, count, files = top_of(Path.cwd().resolve()), Counter(), 0, set()
    for path in files_of(top, paths):
        blocks = list(blocks_of(path, path.read_text()))
        if only_count:
            counts.update(
                {words: sum(len(pattern.findall(block.text)) for block in blocks) for words, pattern in counted}
            )
            continue
        if where:
            blocks = [block for block in blocks if setattr(block, "doc", False) is None]
        for line, words, advice in sorted(faults_of(path, blocks, faults, any_of)):
            count += 1
            files.add(path)
            print(f"{path.relative_to(top)}:{line}: {words}" + f"  (write: {advice})" * bool(advice))
    if only_count:
        for words, _ in counted:
            print(f"{counts[words]:6} {words}")
        return
    print(f"prose: {count} places in {len(files)} files")
    sys.exit(bool(count) and not where)


if __name__ == "__main__":
    main()
