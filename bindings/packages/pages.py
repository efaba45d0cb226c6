#!/usr/bin/env python3
"""Writes the pages and examples of a package, and finds dead links.

    pages.py write FOLDER                   copies them into FOLDER
    pages.py pages FOLDER [PAGE=PLACE ..]   copies the pages only, and other pages of the repository to their places
    pages.py results FOLDER                 copies the last results of `make interop` and of the bench's tables, if any
    pages.py check FOLDER..                 tests the links of all Markdown pages below each of these folders

The signatures of the libraries, which `tools/generate/signatures.py` writes, are pages too, in the folder `signatures`,
and so are those results, in the folder `results`.
A link to a file that the package has leads to its place there. Of any other link into the repository the text is left.
"""
import os
import re
import sys
from pathlib import Path

TOP = Path(__file__).resolve().parents[2]
PAGES = {
    "bindings/README.md": "README.md",
    **{f"docs/{name}.md": f"{name}.md" for name in ("GUIDE", "GUIDE-c", "GUIDE-python", "GUIDE-rust", "SECURITY")},
    "docs/COMPATIBILITY.md": "COMPATIBILITY.md",
    "CHANGELOG.md": "CHANGELOG.md",
}
EXAMPLES = {
    **{f"bindings/c/{name}.c": f"examples/{name}.c" for name in ("client", "server", "scram", "bodies", "fits")},
    **{
        f"bindings/python/examples/{name}.py": f"examples/{name}.py"
        for name in ("login", "client", "broker", "channel", "guide", "shared_users")
    },
}
RESULTS = {"interop": TOP / "build/interop/results", "bench": TOP / "bench/build/results"}
LINK = re.compile(r"(?<!!)\[((?:[^\[\]`]|`[^`]*`)*)\]\(([^()\s]+)\)")


def code_left_out(text):
    """The text with blanks in the place of fenced code, and of code in backticks that is not the text of a link."""
    text = re.sub(r"^```.*?^```$", lambda found: re.sub(r"[^\n]", " ", found[0]), text, flags=re.M | re.S)
    return re.sub(r"`[^`\n]*`", lambda found: "`" + " " * (len(found[0]) - 2) + "`", text)


def links_of(text):
    """The links outside code: start, end, words and target."""
    for found in LINK.finditer(code_left_out(text)):
        yield found.start(), found.end(), text[found.start(1) : found.end(1)], found[2]


def moved(page, folder, places):
    """The text of a page at its place in the folder."""
    text, parts, at = (TOP / page).read_text(encoding="utf-8"), [], 0
    for start, end, words, target in links_of(text):
        path, mark, anchor = target.partition("#")
        file = os.path.normpath(os.path.join(os.path.dirname(page), path))
        if not path or ":" in path:
            continue
        link = words
        if file in places:
            link = f"[{words}]({os.path.relpath(folder / places[file], (folder / places[page]).parent)}{mark}{anchor})"
        parts += [text[at:start], link]
        at = end
    return "".join([*parts, text[at:]])


def write(folder, places):
    for page, place in places.items():
        out = folder / place
        out.parent.mkdir(parents=True, exist_ok=True)
        if page.endswith(".md"):
            out.write_text(moved(page, folder, places), encoding="utf-8")
        else:
            out.write_bytes((TOP / page).read_bytes())
        out.chmod(0o644)


def write_signatures(folder):
    sys.path.insert(0, str(TOP / "tools" / "generate"))
    sys.dont_write_bytecode = True
    import signatures

    signatures.write(folder)
    for page in folder.iterdir():
        page.chmod(0o644)


def write_results(folder, results):
    """Copies the last file of results from each of these folders, which are named after the time."""
    for name, runs in results.items():
        last = max(runs.glob("*.md"), default=None)
        if last is not None:
            folder.mkdir(parents=True, exist_ok=True)
            (folder / f"{name}.md").write_bytes(last.read_bytes())
            (folder / f"{name}.md").chmod(0o644)


def check(folder):
    """Prints the links of a folder's pages that have no target, as `tools/gate/links.py` finds them."""
    sys.path.insert(0, str(TOP / "tools" / "gate"))
    sys.dont_write_bytecode = True
    import links

    faults, count = links.check(folder.resolve())
    print(
        "".join(f"{folder}: {fault}\n" for fault in faults) + f"{folder}: {count} links, {len(faults)} without a target"
    )
    return bool(faults) or not count


def main():
    if len(sys.argv) < 3 or sys.argv[1] not in ("write", "pages", "results", "check"):
        sys.exit(__doc__)
    how, folder, *more = sys.argv[1:]
    if how == "check":
        sys.exit(any([check(Path(folder)) for folder in (folder, *more)]))
    if how == "results":
        return write_results(Path(folder), RESULTS)
    more = dict(words.split("=", 1) for words in more)
    write(Path(folder), {**PAGES, **more, **(EXAMPLES if how == "write" else {})})
    write_signatures(Path(folder) / "signatures")
    write_results(Path(folder) / "results", RESULTS)


if __name__ == "__main__":
    main()
