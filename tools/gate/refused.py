#!/usr/bin/env python3
"""Checks that the borrow checker rejects stale uses of a view.

    tools/gate/refused.py

The functions of crates/test_callers/src/views_and_bodies.rt are proved there. Each edit of crates/test_callers/refused/ adds
a stale use of a view to one of them. All edits are made in one copy, and one check, which ends before any proof, has to
report each edit's borrow error at its line, and no other error. The copy is a module of a copy of the library that it
calls, so that no library has to be built first. Such programs cannot be wrong bodies, which have to reach the prover.

It prints a line for each edit. The exit status is 1 if an edit is accepted, or anything else is wrong.
"""
import re
import shutil
import signal
import subprocess
import sys
import tempfile
from pathlib import Path

TOP = Path(__file__).resolve().parents[2]
LIBRARY = "fe2o3_sasl_wire"
TESTS = TOP / "crates/test_callers"
FILE = "src/views_and_bodies.rt"
FOUND = re.compile(r"^(src[^:]*:[0-9]*):[0-9]*: (error[^:]*): ", re.M)


class Wrong(Exception):
    """Why the edits cannot be tried, or are not rejected as they have to be."""


def words_of(edit):
    """The text after each word of an edit."""
    lines = (line.split(": ", 1) for line in edit.read_text(encoding="utf-8").splitlines())
    return {line[0]: line[1] for line in lines if len(line) == 2 and line[0] in ("file", "error", "old", "new")}


def copy_of_library(room):
    """A copy of the library in the folder, with the functions as a module."""
    copy = room / "crates" / LIBRARY
    copy.mkdir(parents=True)
    shutil.copy(TOP / "HANDLES", room)
    lines = (TOP / "crates.txt").read_text(encoding="utf-8").splitlines(keepends=True)
    (room / "crates.txt").write_text("".join(line for line in lines if re.match(rf"{LIBRARY}[: ]", line)))
    for folder in ("src", "specs", "proofs"):
        shutil.copytree(TOP / "crates" / LIBRARY / folder, copy / folder)
    with open(copy / "src/lib.rt", "a", encoding="utf-8") as page:
        page.write(f"mod {Path(FILE).stem};\n")
    text = (TESTS / FILE).read_text(encoding="utf-8")
    (copy / FILE).write_text(text.replace(f"{LIBRARY}::", "crate::"), encoding="utf-8")
    return copy


def plant(copy, edits):
    """Makes each edit in the copy, and returns the wanted errors: name, place and error of each."""
    wanted = []
    for edit in edits:
        words, lines = words_of(edit), (copy / FILE).read_text(encoding="utf-8").split("\n")
        if words.get("file") != FILE:
            raise Wrong(f"{edit.stem}: is an edit of another file than {FILE}")
        if lines.count(words["old"]) != 1:
            raise Wrong(f"{edit.stem}: its line does not stand once in {FILE}")
        at = lines.index(words["old"])
        lines[at] = words["new"]
        (copy / FILE).write_text("\n".join(lines), encoding="utf-8")
        wanted.append((edit.stem, f"{FILE}:{at + 1}", f"error[{words['error']}]"))
    return wanted


def compare(wanted, status, log):
    """Raises unless a check with this status and log rejects all that is wanted, and nothing else."""
    if status == 0:
        raise Wrong("all are accepted")
    found = set(FOUND.findall(log))
    for name, place, error in wanted:
        if (place, error) not in found:
            raise Wrong(f"{name}: wanted {error} at {place}")
    if sum("error" in line for line in log.splitlines()) != len(wanted):
        raise Wrong("there are other errors")


def main():
    signal.signal(signal.SIGTERM, lambda *_: sys.exit(1))
    signal.signal(signal.SIGHUP, lambda *_: sys.exit(1))
    log = ""
    try:
        with tempfile.TemporaryDirectory() as room:
            copy = copy_of_library(Path(room))
            wanted = plant(copy, sorted((TESTS / "refused").glob("*.edit")))
            check = subprocess.run(
                ["rt", "check", "--only", "", "--jobs", "1"],
                cwd=copy,
                stdin=subprocess.DEVNULL,
                stdout=subprocess.PIPE,
                stderr=subprocess.STDOUT,
                encoding="utf-8",
                errors="replace",
            )
            log = check.stdout
            compare(wanted, check.returncode, log)
    except Wrong as why:
        print(f"refused: {why}", *log.splitlines()[-40:], sep="\n", file=sys.stderr)
        sys.exit(1)
    for name, _, error in wanted:
        print(f"refused: {name}, with {error}")


if __name__ == "__main__":
    main()
