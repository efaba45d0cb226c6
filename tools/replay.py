#!/usr/bin/env python3
"""Runs the built program on each audit of the outside vectors, and compares what it prints.

    tools/replay.py [PROGRAM]   the program defaults to crates/sasl_lab/out/sasl_lab, which `rt run` in
                                crates/sasl_lab builds

Each audit of crates/test_driver_frames/data/audits.txt is one run: its words, its input, its output, status 0.
"""
import subprocess
import sys
from pathlib import Path

ROOT = Path(__file__).resolve().parent.parent
VECTORS = ROOT / "crates/test_driver_frames/data/audits.txt"
PROGRAM = ROOT / "crates/sasl_lab/out/sasl_lab"


def text(digits):
    """The text of hexadecimal digits, where `-` is the empty one."""
    return "" if digits == "-" else bytes.fromhex(digits).decode()


def marked(lines, mark):
    """What follows this mark, a line each."""
    return "".join(line[len(mark) :] + "\n" for line in lines if line.startswith(mark))


def differs(program, paragraph):
    """Runs the audit of a paragraph, and says what differs, if anything."""
    lines = [line for line in paragraph.splitlines() if not line.startswith("#")]
    word, version, user, password, _, _, salt = lines[0].split(" ")
    words = [program, word, version, text(user), text(password), salt]
    run = subprocess.run(words, input=marked(lines, "< ").encode(), capture_output=True)
    if run.returncode != 0:
        return f"status {run.returncode}: {run.stdout.decode()}"
    if run.stdout.decode() != marked(lines, "> "):
        return f"prints:\n{run.stdout.decode()}in place of:\n{marked(lines, '> ')}"
    return None


def main():
    program = sys.argv[1] if len(sys.argv) > 1 else str(PROGRAM)
    paragraphs = VECTORS.read_text().split("\n\n")[1:]
    wrong = 0
    for number, paragraph in enumerate(paragraphs, 1):
        found = differs(program, paragraph)
        if found is not None:
            wrong += 1
            print(f"audit {number}: {found}")
    print(f"{len(paragraphs)} audits, {wrong} wrong")
    sys.exit(1 if wrong or not paragraphs else 0)


main()
