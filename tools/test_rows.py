#!/usr/bin/env python3
"""Replays rows of a data file, or tries whether the built drivers see that expected values are altered.

    tools/test_rows.py FILE [LINE..]        runs the file's driver over it by `rt try`, without proofs: all rows, or those
                                            of these lines, each with its `call` and `given`, or its paragraph
    tools/test_rows.py --altered [CRATE..]  runs the programs crates/test_driver_NAME/out/ that `rt ci` has built over
                                            copies of their files, in which each expected value is altered

FILE is a file of crates/test_driver_NAME/data, with as much of its path as it needs. crates/test_rows/src/files.rt says
what a file has. In an altered file as many rows, or paragraphs, have to differ as were altered. One that has neither
` => ` nor a line `> ` gets another last digit.
"""
import re
import subprocess
import sys
import tempfile
from concurrent.futures import ThreadPoolExecutor
from pathlib import Path

TOP = Path(__file__).resolve().parents[1]
COUNTS = re.compile(r"^(\S+): (\d+) rows, (\d+) differ$", re.M)
HOW = {"stdin": subprocess.DEVNULL, "capture_output": True, "text": True, "errors": "replace"}


def parts(text):
    """The head of a file of paragraphs and its paragraphs, or None and the lines of another file."""
    head, *paragraphs = text.split("\n\n")
    if any(line.startswith("paragraphs ") for line in head.splitlines()):
        return head, paragraphs
    return None, text.splitlines()


def is_row(line):
    return line and not line.startswith(("#", "call ", "given "))


def selected(text, wanted):
    """The file with only the rows of these lines, or the paragraphs that contain them."""
    head, units = parts(text)
    if head is not None:
        kept, at = [head], head.count("\n") + 2
        for unit in units:
            end = at + unit.count("\n") + 1
            if any(at < line <= end for line in wanted):
                kept.append(unit)
            at = end + 1
        return "\n\n".join(kept)
    kept, now = [], {}
    for at, line in enumerate(units, 1):
        word = line.split(" ")[0]
        if word == "call":
            now = {word: line}
        elif word == "given":
            now[word] = line
        elif is_row(line) and at in wanted:
            kept += [*now.values(), line]
    return "".join(line + "\n" for line in kept)


def changed(unit):
    """A row or a paragraph in which each expected value is another one."""
    return re.sub(r"(?m)^(.* => .*|> .*)$", r"\1?", unit)


def altered(text):
    """The file with other expected values, and the number of rows or paragraphs that have one."""
    head, units = parts(text)
    others = [unit if head is None and not is_row(unit) else changed(unit) for unit in units]
    count = sum(one != other for one, other in zip(units, others))
    if count == 0:
        last = text.rstrip()
        return last[:-1] + ("0" if last[-1] != "0" else "1") + "\n", 1
    return "\n\n".join([head, *others]) if head is not None else "".join(line + "\n" for line in others), count


def faults(program, data):
    """What is wrong with a driver's answers to its altered files."""
    files = sorted(data.glob("*.txt"))
    wrong = [
        f"{program.name}: {it.name} is not replayed"
        for it in files
        if f"{it.name}: " not in (data.parent / "stdout").read_text(encoding="utf-8")
    ]
    heads = {it.name: parts(it.read_text(encoding="utf-8"))[0] for it in files}
    wrong += [
        f"{program.name}: {name}: its first paragraph is part of the head, and is not replayed"
        for name, head in heads.items()
        if head and not head.splitlines()[-1].startswith("paragraphs ")
    ]
    with tempfile.TemporaryDirectory() as room:
        wanted = {}
        for file in files:
            other, wanted[file.name] = altered(file.read_text(encoding="utf-8"))
            (Path(room) / file.name).write_text(other, encoding="utf-8")
        ran = subprocess.run([program, *wanted], cwd=room, **HOW)
    found = {name: int(differ) for name, _, differ in COUNTS.findall(ran.stdout)}
    wrong += [
        f"{program.name}: {name}: {count} altered, and {found.get(name, 'no')} differ"
        for name, count in wanted.items()
        if found.get(name) != count
    ]
    return wrong + [f"{program.name}: it ended with status {ran.returncode}"] * (ran.returncode != 1)


def drivers(names):
    """The built driver programs, each with its folder of data."""
    crates = [TOP / "crates" / name for name in names] or sorted(TOP.glob("crates/test_driver_*"))
    return [(crate / "out" / crate.name, crate / "data") for crate in crates]


def replay(name, *lines):
    """Runs a driver over the file, or over the rows of these lines, by `rt try`."""
    files = [*TOP.glob("crates/test_driver_*/data/*.txt")]
    found = [it for it in files if it == Path(name).resolve()] or [it for it in files if str(it).endswith(f"/{name}")]
    if len(found) != 1:
        sys.exit(f"test_rows: {len(found)} drivers have a file {name}")
    text = found[0].read_text(encoding="utf-8")
    with tempfile.NamedTemporaryFile("w", encoding="utf-8", suffix=".txt") as copy:
        copy.write(selected(text, {int(line) for line in lines}) if lines else text)
        copy.flush()
        words = ["rt", "try", "--data", f"{found[0].name}={copy.name}", "--", found[0].name]
        return subprocess.run(words, cwd=found[0].parents[1]).returncode


def main(words):
    if not words or words[0] in ("-h", "--help"):
        sys.exit(__doc__)
    if words[0] != "--altered":
        sys.exit(replay(*words))
    found = drivers(words[1:])
    with ThreadPoolExecutor() as pool:
        wrong = [line for lines in pool.map(lambda it: faults(*it), found) for line in lines]
    print(*wrong, sep="\n", end="\n" if wrong else "")
    print(f"test_rows: {len(found)} drivers with altered rows, {len(wrong)} faults")
    sys.exit(1 if wrong or not found else 0)


if __name__ == "__main__":
    main(sys.argv[1:])
