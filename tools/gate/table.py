#!/usr/bin/env python3
"""Writes the tables of docs/GATE.md from the record of a run that proved all and passed.

    tools/gate/table.py [RECORD]        without one build/gate-anew.json, which `make test ANEW=1` writes

The run becomes the last row of the runs, of which the page keeps four. In the table of the crates the rows and the last
column are written by hand, and the seconds of a row are those of the crates that its first cell names. Crates that no row
names get one together.
"""
import json
import re
import sys
from pathlib import Path

sys.dont_write_bytecode = True
import costs

PAGE = Path(costs.TOP) / "docs/GATE.md"
# The columns of the table of the crates, with the kinds of work in each.
COLUMNS = {"Proof": ("proof",), "Tests, program": ("tests", "build", "run"), "Wrong": ("wrong",)}
RUNS = 4
REST = "the quick checks, the restarts, and what the sample missed"


def row(*cells):
    # (an empty cell is one space)
    return "".join(f"| {it}".rstrip() + " " for it in cells) + "|"


def rows_of(text):
    """The rows of the one table in the text, without its head, as lists of cells."""
    lines = [line for line in text.split("\n") if line.startswith("|")]
    return [[cell.strip() for cell in line.strip("|").split("|")] for line in lines[2:]]


def names(crates):
    return ", ".join(f"`{it}`" for it in crates)


def number(seconds):
    return f"{seconds:,.0f}" if round(seconds) else ""


def runs(text, record):
    """The table of the runs, with this run as its last row."""
    own = [
        record["day"],
        record["processors"],
        f"{record['seconds']:,}",
        f"{record['wall'] / 60:.0f}",
        f"{record['others']:,} s of other processes",
    ]
    rows = [it for it in rows_of(text) if it != list(map(str, own))][1 - RUNS :] + [own]
    head = row("Run from nothing", "Processors", "Seconds", "Minutes", "Other work")
    return "\n".join([head, "|---|---|---|---|---|", *(row(*it) for it in rows)])


def crates(text, record):
    """The longest chain of the run, and the table of the crates."""
    took, chain = record["crates"], record["chain"]
    kept = [([it for it in re.findall(r"`(\w+)`", cells[0]) if it in took], cells[-1]) for cells in rows_of(text)]
    named = {it for found, _ in kept for it in found}
    kept.append(([it for it in took if it not in named], ""))
    rows = [row("Crates", *COLUMNS, "What costs"), "|---" * (len(COLUMNS) + 2) + "|"]
    for found, note in kept:
        sums = [sum(took[it].get(kind, 0) for it in found for kind in kinds) for kinds in COLUMNS.values()]
        rows += [row(names(found), *map(number, sums), note)] * bool(found)
    rest = record["seconds"] - sum(it for kinds in took.values() for it in kinds.values())
    rows.append(row("the rest", number(max(0, rest)), *[""] * (len(COLUMNS) - 1), REST))
    minutes = f"{chain['seconds'] / 60:.0f} of {record['wall'] / 60:.0f} minutes"
    said = f"The run of {record['seconds']:,} s, by a sample of its processes each second. The longest chain took {minutes}:"
    links = ", ".join(re.sub(r"^\w+", lambda it: f"`{it[0]}`", it) for it in chain["crates"])
    return "\n".join([f"{said} {links}.", "", *rows])


def written(page, record):
    """The page with both tables made from the record."""
    for name, table in (("runs", runs), ("crates", crates)):
        mark = re.compile(rf"(?<=^<!--{name}-->\n).*?(?=\n<!--/{name}-->$)", re.M | re.S)
        if len(mark.findall(page)) != 1:
            sys.exit(f"table: docs/GATE.md needs one <!--{name}--> and one <!--/{name}-->")
        page = mark.sub(lambda found: table(found[0], record), page)
    return page


def main():
    if len(sys.argv) > 2 or sys.argv[1:2] == ["--help"]:
        sys.exit(__doc__)
    file = Path(sys.argv[1]) if sys.argv[1:] else costs.record_file(True)
    if not file.exists():
        sys.exit(f"table: there is no {file}: make test ANEW=1 writes build/gate-anew.json")
    record = json.loads(file.read_text())
    if not record["anew"] or record["failed"]:
        sys.exit("table: the run took from earlier runs what they passed, or something failed in it")
    PAGE.write_text(written(PAGE.read_text(encoding="utf-8"), record), encoding="utf-8")
    print(f"table: docs/GATE.md has the run of {record['day']}, {record['seconds']:,} s")


if __name__ == "__main__":
    main()
