#!/usr/bin/env python3
"""Writes the notices of the kit's crates that a library or a program of crates.txt links, from the kit's own files.

    tools/generate/notices.py write CRATE FILE     writes the notices of CRATE into FILE
    tools/generate/notices.py check                says whether those of each crate in PACKED can be written

A crate links what its line of crates.txt names, and what those link. For a crate of the kit these are the lines `dep NAME`
of the file `format` of its library. Its notices are the files LICENSE.., NOTICE.. and COPYING.. of its folder.

A crate without such a file has to be in WITHOUT, with the reason. Of such a crate the comments at the head of its files
are notices that speak of a licence. These are faults too: a crate in WITHOUT that has a notice of its own, one that nothing
packed links, and data under Unicode's licence where no notice has its text.
"""
import re
import shutil
import sys
from collections import namedtuple
from pathlib import Path

TOP = Path(__file__).resolve().parents[2]
PACKED = ("sasl_c", "scram")  # what packages and `make install-program` have
FILE = re.compile(r"(?:LICEN[CS]E|NOTICE|COPYING)", re.I)
LICENCE = re.compile(r"licen[cs]e", re.I)

STD = "A part of the kit's standard library. Its files name no other source and no licence."
SQLITE = "Its files name no other source and no licence. SQLite, whose file format it has, is in the public domain."
WITHOUT = {
    "core": "A part of the kit's standard library. The heads of its files that name another source are quoted.",
    **dict.fromkeys(("std", "std_alloc", "std_collections", "std_heap", "std_io"), STD),
    **dict.fromkeys(
        ("io", "libc", "os"), "The kit's layer over the system's C library, whose code is not in the package."
    ),
    **dict.fromkeys(
        (
            "sqlite_btree",
            "sqlite_disk",
            "sqlite_format",
            "sqlite_pager",
            "sqlite_pages",
            "sqlite_pool",
            "sqlite_record",
            "sqlite_std_file",
            "sqlite_trees",
            "sqlite_value",
            "sqlite_wal",
        ),
        SQLITE,
    ),
}

Notice = namedtuple("Notice", "crate name text")  # a crate, the file that the notice is from, and what it says


class Fault(Exception):
    """What stops the notices."""


def lines_of(top):
    """What each line of crates.txt names, by its crate."""
    text = re.sub(r"#.*", "", (top / "crates.txt").read_text(encoding="utf-8"))
    rows = re.findall(r"^(\w+)[^:\n]*:(.*)$", text, re.M)
    return {name: uses.split() for name, uses in rows}


def kit_of():
    """The folder of the kit, from its command on the PATH."""
    command = shutil.which("rt")
    if not command:
        raise Fault("rt is not on the PATH, and the notices are in the Rattle kit")
    return Path(command).resolve().parents[1]


def linked(crate, rows, kit):
    """The crates of the kit that a crate links, in order of their names."""
    open_ones, seen, found = [crate], set(), set()
    while open_ones:
        name = open_ones.pop()
        if name in seen:
            continue
        seen.add(name)
        if name in rows:
            # (the standard library is on no line)
            open_ones += rows[name] + ["std"]
            continue
        form = kit / "rlibs" / f"{name}.rlib" / "format"
        if not form.is_file():
            raise Fault(f"{name} is no crate of crates.txt, and no library of the kit")
        found.add(name)
        open_ones += re.findall(r"^dep (\w+)$", form.read_text(encoding="utf-8"), re.M)
    return sorted(found)


def head_of(path):
    """The comment at the head of a source file, without its marks."""
    lines = []
    for line in path.read_text(encoding="utf-8").splitlines():
        if not line.startswith("//"):
            break
        lines.append(re.sub(r"^//[/!]? ?", "", line))
    return "\n".join(lines) + "\n"


def notices_of(crate, kit):
    """The notices of a crate of the kit."""
    folder = kit / "rattle" / crate
    files = sorted(path for path in folder.glob("*") if path.is_file() and FILE.match(path.name))
    found = [Notice(crate, path.name, path.read_text(encoding="utf-8")) for path in files]
    if found and crate in WITHOUT:
        raise Fault(f"{crate} is in WITHOUT, and has {', '.join(it.name for it in found)}")
    if not found and crate not in WITHOUT:
        raise Fault(f"{crate} has no notice in {folder}: say in WITHOUT why not, if that is right")
    if not found:
        heads = ((path, head_of(path)) for path in sorted((folder / "src").rglob("*.rt")))
        found = [Notice(crate, str(path.relative_to(folder)), head) for path, head in heads if LICENCE.search(head)]
    return found


def text_of(crate, top, kit):
    """The notices of all that a crate links: each text once, under the names of those that have it."""
    crates = linked(crate, lines_of(top), kit)
    found = [notice for name in crates for notice in notices_of(name, kit)]
    texts = {}
    for notice in found:
        texts.setdefault(notice.text.strip("\n"), []).append(f"{notice.crate} ({notice.name})")
    if any("Unicode License" in text for text in texts) and not any("UNICODE LICENSE" in text for text in texts):
        raise Fault(f"{crate} links data under the Unicode License, and no notice has its text")
    out = [
        f"{crate} of fe2o3_sasl contains code of these crates of the Rattle kit, {(kit / 'KIT-ID').read_text().strip()}:",
        "",
        *(f"- {name}" for name in crates),
        "",
        "Their notices follow, each text once, as the kit has them.",
        "",
    ]
    for text, names in texts.items():
        out += ["-" * 72, "", *names, "", text, ""]
    own = [name for name in crates if name in WITHOUT]
    out += ["-" * 72, "", "Crates without a notice of their own:", "", *(f"- {name}: {WITHOUT[name]}" for name in own)]
    return "\n".join(out) + "\n"


def unused(top, kit):
    """The crates in WITHOUT that nothing packed links."""
    rows = lines_of(top)
    return sorted(set(WITHOUT) - {name for crate in PACKED for name in linked(crate, rows, kit)})


def main():
    words = sys.argv[1:]
    if words[:1] not in (["write"], ["check"]) or len(words) != (3 if words[0] == "write" else 1):
        sys.exit(__doc__)
    try:
        kit = kit_of()
        if words[0] == "write":
            Path(words[2]).write_text(text_of(words[1], TOP, kit), encoding="utf-8")
            return
        counts = [text_of(crate, TOP, kit).count("\n" + "-" * 72) - 1 for crate in PACKED]
        if stale := unused(TOP, kit):
            raise Fault(f"nothing links {', '.join(stale)}, which WITHOUT has")
    except Fault as fault:
        sys.exit(f"notices: {fault}")
    print("notices: " + ", ".join(f"{count} texts for {crate}" for crate, count in zip(PACKED, counts)))


if __name__ == "__main__":
    main()
