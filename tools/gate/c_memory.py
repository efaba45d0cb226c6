#!/usr/bin/env python3
"""Runs bindings/c/memory.c, logins in C in which each request for memory is refused in turn, over a proved archive.

    tools/gate/c_memory.py                     over the archive of these sources that was kept, if one was
    tools/gate/c_memory.py --build FOLDER      builds the archive and keeps it; needs a C compiler and binutils

`rt ci` proves crates/sasl_c but builds no archive of it. --build builds it over the libraries FOLDER/NAME/NAME.rlib, and so
proves the crate once more, in the time of its proof; therefore the gate does not do it. The archive is kept in
~/.cache/fe2o3_sasl (XDG_CACHE_HOME) under the sum of the kit and of all sources. It prints nothing if all is well.
"""
import hashlib
import os
import subprocess
import sys
from pathlib import Path

sys.dont_write_bytecode = True
import wrong_bodies

TOP, KIT, CRATE = Path(wrong_bodies.ROOT), wrong_bodies.KIT, "sasl_c"
KEPT = 4


def sum_of(lines):
    """The sum of all that the archive is made of: the kit, and the files of the crate and of those below it."""
    total = hashlib.sha256(Path(KIT, "KIT-ID").read_bytes())
    for name in sorted([CRATE, *wrong_bodies.below(lines, CRATE)]):
        total.update(lines[name].encode())
        for file in sorted(
            it for part in ("src", "specs", "proofs") for it in (TOP / "crates" / name / part).rglob("*")
        ):
            if file.is_file():
                total.update(repr((str(file.relative_to(TOP)), hashlib.sha256(file.read_bytes()).digest())).encode())
    return total.hexdigest()


def build(lines, built, archive):
    """Builds the archive over these libraries, and over what checks of the crate have kept, if they have."""
    words = ["--crate-name", CRATE, "src/lib.rt", "-L", f"dependency={KIT}/rlibs", "--links", f"{CRATE}="]
    for it in ["std", *wrong_bodies.used_by(lines, CRATE)]:
        words += ["--extern", f"{it}={built(it) if it in lines else f'{KIT}/rlibs'}/{it}.rlib"]
    for it in wrong_bodies.below(lines, CRATE):
        words += ["-L", f"dependency={built(it)}", "--links", f"{it}="]
    words += ["--antt-project", f"{KIT}/rattle/logic/antt-project.json", "--logic-built", f"{KIT}/logic_built"]
    words += ["--crate-type", "staticlib", "--toolchain", f"{KIT}/toolchain", "--incremental", "out/incremental"]
    words += ["--jobs", str(len(os.sched_getaffinity(0))), "-o", archive]
    (TOP / "crates" / CRATE / "out").mkdir(exist_ok=True)
    return wrong_bodies.checked(TOP / "crates" / CRATE, f"{KIT}/bin/rattle", "build", *words)


def archive_of(lines, built):
    """The archive of these sources, which is built over these libraries if it is not kept, or None."""
    folder = Path(os.environ.get("XDG_CACHE_HOME") or Path.home() / ".cache") / "fe2o3_sasl"
    folder.mkdir(parents=True, exist_ok=True)
    kept = folder / f"lib{CRATE}-{sum_of(lines)}.a"
    if not kept.exists() and not built:
        return None
    if not kept.exists():
        part = kept.with_suffix(f".{os.getpid()}")
        status, said = build(lines, built, part)
        if status:
            sys.exit(f"c_memory: the archive is not built, with status {status}: {said[-900:]}")
        part.rename(kept)
    os.utime(kept)
    for old in sorted(folder.glob(f"lib{CRATE}-*.a"), key=lambda it: it.stat().st_mtime)[:-KEPT]:
        old.unlink(missing_ok=True)
    return kept


def main():
    folder = sys.argv[2] if sys.argv[1:2] == ["--build"] else ""
    archive = archive_of(wrong_bodies.crates(), folder and (lambda name: f"{folder}/{name}"))
    if not archive:
        return print("c_memory: no archive of these sources is kept, so bindings/c/memory.c was not run")
    # (what `make` has built may be of other sources, whose archive is older or newer)
    (TOP / "build/proved.o").unlink(missing_ok=True)
    program = "build/callers/memory_plain"
    for words in (["make", "--no-print-directory", f"PROVED_ARCHIVE={archive}", program], [program]):
        told = subprocess.run(
            words, cwd=TOP, stdin=subprocess.DEVNULL, capture_output=True, text=True, errors="replace"
        )
        if told.returncode:
            sys.exit(
                f"c_memory: {words[0]} ended with status {told.returncode}: {told.stdout[-600:]}{told.stderr[-600:]}"
            )


if __name__ == "__main__":
    main()
