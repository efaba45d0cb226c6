#!/usr/bin/env python3
"""Compiles every round of wrong bodies, without proofs: for an edit that no longer fits its crate.

    tools/gate/compile_wrong_bodies.py [CRATE..]

One edit that does not compile fails all bodies of its round in the gate, after an hour. Here a round takes 10 to 25 s: it
is planted in a copy of its crate, and checked for a function that does not exist, over the sources of the crates below.
Prints each round that does not compile, and last how many rounds do. The exit status is 1 if one does not, or if an edit
cannot be planted.
"""
import re
import shutil
import subprocess
import sys
import tempfile

sys.dont_write_bytecode = True
from wrong_bodies import KIT, ROOT, below, bodies_of, is_static, libraries, planted, rounds_of, used_by

# What a check says that has found no error before the functions.
COMPILED = "has no function"


def check_of(lines, crate, root):
    """The command that reads a crate, whose root file this is, and proves nothing."""
    lower = below(lines, crate)
    kit = {it for on in [*lower, crate] for it in used_by(lines, on) if it not in lines}
    words = [f"{KIT}/bin/rattle", "check", "--crate-name", crate, root, "-L", f"dependency={KIT}/rlibs"]
    for it in ["std", *sorted(kit)]:
        words += ["--extern", f"{it}={KIT}/rlibs/{it}.rlib"]
    for it in lower:
        words += ["--lib", f"{it}:{','.join(['std', *used_by(lines, it)])}={ROOT}/crates/{it}/src/lib.rt"]
    words += ["--antt-project", f"{KIT}/rattle/logic/antt-project.json", "--logic-built", f"{KIT}/logic_built"]
    if is_static(lines[crate]):
        words += ["--crate-type", "staticlib"]
        for it in [crate, *used_by(lines, crate)]:
            words += ["--links", f"{it}="]
    return [*words, "--jobs", "1", "--allow-holes", "--only", f"{crate}::{COMPILED.replace(' ', '_')}"]


def compiled(lines, crate, bodies):
    """What is wrong with a round, or nothing."""
    with tempfile.TemporaryDirectory(prefix="compiled-") as room:
        shutil.copytree(f"{ROOT}/crates/{crate}", f"{room}/{crate}", ignore=shutil.ignore_patterns("out"))
        for path, text in planted(bodies).items():
            with open(f"{room}/{crate}/{path}", "w", encoding="utf-8") as it:
                it.write(text)
        ran = subprocess.run(
            check_of(lines, crate, "src/lib.rt"), cwd=f"{room}/{crate}", capture_output=True, text=True
        )
    said = (ran.stdout + ran.stderr).splitlines()
    if COMPILED in (said or [""])[-1]:
        return []
    return [it for it in said if re.search(r"\berror\b", it) and not it.startswith("by-macro")] or said[-1:]


def main():
    lines = libraries(sys.argv[1:])
    rounds = wrong = 0
    for crate in lines:
        bodies, bad = bodies_of(crate, "") if not sys.argv[1:] or crate in sys.argv[1:] else ([], [])
        print("".join(f"{it}\n" for it in bad), end="")
        wrong += len(bad)
        for which, found in enumerate(rounds_of(bodies)):
            faults = compiled(lines, crate, found)
            if faults:
                print("\n    ".join([f"round {which + 1} of {crate}, {len(found)} bodies:", *faults[:8]]), flush=True)
            rounds, wrong = rounds + 1, wrong + bool(faults)
    print(f"compile_wrong_bodies: {rounds} rounds compiled, {wrong} faults")
    return 1 if wrong or not rounds else 0


if __name__ == "__main__":
    sys.exit(main())
