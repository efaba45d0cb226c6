#!/usr/bin/env python3
"""Checks that each crate's files are in the layout of `rt fmt`, which `rt ci` requires too.

    tools/gate/layout.py

Prints each file that is not, and last what it has read. The exit status is 1 if there is one.
"""
import os
import shutil
import subprocess
import sys

ROOT = os.path.dirname(os.path.dirname(os.path.dirname(os.path.realpath(__file__))))
RATTLE = os.path.join(os.path.dirname(os.path.realpath(shutil.which("rt") or "rt")), "rattle")


def files_of(crate):
    """The paths of a crate's files that have a layout."""
    tops = [os.path.join(crate, part) for part in ("src", "specs", "proofs")]
    found = [os.path.join(at, it) for top in tops for at, _, names in os.walk(top) for it in names]
    return sorted(it for it in found if it.endswith((".rt", ".antt")))


def main():
    crates = sorted(it.path for it in os.scandir(os.path.join(ROOT, "crates")) if it.is_dir())
    found = {crate: files_of(crate) for crate in crates}
    checks = [
        subprocess.Popen(
            [RATTLE, "fmt", "--check", *files], stdout=subprocess.PIPE, stderr=subprocess.STDOUT, text=True
        )
        for files in found.values()
        if files
    ]
    failed = [said for check in checks if (said := check.communicate()[0]) or check.returncode]
    print(
        "".join(failed) + f"layout: {sum(map(len, found.values()))} files of {len(crates)} crates, "
        f"{len(failed)} crates with a file that is not in it"
    )
    return 1 if failed else 0


if __name__ == "__main__":
    sys.exit(main())
