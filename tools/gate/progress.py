#!/usr/bin/env python3
"""Reports on standard error what a long run is at: its minutes so far, the stage and the crate.

    tools/gate/progress.py PARENT [SECONDS [TEXT]] &    every 60 seconds, if no others are given; first the text

It ends within seconds of the process PARENT, however that one ends, and holds no standard output. It reads only what
/proc shows of the processes below PARENT, and takes nothing from what they print.
"""
import os
import re
import sys
import time
from pathlib import Path

TOP = str(Path(__file__).resolve().parents[2])
RUNNING = "running the programs and the tests, the last stage"
COMMANDS = [(" tools/gate/refused.py ", "refused"), (" tools/gate/wrong_bodies.py ", "bodies"), ("/rt ci ", "gate")]


def stat(pid):
    """The parent of a process, and when it began, in ticks; or None if it does not live."""
    try:
        fields = Path(f"/proc/{pid}/stat").read_text(errors="replace").rpartition(")")[2].split()
    except OSError:
        return None
    return None if fields[0] == "Z" else (fields[1], fields[19])


def words(pid):
    """The words of a process, each between two spaces."""
    try:
        return " " + Path(f"/proc/{pid}/cmdline").read_bytes().decode(errors="replace").replace("\0", " ")
    except OSError:
        return " "


def command_of(pid, parent):
    """The command of the parent's that a process works for, or None."""
    command, chain = "other", []
    while pid != parent:
        lives = stat(pid)
        if not lives:
            return None
        chain.append(pid)
        pid = lives[0]
    for one in chain:
        line = words(one)
        command = next((name for mark, name in COMMANDS if mark in line), command)
    return command


def stage(command, place, line):
    """What a process of the toolchain does, and with which crate."""
    crate = line.partition(" --crate-name ")[2].partition(" ")[0]
    if "/rt-run-" in place or "/rt-run-" in line:
        return RUNNING
    if " --crate-checked " in line:
        return f"building {crate}"
    if command == "refused" and crate:
        return f"trying what the borrow checker has to reject, in {crate}"
    if command == "bodies" and crate:
        return f"trying the wrong bodies of {crate}"
    if " --test " in line:
        return f"proving the tests of {crate}"
    if place.startswith(TOP + "/") and crate:
        return f"proving {crate}"
    return None


def stages(parent):
    """What goes on below the parent: by process."""
    found = {}
    for pid in filter(str.isdigit, os.listdir("/proc")):
        line = words(pid)
        if not re.search("--crate-name|/rt-run-", line):
            continue
        command = command_of(pid, parent)
        if not command:
            continue
        try:
            place = os.readlink(f"/proc/{pid}/cwd")
        except OSError:
            place = ""
        if work := stage(command, place, line):
            found[pid] = work
    return found


class Progress:
    """A report of the run of a parent; `said` is the last stage, once it is reported."""

    def __init__(self, parent):
        self.parent, self.said = parent, ""

    def tell(self, seconds):
        """Reports what is at work, or returns False if nothing is: the run may be at its end, whose last line is its own.

        For the same reason only the beginning of the last stage is reported, and nothing of a process that has ended
        since it was seen.
        """
        table = stages(self.parent)
        work = "; ".join(sorted(set(table.values())))
        if work == self.said or not any(stat(pid) for pid in table):
            return False
        print(f"progress: {int(seconds) // 60} min: {work}", file=sys.stderr, flush=True)
        if work == RUNNING:
            self.said = work
        return True


def main():
    if not 2 <= len(sys.argv) <= 4:
        sys.exit(__doc__)
    parent, every = sys.argv[1], int(sys.argv[2]) if len(sys.argv) > 2 else 60
    null = os.open(os.devnull, os.O_RDWR)
    os.dup2(null, 0)
    os.dup2(null, 1)
    born = stat(parent)
    if not born:
        return
    if len(sys.argv) > 3:
        print(f"progress: {sys.argv[3]}", file=sys.stderr, flush=True)
    progress, begun = Progress(parent), time.monotonic()
    due = begun + every
    while (now_lives := stat(parent)) and now_lives[1] == born[1]:
        now = time.monotonic()
        if now >= due and progress.tell(now - begun):
            due = now + every
        time.sleep(1)


if __name__ == "__main__":
    try:
        main()
    except KeyboardInterrupt:
        pass
