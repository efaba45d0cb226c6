"""What a run of the gate costs: its processor seconds, those of each crate, and the longest chain of crates.

`gate.py` samples the processes of `rt ci` and of the wrong bodies each second, and writes the record that `table.py`
reads. A process that has ended since it was seen lacks its last seconds, and one that was never seen all: these are in the
seconds of the run only.
"""
import json
import os
import re
import resource
import sys
import threading
import time
from functools import lru_cache
from pathlib import Path

sys.dont_write_bytecode = True
from progress import TOP, words
from wrong_bodies import used_by

TICKS = os.sysconf("SC_CLK_TCK")
# The name of a program or of tests that `rt ci` runs.
RUN = re.compile(r"/rt-run-\w+-\w+/bin/(\w+?)(?:_tests)? ")
CRATE = re.compile(r" --crate-name (\w+) ")
# What the chain names besides the proofs of crates. Nothing waits for these.
ABOVE = {"tests": " (tests)", "wrong": " (wrong bodies)"}


def record_file(anew):
    return Path(TOP) / f"build/gate{'-anew' if anew else ''}.json"


def processes():
    """The processes that live: by number the parent, when it began, in ticks, and its processor seconds."""
    found = {}
    for pid in filter(str.isdigit, os.listdir("/proc")):
        try:
            with open(f"/proc/{pid}/stat", "rb") as it:
                fields = it.read().rpartition(b")")[2].split()
        except OSError:
            continue
        found[pid] = fields[1].decode(), fields[19], (int(fields[11]) + int(fields[12])) / TICKS
    return found


def machine_seconds():
    """The seconds that the processors have worked, for all processes of the machine."""
    user, nice, system, _, _, irq, softirq = Path("/proc/stat").read_text().split()[1:8]
    return sum(map(int, (user, nice, system, irq, softirq))) / TICKS


def own_seconds():
    """The user and system seconds of this process and of those below it that have ended."""
    both = map(resource.getrusage, (resource.RUSAGE_SELF, resource.RUSAGE_CHILDREN))
    return sum(it.ru_utime + it.ru_stime for it in both)


def work_of(line, is_bodies):
    """The crate and the kind of work in the words of a process, or None."""
    run, crate = RUN.search(line), CRATE.search(line)
    if run:
        return run[1], "run"
    if not crate:
        return None
    if is_bodies:
        return crate[1], "wrong"
    return crate[1], "tests" if " --test " in line else "build" if " --crate-checked " in line else "proof"


class Sample:
    """What the crates take, by their processes: the processor seconds of each kind of work, and `times`, the seconds that a
    process of it lived.

    In the times the compilations of a program belong to its proof, and what runs at the end of the gate is left out.
    """

    def __init__(self, proofs, bodies):
        self.parts, self.now, self.ended = {str(proofs): False, str(bodies): True}, time.monotonic(), threading.Event()
        self.took, self.times = {}, {}
        self.thread = threading.Thread(target=self.run, daemon=True)

    def __enter__(self):
        self.thread.start()
        return self

    def __exit__(self, *_):
        self.ended.set()
        self.thread.join()

    def run(self):
        while not self.ended.wait(1):
            self.take(time.monotonic(), processes())

    def work(self, living, pid):
        """The work of a process of the two parts: by its words, or those of the nearest process above it that has a crate."""
        chain = [pid]
        while chain[-1] not in self.parts:
            if chain[-1] not in living:
                return None
            chain.append(living[chain[-1]][0])
        found = (work_of(words(it), self.parts[chain[-1]]) for it in chain)
        return next(filter(None, found), None)

    def take(self, now, living):
        passed, self.now, at_work = now - self.now, now, set()
        for pid, (_, born, seconds) in living.items():
            if work := self.work(living, pid):
                self.took[work, pid, born] = seconds
                at_work.add((work[0], "proof" if work[1] == "build" else work[1]))
        for work in at_work:
            if work[1] != "run":
                self.times[work] = self.times.get(work, 0) + passed

    def seconds(self):
        """The processor seconds by crate, and of each by the kind of work."""
        found = {}
        for ((crate, kind), *_), seconds in self.took.items():
            of_crate = found.setdefault(crate, {})
            of_crate[kind] = of_crate.get(kind, 0) + seconds
        return {crate: {kind: round(it, 1) for kind, it in kinds.items()} for crate, kinds in sorted(found.items())}


def longest_chain(times, lines):
    """The longest chain in which each crate waits for the proof of the one before: its seconds and its names.

    `lines` are those of crates.txt. A crate that is kept from an earlier run takes no time, and is not named.
    """

    @lru_cache(maxsize=None)
    def ending_at(crate, kind="proof"):
        seconds, names = max((ending_at(it) for it in used_by(lines, crate) if it in lines), default=(0, ()))
        own = (crate + ABOVE.get(kind, ""),) if (crate, kind) in times else ()
        return seconds + times.get((crate, kind), 0), names + own

    return max((ending_at(*it) for it in times if it[0] in lines), default=(0, ()))


class Run:
    """The run of the gate that begins now."""

    def __init__(self, processors, anew):
        self.processors, self.anew, self.begun, self.machine = processors, anew, time.monotonic(), machine_seconds()

    def record(self, sample, lines, passed, failed):
        """What the run cost so far, with what the sample has of the crates."""
        seconds, (longest, names) = own_seconds(), longest_chain(sample.times, lines)
        return {
            "day": time.strftime("%Y-%m-%d"),
            "anew": self.anew,
            "passed": passed,
            "failed": failed,
            "processors": self.processors,
            "seconds": round(seconds),
            "others": max(0, round(machine_seconds() - self.machine - seconds)),
            "wall": round(time.monotonic() - self.begun),
            "chain": {"seconds": round(longest), "crates": names},
            "crates": sample.seconds(),
        }


def write(record):
    file = record_file(record["anew"])
    try:
        file.parent.mkdir(exist_ok=True)
        file.write_text(json.dumps(record, indent=1) + "\n")
    except OSError as why:
        # (the gate passes without it)
        print(f"gate: the record of the run is not written: {why}")


def closing(record):
    """The lines that a run of the gate prints above its last one."""
    cost = (
        f"{record['seconds']:,} processor seconds, {record['wall'] / 60:.0f} min on {record['processors']} processors"
    )
    lines = [f"gate: {cost}; other processes took {record['others']:,} s"]
    if chain := record["chain"]["crates"]:
        lines.append(f"gate: longest chain {record['chain']['seconds'] / 60:.0f} min: {', '.join(chain)}")
    return lines
