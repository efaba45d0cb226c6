#!/usr/bin/env python3
"""The gate: the quick checks; side by side `rt ci`, and the wrong bodies that have to be rejected; and the programs that
`rt ci` has built, tried in other ways.

    tools/gate/gate.py             takes from earlier runs what they passed
    tools/gate/gate.py --anew      proves all

Prints what `rt ci` prints, then what `tools/gate/wrong_bodies.py` printed, what the run cost, and last the sum of both
counts, `N passed, M failed`. A library that `rt ci` has proved, or keeps from an earlier run, is passed to the wrong bodies
of the libraries above it. `rt ci` proves as many crates at a time as there are processors, or as RT_JOBS says. If it
fails, its last lines, which name what failed, are printed again above the sums, since the end of a log is read first. The
exit status is 0 only if each part ended with 0, both reported their count, and nothing failed.

The seconds of each crate are written to build/gate.json, or build/gate-anew.json, from which `table.py` makes the tables
of docs/GATE.md.
"""
import argparse
import os
import re
import shutil
import signal
import subprocess
import sys
import tempfile
from collections import deque

sys.dont_write_bytecode = True
import costs
import wrong_bodies

COUNT = re.compile(r"(\d+) passed, (\d+) failed")
# What one check of a crate takes of memory, in bytes: a little more than the most that one took in a whole run.
NEEDED = 4_700_000_000
PROVED = re.compile(r"rt: (\w+) (NOT PROVED|proved|is kept)\b")


def number(file, pattern=r"(\d+)"):
    """The number that the file has there, or None where it has none, or there is no such file."""
    try:
        with open(file, encoding="utf-8") as it:
            return int(re.search(pattern, it.read())[1])
    except (OSError, TypeError):
        return None


def side_by_side(processors, memory):
    """How many crates `rt ci` proves at a time: one a processor, where memory holds them beside the wrong bodies.

    By itself it counts up to two and a half times as much memory for a large crate as its check takes, so that a
    processor or two of four have to wait.
    """
    return max(1, min(processors, memory // NEEDED - 1))


def machine():
    """The processors and the free memory that the gate may use, those of its control group too."""
    group = "/sys/fs/cgroup"
    free = [1024 * number("/proc/meminfo", r"MemAvailable:\s+(\d+)")]
    free += [number(f"{group}/memory.max"), number(f"{group}/memory/memory.limit_in_bytes")]
    processors = len(os.sched_getaffinity(0))
    for quota, period in [
        (number(f"{group}/cpu.max", r"^(\d+)"), number(f"{group}/cpu.max", r" (\d+)")),
        (number(f"{group}/cpu/cpu.cfs_quota_us", r"^(\d+)"), number(f"{group}/cpu/cpu.cfs_period_us")),
    ]:
        processors = min(processors, quota // period) if quota and period else processors
    return processors, min(it for it in free if it)


def counted(name, status, last):
    """What a part counted, passed and failed. One that was killed or reports no count has failed."""
    found = COUNT.fullmatch(last.strip())
    if not found:
        print(f"gate: {name} reported no count, and ended with status {status}")
        return 0, 1
    passed, failed = int(found[1]), int(found[2])
    print(f"gate: {name}: {passed} passed, {failed} failed")
    if status != 0 and failed == 0:
        print(f"gate: {name} ended with status {status}")
        failed = 1
    return passed, failed + (passed == 0 and failed == 0)


def hand_over(libraries, folder, line):
    """Puts a library into the folder, as `rt ci` has proved or kept it, or a file that says it is not proved."""
    told = PROVED.match(line)
    if not told or told[1] not in libraries:
        return
    name, made = told[1], f"{wrong_bodies.ROOT}/crates/{told[1]}/out/rlib"
    libraries.remove(name)
    if told[2] != "NOT PROVED" and os.path.exists(f"{made}/{name}.rlib"):
        shutil.copytree(made, f"{folder}/{name}.part")
        os.rename(f"{folder}/{name}.part", f"{folder}/{name}")
    else:
        open(f"{folder}/{name}.failed", "w", encoding="utf-8").close()


def let_others_first(pid):
    """Gives a session less of the processors, where Linux shares them by sessions and `nice` counts within one only."""
    try:
        with open(f"/proc/{pid}/autogroup", "w", encoding="utf-8") as it:
            it.write("10")
    except OSError:
        pass


def long_parts(processors, memory, anew):
    """What `rt ci` and the wrong bodies counted, passed and failed, and the sample of their processes."""
    how = {"stdin": subprocess.DEVNULL, "text": True, "errors": "replace"}
    libraries = {*wrong_bodies.libraries([])}
    with tempfile.TemporaryFile("w+", errors="replace") as told, tempfile.TemporaryDirectory(prefix="gate-") as built:
        # (each in a group of its own, which can be ended whole)
        how |= {"stderr": subprocess.STDOUT, "start_new_session": True}
        # (the gate waits for the chain of proofs, so that comes first where processors are few)
        turned = ["nice", "-n", "10", sys.executable, "tools/gate/wrong_bodies.py", "--built", built]
        bodies = subprocess.Popen(turned, stdout=told, **how)
        let_others_first(bodies.pid)
        lanes = {"RT_JOBS": str(side_by_side(processors, memory))} | os.environ
        proofs = subprocess.Popen(["rt", "ci", *["--anew"] * anew], env=lanes, stdout=subprocess.PIPE, **how)
        try:
            last, named = "", deque(maxlen=6)
            with costs.Sample(proofs.pid, bodies.pid) as sample:
                for line in proofs.stdout:
                    if last:
                        print(last, end="", flush=True)
                        named.append(last)
                    last = line
                    hand_over(libraries, built, line)
                for name in [*libraries]:
                    hand_over(libraries, built, f"rt: {name} NOT PROVED")
                proofs.wait()
                bodies.wait()
        finally:
            for part in (proofs, bodies):
                if part.poll() is None:
                    os.killpg(part.pid, signal.SIGTERM)
                    part.wait()
        told.seek(0)
        lines = told.read().splitlines() or [""]
    print("\n".join(lines[:-1]))
    if proofs.returncode:
        print("gate: the end of what rt ci said:", "".join(named), sep="\n", end="")
    sums = [counted("rt ci", proofs.returncode, last), counted("wrong bodies", bodies.returncode, lines[-1])]
    return *(sum(it) for it in zip(*sums)), sample


def status_of(*command):
    """The exit status of a part, which ends no later than the gate."""
    with subprocess.Popen(command) as part:
        try:
            return part.wait()
        finally:
            part.terminate()


def fails(tool, *words):
    """Runs a tool, which prints why if it fails, and returns whether it does."""
    sys.stdout.flush()
    status = status_of(sys.executable, f"tools/{tool}", *words)
    if status:
        print(f"gate: tools/{tool} failed")
    return status != 0


def main():
    parser = argparse.ArgumentParser(description=__doc__, formatter_class=argparse.RawDescriptionHelpFormatter)
    parser.add_argument("--anew", action="store_true", help="take nothing from earlier runs")
    anew = parser.parse_args().anew
    # (an end from outside ends the parts: each `finally` above)
    signal.signal(signal.SIGTERM, lambda *_: sys.exit(143))
    run = costs.Run(machine()[0], anew)
    if status_of("make", "--no-print-directory", "quick-checks"):
        print("the quick checks failed")
        return 1
    passed, failed, sample = long_parts(*machine(), anew)
    sys.stdout.flush()
    # (these need the programs that `rt ci` builds)
    if not failed:
        failed = sum(
            fails(*it)
            for it in (["gate/restarts.py"], ["test_rows.py", "--altered"], ["test_memory.py"], ["gate/c_memory.py"])
        )
    record = run.record(sample, wrong_bodies.crates(), passed, failed)
    costs.write(record)
    print(*costs.closing(record), f"{passed} passed, {failed} failed", sep="\n")
    return 1 if failed else 0


if __name__ == "__main__":
    sys.exit(main())
