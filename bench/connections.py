#!/usr/bin/env python3
"""A login over the bytes of a connection beside one over bodies: connections.py PROGRAM

Counts the instructions (callgrind) and the requests for memory (memcheck) of one login more, by the program
run for one login and for eleven, in each of its ways. Fails where a login over bytes takes more than 1.1 times
the instructions of one over bodies, or makes more than four requests more, or where the exponent of growth in
the number of calls, from a call for all that came to a call for each byte, is above 1.1.
"""
import math
import re
import subprocess
import sys
import tempfile

COLLECTED = re.compile(r"Collected : (\d+)")
HEAP = re.compile(r"total heap usage: ([\d,]+) allocs")


def run(tool, program, *words):
    """What valgrind says of the program."""
    with tempfile.TemporaryDirectory() as folder:
        done = subprocess.run(["valgrind", *tool, program, *words], cwd=folder, capture_output=True, text=True)
    if done.returncode:
        sys.exit(f"{program} {' '.join(words)} ended with {done.returncode}: {done.stderr[-500:]}")
    return done


def counted(program, how, often):
    """The instructions and the requests of so many logins, and in how many calls each was made."""
    done = run(["--tool=callgrind"], program, how, str(often))
    heap = HEAP.search(run(["--tool=memcheck"], program, how, str(often)).stderr)
    return int(COLLECTED.search(done.stderr)[1]), int(heap[1].replace(",", "")), int(done.stdout)


def main():
    made = {}
    for how in ("steps", "calls", "bytes"):
        one, more = counted(sys.argv[1], how, 1), counted(sys.argv[1], how, 11)
        made[how] = ((more[0] - one[0]) / 10, (more[1] - one[1]) / 10, one[2])
        print(f"{how}: {made[how][0]:,.0f} instructions, {made[how][1]:g} requests, {one[2]} calls a login")
    steps, calls, single = (made[how] for how in ("steps", "calls", "bytes"))
    ratio, more = calls[0] / steps[0], calls[1] - steps[1]
    exponent = math.log(single[0] / calls[0]) / math.log(single[2] / calls[2])
    print(f"over bytes by over bodies: {ratio:.3f} (goal 1.1), {more:g} requests more (goal 4)")
    print(f"exponent from {calls[2]} calls to {single[2]}: {exponent:.3f} (goal 1.1)")
    return 1 if ratio > 1.1 or more > 4 or exponent > 1.1 else 0


if __name__ == "__main__":
    sys.exit(main())
