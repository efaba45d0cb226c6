#!/usr/bin/env python3
"""Compares where the library's time depends on a secret with the list of the places that are accepted.

    constant_time.py PROGRAM LIST           ends with 1 if a place is not in the list, or an entry is not seen
    constant_time.py PROGRAM LIST found     prints what is seen: call, hash, function, times, number of places

A place is a conditional jump or an address that depends on a secret, as valgrind's memcheck reports it. PROGRAM is
constant_time.c, which marks the secrets. It runs once for each of its calls and each hash.

A line `NAME = ..` of LIST names functions: symbols of the archive without type arguments, several if a compiler may
inline one into the other, and more by further lines with this NAME. Every other line is an entry: call, NAME, times,
reason. `times` is how often the places of these functions are reached in one call: a number, or `any`. Those of a
comparison that ends early are reached more than once.
"""
import bisect
import collections
import concurrent.futures
import os
import re
import shutil
import subprocess
import sys
import tempfile
import xml.etree.ElementTree

VERSIONS = (1, 256, 512)
KINDS = {"UninitCondition": "jump", "UninitValue": "address"}
VALGRIND = "valgrind --tool=memcheck --quiet --leak-check=no --error-limit=no --demangle=no --xml=yes".split()

# What is no part of a function's name: the prefix of an export inside its wrapper, type arguments, and what compilers
# append for a copy or a part of a function.
DECORATION = re.compile(r"^proved_(?=fe2o3_)|::<.*|(\.(cold|constprop|isra|llvm|part)(\.\d+)?)+$")

# One function with places in one call: the places as (kind, offset), and how often they are reached.
Seen = collections.namedtuple("Seen", "places times")


class Symbols:
    """The functions of a program by address."""

    def __init__(self, program):
        lines = subprocess.run(["nm", "--defined-only", program], check=True, capture_output=True, text=True).stdout
        rows = sorted(
            (int(at, 16), name)
            for at, kind, name in (line.split(" ", 2) for line in lines.splitlines())
            if kind in "tTwW"
        )
        self.starts, self.names = [at for at, _ in rows], [name for _, name in rows]

    def at(self, address):
        """The symbol below an address of the program, and the offset from it."""
        found = bisect.bisect_right(self.starts, address) - 1
        return DECORATION.sub("", self.names[found]), address - self.starts[found]


def seen_in(report, program, symbols):
    """What memcheck's report says of one call: the functions with places, by name."""
    tree = xml.etree.ElementTree.parse(report)
    times = {pair.findtext("unique"): int(pair.findtext("count")) for pair in tree.iterfind("errorcounts/pair")}
    seen = {}
    for error in tree.iterfind("error"):
        kind = error.findtext("kind")
        if kind not in KINDS:
            sys.exit(f"constant_time: memcheck reports {kind}")
        frame = error.find("stack/frame")
        name, offset = frame.findtext("fn", "?"), 0
        address = int(frame.findtext("ip"), 16)
        if os.path.basename(frame.findtext("obj", "")) == os.path.basename(program):
            name, offset = symbols.at(address)
        one = seen.setdefault(name, Seen(set(), []))
        one.places.add((KINDS[kind], offset))
        one.times.append(times[error.findtext("unique")])
    return {name: Seen(one.places, sum(one.times)) for name, one in seen.items()}


def run(program, symbols, call, version):
    with tempfile.TemporaryDirectory() as room:
        report = f"{room}/report.xml"
        words = [*VALGRIND, f"--xml-file={report}", program, call, str(version)]
        ran = subprocess.run(words, capture_output=True, text=True)
        if ran.returncode != 0:
            sys.exit(f"constant_time: {call} {version}: {ran.stdout}{ran.stderr}")
        return seen_in(report, program, symbols)


def entries_of(path):
    """The entries of the list, by call: how often each group of functions is reached, None for any."""
    groups, entries = {}, collections.defaultdict(dict)
    for number, line in enumerate(open(path, encoding="utf-8"), 1):
        words = line.split(None, 3)
        if not words or words[0].startswith("#"):
            continue
        if words[1:2] == ["="]:
            groups[words[0]] = (*groups.get(words[0], ()), *" ".join(words[2:]).split())
            continue
        if len(words) != 4 or words[1] not in groups or not (words[2] == "any" or words[2].isdigit()):
            sys.exit(f"{path}:{number}: an entry is: call, name of functions, times, reason")
        names = groups[words[1]]
        if any(set(names) & set(others) for others in entries[words[0]]):
            sys.exit(f"{path}:{number}: a second entry of {words[0]} for one of these functions")
        entries[words[0]][names] = None if words[2] == "any" else int(words[2])
    return entries


def faults_of(seen, entries):
    """The places that the entries do not accept, and the entries that are not seen with each hash, a sentence each."""
    faults = [f"{call} is in the list and no call" for call in entries if call not in {call for call, _ in seen}]
    for (call, version), functions in seen.items():
        listed = entries.get(call, {})
        where = {
            name: ", ".join(f"{kind} at +{offset:#x}" for kind, offset in sorted(one.places))
            for name, one in functions.items()
        }
        faults += [
            f"{call} {version}: {name} depends on a secret: {where[name]}"
            for name in functions
            if not any(name in names for names in listed)
        ]
        for names, times in listed.items():
            met = [name for name in names if name in functions]
            count = sum(functions[name].times for name in met)
            places = "; ".join(f"{name}: {where[name]}" for name in met)
            if not met:
                faults.append(f"{call} {version}: {' or '.join(names)} is in the list and not seen")
            elif times not in (None, count):
                faults.append(f"{call} {version}: {count} times, and the list has {times}: {places}")
    return faults


def self_test(seen):
    """Whether both rules report the comparison of constant_time.c that ends early, and neither the other one."""
    whole = {at: one for at, one in seen.items() if at[0] == "self_test:whole"}
    early = {at: one for at, one in seen.items() if at[0] == "self_test:early"}
    listed = {"self_test:early": {("same_early",): 1}}
    reported = [[fault for fault in faults_of(early, entries) if "same_early" in fault] for entries in ({}, listed)]
    return not faults_of(whole, {"self_test:whole": {("self_test_whole",): 1}}) and all(
        len(faults) == len(VERSIONS) for faults in reported
    )


def main():
    if len(sys.argv) < 3 or sys.argv[3:] not in ([], ["found"]):
        sys.exit(__doc__)
    if not shutil.which("valgrind"):
        sys.exit("constant_time: valgrind is not installed")
    program, entries, symbols = sys.argv[1], entries_of(sys.argv[2]), Symbols(sys.argv[1])
    calls = subprocess.run([program], check=True, capture_output=True, text=True).stdout.split()
    runs = [(call, version) for call in calls for version in VERSIONS]
    with concurrent.futures.ThreadPoolExecutor(os.cpu_count()) as pool:
        seen = dict(zip(runs, pool.map(lambda one: run(program, symbols, *one), runs)))
    if sys.argv[3:]:
        for call, version in runs:
            for name, one in sorted(seen[call, version].items()):
                print(call, version, name, one.times, len(one.places))
        return
    tested = {at: one for at, one in seen.items() if not at[0].startswith("self_test")}
    for call in dict.fromkeys(call for call, _ in tested):
        counts = " ".join(f"{sum(len(one.places) for one in seen[call, version].values()):3}" for version in VERSIONS)
        print(f"constant_time: {call:24} {counts} places")
    faults = faults_of(tested, entries)
    if not self_test(seen):
        faults.append("self test: the comparison that ends early is not reported, or the other one is")
    for fault in faults:
        print(f"constant_time: {fault}")
    print(f"constant_time: {len(runs)} runs, {sum(map(len, entries.values()))} entries, {len(faults)} faults")
    sys.exit(bool(faults))


if __name__ == "__main__":
    main()
