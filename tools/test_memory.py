#!/usr/bin/env python3
"""Refuses each request for memory that a call of the libraries makes, one after another, in the built drivers.

    tools/test_memory.py            the programs crates/test_driver_NAME/out/ that `rt ci` has built
    tools/test_memory.py CRATE..    only these, without the list of calls

A driver replays data/calls*.txt with the heap of tools/test_memory/refuse.c, for the first call of each answer, the
second, and so on, and for each n until no such call makes n requests. A call whose n-th request is refused has to answer
that it ran out of memory; made again, the calls give the same answer as ever. No row may differ, no block may be left,
and a call that is marked as one without requests makes none. A call of data/calls-hints.txt may do without a request, as one
that only reserves room, and then gives the same answer at once. Each public call whose error is or has `OutOfMemory` has to
run out of memory in some row.
"""
import re
import subprocess
import sys
import tempfile
from concurrent.futures import ThreadPoolExecutor
from pathlib import Path

sys.dont_write_bytecode = True
TOP = Path(__file__).resolve().parents[1]
sys.path.insert(0, str(TOP / "tools/generate"))

import signatures
import test_rows

HINTS = "calls-hints.txt"
RAN_OUT = re.compile(r"^\S+: ran out of memory: (.*)$", re.M)
# Calls that need no row, and why.
EXCEPT = {
    "view_frame": "its clause `not_out_of_memory`",
    "ScramClient::conclude_without_data": "its answer depends on the state only",
    "Endpoint::answer": "ConnectionSide::receive makes it",
    "RecordStore::clone": "a clone shares the users and requests nothing",
    "PlainTest::logs_in": "Server makes it",
    **dict.fromkeys(("SingleMessage::clone", "PolicyLogin::clone", "OwnedSecret::clone"), "SaslProfile::clone makes it"),
    "OwnedSecret::of": "SaslProfile::by_policy and ScramClient::with_secret make it",
    "ServerExchange::open": "ScramAuthenticator::compute_server_first_message makes it",
    "ServerExchange::conclude": "ScramAuthenticator::compute_server_final_message makes it",
    "ServerExchange::clone": "ScramAuthenticator::clone makes it",
    "ServerExchange::restore": "ScramAuthenticator::restore_challenge makes it",
}


def heads(lines):
    """A function's signature on one line."""
    return " ".join(line.strip() for line in lines)


def methods(library, item):
    """The signatures of a type's or a trait's functions, with those of `Clone` unless it is infallible."""
    if item.kind == "trait":
        return [signatures.signature(lines) for _, lines in signatures.members(item.lines, "    fn ")[0]]
    found = []
    for block, _ in library.blocks():
        head = block[0].rstrip(" {")
        if re.match(rf"impl(<.*?>)? {item.name}\b", head) and " for " not in head:
            found += signatures.members(block, ("    pub fn ", "    pub const fn "))[0]
        elif re.match(rf"impl(<.*?>)? Clone for {item.name}\b", head) and "is_infallible" not in "".join(block):
            found += signatures.members(block, "    fn ")[0]
    return [signatures.signature(lines) for _, lines in found]


def calls_of(libraries):
    """The public calls of each library whose error is or has `OutOfMemory`, as `Type::method` or `function`."""
    items = [item for it in libraries for module in it.modules.values() for item in module.items.values()]
    errors, more = {"AllocError"}, {"OutOfMemory"}
    while more:
        errors |= more
        word = re.compile(rf"\b({'|'.join(errors)})\b")
        more = {
            it.name
            for it in items
            if it.kind in ("struct", "enum")
            and it.name.endswith(("Error", "Kind"))
            and word.search(heads(signatures.fields(it.lines)))
        } - errors
    fails = re.compile(rf"\bfn (\w+).*-> Result<.*\b(?:{'|'.join(errors)})>")
    found = {}
    for library in libraries:
        names = found[library.crate] = set()
        for home, name in library.places:
            item = library.modules[home].items[name]
            if item.kind == "fn":
                names |= {name} if fails.search(heads(signatures.signature(item.lines))) else set()
            elif item.kind in ("struct", "enum", "trait", "type"):
                names |= {f"{name}::{it[1]}" for it in map(fails.search, map(heads, methods(library, item))) if it}
    return found


def run(program, file, heap, call, nth):
    """What a driver prints over a file in which the n-th request of each such call is refused, its status, and counts."""
    with tempfile.NamedTemporaryFile("r+") as counts:
        words = {"LD_PRELOAD": heap, "REFUSE_COUNTS": counts.name, "REFUSE_CALL": str(call), "REFUSE_NTH": str(nth)}
        ran = subprocess.run([program, file.name], cwd=file.parent, env=words, timeout=120, **test_rows.HOW)
        # (none after a signal)
        return ran.stdout, ran.returncode, [int(it) for it in counts.read().split()] or [0] * 4


def tried(program, file, heap):
    """The calls of a file that ran out of memory, the number of refused requests, its rows, and what is wrong."""
    said, status, (most, _, needless, left) = run(program, file, heap, 0, 0)
    rows = sum(int(count) for _, count, _ in test_rows.COUNTS.findall(said))
    names, total, wrong = set(), 0, [f"{needless} requests of calls that make none"] * bool(needless)
    wrong += [f"status {status}: {said[-300:]}"] * bool(status)
    for call in range(1, most + 1):
        nth = refused = 1
        while refused:
            said, status, (_, refused, _, blocks) = run(program, file, heap, call, nth)
            ran_out = RAN_OUT.findall(said)
            is_told = len(ran_out) == refused or file.name == HINTS and len(ran_out) < refused
            if status or not is_told or blocks != left:
                wrong.append(
                    f"call {call} of an answer, request {nth}: {refused} refused, {len(ran_out)} ran out, "
                    f"{blocks - left} blocks left, status {status}: {RAN_OUT.sub('', said).strip()[-600:]}"
                )
            names, total, nth = names | {*ran_out}, total + refused, nth + 1
    return names, total, rows, [f"{program.name}: {file.name}: {it}" for it in wrong]


def main(words):
    needed = set().union(*calls_of([signatures.Library(name) for name in signatures.LIBRARIES]).values())
    files = [(it, file) for it, data in test_rows.drivers(words) for file in sorted(data.glob("calls*.txt"))]
    with tempfile.TemporaryDirectory() as room, ThreadPoolExecutor() as pool:
        heap = f"{room}/refuse.so"
        subprocess.run(["cc", "-shared", "-fPIC", "-O2", "-o", heap, TOP / "tools/test_memory/refuse.c"], check=True)
        names, totals, rows, wrong = zip(*pool.map(lambda it: tried(*it, heap), files))
    names, wrong = set().union(*names), sum(wrong, [])
    if not words:
        wrong += [f"{name} never runs out of memory in a row" for name in sorted(needed - names - {*EXCEPT})]
        wrong += [f"{name} needs no exception" for name in sorted(EXCEPT) if name not in needed - names]
    print(*wrong, sep="\n", end="\n" if wrong else "")
    print(f"test_memory: {len(names)} calls, {sum(totals)} refused requests, {sum(rows)} rows, {len(wrong)} faults")
    return 1 if wrong else 0


if __name__ == "__main__":
    sys.exit(main(sys.argv[1:]))
