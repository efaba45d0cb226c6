#!/usr/bin/env python3
"""Plants the wrong bodies of the libraries, and checks that the prover rejects each inside its own function.

    tools/gate/wrong_bodies.py [--kept] [--built FOLDER] [--lanes N] [--only WORD] [--logs FOLDER] [CRATE..]

A wrong body is a file crates/NAME/wrong-bodies/BODY.edit. Its first line is a sentence that says what it changes and
which clause rejects it. Then follow lines `file:`, `old:` and `new:`; the old text occurs once in that file. A line
`law: NAME` says that a law of the impl rejects it, `ghost NAME = {`, and not a clause of the function.

Wrong bodies of different functions do not disturb each other, since a caller knows a function by its contract only. So
those of a crate are planted in rounds, all of a round in one check; no two of a round are in one function. A check is
asked, by `--only`, for the functions that the round changes, and so for those that they call. Each other function loses
its body, and has a hole for a proof: the check takes it by its contract, and does not prove it again. The first check of
a crate starts from nothing, the next ones from what it kept. A round that has a body with a law, or a function whose path
the text does not determine, is a whole check, of every body and proof. Each body passes if

- the check leaves a goal open inside the function that the body changes, at a clause and not of safety only,
- the check reports the function by its path, as one that is not proved, and
- nothing else that is checked fails: the others are proved, wait for one that is changed, or rest on a hole.

What a round is not asked for cannot fail because of its bodies. A body with no law changes neither the head nor a clause
of its function, which is tested here, and the proofs of all other functions rest on its contract. For the same reason no
goal is left open because a function that is called has lost its body. That the functions are proved without the wrong
bodies is not tested here: `rt ci` proves the crate, and tools/gate/gate.py, which runs both, fails if either does. With
--unturned no body is planted in the rounds, and each function that they ask for has to be proved but for such holes.

The work is done in a copy, so the tree and its out/ stay as they are. With --kept the copy starts from what earlier
checks kept in out/, for work on one edit; the gate starts from nothing. The libraries below a crate are proved first, or
taken from `rt ci` with --built: FOLDER/NAME exists once that library is proved, and FOLDER/NAME.failed if it is not.

It prints a line for each body, and last `N passed, M failed`. The exit status is 0 if none failed, 1 if one did, and 2 if
the bodies could not be tried.
"""
import argparse
import os
import re
import shutil
import signal
import subprocess
import sys
import tempfile
import threading
import time
from concurrent.futures import ThreadPoolExecutor
from dataclasses import dataclass, field
from functools import lru_cache

ROOT = os.path.dirname(os.path.dirname(os.path.dirname(os.path.realpath(__file__))))
FOLDER = "wrong-bodies"
# The folder of the kit, whose bin/ holds `rt` and `rattle`.
KIT = os.path.dirname(os.path.dirname(os.path.realpath(shutil.which("rt") or "rt")))

# What a check says of a goal that is left open, of an error, of a function and of an impl.
OPEN = re.compile(r"(?:\S+ )?note: (src/\S+?):(\d+):\d+: it is not proved that (.*)")
# Of these goals those at a clause: of the function, of its loop, or of a call; the others are of safety alone.
CLAUSE = re.compile(r"what the function ensures|the invariant of the loop|what .* requires")
ERROR = re.compile(r"(?:\./)?((?:src|specs|proofs)/\S+?):(\d+):\d+: error: (.*)")
FUNCTION = re.compile(r"fn (\S+?): (no proof|not proved|could not tell)\b:?(.*)")
IMPL = re.compile(r"impl (\S+?): (not proved|could not tell)\b(.*)")
# What is said of one that would be proved if those were that it calls.
WAITS = re.compile(r"it (calls|passes the block|waits for|rests on|has)\b")
# The last line of a check that was asked for some functions.
ASKED = re.compile(r"only=(\d+) holes=\d+$")

HEAD = re.compile(r'^( *)(?:pub(?:\([a-z]+\))? )?(?:const )?(?:unsafe )?(?:extern "C" )?fn (\w+)', re.M)
TYPE = re.compile(r"^(?:pub(?:\([a-z]+\))? )?(?:struct|enum) (\w+)", re.M)
# The head of an impl whose functions have a path that the text determines: the trait, its one argument, and the type.
TOLD_IMPL = re.compile(r"^impl(?:<[^{]*?>)? (?:([\w:]+)(?:<(\w+)>)? for )?(\w+)(?:<[^{]*>)?\s*(?:where[^{]*)?\{$", re.M)
# What the body of a function that is taken by its contract is, and its proof.
NO_BODY = "loop {}"
HOLE = """\
use Rattle.{crate}.proofs.{path}.Statement.{{statement}}

pub {name}_spec : {{M : Type 1}} → statement M
{name}_spec = ?
"""
IMPL_HEAD = re.compile(r"^impl\b[^{]*?(?:\bfor )?(\w+)(?:<[^{]*>)?\s*(?:where[^{]*)?\{", re.M)


class BadEdit(Exception):
    """Why an edit cannot be planted."""


@dataclass(frozen=True)
class Place:
    """A function or a law: its file, its first and last line, its name, and a function's path, if the text determines it."""

    path: str
    first: int
    last: int
    name: str
    told: str = ""

    def holds(self, path, line):
        return self.path == path and self.first <= line <= self.last


@dataclass
class Body:
    """A wrong body: the texts that it turns, and where it has to be refused."""

    crate: str
    name: str
    pairs: list = field(default_factory=list)
    law: str = ""
    places: set = field(default_factory=set)
    is_inside: bool = True

    def __str__(self):
        return f"wrong body {self.crate}/{self.name}"

    def asked(self):
        """The paths of the functions that it turns, or nothing where a whole check has to try it."""
        told = sorted(it.told for it in self.places)
        return told if self.is_inside and not self.law and all(told) else []


def line_of(text, at):
    return text.count("\n", 0, at) + 1


@lru_cache(maxsize=None)
def modules_of_types(root, crate):
    """The modules that define a struct or an enum of each name."""
    found = {}
    for path in sources_of(root, crate):
        for it in TYPE.finditer(source(crate, path)):
            found.setdefault(it[1], set()).add(module_of(path))
    return found


def sources_of(root, crate):
    """The paths of the sources of a crate, in its folder."""
    top = f"{root}/crates/{crate}"
    files = [f"{at}/{it}" for at, _, names in os.walk(f"{top}/src") for it in names if it.endswith(".rt")]
    return sorted(os.path.relpath(it, top) for it in files)


def module_of(path):
    return tuple(it for it in path.removeprefix("src/").removesuffix(".rt").split("/") if it not in ("lib", "main"))


def told_path(crate, path, text, head):
    """The path of a function as a check prints it, or nothing. A method of no trait is named by its type's module."""
    module = module_of(path)
    if not head[1]:
        return "::".join([crate, *module, head[2]])
    blocks = [it for it in re.finditer(r"^\S.*\{$", text, re.M) if it.start() < head.start()]
    impl = TOLD_IMPL.match(text, blocks[-1].start()) if blocks else None
    if not impl or len(head[1]) != 4:
        return ""
    defined = modules_of_types(ROOT, crate).get(impl[3], {module})
    modules = {module} if impl[1] or module in defined else defined
    if len(modules) != 1:
        return ""
    trait = (impl[1] or "").rpartition("::")[2] + (impl[2] or "")[:1].upper() + (impl[2] or "")[1:]
    # (a `drop` is reported as one of the type)
    trait = "" if trait == "Drop" else trait
    name, alias = impl[3], re.search(rf"^pub type {impl[3]}<(\w+)> =", text, re.M)
    if re.match(rf"impl<[^{{]*?\b{name}\b:", impl[0]):
        name = "Any"
    elif alias:
        name += f"+{alias[1]}"
    return "::".join([crate, *[*modules][0], name + trait, head[2]])


def function_around(crate, path, text, at):
    """The function whose body has this place, or None if it is between functions."""
    heads = [it for it in HEAD.finditer(text) if it.start() <= at]
    if not heads:
        return None
    head = heads[-1]
    opening, end = braces_of(text, head)
    if not end or at > end.end():
        return None
    if not opening or at < opening.start():
        raise BadEdit(f"it turns the head or a clause of {head[2]}, and not its body")
    lines, first = text.split("\n"), line_of(text, head.start())
    # (a check reports the place of a function by its first attribute)
    while first > 1 and not re.search(r"^\s*(///.*)?$|[{};]$", lines[first - 2]):
        first -= 1
    return Place(path, first, line_of(text, end.end()), head[2], told_path(crate, path, text, head))


def braces_of(text, head):
    """The lines with the opening and the closing brace of a function's body, each None where there is none."""
    end = re.compile(rf"^{head[1]}\}}$", re.M).search(text, head.end())
    if not end:
        return None, None
    opening = re.compile(rf"^{head[1]}\{{$", re.M).search(text, head.end(), end.start())
    return opening or re.compile(r"\{$", re.M).search(text, head.end(), end.start()), end


def law_of(path, text, at, law):
    """The law of that name of the type in whose impl this place is."""
    heads = [it for it in IMPL_HEAD.finditer(text) if it.start() <= at]
    if not heads:
        raise BadEdit(f"`law:` beside a text of {path} that is in no impl")
    for impl in IMPL_HEAD.finditer(text):
        end = re.compile(r"^\}$", re.M).search(text, impl.end())
        found = re.compile(rf"^    ghost {re.escape(law)} = \{{(?:[^\n]*\}};$|.*?^    \}};$)", re.M | re.S)
        found = found.search(text, impl.end(), end.end()) if end else None
        if impl[1] == heads[-1][1] and found:
            return Place(path, line_of(text, found.start()), line_of(text, found.end()), law)
    raise BadEdit(f"no impl for {heads[-1][1]} in {path} has a law {law}")


def read(crate, file):
    """Reads an edit. Its places are those of the crate without it."""
    body = Body(crate, os.path.basename(file).removesuffix(".edit"))
    path = old = None
    with open(file, encoding="utf-8") as lines:
        for line in map(lambda it: it.rstrip("\n"), lines):
            if line.startswith("file: "):
                path = line.removeprefix("file: ").strip()
            elif line.startswith("law: "):
                body.law = line.removeprefix("law: ").strip()
            elif line.startswith("old: "):
                old = line.removeprefix("old: ")
            elif line.startswith("new:"):
                if not path or not old:
                    raise BadEdit("a `new:` line before any `file:` or `old:` line")
                if not path.startswith("src/"):
                    raise BadEdit(f"{path} is no file of src/: only bodies are turned")
                body.pairs.append((path, old, line.removeprefix("new:").removeprefix(" ")))
                old = None
    if not body.pairs:
        raise BadEdit("it has no `old:` and `new:` pair")
    with open(file, encoding="utf-8") as it:
        if it.readline().startswith("file:"):
            raise BadEdit("its first line is not the sentence that says what it turns")
    body.places = places_of(body)
    return body


def places_of(body):
    """The functions that an edit turns, or the law that is to refuse it."""
    found = set()
    for path, old, new in body.pairs:
        text = source(body.crate, path)
        # (a pair may name what an earlier one made)
        if text.count(old) > 1 or not text.count(old) and not any(old in it for _, _, it in body.pairs):
            raise BadEdit(f"an `old:` text is in {path} {text.count(old)} times, and not once")
        if old == new:
            raise BadEdit("it changes nothing")
        at = text.find(old)
        place = function_around(body.crate, path, text, at) if at >= 0 else None
        if place:
            found.add(law_of(path, text, at, body.law) if body.law else place)
        elif at >= 0 and not (new.startswith("fn ") and new.endswith(old)):
            # (between functions it may only add one)
            body.is_inside = False
    if not found:
        raise BadEdit("it is in no function")
    return found


def source(crate, path):
    try:
        with open(f"{ROOT}/crates/{crate}/{path}", encoding="utf-8") as it:
            return it.read()
    except OSError:
        raise BadEdit(f"there is no file {path}") from None


def rounds_of(bodies):
    """The bodies in rounds, so that no two of a round turn one function, and no edit turns another's text."""
    found = []
    for body in bodies:
        for others in found:
            try:
                planted([*others, body])
            except BadEdit:
                continue
            if all(not body.places & it.places for it in others):
                others.append(body)
                break
        else:
            found.append([body])
    return found


def planted(bodies):
    """The texts of the files that these edits turn, by their path."""
    texts = {}
    for body in bodies:
        for path, old, new in body.pairs:
            text = texts.get(path) or source(body.crate, path)
            if text.count(old) != 1:
                raise BadEdit(f"an `old:` text of {body.name} is in {path} {text.count(old)} times, and not once")
            if new.count("\n") != old.count("\n"):
                raise BadEdit(f"{body.name} changes the number of lines of {path}")
            texts[path] = text.replace(old, new)
    return texts


def lines_of_body(text, head):
    """Where the lines of a function's body begin and end, or None if it has no lines of its own."""
    opening, end = braces_of(text, head)
    # (the next braces after a body in one line are those of another item: on the same line, or below an empty one)
    if not opening or "}" in text[head.start() :].partition("\n")[0] or "\n\n" in text[head.end() : opening.start()]:
        return None
    return opening.end() + 1, end.start()


def by_contract(crate, texts, asked):
    """The texts of a crate in which each function that is not asked for has no body and a hole for a proof.

    They are given by their path, with None for a file that goes. The functions that have both are those whose path the
    text determines, and that have a body of lines. The lines of all others stay where they are.
    """
    found = {}
    for path in sources_of(ROOT, crate):
        text = texts.get(path) or source(crate, path)
        for head in reversed([*HEAD.finditer(text)]):
            told, body = told_path(crate, path, text, head), lines_of_body(text, head)
            if told and told not in asked and body and "const " not in head[0]:
                first, last = body
                text = text[:first] + NO_BODY + "\n" * text.count("\n", first, last) + text[last:]
                found |= hole(crate, told)
        found[path] = text
    return found


def hole(crate, told):
    """The files of the proof of a function that is taken by its contract."""
    names = told.split("::")[1:]
    folder = "/".join(["proofs", *names])
    proof = HOLE.format(crate=crate, path=".".join(names), name=names[-1])
    return {f"{folder}/Proof.antt": proof, f"{folder}/Answers.antt": None, f"{folder}/Invariants.antt": None}


@dataclass
class Said:
    """What a check said: goals left open, errors, functions that are not proved, and what fell of itself."""

    goals: list
    errors: list
    unproved: set
    fallen: list
    ended: str


def understood(log):
    said, has_goals = Said([], [], set(), [], ""), False
    for line in log.splitlines():
        goal, error = OPEN.match(line), ERROR.match(line)
        function, impl = FUNCTION.match(line), IMPL.match(line)
        if goal:
            said.goals.append((goal[1], int(goal[2]), goal[3]))
            has_goals = True
        elif error:
            said.errors.append((error[1], int(error[2]), error[3]))
        elif function:
            said.unproved.add(function[1])
            # (the goals of a function are right above its line)
            if not has_goals and not all(WAITS.match(it.strip()) for it in function[3].split(";")):
                said.fallen.append((function[1], False))
            has_goals = False
        elif impl and not WAITS.match(impl[3].lstrip("; ")):
            said.fallen.append((impl[1], True))
        if line.startswith(("logic=", "only=", "rattle:")):
            said.ended = line
    return said


def is_refused(ended, asked):
    """Whether the last line of a check refuses the crate, or some of the functions that it was asked for."""
    told = ASKED.match(ended)
    if not asked:
        return ended.startswith("logic=not-proved")
    return bool(told) and asked <= int(told[1])


def asked_of(bodies):
    """The functions that a round asks for, by their paths, or nothing where it is a whole check."""
    asked = [it.asked() for it in bodies]
    return sorted({path for it in asked for path in it}) if all(asked) else []


def judge(crate, bodies, log, status):
    """For each body of a round whether it was rejected in its function, and at what; and what else failed."""
    said = understood(log)
    places = [(body, place) for body in bodies for place in body.places]
    at = {body.name: [] for body in bodies}
    stray = []
    for path, line, goal in said.goals:
        hit = [body for body, place in places if not body.law and place.holds(path, line)]
        for body in hit if CLAUSE.match(goal) else []:
            at[body.name].append(f"{path}:{line}: {goal}")
        stray += [] if hit else [f"{path}:{line}: {goal}"]
    for path, line, error in said.errors:
        hit = [body for body, place in places if body.law and place.holds(path, line)]
        for body in hit:
            at[body.name].append(f"{path}:{line}: {error}")
        names = path.split("/")
        own = any(place.name in names for _, place in places) and names[0] == "proofs"
        stray += [] if hit or own else [f"{path}:{line}: {error}"]
    # (of one whose proof file no longer fits no goal is told; its path is that of its type, and not of its file)
    names = {place.name for body, place in places if not body.law}
    lawful = any(body.law and at[body.name] for body in bodies)
    for name, is_impl in said.fallen:
        if not (lawful if is_impl else name.rpartition("::")[2] in names):
            stray.append(f"{name} falls")
    asked = asked_of(bodies)
    stray += [f"the check does not say that {it} is not proved" for it in asked if it not in said.unproved]
    if status != 1 or not is_refused(said.ended, len(asked)):
        stray.append(f"the check ended with status {status}: {said.ended or 'no verdict'}")
        if not said.ended:
            # (a text that does not compile, for example)
            stray += [it for it in log.splitlines() if re.match(r"\S*: ?error|error", it)]
    return at, stray


def bodies_of(crate, word):
    """The wrong bodies of a crate, and a line for each edit that cannot be planted."""
    found, bad = [], []
    folder = f"{ROOT}/crates/{crate}/{FOLDER}"
    for name in sorted(os.listdir(folder)) if os.path.isdir(folder) else []:
        if not name.endswith(".edit"):
            bad.append(f"{crate}/{FOLDER}/{name}: BAD EDIT: a wrong body is a file NAME.edit")
        elif word in name:
            try:
                found.append(read(crate, f"{folder}/{name}"))
                planted(found[-1:])
            except BadEdit as why:
                found = [it for it in found if it.name != name.removesuffix(".edit")]
                bad.append(f"wrong body {crate}/{name.removesuffix('.edit')}: BAD EDIT: {why}")
    return found, bad


class Copy:
    """A copy of crates with their lines of crates.txt, in which they are proved or turned."""

    PARTS = ("src", "specs", "proofs")

    def __init__(self, room, lines, names, kept):
        self.room, self.lines = room, lines
        os.makedirs(f"{room}/crates")
        shutil.copy(f"{ROOT}/HANDLES", room)
        with open(f"{room}/crates.txt", "w", encoding="utf-8") as it:
            it.writelines(lines[name] for name in names)
        for name in names:
            self.lay_out(name, [*self.PARTS, *(["out"] if kept else [])])
            os.makedirs(f"{self.folder(name)}/out", exist_ok=True)

    def folder(self, crate):
        return f"{self.room}/crates/{crate}"

    def lay_out(self, crate, parts):
        for part in parts:
            shutil.rmtree(f"{self.folder(crate)}/{part}", ignore_errors=True)
            if os.path.isdir(f"{ROOT}/crates/{crate}/{part}"):
                shutil.copytree(f"{ROOT}/crates/{crate}/{part}", f"{self.folder(crate)}/{part}")

    def write(self, crate, texts):
        """Writes these texts in place of those of the crate. One that is None goes."""
        self.lay_out(crate, self.PARTS)
        for path, text in texts.items():
            file = f"{self.folder(crate)}/{path}"
            os.makedirs(os.path.dirname(file), exist_ok=True)
            if text is not None:
                with open(file, "w", encoding="utf-8") as it:
                    it.write(text)
            elif os.path.exists(file):
                os.remove(file)

    def proved(self, crate):
        """The command that proves a library, and builds it for those above."""
        return checked(self.folder(crate), "rt", "lib", "--jobs", "1")

    def turned(self, crate, asked):
        """The command that checks a crate whose texts are turned: the functions asked for, or all where none is."""
        words = ["--crate-name", crate, "src/lib.rt", "-L", f"dependency={KIT}/rlibs"]
        for it in ["std", *used_by(self.lines, crate)]:
            built = f"{self.folder(it)}/out/rlib" if it in self.lines else f"{KIT}/rlibs"
            words += ["--extern", f"{it}={built}/{it}.rlib"]
        for it in below(self.lines, crate):
            words += ["-L", f"dependency={self.folder(it)}/out/rlib"]
        words += ["--antt-project", f"{KIT}/rattle/logic/antt-project.json", "--logic-built", f"{KIT}/logic_built"]
        words += ["--incremental", "out/incremental", "--jobs", "1"]
        if is_static(self.lines[crate]):
            words += ["--crate-type", "staticlib", "--links", f"{crate}="]
            for it in used_by(self.lines, crate):
                words += ["--links", f"{it}="]
        words += ["--allow-holes"] * bool(asked)
        for it in asked:
            words += ["--only", it]
        return checked(self.folder(crate), f"{KIT}/bin/rattle", "check", *words)


class Trial:
    """Plants the wrong bodies of each crate in rounds, over the libraries below it."""

    def __init__(self, room, lines, asked):
        self.room, self.lines, self.asked = room, lines, asked.crates or [*lines]
        self.word, self.logs, self.kept, self.given = asked.only, asked.logs, asked.kept, asked.built
        self.unturned = asked.unturned
        # (of a library that another one here uses what its proof kept is at hand)
        self.is_below = {under for it in self.asked for under in below(lines, it)}
        based = [] if self.given else [it for it in lines if it in self.is_below]
        self.base = Copy(f"{room}/base", lines, based, asked.kept)
        self.lane = threading.Semaphore(asked.lanes)
        self.proved = {name: threading.Event() for name in lines}
        self.built = set()
        self.passed, self.failed = 0, []
        self.printing = threading.Lock()

    def run(self):
        with ThreadPoolExecutor(len(self.lines)) as pool:
            for done in [pool.submit(self.crate, name) for name in self.lines]:
                done.result()
        # (once more, so that the end of a long log says what failed)
        print("\n".join([*self.failed, f"{self.passed} passed, {len(self.failed)} failed"]), flush=True)
        return 1 if self.failed or not self.passed else 0

    def say(self, failed, *lines):
        with self.printing:
            self.passed += len(lines) - len(failed)
            self.failed += failed
            print("\n".join(lines), flush=True)

    def fail(self, *lines):
        self.say([*lines], *lines)

    def crate(self, crate):
        try:
            bodies, bad = bodies_of(crate, self.word) if crate in self.asked else ([], [])
            if bad:
                self.fail(*bad)
            if not all(self.has(it) for it in below(self.lines, crate)):
                return self.fail(f"wrong bodies of {crate}: not tried, since a library below is not proved")
            log = self.prove(crate) if crate in self.is_below and not self.given else ""
            if log:
                return self.fail(f"wrong bodies of {crate}: not tried, since it is not proved as it stands:\n{log}")
        finally:
            self.proved[crate].set()
        copy = self.copied(crate) if bodies else None
        for bodies in rounds_of(bodies):
            self.round(copy, crate, bodies)

    def has(self, library):
        """Waits for a library, and returns whether it is proved."""
        if not self.given:
            self.proved[library].wait()
            return library in self.built
        while not os.path.isdir(f"{self.given}/{library}"):
            if os.path.exists(f"{self.given}/{library}.failed"):
                return False
            time.sleep(1)
        return True

    def prove(self, crate):
        """Proves the crate without wrong bodies, and builds it for those above. Returns what is wrong, if anything is."""
        with self.lane:
            status, log = self.base.proved(crate)
        if status == 0:
            self.built.add(crate)
        return "\n".join(log.splitlines()[-12:]) if status else ""

    def copied(self, crate):
        """A copy in which to turn the crate, with what was kept of it and the libraries below as they were built."""
        is_proved = crate in self.built
        copy = Copy(f"{self.room}/{crate}", self.lines, [crate], self.kept and not is_proved)
        if is_proved:
            shutil.move(f"{self.base.folder(crate)}/out/incremental", f"{copy.folder(crate)}/out/incremental")
        for it in below(self.lines, crate):
            built = f"{self.given}/{it}" if self.given else f"{self.base.folder(it)}/out/rlib"
            shutil.copytree(built, f"{copy.folder(it)}/out/rlib")
        return copy

    def round(self, copy, crate, bodies):
        asked, texts = asked_of(bodies), planted([] if self.unturned else bodies)
        copy.write(crate, by_contract(crate, texts, asked) if asked else texts)
        with self.lane:
            status, log = copy.turned(crate, asked)
        if self.logs:
            os.makedirs(self.logs, exist_ok=True)
            with open(f"{self.logs}/{crate}-{bodies[0].name}.log", "w", encoding="utf-8") as it:
                it.write(log)
        if self.unturned:
            return self.unturned_round(crate, asked, understood(log))
        at, stray = judge(crate, bodies, log, status)
        refused = [f"{it}: refused at {at[it.name][0]}" for it in bodies if at[it.name]]
        others = [f"{it}: NOT REFUSED where it stands" for it in bodies if not at[it.name]]
        self.say(others, *refused, *others)
        if stray:
            names = ", ".join(it.name for it in bodies)
            more = [f"    {it[:200]}" for it in stray[:8]]
            self.fail("\n".join([f"wrong bodies of {crate}: beside {names} there falls what no edit turns:", *more]))

    def unturned_round(self, crate, asked, said):
        left = [f"    {path}:{line}: {it}"[:200] for path, line, it in [*said.goals, *said.errors]]
        left += [f"    {it} is not proved" for it in sorted(said.unproved)]
        if left or not is_refused(said.ended, len(asked)):
            return self.fail(
                "\n".join([f"functions of {crate} are not proved without wrong bodies: {said.ended}", *left[:8]])
            )
        self.say([], f"functions of {crate}: {len(asked)} are proved without wrong bodies, but for holes")


# The checks at work, which end with this process.
AT_WORK = set()


def checked(folder, *command):
    """The status of a check, and what it said. One without a verdict, as when memory runs out, is tried again."""
    for wait in (20, 60, 0):
        how = {"stdin": subprocess.DEVNULL, "stdout": subprocess.PIPE, "stderr": subprocess.STDOUT}
        how |= {"text": True, "errors": "replace"}
        with subprocess.Popen(command, cwd=folder, **how) as ran:
            AT_WORK.add(ran)
            log = ran.communicate()[0]
            AT_WORK.discard(ran)
        # (a text that does not compile has no verdict, and is told at once)
        if ran.returncode in (0, 1) or not wait:
            break
        last = (log.splitlines() or [""])[-1]
        crate = os.path.basename(folder)
        print(f"wrong bodies: {command[1]} of {crate} ended with status {ran.returncode}: {last}", flush=True)
        time.sleep(wait)
    return ran.returncode, log


def is_static(line):
    """Whether a line of crates.txt is that of a static library, whose name has a word behind it."""
    return "staticlib" in line.partition(":")[0].split()


def used_by(lines, crate):
    return lines[crate].partition(":")[2].split()


def below(lines, crate):
    """The crates of these lines that a crate uses, and those below them, lowest first."""
    found, left = set(), [crate]
    while left:
        more = {it for it in used_by(lines, left.pop()) if it in lines} - found
        found |= more
        left += more
    return [it for it in lines if it in found]


def crates():
    """The lines of crates.txt, by the name of the crate."""
    lines = {}
    with open(f"{ROOT}/crates.txt", encoding="utf-8") as it:
        for line in it:
            words = line.partition(":")[0].split()
            if words and not words[0].startswith("#"):
                lines[words[0]] = line
    return lines


def libraries(names):
    """The lines of the crates that have wrong bodies, and of those below them, lowest first."""
    lines = crates()
    wanted = {it for it in lines if os.path.isdir(f"{ROOT}/crates/{it}/{FOLDER}") and (not names or it in names)}
    while more := {below for it in wanted for below in lines[it].partition(":")[2].split() if below in lines} - wanted:
        wanted |= more
    return {it: lines[it] for it in lines if it in wanted}


def main():
    parser = argparse.ArgumentParser(description=__doc__, formatter_class=argparse.RawDescriptionHelpFormatter)
    parser.add_argument("crates", metavar="CRATE", nargs="*", help="a crate to try (all that have wrong bodies)")
    parser.add_argument("--kept", action="store_true", help="start from what earlier checks kept in out/")
    parser.add_argument("--built", metavar="FOLDER", help="take the libraries below as they are put there")
    parser.add_argument("--lanes", type=int, default=2, help="how many checks at a time (2)")
    parser.add_argument("--only", metavar="WORD", default="", help="only the bodies whose name has this word")
    parser.add_argument("--unturned", action="store_true", help="plant no body, and demand that no goal is left open")
    parser.add_argument("--logs", metavar="FOLDER", help="write what each round's check said into this folder")
    asked = parser.parse_args()
    lines = libraries(asked.crates)
    if not lines:
        print("0 passed, 1 failed: no crate has wrong bodies")
        return 2
    with tempfile.TemporaryDirectory(prefix="wrong-bodies-") as room:

        def end(*_):
            for it in [*AT_WORK]:
                it.terminate()
            shutil.rmtree(room, ignore_errors=True)
            os._exit(143)

        signal.signal(signal.SIGTERM, end)
        return Trial(room, lines, asked).run()


if __name__ == "__main__":
    sys.exit(main())
