#!/usr/bin/env python3
"""Pins the work that no meter of a caller sees: who makes a meter, who works on one of its own, and who hashes.

    tools/gate/meters.py             compares the sources with tools/gate/meters.txt
    tools/gate/meters.py --list      prints that list as the sources would have it, under the reasons that it has

It reads the .rt files of src/ of LIBRARIES, without comments, strings, attributes, contracts and ghost code.
The list has a line `PLACE: USE, USE` for each function that has uses, with the type of its impl. A use is

    Meter::new      the making of a meter, by that call or by a literal
    NAME            the call of a function that takes a meter, in one that makes one, or in UNCOUNTED, the
                    libraries whose contracts do not count what a meter does;
                    of a function that takes none, and makes one, hashes, or calls one that does;
                    or a name of the kit's hashes
    NAME as a value such a free function, named and not called

with ` in a loop` after it inside a `for`, `while`, `loop` or closure, and ` x2` where there are two. It fails on
a use, or a number of them, that the list does not have; on one of the list that is not there; on another name
for a meter or a hash (`as`, `type`); on what is exported by another name; on a function that is a constant; and
on a Meter that is a constant or can be copied.

Functions are found by name: `.name(` is every method of that name, `Type::name`, called or not, those of the
type and, of a `pub type`, of the type that it names, or every one where it is a trait or one letter, and
`name` the free function of its file, of the file's imports or of the path before it. So it refuses more than
it has to. It does not see the arguments of a call, nor in what order or on which branch it is made (an allowed
call that is made where it was spared before is not seen), code that a macro makes, a hash that is written out
by hand, nor, outside UNCOUNTED, a loop around a metered call on the caller's meter, which its contract counts.
"""
import re
import sys
import textwrap
from collections import Counter, defaultdict
from functools import cached_property, lru_cache
from pathlib import Path
from typing import NamedTuple

from local_names import brackets, closing, locals_of

TOP = Path(__file__).resolve().parents[2]
LIBRARIES = ("fe2o3_sasl_wire", "fe2o3_scram", "fe2o3_sasl_core", "fe2o3_sasl", "fe2o3_sasl_negotiation", "sasl_c")
UNCOUNTED = ("sasl_c",)
LIST = "tools/gate/meters.txt"
UNSORTED = "# Put each of these under its reason."
NO_CODE = re.compile(
    r"""//[^\n]*|/\*.*?\*/|b?'(?:\\.[^']*|[^'\\])'|b?"(?:\\.|[^"\\])*"|#!?\[[^\n]*?\]\n|\bghost use\b[^;]*;""", re.S
)
GHOST = re.compile(
    r"\bghost\s+\w+\s*[=:]\s*(?=\{)|\bghost\s*(?=\{)"
    r"|^[ \t]*(?:ensures|requires|invariant|decreases|terminates|proof)(?:[ \t]+\w+)?\s*(?=\{)",
    re.M,
)
HEAD = re.compile(r"\bfn\s+(\w+)")
IMPL = re.compile(r"^(?:impl|(?:pub(?:\(\w+\))? )?trait)\b([^{;]*)\{", re.M)
LOOP = re.compile(r"\b(?:for|while|loop)\b|(?<=[(,])\s*(?:move\s*)?\|[^|]*\|")
MAKES = re.compile(r"\bMeter\s*>?\s*::\s*(?:new|default)\b|\bMeter\s*\{")
OWN = re.compile(r"\bSelf\s*(?:\{|::\s*(?:new|default)\b)")
KIT = re.compile(r"\bsha[12]\s*::|(?<!::)\bSha(?:1|256|512)\b|\.\s*(?:update|finalize)(?=\s*\()")
WORD = re.compile(r"\b([a-z_]\w*)\s*(\(|::\s*<)?")
USE = re.compile(r"\buse\b([^;]*);")
ALIAS = re.compile(r"\b(\w+)\s+as\s+(?!_\b)(\w+)")
HEADED = re.compile(r"\bfn\s*$")
NO_VALUE = re.compile(r"\s*(?:!(?!=)|::?)")
BEFORE = re.compile(r"(\.)\s*$|(\w+)(?:\s*::\s*<[^()]*?>)?\s*>?\s*::\s*$")
LOOKED_FOR = r"\b(?:Meter|[Ss]ha\d+|Digest|Hasher|HmacKey|PaddedKey)\b"
RENAMED = re.compile(
    rf"^[ \t]*use\b[^;]*?{LOOKED_FOR}\s+as\s+\w|\btype\s+\w+[^;=]*=[^;]*{LOOKED_FOR}"
    r"|^[ \t]*pub(?:\([\w ]+\))? use\b[^;]*?\b(?!AllocError\b)\w+\s+as\s+\w",
    re.M,
)
CONSTANT = re.compile(r"^[ \t]*(?:pub(?:\([\w ]+\))? )?(?:const|static)\s+\w+\s*:[^=;]*\bfn\b", re.M)
COPIED = re.compile(
    r"derive\([^)]*(?:Clone|Copy|Default)[^)]*\)\]\s*(?:pub\s+)?struct Meter\b"
    r"|\bimpl\s+(?:Clone|Copy|Default)\s+for\s+Meter\b"
    r"|^[ \t]*(?:pub(?:\(\w+\))? )?(?:const|static)\s+\w+\s*:[^=;]*\bMeter\b",
    re.M,
)


def code_of(text):
    """The code alone, with as many lines."""
    text, pieces, at = NO_CODE.sub(lambda found: "\n" * found[0].count("\n"), text), [], 0
    while found := GHOST.search(text, at):
        end = closing(text, found.end())
        pieces += [text[at : found.start()], "\n" * text.count("\n", found.start(), end)]
        at = end
    return "".join(pieces) + text[at:]


def within(at, parts):
    """Whether a place is in one of these parts."""
    return any(start <= at < end for start, end in parts)


def owner_of(head):
    """The name of the type of an impl, or of a trait."""
    head, count = re.split(r"\bwhere\b", head)[0], 1
    while count:
        head, count = re.subn(r"<[^<>]*>", "", head)
    return re.findall(r"\w+", re.split(r"(?<!:):(?!:)", head.rpartition(" for ")[2])[0])[-1]


def body_of(text, at):
    """Where the body begins of a function whose head begins at a place, or None where it has none."""
    ends = (found for found, depth in brackets(text, at) if (found[0], depth) in ((";", 0), ("{", 1)))
    end = next(ends, None)
    return end.start() if end and end[0] == "{" else None


class Call(NamedTuple):
    """A call of a function, or its name as a value, with the type or the module before it."""

    at: int
    name: str
    type: str
    module: str
    method: bool
    value: bool


class Function:
    """A function with a body, and the names that its file imports."""

    def __init__(self, file, imports, crate, place, owner, name, head, body, line):
        self.file, self.imports, self.crate = file, imports, crate
        self.place, self.owner, self.name = place, owner, name
        self.body, self.line, arguments = body, line, head.split("->")[0]
        self.takes = bool(re.search(r"\bMeter\b", arguments))
        self.of_self = bool(re.search(r"\bself\b", arguments))
        self.locals = defaultdict(list)
        for local, start, end in locals_of(arguments, body):
            self.locals[local].append((start, end))
        own = OWN.finditer(body) if owner == "Meter" else ()
        self.makes = [found.start() for places in (MAKES.finditer(body), own) for found in places]
        self.kit = [(found.start(), re.sub(r"[\s:.]", "", found[0])) for found in KIT.finditer(body)]
        self.loops = [(found.start(), self.loop_end(found)) for found in LOOP.finditer(body)]

    @cached_property
    def calls(self):
        """What may be a call, or the name of a function as a value."""
        calls, uses = [], [found.span() for found in USE.finditer(self.body)]
        for found in WORD.finditer(self.body):
            text = self.body[max(0, found.start() - 80) : found.start()]
            # (the search costs much more than this question)
            before = BEFORE.search(text) if text.rstrip().endswith((".", "::")) else None
            method, path = bool(before and before[1]), before[2] or "" if before else ""
            path = self.owner if path == "Self" else path
            of_type, value = path[:1].isupper(), not found[2]
            if (
                value
                and not of_type
                and (
                    method
                    or NO_VALUE.match(self.body, found.end(1))
                    or HEADED.search(text)
                    or within(found.start(), [*uses, *self.locals[found[1]] * (not path)])
                )
            ):
                continue
            calls.append(Call(found.start(), found[1], path * of_type, path * (not of_type), method, value))
        return calls

    def loop_end(self, found):
        """Where a loop ends: at its block's brace, or at the end of a closure's arguments."""
        if "|" in found[0]:
            return closing(self.body, self.body.rfind("(", 0, found.start() + 1))
        return closing(self.body, self.body.find("{", found.end()))

    def use(self, at, name):
        line = self.line + self.body.count("\n", 0, at)
        return self.place, name + " in a loop" * within(at, self.loops), f"{self.file}:{line}"


def functions_of(file, crate, path, text):
    """The functions of a file."""
    imports = frozenset(word for found in USE.finditer(text) for word in re.findall(r"\w+|\*", found[1]))
    impls = [(found.start(), closing(text, found.end() - 1), owner_of(found[1])) for found in IMPL.finditer(text)]
    for found in HEAD.finditer(text):
        begin = body_of(text, found.end())
        if begin is None:
            continue
        owner = next((name for start, stop, name in impls if start < found.start() < stop), "")
        place = "::".join(part for part in (path, owner, found[1]) if part)
        yield Function(
            file,
            imports,
            crate,
            place,
            owner,
            found[1],
            text[found.end() : begin],
            text[begin : closing(text, begin)],
            text.count("\n", 0, begin) + 1,
        )


@lru_cache(maxsize=None)
def read(file, text):
    """The functions of a file, the names of its traits, and what is refused in it alone."""
    crate, _, path = file.split("/", 3)[1:]
    code, faults = code_of(text), []
    for what, pattern in (("another name", RENAMED), ("a function that is a constant", CONSTANT)):
        faults += [f"{file}: {what}: {found[0].strip()}" for found in pattern.finditer(code)]
    for name, alias in [pair for found in USE.finditer(code) for pair in ALIAS.findall(found[1])]:
        code = re.sub(rf"\b{alias}\b", name, code)
    functions = [*functions_of(file, crate, f"{crate}::{path.removesuffix('.rt').replace('/', '::')}", code)]
    faults += [f"{file}: a Meter can be copied: {found[0].strip()}" for found in COPIED.finditer(text)]
    aliases = dict(re.findall(r"^pub type (\w+)(?:<\w+>)? = (\w+)", code, re.M))
    return functions, {*re.findall(r"\b(?:trait|type) (\w+)", code)} - {*aliases}, aliases, faults


class Sources:
    """The functions of the libraries by their texts, and which of them work where they take no meter."""

    def __init__(self, texts):
        self.functions, self.faults, self.traits, self.aliases = [], [], set(), {}
        for file, text in texts.items():
            functions, traits, aliases, faults = read(file, text)
            self.functions += functions
            self.traits |= traits
            self.aliases |= aliases
            self.faults += faults
        self.by_name, self.callers = defaultdict(list), defaultdict(list)
        for function in self.functions:
            self.by_name[function.name].append(function)
        for function in self.functions:
            for call in function.calls:
                if call.name in self.by_name:
                    self.callers[call.name].append((function, call))
        self.takers = {function for function in self.functions if function.takes}
        self.unseen = self.reached()

    def reached(self):
        """The functions that take no meter, and make one, hash, or call one of them."""
        order = [
            function
            for function in self.functions
            if not function.takes and (function.kit or function.makes and function.owner != "Meter")
        ]
        found = set(order)
        for callee in order:
            for caller, call in self.callers[callee.name]:
                if not caller.takes and caller not in found and self.is_of(caller, call, callee):
                    found.add(caller)
                    order.append(caller)
        return found

    def is_of(self, caller, call, callee):
        """Whether a call of its name may be one of a function."""
        if LIBRARIES.index(caller.crate) < LIBRARIES.index(callee.crate):
            return False
        if not callee.owner:
            near = caller.file == callee.file or call.module or not caller.imports.isdisjoint((callee.name, "*"))
            return bool(near) and not call.method and not call.type
        if call.method:
            return callee.of_self
        any_type = len(call.type) == 1 or call.type in self.traits
        return bool(call.type) and (any_type or callee.owner in (call.type, self.aliases.get(call.type)))

    def uses(self):
        """Each use that has to be in the list: its function, its name, and its file and line."""
        for function in self.functions:
            yield from (function.use(at, "Meter::new") for at in function.makes)
            yield from (function.use(at, name) for at, name in function.kit)
        for name, calls in self.callers.items():
            for caller, call in calls:
                all_takers = caller.makes or caller.crate in UNCOUNTED
                pinned = self.unseen | self.takers if all_takers else self.unseen
                if any(callee in pinned and self.is_of(caller, call, callee) for callee in self.by_name[name]):
                    as_value = " as a value" * (call.value and not call.type)
                    yield caller.use(call.at, (f"{call.type}::" if len(call.type) > 1 else "") + name + as_value)


def found_in(sources):
    """The uses of each place, as the list writes them, each with the file and line of its last."""
    uses = list(sources.uses())
    counts, last = Counter(use[:2] for use in uses), {use[:2]: use[2] for use in uses}
    found = defaultdict(dict)
    for place, name in sorted(counts):
        count = counts[place, name]
        found[place][name + (f" x{count}" if count > 1 else "")] = last[place, name]
    return found


def line_of(place, uses):
    return textwrap.fill(f"{place}: {', '.join(uses)}", 120, subsequent_indent="    ", break_long_words=False)


def listed_in(text):
    lines = [line.rsplit(": ", 1) for line in text.replace("\n    ", " ").splitlines() if re.match(r"\w.*: ", line)]
    return {place: uses.split(", ") for place, uses in lines}


def faults_of(texts, text):
    """What is refused in sources, by their texts, and in a list."""
    sources = Sources(texts)
    found, listed = found_in(sources), listed_in(text)
    faults = sources.faults + [f"{LIST} says: {UNSORTED}"] * (UNSORTED in text)
    for place in sorted(set(found) | set(listed)):
        has, may = found.get(place, {}), listed.get(place, [])
        faults += [f"{has[use]}: {place}: {use}: {LIST} has no such use" for use in has if use not in may]
        faults += [f"{LIST}: {place}: {use}: no such use is left" for use in may if use not in has]
    return faults


def renewed(texts, text):
    """The list as the sources would have it, under the reasons that it has."""
    found, out = found_in(Sources(texts)), []
    for line in text.replace("\n    ", " ").splitlines():
        place = line.rsplit(": ", 1)[0]
        if line[:1] in ("", "#"):
            out.append(line)
        elif place in found:
            out.append(line_of(place, found.pop(place)))
    rest = [line_of(place, uses) for place, uses in found.items()]
    return "\n".join(out + ["", UNSORTED] * bool(rest) + rest) + "\n"


def texts_of(top):
    """The sources of the libraries, by their paths from the folder of the repository."""
    return {
        file.relative_to(top).as_posix(): file.read_text(encoding="utf-8")
        for crate in LIBRARIES
        for file in sorted((top / "crates" / crate / "src").rglob("*.rt"))
    }


def main():
    texts, text = texts_of(TOP), (TOP / LIST).read_text(encoding="utf-8")
    if "--list" in sys.argv:
        print(renewed(texts, text), end="")
    elif faults := faults_of(texts, text):
        sys.exit("\n".join(f"meters: {fault}" for fault in faults))
    else:
        print(f"meters: {len(listed_in(text))} functions have the uses that {LIST} allows")


if __name__ == "__main__":
    main()
