#!/usr/bin/env python3
"""Writes docs/WRONG_BODIES.md and the counts in README.md, and checks the names of the pages for auditors.

    tools/generate/audit_pages.py write     writes the page, and the counts in README.md
    tools/generate/audit_pages.py check     writes nothing; ends with status 1 if the page or a count of README.md is stale,
                                            or if a page for auditors has a name in backticks that no source has

The page has a row for each wrong body: its name, the first sentence of its edit, the function that it changes, and the
clause of that function at which the check fails. It begins with those that break the headline theorem.
README.md quotes how many lines of definitions the theorem rests on, as tools/trusted_definitions.py counts them.
"""
import re
import sys
from dataclasses import dataclass
from pathlib import Path

HERE = Path(__file__).resolve().parent
sys.path[:0] = [str(HERE), str(HERE.parent)]

import trusted_definitions as trusted
from signatures import CRATES, LIBRARIES, first_sentence

PAGE = CRATES.parent / "docs" / "WRONG_BODIES.md"
README = CRATES.parent / "README.md"
WIDTH = 400
# The pages written by hand whose names are looked for in the sources.
BY_HAND = ("docs/THEOREMS.md", "docs/SPECIFICATION.md")
# A name of code or of a definition: with an underscore or a capital, or a file.
NAME = re.compile(r"(?=\w*[A-Z_.])[A-Za-z]\w*(?:(?:::|\.)\w+)*")
INTRODUCTION = """# Wrong bodies

A wrong body is an edit that plants a fault in one function. The gate plants each of the {count} and fails unless the proof
of that function fails at a clause of its contract. The last column has the function and the name of the clause, or of a
definition that the clause uses; without one, it is the clause without a name. [CONTRIBUTING.md](../CONTRIBUTING.md) has
the form of an edit. `tools/generate/audit_pages.py write` writes this page.

`tools/gate/wrong_bodies.py --kept CRATE --only WORD` tries those of a crate with this word in their names. It needs the kit,
and proves the libraries below the crate first, if no earlier check kept them.

These faults break a sentence of the [headline theorem](THEOREMS.md#the-theorem), or what a `Server` or an audit has of it:

| Sentence | Edit | Fault | Rejected in |
|---|---|---|---|
{headline}
"""
# The faults that the page begins with: a sentence of the headline theorem, and the wrong bodies that break it.
HEADLINE = {
    "1": (
        ("fe2o3_scram", "right_not_tested"),
        ("fe2o3_scram", "looks_up_again"),
        ("fe2o3_scram", "challenge_stays_open"),
        ("fe2o3_scram", "refuses_every_response"),
    ),
    "1, of a `Server`": (
        ("fe2o3_sasl_core", "user_named_before_proof"),
        ("fe2o3_sasl_core", "response_judged_by_another_hash"),
        ("fe2o3_sasl_core", "identity_without_right"),
    ),
    "1 and 2": (("fe2o3_scram", "signature_by_prefix"),),
    "2": (
        ("fe2o3_sasl_core", "reports_any_ok"),
        ("fe2o3_sasl_core", "ok_without_signed_challenge"),
        ("fe2o3_scram", "answer_survives_new_start"),
    ),
    "3": (
        ("fe2o3_scram", "rebuilds_auth_message"),
        ("fe2o3_scram", "rebuilds_auth_message_server"),
    ),
    "of the audit": (("fe2o3_sasl", "other_key_always"),),
}
# What an edit says of the clause: that it has no name, or its names and, after them, the function.
NO_NAME = re.compile(r"(?:the|its)(?: one)? (?:clause|contract)(?: of .*)?|")
NAMES = re.compile(r"(?:the |its )?(?:one )?(?:clauses? )?\(?((?:`\w+`(?:, | and (?:by )?)?)+)\)?(?: \(.*\)| (of .*))?")


@dataclass
class WrongBody:
    """An edit: its name, its first sentence, what it says of the clause, and the function that it changes."""

    name: str
    sentence: str
    refused: str
    function: str

    def clause(self):
        """The names of the clause, if it has one, and its function, if that is not the changed one."""
        if NO_NAME.fullmatch(self.refused):
            return ""
        found = NAMES.fullmatch(self.refused)
        if not found:
            return self.refused
        names = ", ".join(re.findall(r"`\w+`", found[1]))
        other = re.search(r"(\w+)`", found[2] or "")
        same = not other or other[1] in self.function.split("::")
        return names if same else f"{names} {found[2]}"

    def row(self, crate):
        link = f"[{self.name}](../crates/{crate}/wrong-bodies/{self.name}.edit)"
        place = f"`{self.function}`" + f": {self.clause()}" * bool(self.clause())
        return f"| {link} | {self.sentence} | {place} |"


def function_at(text, at):
    """The function whose body has this place: a method by its type."""
    heads = [
        it
        for it in re.finditer(r"^( *)(?:pub(?:\(\w+\))? )?(?:const )?(?:extern \"C\" )?fn (\w+)", text, re.M)
        if it.start() <= at
    ]
    if not heads:
        return ""
    owners = [
        it
        for it in re.finditer(r"^(?:impl(?:<.*?>)? (?:[^{\n]* for )?|pub trait )(\w+)", text, re.M)
        if it.start() < heads[-1].start()
    ]
    return f"{owners[-1][1]}::{heads[-1][2]}" if heads[-1][1] and owners else heads[-1][2]


def wrong_bodies(crate):
    for edit in sorted((CRATES / crate / "wrong-bodies").glob("*.edit")):
        lines = edit.read_text(encoding="utf-8").splitlines()
        start = next(at for at, line in enumerate(lines) if line.startswith("file:"))
        text = " ".join(line.strip() for line in lines[:start])
        refused = re.search(r"(?:Refused|Rejected) by (.*?)(?:[:,](?= )|\.(?= |$)|$)", text)
        old = next(line for line in lines if line.startswith("old: ")).removeprefix("old: ")
        source = (CRATES / crate / lines[start].removeprefix("file:").strip()).read_text(encoding="utf-8")
        place = function_at(source, source.find(old))
        yield WrongBody(edit.stem, first_sentence([text]), refused[1] if refused else "", place)


def page():
    found = {path.parent.parent.name for path in CRATES.glob("*/wrong-bodies/*.edit")}
    crates = [crate for crate in LIBRARIES if crate in found] + sorted(found.difference(LIBRARIES))
    rows = {crate: {body.name: body.row(crate) for body in wrong_bodies(crate)} for crate in crates}
    first = [f"| {of} {rows[crate][name]}" for of, bodies in HEADLINE.items() for crate, name in bodies]
    out = [INTRODUCTION.format(count=sum(map(len, rows.values())), headline="\n".join(first))]
    for crate, mine in rows.items():
        out += [f"## `{crate}`", "", "| Edit | Fault | Rejected in |", "|---|---|---|", *mine.values(), ""]
    return "\n".join(out)


# The laws over bytes, and what README.md says of the lines of their definitions.
LAWS = ("fe2o3_sasl_negotiation::server_connections", "fe2o3_sasl_negotiation::client_connections")
QUOTED = re.compile(
    r"[\d,]+ lines for the theorem over frames, [\d,]+ over bytes, and [\d,]+ with the arguments of the laws\. "
    r"With `Server` and clients by a policy they are [\d,]+"
)
# The modules of `connection_laws` with the laws of a `Server` and of clients by a policy.
OF_SERVERS = ("servers", "server_logins", "server_pairs", "policy_clients")


def laws_of_servers():
    """The definitions that the clauses of these modules state, each with its module."""
    for module in OF_SERVERS:
        text = (CRATES / "connection_laws/src" / f"{module}.rt").read_text(encoding="utf-8")
        homes = {
            name.strip().split(" as ")[0]: used[1]
            for used in re.finditer(r"^ghost use ([\w.]+)\.\{(.*)\};", text, re.M)
            for name in used[2].split(",")
        }
        yield from (f"{homes[name]}:{name}" for name in re.findall(r"^    ensures \w* ?\{ (\w+)", text, re.M))


def quoted_counts():
    """The words of README.md on the lines of the definitions: over frames, over bytes, these with the arguments, and all."""
    starts, arguments = trusted.statements(LAWS)
    more = starts + arguments
    all_laws = more + trusted.statements(laws_of_servers())[0]
    counts = (trusted.reached_from(trusted.HEADLINE), *map(trusted.rest_on, (starts, more, all_laws)))
    frames, stream, linked, every = (f"{trusted.lines_of(reached):,}" for reached in counts)
    return (
        f"{frames} lines for the theorem over frames, {stream} over bytes, and {linked} with the arguments of the laws. "
        f"With `Server` and clients by a policy they are {every}"
    )


def counts_fault(text, counts):
    """What is wrong with the counts in the text of README.md, or None: it has to have these words once."""
    found = QUOTED.findall(text)
    if len(found) != 1:
        return f"README.md has {len(found)} places that say the lines of the definitions, and needs one: {counts}"
    return None if found[0] == counts else f"README.md is stale: is '{found[0]}', and has to be '{counts}'"


def unknown_names():
    """The names in backticks of the pages written by hand that no source has, each with its place."""
    top = CRATES.parent
    files = [path for path in CRATES.glob("*/*/**/*") if path.suffix in (".rt", ".antt") and "out" not in path.parts]
    known = (
        {path.name for path in files} | {path.name for path in top.iterdir()} | {path.name for path in CRATES.iterdir()}
    )
    for path in files:
        known |= set(re.findall(r"\w+", path.read_text(encoding="utf-8")))
    for by_hand in BY_HAND:
        for at, line in enumerate((top / by_hand).read_text(encoding="utf-8").splitlines(), 1):
            for name in re.findall(r"`([^` ]+)`", line):
                parts = [name] if name.endswith((".antt", ".rt")) else re.split(r"::|\.", name)
                if NAME.fullmatch(name) and not known.issuperset(parts):
                    yield f"{by_hand}:{at}: no source has `{name}`"


def main():
    if sys.argv[1:] not in (["write"], ["check"]):
        sys.exit(__doc__)
    text, wrong, counts = page(), [], quoted_counts()
    readme = README.read_text(encoding="utf-8")
    if sys.argv[1] == "write":
        PAGE.write_text(text, encoding="utf-8")
        readme = QUOTED.sub(counts, readme)
        README.write_text(readme, encoding="utf-8")
    else:
        wrong += unknown_names()
        if not PAGE.exists() or PAGE.read_text(encoding="utf-8") != text:
            wrong.append("docs/WRONG_BODIES.md is stale: tools/generate/audit_pages.py write")
    if fault := counts_fault(readme, counts):
        wrong.append(fault)
    wrong += [f"{len(line)} characters: {line[:80]} .." for line in text.splitlines() if len(line) > WIDTH]
    for line in wrong:
        print(f"audit_pages: {line}", file=sys.stderr)
    if not wrong and sys.argv[1] == "check":
        print("audit_pages: docs/WRONG_BODIES.md, the counts of README.md and the names of the pages are right")
    sys.exit(1 if wrong else 0)


if __name__ == "__main__":
    main()
