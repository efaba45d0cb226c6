#!/usr/bin/env python3
"""Checks the links from docs/THEOREMS.md to the sources, and rewrites their line numbers.

    tools/gate/theorem_links.py           prints each link whose line does not declare what the link names
    tools/gate/theorem_links.py write     rewrites the line numbers first

A link names what its line declares, [`NAME`](FILE#L12): a definition of specs/; a function, or a method as `TYPE::METHOD`;
a type; or a clause by its name, or as `ensures` if it has none. A clause is one of the function that the link before it
names. Each item of the sections of laws, and any other with such a link, ends with four or more: a function, one or more
pairs of a clause and the definition that it uses, and the public function of which the clause speaks. A clause has to name
its definition, and its file has to import it from the file of the link. Any other link to a line of a source is a fault.

An item may explain words, and link files of specs/ without a line. The words before its colon are declared there.

The exit status is 1 if there is a fault.
"""
import re
import sys
from dataclasses import dataclass
from pathlib import Path

sys.dont_write_bytecode = True
sys.path.insert(0, str(Path(__file__).resolve().parents[1]))

from prose import top_of
from trusted_definitions import imports_of

PAGE = "docs/THEOREMS.md"
# The sections in which each item is a law.
LAWS = ("## The theorem", "## Over bytes", "## Over frame bodies")
LINK = re.compile(r"\[`([^`\]]+)`\]\(([^()#\s]+\.(?:rt|antt))#L(\d+)\)")
FILE = re.compile(r"\]\(([^()#\s]+\.antt)\)")
TO_LINE = re.compile(r"\[[^\]]*\]\([^()\s]*\.(?:rt|antt)#L[^()\s]*\)|^ *\[[^\]]*\]: \S*\.(?:rt|antt)#L.*", re.M)
ITEM = re.compile(r"(?:- |\d+\. )")
FUNCTION = r"\s*(?:pub(?:\(\w+\))? )?(?:const )?(?:extern \"C\" )?fn {}\b"
TYPE = r"(?:pub )?(?:struct|enum|trait|type|const) {}\b"
DEFINITION = r"(?:abbrev |unfoldable |infix\w* \d+ \S+ )*(?:pub )?(?:record |data )?{}(?![\w-])"
FIELD = r"\s+(?:pub )?{} :"
OWNER = re.compile(r"(?:impl|(?:pub )?trait)\b")


class Wrong(Exception):
    """What is wrong with a link or with an item."""


@dataclass
class Link:
    """A link of the page: where it begins, its name, its file and line, and its kind."""

    start: int
    name: str
    file: str
    line: int
    kind: str


class Sources:
    """The files that the page links to, each as its lines, read once."""

    def __init__(self, top, page=PAGE):
        self.top, self.folder, self.files = top, (top / page).parent, {}

    def lines(self, file):
        if file not in self.files:
            path = (self.folder / file).resolve()
            if self.top not in path.parents or not path.is_file():
                raise Wrong(f"there is no file {file}")
            self.files[file] = path.read_text(encoding="utf-8").split("\n")
        return self.files[file]

    def matching(self, file, pattern):
        """The numbers of the lines that begin with a pattern."""
        return [at for at, line in enumerate(self.lines(file), 1) if re.match(pattern, line)]

    def owner(self, file, line):
        """The last line before this one that begins an impl or a trait."""
        return next((it for it in reversed(self.lines(file)[: line - 1]) if OWNER.match(it)), "")

    def definition(self, file, name):
        found = self.matching(file, DEFINITION.format(re.escape(name)))
        if not found:
            raise Wrong(f"{file} does not define {name}")
        return found[0]

    def function(self, file, name):
        """The line of a function or of a type."""
        owner, _, last = name.rpartition("::")
        found = self.matching(file, FUNCTION.format(last))
        if owner:
            found = [at for at in found if re.search(rf"\b{owner}\b", self.owner(file, at))]
        else:
            found += self.matching(file, TYPE.format(last))
        if len(found) != 1:
            raise Wrong(f"{file} has {len(found)} functions and types of the name {name}, and needs one")
        return found[0]

    def clause(self, file, function, name):
        """The line of a clause of the function at a line."""
        pattern = re.compile(r"\s+ensures \{" if name == "ensures" else rf"\s+ensures {name} \{{")
        for at, line in enumerate(self.lines(file)[function:], function + 1):
            if pattern.match(line):
                return at
            if line.strip() in ("{", "{}") or re.match(r"\s*}", line):
                break
        raise Wrong(f"the function at {file}:{function} has no clause {name}")

    def clause_text(self, file, line):
        """A clause, from its first brace to the one that closes it."""
        text = "\n".join(self.lines(file)[line - 1 :])
        begin = text.index("{")
        end, depth = begin, 0
        for end, sign in enumerate(text[begin:], begin):
            depth += {"{": 1, "}": -1}.get(sign, 0)
            if depth == 0:
                break
        return text[begin:end]

    def module(self, file):
        """The name by which sources import a file of specs/."""
        parts = (self.folder / file).resolve().relative_to(self.top / "crates").with_suffix("").parts
        return ".".join(("Rattle", *parts))

    def uses(self, clause, line, definition):
        """Raises unless the clause at a line names the definition, and imports it from that file."""
        imported, _, _ = imports_of(self.lines(clause.file))
        module = imported.get(definition.name, ("nowhere", ""))[0]
        if not re.search(rf"(?<![\w-]){re.escape(definition.name)}(?![\w-])", self.clause_text(clause.file, line)):
            raise Wrong(f"the clause {clause.name} at {clause.file}:{line} does not name {definition.name}")
        if module != self.module(definition.file):
            raise Wrong(f"{clause.file} has {definition.name} from {module}, and not from {definition.file}")


def items_of(text):
    """The items of the page's lists that have links or need them: where each begins, and its links with their kinds."""
    at, section = 0, ""
    for block in re.split(r"(?<=\n)(?=- |\d+\. |\n)", text):
        found = list(LINK.finditer(block))
        section = block.strip() if block.strip().startswith("## ") else section
        if ITEM.match(block) and (found or section in LAWS):
            yield at, [
                Link(at + it.start(), it[1], it[2], int(it[3]), kind_of(it, found[place + 1 :]))
                for place, it in enumerate(found)
            ]
        at += len(block)


def kind_of(link, after):
    if link[2].endswith(".antt"):
        return "definition"
    return "clause" if after and after[0][2].endswith(".antt") else "function"


def form_fault(links):
    """What is wrong with the order of an item's links, or None."""
    order = "".join({"function": "f", "clause": "c", "definition": "d"}[link.kind] for link in links)
    if re.fullmatch(r"(?:f(?:cd)+)+f", order):
        return None
    found = ", ".join(f"{link.kind} {link.name}" for link in links) or "no link"
    return f"an item has a function, then clauses each with a definition, and last a call; this one has {found}"


def resolved(sources, links):
    """The right line of each link of an item."""
    lines, function = [], None
    for place, link in enumerate(links):
        if link.kind == "definition":
            lines.append(sources.definition(link.file, link.name))
            sources.uses(links[place - 1], lines[-2], link)
        elif link.kind == "function":
            lines.append(sources.function(link.file, link.name))
            function = link
        else:
            if link.file != function.file:
                raise Wrong(f"the clause {link.name} is not in the file of {function.name}")
            lines.append(sources.clause(link.file, sources.function(link.file, function.name), link.name))
    return lines


def word_faults(sources, text):
    """The words before the colon of an item that the linked files of specs/ do not declare."""
    for at, item in enumerate(text.split("\n"), 1):
        files = FILE.findall(item) if item.startswith("- ") else []
        for name in re.findall(r"`(\w+)(?: [^`]*)?`", item.partition(": ")[0]) if files else ():
            patterns = [pattern.format(name) for pattern in (DEFINITION, FIELD)]
            try:
                if not any(sources.matching(file, pattern) for file in files for pattern in patterns):
                    yield at, f"{', '.join(files)} does not declare {name}"
            except Wrong as why:
                yield at, str(why)


def form_faults(text, items):
    """The links to lines that are of another form, or outside the items of lists."""
    checked = {link.start for _, links in items for link in links}
    for found in TO_LINE.finditer(text):
        if found.start() not in checked:
            yield text.count("\n", 0, found.start()) + 1, f"nothing checks the line of {found[0]}"


def check(top, text):
    """The faults of the page, each with its line; the page with the right numbers; and how many links it has."""
    items = list(items_of(text))
    sources, faults, changes, count = Sources(top), list(form_faults(text, items)), [], 0
    for start, links in items:
        place, count = text.count("\n", 0, start) + 1, count + len(links)
        try:
            if fault := form_fault(links):
                raise Wrong(fault)
            for link, line in zip(links, resolved(sources, links)):
                if line != link.line:
                    faults.append((place, f"`{link.name}` is at line {line} of {link.file}, and not at {link.line}"))
                    changes.append((link, line))
        except Wrong as why:
            faults.append((place, str(why)))
    for link, line in reversed(changes):
        end = text.index(")", text.index("#L", link.start))
        text = text[: text.index("#L", link.start)] + f"#L{line}" + text[end:]
    return faults + list(word_faults(sources, text)), text, count


def main():
    if sys.argv[1:] not in ([], ["write"]):
        sys.exit(__doc__)
    top = top_of(Path.cwd().resolve())
    page = top / PAGE
    faults, text, count = check(top, page.read_text(encoding="utf-8"))
    if sys.argv[1:]:
        page.write_text(text, encoding="utf-8")
        faults, _, count = check(top, text)
    for line, fault in faults:
        print(f"theorem_links: {PAGE}:{line}: {fault}")
    if faults:
        print("theorem_links: tools/gate/theorem_links.py write rewrites line numbers, and nothing else")
    print(f"theorem_links: {count} links of {PAGE}, {len(faults)} faults")
    sys.exit(bool(faults))


if __name__ == "__main__":
    main()
