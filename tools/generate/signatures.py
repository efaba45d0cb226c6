#!/usr/bin/env python3
"""Writes a page of signatures for each library from its sources. No page is committed.

    tools/generate/signatures.py write [FOLDER]     writes FOLDER/NAME.md, by default in build/docs/signatures

A page has each public type, trait, constant and function of each public module, as the source writes it without contract
and body, after the first sentence of its comment. The clauses of a call follow by name, each with the definitions of
specs/ that it cites. An item of a private module is listed in the module that re-exports it. An item of a public module
is only named where it is re-exported. The exports of the C library are listed at its root. The layout is that of
`rt fmt`, on which this relies: items begin at the first column, methods at the fifth.
"""
import os
import re
import sys
from dataclasses import dataclass, field
from pathlib import Path

TOP = Path(__file__).resolve().parents[2]
CRATES = TOP / "crates"
FOLDER = TOP / "build" / "docs" / "signatures"
LIBRARIES = (
    "fe2o3_sasl_negotiation",
    "fe2o3_sasl_core",
    "fe2o3_scram",
    "fe2o3_sasl",
    "connection_laws",
    "fe2o3_sasl_wire",
    "saslprep",
    "sasl_c",
)
WIDTH = 100
EXPORT = 'pub extern "C" fn '
ITEM = re.compile(r'pub (?:const )?(?:extern "C" )?(fn|struct|enum|trait|const|static|type) (\w+)')
CONTRACT = re.compile(r"\s*(ensures|requires|ghost|decreases|terminates)\b")
USE = re.compile(r"ghost use Rattle\.(\w+)\.specs\.(?!declared)(?:\w+\.)*\{(.*)\};")


@dataclass
class Item:
    """A type, a trait, a function or a constant: its lines, comments apart."""

    kind: str
    name: str
    sentence: str
    lines: list
    traits: list = field(default_factory=list)


@dataclass
class Module:
    """A module: its path, its definitions, its re-exports as paths, and the names that it imports from specs/."""

    path: tuple
    public: bool
    sentence: str
    cited: set = field(default_factory=set)
    items: dict = field(default_factory=dict)
    exports: list = field(default_factory=list)
    impls: list = field(default_factory=list)


def first_sentence(comment):
    """The first sentence, and the second too where the first says no more than "As `another`."."""
    text = " ".join(line.strip() for line in comment).strip()
    found = re.match(r"(?:As `\w+`\. )?.*?\.(?=\s|$)", text)
    return found[0] if found else text


def unlinked(sentence):
    """A sentence without the links of rustdoc, whose targets are paths of items."""
    return re.sub(r"\[(`[^`]*`)\](?:\([\w:]+\))?", r"\1", sentence)


def joined(lines):
    """A signature on one line, where it fits."""
    indent = re.match(r"\s*", lines[0])[0]
    text = " ".join(line.strip() for line in lines)
    text = re.sub(r"(?<=[(\[]) | (?=[)\]])", "", text)
    text = re.sub(r",(?=[)\]])", "", text)
    return [indent + text] if len(indent + text) <= WIDTH else lines


def signature(block):
    """The lines of a function up to its contract, its body or its end, closed by a semicolon."""
    taken = []
    for line in block:
        if CONTRACT.match(line) or line.strip() == "{":
            break
        bare = re.sub(r"\s*(\{.*|;)$", "", line)
        taken.append(bare)
        if bare != line:
            break
    taken = joined(taken)
    return taken[:-1] + [taken[-1] + ";"]


def fields(block):
    """A struct or an enum: its public fields, or its variants, without comments."""
    head = re.sub(r"\s*\{?$", "", block[0])
    if block[0].rstrip().endswith(";"):
        inner = re.search(r"\((.*)\);", block[0])
        private = inner and "pub " not in inner[1]
        return [re.sub(r"\(.*\);", ";", block[0]) if private else block[0].rstrip()]
    if block[0].rstrip().endswith("{}"):
        return [block[0].rstrip()]
    inside = [line for line in block[1:-1] if line.strip() and not re.match(r"\s*(//|#\[)", line)]
    if re.search(r"\benum\b", head):
        return wrapped(head, entries(inside))
    shown, hidden = [], False
    for entry in entries(inside):
        if entry.startswith("pub "):
            shown.append(entry)
        elif not entry.startswith("ghost"):
            hidden = True
    return wrapped(head, shown + ([".."] if hidden else []))


def entries(lines):
    """The fields or variants of a body, each on one line."""
    found, depth = [], 0
    for line in lines:
        text = line.strip()
        if depth == 0:
            found.append(text)
        else:
            found[-1] += " " + text
        depth += len(re.findall(r"[{(\[]", text)) - len(re.findall(r"[})\]]", text))
    return [re.sub(r",\s*([)}])", r" \1" if "{" in entry else r"\1", entry).rstrip(",") for entry in found]


def wrapped(head, parts):
    """A type on one line, where it fits, or a part on each line."""
    line = f"{head} {{ {', '.join(parts)} }}" if parts else f"{head} {{}}"
    if len(line) <= WIDTH:
        return [line]
    return [head + " {"] + [f"    {part}," if part != ".." else "    .." for part in parts] + ["}"]


def cited(text):
    """The names that a file imports from the specs of this project's crates."""
    found = set()
    for crate, names in USE.findall(text):
        if (CRATES / crate).is_dir():
            found |= {name.split(" as ")[-1].strip() for name in names.split(",")}
    return found


def head_of(block):
    """The lines of a function before its body."""
    indent = re.match(r"\s*", block[0])[0]
    for at, line in enumerate(block):
        if line in (indent + "{", indent + "{}"):
            return block[:at]
        beside = line.startswith(indent) and line[len(indent) : len(indent) + 1] not in (" ", ")", "")
        if at and beside and line.strip() != "where":
            return block[:at]
        if at == 0 and line.endswith("{") or line.startswith(indent + ")") and line.endswith("{"):
            return block[: at + 1]
        if line.endswith(";"):
            return block[: at + 1]
    return block


def clauses_of(block, names):
    """The clauses of a function: the name of each, and those of these definitions that it cites, predicates first."""
    text = "\n".join(head_of(block))
    for clause in re.finditer(r"^\s+ensures (\w+ )?\{", text, re.M):
        end, depth = clause.end(), 1
        while depth and end < len(text):
            depth += {"{": 1, "}": -1}.get(text[end], 0)
            end += 1
        words = dict.fromkeys(re.findall(r"[\w-]+", text[clause.end() : end]))
        mine = [word for word in words if word in names and word != "record"]
        yield (clause[1] or "").strip(), sorted(mine, key=lambda word: not word[0].isupper())


def promises(block, names, indent=""):
    """The clauses of a function as a comment."""
    shown = [
        f"{name} ({', '.join(mine)})" if mine and name else name or ", ".join(mine) or "unnamed"
        for name, mine in clauses_of(block, names)
    ]
    return comment_of(f"Clauses: {'; '.join(shown)}.", indent, "//") if shown else []


def members(block, opening):
    """The functions of a trait or of an impl: the sentence of each, and the lines from it on; and names of ghost items."""
    found, ghosts, comment, at = [], [], [], 1
    while at < len(block):
        line = block[at]
        if line.startswith("    ///"):
            comment.append(line.strip()[3:])
        elif ghost := re.match(r"    ghost (?!use)(\w+)", line):
            ghosts.append(ghost[1])
            comment = []
        elif line.startswith(opening):
            end = at + 1
            while end < len(block) and block[end].startswith("        ") or block[end].strip() in (")", ") {"):
                end += 1
            found.append((first_sentence(comment), block[at:]))
            comment = []
        elif not line.startswith("    #["):
            if line.strip():
                comment = []
        at += 1
    return found, ghosts


def method(sentence, block, names):
    """A function of a trait or of an impl, as the page has it."""
    return comment_of(sentence, "    ") + promises(block, names, "    ") + signature(block)


def comment_of(sentence, indent="", mark="///"):
    """A sentence as a comment, broken at the width."""
    lines, now = [], ""
    for word in sentence.split():
        if len(indent) + len(mark) + len(now) + 2 + len(word) > WIDTH and now:
            lines.append(now)
            now = word
        else:
            now = f"{now} {word}".strip()
    return [f"{indent}{mark} {line}" for line in lines + [now] if line]


def read(crate, path, public):
    """Reads a module and those below it."""
    base = CRATES / crate / "src"
    file = base.joinpath(*path).with_suffix(".rt") if path else base / "lib.rt"
    text = file.read_text(encoding="utf-8")
    lines = text.splitlines()
    head = [line[3:] for line in lines if line.startswith("//!")]
    module = Module(path, public, unlinked(first_sentence(head)), cited(text))
    below, comment, derived, tested, at = [], [], [], False, 0
    while at < len(lines):
        line = lines[at]
        end = at + 1
        if line.startswith("///"):
            comment.append(line[3:])
            at = end
            continue
        if line.startswith("#["):
            while not lines[end - 1].rstrip().endswith("]"):
                end += 1
            attribute = " ".join(lines[at:end])
            if derive := re.match(r"#\[derive\((.*)\)\]", attribute):
                derived += [name.split("::")[-1].strip() for name in derive[1].split(",")]
            tested = tested or attribute.startswith("#[cfg(test)]")
            at = end
            continue
        if line and not line.startswith((" ", "//", "#")):
            while end < len(lines) and not closes(lines[at:end]):
                end += 1
            block = lines[at:end]
            if tested:
                pass
            elif mod := re.match(r"(pub )?(?:pub\(\w+\) )?mod (\w+);", line):
                below.append((path + (mod[2],), public and mod[1] is not None))
            elif line.startswith("pub use "):
                module.exports += exported(" ".join(part.strip() for part in block), path)
            elif item := ITEM.match(line):
                module.items[item[2]] = Item(item[1], item[2], first_sentence(comment), block, derived)
            elif line.startswith("impl"):
                module.impls.append(block)
        if line.strip() or not lines[at]:
            comment, derived, tested = [], [], False
        at = end
    return [module] + [found for inner, shown in below for found in read(crate, inner, shown)]


def closes(block):
    """Whether these lines are a whole item."""
    last = block[-1]
    return (
        last in ("}", "{}")
        or last.endswith(";")
        and not last.startswith(" ")
        or (len(block) == 1 and last.endswith("}"))
    )


def exported(text, path):
    """The names that a line `pub use` brings, with the path of each: a path of this crate begins with `crate`."""
    use = re.match(r"pub use ([\w:]+?)(?:::\{(.*)\}| as (\w+))?;$", text)
    stem = use[1].split("::")
    if stem[0] == "self":
        stem = ["crate", *path, *stem[1:]]
    elif stem[0] == "super":
        stem = ["crate", *path[:-1], *stem[1:]]
    if use[2]:
        return [(name.strip(), (*stem, name.strip())) for name in use[2].split(",") if name.strip()]
    return [(use[3] or stem[-1], tuple(stem))]


class Library:
    """A library, as its page shows it."""

    def __init__(self, crate):
        self.crate = crate
        self.modules = {module.path: module for module in read(crate, (), True)}
        self.places = {}
        for module in self.modules.values():
            for name in module.items if module.public else ():
                self.places[module.path, name] = module.path
        public = [module for module in self.modules.values() if module.public]
        for module in sorted(public, key=lambda module: module.path == ()):
            for name, path in module.exports:
                origin = self.origin(module, path)
                if origin and not self.modules[origin[0]].public:
                    self.places.setdefault(origin, module.path)
        for module in self.modules.values():
            for name, item in module.items.items():
                if item.lines[0].startswith(EXPORT):
                    self.places[module.path, name] = ()

    def origin(self, module, path):
        """The module of this crate that defines a path, and the name there; or None."""
        if path[0] == "crate":
            parts = path[1:]
        elif module.path + path[:1] in self.modules:
            parts = module.path + path
        else:
            return None
        home, name = tuple(parts[:-1]), parts[-1]
        if home not in self.modules:
            return None
        if name in self.modules[home].items:
            return home, name
        for inner, target in self.modules[home].exports:
            if inner == name and (home, name) != (module.path, path):
                return self.origin(self.modules[home], target)
        return None

    def page(self):
        out = [
            f"# Signatures of `{self.crate}`",
            "",
            "Every public item by module, with the first sentence of its comment and the clauses of its contract: the name",
            "of each, and the definitions of `specs/` that it cites. The contracts themselves are in the sources. A call",
            "without a clause is proved to return, and to keep the conditions of the calls that it makes.",
        ]
        for module in self.modules.values():
            if module.public:
                out += self.section(module)
        return "\n".join(out) + "\n"

    def section(self, module):
        shown = [origin for origin, place in self.places.items() if place == module.path]
        named = self.named(module)
        if not shown and not named:
            return []
        out = ["", f"## `{'::'.join((self.crate, *module.path))}`", ""]
        if module.path and module.sentence:
            out += [module.sentence, ""]
        if named:
            out += ["Re-exports, by the module that has them:", "", *(f"- {line}" for line in named), ""]
        if shown:
            code = []
            for origin in shown:
                code += ([""] if code else []) + self.item(*origin)
            out += ["```rust", *code, "```"]
        return out if out[-1] else out[:-1]

    def named(self, module):
        """What a module re-exports from public modules, of this crate or of another: by module."""
        groups = {}
        for name, path in module.exports:
            origin = self.origin(module, path)
            if origin and self.places.get(origin) == module.path:
                continue
            home = self.crate_path(self.places.get(origin, origin[0]) if origin else path[:-1], origin)
            shown = f"`{name}`" if name == path[-1] else f"`{path[-1]}` as `{name}`"
            groups.setdefault(home, []).append(shown)
        return [f"`{home}`: {', '.join(names)}" for home, names in groups.items()]

    def crate_path(self, path, origin):
        if origin:
            return "::".join((self.crate, *path))
        return "::".join((self.crate, *path[1:]) if path[0] == "crate" else path)

    def item(self, home, name):
        item, names = self.modules[home].items[name], self.modules[home].cited
        out = comment_of(item.sentence)
        if item.kind == "fn":
            return out + promises(item.lines, names) + signature(item.lines)
        if item.kind == "trait":
            return out + self.trait(item, names)
        if item.kind == "type":
            return out + [" ".join(line.strip() for line in item.lines)] + self.methods(item)
        if item.kind in ("const", "static"):
            return out + [
                re.sub(r"\s*=.*", ";", " ".join(line.strip() for line in item.lines))
                if item.kind == "static"
                else " ".join(line.strip() for line in item.lines)
            ]
        return out + fields(item.lines) + self.traits(item) + self.methods(item)

    def trait(self, item, names):
        found, ghosts = members(item.lines, "    fn ")
        head = item.lines[0].rstrip()
        out = [head if head.endswith("{") else head + " {"]
        if ghosts:
            out.append(f"    // ghost: {', '.join(ghosts)}")
        for sentence, lines in found:
            out += ([""] if len(out) > 1 else []) + method(sentence, lines, names)
        return out + ["}"]

    def traits(self, item):
        """The traits of a type, on one line."""
        found = [name for name in item.traits if name != "Drop"]
        for block, _ in self.blocks():
            head = block[0].split(" where ")[0].rstrip(" {")
            if match := re.match(r"impl(?:<.*?>)? (\S.*) for (\w+)", head):
                trait = match[1].split("::")[-1] if "<" not in match[1] else match[1]
                if match[2] == item.name and trait != "Model" and trait not in found:
                    found.append(trait)
            elif match := re.match(r"impl From<(\w+)> for (\W.*)", head):
                if match[1] == item.name:
                    found.append(f"Into<{match[2]}>")
        return comment_of(f"It is {', '.join(sorted(found))}.", mark="//") if found else []

    def methods(self, item):
        """The public methods of a type, from all its impls, under one head for each kind of impl."""
        heads = {}
        for block, names in self.blocks():
            head = block[0].rstrip(" {")
            if " for " not in head and re.match(rf"impl(?:<.*?>)? {item.name}\b", head):
                found = members(block, ("    pub fn ", "    pub const fn "))[0]
                heads.setdefault(head, []).extend(method(*one, names) for one in found)
        out = []
        for head, found in heads.items():
            if not found:
                continue
            out += ["", head + " {"]
            for at, lines in enumerate(found):
                out += ([""] if at else []) + lines
            out.append("}")
        return out

    def blocks(self):
        """The impls of all modules, each with the names that its module imports from specs/."""
        return [(block, module.cited) for module in self.modules.values() for block in module.impls]


def write(folder):
    """Writes the pages into a folder, made if there is none."""
    folder.mkdir(parents=True, exist_ok=True)
    for crate in LIBRARIES:
        (folder / f"{crate}.md").write_text(Library(crate).page(), encoding="utf-8")


def main():
    if sys.argv[1:2] != ["write"] or len(sys.argv) > 3:
        sys.exit(__doc__)
    folder = Path(sys.argv[2]) if sys.argv[2:] else FOLDER
    write(folder)
    print(f"signatures: {len(LIBRARIES)} pages in {os.path.relpath(folder)}")


if __name__ == "__main__":
    main()
