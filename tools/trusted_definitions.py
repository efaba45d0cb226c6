#!/usr/bin/env python3
"""What a reader has to trust of some statements: every definition that they rest on, file by file.

    tools/trusted_definitions.py [STATEMENT..]

A statement is one of:
    MODULE          each definition of a module of specs/; with no statement, Rattle.fe2o3_sasl_core.specs.Headline
    MODULE:NAME     one definition of that module
    CRATE::LAW      the clauses of a law: an empty function of the crate's src/, as fe2o3_sasl_negotiation::server_connections

For each file of specs/: how many lines it has, and how many of its definitions the statements reach, with their lines
(comments with them; imports, blank lines and what is not reached without). A definition that two statements reach counts once.

What is left out:
  - what specs/ takes from std, from other libraries of the kit, and from the types that Rust code declares;
  - the arguments that a clause of a law passes to the definition at its head, as a machine, its first state, or what one
    call does. The definition is a statement about any such argument, and what links the argument to code is a contract that
    names it too: a reader compares the two names, and reads what an argument means only to know more than the law says. The
    last line counts the arguments and what they rest on.
"""
import re
import sys
from pathlib import Path

CRATES = Path(__file__).resolve().parent.parent / "crates"
LIBRARIES = (
    "fe2o3_sasl_wire",
    "fe2o3_scram",
    "fe2o3_sasl_core",
    "fe2o3_sasl",
    "fe2o3_sasl_negotiation",
    "connection_laws",
)
HEADLINE = "Rattle.fe2o3_sasl_core.specs.Headline"
HEAD = re.compile(r"(?:abbrev |unfoldable |infix\w* \d+ \S+ )*(?:pub )?(?:record |data )?(\S+)")
USE = re.compile(r"(?:ghost )?use ([\w.]+?)(?:\.\{(.*)\})?(?: as (\w+))?;?$")


def module_of(path, crate):
    return f"Rattle.{crate}.specs." + ".".join(path.relative_to(CRATES / crate / "specs").with_suffix("").parts)


def imports_of(lines):
    """The names that a file imports, the modules that it names, and its other lines."""
    names, modules, body = {}, {}, []
    for line in lines:
        use = USE.match(line)
        if use and use[2]:
            for name in use[2].split(", "):
                names[name.split(" as ")[-1]] = (use[1], name.split(" as ")[0])
        elif use:
            modules[use[3] or use[1].split(".")[-1]] = use[1]
        else:
            body.append(line)
    return names, modules, body


def read(path):
    """How many lines a file has, the names and the modules that it imports, and its definitions with their comments."""
    lines = path.read_text(encoding="utf-8").splitlines()
    names, modules, body = imports_of(lines)
    definitions = []
    for block in re.split(r"\n\n+", "\n".join(body).strip("\n")):
        code = [line for line in block.split("\n") if not line.startswith("--")]
        if not code or code[0].startswith("pub mod"):
            continue
        defined = {HEAD.match(code[1 if code[0].startswith("infix") else 0])[1]}
        if re.match(r"(?:pub )?data ", code[0]):
            defined |= {field[1] for line in code[1:] if (field := re.match(r"\s+(\w+) :", line))}
        definitions.append((defined, "\n".join(code), len(block.split("\n"))))
    return len(lines), names, modules, definitions


FILES = {
    module_of(path, crate): read(path) for crate in LIBRARIES for path in (CRATES / crate / "specs").rglob("*.antt")
}


def find(module, name):
    for place, (defined, _, _) in enumerate(FILES.get(module, (0, {}, {}, []))[3]):
        if name in defined:
            return (module, place)
    return None


def cited(module, text):
    """The definitions that a text of a module names."""
    _, names, modules, _ = FILES[module]
    for word in set(re.findall(r"[\w-]+(?:\.[\w-]+)*", text)):
        first, _, rest = word.partition(".")
        if first in modules and rest:
            yield find(modules[first], rest.split(".")[0])
        yield find(*names.get(first, (module, first)))


def whole(module):
    """Each definition of a module."""
    return [(module, place) for place in range(len(FILES[module][3]))]


def rest_on(starts):
    """The definitions that some definitions rest on, with them, each by its module and its place there."""
    open_ones, reached = list(starts), set()
    while open_ones:
        found = open_ones.pop()
        if found and found not in reached:
            reached.add(found)
            open_ones += cited(found[0], FILES[found[0]][3][found[1]][1])
    return reached


def reached_from(module):
    """The definitions that the statements of a module rest on."""
    return rest_on(whole(module))


def law(crate, name):
    """The definitions at the heads of the clauses of a law, and those that the clauses name as arguments."""
    for path in (CRATES / crate / "src").rglob("*.rt"):
        names, _, body = imports_of(path.read_text(encoding="utf-8").splitlines())
        function = re.search(rf"^pub fn {name}\b.*?^\{{", "\n".join(body), re.M | re.S)
        if function:
            heads, arguments = [], []
            for clause in re.findall(r"^    ensures \w* ?\{ (.*?) \}$", function[0], re.M | re.S):
                found = [find(*names[word]) for word in re.findall(r"[\w-]+", clause) if word in names]
                heads.append(found[0])
                arguments += found[1:]
            return heads, arguments
    sys.exit(f"no law {crate}::{name}")


def statements(words):
    """The definitions that the words of the command line name, and the arguments of clauses among them."""
    starts, arguments = [], []
    for word in words:
        module, _, name = word.partition(":")
        if name.startswith(":"):
            heads, more = law(module, name[1:])
            starts += heads
            arguments += more
        elif module not in FILES:
            sys.exit(f"no module {module}")
        elif name:
            starts.append(find(module, name) or sys.exit(f"no definition {word}"))
        else:
            starts += whole(module)
    return starts, arguments


def lines_of(reached):
    return sum(FILES[module][3][place][2] for module, place in reached)


def main():
    starts, arguments = statements(sys.argv[1:] or [HEADLINE])
    reached = rest_on(starts)
    for module, (lines, _, _, definitions) in FILES.items():
        mine = [definitions[place][2] for at, place in reached if at == module]
        if mine:
            print(f"{module}: {lines} lines; {len(mine)} of {len(definitions)} definitions, {sum(mine)} lines")
    print(f"{len(reached)} definitions, {lines_of(reached)} lines")
    if arguments:
        more = rest_on(starts + arguments)
        print(f"with the arguments of the clauses: {len(more)} definitions, {lines_of(more)} lines")


if __name__ == "__main__":
    main()
