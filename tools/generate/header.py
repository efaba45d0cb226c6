#!/usr/bin/env python3
"""Writes the declarations of what crates/sasl_c exports, for callers in C, Rust and Python, from its sources.

    tools/generate/header.py write [LANGUAGE..]     writes the declarations
    tools/generate/header.py check [LANGUAGE..]     prints the first line that differs, and ends with status 1 if one does

A language is `c`, for bindings/c/fe2o3_sasl.h, `wrappers`, for bindings/wiping/exports.c, `rust`, for
bindings/rust/src/sys.rs, or `python`, for _numbers.py, _structs.py and _exports.py of bindings/python/fe2o3_sasl; without
one, it is all. The script reads the structs under `#[repr(C)]`, the functions under `#[unsafe(no_mangle)]`, the numbers of
`enum Status`, and the enums of tools/generate/header_preamble.h. The docs of the kinds of errors come from the libraries.
It relies on the layout of `rt fmt`. It rejects, with file and line, what it does not know, an export or a struct that
SECTIONS does not list, an export without a doc or with a condition (C would not see the condition), and a status without a
text of its own.

A slice becomes a pointer and a length (`_len`; `_size` if the slice is written, `_count` if it is of structs), an array
or a struct behind a reference becomes a pointer, and `Global` nothing.
"""
import argparse
import re
import sys
import textwrap
from collections import namedtuple
from itertools import zip_longest
from pathlib import Path

ROOT = Path(__file__).resolve().parents[2]
WIDTH = 120
C_NUMBERS = {"u8": "uint8_t", "u16": "uint16_t", "u32": "uint32_t", "u64": "uint64_t", "usize": "size_t"}
SECTIONS = [  # in the order of use: a title, the structs, and the functions after "fe2o3_"
    ("The library", "Text", "version size status_text"),
    ("Passwords", "", "saslprep"),
    (
        "Records, which a server stores in place of passwords",
        "ScramRecord",
        "scram_record_make scram_record_from_fields scram_record_mock scram_record_parse scram_record_text"
        " scram_record_verify scram_record_of_salted scram_record_verify_salted scram_lines_find scram_lines_all_have scram_line",
    ),
    ("Keys, which a client can cache in place of a password", "ScramKeys", "scram_keys_make scram_keys_of_salted"),
    (
        "A SCRAM client, over messages",
        "Login ScramClient",
        "scram_client_first scram_client_final scram_client_verify scram_client_get_keys",
    ),
    (
        "A SCRAM server, over messages",
        "ScramServer ServerChannels ScramRules",
        "scram_server_claimed_user scram_server_claimed_identity scram_server_first scram_server_final"
        " scram_server_authenticated_user scram_server_acts_for",
    ),
    (
        "Errors that a server sends in the place of a message",
        "",
        "scram_server_error scram_server_error_text scram_server_error_message",
    ),
    (
        "PLAIN and EXTERNAL, over messages",
        "",
        "plain_message plain_claimed_user plain_claimed_identity plain_verify external_verify",
    ),
    (
        "The client's side of a connection, over bytes",
        "Connection SaslLogin SaslClient",
        "sasl_client_open sasl_client_receive",
    ),
    (
        "The server's side of a connection, over bytes",
        "SaslServerConfig SaslServer",
        "sasl_server_receive",
    ),
    (
        "Both sides of a connection, before a call, and at the end of the stream",
        "",
        "sasl_wants_nonce sasl_peek_frame sasl_end_of_input",
    ),
    (
        "The body of a frame",
        "SaslFrameView",
        "sasl_view_frame sasl_offers",
    ),
]
WIPED = "Secrets"  # the section of WIPE
KIND_NAMES = {"ScramErrorKind": "CLIENT_", "ServerScramErrorKind": "SERVER_", "RecordTextError": "RECORD_"}

STRUCT = re.compile(r"#\[repr\(C\)\]\n#\[derive\(Drop\)\]\npub struct (\w+)(?:<'a>)? \{\n(.*?)^\}$", re.M | re.S)
FIELD = re.compile(r"\s*(?:///[^\n]*\n\s*)*pub (\w+): ([^\n]+),\n")
EXPORT = re.compile(
    r"#\[unsafe\(no_mangle\)\]\n(?:#\[tactic\([^\n]*\n)?pub extern \"C\" fn (fe2o3_\w+)(?:<'a>)?"
    r"\(([^()]*)\)(?: -> (u32|usize))?(?: \{|((?:\n    [^\n]*)+)\n\{)\n"
)
VARIANT = re.compile(r"\s*(?:(?:///|#\[)[^\n]*\n\s*)*(\w+)(?:\((\w+)\))?,\n")
ARM = re.compile(r"\s*(\w+)::(\w+)(?:\((why)\))? => (?:(\d+)|(\w+)\(why\)),\n")
TEXTS = re.compile(
    r"\bfn text_of\(status: u32\) [^\n]*\n(?:    ensures [^\n]*\n\{\n)?    match status \{\n"
    r"(.*?)^        _ => (b\"[^\n]*),\n    \}$",
    re.M | re.S,
)
TEXT = re.compile(r"\s*(\d+) => (b\"[^\"\\]+\\0\"),\n")
SIZES = re.compile(
    r"\bfn size\(which: u32\) [^\n]*\n(?:    ensures [^\n]*\n\{\n)?    match which \{\n"
    r"(.*?)^        _ => 0,\n    \}$",
    re.M | re.S,
)
SIZE = re.compile(r"\s*(\d+) => size_of::<(\w+)(?:<'static>)?>\(\),\n")
ENUM = re.compile(r"^((?:/\*|  ?\*)[^\n]*\n(?: \*[^\n]*\n)*)enum fe2o3_(\w+) \{\n(.*?)^\};$", re.M | re.S)
VALUE = re.compile(r"\s*/\* ((?:(?!\*/).)*) \*/\n\s*FE2O3_(\w+) = (\d+),?\n", re.S)

Part = namedtuple("Part", "name form kind count")  # form: value, array, const or mut; count: that of an array
Export = namedtuple("Export", "doc name parts answer")
Struct = namedtuple("Struct", "doc name fields")
Status = namedtuple("Status", "doc name number")
Enum = namedtuple("Enum", "doc name values")  # values: of Status

# The export that is C, of bindings/wiping.
WIPE = Export(
    [
        "Overwrites memory by zeros. Unlike a `memset` before the end of a block, it is never dropped by a compiler.",
        "Call it for each struct, password and message with a secret, once you no longer need it.",
        "",
        "This function is written in C, and not proved.",
    ],
    "fe2o3_wipe",
    [Part("memory", "mut", "void", None), Part("len", "value", "usize", None)],
    None,
)


def snake(name):
    return re.sub(r"(?<!^)([A-Z])", r"_\1", name).lower()


class Source:
    """The text of a file."""

    def __init__(self, path):
        self.path = path
        self.text = path.read_text(encoding="utf-8")

    def refuse(self, at, why):
        sys.exit(f"{self.path}:{self.text.count(chr(10), 0, at) + 1}: {why}")

    def each(self, sign, pattern, what):
        """The matches at each place of a sign that begins a line: there is one at each."""
        for place in re.finditer(sign, self.text, re.M):
            yield pattern.match(self.text, place.start()) or self.refuse(place.start(), f"no {what} that is known")

    def rows(self, start, end, pattern, what):
        """The matches that make up a part of the text, none left out."""
        while (start := re.compile(r"\s*").match(self.text, start, end).end()) < end:
            yield (found := pattern.match(self.text, start, end)) or self.refuse(start, f"no {what} that is known")
            start = found.end()

    def doc(self, at, needed=False):
        """The lines of the doc in front of the line of a place, attributes between them left out."""
        doc = []
        for line in reversed(self.text[: self.text.rfind("\n", 0, at + 1) + 1].splitlines()):
            if line.lstrip().startswith("///"):
                doc.insert(0, line.lstrip()[4:])
            elif not line.lstrip().startswith("#["):
                break
        if needed and not doc or re.search(r"/\*|\*/", " ".join(doc)):
            self.refuse(at, "no doc that C could take for a comment")
        return doc

    def variants(self, enum):
        """Place, doc, name and what it holds of each variant of an enum of this file."""
        opens = re.search(rf"^pub enum {enum} \{{\n(.*?)^\}}$", self.text, re.M | re.S)
        return [
            (found.start(1), self.doc(found.start(1)), found[1], found[2])
            for found in self.rows(*opens.span(1), VARIANT, "variant")
        ]

    def arms(self, at, head):
        """The arms of the `match` of the function with this head."""
        pattern = rf"\bfn {head} -> u32\n.*?^( +)match \w+ \{{\n(.*?)^\1\}}$"
        opens = re.search(pattern, self.text, re.M | re.S) or self.refuse(at, f"there is no `fn {head}` with a match")
        return {(found[1], found[2]): found for found in self.rows(*opens.span(2), ARM, "arm")}


class Reader:
    """All that the sources export."""

    def __init__(self, folder):
        self.sources = [Source(path) for path in sorted(folder.glob("*.rt"))]
        found = [(source, one) for source in self.sources for one in source.each(r"^#\[repr", STRUCT, "struct")]
        self.names = {one[1] for _, one in found}
        self.structs, waiting = [], [self.struct(source, one) for source, one in found]
        while waiting:  # each behind those that it holds
            names = {one.name for one in waiting}
            free = [one for one in waiting if not any(part.kind in names for _, part in one.fields)]
            self.structs += free or sys.exit("structs that hold each other")
            waiting = [one for one in waiting if one not in free]
        self.exports = [
            self.export(source, one)
            for source in self.sources
            for one in source.each(r"^#\[unsafe\(no_mangle", EXPORT, "export")
        ]
        marks = sum(len(re.findall(r"no_mangle|export_name", source.text)) for source in self.sources)
        if not 0 < marks == len({one.name for one in self.exports}):
            sys.exit(f"{folder}: {marks} times `no_mangle`, and not as many names of exports that are read")
        self.statuses = [Status(["The call succeeded."], "OK", 0)]
        for source in self.sources:
            if "\npub enum Status {\n" in source.text:
                self.read_statuses(source)
        self.statuses.sort(key=lambda status: status.number)
        texts = [(source, found) for source in self.sources if (found := TEXTS.search(source.text))]
        if not texts:
            sys.exit(f"{folder}: no `text_of` that is known")
        self.compare_texts(*texts[0])
        self.sections = self.in_sections(folder)
        self.preamble = Path(__file__).with_name("header_preamble.h").read_text(encoding="utf-8")
        self.enums = [self.enum(one) for one in ENUM.finditer(self.preamble)]
        if len(self.enums) != self.preamble.count("\nenum ") or not self.enums:
            sys.exit("header_preamble.h: an enum that is not known")
        sizes = [(source, found) for source in self.sources if (found := SIZES.search(source.text))]
        self.sized = [one[2] for one in sizes[0][0].rows(*sizes[0][1].span(1), SIZE, "size")] if sizes else []

    def in_sections(self, folder):
        """The structs and the exports of each section."""
        structs, exports = {one.name: one for one in self.structs}, {one.name: one for one in self.exports}
        sections = []
        for title, kinds, calls in SECTIONS:
            names = ["fe2o3_" + call for call in calls.split()]
            if missing := [one for one in kinds.split() if one not in structs] + [
                one for one in names if one not in exports
            ]:
                sys.exit(f"{folder}: no {missing[0]}, which SECTIONS lists")
            sections.append((title, [structs.pop(one) for one in kinds.split()], [exports.pop(one) for one in names]))
        if structs or exports:
            sys.exit(f"{folder}: {', '.join([*structs, *exports])}: in no section")
        sections.insert(1, (WIPED, [], [WIPE]))
        self.structs = [one for _, kinds, _ in sections for one in kinds]
        self.exports = [one for _, _, calls in sections for one in calls]
        return sections

    @staticmethod
    def enum(found):
        """An enum of the preamble."""
        rows = list(VALUE.finditer(found[3]))
        if "".join(row[0] for row in rows) != found[3]:
            sys.exit(f"header_preamble.h: enum fe2o3_{found[2]} has a value that is not known, or one without a doc")
        doc = [line.strip().strip("/*").strip() for line in found[1].splitlines()]
        values = [Status([" ".join(re.sub(r"\n\s*\*", " ", row[1]).split())], row[2], int(row[3])) for row in rows]
        return Enum(doc, found[2], values)

    def parts(self, source, at, name, kind, is_field):
        """What a parameter or a field is in C."""
        kind = re.sub(r"'\w+ |<'\w+>", "", kind)
        form = "mut" if kind.startswith("&mut ") else "const"
        array = re.fullmatch(r"(&)?(?:mut )?\[u8; (\d+)\]", kind)
        lent = re.fullmatch(r"&(?:mut )?(\[)?(\w+)\]?", kind)
        if kind == "Global" and not is_field:
            return []
        if kind in C_NUMBERS or is_field and kind in self.names:
            return [Part(name, "value", kind, None)]
        if array and bool(array[1]) != is_field:
            return [Part(name, "array" if is_field else form, "u8", array[2])]
        if lent and not (is_field and form == "mut"):
            if not lent[1] and (lent[2] in self.names or lent[2] in C_NUMBERS and not is_field):
                return [Part(name, form, lent[2], None)]
            if lent[1] and (lent[2] == "u8" or lent[2] in self.names and form == "const"):
                length = "_size" if form == "mut" else "_len" if lent[2] == "u8" else "_count"
                return [Part(name, form, lent[2], None), Part(name + length, "value", "usize", None)]
        return source.refuse(at, f"`{name}` is of a type that is not known: {kind}")

    def struct(self, source, found):
        fields = []
        for one in source.rows(*found.span(2), FIELD, "field"):
            fields += zip([source.doc(one.start(1)), []], self.parts(source, one.start(1), one[1], one[2], True))
        return Struct(source.doc(found.start(), needed=True), found[1], fields)

    def export(self, source, found):
        if re.search(r"\brequires\b", found[4] or ""):
            source.refuse(found.start(4), "a condition, of which C would learn nothing")
        parts = [
            part
            for one in re.finditer(r"(\w+): ([^,]+)", found[2])
            for part in self.parts(source, found.start(2) + one.start(), one[1], one[2].strip(), False)
        ]
        return Export(source.doc(found.start(), needed=True), found[1], parts, found[3])

    def read_statuses(self, source):
        """The numbers of the variants, and of the kinds that some of them hold. Out of memory is one for all."""
        arms = source.arms(0, r"number\(self\)")
        for at, doc, name, kind in source.variants("Status"):
            arm = arms.get(("Status", name)) or source.refuse(at, f"`{name}` has no number")
            if not kind:
                self.add(source, at, doc, snake(name).upper(), arm)
                continue
            if kind not in KIND_NAMES or not arm[5]:
                source.refuse(at, f"`{kind}` has no name for C (KIND_NAMES of {Path(__file__).name})")
            paths = sorted(ROOT.glob("crates/*/src/**/*.rt"))
            library = next((Source(one) for one in paths if f"\npub enum {kind} {{\n" in one.read_text("utf-8")), None)
            numbers = source.arms(at, rf"{arm[5]}\(why: {kind}\)")
            for place, doc, one, _ in (library or source.refuse(at, f"no library has `{kind}`")).variants(kind):
                arm = numbers.get((kind, one)) or library.refuse(place, f"`{one}` has no number in {source.path}")
                if one != "OutOfMemory" or arm[4] != "1":
                    self.add(source, at, doc, KIND_NAMES[kind] + snake(one).upper(), arm)

        for at, doc, name, kind in source.variants("WriteError"):
            if not kind:
                arm = re.search(rf"Err\((WriteError)::({name})\)() => (\d+),\n", source.text)
                self.add(source, at, doc, snake(name).upper(), arm or source.refuse(at, f"`{name}` has no number"))

    def add(self, source, at, doc, name, arm):
        if not arm[4] or int(arm[4]) in {status.number for status in self.statuses}:
            source.refuse(arm.start(1), f"`{arm[2]}` has no number of its own")
        self.statuses.append(Status(doc, name, int(arm[4])))

    def compare_texts(self, source, texts):
        """That each status has a text, and no two have one. What no status has is the last text's."""
        numbers, said = {status.number: status.name for status in self.statuses}, {texts[2]}
        for one in source.rows(*texts.span(1), TEXT, "text"):
            if not numbers.pop(int(one[1]), None) or one[2] in said:
                source.refuse(one.start(1), f"{one[1]} is no status, or has the text of another")
            said.add(one[2])
        if numbers:
            source.refuse(texts.start(), f"{', '.join(numbers.values())}: without a text")


def comment(doc, indent=""):
    lines = [(sign + line).rstrip() for sign, line in zip([indent + "/* "] + [indent + " * "] * len(doc), doc)]
    end = " */\n" if doc and len(lines[-1]) + 3 <= WIDTH else f"\n{indent} */\n"
    return "\n".join(lines) + end if doc else ""


def rust_doc(doc, indent=""):
    def fill(part):
        return textwrap.fill(
            part.replace("\n  ", "\n"),
            WIDTH - len(indent) - 4,
            break_on_hyphens=False,
            subsequent_indent="  " * part.startswith("- "),
        )

    # (each item of a list is filled by itself)
    text = "\n\n".join("\n".join(map(fill, re.split(r"\n(?=- )", part))) for part in "\n".join(doc).split("\n\n"))
    return "".join(f"{indent}/// {line}".rstrip() + "\n" for line in text.splitlines())


def c_part(part):
    kind = {"void": "void", **C_NUMBERS}.get(part.kind) or "struct fe2o3_" + snake(part.kind)
    kind = f"const {kind}" if part.form == "const" else kind
    return f"{kind} {part.name}[{part.count}]" if part.count else f"{kind} {'*' * (part.form != 'value')}{part.name}"


def c_empty(part, structs):
    """The initializer of a field: zeros, with one for each field of a struct, as C++ wants it."""
    if part.form == "const":
        return "NULL"
    if part.kind in structs:
        return "{ " + ", ".join(c_empty(one, structs) for _, one in structs[part.kind].fields) + " }"
    return "{ 0 }" if part.count else "0"


def c_init(struct, structs):
    """The macro that initializes a struct."""
    head = f"#define FE2O3_{snake(struct.name).upper()}_INIT "
    text = c_empty(Part("", "value", struct.name, None), structs).replace("{ 0 }", "{~0~}")
    lines = textwrap.wrap(head.replace(" ", "~") + text, WIDTH - 2, subsequent_indent="    ", break_long_words=False)
    return "/* All zeros. */\n" + " \\\n".join(lines).replace("~", " ") + "\n"


def rust_part(part):
    kind = "core::ffi::c_void" if part.kind == "void" else part.kind
    kind = f"[{kind}; {part.count}]" if part.count else kind
    return f"{part.name}: {'' if part.form in ('value', 'array') else f'*{part.form} '}{kind}"


def called(head, parts, tail, indent=""):
    """A function, on one line where it fits."""
    line = f"{indent}{head}({', '.join(parts)}){tail}\n"
    rows = ",".join(f"\n{indent}    {part}" for part in parts)
    return line if len(line) <= WIDTH else f"{indent}{head}({rows}){tail}\n"


#: The constants of new records and of mock records: a name in C and Rust, one in Python, the constant of the sources, its
#: type in Rust, and what it is.
DEFAULTS = [
    (
        "DEFAULT_SALT_LEN",
        "DEFAULT_SALT_LEN",
        "DEFAULT_SALT_LEN",
        "usize",
        "The length in bytes of the salt of a new record and of a mock record, unless you choose another one.",
    ),
    (
        "DEFAULT_ITERATIONS",
        "DEFAULT_ITERATIONS",
        "DEFAULT_SCRAM_ITERATIONS",
        "u32",
        "The iteration count of a new record and of a mock record, unless you choose another one.",
    ),
]


def default(name):
    """The number of a constant of the Rattle sources, which all languages share."""
    text = (ROOT / "crates/fe2o3_scram/src/credentials.rt").read_text(encoding="utf-8")
    return re.search(rf"^pub const {name}: \w+ = (\d+);$", text, re.M)[1]


def c_header(reader):
    out = [reader.preamble]
    for name, _, source, _, doc in DEFAULTS:
        out.append(f"\n{comment([doc])}#define FE2O3_{name} {default(source)}\n")
    rows = ",\n".join(f"    FE2O3_SIZE_OF_{snake(name).upper()} = {at}" for at, name in enumerate(reader.sized))
    out.append(f"\n/* The structs, for fe2o3_size. */\nenum fe2o3_size_of {{\n{rows}\n}};\n")
    rows = ",\n".join(f"{comment(doc, '    ')}    FE2O3_{name} = {number}" for doc, name, number in reader.statuses)
    out.append(f"\n/* What a call returns. */\nenum fe2o3_status {{\n{rows}\n}};\n")
    all_structs = {one.name: one for one in reader.structs}
    for title, structs, exports in reader.sections:
        out.append(f"\n/* ---- {title} ---- */\n")
        for one in structs:
            out.append(f"\n{comment(one.doc)}struct fe2o3_{snake(one.name)} {{\n")
            out += [f"{comment(doc, '    ')}    {c_part(part)};\n" for doc, part in one.fields] + ["};\n"]
            out.append(c_init(one, all_structs))
        for doc, name, parts, answer in exports:
            given = [c_part(part) for part in parts] or ["void"]
            out.append(f"\n{comment(doc)}" + called(f"{C_NUMBERS.get(answer, 'void')} {name}", given, ";"))
    return "".join(out) + "\n#ifdef __cplusplus\n}\n#endif\n\n#endif\n"


WRAPPERS = """\
/* The exports of the library. Each calls the proved function below a pad, and then clears the stack that it used. Written
 * by tools/generate/header.py.
 *
 * The linker gives each proved function its name with `proved_` (bindings/callers.mk). These take no null pointers: a
 * wrapper passes the address of something empty where a length is 0, or keys are null. */
#include "../c/fe2o3_sasl.h"
#include "wipe.h"

static uint8_t nothing[1];
static const struct fe2o3_scram_record no_record;
static const struct fe2o3_scram_keys no_keys;
#define BYTES(bytes, len) ((len) != 0 ? (bytes) : nothing)
#define RECORDS(records, count) ((count) != 0 ? (records) : &no_record)
#define KEYS(keys) ((keys) != NULL ? (keys) : &no_keys)
"""
EMPTY = {"u8": "BYTES", "ScramRecord": "RECORDS", "ScramKeys": "KEYS"}


def addresses(parts, before=""):
    """The pointers among parameters or fields that can be null, each with an expression that never is."""
    names = {part.name for part in parts}
    found = {}
    for part in parts:
        length = part.name + ("_size" if part.form == "mut" else "_len" if part.kind == "u8" else "_count")
        if length in names and part.form in ("const", "mut"):
            found[part.name] = f"{EMPTY[part.kind]}({before}{part.name}, {before}{length})"
        elif before and part.form == "const":
            found[part.name] = f"{EMPTY[part.kind]}({before}{part.name})"
    return found


def with_pointers(reader):
    """The structs with pointers, each after those that it holds."""
    found = {}
    for one in reader.structs:
        if any(part.form == "const" or part.kind in found for _, part in one.fields):
            found[one.name] = one
    return found


def c_copies(reader):
    """Functions that return structs without null pointers."""
    lent = {part.kind for export in reader.exports for part in export.parts if part.form == "const"}
    out, holding = [], with_pointers(reader)
    held = {part.kind for name in lent if name in holding for _, part in holding[name].fields}
    for name, one in holding.items():
        if name not in lent and name not in held:
            continue
        kind, parts = f"struct fe2o3_{snake(name)}", [part for _, part in one.fields]
        rows = [f"    lent.{field} = {address};\n" for field, address in addresses(parts, "lent.").items()]
        rows += [
            f"    lent.{part.name} = lent_{snake(part.kind)}(&lent.{part.name});\n"
            for part in parts
            if part.kind in holding
        ]
        body = f"    {kind} lent = *given;\n" + "".join(rows) + "    return lent;\n"
        out.append(f"\nstatic {kind} lent_{snake(name)}(const {kind} *given)\n{{\n{body}}}\n")
    return "".join(out)


def c_wrappers(reader):
    def fill(line, indent=""):
        line = textwrap.fill(line, WIDTH, initial_indent=indent, subsequent_indent=indent + "    ")
        return line.replace("~", " ") + "\n"

    out, holding = [WRAPPERS, c_copies(reader)], with_pointers(reader)
    for _, name, parts, answer in reader.exports:
        if name == WIPE.name:
            continue
        kind, given = (
            C_NUMBERS.get(answer, "void"),
            ", ".join(c_part(part).replace(" ", "~") for part in parts) or "void",
        )
        copied, not_null = [part for part in parts if part.kind in holding], addresses(parts)
        copies, ends = [], []
        for part in copied:
            kind_of, copy = f"struct fe2o3_{snake(part.kind)}", f"own_{part.name}"
            not_null[part.name] = f"&{copy}"
            if part.form == "const":
                copies.append(f"    {kind_of} {copy} = lent_{snake(part.kind)}({part.name});\n")
                ends.append(f"    fe2o3_wipe(&{copy}, sizeof {copy});\n")
                continue
            pointers = (one for _, one in holding[part.kind].fields if one.form == "const")
            copies.append(f"    {kind_of} {copy} = FE2O3_{snake(part.kind).upper()}_INIT;\n")
            copies += [f"    {copy}.{one.name} = nothing;\n" for one in pointers]
            ends.append(f"    {'if (answer == FE2O3_OK) ' if answer else ''}*{part.name} = {copy};\n")
        values = ", ".join(not_null.get(part.name, part.name).replace(", ", ",~") for part in parts)
        passed = f"BELOW_PAD({'answer = ' if answer else ''}proved_{name}({values}));"
        out += [
            "\n",
            fill(f"{kind} proved_{name}({given});"),
            fill(f"{kind} {name}({given})"),
            "{\n",
            f"    {kind} answer;\n" if answer else "",
            *copies,
            fill(passed, "    "),
            *ends,
            f"    clear_stack(depth_{name.removeprefix('fe2o3_')});\n",
            "    return answer;\n" if answer else "",
            "}\n",
        ]
    return "".join(out)


def in_rust(doc):
    """A doc with the names of Rust: those of C without their prefix."""
    return [re.sub(r"\benum fe2o3_(\w+)", r"the `\1` constants", line).replace("FE2O3_", "") for line in doc]


def rust_block(reader):
    out = ["//! What the library exports, as its C header declares it. Written by tools/generate/header.py.\n"]
    out += [f"\n{rust_doc(in_rust(doc))}pub const {name}: u32 = {number};\n" for doc, name, number in reader.statuses]
    for name, _, source, kind, doc in DEFAULTS:
        out.append(f"\n{rust_doc([doc])}pub const {name}: {kind} = {default(source)};\n")
    for one in reader.enums:
        out += [
            f"\n{rust_doc([f'`{one.name}`: ' + in_rust(doc)[0]])}pub const {name}: u32 = {number};\n"
            for doc, name, number in one.values
        ]
    for one in reader.structs:
        out.append(f"\n{rust_doc(in_rust(one.doc))}#[repr(C)]\n#[derive(Clone, Copy)]\npub struct {one.name} {{\n")
        out += [f"{rust_doc(in_rust(doc), '    ')}    pub {rust_part(part)},\n" for doc, part in one.fields] + ["}\n"]
    rows = "".join(f"    core::mem::size_of::<{name}>(),\n" for name in reader.sized)
    out.append(
        f"\n/// The sizes of the structs here, in the order of the numbers of `fe2o3_size`.\n"
        f"pub const SIZES: [usize; {len(reader.sized)}] = [\n{rows}];\n"
    )
    out.append('\nextern "C" {')
    for doc, name, parts, answer in reader.exports:
        given, tail = [rust_part(part) for part in parts], f" -> {answer};" if answer else ";"
        out.append("\n" + rust_doc(in_rust(doc), "    ") + called(f"pub fn {name}", given, tail, "    "))
    return "".join(out) + "}\n"


PYTHON_NUMBERS = {"u8": "ctypes.c_uint8", "u32": "ctypes.c_uint32", "usize": "ctypes.c_size_t"}


def python_part(part, written):
    """The type of a field or a parameter. An address of bytes that are only read keeps them alive."""
    if part.form == "value":
        return PYTHON_NUMBERS.get(part.kind) or f"_{part.kind}Struct"
    if part.form == "array":
        return f"{PYTHON_NUMBERS[part.kind]} * {part.count}"
    if part.kind in ("u8", "void"):
        return "ctypes.c_void_p" if part.form == "mut" or written else "ctypes.c_char_p"
    return f"ctypes.POINTER({PYTHON_NUMBERS.get(part.kind) or f'_{part.kind}Struct'})"


def python_class(base, name, doc, values):
    rows = "".join(f"    {value} = {number}\n" for value, number in values)
    return f'\n\nclass {name}(enum.{base}):\n    """{doc}"""\n\n{rows}'


def python_module(doc, imports, body):
    """A module of the package."""
    return f'"""{doc} Written by tools/generate/header.py."""\n\nfrom __future__ import annotations\n\n{imports}{body}'


def python_numbers(reader):
    """The module of the numbers."""
    out = []
    enums = {one.name: one for one in reader.enums}
    out += [f"\n{one.name} = {one.number}" for one in enums["scram_version"].values] + ["\n"]
    out += [f"\n#: {doc}\n{name} = {default(source)}\n" for _, name, source, _, doc in DEFAULTS]
    out.append(
        python_class(
            "IntEnum",
            "Status",
            "What a call of the library returns. The header says what each means.",
            [(one.name, one.number) for one in reader.statuses],
        )
    )
    out.append(
        python_class(
            "IntEnum",
            "Progress",
            "How far a login on a connection is.",
            [(one.name, one.number) for one in enums["progress"].values],
        )
    )
    out.append(
        python_class(
            "IntFlag",
            "Offer",
            "What a server offers. PLAIN sends the password in clear, so offer it over TLS only.",
            [(one.name.replace("OFFER_", ""), one.number) for one in enums["offer"].values],
        )
    )
    out.append(
        python_class(
            "IntFlag",
            "ServerFlag",
            "What else a server does. ACCEPT_CBIND_FLAG_Y: SCRAM also accepts the GS2 header `y,,`, like"
            " `Server.first`\n    with `accept_cbind_flag_y`. PLAIN_PREPARED and PLAIN_SASLPREP, of which one is allowed,"
            " say which passwords PLAIN tests:\n    the password as received, or as the server prepares it by SASLprep."
            " Without them it rejects non-ASCII passwords.\n    SIGNATURE_BY_CHALLENGE: SCRAM sends the server's"
            " signature in a challenge, and the outcome follows the client's empty\n    response."
            " INITIAL_RESPONSE_BY_CHALLENGE: SCRAM and PLAIN answer an init without an initial response by"
            " an\n    empty challenge, and the client's response is then the initial response. STRICT: SCRAM"
            " reads messages by\n    the grammar of RFC 5802, section 7, like a `Server` with `strict`."
            " REJECT_MISPLACED: SCRAM rejects what is no\n    extension in the place of one, and nothing more,"
            " like a `Server` with `reject_misplaced`. A server with channels\n    does so in any case.",
            [(one.name, one.number) for one in enums["server_flag"].values],
        )
    )
    out.append(
        python_class(
            "IntEnum",
            "PlainPasswords",
            "Which password `plain_verify` tests for the one of a message."
            " TYPED: the password as typed, which has to be\n    printable ASCII. PREPARED: the password as"
            " received, from a client that prepares it. SASLPREP: the text that\n    SASLprep prepares the"
            " received password to.",
            [(one.name.replace("PLAIN_PASSWORDS_", ""), one.number) for one in enums["plain_passwords"].values],
        )
    )
    out.append(
        python_class(
            "IntEnum",
            "ChannelKind",
            "A kind of channel binding. Both sides have to use one kind."
            " TLS_UNIQUE (RFC 5929, section 3) is for TLS 1.2 and\n    older, TLS_SERVER_END_POINT (RFC 5929,"
            " section 4) for every version. TLS_EXPORTER (RFC 9266) is for TLS 1.3 and,\n    with the"
            " extended master secret, for TLS 1.2.",
            [(one.name, one.number) for one in enums["channel_kind"].values],
        )
    )
    errors = [(one.name, one.number) for one in reader.statuses if one.name.startswith("SERVER_") and one.number < 60]
    out.append(
        python_class(
            "IntEnum",
            "Rejection",
            "Why a server answered a frame by the outcome Auth, for its log only:"
            " the peer receives that outcome for each of\n    them. Those that begin with SERVER are errors of"
            " a SCRAM message, with the numbers of `Status`.",
            [(one.name.replace("REJECTION_", ""), one.number) for one in enums["rejection"].values if one.number]
            + errors,
        )
    )
    for name, title, prefix in [
        ("mechanism", "_Mechanism", ""),
        ("secret", "_Secret", ""),
        ("password_form", "_Form", ""),
        ("channel_use", "_ChannelUse", "CHANNEL_"),
        ("unassigned", "_Unassigned", "UNASSIGNED_"),
        ("scram_server_state", "_ServerState", "SCRAM_SERVER_"),
    ]:
        values = [(one.name.replace(prefix, ""), one.number) for one in enums[name].values]
        out.append(python_class("IntEnum", title, enums[name].doc[0].split(". ")[0].rstrip(".") + ".", values))
    return python_module("The numbers of the library.", "import enum\n", "".join(out))


def python_structs(reader):
    """The module of the structs."""
    written = {part.kind for export in reader.exports for part in export.parts if part.form == "mut"}
    out = []
    for one in reader.structs:
        rows = "".join(
            f'        ("{part.name}", {python_part(part, one.name in written)}),\n' for _, part in one.fields
        )
        out.append(f"\n\nclass _{one.name}Struct(ctypes.Structure):\n    _fields_ = [\n{rows}    ]\n")
    rows = "".join(f"    _{name}Struct,\n" for name in reader.sized)
    out.append(f"\n\n# The structs in the order of the numbers of `fe2o3_size`.\n_SIZED = (\n{rows})\n")
    return python_module("The structs of the library.", "import ctypes\n", "".join(out))


def python_exports(reader):
    """The module of the exports."""
    out = ["\n# What each export returns and takes.\n_EXPORTS: dict[str, tuple[Any, list[Any]]] = {\n"]
    for _, name, parts, answer in reader.exports:
        given = [python_part(part, False) for part in parts]
        line = f'    "{name}": ({PYTHON_NUMBERS.get(answer)}, [{", ".join(given)}]),\n'
        rows = "".join(f"            {one},\n" for one in given)
        out.append(
            line
            if len(line) <= WIDTH
            else f'    "{name}": (\n        {PYTHON_NUMBERS.get(answer)},\n        [\n{rows}        ],\n    ),\n'
        )
    body = "".join(out) + "}\n"
    structs = "".join(f"    {one},\n" for one in sorted(set(re.findall(r"_\w+Struct", body))))
    imports = f"import ctypes\nfrom typing import Any\n\nfrom ._structs import (\n{structs})\n"
    return python_module("The exports of the library.", imports, body)


PAGES = {
    "c": {"bindings/c/fe2o3_sasl.h": c_header},
    "wrappers": {"bindings/wiping/exports.c": c_wrappers},
    "rust": {"bindings/rust/src/sys.rs": rust_block},
    "python": {
        "bindings/python/fe2o3_sasl/_numbers.py": python_numbers,
        "bindings/python/fe2o3_sasl/_structs.py": python_structs,
        "bindings/python/fe2o3_sasl/_exports.py": python_exports,
    },
}


def first_difference(page, wanted):
    """The first line of a page that is not as wanted, as a text, or None."""
    written = page.read_text(encoding="utf-8") if page.exists() else ""
    for at, (old, new) in enumerate(zip_longest(written.split("\n"), wanted.split("\n")), 1):
        if old != new:
            return f"{page.relative_to(ROOT)}:{at}: stale: is {old!r}, and has to be {new!r}: make header"
    return None


def main():
    words = argparse.ArgumentParser(description=__doc__.splitlines()[0])
    words.add_argument("what", choices=["write", "check"])
    words.add_argument("languages", nargs="*", choices=[*PAGES, []], metavar="LANGUAGE", help=", ".join(PAGES))
    words.add_argument("--sources", type=Path, default=ROOT / "crates/sasl_c/src", help="a folder of .rt files")
    words = words.parse_args()
    reader, stale = Reader(words.sources), []
    for language in words.languages or PAGES:
        for path, text_of in PAGES[language].items():
            page, wanted = ROOT / path, text_of(reader)
            if words.what == "write":
                page.write_text(wanted, encoding="utf-8")
            elif fault := first_difference(page, wanted):
                stale.append(fault)
    if stale:
        sys.exit("\n".join(stale))
    if words.what == "check":
        print("header: the declarations are as the sources write them")


if __name__ == "__main__":
    main()
