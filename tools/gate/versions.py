#!/usr/bin/env python3
"""Compares the places that name the version, and those that name the number of the shared object.

    tools/gate/versions.py                 says whether they agree with each other and with CHANGELOG.md
    tools/gate/versions.py set VERSION     writes VERSION into each place but CHANGELOG.md, which is written by hand

A version is that of a release, `0.4.0`, or of the sources before the next one, `0.5.0-dev`. The first is that of the newest
section of CHANGELOG.md, which then has no section `Unreleased` with entries. The second is above it, and such a section is
there. Packages and the file for pkg-config take the version from bindings/rust/Cargo.toml.
"""
import re
import sys
from pathlib import Path

TOP = Path(__file__).resolve().parents[2]
VERSION = r"\d+\.\d+\.\d+(?:-dev)?"
LEADING = "bindings/rust/Cargo.toml"
# A file, the place in it as a pattern with a group, and the form there: the text, the number of `fe2o3_version`, or what
# Python calls it (PEP 440).
EXPORT = r"fn fe2o3_version\(\) -> u32\n"
PLACES = [
    (LEADING, r'^version = "(.*)"$', "text"),
    ("interop/rust/Cargo.toml", r'^version = "(.*)"$', "text"),
    ("bindings/python/fe2o3_sasl/__init__.py", r'^__version__ = "(.*)"$', "wheel"),
    ("README.md", rf"\bThis is version ({VERSION})\.", "text"),
    ("crates/scram_lib/src/manual.rt", r'\.version\("(.*)"\)', "text"),
    ("crates/test_driver_programs/data/words.txt", r"^\$ scram --version\n> scram (.*)$", "text"),
    ("crates/sasl_c/src/texts.rt", EXPORT + r"    ensures \{ result ≡ (\d+) \}$", "number"),
    ("crates/sasl_c/src/texts.rt", EXPORT + r"[^\n]*\n\{\n    (\d+)\n\}$", "number"),
]
SHARED = re.compile(r"libfe2o3_sasl\.so\.(\d+)")
SHARED_FILES = (
    "bindings/callers.mk",
    "bindings/python/fe2o3_sasl/__init__.py",
    "bindings/python/fe2o3_sasl/_native.py",
    "CHANGELOG.md",
)


def numbers(version):
    return tuple(int(one) for one in version.removesuffix("-dev").split("."))


def in_form(version, form):
    """The version as a place of this form has it."""
    major, minor, patch = numbers(version)
    forms = {"text": version, "wheel": version.replace("-dev", ".dev0")}
    return forms.get(form) or str(10000 * major + 100 * minor + patch)


def found_in(top, file, pattern):
    """The one place in a file, or None."""
    found = list(re.finditer(pattern, (top / file).read_text(encoding="utf-8"), re.M))
    return found[0] if len(found) == 1 else None


def place_faults(top, version):
    for file, pattern, form in PLACES:
        found, wanted = found_in(top, file, pattern), in_form(version, form)
        if not found:
            yield f"{file} has no place, or several, of {pattern}"
        elif found[1] != wanted:
            yield f"{file} has {found[1]}, and {LEADING} {wanted}"


def changelog_fault(text, version):
    """How CHANGELOG.md and the version differ, or None."""
    sections = re.split(r"^## ", text, flags=re.M)[1:]
    newest = next((found[0] for one in sections if (found := re.match(rf"{VERSION}\b", one))), None)
    if newest is None:
        return "CHANGELOG.md has no section of a version"
    ahead = [one for one in sections[:1] if one.startswith("Unreleased")]
    if version.endswith("-dev"):
        if numbers(version) <= numbers(newest):
            return f"the version is {version}, and CHANGELOG.md has {newest}"
        return None if ahead else f"the version is {version}, and CHANGELOG.md has no section Unreleased"
    if version != newest:
        return f"the version is {version}, and the newest section of CHANGELOG.md {newest}"
    if ahead and re.search(r"^- ", ahead[0], re.M):
        return f"the version is {version}, and CHANGELOG.md has what came after it: tools/gate/versions.py set NEXT-dev"
    return None


def shared_faults(top):
    """The first number of the shared object in CHANGELOG.md is its newest; the other files have no other."""
    found = {file: SHARED.findall((top / file).read_text(encoding="utf-8")) for file in SHARED_FILES}
    for file, all_of in found.items():
        if not all_of:
            yield f"{file} does not name the shared object"
    if all(found.values()):
        wanted = found[SHARED_FILES[0]][0]
        for file, all_of in found.items():
            for other in sorted(set(all_of[:1] if file == "CHANGELOG.md" else all_of) - {wanted}):
                yield f"{file} names libfe2o3_sasl.so.{other}, and {SHARED_FILES[0]} .so.{wanted}"


def version_of(top):
    found = found_in(top, *PLACES[0][:2])
    return found[1] if found and re.fullmatch(VERSION, found[1]) else None


def faults_of(top):
    version = version_of(top)
    if not version:
        return [f"{LEADING} has no version like 0.4.0 or 0.5.0-dev"]
    log = changelog_fault((top / "CHANGELOG.md").read_text(encoding="utf-8"), version)
    return [*place_faults(top, version), *([log] if log else []), *shared_faults(top)]


def write(top, version):
    for file, pattern, form in PLACES:
        found = found_in(top, file, pattern) or sys.exit(f"versions: {file} has no place, or several, of {pattern}")
        text = (top / file).read_text(encoding="utf-8")
        text = text[: found.start(1)] + in_form(version, form) + text[found.end(1) :]
        (top / file).write_text(text, encoding="utf-8")


def main():
    words = sys.argv[1:]
    if words and not (len(words) == 2 and words[0] == "set" and re.fullmatch(VERSION, words[1])):
        sys.exit(__doc__)
    if words:
        write(TOP, words[1])
    faults = faults_of(TOP)
    for fault in faults:
        print(f"versions: {fault}", file=sys.stderr)
    if not faults:
        print(f"versions: {version_of(TOP)} in {len(PLACES)} places, as CHANGELOG.md has it")
    sys.exit(bool(faults))


if __name__ == "__main__":
    main()
