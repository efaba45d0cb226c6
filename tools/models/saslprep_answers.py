#!/usr/bin/env python3
"""Writes what other programs answer to SASLprep: the rows of crates/test_driver_texts/data/.

    tools/models/saslprep_answers.py write      writes the rows
    tools/models/saslprep_answers.py check      compares the files with what would be written

Two programs are asked: GNU libidn (`apt-get install idn`; its library is called), and the SASLprep of this file over the
tables of Python's module `stringprep` and its normalization of Unicode 3.2. A row is written if both agree; if not, both
answers are listed. The tables of both are compared first.
"""
import ctypes
import ctypes.util
import os
import random
import stringprep
import sys
import unicodedata

sys.dont_write_bytecode = True
sys.path.insert(0, os.path.join(os.path.dirname(os.path.dirname(os.path.realpath(__file__))), "generate"))
import saslprep_tables as tables

ROOT = os.path.dirname(os.path.dirname(os.path.dirname(os.path.realpath(__file__))))
DATA = os.path.join(ROOT, "crates", "test_driver_texts", "data")
OLD = unicodedata.ucd_3_2_0
CODE_POINTS = [c for c in range(0x110000) if not 0xD800 <= c < 0xE000]

# What Unicode since the version that this Python knows, 14, changes by NFKC: no answer from outside is at hand, but
# that it is another than in Unicode 3.2.
LATER = [
    (0x0558, 0x0558),
    (0x058B, 0x058C),
    (0x209D, 0x209F),
    (0xA7F1, 0xA7F1),
    (0x107BB, 0x107BF),
    (0x1B123, 0x1B126),
    (0x1CCD6, 0x1CCF9),
    (0x1D6A6, 0x1D6A6),
    (0x1DF95, 0x1DF95),
    (0x1DFCD, 0x1DFFF),
    (0x1E030, 0x1E06D),
]

# The words of stringprep.h: what its calls return, and the flag of stored strings.
UNASSIGNED, PROHIBITED, BOTH_DIRECTIONS, ENDS_OTHERWISE, NO_UNASSIGNED = 1, 2, 3, 4, 4
try:
    LIBIDN = ctypes.CDLL(ctypes.util.find_library("idn") or "libidn.so.12")
except OSError:
    sys.exit("GNU libidn is not installed: apt-get install idn")
LIBIDN.stringprep_profile.argtypes = [ctypes.c_char_p, ctypes.POINTER(ctypes.c_void_p), ctypes.c_char_p, ctypes.c_int]
LIBC = ctypes.CDLL(None)
LIBC.free.argtypes = [ctypes.c_void_p]


class Element(ctypes.Structure):
    """A row of a table of libidn."""

    _fields_ = [("start", ctypes.c_uint32), ("end", ctypes.c_uint32), ("map", ctypes.c_uint32 * 4)]


def compare_tables():
    """Ends the program where a table of libidn, made of the RFC's text too, has other members."""
    for name, (test, _) in tables.TABLES.items():
        rows = (Element * 2000).in_dll(LIBIDN, "stringprep_rfc3454_" + name.replace(".", "_"))
        found = set()
        for at, row in enumerate(rows):
            if at > 0 and row.start == 0:
                break
            found |= {*range(row.start, (row.end or row.start) + 1)}
        if found != {c for c in range(0x110000) if test(chr(c))}:
            sys.exit(f"table {name} of libidn is another")


def by_libidn(text, refused):
    """The prepared text, or why it is refused. A text with U+0000 cannot be passed."""
    out = ctypes.c_void_p()
    flags = NO_UNASSIGNED if refused else 0
    status = LIBIDN.stringprep_profile(text.encode(), ctypes.byref(out), b"SASLprep", flags)
    if status != 0:
        words = {UNASSIGNED: "unassigned", PROHIBITED: "prohibited", BOTH_DIRECTIONS: "mixed", ENDS_OTHERWISE: "mixed"}
        return None, words[status]
    prepared = ctypes.string_at(out.value).decode()
    LIBC.free(out)
    return prepared, None


def by_python(text, refused):
    """The prepared text, or why it is refused, by the steps of RFC 4013, section 2."""
    mapped = "".join(" " if stringprep.in_table_c12(c) else "" if stringprep.in_table_b1(c) else c for c in text)
    prepared = OLD.normalize("NFKC", mapped)
    for c in prepared:
        if any(tables.TABLES[name][0](c) for name in tables.PROHIBITED):
            return None, f"prohibited {ord(c):04X}"
    right = [stringprep.in_table_d1(c) for c in prepared]
    if any(right) and (any(map(stringprep.in_table_d2, prepared)) or not (right[0] and right[-1])):
        return None, "mixed"
    for c in text + prepared:
        if refused and stringprep.in_table_a1(c):
            return None, f"unassigned {ord(c):04X}"
    return prepared, None


def word_of(text, answer):
    """An answer as a word of a row."""
    prepared, fault = answer
    if fault is not None:
        return fault
    if prepared == text:
        return "kept"
    return points(prepared) or "nothing"


def points(text):
    """The code points of a text, with + between them."""
    return "+".join(f"{ord(c):04X}" for c in text)


def agreed(text, refused):
    """What both answer, or None where they differ."""
    ours = by_python(text, refused)
    if "\0" in text:
        return ours
    theirs = by_libidn(text, refused)
    if theirs[0] == ours[0] and (ours[1] or "").split(" ")[0] == (theirs[1] or ""):
        return ours
    return None


def changed(text):
    """What Unicode since 3.2, as this Python knows it, makes of a text, where that is another."""
    new = unicodedata.normalize("NFKC", text)
    return new if new != OLD.normalize("NFKC", text) else None


def is_later(c):
    """Whether a later Unicode than this Python knows changes the code point."""
    return any(first <= c <= last for first, last in LATER)


# The code points that Unicode 3.2 assigns and whose normal form was corrected since.
CORRECTED = [c for c in CODE_POINTS if not stringprep.in_table_a1(chr(c)) and changed(chr(c))]


def code_points():
    """The rows of single code points."""
    text = [
        "# Each code point but the surrogates as a text, by GNU libidn and by Python's `stringprep`, which agree. A",
        "# row is",
        "#     FIRST-LAST => ANSWER",
        "# where the answer is `kept`, `prohibited`, `mixed`, `nothing`, what the text is prepared to, or `unassigned`:",
        "# refused in stored texts, and kept in queries. `unassigned, changed` are those that a later Unicode",
        "# decomposes, so that a query is changed; differences.txt has what Unicode 14 makes of them, and five others,",
        "# which are left out here. Written by tools/models/saslprep_answers.py.",
        "",
        "call code-points",
        "",
    ]
    rows = []
    for c in CODE_POINTS:
        if c in CORRECTED:
            continue
        stored, query = agreed(chr(c), True), agreed(chr(c), False)
        if stored is None or query is None:
            sys.exit(f"U+{c:04X} is answered in two ways")
        word = word_of(chr(c), stored).split(" ")[0]
        asked = word_of(chr(c), query).split(" ")[0]
        if asked != ("kept" if word == "unassigned" else word):
            sys.exit(f"U+{c:04X} is {word} and {asked}")
        if word == "unassigned" and (changed(chr(c)) or is_later(c)):
            word = "unassigned, changed"
        if rows and rows[-1][2] == word and rows[-1][1] + 1 in (c, 0xD800) and word.islower():
            rows[-1][1] = c
        else:
            rows.append([c, c, word])
    for first, last, word in rows:
        text.append(f"{first:04X} => {word}" if first == last else f"{first:04X}-{last:04X} => {word}")
    return "\n".join(text) + "\n"


def differences():
    """The rows at which Unicode since 3.2 says otherwise, as far as this Python knows it."""
    text = [
        "# Where GNU libidn and Python's `stringprep`, which normalize by Unicode 3.2, answer otherwise than this",
        "# library, which normalizes by a later Unicode. A row is",
        "#     TEXT MODE, NOT THEIRS => OURS",
        f"# with the answer of Python's normalization of Unicode {unicodedata.unidata_version}. Written by"
        " tools/models/saslprep_answers.py.",
        "",
        "call prepared",
        "",
        "# Assigned in Unicode 3.2, corrected since (Corrigendum 4)",
    ]
    for c in CORRECTED:
        text.append(f"{c:04X} stored, not {word_of(chr(c), agreed(chr(c), True))} => {points(changed(chr(c)))}")
    text += ["", "# Sequences that GNU libidn composes and the others do not (Corrigendum 5)"]
    for sequence in ["\u0B47\u0300\u0B3E", "\u1100\u0300\u1161", "\u1100\u0323\u1161", "\u1025\u0300\u102E"]:
        theirs = by_libidn(sequence, True)
        if by_python(sequence, True) != (sequence, None) or theirs[0] == sequence:
            sys.exit(f"{points(sequence)} is no difference")
        text.append(f"{points(sequence)} stored, not {word_of(sequence, theirs)} => kept")
    text += ["", "# Not assigned in Unicode 3.2, in queries"]
    for c in CODE_POINTS:
        if stringprep.in_table_a1(chr(c)) and changed(chr(c)):
            text.append(f"{c:04X} query, not kept => {points(changed(chr(c)))}")
    return "\n".join(text) + "\n"


# Alphabets of the texts: ranges of code points that meet in one rule or another.
ALPHABETS = [
    [(0x20, 0x7E), (0xA0, 0xFF), (0x300, 0x345)],
    [(0x41, 0x5A), (0xAD, 0xAD), (0x2000, 0x200B), (0xFE00, 0xFE0F), (0x180B, 0x180D), (0x3000, 0x3000)],
    [(0x5D0, 0x5EA), (0x5B0, 0x5B9), (0x30, 0x39), (0xFB1D, 0xFB36)],
    [(0x627, 0x64A), (0x64B, 0x655), (0xFB50, 0xFBB1), (0x660, 0x669), (0x28, 0x29)],
    [(0x5D0, 0x5EA), (0x61, 0x7A), (0x20, 0x2F)],
    [(0x1100, 0x1112), (0x1161, 0x1175), (0x11A8, 0x11C2), (0xAC00, 0xAC80), (0x3131, 0x318E)],
    [(0x3B1, 0x3C9), (0x300, 0x308), (0x342, 0x345), (0x1F00, 0x1FBC)],
    [(0x30A1, 0x30FA), (0xFF61, 0xFF9F), (0x3099, 0x309A)],
    [(0xF900, 0xFA2D), (0x2F800, 0x2FA1D), (0x4E00, 0x4E80)],
    [(0x915, 0x939), (0x93C, 0x94D), (0x995, 0x9CD), (0xBC6, 0xBCC), (0xD46, 0xD4C)],
    [(0x20, 0x7E), (0x00, 0x1F), (0x7F, 0x9F), (0xE000, 0xE010), (0x2FF0, 0x2FFB), (0xE0001, 0xE0001)],
    [(0x220, 0x250), (0x370, 0x3FF), (0x1D400, 0x1D7FF), (0x500, 0x530)],
    [(0x2100, 0x214F), (0x2150, 0x218F), (0x2460, 0x24FF), (0x3200, 0x33FF), (0xFF01, 0xFF5E)],
]


def texts():
    """The rows of made-up texts at which both programs agree, and no later Unicode says otherwise."""
    text = [
        "# Texts of random characters, by GNU libidn and by Python's `stringprep`, which agree. A row is",
        "#     TEXT MODE => ANSWER",
        "# with the mode `stored` or `query`, and the answer as in code-points.txt; a refusal names its code point,",
        "# which Python alone tells. Written by tools/models/saslprep_answers.py.",
        "",
        "call prepared",
        "",
    ]
    chance = random.Random(4013)
    for alphabet in ALPHABETS:
        letters = [c for first, last in alphabet for c in range(first, last + 1)]
        rows = set()
        while len(rows) < 200:
            is_even = chance.random() < 0.5
            made = "".join(
                chr(chance.choice(letters) if is_even else chance.randint(*chance.choice(alphabet)))
                for _ in range(chance.randint(2, 6))
            )
            refused = chance.random() < 0.7
            answer = agreed(made, refused)
            if answer is not None and not changed(made) and not any(is_later(ord(c)) for c in made):
                rows.add(f"{points(made)} {'stored' if refused else 'query'} => {word_of(made, answer)}")
        text += sorted(rows)
    return "\n".join(text) + "\n"


def main():
    if sys.argv[1:] not in (["write"], ["check"]):
        sys.exit(__doc__)
    compare_tables()
    stale = 0
    files = {"code-points.txt": code_points(), "differences.txt": differences(), "texts.txt": texts()}
    for name, text in files.items():
        path = os.path.join(DATA, name)
        if sys.argv[1] == "write":
            with open(path, "w", encoding="utf-8") as file:
                file.write(text)
            continue
        with open(path, encoding="utf-8") as file:
            if file.read() != text:
                print(f"{path} is not what {sys.argv[0]} writes")
                stale = 1
    if sys.argv[1] == "check" and not stale:
        print(f"saslprep_answers: {len(files)} files are as both programs answer")
    return stale


if __name__ == "__main__":
    sys.exit(main())
