#!/usr/bin/env python3
"""Bodies of SASL frames from the grammar of AMQP 1.0: what they are read as, and every way to spell a frame.

    tools/models/frames.py check [FILE..]   reads each body of the files, crates/test_driver_frames/data/frames.txt,
                                            worked-frames.txt and peers.txt if none are given, and compares the
                                            answer with the line's
    tools/models/frames.py write [SEED]     prints bodies with their answers, in the form of those files

Written from AMQP 1.0, part 1 (section 1.2, encodings; 1.6, types) and part 5 (5.3, SASL), independently of this
repository's code. Any value of the type system is read, by the halves of its format code; only then it is tested for
being a frame. Three rules are the project's own: a header other than 02 01 .. .. is NotImplemented, every other rejection
is DecodeError, and what is written is the shortest form, mechanisms always as an array. The bytes after a frame are
ignored.
"""
import itertools
import random
import sys
from pathlib import Path

DATA = Path(__file__).resolve().parents[2] / "crates/test_driver_frames/data"
CODES = ("Ok", "Auth", "Sys", "SysPerm", "SysTemp")
# Part 5, section 5.3.3: a frame's descriptor, and the type of each field; the first one is mandatory.
FRAMES = {
    "Mechanisms": (0x40, b"amqp:sasl-mechanisms:list", ("symbols",)),
    "Init": (0x41, b"amqp:sasl-init:list", ("symbol", "binary", "string")),
    "Challenge": (0x42, b"amqp:sasl-challenge:list", ("binary",)),
    "Response": (0x43, b"amqp:sasl-response:list", ("binary",)),
    "Outcome": (0x44, b"amqp:sasl-outcome:list", ("code", "binary")),
}
# Part 1, section 1.6: the format codes of the types that occur in frames.
NULL, UBYTE, ULONG = 0x40, 0x50, (0x53, 0x80)
VARIABLE = {"binary": (0xA0, 0xB0), "string": (0xA1, 0xB1), "symbol": (0xA3, 0xB3)}
LIST, ARRAY = (0x45, 0xC0, 0xD0), (0xE0, 0xF0)
# Section 1.2: the first half of a format code says how many bytes follow, or how wide their size is.
FIXED = {0x4: 0, 0x5: 1, 0x6: 2, 0x7: 4, 0x8: 8, 0x9: 16}
SIZED = {0xA: 1, 0xB: 4, 0xC: 1, 0xD: 4, 0xE: 1, 0xF: 4}


class Malformed(Exception):
    """Bytes that are no value, or a value that is no frame."""


def take(data, count):
    if len(data) < count:
        raise Malformed
    return data[:count], data[count:]


def number(data, width):
    front, rest = take(data, width)
    return int.from_bytes(front, "big"), rest


def constructor(data):
    """A format code, or the descriptor and the constructor of a described value."""
    code, rest = number(data, 1)
    if code != 0:
        return code, rest
    descriptor, rest = value(rest)
    inner, rest = constructor(rest)
    return (descriptor, inner), rest


def content(made_by, data):
    """What follows a constructor: bytes, or a list of values."""
    if isinstance(made_by, tuple):
        return content(made_by[1], data)
    half = made_by >> 4
    if half in FIXED:
        return take(data, FIXED[half])
    if half not in SIZED:
        raise Malformed
    size, rest = number(data, SIZED[half])
    front, rest = take(rest, size)
    if half in (0xA, 0xB):
        return front, rest
    count, front = number(front, SIZED[half])
    return (compound if half in (0xC, 0xD) else array)(count, front), rest


def compound(count, data):
    items = []
    while data and len(items) < count:
        item, data = value(data)
        items.append(item)
    # values of a list have a byte at least, so a list that is used up early is too short
    if data or len(items) != count:
        raise Malformed
    return items


def array(count, data):
    made_by, data = constructor(data)
    items = []
    while data and len(items) < count:
        item, data = content(made_by, data)
        items.append((made_by, item))
    # no type of a frame has elements of no bytes, of which there could be any number
    if data or len(items) != count:
        raise Malformed
    return made_by, items


def value(data):
    made_by, rest = constructor(data)
    inside, rest = content(made_by, rest)
    return (made_by, inside), rest


def variable(kind, given):
    """The bytes of a binary, a string or a symbol."""
    made_by, inside = given
    if made_by not in VARIABLE[kind]:
        raise Malformed
    try:
        inside.decode({"binary": "latin-1", "string": "utf-8", "symbol": "ascii"}[kind])
    except UnicodeDecodeError:
        raise Malformed from None
    return inside


def field(kind, given):
    """The value of a field; None where it is null."""
    made_by, inside = given
    if made_by == NULL:
        return None
    if kind == "code":
        if made_by != UBYTE or inside[0] >= len(CODES):
            raise Malformed
        return inside[0]
    if kind != "symbols":
        return variable(kind, given)
    # a field of several values is an array, or one value alone (section 1.4)
    if made_by not in ARRAY:
        return [variable("symbol", given)]
    if inside[0] not in VARIABLE["symbol"]:
        raise Malformed
    return [variable("symbol", it) for it in inside[1]]


def frame_of(given):
    """The kind and the fields of a described list."""
    if not isinstance(given[0], tuple) or given[0][1] not in LIST:
        raise Malformed
    (code, name), items = given[0][0], [] if given[0][1] == 0x45 else given[1]
    for kind, (number_of, symbol, types) in FRAMES.items():
        is_number = code in ULONG and int.from_bytes(name, "big") == number_of
        if is_number or (code in VARIABLE["symbol"] and name == symbol):
            fields = [field(*it) for it in zip(types, items)] + [None] * (len(types) - len(items))
            if len(items) > len(types) or fields[0] is None:
                raise Malformed
            return kind, fields
    raise Malformed


def hexed(data):
    return "none" if data is None else data.hex() or "-"


def shown(kind, fields):
    if kind == "Mechanisms":
        return ",".join(hexed(it) for it in fields[0]) or "empty"
    return " ".join(CODES[it] if isinstance(it, int) else hexed(it) for it in fields)


def answer(body):
    """The answer for a body, in the words of the files."""
    if len(body) >= 4 and body[:2] != b"\x02\x01":
        return "refused NotImplemented"
    try:
        given, rest = value(take(body, 4)[1])
        kind, fields = frame_of(given)
    except Malformed:
        return "refused DecodeError"
    return f"read {len(body) - len(rest)} {kind} {shown(kind, fields)} written {written(kind, fields).hex()}"


def sized(codes, front, data):
    """Both forms of a value with a size, the shorter one first; what precedes it is as wide as the size."""
    for code, width in zip(codes, (1, 4)):
        size = width * len(front) + len(data)
        if max([size, *front]) < 256**width:
            numbers = b"".join(it.to_bytes(width, "big") for it in [size, *front])
            yield bytes([code]) + numbers + data


def arrays(symbols):
    for code, width in zip(VARIABLE["symbol"], (1, 4)):
        if all(len(it) < 256**width for it in symbols):
            inside = b"".join(len(it).to_bytes(width, "big") + it for it in symbols)
            yield from sized(ARRAY, [len(symbols)], bytes([code]) + inside)


def field_spellings(kind, inside):
    if inside is None:
        return [bytes([NULL])]
    if kind == "code":
        return [bytes([UBYTE, inside])]
    if kind != "symbols":
        return list(sized(VARIABLE[kind], [], inside))
    alone = sized(VARIABLE["symbol"], [], inside[0]) if len(inside) == 1 else []
    return [*arrays(inside), *alone]


def lists(kind, fields):
    """Each list that spells the fields: those that are absent at the end may be null, or left out."""
    needed = max(at for at, it in enumerate(fields, 1) if it is not None)
    for count in range(needed, len(fields) + 1):
        ways = [field_spellings(*it) for it in zip(FRAMES[kind][2], fields[:count])]
        for items in itertools.product(*ways):
            yield from sized(LIST[1:], [count], b"".join(items))


def spellings(kind, fields):
    """Every body that spells a frame, the written one first, with zeros for the two bytes that are not read."""
    number_of, symbol, _ = FRAMES[kind]
    numbers = [bytes([0x53, number_of]), b"\x80" + number_of.to_bytes(8, "big")]
    descriptors = [*numbers, *sized(VARIABLE["symbol"], [], symbol)]
    inside = list(lists(kind, fields))
    return [b"\x02\x01\x00\x00\x00" + first + then for first in descriptors for then in inside]


def written(kind, fields):
    return spellings(kind, fields)[0]


def differs(line):
    """What is wrong with a line of a file, if anything."""
    digits, _, wanted = line.partition(" => ")
    body = bytes.fromhex(digits)
    found = answer(body)
    if found != wanted:
        return f"answered {found}"
    if found.startswith("read"):
        length = int(found.split()[1])
        spelled = body[:2] + b"\x00\x00" + body[4:length]
        if spelled not in spellings(*frame_of(value(body[4:])[0])):
            return "not among the spellings of its frame"
    return None


def check(files):
    wrong = 0
    for path in files:
        lines = [it for it in Path(path).read_text().splitlines() if it and not it.startswith(("#", "call "))]
        found = [(it, differs(it)) for it in lines]
        bad = [it for it in found if it[1] is not None]
        for line, why in bad:
            print(f"{line}: {why}")
        read = sum(" read " in it for it in lines)
        print(f"{Path(path).name}: {len(lines)} bodies, {read} of them read; {len(bad)} wrong")
        wrong += len(bad) + (not lines)
    return 1 if wrong else 0


SAMPLES = [
    ("no mechanisms", "Mechanisms", [[]]),
    ("one mechanism", "Mechanisms", [[b"SCRAM-SHA-256"]]),
    ("three mechanisms, one of them empty", "Mechanisms", [[b"PLAIN", b"", b"EXTERNAL"]]),
    ("a mechanism of 256 bytes", "Mechanisms", [[b"M" * 256, b"PLAIN"]]),
    ("an init alone", "Init", [b"ANONYMOUS", None, None]),
    ("an init with an empty response", "Init", [b"PLAIN", b"", None]),
    ("an init with a host", "Init", [b"ANONYMOUS", None, "hé".encode()]),
    ("an init with everything", "Init", [b"SCRAM-SHA-256", b"n,,n=user,r=fyko", b"localhost"]),
    ("an empty challenge", "Challenge", [b""]),
    ("the longest challenge of a short list", "Challenge", [b"c" * 252]),
    ("a challenge of 255 bytes", "Challenge", [b"c" * 255]),
    ("a challenge of 256 bytes", "Challenge", [b"c" * 256]),
    ("a response", "Response", [b"c=biws,r=fyko,p="]),
    *[(f"an outcome {name}", "Outcome", [code, None]) for code, name in enumerate(CODES)],
    ("an outcome with data", "Outcome", [0, b"v=AA=="]),
]


def damaged(body, pick):
    """A body that is cut, has a byte changed, or has bytes behind it."""
    at = pick.randrange(len(body))
    return pick.choice(
        [
            body[:at],
            body[:at] + bytes([pick.randrange(256)]) + body[at + 1 :],
            body[:at] + bytes([body[at] ^ 1 << pick.randrange(8)]) + body[at + 1 :],
            body + pick.randbytes(1 + pick.randrange(3)),
        ]
    )


def write(seed):
    pick = random.Random(seed)
    for name, kind, fields in SAMPLES:
        print(f"# {name}")
        every = spellings(kind, fields)
        for body in every:
            found = answer(body)
            # the frame that was spelled is the frame that is read
            if found != f"read {len(body)} {kind} {shown(kind, fields)} written {every[0].hex()}":
                sys.exit(f"{name}: {body.hex()} {found}")
            print(f"{body.hex()} => {found}")
        print(f"# {name}, damaged")
        for body in every:
            body = damaged(body, pick)
            print(f"{body.hex()} => {answer(body)}")
    return 0


def main():
    match sys.argv[1:]:
        case ["check", *files]:
            return check(files or [DATA / f"{name}.txt" for name in ("frames", "worked-frames", "peers")])
        case ["write"]:
            return write(1)
        case ["write", seed]:
            return write(int(seed))
        case _:
            print(__doc__, file=sys.stderr)
            return 2


if __name__ == "__main__":
    sys.exit(main())
