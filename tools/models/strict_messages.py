#!/usr/bin/env python3
"""Messages of SCRAM as sides read them that test the grammar of RFC 5802, section 7, written here as regular expressions.

    tools/models/strict_messages.py write   writes crates/test_driver_texts/data/strict-messages.txt
    tools/models/strict_messages.py check   compares that file with what would be written, and reads the SCRAM messages that
                                            other programs sent by the same grammar

Nothing of this repository's libraries is used.
"""
import base64
import re
import sys
from pathlib import Path

DATA = Path(__file__).resolve().parents[2] / "crates"
FILE = DATA / "test_driver_texts/data/strict-messages.txt"
PEERS = DATA / "test_driver_frames/data/peer-runs.txt"

HEAD = """# Messages as sides read them that test the grammar. A line `given SIDE` says of which sides the rows after it are:
#     strict             a strict side
#     reject_misplaced   a server with `reject_misplaced`, and a client that says `y,,`: both test only extensions
# A row is
#     KIND MESSAGE => read
#     KIND MESSAGE => FAULT
# where KIND is `client-first`, `server-first` to a client with the nonce `fyko+d2lbbFgONRv9qkxdawL`, `client-final` of an
# exchange with the nonce of RFC 5802, section 5, or `server-final` to a client that waits for the signature of that section.
# Source: written by `tools/models/strict_messages.py`, by the grammar of RFC 5802, section 7, as regular expressions of
# Python.

call strict-message
"""

# RFC 5802, section 7. Each message is matched as text, so that the classes of UTF-8 are all characters but some.
VALUE_CHAR = r"[^\0,]"
VALUE = rf"{VALUE_CHAR}+"
SASLNAME = r"(?:[^\0,=]|=2C|=3D)+"
PRINTABLE = r"[\x21-\x2b\x2d-\x7e]"
BASE64 = r"(?:[A-Za-z0-9/+]{4})*(?:[A-Za-z0-9/+]{3}=|[A-Za-z0-9/+]{2}==)?"
# An attribute that section 5.1 does not define: what such a letter means is not known, so that it is an extension.
EXTENSION = rf"[b-dfghj-loqt-uw-zA-Z]={VALUE}".replace("b-dfghj-loqt-uw-z", "bdfghjkloqtuwxyz")
EXTENSIONS = rf"(?:,{EXTENSION})*"
COUNT = r"[1-9][0-9]*"

CLIENT_NONCE = "fyko+d2lbbFgONRv9qkxdawL"
BOTH = CLIENT_NONCE + "3rfcNHYJY1ZVvWVs7j"
SIGNATURE = "rmF9pqV8S7suAoZWja4dJRkFsKQ="
PROOF = "v0X8v3Bz2T0CJGbJQyF0X+HI4Ts="


def first_failure(tests):
    """The fault of the first test that fails, or `read`."""
    return next((fault for fault, passes in tests if not passes), "read")


def match(pattern, text):
    return re.fullmatch(pattern, text, re.S) is not None


# What a side tests besides what it reads in any case: the whole grammar, or only that the parts after the known ones are
# extensions.
STRICT, EXTENSIONS_ONLY, NOTHING = "strict", "reject_misplaced", "nothing"


def tested(tests, side):
    """The tests that a side of this kind makes, in order."""
    kinds = {STRICT: {None, "grammar", "extensions"}, EXTENSIONS_ONLY: {None, "extensions"}, NOTHING: {None}}[side]
    return [(fault, passes) for kind, fault, passes in tests if kind in kinds]


def client_first(text, side, headers=("n,,",)):
    """What a server says (section 5.1): what it reads in any case, and then what it tests."""
    header = next((it for it in headers if text.startswith(it)), None)
    bare = text[len(header or "") :]
    parts = bare.split(",")
    second = parts[1] if len(parts) > 1 else ""
    return first_failure(
        tested(
            [
                (None, "CannotParseGs2Header", header is not None),
                (None, "CannotParseUsername", match(r"n=(?:[^,=]|=2C|=3D)*", parts[0])),
                (None, "CannotParseClientNonce", second.startswith("r=")),
                ("grammar", "CannotParseUsername", match(f"n={SASLNAME}", parts[0])),
                ("grammar", "CannotParseClientNonce", match(f"r={PRINTABLE}+", second)),
                ("extensions", "MisplacedAttribute", match(f"[^,]*,[^,]*{EXTENSIONS}", bare)),
            ],
            side,
        )
    )


def server_first(text, side, nonce=CLIENT_NONCE):
    """What a client with this nonce says."""
    parts = text.split(",")
    third = parts[2] if len(parts) > 2 else ""
    digits = third[2:]
    return first_failure(
        tested(
            [
                (None, "InsufficientParts", len(parts) > 2),
                (None, "ExtensionNotSupported", not parts[0].startswith("m=")),
                (None, "NonceNotFound", parts[0].startswith("r=")),
                (None, "ClientNonceMismatch", parts[0].startswith("r=" + nonce)),
                (None, "SaltNotFound", len(parts) > 1 and parts[1].startswith("s=")),
                (None, "Base64DecodeError", len(parts) > 1 and match(f"s={BASE64}", parts[1])),
                (None, "IterationCountNotFound", third.startswith("i=")),
                (None, "IterationCountParseError", match(r"\+?[0-9]+", digits) and 1 <= int(digits) < 2**32),
                ("grammar", "ClientNonceMismatch", match(f"r={re.escape(nonce)}{PRINTABLE}+", parts[0])),
                ("grammar", "IterationCountParseError", match(COUNT, digits)),
                ("extensions", "MisplacedAttribute", match(f"[^,]*,[^,]*,[^,]*{EXTENSIONS}", text)),
            ],
            side,
        )
    )


def client_final(text, side, nonce=BOTH, binding=b"n,,"):
    """What a server with this nonce says, which expects this header with the data of a channel."""
    before, comma, proof = text.rpartition(",")
    parts = text.split(",")
    return first_failure(
        tested(
            [
                (None, "CannotParseClientFinalMessage", parts[0].startswith("c=")),
                (None, "Base64DecodeError", match(f"c={BASE64}", parts[0])),
                (None, "InvalidChannelBinding", parts[0] == "c=" + base64.b64encode(binding).decode()),
                (None, "CannotParseClientFinalMessage", len(parts) > 1 and parts[1].startswith("r=")),
                (None, "IncorrectClientFinalNonce", len(parts) > 1 and parts[1] == "r=" + nonce),
                (None, "ProofNotFoundInClientFinal", comma and proof.startswith("p=")),
                (None, "Base64DecodeError", match(f"p={BASE64}", proof)),
                ("extensions", "MisplacedAttribute", match(f"[^,]*,[^,]*{EXTENSIONS}", before)),
            ],
            side,
        )
    )


def server_final(text, side, signature=SIGNATURE):
    """What a client says that waits for this signature."""
    parts = text.split(",")
    return first_failure(
        tested(
            [
                (None, "ServerSignatureMismatch", parts[0].startswith("v=")),
                (None, "Base64DecodeError", match(f"v={BASE64}", parts[0])),
                ("extensions", "MisplacedAttribute", match(f"[^,]*{EXTENSIONS}", text)),
                (None, "ServerSignatureMismatch", parts[0] == "v=" + signature),
            ],
            side,
        )
    )


# Texts in the place of extensions.
ENDS = [
    "",
    ",x=1",
    ",X=1",
    ",A=",
    ",A=a",
    ",x==",
    ",x=1,y=2",
    ",",
    ",,x=1",
    ",x",
    ",x=",
    ",=1",
    ",xy=1",
    ",1=1",
    ", x=1",
    ",x=\0",
    ",x=\u00e4",
    ",\u00e4=1",
    ",m=1",
    ",a=admin",
    ",n=user",
    ",r=a",
    ",c=biws",
    ",s=AAAA",
    ",i=1",
    ",p=AAAA",
    ",v=AAAA",
    ",e=other-error",
    ",x=1,m=1",
    ",m",
    ",M=1",
]
NAMES = [
    "user",
    "",
    "u",
    "=2C",
    "=3D",
    "u=2Cs=3Dr",
    "\0",
    "u\0",
    "\0u",
    "u r",
    "J\u00fcrgen",
    "\x7f",
    "\x01",
    "=",
    "=2c",
]
NONCES = [
    CLIENT_NONCE,
    "",
    "a",
    "!",
    "~",
    "+",
    "=",
    "\x7f",
    " ",
    "a b",
    "a\t",
    "a\0",
    "\u00e4",
    "a\u00e4",
    "-",
    "%",
    "\x1f",
]
COUNTS = [
    "4096",
    "1",
    "0",
    "+1",
    "+4096",
    "04096",
    "00",
    "+",
    "-1",
    "",
    "4294967295",
    "4294967296",
    "04294967295",
    " 1",
    "1 ",
    "1e3",
    "10",
]


def rows():
    for end in ENDS:
        yield "client-first", f"n,,n=user,r={CLIENT_NONCE}{end}"
    for name in NAMES:
        yield "client-first", f"n,,n={name},r={CLIENT_NONCE}"
    for nonce in NONCES:
        yield "client-first", f"n,,n=user,r={nonce}"
    # Of two faults the first one is said: what is read in any case, and then the grammar, part by part.
    for text in ("n,,n=,r=", "n,,n=,r=,m=1", "n,,n=,m=1", "n,,n==,r=", "n,,n=user,r=,m=1", "n,,n=,r=a,m=1", "m,,n=,r="):
        yield "client-first", text
    base = f"r={BOTH},s=QSXCR+Q6sek8bf92"
    for end in ENDS:
        yield "server-first", f"{base},i=4096{end}"
    for nonce in NONCES:
        yield "server-first", f"r={CLIENT_NONCE}{nonce},s=QSXCR+Q6sek8bf92,i=4096"
    for count in COUNTS:
        yield "server-first", f"{base},i={count}"
    for text in (
        f"r={CLIENT_NONCE},s=QSXCR+Q6sek8bf92,i=+1,m=1",
        f"{base},i=+1,m=1",
        f"r={CLIENT_NONCE},s=A,i=+1",
        f"r={CLIENT_NONCE},s=,i=0",
    ):
        yield "server-first", text
    for end in ENDS:
        yield "client-final", f"c=biws,r={BOTH}{end},p={PROOF}"
    for end in ENDS:
        yield "server-final", f"v={SIGNATURE}{end}"
    yield "server-final", "v=AAAA"
    yield "server-final", "v=AAAA,m=1"
    yield "server-final", "v=A,m=1"


def quoted(text):
    """A word of a row: printable ASCII, and other bytes by their numbers."""
    out = "".join(chr(b) if 0x20 <= b < 0x7F and chr(b) not in '"\\' else f"\\x{b:02x}" for b in text.encode())
    return f'"{out}"'


READERS = {
    "client-first": client_first,
    "server-first": server_first,
    "client-final": client_final,
    "server-final": server_final,
}
KINDS = list(READERS)


def written():
    lines = [HEAD.rstrip("\n")]
    for side in (STRICT, EXTENSIONS_ONLY):
        lines, last = [*lines, "", f"given {side}"], None
        for kind, text in dict.fromkeys(rows()):
            if kind != last:
                lines += [""]
                last = kind
            lines += [f"{kind} {quoted(text)} => {READERS[kind](text, side)}"]
    return "\n".join(lines) + "\n"


def peers():
    """Whether the messages in the runs of other programs are in the grammar, but for an empty name of libpq."""
    faults, count = [], 0
    grammar = {
        0x41: rf"(?:n|y|p=[A-Za-z0-9.-]+),(?:a={SASLNAME})?,n={SASLNAME},r={PRINTABLE}+{EXTENSIONS}",
        0x42: rf"r={PRINTABLE}+,s={BASE64},i={COUNT}{EXTENSIONS}",
        0x43: rf"c={BASE64},r={PRINTABLE}+{EXTENSIONS},p={BASE64}",
        0x44: rf"v={BASE64}{EXTENSIONS}",
    }
    for number, line in enumerate(PEERS.read_text().splitlines(), 1):
        if line.startswith("#") or " => " not in line:
            continue
        body = bytes.fromhex(line.split(" => ")[0].split()[-1])
        if len(body) < 7 or body[6] not in grammar:
            continue
        code, texts = body[6], [f for f in re.findall(rb"[\x21-\x7e][=,][\x00-\x7f]{8,}", body)]
        text = max(texts, key=len, default=b"").decode()
        if code == 0x44 and "v=" not in text:
            continue
        found = re.search(
            {0x41: r"(?:n|y|p=[^,]*),[^,]*,n=.*", 0x42: r"r=.*", 0x43: r"c=.*", 0x44: r"v=.*"}[code], text
        )
        if not found:
            continue
        count += 1
        if not match(grammar[code], found.group()):
            faults.append((number, found.group()))
    return count, faults


def main():
    text = written()
    if sys.argv[1:] == ["write"]:
        FILE.write_text(text)
        return 0
    count, faults = peers()
    others = [f for f in faults if not f[1].split(",")[2] == "n="]
    for number, message in others:
        print(f"{PEERS.name}:{number}: not in the grammar: {message!r}")
    if not count:
        print("no message of another program was found")
    same = FILE.read_text() == text
    if not same:
        print(f"{FILE.name} is not what the model writes")
    print(f"{text.count(' => ') - 2} rows; {count} messages of other programs, {len(faults)} with an empty name")
    return 0 if same and count and not others else 1


if __name__ == "__main__":
    sys.exit(main())
