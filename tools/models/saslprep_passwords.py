#!/usr/bin/env python3
"""Writes what other programs make of passwords that SASLprep changes: two files of crates/test_driver_texts/data/.

    tools/models/saslprep_passwords.py write    writes the rows
    tools/models/saslprep_passwords.py check    compares the files with what would be written

`prepared-records.txt` has records and `prepared-secrets.txt` the answers of clients. Texts are prepared by
`saslprep_answers.py`, where Python and GNU libidn have to agree; keys are those of Python's `hashlib` and `hmac`, and the
records of SHA-1 and SHA-256 also those of GNU SASL (`apt-get install gsasl`), which prepares the text itself.
"""
import base64
import hashlib
import hmac
import os
import subprocess
import sys

sys.dont_write_bytecode = True
import saslprep_answers as answers

DATA = os.path.join(answers.ROOT, "crates", "test_driver_texts", "data")
HASHES = {"SCRAM-SHA-1": "sha1", "SCRAM-SHA-256": "sha256", "SCRAM-SHA-512": "sha512"}

# Passwords as they are typed: of printable ASCII, examples of RFC 4013, section 3, and texts that are composed,
# that stay as they are, that have other spaces, and that are written from right to left.
TYPED = [
    "pencil",
    "I\u00adX",
    "\u2168",
    "\u00aa",
    "p\u00e4ssw\u00f6rd",
    "pa\u0308sswo\u0308rd",
    "\ufb03 \u212b",
    "\u30d1\u30b9\u30ef\u30fc\u30c9",
    "\uff8a\uff9f\uff7d\uff9c\uff70\uff84\uff9e",
    "pen\u00a0cil",
    "\u05e1\u05d5\u05d3",
    "\U0001d538\U00010400",
]

RECORDS = """\
# Passwords as they are typed, which SASLprep (RFC 4013) prepares, and the records of the prepared text. A row is
#     RECORD TYPED => PREPARED made again and met, RECORD by the plain call
#     RECORD TYPED => PREPARED made again and met, FAULT by the plain call
# where the plain call is that for a password as it is typed. GNU libidn and Python's `stringprep` agree on the prepared
# texts; the keys are those of Python's `hashlib` and `hmac`, and those of SHA-1 and SHA-256 also GNU SASL 2.2's, which
# prepares the typed text itself. `tools/models/saslprep_passwords.py` wrote the rows.

call prepared-record

"""

SECRETS = """\
# Server-first messages, and what a client of `user` says by a prepared password. The rows are those of
# `client-secrets.txt`, with two more secrets:
#     prepared PASSWORD
#     prepared-both PASSWORD KEYS
# Keys, proofs and signatures are those of Python's `hashlib` and `hmac`, and the passwords prepared as in
# `prepared-records.txt`. `tools/models/saslprep_passwords.py` wrote the rows.

call client-secret

"""


def prepared(text):
    """The prepared text, on which both programs agree."""
    answer = answers.agreed(text, True)
    if answer is None or answer[1] is not None:
        sys.exit(f"{text!r} is no example: {answer}")
    return answer[0]


def encoded(data):
    """Bytes in base64."""
    return base64.b64encode(data).decode("ascii")


def word(text):
    """A text as a word of a row, its bytes escaped where they are not letters of ASCII or the like."""
    plain = [0x20 <= b < 0x7F and b not in b'"\\' for b in text.encode()]
    return '"' + "".join(chr(b) if p else f"\\x{b:02x}" for p, b in zip(plain, text.encode())) + '"'


class Keys:
    """The keys of a prepared password (RFC 5802, section 3)."""

    def __init__(self, mechanism, text, salt, count):
        self.mechanism, self.salt, self.count, self.name = mechanism, salt, count, HASHES[mechanism]
        salted = hashlib.pbkdf2_hmac(self.name, text.encode(), salt, count)
        self.client = self.mac(salted, b"Client Key")
        self.stored = hashlib.new(self.name, self.client).digest()
        self.server = self.mac(salted, b"Server Key")

    def mac(self, key, message):
        """The HMAC value."""
        return hmac.new(key, message, self.name).digest()

    def record(self):
        """The record as a text."""
        keys = f"{encoded(self.stored)}:{encoded(self.server)}"
        return f"{self.mechanism}${self.count}:{encoded(self.salt)}${keys}"

    def words(self):
        """The client's keys as words."""
        keys = f"{encoded(self.client)} {encoded(self.server)}"
        return f"{self.mechanism} {encoded(self.salt)} {self.count} {keys}"

    def answer(self, nonce, message):
        """The client-final message, and the signature that it waits for."""
        full = message.split(",")[0]
        without = f"c=biws,{full}"
        auth = f"n=user,r={nonce},{message},{without}".encode()
        pad = self.mac(self.stored, auth)
        proof = bytes(a ^ b for a, b in zip(self.client, pad))
        return f"{without},p={encoded(proof)} {encoded(self.mac(self.server, auth))}"


def by_gsasl(mechanism, typed, salt, count):
    """The record that GNU SASL makes of the typed password."""
    command = [
        "gsasl",
        "--mkpasswd",
        "--mechanism",
        mechanism,
        "--iteration-count",
        str(count),
        "--salt",
        encoded(salt),
        "--password",
        typed,
    ]
    try:
        line = subprocess.run(command, check=True, capture_output=True, text=True).stdout.strip()
    except FileNotFoundError:
        sys.exit("GNU SASL is not installed: apt-get install gsasl")
    _, salt, stored, server = line.split("}")[1].split(",")
    return f"{mechanism}${count}:{salt}${stored}:{server}"


def records():
    """The rows of records."""
    lines = [RECORDS]
    for typed in TYPED:
        lines.append(f"# {typed.encode('ascii', 'backslashreplace').decode()}\n")
        for at, mechanism in enumerate(HASHES):
            text, salt, count = prepared(typed), bytes([at + 1]) * 12, 4096 if at == 1 else 1 + at
            record = Keys(mechanism, text, salt, count).record()
            if mechanism != "SCRAM-SHA-512" and by_gsasl(mechanism, typed, salt, count) != record:
                sys.exit(f"GNU SASL says otherwise of {typed!r}")
            plain = record if typed.isascii() else "NormalizeError"
            lines.append(f"{word(record)} {word(typed)} => {text} made again and met, {plain} by the plain call\n")
        lines.append("\n")
    return "".join(lines).rstrip("\n") + "\n"


def secrets():
    """The rows of clients."""
    lines, nonce = [SECRETS], "fyko+d2lbbFgONRv9qkxdawL"
    for at, mechanism in enumerate(HASHES):
        for text in ["pencil", "p\u00e4ssw\u00f6rd", "I\u00adX", "\u0007 \ud55c\uae00"]:
            salt, count = bytes([7]) * (8 + at), 5 + at
            message = f"r={nonce}3rfcNHYJY1ZVvWVs7j,s={encoded(salt)},i={count}"
            keys, others = Keys(mechanism, text, salt, count), Keys(mechanism, text, salt, count + 1)
            answer = keys.answer(nonce, message)
            made = f"{answer} {count + 4} {keys.words()}"
            fault = "NormalizeError 0"
            plain = made if text == "pencil" else fault
            lines += [
                f"# {mechanism} by {text.encode('ascii', 'backslashreplace').decode()!r}\n",
                f"given {mechanism} {nonce} {message} 1 4294967295\n",
                f"prepared {word(text)} => {made}\n",
                f"password {word(text)} => {plain}\n",
                f"prepared-both {word(text)} {others.words()} => {made}\n",
                f"both {word(text)} {others.words()} => {plain}\n",
                f"prepared-both {word('other')} {keys.words()} => {answer} 2 {keys.words()}\n",
                f"both {word(text)} {keys.words()} => {answer} 2 {keys.words()}\n",
                "\n",
            ]
    return "".join(lines).rstrip("\n") + "\n"


def main():
    """Writes the files, or compares them."""
    if sys.argv[1:] not in (["write"], ["check"]):
        sys.exit(__doc__)
    stale = False
    for name, text in (("prepared-records.txt", records()), ("prepared-secrets.txt", secrets())):
        path = os.path.join(DATA, name)
        if sys.argv[1] == "check":
            with open(path, encoding="utf-8") as file:
                if file.read() != text:
                    print(f"{name} is another")
                    stale = True
        else:
            with open(path, "w", encoding="utf-8") as file:
                file.write(text)
    if sys.argv[1] == "check" and not stale:
        print("saslprep_passwords: 2 files are as they would be written")
    sys.exit(stale)


if __name__ == "__main__":
    main()
