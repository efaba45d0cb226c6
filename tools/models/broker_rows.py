#!/usr/bin/env python3
"""What clients send to the broker of `crates/example_broker`, and what it has to send.

    tools/models/broker_rows.py write   writes its rows in `test_driver_programs`, and the input and output of the
                                        program's run
    tools/models/broker_rows.py check   compares these files with what would be written

By the model of `tools/models/negotiations.py`. The broker offers the hashes for which each user of the file has a record,
the strongest first. The records are those of other programs, except for those of SHA-512, which
Python's `hashlib` computes. An unknown user has the mock record of `crates/fe2o3_scram/specs/MockSettings.antt`.
"""
import base64
import hashlib
import sys
from pathlib import Path

sys.dont_write_bytecode = True

import negotiations as model

ROOT = Path(__file__).resolve().parents[2]
CRATE = ROOT / "crates/example_broker"
RECORDS = (CRATE / "data/records.txt").read_text()
SECRET, SERVER_NONCE, CLIENT_NONCE = b"7" * 32, b"\2" * 32, b"\1" * 32

SHORT = {"1": "SCRAM-SHA-1", "256": "SCRAM-SHA-256", "512": "SCRAM-SHA-512"}
HEADER = model.SASL
AUTH, OK = model.spelled("Outcome", 1, None), model.spelled("Outcome", 0, None)


def offered(records):
    """The mechanisms of SCRAM for which each user of these lines has a record, the strongest first."""
    users = {}
    for line in records.splitlines():
        user, text = line.rsplit(" ", 1)
        users.setdefault(user, set()).add(text.partition("$")[0])
    return [
        name for name in ("SCRAM-SHA-512", "SCRAM-SHA-256", "SCRAM-SHA-1") if all(name in has for has in users.values())
    ]


def form_of(records):
    """The salt length and the iteration count of mock records: those of the first record for the strongest hash that is
    offered, or of new records."""
    for mechanism in offered(records)[:1]:
        for line in records.splitlines():
            count, salt, _, _ = line.rsplit(" ", 1)[1].partition("$")[2].replace("$", ":").split(":")
            if line.rsplit(" ", 1)[1].startswith(mechanism + "$"):
                return len(base64.b64decode(salt)), int(count)
    return 16, 4096


def offer(records, tls):
    names = [name.encode() for name in offered(records)] + [b"PLAIN"] * tls
    return HEADER + model.spelled("Mechanisms", names)


def record(name, mechanism, salt, count, password):
    """A line of a user, with the keys of the password (RFC 5802, section 3)."""
    how = model.HASHES[mechanism]
    salted = hashlib.pbkdf2_hmac(how, password, salt, count)
    stored = hashlib.new(how, model.mac(how, salted, b"Client Key")).digest()
    parts = (base64.b64encode(part).decode() for part in (salt, stored, model.mac(how, salted, b"Server Key")))
    return "{} {}${}:{}${}:{}\n".format(name, mechanism, count, *parts)


def record_of(records, mechanism, name):
    """The salt, count and keys of the user's first record for a mechanism, or of the mock record."""
    for line in records.splitlines():
        user, text = line.rsplit(" ", 1)
        if user.encode() == model.escaped(name) and text.startswith(mechanism + "$"):
            count, salt, stored, server = text[len(mechanism) + 1 :].replace("$", ":").split(":")
            return base64.b64decode(salt), int(count), base64.b64decode(stored), base64.b64decode(server)
    how = model.HASHES[mechanism]
    salt = model.mac("sha512", SECRET, b"Salt:%b:%b" % (mechanism.encode(), name))
    stored, server = (model.mac(how, SECRET, label + b":" + name) for label in (b"StoredKey", b"ServerKey"))
    salt_len, count = form_of(records)
    return salt[:salt_len], count, stored, server


def scram(records, tls, mechanism, name, password):
    """What a client sends that proves by a password, what the server sends in turn, and whether it is let in. An init of a
    mechanism that is not offered is rejected at once."""
    salt, count, stored, server = record_of(records, mechanism, name)
    client = model.ScramClient(mechanism, name, password, 4096)
    first = client.first(CLIENT_NONCE)
    nonce = base64.b64encode(CLIENT_NONCE) + base64.b64encode(SERVER_NONCE)
    challenge = b"r=%b,s=%b,i=%d" % (nonce, base64.b64encode(salt), count)
    final = client.challenge(challenge)
    signed = b",".join([client.bare, challenge, final.rsplit(b",", 1)[0]])
    keys = model.Keys(client.name, password, salt, count)
    keys.stored, let_in = stored, keys.stored == stored
    verifier = b"v=" + base64.b64encode(model.mac(client.name, server, signed))
    assert let_in == keys.accepts(base64.b64decode(final.rsplit(b",p=", 1)[1]), signed)
    init = HEADER + model.spelled("Init", mechanism.encode(), first, None)
    if mechanism not in offered(records):
        return init, [offer(records, tls), AUTH], False
    came = init + model.spelled("Response", final)
    outcome = model.spelled("Outcome", 0, verifier) if let_in else AUTH
    return came, [offer(records, tls), model.spelled("Challenge", challenge), outcome], let_in


def plain(records, tls, name, password):
    salt, count, stored, _ = record_of(records, "SCRAM-SHA-256", name)
    let_in = tls and model.Keys("sha256", password, salt, count).stored == stored
    came = HEADER + model.spelled("Init", b"PLAIN", b"\0" + name + b"\0" + password, None)
    return came, [offer(records, tls), OK if let_in else AUTH], let_in


def row(what, tls, *logins, records=RECORDS):
    """Logins in turn by these records, each a mechanism, a user and a password, of which three wrong ones or a right one
    end."""
    came, sent, wrong, user = b"", b"", 0, None
    for mechanism, name, password in logins:
        words = (records, tls) if mechanism == "PLAIN" else (records, tls, SHORT[mechanism])
        how = (plain if mechanism == "PLAIN" else scram)(*words, name, password)
        came += how[0]
        if user is None and wrong < 3:
            sent += b"".join(how[1])
            user, wrong = (name.decode(), wrong) if how[2] else (None, wrong + 1)
    return what, tls, came, sent, user and (user, wrong), records


RIGHT, PLAIN = ("256", b"user", b"pencil"), ("PLAIN", b"user", b"pencil")
WRONG, WRONG_PLAIN = ("256", b"user", b"crayon"), ("PLAIN", b"user", b"crayon")
CAME, SENT, _ = scram(RECORDS, False, SHORT["256"], b"user", b"pencil")
#: The records of a user with two hashes, and that of one with SHA-1 only.
TWO_HASHES = "".join(line for line in RECORDS.splitlines(True) if line.startswith("user "))
#: A record by Python's `hashlib` with a salt of 24 bytes and 3000 iterations.
OTHER_FORM = record("user", "SCRAM-SHA-256", bytes(range(24)), 3000, b"pencil")
SHA_1_ONLY = "".join(line for line in RECORDS.splitlines(True) if line.startswith("gnu SCRAM-SHA-1$"))
ROWS = [
    row("SCRAM-SHA-256, a record of PostgreSQL", False, RIGHT),
    row("the same under TLS", True, RIGHT),
    row("SCRAM-SHA-512, for which each user has a record", False, ("512", b"user", b"pencil"), records=TWO_HASHES),
    row("SCRAM-SHA-256 beside SCRAM-SHA-512", True, RIGHT, records=TWO_HASHES),
    row("SCRAM-SHA-1, the only hash of each user", False, ("1", b"gnu", b"pencil"), records=SHA_1_ONLY),
    row("a user whose record has another form", False, RIGHT, records=OTHER_FORM),
    row("an unknown user beside records of another form", False, ("256", b"nobody", b"pencil"), records=OTHER_FORM),
    row("SCRAM-SHA-512, for which some users have no record", False, ("512", b"user", b"pencil")),
    row("SCRAM-SHA-256, a record of GNU SASL", False, ("256", b"gnu", b"pencil")),
    row("a name with a comma", False, ("256", b"smith,john", b"x")),
    row("PLAIN", True, PLAIN),
    row("PLAIN, a record of GNU SASL", True, ("PLAIN", b"gnu", b"pencil")),
    row("PLAIN, a wrong password", True, WRONG_PLAIN),
    row("PLAIN, an unknown user", True, ("PLAIN", b"nobody", b"pencil")),
    row("PLAIN without TLS", False, PLAIN),
    row("a wrong proof", False, WRONG),
    row("an unknown user", False, ("256", b"nobody", b"pencil")),
    row("an unknown user of SCRAM-SHA-512", False, ("512", b"nobody", b"pencil"), records=TWO_HASHES),
    row("a user without a record of SHA-512", False, ("512", b"gnu", b"pencil")),
    row("two wrong logins before", True, WRONG, WRONG_PLAIN, RIGHT),
    row("three wrong logins", True, ("512", b"user", b"x"), WRONG_PLAIN, ("256", b"nobody", b"x"), RIGHT),
    ("another header", False, model.AMQP + CAME, HEADER, None, RECORDS),
    ("a login that is cut off", False, CAME[:-1], SENT[0] + SENT[1], None, RECORDS),
]


# The files of the secret before and after a run, each with its mode: there, made by the run, readable, and short.
THERE = f"f records.txt.secret 600\n~ {SECRET.decode()}\n", f"F records.txt.secret 600\n+ {SECRET.decode()}\n"
MADE = "", THERE[1]
READABLE = THERE[0].replace("600", "644"), THERE[1].replace("600", "644")
SHORT_ONE = THERE[0].replace("7\n", "\n"), THERE[1].replace("7\n", "\n")
SECRETS = [
    ("The secret is made by the first use, of its fourth call", MADE, row("", False, ("256", b"nobody", b"pencil"))),
    ("A secret that others may read", READABLE, ("", False, CAME, b"", None, RECORDS)),
    ("A secret of 31 bytes", SHORT_ONE, ("", False, CAME, b"", None, RECORDS)),
]


def rows():
    """The rows as `test_driver_programs` reads them."""
    yield HEAD
    for what, secret, (_, tls, came, sent, user, text) in [(row[0], THERE, row) for row in ROWS] + SECRETS:
        records = text.splitlines()
        yield f"\n# {what[0].upper()}{what[1:]}.\n$ example_broker records.txt{' tls' * tls}\nf records.txt\n"
        yield "".join(f"- {line}\n" for line in records) + secret[0]
        yield f"r {4 * SECRET[:1].hex()}{SERVER_NONCE[0]:02x}\nx {came.hex()}\nX {sent.hex()}\n"
        yield f'! "{user[0]}" logged in, after {user[1]} wrong logins\n= 0\n' if user else "= 1\n"
        yield "F records.txt 644\n" + "".join(f"+ {line}\n" for line in records) + secret[1]


HEAD = """\
# Runs of the program `example_broker`, separated by empty lines.
#     $ WORDS       the words, each cut at one space, the name of the program first
#     f NAME MODE   a file with its permissions, without a mode one that everybody may read and its owner write
#     - LINE        a line of it
#     ~ LINE        its last line, without a line feed
#     r BYTES       the random bytes: those of each call of files or random bytes in turn are all the next of these,
#                   and of further calls all the last, so that a new secret is the first, 32 times, and each nonce the
#                   last
#     x BYTES       an input of bytes, in hexadecimal digits; it comes in pieces of 1, of 7 and of 4096 bytes
#     X BYTES       what is printed
#     ! LINE        a line among the errors
#     = STATUS      the status
#     F NAME MODE   a file after the run, with its permissions
#     + LINE        a line of it
# Source: written by `tools/models/broker_rows.py`, by a model in Python; the records of other programs, but for those of
# SHA-512, which Python's `hashlib` makes.
paragraphs run
"""


def files():
    """Each file and what it has to hold. The run: a wrong password, and then the right one."""
    _, _, came, sent, _, _ = row("", True, WRONG_PLAIN, PLAIN)
    return {
        ROOT / "crates/test_driver_programs/data/brokers.txt": "".join(rows()).encode(),
        CRATE / "stdin": came + model.AMQP,
        CRATE / "stdout": sent,
    }


def main():
    if sys.argv[1:] == ["write"]:
        for path, data in files().items():
            path.write_bytes(data)
        return 0
    if sys.argv[1:] == ["check"]:
        wrong = [str(path) for path, data in files().items() if path.read_bytes() != data]
        print(f"{len(ROWS + SECRETS)} rows" if not wrong else f"not as they are made: {', '.join(wrong)}")
        return bool(wrong)
    print(__doc__, file=sys.stderr)
    return 2


if __name__ == "__main__":
    sys.exit(main())
