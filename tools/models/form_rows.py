#!/usr/bin/env python3
"""Runs of `scram users` and `scram server` that show the form of records: salt length and iteration count.

    tools/models/form_rows.py write   writes crates/test_driver_programs/data/forms.txt
    tools/models/form_rows.py check   compares that file with what would be written

Nothing of this repository is used: keys are of Python's `hashlib` and `hmac` (RFC 5802, section 3). What a command does to a
file is computed here from its description in `scram man`. The sentences are written by hand.
"""
import hashlib
import hmac
import sys
from typing import NamedTuple, Optional

sys.dont_write_bytecode = True
from channel_rows import CLIENT_NONCE, FILE, HASHES, SERVER_NONCE, b64, line, plain, row
from name_rows import SECRET
from rejections import MARK

FILE = FILE.with_name("forms.txt")
SHA_1, SHA_256, SHA_512 = HASHES
DEFAULTS = (SHA_256, SHA_512)

HEAD = """# Runs of `scram users` and `scram server` that show the form of records, separated by empty lines.
#     $ WORDS       the words, each cut at one space, the name of the program first
#     < LINE        a line of the input
#     f NAME MODE   a file with its permissions, without a mode one that everybody may read and its owner write
#     - LINE        a line of it
#     ?             each of the run's calls of files and of random bytes fails in turn, and then the status is 4
#                   and the files are as before, or changed where the errors say so
#     > LINE        a line of what is printed
#     ! LINE        a line among the errors
#     = STATUS      the status
#     F NAME MODE   a file after the run, with its permissions
#     + LINE        a line of it
# The random bytes are 0, 1, 2 and so on.
# Source: written by `tools/models/form_rows.py`, whose keys are of Python's `hashlib` and `hmac`; sentences written by hand."""


class Form(NamedTuple):
    """The length of a salt and an iteration count, each as the program prints it."""

    salt: int
    iterations: int


NEW = Form(16, 4096)


class Record(NamedTuple):
    name: str
    mechanism: str
    salt: bytes
    iterations: int
    password: str

    def form(self):
        return Form(len(self.salt), self.iterations)

    def line(self):
        salted = hashlib.pbkdf2_hmac(HASHES[self.mechanism], self.password.encode(), self.salt, self.iterations)
        client = hmac.digest(salted, b"Client Key", HASHES[self.mechanism])
        stored = hashlib.new(HASHES[self.mechanism], client).digest()
        server = hmac.digest(salted, b"Server Key", HASHES[self.mechanism])
        return f"{self.name} {self.mechanism}${self.iterations}:{b64(self.salt)}${b64(stored)}:{b64(server)}"


def old(name, mechanism, length, count):
    """A record of another program, with the password `old`."""
    return Record(name, mechanism, b"\7" * length, count, "old")


class Options(NamedTuple):
    """The options of `add` and `passwd`."""

    mechanism: Optional[str] = None
    iterations: Optional[int] = None
    length: Optional[int] = None
    salt: Optional[bytes] = None

    def words(self):
        named = (
            ("mechanism", self.mechanism),
            ("iterations", self.iterations),
            ("salt-length", self.length),
            ("salt", self.salt and self.salt.hex()),
        )
        return "".join(f" --{name} {value}" for name, value in named if value)

    def record(self, name, mechanism, first, password):
        length = self.length or first.salt
        return Record(name, mechanism, self.salt or bytes(range(length)), self.iterations or first.iterations, password)


def first_form(records, mechanism):
    """The form of the first record for a mechanism, or none."""
    return next((it.form() for it in records if it.mechanism == mechanism), None)


def noted(record, first):
    if first is None or record.form() == first:
        return []
    return [
        f"! scram: the new record for {record.mechanism} has a salt of {len(record.salt)} bytes and {record.iterations} "
        f"iterations, but the first has {first.salt} and {first.iterations}: clients see the difference"
    ]


def keeping(records, name, password):
    """What the errors say of records that keep another password."""
    return [
        f"! scram: the record for {it} keeps another password; passwd changes it"
        for it in HASHES
        if any(record.name == name and record.mechanism == it and record.password != password for record in records)
    ]


def changed(records, name, mechanisms, options, password):
    """The records with new ones of a user in place of those for the same mechanisms, or at the end, and the notes."""
    forms = {it: first_form(records, it) for it in mechanisms}
    new = {it: options.record(name, it, forms[it] or NEW, password) for it in mechanisms}
    after = [new.get(it.mechanism, it) if it.name == name else it for it in records]
    after += [new[it] for it in mechanisms if new[it] not in after]
    return after, [text for it in mechanisms for text in noted(new[it], forms[it])]


def run(title, words, records, given, wanted, after=None, mode="644", fails=True):
    """A run on `users.txt`. Without records before it, the file is missing."""
    files = [] if records is None else ["f users.txt", *(f"- {it.line()}" for it in records)]
    after = records if after is None else after
    files_after = [] if after is None else [f"F users.txt {mode}", *(f"+ {it.line()}" for it in after)]
    return row(title, words, [*given, *files, *(["?"] if fails else [])], *wanted, *files_after)


def add(title, records, name="alice", options=Options(), fails=True):
    mechanisms = [options.mechanism] if options.mechanism else DEFAULTS
    before = records or []
    after, notes = changed(before, name, mechanisms, options, "secret")
    done = "replaced" if any(it.name == name and it.mechanism in mechanisms for it in before) else "added"
    said = [f"> {done}", *notes, *keeping(after, name, "secret"), "= 0"]
    return run(
        title,
        f"users add users.txt {name}{options.words()}",
        records,
        ["< secret"],
        said,
        after,
        "600" if records is None else "644",
        fails,
    )


def passwd(title, records, name="alice", options=Options(), more=""):
    own = [it.mechanism for it in records if it.name == name]
    every = [it for it in (*DEFAULTS, SHA_1) if it in DEFAULTS or it in own]
    after, notes = changed(records, name, [options.mechanism] if options.mechanism else every, options, "secret")
    said = ["> changed", *notes, *keeping(after, name, "secret"), "= 0"]
    return run(title, f"users passwd users.txt {name}{more}{options.words()}", records, ["< secret"], said, after)


def hashes(title, records):
    names = {it.name for it in records}
    common = [
        mechanism for mechanism in HASHES if names and names == {it.name for it in records if it.mechanism == mechanism}
    ]
    return run(title, "users list users.txt --hashes", records, [], [*(f"> {it}" for it in common), "= 0"])


def check(title, records):
    said, seen = [], set()
    for it in records:
        first = first_form(records, it.mechanism)
        if it.form() != first:
            said += [
                f"> {it.mechanism} {it.name}: a salt of {len(it.salt)} bytes and {it.iterations} iterations, "
                f"the first record has {first.salt} and {first.iterations}"
            ]
        if it.name not in seen:
            has = {other.mechanism for other in records if other.name == it.name}
            said += [
                f"> {mechanism} {it.name}: no record"
                for mechanism in HASHES
                if first_form(records, mechanism) and mechanism not in has
            ]
        seen.add(it.name)
    ended = (
        [
            "! scram: users.txt: The records do not look alike, so clients can tell which users exist. "
            "scram users passwd mends a user's.",
            "= 3",
        ]
        if said
        else ["= 0"]
    )
    # To name the file in an error is a call too, whose failure is not reported.
    return run(title, "users check users.txt", records, [], [*said, *ended], fails=not said)


def serve(title, records, name, mechanism=SHA_256, options=""):
    """A server's challenge, after which the client closes."""
    record = next((it for it in records if (it.name, it.mechanism) == (name, mechanism)), None)
    length, count = first_form(records, mechanism) or NEW
    # See `docs/DECISIONS.md`: the secret, "Salt:", the mechanism, ":" and the name.
    salt = hmac.digest(SECRET, f"Salt:{mechanism}:{name}".encode(), "sha512")[:length]
    if record:
        salt, count = record.salt, record.iterations
    first = f"n,,n={name},r={b64(CLIENT_NONCE)}"
    challenge = f"r={b64(CLIENT_NONCE)}{b64(SERVER_NONCE)},s={b64(salt)},i={count}"
    several = len({it.form() for it in records if it.mechanism == mechanism}) > 1
    told = (
        [
            f"! scram: users.txt: the records for {mechanism} have several forms, so clients can tell which users exist; "
            "scram users check shows them"
        ]
        if several and not options
        else []
    )
    secret = [] if options else ["f users.txt.secret 600", f"- {SECRET.decode().strip()}"]
    after = [
        "F users.txt 644",
        *(f"+ {it.line()}" for it in records),
        *(it.replace("f ", "F ", 1).replace("- ", "+ ", 1) for it in secret),
    ]
    return row(
        title,
        f"server {mechanism} users.txt --nonce {SERVER_NONCE.hex()}{options}",
        ["< " + line(first), "f users.txt", *(f"- {it.line()}" for it in records), *secret],
        "> " + line(challenge),
        *told,
        "! scram: The other side closed before the end of the login.",
        "= 1",
        *after,
    )


def misplaced(title, options, is_rejected):
    """A client-first message with an attribute in the place of an extension, then no further message."""
    login = plain("n,,", client_more=",i=1")
    words = f"server {SHA_256} users.txt --nonce {SERVER_NONCE.hex()} --tell-unknown-users{options}"
    if is_rejected:
        ended = [
            "> " + line("e=other-error"),
            MARK + "SCRAM: Attribute in the place of an extension",
            "= 3",
        ]
    else:
        ended = ["> " + line(login.server_first), "! scram: The other side closed before the end of the login.", "= 1"]
    return row(
        title,
        words,
        ["< " + line(login.client_first), "f users.txt", f"- {login.keys.record()}"],
        *ended,
        "F users.txt 644",
        f"+ {login.keys.record()}",
    )


def rows():
    first = [old("bob", SHA_256, 32, 5), old("bob", SHA_512, 8, 7)]
    later = [*first, old("carol", SHA_256, 16, 6), old("carol", SHA_512, 16, 6)]
    single = [old("alice", SHA_256, 32, 5), old("bob", SHA_256, 32, 5)]
    three = [old("bob", SHA_256, 32, 5), old("alice", SHA_1, 4, 3), old("alice", SHA_256, 16, 9)]
    yield add("A new file has salts of 16 bytes and 4096 iterations.", None, fails=False)
    yield add(
        "A new file with another form. It has no other record, so nothing is said.",
        None,
        options=Options(iterations=1, length=4),
    )
    yield add("An empty file is like a new one.", [], options=Options(iterations=1))
    yield add("A new user: the form is that of the first record of each hash.", first)
    yield add("Later records with another form do not count.", later)
    yield add(
        "A file without a record for SCRAM-SHA-512: that one is as in a new file.",
        [old("bob", SHA_256, 32, 5)],
        fails=False,
    )
    yield add("A user with records: they are replaced in their places.", [old("alice", SHA_512, 8, 7), *first])
    yield add("A user with one record: the other is added.", single, options=Options(iterations=5, length=32))
    yield add("Another iteration count.", first, options=Options(iterations=6))
    yield add("Another salt length, for one mechanism.", first, options=Options(mechanism=SHA_256, length=16))
    yield add("The salt of an argument.", first, options=Options(mechanism=SHA_512, salt=b"\1\2"))
    yield add("The form of the file as options.", first, options=Options(mechanism=SHA_256, length=32, iterations=5))
    yield add(
        "A record for SCRAM-SHA-1 only. The others keep another password.",
        first,
        "bob",
        Options(mechanism=SHA_1, iterations=1),
    )
    yield add("The record for SCRAM-SHA-1 keeps another password.", three)
    yield passwd("All records of a user, and the one that is missing.", [*three, old("bob", SHA_512, 8, 7)])
    yield passwd("The same by --all.", [*three, old("bob", SHA_512, 8, 7)], more=" --all")
    yield passwd("One record of a user.", three, options=Options(mechanism=SHA_1))
    yield passwd("The form of the first record, and not that of the old one.", later, "carol")
    yield passwd("Another form.", first, "bob", Options(iterations=6, length=20))
    yield hashes(
        "The hashes for which each user has a record.", [*first, old("carol", SHA_512, 8, 7), old("carol", SHA_1, 8, 7)]
    )
    yield hashes("Two such hashes.", later)
    yield hashes("No such hash.", [old("alice", SHA_1, 8, 7), old("bob", SHA_256, 8, 7)])
    yield hashes("No users.", [])
    yield check("Records that look alike.", [*first, old("carol", SHA_256, 32, 5), old("carol", SHA_512, 8, 7)])
    yield check("Records with another form.", later)
    yield check("Users without a record.", [*three, old("bob", SHA_512, 8, 7), old("dave", SHA_512, 8, 7)])
    yield check("No users.", [])
    yield serve("An unknown user of a file without records for the hash.", [old("bob", SHA_512, 8, 7)], "eve")
    yield serve("An unknown user: the form is that of the first record.", first, "eve")
    yield serve("A file with several forms.", later, "eve")
    yield serve("A file with several forms, and a known user.", later, "carol", SHA_512)
    yield serve("Another hash has several forms.", [*first, old("carol", SHA_256, 16, 6)], "eve", SHA_512)
    yield serve("No mock records, so nothing is said.", later, "carol", SHA_256, " --tell-unknown-users")
    yield misplaced("Text in the place of an extension.", "", False)
    yield misplaced("Text in the place of an extension, at a server that rejects it.", " --reject-misplaced", True)


def text():
    """The text of the file."""
    return "".join([HEAD + "\nparagraphs run\n", *rows()])


def main():
    if sys.argv[1:] == ["write"]:
        FILE.write_text(text())
        return 0
    if sys.argv[1:] == ["check"]:
        made = text()
        same = FILE.read_text() == made
        print(f"{FILE.name}: {made.count(chr(10) + '$ ')} runs{'' if same else ', which differ'}")
        return 0 if same else 1
    print(__doc__, file=sys.stderr)
    return 2


if __name__ == "__main__":
    sys.exit(main())
