#!/usr/bin/env python3
"""Runs of `scram server --saslprep`, which prepares user names by SASLprep (RFC 4013; RFC 5802, section 5.1).

    tools/models/name_rows.py write   writes crates/test_driver_programs/data/names.txt
    tools/models/name_rows.py check   compares that file with what would be written

Nothing of this repository is used: names are prepared by Python's `stringprep` and `unicodedata`, proofs, signatures and
mock salts are of Python's `hashlib` and `hmac`, and the frames are those of `channel_rows.py`. The sentences are written by
hand.
"""
import hmac
import stringprep
import sys
import unicodedata

sys.dont_write_bytecode = True
from channel_rows import AUTH, CLIENT_NONCE, COUNT, FILE, HEADER, SALT, SERVER_NONCE, SHA_256
from channel_rows import Keys, b64, challenge, init, line, offer, ok, response, row
from rejections import MARK, shown

FILE = FILE.with_name("names.txt")
SECRET = b"0123456789abcdef0123456789abcde\n"

HEAD = """# Runs of `scram server` for names that SASLprep prepares, separated by empty lines.
#     $ WORDS       the words, each cut at one space, the name of the program first
#     < LINE        a line of the input
#     x BYTES       an input of bytes, in hexadecimal digits
#     f NAME MODE   a file with its permissions, without a mode one that everybody may read and its owner write
#     - LINE        a line of it
#     > LINE        a line of what is printed
#     X BYTES       what is printed, where the input is bytes
#     ! LINE        a line among the errors
#     = STATUS      the status
#     F NAME MODE   a file after the run, with its permissions
#     + LINE        a line of it
# Source: written by `tools/models/name_rows.py`: names prepared by Python's `stringprep` and `unicodedata`, proofs and
# signatures of Python's `hashlib` and `hmac`; sentences written by hand."""

PROHIBITED = (
    stringprep.in_table_c12,
    stringprep.in_table_c21_c22,
    stringprep.in_table_c3,
    stringprep.in_table_c4,
    stringprep.in_table_c5,
    stringprep.in_table_c6,
    stringprep.in_table_c7,
    stringprep.in_table_c8,
    stringprep.in_table_c9,
)


def mapped(c):
    """RFC 4013, section 2.1."""
    if stringprep.in_table_c12(c):
        return " "
    return "" if stringprep.in_table_b1(c) else c


def prepared(name):
    """The name prepared as a query, or None if SASLprep rejects it or prepares it to nothing."""
    text = unicodedata.ucd_3_2_0.normalize("NFKC", "".join(map(mapped, name)))
    if any(test(c) for c in text for test in PROHIBITED):
        return None
    if any(map(stringprep.in_table_d1, text)) and not (
        stringprep.in_table_d1(text[0])
        and stringprep.in_table_d1(text[-1])
        and not any(map(stringprep.in_table_d2, text))
    ):
        return None
    return text or None


def escaped(name):
    return name.replace("=", "=3D").replace(",", "=2C")


def logged_in(name):
    """The end of a server's run that authenticates this user."""
    return [f"! scram: {shown(name)} logged in", "= 0"]


class Login:
    """A login by a name, with the record of the file or a mock record."""

    def __init__(self, name, is_known):
        salt = SALT
        if not is_known:
            # See `docs/DECISIONS.md`: the secret, "Salt:", the mechanism, ":" and the name.
            salt = hmac.digest(SECRET, f"Salt:{SHA_256}:{name}".encode(), "sha512")[: len(SALT)]
        keys = Keys(SHA_256)
        bare = f"n={escaped(name)},r={b64(CLIENT_NONCE)}"
        nonce = b64(CLIENT_NONCE) + b64(SERVER_NONCE)
        self.first = "n,," + bare
        self.challenge = f"r={nonce},s={b64(salt)},i={COUNT}"
        without = f"c={b64(b'n,,')},r={nonce}"
        auth = ",".join([bare, self.challenge, without]).encode()
        signature = hmac.digest(keys.stored, auth, keys.hash)
        self.last = f"{without},p={b64(bytes(a ^ b for a, b in zip(keys.client, signature)))}"
        self.signed = "v=" + b64(hmac.digest(keys.server, auth, keys.hash))


def record(name):
    """The line of a user, whose password is `pencil`."""
    return escaped(name) + Keys(SHA_256).record()[len("alice") :]


class Server:
    """A server of the users with these names."""

    def __init__(self, *names, options="--saslprep"):
        self.names = names
        self.options = options

    def files(self, mark):
        """The files before or after a run."""
        head, mode = ("f", "") if mark == "-" else ("F", " 644")
        files = [f"{head} users.txt{mode}", *(f"{mark} {record(name)}" for name in self.names)]
        if "--tell-unknown-users" in self.options:
            return files
        return [*files, f"{head} users.txt.secret 600", f"{mark} {SECRET.decode().strip()}"]

    def run(self, title, given, wanted, options=""):
        words = f"server {SHA_256} users.txt --nonce {SERVER_NONCE.hex()} {self.options}{options}".rstrip()
        return row(title, words, [*given, *self.files("-")], *wanted, *self.files("+"))

    def known(self, name):
        """The name of the client's record, or None if it has none."""
        wanted = prepared(name) if "--saslprep" in self.options else name
        return wanted if wanted in self.names else None

    def over_lines(self, title, name):
        known = self.known(name)
        login = Login(name, known is not None)
        if known is None and "--tell-unknown-users" in self.options:
            return self.run(
                title,
                ["< " + line(login.first)],
                ["> " + line("e=unknown-user"), MARK + "Unknown user", "= 3"],
            )
        if known is None:
            answer, ended = "e=invalid-proof", [MARK + "Unknown user", "= 3"]
        else:
            answer, ended = login.signed, logged_in(known)
        return self.run(
            title,
            [f"< {line(text)}" for text in (login.first, login.last)],
            [*(f"> {line(text)}" for text in (login.challenge, answer)), *ended],
        )

    def over_frames(self, title, name):
        known = self.known(name)
        login = Login(name, known is not None)
        received = HEADER + init(SHA_256, login.first)
        sent = HEADER + offer(SHA_256)
        if known is None and "--tell-unknown-users" in self.options:
            sent, ended = sent + AUTH, [MARK + "Unknown user", "= 3"]
        else:
            received += response(login.last)
            sent += challenge(login.challenge) + (AUTH if known is None else ok(login.signed))
            ended = [MARK + "Unknown user", "= 3"] if known is None else logged_in(known)
        return self.run(title, ["x " + received.hex()], ["X " + sent.hex(), *ended], " --frames")


def rows():
    """The rows of the file, in order."""
    alice = Server("alice", "bob")
    examples = Server("alice", "IX", "a", "a,b", "c d")
    telling = "--saslprep --tell-unknown-users"
    made = []
    for run, over in ((Server.over_lines, "lines"), (Server.over_frames, "frames")):
        made += [
            run(alice, f"A soft hyphen is removed, over {over}.", "ali\u00adce"),
            run(alice, "A name that is prepared to itself.", "bob"),
            run(examples, "A Roman numeral.", "\u2168"),
            run(examples, "An ordinal indicator.", "\u00aa"),
            run(examples, "A full-width comma, which is escaped in the record.", "a\uff0cb"),
            run(examples, "A comma, and a joiner that is removed.", "a,\u2060b"),
            run(examples, "A space that does not break.", "c\u00a0d"),
            run(examples, "A byte order mark is removed.", "\ufeffalice"),
            run(alice, "A control character is rejected, and answered as an unknown user.", "alice\u0007"),
            run(alice, "Mixed directions are rejected.", "alice\u05d0"),
            run(Server("", "\u00ad"), "A name that is prepared to nothing is that of no user.", "\u00ad"),
            run(Server("", options=telling), "An empty name is that of no user.", ""),
            run(Server("alice\u0007", options=telling), "A record of a name that is rejected.", "alice\u0007"),
            run(Server("ali\u00adce", options=telling), "A record of a name that is not prepared.", "ali\u00adce"),
            run(
                Server("\u0221", options=telling), "A code point that Unicode 3.2 does not assign is allowed.", "\u0221"
            ),
            run(
                Server("alice", options="--tell-unknown-users"),
                "Without the option, a name is used as sent.",
                "ali\u00adce",
            ),
            run(
                Server("ali\u00adce", options="--tell-unknown-users"),
                "A name that is not prepared, as sent.",
                "ali\u00adce",
            ),
        ]
    return made


def text():
    """The text of the file."""
    return "".join([HEAD + "\nparagraphs run\n", *rows()])


def main():
    if sys.argv[1:] == ["write"]:
        FILE.write_text(text())
        return 0
    if sys.argv[1:] == ["check"]:
        made = text()
        same = FILE.read_text() == made
        print(f"{FILE.name}: {made.count(chr(10) + '$ ')} runs{'' if same else ', which differ'}")
        return 0 if same else 1
    print(__doc__, file=sys.stderr)
    return 2


if __name__ == "__main__":
    sys.exit(main())
