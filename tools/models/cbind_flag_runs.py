#!/usr/bin/env python3
"""Runs of servers that accept a client whose GS2 header is `y,,` (RFC 5802, section 6), of servers that do not, and of such a
client; with extensions, and with attributes in their place (section 7).

    tools/models/cbind_flag_runs.py write   writes crates/test_driver_frames/data/cbind-flag-y-runs.txt
    tools/models/cbind_flag_runs.py check   compares that file with what would be written

Nothing of this repository is used: proofs and signatures are of Python's `hashlib` and `hmac`, and the frames are written
here (AMQP 1.0, part 5, section 5.3.3).
"""
import base64
import hashlib
import hmac
import sys
from pathlib import Path

FILE = Path(__file__).resolve().parents[2] / "crates/test_driver_frames/data/cbind-flag-y-runs.txt"

HASHES = {"SCRAM-SHA-1": "sha1", "SCRAM-SHA-256": "sha256", "SCRAM-SHA-512": "sha512"}
USER, PASSWORD, SALT, COUNT = "user", "pencil", b"\3" * 32, 4096
CLIENT_NONCE = base64.b64encode(b"\1" * 32).decode()
NONCE = b"\2" * 32
NO_NONCE = b"\0" * 32

HEAD = """# Runs of SCRAM servers and clients over bodies of frames, in the form of named-runs.txt. A run begins with its side,
#     cbind_flag_y VERSION USER PASSWORD SALT       a server of one user that accepts the GS2 header `y,,` too
#     server VERSION USER PASSWORD SALT             one that accepts only `n,,`
#     reject_misplaced VERSION USER PASSWORD SALT   one that accepts only `n,,`, and rejects what is no extension in the
#                                                   place of one
#     client_unoffered VERSION USER PASSWORD        a profile whose GS2 header is `y,,`
# Source: written by `tools/models/cbind_flag_runs.py`, whose proofs and signatures are of Python's `hashlib` and `hmac`.
paragraphs run"""


def short(tag, data):
    """A value of at most 255 bytes with its length."""
    return bytes([tag, len(data)]) + data


def body(code, count, fields):
    """The body of a frame: its offset, its type, and its fields."""
    return b"\2\1\0\0\0\x53" + bytes([code]) + short(0xC0, bytes([count]) + fields)


def init(mechanism, text):
    return body(0x41, 2, short(0xA3, mechanism.encode()) + short(0xA0, text.encode()))


def challenge(text):
    return body(0x42, 1, short(0xA0, text.encode()))


def response(text):
    return body(0x43, 1, short(0xA0, text.encode()))


def ok(text):
    return body(0x44, 2, b"\x50\0" + short(0xA0, text.encode()))


AUTH = body(0x44, 1, b"\x50\1")


def offer(mechanism):
    return body(0x40, 1, short(0xE0, b"\1\xa3" + bytes([len(mechanism)]) + mechanism.encode()))


class Exchange:
    """A login, with this GS2 header in the client's first message and this one in its last, and with a text after the known
    parts of each message."""

    def __init__(
        self, mechanism, header, repeated, first="", challenge="", last="", verifier="", user=USER, nonce=CLIENT_NONCE
    ):
        self.mechanism = mechanism
        name = HASHES[mechanism]
        self.bare = f"n={user},r={nonce}{first}"
        self.client_first = header + self.bare
        both = nonce + base64.b64encode(NONCE).decode()
        self.server_first = f"r={both},s={base64.b64encode(SALT).decode()},i={COUNT}{challenge}"
        without = f"c={base64.b64encode(repeated.encode()).decode()},r={both}{last}"
        salted = hashlib.pbkdf2_hmac(name, PASSWORD.encode(), SALT, COUNT)
        client_key = hmac.digest(salted, b"Client Key", name)
        auth = ",".join([self.bare, self.server_first, without]).encode()
        signature = hmac.digest(hashlib.new(name, client_key).digest(), auth, name)
        proof = bytes(a ^ b for a, b in zip(client_key, signature))
        self.client_final = f"{without},p={base64.b64encode(proof).decode()}"
        server_key = hmac.digest(salted, b"Server Key", name)
        self.server_final = "v=" + base64.b64encode(hmac.digest(server_key, auth, name)).decode() + verifier

    def challenged(self):
        sent = init(self.mechanism, self.client_first).hex()
        return f"{NONCE.hex()} {sent} => Challenge {challenge(self.server_first).hex()}"

    def not_challenged(self):
        return f"{NONCE.hex()} {init(self.mechanism, self.client_first).hex()} => Outcome:Auth {AUTH.hex()}"

    def believed(self):
        return f"{NO_NONCE.hex()} {response(self.client_final).hex()} => Outcome:Ok {ok(self.server_final).hex()}"

    def not_believed(self):
        return f"{NO_NONCE.hex()} {response(self.client_final).hex()} => Outcome:Auth {AUTH.hex()}"

    def offered(self):
        """The client begins. Its nonce is 32 bytes 01."""
        return f"{'01' * 32} {offer(self.mechanism).hex()} => Init {init(self.mechanism, self.client_first).hex()}"

    def answered(self):
        return f"{NO_NONCE.hex()} {challenge(self.server_first).hex()} => Response {response(self.client_final).hex()}"

    def not_answered(self):
        return f"{NO_NONCE.hex()} {challenge(self.server_first).hex()} => Scram(MisplacedAttribute)"

    def verified(self):
        return f"{NO_NONCE.hex()} {ok(self.server_final).hex()} => Outcome:Ok {ok(self.server_final).hex()}"

    def not_verified(self):
        return f"{NO_NONCE.hex()} {ok(self.server_final).hex()} => Scram(MisplacedAttribute)"


def run(name, side, mechanism, lines, user=USER):
    words = [side, mechanism, user.encode().hex() or "-", PASSWORD.encode().hex()]
    if side != "client_unoffered":
        words += [SALT.hex()]
    return "\n".join(["\n# " + name, " ".join(words), *lines, ""])


# Attributes that section 5.1 defines, `m` among them, parts that are none, and an empty part.
MISPLACED = (",i=4096", ",m=1", ",c=biws,r=abc", ",x=1,s=AAAA", ",x=", ",xy=1", ",")
# Extensions.
EXTENSIONS = (",x=1", ",x=1,Y=2=3")


def accepting(mechanism):
    """Runs of a server that accepts `y,,`. It tests the last message of a client that has a channel, and no other."""
    yes, no = Exchange(mechanism, "y,,", "y,,"), Exchange(mechanism, "n,,", "n,,")
    lines = [yes.challenged()]
    lines += [Exchange(mechanism, "y,,", "y,,", last=end).not_believed() for end in MISPLACED]
    yield run(
        "A client that could bind a channel, with a misplaced attribute in its last message.",
        "cbind_flag_y",
        mechanism,
        [*lines, yes.believed()],
    )
    lines = []
    for header, first, last in (("n,,", "", ",i=4096"), ("n,,", ",i=4096", ""), ("y,,", ",i=4096", "")):
        other = Exchange(mechanism, header, header, first=first, last=last)
        lines += [other.challenged(), other.believed()]
    yield run("What this server does not test.", "cbind_flag_y", mechanism, [*lines, no.challenged(), no.believed()])


def rejecting(mechanism):
    """Runs of a server that rejects what is no extension, and nothing more."""
    no, yes = Exchange(mechanism, "n,,", "n,,"), Exchange(mechanism, "y,,", "y,,")
    lines = [Exchange(mechanism, "n,,", "n,,", first=end).not_challenged() for end in MISPLACED]
    lines += [no.challenged()]
    lines += [Exchange(mechanism, "n,,", "n,,", last=end).not_believed() for end in MISPLACED]
    yield run(
        "A misplaced attribute in each message.",
        "reject_misplaced",
        mechanism,
        [*lines, no.believed(), yes.not_challenged()],
    )
    lines = []
    for end in EXTENSIONS:
        for other in (Exchange(mechanism, "n,,", "n,,", first=end), Exchange(mechanism, "n,,", "n,,", last=end)):
            lines += [other.challenged(), other.believed()]
    yield run("Extensions.", "reject_misplaced", mechanism, lines)
    loose = Exchange(mechanism, "n,,", "n,,", user="", nonce="a b\x7f")
    misplaced = Exchange(mechanism, "n,,", "n,,", user="", nonce="a b\x7f", first=",i=4096")
    empty = Exchange(mechanism, "n,,", "n,,", user="", nonce="")
    yield run(
        "An empty name, and a nonce that the grammar forbids.",
        "reject_misplaced",
        mechanism,
        [misplaced.not_challenged(), loose.challenged(), loose.believed(), empty.challenged(), empty.believed()],
        user="",
    )


def unoffered(mechanism):
    """Runs of a client that has a channel and was not offered to bind it."""
    yes = Exchange(mechanism, "y,,", "y,,")
    lines = [yes.offered()]
    lines += [Exchange(mechanism, "y,,", "y,,", challenge=end).not_answered() for end in MISPLACED]
    lines += [yes.answered()]
    lines += [Exchange(mechanism, "y,,", "y,,", verifier=end).not_verified() for end in MISPLACED]
    yield run(
        "A client that says `y,,`, with a misplaced attribute in each message.",
        "client_unoffered",
        mechanism,
        [*lines, yes.verified()],
    )
    lines = []
    for end in EXTENSIONS:
        for other in (
            Exchange(mechanism, "y,,", "y,,", challenge=end),
            Exchange(mechanism, "y,,", "y,,", verifier=end),
        ):
            lines += [other.offered(), other.answered(), other.verified()]
    yield run("A client that says `y,,`, with extensions.", "client_unoffered", mechanism, lines)


def text():
    """The text of the file."""
    runs = [HEAD + "\n"]
    for mechanism in HASHES:
        yes = Exchange(mechanism, "y,,", "y,,")
        no = Exchange(mechanism, "n,,", "n,,")
        swapped = Exchange(mechanism, "y,,", "n,,")
        other = Exchange(mechanism, "n,,", "y,,")
        bound = Exchange(mechanism, "p=tls-unique,,", "p=tls-unique,,")
        acting = Exchange(mechanism, "y,a=admin,", "y,a=admin,")
        runs.append(
            run(
                "A client that could bind a channel, and one that cannot.",
                "cbind_flag_y",
                mechanism,
                [yes.challenged(), yes.believed(), no.challenged(), no.believed()],
            )
        )
        runs.append(
            run(
                "The last message repeats the header of the first, and no other.",
                "cbind_flag_y",
                mechanism,
                [
                    yes.challenged(),
                    swapped.not_believed(),
                    yes.believed(),
                    no.challenged(),
                    other.not_believed(),
                    no.believed(),
                ],
            )
        )
        runs.append(
            run(
                "A client that binds a channel, and one that acts for another.",
                "cbind_flag_y",
                mechanism,
                [bound.not_challenged(), acting.not_challenged(), yes.challenged(), yes.believed()],
            )
        )
        runs.append(
            run(
                "A server that was not asked to.",
                "server",
                mechanism,
                [yes.not_challenged(), yes.not_believed(), no.challenged(), other.not_believed(), no.believed()],
            )
        )
    mechanism = "SCRAM-SHA-256"
    return "".join([*runs, *accepting(mechanism), *rejecting(mechanism), *unoffered(mechanism)])


def main():
    if sys.argv[1:] == ["write"]:
        FILE.write_text(text())
        return 0
    if sys.argv[1:] == ["check"]:
        made = text()
        same = FILE.read_text() == made
        print(
            f"{FILE.name}: {made.count(chr(10) + '# ') - HEAD.count(chr(10) + '# ')} runs{'' if same else ', which differ'}"
        )
        return 0 if same else 1
    print(__doc__, file=sys.stderr)
    return 2


if __name__ == "__main__":
    sys.exit(main())
