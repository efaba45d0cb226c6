#!/usr/bin/env python3
"""Runs of `scram client`, `scram server` and `scram explain` with channel binding (RFC 5802, section 6).

    tools/models/channel_rows.py write   writes crates/test_driver_programs/data/channels.txt
    tools/models/channel_rows.py check   compares that file with what would be written

Nothing of this repository is used: proofs and signatures are of Python's `hashlib` and `hmac`, and the frames are written
here (AMQP 1.0, part 5, section 5.3.3). The sentences are written by hand.
"""
import base64
import hashlib
import hmac
import sys
from pathlib import Path

sys.dont_write_bytecode = True
from rejections import MARK, told

FILE = Path(__file__).resolve().parents[2] / "crates/test_driver_programs/data/channels.txt"

HASHES = {"SCRAM-SHA-1": "sha1", "SCRAM-SHA-256": "sha256", "SCRAM-SHA-512": "sha512"}
USER, PASSWORD, SALT, COUNT = "alice", "pencil", bytes.fromhex("5b6d99689d12358ecaae5b04d1bdd1c2"), 4096
CLIENT_NONCE, SERVER_NONCE = bytes(range(0x20, 0x40)), bytes(range(0x40, 0x60))
# The length of a Finished message of TLS 1.2, of a digest of SHA-512, and of exported keying material.
KINDS = {"tls-unique": b"\4" * 12, "tls-server-end-point": b"\5" * 64, "tls-exporter": b"\xff" * 32}
SHA_256 = "SCRAM-SHA-256"

HEAD = """# Runs of `scram client`, `scram server` and `scram explain` with channel binding, separated by empty lines.
#     $ WORDS       the words, each cut at one space, the name of the program first
#     < LINE        a line of the input
#     x BYTES       an input of bytes, in hexadecimal digits
#     f NAME        a file, which everybody may read and its owner write
#     - LINE        a line of it
#     > LINE        a line of what is printed
#     X BYTES       what is printed, where the input is bytes
#     ! LINE        a line among the errors
#     = STATUS      the status
#     F NAME MODE   a file after the run, with its permissions
#     + LINE        a line of it
# The data of the channel are 12 bytes 04 by `tls-unique`, 64 bytes 05 by `tls-server-end-point` and 32 bytes 255 by
# `tls-exporter`.
# Source: written by `tools/models/channel_rows.py`, whose proofs and signatures are of Python's `hashlib` and `hmac`;
# sentences written by hand."""


def b64(data):
    return base64.b64encode(data).decode()


def short(tag, data):
    """A value of at most 255 bytes with its length."""
    return bytes([tag, len(data)]) + data


def frame(code, count, fields):
    """The bytes of a frame: its size, its offset, its type, and its fields."""
    body = b"\2\1\0\0\0\x53" + bytes([code]) + short(0xC0, bytes([count]) + fields)
    return (len(body) + 4).to_bytes(4, "big") + body


HEADER = b"AMQP\3\1\0\0"
AUTH = frame(0x44, 1, b"\x50\1")


def offer(mechanism):
    return frame(0x40, 1, short(0xE0, b"\1\xa3" + bytes([len(mechanism)]) + mechanism.encode()))


def init(mechanism, text):
    return frame(0x41, 2, short(0xA3, mechanism.encode()) + short(0xA0, text.encode()))


def challenge(text):
    return frame(0x42, 1, short(0xA0, text.encode()))


def response(text):
    return frame(0x43, 1, short(0xA0, text.encode()))


def ok(text):
    return frame(0x44, 2, b"\x50\0" + short(0xA0, text.encode()))


class Keys:
    """The keys of the user by a mechanism."""

    def __init__(self, mechanism):
        self.hash = HASHES[mechanism]
        self.mechanism = mechanism
        salted = hashlib.pbkdf2_hmac(self.hash, PASSWORD.encode(), SALT, COUNT)
        self.client = hmac.digest(salted, b"Client Key", self.hash)
        self.stored = hashlib.new(self.hash, self.client).digest()
        self.server = hmac.digest(salted, b"Server Key", self.hash)

    def record(self):
        return f"{USER} {self.mechanism}${COUNT}:{b64(SALT)}${b64(self.stored)}:{b64(self.server)}"


class Login:
    """A login of the user: with this GS2 header, with this channel binding in the client's last message, with these
    extensions in the client's first, the server's first, the client's last and the server's last message, and with this
    escaped name."""

    def __init__(
        self, header, bound, mechanism=SHA_256, client_more="", server_more="", last_more="", end_more="", user=USER
    ):
        keys = Keys(mechanism)
        self.keys = keys
        self.bound = bound
        bare = f"n={user},r={b64(CLIENT_NONCE)}{client_more}"
        self.client_first = header + bare
        self.nonce = b64(CLIENT_NONCE) + b64(SERVER_NONCE)
        self.server_first = f"r={self.nonce},s={b64(SALT)},i={COUNT}{server_more}"
        without = f"c={b64(bound)},r={self.nonce}{last_more}"
        auth = ",".join([bare, self.server_first, without]).encode()
        signature = hmac.digest(keys.stored, auth, keys.hash)
        self.proof = bytes(a ^ b for a, b in zip(keys.client, signature))
        self.client_final = f"{without},p={b64(self.proof)}"
        self.signature = hmac.digest(keys.server, auth, keys.hash)
        self.server_final = "v=" + b64(self.signature) + end_more
        self.plus = mechanism + ("-PLUS" if header.startswith("p=") else "")

    def texts(self):
        return [self.client_first, self.server_first, self.client_final, self.server_final]


def bound(kind, data=None, **options):
    """A login that binds a channel."""
    header = f"p={kind},,"
    return Login(header, header.encode() + (KINDS[kind] if data is None else data), **options)


def plain(header, **options):
    """A login without a channel."""
    return Login(header, header.encode(), **options)


def channel(kind, data=None):
    return f"--channel {kind}:{(KINDS[kind] if data is None else data).hex()}"


def line(text):
    return b64(text.encode())


def row(name, words, given, *wanted):
    wanted = told(words, given, wanted)
    return "\n".join(["\n# " + name, f"$ scram {words}", *given, *wanted, ""])


def client(name, options, received, sent, *ended, mechanism=SHA_256):
    """A run of the client over lines."""
    words = f"client {mechanism} {USER} --nonce {CLIENT_NONCE.hex()} {options}".rstrip()
    given = ["< " + PASSWORD, *("< " + line(text) for text in received)]
    return row(name, words, given, *("> " + line(text) for text in sent), *ended)


def users(mechanism, mark):
    name = "f users.txt" if mark == "-" else "F users.txt 644"
    return [name, f"{mark} {Keys(mechanism).record()}"]


def server_words(mechanism, options):
    return f"server {mechanism} users.txt --nonce {SERVER_NONCE.hex()} --tell-unknown-users {options}".rstrip()


def server(name, options, received, sent, *ended, mechanism=SHA_256):
    """A run of the server over lines."""
    given = [*("< " + line(text) for text in received), *users(mechanism, "-")]
    wanted = ["> " + line(text) for text in sent]
    return row(name, server_words(mechanism, options), given, *wanted, *ended, *users(mechanism, "+"))


def client_frames(name, options, received, sent, *ended, mechanism=SHA_256):
    """A run of the client over the bytes of a connection."""
    words = f"client {mechanism} {USER} --nonce {CLIENT_NONCE.hex()} --frames {options}".rstrip()
    given = ["x " + (PASSWORD.encode() + b"\n" + HEADER + b"".join(received)).hex()]
    return row(name, words, given, "X " + (HEADER + b"".join(sent)).hex(), *ended)


def server_frames(name, options, received, sent, *ended, mechanism=SHA_256):
    """A run of the server over the bytes of a connection."""
    given = ["x " + (HEADER + b"".join(received)).hex(), *users(mechanism, "-")]
    wanted = "X " + (HEADER + b"".join(sent)).hex()
    return row(name, server_words(mechanism, "--frames " + options), given, wanted, *ended, *users(mechanism, "+"))


def explain(name, login, said_first, said_final):
    """A run of `explain` over a login's lines."""
    wanted = [
        f'client-first: {said_first}user "{USER}", nonce "{b64(CLIENT_NONCE)}"',
        f'server-first: salt {SALT.hex()}, {COUNT} iterations, nonce "{login.nonce}"',
        f"client-final: {said_final}proof {login.proof.hex()}, same nonce",
        f"server-final: signature {login.signature.hex()}",
    ]
    return row(name, "explain", ["< " + line(text) for text in login.texts()], *("> " + said for said in wanted), "= 0")


DONE = "= 0"
LOGGED_IN = (f"! scram: {USER} logged in", DONE)


def message_rejected(at):
    return f"! scram: The message in line {at} of standard input is rejected."


def client_refuses(text):
    return f"! scram: The server's message is rejected: {text}.", "= 3"


def server_refuses(reason):
    """The end of a server's run that rejects the login for this reason."""
    return MARK + reason, "= 3"


def closed(text):
    return f"! scram: The connection is closed: {text}.", "= 3"


REFUSED = "! scram: The server rejected the login.", "= 1"
OTHER_CHANNEL = server_refuses("Channel binding")
NO_HEADER = server_refuses("SCRAM: Cannot parse GS2-header")
MISPLACED = "Attribute in the place of an extension"


def over_lines():
    rows = []
    for kind in KINDS:
        login = bound(kind)
        first, challenged, last, signed = login.texts()
        rows.append(client(f"A client that binds {kind}.", channel(kind), [challenged, signed], [first, last], DONE))
        rows.append(
            server(f"A server that binds {kind}.", channel(kind), [first, last], [challenged, signed], *LOGGED_IN)
        )
        rows.append(
            server(
                "Other data.",
                channel(kind, b"\6" * 32),
                [first, last],
                [challenged, "e=channel-bindings-dont-match"],
                *OTHER_CHANNEL,
            )
        )
    for mechanism in ("SCRAM-SHA-1", "SCRAM-SHA-512"):
        login = bound("tls-exporter", mechanism=mechanism)
        first, challenged, last, signed = login.texts()
        option = channel("tls-exporter")
        rows.append(
            client("Another mechanism.", option, [challenged, signed], [first, last], DONE, mechanism=mechanism)
        )
        rows.append(
            server("Another mechanism.", option, [first, last], [challenged, signed], *LOGGED_IN, mechanism=mechanism)
        )
    login = bound("tls-unique")
    first, challenged, last, _ = login.texts()
    rows.append(
        client(
            "The server has other data.",
            channel("tls-unique"),
            [challenged, "e=channel-bindings-dont-match"],
            [first, last],
            *REFUSED,
        )
    )
    rows.append(
        client(
            "The shortest data.",
            "--channel tls-unique:0a",
            [],
            [first],
            "! scram: The other side closed before the end of the login.",
            "= 1",
        )
    )
    for header, name in (
        ("p=tls-unique,,", "A kind of which the server has no data."),
        ("n,,", "A client without a channel."),
        ("y,,", "A client that was offered no channel binding."),
    ):
        text = plain(header).client_first
        rows.append(server(name, channel("tls-exporter"), [text], ["e=other-error"], *OTHER_CHANNEL))
    rows.append(server("A server without a channel.", "", [first], ["e=other-error"], *OTHER_CHANNEL))
    return rows


def not_offered():
    first, challenged, last, signed = plain("y,,").texts()
    rows = [
        client(
            "A client that was offered no channel binding.",
            "--channel-not-offered",
            [challenged, signed],
            [first, last],
            DONE,
        ),
        server("A server that accepts `y,,`.", "--accept-y", [first, last], [challenged, signed], *LOGGED_IN),
        server("A server that does not.", "", [first], ["e=other-error"], *OTHER_CHANNEL),
    ]
    without, challenged, last, signed = plain("n,,").texts()
    rows.append(server("It accepts `n,,` too.", "--accept-y", [without, last], [challenged, signed], *LOGGED_IN))
    swapped = Login("y,,", b"n,,")
    rows.append(
        server(
            "The last message repeats the header of the first.",
            "--accept-y",
            [swapped.client_first, swapped.client_final],
            [swapped.server_first, "e=channel-bindings-dont-match"],
            *OTHER_CHANNEL,
        )
    )
    return rows


def strict():
    rows = []
    login = plain("n,,", server_more=",s=AAAA")
    first, challenged, last, signed = login.texts()
    rows.append(client("A client that is not strict.", "", [challenged, signed], [first, last], DONE))
    rows.append(client("A strict client.", "--strict", [challenged], [first], *client_refuses(MISPLACED)))
    login = bound("tls-exporter", server_more=",s=AAAA")
    rows.append(
        client(
            "A client that binds a channel is strict.",
            channel("tls-exporter"),
            [login.server_first],
            [login.client_first],
            *client_refuses(MISPLACED),
        )
    )
    login = plain("n,,", server_more=",x=AAAA")
    first, challenged, last, signed = login.texts()
    rows.append(client("An extension.", "--strict", [challenged, signed], [first, last], DONE))
    login = plain("n,,", client_more=",i=1")
    first, challenged, last, signed = login.texts()
    rows.append(server("A server that is not strict.", "", [first, last], [challenged, signed], *LOGGED_IN))
    rows.append(
        server("A strict server.", "--strict", [first], ["e=other-error"], *server_refuses("SCRAM: " + MISPLACED))
    )
    login = bound("tls-exporter", client_more=",i=1")
    rows.append(
        server(
            "A server that binds a channel is strict.",
            channel("tls-exporter"),
            [login.client_first],
            ["e=other-error"],
            *server_refuses("SCRAM: " + MISPLACED),
        )
    )
    login = plain("y,,", client_more=",i=1")
    rows.append(
        server(
            "Both options.",
            "--accept-y --strict",
            [login.client_first],
            ["e=other-error"],
            *server_refuses("SCRAM: " + MISPLACED),
        )
    )
    return [*rows, *misplaced()]


def misplaced():
    """Parts that are no extension, to a client that says `y,,` and to servers that test nothing more."""
    rows = []
    for option, header in (("--channel-not-offered", "y,,"), (channel("tls-exporter"), "p=tls-exporter,,")):
        data = KINDS["tls-exporter"] if header.startswith("p=") else b""
        moved = Login(header, header.encode() + data, server_more=f",c=biws,r={plain('n,,').nonce}")
        rows.append(
            client(
                "What a server without a channel expects is moved to its message.",
                option,
                [moved.server_first],
                [moved.client_first],
                *client_refuses(MISPLACED),
            )
        )
        last = Login(header, header.encode() + data, end_more=",i=1")
        rows.append(
            client(
                "A misplaced attribute after the signature.",
                option,
                [last.server_first, last.server_final],
                [last.client_first, last.client_final],
                *client_refuses(MISPLACED),
            )
        )
        more = Login(header, header.encode() + data, server_more=",x=AAAA", end_more=",x=1")
        rows.append(
            client(
                "Extensions.",
                option,
                [more.server_first, more.server_final],
                [more.client_first, more.client_final],
                DONE,
            )
        )
    last = plain("y,,", last_more=",i=1")
    rows.append(
        server(
            "The last message of a client that has a channel is tested.",
            "--accept-y",
            [last.client_first, last.client_final],
            [last.server_first, "e=other-error"],
            *server_refuses("SCRAM: " + MISPLACED),
        )
    )
    last = plain("n,,", last_more=",i=1")
    rows.append(
        server(
            "That of a client without a channel is not.",
            "--accept-y",
            [last.client_first, last.client_final],
            [last.server_first, last.server_final],
            *LOGGED_IN,
        )
    )
    option = "--reject-misplaced"
    rows.append(
        server(
            "The last message.",
            option,
            [last.client_first, last.client_final],
            [last.server_first, "e=other-error"],
            *server_refuses("SCRAM: " + MISPLACED),
        )
    )
    first = plain("n,,", client_more=",i=1")
    rows.append(
        server(
            "The first message.",
            option,
            [first.client_first],
            ["e=other-error"],
            *server_refuses("SCRAM: " + MISPLACED),
        )
    )
    more = plain("n,,", client_more=",x=1", last_more=",y=2")
    rows.append(
        server(
            "Extensions.",
            option,
            [more.client_first, more.client_final],
            [more.server_first, more.server_final],
            *LOGGED_IN,
        )
    )
    empty = plain("n,,", user="")
    rows.append(
        server(
            "The empty name is read.",
            option,
            [empty.client_first],
            ["e=unknown-user"],
            MARK + "Unknown user",
            "= 3",
        )
    )
    unbound = plain("y,,")
    rows.append(
        server(
            "A client that was offered no channel binding.",
            option,
            [unbound.client_first],
            ["e=other-error"],
            *OTHER_CHANNEL,
        )
    )
    return rows


def over_frames():
    rows = []
    for mechanism, kind in ((SHA_256, "tls-unique"), (SHA_256, "tls-exporter"), ("SCRAM-SHA-512", "tls-exporter")):
        login = bound(kind, mechanism=mechanism)
        first, challenged, last, signed = login.texts()
        server_sent = [offer(login.plus), challenge(challenged), ok(signed)]
        client_sent = [init(login.plus, first), response(last)]
        rows.append(
            client_frames(
                f"A client that binds {kind}.", channel(kind), server_sent, client_sent, DONE, mechanism=mechanism
            )
        )
        rows.append(
            server_frames(
                f"A server that binds {kind}.", channel(kind), client_sent, server_sent, *LOGGED_IN, mechanism=mechanism
            )
        )
        rows.append(
            server_frames(
                "Other data.",
                channel(kind, b"\6" * 32),
                client_sent,
                [*server_sent[:2], AUTH],
                *OTHER_CHANNEL,
                mechanism=mechanism,
            )
        )
    plus = SHA_256 + "-PLUS"
    option = channel("tls-exporter")
    first, challenged, last, signed = plain("n,,").texts()
    rows.append(
        server_frames(
            "A client without a channel.",
            option,
            [init(SHA_256, first)],
            [offer(plus), AUTH],
            *server_refuses("Mechanism not offered"),
        )
    )
    rows.append(
        server_frames(
            "A client without a channel that names the mechanism.",
            option,
            [init(plus, first)],
            [offer(plus), AUTH],
            *OTHER_CHANNEL,
        )
    )
    rows.append(
        client_frames(
            "The server does not offer the mechanism.",
            option,
            [offer(SHA_256)],
            [],
            *closed("The server's message was rejected"),
        )
    )
    first, challenged, last, signed = plain("y,,").texts()
    server_sent = [offer(SHA_256), challenge(challenged), ok(signed)]
    client_sent = [init(SHA_256, first), response(last)]
    rows.append(
        client_frames(
            "A client that was offered no channel binding.", "--channel-not-offered", server_sent, client_sent, DONE
        )
    )
    rows.append(server_frames("A server that accepts `y,,`.", "--accept-y", client_sent, server_sent, *LOGGED_IN))
    rows.append(server_frames("A server that does not.", "", client_sent[:1], [offer(SHA_256), AUTH], *OTHER_CHANNEL))
    login = plain("n,,", server_more=",s=AAAA")
    rows.append(
        client_frames(
            "A strict client.",
            "--strict",
            [offer(SHA_256), challenge(login.server_first)],
            [init(SHA_256, login.client_first)],
            *closed("The server's message was rejected"),
        )
    )
    return rows


KIND = "The kind in --channel is not tls-unique, tls-server-end-point or tls-exporter."
DIGITS = "The data in --channel are not in hexadecimal."
LENGTH = "The data in --channel are empty or longer than 64 bytes."
WRONG = (
    ("An unknown kind.", "tls-other:00", KIND),
    ("The name of a kind in capital letters.", "TLS-EXPORTER:00", KIND),
    ("No kind.", ":00", KIND),
    ("No kind and no data.", ":", KIND),
    ("A second colon.", "tls-unique:00:00", DIGITS),
    ("A letter that is no digit.", "tls-exporter:0g", DIGITS),
    ("An odd number of digits.", "tls-exporter:000", DIGITS),
    ("Empty data.", "tls-server-end-point:", LENGTH),
    ("No colon.", "tls-unique", LENGTH),
    ("Data of 65 bytes.", "tls-exporter:" + "00" * 65, LENGTH),
)


def wrong_words():
    rows = []
    for name, word, text in WRONG:
        for words in (f"client {SHA_256} {USER}", f"server {SHA_256} nothing.txt"):
            rows.append(row(name, f"{words} --channel {word}", [], f"! scram: {text}", "= 2"))
    for command, value, place, option in (
        ("client", USER, "USER", "--channel-not-offered"),
        ("server", "users.txt", "FILE", "--accept-y"),
    ):
        words = f"{command} {SHA_256} {value} --channel tls-exporter:00 {option}"
        rows.append(
            row(
                "Two options that exclude each other.",
                words,
                [],
                f"! error: the argument '--channel <KIND:HEX>' cannot be used with '{option}'",
                "!",
                f"! Usage: scram {command} --channel <KIND:HEX> <M> <{place}>",
                "!",
                "! For more information, try '--help'.",
                "= 2",
            )
        )
    return rows


def explained():
    rows = []
    for kind, data in KINDS.items():
        rows.append(
            explain(
                f"A login that binds {kind}.",
                bound(kind),
                f"channel binding {kind}, ",
                f'header "p={kind},,", data {data.hex()}, ',
            )
        )
    rows.append(
        explain(
            "A client that was offered no channel binding.",
            plain("y,,"),
            "channel binding not offered, ",
            'header "y,,", ',
        )
    )
    others = {
        "Another header in the last message.": Login("p=tls-unique,,", b"p=tls-exporter,," + b"\4" * 12),
        "Empty data.": bound("tls-unique", b""),
        "Data of 65 bytes.": bound("tls-unique", b"\4" * 65),
        "A last message without a channel.": Login("p=tls-unique,,", b"n,,"),
        "A last message with a channel that the first does not have.": Login("n,,", b"p=tls-unique,,\4"),
    }
    for name, login in others.items():
        said = "channel binding tls-unique, " if login.client_first.startswith("p=") else ""
        rows.append(
            row(
                name,
                "explain",
                ["< " + line(text) for text in login.texts()[:3]],
                f'> client-first: {said}user "{USER}", nonce "{b64(CLIENT_NONCE)}"',
                f'> server-first: salt {SALT.hex()}, {COUNT} iterations, nonce "{login.nonce}"',
                "> client-final: rejected: Invalid channel binding",
                message_rejected(3),
                "= 3",
            )
        )
    login = plain("y,,", last_more=",i=1")
    rows.append(
        row(
            "A misplaced attribute in the last message of a client that has a channel.",
            "explain",
            ["< " + line(text) for text in login.texts()[:3]],
            f'> client-first: channel binding not offered, user "{USER}", nonce "{b64(CLIENT_NONCE)}"',
            f'> server-first: salt {SALT.hex()}, {COUNT} iterations, nonce "{login.nonce}"',
            f"> client-final: rejected: {MISPLACED}",
            message_rejected(3),
            "= 3",
        )
    )
    login = bound("tls-exporter")
    for header, name in (
        ("p=tls-other,,", "An unknown kind."),
        ("p=tls-unique,a=,", "An empty identity."),
    ):
        rows.append(
            row(
                name,
                "explain",
                ["< " + line(plain(header).client_first)],
                "> client-first: rejected: Cannot parse GS2-header",
                message_rejected(1),
                "= 3",
            )
        )
    frames = [
        offer(login.plus),
        init(login.plus, login.client_first),
        challenge(login.server_first),
        response(login.client_final),
        ok(login.server_final),
    ]
    rows.append(
        row(
            "The bodies of a login.",
            "explain --frames",
            ["< " + body[4:].hex() for body in frames],
            f"> sasl-mechanisms: offers {login.plus}",
            f"> sasl-init: mechanism {login.plus}",
            f'> client-first: channel binding tls-exporter, user "{USER}", nonce "{b64(CLIENT_NONCE)}"',
            f"> sasl-challenge: {len(login.server_first)} bytes",
            f'> server-first: salt {SALT.hex()}, {COUNT} iterations, nonce "{login.nonce}"',
            f"> sasl-response: {len(login.client_final)} bytes",
            f'> client-final: header "p=tls-exporter,,", data {KINDS["tls-exporter"].hex()}, '
            f"proof {login.proof.hex()}, same nonce",
            "> sasl-outcome: Ok",
            f"> server-final: signature {login.signature.hex()}",
            "= 0",
        )
    )
    return rows


def text():
    """The text of the file."""
    return "".join(
        [
            HEAD + "\nparagraphs run\n",
            *over_lines(),
            *not_offered(),
            *strict(),
            *over_frames(),
            *wrong_words(),
            *explained(),
        ]
    )


def main():
    if sys.argv[1:] == ["write"]:
        FILE.write_text(text())
        return 0
    if sys.argv[1:] == ["check"]:
        made = text()
        same = FILE.read_text() == made
        print(f"{FILE.name}: {made.count(chr(10) + '$ ')} runs{'' if same else ', which differ'}")
        return 0 if same else 1
    print(__doc__, file=sys.stderr)
    return 2


if __name__ == "__main__":
    sys.exit(main())
