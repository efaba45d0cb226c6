#!/usr/bin/env python3
"""What `scram explain --audit` has to print of both sides of a login.

    tools/models/audit_rows.py write    writes the rows of crates/test_driver_programs/data/audits.txt
    tools/models/audit_rows.py check    compares that file with what would be written

The bodies and their values are those of the model in `tools/models/negotiations.py`, over Python's `hmac` and `hashlib`,
and what peers sent (crates/test_driver_frames/data/peer-runs.txt). Which side is authenticated is written by hand.
"""
import base64
import sys
from pathlib import Path

sys.dont_write_bytecode = True

import negotiations as model

ROOT = Path(__file__).resolve().parents[2]
DATA = ROOT / "crates/test_driver_programs/data"
FILE = DATA / "audits.txt"
CLIENT_NONCE, SERVER_NONCE, SALT = bytes(range(32, 64)), bytes(range(64, 96)), bytes(range(32))


def body(kind, *fields):
    return model.frames.written(kind, list(fields))


def quoted(data):
    """A text in quotation marks, without what a terminal would act on."""
    return '"%s"' % data.decode().replace("\\", "\\\\").replace('"', '\\"').replace("\x1b", "\\u{1b}")


class Login:
    """A login of a client and a server, of which each has its own password, and of texts that may be altered."""

    def __init__(
        self,
        mechanism="SCRAM-SHA-256",
        user=b"alice",
        password=b"pencil",
        count=4096,
        salt=SALT,
        client_nonce=CLIENT_NONCE,
        server_nonce=SERVER_NONCE,
        typed=None,
    ):
        name = mechanism.encode()
        self.mechanism, self.user, self.count, self.salt = mechanism, user, count, salt
        client = model.ScramClient(mechanism, user, typed or password, count)
        server = model.ScramServer(mechanism, user, password, salt, count)
        first = client.first(client_nonce)
        self.client_nonce, self.keys = client.nonce, server.keys
        challenge = server.init(name, first, server_nonce)[1][0]
        self.nonce = server.nonce
        final = client.challenge(challenge)
        try:
            outcome = server.response(final)[1]
        except model.Refused:
            outcome = [1, None]
        self.offer, self.init = body("Mechanisms", [name]), body("Init", name, first, None)
        self.challenge, self.response = body("Challenge", challenge), body("Response", final)
        self.outcome = body("Outcome", *outcome)
        self.bodies = [self.offer, self.init, self.challenge, self.response, self.outcome]

    def record(self):
        return "SCRAM-SHA-%s$%d:%s$%s:%s" % (
            self.mechanism.rsplit("-", 1)[1],
            self.count,
            *(base64.b64encode(it).decode() for it in (self.salt, self.keys.stored, self.keys.server)),
        )

    def line(self):
        return f"{model.escaped(self.user).decode()} {self.record()}"

    def agreed(self, all_of=True):
        """What both sides of it agree on."""
        said = f"and both agree on {self.mechanism}, the user {quoted(self.user)}"
        nonce = quoted(self.client_nonce)
        if not all_of:
            return f"{said} and the client nonce {nonce}, and on nothing else"
        return (
            f"{said}, the client nonce {nonce}, the full nonce {quoted(self.nonce)}, the salt "
            f"{self.salt.hex()} and {self.count} iterations"
        )


def attribute(text, place):
    return text.split(b",")[place][2:]


def explained(data):
    """What is told of a body (AMQP 1.0, part 5, section 5.3.3; RFC 5802, section 7)."""
    kind, fields = model.read(data)
    if kind == "Mechanisms":
        return ["sasl-mechanisms: offers " + " ".join(it.decode() for it in fields[0])]
    if kind == "Init":
        name, text, host = fields
        hostname = f", hostname {quoted(host)}" if host is not None else ""
        user, nonce = model.unescaped(attribute(text[3:], 0)), attribute(text[3:], 1)
        return [
            f"sasl-init: mechanism {name.decode()}{hostname}",
            f"client-first: user {quoted(user)}, nonce {quoted(nonce)}",
        ]
    if kind == "Challenge":
        text = fields[0]
        nonce, salt, count = (attribute(text, place) for place in range(3))
        return [
            f"sasl-challenge: {len(text)} bytes",
            f"server-first: salt {base64.b64decode(salt).hex()}, {count.decode()} iterations, "
            f"nonce {quoted(nonce)}",
        ]
    if kind == "Response":
        proof = base64.b64decode(fields[0].rsplit(b",p=", 1)[1])
        return [f"sasl-response: {len(fields[0])} bytes", f"client-final: proof {proof.hex()}, same nonce"]
    told = [f"sasl-outcome: {model.CODES[fields[0]]}"]
    if fields[1] is not None:
        told.append(f"server-final: signature {base64.b64decode(fields[1][2:]).hex()}")
    return told


def both(login):
    """The bodies of a login in their order, each as both sides have it."""
    return [
        (side, data)
        for data in login.bodies
        for side in (("client", "server") if model.read(data)[0] in ("Init", "Response") else ("server", "client"))
    ]


def apart(client, server):
    return [("client", it) for it in client] + [("server", it) for it in server]


def row(name, users, came, audit, refused=None, status=0, password="pencil", words=(), mark="", last=None, said=None):
    """A run: its users' lines, its bodies with their sides, and what is printed after what they say. `said` has the bodies
    in another order, in which they are explained."""
    told = [f"> {side}: {line}" for side, data in said or came for line in explained(data)]
    if last is not None:
        came = came + [last[0]]
        told += [f"> {line}" for line in last[1]]
    sent = [f"< {side} {data if isinstance(data, str) else data.hex()}".rstrip() for side, data in came]
    lines = [
        f"# {name}",
        "$ " + " ".join(["scram", "explain", "--audit", "users.txt", *words]),
        *([f"< {password}"] if password is not None else []),
        *sent,
    ]
    lines += ["f users.txt", *(f"- {it}" for it in users)] if users is not None else []
    lines += [mark] if mark else []
    lines += told + [f"> audit: {it}" for it in audit]
    lines += [f"! scram: {refused}"] if refused else []
    lines += [f"= {status}"]
    lines += ["F users.txt 644", *(f"+ {it}" for it in users)] if users is not None else []
    return "\n".join(lines)


def whole(login, client=(11, 7), server=9, all_of=True):
    """The audit of a login that both sides completed, with the lines of its last bodies."""
    (outcome, challenge), response = client, server
    return [
        f"line {outcome}: the client authenticates the server",
        f"line {response}: the server accepts the user {quoted(login.user)}",
        f"lines {outcome} and {response}: the client authenticates this server, {login.agreed(all_of)}",
        f"lines {challenge} and {response}: the server accepts this client, {login.agreed(all_of)}",
    ]


NOTHING = "The two sides have no login in common."
NOT_AUTHENTICATED = "The server accepted the client, but the client does not verify its signature."
UNFIT = "The bodies cannot be audited: "
NONCES = UNFIT + "a nonce is not the base64 of 32 bytes."
NONE = "the two sides have no login in common"
NO_CLIENT, NO_SERVER = "the server accepts no client", "the client authenticates no server"
OTHER_CLIENT = "line %d: the client's answer does not match this password"
OTHER_SERVER = "line %d: the server's answer does not match these records"


def logins():
    """Logins that are completed."""
    alice = Login()
    yield row("A login, in the order of its bodies.", [alice.line()], both(alice), whole(alice))
    yield row(
        "The same, the client's bodies first. A call of files fails.",
        [alice.line()],
        apart(alice.bodies, alice.bodies),
        whole(alice, (6, 4), 10),
        mark="?",
    )
    once = [(side, it) for it, side in zip(alice.bodies, ("client", "server", "client", "server", "client"))]
    yield row("What each side received, each frame once.", [alice.line()], once, whole(alice, (6, 4), 5))
    yield row(
        "The same, the server's frames first.",
        [alice.line()],
        sorted(once, reverse=True, key=lambda it: it[0]),
        whole(alice, (6, 5), 3),
        said=once,
    )
    bare = once[1:]
    yield row("The same, without the list of mechanisms.", [alice.line()], bare, whole(alice, (5, 3), 4))
    for mechanism in ("SCRAM-SHA-1", "SCRAM-SHA-512"):
        login = Login(mechanism, count=1)
        yield row(
            f"By {mechanism}.",
            [alice.line(), login.line()],
            apart(login.bodies, login.bodies),
            whole(login, (6, 4), 10),
        )
    odd = Login(user=b'al"\x1b[31m,=', count=1)
    yield row(
        "A name with a quotation mark, an escape of terminals and what SCRAM escapes.",
        [odd.line()],
        apart(odd.bodies, odd.bodies),
        whole(odd, (6, 4), 10),
    )
    host = Login(count=1)
    host.bodies[1] = body("Init", b"SCRAM-SHA-256", model.read(host.init)[1][1], b"a.example")
    yield row("A client that names its host.", [host.line()], apart(host.bodies, host.bodies), whole(host, (6, 4), 10))
    early = Login(count=1)
    yield row(
        "A client that asks before it is offered anything.",
        [early.line()],
        apart([early.init, early.offer, *early.bodies[2:]], early.bodies),
        whole(early, (6, 4), 10),
    )
    bob = Login(user=b"bob", count=1)
    between = [*early.bodies[:3], bob.init, body("Outcome", 1, None), *early.bodies[3:]]
    yield row(
        "An unknown user asks before the response.",
        [early.line()],
        apart(early.bodies, between),
        whole(early, (6, 4), 12),
    )
    wrong = Login(count=1, typed=b"pencils", client_nonce=b"\1" * 32, server_nonce=b"\2" * 32)
    again = Login(count=1)
    two = wrong.bodies + again.bodies
    yield row(
        "A login after one by another password.",
        [again.line()],
        apart(two, two),
        [
            OTHER_CLIENT % 4,
            "line 11: the client authenticates the server",
            'line 20: the server accepts the user "alice"',
            f"lines 11 and 20: the client authenticates this server, {again.agreed()}",
            f"lines 9 and 20: the server accepts this client, {again.agreed()}",
        ],
    )
    shifted = shift()
    yield row(
        "Texts that are shifted on the way.",
        [shifted.line()],
        apart(shifted.client, shifted.server),
        whole(shifted, (6, 4), 10, False),
    )
    yield row(
        "A limit that the count meets.",
        [early.line()],
        apart(early.bodies, early.bodies),
        whole(early, (6, 4), 10),
        words=("--max-iterations", "1"),
    )


def shift():
    """A login of one AuthMessage that each side cuts in another place."""
    login = Login(count=1)
    bare, nonce = model.read(login.init)[1][1][3:], login.nonce
    salt, own = base64.b64encode(login.salt), login.client_nonce + b"A="
    client, server = (
        model.ScramClient(login.mechanism, login.user, b"pencil", 1),
        model.ScramServer(login.mechanism, login.user, b"pencil", login.salt, 1),
    )
    client.first(CLIENT_NONCE)
    init = b"n,,%b,r=%b,s=%b,i=1" % (bare, own, salt)
    first = server.init(b"SCRAM-SHA-256", init, SERVER_NONCE)[1][0]
    challenge = b"r=%b,s=%b,i=1,%b,c=biws,r=%b" % (own, salt, first, nonce)
    final = client.challenge(challenge)
    assert server.nonce == nonce and final.startswith(b"c=biws,r=" + own + b",p=")
    altered = b"c=biws,r=%b,%b" % (nonce, final)
    outcome = body("Outcome", *server.response(altered)[1])
    login.client = [login.offer, login.init, body("Challenge", challenge), body("Response", final), outcome]
    login.server = [
        login.offer,
        body("Init", b"SCRAM-SHA-256", init, None),
        body("Challenge", first),
        body("Response", altered),
        outcome,
    ]
    return login


def others():
    """Bodies of no login that both sides completed."""
    alice = Login(count=1)
    users = [alice.line()]
    altered = body("Outcome", 0, b"v=" + base64.b64encode(b"\0" * 32))
    yield row(
        "Another signature comes to the client.",
        users,
        apart(alice.bodies[:4] + [altered], alice.bodies),
        [
            NO_SERVER,
            'line 10: the server accepts the user "alice"',
            f"lines 4 and 10: the server accepts this client, {alice.agreed()}",
        ],
        NOT_AUTHENTICATED,
        3,
    )
    yield row(
        "The outcome does not come.",
        users,
        apart(alice.bodies[:4], alice.bodies),
        [
            NO_SERVER,
            'line 9: the server accepts the user "alice"',
            f"lines 4 and 9: the server accepts this client, {alice.agreed()}",
        ],
        NOT_AUTHENTICATED,
        3,
    )
    sys_code = body("Outcome", 2, None)
    yield row(
        "Another outcome comes to the client.",
        users,
        apart(alice.bodies[:4] + [sys_code], alice.bodies),
        [
            NO_SERVER,
            'line 10: the server accepts the user "alice"',
            f"lines 4 and 10: the server accepts this client, {alice.agreed()}",
        ],
        NOT_AUTHENTICATED,
        3,
    )
    apart_from = Login(count=1, client_nonce=b"\1" * 32, server_nonce=b"\2" * 32)
    yield row(
        "Two logins.",
        users,
        apart(alice.bodies, apart_from.bodies),
        ["line 6: the client authenticates the server", 'line 10: the server accepts the user "alice"', NONE],
        NOTHING,
        3,
    )
    typed = Login(count=1, typed=b"pencils")
    yield row(
        "A client by another password.",
        users,
        apart(typed.bodies, typed.bodies),
        [OTHER_CLIENT % 4, NO_SERVER, NO_CLIENT, NONE],
        NOTHING,
        3,
    )
    yield row(
        "The same password on the first line.",
        users,
        apart(typed.bodies, typed.bodies),
        [NO_SERVER, NO_CLIENT, NONE],
        NOTHING,
        3,
        password="pencils",
    )
    salted = Login(count=1, salt=b"\7" * 16)
    yield row(
        "Another record.",
        [salted.line()],
        apart(alice.bodies, alice.bodies),
        ["line 6: the client authenticates the server", OTHER_SERVER % 8, OTHER_SERVER % 10, NO_CLIENT, NONE],
        NOTHING,
        3,
    )
    yield row(
        "A limit below the count.",
        [Login().line()],
        apart(Login().bodies, Login().bodies),
        [OTHER_CLIENT % 4, NO_SERVER, 'line 10: the server accepts the user "alice"', NONE],
        NOTHING,
        3,
        words=("--max-iterations", "4095"),
    )
    yield row(
        "A client that does not answer.",
        users,
        apart(alice.bodies[:3], alice.bodies[:3]),
        [OTHER_CLIENT % 4, NO_SERVER, NO_CLIENT, NONE],
        NOTHING,
        3,
    )
    yield row(
        "The client's bodies alone.",
        users,
        apart(alice.bodies, []),
        ["line 6: the client authenticates the server", NO_CLIENT, NONE],
        NOTHING,
        3,
    )
    bob = Login(user=b"bob", count=1)
    yield row(
        "A user without a record.",
        users,
        apart(bob.bodies, bob.bodies),
        [],
        "The user has no record for the mechanism.",
        3,
    )
    yield row(
        "A record for another mechanism.",
        [Login("SCRAM-SHA-512", count=1).line()],
        apart(alice.bodies, alice.bodies),
        [],
        "The user has no record for the mechanism.",
        3,
    )
    nonce = body("Challenge", b"r=x" + model.read(alice.challenge)[1][0][2:])
    yield row(
        "A challenge that the client refuses.",
        users,
        apart(alice.bodies[:2], []),
        [],
        "The message in line 4 of standard input is rejected.",
        3,
        last=(
            ("client", nonce),
            [
                f"client: sasl-challenge: {len(model.read(nonce)[1][0])} bytes",
                "client: server-first: rejected: Server Nonce should start with client Nonce",
            ],
        ),
    )
    yield row(
        "A body that is no frame.",
        users,
        [],
        [],
        "The message in line 2 of standard input is rejected.",
        3,
        last=(("server", "0201000000534440"), ["server: frame: rejected: Decode Error"]),
    )


def peers():
    """The lines of the first run of `peer-runs.txt` with each peer by each mechanism."""
    found = {}
    for paragraph in (ROOT / "crates/test_driver_frames/data/peer-runs.txt").read_text().split("\n\n")[1:]:
        title, side, *lines = paragraph.splitlines()
        found.setdefault((title[2:], side.split()[1]), lines)
    return found


def bodies_of(lines):
    """Each body that a side was given, and its answer."""
    for line in lines:
        given, _, answer = line.partition(" => ")
        yield bytes.fromhex(given.split()[1])
        if not answer.startswith("Outcome:"):
            yield bytes.fromhex(answer.split()[1])


def unfit():
    """Bodies that cannot be audited, and inputs that cannot be read."""
    alice = Login(count=1)
    users = [alice.line()]
    rfc = [
        alice.offer,
        body("Init", b"SCRAM-SHA-256", b"n,,n=user,r=rOprNGfwEbeRWgbNEkqO", None),
        body("Challenge", b"r=rOprNGfwEbeRWgbNEkqO%hvYDpWUa2RaTCAfuxFIlj)hNlF$k0,s=W22ZaJ0SNY7soEsUEjb6gQ==,i=4096"),
    ]
    yield row("The nonces of RFC 7677, section 3.", users, apart(rfc, []), [], NONCES, 4)
    known = peers()
    came = list(bodies_of(known["GNU SASL as the client", "SCRAM-SHA-256"]))
    yield row("A nonce of GNU SASL's client.", users, apart([alice.offer, *came], came), [], NONCES, 4)
    came = list(bodies_of(known["Cyrus SASL as the server", "SCRAM-SHA-256"]))
    yield row("A nonce of Cyrus SASL's server.", users, apart(came[:3], came[1:3]), [], NONCES, 4)
    other = Login(count=1, server_nonce=b"\2" * 31)
    yield row("A server's nonce of 31 bytes.", users, apart(other.bodies[:2], other.bodies[1:3]), [], NONCES, 4)
    plain = body("Init", b"SCRAM-SHA-384", model.read(alice.init)[1][1], None)
    yield row(
        "A mechanism that has no records.",
        users,
        apart([alice.offer, plain], []),
        [],
        UNFIT + "the client starts no SCRAM login.",
        4,
    )
    yield row(
        "The server's bodies alone.", users, apart([], alice.bodies), [], UNFIT + "the client starts no SCRAM login.", 4
    )
    yield row("No bodies.", users, [], [], UNFIT + "the client starts no SCRAM login.", 4)
    bob = Login(user=b"bob", count=1)
    yield row(
        "Logins of two users.",
        users,
        apart(alice.bodies[:2] + bob.bodies[:2], []),
        [],
        UNFIT + "the client logs in as two users or with two mechanisms.",
        4,
    )
    sha1 = Login("SCRAM-SHA-1", count=1)
    yield row(
        "Logins by two mechanisms.",
        users,
        apart(alice.bodies[:2] + sha1.bodies[:2], []),
        [],
        UNFIT + "the client logs in as two users or with two mechanisms.",
        4,
    )
    no_side = "A line of standard input does not begin with client or server and a space."
    yield row("A line of no side.", users, apart([alice.offer], []), [], no_side, 4, last=(("", alice.offer), []))
    yield row("A side without a body.", users, [], [], no_side, 4, last=(("client", ""), []))
    yield row(
        "A body that is not hexadecimal.",
        users,
        [],
        [],
        "Line 2 of standard input is not in hexadecimal.",
        4,
        last=(("server", "0"), []),
    )
    yield row(
        "No password.", users, [], [], "There is no password on the first line of standard input.", 4, password=None
    )
    yield row(
        "A password that is not printable ASCII.",
        users,
        [],
        [],
        "The password has a character that SASLprep forbids, such as a tab, or mixes directions of writing.",
        4,
        password="pencil\\t",
    )
    yield row(
        "No file of users.",
        None,
        [],
        [],
        "users.txt: The file cannot be read: it does not exist. Check its name and its mode.",
        4,
    )


HEAD = """\
# Runs of `scram explain --audit`, separated by empty lines.
#     $ WORDS       the words, each cut at one space, the name of the program first
#     < LINE        a line of the input
#     f NAME        a file, which everybody may read and its owner write
#     - LINE        a line of it
#     ?             each of the run's calls of files and of random bytes fails in turn, and then the status is 4
#                   and the files are as before
#     > LINE        a line of what is printed
#     ! LINE        a line among the errors
#     = STATUS      the status
#     F NAME MODE   a file after the run, with its permissions
#     + LINE        a line of it
# In the words, the input and the files `\\n`, `\\t` and `\\s` are a line feed, a tab and a space.
# Source: written by `tools/models/audit_rows.py`: bodies and values by Python's `hmac` and `hashlib`, but those of peers
# and of RFC 7677; who is authenticated, and sentences, written by hand."""


def rows():
    return "\n\n".join([HEAD + "\nparagraphs run", *logins(), *others(), *unfit()]) + "\n"


def main():
    if sys.argv[1:] == ["write"]:
        FILE.write_text(rows())
        return 0
    if sys.argv[1:] == ["check"]:
        made = rows()
        same = FILE.read_text() == made
        print(f"{FILE.name}: {made.count(chr(10) + '$ ')} runs{'' if same else ', which differ'}")
        return 0 if same else 1
    print(__doc__, file=sys.stderr)
    return 2


if __name__ == "__main__":
    sys.exit(main())
