#!/usr/bin/env python3
"""Audits of clients with options: a bound channel, strict reading, limits (RFC 5802, sections 5.1, 6 and 7).

    tools/models/channel_audits.py write   writes crates/test_driver_frames/data/channel-audits.txt
    tools/models/channel_audits.py check   compares that file with what would be written

Both sides are those of `tools/models/negotiations.py`, over Python's `hashlib` and `hmac`. An audit runs both over their
bodies here, and pairs equal verifiers and equal proofs. Nothing of this repository's code is used.
"""
import base64
import re
import sys

sys.dont_write_bytecode = True

import negotiations as model

FILE = model.ROOT / "crates/test_driver_frames/data/channel-audits.txt"
USER, PASSWORD, SALT, COUNT = b"user", b"pencil", b"\3" * 32, 4096
CLIENT_NONCE, SERVER_NONCE, NO_NONCE = b"\1" * 32, b"\2" * 32, b"\0" * 32
SHA_256 = "SCRAM-SHA-256"
# The length of a Finished message of TLS 1.2, of a digest of SHA-512, and of exported keying material.
KINDS = {"tls-unique": b"\4" * 12, "tls-server-end-point": b"\5" * 64, "tls-exporter": b"\xff" * 32}
KIND = "tls-exporter"
# An extension (RFC 5802, section 7): an attribute that section 5.1 does not define, with a value. The letter `m` begins a
# `reserved-mext`, which no side may ignore.
EXTENSION = rb"(?![anmrcsipve])[A-Za-z]=[^\0]+"

HEAD = """# Audits of a client with options, each with its name, separated by empty lines, in the form of named-audits.txt:
# an audit begins with what the two sides are made of, and with options, each of which may be absent,
#     audit VERSION USER PASSWORD SERVER-USER SERVER-PASSWORD SALT OPTION..
# and an option is one of
#     client KIND DATA         the client binds this channel
#     unoffered                the client's GS2 header is `y,,`
#     strict                   the client is strict
#     signature_by_challenge   the client accepts the signature in a challenge too
#     least COUNT              the client's minimum iteration count
#     most COUNT               the client's maximum iteration count
#     server KIND DATA         the server binds this channel
#     cbind_flag_y             the server accepts the GS2 header `y,,` too
#     reject_misplaced         the server rejects what is no extension in the place of one
# Source: written by `tools/models/channel_audits.py`, whose proofs and signatures are of Python's `hashlib` and `hmac`.
paragraphs audit"""


def is_misplaced(parts):
    """Whether one of the parts is no extension."""
    return any(re.fullmatch(EXTENSION, part, re.S) is None for part in parts)


def header_of(kind):
    return b"p=%b,," % kind.encode()


class Client(model.ScramClient):
    """A client that rejects what is no extension in the place of one if it has a channel, bound or not, or is set to, and
    has a minimum iteration count too."""

    def __init__(
        self,
        mechanism=SHA_256,
        bound=None,
        unoffered=False,
        strict=False,
        by_challenge=False,
        least=1,
        most=model.HIGHEST,
    ):
        channel = bound and (header_of(bound[0]), bound[1])
        super().__init__(mechanism, USER, PASSWORD, most, by_challenge=by_challenge, channel=channel)
        if unoffered:
            self.header = b"y,,"
        self.is_strict = strict or unoffered or bound is not None
        self.version, self.least, self.is_due = mechanism, least, False
        self.options = [
            *(["client", bound[0], bound[1].hex()] if bound else []),
            *(["unoffered"] if unoffered else []),
            *(["strict"] if strict else []),
            *(["signature_by_challenge"] if by_challenge else []),
            *(["least", str(least)] if least != 1 else []),
            *(["most", str(most)] if most != model.HIGHEST else []),
        ]

    def first(self, nonce):
        self.signature, self.is_verified, self.is_due = None, False, True
        return super().first(nonce)

    def count(self, digits):
        count = super().count(digits)
        if count < self.least:
            raise model.Refused("IterationCountTooSmall")
        return count

    def challenge(self, message):
        if self.expects_signature():
            return super().challenge(message)
        if not self.is_due:
            raise model.Refused("IllegalClientState")
        if self.is_strict and is_misplaced(message.split(b",")[3:]):
            raise model.Refused("MisplacedAttribute")
        answer = super().challenge(message)
        self.is_due = False
        return answer

    def believe(self, data):
        if data is not None and self.signature is not None and self.is_strict and is_misplaced(data.split(b",")[1:]):
            raise model.Refused("MisplacedAttribute")
        super().believe(data)


class Server(model.ScramServer):
    """A server of the user, which rejects what is no extension in the place of one if it binds a channel or is set to, and
    in the last message of a client that says `y,,`."""

    def __init__(self, mechanism=SHA_256, bound=None, accepts_y=False, rejects=False):
        headers = [header_of(bound[0])] if bound else [b"n,,", *([b"y,,"] if accepts_y else [])]
        super().__init__(mechanism, USER, PASSWORD, SALT, COUNT, tuple(headers), bound[1] if bound else b"")
        self.is_strict, self.is_lax = bound is not None or rejects, False
        self.options = [
            *(["server", bound[0], bound[1].hex()] if bound else []),
            *(["cbind_flag_y"] if accepts_y else []),
            *(["reject_misplaced"] if rejects else []),
        ]

    def init(self, mechanism, message, nonce):
        if self.is_strict and not self.is_lax and is_misplaced(message.split(b",,", 1)[-1].split(b",")[2:]):
            raise model.Refused("MisplacedAttribute")
        return super().init(mechanism, message, nonce)

    def response(self, message):
        if self.bare is None:
            raise model.Refused("Auth")
        is_strict = self.is_strict or self.header != b"n,,"
        if is_strict and not self.is_lax and is_misplaced(message.split(b",")[2:-1]):
            raise model.Refused("MisplacedAttribute")
        return super().response(message)


def client_side(client, events):
    """The verifiers that a client takes and the proofs that it shows, each with its position and its AuthMessage."""
    taken, shown, signed, verifier = [], [], None, None
    for place, (nonce, body) in enumerate(events):
        kind, fields = model.read(body)
        try:
            if kind == "Mechanisms" and client.mechanism.encode() in fields[0]:
                client.first(nonce)
            if kind == "Challenge":
                final = client.challenge(fields[0])
                if final:
                    without, proof = final.rsplit(b",p=", 1)
                    signed = b",".join([client.bare, fields[0], without])
                    shown.append((place, proof, signed))
                else:
                    verifier = fields[0]
            if kind == "Outcome" and fields[0] == 0:
                client.believe(fields[1])
                text = verifier if fields[1] is None else fields[1]
                taken.append((place, text.split(b",")[0], signed))
                client.signature, client.is_verified = None, False
        except model.Refused:
            pass
    return taken, shown


def server_side(server, events):
    """The verifiers that a server gives, with the proofs that it accepts for them, its AuthMessages, and what is agreed
    on."""
    oks = []
    for place, (nonce, body) in enumerate(events):
        kind, fields = model.read(body)
        try:
            if kind == "Init":
                server.init(*fields[:2], nonce)
            if kind == "Response":
                verifier = server.response(fields[0])[1][1]
                without, proof = fields[0].rsplit(b",p=", 1)
                parts = server.bare.split(b",")
                agreed = [server.user, parts[1][2:]]
                if len(parts) == 2:
                    agreed += [server.nonce, server.salt]
                words = [it.hex() for it in agreed] + ([str(server.count)] if len(parts) == 2 else [])
                oks.append((place, verifier, proof, b",".join([server.bare, server.first, without]), words))
                server.bare = None
        except model.Refused:
            pass
    return oks


def findings(client, client_events, server, server_events):
    """The lines of an audit. No two AuthMessages of these rows collide."""
    taken, shown = client_side(client, client_events)
    oks = server_side(server, server_events)
    for kind, receipts, compared in (("verifier", taken, 1), ("proof", shown, 2)):
        for place, text, signed in receipts:
            for ok in oks:
                if ok[compared] == text:
                    assert ok[3] == signed
                    yield " ".join(["> " + kind, str(place), str(ok[0]), "agreed", *ok[4]])


def body(kind, *fields):
    return model.frames.written(kind, list(fields))


AUTH = body("Outcome", 1, None)


class Login:
    """The bodies that both sides receive in a login, whose server gives its signature in a challenge if it is asked to."""

    def __init__(self, client, server, signs=False):
        self.client = [(CLIENT_NONCE, body("Mechanisms", [server.mechanism.encode()]))]
        first, name = client.first(CLIENT_NONCE), client.mechanism.encode()
        self.server = [(SERVER_NONCE, body("Init", name, first, None))]
        try:
            challenge = server.init(name, first, SERVER_NONCE)[1][0]
            final = client.challenge(challenge)
            self.client.append((NO_NONCE, body("Challenge", challenge)))
            self.server.append((NO_NONCE, body("Response", final)))
            signature = server.response(final)[1][1]
        except model.Refused:
            self.client.append((NO_NONCE, AUTH))
            return
        if signs:
            self.client += [(NO_NONCE, body("Challenge", signature)), (NO_NONCE, body("Outcome", 0, None))]
        else:
            self.client.append((NO_NONCE, body("Outcome", 0, signature)))


class Ended(Login):
    """A login whose last message has more after the signature."""

    def __init__(self, client, server, end):
        super().__init__(client, server)
        kind, fields = model.read(self.client[-1][1])
        self.client[-1] = (NO_NONCE, body(kind, fields[0], fields[1] + end))


class Shifted(Login):
    """A login of one AuthMessage that each side cuts in another place, of sides that are not strict."""

    def __init__(self, bound=None):
        header, data = (header_of(bound[0]), bound[1]) if bound else (b"n,,", b"")
        client, server = Client(bound=bound), Server(bound=bound)
        client.is_strict, server.is_lax = False, True
        salt, binding = base64.b64encode(SALT), base64.b64encode(header + data)
        init = b"%b,r=%bA=,s=%b,i=%d" % (client.first(CLIENT_NONCE), client.nonce, salt, COUNT)
        name = server.mechanism.encode()
        first = server.init(name, init, SERVER_NONCE)[1][0]
        own = client.nonce + b"A="
        challenge = b"r=%b,s=%b,i=%d,%b,c=%b,r=%b" % (own, salt, COUNT, first, binding, server.nonce)
        final = client.challenge(challenge)
        altered = b"c=%b,r=%b,%b" % (binding, server.nonce, final)
        signature = server.response(altered)[1][1]
        self.client = [
            (CLIENT_NONCE, body("Mechanisms", [name])),
            (NO_NONCE, body("Challenge", challenge)),
            (NO_NONCE, body("Outcome", 0, signature)),
        ]
        self.server = [(SERVER_NONCE, body("Init", name, init, None)), (NO_NONCE, body("Response", altered))]


class TalkedOut(Login):
    """A login of sides that are not strict, without a channel at the server. Someone on the way puts the header that the
    server accepts in place of the client's, and into both later messages what the server then expects. What the client
    sends of its own header is in the place of an extension."""

    def __init__(self, mechanism=SHA_256, **options):
        client, server = Client(mechanism, **options), Server(mechanism)
        client.is_strict = False
        name, accepted = server.mechanism.encode(), b"n,,"
        client.first(CLIENT_NONCE)
        init = accepted + client.bare
        first = server.init(name, init, SERVER_NONCE)[1][0]
        moved = b"c=%b,r=%b" % (base64.b64encode(accepted), server.nonce)
        challenge = first + b"," + moved
        altered = moved + b"," + client.challenge(challenge)
        signature = server.response(altered)[1][1]
        self.client = [
            (CLIENT_NONCE, body("Mechanisms", [client.mechanism.encode()])),
            (NO_NONCE, body("Challenge", challenge)),
            (NO_NONCE, body("Outcome", 0, signature)),
        ]
        self.server = [(SERVER_NONCE, body("Init", name, init, None)), (NO_NONCE, body("Response", altered))]


def row(name, login, client, server, count, server_events=None):
    """An audit of the bodies of a login, by a client and a server of these options, with that many findings."""
    events = login.server if server_events is None else server_events
    found = list(findings(client, login.client, server, events))
    assert len(found) == count, (name, found)
    words = ["audit", client.version, *[it.hex() for it in (USER, PASSWORD, USER, PASSWORD, SALT)]]
    received = [(side, it) for side, them in (("c", login.client), ("s", events)) for it in them]
    lines = [f"< {side} {nonce.hex()} {data.hex()}" for side, (nonce, data) in received]
    return "\n".join(["\n# " + name, " ".join(words + client.options + server.options), *lines, *found, ""])


def channels():
    """Audits of clients that bind a channel, or could."""
    for mechanism in model.HASHES:
        for kind, data in KINDS.items():
            of = {"mechanism": mechanism, "bound": (kind, data)}
            yield row("Both sides bind one channel.", Login(Client(**of), Server(**of)), Client(**of), Server(**of), 2)
    for kind, data in KINDS.items():
        own, other = {"bound": (kind, data)}, {"bound": (kind, data[:-1] + b"\6")}
        apart = Login(Client(**own), Server(**other))
        yield row("The server has other data of the channel.", apart, Client(**own), Server(**other), 0)
        whole = Login(Client(**own), Server(**own))
        yield row(
            "The server has other data of the channel. The client receives the signature that its own channel has.",
            whole,
            Client(**own),
            Server(**other),
            0,
        )
        yield row("The client has other data of the channel.", whole, Client(**other), Server(**own), 0)
        there = Login(Client(**other), Server(**other))
        yield row("The bodies are of a login by another channel.", there, Client(**own), Server(**own), 0)
    data = KINDS[KIND]
    own, other = {"bound": (KIND, data)}, {"bound": ("tls-server-end-point", data)}
    yield row(
        "The server has the data by another kind.",
        Login(Client(**own), Server(**other)),
        Client(**own),
        Server(**other),
        0,
    )
    unbound = Login(Client(), Server())
    yield row("The bodies are of a login without a channel.", unbound, Client(**own), Server(**own), 0)
    whole = Login(Client(**own), Server(**own))
    yield row("The client of a login with a channel has none.", whole, Client(strict=True), Server(**own), 0)
    by_challenge = Client(**own, by_challenge=True)
    yield row(
        "Both sides bind one channel. The signature comes in a challenge.",
        Login(Client(**own), Server(**own), signs=True),
        by_challenge,
        Server(**own),
        2,
    )
    for mechanism in model.HASHES:
        could = Login(Client(mechanism, unoffered=True), Server(mechanism, accepts_y=True))
        yield row(
            "A client that could bind a channel, and was offered none.",
            could,
            Client(mechanism, unoffered=True),
            Server(mechanism, accepts_y=True),
            2,
        )
        yield row(
            "A client that could bind a channel. The server does not accept it.",
            could,
            Client(mechanism, unoffered=True),
            Server(mechanism),
            0,
        )
        yield row(
            "The client could not bind a channel, and the client of the bodies could.",
            could,
            Client(mechanism, strict=True),
            Server(mechanism, accepts_y=True),
            0,
        )


def reading():
    """Audits of sides that are strict, or are not."""
    plain = Login(Client(), Server())
    yield row("A strict client, and no misplaced attribute.", plain, Client(strict=True), Server(), 2)
    shifted = Shifted()
    yield row(
        "Texts that are shifted between the messages: a client that is not strict takes them.",
        shifted,
        Client(most=COUNT, by_challenge=True),
        Server(),
        2,
    )
    yield row(
        "Texts that are shifted between the messages: a strict client rejects them.",
        shifted,
        Client(strict=True),
        Server(),
        0,
    )
    own = {"bound": (KIND, KINDS[KIND])}
    yield row(
        "Texts that are shifted between the messages: a client that binds a channel rejects them.",
        Shifted(**own),
        Client(**own),
        Server(**own),
        0,
    )
    for ours, theirs in (({"unoffered": True}, {"accepts_y": True}), (own, own)):
        client, server = Client(**ours), Server(**theirs)
        yield row("A misplaced attribute after the signature.", Ended(client, server, b",i=1"), client, server, 1)
        yield row("An extension after the signature.", Ended(client, server, b",x=1"), client, server, 2)
    yield row(
        "Texts that are shifted between the messages: a server with `reject_misplaced` rejects them.",
        shifted,
        Client(most=COUNT, by_challenge=True),
        Server(rejects=True),
        0,
    )
    yield row("A server with `reject_misplaced`, and no misplaced attribute.", plain, Client(), Server(rejects=True), 2)


def talked_out():
    """Audits of clients that have a channel, with texts in which the server reads that they have none."""
    lax = Client(most=COUNT, by_challenge=True)
    yield row("The client has no channel, and accepts what is moved.", TalkedOut(), lax, Server(), 2)
    yield row("A server with `reject_misplaced` rejects it.", TalkedOut(), lax, Server(rejects=True), 0)
    for mechanism in model.HASHES:
        yield row(
            "A client that says `y,,` rejects what is moved.",
            TalkedOut(mechanism, unoffered=True),
            Client(mechanism, unoffered=True),
            Server(mechanism),
            0,
        )
        own = {"mechanism": mechanism, "bound": (KIND, KINDS[KIND])}
        yield row(
            "A client that binds a channel rejects what is moved.",
            TalkedOut(**own),
            Client(**own),
            Server(mechanism),
            0,
        )


def limits():
    """Audits of clients with limits."""
    plain = Login(Client(), Server())
    yield row("The count is the minimum and the maximum.", plain, Client(least=COUNT, most=COUNT), Server(), 2)
    yield row("The count is below the minimum.", plain, Client(least=COUNT + 1), Server(), 0)
    yield row("The count is above the maximum.", plain, Client(least=2, most=COUNT - 1), Server(), 0)


def text():
    """The text of the file."""
    return HEAD + "\n" + "".join([*channels(), *reading(), *talked_out(), *limits()])


def main():
    if sys.argv[1:] == ["write"]:
        FILE.write_text(text())
        return 0
    if sys.argv[1:] == ["check"]:
        made = text()
        same = FILE.read_text() == made
        found = made.count("\n> ")
        print(f"{FILE.name}: {made.count(chr(10) * 2)} audits, {found} findings{'' if same else ', which differ'}")
        return 0 if same else 1
    print(__doc__, file=sys.stderr)
    return 2


if __name__ == "__main__":
    sys.exit(main())
