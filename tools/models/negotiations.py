#!/usr/bin/env python3
"""Connections over the SASL layer of AMQP 1.0: what each call has to answer.

    tools/models/negotiations.py write  writes the files of connections in crates/test_driver_connections/data
    tools/models/negotiations.py check  compares these files with what would be written

A model of both sides, written from AMQP 1.0, part 2 (section 2.2, headers; 2.3.1, frames) and part 5 (5.3, SASL),
RFC 5802 and RFC 7677 (SCRAM), RFC 4616 (PLAIN), RFC 4505 (ANONYMOUS) and RFC 4422 (EXTERNAL, and section 5 for empty
challenges and data of an outcome), independently of this repository's code. Bodies
are read and written by `tools/models/frames.py`. The project's own are the names of the faults and their order, that a
server asks for no message of ANONYMOUS and EXTERNAL, how lists of bodies are answered and audited
(docs/SPECIFICATION.md), and what docs/COMPATIBILITY.md lists.
"""
import base64
import copy
import hashlib
import hmac
import re
import sys
from pathlib import Path

sys.dont_write_bytecode = True

import frames

ROOT = Path(__file__).resolve().parents[2]
PEERS = ROOT / "crates/test_driver_frames/data/peer-runs.txt"
CONNECTIONS = ROOT / "crates/test_driver_connections/data"
STREAMS = ROOT / "tools/models/peer-streams.txt"

# a body can nest a described value in each two bytes
sys.setrecursionlimit(10_000)

# Part 2, section 2.2, and part 5, section 5.3.2.
SASL = b"AMQP\x03\x01\x00\x00"
AMQP = b"AMQP\x00\x01\x00\x00"
TLS = b"AMQP\x02\x01\x00\x00"
# Part 5, section 5.3.1.
MOST = 512
HASHES = {"SCRAM-SHA-1": "sha1", "SCRAM-SHA-256": "sha256", "SCRAM-SHA-512": "sha512"}
CODES = frames.CODES
HIGHEST = 4294967295


class Refused(Exception):
    """A message that SCRAM does not accept; the name says why."""


class Fault(Exception):
    """Why a connection is closed."""


def frame(body):
    return (len(body) + 4).to_bytes(4, "big") + body


def spelled(kind, *fields):
    """A frame in its shortest spelling."""
    return frame(frames.written(kind, list(fields)))


def read(body):
    """The frame that a body spells."""
    found = frames.answer(body)
    if found.startswith("refused"):
        raise Fault(f"MalformedFrame {found.split()[1]}")
    return frames.frame_of(frames.value(body[4:])[0])


# SCRAM (RFC 5802, sections 2.2, 3, 5.1 and 7)


def text(data):
    try:
        data.decode()
    except UnicodeDecodeError:
        raise Refused("Utf8Error") from None
    return data


def attribute(part, letter, fault):
    if not part.startswith(letter):
        raise Refused(fault)
    return part[2:]


def unbase64(part):
    try:
        data = base64.b64decode(part, validate=True)
    except ValueError:
        raise Refused("Base64DecodeError") from None
    if base64.b64encode(data) != part:
        raise Refused("Base64DecodeError")
    return data


def escaped(name):
    return name.replace(b"=", b"=3D").replace(b",", b"=2C")


def unescaped(name):
    if re.fullmatch(rb"([^=]|=2C|=3D)*", name, re.S) is None:
        raise Refused("CannotParseUsername")
    return name.replace(b"=2C", b",").replace(b"=3D", b"=")


def mac(name, key, message):
    return hmac.new(key, message, name).digest()


def xor(left, right):
    return bytes(a ^ b for a, b in zip(left, right, strict=True))


class Record:
    """The keys that a server has (section 3)."""

    def __init__(self, name, stored, server):
        self.name, self.stored, self.server = name, stored, server

    def signature(self, message):
        return mac(self.name, self.server, message)

    def accepts(self, proof, message):
        key = xor(proof, mac(self.name, self.stored, message))
        return hashlib.new(self.name, key).digest() == self.stored


class Keys(Record):
    """The keys of a password (section 3)."""

    def __init__(self, name, password, salt, count):
        salted = hashlib.pbkdf2_hmac(name, password, salt, count)
        self.client = mac(name, salted, b"Client Key")
        super().__init__(name, hashlib.new(name, self.client).digest(), mac(name, salted, b"Server Key"))

    def proof(self, message):
        return xor(self.client, mac(self.name, self.stored, message))


class ScramServer:
    """A server of one user, which takes these GS2 headers, and can bind a channel of these data (section 6)."""

    def __init__(self, mechanism, user, password, salt, count, headers=(b"n,,",), channel=b""):
        self.mechanism, self.headers, self.channel = mechanism + ("-PLUS" if channel else ""), headers, channel
        self.known, self.salt, self.count = user, salt, count
        self.keys = Keys(HASHES[mechanism], password, salt, count)
        self.header = self.bare = self.first = self.nonce = None
        self.user = None

    def init(self, mechanism, message, nonce):
        if mechanism.decode("ascii") != self.mechanism or message is None:
            raise Refused("Auth")
        if not text(message).startswith(self.headers):
            raise Refused("CannotParseGs2Header")
        header = next(it for it in self.headers if message.startswith(it))
        bare = message[len(header) :]
        parts = bare.split(b",")
        user = unescaped(attribute(parts[0], b"n=", "CannotParseUsername"))
        if len(parts) < 2:
            raise Refused("CannotParseClientNonce")
        self.nonce = attribute(parts[1], b"r=", "CannotParseClientNonce") + base64.b64encode(nonce)
        if user != self.known:
            raise Refused("Auth")
        self.header, self.bare = header, bare
        self.first = b"r=%b,s=%b,i=%d" % (self.nonce, base64.b64encode(self.salt), self.count)
        return "Challenge", [self.first]

    def response(self, message):
        parts = text(message).split(b",")
        if unbase64(attribute(parts[0], b"c=", "CannotParseClientFinalMessage")) != self.header + self.channel:
            raise Refused("InvalidChannelBinding")
        if attribute((parts + [b""])[1], b"r=", "CannotParseClientFinalMessage") != self.nonce:
            raise Refused("IncorrectClientFinalNonce")
        proof = unbase64(attribute(parts[-1], b"p=", "ProofNotFoundInClientFinal"))
        if len(proof) != len(self.keys.stored):
            raise Refused("XorLengthMismatch")
        signed = b",".join([self.bare, self.first, *parts[:-1]])
        if not self.keys.accepts(proof, signed):
            raise Refused("AuthenticationFailed")
        self.user = self.known
        return "Outcome", [0, b"v=" + base64.b64encode(self.keys.signature(signed))]


class PlainState:
    """RFC 4616, section 2: authorization identity, zero, user name, zero, password."""

    mechanism = "PLAIN"

    def __init__(self, user, password):
        self.known, self.password = user, password
        self.user = None

    def init(self, mechanism, message, nonce):
        parts = [] if message is None else message.split(b"\0")
        if parts[1:3] != [self.known, self.password]:
            raise Refused("Auth")
        self.user = self.known
        return "Outcome", [0, None]


class AnonymousServer:
    """RFC 4505: everyone is let in."""

    mechanism = "ANONYMOUS"
    user = None

    def init(self, mechanism, message, nonce):
        return "Outcome", [0, None]


class ExternalServer:
    """RFC 4422, appendix A: the client has an identity from outside SASL, and asks for it or for none."""

    mechanism = "EXTERNAL"

    def __init__(self, user):
        self.known, self.user = user, None

    def init(self, mechanism, message, nonce):
        if mechanism != b"EXTERNAL" or message not in (None, b"", self.known):
            raise Refused("Auth")
        self.user = self.known
        return "Outcome", [0, None]


class ExtraServer:
    """A server with challenges beyond those of its mechanism, by the words of its line (RFC 4422, section 5): with
    `asks` an init without an initial response gets an empty challenge, whose response is the initial response, and with
    `signs` the data of an outcome Ok come in a challenge, whose response has to be empty."""

    def __init__(self, server, words):
        self.server, self.mechanism = server, server.mechanism
        self.asks, self.signs = "asks" in words, "signs" in words
        self.asked, self.signed, self.user = None, False, None

    def init(self, mechanism, message, nonce):
        is_needed = mechanism == self.mechanism.encode() and self.mechanism not in ("ANONYMOUS", "EXTERNAL")
        if self.asks and message is None and is_needed:
            self.asked = mechanism, nonce
            return "Challenge", [b""]
        return self.sent(*self.server.init(mechanism, message, nonce))

    def response(self, message):
        if self.asked is not None:
            (mechanism, nonce), self.asked = self.asked, None
            return self.sent(*self.server.init(mechanism, message, nonce))
        if not self.signed:
            return self.sent(*self.server.response(message))
        if message != b"":
            raise Refused("Auth")
        return self.sent("Outcome", [0, None])

    def sent(self, kind, said):
        if kind == "Outcome" and self.signs and said[1] is not None:
            self.signed = True
            return "Challenge", [said[1]]
        if kind == "Outcome":
            self.user = self.server.user
        return kind, said


class ScramClient:
    """A client with a password, prepared or as it is typed, and a limit on the iteration count. With `by_challenge` it
    takes the server-final message in a challenge too, which it answers by an empty response (RFC 4422, section 5). It can
    bind a channel, as a GS2 header and data (RFC 5802, section 6)."""

    def __init__(self, mechanism, user, password, limit, prepared=False, by_challenge=False, channel=None):
        self.mechanism, self.name = mechanism + ("-PLUS" if channel else ""), HASHES[mechanism]
        self.header, self.channel = channel or (b"n,,", b"")
        self.user, self.password, self.limit, self.prepared = user, password, limit, prepared
        self.by_challenge = by_challenge
        self.nonce = self.bare = self.signature = None
        self.is_verified = False

    def first(self, nonce):
        self.nonce = base64.b64encode(nonce)
        self.bare = b"n=" + escaped(self.user) + b",r=" + self.nonce
        return self.header + self.bare

    def count(self, digits):
        if re.fullmatch(rb"\+?[0-9]+", digits) is None or not 1 <= int(digits) <= HIGHEST:
            raise Refused("IterationCountParseError")
        if int(digits) > self.limit:
            raise Refused("IterationCountTooLarge")
        return int(digits)

    def expects_signature(self):
        """Whether a challenge with the server-final message is due."""
        return self.by_challenge and self.signature is not None

    def challenge(self, message):
        if self.expects_signature():
            self.believe(message)
            self.signature, self.is_verified = None, True
            return b""
        parts = text(message).split(b",")
        if len(parts) < 3:
            raise Refused("InsufficientParts")
        if parts[0].startswith(b"m="):
            raise Refused("ExtensionNotSupported")
        nonce = attribute(parts[0], b"r=", "NonceNotFound")
        if not nonce.startswith(self.nonce):
            raise Refused("ClientNonceMismatch")
        salt = unbase64(attribute(parts[1], b"s=", "SaltNotFound"))
        count = self.count(attribute(parts[2], b"i=", "IterationCountNotFound"))
        if not self.prepared and not all(0x20 <= it <= 0x7E for it in self.password):
            raise Refused("NormalizeError")
        keys = Keys(self.name, self.password, salt, count)
        final = b"c=" + base64.b64encode(self.header + self.channel) + b",r=" + nonce
        signed = b",".join([self.bare, message, final])
        self.signature = keys.signature(signed)
        return final + b",p=" + base64.b64encode(keys.proof(signed))

    def believe(self, data):
        if data is None:
            if self.is_verified:
                return
            raise Refused("ServerSignatureMismatch")
        if self.signature is None:
            raise Refused("IllegalClientState")
        shown = attribute(text(data).split(b",")[0], b"v=", "ServerSignatureMismatch")
        if unbase64(shown) != self.signature:
            raise Refused("ServerSignatureMismatch")


class OtherClient:
    """A client whose one message is its init, and which trusts every outcome."""

    def __init__(self, mechanism, message):
        self.mechanism, self.message = mechanism, message

    def first(self, nonce):
        return self.message

    def believe(self, data):
        pass


class MessageClient(OtherClient):
    """A client that sends its one message again if an empty challenge asks for it (RFC 4422, section 5)."""

    def challenge(self, message):
        if message != b"":
            raise Fault("Mechanism NotImplemented")
        return self.message

    def expects_signature(self):
        return False


# The two sides of a connection (AMQP 1.0, part 5, section 5.3.2)


class Side:
    """Bytes in, bytes out: what came of the unit that is due, and what is due."""

    def __init__(self, machine):
        self.machine = machine
        self.progress, self.due, self.held = "InProgress", "Header", b""

    def receive(self, data, nonce):
        """How many bytes are taken, and what is sent."""
        if self.progress != "InProgress":
            return 0, b""
        come, had = self.held + data, len(self.held)
        size = 8
        if self.due != "Header":
            # part 2, section 2.3.1: four bytes that count the whole frame, whose own header has eight
            size = int.from_bytes(come[:4], "big") if len(come) >= 4 else None
            if size is not None and not 8 <= size <= MOST:
                self.progress, self.held = "FrameSize", b""
                return 4 - had, b""
        if size is None or len(come) < size:
            self.held = come
            return len(data), b""
        self.held = b""
        sent = b""
        try:
            sent = self.header(come[:8]) if self.due == "Header" else self.frame(come[4:size], nonce)
        except Fault as fault:
            self.progress = str(fault)
        return size - had, sent

    def frame(self, body, nonce):
        kind, fields = read(body)
        if kind not in self.due:
            raise Fault("UnexpectedFrame")
        return self.answer(kind, fields, nonce)

    def says(self, kind, *fields):
        """What is sent: a frame has 512 bytes at most (part 5, section 5.3.1)."""
        sent = spelled(kind, *fields)
        if len(sent) > MOST:
            raise Fault("ReplyTooLarge")
        return sent


class Server(Side):
    def header(self, header):
        # section 5.3.2, and part 2, section 2.2: a peer that asks for something else gets the one header
        if header != SASL:
            self.progress = "ProtocolHeaderMismatch"
            return SASL
        self.due = ("Init",)
        return SASL + self.says("Mechanisms", [self.machine.mechanism.encode()])

    def answer(self, kind, fields, nonce):
        try:
            reply, said = self.machine.init(*fields[:2], nonce) if kind == "Init" else self.machine.response(*fields)
        except Refused:
            reply, said = "Outcome", [1, None]
        sent = self.says(reply, *said)
        if reply == "Challenge":
            self.due = ("Response",)
        elif said[0] == 0:
            self.progress = "Authenticated " + ("none" if self.machine.user is None else hexed(self.machine.user))
        else:
            self.progress = "Refused " + CODES[said[0]]
        return sent


class Client(Side):
    def __init__(self, machine, hostname):
        super().__init__(machine)
        self.hostname = hostname

    def header(self, header):
        if header != SASL:
            raise Fault("ProtocolHeaderMismatch")
        self.due = ("Mechanisms",)
        return b""

    def answer(self, kind, fields, nonce):
        try:
            return getattr(self, kind.lower())(fields, nonce)
        except Refused as refused:
            raise Fault(f"Mechanism Scram {refused}") from None

    def mechanisms(self, fields, nonce):
        name = self.machine.mechanism.encode()
        if name not in fields[0]:
            raise Fault("Mechanism NotImplemented")
        sent = self.says("Init", name, self.machine.first(nonce), self.hostname)
        self.due = ("Challenge", "Outcome")
        return sent

    def challenge(self, fields, nonce):
        if not isinstance(self.machine, ScramClient | MessageClient):
            raise Fault("Mechanism NotImplemented")
        sent = self.says("Response", self.machine.challenge(fields[0]))
        self.due = ("Challenge", "Outcome") if self.machine.expects_signature() else ("Outcome",)
        return sent

    def outcome(self, fields, nonce):
        if fields[0] != 0:
            raise Fault("Refused " + CODES[fields[0]])
        self.machine.believe(fields[1])
        self.progress = "Authenticated"
        return b""


class LateClient(Client):
    """A client that sends its initial response when an empty challenge asks for it (RFC 4422, section 5)."""

    def mechanisms(self, fields, nonce):
        self.message = self.machine.first(nonce)
        self.due = ("Challenge",)
        return self.says("Init", self.machine.mechanism.encode(), None, self.hostname)

    def challenge(self, fields, nonce):
        message, self.message = self.message, None
        if message is None:
            return super().challenge(fields, nonce)
        if fields[0] != b"":
            raise Fault("Mechanism NotImplemented")
        self.due = ("Challenge", "Outcome")
        return self.says("Response", message)


# The words of the files


def hexed(data):
    return data.hex() or "-"


def unhexed(word):
    return b"" if word == "-" else bytes.fromhex(word)


def side_of(line):
    """The side that a line of the files names."""
    match line.split(" "):
        case ["server", *words, "lenient"]:
            return side_of(" ".join(["server", *words]))
        case ["server", *words] if "asks" in words or "signs" in words:
            server = side_of(" ".join(it for it in line.split(" ") if it not in ("asks", "signs")))
            return Server(ExtraServer(server.machine, words))
        case ["server", "ANONYMOUS"]:
            return Server(AnonymousServer())
        case ["server", "EXTERNAL", user]:
            return Server(ExternalServer(unhexed(user)))
        case ["server", "PLAIN", user, password]:
            return Server(PlainState(unhexed(user), unhexed(password)))
        case ["server", mechanism, user, password, salt, count]:
            return scram_server(mechanism, user, password, salt, count)
        case ["client", mechanism, user, password, limit, hostname, *words]:
            user, password = unhexed(user), unhexed(password)
            hostname = None if hostname == "none" else unhexed(hostname)
            if mechanism in HASHES:
                by_challenge = words == ["by-challenge"]
                return Client(ScramClient(mechanism, user, password, int(limit), by_challenge=by_challenge), hostname)
            if mechanism.endswith("-AS"):
                return Client(MessageClient(mechanism.removesuffix("-AS"), user), hostname)
            message = b"\0" + user + b"\0" + password if mechanism == "PLAIN" else None
            return Client(OtherClient(mechanism, message), hostname)
    return side_of_run(line)


def scram_server(mechanism, user, password, salt, count, *more):
    return Server(ScramServer(mechanism, unhexed(user), unhexed(password), unhexed(salt), int(count), *more))


def header_of(kind):
    """The GS2 header of a client that binds a channel by this kind, under no other name (RFC 5802, section 7)."""
    return b"p=%b,," % kind.encode()


def side_of_run(line):
    """The side that a line of the files of runs names, and none of the files of connections."""
    match line.split(" "):
        case ["cbind_flag_y", mechanism, user, password, salt]:
            return scram_server(mechanism, user, password, salt, 4096, (b"n,,", b"y,,"))
        case ["records", mechanism, user, salt, count, stored, server]:
            side = scram_server(mechanism, user, "-", salt, count)
            side.machine.keys = Record(HASHES[mechanism], unhexed(stored), unhexed(server))
            return side
        case ["prepared", mechanism, user, password]:
            return Client(ScramClient(mechanism, unhexed(user), unhexed(password), HIGHEST, prepared=True), None)
        case ["client_plus", mechanism, user, password, kind, data]:
            channel = header_of(kind), unhexed(data)
            return Client(ScramClient(mechanism, unhexed(user), unhexed(password), HIGHEST, channel=channel), None)
        case ["server_plus", mechanism, user, password, salt, kind, data]:
            return scram_server(mechanism, user, password, salt, 4096, (header_of(kind),), unhexed(data))
    raise ValueError(line)


def server_line(mechanism, user=b"user", password=b"pencil", salt=b"\3" * 32, count=1):
    if mechanism == "ANONYMOUS":
        return "server ANONYMOUS"
    if mechanism == "EXTERNAL":
        return f"server EXTERNAL {hexed(user)}"
    words = f"server {mechanism} {hexed(user)} {hexed(password)}"
    return words if mechanism == "PLAIN" else f"{words} {salt.hex()} {count}"


def client_line(mechanism, user=b"user", password=b"pencil", limit=HIGHEST, hostname=None):
    hostname = "none" if hostname is None else hexed(hostname)
    return f"client {mechanism} {hexed(user)} {hexed(password)} {limit} {hostname}"


class Login:
    """What goes over the wire in a login, frame by frame, with a nonce of each side."""

    def __init__(self, server, client, client_nonce=b"\1" * 32, server_nonce=b"\2" * 32, late=False):
        self.server, self.client = server, client
        self.nonces = {"server": [server_nonce], "client": [client_nonce]}
        ours, theirs = side_of(server), side_of(client)
        if late:
            theirs = LateClient(theirs.machine, theirs.hostname)
        _, opened = ours.receive(SASL, server_nonce)
        theirs.receive(opened[:8], client_nonce)
        # the units that each side is given
        self.units = {"server": [SASL], "client": [SASL]}
        sent = opened[8:]
        while sent:
            self.units["client"].append(sent)
            _, said = theirs.receive(sent, client_nonce)
            sent = b""
            if said:
                self.units["server"].append(said)
                _, sent = ours.receive(said, server_nonce)
        self.ends = ours.progress, theirs.progress

    def line(self, name):
        return self.server if name == "server" else self.client


def junk(at):
    """A nonce that answers nothing."""
    return bytes([0x80 | at & 0x7F]) * 32


def nonce_word(nonce):
    """A nonce in digits: one byte's where that is all of them."""
    return nonce[:1].hex() if nonce == nonce[:1] * 32 else nonce.hex()


class Rows:
    """The paragraphs of a file."""

    def __init__(self, heading):
        self.heading = heading
        self.paragraphs, self.calls = [], 0
        self.found = {}

    def add(self, name, line, pieces, nonces=()):
        """A connection: pieces of bytes, each passed until it is taken or the side is at its end. The nonces are
        those of the frames; a call that completes no frame has a nonce that is used for nothing."""
        side, nonces = side_of(line), list(nonces)
        lines = [f"# {name}", line]
        sent = []
        for piece in pieces:
            while True:
                tried = copy.deepcopy(side)
                tried.receive(piece, b"\0" * 32)
                answers = side.due != "Header" and tried.held == b"" and side.progress == "InProgress"
                nonce = nonces.pop(0) if answers and nonces else junk(len(lines))
                taken, said = side.receive(piece, nonce)
                sent.append(said)
                lines.append(f"{nonce_word(nonce)} {hexed(piece)} => {taken} {hexed(said)} {side.progress}")
                piece = piece[taken:]
                if not piece or side.progress != "InProgress":
                    break
        self.paragraphs.append("\n".join(lines))
        self.calls += len(lines) - 2
        self.found[side.progress] = self.found.get(side.progress, 0) + 1
        return side.progress, b"".join(sent)

    def text(self):
        return "\n\n".join([f"{self.heading}\nparagraphs connection", *self.paragraphs]) + "\n"


# The connections

SCRAM = list(HASHES)
MAIN = "SCRAM-SHA-256"


def whole_logins(rows):
    sides = []
    for mechanism in [*SCRAM, "PLAIN", "ANONYMOUS"]:
        for user, hostname in [(b"user", None), (b"us,er", b"localhost")]:
            lines = server_line(mechanism, user), client_line(mechanism, user, hostname=hostname)
            sides.append((mechanism, Login(*lines)))
    for mechanism in SCRAM:
        lines = server_line(mechanism, count=4096), client_line(mechanism, limit=4096)
        sides.append((f"{mechanism} of 4096 iterations", Login(*lines, bytes(range(32)), bytes(range(200, 232)))))
    for name, login in sides:
        for side in ("server", "client"):
            units, line, nonces = login.units[side], login.line(side), login.nonces[side]
            rows.add(f"A login by {name}, unit by unit: the {side}.", line, [*units, AMQP], nonces)
            rows.add(
                f"A login by {name}, all at once, with AMQP's header behind it: the {side}.",
                line,
                [b"".join(units) + AMQP],
                nonces,
            )
    for login in (Login(server_line(MAIN), client_line(MAIN)), Login(server_line("PLAIN"), client_line("PLAIN"))):
        for side in ("server", "client"):
            stream = b"".join(login.units[side]) + AMQP[:2]
            rows.add(f"Byte by byte: the {side}.", login.line(side), [bytes([it]) for it in stream], login.nonces[side])
    mechanisms = spelled("Mechanisms", [b"PLAIN", b"EXTERNAL"])
    rows.add("A login by EXTERNAL.", client_line("EXTERNAL"), [SASL, mechanisms, spelled("Outcome", 0, None) + AMQP])
    for side, line in (("server", server_line(MAIN)), ("client", client_line(MAIN))):
        rows.add(f"No bytes at all: the {side}.", line, [b"", b"", SASL[:4], b"", SASL[4:], b""])


def headers(rows):
    others = [
        TLS,
        AMQP,
        b"AMQP\x01\x01\0\0",
        b"AMQP\x04\x01\0\0",
        b"AMQP\xff\x01\0\0",
        b"AMQP\x03\0\x09\x01",
        b"AMQP\x03\x01\0\x01",
        b"AMQP\x03\x01\x01\0",
        b"AMQP\x03\x02\0\0",
        b"amqp\x03\x01\0\0",
        b"GET / HT",
        b"\0" * 8,
    ]
    others += [SASL[:at] + bytes([SASL[at] ^ 0x20]) + SASL[at + 1 :] for at in range(8)]
    for side, line in (("server", server_line(MAIN)), ("client", client_line(MAIN))):
        for header in others:
            rows.add(f"Another header: the {side}.", line, [header + SASL, SASL])
            rows.add(f"Another header in two pieces: the {side}.", line, [header[:5], header[5:] + b"\0"])
        for at in range(1, 8):
            rows.add(f"The header in two pieces: the {side}.", line, [SASL[:at], SASL[at:]])
        rows.add(f"Seven bytes of a header that is none: the {side}.", line, [b"GET / H"])


def turns(side):
    """A side of SCRAM at each of its turns: the name, the login, the units before, and the one that is due."""
    login = Login(server_line(MAIN), client_line(MAIN))
    for at in range(1, len(login.units[side])):
        yield login, login.units[side][:at], login.units[side][at]


NAMES = {"server": ["init", "response"], "client": ["list", "challenge", "outcome"]}


def at_each_turn():
    for side in ("server", "client"):
        for name, (login, before, due) in zip(NAMES[side], turns(side)):
            yield f"in place of the {name}: the {side}.", login.line(side), login.nonces[side], before, due


def sizes(rows):
    for place, line, nonces, before, due in at_each_turn():
        for size in [*range(8), 513, 0x0100_0000, 0xFFFF_FFFF]:
            start = size.to_bytes(4, "big")
            rows.add(f"The size {size} {place}", line, [*before, start + due[4:8], AMQP], nonces)
        rows.add(f"The size 8 {place}", line, [*before, frame(due[4:8]), AMQP], nonces)
        for size in (511, 512, 513):
            padded = frame(due[4:] + b"\0" * (size - len(due)))
            rows.add(f"{size} bytes, of which the last say nothing, {place}", line, [*before, padded], nonces)
        long = (513).to_bytes(4, "big")
        pieces = [long[:1], long[1:3], long[3:] + due[4:]]
        rows.add(f"A size above 512 in pieces {place}", line, [*before, *pieces], nonces)
        rows.add(f"The size in pieces {place}", line, [*before, due[:1], due[1:3], due[3:5], due[5:]], nonces)
        rows.add(
            f"A size that is one short {place}",
            line,
            [*before, (len(due) - 1).to_bytes(4, "big") + due[4:], AMQP],
            nonces,
        )
        rows.add(
            f"A size that is one long {place}",
            line,
            [*before, (len(due) + 1).to_bytes(4, "big") + due[4:], AMQP],
            nonces,
        )


def types(rows):
    for place, line, nonces, before, due in at_each_turn():
        for offset, kind in [(2, 0), (2, 255), (1, 1), (3, 1)]:
            body = bytes([offset, kind]) + due[6:]
            rows.add(f"Data offset {offset} and type {kind} {place}", line, [*before, frame(body) + AMQP], nonces)
        rows.add(
            f"Two bytes of type SASL that are not read {place}",
            line,
            [*before, due[:6] + b"\xca\xfe" + due[8:]],
            nonces,
        )
        extended = frame(b"\x03\x01\0\0\0\0\0\0" + due[8:])
        rows.add(f"An extended header {place}", line, [*before, extended], nonces)


def out_of_turn(rows):
    login = Login(server_line(MAIN), client_line(MAIN))
    _, mechanisms, challenge, outcome = login.units["client"]
    _, init, response = login.units["server"]
    every = {
        "mechanisms": mechanisms,
        "init": init,
        "challenge": challenge,
        "response": response,
        "outcome": outcome,
        "refusal": spelled("Outcome", 1, None),
    }
    for place, line, nonces, before, due in at_each_turn():
        for name, unit in every.items():
            if unit != due:
                rows.add(f"The {name} {place}", line, [*before, unit + AMQP], nonces)
    for place, line, nonces, before, due in at_each_turn():
        rows.add(f"Twice in one call {place}", line, [*before, due + due], nonces)
    for side in ("server", "client"):
        units, line = login.units[side], login.line(side)
        for at in range(len(units) - 1):
            pieces = [*units[:at], units[at] + units[at + 1], *units[at + 2 :], AMQP]
            rows.add(f"Two units in one call: the {side}.", line, pieces, login.nonces[side])
    for code in range(5):
        for mechanism in (MAIN, "PLAIN", "ANONYMOUS"):
            unit = spelled("Mechanisms", [mechanism.encode()])
            told = spelled("Outcome", code, None) + spelled("Outcome", 0, None)
            rows.add(
                f"The outcome {CODES[code]} behind the init, and then Ok.", client_line(mechanism), [SASL, unit, told]
            )
        told = spelled("Outcome", code, b"v=") + outcome
        rows.add(
            f"The outcome {CODES[code]} behind the response, and then the server's.",
            login.client,
            [SASL, mechanisms, challenge, told],
            login.nonces["client"],
        )
    rows.add(
        "An outcome with the signature behind the init.",
        login.client,
        [SASL, mechanisms, outcome, challenge],
        login.nonces["client"],
    )
    for mechanism in ("PLAIN", "ANONYMOUS", "EXTERNAL"):
        unit = spelled("Mechanisms", [mechanism.encode()])
        rows.add(f"A challenge to {mechanism}.", client_line(mechanism), [SASL, unit, spelled("Challenge", b"") + AMQP])
    for mechanism in ("PLAIN", "ANONYMOUS"):
        rows.add(f"A response to {mechanism}.", server_line(mechanism), [SASL, spelled("Response", b"")])


def refused_logins(rows):
    line = server_line(MAIN)
    for name, client in [
        ("A wrong password", client_line(MAIN, password=b"crayon")),
        ("An unknown user", client_line(MAIN, user=b"nobody")),
        ("An empty name", client_line(MAIN, user=b"")),
        ("A hostname", client_line(MAIN, hostname=b"localhost")),
    ]:
        login = Login(line, client)
        for side in ("server", "client"):
            rows.add(f"{name}: the {side}.", login.line(side), [*login.units[side], AMQP], login.nonces[side])
    for mechanism in (b"PLAIN", b"SCRAM-SHA-1", b"SCRAM-SHA-256-PLUS", b"scram-sha-256", b""):
        unit = spelled("Init", mechanism, b"n,,n=user,r=fyko", None)
        rows.add("Another mechanism to a server of SCRAM.", line, [SASL, unit + AMQP])
    for names in ([], [b"PLAIN"], [b"SCRAM-SHA-1", b"SCRAM-SHA-512"], [b"SCRAM-SHA-256-PLUS", b""], [b"scram-sha-256"]):
        rows.add("A list without the mechanism.", client_line(MAIN), [SASL, spelled("Mechanisms", names) + AMQP])
    names = [b"PLAIN", MAIN.encode(), b"ANONYMOUS"]
    rows.add("A list of three.", client_line(MAIN), [SASL, spelled("Mechanisms", names)], [b"\1" * 32])
    for message in [
        None,
        b"",
        b"\0",
        b"\0user\0crayon",
        b"\0user\0pencil\0more",
        b"user\0user\0pencil",
        b"\0nobody\0pencil",
        b"\0user",
        b"\0user\0pencil ",
    ]:
        unit = spelled("Init", b"PLAIN", message, None)
        lenient = " lenient" if message in (b"user\0user\0pencil", b"\0user\0pencil\0more") else ""
        rows.add("A message of PLAIN.", server_line("PLAIN") + lenient, [SASL, unit + AMQP])
    rows.add(
        "Another mechanism to PLAIN, which reads its message.",
        server_line("PLAIN") + " lenient",
        [SASL, spelled("Init", b"EXTERNAL", b"\0user\0pencil", b"h")],
    )
    for mechanism, message in [(b"ANONYMOUS", None), (b"ANONYMOUS", b"me@example.org"), (b"PLAIN", b"\0user\0pencil")]:
        unit = spelled("Init", mechanism, message, None)
        lenient = " lenient" if mechanism == b"PLAIN" else ""
        rows.add("An init to ANONYMOUS.", server_line("ANONYMOUS") + lenient, [SASL, unit + AMQP])
    for user, password in [(b"", b""), ("é".encode(), b"")]:
        login = Login(server_line("PLAIN", user, password) + " lenient", client_line("PLAIN", user, password))
        for side in ("server", "client"):
            rows.add(f"An empty password: the {side}.", login.line(side), login.units[side])


NONCE = base64.b64encode(b"\1" * 32)
BOTH = NONCE + base64.b64encode(b"\2" * 32)


def client_firsts(rows):
    for message in [
        None,
        b"",
        b"n,,",
        b"n,,n=user",
        b"y,,n=user,r=x",
        b"p=tls-unique,,n=user,r=x",
        b"n,a=user,n=user,r=x",
        b"n,,m=x,n=user,r=x",
        b"n,,r=x,n=user",
        b"n,,n=us=er,r=x",
        b"n,,n=user,s=x",
        b"n,,n=\xff,r=x",
        b"n,,n=user,r=",
        b"n,,n=user,r=x,a=b",
        b"n,,n=use,r=x",
        b"n,,n=user=2C,r=x",
    ]:
        rows.add(
            "A client-first message.",
            server_line(MAIN),
            [SASL, spelled("Init", MAIN.encode(), message, None)],
            [b"\2" * 32],
        )


def client_finals(rows, login):
    proof = read(login.units["server"][2][4:])[1][0].split(b",p=")[1]
    for binding, nonce, more in [
        (b"c=biws", BOTH, b",p=" + proof[:-1]),
        (b"c=biws", BOTH, b",p=" + proof[:8]),
        (b"c=biws", BOTH, b",p="),
        (b"c=biws", BOTH, b",a=b"),
        (b"c=biws", NONCE, b",p=" + proof),
        (b"c=biws", b"", b",p=" + proof),
        (b"c=eSws", BOTH, b",p=" + proof),
        (b"c=!", BOTH, b",p=" + proof),
        (b"c=", BOTH, b",p=" + proof),
        (b"a=b", BOTH, b",p=" + proof),
        (b"c=biws", BOTH, b",a=b,p=" + proof),
        (b"c=biws", BOTH, b",p=" + proof + b",a=b"),
        (b"c=biws", BOTH, b",p=" + proof + b"\xff"),
        (b"c=biws", BOTH, b",p=" + proof),
    ]:
        message = binding + b",r=" + nonce + more
        rows.add(
            "A client-final message.",
            login.server,
            [*login.units["server"][:2], spelled("Response", message) + AMQP],
            login.nonces["server"],
        )
    for message in [b"", b"c=biws", b"c=biws,r=" + BOTH, b"r=" + BOTH + b",c=biws,p=" + proof, b"\xff"]:
        rows.add(
            "A client-final message.",
            login.server,
            [*login.units["server"][:2], spelled("Response", message) + AMQP],
            login.nonces["server"],
        )


def server_firsts(rows, login):
    salt = b",s=" + base64.b64encode(b"\3" * 32)
    first = b"r=" + BOTH + salt
    for message in [
        b"",
        b"\xff",
        b"r=" + BOTH,
        first,
        b"m=x," + first + b",i=1",
        b"n=" + first[2:] + b",i=1",
        b"r=x" + first[2:] + b",i=1",
        b"r=" + NONCE + salt + b",i=1",
        b"r=" + BOTH + b",i=1" + salt,
        b"r=" + BOTH + b",s=A,i=1",
        b"r=" + BOTH + b",s=,i=1",
        first + b",n=1",
        b"e=other-error",
        *(
            first + b",i=" + count
            for count in [
                b"",
                b"0",
                b"-1",
                b"+1",
                b"+",
                b"++1",
                b"1 ",
                b"0001",
                b"16",
                b"17",
                b"4294967295",
                b"4294967296",
                b"1,a=b",
            ]
        ),
    ]:
        rows.add(
            "A server-first message.",
            client_line(MAIN, limit=16),
            [*login.units["client"][:2], spelled("Challenge", message) + AMQP],
            login.nonces["client"],
        )


def server_finals(rows, login):
    shown = read(login.units["client"][3][4:])[1][1]
    for data in [
        None,
        b"",
        b"v=",
        shown[:-1],
        shown + b",a=b",
        b"v=A",
        b"v=" + base64.b64encode(b"\0" * 32),
        b"e=other-error",
        b"\xff",
        shown + b"\xff",
        shown,
    ]:
        rows.add(
            "A server-final message.",
            login.client,
            [*login.units["client"][:3], spelled("Outcome", 0, data) + AMQP],
            login.nonces["client"],
        )
    rows.add(
        "A password that is not printable.",
        client_line(MAIN, password=b"pen\x7fcil"),
        login.units["client"][:3],
        login.nonces["client"],
    )


def scram_messages(rows):
    login = Login(server_line(MAIN), client_line(MAIN))
    client_firsts(rows)
    for part in (client_finals, server_firsts, server_finals):
        part(rows, login)


def large_replies(rows):
    """The longest replies that fit in 512 bytes, and those of one byte more."""
    mechanisms = spelled("Mechanisms", [b"PLAIN"])
    for length in (472, 473):
        line = client_line("PLAIN", b"u" * length)
        rows.add(f"A user name of {length} bytes.", line, [SASL, mechanisms + AMQP])
    for mechanism in SCRAM:
        units = SASL, spelled("Mechanisms", [mechanism.encode()])
        for length in (422, 423) if mechanism == "SCRAM-SHA-1" else (420, 421):
            rows.add(f"A user name of {length} bytes.", client_line(mechanism, b"u" * length), units, [b"\1" * 32])
    for length in (390, 391):
        unit = spelled("Init", MAIN.encode(), b"n,,n=user,r=" + b"x" * length, None)
        rows.add(f"A client's nonce of {length} bytes.", server_line(MAIN), [SASL, unit + AMQP], [b"\2" * 32])
    for length in (387, 388):
        text = b"r=" + NONCE + b"x" * length + b",s=AwMD,i=1"
        login = Login(server_line(MAIN), client_line(MAIN))
        rows.add(
            f"A server's nonce of {length} bytes.",
            login.client,
            [*login.units["client"][:2], spelled("Challenge", text)],
            login.nonces["client"],
        )


def other_spellings(rows):
    """Each frame in spellings that are not the shortest, and damaged."""
    pick = frames.random.Random(5)
    for place, line, nonces, before, due in at_each_turn():
        kind, fields = read(due[4:])
        every = frames.spellings(kind, fields)
        for body in pick.sample(every, min(3, len(every))):
            rows.add(f"Another spelling {place}", line, [*before, frame(body)], nonces)
        for _ in range(6):
            body = frames.damaged(due[4:], pick)
            rows.add(f"Damaged bytes {place}", line, [*before, frame(body)], nonces)


def single_messages(rows):
    """ANONYMOUS and EXTERNAL with an initial response, to servers that take it and that ask for it."""
    asks, accepts = spelled("Challenge", b""), spelled("Outcome", 0, None)
    for mechanism in ("ANONYMOUS", "EXTERNAL"):
        listed = spelled("Mechanisms", [mechanism.encode()])
        for message in (b"", b"user", "é".encode()):
            line = client_line(f"{mechanism}-AS", message, b"", hostname=b"localhost" if message == b"user" else None)
            rows.add(f"A login by {mechanism} with its message.", line, [SASL, listed, accepts + AMQP])
            rows.add(f"A login by {mechanism}, whose message is asked for.", line, [SASL, listed, asks, accepts + AMQP])
            rows.add(f"A message of {mechanism} that is asked for twice.", line, [SASL, listed, asks, asks, accepts])
            rows.add(
                f"A challenge with a text to {mechanism}.", line, [SASL, listed, spelled("Challenge", b"\0") + AMQP]
            )
            rows.add(
                f"{mechanism} that is rejected once it is asked for.",
                line,
                [SASL, listed, asks, spelled("Outcome", 1, None)],
            )
            rows.add(f"A challenge to {mechanism} before the mechanisms.", line, [SASL, asks, listed])
            rows.add(f"Another list for {mechanism}.", line, [SASL, spelled("Mechanisms", [b"PLAIN"]) + AMQP])


# Challenges beyond those of the mechanisms (RFC 4422, section 5)


def server_with(words, mechanism, **given):
    return " ".join([server_line(mechanism, **given), *words])


def by_challenge_line(mechanism=MAIN, **given):
    return client_line(mechanism, **given) + " by-challenge"


def both_ways(rows, name, login, side):
    """The units of a side of a login, one by one and in one piece."""
    line, units, nonces = login.line(side), login.units[side], login.nonces[side]
    rows.add(f"{name}, unit by unit: the {side}.", line, [*units, AMQP], nonces)
    rows.add(f"{name}, all at once, with AMQP's header behind it: the {side}.", line, [b"".join(units) + AMQP], nonces)


def longer_logins(rows):
    """Whole logins with more challenges."""
    for mechanism in SCRAM:
        signed = Login(server_with(["signs"], mechanism), by_challenge_line(mechanism))
        for side in ("server", "client"):
            both_ways(rows, f"A login by {mechanism} with the signature by challenge", signed, side)
        asked = Login(server_with(["asks"], mechanism), client_line(mechanism), late=True)
        rows.add(
            f"A login by {mechanism}, whose initial response is asked for: the server.",
            asked.server,
            [*asked.units["server"], AMQP],
            asked.nonces["server"],
        )
        every = Login(
            server_with(["asks", "signs"], mechanism), by_challenge_line(mechanism, hostname=b"localhost"), late=True
        )
        both_ways(rows, f"A login by {mechanism} with both challenges", every, "server")
        plain = Login(server_line(mechanism), by_challenge_line(mechanism))
        rows.add(
            f"A login by {mechanism} with the signature in the outcome, to a client that takes a challenge too.",
            plain.client,
            [*plain.units["client"], AMQP],
            plain.nonces["client"],
        )
    every = Login(server_with(["asks", "signs"], MAIN), by_challenge_line(), late=True)
    stream, ends = b"".join(every.units["server"]) + AMQP, range(0, 1024, 7)
    rows.add(
        "A login with both challenges, in pieces of 7 bytes: the server.",
        every.server,
        [stream[it : it + 7] for it in ends if it < len(stream)],
        every.nonces["server"],
    )
    usual = Login(server_with(["asks", "signs"], MAIN), by_challenge_line())
    both_ways(rows, "A login by an init with an initial response, which is not asked for", usual, "server")


def asked_messages(rows):
    """Inits without an initial response, and what follows the empty challenge."""
    line = server_with(["asks"], "PLAIN")
    login = Login(line, client_line("PLAIN"), late=True)
    both_ways(rows, "A login by PLAIN, whose message is asked for", login, "server")
    usual = Login(server_with(["asks", "signs"], "PLAIN"), client_line("PLAIN"))
    rows.add(
        "A message of PLAIN that is not asked for, and no data in the outcome.",
        usual.server,
        [*usual.units["server"], AMQP],
        usual.nonces["server"],
    )
    unit = spelled("Init", b"PLAIN", None, None)
    for message in (b"", b"\0user\0crayon", b"\0nobody\0pencil"):
        rows.add("Another message of PLAIN that is asked for.", line, [SASL, unit, spelled("Response", message) + AMQP])
    rows.add(
        "An init of PLAIN in place of its message.",
        line,
        [SASL, unit, spelled("Init", b"PLAIN", b"\0user\0pencil", None)],
    )
    rows.add("An empty message of PLAIN, which is not asked for.", line, [SASL, spelled("Init", b"PLAIN", b"", None)])
    rows.add(
        "Another mechanism without a message, which is not asked for.",
        line,
        [SASL, spelled("Init", b"EXTERNAL", None, None)],
    )
    for mechanism in ("ANONYMOUS", "EXTERNAL"):
        line = server_with(["asks", "signs"], mechanism)
        both_ways(
            rows,
            f"{mechanism} without a message, which is not asked for",
            Login(line, client_line(mechanism)),
            "server",
        )
        for message in (b"nobody", b"", b"user")[: 3 if mechanism == "EXTERNAL" else 1]:
            rows.add(
                f"A message of {mechanism} to a server that asks.",
                line,
                [SASL, spelled("Init", mechanism.encode(), message, None)],
            )
    rows.add("A server of EXTERNAL.", server_line("EXTERNAL"), [SASL, spelled("Init", b"EXTERNAL", None, None)])


def asked_scram(rows):
    """SCRAM without an initial response, and what follows the empty challenge."""
    for words in (["asks"], ["asks", "signs"]):
        line = server_with(words, MAIN)
        unit = spelled("Init", MAIN.encode(), None, None)
        first = read(Login(line, client_line(MAIN)).units["server"][1][4:])[1][1]
        for name, message in (("An empty response", b""), ("An unknown user", b"n,,n=nobody,r=fyko")):
            pieces = [SASL, unit, spelled("Response", message)]
            rows.add(
                f"{name} where the client-first message is asked for.",
                line,
                pieces if words == ["asks"] else [b"".join(pieces) + AMQP],
                [b"\2" * 32],
            )
        rows.add(
            "A second init in place of the client-first message.",
            line,
            [SASL, unit, spelled("Init", MAIN.encode(), first, None)],
            [b"\2" * 32],
        )
    for password, words in ((b"crayon", ["signs"]), (b"crayon", ["asks", "signs"])):
        login = Login(server_with(words, MAIN), by_challenge_line(password=password), late="asks" in words)
        both_ways(rows, "A wrong password", login, "server")
    login = Login(server_with(["signs"], MAIN), by_challenge_line(password=b"crayon"))
    rows.add("A wrong password: the client.", login.client, [*login.units["client"], AMQP], login.nonces["client"])
    login = Login(server_with(["signs"], MAIN), by_challenge_line(user=b"nobody"))
    rows.add(
        "An unknown user, to a server that signs.", login.server, [*login.units["server"], AMQP], login.nonces["server"]
    )


def confirmations(rows):
    """What follows the challenge with the signature, to a server."""
    login = Login(server_with(["signs"], MAIN), by_challenge_line())
    *before, empty = login.units["server"]
    for name, unit in [
        ("A response of one byte", spelled("Response", b"\0")),
        ("The client-final message", before[-1]),
        ("The init", before[1]),
        ("An outcome", spelled("Outcome", 0, None)),
        ("The size 513", (513).to_bytes(4, "big")),
        ("Two empty responses", empty + empty),
    ]:
        rows.add(f"{name} in place of the empty response.", login.server, [*before, unit], login.nonces["server"])
    rows.add(
        "A response of one byte in place of the empty response, all at once.",
        login.server,
        [b"".join(before) + spelled("Response", b"\0") + AMQP],
        login.nonces["server"],
    )


def signatures(rows):
    """What follows the client-final message, to a client that takes the signature in a challenge too."""
    login = Login(server_with(["signs"], MAIN), by_challenge_line())
    nonces, [*before, signed, accepted] = login.nonces["client"], login.units["client"]
    shown = read(signed[4:])[1][0]
    for pieces in ([*before, signed, accepted], [b"".join([*before, signed, accepted])]):
        rows.add("The signature in a challenge, to a client that takes none there.", client_line(MAIN), pieces, nonces)
    for pieces in ([*before, signed, signed, accepted], [b"".join([*before, signed, signed, accepted])]):
        rows.add("The signature in a challenge, twice.", login.client, pieces, nonces)
    rows.add("An outcome without data in place of the challenge.", login.client, [*before[:2], accepted], nonces)
    for pieces in ([*before, accepted], [b"".join([*before, accepted])]):
        rows.add("An outcome without data in place of the signature.", login.client, pieces, nonces)
    for data in (
        b"",
        b"v=",
        shown[:-1],
        b"v=A",
        b"v=" + base64.b64encode(b"\0" * 32),
        b"e=other-error",
        b"\xff",
        read(before[2][4:])[1][0],
        shown + b",a=b",
    ):
        rows.add(
            "A server-final message in a challenge.",
            login.client,
            [*before, spelled("Challenge", data), accepted],
            nonces,
        )
    rows.add(
        "A server-final message in place of the server-first message.", login.client, [*before[:2], signed], nonces
    )
    for data in (shown, b"", b"\xff"):
        rows.add(
            "Data of an outcome behind the signature.",
            login.client,
            [*before, signed, spelled("Outcome", 0, data) + AMQP],
            nonces,
        )
    for code in (1, 4):
        rows.add(
            f"The outcome {CODES[code]} behind the signature.",
            login.client,
            [*before, signed, spelled("Outcome", code, None) + accepted],
            nonces,
        )
    rows.add("A rejection in place of the signature.", login.client, [*before, spelled("Outcome", 1, None)], nonces)
    for pieces in ([*before, before[1]], [*before, signed, before[1]]):
        rows.add("The list where the signature and its outcome are due.", login.client, pieces, nonces)


def more_challenges(rows):
    for part in (longer_logins, asked_messages, asked_scram, confirmations, signatures):
        part(rows)


HEADING = """\
# Connections over the SASL layer of AMQP 1.0, separated by empty lines. A connection begins with its side,
#     server SCRAM-SHA-256 USER PASSWORD SALT COUNT     a server of one user, and so of the other two of SCRAM
#     server PLAIN USER PASSWORD
#     server ANONYMOUS
#     server EXTERNAL USER                              a server of the user that the transport has authenticated
#     client MECHANISM USER PASSWORD LIMIT HOSTNAME     a client; `none` is no hostname; of ANONYMOUS-AS and EXTERNAL-AS,
#                                                       the user is the initial response
# that can end with words for challenges beyond those of the mechanism (RFC 4422, section 5),
#     server .. asks          an init without an initial response gets an empty challenge that asks for it, but not one
#                             of ANONYMOUS or EXTERNAL
#     server .. signs         the data of an outcome Ok are sent in a challenge first, and an empty response gets the Ok
#     server .. asks signs    both
#     server .. lenient       a server of PLAIN or ANONYMOUS that reads each init as one of it, and PLAIN with any identity
#                             and any password of the user
#     client .. by-challenge  a client of SCRAM that takes the server-final message in a challenge too
# and has a line for each call with bytes as they came, and with what is answered:
#     NONCE BYTES => TAKEN SENT STANDING
# how many of the bytes are taken, and the bytes that are sent. STANDING is InProgress; Authenticated, of a server with the
# user, where `none` is nobody; or why the connection is closed. Bytes that were left are handed in again in the next
# line where more is wanted. A call whose answer takes no nonce has one of which nothing is made. All but numbers is
# in hexadecimal digits, users and passwords too, where `-` is an empty word, and a nonce of two digits has that byte
# 32 times. A line that begins with `#` says what a connection is.
# Source: """

MODEL = "a model in Python, `tools/models/negotiations.py`, which wrote this file."


def other_nonces(rows):
    """Logins of a client with a limit on the iterations, with two nonces of each side."""
    for ours, theirs in [(1, 2), (1, 4), (5, 2), (5, 4)]:
        login = Login(server_line(MAIN), client_line(MAIN, limit=16), bytes([ours]) * 32, bytes([theirs]) * 32)
        for side in ("server", "client"):
            rows.add(
                f"A login with the nonces {ours} and {theirs}: the {side}.",
                login.line(side),
                [*login.units[side], AMQP],
                login.nonces[side],
            )


def connections():
    rows = Rows(HEADING + MODEL)
    for part in (
        whole_logins,
        headers,
        sizes,
        types,
        out_of_turn,
        refused_logins,
        scram_messages,
        large_replies,
        other_spellings,
        single_messages,
        more_challenges,
        other_nonces,
    ):
        part(rows)
    return rows


def outside():
    """The runs of other programs over bodies, each as a connection."""
    heading, *runs = PEERS.read_text().split("\n\n")
    source = heading[heading.index("# Source: ") :].removeprefix("# Source: ").partition("\nparagraphs ")[0]
    rows = Rows(
        f"{HEADING}{source}\n# Headers, sizes and the pieces were made, by `tools/models/negotiations.py`, which wrote "
        "this file from\n# crates/test_driver_frames/data/peer-runs.txt. Of the last ones, from peer-streams.txt, "
        "all bytes are real."
    )
    for at, run in enumerate(runs):
        side, *lines = [it for it in run.splitlines() if it and not it.startswith("#")]
        events = [it.replace(" => ", " ").split(" ") for it in lines]
        line = {"server": f"{side} 4096", "client": f"{side} {HIGHEST} none"}.get(side.split(" ")[0], side)
        units = [SASL, *(frame(unhexed(it[1])) for it in events)]
        stream = b"".join(units) + AMQP
        ways = [
            ("unit by unit", [*units, AMQP]),
            ("all at once", [stream]),
            ("in pieces of 50 bytes", [stream[it : it + 50] for it in range(0, len(stream), 50)]),
        ]
        name, pieces = ways[at // 2 % 3]
        # (those of the other sides are answered here, and by the program as runs alone)
        told = Rows("") if line == side else rows
        progress, sent = told.add(f"Run {at + 1}, {name}.", line, pieces, [bytes.fromhex(it[0]) for it in events])
        agree(events, progress, sent)
    streams(rows)
    return rows


def streams(rows):
    """The connections of other programs, in the pieces in which their bytes came."""
    for paragraph in STREAMS.read_text().rstrip("\n").split("\n\n")[1:]:
        name, line, *given = paragraph.splitlines()
        words = [it.split(" ") for it in given]
        nonces, pieces, recorded = (
            [unhexed(it[1]) for it in words if it[0] == kind] for kind in ("nonce", "came", "sent")
        )
        _, sent = rows.add(f"{name.removeprefix('# ')}.", line, pieces, nonces)
        if sent != b"".join(recorded).removeprefix(SASL if line.startswith("client") else b""):
            sys.exit(f"not as recorded: {name} {sent.hex()}")


def agree(events, progress, sent):
    """What the model sends is what was recorded, up to the first outcome."""
    replies = [it[2:] for it in events]
    client = replies[0][0] == "Init"
    said = [frame(unhexed(it[1])) for it in replies if not client or it[0] in ("Init", "Response")]
    if not sent.endswith(b"".join(said)) or len(sent) > len(b"".join(said)) + 60:
        sys.exit(f"not as recorded: {events} {sent.hex()}")
    last = replies[-1][0].removeprefix("Outcome:")
    if progress.split(" ")[0] != "Authenticated" if last == "Ok" else last not in progress and last != "Challenge":
        sys.exit(f"not as recorded: {events} {progress}")


LOGINS = """\
# Whole logins, passed to one call in pieces: the side in the form of connections.txt, the nonce and the pieces, what is
# sent, how many pieces are taken whole, how many bytes of the next, and the progress.
# Source: """


def negotiated(side, pieces, nonce):
    """What a side has sent, and how many pieces it has taken whole, and how many bytes of the next."""
    sent = b""
    for at, piece in enumerate(pieces):
        taken = 0
        while taken < len(piece) and side.progress == "InProgress":
            one, said = side.receive(piece[taken:], nonce)
            taken, sent = taken + one, sent + said
        if taken < len(piece):
            return sent, at, taken
    return sent, len(pieces), 0


def logins():
    """The rows of whole logins, cut into pieces of three lengths."""
    lines = [LOGINS + MODEL + "\n"]
    for mechanism in (MAIN, "PLAIN"):
        login = Login(server_line(mechanism), client_line(mechanism))
        calls = [("client_connection", "client"), ("server_connection", "server")]
        for call, name in [*calls, *[("scram_server_connection", "server")] * (mechanism == MAIN)]:
            line, [nonce] = login.line(name), login.nonces[name]
            stream = b"".join(login.units[name]) + AMQP
            for length in (MOST, 50, 7):
                side, pieces = side_of(line), [stream[it : it + length] for it in range(0, len(stream), length)]
                sent, whole, taken = negotiated(side, pieces, nonce)
                given = " ".join([nonce_word(nonce), *(it.hex() for it in pieces)])
                lines.append(
                    f"{call} {line.partition(' ')[2]} {given} => {hexed(sent)} {whole} {taken} {side.progress}"
                )
    return "\n".join(lines) + "\n"


def made():
    """The files."""
    files = {
        CONNECTIONS / name: rows.text()
        for name, rows in (("connections.txt", connections()), ("peer-connections.txt", outside()))
    }
    files[CONNECTIONS / "calls-logins.txt"] = logins()
    return files


def check():
    wrong = 0
    for path, wanted in made().items():
        if not path.is_file() or path.read_text() != wanted:
            print(f"{path.relative_to(ROOT)}: not as it would be written")
            wrong = 1
    return wrong


def write():
    for path, text in made().items():
        path.write_text(text)
    return 0


def main():
    match sys.argv[1:]:
        case ["write"]:
            return write()
        case ["check"]:
            return check()
        case _:
            print(__doc__, file=sys.stderr)
            return 2


if __name__ == "__main__":
    sys.exit(main())
