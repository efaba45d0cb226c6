"""The other side of a login, apart from the library: SCRAM and SASL's layer of AMQP 1.0 by `hashlib` and `hmac`."""

from __future__ import annotations

import base64
import hashlib
import hmac
import struct
from typing import Callable, Optional

SHA_1, SHA_256, SHA_512 = 1, 256, 512
VERSIONS = {SHA_1: "sha1", SHA_256: "sha256", SHA_512: "sha512"}
MECHANISMS = {SHA_1: "SCRAM-SHA-1", SHA_256: "SCRAM-SHA-256", SHA_512: "SCRAM-SHA-512"}


def base64_of(value: bytes) -> bytes:
    return base64.b64encode(value)


def mac(version: int, key: bytes, *texts: bytes) -> bytes:
    return hmac.new(key, b"".join(texts), VERSIONS[version]).digest()


def exclusive_or(one: bytes, other: bytes) -> bytes:
    return bytes(a ^ b for a, b in zip(one, other))


class Secret:
    """The keys of a password."""

    def __init__(self, version: int, password: str, salt: bytes, iterations: int) -> None:
        salted = hashlib.pbkdf2_hmac(VERSIONS[version], password.encode(), salt, iterations)
        self.version, self.salt, self.iterations = version, salt, iterations
        self.client_key = mac(version, salted, b"Client Key")
        self.server_key = mac(version, salted, b"Server Key")
        self.stored_key = hashlib.new(VERSIONS[version], self.client_key).digest()

    def record_text(self) -> str:
        salt, stored, server = (base64_of(x).decode() for x in (self.salt, self.stored_key, self.server_key))
        return f"{MECHANISMS[self.version]}${self.iterations}:{salt}${stored}:{server}"

    def server_first(self, client_nonce: bytes, server_nonce: bytes) -> bytes:
        return b"r=%s%s,s=%s,i=%d" % (
            base64_of(client_nonce),
            base64_of(server_nonce),
            base64_of(self.salt),
            self.iterations,
        )

    def finals(
        self, bare: bytes, server_first: bytes, header: bytes = b"n,,", extension: bytes = b""
    ) -> tuple[bytes, bytes]:
        """The client-final and the server-final message. To bind a channel, its data follow the header."""
        without_proof = b"c=" + base64_of(header) + b"," + server_first.split(b",")[0] + extension
        exchange = b",".join((bare, server_first, without_proof))
        proof = exclusive_or(self.client_key, mac(self.version, self.stored_key, exchange))
        client_final = without_proof + b",p=" + base64_of(proof)
        return client_final, b"v=" + base64_of(mac(self.version, self.server_key, exchange))


# The SASL frames of AMQP 1.0 again (part 1, section 1.6; part 2, section 2.3.1; part 5, section 5.3.3).

SASL_HEADER = b"AMQP\3\1\0\0"
MECHANISMS_CODE, INIT, CHALLENGE, RESPONSE, OUTCOME = range(0x40, 0x45)
NULL = b"\x40"


def framed(body: bytes) -> bytes:
    return struct.pack(">IBBH", len(body) + 8, 2, 1, 0) + body


def frame_of(code: int, *fields: bytes) -> bytes:
    """A frame of a described list with these fields."""
    data = b"".join(fields)
    if len(data) < 255:
        head = bytes([0xC0, len(data) + 1, len(fields)])
    else:
        head = struct.pack(">BII", 0xD0, len(data) + 4, len(fields))
    return framed(b"\0\x53" + bytes([code]) + head + data)


def short(constructor: int, data: bytes) -> bytes:
    """A value of variable width, whose size has one byte."""
    return bytes([constructor, len(data)]) + data


def binary(data: bytes) -> bytes:
    """A value of type binary."""
    return short(0xA0, data) if len(data) < 256 else struct.pack(">BI", 0xB0, len(data)) + data


def mechanisms_frame(*names: str) -> bytes:
    data = b"".join(bytes([len(name)]) + name.encode() for name in names)
    return frame_of(MECHANISMS_CODE, bytes([0xE0, len(data) + 2, len(names), 0xA3]) + data)


def fields_of(frame: bytes) -> tuple[int, list[Optional[bytes]]]:
    """The code of a frame, and its fields: the bytes of those of variable width, and None for null."""
    size, offset, kind = struct.unpack(">IBB", frame[:6])
    assert (size, offset, kind, frame[8:10]) == (len(frame), 2, 1, b"\0\x53")
    at, fields = (14, []) if frame[11] == 0xC0 else (20, [])
    assert frame[11] in (0xC0, 0xD0)
    while at < len(frame):
        constructor = frame[at]
        if constructor == 0x40:
            fields.append(None)
            at += 1
            continue
        # (0xa_ has a size of one byte, 0xb_ one of four)
        width = 1 if constructor < 0xB0 else 4
        size = int.from_bytes(frame[at + 1 : at + 1 + width], "big")
        fields.append(frame[at + 1 + width : at + 1 + width + size])
        at += 1 + width + size
    return frame[10], fields


class Broker:
    """The server's side of a connection, apart from the library: bytes in, bytes out. A client that binds a channel
    binds these data."""

    def __init__(
        self,
        secret: Secret,
        *names: str,
        code: int = 0,
        mar: Optional[Callable[[bytes], bytes]] = None,
        channel_data: bytes = b"",
    ):
        self.secret, self.names, self.code = secret, names, code
        self.mar, self.channel_data = mar or (lambda message: message), channel_data
        self.held, self.init, self.exchange = b"", [], (b"", b"")

    def receive(self, data: bytes) -> bytes:
        self.held += data
        answer = b""
        while (unit := self.unit()) is not None:
            answer += self.header(unit) if unit[:4] == b"AMQP" else self.frame(*fields_of(unit))
        return answer

    def unit(self) -> Optional[bytes]:
        size = 8 if self.held[:4] == b"AMQP" else int.from_bytes(self.held[:4], "big")
        if len(self.held) < max(size, 4):
            return None
        unit, self.held = self.held[:size], self.held[size:]
        return unit

    def header(self, unit: bytes) -> bytes:
        assert unit == SASL_HEADER
        return SASL_HEADER + mechanisms_frame(*self.names)

    def frame(self, code: int, fields: list[Optional[bytes]]) -> bytes:
        if code == INIT:
            self.init = fields
            if not (fields[0] or b"").startswith(b"SCRAM"):
                return frame_of(OUTCOME, bytes([0x50, self.code]))
            flag, _, bare = (fields[1] or b"").split(b",", 2)
            self.header = flag + b",,"
            nonce = bare.split(b",r=")[1]
            first = b"r=%s%s,s=%s,i=%d" % (nonce, b"server", base64_of(self.secret.salt), self.secret.iterations)
            self.exchange = bare, first
            return frame_of(CHALLENGE, short(0xA0, first))
        client_final, server_final = self.secret.finals(*self.exchange, self.header + self.channel_data)
        if self.code or fields[0] != client_final:
            return frame_of(OUTCOME, bytes([0x50, self.code or 1]))
        return frame_of(OUTCOME, b"\x50\0", short(0xA0, self.mar(server_final)))


def fields_of_last(answer: bytes) -> Optional[int]:
    """The code of the last frame of an answer."""
    code = None
    while len(answer) >= 8:
        size = 8 if answer[:4] == b"AMQP" else int.from_bytes(answer[:4], "big")
        code, answer = None if answer[:4] == b"AMQP" else answer[10], answer[size:]
    return code


def bare_of(name: str, client_nonce: bytes) -> bytes:
    return b"n=" + name.replace("=", "=3D").replace(",", "=2C").encode() + b",r=" + base64_of(client_nonce)


class Side:
    """The client's side of a connection, apart from the library: bytes in, bytes out."""

    mechanism = ""

    def begin(self, ask: bool = False, late: bool = False) -> None:
        """Starts afresh; `ask` asks for the mechanism also where the server does not offer it. `late` withholds the
        initial response until an empty challenge asks for it."""
        self.held, self.ask, self.logged_in, self.code = b"", ask, False, None
        self.late, self.withheld = late, None

    def open(self) -> bytes:
        return SASL_HEADER

    def receive(self, data: bytes) -> bytes:
        self.held += data
        answer = b""
        while (unit := self.unit()) is not None:
            if unit[:4] != b"AMQP":
                answer += self.frame(unit[10], unit)
        return answer

    def unit(self) -> Optional[bytes]:
        size = 8 if self.held[:4] == b"AMQP" else int.from_bytes(self.held[:4], "big")
        if len(self.held) < max(size, 4):
            return None
        unit, self.held = self.held[:size], self.held[size:]
        return unit

    def frame(self, code: int, unit: bytes) -> bytes:
        if code == MECHANISMS_CODE:
            if self.mechanism.encode() not in unit and not self.ask:
                return b""
            first, name = self.first(), short(0xA3, self.mechanism.encode())
            if not self.late:
                return frame_of(INIT, name, first, NULL)
            self.withheld = first
            return frame_of(INIT, name, NULL, short(0xA1, b"host"))
        if code == CHALLENGE and self.withheld is not None:
            assert fields_of(unit)[1] == [b""]
            response, self.withheld = self.withheld, None
            return frame_of(RESPONSE, response)
        if code == CHALLENGE:
            return frame_of(RESPONSE, binary(self.answer(fields_of(unit)[1][0] or b"")))
        # (the code is a byte behind its constructor)
        self.code = unit[15] if unit[11] == 0xC0 else unit[21]
        self.logged_in = self.code == 0 and self.believes(unit)
        return b""

    def first(self) -> bytes:
        return NULL

    def answer(self, challenge: bytes) -> bytes:
        raise AssertionError("a challenge for a mechanism without one")

    def believes(self, unit: bytes) -> bool:
        return True


class Other(Side):
    """ANONYMOUS or EXTERNAL, with an initial response or without."""

    def __init__(self, mechanism: str, response: Optional[bytes] = None) -> None:
        self.mechanism, self.response = mechanism, response

    def first(self) -> bytes:
        return NULL if self.response is None else short(0xA0, self.response)


class Plain(Side):
    """PLAIN (RFC 4616)."""

    mechanism = "PLAIN"

    def __init__(self, name: str, password: str) -> None:
        self.message = b"\0" + name.encode() + b"\0" + password.encode()

    def first(self) -> bytes:
        # (in a list whose size has one byte)
        return short(0xA0, self.message) if len(self.message) < 200 else NULL


class Login(Side):
    """SCRAM (RFC 5802), with `-PLUS` if the header is `p=` and a kind of channel."""

    def __init__(
        self, version: int, name: str, password: str, header: bytes = b"n,,", channel_data: bytes = b""
    ) -> None:
        self.version, self.name, self.password, self.mechanism = version, name, password, MECHANISMS[version]
        self.mechanism += "-PLUS" if header.startswith(b"p=") else ""
        self.header, self.channel_data = header, channel_data

    def first(self) -> bytes:
        self.bare, self.signed = bare_of(self.name, bytes(32)), False
        message = self.header + self.bare
        return short(0xA0, message) if len(message) < 200 else NULL

    def answer(self, challenge: bytes) -> bytes:
        if challenge[:2] == b"v=":
            self.signed = challenge == self.server_final
            return b""
        _, salt, count, *_ = challenge.split(b",")
        secret = Secret(self.version, self.password, base64.b64decode(salt[2:]), int(count[2:]))
        client_final, self.server_final = secret.finals(self.bare, challenge, self.header + self.channel_data)
        return client_final

    def believes(self, unit: bytes) -> bool:
        return self.signed or unit.endswith(short(0xA0, self.server_final))
