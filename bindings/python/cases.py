"""What the tests of the module share: constants, whole logins, and `Case`."""

from __future__ import annotations

import struct
import unittest
from typing import Any, Callable
from unittest import mock

from fe2o3_sasl import _native
from fe2o3_sasl import (
    SHA_1,
    SHA_256,
    SHA_512,
    Channel,
    ChannelKind,
    Client,
    ClientConnection,
    Offer,
    Record,
    Refused,
    Server,
    ServerConnection,
)
from peers import OUTCOME, SASL_HEADER, Broker, fields_of_last

LIBRARY: Any = _native._library
SALT = bytes(range(16))
NAMES = ["user", "", "a=b,c", "=2C", "J\u00fcrgen \U0001f600", "x" * 240]
# The names of RFC 5802, section 7, in its order.
SERVER_ERRORS = [
    "invalid-encoding",
    "extensions-not-supported",
    "invalid-proof",
    "channel-bindings-dont-match",
    "server-does-support-channel-binding",
    "channel-binding-not-supported",
    "unsupported-channel-binding-type",
    "unknown-user",
    "invalid-username-encoding",
    "no-resources",
    "other-error",
]
PASSWORDS = ["pencil", "", " ~!,=", "p" * 200]


def connected(side: ClientConnection, broker: Broker, piece: int, behind: bytes = b"") -> bytes:
    """Joins both sides, each handed what the other sends in pieces. Answers what the client left of the bytes, to
    which these were put behind the outcome."""
    to_broker, rest = side.open(), b""
    while to_broker:
        answer = b"".join(broker.receive(to_broker[at : at + piece]) for at in range(0, len(to_broker), piece))
        answer += behind if fields_of_last(answer) == OUTCOME else b""
        to_broker = b""
        for at in range(0, len(answer), piece):
            sent, left = side.receive(answer[at : at + piece])
            to_broker, rest = to_broker + sent, rest + left
    return rest


OFFERS = {SHA_1: Offer.SCRAM_SHA_1, SHA_256: Offer.SCRAM_SHA_256, SHA_512: Offer.SCRAM_SHA_512}
ALL_OTHERS = Offer.PLAIN | Offer.ANONYMOUS | Offer.EXTERNAL


def of(known: dict[str, Record]) -> Callable[[str], list[Record]]:
    """The records of a name, of which there is at most one."""
    return lambda name: [known[name]] if name in known else []


def nobody(name: str) -> list[Record]:
    return []


def nonces(*values: bytes) -> Any:
    return mock.patch("secrets.token_bytes", side_effect=list(values))


def login(client: Client, server: Server, record: Record) -> None:
    server_first = server.first(record, client.first())
    client.verify(server.final(client.final(server_first)))


def served(side: ServerConnection, by: Any, piece: int) -> None:
    """Joins a server and a client that is made here, each handed what the other sends in pieces."""
    to_server = by.open()
    while to_server:
        answer = b""
        for at in range(0, len(to_server), piece):
            sent, _ = side.receive(to_server[at : at + piece])
            answer += sent
        to_server = b"".join(by.receive(answer[at : at + piece]) for at in range(0, len(answer), piece))


def sized(body: bytes) -> bytes:
    """A body behind the size of its frame."""
    return struct.pack(">I", len(body) + 4) + body


class ClientBodies(ClientConnection):
    """A client that is passed the bodies of frames: each with its size, and the header before the first one."""

    __slots__ = ()

    def on_frame(self, body: bytes) -> bytes:
        header = SASL_HEADER if self._struct.connection.expected == 0 else b""
        return self.receive(header + sized(body))[0][4:]


class ServerBodies(ServerConnection):
    """A server that is passed the bodies of frames, like `ClientBodies`."""

    __slots__ = ()

    def offer(self) -> bytes:
        return self.receive(SASL_HEADER)[0][12:]

    def on_frame(self, body: bytes) -> bytes:
        if self._struct.connection.expected == 0:
            self.offer()
        return self.receive(sized(body))[0][4:]


def bodies_served(side: ServerBodies, by: Any, *, ask: bool = False, late: bool = False) -> None:
    """Joins a server and a client that is made here, body by body."""
    by.begin(ask, late)
    answer = sized(side.offer())
    while sent := by.frame(answer[10], answer):
        answer = sized(side.on_frame(sent[4:]))


class Case(unittest.TestCase):
    def refused(self, status: int, call: Callable[..., object], *arguments: object) -> None:
        with self.assertRaises(Refused) as caught:
            call(*arguments)
        self.assertEqual(caught.exception.status, status)
        self.assertTrue(caught.exception.text)


#: What follows a nonce or a count, and whether it is an attribute of RFC 5802, section 5.1.
EXTENSIONS = {b"": False, b",x=1": False, b",I=1": False, b",a=admin": True, b",c=biws": True, b",x=1,i=4096,y=2": True}
#: The data of each kind in the messages below.
DATA = {
    ChannelKind.TLS_UNIQUE: bytes([4] * 12),
    ChannelKind.TLS_SERVER_END_POINT: bytes([5] * 64),
    ChannelKind.TLS_EXPORTER: bytes([255] * 32),
}
KIND_NAMES = {
    ChannelKind.TLS_UNIQUE: b"tls-unique",
    ChannelKind.TLS_SERVER_END_POINT: b"tls-server-end-point",
    ChannelKind.TLS_EXPORTER: b"tls-exporter",
}


def channel_of(kind: ChannelKind) -> Channel:
    return Channel(kind, DATA[kind])
