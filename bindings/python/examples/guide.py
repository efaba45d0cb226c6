"""What docs/GUIDE-python.md shows: all of this module, in its order."""

from __future__ import annotations

import json
import os
import socket
import sqlite3
import ssl
from pathlib import Path

from fe2o3_sasl import SHA_256, SHA_512, Channel, Client, ClientConnection, Keys
from fe2o3_sasl import Offer, Progress, Record, ServerConnection


def carry(side: ClientConnection | ServerConnection, sock: socket.socket) -> bytes:
    """Receives and sends until the login ends. Returns the bytes that belong to AMQP. Raises if the login failed."""
    rest = b""
    while side.progress == Progress.IN_PROGRESS:
        if not (data := sock.recv(4096)):
            side.end_of_input()
            break
        answer, rest = side.receive(data)
        sock.sendall(answer)
    if side.why is not None:
        raise side.why
    return rest


def new_client(user: str, password: str) -> Client:
    return Client(SHA_256, user, password, min_iterations=4096, max_iterations=100_000, strict=True)


def log_in(sock: socket.socket, host: str, client: Client) -> tuple[ClientConnection, bytes]:
    """Raises unless both sides are authenticated."""
    side = ClientConnection(client, hostname=host)
    sock.sendall(side.open())
    return side, carry(side, sock)


class Users:
    """A table of users, with a record for each hash that the server offers."""

    def __init__(self, path: str) -> None:
        self.table = sqlite3.connect(path)
        self.table.execute("CREATE TABLE IF NOT EXISTS users (name TEXT, record TEXT)")

    def set_password(self, name: str, password: str) -> None:
        rows = [(name, Record.make(version, password).text()) for version in (SHA_256, SHA_512)]
        with self.table:
            self.table.execute("DELETE FROM users WHERE name = ?", (name,))
            self.table.executemany("INSERT INTO users VALUES (?, ?)", rows)

    def records(self, name: str) -> list[Record]:
        """Returns the records of a user; none for an unknown name."""
        rows = self.table.execute("SELECT record FROM users WHERE name = ? ORDER BY rowid", (name,))
        return [Record.parse(text) for (text,) in rows]


OFFER = Offer.SCRAM_SHA_512 | Offer.SCRAM_SHA_256


def new_server(users: Users, secret: bytes, is_tls: bool) -> ServerConnection:
    """The server's side of one connection."""
    offer = OFFER | Offer.PLAIN if is_tls else OFFER
    return ServerConnection(users.records, mechanisms=offer, mock=secret)


def serve(sock: socket.socket, side: ServerConnection) -> tuple[str | None, bytes]:
    """Returns the user, and the bytes that belong to AMQP."""
    rest = carry(side, sock)
    return side.authenticated_user(), rest


def make_secret(path: Path) -> None:
    """Makes the secret of mock records, once. Only the owner can read the file."""
    with open(path, "xb", opener=lambda name, flags: os.open(name, flags, 0o600)) as file:
        file.write(os.urandom(32))


def new_bound_client(user: str, password: str, sock: ssl.SSLSocket) -> Client:
    """A client of SCRAM-SHA-256-PLUS. The login fails if the server does not offer that."""
    channel = Channel.tls_server_end_point(sock.getpeercert(binary_form=True) or b"")
    return Client(SHA_256, user, password, max_iterations=100_000, channel=channel)


def new_bound_server(users: Users, secret: bytes, certificate: bytes) -> ServerConnection:
    """The certificate is the server's own, in DER."""
    channels = [Channel.tls_server_end_point(certificate)]
    return ServerConnection(users.records, mechanisms=OFFER, mock=secret, channels=channels)


def new_acting_client(user: str, password: str, identity: str) -> Client:
    return Client(SHA_256, user, password, max_iterations=100_000, acts_for=identity)


def new_acting_server(users: Users, secret: bytes, rights: dict[str, list[str]]) -> ServerConnection:
    """`rights` says for whom each user may act besides itself."""

    def identities_of(user: str) -> list[str]:
        return rights.get(user, [])

    return ServerConnection(users.records, mechanisms=OFFER, mock=secret, identities_of=identities_of)


def owner(side: ServerConnection) -> str | None:
    """Returns the identity to which the connection belongs after the login."""
    return side.acts_for() or side.authenticated_user()


def log_line(side: ServerConnection) -> str:
    """Says what the last init claimed, and why it was rejected. Names are quoted: they may hold line feeds."""
    if (attempt := side.last_attempt()) is None:
        return "no init"
    why = side.rejection.name if side.rejection else side.why
    return f"{attempt.mechanism!r} user={attempt.claimed_user!r} host={attempt.hostname!r}: {why}"


def new_client_with_keys(user: str, keys: Keys) -> Client:
    """A client without a password. `keys` are those that `keys()` of an earlier side returned."""
    return Client(keys.version, user, keys=keys, max_iterations=100_000, strict=True)


def save(keys: Keys) -> str:
    """Returns a text that is as secret as a password."""
    values = (keys.salt, keys.client_key, keys.server_key)
    return json.dumps([keys.version, keys.iterations, *(value.hex() for value in values)])


def restore(text: str) -> Keys:
    version, iterations, *values = json.loads(text)
    return Keys(version, iterations, *map(bytes.fromhex, values))
