"""Serves logins of users who are in a table of PostgreSQL, which several servers share.

    shared_users.py prepare DATABASE        makes the tables, and the secret of mock records
    shared_users.py set NAME DATABASE       adds a user, or changes its password, the first line of standard input
    shared_users.py serve PORT DATABASE     serves logins by SCRAM over TCP

DATABASE is a connection string of libpq, such as `host=db.example dbname=broker`. It needs Python's module psycopg. A user
is looked up at each message that needs its record, so all servers know a change at once. Unknown users get mock records by
the one secret, the same at each server. If the table cannot be read, the outcome is sys-temp: the client can try again
later. No password is called wrong then.

Prints the port, and a line for each login. `broker.py` also has TLS, limits, and a lock of names. A server with many
logins keeps its connections to the database (psycopg_pool).
"""

from __future__ import annotations

import secrets
import socket
import sys
import threading
from typing import Any, Callable

import psycopg
from fe2o3_sasl import SHA_256, SHA_512, Offer, Progress, Record, RecordError, Refused, ServerConnection
from login import hang_up

SECONDS = 10
#: The frame of the outcome sys-temp (AMQP 1.0, part 5, section 5.3.3.6).
TEMPORARY = bytes.fromhex("0000001002010000005344c003015004")

#: Each user has a record for each hash that is offered. Of the other table there is one row.
TABLES = """
    CREATE TABLE IF NOT EXISTS users (name text PRIMARY KEY, sha_256 text NOT NULL, sha_512 text NOT NULL);
    CREATE TABLE IF NOT EXISTS mock_secret (one boolean PRIMARY KEY DEFAULT true CHECK (one), secret bytea NOT NULL)
"""
SET = """
    INSERT INTO users VALUES (%s, %s, %s)
    ON CONFLICT (name) DO UPDATE SET (sha_256, sha_512) = (EXCLUDED.sha_256, EXCLUDED.sha_512)
"""


class TableUnreadable(Exception):
    """Nobody knows whether there is such a user, or whether a password is right."""


def connect(database: str) -> psycopg.Connection[Any]:
    return psycopg.connect(database, connect_timeout=SECONDS, options=f"-c statement_timeout={SECONDS}s")


def prepare(database: str) -> None:
    """Makes what is not there yet. A new secret would show who is unknown, so the first one stays."""
    with connect(database) as connection:
        connection.execute(TABLES)
        connection.execute(
            "INSERT INTO mock_secret (secret) VALUES (%s) ON CONFLICT DO NOTHING", (secrets.token_bytes(32),)
        )


def set_user(name: str, database: str) -> None:
    password = sys.stdin.readline().rstrip("\n")
    records = [Record.make(version, password).text() for version in (SHA_256, SHA_512)]
    with connect(database) as connection:
        connection.execute(SET, (name, *records))


class Users:
    """The users in the table."""

    def __init__(self, database: str) -> None:
        self.database = database
        with connect(database) as connection:
            row = connection.execute("SELECT secret FROM mock_secret").fetchone()
        self.secret = bytes(row[0]) if row else b""

    def records(self, name: str) -> list[Record]:
        """Returns the records of a user, those of SHA-256 first; none for an unknown name."""
        if "\0" in name:  # (which no text of PostgreSQL has)
            return []
        try:
            with connect(self.database) as connection:
                row = connection.execute("SELECT sha_256, sha_512 FROM users WHERE name = %s", (name,)).fetchone()
            return [Record.parse(text) for text in row or ()]
        except (psycopg.Error, RecordError) as why:
            raise TableUnreadable(" ".join(str(why).split())) from why

    def serve(self, sock: socket.socket) -> str:
        """Serves one login. Returns how it ended."""
        offered = Offer.SCRAM_SHA_512 | Offer.SCRAM_SHA_256
        with ServerConnection(self.records, mechanisms=offered, mock=self.secret) as side:
            try:
                carry(sock, side)
            except TableUnreadable as why:
                sock.sendall(TEMPORARY)
                return f"no login: the table cannot be read: {why}"
            except OSError as why:
                return f"no login: {why}"
            if side.why is None:
                return f"logged in: {side.authenticated_user()!r}"
            reason = "" if side.rejection is None else f", {side.rejection.name}"
            return f"not logged in: {side.why.text}{reason}, {side.last_attempt()!r}"


def carry(sock: socket.socket, side: ServerConnection) -> None:
    """Receives and sends until the login ends. The header comes first, by itself: if a user cannot be looked up, `receive`
    raises, and returns no answer to what came before."""
    header = 8
    while side.progress == Progress.IN_PROGRESS:
        data = sock.recv(header or 4096)
        header = max(header - len(data), 0)
        if not data:
            return side.end_of_input()
        answer, _ = side.receive(data)
        sock.sendall(answer)


def report(users: Users, sock: socket.socket) -> None:
    sock.settimeout(SECONDS)
    try:
        print(users.serve(sock), flush=True)
    finally:
        hang_up(sock)


def serve(port: str, database: str) -> None:
    users = Users(database)
    with socket.create_server(("127.0.0.1", int(port))) as listener:
        print(listener.getsockname()[1], flush=True)
        while True:
            sock, _ = listener.accept()
            threading.Thread(target=report, args=(users, sock), daemon=True).start()


COMMANDS: dict[str, Callable[..., None]] = {"prepare": prepare, "set": set_user, "serve": serve}

if __name__ == "__main__":
    try:
        COMMANDS[sys.argv[1]](*sys.argv[2:])
    except (psycopg.Error, Refused, ValueError) as why:
        sys.exit(f"shared_users.py: {why}")
