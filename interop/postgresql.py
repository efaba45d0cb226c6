"""PostgreSQL: a server of its own, and `psql`, which is a client of libpq. SCRAM's messages stand in messages of its
protocol (its documentation, "Message Formats"), which are read and written here; the texts are our programs'."""

from __future__ import annotations

import base64
import contextlib
import hashlib
import os
import shutil
import socket
import ssl
import struct
import subprocess
import time
from pathlib import Path
from typing import Iterator, Optional

from attacker import ONLY_RELAYS, Attacker
from cells import Cell, Peer, certificate, none
from sides import (
    COMMA,
    HARD,
    PAST,
    PATIENCE,
    SOFT,
    USER,
    Client,
    Ending,
    Side,
    User,
    dialled,
    ended_after,
    free_port,
    listening,
    marred,
    prepared,
    unprivileged,
)

MECHANISM = "SCRAM-SHA-256"
SSL_REQUEST, GSS_REQUEST, PROTOCOL = 80877103, 80877104, 196608
SASL, SASL_CONTINUE, SASL_FINAL, OK = 10, 11, 12, 0
FORGED = "not logged in: Client: Server signature mismatch"
#: The header of a client that could bind its channel, to a server that seems not to; and of one that could not.
BINDS_NOT, CANNOT_BIND = b"y,,", b"n,,"
#: The mechanism, the kind and the header of a client that binds its channel. No other kind is known to PostgreSQL.
PLUS, KIND = MECHANISM + "-PLUS", "tls-server-end-point"
BINDS = f"p={KIND},,".encode()


class Ended(Exception):
    """The other side ended the exchange, or refused it."""


class Lines:
    """Our program's end of a connection, a message a line."""

    def __init__(self, channel: socket.socket) -> None:
        self.channel, self.file = channel, channel.makefile("rb")

    def say(self, message: bytes) -> None:
        self.channel.sendall(base64.b64encode(message) + b"\n")

    def hear(self) -> bytes:
        line = self.file.readline()
        if not line:
            raise Ended
        return base64.b64decode(line)


class Messages:
    """PostgreSQL's end, a message at a time."""

    def __init__(self, channel: socket.socket) -> None:
        self.channel, self.file = channel, channel.makefile("rb")

    def take(self, count: int) -> bytes:
        data = self.file.read(count)
        if len(data) < count:
            raise Ended
        return data

    def say(self, kind: bytes, data: bytes) -> None:
        self.channel.sendall(kind + struct.pack(">I", len(data) + 4) + data)

    def hear(self) -> tuple[bytes, bytes]:
        kind = self.take(1)
        return kind, self.take(struct.unpack(">I", self.take(4))[0] - 4)

    def startup(self) -> int:
        """The code of a first message, which has no kind."""
        length, code = struct.unpack(">II", self.take(8))
        self.take(length - 8)
        return code

    def challenge(self, code: int) -> bytes:
        """The data of an authentication message of this code."""
        kind, data = self.hear()
        if kind != b"R" or struct.unpack(">I", data[:4])[0] != code:
            raise Ended
        return data[4:]

    def response(self) -> bytes:
        kind, data = self.hear()
        if kind != b"p":
            raise Ended
        return data

    def session_user(self) -> Optional[str]:
        """Whom the server takes the client for."""
        self.say(b"Q", b"select session_user\0")
        name = None
        while (message := self.hear())[0] != b"Z" or name is None:
            if message[0] == b"D":
                name = message[1][6:].decode()
        self.say(b"X", b"")
        return name


def to_server(
    port: int, ours: socket.socket, name: str, mechanism: str, by_tls: bool, attacker: Attacker = ONLY_RELAYS
) -> bool:
    """Hands the messages of our client to PostgreSQL and back, changed by the attacker. Whether PostgreSQL takes it for
    the user."""
    lines = Lines(ours)
    with dialled(port) as plain, in_tls(plain) if by_tls else plain as channel:
        server = Messages(channel)
        words = b"user\0" + name.encode() + b"\0database\0postgres\0\0"
        channel.sendall(struct.pack(">II", len(words) + 8, PROTOCOL) + words)
        try:
            offered = server.challenge(SASL).split(b"\0")
            assert MECHANISM.encode() in offered and (PLUS.encode() in offered) == by_tls
            ours.sendall(mechanism.encode() + b"\n\n")
            first = attacker.client_first(lines.hear())
            selected = attacker.mechanism(mechanism.encode())
            server.say(b"p", selected + b"\0" + struct.pack(">I", len(first)) + first)
            lines.say(attacker.server_first(server.challenge(SASL_CONTINUE)))
            server.say(b"p", attacker.client_final(lines.hear()))
            lines.say(server.challenge(SASL_FINAL))
            server.challenge(OK)
            lines.hear()
            lines.say(b"")
            return server.session_user() == name
        except Ended:
            return False


def in_tls(channel: socket.socket) -> socket.socket:
    """The connection under TLS, as PostgreSQL begins it."""
    channel.sendall(struct.pack(">II", 8, SSL_REQUEST))
    assert channel.recv(1) == b"S"
    context = ssl.create_default_context()
    context.check_hostname, context.verify_mode = False, ssl.CERT_NONE
    return context.wrap_socket(channel)


def begun(channel: socket.socket, context: Optional[ssl.SSLContext]) -> Messages:
    """The connection of a client up to its startup message, under TLS where there is a context."""
    while True:
        client = Messages(channel)
        code = client.startup()
        if code == PROTOCOL:
            return client
        channel.sendall(b"S" if code == SSL_REQUEST and context else b"N")
        if code == SSL_REQUEST and context:
            channel = context.wrap_socket(channel, server_side=True)


def to_client(
    client: Messages, ours: socket.socket, header: bytes, offered: tuple[str, ...], attacker: Attacker
) -> None:
    """Hands the messages of a client of libpq to our server and back, changed by the attacker, and answers a query by
    nothing. The client's first one has to begin with this header."""
    lines = Lines(ours)
    client.say(b"R", struct.pack(">I", SASL) + b"".join(name.encode() + b"\0" for name in offered) + b"\0")
    mechanism, first = client.response().split(b"\0", 1)
    first = first[4:]
    assert first.startswith(header)
    ours.sendall(attacker.mechanism(mechanism) + b"\n")
    try:
        lines.say(attacker.client_first(first))
        client.say(b"R", struct.pack(">I", SASL_CONTINUE) + attacker.server_first(lines.hear()))
        lines.say(attacker.client_final(client.response()))
        client.say(b"R", struct.pack(">I", SASL_FINAL) + lines.hear())
    except Ended:
        client.say(b"E", b"SFATAL\0C28P01\0Mnot logged in\0\0")
        return
    client.say(b"R", struct.pack(">I", OK))
    client.say(b"Z", b"I")
    lines.say(b"")
    while client.hear()[0] == b"Q":
        client.say(b"I", b"")
        client.say(b"Z", b"I")


def psql(port: int, name: str, password: str, more: str = "") -> subprocess.Popen:
    """The client of libpq, which logs in and asks for nothing."""
    words = name.replace("\\", "\\\\").replace("'", "\\'")
    wanted = f"host=127.0.0.1 port={port} user='{words}' dbname=postgres connect_timeout={PATIENCE} {more}"
    environment = {"PATH": os.environ["PATH"], "PGPASSWORD": password, "HOME": "/nonexistent", "LC_ALL": "C.UTF-8"}
    return subprocess.Popen(
        ["psql", "-X", "-At", "-c", "", "-d", wanted],
        env=environment,
        stdin=subprocess.DEVNULL,
        stdout=subprocess.DEVNULL,
        stderr=subprocess.DEVNULL,
    )


def from_psql(
    ours: socket.socket,
    user: User,
    context: Optional[ssl.SSLContext],
    header: bytes,
    offered: tuple[str, ...],
    attacker: Attacker = ONLY_RELAYS,
) -> bool:
    """A login of `psql` at our server, with messages that the attacker changes. Whether `psql` is content."""
    mode = f"sslmode={'require' if context else 'disable'}"
    mode += f" channel_binding={ {BINDS: 'require', BINDS_NOT: 'prefer'}.get(header, 'disable') }"
    with listening() as listener:
        with ended_after(psql(listener.getsockname()[1], user.name, user.password, mode)) as client:
            channel, _ = listener.accept()
            with channel, contextlib.suppress(Ended, ConnectionError):
                to_client(begun(channel, context), ours, header, offered, attacker)
            return client.wait(PATIENCE) == 0


class PostgreSql(Peer):
    name = "PostgreSQL"
    package = "postgresql"

    def __init__(self) -> None:
        found = sorted(Path("/usr/lib/postgresql").glob("*/bin/initdb"), key=lambda path: float(path.parts[-3]))
        self.programs = found[-1].parent if found else None
        self.server: Optional[subprocess.Popen] = None

    def missing(self) -> bool:
        return self.programs is None or shutil.which("psql") is None

    def version(self) -> str:
        told = subprocess.run([self.programs / "postgres", "--version"], capture_output=True, text=True, check=True)
        return told.stdout.split()[2]

    def start(self, folder: Path) -> None:
        """A server, which refuses to run as root."""
        self.folder, (shown, key), data = folder, certificate(folder), folder / "data"
        self.who = unprivileged(folder, key)
        words = ["-D", data, "-U", "admin", "-E", "UTF8", "--locale=C", "--no-sync"]
        rules = ["--auth-local=trust", "--auth-host=scram-sha-256"]
        subprocess.run([self.programs / "initdb", *words, *rules], check=True, **self.quiet())
        self.port = free_port()
        settings = {
            "listen_addresses": "127.0.0.1",
            "port": self.port,
            "unix_socket_directories": folder,
            "fsync": "off",
            "password_encryption": "scram-sha-256",
            "ssl": "on",
            "ssl_cert_file": shown,
            "ssl_key_file": key,
        }
        self.options = ["-D", data, *(word for name, value in settings.items() for word in ("-c", f"{name}={value}"))]
        self.run()

    def quiet(self) -> dict[str, object]:
        return {"stdout": subprocess.DEVNULL, "stderr": subprocess.DEVNULL, "cwd": self.folder, **self.who}

    def run(self) -> None:
        """Runs the server that `start` has made."""
        self.server = subprocess.Popen([self.programs / "postgres", *self.options], **self.quiet())
        for _ in range(100):
            if self.sql("select 1", check=False) == "1":
                return
            time.sleep(0.1)
        raise TimeoutError("PostgreSQL does not start")

    def stop(self) -> None:
        if self.server is not None:
            with ended_after(self.server):
                pass

    def sql(self, words: str, check: bool = True) -> str:
        """What the administrator is answered."""
        where = ["-h", str(self.folder), "-p", str(self.port), "-U", "admin", "-d", "postgres"]
        done = subprocess.run(
            ["psql", "-X", "-At", *where], input=words, capture_output=True, text=True, timeout=PATIENCE, check=check
        )
        return done.stdout.strip()

    def role(self, name: str, password: str) -> None:
        """Creates a user again, with a password or the text of a record."""
        quoted, secret = name.replace('"', '""'), password.replace("'", "''")
        self.sql(f'drop role if exists "{quoted}"; create role "{quoted}" login password \'{secret}\';')

    def log_in(self, client: Client, password: Optional[str] = None, by_tls: bool = False, count: int = 4096, mar=None):
        """A login of our client to the server, where the user has this password, or none is made."""

        def login(side: Side) -> Ending:
            if password is not None:
                known = User(client.user.name, password, count)
                self.role(known.name, password if count == 4096 else side.record(MECHANISM, known))
            words = (client.user.name, client.mechanism, by_tls)
            return side.log_in(client, lambda channel: to_server(self.port, channel, *words), mar)

        return login

    def serve(
        self,
        user: User,
        known: User,
        tls: bytes = b"",
        of_server: bool = False,
        mar=None,
        unbound: bool = False,
        bound: str = "",
        offered: tuple[str, ...] = (MECHANISM,),
    ):
        """A login of `psql` to our server, which knows one user: under no name, since libpq sends none in SCRAM.
        Under TLS, where there is a header that it is to send there. Our server may bind a channel."""
        context = ssl.SSLContext(ssl.PROTOCOL_TLS_SERVER)
        context.load_cert_chain(*certificate(self.folder))

        def login(side: Side) -> Ending:
            record = self.made(known) if of_server else side.record(MECHANISM, known)
            words = (user, context if tls else None, tls or CANNOT_BIND, offered)
            more = ("unbound",) if unbound else (bound,) if bound else ()
            mechanism = PLUS if bound else MECHANISM
            return side.serve(mechanism, {"": record}, lambda channel: from_psql(channel, *words), mar, more)

        return login

    def channel(self, other: bytes = b"") -> str:
        """What binds the channel of a connection under TLS: the hash of the certificate (RFC 5929, section 4.1), or that of
        another one."""
        shown = ssl.PEM_cert_to_DER_cert(certificate(self.folder)[0].read_text())
        return f"{KIND}:{hashlib.sha256(shown + other).hexdigest()}"

    def made(self, user: User) -> str:
        """The record that the server makes of a password."""
        self.role(user.name, user.password)
        return self.sql(f"select rolpassword from pg_authid where rolname = '{user.name}'")

    def read(self, user: User, typed: User):
        """A record that the server made for a user, and a password that is typed."""
        return lambda side: Ending(side.said(["verify", self.made(user), *prepared(typed)], typed.password), None)

    def written(self, known: User, typed: User):
        """A record of ours, which the server is given, and a login of `psql`."""

        def login(side: Side) -> Ending:
            record = side.record(MECHANISM, known)
            self.role(known.name, record)
            with ended_after(psql(self.port, typed.name, typed.password)) as client:
                return Ending(record.partition(":")[0], client.wait(PATIENCE) == 0)

        return login

    def cells(self) -> Iterator[Cell]:
        yield from self.our_clients()
        yield from self.prepared_at_server()
        yield from self.bound_clients()
        yield from self.our_servers()
        yield from self.bound_servers()
        yield from self.prepared_at_ours()
        yield from self.records()
        for ours in ("client", "server"):
            yield none(ours, "SCRAM-SHA-1, SCRAM-SHA-512", "a login", "it has only SCRAM-SHA-256")
            yield none(ours, "PLAIN, ANONYMOUS, EXTERNAL", "a login", "it has none of them by SASL")

    def our_clients(self) -> Iterator[Cell]:
        done, refused = Ending("logged in: Done", True), Ending("not logged in: the other side ended", False)
        of = Client(MECHANISM)

        def cell(what: str, login, ends: Ending, kept: Optional[User] = None) -> Cell:
            return Cell("client", MECHANISM, what, login, ends, kept=kept)

        yield cell("a login", self.log_in(of, "pencil"), done)
        yield cell("a login under TLS, where -PLUS is offered too", self.log_in(of, "pencil", by_tls=True), done)
        yield cell("a name with `,` and `=`", self.log_in(of._replace(user=COMMA), COMMA.password), done, COMMA)
        yield cell("wrong password", self.log_in(of, "pencils"), refused)
        yield cell("unknown user", self.log_in(of._replace(user=User("nobody", "pencil"))), refused)
        yield cell("count 1", self.log_in(of._replace(least=1), "pencil", count=1), done)
        yield cell("count 100,000", self.log_in(of, "pencil", count=100_000), done)
        small, large = (f"not logged in: Client: Iteration count too {size}" for size in ("small", "large"))
        yield cell("count below the minimum", self.log_in(of, "pencil", count=4095), Ending(small, False))
        yield cell(
            "count above the limit",
            self.log_in(of._replace(most=99_999), "pencil", count=100_000),
            Ending(large, False),
        )
        yield cell(
            "cached keys",
            self.log_in(of._replace(again=True), "pencil"),
            Ending("logged in: Done; logged in by keys: Done", True),
        )
        yield cell("its signature, altered on the way", self.log_in(of, "pencil", mar=marred), Ending(FORGED, False))
        yield cell(
            "non-ASCII password, as typed",
            self.log_in(of._replace(user=PAST), PAST.password),
            Ending("not logged in: Client: Error normalizing password", False),
        )

    def prepared_at_server(self) -> Iterator[Cell]:
        """Logins of our client by passwords that are prepared, here or there."""

        def cell(what: str, user: User, password: str, kept: Optional[User]) -> Cell:
            login = self.log_in(Client(MECHANISM, user), password)
            return Cell(
                "client",
                MECHANISM,
                what,
                login,
                Ending("logged in: Done", True),
                kept=kept,
                kept_as="prepared" if user.prepared else "",
            )

        yield cell("non-ASCII password, prepared", PAST._replace(prepared=True), PAST.password, PAST)
        yield cell("password with a soft hyphen, prepared", SOFT._replace(prepared=True), HARD.password, HARD)
        yield cell("password with a soft hyphen, which it prepares", HARD, SOFT.password, None)

    def bound_clients(self) -> Iterator[Cell]:
        """Logins of our client that bind the channel of TLS."""
        bound, other = (Client(PLUS, channel=self.channel(more)) for more in (b"", b"other"))
        done, refused = Ending("logged in: Done", True), Ending("not logged in: the other side ended", False)

        def cell(what: str, client: Client, ends: Ending, kept: Optional[User] = None) -> Cell:
            return Cell("client", PLUS, what, self.log_in(client, USER.password, by_tls=True), ends, kept=kept)

        yield cell("a login, `tls-server-end-point`", bound, done, USER)
        yield cell(
            "a login by cached keys",
            bound._replace(again=True),
            Ending("logged in: Done; logged in by keys: Done", True),
        )
        yield cell("the data of another channel", other, refused)
        yield cell("a wrong password", bound._replace(user=User("user", "pencils")), refused)

    def bound_servers(self) -> Iterator[Cell]:
        """Logins of `psql` at our server that bind the channel of TLS."""
        both, done = (PLUS, MECHANISM), Ending("logged in:", True)
        header = Ending("not logged in: Server: Cannot parse GS2-header", False)

        def cell(what: str, login, ends: Ending, kept: Optional[User] = None) -> Cell:
            return Cell("server", PLUS, what, login, ends, kept=kept)

        yield cell(
            "a login, `tls-server-end-point`",
            self.serve(USER, USER, tls=BINDS, bound=self.channel(), offered=both),
            done,
            User("", USER.password),
        )
        yield cell(
            "the data of another channel",
            self.serve(USER, USER, tls=BINDS, bound=self.channel(b"other"), offered=both),
            Ending("not logged in: Server: Invalid channel binding", False),
        )
        yield cell(
            "a wrong password",
            self.serve(User("user", "pencils"), USER, tls=BINDS, bound=self.channel(), offered=both),
            Ending("not logged in: Server: Authentication failed", False),
        )
        yield cell(
            "another kind of channel",
            self.serve(USER, USER, tls=BINDS, bound="tls-exporter:" + "00" * 32, offered=both),
            header,
        )
        yield cell(
            "`-PLUS` removed from the offer, and `psql` has to bind",
            self.serve(USER, USER, tls=BINDS),
            Ending("not logged in: the other side ended", False),
        )
        yield cell("`-PLUS` removed from the offer, and `psql` may bind", self.serve(USER, USER, tls=BINDS_NOT), header)

    def our_servers(self) -> Iterator[Cell]:
        done, refused = Ending("logged in:", True), Ending("not logged in: Server: Authentication failed", False)

        def cell(what: str, login, ends: Ending, kept: Optional[User] = None, kept_as: str = "") -> Cell:
            return Cell("server", MECHANISM, what, login, ends, kept=kept, kept_as=kept_as)

        yield cell("a login", self.serve(USER, USER), done)
        yield none("server", MECHANISM, "a name with `,` and `=`", "libpq sends no name in SCRAM")
        yield cell("wrong password", self.serve(User("user", "pencils"), USER), refused)
        yield none("server", MECHANISM, "unknown user", "libpq sends no name in SCRAM")
        for count in (1, 100_000):
            yield cell(f"count {count:,}", self.serve(USER, USER._replace(count=count)), done)
        yield cell("our signature, altered on the way", self.serve(USER, USER, mar=marred), Ending("logged in:", False))
        yield cell("under TLS, where it sends `n,,`", self.serve(USER, USER, tls=CANNOT_BIND), done)
        yield cell(
            "under TLS, where it sends `y,,`",
            self.serve(USER, USER, tls=BINDS_NOT, unbound=True),
            done,
            User("", USER.password),
            "cbind_flag_y",
        )
        yield cell(
            "under TLS, where it sends `y,,`, which is not taken",
            self.serve(USER, USER, tls=BINDS_NOT),
            Ending("not logged in: Server: Cannot parse GS2-header", False),
            User("", USER.password),
        )
        yield cell("`n,,`, where `y,,` is taken", self.serve(USER, USER, unbound=True), done)

    def prepared_at_ours(self) -> Iterator[Cell]:
        """Logins at our server by passwords that are prepared, here or there."""

        def cell(what: str, login, kept: Optional[User] = None, kept_as: str = "") -> Cell:
            return Cell("server", MECHANISM, what, login, Ending("logged in:", True), kept=kept, kept_as=kept_as)

        yield cell("non-ASCII password, of its own record", self.serve(PAST, PAST, of_server=True))
        yield cell(
            "non-ASCII password, prepared",
            self.serve(PAST, PAST._replace(prepared=True)),
            User("", PAST.password),
            "records",
        )
        yield cell("password with a soft hyphen, prepared", self.serve(HARD, SOFT._replace(prepared=True)))
        yield cell("password with a soft hyphen, which it prepares", self.serve(SOFT, HARD), User("", HARD.password))

    def records(self) -> Iterator[Cell]:
        """The texts of records, both ways."""
        verified, written = Ending("verified: Done", None), Ending(f"{MECHANISM}$4096", True)
        other = Ending("not verified: The password is not that of the record", None)

        def cell(what: str, login, ends: Ending) -> Cell:
            return Cell("server", MECHANISM, what, login, ends)

        yield cell("`rolpassword` read, the password", self.read(USER, USER), verified)
        yield cell("`rolpassword` read, another password", self.read(USER, User("user", "pencils")), other)
        yield cell("`rolpassword` read, non-ASCII, prepared", self.read(PAST, PAST._replace(prepared=True)), verified)
        yield cell("`rolpassword` read, non-ASCII, as typed", self.read(PAST, PAST), other)
        yield cell(
            "`rolpassword` read, a soft hyphen, prepared", self.read(SOFT, SOFT._replace(prepared=True)), verified
        )
        yield cell("`rolpassword` written, and a login of `psql`", self.written(USER, USER), written)
        yield cell(
            "`rolpassword` written, non-ASCII, prepared, and a login of `psql`",
            self.written(PAST._replace(prepared=True), PAST),
            written,
        )
        yield cell(
            "`rolpassword` written, a soft hyphen, prepared, and a login of `psql`",
            self.written(SOFT._replace(prepared=True), SOFT),
            written,
        )
