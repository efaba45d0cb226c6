"""GNU SASL: the program `gsasl`, or its library in `gnu_worker.py`, whose standard input and output are a socket."""

from __future__ import annotations

import base64
import re
import shutil
import socket
import subprocess
import sys
from pathlib import Path
from typing import Iterator, Optional

import identities
import messages
import tls
from cells import Cell, Peer, none
from messages import ENDED, NO_ONE, by_client
from sides import COMMA, HARD, PAST, PATIENCE, SALT, SOFT, USER, Client, Ending, Side, User, marred

MECHANISMS = ("SCRAM-SHA-1", "SCRAM-SHA-256")
FORGED = "not logged in: Client: Server signature mismatch"
WORKER = Path(__file__).resolve().parent / "gnu_worker.py"


def gsasl(channel: socket.socket, words: list[str]) -> bool:
    """Whether the program ends well over a connection."""
    words = ["gsasl", *words, "--quiet", "--no-cb"]
    done = subprocess.run(
        words, stdin=channel, stdout=channel, stderr=subprocess.DEVNULL, timeout=PATIENCE, check=False
    )
    return done.returncode == 0


def server(client: Client, password: str, count: int = 4096, mar=None):
    """A server of gsasl, which takes any name and has one password."""
    salt = base64.b64encode(SALT).decode()
    words = ["--server", "-m", client.mechanism, f"--password={password}", f"--iteration-count={count}"]

    def login(side: Side) -> Ending:
        return side.log_in(client, lambda channel: gsasl(channel, [*words, f"--salt={salt}"]), mar)

    return login


def client(
    mechanism: str, user: User, known: User, record_of=None, mar=None, identity: str = "", more: tuple[str, ...] = ()
):
    """A client of gsasl, to a server of ours that knows one user, and has more words."""
    words = ["--client", "-m", mechanism, f"--authentication-id={user.name}", f"--password={user.password}"]
    words += [f"--authorization-id={identity}"] if identity else []

    def login(side: Side) -> Ending:
        record = record_of(mechanism, known) if record_of else side.record(mechanism, known)
        return side.serve(mechanism, {known.name: record}, lambda channel: gsasl(channel, words), mar, more)

    return login


def worker(channel: socket.socket, *words: str) -> bool:
    """Returns whether a login by the library ends well over a connection."""
    done = subprocess.run(
        [sys.executable, "-B", str(WORKER), *words],
        stdin=channel,
        stdout=channel,
        stderr=subprocess.DEVNULL,
        timeout=PATIENCE,
        check=False,
    )
    return done.returncode == 0


def run_client(channel: socket.socket, *words: str) -> bool:
    """A client of the library by PLAIN, ANONYMOUS or EXTERNAL."""
    return worker(channel, "client", *words)


def log_in_by_message(client: Client, known: User):
    """A login of our client by PLAIN to a server of gsasl, or by ANONYMOUS or EXTERNAL to one of its library."""
    if client.mechanism == "PLAIN":
        return server(client, known.password)
    return lambda side: side.log_in(client, lambda channel: worker(channel, "server", client.mechanism, known.name))


def log_in_for(client: Client, allowed: str):
    """A login of our client to a server of the library, which accepts one authorization identity."""
    words = ("scram", "server", client.mechanism, USER.password, allowed, "")
    if client.mechanism == "PLAIN":
        words = ("server", "PLAIN", USER.name, USER.password, allowed)
    return lambda side: side.log_in(client, lambda channel: worker(channel, *words))


def made_by_gsasl(mechanism: str, user: User) -> str:
    """The text of a record that gsasl makes."""
    salt = base64.b64encode(SALT).decode()
    words = [f"--password={user.password}", f"--iteration-count={user.count}", f"--salt={salt}"]
    done = subprocess.run(
        ["gsasl", "--mkpasswd", "-m", mechanism, *words], capture_output=True, text=True, timeout=PATIENCE, check=True
    )
    count, salt, stored, of_server = re.fullmatch(r"\{.*\}(.*),(.*),(.*),(.*)", done.stdout.strip()).groups()
    return f"{mechanism}${count}:{salt}${stored}:{of_server}"


class GnuSasl(Peer):
    name = "GNU SASL"
    package = "gsasl"

    def start(self, folder: Path) -> None:
        self.authority = tls.Authority(folder / "authority")

    def bound_server(self, client: Client, password: str, relayed: bool = False):
        """A server of its library, and a client of ours, with the channel of one connection under TLS, or each with that of
        another, since somebody between them relays all messages."""

        def login(side: Side) -> Ending:
            tunnel, other = tls.Tunnel(self.authority), tls.Tunnel(self.authority)
            words = (
                "scram",
                "server",
                client.mechanism,
                password,
                client.acts_for,
                (other if relayed else tunnel).other(),
            )
            of = client._replace(channel=tunnel.channel())
            return side.log_in(of, lambda ours: tunnel.between(ours, lambda end: worker(end, *words)))

        return login

    def bound_client(self, mechanism: str, user: User, known: User, relayed: bool = False, identity: str = ""):
        """A client of its library, and a server of ours, with the channel of one connection, or each with that of
        another. The user may act for the identity."""

        def login(side: Side) -> Ending:
            tunnel, other = tls.Tunnel(self.authority), tls.Tunnel(self.authority)
            theirs = (other if relayed else tunnel).other()
            words = ("scram", "client", mechanism, user.name, user.password, identity, theirs)
            record = side.record(mechanism.removesuffix("-PLUS"), known)
            rights = identities.may_act(identity) if identity else ()
            return side.serve(
                mechanism,
                {known.name: record},
                lambda ours: tunnel.between(ours, lambda end: worker(end, *words)),
                more=(*rights, tunnel.channel()),
            )

        return login

    def bound(self, mechanism: str) -> Iterator[Cell]:
        """Logins that bind the channel of a connection under TLS 1.2."""
        plus, done = mechanism + "-PLUS", Ending("logged in: Done", True)
        # (PostgreSQL's are with SHA-256)
        kept = USER if mechanism == "SCRAM-SHA-1" else None

        def cell(ours: str, what: str, login, ends: Ending, kept: Optional[User] = None) -> Cell:
            return Cell(ours, plus, what, login, ends, kept=kept)

        yield cell("client", "a login, `tls-unique`", self.bound_server(Client(plus), USER.password), done, kept)
        yield cell("client", "a wrong password", self.bound_server(Client(plus), "pencils"), ENDED)
        yield cell(
            "client",
            "all messages relayed between two connections under TLS",
            self.bound_server(Client(plus), USER.password, relayed=True),
            ENDED,
        )
        yield cell(
            "client", identities.ALLOWED, self.bound_server(Client(plus, acts_for=identities.BOB), USER.password), done
        )
        yield cell(
            "server",
            "a login, `tls-unique`",
            self.bound_client(plus, USER, USER),
            Ending("logged in: user", True),
            kept,
        )
        yield cell(
            "server",
            "a wrong password",
            self.bound_client(plus, User("user", "pencils"), USER),
            Ending("not logged in: Server: Authentication failed", False),
        )
        yield cell(
            "server",
            "all messages relayed between two connections under TLS",
            self.bound_client(plus, USER, USER, relayed=True),
            Ending("not logged in: Server: Invalid channel binding", False),
        )
        yield cell(
            "server",
            identities.ALLOWED,
            self.bound_client(plus, USER, USER, identity=identities.BOB),
            identities.acting(identities.BOB),
        )

    def missing(self) -> bool:
        return shutil.which("gsasl") is None

    def version(self) -> str:
        told = subprocess.run(["gsasl", "--version"], capture_output=True, text=True, check=True).stdout
        return told.split("\n")[0].split()[-1]

    def cells(self) -> Iterator[Cell]:
        for mechanism in MECHANISMS:
            yield from self.our_clients(mechanism)
            yield from self.our_servers(mechanism)
            yield from self.bound(mechanism)
        for ours in ("client", "server"):
            yield none(ours, "SCRAM-SHA-512", "a login", "it has only SHA-1 and SHA-256")
        yield from messages.our_clients(log_in_by_message, PAST)
        yield none("client", "PLAIN", "unknown user", "its server takes any name")
        for what, user, known in (
            ("password with a soft hyphen, prepared", SOFT._replace(prepared=True), HARD),
            ("password with a soft hyphen, which it prepares", HARD, SOFT),
            ("password with a soft hyphen, as typed", SOFT, HARD),
        ):
            yield by_client(log_in_by_message, "PLAIN", what, user, known)
        # (RFC 4505, section 2, allows an empty message)
        yield by_client(log_in_by_message, "ANONYMOUS", "no trace information, which it rejects", NO_ONE, ends=ENDED)
        yield from messages.our_servers(run_client)
        yield from identities.our_clients(log_in_for, "PLAIN")
        yield from identities.our_servers(messages.by_identity(run_client), "PLAIN")
        yield messages.anonymous(run_client, "no trace information", "")

    def our_clients(self, mechanism: str) -> Iterator[Cell]:
        kept = COMMA if mechanism == "SCRAM-SHA-256" else None
        done, of = Ending("logged in: Done", True), Client(mechanism)

        def cell(what: str, login, ends: Ending, kept: Optional[User] = None, kept_as: str = "") -> Cell:
            return Cell("client", mechanism, what, login, ends, kept=kept, kept_as=kept_as)

        def prepared(user: User) -> Client:
            return of._replace(user=user._replace(prepared=True))

        yield cell("a login", server(of, "pencil"), done)
        yield cell("a name with `,` and `=`", server(of._replace(user=COMMA), COMMA.password), done, kept)
        yield cell("wrong password", server(of, "pencils"), ENDED)
        yield none("client", mechanism, "unknown user", "its server takes any name")
        yield cell("count 1", server(of._replace(least=1), "pencil", 1), done)
        yield cell("count 100,000", server(of, "pencil", 100_000), done)
        small, large = ("not logged in: Client: Iteration count too " + size for size in ("small", "large"))
        yield cell("count below the minimum", server(of, "pencil", 4095), Ending(small, False))
        yield cell("count above the limit", server(of._replace(most=99_999), "pencil", 100_000), Ending(large, False))
        yield cell(
            "cached keys",
            server(of._replace(again=True), "pencil"),
            Ending("logged in: Done; logged in by keys: Done", True),
        )
        yield cell("its signature, altered on the way", server(of, "pencil", mar=marred), Ending(FORGED, False))
        refused = "not logged in: Client: Error normalizing password"
        yield cell(
            "non-ASCII password, as typed", server(of._replace(user=PAST), PAST.password), Ending(refused, False)
        )
        yield cell("non-ASCII password, prepared", server(prepared(PAST), PAST.password), done, PAST, "prepared")
        yield cell(
            "password with a soft hyphen, prepared", server(prepared(SOFT), HARD.password), done, HARD, "prepared"
        )
        yield cell(
            "password with a soft hyphen, which it prepares", server(of._replace(user=HARD), SOFT.password), done
        )
        yield from identities.our_clients(log_in_for, mechanism)

    def our_servers(self, mechanism: str) -> Iterator[Cell]:
        kept = COMMA if mechanism == "SCRAM-SHA-256" else None
        refused = Ending("not logged in: Server: Authentication failed", False)
        done = Ending("logged in: user", True)

        def cell(what: str, login, ends: Ending, kept: Optional[User] = None, kept_as: str = "") -> Cell:
            return Cell("server", mechanism, what, login, ends, kept=kept, kept_as=kept_as)

        yield cell("a login", client(mechanism, USER, USER), done)
        yield cell("a name with `,` and `=`", client(mechanism, COMMA, COMMA), Ending("logged in: a,b=c", True), kept)
        yield cell("wrong password", client(mechanism, User("user", "pencils"), USER), refused)
        yield cell("unknown user", client(mechanism, User("nobody", "pencil"), USER), refused)
        for count in (1, 100_000):
            known = USER._replace(count=count)
            yield cell(f"count {count:,}", client(mechanism, USER, known), done)
        yield cell(
            "our signature, altered on the way",
            client(mechanism, USER, USER, mar=marred),
            Ending("logged in: user", False),
        )
        yield cell("non-ASCII password, of its own record", client(mechanism, PAST, PAST, made_by_gsasl), done)
        yield cell(
            "non-ASCII password, prepared", client(mechanism, PAST, PAST._replace(prepared=True)), done, PAST, "records"
        )
        yield cell("password with a soft hyphen, prepared", client(mechanism, HARD, SOFT._replace(prepared=True)), done)
        yield cell("password with a soft hyphen, which it prepares", client(mechanism, SOFT, HARD), done, HARD)

        def of_identity(user: User, identity: str, more: tuple[str, ...]):
            return client(mechanism, user, USER, identity=identity, more=more)

        yield from identities.our_servers(of_identity, mechanism)
