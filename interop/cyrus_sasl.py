"""Cyrus SASL with its own plugins: the program of `cyrus.c`, whose standard input and output are a socket."""

from __future__ import annotations

import os
import socket
import subprocess
from pathlib import Path
from typing import Iterator, Optional

import identities
import messages
import tls
from cells import Cell, Peer, none
from messages import DONE, ENDED, NO_ONE, by_client
from sides import COMMA, PAST, PATIENCE, SCRAM, SOFT, USER, Client, Ending, Side, User, marred

PLUGINS = [Path("/usr/lib/x86_64-linux-gnu/sasl2"), Path("/usr/lib/aarch64-linux-gnu/sasl2"), Path("/usr/lib/sasl2")]
#: The highest count that its client answers.
MOST = 65_536
#: Users with non-ASCII passwords, each with its own name.
PAST_USER, SOFT_USER = PAST._replace(name="past"), SOFT._replace(name="soft")


def make_user(file: Path, user: User, records: bool = False, realm: str = "localhost") -> None:
    """Puts a user into a file of users: the password, or in its place the record of SHA-1."""
    settings = file.parent / "settings"
    settings.mkdir(exist_ok=True)
    (settings / "saslpasswd.conf").write_text(f"scram_secret_generate: {'yes' if records else 'no'}\n")
    words = ["saslpasswd2", "-p", "-c", *(["-n"] if records else []), "-f", file, "-u", realm, user.name]
    subprocess.run(
        words,
        input=user.password.encode(),
        env={**os.environ, "SASL_CONF_PATH": str(settings)},
        check=True,
        capture_output=True,
        timeout=PATIENCE,
    )


class CyrusSasl(Peer):
    name = "Cyrus SASL"
    package = "libsasl2-dev, libsasl2-modules, sasl2-bin"

    def __init__(self, built: Path) -> None:
        self.program = built / "cyrus"
        self.plugins = next((folder for folder in PLUGINS if (folder / "libscram.so").exists()), None)

    def missing(self) -> bool:
        return not self.program.exists() or self.plugins is None

    def version(self) -> str:
        return subprocess.run([self.program, "version"], capture_output=True, text=True, check=True).stdout.strip()

    def start(self, folder: Path) -> None:
        self.passwords, self.records = folder / "passwords", folder / "records"
        self.authority = tls.Authority(folder / "authority")
        for user in (USER, COMMA, PAST_USER, SOFT_USER, User(identities.BOB, "bob's"), User("carol", "carol's")):
            make_user(self.passwords, user)
        make_user(self.records, USER, records=True)

    def run(self, channel: socket.socket, side: str, *words: str) -> bool:
        done = subprocess.run(
            [self.program, side, self.plugins, *words],
            stdin=channel,
            stdout=channel,
            stderr=subprocess.DEVNULL,
            timeout=PATIENCE,
            check=False,
        )
        return done.returncode == 0

    def run_client(self, channel: socket.socket, mechanism: str, user: str, password: str, identity: str) -> bool:
        return self.run(channel, "client", mechanism, user, password, "as", identity)

    def log_in_by_message(self, client: Client, known: User):
        """A login of our client by PLAIN, ANONYMOUS or EXTERNAL to a server of libsasl2."""
        words = ["server", client.mechanism, str(self.passwords), "4096"]
        words += [known.name] if client.mechanism == "EXTERNAL" else []
        return lambda side: side.log_in(client, lambda channel: self.run(channel, *words))

    def log_in(self, client: Client, count: int = 4096, users: Optional[Path] = None, mar=None, allowed: str = ""):
        """A login of our client to a server of libsasl2, where the user may act for an identity, if it is not empty."""

        def login(side: Side) -> Ending:
            words = ["server", client.mechanism, str(users or self.passwords), str(count)]
            words += ["as", allowed] if allowed else []
            return side.log_in(client, lambda channel: self.run(channel, *words), mar)

        return login

    def serve(
        self,
        mechanism: str,
        user: User,
        known: User = USER,
        binds: str = "",
        mar=None,
        unbound: bool = False,
        identity: str = "",
        more: tuple[str, ...] = (),
    ):
        """A login of a client of libsasl2 to our server, which knows one user, and has more words."""
        words = ["client", mechanism, user.name, user.password, *([binds] if binds else []), "as", identity]
        more = ("unbound", *more) if unbound else more

        def login(side: Side) -> Ending:
            records = {known.name: side.record(mechanism, known)}
            return side.serve(mechanism, records, lambda channel: self.run(channel, *words), mar, more)

        return login

    def bound_server(self, mechanism: str, password: str = USER.password, relayed: bool = False, identity: str = ""):
        """A login of our client to a server of libsasl2, with the channel of one connection under TLS, or each side with
        that of another, since somebody between them relays all messages. The user may act for the identity."""

        def login(side: Side) -> Ending:
            tunnel, other = tls.Tunnel(self.authority), tls.Tunnel(self.authority)
            words = [
                "server",
                mechanism,
                str(self.passwords),
                "4096",
                "tls-unique",
                (other if relayed else tunnel).other(),
            ]
            words += ["as", identity] if identity else []
            user, channel = USER._replace(password=password), tunnel.channel()
            of = Client(mechanism + "-PLUS", user, channel=channel, acts_for=identity)
            return side.log_in(of, lambda ours: tunnel.between(ours, lambda end: self.run(end, *words)))

        return login

    def bound_client(self, mechanism: str, password: str = USER.password, relayed: bool = False, identity: str = ""):
        """A login of a client of libsasl2 to our server, with the channel of one connection, or each with that of
        another. The user may act for the identity."""
        rights = identities.may_act(identity) if identity else ()

        def login(side: Side) -> Ending:
            tunnel, other = tls.Tunnel(self.authority), tls.Tunnel(self.authority)
            theirs = (other if relayed else tunnel).other()
            words = ["client", mechanism, USER.name, password, "tls-unique", theirs, "as", identity]
            return side.serve(
                mechanism + "-PLUS",
                {USER.name: side.record(mechanism, USER)},
                lambda ours: tunnel.between(ours, lambda end: self.run(end, *words)),
                more=(*rights, tunnel.channel()),
            )

        return login

    def bound(self, mechanism: str) -> Iterator[Cell]:
        """Logins that bind the channel of a connection under TLS 1.2."""
        relayed = "all messages relayed between two connections under TLS"

        def cell(ours: str, what: str, login, ends: Ending) -> Cell:
            return Cell(ours, mechanism + "-PLUS", what, login, ends)

        yield cell("client", "a login, `tls-unique`", self.bound_server(mechanism), DONE)
        yield cell("client", "a wrong password", self.bound_server(mechanism, "pencils"), ENDED)
        yield cell("client", relayed, self.bound_server(mechanism, relayed=True), ENDED)
        yield cell("client", identities.ALLOWED, self.bound_server(mechanism, identity=identities.BOB), DONE)
        yield cell("server", "a login, `tls-unique`", self.bound_client(mechanism), Ending("logged in: user", True))
        yield cell(
            "server",
            "a wrong password",
            self.bound_client(mechanism, "pencils"),
            Ending("not logged in: Server: Authentication failed", False),
        )
        yield cell(
            "server",
            relayed,
            self.bound_client(mechanism, relayed=True),
            Ending("not logged in: Server: Invalid channel binding", False),
        )
        yield cell(
            "server",
            identities.ALLOWED,
            self.bound_client(mechanism, identity=identities.BOB),
            identities.acting(identities.BOB),
        )

    def cells(self) -> Iterator[Cell]:
        for mechanism in SCRAM:
            yield from self.our_clients(mechanism)
            yield from self.our_servers(mechanism)
            yield from self.bound(mechanism)
        yield from messages.our_clients(self.log_in_by_message, PAST_USER)
        soft = SOFT_USER._replace(prepared=True)
        for what, user, ends in (
            ("unknown user", User("nobody", "pencil"), ENDED),
            ("password with a soft hyphen, which it does not prepare", soft, ENDED),
            ("password with a soft hyphen, as typed", SOFT_USER, DONE),
        ):
            yield by_client(self.log_in_by_message, "PLAIN", what, user, ends=ends)
        yield by_client(self.log_in_by_message, "ANONYMOUS", "no trace information", NO_ONE)
        yield from messages.our_servers(self.run_client)
        yield from self.clients_with_identities("PLAIN")
        yield from identities.our_servers(messages.by_identity(self.run_client), "PLAIN")

    def our_clients(self, mechanism: str) -> Iterator[Cell]:
        done, refused = Ending("logged in: Done", True), Ending("not logged in: the other side ended", False)
        of = Client(mechanism)

        def cell(what: str, login, ends: Ending, kept: Optional[User] = None, kept_as: str = "") -> Cell:
            return Cell("client", mechanism, what, login, ends, kept=kept, kept_as=kept_as)

        def prepared(user: User) -> Client:
            return of._replace(user=user._replace(prepared=True))

        yield cell("a login", self.log_in(of), done)
        yield cell(
            "a name with `,` and `=`",
            self.log_in(of._replace(user=COMMA)),
            done,
            COMMA if mechanism == "SCRAM-SHA-512" else None,
        )
        yield cell("wrong password", self.log_in(of._replace(user=User("user", "pencils"))), refused)
        yield cell("unknown user", self.log_in(of._replace(user=User("nobody", "pencil"))), refused)
        yield cell("count 1", self.log_in(of._replace(least=1), 1), done)
        yield cell("count 100,000", self.log_in(of, 100_000), done)
        small, large = (f"not logged in: Client: Iteration count too {size}" for size in ("small", "large"))
        yield cell("count below the minimum", self.log_in(of, 4095), Ending(small, False))
        yield cell("count above the limit", self.log_in(of._replace(most=99_999), 100_000), Ending(large, False))
        again = of._replace(again=True)
        if mechanism == "SCRAM-SHA-1":
            yield cell(
                "cached keys, of a record that it made",
                self.log_in(again, users=self.records),
                Ending("logged in: Done; logged in by keys: Done", True),
            )
        else:
            yield none(
                "client",
                mechanism,
                "cached keys, of a record that it made",
                "its file of users keeps one record of a user, that of SHA-1",
            )
        other = (
            "logged in: Done; not logged in by keys: Client: The cached keys are for another salt or iteration count"
        )
        yield cell("cached keys, where it has the password", self.log_in(again), Ending(other, False))
        yield cell(
            "its signature, altered on the way",
            self.log_in(of, mar=marred),
            Ending("not logged in: Client: Server signature mismatch", False),
        )
        yield cell(
            "non-ASCII password, as typed",
            self.log_in(of._replace(user=PAST_USER)),
            Ending("not logged in: Client: Error normalizing password", False),
        )
        yield cell(
            "non-ASCII password, prepared",
            self.log_in(prepared(PAST_USER)),
            done,
            PAST_USER if mechanism == "SCRAM-SHA-512" else None,
            "prepared",
        )
        yield cell("password with a soft hyphen, which it does not prepare", self.log_in(prepared(SOFT_USER)), refused)
        yield from self.clients_with_identities(mechanism)

    def clients_with_identities(self, mechanism: str) -> Iterator[Cell]:
        """Cells of our clients that name an authorization identity."""

        def of_identity(client: Client, allowed: str):
            return self.log_in(client, allowed=allowed)

        yield from identities.our_clients(of_identity, mechanism)
        yield Cell(
            "client",
            mechanism,
            "an authorization identity, by its default policy",
            self.log_in(Client(mechanism, acts_for=identities.BOB)),
            ENDED,
        )

    def our_servers(self, mechanism: str) -> Iterator[Cell]:
        done, refused = Ending("logged in: user", True), Ending("not logged in: Server: Authentication failed", False)
        no_header = Ending("not logged in: Server: Cannot parse GS2-header", False)

        def cell(what: str, login, ends: Ending, kept: Optional[User] = None, kept_as: str = "") -> Cell:
            return Cell("server", mechanism, what, login, ends, kept=kept, kept_as=kept_as)

        yield cell("a login", self.serve(mechanism, USER), done)
        yield cell(
            "a name with `,` and `=`",
            self.serve(mechanism, COMMA, COMMA),
            Ending("logged in: a,b=c", True),
            COMMA if mechanism == "SCRAM-SHA-512" else None,
        )
        yield cell("wrong password", self.serve(mechanism, User("user", "pencils")), refused)
        yield cell("unknown user", self.serve(mechanism, User("nobody", "pencil")), refused)
        for count in (1, MOST):
            yield cell(f"count {count:,}", self.serve(mechanism, USER, USER._replace(count=count)), done)
        for count in (MOST + 1, 100_000):
            yield cell(
                f"count {count:,}, above its limit",
                self.serve(mechanism, USER, USER._replace(count=count)),
                Ending("not logged in: the other side ended", False),
            )
        yield cell(
            "our signature, altered on the way",
            self.serve(mechanism, USER, mar=marred),
            Ending("logged in: user", False),
        )
        yield cell(
            "non-ASCII password, prepared",
            self.serve(mechanism, PAST, PAST._replace(prepared=True)),
            done,
            PAST if mechanism == "SCRAM-SHA-512" else None,
            "records",
        )
        yield cell(
            "password with a soft hyphen, which it does not prepare",
            self.serve(mechanism, SOFT, SOFT._replace(prepared=True)),
            refused,
        )
        yield from self.bindings(mechanism, cell, done, no_header)

        def of_identity(user: User, identity: str, more: tuple[str, ...]):
            return self.serve(mechanism, user, identity=identity, more=more)

        yield from identities.our_servers(of_identity, mechanism)

    def bindings(self, mechanism: str, cell, done: Ending, no_header: Ending) -> Iterator[Cell]:
        """Clients that have a binding of their channel, at our server, which has none."""
        yield cell("it may bind its channel, and sends `n,,`", self.serve(mechanism, USER, binds="may"), done)
        yield cell(
            "it may bind its channel and chooses, and sends `y,,`",
            self.serve(mechanism, USER, binds="choose", unbound=True),
            done,
            USER if mechanism == "SCRAM-SHA-512" else None,
            "cbind_flag_y",
        )
        yield cell(
            "it may bind its channel and chooses, and sends `y,,`, which is not taken",
            self.serve(mechanism, USER, binds="choose"),
            no_header,
        )
        yield cell(
            "it has to bind its channel, and sends `p=..,,`",
            self.serve(mechanism, USER, binds="must"),
            no_header,
            USER if mechanism == "SCRAM-SHA-256" else None,
        )
        yield cell(
            "it has to bind its channel, where `y,,` is taken",
            self.serve(mechanism, USER, binds="must", unbound=True),
            no_header,
        )
