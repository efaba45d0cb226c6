"""Qpid Proton over frames of AMQP 1.0: as Debian builds it, with SASL of its own, and as built with Cyrus SASL."""

from __future__ import annotations

import json
import os
import shutil
import socket
import subprocess
from pathlib import Path
from typing import Iterator, Optional

from cells import Cell, Peer, none
from cyrus_sasl import make_user
from identities import ALLOWED, BOB, acting, may_act
from sides import ANONYMOUS_AS, BY_CHALLENGE, COMMA, EXTERNAL_AS, SCRAM, TRACE, USER
from sides import Ending, Side, User, ended_after, marred, unsigned
from tls import HOST, Authority, serve_external, to_tls

PYTHON = "/usr/bin/python3"
#: The mechanisms of which bytes are kept.
KEPT = ("SCRAM-SHA-256", "PLAIN")
PAST = User("user", "p\u00e4ss")
DONE = Ending("logged in: Done", True)
REFUSED = Ending("not logged in: Connection: The login was rejected", False)
FORGED = Ending("not logged in: Client: Server signature mismatch", False)


class QpidProton(Peer):
    name = "Qpid Proton"
    package = "python3-qpid-proton"
    by_frames = True

    def __init__(self) -> None:
        #: A program for each count of a server's settings, which libsasl2 reads once.
        self.workers: dict[int, subprocess.Popen] = {}
        self.environment = dict(os.environ)
        #: Of the certificates, unless it or this machine has no TLS.
        self.authority: Optional[Authority] = None

    def missing(self) -> bool:
        try:
            self.version()
        except (OSError, subprocess.CalledProcessError):
            return True
        return False

    def asked(self, words: str) -> str:
        """What Proton's module says of itself."""
        words = [PYTHON, "-c", f"import proton; print({words})"]
        return subprocess.run(words, env=self.environment, capture_output=True, text=True, check=True).stdout.strip()

    def version(self) -> str:
        return self.asked("*proton.VERSION, sep='.'")

    def start(self, folder: Path) -> None:
        self.folder = folder
        if shutil.which("openssl") is not None and self.asked("proton.SSL.present()") == "True":
            self.authority = Authority(folder / "tls")

    def stop(self) -> None:
        while self.workers:
            with ended_after(self.workers.popitem()[1]):
                pass

    def worker(self, count: int = 4096) -> subprocess.Popen:
        if count not in self.workers:
            words = [PYTHON, "-B", str(Path(__file__).resolve().parent / "proton_worker.py")]
            self.workers[count] = subprocess.Popen(
                words, env=self.environment, stdin=subprocess.PIPE, stdout=subprocess.PIPE, text=True
            )
        return self.workers[count]

    def ask(self, worker: subprocess.Popen, **job: object) -> None:
        worker.stdin.write(json.dumps(job) + "\n")
        worker.stdin.flush()

    def told(self, worker: subprocess.Popen) -> dict:
        return json.loads(worker.stdout.readline())

    def log_in(self, mechanism: str, user: User = USER, count: int = 4096, asked: str = "", more=(), mar=None):
        """A login of our client to a server of Proton that offers a mechanism. It asks for that, or for another one."""

        def login(side: Side) -> Ending:
            worker = self.worker(count)
            self.ask(worker, side="server", mechanisms=mechanism, settings=str(self.folder / str(count)))
            ours = side.log_in_by_frames(self.told(worker)["port"], asked or mechanism, user, *more, mar=mar)
            return Ending(ours, self.told(worker)["in"])

        return login

    def files(self, name: str) -> dict[str, str]:
        """The files for TLS with a certificate of this name."""
        pair = self.authority.issue(name)
        return {
            "authority": str(self.authority.pair.certificate),
            "certificate": str(pair.certificate),
            "key": str(pair.key),
        }

    def log_in_external(self, asked: str, name: str = ""):
        """A login of our client over TLS, which has a certificate. Proton takes it for the certificate's subject, which
        acts as this name if there is one."""
        subject = f"CN={USER.name}"

        def login(side: Side) -> Ending:
            worker = self.worker()
            self.ask(
                worker, side="server", mechanisms="EXTERNAL", settings=str(self.folder / "4096"), tls=self.files(HOST)
            )
            port = to_tls(self.told(worker)["port"], self.authority.client(USER.name))
            ours, told = side.log_in_by_frames(port, asked, User(name, "")), self.told(worker)
            return Ending(ours, told == {"in": True, "user": subject, "acts_as": name or subject})

        return login

    def serve_external(self, user: User = USER, name: str = ""):
        """A login of a client of Proton to our server over TLS, with a certificate of a user, to act as this name."""

        def by(port: int) -> bool:
            self.ask(
                self.worker(),
                side="client",
                port=port,
                mechanism="EXTERNAL",
                user=None,
                password=None,
                acts_as=name,
                tls=self.files(user.name),
            )
            return self.told(self.worker())["in"]

        return lambda side: serve_external(side, self.authority, by)

    def log_in_for(self, mechanism: str, identity: str, more=()):
        """A login of our client with an authorization identity to a server of Proton, which accepts each. The peer says yes
        if it has both names."""
        more = (*more, f"for:{identity}")

        def login(side: Side) -> Ending:
            worker = self.worker()
            self.ask(worker, side="server", mechanisms=mechanism, settings=str(self.folder / "4096"))
            ours = side.log_in_by_frames(self.told(worker)["port"], mechanism, USER, *more)
            told = self.told(worker)
            names = [told[which].partition("@")[0] for which in ("user", "acts_as")]
            return Ending(ours, told["in"] and names == [USER.name, identity])

        return login

    def serve(self, mechanism: str, user: User = USER, known: User = USER, mar=None, more=(), identity: str = ""):
        """A login of a client of Proton to our server, which knows one user, and has more words."""

        def by(port: int) -> bool:
            words = {"mechanism": mechanism, "user": user.name, "password": user.password, "acts_as": identity}
            self.ask(self.worker(), side="client", port=port, **words)
            return self.told(self.worker())["in"]

        def login(side: Side) -> Ending:
            of = mechanism if mechanism in SCRAM else "SCRAM-SHA-256"
            return side.serve_frames(mechanism, {known.name: side.record(of, known)}, by, mar, more)

        return login

    def our_servers(self, mechanism: str) -> Iterator[Cell]:
        done = Ending("logged in: user", True)

        def cell(what: str, login, ends: Ending, kept: Optional[User] = None) -> Cell:
            return Cell("server", mechanism, what, login, ends, kept=kept)

        yield cell("a login", self.serve(mechanism), done, USER if mechanism in KEPT else None)
        yield cell("a name with `,` and `=`", self.serve(mechanism, COMMA, COMMA), Ending("logged in: a,b=c", True))
        yield cell("wrong password", self.serve(mechanism, User("user", "pencils")), REFUSED)
        yield cell("unknown user", self.serve(mechanism, User("nobody", "pencil")), REFUSED)
        if mechanism in SCRAM:
            for count in (1, 65_536):
                known = USER._replace(count=count)
                yield cell(f"count {count:,}", self.serve(mechanism, known=known), done)
            yield cell("our signature, altered on the way: it does not look", self.serve(mechanism, mar=marred), done)

    def with_identities(self, mechanism: str) -> Iterator[Cell]:
        """Clients of Proton that name an authorization identity."""

        def cell(what: str, identity: str, words: tuple[str, ...], ends: Ending, user: User = USER) -> Cell:
            return Cell(
                "server", mechanism, what, self.serve(mechanism, user, more=("", *words), identity=identity), ends
            )

        yield cell("the user's own name as the authorization identity", USER.name, may_act(BOB), acting(USER.name))
        yield cell(ALLOWED, BOB, may_act(BOB), acting(BOB))
        yield cell(f"{ALLOWED}, and a wrong password", BOB, may_act(BOB), REFUSED, User("user", "pencils"))
        yield cell("an authorization identity that the user may not act for", "carol", may_act(BOB), REFUSED)
        yield cell("an authorization identity, at a server that accepts none", BOB, (), REFUSED)

    def external(self, without: Ending) -> Iterator[Cell]:
        """EXTERNAL over TLS, and how a login of our client without an initial response ends."""
        if self.authority is None:
            for ours in ("client", "server"):
                yield none(ours, "EXTERNAL", "a login", "there is no TLS")
            return

        def cell(ours: str, what: str, login, ends: Ending) -> Cell:
            return Cell(ours, "EXTERNAL", what, login, ends)

        yield cell("client", "an empty initial response", self.log_in_external(EXTERNAL_AS), DONE)
        yield cell("client", "another name as the initial response", self.log_in_external(EXTERNAL_AS, "bob"), DONE)
        yield cell("client", "no initial response", self.log_in_external("EXTERNAL"), without)
        done, comma = Ending("logged in: user", True), Ending("logged in: a,b=c", True)
        yield cell("server", "an empty initial response", self.serve_external(), done)
        yield cell("server", "a name with `,` and `=`", self.serve_external(COMMA), comma)
        yield cell("server", "its name as the initial response", self.serve_external(name=USER.name), done)
        yield cell("server", "another name as the initial response", self.serve_external(name="bob"), REFUSED)

    def traced(self) -> Cell:
        """ANONYMOUS of our client with trace information."""
        login = self.log_in("ANONYMOUS", TRACE, asked=ANONYMOUS_AS)
        return Cell("client", "ANONYMOUS", "trace information as the initial response", login, DONE)

    def cells(self) -> Iterator[Cell]:
        yield Cell("client", "ANONYMOUS", "a login", self.log_in("ANONYMOUS"), DONE, kept=USER)
        yield self.traced()
        for mechanism in (*SCRAM, "PLAIN"):
            yield Cell(
                "client",
                mechanism,
                "it offers only ANONYMOUS",
                self.log_in("ANONYMOUS", asked=mechanism),
                Ending("not logged in: Connection: Not implemented", False),
            )
        yield Cell("server", "ANONYMOUS", "a login", self.serve("ANONYMOUS"), Ending("logged in:", True), kept=USER)
        yield from self.our_servers("PLAIN")
        yield from self.with_identities("PLAIN")
        yield from self.external(DONE)
        yield none("server", ", ".join(SCRAM), "a login", "Debian builds it without Cyrus SASL")


class ProtonWithCyrus(QpidProton):
    name = "Qpid Proton with Cyrus SASL"
    package = "python3-qpid-proton, and a libqpid-proton-core of the same version that --proton names"

    def __init__(self, library: Optional[Path]) -> None:
        super().__init__()
        self.library = library
        if library is not None:
            self.environment["LD_LIBRARY_PATH"] = str(library.resolve())

    def missing(self) -> bool:
        return self.library is None or super().missing() or self.asked("proton.SASL.extended()") != "True"

    def start(self, folder: Path) -> None:
        super().start(folder)
        users = folder / "users"
        for user in (USER, COMMA, User(BOB, "bob's")):
            # (Proton's server has the host's name for a realm, in one of its forms)
            for realm in {"localhost", socket.gethostname(), socket.getfqdn()}:
                make_user(users, user, realm=realm)
        for count in (4095, 4096, 100_000):
            (folder / str(count)).mkdir()
            settings = f"auxprop_plugin: sasldb\nsasldb_path: {users}\nscram_iteration_counter: {count}\n"
            (folder / str(count) / "proton-server.conf").write_text(settings)

    def cells(self) -> Iterator[Cell]:
        for mechanism in SCRAM:
            yield from self.our_clients_by_challenge(mechanism)
            yield from self.our_scram_clients(mechanism)
            yield from self.our_servers(mechanism)
            yield from self.our_servers_by_challenge(mechanism)
            yield from self.with_identities(mechanism)
            yield Cell(
                "client",
                mechanism,
                "signature by a challenge: an authorization identity",
                self.log_in_for(mechanism, BOB, (BY_CHALLENGE,)),
                DONE,
            )
        yield from self.our_plain_clients()
        yield Cell("client", "PLAIN", "an authorization identity", self.log_in_for("PLAIN", BOB), DONE)
        yield from self.our_servers("PLAIN")
        yield from self.with_identities("PLAIN")
        # (without an initial response it sends an empty challenge)
        yield from self.external(Ending("not logged in: Connection: Not implemented", False))
        yield Cell("client", "ANONYMOUS", "a login", self.log_in("ANONYMOUS"), DONE)
        yield self.traced()
        yield Cell("server", "ANONYMOUS", "a login", self.serve("ANONYMOUS"), Ending("logged in:", True))

    def our_clients_by_challenge(self, mechanism: str) -> Iterator[Cell]:
        """It sends its signature by one more challenge, which our client accepts here."""

        def cell(what: str, ends: Ending, user: User = USER, count: int = 4096, mar=None) -> Cell:
            login = self.log_in(mechanism, user, count, more=(BY_CHALLENGE,), mar=mar)
            return Cell("client", mechanism, f"signature by a challenge: {what}", login, ends)

        yield cell("a login", DONE)
        yield cell("a name with `,` and `=`", DONE, COMMA)
        yield cell("count 100,000", DONE, count=100_000)
        yield cell("wrong password", REFUSED, User("user", "pencils"))
        yield cell("altered on the way", FORGED, mar=marred)
        yield cell("an outcome in its place", FORGED, mar=unsigned)

    def our_servers_by_challenge(self, mechanism: str) -> Iterator[Cell]:
        """Our server sends its signature by one more challenge. There Proton's client verifies it."""

        def cell(what: str, ends: Ending, user: User = USER, known: User = USER, mar=None) -> Cell:
            login = self.serve(mechanism, user, known, mar, ("", BY_CHALLENGE))
            return Cell("server", mechanism, f"signature by a challenge: {what}", login, ends)

        yield cell("a login", Ending("logged in: user", True))
        yield cell("a name with `,` and `=`", Ending("logged in: a,b=c", True), COMMA, COMMA)
        yield cell("wrong password", REFUSED, User("user", "pencils"))
        yield cell("altered on the way", Ending("no connection", False), mar=marred)

    def our_scram_clients(self, mechanism: str) -> Iterator[Cell]:
        """It sends its signature by one more challenge, which our client rejects by default."""
        refused = "not logged in: Connection: Unexpected frame"
        for what, count in (("a login", 4096), ("count 100,000", 100_000)):
            yield Cell(
                "client",
                mechanism,
                f"{what}: it sends its signature by a challenge",
                self.log_in(mechanism, count=count),
                Ending(refused, False),
                kept=USER if count == 4096 and mechanism in KEPT else None,
            )
        for what, user in (("wrong password", User("user", "pencils")), ("unknown user", User("nobody", "pencil"))):
            yield Cell("client", mechanism, what, self.log_in(mechanism, user), REFUSED)
        yield Cell(
            "client",
            mechanism,
            "count below the minimum",
            self.log_in(mechanism, count=4095),
            Ending("not logged in: Client: Iteration count too small", False),
        )
        yield Cell(
            "client",
            mechanism,
            "non-ASCII password",
            self.log_in(mechanism, PAST),
            Ending("not logged in: Client: Error normalizing password", False),
        )

    def our_plain_clients(self) -> Iterator[Cell]:
        for what, user in (("a login", USER), ("a name with `,` and `=`", COMMA)):
            yield Cell("client", "PLAIN", what, self.log_in("PLAIN", user), DONE, kept=USER if user == USER else None)
        for what, user in (("wrong password", User("user", "pencils")), ("unknown user", User("nobody", "pencil"))):
            yield Cell("client", "PLAIN", what, self.log_in("PLAIN", user), REFUSED)
