"""The examples of the bindings for Python: the broker, to which Qpid Proton logs in over TCP and TLS, and the client, which
logs in to Qpid Proton."""

from __future__ import annotations

import contextlib
import os
import ssl
import subprocess
import sys
import time
from pathlib import Path
from typing import Iterator, NamedTuple, Optional

from cells import Cell, none
from qpid_proton import ProtonWithCyrus, QpidProton
from sides import COMMA, PATIENCE, PYTHON, SALT, SCRAM, USER, Ending, Side, User, dialled, ended_after
from tls import HOST

sys.path.insert(0, str(PYTHON))
import peers  # noqa: E402

VERSIONS = {name: version for version, name in peers.MECHANISMS.items()}
WRONG, UNKNOWN = User("user", "pencils"), User("nobody", "pencil")
NO_CYRUS = "Debian builds it without Cyrus SASL"
CLIENT_ENDED = "Connection: The other side ended the stream before the negotiation was complete"
NOT_ALLOWED = Ending("not logged in: the server offers no allowed mechanism", False)


def refused(name: str, count: int = 1) -> Ending:
    """How the broker reports a refused login: which of the user's, as the client claims it."""
    return Ending(f"not logged in: Connection: The login was rejected, {count} of {name!r}", False)


class Login(NamedTuple):
    """A login of Qpid Proton's client to the broker. Over TLS it has a certificate of the user's name."""

    mechanism: str
    user: User = USER
    acts_as: str = ""
    tls: bool = False


class Broker(NamedTuple):
    """The broker, which is running."""

    program: subprocess.Popen
    port: int

    def told(self) -> str:
        """What it says of the next login, without what the init claims."""
        return self.program.stdout.readline().strip().partition(" ('")[0]


def unread(port: int, by: peers.Side, context: Optional[ssl.SSLContext]) -> bool:
    """Whether a client is logged in that sends more after its last message, before it reads the outcome. Fails if the
    outcome does not arrive."""
    by.begin()
    messages = [by.open()]
    with contextlib.ExitStack() as open_until:
        channel = open_until.enter_context(dialled(port))
        if context is not None:
            channel = open_until.enter_context(context.wrap_socket(channel, server_hostname=HOST))
        channel.settimeout(PATIENCE)
        while by.code is None:
            if messages[-1]:
                channel.sendall(messages[-1])
            # (a header and an init, and by SCRAM a response)
            if len(messages) == (3 if isinstance(by, peers.Login) else 2):
                # (asyncio reads the first of them by itself, and the last come after a close)
                for _ in range(3):
                    channel.sendall(bytes(10_000))
                    time.sleep(0.05)
            if not (came := channel.recv(4096)):
                raise ConnectionError("the connection ended before the outcome")
            if answer := by.receive(came):
                messages.append(answer)
            else:
                messages[-1] = b""
        while context is None and channel.recv(4096):
            pass
    return by.logged_in


class ExampleBroker(ProtonWithCyrus):
    """Its clients have SCRAM, and its servers SCRAM and PLAIN, only with a library that is built with Cyrus SASL."""

    name = "Qpid Proton and the examples in Python"
    package = "python3-qpid-proton; for SCRAM also the folder that --proton names"
    languages = ("Python",)

    def missing(self) -> bool:
        return QpidProton.missing(self)

    def start(self, folder: Path) -> None:
        self.extended = self.asked("proton.SASL.extended()") == "True"
        (super() if self.extended else super(ProtonWithCyrus, self)).start(folder)
        (folder / "4096").mkdir(exist_ok=True)
        self.lines = folder / "example-users"
        lines = [
            f"{user.name.replace('=', '=3D').replace(',', '=2C')} "
            f"{peers.Secret(version, user.password, SALT[:16], user.count).record_text()}\n"
            for user in (USER, COMMA)
            for version in peers.VERSIONS
        ]
        self.lines.write_text("".join(lines))

    @contextlib.contextmanager
    def broker(self, side: Side, tls: bool) -> Iterator[Broker]:
        """The broker, started for a login, over TLS or without it."""
        files = self.files(HOST) if tls else {}
        words = [*side.frames_server, "0", str(self.lines)]
        words += [files[name] for name in ("certificate", "key", "authority") if files]
        environment = {**os.environ, "PYTHONPATH": str(PYTHON)}
        with ended_after(subprocess.Popen(words, env=environment, stdout=subprocess.PIPE, text=True)) as program:
            yield Broker(program, int(program.stdout.readline()))

    def by_proton(self, broker: Broker, login: Login) -> bool:
        """Whether Proton's client is logged in. Fails if the client has no outcome, or an error."""
        job = {"mechanism": login.mechanism, "user": login.user.name, "password": login.user.password}
        if login.mechanism == "EXTERNAL":
            job["user"] = job["password"] = None
        # (over TLS the broker cannot end first, and Proton's client does not)
        files = {"tls": self.files(login.user.name)} if login.tls else {"to_the_end": True}
        self.ask(self.worker(), side="client", port=broker.port, acts_as=login.acts_as, **job, **files)
        told = self.told(self.worker())
        if told["error"] or told["outcome"] is None:
            raise ConnectionError(f"Proton's client: outcome {told['outcome']}, {told['error'] or 'no error'}")
        return told["in"]

    def serve(self, *logins: Login):
        """Logins of Proton's client to one broker, one after another, of which the last counts."""

        def login(side: Side) -> Ending:
            with self.broker(side, logins[0].tls) as broker:
                for one in logins:
                    seen = self.by_proton(broker, one)
                    ending = Ending(broker.told(), seen)
                return ending

        return login

    def serve_unread(self, mechanism: str, user: User, tls: bool):
        """A login of a client that is made here, of which bytes are unread when the broker closes."""

        def login(side: Side) -> Ending:
            with self.broker(side, tls) as broker:
                plain = mechanism == "PLAIN"
                by = peers.Plain(*user[:2]) if plain else peers.Login(VERSIONS[mechanism], *user[:2])
                seen = unread(broker.port, by, self.authority.client(None) if tls else None)
                return Ending(broker.told(), seen)

        return login

    def log_in(self, mechanisms: str, user: User, tls: bool = False):
        """A login of the example client to a server of Proton that offers these mechanisms."""

        def login(side: Side) -> Ending:
            files = {"tls": self.files(HOST)} if tls else {}
            self.ask(self.worker(), side="server", mechanisms=mechanisms, settings=str(self.folder / "4096"), **files)
            words = [*side.frames_client, "localhost", str(self.told(self.worker())["port"]), user.name]
            words += [self.files(user.name)[name] for name in ("authority", "certificate", "key") if tls]
            done = subprocess.run(
                words,
                input=user.password + "\n",
                env={**os.environ, "PYTHONPATH": str(PYTHON)},
                capture_output=True,
                text=True,
                timeout=PATIENCE,
                check=False,
            )
            return Ending(done.stdout.strip() or f"status {done.returncode}", self.told(self.worker())["in"])

        return login

    def cells(self) -> Iterator[Cell]:
        has_tls = self.authority is not None
        for mechanism in SCRAM:
            yield from self.scram_servers(mechanism, has_tls)
        yield Cell(
            "server",
            "PLAIN",
            "over TCP: not offered",
            self.serve(Login("PLAIN")),
            Ending(f"not logged in: {CLIENT_ENDED}", False),
        )
        for what, user, ends in (
            ("a login", USER, Ending("logged in: 'user'", True)),
            ("wrong password", WRONG, refused("user")),
        ):
            login = self.serve_unread("SCRAM-SHA-256", user, False)
            yield Cell("server", "SCRAM-SHA-256", f"over TCP, unread bytes (a client made here): {what}", login, ends)
        if not has_tls:
            yield none("server", "PLAIN, EXTERNAL", "over TLS", "there is no TLS")
            return
        yield from self.tls_servers()
        yield from self.our_clients()

    def scram_servers(self, mechanism: str, has_tls: bool) -> Iterator[Cell]:
        """Logins by SCRAM over TCP and TLS."""
        if not self.extended:
            yield none("server", mechanism, "a login", NO_CYRUS)
            return
        for tls, over in ((False, "over TCP"), (True, "over TLS"))[: 1 + has_tls]:
            for what, user, ends in (
                ("a login", USER, Ending("logged in: 'user'", True)),
                ("a name with `,` and `=`", COMMA, Ending("logged in: 'a,b=c'", True)),
                ("wrong password", WRONG, refused("user")),
                ("unknown user", UNKNOWN, refused("nobody")),
            ):
                login = self.serve(Login(mechanism, user, tls=tls))
                yield Cell("server", mechanism, f"{over}: {what}", login, ends)

    def tls_servers(self) -> Iterator[Cell]:
        """Logins by PLAIN and EXTERNAL over TLS."""

        def cell(mechanism: str, what: str, ends: Ending, *logins: Login) -> Cell:
            return Cell("server", mechanism, f"over TLS: {what}", self.serve(*logins), ends)

        def plain(user: User) -> Login:
            return Login("PLAIN", user, tls=True)

        done, external = Ending("logged in: 'user'", True), Login("EXTERNAL", tls=True)
        yield cell("PLAIN", "a login", done, plain(USER))
        yield cell("PLAIN", "a name with `,` and `=`", Ending("logged in: 'a,b=c'", True), plain(COMMA))
        yield cell("PLAIN", "wrong password", refused("user"), plain(WRONG))
        yield cell("PLAIN", "unknown user", refused("nobody"), plain(UNKNOWN))
        yield cell("PLAIN", "three wrong passwords are counted", refused("user", 3), *[plain(WRONG)] * 3)
        five, other = [plain(WRONG)] * 5, Ending("logged in: 'a,b=c'", True)
        yield cell("PLAIN", "the right password after five wrong ones", refused("user", 5), *five, plain(USER))
        yield cell("PLAIN", "another user after these", other, *five, plain(COMMA))
        what = "over TLS, unread bytes (a client made here): wrong password"
        yield Cell("server", "PLAIN", what, self.serve_unread("PLAIN", WRONG, True), refused("user"))
        yield cell("EXTERNAL", "an empty initial response", done, external)
        yield cell("EXTERNAL", "its name as the initial response", done, external._replace(acts_as=USER.name))
        bob = external._replace(acts_as="bob")
        yield cell("EXTERNAL", "another name as the initial response", refused("user"), bob)

    def our_clients(self) -> Iterator[Cell]:
        """Logins of the example client, which chooses the mechanism."""

        def cell(what: str, mechanisms: str, ends: Ending, user: User = USER, tls: bool = False) -> Cell:
            return Cell("client", mechanisms.replace(" ", ", "), what, self.log_in(mechanisms, user, tls), ends)

        by_certificate = USER._replace(password="")
        yield cell("over TLS: a certificate", "EXTERNAL", Ending("logged in: EXTERNAL", True), by_certificate, True)
        yield cell("over TCP: none that the client allows", "ANONYMOUS", NOT_ALLOWED)
        if not self.extended:
            yield none("client", ", ".join((*SCRAM, "PLAIN")), "a login", NO_CYRUS)
            return
        scram = "SCRAM-SHA-1 SCRAM-SHA-256 SCRAM-SHA-512 PLAIN"
        strongest = Ending("logged in: SCRAM-SHA-512", True)
        wrong = Ending("not logged in: Connection: The login was rejected (81)", False)
        yield cell("over TCP: a login by the strongest", scram, strongest)
        yield cell("over TLS: a login by the strongest", f"EXTERNAL {scram}", strongest, tls=True)
        yield cell("over TCP: wrong password", scram, wrong, WRONG)
        yield cell("over TLS: a login", "PLAIN", Ending("logged in: PLAIN", True), tls=True)
        yield cell("over TCP: the client does not allow it", "PLAIN", NOT_ALLOWED)
