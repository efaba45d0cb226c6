"""RabbitMQ with its plugins for AMQP 1.0 and EXTERNAL, and its client of AMQP 1.0, which has PLAIN and ANONYMOUS."""

from __future__ import annotations

import json
import os
import shutil
import subprocess
import time
from pathlib import Path
from typing import Iterator, Optional

from cells import Cell, Peer, none
from sides import ANONYMOUS_AS, COMMA, EXTERNAL_AS, SCRAM, TRACE, USER
from sides import Ending, Side, User, dialled, ended_after, free_port, unprivileged
from tls import HOST, Authority, to_tls

HOME = Path("/usr/lib/rabbitmq")
SERVER = HOME / "bin" / "rabbitmq-server"
SASL_HEADER = b"AMQP\3\1\0\0"
#: It starts slowly, in seconds.
START = 400
DONE = Ending("logged in: Done", None)
REFUSED = Ending("not logged in: Connection: The login was rejected", None)


class RabbitMq(Peer):
    name = "RabbitMQ"
    package = "rabbitmq-server"
    by_frames = True

    def __init__(self) -> None:
        self.started: list[subprocess.Popen] = []
        self.client: Optional[subprocess.Popen] = None
        #: Of the certificates, unless this machine has none.
        self.authority: Optional[Authority] = None

    def missing(self) -> bool:
        return not SERVER.exists() or shutil.which("epmd") is None or shutil.which("escript") is None

    def plugins(self) -> Path:
        return next(HOME.glob("lib/*/plugins"))

    def version(self) -> str:
        return self.plugins().parent.name.rpartition("-")[2]

    def start(self, folder: Path) -> None:
        """A node with a name, a store and ports of its own, and a port mapper of its own."""
        self.port, mapper = free_port(), free_port()
        users = [{"name": user.name, "password": user.password, "tags": ""} for user in (USER, COMMA)]
        definitions = {"users": users, "vhosts": [{"name": "/"}]}
        (folder / "definitions.json").write_text(json.dumps(definitions))
        settings = {
            "listeners.tcp.1": f"127.0.0.1:{self.port}",
            "load_definitions": folder / "definitions.json",
            "loopback_users": "none",
            "amqp1_0.default_user": USER.name,
            "log.console": "false",
        }
        owned = [folder, *(folder / name for name in ("rabbitmq.conf", "enabled", "definitions.json"))]
        if shutil.which("openssl") is not None:
            self.authority, self.tls_port = Authority(folder / "tls"), free_port()
            settings |= self.tls_settings()
            owned.append(self.authority.issue(HOST).key)
        (folder / "rabbitmq.conf").write_text("".join(f"{name} = {value}\n" for name, value in settings.items()))
        (folder / "enabled").write_text("[rabbitmq_amqp1_0,rabbitmq_auth_mechanism_ssl].\n")
        environment = {
            "PATH": os.environ["PATH"],
            "HOME": str(folder),
            "ERL_EPMD_PORT": str(mapper),
            "LC_ALL": "C.UTF-8",
            "RABBITMQ_NODENAME": f"interop{self.port}@localhost",
            "RABBITMQ_DIST_PORT": str(free_port()),
            "RABBITMQ_MNESIA_BASE": str(folder / "mnesia"),
            "RABBITMQ_LOG_BASE": str(folder / "log"),
            "RABBITMQ_CONFIG_FILE": str(folder / "rabbitmq.conf"),
            "RABBITMQ_CONF_ENV_FILE": str(folder / "none"),
            "RABBITMQ_ENABLED_PLUGINS_FILE": str(folder / "enabled"),
            "RABBITMQ_PID_FILE": str(folder / "pid"),
        }
        who = unprivileged(*owned)
        quiet = {
            "stdin": subprocess.DEVNULL,
            "stdout": subprocess.DEVNULL,
            "stderr": subprocess.DEVNULL,
            "cwd": folder,
            "env": environment,
            **who,
        }
        for words in (["epmd", "-port", str(mapper), "-address", "127.0.0.1"], [SERVER]):
            self.started.append(subprocess.Popen(words, **quiet))
        self.wait()
        words = ["escript", Path(__file__).resolve().parent / "rabbitmq_client.erl", self.plugins()]
        self.client = subprocess.Popen(
            words,
            stdin=subprocess.PIPE,
            stdout=subprocess.PIPE,
            stderr=subprocess.DEVNULL,
            cwd=folder,
            env={"PATH": os.environ["PATH"], "HOME": str(folder), "LC_ALL": "C.UTF-8"},
            **who,
        )

    def tls_settings(self) -> dict[str, object]:
        """Settings for EXTERNAL over TLS, where the user is the common name of the client's certificate."""
        server = self.authority.issue(HOST)
        return {
            "listeners.ssl.1": f"127.0.0.1:{self.tls_port}",
            "ssl_cert_login_from": "common_name",
            "ssl_options.cacertfile": self.authority.pair.certificate,
            "ssl_options.certfile": server.certificate,
            "ssl_options.keyfile": server.key,
            "ssl_options.verify": "verify_peer",
            "ssl_options.fail_if_no_peer_cert": "false",
            "auth_mechanisms.1": "PLAIN",
            "auth_mechanisms.2": "AMQPLAIN",
            "auth_mechanisms.3": "EXTERNAL",
        }

    def wait(self) -> None:
        """Waits until the server answers the header of SASL on each of its ports."""
        until = time.monotonic() + START
        while time.monotonic() < until:
            try:
                if all(self.answers(port) for port in self.ports()):
                    return
            except OSError:
                pass
            time.sleep(0.5)
        raise TimeoutError("RabbitMQ does not start")

    def ports(self) -> list[int]:
        """Its port, and one for TLS if there is TLS, where a relay speaks it."""
        return [self.port] + ([] if self.authority is None else [to_tls(self.tls_port, self.authority.client(None))])

    def answers(self, port: int) -> bool:
        """Whether a port answers the header of SASL."""
        with dialled(port) as channel:
            channel.settimeout(5)
            channel.sendall(SASL_HEADER)
            return channel.recv(8) == SASL_HEADER

    def stop(self) -> None:
        if self.client is not None:
            self.started.append(self.client)
        while self.started:
            with ended_after(self.started.pop()):
                pass

    def log_in(self, mechanism: str, user: User = USER):
        """A login of our client. Whom the server takes for logged in cannot be seen."""
        return lambda side: Ending(side.log_in_by_frames(self.port, mechanism, user), None)

    def log_in_external(self, certificate: Optional[str], name: str = "", asked: str = EXTERNAL_AS):
        """A login of our client over TLS, with a certificate of this name or without one, to act as a name."""
        context = self.authority.client(certificate)

        def login(side: Side) -> Ending:
            return Ending(side.log_in_by_frames(to_tls(self.tls_port, context), asked, User(name, "")), None)

        return login

    def external(self) -> Iterator[Cell]:
        """EXTERNAL over TLS. It does not look at the initial response."""
        if self.authority is None:
            yield none("client", "EXTERNAL", "a login", "there is no TLS")
            return
        for what, certificate, name in (
            ("an empty initial response", USER.name, ""),
            ("another name as the initial response", USER.name, "bob"),
            ("a name with `,` and `=`", COMMA.name, ""),
        ):
            yield Cell("client", "EXTERNAL", what, self.log_in_external(certificate, name), DONE)
        # (it lets one wait for three seconds)
        for what, certificate in (("unknown user", "nobody"), ("no certificate", None)):
            yield Cell("client", "EXTERNAL", what, self.log_in_external(certificate), REFUSED, at_once=True)
        yield Cell(
            "client",
            "EXTERNAL",
            "no initial response",
            self.log_in_external(USER.name, asked="EXTERNAL"),
            Ending("no connection", None),
            at_once=True,
        )

    def serve(self, mechanism: str, user: User = USER, known: User = USER):
        """A login of its client to our server, which knows one user."""

        def by(port: int) -> bool:
            words = "\t".join([str(port), mechanism, user.name, user.password]) + "\n"
            self.client.stdin.write(words.encode())
            self.client.stdin.flush()
            return self.client.stdout.readline() == b"in\n"

        def login(side: Side) -> Ending:
            return side.serve_frames(mechanism, {known.name: side.record("SCRAM-SHA-256", known)}, by)

        return login

    def cells(self) -> Iterator[Cell]:
        def cell(ours: str, mechanism: str, what: str, login, ends: Ending, kept: Optional[User] = None) -> Cell:
            return Cell(ours, mechanism, what, login, ends, kept=kept)

        yield cell("client", "PLAIN", "a login", self.log_in("PLAIN"), DONE, USER)
        yield cell("client", "PLAIN", "a name with `,` and `=`", self.log_in("PLAIN", COMMA), DONE)
        for what, user in (("wrong password", User("user", "pencils")), ("unknown user", User("nobody", "pencil"))):
            # (it lets one wait for three seconds)
            kept = user if user.name == USER.name else None
            yield Cell("client", "PLAIN", what, self.log_in("PLAIN", user), REFUSED, kept=kept, at_once=True)
        yield cell("client", "ANONYMOUS", "a login", self.log_in("ANONYMOUS"), DONE, USER)
        yield cell(
            "client", "ANONYMOUS", "trace information as the initial response", self.log_in(ANONYMOUS_AS, TRACE), DONE
        )
        yield from self.external()
        for mechanism in (*SCRAM, "EXTERNAL"):
            what = "it does not offer it" + (" without TLS" if mechanism == "EXTERNAL" else "")
            yield cell(
                "client",
                mechanism,
                what,
                self.log_in(mechanism),
                Ending("not logged in: Connection: Not implemented", None),
            )
        refused = Ending("not logged in: Connection: The login was rejected", False)
        yield cell("server", "PLAIN", "a login", self.serve("PLAIN"), Ending("logged in: user", True), USER)
        yield cell(
            "server",
            "PLAIN",
            "a name with `,` and `=`",
            self.serve("PLAIN", COMMA, COMMA),
            Ending("logged in: a,b=c", True),
        )
        yield cell("server", "PLAIN", "wrong password", self.serve("PLAIN", User("user", "pencils")), refused)
        yield cell("server", "PLAIN", "unknown user", self.serve("PLAIN", User("nobody", "pencil")), refused)
        yield cell("server", "ANONYMOUS", "a login", self.serve("ANONYMOUS"), Ending("logged in:", True), USER)
        yield none("server", ", ".join((*SCRAM, "EXTERNAL")), "a login", "its client has only PLAIN and ANONYMOUS")
