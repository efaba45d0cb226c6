"""Clients without an initial response, over frames of AMQP 1.0: SASL by Cyrus SASL and by GNU SASL, and frames by the
codec of Qpid Proton. The other peers over AMQP send an initial response for SCRAM and PLAIN."""

from __future__ import annotations

import json
import subprocess
from pathlib import Path
from typing import Iterator, Optional

from cells import Cell, Peer, none
from cyrus_sasl import CyrusSasl
from gnu_sasl import MECHANISMS, GnuSasl
from qpid_proton import KEPT, PYTHON, REFUSED, QpidProton
from sides import ASK, BY_CHALLENGE, COMMA, SCRAM, USER, Ending, Side, User, ended_after, marred

#: How the text of each cell begins.
WITHOUT = "no initial response"


class LateClients(Peer):
    """Clients whose messages are those of a program over lines."""

    by_frames = True
    mechanisms: tuple[str, ...] = ()
    #: The peer whose SASL this is.
    of: Peer

    def missing(self) -> bool:
        return self.of.missing() or QpidProton().missing()

    def version(self) -> str:
        return f"{self.of.version()} and {QpidProton().version()}"

    def start(self, folder: Path) -> None:
        words = [PYTHON, "-B", str(Path(__file__).resolve().parent / "late_worker.py")]
        self.worker = subprocess.Popen(words, stdin=subprocess.PIPE, stdout=subprocess.PIPE, text=True)

    def stop(self) -> None:
        with ended_after(self.worker):
            pass

    def program(self, mechanism: str, user: User) -> list[str]:
        """The program and its words."""
        raise NotImplementedError

    def is_in(self, **job: object) -> bool:
        self.worker.stdin.write(json.dumps(job) + "\n")
        self.worker.stdin.flush()
        told = json.loads(self.worker.stdout.readline())
        if "in" not in told:
            raise RuntimeError(told["fault"])
        return told["in"]

    def serve(
        self, mechanism: str, user: User = USER, known: User = USER, host: str = "localhost", options=(ASK,), mar=None
    ):
        """A login to our server, which knows one user and has these options."""

        def by(port: int) -> bool:
            program = self.program(mechanism, user)
            return self.is_in(port=port, mechanism=mechanism, hostname=host, program=program)

        def login(side: Side) -> Ending:
            of = mechanism if mechanism in SCRAM else "SCRAM-SHA-256"
            return side.serve_frames(mechanism, {known.name: side.record(of, known)}, by, mar, ("", *options))

        return login

    def cells(self) -> Iterator[Cell]:
        for mechanism in self.mechanisms:
            yield from self.our_servers(mechanism)
        yield none("client", ", ".join(self.mechanisms), "a login", "it is no server")

    def our_servers(self, mechanism: str) -> Iterator[Cell]:
        done = Ending("logged in: user", True)

        kept = USER if mechanism in KEPT else None

        def cell(what: str, login, ends: Ending, kept: Optional[User] = None, kept_as: str = "asks") -> Cell:
            return Cell("server", mechanism, f"{WITHOUT}{what}", login, ends, kept=kept, kept_as=kept_as)

        yield cell(": a login", self.serve(mechanism), done, kept)
        yield cell(" and no hostname: a login", self.serve(mechanism, host=""), done, kept)
        yield cell(": a name with `,` and `=`", self.serve(mechanism, COMMA, COMMA), Ending("logged in: a,b=c", True))
        yield cell(": wrong password", self.serve(mechanism, User("user", "pencils")), REFUSED)
        yield cell(": unknown user", self.serve(mechanism, User("nobody", "pencil")), REFUSED)
        yield cell(", which our server does not ask for", self.serve(mechanism, options=()), REFUSED)
        if mechanism in SCRAM:
            yield cell(
                ": our signature, altered on the way",
                self.serve(mechanism, mar=marred),
                Ending("logged in: user", False),
            )
            both = (BY_CHALLENGE, ASK)
            yield cell(
                ", and our signature by a challenge: a login",
                self.serve(mechanism, options=both),
                done,
                kept,
                "asks signs",
            )
            yield cell(
                ", and our signature by a challenge: altered on the way",
                self.serve(mechanism, options=both, mar=marred),
                Ending("no connection", False),
            )


class LateCyrus(LateClients):
    name = "Cyrus SASL in frames of Qpid Proton's codec"
    package = f"{CyrusSasl.package}, {QpidProton.package}"
    mechanisms = (*SCRAM, "PLAIN")

    def __init__(self, built: Path) -> None:
        self.of = CyrusSasl(built)

    def program(self, mechanism: str, user: User) -> list[str]:
        return [str(self.of.program), "client", str(self.of.plugins), mechanism, user.name, user.password, "late"]


class LateGnu(LateClients):
    name = "GNU SASL in frames of Qpid Proton's codec"
    package = f"{GnuSasl.package}, {QpidProton.package}"
    mechanisms = (*MECHANISMS, "PLAIN")
    of = GnuSasl()

    def program(self, mechanism: str, user: User) -> list[str]:
        words = ["--client", "--no-client-first", "--quiet", "--no-cb", "-m", mechanism]
        return ["gsasl", *words, f"--authentication-id={user.name}", f"--password={user.password}"]

    def cells(self) -> Iterator[Cell]:
        yield from super().cells()
        yield none("server", "SCRAM-SHA-512", f"{WITHOUT}: a login", "it has only SHA-1 and SHA-256")
