"""The example in Python whose users are in a table of PostgreSQL: two brokers over one table, and the example client."""

from __future__ import annotations

import os
import shutil
import signal
import socket
import subprocess
import sys
from contextlib import ExitStack
from pathlib import Path
from typing import Iterator, Optional

from cells import Cell
from postgresql import PostgreSql
from sides import COMMA, PATIENCE, PYTHON, USER, Ending, Side, User, ended_after

sys.path.insert(0, str(PYTHON))
import peers  # noqa: E402

EXAMPLE, STRONGEST = PYTHON / "examples" / "shared_users.py", "SCRAM-SHA-512"
IN = f"logged in: {STRONGEST}"
WRONG = "not logged in: Connection: The login was rejected (81)"
TEMPORARY = "not logged in: Connection: The login was rejected: temporary system error (84)"
NEW = User("user", "another pencil")


class SharedUsers(PostgreSql):
    name = "PostgreSQL as the store of two brokers"
    package = "postgresql, python3-psycopg"
    by_frames = True
    languages = ("Python",)

    def missing(self) -> bool:
        self.python = self.with_module()
        return self.python is None or super().missing()

    @staticmethod
    def with_module() -> Optional[str]:
        """A Python that has the module for PostgreSQL."""
        for python in filter(None, (sys.executable, shutil.which("python3", path="/usr/bin"))):
            if subprocess.run([python, "-c", "import psycopg"], stderr=subprocess.DEVNULL, check=False).returncode == 0:
                return python
        return None

    def start(self, folder: Path) -> None:
        super().start(folder)
        self.database = f"host={folder} port={self.port} user=admin dbname=postgres"
        self.example("prepare", self.database)
        self.brokers, self.opened = [], ExitStack()
        for _ in range(2):
            words = self.words("serve", "0", self.database)
            broker = subprocess.Popen(words, env=self.environment(), stdout=subprocess.PIPE, text=True)
            self.brokers.append((self.opened.enter_context(ended_after(broker)), int(broker.stdout.readline())))

    def stop(self) -> None:
        if hasattr(self, "opened"):
            self.opened.close()
        super().stop()

    def words(self, *words: str) -> list[str]:
        return [self.python, "-B", str(EXAMPLE), *words]

    @staticmethod
    def environment() -> dict[str, str]:
        return {**os.environ, "PYTHONPATH": str(PYTHON)}

    def example(self, *words: str, typed: str = "") -> None:
        subprocess.run(self.words(*words), env=self.environment(), input=typed, text=True, timeout=PATIENCE, check=True)

    def set(self, user: User) -> None:
        """Adds a user, or changes its password."""
        self.example("set", user.name, self.database, typed=user.password + "\n")

    def end(self) -> None:
        """Ends the server at once, as a fault would."""
        self.server.send_signal(signal.SIGQUIT)
        self.server.wait(PATIENCE)

    def both(self, side: Side, user: User) -> list[str]:
        """What the example client says of a login at each broker. The broker has to say the same."""
        said = []
        for broker, port in self.brokers:
            done = subprocess.run(
                [*side.frames_client, "localhost", str(port), user.name],
                input=user.password + "\n",
                env=self.environment(),
                capture_output=True,
                text=True,
                timeout=PATIENCE,
                check=False,
            )
            said.append(done.stdout.strip())
            told = broker.stdout.readline()
            assert told.startswith(
                {IN: f"logged in: {user.name!r}\n", WRONG: "not logged in:"}.get(said[-1], "no login:")
            )
        return said

    def added(self, side: Side) -> Ending:
        self.sql("delete from users")
        before = self.both(side, COMMA)
        self.set(COMMA)
        return Ending("; ".join(before + self.both(side, COMMA)), None)

    def removed(self, side: Side) -> Ending:
        self.set(USER)
        before = self.both(side, USER)
        self.sql(f"delete from users where name = '{USER.name}'")
        return Ending("; ".join(before + self.both(side, USER)), None)

    def changed(self, side: Side) -> Ending:
        self.set(USER)
        before = self.both(side, USER)
        self.set(NEW)
        return Ending("; ".join(before + self.both(side, USER) + self.both(side, NEW)), None)

    def down(self, side: Side) -> Ending:
        self.set(USER)
        self.end()
        before = self.both(side, USER) + self.both(side, NEW)
        self.run()
        return Ending("; ".join(before + self.both(side, USER)), None)

    def unreadable(self, side: Side) -> Ending:
        self.set(USER)
        self.sql(f"update users set sha_256 = 'SCRAM-SHA-256$' where name = '{USER.name}'")
        return Ending("; ".join(self.both(side, USER)), None)

    def unknown(self, _: Side) -> Ending:
        """Whether an unknown name gets one salt from both brokers, and another name another one."""
        self.sql("delete from users")
        one, other = ({self.salt(port, name) for _, port in self.brokers} for name in ("nobody", "somebody"))
        return Ending(f"{len(one)} and {len(other)}, {len(one | other)} in all", None)

    def salt(self, port: int, name: str) -> bytes:
        """The salt of the challenge for a name, of a client that then ends the stream."""
        by, seen = peers.Login(peers.SHA_512, name, "pencil"), []
        by.begin()
        by.answer = lambda challenge: seen.append(challenge) or b""
        with socket.create_connection(("127.0.0.1", port), timeout=PATIENCE) as channel:
            answer = by.open()
            while not seen:
                channel.sendall(answer)
                answer = by.receive(channel.recv(4096))
        next(broker for broker, at in self.brokers if at == port).stdout.readline()
        return next(part for part in seen[0].split(b",") if part.startswith(b"s="))

    def cells(self) -> Iterator[Cell]:
        def cell(what: str, login, *said: str) -> Cell:
            return Cell("server", STRONGEST, what, login, Ending("; ".join(said), None))

        yield cell("a user that is added, before and after it, at both", self.added, WRONG, WRONG, IN, IN)
        yield cell("a user that is removed, before and after it, at both", self.removed, IN, IN, WRONG, WRONG)
        yield cell(
            "the old password, the same after a change, and the new one, at both",
            self.changed,
            IN,
            IN,
            WRONG,
            WRONG,
            IN,
            IN,
        )
        yield cell(
            "PostgreSQL is down: the right password and a wrong one; it is back: the right one",
            self.down,
            *[TEMPORARY] * 4,
            IN,
            IN,
        )
        yield cell("a record that cannot be read", self.unreadable, TEMPORARY, TEMPORARY)
        yield cell("salts of two unknown names, at both", self.unknown, "1 and 1, 2 in all")
