"""Our side of a login: the programs in C and in Rust, each started for each login."""

from __future__ import annotations

import base64
import contextlib
import os
import pwd
import re
import socket
import subprocess
import threading
from pathlib import Path
from typing import Callable, Iterator, NamedTuple, Optional

#: No login takes longer, in seconds.
PATIENCE = 60

#: The folder of the module for Python, and of its examples.
PYTHON = Path(__file__).resolve().parent.parent / "bindings" / "python"
SCRAM = ("SCRAM-SHA-1", "SCRAM-SHA-256", "SCRAM-SHA-512")
#: What our programs over frames call EXTERNAL and ANONYMOUS with the user's name as the initial response.
EXTERNAL_AS, ANONYMOUS_AS = "EXTERNAL as", "ANONYMOUS as"
#: The word with which our client over frames accepts the server's signature in a challenge, and our server sends it there.
BY_CHALLENGE = "challenge"
#: The word with which our server over frames asks for the initial response of an init without one.
ASK = "ask"
#: As long as the rows of stored vectors have it.
SALT = b"a salt of thirty-two bytes, so!!"
#: The frame of an outcome of code Ok without data.
OUTCOME_OK = bytes.fromhex("0000001002010000005344c003015000")


class Ending(NamedTuple):
    """How a login ended: what our program said of it, and whether the peer took the client for logged in (None where
    that cannot be seen)."""

    ours: str
    peer: Optional[bool]


class User(NamedTuple):
    """A user of a server of ours, whose password is prepared for it or not."""

    name: str
    password: str
    count: int = 4096
    prepared: bool = False


USER = User("user", "pencil")
COMMA = User("a,b=c", "pen,cil=")
#: The trace information of an anonymous client.
TRACE = User("trace@example.org", "")
#: A non-ASCII password that SASLprep does not change.
PAST = User("user", "p\u00e4ssw\u00f6rd")
#: The first example of RFC 4013, section 3: the soft hyphen is prepared to nothing.
SOFT, HARD = User("user", "I\u00adX"), User("user", "IX")


class Client(NamedTuple):
    """Who logs in by a client of ours, with its bounds of the count; `again` logs in by the keys once more. The name is
    the trace information of ANONYMOUS, and the authorization identity of EXTERNAL. `channel` is what it binds, as a kind
    of channel binding and the data in hexadecimal, with a colon between."""

    mechanism: str
    user: User = USER
    least: int = 4096
    most: int = 1_000_000
    again: bool = False
    channel: str = ""
    #: The identity that the client of SCRAM or PLAIN acts for, if there is one.
    acts_for: str = ""

    def words(self, port: int) -> list[str]:
        more = prepared(self.user) + (["again"] if self.again else [])
        more += [f"for:{self.acts_for}"] if self.acts_for else []
        more += [self.channel] if self.channel else []
        return ["client", str(port), self.mechanism, self.user.name, str(self.least), str(self.most), *more]


def prepared(user: User) -> list[str]:
    """The word for a password that is prepared."""
    return ["prepared"] if user.prepared else []


@contextlib.contextmanager
def ended_after(program: subprocess.Popen) -> Iterator[subprocess.Popen]:
    """A program that is ended, by its number, where it has not ended by itself."""
    try:
        yield program
    finally:
        if program.poll() is None:
            program.terminate()
            try:
                program.wait(10)
            except subprocess.TimeoutExpired:
                program.kill()
                program.wait()
        for pipe in (program.stdin, program.stdout, program.stderr):
            if pipe is not None:
                with contextlib.suppress(BrokenPipeError):
                    pipe.close()


def listening() -> socket.socket:
    """A listener on the loopback, at a free port."""
    listener = socket.create_server(("127.0.0.1", 0))
    listener.settimeout(PATIENCE)
    return listener


def dialled(port: int) -> socket.socket:
    """A connection to a port of the loopback. It waits for ever, as what inherits it has to."""
    channel = socket.create_connection(("127.0.0.1", port), timeout=PATIENCE)
    channel.settimeout(None)
    channel.setsockopt(socket.IPPROTO_TCP, socket.TCP_NODELAY, 1)
    return channel


def unprivileged(*owned: Path) -> dict[str, object]:
    """How a program is started as a user who is not root, whose these files become; nothing changes for another user
    than root."""
    if os.geteuid() != 0:
        return {}
    user = pwd.getpwnam("nobody")
    for path in owned:
        os.chown(path, user.pw_uid, user.pw_gid)
    return {"user": user.pw_uid, "group": user.pw_gid, "extra_groups": []}


def free_port() -> int:
    """A port of the loopback that was free a moment ago."""
    with socket.create_server(("127.0.0.1", 0)) as listener:
        return listener.getsockname()[1]


def other_signature(message: bytes) -> bytes:
    """A server-final message with another digit in its signature."""
    return message[:8] + (b"B" if message[8:9] == b"A" else b"A") + message[9:]


def marred(came: bytes) -> bytes:
    """What a server sent, with another signature if it has one, on a line or in a frame."""
    # (`v=` in base64 begins with `dj`; in a frame one byte of a size is before it)
    line = re.search(rb"^dj[0-3][A-Za-z0-9+/]+=*$", came, re.MULTILINE)
    if line is not None:
        message = other_signature(base64.b64decode(line[0]))
        return came[: line.start()] + base64.b64encode(message) + came[line.end() :]
    field = re.search(rb"\xa0.(v=.*)", came, re.DOTALL)
    return came if field is None else came[: field.start(1)] + other_signature(field[1])


def unsigned(came: bytes) -> bytes:
    """What a server sent, with an outcome of code Ok in place of a challenge with its signature."""
    return OUTCOME_OK if re.search(rb"\xa0.v=", came, re.DOTALL) else came


class Tap:
    """Listens in place of a server, hands what comes to it and back, and keeps the bytes of each direction in order.
    What the server sends can be marred."""

    def __init__(self, port: int, mar: Optional[Callable[[bytes], bytes]] = None) -> None:
        self.listener, self.server, self.kept, self.mar = listening(), port, [], mar or (lambda came: came)
        self.port = self.listener.getsockname()[1]
        threading.Thread(target=self.run, daemon=True).start()

    def run(self) -> None:
        with contextlib.suppress(OSError), self.listener:
            while True:
                client, _ = self.listener.accept()
                server = dialled(self.server)
                for one, other, whose in ((client, server, "client"), (server, client, "server")):
                    threading.Thread(target=self.relay, args=(one, other, whose), daemon=True).start()

    def relay(self, one: socket.socket, other: socket.socket, whose: str) -> None:
        with contextlib.suppress(OSError):
            while came := one.recv(65536):
                came = self.mar(came) if whose == "server" else came
                self.kept.append((whose, came))
                other.sendall(came)
        with contextlib.suppress(OSError):
            other.shutdown(socket.SHUT_WR)


class Side:
    """The programs of one language: `lines` speaks SASL without frames, the other two AMQP's frames."""

    def __init__(self, language: str, lines: Path, client: list[str], server: list[str], folder: Path) -> None:
        self.language, self.lines, self.folder = language, str(lines), folder
        self.frames_client, self.frames_server = client, server
        self.made: dict[tuple[str, User], str] = {}
        #: Where a list is kept, the bytes of each login are put into it.
        self.taps: Optional[list[Tap]] = None

    def said(self, words: list[str], password: str) -> str:
        """What the program of lines says to these words and this password."""
        done = subprocess.run(
            [self.lines, *words], input=password + "\n", capture_output=True, text=True, timeout=PATIENCE, check=False
        )
        return done.stdout.strip() or f"status {done.returncode}"

    def record(self, mechanism: str, user: User) -> str:
        """The text of a user's record, by our library."""
        if (mechanism, user) not in self.made:
            salt = base64.b64encode(SALT).decode()
            words = ["record", mechanism, salt, str(user.count), *prepared(user)]
            self.made[mechanism, user] = self.said(words, user.password)
        return self.made[mechanism, user]

    def users(self, records: dict[str, str]) -> Path:
        """A file of users' lines."""
        file = self.folder / f"users-{self.language}"
        lines = [f"{name.replace('=', '=3D').replace(',', '=2C')} {record}\n" for name, record in records.items()]
        file.write_text("".join(lines))
        return file

    def tapped(self, port: int, mar: Optional[Callable[[bytes], bytes]] = None) -> int:
        """The port of a tap before a port, where bytes are to be kept or marred."""
        if self.taps is None and mar is None:
            return port
        tap = Tap(port, mar)
        if self.taps is not None:
            self.taps.append(tap)
        return tap.port

    def log_in(self, client: Client, peer: Callable[[socket.socket], Optional[bool]], mar=None) -> Ending:
        """A login by our client over lines. The peer is called with its end of each connection."""
        with listening() as listener:
            port = self.tapped(listener.getsockname()[1], mar)
            words = [self.lines, *client.words(port)]
            pipes = {"stdin": subprocess.PIPE, "stdout": subprocess.PIPE, "text": True}
            with ended_after(subprocess.Popen(words, **pipes)) as program:
                program.stdin.write(client.user.password + "\n")
                program.stdin.close()
                told, seen = [], True
                for _ in range(1 + client.again):
                    channel, _ = listener.accept()
                    with channel:
                        seen = peer(channel) and seen
                    told.append(program.stdout.readline().strip())
                    if told[-1].startswith("not"):
                        break
                return Ending("; ".join(told), seen)

    def serve(
        self,
        mechanism: str,
        records: dict[str, str],
        peer: Callable[[socket.socket], Optional[bool]],
        mar=None,
        more=(),
    ) -> Ending:
        """A login at our server over lines, for which it has more words. The peer is called with its end of the
        connection."""
        words = [self.lines, "server", str(self.users(records)), mechanism, "1", *more]
        with ended_after(subprocess.Popen(words, stdout=subprocess.PIPE, text=True)) as program:
            with dialled(self.tapped(int(program.stdout.readline()), mar)) as channel:
                seen = peer(channel)
            return Ending(program.stdout.readline().strip(), seen)

    def log_in_by_frames(self, port: int, mechanism: str, user: User, *more: str, mar=None) -> str:
        """What our client over frames says of a login, for which it has more words."""
        words = [*self.frames_client, "127.0.0.1", str(self.tapped(port, mar)), mechanism, user.name, *more]
        done = subprocess.run(
            words, input=user.password + "\n", capture_output=True, text=True, timeout=PATIENCE, check=False
        )
        return done.stdout.strip() or f"status {done.returncode}"

    def external_server(self, name: str) -> subprocess.Popen:
        """Our server over frames for a login by EXTERNAL with this name. The first line that it prints is its port."""
        words = [*self.frames_server, str(self.users({})), "1", "EXTERNAL", name]
        return subprocess.Popen(words, stdout=subprocess.PIPE, text=True)

    def serve_frames(
        self, mechanism: str, records: dict[str, str], peer: Callable[[int], Optional[bool]], mar=None, more=()
    ) -> Ending:
        """A login at our server over frames, for which it has more words. The peer is called with the server's port."""
        words = [*self.frames_server, str(self.users(records)), "1", mechanism, *more]
        with ended_after(subprocess.Popen(words, stdout=subprocess.PIPE, text=True)) as program:
            seen = peer(self.tapped(int(program.stdout.readline()), mar))
            return Ending(program.stdout.readline().strip(), seen)
