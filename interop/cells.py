"""A cell of the table, and what a peer says of itself."""

from __future__ import annotations

import subprocess
from dataclasses import dataclass
from pathlib import Path
from typing import Callable, Iterator, Optional

from sides import Ending, Side, User


@dataclass
class Cell:
    """Logins of one kind: on which side we are, by which mechanism, and what is tried; a fresh login, and how it is to
    end; or why there is none."""

    ours: str
    mechanism: str
    what: str
    login: Optional[Callable[[Side], Ending]] = None
    ends: Ending = Ending("", None)
    reason: str = ""
    #: Of which user the bytes of a login can be kept as stored vectors, where they can; the password is as our side has
    #: it.
    kept: Optional[User] = None
    #: The word of our side in the rows of such vectors, where it is not `client` or `server`: `prepared` for a client
    #: with a prepared password, `cbind_flag_y` for a server that takes `y,,`, `records` for one that has a record alone.
    #: Over frames, the words of a server's options: it `asks` for an initial response, and `signs` in a challenge. A
    #: mechanism with `-PLUS` adds `_plus` to the word.
    kept_as: str = ""
    #: Whether the logins are made at once, since the peer lets each wait.
    at_once: bool = False


def none(ours: str, mechanism: str, what: str, reason: str) -> Cell:
    return Cell(ours, mechanism, what, reason=reason)


class Peer:
    """A program to log in to, or by. `start` and `stop` make and end what it needs, in a folder of its own."""

    name = ""
    #: The packages of Debian that it is of.
    package = ""
    #: Whether our programs speak frames to it, and not lines.
    by_frames = False
    #: The languages of our programs for it.
    languages: tuple[str, ...] = ("C", "Rust")

    def missing(self) -> bool:
        raise NotImplementedError

    def version(self) -> str:
        raise NotImplementedError

    def start(self, folder: Path) -> None:
        """Starts what has to be there for all cells."""

    def stop(self) -> None:
        """Ends it."""

    def cells(self) -> Iterator[Cell]:
        raise NotImplementedError


def certificate(folder: Path) -> tuple[Path, Path]:
    """A certificate of the loopback, and its key, made once for a folder."""
    made = folder / "certificate.pem", folder / "key.pem"
    if not made[0].exists():
        words = ["openssl", "req", "-x509", "-nodes", "-days", "2", "-subj", "/CN=localhost", "-newkey", "rsa:2048"]
        subprocess.run([*words, "-keyout", made[1], "-out", made[0]], stderr=subprocess.DEVNULL, check=True)
        made[1].chmod(0o600)
    return made
