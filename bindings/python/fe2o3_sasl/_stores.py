"""The records of the users in a file."""

from __future__ import annotations

import contextlib
from typing import Optional

from ._errors import UnknownUser
from ._native import Bytes, Text, _refusal, _text, _version
from ._numbers import DEFAULT_ITERATIONS, DEFAULT_SALT_LEN, Offer, SHA_1, SHA_256, SHA_512, Status
from ._objects import _Wipeable
from ._records import Record

#: What a server offers for each hash, in the order in which `scram users add` makes the records of a user.
_OFFERED = {SHA_256: Offer.SCRAM_SHA_256, SHA_512: Offer.SCRAM_SHA_512, SHA_1: Offer.SCRAM_SHA_1}


class RecordStore(_Wipeable):
    """The records of the users in a text of lines, as `Record.line` and the program `scram users` write them:

        store = RecordStore(Path("users.txt").read_bytes())
        side = ServerConnection(store.records, mechanisms=store.hashes(), mock=store.mock_settings(secret))

    Immutable until `wipe`, or the end of a `with` statement. Make a new one if the file has changed."""

    __slots__ = ("_forms", "_hashes", "_users")

    def __init__(self, lines: Text) -> None:
        """Parses the lines. Raises `RecordError`, whose text has the number of the line, if any line cannot be parsed."""
        text = _text(lines)
        with contextlib.suppress(UnknownUser), Record.find(text, b"", SHA_1):
            pass  # (`find` tests each line)
        users: dict[str, list[Record]] = {}
        forms: dict[tuple[int, int], None] = {}
        for line in text.split(b"\n")[:-1]:
            name, _, spelled = line.rpartition(b" ")
            record = Record.parse(spelled)
            users.setdefault(name.replace(b"=2C", b",").replace(b"=3D", b"=").decode("utf-8"), []).append(record)
            forms[int(record._struct.salt_len), int(record._struct.iterations)] = None
        shared, ranks = set(_OFFERED) if users else set(), {hash: rank for rank, hash in enumerate(_OFFERED)}
        for records in users.values():
            records.sort(key=lambda record: ranks[record._struct.version])
            shared &= {int(record._struct.version) for record in records}
        self._users: Optional[dict[str, list[Record]]] = users
        self._forms = list(forms)
        self._hashes = Offer(0)
        for hash in shared:
            self._hashes |= _OFFERED[hash]

    def records(self, name: str) -> list[Record]:
        """Returns the records of a user, those of SHA-256 first, of which PLAIN takes the first; none for an unknown name.
        Pass this method to `ServerConnection`."""
        return list(self._known().get(name, ()))

    def hashes(self) -> Offer:
        """Returns the hashes for which every user has a record, as a server offers them; none if there is no user. Offer
        only these: a user cannot log in by a hash for which it has no record, and many clients select the strongest."""
        self._alive()
        return self._hashes

    def forms(self) -> list[tuple[int, int]]:
        """Returns each salt length with an iteration count that records have, in the order of their first lines. If there
        are several, the answers show which names exist, since mock records have one."""
        self._alive()
        return list(self._forms)

    def mock_settings(self, secret: Bytes) -> tuple[Bytes, int, int]:
        """Returns the settings of mock records that look like the records of the store: this secret, of 32 or more random
        bytes, with the salt length and the iteration count of the first line. Without lines these are
        DEFAULT_SALT_LEN and DEFAULT_ITERATIONS."""
        salt_len, iterations = (self.forms() or [(DEFAULT_SALT_LEN, DEFAULT_ITERATIONS)])[0]
        return secret, salt_len, iterations

    def record(self, name: str, version: int, mock_secret: Optional[Bytes] = None) -> Record:
        """Returns the first record of a user and a hash, for `Server` and `plain_verify`. If there is none, returns a mock
        record by this secret and `mock_settings`, so that the answers do not show which names exist. Without a secret it
        raises `UnknownUser`."""
        hash = _version(version)
        for record in self._known().get(name, ()):
            if record.version == hash:
                return record
        if mock_secret is None:
            raise _refusal(Status.NO_SUCH_USER)
        secret, salt_len, iterations = self.mock_settings(mock_secret)
        return Record.mock(version, secret, name, salt_len=salt_len, iterations=iterations)

    def _known(self) -> dict[str, list[Record]]:
        users = self._users
        self._alive()
        return users or {}

    def _is_wiped(self) -> bool:
        return self._users is None

    def wipe(self) -> None:
        """Wipes the records (`Record.wipe`), also those that calls have returned. After that each method raises `Wiped`.
        Calling `wipe` again does nothing. The end of a `with` statement calls it."""
        users, self._users = self._users, None
        for records in (users or {}).values():
            for record in records:
                record.wipe()

    def _shown(self) -> str:
        return f"users={len(self._known())}"
