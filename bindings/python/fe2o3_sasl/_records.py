"""The records of a server, and mock records."""

from __future__ import annotations

import ctypes
import secrets
from typing import Optional, Union

from ._keys import _form, _make, _make_of_salted
from ._native import (
    Bytes,
    Text,
    _bytes,
    _done,
    _hidden,
    _hidden_bytes,
    _library,
    _number,
    _passing,
    _refusal,
    _status_text,
    _text,
    _wipe,
    _written,
)
from ._numbers import DEFAULT_ITERATIONS, DEFAULT_SALT_LEN, Status
from ._objects import _Stored
from ._structs import _SaslServerConfigStruct, _ScramRecordStruct

#: The settings of mock records: their secret, of 32 or more random bytes; or that secret, the salt length, at most 64, and
#: the iteration count. The secret by itself is for records with DEFAULT_SALT_LEN and DEFAULT_ITERATIONS.
MockSettings = Union[bytes, bytearray, memoryview, tuple[Bytes, int, int]]


def _salt(given: Optional[Bytes], length: int) -> bytes:
    return secrets.token_bytes(_number(length, 128)) if given is None else _bytes(given)


class Record(_Stored):
    """What a server stores of a password. Immutable until `wipe`, or the end of a `with` statement."""

    __slots__ = ()

    def __init__(self) -> None:
        raise TypeError("a record is made by Record.make, of_salted, from_fields, parse or mock")

    @classmethod
    def _of(cls, struct: _ScramRecordStruct) -> Record:
        record = cls.__new__(cls)
        record._struct = struct
        return record

    @classmethod
    def make(
        cls,
        version: int,
        password: Text,
        *,
        prepared: bool = False,
        salt: Optional[Bytes] = None,
        salt_len: int = DEFAULT_SALT_LEN,
        iterations: int = DEFAULT_ITERATIONS,
    ) -> Record:
        """Computes the record of a password. The password is a typed one, of printable ASCII; `prepared` takes any text,
        without change (`saslprep`), and a client logs in with exactly that text. The salt defaults to `salt_len`
        random bytes, at most 128. For SCRAM-SHA-256 some clients of MongoDB require a salt of 28 bytes. All records of a
        server need one salt length and one iteration count, which are also those of its mock records."""
        struct, salt = _ScramRecordStruct(), _salt(salt, salt_len)
        _make(_library.fe2o3_scram_record_make, struct, version, password, prepared, salt, iterations)
        return cls._of(struct)

    @classmethod
    def of_salted(cls, version: int, salted: Bytes, salt: Bytes, iterations: int) -> Record:
        """Computes the record of a salted password (RFC 5802, section 3), which you computed with this salt and
        iteration count, for example by `hashlib.pbkdf2_hmac("sha256", password, salt, iterations)`. The call cannot test that.
        Raises `Refused` like `Keys.of_salted`."""
        struct = _ScramRecordStruct()
        _make_of_salted(_library.fe2o3_scram_record_of_salted, struct, version, salted, salt, iterations)
        return cls._of(struct)

    @classmethod
    def from_fields(cls, version: int, salt: Bytes, iterations: int, stored_key: Bytes, server_key: Bytes) -> Record:
        """Returns the record of the fields that another server stores (RFC 5802, section 3), each as bytes, not in
        base64. Raises `Refused`, in this order: with NO_SUCH_VERSION; with TOO_LONG for a salt of more than 128 bytes;
        with ZERO_ITERATIONS; and with RECORD_KEY_LENGTH_MISMATCH if a key is not as long as a digest of the hash."""
        struct, salt, count = _ScramRecordStruct(), _bytes(salt), _number(iterations)
        call, of_salt = _library.fe2o3_scram_record_from_fields, (salt, len(salt), count)
        with _passing(_hidden_bytes(stored_key)) as stored, _passing(_hidden_bytes(server_key)) as server:
            _done(call(_number(version), *of_salt, *stored, *server, ctypes.byref(struct)))
        return cls._of(struct)

    @classmethod
    def parse(cls, text: Text) -> Record:
        """Parses the text of a record, as PostgreSQL writes it (RFC 5803, section 2). Raises `RecordError` if it is no
        record."""
        struct, spelled = _ScramRecordStruct(), _text(text)
        _done(_library.fe2o3_scram_record_parse(spelled, len(spelled), ctypes.byref(struct)))
        return cls._of(struct)

    @classmethod
    def mock(
        cls,
        version: int,
        secret: Bytes,
        username: Text,
        salt_len: int = DEFAULT_SALT_LEN,
        iterations: int = DEFAULT_ITERATIONS,
    ) -> Record:
        """Computes a mock record for a name without a record of this hash, so that the server answers it like one with a
        record. The login then fails at its proof. The secret is 32 or more random bytes, one value for all names, kept
        as long as the records. The salt length, at most 64, and the iteration count are those of the other records.
        `ServerConnection` makes mock records itself (`mock`), as does `RecordStore.record`."""
        settings = _Mock((secret, salt_len, iterations))
        try:
            return cls._of(settings.record(_number(version), _text(username)))
        finally:
            settings.wipe()

    @classmethod
    def find(cls, lines: Text, username: Text, version: int) -> Record:
        """Finds the record of a user and a version in a text of lines as `line` writes them. Raises `UnknownUser` if
        there is none, and `RecordError`, whose text has the number of the line, if any line cannot be parsed."""
        struct, text, name, at = _ScramRecordStruct(), _text(lines), _text(username), ctypes.c_size_t()
        status = _library.fe2o3_scram_lines_find(
            text, len(text), name, len(name), _number(version), ctypes.byref(at), ctypes.byref(struct)
        )
        if status != Status.OK and at.value:
            raise _refusal(status, f"Line {at.value}: {_status_text(status)}")
        _done(status)
        return cls._of(struct)

    def line(self, username: Text) -> str:
        """Returns the line of a user with this record: the name with its commas and equals signs escaped, a space, the
        text of the record, and a line feed."""
        name = _text(username)
        with self._lending() as struct:
            line = _written(
                3 * len(name) + 384, lambda *room: _library.fe2o3_scram_line(name, len(name), struct, *room)
            )
        return line.decode("utf-8")

    def text(self) -> str:
        """Returns the text of the record, as PostgreSQL reads it (RFC 5803, section 2). Anyone who has it can try
        passwords."""
        with self._lending() as struct:
            return _written(384, lambda *room: _library.fe2o3_scram_record_text(struct, *room)).decode("ascii")

    def verify(self, password: Text, *, prepared: bool = False) -> bool:
        """Returns whether a password, for instance one received by PLAIN, is the record's. The password is a typed one;
        `prepared` takes any text, without change (`saslprep`). Raises `Refused` if it is not UTF-8."""
        with self._lending() as struct, _passing(_hidden(password)) as given:
            status = _library.fe2o3_scram_record_verify(struct, _form(prepared), *given)
        if status == Status.OTHER_PASSWORD:
            return False
        _done(status)
        return True

    def verify_salted(self, salted: Bytes) -> bool:
        """Returns whether a salted password (RFC 5802, section 3) is the record's. A server that receives a password, for
        instance by PLAIN, computes it with the salt and the iteration count of the record. Raises `Refused` with
        RECORD_KEY_LENGTH_MISMATCH if it is not as long as a digest of the hash."""
        with self._lending() as struct, _passing(_hidden_bytes(salted)) as given:
            status = _library.fe2o3_scram_record_verify_salted(struct, *given)
        if status == Status.OTHER_PASSWORD:
            return False
        _done(status)
        return True

    @property
    def stored_key(self) -> bytes:
        """The StoredKey. Anyone who has it can try passwords."""
        return self._digest("stored_key")

    @property
    def server_key(self) -> bytes:
        """The ServerKey. Anyone who has it can impersonate the server."""
        return self._digest("server_key")


class _Mock:
    """The settings of mock records, with a copy of their secret, which `wipe` reaches."""

    __slots__ = ("_iterations", "_salt_len", "_secret")

    def __init__(self, settings: MockSettings) -> None:
        form = settings if isinstance(settings, tuple) else (settings, DEFAULT_SALT_LEN, DEFAULT_ITERATIONS)
        secret, salt_len, iterations = form
        self._salt_len, self._iterations = _number(salt_len), _number(iterations)
        if memoryview(secret).nbytes < 32:
            raise ValueError("the secret has fewer than 32 bytes")
        if self._salt_len > 64:
            _done(Status.TOO_LONG)
        if self._iterations == 0:
            _done(Status.ZERO_ITERATIONS)
        self._secret = _hidden_bytes(secret)

    def record(self, version: int, name: bytes) -> _ScramRecordStruct:
        """Returns the mock record of a name, which the caller wipes."""
        struct, call = _ScramRecordStruct(), _library.fe2o3_scram_record_mock
        secret, form = (self._secret, len(self._secret) - 1), (self._salt_len, self._iterations)
        _done(call(version, *secret, name, len(name), *form, ctypes.byref(struct)))
        return struct

    def lend(self, config: _SaslServerConfigStruct) -> None:
        """Sets the fields of mock authentication. The struct then points to the secret."""
        config.iterations, config.mock_salt_len = self._iterations, self._salt_len
        config.mock_secret, config.mock_secret_len = ctypes.addressof(self._secret), len(self._secret) - 1

    def wipe(self) -> None:
        _wipe(self._secret)
