"""The keys of a client, and what keys and records have in common."""

from __future__ import annotations

import ctypes
from typing import Callable

from ._native import (
    Bytes,
    Text,
    _DIGEST_LENGTHS,
    _bytes,
    _count,
    _done,
    _hidden,
    _hidden_bytes,
    _library,
    _number,
    _passing,
    _version,
)
from ._numbers import _Form
from ._objects import _Stored
from ._structs import _ScramKeysStruct


def _make_of_salted(
    call: Callable[..., int], struct: ctypes.Structure, version: int, salted: Bytes, salt: Bytes, iterations: int
) -> None:
    """Computes the struct of a salted password."""
    salt, count = _bytes(salt), _number(iterations)
    with _passing(_hidden_bytes(salted)) as given:
        _done(call(_number(version), *given, salt, len(salt), count, ctypes.byref(struct)))


def _form(prepared: bool) -> int:
    return _Form.PREPARED if prepared else _Form.TYPED


def _make(
    call: Callable[..., int],
    struct: ctypes.Structure,
    version: int,
    password: Text,
    prepared: bool,
    salt: Bytes,
    iterations: int,
) -> None:
    """Computes the struct of a password."""
    salt, count = _bytes(salt), _number(iterations)
    with _passing(_hidden(password)) as given:
        _done(call(_number(version), _form(prepared), *given, salt, len(salt), count, ctypes.byref(struct)))


class Keys(_Stored):
    """The keys that a client can cache in place of its password. They are secret: they suffice to log in. Immutable
    until `wipe`, or the end of a `with` statement."""

    __slots__ = ()

    def __init__(self, version: int, iterations: int, salt: Bytes, client_key: Bytes, server_key: Bytes) -> None:
        """Keys from the values that an earlier login returned."""
        digest_length = _DIGEST_LENGTHS[_version(version)]
        salt = _bytes(salt)
        if len(salt) > 128:
            raise ValueError("the salt has more than 128 bytes")
        struct = _ScramKeysStruct(version=version, iterations=_count(iterations), salt_len=len(salt))
        with _passing(_hidden_bytes(client_key)) as client, _passing(_hidden_bytes(server_key)) as server:
            if client[1] != digest_length or server[1] != digest_length:
                raise ValueError("a key is not as long as a digest of the version")
            ctypes.memmove(struct.salt, salt, len(salt))
            ctypes.memmove(struct.client_key, *client)
            ctypes.memmove(struct.server_key, *server)
        self._struct = struct

    @classmethod
    def _of(cls, struct: _ScramKeysStruct) -> Keys:
        keys = cls.__new__(cls)
        keys._struct = struct
        return keys

    @classmethod
    def make(cls, version: int, password: Text, salt: Bytes, iterations: int, *, prepared: bool = False) -> Keys:
        """Derives the keys of a password, for a server that uses this salt and iteration count. The password is a typed
        one, of printable ASCII; `prepared` takes any text, without change (`saslprep`)."""
        struct = _ScramKeysStruct()
        _make(_library.fe2o3_scram_keys_make, struct, version, password, prepared, salt, iterations)
        return cls._of(struct)

    @classmethod
    def of_salted(cls, version: int, salted: Bytes, salt: Bytes, iterations: int) -> Keys:
        """Computes the keys of a salted password (RFC 5802, section 3), which you computed with this salt and iteration
        count, for example by `hashlib.pbkdf2_hmac("sha256", password, salt, iterations)`. The call cannot test that.
        Raises `Refused`, in this order: with NO_SUCH_VERSION; with RECORD_KEY_LENGTH_MISMATCH if the salted password is
        not as long as a digest of the hash; with TOO_LONG for a salt of more than 128 bytes; and with
        ZERO_ITERATIONS."""
        struct = _ScramKeysStruct()
        _make_of_salted(_library.fe2o3_scram_keys_of_salted, struct, version, salted, salt, iterations)
        return cls._of(struct)

    @property
    def client_key(self) -> bytes:
        """The ClientKey. It is secret."""
        return self._digest("client_key")

    @property
    def server_key(self) -> bytes:
        """The ServerKey. It is secret."""
        return self._digest("server_key")
