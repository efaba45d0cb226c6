"""Objects with secrets, which `wipe` overwrites."""

from __future__ import annotations

import contextlib
import ctypes
import hmac
import threading
from typing import Any, Callable, Iterable, Iterator, TypeVar

from ._errors import Wiped
from ._native import _DIGEST_LENGTHS, _wipe

_Own = TypeVar("_Own", bound="_Wipeable")


class _Wipeable:
    """An object with secrets, which the end of a `with` statement wipes."""

    __slots__ = ()

    def _is_wiped(self) -> bool:
        raise NotImplementedError

    def _alive(self) -> None:
        if self._is_wiped():
            raise Wiped(f"the {type(self).__name__} is wiped")

    def wipe(self) -> None:
        """Overwrites the secrets of the object by zeros, and its whole state with them. After that each method and
        property raises `Wiped`. Calling `wipe` again does nothing. The end of a `with` statement calls it."""
        raise NotImplementedError

    def __enter__(self: _Own) -> _Own:
        self._alive()
        return self

    def __exit__(self, *why: object) -> None:
        self.wipe()

    def _shown(self) -> str:
        return ""

    def __repr__(self) -> str:
        try:
            return f"{type(self).__name__}({'wiped' if self._is_wiped() else self._shown()})"
        except Wiped:  # (by another thread meanwhile)
            return f"{type(self).__name__}(wiped)"


class _Stored(_Wipeable):
    """A struct with secrets that does not change until it is wiped."""

    __slots__ = ("_struct",)
    _struct: Any

    def _is_wiped(self) -> bool:
        return self._struct is None

    def _copied(self) -> Any:
        """Returns a copy of the struct, which the caller wipes. Only copies are used: another thread can wipe the struct
        meanwhile."""
        struct = self._struct
        self._alive()
        copy = type(struct).from_buffer_copy(struct)
        if self._is_wiped():  # (then a part of the copy can be zeros)
            _wipe(copy)
        self._alive()
        return copy

    @contextlib.contextmanager
    def _lending(self) -> Iterator[Any]:
        """Lends a copy of the struct to calls, and wipes it."""
        copy = self._copied()
        try:
            yield copy
        finally:
            _wipe(copy)

    def wipe(self) -> None:
        """Overwrites the keys by zeros, and the other values with them. After that each method and property raises
        `Wiped`. Clients, servers and calls that were passed the object have their own copies. Calling `wipe` again does
        nothing. The end of a `with` statement calls it."""
        struct, self._struct = self._struct, None
        if struct is not None:
            _wipe(struct)

    def __eq__(self, other: object) -> bool:
        """Whether both hold the same values. The time of the comparison does not depend on the keys. Raises `Wiped` if one
        of them is wiped."""
        if type(other) is not type(self) or not isinstance(other, _Stored):
            return NotImplemented
        with self._lending() as one, other._lending() as two:
            # (the bytes after the salt and after the keys are zeros)
            array = ctypes.c_char * ctypes.sizeof(one)
            return hmac.compare_digest(array.from_buffer(one), array.from_buffer(two))

    def __hash__(self) -> int:
        with self._lending() as struct:
            return hash((type(self), struct.version, struct.iterations, bytes(struct.salt)[: struct.salt_len]))

    @property
    def version(self) -> int:
        """The hash: SHA_1, SHA_256 or SHA_512."""
        with self._lending() as struct:
            return int(struct.version)

    @property
    def iterations(self) -> int:
        """The iteration count."""
        with self._lending() as struct:
            return int(struct.iterations)

    @property
    def salt(self) -> bytes:
        """The salt."""
        with self._lending() as struct:
            return bytes(struct.salt)[: struct.salt_len]

    def _digest(self, name: str) -> bytes:
        """Returns a field that holds a digest."""
        with self._lending() as struct:
            return ctypes.string_at(getattr(struct, name), _DIGEST_LENGTHS[struct.version])

    def _shown(self) -> str:
        return f"version={self.version}, iterations={self.iterations}"


class _Guard:
    """The lock of an object with secrets. To enter it raises `Wiped` once they are wiped."""

    __slots__ = ("_lock", "_owner", "is_closed")

    def __init__(self, owner: _Guarded) -> None:
        self._lock, self._owner, self.is_closed = threading.RLock(), type(owner).__name__, False

    def __enter__(self) -> None:
        self._lock.acquire()
        if self.is_closed:
            self._lock.release()
            raise Wiped(f"the {self._owner} is wiped")

    def __exit__(self, *why: object) -> None:
        self._lock.release()

    def close(self, secrets: Callable[[], Iterable[Any]]) -> None:
        """Waits for the calls in other threads, and wipes."""
        with self._lock:
            if not self.is_closed:
                self.is_closed = True
                _wipe(*secrets())


class _Guarded(_Wipeable):
    """An object whose calls change it, one after the other."""

    __slots__ = ("_lock",)
    _lock: _Guard

    def _is_wiped(self) -> bool:
        return self._lock.is_closed

    def _secrets(self) -> Iterable[Any]:
        """Returns the structs and buffers with secrets."""
        raise NotImplementedError

    def wipe(self) -> None:
        """Overwrites the object's copies of passwords and keys by zeros, and its whole state with them. Waits for its
        calls in other threads. After that each method and property raises `Wiped`. Calling `wipe` again does nothing.
        The end of a `with` statement calls it."""
        self._lock.close(self._secrets)
