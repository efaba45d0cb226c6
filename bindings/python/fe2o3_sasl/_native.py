"""The library: how it is loaded, and how values of Python are passed to its calls."""

from __future__ import annotations

import contextlib
import ctypes
import operator
import os
from typing import Any, Callable, Iterator, Optional, Union

from ._errors import Refused, _CLASSES
from ._exports import _EXPORTS
from ._numbers import SHA_1, SHA_256, SHA_512, Status
from ._structs import _SIZED, _TextStruct

#: A text as its characters or as the bytes of its UTF-8.
Text = Union[str, bytes, bytearray, memoryview]
#: Bytes, such as a message or a salt.
Bytes = Union[bytes, bytearray, memoryview]

#: The file of the library.
_FILE = "libfe2o3_sasl.so.3"
#: The hashes, with the lengths of their digests in bytes.
_DIGEST_LENGTHS = {SHA_1: 20, SHA_256: 32, SHA_512: 64}
#: The longest identity that a client can act for, in bytes.
_MAX_IDENTITY_LEN = 256


def _place() -> str:
    """Returns the library's name: that in FE2O3_SASL_LIB, otherwise that beside this file, otherwise the system's."""
    beside = os.path.join(os.path.dirname(os.path.abspath(__file__)), _FILE)
    return os.environ.get("FE2O3_SASL_LIB") or (beside if os.path.exists(beside) else _FILE)


def _load(name: str) -> ctypes.CDLL:
    """The library of this name, with the types of its exports. OSError if it is not there or does not fit."""
    library = ctypes.CDLL(name)
    for export, (answers, takes) in _EXPORTS.items():
        try:
            function = getattr(library, export)
        except AttributeError:
            raise OSError(f"{name} does not export {export}") from None
        function.restype = answers
        function.argtypes = takes
    for which, struct in enumerate(_SIZED):
        size = int(library.fe2o3_size(which))
        if size != ctypes.sizeof(struct):
            raise OSError(f"{name} does not fit: struct {which} has {size} bytes, and here {ctypes.sizeof(struct)}")
    return library


_library = _load(_place())


def library_version() -> tuple[int, int, int]:
    """Returns the version of the library: the major, the minor and the patch number."""
    number = int(_library.fe2o3_version())
    return number // 10000, number // 100 % 100, number % 100


def _lent(call: Callable[..., None], number: int) -> str:
    """Returns the text that a call lends for a number."""
    text = _TextStruct()
    call(number, ctypes.byref(text))
    if not text.bytes:
        return ""
    return ctypes.string_at(text.bytes, text.bytes_len).rstrip(b"\0").decode("utf-8", "replace")


def _status_text(status: int) -> str:
    return _lent(_library.fe2o3_status_text, status)


def _refusal(status: int, text: Optional[str] = None) -> Refused:
    """Returns the exception of a status."""
    return _CLASSES.get(status, Refused)(status, _status_text(status) if text is None else text)


def _done(status: int) -> None:
    if status != Status.OK:
        raise _refusal(status)


def _answered(room: int, call: Callable[..., int]) -> tuple[int, bytes]:
    """Returns the status of a call, and the text that it writes. `call` receives a buffer, its size, and where the text's
    length goes. If the buffer is too small, the call is repeated with one that suffices."""
    length = ctypes.c_size_t(room)
    for _ in range(2):
        given = length.value
        out = ctypes.create_string_buffer(max(given, 1))
        status = call(out, given, ctypes.byref(length))
        if status != Status.ROOM_TOO_SMALL:
            break
    text = ctypes.string_at(out, min(length.value, len(out)))
    _wipe(out)  # (the message of PLAIN has the password)
    return status, text


def _written(room: int, call: Callable[..., int]) -> bytes:
    """Returns the text that a call writes, like `_answered`, if it succeeds."""
    status, text = _answered(room, call)
    _done(status)
    return text


def _wipe(*held: Any) -> None:
    """Overwrites structs and buffers by zeros."""
    for one in held:
        _library.fe2o3_wipe(ctypes.byref(one), ctypes.sizeof(one))


def _bytes(value: Bytes) -> bytes:
    # (`bytes(5)` would be five zeros, and a foreign class could report a wrong length)
    return value if type(value) is bytes else memoryview(value).tobytes()


def _text(value: Text) -> bytes:
    # The library rejects what is not UTF-8, such as half a surrogate pair, with no part of the text in the exception.
    return str.encode(value, "utf-8", "surrogatepass") if isinstance(value, str) else _bytes(value)


def _hidden_bytes(value: Bytes) -> ctypes.Array[ctypes.c_char]:
    """Returns a copy of a secret for `_wipe`, with a zero byte after it."""
    view = memoryview(value)
    buffer = (ctypes.c_char * (view.nbytes + 1))()
    buffer.raw = view if view.c_contiguous else view.tobytes()
    return buffer


def _hidden(value: Text) -> ctypes.Array[ctypes.c_char]:
    """Returns a copy of a secret text for `_wipe`, in UTF-8, with a zero byte after it."""
    if not isinstance(value, str):
        return _hidden_bytes(value)
    buffer = (ctypes.c_char * (1 + sum(map(len, _pieces(value)))))()
    view, at = memoryview(buffer).cast("B"), 0
    for piece in _pieces(value):
        view[at : at + len(piece)] = piece
        at += len(piece)
    return buffer


def _pieces(value: str) -> Iterator[bytes]:
    """Returns the bytes that `_text` returns, in at most 256 pieces: the `bytes` of the whole could not be wiped. Up to
    255 characters, each is a piece."""
    length = str.__len__(value)
    step = 1 + length // 256
    for at in range(0, length, step):
        yield str.encode(str.__getitem__(value, slice(at, at + step)), "utf-8", "surrogatepass")


@contextlib.contextmanager
def _passing(secret: ctypes.Array[ctypes.c_char]) -> Iterator[tuple[ctypes.Array[ctypes.c_char], int]]:
    """Passes a secret and its length to calls, and wipes it."""
    try:
        yield secret, len(secret) - 1
    finally:
        _wipe(secret)


def _number(value: int, most: int = 0xFFFFFFFF) -> int:
    # (ctypes would truncate)
    number = operator.index(value)
    if not 0 <= number <= most:
        raise ValueError(f"not from 0 to {most}")
    return number


def _version(value: int) -> int:
    """Returns the number of a hash."""
    number = _number(value)
    if number not in _DIGEST_LENGTHS:
        raise _refusal(Status.NO_SUCH_VERSION)
    return number


def _count(value: int) -> int:
    """Returns an iteration count."""
    number = _number(value)
    if number == 0:
        raise _refusal(Status.ZERO_ITERATIONS)
    return number


def _name(value: Text) -> bytes:
    """Returns the bytes of a text that is no secret."""
    name = _text(value)
    try:
        name.decode("utf-8")
    except UnicodeDecodeError:
        raise _refusal(Status.NOT_UTF8) from None
    return name


def _identity(value: Optional[Text]) -> bytes:
    """Returns the identity that a client acts for, which is empty for the user itself."""
    name = _name("" if value is None else value)
    if len(name) > _MAX_IDENTITY_LEN:
        raise _refusal(Status.TOO_LONG)
    if b"\0" in name:
        raise _refusal(Status.PROHIBITED_CHARACTER)
    return name


def _instance(value: object, kind: type, what: str) -> None:
    if not isinstance(value, kind):
        raise TypeError(f"{what} is no {kind.__name__}")


def _callable(value: object, what: str) -> None:
    if not callable(value):
        raise TypeError(f"{what} cannot be called")
