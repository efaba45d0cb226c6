"""What the body of a frame says."""

from __future__ import annotations

import ctypes
from typing import NamedTuple, Optional

from ._native import Bytes, Text, _bytes, _done, _library, _text
from ._numbers import Status
from ._structs import _SaslFrameViewStruct


class Frame(NamedTuple):
    """What the body of a frame says (AMQP 1.0, part 5, section 5.3.3).

    - `kind`: which frame it is, by its descriptor: 0x40 the mechanisms, 0x41 an init, 0x42 a challenge, 0x43 a
      response, 0x44 an outcome
    - `code`: the code of an outcome, otherwise 0
    - `count`: how many mechanisms there are
    - `taken`: how many bytes of the body the frame takes
    - `mechanism`: the mechanism of an init
    - `message`: the initial response, the challenge, the response, or the additional data of an outcome
    - `hostname`: the hostname of an init
    """

    kind: int
    code: int
    count: int  # type: ignore[assignment]  # (`tuple` has a method of this name)
    taken: int
    mechanism: str
    message: Optional[bytes]
    hostname: Optional[str]

    def __repr__(self) -> str:
        # (by PLAIN the message holds the password)
        message = None if self.message is None else f"<{len(self.message)} bytes>"
        return (
            f"Frame(kind={self.kind:#x}, code={self.code}, count={self.count}, taken={self.taken}, "
            f"mechanism={self.mechanism!r}, message={message}, hostname={self.hostname!r})"
        )


def view_frame(body: Bytes) -> Frame:
    """Returns what the body of a frame says. The body begins with the data offset, after the four bytes of the size.
    Raises `ProtocolError` if it cannot be parsed."""
    given, view = _bytes(body), _SaslFrameViewStruct()
    _done(_library.fe2o3_sasl_view_frame(given, len(given), ctypes.byref(view)))
    mechanism, message, hostname = (
        ctypes.string_at(at, size) if size else b""
        for at, size in (
            (view.mechanism, view.mechanism_len),
            (view.message, view.message_len),
            (view.hostname, view.hostname_len),
        )
    )
    return Frame(
        int(view.kind),
        int(view.code),
        int(view.count),
        int(view.taken),
        mechanism.decode("ascii"),
        message if view.has_message else None,
        hostname.decode("utf-8") if view.has_hostname else None,
    )


def offers(body: Bytes, mechanism: Text) -> bool:
    """Returns whether the body of a frame, which is a server's list of mechanisms, has this one. Raises `ProtocolError`
    if it is no such body."""
    given, name = _bytes(body), _text(mechanism)
    status = _library.fe2o3_sasl_offers(given, len(given), name, len(name))
    if status == Status.NOT_IMPLEMENTED:
        return False
    _done(status)
    return True
