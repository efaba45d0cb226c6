"""The progress of a login, on either side."""

from __future__ import annotations

import ctypes
from typing import Any, Optional

from ._errors import Refused
from ._frames import Frame, view_frame
from ._native import Bytes, _bytes, _library, _refusal, _written
from ._numbers import Progress, Status
from ._objects import _Guarded


class _Connection(_Guarded):
    """A login over the bytes of a connection, whose struct says how far it is, on either side."""

    __slots__ = ()
    _struct: Any

    def _ends(self) -> tuple[int, int]:
        connection = self._struct.connection
        return int(connection.progress), int(connection.why)

    @property
    def progress(self) -> int:
        """How far the login is: one of `Progress`."""
        return self._ended()[0]

    @property
    def why(self) -> Optional[Refused]:
        """Why the login failed, by the class of its status (`Refused`). Close the connection then. None if it has not
        failed."""
        progress, why = self._ended()
        return _refusal(why) if progress == Progress.FAILED else None

    def _ended(self) -> tuple[int, int]:
        ends = self._ends()
        self._alive()  # (after the reading: another thread can wipe meanwhile)
        return ends

    def _shown(self) -> str:
        return f"progress={self._ends()[0]}"

    def accept_extended_headers(self, accept: bool = True) -> None:
        """Sets whether this side accepts frames with an extended header, which a new connection does not. It then reads
        such a frame without that header (AMQP 1.0, part 2, section 2.3.1). Otherwise the frame fails the login: the status
        of `why` is `Status.NO_SASL_FRAME`."""
        with self._lock:
            self._struct.connection.extended_headers = bool(accept)

    def end_of_input(self) -> None:
        """Ends the login, because the other side ended its stream. A login in progress fails: `why` is an `EndOfInput`.
        Otherwise nothing changes."""
        with self._lock:
            _library.fe2o3_sasl_end_of_input(ctypes.byref(self._struct.connection))

    def foreign_header(self) -> Optional[bytes]:
        """Returns the eight bytes that the other side sent in the place of the SASL protocol header, if the login
        failed with PROTOCOL_HEADER_MISMATCH, and otherwise None. They say which protocol it speaks (AMQP 1.0, part 2,
        section 2.2)."""
        with self._lock:
            connection = self._struct.connection
            if self._ends() != (Progress.FAILED, Status.PROTOCOL_HEADER_MISMATCH) or connection.held_len != 8:
                return None
            return bytes(connection.held[:8])

    def wants_nonce(self) -> bool:
        """Returns whether the next step of the login may use a nonce. `receive` passes fresh random bytes in any case."""
        with self._lock:
            return bool(_library.fe2o3_sasl_wants_nonce(ctypes.byref(self._struct.connection)))

    def peek_frame(self, data: Bytes) -> Optional[Frame]:
        """Returns the frame that received bytes complete, or None if they complete none. Nothing is taken: pass the
        same bytes to `receive` after that. Raises `ProtocolError` if the frame cannot be parsed, and `InvalidState` if
        the login has ended.
        """
        with self._lock:
            body = self._peeked(_bytes(data))
        return view_frame(body) if body else None

    def _peeked(self, data: bytes) -> bytes:
        """Returns the body of the frame that received bytes complete, which is empty if they complete none."""
        connection = ctypes.byref(self._struct.connection)
        return _written(508, lambda *room: _library.fe2o3_sasl_peek_frame(connection, data, len(data), *room))
