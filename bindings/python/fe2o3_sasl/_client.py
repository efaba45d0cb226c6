"""A SCRAM client, over messages."""

from __future__ import annotations

import ctypes
import secrets
from typing import Any, Iterable, Optional

from ._channels import Channel
from ._errors import ServerError
from ._keys import Keys, _form
from ._messages import server_error
from ._native import (
    Bytes,
    Text,
    _bytes,
    _done,
    _hidden,
    _identity,
    _instance,
    _library,
    _name,
    _number,
    _refusal,
    _status_text,
    _version,
    _written,
)
from ._numbers import SHA_1, SHA_256, SHA_512, Status, _ChannelUse, _Secret
from ._objects import _Guard, _Guarded
from ._structs import _LoginStruct, _ScramClientStruct, _ScramKeysStruct


class _OwnLogin(_LoginStruct):
    """A login with its own copies of the password and the keys, which `wipe` reaches."""

    _kept: tuple[bytes, ctypes.Array[ctypes.c_char], _ScramKeysStruct, bytes]

    def keep(
        self, username: bytes, password: ctypes.Array[ctypes.c_char], keys: _ScramKeysStruct, acts_for: bytes
    ) -> _OwnLogin:
        """Points to the texts and the keys, and keeps them alive."""
        self._kept = username, password, keys, acts_for
        self.username, self.username_len = username, len(username)
        self.acts_for, self.acts_for_len = acts_for, len(acts_for)
        self.password, self.password_len = ctypes.addressof(password), len(password) - 1
        self.keys = ctypes.pointer(keys)
        return self

    def copied(self) -> _OwnLogin:
        """Returns a copy that shares no secret with this login."""
        username, password, keys, acts_for = self._kept
        copies = type(password).from_buffer_copy(password), _ScramKeysStruct.from_buffer_copy(keys)
        return _OwnLogin.from_buffer_copy(self).keep(username, *copies, acts_for)

    def secrets(self) -> tuple[Any, ...]:
        return self, self._kept[1], self._kept[2]


class Client(_Guarded):
    """A SCRAM client. It logs in with a password, with the keys of an earlier login, or with both: then it uses the
    keys if they are of the server's salt and iteration count, otherwise the password. The password is a typed one,
    of printable ASCII; `prepared` takes any text, without change (`saslprep`).

    Call `first`, `final` and `verify` in this order. `first` starts a new exchange at any time. The login is
    complete only if `verify` does not raise.

    `wipe`, or the end of a `with` statement, overwrites the password and the keys that the client holds, which are
    copies of yours."""

    __slots__ = ("_login", "_struct")

    def __init__(
        self,
        version: int,
        username: Text,
        password: Optional[Text] = None,
        keys: Optional[Keys] = None,
        *,
        prepared: bool = False,
        min_iterations: int = 4096,
        max_iterations: int = 1_000_000,
        signature_by_challenge: bool = False,
        channel: Optional[Channel] = None,
        plus_offered: bool = True,
        strict: bool = False,
        acts_for: Optional[Text] = None,
    ) -> None:
        """A client that has sent nothing. It rejects an iteration count below the minimum, with which a server could
        guess the password sooner (RFC 7677 requires at least 4096), and one above the maximum, which costs time.

        With `signature_by_challenge`, a `ClientConnection` also accepts the server's signature in a
        challenge, before an outcome without data (RFC 4422, section 5).

        The client binds `channel`, by the mechanism with `-PLUS` (`mechanism`). If the server did not offer that one,
        set `plus_offered` to False: the client then binds nothing, and its GS2 header is `y,,`. A server that offers
        `-PLUS` has to reject this header, as the servers here do (RFC 5802, section 6). The client also tests extensions:
        nobody on the way can move text between the messages. Removing the mechanism from the offer then ends the login. A
        server that offers `-PLUS` and accepts `y,,` does not protect against that, so log in to it only with
        `plus_offered`. Without a channel the GS2 header is `n,,`.

        With `strict`, the client reads messages by the grammar of RFC 5802, section 7. The server's part of the nonce has
        to be printable and not empty, the iteration count without a sign or leading zeros, and what follows the count
        or the signature an extension. A client with a `channel` tests the extensions in any case.

        The client acts for the identity `acts_for` (RFC 4422, section 2), without escapes, or for itself if that is None
        or empty. The server has to let the user act for it. The GS2 header is then `n,a=` with the identity, and the
        client tests the extensions in any case. An identity of more than 256 bytes or with NUL raises `Refused`, with
        TOO_LONG or PROHIBITED_CHARACTER. A `ClientConnection` of the client acts for the identity
        too."""
        if password is None and keys is None:
            raise ValueError("a login takes a password, keys, or both")
        name, identity = _name(username), _identity(acts_for)
        limits = _number(min_iterations), _number(max_iterations)
        if limits[0] > limits[1]:
            raise ValueError("the minimum iteration count is above the maximum")
        number = _version(version)
        if keys is not None:
            _instance(keys, Keys, "keys")
            if keys.version != number:
                raise _refusal(Status.OTHER_VERSION)
        if channel is not None:
            _instance(channel, Channel, "channel")
        if password is None:
            secret = _Secret.BY_KEYS
        else:
            secret = _Secret.BY_PASSWORD if keys is None else _Secret.BY_PASSWORD_AND_KEYS
        use = _ChannelUse.ABSENT
        if channel is not None:
            use = _ChannelUse.BOUND if plus_offered else _ChannelUse.NOT_OFFERED
        bound = channel if use == _ChannelUse.BOUND else None
        self._login = _OwnLogin(
            version=number,
            secret=secret,
            form=_form(prepared),
            min_iterations=limits[0],
            max_iterations=limits[1],
            signature_by_challenge=int(signature_by_challenge),
            strict=bool(strict),
            channel_use=use,
        )
        if bound is not None:
            self._login.channel_kind, self._login.channel_data_len = bound.kind, len(bound.data)
            self._login.channel_data = bound._array()
        text = _hidden("" if password is None else password)
        own_keys = _ScramKeysStruct() if keys is None else keys._copied()
        self._login.keep(name, text, own_keys, identity)
        self._struct = _ScramClientStruct()
        self._lock = _Guard(self)

    def _secrets(self) -> Iterable[Any]:
        return *self._login.secrets(), self._struct

    def mechanism(self) -> str:
        """Returns the name of the mechanism, with `-PLUS` if the client binds a channel."""
        with self._lock:
            return _scram_name(self._login)

    def first(self) -> bytes:
        """Returns the client-first message, with a fresh nonce."""
        nonce = secrets.token_bytes(32)
        with self._lock:
            return _written(
                512,
                lambda *room: _library.fe2o3_scram_client_first(self._login, self._struct, nonce, *room),
            )

    def final(self, server_first: Bytes) -> bytes:
        """Answers the server-first message with the client-final message. Raises `IterationCountError` for a count
        outside the limits, `StaleKeys` if the client has only keys for another salt or count, `PreparationError` for a
        password that is not printable ASCII, and `ProtocolError`."""
        message = _bytes(server_first)
        with self._lock:
            more = 256 if self._login.channel_use == _ChannelUse.BOUND else 128
            more += 4 * self._login.acts_for_len  # (escaped, and then in base64)
            return _written(
                len(message) + more,
                lambda *room: _library.fe2o3_scram_client_final(
                    self._login, self._struct, message, len(message), *room
                ),
            )

    def verify(self, server_final: Bytes) -> None:
        """Verifies the server-final message. The login is complete, and the server authenticated, only if this does not
        raise. Raises `ServerError` if the message is an error of the server, and `ServerNotAuthenticated` if it has
        another signature or none."""
        message = _bytes(server_final)
        with self._lock:
            status = _library.fe2o3_scram_client_verify(self._login, self._struct, message, len(message))
        if status == Status.SERVER_ERROR:
            raise ServerError(status, _status_text(status), server_error(message) or "")
        _done(status)

    def keys(self) -> Keys:
        """Returns the keys of a complete login. As long as the server keeps its salt and iteration count, a login by
        keys needs no password and little time. The keys are secret: they suffice to log in."""
        struct = _ScramKeysStruct()
        with self._lock:
            _done(_library.fe2o3_scram_client_get_keys(self._struct, ctypes.byref(struct)))
        return Keys._of(struct)

    def _shown(self) -> str:
        return f"version={int(self._login.version)}"


#: SCRAM, by the names of its mechanisms.
_SCRAM = {"SCRAM-SHA-512": SHA_512, "SCRAM-SHA-256": SHA_256, "SCRAM-SHA-1": SHA_1}
_SCRAM_NAMES = {version: name for name, version in _SCRAM.items()}


def _scram_name(login: _LoginStruct) -> str:
    """Returns the name of the mechanism of a login by SCRAM."""
    name = _SCRAM_NAMES.get(login.version, "")
    return f"{name}-PLUS" if name and login.channel_use == _ChannelUse.BOUND else name
