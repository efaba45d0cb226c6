"""A SCRAM server, over messages."""

from __future__ import annotations

import ctypes
import secrets
import types
from typing import Any, Callable, Iterable, Optional

from ._channels import Channel
from ._native import Bytes, _bytes, _library, _text, _wipe, _written
from ._objects import _Guard, _Guarded
from ._records import Record
from ._structs import _ScramRecordStruct, _ScramRulesStruct, _ScramServerStruct, _ServerChannelsStruct


def _channels_of(channels: Optional[Iterable[Channel]]) -> _ServerChannelsStruct:
    """Returns the channels of a server. None is a server that binds no channel."""
    bound = _ServerChannelsStruct(binds_channel=channels is not None)
    for channel in channels or ():
        name = channel.kind.name.lower()
        if getattr(bound, name + "_len"):
            raise ValueError("two channels are of one kind")
        setattr(bound, name, channel._array())
        setattr(bound, name + "_len", len(channel.data))
    return bound


def _rules_of(
    accept_cbind_flag_y: bool = False,
    strict: bool = False,
    channels: Optional[Iterable[Channel]] = None,
    accept_authzid: bool = False,
    reject_misplaced: bool = False,
) -> _ScramRulesStruct:
    """Returns the rules of a server. None for channels is a server that binds no channel."""
    return _ScramRulesStruct(
        accept_cbind_flag_y=bool(accept_cbind_flag_y),
        strict=bool(strict),
        channels=_channels_of(channels),
        accept_authzid=bool(accept_authzid),
        reject_misplaced=bool(reject_misplaced),
    )


def _joined(identities: Iterable[str]) -> bytes:
    """Returns identities as the library takes them, with a zero byte after each."""
    names = [_text(name) for name in identities]
    if any(b"\0" in name for name in names):
        raise ValueError("an identity has NUL")
    return b"".join(name + b"\0" for name in names)


def _identity_of(scram: _ScramServerStruct) -> Optional[str]:
    """Returns the identity that the user of a server acts for, if it acts for another than itself."""
    name = _written(256, lambda *room: _library.fe2o3_scram_server_acts_for(ctypes.byref(scram), *room))
    return name.decode("utf-8") or None


class _ClaimedUser:
    """`Server.claimed_user`, which is called on the class or on a server."""

    def __get__(self, server: Optional[Server], owner: Any = None) -> Callable[[Bytes], str]:
        rules = _rules_of if server is None else server._rules_copied
        return types.MethodType(self.claimed_user, rules)

    @staticmethod
    def claimed_user(rules_of: Callable[[], _ScramRulesStruct], client_first: Bytes) -> str:
        """Returns the user name that a client-first message claims, without escapes. Nobody is authenticated yet: use
        it only to look up the record. Called on a server, it applies the rules of that server, such as its channels.
        Called on the class, it accepts the GS2 headers `n,,` and `y,,`."""
        message, call, rules = _bytes(client_first), _library.fe2o3_scram_server_claimed_user, rules_of()
        name = _written(256, lambda *room: call(rules, message, len(message), *room))
        return name.decode("utf-8")


class Server(_Guarded):
    """A SCRAM server, for one login at a time. Call `first` and then `final`. `first` starts a new exchange at any
    time. The user is authenticated only if `final` does not raise.

    `wipe`, or the end of a `with` statement, overwrites the exchange with its copy of the record."""

    __slots__ = ("_exchange", "_rules")

    def __init__(
        self,
        *,
        accept_cbind_flag_y: bool = False,
        strict: bool = False,
        channels: Optional[Iterable[Channel]] = None,
        accept_authzid: bool = False,
        reject_misplaced: bool = False,
    ) -> None:
        """A server without an open challenge. The GS2 header of a client has to be `n,,`. With `accept_cbind_flag_y`
        it may also be `y,,`: the client supports channel binding, and was offered no mechanism with `-PLUS` (RFC 5802,
        section 6). Only for a server that offers none.

        With `channels` it is a server of the mechanism with `-PLUS`, and accepts only clients that bind one of these
        channels. Pass a channel for each kind that you accept. If the list is empty, it accepts no client.

        With `strict`, it reads messages by the grammar of RFC 5802, section 7. A user name has to be of one or more
        characters and without NUL, a nonce printable and not empty, and what follows the nonce an extension. A server
        with `channels` tests the extensions in any case.

        With `accept_authzid` a client may name an identity to act for (RFC 5802, section 5.1): its own user, or one that
        you pass to `final`. Such a server tests the extensions like a strict one.

        With `reject_misplaced`, it tests the extensions like a strict one, and nothing more: a user name may be empty. If
        you offer a mechanism with `-PLUS` beside one without it, set it for both. Then nobody on the way can make a client
        that has a channel log in without binding it, whatever library the client is of."""
        self._rules = _rules_of(accept_cbind_flag_y, strict, channels, accept_authzid, reject_misplaced)
        # The record of a challenge, its struct, and its rules: set together, so that a challenge is never answered with
        # those of another.
        self._exchange = _ScramRecordStruct(), _ScramServerStruct(), self._rules
        self._lock = _Guard(self)

    def _secrets(self) -> Iterable[Any]:
        return *self._exchange, self._rules

    def _rules_copied(self) -> _ScramRulesStruct:
        with self._lock:
            return _ScramRulesStruct.from_buffer_copy(self._rules)

    claimed_user = _ClaimedUser()

    def first(self, record: Record, client_first: Bytes, *, accept_cbind_flag_y: bool = False) -> bytes:
        """Answers the client-first message with the server-first message, with a fresh nonce. The record is that of
        the claimed user (`claimed_user`), or a mock record (`RecordStore.record`). With `accept_cbind_flag_y` the server
        accepts the GS2 header `y,,` for this exchange, if it has no `channels`."""
        message, nonce, opened = _bytes(client_first), secrets.token_bytes(32), _ScramServerStruct()
        call, rules, known = _library.fe2o3_scram_server_first, self._rules_copied(), record._copied()
        if accept_cbind_flag_y:
            rules.accept_cbind_flag_y = 1
        replaced = known, opened
        try:
            answer = _written(1024, lambda *room: call(rules, known, opened, nonce, message, len(message), *room))
            with self._lock:
                replaced, self._exchange = self._exchange[:2], (known, opened, rules)
        finally:
            _wipe(*replaced)
        return answer

    def final(self, client_final: Bytes, *, identities: Iterable[str] = ()) -> bytes:
        """Answers the client-final message with the server-final message, if its proof is right. Otherwise raises
        `AuthenticationFailed`. With `channels`, the client has to have bound the one of its kind, otherwise it raises
        `ChannelBindingError`. Raises `ProtocolError` for another message.

        `identities` are those that the user may act for besides itself (RFC 4422, section 2). A user who may not act for
        the identity that the client named gets `AuthenticationFailed` too."""
        message, call = _bytes(client_final), _library.fe2o3_scram_server_final
        allowed = _joined(identities)
        with self._lock:
            known, opened, kept = self._exchange
            rules = _ScramRulesStruct.from_buffer_copy(kept)
            rules.identities, rules.identities_len = allowed, len(allowed)
            return _written(90, lambda *room: call(rules, known, opened, message, len(message), *room))

    def authenticated_user(self) -> str:
        """Returns the name of the authenticated user, without escapes. Raises `InvalidState` if no user is
        authenticated."""
        with self._lock:
            opened = self._exchange[1]
            name = _written(256, lambda *room: _library.fe2o3_scram_server_authenticated_user(opened, *room))
        return name.decode("utf-8")

    def acts_for(self) -> Optional[str]:
        """Returns the identity that the authenticated user acts for, without escapes (RFC 4422, section 2), or None if the
        user acts for itself. Raises `InvalidState` if no user is authenticated."""
        with self._lock:
            return _identity_of(self._exchange[1])
