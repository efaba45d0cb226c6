"""The client's side of a connection."""

from __future__ import annotations

import ctypes
import secrets
from typing import Any, Iterable, Optional, TypeVar

from ._channels import Channel
from ._client import Client, _OwnLogin, _SCRAM, _scram_name
from ._frames import view_frame
from ._keys import Keys
from ._native import (
    Bytes,
    Text,
    _bytes,
    _done,
    _hidden,
    _identity,
    _instance,
    _library,
    _name,
    _passing,
    _refusal,
    _wipe,
    _written,
)
from ._numbers import Progress, SHA_256, Status, _Mechanism
from ._objects import _Guard
from ._progress import _Connection
from ._structs import _SaslClientStruct, _SaslLoginStruct, _ScramKeysStruct

_Side = TypeVar("_Side", bound="ClientConnection")
_ClientLogin = tuple[_SaslLoginStruct, _OwnLogin]


def _in_order(mechanisms: Iterable[str], has_channel: bool, must_bind: bool) -> list[tuple[str, bool]]:
    """Returns the mechanisms among which a client selects, each with whether it binds the channel: those with `-PLUS` come
    before the first other one of SCRAM."""
    named = list(mechanisms)
    for name in named:
        if name not in _SCRAM and name not in _OTHERS:
            raise ValueError("a mechanism is none of " + ", ".join([*_SCRAM, *_OTHERS]))
    at = next((at for at, name in enumerate(named) if name in _SCRAM), len(named))
    bound = [(name, True) for name in named if name in _SCRAM and has_channel]
    others = [(name, False) for name in named[at:] if not must_bind or name not in _SCRAM]
    return [*((name, False) for name in named[:at]), *bound, *others]


def _test_words(username: Text, password: Optional[Text]) -> None:
    """Raises unless a message of PLAIN can have these words."""
    name = _name(username)
    with _passing(_hidden("" if password is None else password)) as (secret, length):
        if not name or not length:
            raise _refusal(Status.NAMES_NO_USER if not name else Status.EMPTY_PASSWORD)
        if b"\0" in name or 0 in memoryview(secret).cast("B")[:length]:
            raise _refusal(Status.PROHIBITED_CHARACTER)


def _secrets_of(login: _ClientLogin) -> tuple[Any, ...]:
    return login[0], *login[1].secrets()


#: The other mechanisms that a client can select.
_OTHERS = {"EXTERNAL": _Mechanism.EXTERNAL_AS, "PLAIN": _Mechanism.PLAIN, "ANONYMOUS": _Mechanism.ANONYMOUS}


class ClientConnection(_Connection):
    """The client's side of one AMQP 1.0 connection, from its first byte to the end of the login. It does no I/O: you
    pass in received bytes, in pieces of any size, and send the bytes it returns."""

    __slots__ = ("_allowed", "_login", "_refusal_data", "_struct")

    def __init__(self, client: Client, *, hostname: Text = "") -> None:
        """A login of this client by SCRAM. The init has the hostname, if it is not empty. The client's own exchange is
        not affected. The login has its own copies of the password and the keys: you can wipe the client."""
        _instance(client, Client, "client")
        with client._lock:
            self._begin(self._login_of(_Mechanism.SCRAM, client._login, hostname))

    def _begin(self, login: _ClientLogin, allowed: Iterable[_ClientLogin] = ()) -> None:
        self._login, self._struct = login, _SaslClientStruct()
        # The logins among which the list of mechanisms selects; none once it has, or where there is one mechanism.
        self._allowed = list(allowed)
        self._refusal_data: Optional[bytes] = None
        self._lock = _Guard(self)

    @staticmethod
    def _login_of(mechanism: int, login: _OwnLogin, hostname: Text) -> _ClientLogin:
        name, own = _name(hostname), login.copied()
        # (the original struct keeps the texts of its copy alive)
        return _SaslLoginStruct(mechanism=mechanism, hostname=name, hostname_len=len(name), login=own), own

    def _secrets(self) -> Iterable[Any]:
        logins = [self._login, *self._allowed]
        return [self._struct, *(secret for login in logins for secret in _secrets_of(login))]

    @classmethod
    def _by(
        cls: type[_Side],
        mechanism: int,
        username: Text,
        password: Text,
        hostname: Text,
        strict: bool = False,
        acts_for: Optional[Text] = None,
    ) -> _Side:
        side = cls.__new__(cls)
        if mechanism == _Mechanism.PLAIN and (strict or acts_for):
            _test_words(username, password)
        with Client(SHA_256, username, password, strict=strict, acts_for=acts_for) as client:
            side._begin(cls._login_of(mechanism, client._login, hostname))
        return side

    @classmethod
    def select(
        cls: type[_Side],
        username: Text,
        password: Optional[Text],
        mechanisms: Iterable[str] = tuple(_SCRAM),
        *,
        hostname: Text = "",
        prepared: bool = False,
        min_iterations: int = 4096,
        max_iterations: int = 1_000_000,
        signature_by_challenge: bool = False,
        channel: Optional[Channel] = None,
        must_bind: bool = False,
        strict: bool = False,
        acts_for: Optional[Text] = None,
    ) -> _Side:
        """A login by the first of the allowed mechanisms that the server offers. Name them from the strongest to the
        weakest: SCRAM-SHA-512, SCRAM-SHA-256 and SCRAM-SHA-1 are the default, and EXTERNAL, PLAIN and ANONYMOUS are
        allowed only if you name them. PLAIN sends the password in clear, so allow it over TLS only. EXTERNAL asks for
        the user that the transport has authenticated. SCRAM and PLAIN take a password. The other arguments are those of
        `Client`, and `strict` is also that of `plain`. By SCRAM, PLAIN and EXTERNAL the client acts for the identity
        `acts_for`. ANONYMOUS names no identity, so with one it raises ValueError.

        With `channel`, SCRAM with `-PLUS` is allowed by each hash that you name, and preferred to SCRAM without it. If the
        server offers none of these, the client says so by SCRAM (`y,,`), and a server that did offer one has to reject
        it. Against a server that accepts `y,,` all the same, only `must_bind` protects: SCRAM is then allowed only if it
        binds the channel.

        An attacker can alter an offer, but the client never selects a mechanism that is not allowed here. If the server
        offers none of them, the client sends nothing more, and the login fails: `why` is a `MechanismUnavailable`."""
        options: dict[str, Any] = {
            "prepared": prepared,
            "min_iterations": min_iterations,
            "max_iterations": max_iterations,
            "signature_by_challenge": signature_by_challenge,
        }
        if must_bind and channel is None:
            raise ValueError("there is no channel to bind")
        allowed = []
        for name, binds in _in_order(mechanisms, channel is not None, must_bind):
            mechanism = _OTHERS.get(name, _Mechanism.SCRAM)
            login: dict[str, Any] = {**options, "username": username, "password": password, "strict": strict}
            login["acts_for"] = acts_for
            if mechanism == _Mechanism.SCRAM:
                login.update(channel=channel, plus_offered=binds)
            elif mechanism == _Mechanism.PLAIN:
                if strict or acts_for:
                    _test_words(username, password)
            elif mechanism == _Mechanism.ANONYMOUS and acts_for:
                raise ValueError("ANONYMOUS names no identity")
            else:  # (EXTERNAL sends the name as its identity)
                login.update(username=_identity(acts_for), password="", strict=False, acts_for=None)
            with Client(_SCRAM.get(name, SHA_256), **login) as client:
                allowed.append(cls._login_of(mechanism, client._login, hostname))
        if not allowed:
            raise ValueError("no mechanism is allowed")
        side = cls.__new__(cls)
        side._begin(allowed[0], allowed)
        return side

    def _select(self, body: bytes) -> None:
        """Selects the first allowed login that a list of mechanisms offers, and wipes the others. Otherwise leaves the
        first one: the library rejects the list, or the other frame, for it."""
        for login in self._allowed:
            name = _name_of(login[0])
            if _library.fe2o3_sasl_offers(body, len(body), name, len(name)) == Status.OK:
                others = [one for one in self._allowed if one is not login]
                self._login, self._allowed = login, []
                _wipe(*(secret for one in others for secret in _secrets_of(one)))
                return

    def mechanism(self) -> Optional[str]:
        """Returns the name of the mechanism. None if the client selects it and has not yet (`select`)."""
        with self._lock:
            return None if self._allowed else _name_of(self._login[0]).decode("ascii")

    @property
    def refusal_data(self) -> Optional[bytes]:
        """The additional data of the outcome that rejected the login (AMQP 1.0, part 5, section 5.3.3.6), if it has
        any. They are not authenticated: anyone who can alter the connection can write them."""
        self._alive()
        return self._refusal_data

    def _notice(self, body: bytes) -> None:
        """Stores the additional data of a frame that rejected the login."""
        progress, why = self._ends()
        if progress == Progress.FAILED and Status.REFUSED_AUTH <= why <= Status.REFUSED_SYS_TEMP:
            self._refusal_data = view_frame(body).message

    @classmethod
    def plain(
        cls: type[_Side],
        username: Text,
        password: Text,
        *,
        hostname: Text = "",
        strict: bool = False,
        acts_for: Optional[Text] = None,
    ) -> _Side:
        """A login by PLAIN (RFC 4616), which sends the password in clear. The client acts for the identity `acts_for`
        (RFC 4422, section 2), or for itself if that is None or empty.

        With `strict` or an identity, the words have to be ones that a message can have (RFC 4616, section 2). Otherwise
        it raises `Refused`, with NAMES_NO_USER or EMPTY_PASSWORD for an empty one, and with PROHIBITED_CHARACTER for a
        zero byte. An identity of more than 256 bytes is TOO_LONG."""
        return cls._by(_Mechanism.PLAIN, username, password, hostname, strict, acts_for)

    @classmethod
    def anonymous(cls: type[_Side], *, hostname: Text = "") -> _Side:
        """A login by ANONYMOUS (RFC 4505)."""
        return cls._by(_Mechanism.ANONYMOUS, "", "", hostname)

    @classmethod
    def external(cls: type[_Side], *, hostname: Text = "") -> _Side:
        """A login by EXTERNAL (RFC 4422, appendix A), as the user that the transport has authenticated."""
        return cls._by(_Mechanism.EXTERNAL, "", "", hostname)

    @classmethod
    def anonymous_as(cls: type[_Side], trace: Text = "", *, hostname: Text = "") -> _Side:
        """A login by ANONYMOUS with this trace information as its initial response (RFC 4505, section 2). The client
        also answers one empty challenge by it."""
        return cls._by(_Mechanism.ANONYMOUS_AS, trace, "", hostname)

    @classmethod
    def external_as(cls: type[_Side], identity: Text = "", *, hostname: Text = "") -> _Side:
        """A login by EXTERNAL with this authorization identity as its initial response (RFC 4422, appendix A). The
        empty identity asks for the user that the transport has authenticated. The client also answers one empty
        challenge by it."""
        return cls._by(_Mechanism.EXTERNAL_AS, identity, "", hostname)

    @staticmethod
    def open() -> bytes:
        """Returns the SASL protocol header, which a client sends first."""
        return _written(8, lambda *room: _library.fe2o3_sasl_client_open(*room))

    def receive(self, data: Bytes) -> tuple[bytes, bytes]:
        """Takes received bytes, and returns the bytes to send and the bytes that are left: none while the login
        goes on, and after it those that belong to AMQP."""
        rest, answers, taken = _bytes(data), [], ctypes.c_size_t()
        with self._lock:
            while rest and self.progress == Progress.IN_PROGRESS:
                nonce, body = secrets.token_bytes(32), self._peeked(rest)
                if body:
                    self._select(body)
                answers.append(
                    _written(
                        512,
                        lambda *room: _library.fe2o3_sasl_client_receive(
                            self._login[0], self._struct, rest, len(rest), nonce, ctypes.byref(taken), *room
                        ),
                    )
                )
                rest = rest[taken.value :]
                self._notice(body)
        return b"".join(answers), rest

    def keys(self) -> Keys:
        """Returns the keys of a login by SCRAM, like `Client.keys`."""
        struct = _ScramKeysStruct()
        with self._lock:
            _done(_library.fe2o3_scram_client_get_keys(ctypes.byref(self._struct.scram), ctypes.byref(struct)))
        return Keys._of(struct)


def _name_of(login: _SaslLoginStruct) -> bytes:
    """Returns the name of the mechanism of a login."""
    if login.mechanism == _Mechanism.SCRAM:
        return _scram_name(login.login).encode("ascii")
    return _Mechanism(login.mechanism).name.removesuffix("_AS").encode("ascii")
