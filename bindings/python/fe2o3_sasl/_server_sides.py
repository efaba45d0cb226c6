"""The server's side of a connection."""

from __future__ import annotations

import contextlib
import ctypes
import secrets
from typing import Any, Callable, Iterable, Iterator, NamedTuple, Optional

from ._channels import Channel
from ._errors import Refused
from ._frames import Frame, view_frame
from ._native import (
    Bytes,
    Text,
    _answered,
    _bytes,
    _callable,
    _count,
    _done,
    _library,
    _name,
    _number,
    _refusal,
    _text,
    _wipe,
    _written,
)
from ._numbers import DEFAULT_ITERATIONS, Offer, Progress, Rejection, ServerFlag, Status, _ServerState
from ._objects import _Guard
from ._progress import _Connection
from ._records import MockSettings, Record, _Mock
from ._server import _channels_of, _identity_of, _joined
from ._structs import _SaslServerConfigStruct, _SaslServerStruct, _ScramRecordStruct


class LoginAttempt(NamedTuple):
    """What the last init of a client claims, also after a rejection. Nobody is authenticated by it.

    - `mechanism`: the mechanism that the init names, also one that the server does not offer
    - `claimed_user`: the user name that the initial response of SCRAM or PLAIN claims, without escapes
    - `hostname`: the hostname that the init names
    """

    mechanism: str
    claimed_user: Optional[str]
    hostname: Optional[str]


#: The kinds of an init and of a response.
_INIT, _RESPONSE = 0x41, 0x43
#: The states of a server whose challenge is open.
_CHALLENGE_IS_OPEN = {
    _ServerState.CHALLENGE_OPEN,
    _ServerState.CHALLENGE_OPEN_CBIND_FLAG_Y,
    _ServerState.CHALLENGE_OPEN_TLS_UNIQUE,
    _ServerState.CHALLENGE_OPEN_TLS_SERVER_END_POINT,
    _ServerState.CHALLENGE_OPEN_TLS_EXPORTER,
}
#: The reasons by their numbers.
_REJECTIONS = {int(one): one for one in Rejection}


def _offered(mechanisms: int) -> int:
    """Returns what a server offers, a sum of `Offer` with one mechanism or more."""
    number = _number(mechanisms)
    if not number or number & ~sum(Offer):
        raise _refusal(Status.NO_SUCH_MECHANISM)
    return number


def _flags(flags: int) -> int:
    """Returns what else a server does, a sum of `ServerFlag` with at most one form of PLAIN's passwords."""
    number = _number(flags)
    both_forms = ServerFlag.PLAIN_PREPARED | ServerFlag.PLAIN_SASLPREP
    if number & ~sum(ServerFlag) or number & both_forms == both_forms:
        raise _refusal(Status.NO_SUCH_CHOICE)
    return number


class ServerConnection(_Connection):
    """The server's side of one AMQP 1.0 connection, from its first byte to the end of the login. It does no I/O, like
    `ClientConnection`."""

    __slots__ = (
        "_attempt",
        "_channels",
        "_external_authcid",
        "_flags",
        "_identities_of",
        "_iterations",
        "_mechanisms",
        "_mock",
        "_records_of",
        "_struct",
    )

    def __init__(
        self,
        records_of: Callable[[str], Iterable[Record]],
        *,
        mechanisms: int = Offer.SCRAM_SHA_512 | Offer.SCRAM_SHA_256,
        flags: int = ServerFlag.REJECT_MISPLACED,
        mock: Optional[MockSettings] = None,
        iterations: Optional[int] = None,
        external_authcid: Optional[Text] = None,
        channels: Optional[Iterable[Channel]] = None,
        identities_of: Optional[Callable[[str], Iterable[str]]] = None,
    ) -> None:
        """A login by one of the mechanisms, a sum of `Offer`:

            mechanisms = store.hashes() | (Offer.PLAIN if tls else 0)
            ServerConnection(store.records, mechanisms=mechanisms, mock=store.mock_settings(secret))

        `records_of` returns the records of a user, of any hashes, and none for an unknown name (`RecordStore.records`).
        SCRAM with a hash uses the first record of that hash, and PLAIN the first record. A user cannot log in by a hash for
        which it has no record, and many clients select the strongest. So offer only hashes for which every user has one
        (`RecordStore.hashes`).

        `flags` is a sum of `ServerFlag`, by default REJECT_MISPLACED: then both sides agree on all of a login.

        With `mock` the answers do not show which names exist: a name gets a mock record for each offered hash for which
        `records_of` returns none, also the name of a known user. `mock` is a secret of 32 or more random bytes, one for
        all names, kept as long as the records. All records need DEFAULT_SALT_LEN and DEFAULT_ITERATIONS then; for
        others pass `(secret, salt_len, iterations)`. Without `mock` SCRAM rejects a name without a record at once, which
        shows that there is none.

        PLAIN hashes the password of an unknown user with the first of SHA-256, SHA-512 and SHA-1 by which SCRAM is offered,
        or SHA-256 if SCRAM is not offered. Let the records of each user begin with that hash too, as `RecordStore.records`
        returns them. The count is `iterations`, by default DEFAULT_ITERATIONS. With `mock` it is that of the mock records,
        and `iterations` raises ValueError.

        EXTERNAL accepts `external_authcid`, the name that the transport has authenticated. If it is None or empty, EXTERNAL
        is not offered, and an init for it fails.

        With `channels` SCRAM is also offered with `-PLUS`: pass the channel of the connection once for each kind that the
        server accepts (`Channel`; RFC 5802, section 6). A client that supports no channel binding still logs in without
        `-PLUS`. `ServerFlag.ACCEPT_CBIND_FLAG_Y` then has no effect, and SCRAM tests extensions also without `-PLUS`
        (`ServerFlag.REJECT_MISPLACED`).

        With `identities_of` a client of SCRAM or PLAIN may name an identity to act for (RFC 4422, section 2). It returns the
        identities that a user may act for besides itself, perhaps none. A user without the right is rejected like one
        with a wrong password. After the login `acts_for` returns the identity. Such a server tests extensions like a
        strict one."""
        _callable(records_of, "records_of")
        if identities_of is not None:
            _callable(identities_of, "identities_of")
        if mock is not None and iterations is not None:
            raise ValueError("the iteration count is that of the mock records")
        self._identities_of = identities_of
        self._records_of, self._mechanisms, self._flags = records_of, _offered(mechanisms), _flags(flags)
        self._iterations = _count(DEFAULT_ITERATIONS if iterations is None else iterations)
        self._struct = _SaslServerStruct()
        self._external_authcid = _name("" if external_authcid is None else external_authcid)
        self._channels = _channels_of(channels)
        self._attempt: Optional[LoginAttempt] = None
        self._mock = None if mock is None else _Mock(mock)
        self._lock = _Guard(self)

    def _secrets(self) -> Iterable[Any]:
        return [self._struct] if self._mock is None else [self._struct, self._mock._secret]

    @contextlib.contextmanager
    def _config(self, name: Optional[str]) -> Iterator[_SaslServerConfigStruct]:
        """Lends the configuration to the library, with copies of the records of this name, if there are any."""
        known = b"" if name is None else _text(name)
        with contextlib.ExitStack() as stack:
            found = () if name is None else self._records_of(name)
            copies = [stack.enter_context(record._lending()) for record in found]
            records = (_ScramRecordStruct * len(copies))(*copies)
            stack.callback(_wipe, records)
            accepts = self._identities_of is not None
            identities = _joined(
                self._identities_of(name) if self._identities_of is not None and name is not None else ()
            )
            self._alive()  # (`records_of` can wipe this side)
            config = _SaslServerConfigStruct(
                mechanisms=self._mechanisms,
                flags=self._flags,
                iterations=self._iterations,
                looked_up=name is not None,
                username=known,
                username_len=len(known),
                records=records,
                records_count=len(records),
                external_authcid=self._external_authcid,
                external_authcid_len=len(self._external_authcid),
                channels=self._channels,
                accept_authzid=accepts,
                identities=identities,
                identities_len=len(identities),
            )
            if self._mock is not None:
                self._mock.lend(config)
            yield config

    def receive(self, data: Bytes) -> tuple[bytes, bytes]:
        """Takes received bytes, and returns the bytes to send and the bytes that are left, like
        `ClientConnection.receive`."""
        rest, answers = _bytes(data), []
        with self._lock:
            while rest and self.progress == Progress.IN_PROGRESS:
                answer, taken = self._step(rest)
                answers.append(answer)
                rest = rest[taken:]
        return b"".join(answers), rest

    def _step(self, data: bytes) -> tuple[bytes, int]:
        frame, name, nonce = self._viewed(data), None, secrets.token_bytes(32)
        if frame is not None and frame.kind == _RESPONSE:
            name = self._challenged()
        status, answer, taken = self._received(data, name, nonce)
        if status == Status.NEEDS_RECORDS:
            # (that call has not used the nonce)
            name = answer.decode("utf-8")
            status, answer, taken = self._received(data, name, nonce)
        _done(status)
        if frame is not None:
            self._claims(frame, name)
        return answer, taken

    def _received(self, data: bytes, name: Optional[str], nonce: bytes) -> tuple[int, bytes, int]:
        """Calls the library once, with the records of the user, if its name is known. Returns the status, what was
        written, and how many bytes were taken."""
        taken = ctypes.c_size_t()
        with self._config(name) as config:
            status, out = _answered(
                520,
                lambda *room: _library.fe2o3_sasl_server_receive(
                    config, self._struct, data, len(data), nonce, ctypes.byref(taken), *room
                ),
            )
        return status, out, taken.value

    def _viewed(self, data: bytes) -> Optional[Frame]:
        """Returns the frame that received bytes complete, if they complete one that can be parsed."""
        body = self._peeked(data)
        try:
            return view_frame(body) if body else None
        except Refused:
            return None

    def _challenged(self) -> Optional[str]:
        """Returns the user of the open challenge, whom a response claims."""
        scram = self._struct.scram
        if scram.state not in _CHALLENGE_IS_OPEN:
            return None
        return bytes(scram.user[: scram.user_len]).decode("utf-8")

    def last_attempt(self) -> Optional[LoginAttempt]:
        """Returns what the last init claims, also after a rejection, for a log. None before the first init. Nobody is
        authenticated by it (`authenticated_user`)."""
        self._alive()
        return self._attempt

    @property
    def rejection(self) -> Optional[Rejection]:
        """Why the login was rejected by the outcome Auth, for your log only. None otherwise.

        Also with `mock`, SCRAM has other reasons for an unknown user (UNKNOWN_USER) and for one without a record for
        the hash (NO_RECORD_FOR_HASH) than for a wrong password (WRONG_PROOF). PLAIN has one for all of them,
        WRONG_PASSWORD."""
        with self._lock:
            number = int(self._struct.scram.rejection)
            # (a later library can have more reasons)
            return _REJECTIONS.get(number, Rejection.OTHER) if number else None

    def _claims(self, frame: Frame, name: Optional[str]) -> None:
        """Stores what a frame claims: an init, or a response that is the initial response. The name is the user."""
        if frame.kind == _INIT:
            self._attempt = LoginAttempt(frame.mechanism, name, frame.hostname)
        elif self._attempt is not None and name is not None:
            self._attempt = self._attempt._replace(claimed_user=name)

    def authenticated_user(self) -> Optional[str]:
        """Returns the name of the authenticated user, without escapes; None for ANONYMOUS. Raises `InvalidState` if no
        user is authenticated."""
        with self._lock:
            scram = self._struct.scram
            if self.progress == Progress.AUTHENTICATED and scram.state == _ServerState.INITIAL:
                return None
            name = _written(
                256, lambda *room: _library.fe2o3_scram_server_authenticated_user(ctypes.byref(scram), *room)
            )
        return name.decode("utf-8")

    def acts_for(self) -> Optional[str]:
        """Returns the identity that the authenticated user acts for, without escapes (RFC 4422, section 2), or None if the
        user acts for itself. The connection belongs to this identity, if there is one. Raises `InvalidState` if no user is
        authenticated."""
        with self._lock:
            scram = self._struct.scram
            if self.progress == Progress.AUTHENTICATED and scram.state == _ServerState.INITIAL:
                return None
            return _identity_of(scram)
