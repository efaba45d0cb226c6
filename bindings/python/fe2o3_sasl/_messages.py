"""PLAIN, EXTERNAL, the errors of servers and SASLprep, over messages."""

from __future__ import annotations

from typing import Iterable, Optional

from ._native import Bytes, Text, _bytes, _done, _hidden, _lent, _library, _number, _passing, _text, _wipe, _written
from ._numbers import DEFAULT_ITERATIONS, PlainPasswords, Status, _Unassigned
from ._records import Record
from ._server import _joined
from ._structs import _ScramRecordStruct


def saslprep(text: Text, *, unassigned: bool = False) -> str:
    """Returns the text that SASLprep (RFC 4013) prepares `text` to. Printable ASCII is prepared to itself; other
    ASCII is rejected. Code points that Unicode 3.2 does not assign are rejected, as a stored text requires;
    `unassigned` allows them, for a text that is only compared with stored ones (RFC 3454, section 7)."""
    choice = _Unassigned.ALLOWED if unassigned else _Unassigned.REFUSED
    with _passing(_hidden(text)) as typed:
        prepared = _written(typed[1], lambda *room: _library.fe2o3_saslprep(*typed, choice, *room))
    return prepared.decode("utf-8")


def server_error(message: Bytes) -> Optional[str]:
    """Returns the name of the error that a server sent in the place of a message, such as `invalid-proof`, or None if the
    message is no error. A name that RFC 5802, section 7, does not have is `other-error`."""
    given = _bytes(message)
    number = int(_library.fe2o3_scram_server_error(given, len(given)))
    return _lent(_library.fe2o3_scram_server_error_text, number) if number else None


def server_error_message(status: int) -> bytes:
    """Returns the message by which a server reports to its client why it failed: `e=` and a name (RFC 5802, section 7).
    The status is that of a `Refused` that a call of `Server` raised, or `Status.NO_SUCH_USER`. An unknown user, a mock
    record and a wrong proof have one message."""
    number = _number(status)
    return _written(64, lambda *room: _library.fe2o3_scram_server_error_message(number, *room))


def plain_message(username: Text, password: Text, *, acts_for: Optional[Text] = None) -> bytes:
    """Returns the message by which a client logs in with PLAIN (RFC 4616, section 2), and acts for the identity
    `acts_for`, or for itself if that is None or empty. The message has the password in clear, so send it over TLS only.
    Prepare a non-ASCII password first (`saslprep`).

    Raises `Refused` with NOT_UTF8 if a word is not UTF-8, with NAMES_NO_USER if the user name is empty, with
    EMPTY_PASSWORD if the password is, with PROHIBITED_CHARACTER if a word contains a zero byte, and with TOO_LONG if the
    identity has more than 256 bytes."""
    name, identity = _text(username), _text("" if acts_for is None else acts_for)
    with _passing(_hidden(password)) as given:
        words = identity, len(identity), name, len(name), *given
        return _written(
            len(identity) + len(name) + given[1] + 2, lambda *room: _library.fe2o3_plain_message(*words, *room)
        )


def plain_claimed_user(message: Bytes) -> str:
    """Returns the user name that a message of PLAIN claims. Nobody is authenticated yet: use it only to look up the
    record for `plain_verify`. Raises `Refused` with NAMES_NO_USER for a message that `plain_verify` rejects whatever
    its other arguments are."""
    given = _bytes(message)
    name = _written(len(given), lambda *room: _library.fe2o3_plain_claimed_user(given, len(given), *room))
    return name.decode("utf-8")


def plain_claimed_identity(message: Bytes) -> Optional[str]:
    """Returns the identity that a message of PLAIN asks to act for, or None if its user acts for itself. It is only
    claimed, like the user's name: use it only to look up whether the user may act for it. The errors are those of
    `plain_claimed_user`."""
    given = _bytes(message)
    name = _written(len(given), lambda *room: _library.fe2o3_plain_claimed_identity(given, len(given), *room))
    return name.decode("utf-8") or None


def plain_verify(
    record: Optional[Record],
    message: Bytes,
    *,
    passwords: int = PlainPasswords.TYPED,
    iterations: int = DEFAULT_ITERATIONS,
    identities: Optional[Iterable[str]] = None,
) -> bool:
    """Returns whether a message of PLAIN has the password of the user that it claims (`plain_claimed_user`), and so
    authenticates that user.

    The record is that of the claimed user. For an unknown user pass a mock record (`RecordStore.record`), or None: the
    password is then hashed with SHA-256 and this iteration count, and rejected. That takes as many HMAC values as the
    login of a known user whose record has this count. `passwords`, one of `PlainPasswords`, says which password is tested
    for the received one: by default the typed one, of printable ASCII.

    `identities` are those that the user may act for besides itself (RFC 4422, section 2). For a message that asks for
    another one (`plain_claimed_identity`) the answer is False, as for a wrong password. None accepts the user's own name
    only."""
    allowed = _joined(() if identities is None else identities)
    rules = _number(passwords), _number(iterations), identities is not None, allowed, len(allowed)
    given = _bytes(message)
    known = _ScramRecordStruct() if record is None else record._copied()
    try:
        status = _library.fe2o3_plain_verify(known, 0 if record is None else 1, *rules, given, len(given))
    finally:
        _wipe(known)
    if status == Status.SERVER_AUTHENTICATION_FAILED:
        return False
    _done(status)
    return True


def external_verify(authcid: Text, message: Bytes) -> bool:
    """Returns whether a message of EXTERNAL (RFC 4422, appendix A) logs in as the user whom the transport
    authenticated, whose name is `authcid`: the message is empty, or the name. False for each message if the name is
    empty: then the transport authenticated no one. Raises `Refused` with NOT_UTF8 if the name is not UTF-8."""
    name, given = _text(authcid), _bytes(message)
    status = _library.fe2o3_external_verify(name, len(name), given, len(given))
    if status == Status.SERVER_AUTHENTICATION_FAILED:
        return False
    _done(status)
    return True
