"""The exceptions, each with its statuses."""

from __future__ import annotations

from ._numbers import Status


class Refused(Exception):
    """A call of the library failed, and has changed nothing.

    `status` is one of `Status`, or a number of a later library. `text` is its text. Each status has one class, this one
    or one below:

        Refused
            AuthenticationFailed            the client's password, keys or proof are wrong
                CredentialsRejected         and a server said so (also a LoginRejected)
            LoginRejected                   the server rejected the login
                CredentialsRejected
                TemporarilyRejected         the client can try again later
                ServerError                 the server sent an error in the place of its signature
            ServerNotAuthenticated          the server does not know the password: do not trust it
            ProtocolError                   the other side sent what the protocol does not allow
            EndOfInput                      the other side ended its stream (also an EOFError)
            ChannelBindingError             the sides do not bind the same channel
            MechanismUnavailable            the server offers no mechanism that the client allows
            IterationCountError             the server's iteration count is outside the client's limits
            StaleKeys                       the keys are for another salt or iteration count: log in by password
            OutOfMemory                     an allocation failed (also a MemoryError)
            InvalidArgument                 an argument of the call is wrong (also a ValueError)
                PreparationError            a password or a name contains a character that is not allowed
                TooLong                     a text is too long (also a ProtocolError)
            RecordError                     a record or a line of a file is malformed (also a ValueError)
            UnknownUser                     no line has this user (also a LookupError)
            InvalidState                    the call is out of order (also a RuntimeError)
    """

    def __init__(self, status: int, text: str) -> None:
        super().__init__(status, text)
        self.status = status
        self.text = text

    def __str__(self) -> str:
        return f"{self.text} ({self.status})"


class AuthenticationFailed(Refused):
    """The password, the keys or the proof of the client are wrong. `Server.final` raises it, also for a mock record."""


class LoginRejected(Refused):
    """The server rejected the login: on a connection by its outcome, whichever side you are, and over messages by an
    error (`ServerError`). This class itself is for an outcome by a system error that is not temporary."""


class CredentialsRejected(LoginRejected, AuthenticationFailed):
    """The server rejected the login by the outcome Auth: the credentials are wrong, as far as it says. Server sides
    raise it too, for the client that they rejected."""


class TemporarilyRejected(LoginRejected):
    """The server rejected the login because of a temporary system error. The client can try again later."""


class ServerError(LoginRejected):
    """The server sent an error in the place of its signature (RFC 5802, section 7). Nothing has changed.

    `error` is its name, such as `invalid-proof` for a wrong password. It is not authenticated: anyone who can alter the
    connection can write it.
    """

    def __init__(self, status: int, text: str, error: str = "other-error") -> None:
        super().__init__(status, text)
        self.args = status, text, error
        self.error = error

    def __str__(self) -> str:
        return f"{self.text}: {self.error} ({self.status})"


class ServerNotAuthenticated(Refused):
    """The signature of the server is wrong: the server does not know the keys of the password, or someone altered the
    messages. Close the connection, and send nothing more over it."""


class ProtocolError(Refused):
    """The other side sent a message or a frame that cannot be parsed, that is not expected, or that RFC 5802 does not
    allow. Also raised for a message of PLAIN without a user name, and for a reply that does not fit into a frame."""


class EndOfInput(Refused, EOFError):
    """The other side ended its stream before the login was complete."""


class ChannelBindingError(Refused):
    """The client bound another channel than the server's, or the data of a channel do not have 1 to 64 bytes. A client
    that binds no channel, at a server that requires one, is a `ProtocolError`: its GS2 header is not accepted."""


class MechanismUnavailable(Refused):
    """The server does not offer the client's mechanism, or none that the client allows, or sends a challenge that the
    mechanism does not have."""


class IterationCountError(Refused):
    """The server's iteration count is below the client's minimum or above its maximum."""


class StaleKeys(Refused):
    """The client has only keys, and the server names another salt or iteration count than theirs. Log in by password. A
    man in the middle can cause this: it is no reason to forget the keys."""


class OutOfMemory(Refused, MemoryError):
    """An allocation failed. You can repeat the call."""


class InvalidArgument(Refused, ValueError):
    """An argument of the call, or of the object that it is called on, is wrong."""


class PreparationError(InvalidArgument):
    """A password or another text contains a character that is not allowed: a typed password is not printable ASCII, a
    text for PLAIN has a zero byte, or SASLprep rejects the text (RFC 4013)."""


class TooLong(InvalidArgument, ProtocolError):
    """A text is longer than the library's array for it. The text is that of an argument, or of the other side's
    message."""


class RecordError(Refused, ValueError):
    """A record, or a line of a file of records, cannot be parsed or written, or its keys have a wrong length."""


class UnknownUser(Refused, LookupError):
    """No line has a record of this user and version (`Record.find`)."""


class InvalidState(Refused, RuntimeError):
    """The call is not allowed in the state of the object: it is out of order, or the login has ended."""


#: The statuses of each class. Each status but OK is in one row. Those of `Refused` reach no caller.
_STATUSES: dict[type[Refused], tuple[Status, ...]] = {
    Refused: (
        Status.ROOM_TOO_SMALL,
        Status.NEEDS_RECORDS,
        Status.CLIENT_HMAC_ERROR_INVALID_LENGTH,
        Status.CLIENT_XOR_LENGTH_MISMATCH,
        Status.SERVER_HMAC_ERROR_INVALID_LENGTH,
    ),
    AuthenticationFailed: (
        Status.OTHER_PASSWORD,
        Status.SERVER_XOR_LENGTH_MISMATCH,
        Status.SERVER_AUTHENTICATION_FAILED,
    ),
    LoginRejected: (Status.REFUSED_SYS, Status.REFUSED_SYS_PERM),
    CredentialsRejected: (Status.REFUSED_AUTH,),
    TemporarilyRejected: (Status.REFUSED_SYS_TEMP,),
    ServerError: (Status.SERVER_ERROR,),
    ServerNotAuthenticated: (Status.CLIENT_SERVER_SIGNATURE_MISMATCH,),
    ProtocolError: (
        Status.NAMES_NO_USER,
        Status.CLIENT_UTF8_ERROR,
        Status.CLIENT_INSUFFICIENT_PARTS,
        Status.CLIENT_EXTENSION_NOT_SUPPORTED,
        Status.CLIENT_NONCE_NOT_FOUND,
        Status.CLIENT_CLIENT_NONCE_MISMATCH,
        Status.CLIENT_SALT_NOT_FOUND,
        Status.CLIENT_BASE64_DECODE_ERROR,
        Status.CLIENT_ITERATION_COUNT_NOT_FOUND,
        Status.CLIENT_ITERATION_COUNT_PARSE_ERROR,
        Status.CLIENT_MISPLACED_ATTRIBUTE,
        Status.SERVER_UTF8_ERROR,
        Status.SERVER_CANNOT_PARSE_GS2_HEADER,
        Status.SERVER_CANNOT_PARSE_USERNAME,
        Status.SERVER_CANNOT_PARSE_CLIENT_NONCE,
        Status.SERVER_CANNOT_PARSE_CLIENT_FINAL_MESSAGE,
        Status.SERVER_BASE64_DECODE_ERROR,
        Status.SERVER_INCORRECT_CLIENT_FINAL_NONCE,
        Status.SERVER_PROOF_NOT_FOUND_IN_CLIENT_FINAL,
        Status.SERVER_MISPLACED_ATTRIBUTE,
        Status.PROTOCOL_HEADER_MISMATCH,
        Status.FRAME_SIZE,
        Status.UNEXPECTED_FRAME,
        Status.REPLY_TOO_LARGE,
        Status.MALFORMED_FRAME,
        Status.NO_SASL_FRAME,
        Status.FRAME_TOO_LARGE,
    ),
    EndOfInput: (Status.END_OF_INPUT,),
    ChannelBindingError: (
        Status.SERVER_INVALID_CHANNEL_BINDING,
        Status.CHANNEL_DATA_LENGTH,
        Status.NO_SUCH_CHANNEL,
    ),
    MechanismUnavailable: (Status.NOT_IMPLEMENTED,),
    IterationCountError: (Status.CLIENT_ITERATION_COUNT_TOO_SMALL, Status.CLIENT_ITERATION_COUNT_TOO_LARGE),
    StaleKeys: (Status.CLIENT_STALE_KEYS,),
    OutOfMemory: (Status.OUT_OF_MEMORY,),
    InvalidArgument: (
        Status.NOT_UTF8,
        Status.NO_SUCH_VERSION,
        Status.ZERO_ITERATIONS,
        Status.NO_SUCH_SECRET,
        Status.NO_KEYS,
        Status.OTHER_VERSION,
        Status.NO_SUCH_MECHANISM,
        Status.NO_SUCH_CHOICE,
        Status.EMPTY_PASSWORD,
    ),
    PreparationError: (
        Status.NOT_PRINTABLE,
        Status.CLIENT_NORMALIZE_ERROR,
        Status.SERVER_NORMALIZE_ERROR,
        Status.PROHIBITED_CHARACTER,
        Status.MIXED_DIRECTIONS,
        Status.UNASSIGNED_CODE_POINT,
    ),
    TooLong: (Status.TOO_LONG,),
    RecordError: (
        Status.RECORD_PARTS_MISMATCH,
        Status.RECORD_UNKNOWN_MECHANISM,
        Status.RECORD_ITERATION_COUNT_PARSE_ERROR,
        Status.RECORD_BASE64_DECODE_ERROR,
        Status.RECORD_KEY_LENGTH_MISMATCH,
        Status.LINE_FEED_MISSING,
        Status.SPACE_MISSING,
        Status.INVALID_NAME,
        Status.NOT_WRITABLE,
    ),
    UnknownUser: (Status.NO_SUCH_USER,),
    InvalidState: (
        Status.ENDED,
        Status.INVALID_SNAPSHOT,
        Status.CLIENT_ILLEGAL_CLIENT_STATE,
        Status.SERVER_ILLEGAL_AUTHENTICATOR_STATE,
    ),
}
_CLASSES: dict[int, type[Refused]] = {status: kind for kind, row in _STATUSES.items() for status in row}

for _kind, _row in _STATUSES.items():
    if _kind is not Refused and _kind.__doc__ is not None:  # (without documentation under `python -OO`)
        _kind.__doc__ += "\n\nIts statuses: " + ", ".join(_status.name for _status in _row) + "."


class Wiped(RuntimeError):
    """The object of the call was wiped before, by `wipe` or at the end of a `with` statement. No `Refused`: the library
    was not called."""
