"""The numbers of the library. Written by tools/generate/header.py."""

from __future__ import annotations

import enum

SHA_1 = 1
SHA_256 = 256
SHA_512 = 512

#: The length in bytes of the salt of a new record and of a mock record, unless you choose another one.
DEFAULT_SALT_LEN = 16

#: The iteration count of a new record and of a mock record, unless you choose another one.
DEFAULT_ITERATIONS = 4096


class Status(enum.IntEnum):
    """What a call of the library returns. The header says what each means."""

    OK = 0
    OUT_OF_MEMORY = 1
    ROOM_TOO_SMALL = 2
    NOT_UTF8 = 3
    NO_SUCH_VERSION = 4
    TOO_LONG = 5
    NOT_PRINTABLE = 6
    ZERO_ITERATIONS = 7
    NO_SUCH_SECRET = 8
    NO_KEYS = 9
    OTHER_VERSION = 10
    OTHER_PASSWORD = 11
    NO_SUCH_MECHANISM = 12
    ENDED = 13
    INVALID_SNAPSHOT = 14
    NAMES_NO_USER = 15
    NEEDS_RECORDS = 16
    CLIENT_UTF8_ERROR = 20
    CLIENT_INSUFFICIENT_PARTS = 21
    CLIENT_EXTENSION_NOT_SUPPORTED = 22
    CLIENT_NONCE_NOT_FOUND = 23
    CLIENT_CLIENT_NONCE_MISMATCH = 24
    CLIENT_SALT_NOT_FOUND = 25
    CLIENT_BASE64_DECODE_ERROR = 26
    CLIENT_ITERATION_COUNT_NOT_FOUND = 27
    CLIENT_ITERATION_COUNT_PARSE_ERROR = 28
    CLIENT_ITERATION_COUNT_TOO_SMALL = 29
    CLIENT_ITERATION_COUNT_TOO_LARGE = 30
    CLIENT_NORMALIZE_ERROR = 31
    CLIENT_STALE_KEYS = 32
    CLIENT_HMAC_ERROR_INVALID_LENGTH = 33
    CLIENT_XOR_LENGTH_MISMATCH = 34
    CLIENT_ILLEGAL_CLIENT_STATE = 35
    CLIENT_SERVER_SIGNATURE_MISMATCH = 36
    CLIENT_MISPLACED_ATTRIBUTE = 37
    SERVER_UTF8_ERROR = 40
    SERVER_CANNOT_PARSE_GS2_HEADER = 41
    SERVER_CANNOT_PARSE_USERNAME = 42
    SERVER_CANNOT_PARSE_CLIENT_NONCE = 43
    SERVER_HMAC_ERROR_INVALID_LENGTH = 44
    SERVER_XOR_LENGTH_MISMATCH = 45
    SERVER_NORMALIZE_ERROR = 46
    SERVER_CANNOT_PARSE_CLIENT_FINAL_MESSAGE = 47
    SERVER_INVALID_CHANNEL_BINDING = 48
    SERVER_BASE64_DECODE_ERROR = 49
    SERVER_INCORRECT_CLIENT_FINAL_NONCE = 50
    SERVER_PROOF_NOT_FOUND_IN_CLIENT_FINAL = 51
    SERVER_AUTHENTICATION_FAILED = 52
    SERVER_ILLEGAL_AUTHENTICATOR_STATE = 53
    SERVER_MISPLACED_ATTRIBUTE = 54
    RECORD_PARTS_MISMATCH = 60
    RECORD_UNKNOWN_MECHANISM = 61
    RECORD_ITERATION_COUNT_PARSE_ERROR = 62
    RECORD_BASE64_DECODE_ERROR = 63
    RECORD_KEY_LENGTH_MISMATCH = 64
    LINE_FEED_MISSING = 65
    SPACE_MISSING = 66
    INVALID_NAME = 67
    NO_SUCH_USER = 68
    NOT_WRITABLE = 69
    PROTOCOL_HEADER_MISMATCH = 70
    FRAME_SIZE = 71
    UNEXPECTED_FRAME = 72
    REPLY_TOO_LARGE = 73
    MALFORMED_FRAME = 74
    NO_SASL_FRAME = 75
    FRAME_TOO_LARGE = 76
    NOT_IMPLEMENTED = 77
    REFUSED_AUTH = 81
    REFUSED_SYS = 82
    REFUSED_SYS_PERM = 83
    REFUSED_SYS_TEMP = 84
    NO_SUCH_CHOICE = 85
    PROHIBITED_CHARACTER = 86
    MIXED_DIRECTIONS = 87
    UNASSIGNED_CODE_POINT = 88
    SERVER_ERROR = 89
    END_OF_INPUT = 90
    CHANNEL_DATA_LENGTH = 91
    NO_SUCH_CHANNEL = 92
    EMPTY_PASSWORD = 93


class Progress(enum.IntEnum):
    """How far a login on a connection is."""

    IN_PROGRESS = 0
    AUTHENTICATED = 1
    FAILED = 2


class Offer(enum.IntFlag):
    """What a server offers. PLAIN sends the password in clear, so offer it over TLS only."""

    SCRAM_SHA_512 = 1
    SCRAM_SHA_256 = 2
    SCRAM_SHA_1 = 4
    PLAIN = 8
    ANONYMOUS = 16
    EXTERNAL = 32


class ServerFlag(enum.IntFlag):
    """What else a server does. ACCEPT_CBIND_FLAG_Y: SCRAM also accepts the GS2 header `y,,`, like `Server.first`
    with `accept_cbind_flag_y`. PLAIN_PREPARED and PLAIN_SASLPREP, of which one is allowed, say which passwords PLAIN tests:
    the password as received, or as the server prepares it by SASLprep. Without them it rejects non-ASCII passwords.
    SIGNATURE_BY_CHALLENGE: SCRAM sends the server's signature in a challenge, and the outcome follows the client's empty
    response. INITIAL_RESPONSE_BY_CHALLENGE: SCRAM and PLAIN answer an init without an initial response by an
    empty challenge, and the client's response is then the initial response. STRICT: SCRAM reads messages by
    the grammar of RFC 5802, section 7, like a `Server` with `strict`. REJECT_MISPLACED: SCRAM rejects what is no
    extension in the place of one, and nothing more, like a `Server` with `reject_misplaced`. A server with channels
    does so in any case."""

    ACCEPT_CBIND_FLAG_Y = 64
    PLAIN_PREPARED = 128
    PLAIN_SASLPREP = 256
    INITIAL_RESPONSE_BY_CHALLENGE = 512
    SIGNATURE_BY_CHALLENGE = 1024
    STRICT = 2048
    REJECT_MISPLACED = 4096


class PlainPasswords(enum.IntEnum):
    """Which password `plain_verify` tests for the one of a message. TYPED: the password as typed, which has to be
    printable ASCII. PREPARED: the password as received, from a client that prepares it. SASLPREP: the text that
    SASLprep prepares the received password to."""

    TYPED = 0
    PREPARED = 1
    SASLPREP = 2


class ChannelKind(enum.IntEnum):
    """A kind of channel binding. Both sides have to use one kind. TLS_UNIQUE (RFC 5929, section 3) is for TLS 1.2 and
    older, TLS_SERVER_END_POINT (RFC 5929, section 4) for every version. TLS_EXPORTER (RFC 9266) is for TLS 1.3 and,
    with the extended master secret, for TLS 1.2."""

    TLS_UNIQUE = 1
    TLS_SERVER_END_POINT = 2
    TLS_EXPORTER = 3


class Rejection(enum.IntEnum):
    """Why a server answered a frame by the outcome Auth, for its log only: the peer receives that outcome for each of
    them. Those that begin with SERVER are errors of a SCRAM message, with the numbers of `Status`."""

    MECHANISM_NOT_OFFERED = 101
    NO_INITIAL_RESPONSE = 102
    INVALID_MESSAGE = 103
    CHANNEL = 104
    UNKNOWN_USER = 105
    NO_RECORD_FOR_HASH = 106
    NO_RIGHT = 107
    WRONG_PROOF = 108
    WRONG_PASSWORD = 109
    OTHER_IDENTITY = 110
    UNEXPECTED_INIT = 111
    UNEXPECTED_RESPONSE = 112
    OTHER = 113
    SERVER_UTF8_ERROR = 40
    SERVER_CANNOT_PARSE_GS2_HEADER = 41
    SERVER_CANNOT_PARSE_USERNAME = 42
    SERVER_CANNOT_PARSE_CLIENT_NONCE = 43
    SERVER_HMAC_ERROR_INVALID_LENGTH = 44
    SERVER_XOR_LENGTH_MISMATCH = 45
    SERVER_NORMALIZE_ERROR = 46
    SERVER_CANNOT_PARSE_CLIENT_FINAL_MESSAGE = 47
    SERVER_INVALID_CHANNEL_BINDING = 48
    SERVER_BASE64_DECODE_ERROR = 49
    SERVER_INCORRECT_CLIENT_FINAL_NONCE = 50
    SERVER_PROOF_NOT_FOUND_IN_CLIENT_FINAL = 51
    SERVER_AUTHENTICATION_FAILED = 52
    SERVER_ILLEGAL_AUTHENTICATOR_STATE = 53
    SERVER_MISPLACED_ATTRIBUTE = 54


class _Mechanism(enum.IntEnum):
    """The mechanism of a client on a connection."""

    SCRAM = 0
    PLAIN = 1
    ANONYMOUS = 2
    EXTERNAL = 3
    ANONYMOUS_AS = 4
    EXTERNAL_AS = 5


class _Secret(enum.IntEnum):
    """What a client logs in with."""

    BY_PASSWORD = 0
    BY_KEYS = 1
    BY_PASSWORD_AND_KEYS = 2


class _Form(enum.IntEnum):
    """The form of a password."""

    TYPED = 0
    PREPARED = 1


class _ChannelUse(enum.IntEnum):
    """What a client says of the channel under an exchange, such as TLS (RFC 5802, section 6)."""

    ABSENT = 0
    NOT_OFFERED = 1
    BOUND = 2


class _Unassigned(enum.IntEnum):
    """What fe2o3_saslprep does with code points that Unicode 3.2 does not assign."""

    REFUSED = 0
    ALLOWED = 1


class _ServerState(enum.IntEnum):
    """How far the exchange of a SCRAM server is."""

    INITIAL = 0
    CHALLENGE_OPEN = 1
    AUTHENTICATED = 2
    CHALLENGE_OPEN_CBIND_FLAG_Y = 3
    SIGNATURE_SENT = 4
    INITIAL_RESPONSE_ASKED = 5
    CHALLENGE_OPEN_TLS_UNIQUE = 7
    CHALLENGE_OPEN_TLS_SERVER_END_POINT = 8
    CHALLENGE_OPEN_TLS_EXPORTER = 9
