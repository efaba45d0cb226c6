//! Why a call is not done. Each kind is a number of the library, whose text it shows.

use crate::calls::text_of;
use crate::{sys, ServerError};
use std::error::Error;
use std::fmt;

/// A number for which a kind has no name.
#[derive(Clone, Copy, PartialEq, Eq)]
pub struct Status(u32);

impl Status {
    /// The number.
    pub fn number(self) -> u32 {
        self.0
    }
}

impl fmt::Display for Status {
    fn fmt(&self, f: &mut fmt::Formatter<'_>) -> fmt::Result {
        f.write_str(text_of(self.0))
    }
}

impl fmt::Debug for Status {
    fn fmt(&self, f: &mut fmt::Formatter<'_>) -> fmt::Result {
        write!(f, "Status({}: {})", self.0, text_of(self.0))
    }
}

/// Writes an enum of kinds, each with its number in the library. A kind may hold an error of the server.
macro_rules! kinds {
    ($(#[$about:meta])* $name:ident { $($(#[$what:meta])* $kind:ident $(($held:ident))? = $number:ident,)* }) => {
        $(#[$about])*
        #[derive(Clone, Copy, Debug, PartialEq, Eq)]
        #[non_exhaustive]
        pub enum $name {
            $($(#[$what])* $kind $(($held))?,)*

            /// What has no name here, as a later library may answer.
            Other(Status),
        }

        impl $name {
            /// Returns the number of the status in the library.
            pub fn number(self) -> u32 {
                match self {
                    $($name::$kind { .. } => sys::$number,)*
                    $name::Other(status) => status.number(),
                }
            }

            /// The kind of a number.
            pub(crate) fn of(number: u32) -> Self {
                match number {
                    $(sys::$number => $name::$kind $(($held::OtherError))?,)*
                    _ => $name::Other(Status(number)),
                }
            }
        }

        impl fmt::Display for $name {
            fn fmt(&self, f: &mut fmt::Formatter<'_>) -> fmt::Result {
                f.write_str(text_of(self.number()))?;
                match self {
                    $($($name::$kind(error) => write!(f, ": {}", error as &$held),)?)*
                    _ => Ok(()),
                }
            }
        }

        impl Error for $name {}
    };
}

kinds! {
    /// Why a client rejects a message of the server, or cannot answer it.
    ScramErrorKind {
        /// The message is not UTF-8.
        Utf8Error = CLIENT_UTF8_ERROR,
        /// The server-first message has fewer than three parts.
        InsufficientParts = CLIENT_INSUFFICIENT_PARTS,
        /// The server-first message begins with `m=`, a mandatory extension.
        ExtensionNotSupported = CLIENT_EXTENSION_NOT_SUPPORTED,
        /// The first part of the server-first message does not begin with `r=`.
        NonceNotFound = CLIENT_NONCE_NOT_FOUND,
        /// The nonce of the server-first message does not begin with the client's nonce.
        ClientNonceMismatch = CLIENT_CLIENT_NONCE_MISMATCH,
        /// The second part of the server-first message does not begin with `s=`.
        SaltNotFound = CLIENT_SALT_NOT_FOUND,
        /// A salt or a signature is not base64.
        Base64DecodeError = CLIENT_BASE64_DECODE_ERROR,
        /// The third part of the server-first message does not begin with `i=`.
        IterationCountNotFound = CLIENT_ITERATION_COUNT_NOT_FOUND,
        /// The iteration count is no number from 1 to 4294967295.
        IterationCountParseError = CLIENT_ITERATION_COUNT_PARSE_ERROR,
        /// The iteration count is below the minimum that the client accepts.
        IterationCountTooSmall = CLIENT_ITERATION_COUNT_TOO_SMALL,
        /// The iteration count is above the maximum that the client accepts.
        IterationCountTooLarge = CLIENT_ITERATION_COUNT_TOO_LARGE,
        /// The typed password is not printable ASCII.
        NormalizeError = CLIENT_NORMALIZE_ERROR,
        /// The keys are for another salt or iteration count than the message has, and the client has no password. An
        /// attacker on the path can cause this error, so keep the keys.
        StaleKeys = CLIENT_STALE_KEYS,
        /// Never returned, since HMAC accepts keys of every length.
        HmacErrorInvalidLength = CLIENT_HMAC_ERROR_INVALID_LENGTH,
        /// Never returned by the client.
        XorLengthMismatch = CLIENT_XOR_LENGTH_MISMATCH,
        /// The message does not come in this state of the client.
        IllegalClientState = CLIENT_ILLEGAL_CLIENT_STATE,
        /// The server-final message is no error of the server, and does not begin with `v=` or has another signature.
        ServerSignatureMismatch = CLIENT_SERVER_SIGNATURE_MISMATCH,
        /// A part in the place of an extension is none: after the iteration count, or after the signature. Only a client
        /// that is strict, has a channel or acts for an identity returns it.
        MisplacedAttribute = CLIENT_MISPLACED_ATTRIBUTE,
        /// The server sent this error in the place of its signature, such as `invalid-proof` for a wrong password.
        ServerError(ServerError) = SERVER_ERROR,
        /// An allocation failed. Nothing has changed, and you can repeat the call.
        OutOfMemory = OUT_OF_MEMORY,
    }
}

kinds! {
    /// Why a server rejects a message of the client, or cannot answer it.
    ServerScramErrorKind {
        /// The message is not UTF-8.
        Utf8Error = SERVER_UTF8_ERROR,
        /// The client-first message does not begin with `n,,`, or with `y,,` if that is accepted. For a server with
        /// channels, it does not begin with `p=` and the name of a kind of which the server has the channel.
        CannotParseGs2Header = SERVER_CANNOT_PARSE_GS2_HEADER,
        /// The client-first message has no user name, or one that is not escaped.
        CannotParseUsername = SERVER_CANNOT_PARSE_USERNAME,
        /// The second part of the client-first message is absent or does not begin with `r=`.
        CannotParseClientNonce = SERVER_CANNOT_PARSE_CLIENT_NONCE,
        /// Never returned, since HMAC accepts keys of every length.
        HmacErrorInvalidLength = SERVER_HMAC_ERROR_INVALID_LENGTH,
        /// The proof is not as long as a digest.
        XorLengthMismatch = SERVER_XOR_LENGTH_MISMATCH,
        /// The password is not printable ASCII.
        NormalizeError = SERVER_NORMALIZE_ERROR,
        /// The client-final message does not begin with `c=`, or its second part is absent or does not begin with `r=`.
        CannotParseClientFinalMessage = SERVER_CANNOT_PARSE_CLIENT_FINAL_MESSAGE,
        /// The channel binding is not the header with which the client-first message began, with the data of the
        /// server's channel if there is one.
        InvalidChannelBinding = SERVER_INVALID_CHANNEL_BINDING,
        /// A channel binding or a proof is not base64.
        Base64DecodeError = SERVER_BASE64_DECODE_ERROR,
        /// The nonce is not that of the challenge.
        IncorrectClientFinalNonce = SERVER_INCORRECT_CLIENT_FINAL_NONCE,
        /// The last part of the client-final message does not begin with `p=`.
        ProofNotFoundInClientFinal = SERVER_PROOF_NOT_FOUND_IN_CLIENT_FINAL,
        /// The proof does not meet the stored key.
        AuthenticationFailed = SERVER_AUTHENTICATION_FAILED,
        /// No challenge is open.
        IllegalAuthenticatorState = SERVER_ILLEGAL_AUTHENTICATOR_STATE,
        /// A part in the place of an extension is none: after the nonce of the client-first message, or between the nonce
        /// and the proof of the client-final message. Only a server that tests extensions returns it: a strict one, one with
        /// channels, one that accepts identities, and one with `reject_misplaced`.
        MisplacedAttribute = SERVER_MISPLACED_ATTRIBUTE,
        /// A name or a message does not fit into the struct, or the salt of the record has more than 128 bytes.
        TooLong = TOO_LONG,
        /// A key of the record is not as long as a digest of the version.
        KeyLengthMismatch = RECORD_KEY_LENGTH_MISMATCH,
        /// The iteration count of the record is 0.
        ZeroIterations = ZERO_ITERATIONS,
        /// The store of users has failed ([`ScramAuthenticator::store_error`](crate::ScramAuthenticator::store_error)).
        /// Nothing has changed, and you can repeat the call.
        StoreUnavailable = REFUSED_SYS_TEMP,
        /// An allocation failed. Nothing has changed, and you can repeat the call.
        OutOfMemory = OUT_OF_MEMORY,
    }
}

kinds! {
    /// Why no record and no keys can be made of a password or of parts.
    RecordError {
        /// The typed password is not printable ASCII.
        NotPrintable = NOT_PRINTABLE,
        /// The iteration count is 0.
        ZeroIterations = ZERO_ITERATIONS,
        /// The salt is longer than 128 bytes, or that of a mock record longer than 64.
        TooLong = TOO_LONG,
        /// A key is not as long as a digest of the version.
        KeyLengthMismatch = RECORD_KEY_LENGTH_MISMATCH,
        /// An allocation failed.
        OutOfMemory = OUT_OF_MEMORY,
    }
}

kinds! {
    /// Why no message of PLAIN can be made of a user name and a password.
    PlainError {
        /// The user name is empty.
        NamesNoUser = NAMES_NO_USER,
        /// The password is empty.
        EmptyPassword = EMPTY_PASSWORD,
        /// The user name, the password or the identity contains a zero byte.
        ProhibitedCharacter = PROHIBITED_CHARACTER,
        /// The identity has more than 256 bytes.
        TooLong = TOO_LONG,
        /// An allocation failed.
        OutOfMemory = OUT_OF_MEMORY,
    }
}

kinds! {
    /// Why no client can act for an identity.
    IdentityError {
        /// The identity has more than 256 bytes.
        TooLong = TOO_LONG,
        /// The identity contains a zero byte (RFC 4422, section 3.4.1).
        ProhibitedCharacter = PROHIBITED_CHARACTER,
    }
}

kinds! {
    /// Why a text cannot be parsed as a record.
    RecordTextError {
        /// The text does not have five fields: parts are missing or left over.
        PartsMismatch = RECORD_PARTS_MISMATCH,
        /// The first field is not a mechanism that the library supports.
        UnknownMechanism = RECORD_UNKNOWN_MECHANISM,
        /// The second field is not a decimal number from 1 to 4294967295 without sign or leading zeros.
        IterationCountParseError = RECORD_ITERATION_COUNT_PARSE_ERROR,
        /// The salt or a key is not base64.
        Base64DecodeError = RECORD_BASE64_DECODE_ERROR,
        /// A key is not as long as a digest of the mechanism.
        KeyLengthMismatch = RECORD_KEY_LENGTH_MISMATCH,
        /// The salt is longer than 128 bytes.
        TooLong = TOO_LONG,
        /// An allocation failed.
        OutOfMemory = OUT_OF_MEMORY,
    }
}

kinds! {
    /// Why a line of records cannot be parsed.
    ReadLinesErrorKind {
        /// The last line has no line feed.
        LineFeedMissing = LINE_FEED_MISSING,
        /// The line has no space.
        SpaceMissing = SPACE_MISSING,
        /// The text before the last space is not an escaped name.
        InvalidName = INVALID_NAME,
        /// The record does not have five fields: parts are missing or left over.
        PartsMismatch = RECORD_PARTS_MISMATCH,
        /// The first field of the record is not a mechanism that the library supports.
        UnknownMechanism = RECORD_UNKNOWN_MECHANISM,
        /// The second field of the record is not a decimal number from 1 to 4294967295 without sign or leading zeros.
        IterationCountParseError = RECORD_ITERATION_COUNT_PARSE_ERROR,
        /// The salt or a key is not base64.
        Base64DecodeError = RECORD_BASE64_DECODE_ERROR,
        /// A key is not as long as a digest of the mechanism.
        KeyLengthMismatch = RECORD_KEY_LENGTH_MISMATCH,
        /// The salt is longer than 128 bytes.
        TooLong = TOO_LONG,
        /// An allocation failed.
        OutOfMemory = OUT_OF_MEMORY,
    }
}

/// A line of records that cannot be parsed. Its kind is the [`source`](Error::source).
#[derive(Clone, Copy, Debug, PartialEq, Eq)]
pub struct ReadLinesError {
    /// The number of the line, counted from 1; 0 if an allocation failed.
    pub line: usize,

    /// Why the line cannot be parsed.
    pub kind: ReadLinesErrorKind,
}

impl fmt::Display for ReadLinesError {
    fn fmt(&self, f: &mut fmt::Formatter<'_>) -> fmt::Result {
        write!(f, "Line {} cannot be parsed", self.line)
    }
}

impl Error for ReadLinesError {
    fn source(&self) -> Option<&(dyn Error + 'static)> {
        Some(&self.kind)
    }
}

kinds! {
    /// Why SASLprep rejects a text.
    SaslprepError {
        /// The prepared text contains a character that RFC 4013, section 2.3, prohibits.
        ProhibitedCharacter = PROHIBITED_CHARACTER,
        /// The prepared text mixes right-to-left and left-to-right characters, or does not begin and end with a
        /// right-to-left one (RFC 3454, section 6).
        MixedDirections = MIXED_DIRECTIONS,
        /// The text, or the prepared text, contains a code point that Unicode 3.2 does not assign.
        UnassignedCodePoint = UNASSIGNED_CODE_POINT,
        /// An allocation failed.
        OutOfMemory = OUT_OF_MEMORY,
    }
}

kinds! {
    /// Why a connection has to be closed, or why a call on one fails. An error of SCRAM is `Other`;
    /// [`ConnectionError::scram`] returns its kind.
    ConnectionError {
        /// The peer sent another protocol header than that of SASL.
        ProtocolHeaderMismatch = PROTOCOL_HEADER_MISMATCH,
        /// The frame has fewer than 8 or more than 512 bytes.
        FrameSize = FRAME_SIZE,
        /// The peer sent another frame than the expected one.
        UnexpectedFrame = UNEXPECTED_FRAME,
        /// The reply does not fit into a frame of 512 bytes.
        ReplyTooLarge = REPLY_TOO_LARGE,
        /// The frame cannot be parsed.
        MalformedFrame = MALFORMED_FRAME,
        /// The frame has another type or data offset than a SASL frame.
        NoSaslFrame = NO_SASL_FRAME,
        /// A size inside the frame exceeds 32 bits.
        FrameTooLarge = FRAME_TOO_LARGE,
        /// The client cannot answer this frame, or the server does not offer this mechanism.
        NotImplemented = NOT_IMPLEMENTED,
        /// The server rejected the login: the credentials are wrong.
        RefusedAuth = REFUSED_AUTH,
        /// The server rejected the login because of a system error.
        RefusedSys = REFUSED_SYS,
        /// The server rejected the login because of a permanent system error.
        RefusedSysPerm = REFUSED_SYS_PERM,
        /// The server rejected the login because of a temporary system error.
        RefusedSysTemp = REFUSED_SYS_TEMP,
        /// The other side ended its stream before the login was complete.
        EndOfInput = END_OF_INPUT,
        /// The server offers no mechanism.
        NoSuchMechanism = NO_SUCH_MECHANISM,
        /// A name or a message does not fit into the struct. Close the connection.
        TooLong = TOO_LONG,
        /// The connection has ended.
        Ended = ENDED,
        /// An allocation failed. Nothing has changed, and you can repeat the call.
        OutOfMemory = OUT_OF_MEMORY,
    }
}

impl ConnectionError {
    /// Returns the error of SCRAM, if it is one.
    pub fn scram(self) -> Option<ScramErrorKind> {
        match self {
            ConnectionError::OutOfMemory => None,
            why => match ScramErrorKind::of(why.number()) {
                ScramErrorKind::Other(_) => None,
                kind => Some(kind),
            },
        }
    }
}

impl From<RecordError> for ServerScramErrorKind {
    fn from(why: RecordError) -> Self {
        match why {
            RecordError::NotPrintable => ServerScramErrorKind::NormalizeError,
            why => ServerScramErrorKind::of(why.number()),
        }
    }
}
