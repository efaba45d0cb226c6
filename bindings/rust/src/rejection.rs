//! Why a login is rejected, for the server's log.

use crate::{sys, ServerScramErrorKind};
use std::fmt;

/// Why a server rejects a login by the outcome Auth. It is for the server's log only: the client receives that outcome,
/// without data, for each reason.
#[derive(Clone, Copy, Debug, PartialEq, Eq)]
#[non_exhaustive]
pub enum Rejection {
    /// The init names a mechanism that the server does not offer.
    MechanismNotOffered,

    /// The init of a mechanism that needs an initial response has none.
    NoInitialResponse,

    /// The initial response is no message of PLAIN that is accepted for a test of its password.
    InvalidMessage,

    /// SCRAM rejects the text of the message with this error. A failed login has one of the next five reasons.
    Scram(ServerScramErrorKind),

    /// The client's channel binding is not one that the server accepts (RFC 5802, section 6): someone may be between the
    /// two.
    Channel,

    /// The user of SCRAM has no record, for any hash. The server has no mock authentication, or has used a mock record.
    UnknownUser,

    /// The user of SCRAM has a record for another hash, and none for that of the exchange.
    NoRecordForHash,

    /// The user of SCRAM may not act for the identity that it names, whatever its proof is (RFC 4422, section 2).
    NoRight,

    /// The proof of SCRAM is not that of the user's password.
    WrongProof,

    /// The message of PLAIN does not have the password of the record that is tested, the user has none, or may not act for
    /// the identity that it names.
    WrongPassword,

    /// The init of EXTERNAL asks for another name than the one that the transport authenticated.
    OtherIdentity,

    /// An init arrives where the server waits for the response that completes the init before it.
    UnexpectedInit,

    /// A response arrives where no mechanism waits for one, or it is not empty where only an empty one is expected.
    UnexpectedResponse,

    /// None of the others, as a later library may have.
    Other,
}

impl Rejection {
    /// Returns the reason with this number in the library, if it is one.
    pub(crate) fn of(number: u32) -> Option<Self> {
        Some(match number {
            sys::REJECTION_NONE => return None,
            sys::REJECTION_MECHANISM_NOT_OFFERED => Self::MechanismNotOffered,
            sys::REJECTION_NO_INITIAL_RESPONSE => Self::NoInitialResponse,
            sys::REJECTION_INVALID_MESSAGE => Self::InvalidMessage,
            sys::SERVER_UTF8_ERROR..=sys::SERVER_MISPLACED_ATTRIBUTE => Self::Scram(ServerScramErrorKind::of(number)),
            sys::REJECTION_CHANNEL => Self::Channel,
            sys::REJECTION_UNKNOWN_USER => Self::UnknownUser,
            sys::REJECTION_NO_RECORD_FOR_HASH => Self::NoRecordForHash,
            sys::REJECTION_NO_RIGHT => Self::NoRight,
            sys::REJECTION_WRONG_PROOF => Self::WrongProof,
            sys::REJECTION_WRONG_PASSWORD => Self::WrongPassword,
            sys::REJECTION_OTHER_IDENTITY => Self::OtherIdentity,
            sys::REJECTION_UNEXPECTED_INIT => Self::UnexpectedInit,
            sys::REJECTION_UNEXPECTED_RESPONSE => Self::UnexpectedResponse,
            _ => Self::Other,
        })
    }
}

impl fmt::Display for Rejection {
    fn fmt(&self, f: &mut fmt::Formatter<'_>) -> fmt::Result {
        f.write_str(match self {
            Self::MechanismNotOffered => "Mechanism not offered",
            Self::NoInitialResponse => "No initial response",
            Self::InvalidMessage => "Invalid message of PLAIN",
            Self::Scram(kind) => {
                let text = kind.to_string();
                return write!(f, "SCRAM: {}", text.strip_prefix("Server: ").unwrap_or(&text));
            }
            Self::Channel => "Channel binding",
            Self::UnknownUser => "Unknown user",
            Self::NoRecordForHash => "No record for this hash",
            Self::NoRight => "No right to act for this identity",
            Self::WrongProof => "Wrong password",
            Self::WrongPassword => "Unknown user or wrong password",
            Self::OtherIdentity => "Another identity than that of the transport",
            Self::UnexpectedInit => "Unexpected init",
            Self::UnexpectedResponse => "Unexpected response",
            Self::Other => "Rejected",
        })
    }
}
