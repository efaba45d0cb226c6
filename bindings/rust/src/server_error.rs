//! The error that a server sends in the place of a message (RFC 5802, section 7).

use crate::calls::{filled, text_of_error};
use crate::{sys, ServerScramErrorKind};
use std::error::Error;
use std::fmt;

/// Why a server ends an exchange, as it reports it in the place of a message (RFC 5802, section 7). The report is not
/// authenticated: anyone who can alter the connection can write it.
#[derive(Clone, Copy, Debug, PartialEq, Eq)]
pub enum ServerError {
    /// `invalid-encoding`
    InvalidEncoding,
    /// `extensions-not-supported`: the server does not support a mandatory extension.
    ExtensionsNotSupported,
    /// `invalid-proof`: the password is wrong, or the user is unknown.
    InvalidProof,
    /// `channel-bindings-dont-match`
    ChannelBindingsDontMatch,
    /// `server-does-support-channel-binding`: the client assumed that the server does not.
    ServerDoesSupportChannelBinding,
    /// `channel-binding-not-supported`
    ChannelBindingNotSupported,
    /// `unsupported-channel-binding-type`
    UnsupportedChannelBindingType,
    /// `unknown-user`: other servers report it. It reveals which users exist.
    UnknownUser,
    /// `invalid-username-encoding`: the user name is not UTF-8, or SASLprep rejects it.
    InvalidUsernameEncoding,
    /// `no-resources`
    NoResources,
    /// `other-error`, and every value that RFC 5802 does not name.
    OtherError,
}

impl ServerError {
    /// Reads a server message that is an error: its first part is `e=` and a value. Returns `None` for any other text.
    ///
    /// ```
    /// use fe2o3_sasl_proved::ServerError;
    /// assert_eq!(ServerError::parse(b"e=invalid-proof"), Some(ServerError::InvalidProof));
    /// assert_eq!(ServerError::parse(b"v=rmF9pqV8S7suAoZWja4dJRkFsKQ="), None);
    /// ```
    pub fn parse(message: &[u8]) -> Option<Self> {
        // SAFETY: the message is a slice that lives through the call.
        Self::of_number(unsafe { sys::fe2o3_scram_server_error(message.as_ptr(), message.len()) })
    }

    /// Returns the error by which a server reports why it rejects a message.
    pub fn of(kind: ServerScramErrorKind) -> Self {
        Self::reported(kind.number())
    }

    /// Returns the error by which a server reports an unknown user: that of a wrong proof, so it does not reveal which
    /// users exist.
    pub fn of_unknown_user() -> Self {
        Self::reported(sys::NO_SUCH_USER)
    }

    /// Returns the error by which a server reports a status.
    fn reported(status: u32) -> Self {
        let message = filled(64, |out, len| {
            // SAFETY: the room and its length are borrowed for writing, and so overlap nothing.
            unsafe { sys::fe2o3_scram_server_error_message(status, out.as_mut_ptr(), out.len(), len) }
        });
        message.ok().and_then(|message| Self::parse(&message)).unwrap_or(ServerError::OtherError)
    }

    /// Returns the message: `e=` and the name.
    pub fn message(self) -> String {
        format!("e={}", self.name())
    }

    /// Returns the name, as RFC 5802 spells it.
    pub fn name(self) -> &'static str {
        text_of_error(self.number())
    }

    fn number(self) -> u32 {
        match self {
            ServerError::InvalidEncoding => sys::SERVER_ERROR_INVALID_ENCODING,
            ServerError::ExtensionsNotSupported => sys::SERVER_ERROR_EXTENSIONS_NOT_SUPPORTED,
            ServerError::InvalidProof => sys::SERVER_ERROR_INVALID_PROOF,
            ServerError::ChannelBindingsDontMatch => sys::SERVER_ERROR_CHANNEL_BINDINGS_DONT_MATCH,
            ServerError::ServerDoesSupportChannelBinding => sys::SERVER_ERROR_SERVER_DOES_SUPPORT_CHANNEL_BINDING,
            ServerError::ChannelBindingNotSupported => sys::SERVER_ERROR_CHANNEL_BINDING_NOT_SUPPORTED,
            ServerError::UnsupportedChannelBindingType => sys::SERVER_ERROR_UNSUPPORTED_CHANNEL_BINDING_TYPE,
            ServerError::UnknownUser => sys::SERVER_ERROR_UNKNOWN_USER,
            ServerError::InvalidUsernameEncoding => sys::SERVER_ERROR_INVALID_USERNAME_ENCODING,
            ServerError::NoResources => sys::SERVER_ERROR_NO_RESOURCES,
            ServerError::OtherError => sys::SERVER_ERROR_OTHER_ERROR,
        }
    }

    fn of_number(number: u32) -> Option<Self> {
        match number {
            sys::SERVER_ERROR_INVALID_ENCODING => Some(ServerError::InvalidEncoding),
            sys::SERVER_ERROR_EXTENSIONS_NOT_SUPPORTED => Some(ServerError::ExtensionsNotSupported),
            sys::SERVER_ERROR_INVALID_PROOF => Some(ServerError::InvalidProof),
            sys::SERVER_ERROR_CHANNEL_BINDINGS_DONT_MATCH => Some(ServerError::ChannelBindingsDontMatch),
            sys::SERVER_ERROR_SERVER_DOES_SUPPORT_CHANNEL_BINDING => Some(ServerError::ServerDoesSupportChannelBinding),
            sys::SERVER_ERROR_CHANNEL_BINDING_NOT_SUPPORTED => Some(ServerError::ChannelBindingNotSupported),
            sys::SERVER_ERROR_UNSUPPORTED_CHANNEL_BINDING_TYPE => Some(ServerError::UnsupportedChannelBindingType),
            sys::SERVER_ERROR_UNKNOWN_USER => Some(ServerError::UnknownUser),
            sys::SERVER_ERROR_INVALID_USERNAME_ENCODING => Some(ServerError::InvalidUsernameEncoding),
            sys::SERVER_ERROR_NO_RESOURCES => Some(ServerError::NoResources),
            sys::SERVER_ERROR_OTHER_ERROR => Some(ServerError::OtherError),
            _ => None,
        }
    }
}

impl fmt::Display for ServerError {
    fn fmt(&self, f: &mut fmt::Formatter<'_>) -> fmt::Result {
        f.write_str(self.name())
    }
}

impl Error for ServerError {}
