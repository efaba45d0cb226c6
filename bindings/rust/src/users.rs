//! Where a server looks its users up.

use crate::{ScramRecord, ScramVersion, ServerScramErrorKind};
use std::collections::HashMap;
use std::error::Error;
use std::fmt;
use std::sync::Arc;

/// The records of users, of any hashes, for connections and for a [`ScramAuthenticator`](crate::ScramAuthenticator).
///
/// ```
/// use fe2o3_sasl_proved::*;
///
/// #[derive(Clone)]
/// struct Folder(std::path::PathBuf);
///
/// impl UserRecords for Folder {
///     fn records(&self, username: &str) -> Result<Vec<ScramRecord>, StoreError> {
///         if username.contains(['/', '.']) {
///             return Ok(Vec::new());
///         }
///         match std::fs::read_to_string(self.0.join(username)) {
///             Ok(text) => Ok(vec![ScramRecord::parse(text.trim_end()).map_err(StoreError::new)?]),
///             Err(why) if why.kind() == std::io::ErrorKind::NotFound => Ok(Vec::new()),
///             Err(why) => Err(StoreError::new(why)),
///         }
///     }
/// }
/// ```
pub trait UserRecords {
    /// Returns the records of a user, whose name has no escapes; none if there is no such user. SCRAM with a hash uses
    /// the first record of that hash, and PLAIN the first record. Do not add mock records: see
    /// [`PasswordServer::mock_unknown_users`](crate::PasswordServer::mock_unknown_users).
    ///
    /// After an error a connection sends the outcome sys-temp, so that the client can try again later
    /// ([`ServerNegotiation::store_error`](crate::ServerNegotiation::store_error)). A `ScramAuthenticator` calls this at
    /// both messages of an exchange.
    fn records(&self, username: &str) -> Result<Vec<ScramRecord>, StoreError>;

    /// Returns the identities that a user may act for besides itself, in SCRAM and PLAIN (RFC 4422, section 2), without
    /// escapes and without NUL. It is called only by a server that accepts identities
    /// ([`PasswordServer::accept_authzid`](crate::PasswordServer::accept_authzid),
    /// [`ScramAuthenticator::accept_authzid`](crate::ScramAuthenticator::accept_authzid)).
    fn identities(&self, _username: &str) -> Result<Vec<String>, StoreError> {
        Ok(Vec::new())
    }

    /// Returns the hash by which a [`ScramAuthenticator`](crate::ScramAuthenticator) over these users authenticates:
    /// SHA-256, unless you return another one. Connections do not call it.
    fn scram_version(&self) -> &ScramVersion {
        &ScramVersion::Sha256
    }
}

impl<T: UserRecords + ?Sized> UserRecords for Arc<T> {
    fn records(&self, username: &str) -> Result<Vec<ScramRecord>, StoreError> {
        self.as_ref().records(username)
    }

    fn identities(&self, username: &str) -> Result<Vec<String>, StoreError> {
        self.as_ref().identities(username)
    }

    fn scram_version(&self) -> &ScramVersion {
        self.as_ref().scram_version()
    }
}

impl UserRecords for HashMap<String, Vec<ScramRecord>> {
    fn records(&self, username: &str) -> Result<Vec<ScramRecord>, StoreError> {
        Ok(self.get(username).cloned().unwrap_or_default())
    }
}

/// Why a user cannot be looked up: the store is down, or what it returns cannot be parsed. The cause is its
/// [`source`](Error::source).
#[derive(Clone, Debug)]
pub struct StoreError(Arc<dyn Error + Send + Sync>);

impl StoreError {
    /// Returns the error with this cause, an error or a text.
    pub fn new(why: impl Into<Box<dyn Error + Send + Sync>>) -> Self {
        Self(Arc::from(why.into()))
    }
}

impl fmt::Display for StoreError {
    fn fmt(&self, f: &mut fmt::Formatter<'_>) -> fmt::Result {
        f.write_str("The user cannot be looked up")
    }
}

impl Error for StoreError {
    fn source(&self) -> Option<&(dyn Error + 'static)> {
        Some(self.0.as_ref())
    }
}

/// The error that a server of messages returns for it.
impl From<StoreError> for ServerScramErrorKind {
    fn from(_: StoreError) -> Self {
        ServerScramErrorKind::StoreUnavailable
    }
}
