//! The keys that a client can cache in place of its password.

use crate::calls::{done, head, made, made_of_salted, put};
use crate::{sys, Password, RecordError, ScramVersion};
use std::fmt;

pub(crate) const NO_KEYS: sys::ScramKeys =
    sys::ScramKeys { version: 0, iterations: 0, salt_len: 0, salt: [0; 128], client_key: [0; 64], server_key: [0; 64] };

/// The keys that a client can cache in place of its password, as long as the server keeps its salt and iteration count.
/// They are secret: they suffice to log in.
///
/// ```
/// use fe2o3_sasl_proved::{CachedKeys, ScramVersion};
///
/// let keys = CachedKeys::from_password(ScramVersion::Sha256, "pencil", b"a salt of the server", 4096)?;
/// let kept = CachedKeys::from_parts(
///     keys.version(), keys.salt(), keys.iterations(), keys.client_key(), keys.server_key())?;
/// assert!(kept.salt() == keys.salt() && kept.client_key() == keys.client_key());
/// # Ok::<(), fe2o3_sasl_proved::RecordError>(())
/// ```
#[derive(Clone)]
pub struct CachedKeys(pub(crate) sys::ScramKeys);

impl CachedKeys {
    /// Derives the keys of a password, for a server that uses this salt and iteration count. A text is a typed
    /// password.
    pub fn from_password<'a>(
        version: ScramVersion,
        password: impl Into<Password<'a>>,
        salt: &[u8],
        iterations: u32,
    ) -> Result<Self, RecordError> {
        made(sys::fe2o3_scram_keys_make, NO_KEYS, version, password.into(), salt, iterations).map(Self)
    }

    /// Computes the keys of a salted password (RFC 5802, section 3). You computed it as `Hi(password, salt, iterations)`,
    /// for example in a library that uses SHA instructions. The call cannot test that it is of this salt and count.
    ///
    /// The errors are, in this order: `KeyLengthMismatch` if the salted password is not as long as a digest of the
    /// version, `TooLong` for a salt of more than 128 bytes, and `ZeroIterations`.
    pub fn from_salted_password(
        version: ScramVersion,
        salted_password: &[u8],
        salt: &[u8],
        iterations: u32,
    ) -> Result<Self, RecordError> {
        made_of_salted(sys::fe2o3_scram_keys_of_salted, NO_KEYS, version, salted_password, salt, iterations).map(Self)
    }

    /// Returns keys from their stored parts.
    pub fn from_parts(
        version: ScramVersion,
        salt: &[u8],
        iterations: u32,
        client_key: &[u8],
        server_key: &[u8],
    ) -> Result<Self, RecordError> {
        if iterations == 0 {
            return Err(RecordError::ZeroIterations);
        }
        if client_key.len() != version.digest_len() || server_key.len() != version.digest_len() {
            return Err(RecordError::KeyLengthMismatch);
        }
        let mut keys = sys::ScramKeys { version: version.number(), iterations, ..NO_KEYS };
        keys.salt_len = put(salt, &mut keys.salt).ok_or(RecordError::TooLong)?;
        put(client_key, &mut keys.client_key).ok_or(RecordError::TooLong)?;
        put(server_key, &mut keys.server_key).ok_or(RecordError::TooLong)?;
        Ok(Self(keys))
    }

    /// Returns the keys of a complete login, if the library has some.
    pub(crate) fn handed_out(state: &sys::ScramClient) -> Option<Self> {
        let mut keys = NO_KEYS;
        // SAFETY: the state is borrowed, and the struct is one of this function.
        let status = unsafe { sys::fe2o3_scram_client_get_keys(state, &mut keys) };
        done(status).ok()?;
        Some(Self(keys))
    }

    /// Returns the version.
    pub fn version(&self) -> ScramVersion {
        ScramVersion::of_keys(&self.0)
    }

    /// Returns the salt for which the keys were derived.
    pub fn salt(&self) -> &[u8] {
        head(&self.0.salt, self.0.salt_len as usize)
    }

    /// Returns the iteration count for which the keys were derived.
    pub fn iterations(&self) -> u32 {
        self.0.iterations
    }

    /// Returns the ClientKey. It is secret.
    pub fn client_key(&self) -> &[u8] {
        head(&self.0.client_key, self.version().digest_len())
    }

    /// Returns the ServerKey. It is secret.
    pub fn server_key(&self) -> &[u8] {
        head(&self.0.server_key, self.version().digest_len())
    }
}

impl fmt::Debug for CachedKeys {
    fn fmt(&self, f: &mut fmt::Formatter<'_>) -> fmt::Result {
        f.debug_struct("CachedKeys")
            .field("version", &self.version())
            .field("iterations", &self.iterations())
            .finish_non_exhaustive()
    }
}
