//! What a server stores of a password.

use crate::calls::{done, filled, head, made, made_of_salted};
use crate::{sys, Password, RecordError, RecordTextError, ScramVersion};
use std::fmt;
use std::str::FromStr;

pub(crate) const NO_RECORD: sys::ScramRecord = sys::ScramRecord {
    version: 0,
    iterations: 0,
    salt_len: 0,
    salt: [0; 128],
    stored_key: [0; 64],
    server_key: [0; 64],
};

/// The maximum length of a record's text.
const LONGEST_TEXT: usize = 384;

/// The parts of a record, which a store of credentials lends. Anyone who has the ServerKey can impersonate the server.
pub struct StoredPassword<'a> {
    /// The salt.
    pub salt: &'a [u8],

    /// The iteration count.
    pub iterations: u32,

    /// The StoredKey, with as many bytes as a digest of the version.
    pub stored_key: &'a [u8],

    /// The ServerKey, with as many bytes as a digest of the version.
    pub server_key: &'a [u8],
}

impl fmt::Debug for StoredPassword<'_> {
    fn fmt(&self, f: &mut fmt::Formatter<'_>) -> fmt::Result {
        f.debug_struct("StoredPassword").field("iterations", &self.iterations).finish_non_exhaustive()
    }
}

/// What a server stores of one password.
///
/// Its text is the one of PostgreSQL (RFC 5803, section 2):
///
/// ```
/// use fe2o3_sasl_proved::{ScramRecord, ScramVersion};
///
/// # fn main() -> Result<(), Box<dyn std::error::Error>> {
/// let record = ScramRecord::from_password(ScramVersion::Sha256, "pencil", b"random bytes", 4096)?;
/// let read = ScramRecord::parse(&record.to_text())?;
/// assert!(read.verify_password("pencil") && !read.verify_password("pencils"));
/// # Ok(())
/// # }
/// ```
#[derive(Clone)]
pub struct ScramRecord(pub(crate) sys::ScramRecord);

impl ScramRecord {
    /// Computes the record of a password. A text is a typed password. The salt has to be random, and fresh for each
    /// record: the first [`DEFAULT_SALT_LEN`](crate::DEFAULT_SALT_LEN) bytes of
    /// [`generate_nonce`](crate::generate_nonce) suffice. For SCRAM-SHA-256 some clients of MongoDB require 28. All records
    /// of a server need one salt length and one iteration count, which are also those of its mock records.
    pub fn from_password<'a>(
        version: ScramVersion,
        password: impl Into<Password<'a>>,
        salt: &[u8],
        iterations: u32,
    ) -> Result<Self, RecordError> {
        made(sys::fe2o3_scram_record_make, NO_RECORD, version, password.into(), salt, iterations).map(Self)
    }

    /// Computes the record of a salted password (RFC 5802, section 3). You computed it as `Hi(password, salt,
    /// iterations)`, for example in a library that uses SHA instructions. The call cannot test that it is of this salt
    /// and count.
    ///
    /// The errors are, in this order: `KeyLengthMismatch` if the salted password is not as long as a digest of the
    /// version, `TooLong` for a salt of more than 128 bytes, and `ZeroIterations`.
    pub fn from_salted_password(
        version: ScramVersion,
        salted_password: &[u8],
        salt: &[u8],
        iterations: u32,
    ) -> Result<Self, RecordError> {
        let make = sys::fe2o3_scram_record_of_salted;
        made_of_salted(make, NO_RECORD, version, salted_password, salt, iterations).map(Self)
    }

    /// Returns the record of the parts that another server stores (RFC 5802, section 3), each as bytes, not in base64.
    ///
    /// The errors are, in this order: `TooLong` for a salt of more than 128 bytes, `ZeroIterations`, and
    /// `KeyLengthMismatch`.
    pub fn from_parts(version: ScramVersion, stored: &StoredPassword<'_>) -> Result<Self, RecordError> {
        let mut record = NO_RECORD;
        // SAFETY: the parts are slices that live through the call, and the struct is one of this function.
        let status = unsafe {
            sys::fe2o3_scram_record_from_fields(
                version.number(),
                stored.salt.as_ptr(),
                stored.salt.len(),
                stored.iterations,
                stored.stored_key.as_ptr(),
                stored.stored_key.len(),
                stored.server_key.as_ptr(),
                stored.server_key.len(),
                &mut record,
            )
        };
        done(status).map_err(RecordError::of)?;
        Ok(Self(record))
    }

    /// Computes a mock record for a name without a record of this hash, so that the server answers it like one with a
    /// record. The login then fails at its proof. The secret is 32 random bytes, one value for all names, kept as long
    /// as the records. The salt length, at most 64, and the iteration count are those of the server's other records.
    /// Servers make mock records themselves: see
    /// [`PasswordServer::mock_unknown_users`](crate::PasswordServer::mock_unknown_users).
    pub fn mock(
        version: ScramVersion,
        secret: &[u8; 32],
        username: &str,
        salt_len: usize,
        iterations: u32,
    ) -> Result<Self, RecordError> {
        if iterations == 0 {
            return Err(RecordError::ZeroIterations);
        }
        let mut record = NO_RECORD;
        // SAFETY: the secret and the name are slices that live through the call, and the struct is one of this
        // function.
        let status = unsafe {
            sys::fe2o3_scram_record_mock(
                version.number(),
                secret.as_ptr(),
                secret.len(),
                username.as_ptr(),
                username.len(),
                salt_len,
                iterations,
                &mut record,
            )
        };
        done(status).map_err(RecordError::of)?;
        Ok(Self(record))
    }

    /// Parses the text of a record.
    pub fn parse(text: &str) -> Result<Self, RecordTextError> {
        let mut record = NO_RECORD;
        // SAFETY: the text is a slice that lives through the call, and the struct is one of this function.
        let status = unsafe { sys::fe2o3_scram_record_parse(text.as_ptr(), text.len(), &mut record) };
        done(status).map_err(RecordTextError::of)?;
        Ok(Self(record))
    }

    /// Returns the text of the record.
    ///
    /// # Panics
    ///
    /// If an allocation fails.
    pub fn to_text(&self) -> String {
        let text = filled(LONGEST_TEXT, |out, len| {
            // SAFETY: the record is borrowed; the room and its length are borrowed for writing, and so overlap nothing.
            unsafe { sys::fe2o3_scram_record_text(&self.0, out.as_mut_ptr(), out.len(), len) }
        });
        String::from_utf8(text.expect("there is memory for a text")).expect("a record's text is ASCII")
    }

    /// Returns whether a password, for instance one received by PLAIN, is the record's. A text is a typed password.
    pub fn verify_password<'a>(&self, password: impl Into<Password<'a>>) -> bool {
        let password = password.into();
        let (form, text) = (password.form(), password.as_str());
        // SAFETY: the record is borrowed, and the password is a slice that lives through the call.
        let status = unsafe { sys::fe2o3_scram_record_verify(&self.0, form, text.as_ptr(), text.len()) };
        done(status).is_ok()
    }

    /// Returns whether a salted password is the record's. A server that receives a password, for instance by PLAIN,
    /// computes it with the salt and the iteration count of the record. The result is `false` for one that is not as long
    /// as a digest of the version.
    pub fn verify_salted_password(&self, salted_password: &[u8]) -> bool {
        let (salted, len) = (salted_password.as_ptr(), salted_password.len());
        // SAFETY: the record is borrowed, and the salted password is a slice that lives through the call.
        let status = unsafe { sys::fe2o3_scram_record_verify_salted(&self.0, salted, len) };
        done(status).is_ok()
    }

    /// Returns the version.
    pub fn version(&self) -> ScramVersion {
        ScramVersion::of_record(&self.0)
    }

    /// Returns the salt length and the iteration count.
    pub(crate) fn form(&self) -> (usize, u32) {
        (self.0.salt_len as usize, self.0.iterations)
    }

    /// Returns the parts of the record.
    pub fn as_stored_password(&self) -> StoredPassword<'_> {
        let len = self.version().digest_len();
        StoredPassword {
            salt: head(&self.0.salt, self.0.salt_len as usize),
            iterations: self.0.iterations,
            stored_key: head(&self.0.stored_key, len),
            server_key: head(&self.0.server_key, len),
        }
    }
}

/// The text of the record, which holds its keys.
impl fmt::Display for ScramRecord {
    fn fmt(&self, f: &mut fmt::Formatter<'_>) -> fmt::Result {
        f.write_str(&self.to_text())
    }
}

impl FromStr for ScramRecord {
    type Err = RecordTextError;

    fn from_str(text: &str) -> Result<Self, RecordTextError> {
        Self::parse(text)
    }
}

impl fmt::Debug for ScramRecord {
    fn fmt(&self, f: &mut fmt::Formatter<'_>) -> fmt::Result {
        f.debug_struct("ScramRecord")
            .field("version", &self.version())
            .field("iterations", &self.0.iterations)
            .finish_non_exhaustive()
    }
}
