//! The three versions of SCRAM.

use crate::sys;

/// The hash of a SCRAM mechanism.
#[derive(Clone, Copy, Debug, PartialEq, Eq)]
pub enum ScramVersion {
    /// SHA-1
    Sha1,

    /// SHA-256
    Sha256,

    /// SHA-512
    Sha512,
}

impl ScramVersion {
    /// Returns the name of the SASL mechanism.
    ///
    /// ```
    /// assert_eq!(fe2o3_sasl_proved::ScramVersion::Sha256.mechanism(), "SCRAM-SHA-256");
    /// ```
    pub fn mechanism(&self) -> &'static str {
        match self {
            ScramVersion::Sha1 => "SCRAM-SHA-1",
            ScramVersion::Sha256 => "SCRAM-SHA-256",
            ScramVersion::Sha512 => "SCRAM-SHA-512",
        }
    }

    /// Returns the name of the SASL mechanism with channel binding (RFC 5802, section 4).
    pub(crate) fn plus_mechanism(&self) -> &'static str {
        match self {
            ScramVersion::Sha1 => "SCRAM-SHA-1-PLUS",
            ScramVersion::Sha256 => "SCRAM-SHA-256-PLUS",
            ScramVersion::Sha512 => "SCRAM-SHA-512-PLUS",
        }
    }

    /// Returns how many bytes a digest has.
    pub(crate) fn digest_len(self) -> usize {
        match self {
            ScramVersion::Sha1 => 20,
            ScramVersion::Sha256 => 32,
            ScramVersion::Sha512 => 64,
        }
    }

    /// Returns the place of the version among the records of a user: that of SHA-256 first, of which PLAIN takes the
    /// first, then in the order in which `scram users add` writes them.
    pub(crate) fn rank(self) -> u32 {
        match self {
            ScramVersion::Sha256 => 0,
            ScramVersion::Sha512 => 1,
            ScramVersion::Sha1 => 2,
        }
    }

    /// Returns the number of the version in the structs of the library.
    pub(crate) fn number(self) -> u32 {
        match self {
            ScramVersion::Sha1 => 1,
            ScramVersion::Sha256 => 256,
            ScramVersion::Sha512 => 512,
        }
    }

    /// Returns the version of a record that the library wrote.
    pub(crate) fn of_record(record: &sys::ScramRecord) -> Self {
        Self::of_number(record.version)
    }

    /// Returns the version of keys that the library wrote.
    pub(crate) fn of_keys(keys: &sys::ScramKeys) -> Self {
        Self::of_number(keys.version)
    }

    fn of_number(number: u32) -> Self {
        match number {
            1 => ScramVersion::Sha1,
            256 => ScramVersion::Sha256,
            512 => ScramVersion::Sha512,
            _ => unreachable!("a struct of this crate has one of three versions"),
        }
    }
}
