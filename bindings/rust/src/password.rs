//! A password, typed or prepared.

use crate::sys;
use std::fmt;

/// A password. A text converts to a typed one.
///
/// A password that is not printable ASCII is prepared by [`saslprep`](crate::saslprep), at the client and where its
/// record is made:
///
/// ```
/// use fe2o3_sasl_proved::{saslprep, Password, ScramRecord, ScramVersion, Unassigned};
///
/// # fn main() -> Result<(), Box<dyn std::error::Error>> {
/// let prepared = saslprep("pe\u{301}ncil", Unassigned::Refused)?;
/// assert_eq!(prepared, "p\u{e9}ncil");
/// let password = Password::Prepared(&prepared);
/// let record = ScramRecord::from_password(ScramVersion::Sha256, password, b"random bytes", 4096)?;
/// assert!(record.verify_password(password) && !record.verify_password(&prepared));
/// # Ok(())
/// # }
/// ```
#[derive(Clone, Copy)]
pub enum Password<'a> {
    /// The password as the user typed it, which has to be printable ASCII.
    Typed(&'a str),

    /// The password as you prepared it: any text, used without change.
    Prepared(&'a str),
}

impl<'a> Password<'a> {
    /// Returns the text of the password.
    pub fn as_str(self) -> &'a str {
        match self {
            Password::Typed(text) | Password::Prepared(text) => text,
        }
    }

    /// Returns the number of the form, for the library.
    pub(crate) fn form(self) -> u32 {
        match self {
            Password::Typed(_) => sys::TYPED,
            Password::Prepared(_) => sys::PREPARED,
        }
    }
}

impl<'a> From<&'a str> for Password<'a> {
    fn from(text: &'a str) -> Self {
        Password::Typed(text)
    }
}

impl<'a> From<&'a String> for Password<'a> {
    fn from(text: &'a String) -> Self {
        Password::Typed(text)
    }
}

impl fmt::Debug for Password<'_> {
    fn fmt(&self, f: &mut fmt::Formatter<'_>) -> fmt::Result {
        f.write_str(match self {
            Password::Typed(_) => "Typed(..)",
            Password::Prepared(_) => "Prepared(..)",
        })
    }
}
