//! Preparation of passwords (RFC 4013).

use crate::calls::filled;
use crate::{sys, SaslprepError};

/// Whether a text may contain code points that Unicode 3.2 does not assign.
#[derive(Clone, Copy, Debug, PartialEq, Eq)]
pub enum Unassigned {
    /// Unassigned code points are allowed, as in a query: a text that is only compared with stored ones.
    Allowed,

    /// Unassigned code points are rejected, as in a stored text.
    Refused,
}

impl Unassigned {
    /// Returns the number for the library.
    fn number(self) -> u32 {
        match self {
            Unassigned::Refused => 0,
            Unassigned::Allowed => 1,
        }
    }
}

/// Returns the text that SASLprep (RFC 4013) prepares `text` to, as a password is before it is stored or used.
/// Printable ASCII is prepared to itself; other ASCII is rejected.
///
/// ```
/// use fe2o3_sasl_proved::{saslprep, SaslprepError, Unassigned};
///
/// assert_eq!(saslprep("I\u{ad}X", Unassigned::Refused), Ok("IX".to_string()));
/// assert_eq!(saslprep("\u{221}", Unassigned::Refused), Err(SaslprepError::UnassignedCodePoint));
/// ```
pub fn saslprep(text: &str, unassigned: Unassigned) -> Result<String, SaslprepError> {
    let prepared = filled(text.len(), |out, len| {
        // SAFETY: the text is a slice that lives through the call; the room and its length are borrowed for writing,
        // and so overlap nothing.
        unsafe { sys::fe2o3_saslprep(text.as_ptr(), text.len(), unassigned.number(), out.as_mut_ptr(), out.len(), len) }
    })
    .map_err(SaslprepError::of)?;
    Ok(String::from_utf8(prepared).expect("a prepared text is UTF-8"))
}
