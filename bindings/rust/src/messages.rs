//! PLAIN and EXTERNAL over messages, for protocols other than AMQP (RFC 4616; RFC 4422, appendix A).

use crate::calls::{done, filled};
use crate::server::joined;
use crate::{sys, PlainError, PlainPasswords, ScramRecord, ServerScramErrorKind};

/// The form of passwords as a number, for the library.
fn number_of(passwords: PlainPasswords) -> u32 {
    match passwords {
        PlainPasswords::Typed => sys::PLAIN_PASSWORDS_TYPED,
        PlainPasswords::Prepared => sys::PLAIN_PASSWORDS_PREPARED,
        PlainPasswords::Saslprep => sys::PLAIN_PASSWORDS_SASLPREP,
    }
}

/// Returns the message by which a client logs in with PLAIN (RFC 4616, section 2). It asks to act for this identity, or with
/// `None` for the user itself. It has the password in clear, so send it over TLS only. Prepare a non-ASCII password first
/// ([`saslprep`](crate::saslprep)).
///
/// An empty user name, an empty password, a zero byte in a word and an identity of more than 256 bytes are errors. The empty
/// identity is that of `None`.
///
/// ```
/// use fe2o3_sasl_proved::*;
///
/// # fn main() -> Result<(), Box<dyn std::error::Error>> {
/// let record = ScramRecord::from_password(ScramVersion::Sha256, "pencil", &generate_nonce()[..16], 4096)?;
/// let message = plain_message(None, "user", "pencil")?; // the client
/// assert_eq!(plain_claimed_user(&message).as_deref(), Some("user")); // the server
/// plain_verify(Some(&record), PlainPasswords::Typed, 4096, None, &message)?;
/// # Ok(())
/// # }
/// ```
///
/// A client that acts for another identity:
///
/// ```
/// use fe2o3_sasl_proved::*;
///
/// # fn main() -> Result<(), Box<dyn std::error::Error>> {
/// let record = ScramRecord::from_password(ScramVersion::Sha256, "pencil", &generate_nonce()[..16], 4096)?;
/// let message = plain_message(Some("bob"), "alice", "pencil")?; // the client
/// assert_eq!(plain_claimed_user(&message).as_deref(), Some("alice")); // the server
/// assert_eq!(plain_claimed_identity(&message).as_deref(), Some("bob"));
/// let may_act_for = ["bob".to_owned()]; // those that alice may act for
/// plain_verify(Some(&record), PlainPasswords::Typed, 4096, Some(&may_act_for), &message)?;
/// # Ok(())
/// # }
/// ```
pub fn plain_message(acts_for: Option<&str>, username: &str, password: &str) -> Result<Vec<u8>, PlainError> {
    let identity = acts_for.unwrap_or_default();
    filled(identity.len() + username.len() + password.len() + 2, |out, len| {
        // SAFETY: the words are slices that live through the call; the room and its length are borrowed for writing,
        // and so overlap nothing.
        unsafe {
            sys::fe2o3_plain_message(
                identity.as_ptr(),
                identity.len(),
                username.as_ptr(),
                username.len(),
                password.as_ptr(),
                password.len(),
                out.as_mut_ptr(),
                out.len(),
                len,
            )
        }
    })
    .map_err(PlainError::of)
}

/// Returns the user name that a message of PLAIN claims. Nobody is authenticated yet: use it only to look up the record for
/// [`plain_verify`]. Returns `None` for a message that `plain_verify` rejects whatever its other arguments are.
pub fn plain_claimed_user(message: &[u8]) -> Option<String> {
    let name = filled(message.len(), |out, len| {
        // SAFETY: the message is a slice that lives through the call; the room and its length are borrowed for writing,
        // and so overlap nothing.
        unsafe { sys::fe2o3_plain_claimed_user(message.as_ptr(), message.len(), out.as_mut_ptr(), out.len(), len) }
    });
    Some(String::from_utf8(name.ok()?).expect("a user name is UTF-8"))
}

/// Returns the identity that a message of PLAIN asks to act for. It is only claimed, like the user's name: use it only to
/// look up whether the user may act for it. Returns `None` if the user acts for itself, and for a message that
/// [`plain_verify`] rejects whatever its other arguments are.
pub fn plain_claimed_identity(message: &[u8]) -> Option<String> {
    let name = filled(message.len(), |out, len| {
        // SAFETY: the message is a slice that lives through the call; the room and its length are borrowed for writing,
        // and so overlap nothing.
        unsafe { sys::fe2o3_plain_claimed_identity(message.as_ptr(), message.len(), out.as_mut_ptr(), out.len(), len) }
    });
    let name = String::from_utf8(name.ok()?).expect("an identity is UTF-8");
    Some(name).filter(|name| !name.is_empty())
}

/// Tests a message of PLAIN against the record of the user that it claims ([`plain_claimed_user`]). Only `Ok` means that
/// this user is authenticated, and may act for the identity that the message asks for ([`plain_claimed_identity`]). The
/// error is `AuthenticationFailed`, or `OutOfMemory`.
///
/// The user may act for these identities besides itself (RFC 4422, section 2), which have no NUL. With `None` the server
/// rejects a message that names another identity than its user, before it tests the password.
///
/// For an unknown user pass a mock record ([`RecordStore::record`](crate::RecordStore::record)), or `None`: the password is
/// then hashed with SHA-256 and this iteration count, and rejected. That takes as many HMAC values as the login of a known user whose record has this count.
pub fn plain_verify(
    record: Option<&ScramRecord>,
    passwords: PlainPasswords,
    iterations: u32,
    identities: Option<&[String]>,
    message: &[u8],
) -> Result<(), ServerScramErrorKind> {
    let allowed = joined(identities.unwrap_or_default());
    let records: &[sys::ScramRecord] = match record {
        Some(record) => std::slice::from_ref(&record.0),
        None => &[],
    };
    // SAFETY: the records, the identities and the message are slices that live through the call.
    let status = unsafe {
        sys::fe2o3_plain_verify(
            records.as_ptr(),
            records.len(),
            number_of(passwords),
            iterations,
            identities.is_some().into(),
            allowed.as_ptr(),
            allowed.len(),
            message.as_ptr(),
            message.len(),
        )
    };
    done(status).map_err(ServerScramErrorKind::of)
}

/// Returns whether a message of EXTERNAL (RFC 4422, appendix A) logs in as the user whom the transport authenticated, whose
/// name is `authcid`: the message is empty, or the name. Returns `false` for each message if the name is empty: then the
/// transport authenticated no one.
///
/// The message of a client is the identity itself. ANONYMOUS needs no call: a server accepts any message (RFC 4505, section
/// 2).
///
/// ```
/// use fe2o3_sasl_proved::external_verify;
///
/// assert!(external_verify("CN=client", b"") && external_verify("CN=client", b"CN=client"));
/// assert!(!external_verify("CN=client", b"CN=other") && !external_verify("", b""));
/// ```
#[must_use]
pub fn external_verify(authcid: &str, message: &[u8]) -> bool {
    // SAFETY: the name and the message are slices that live through the call.
    let status =
        unsafe { sys::fe2o3_external_verify(authcid.as_ptr(), authcid.len(), message.as_ptr(), message.len()) };
    done(status).is_ok()
}
