//! SCRAM (RFC 5802, RFC 7677) and the SASL layer of AMQP 1.0 for safe Rust, by a proved static library. The
//! names are those of the crate fe2o3-amqp.
//!
//! No proof covers this crate. Each of its calls of the library is an `unsafe` block that says why its pointers are
//! what the library's C header asks for.
//!
//! [`io`] has whole logins over `std::io`. A login over messages, both sides in one program:
//!
//! ```
//! use fe2o3_sasl_proved::{ScramAuthenticator, ScramClient, ScramVersion, SingleScramCredential};
//!
//! # fn main() -> Result<(), Box<dyn std::error::Error>> {
//! let credential = SingleScramCredential::new("user", "pencil", ScramVersion::Sha256)?;
//! let mut server = ScramAuthenticator::new(credential);
//! let mut client = ScramClient::new("user", "pencil", ScramVersion::Sha256).with_min_iterations(4096);
//!
//! let client_first = client.compute_client_first_message();
//! let server_first = server.compute_server_first_message(&client_first)?.ok_or("no such user")?;
//! let client_final = client.compute_client_final_message(std::str::from_utf8(&server_first)?)?;
//! let server_final = server.compute_server_final_message(&client_final)?.ok_or("no such user")?;
//! client.validate_server_final(&server_final)?;
//!
//! assert_eq!(server.authenticated_user().as_deref(), Some("user"));
//! # Ok(())
//! # }
//! ```
//!
//! The library wipes what its calls leave in memory. Values of this crate are not wiped. No `Debug` shows a secret.
#![deny(missing_docs)]
#![deny(unsafe_op_in_unsafe_fn)]

mod attempts;
mod calls;
mod channels;
mod client;
mod connection;
mod errors;
mod frames;
pub mod io;
mod keys;
mod messages;
mod password;
mod peeks;
mod policies;
mod preparation;
mod records;
mod rejection;
mod server;
mod server_error;
mod serving;
mod stores;
#[allow(dead_code, missing_docs)]
#[rustfmt::skip]
mod sys;
mod users;
mod version;

pub use attempts::LoginAttempt;
pub use calls::{fits, generate_nonce, library_version};
pub use channels::{Channel, ChannelDataLength, ChannelKind};
pub use client::ScramClient;
pub use connection::{ClientNegotiation, Progress, Received, SaslProfile};
pub use errors::{
    ConnectionError, IdentityError, PlainError, ReadLinesError, ReadLinesErrorKind, RecordError, RecordTextError,
    SaslprepError, ScramErrorKind, ServerScramErrorKind, Status,
};
pub use frames::{offers, view_frame, Frame};
pub use keys::CachedKeys;
pub use messages::{external_verify, plain_claimed_identity, plain_claimed_user, plain_message, plain_verify};
pub use password::Password;
pub use policies::ClientPolicy;
pub use preparation::{saslprep, Unassigned};
pub use records::{ScramRecord, StoredPassword};
pub use rejection::Rejection;
pub use server::{ScramAuthenticator, SingleScramCredential};
pub use server_error::ServerError;
pub use serving::{PasswordServer, PlainPasswords, ServerNegotiation};
pub use stores::RecordStore;
/// [`UserRecords`] under the name of the crate fe2o3-amqp.
#[doc(no_inline)]
pub use users::UserRecords as ScramCredentialProvider;
pub use users::{StoreError, UserRecords};
pub use version::ScramVersion;

/// The iteration count of new records and of mock records, unless you choose another one.
pub const DEFAULT_SCRAM_ITERATIONS: u32 = sys::DEFAULT_ITERATIONS;

/// The length of the salts of new records and of mock records, in bytes, unless you choose another one. The salt of
/// [`SingleScramCredential::new`] has 32.
pub const DEFAULT_SALT_LEN: usize = sys::DEFAULT_SALT_LEN;
