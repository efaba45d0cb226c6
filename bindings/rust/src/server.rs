//! The server's side of an exchange.

use crate::calls::{filled, head};
use crate::channels::{bound, NO_CHANNELS};
use crate::{
    generate_nonce, sys, Channel, ScramRecord, ScramVersion, ServerScramErrorKind, StoreError, UserRecords,
    DEFAULT_SCRAM_ITERATIONS,
};
use std::fmt;
use std::marker::PhantomData;

pub(crate) const NO_CHALLENGE: sys::ScramServer = sys::ScramServer {
    state: 0,
    version: 0,
    user_len: 0,
    bare_len: 0,
    nonce_len: 0,
    first_len: 0,
    acts_for_len: 0,
    rejection: sys::REJECTION_NONE,
    user: [0; 256],
    bare: [0; 1024],
    nonce: [0; 512],
    first: [0; 1024],
    acts_for: [0; 256],
};

/// The states of a server whose challenge is open.
const CHALLENGE_IS_OPEN: [u32; 5] = [
    sys::SCRAM_SERVER_CHALLENGE_OPEN,
    sys::SCRAM_SERVER_CHALLENGE_OPEN_CBIND_FLAG_Y,
    sys::SCRAM_SERVER_CHALLENGE_OPEN_TLS_UNIQUE,
    sys::SCRAM_SERVER_CHALLENGE_OPEN_TLS_SERVER_END_POINT,
    sys::SCRAM_SERVER_CHALLENGE_OPEN_TLS_EXPORTER,
];

/// The beginning of the GS2 header of a client that supports channel binding, and was offered no mechanism with it (RFC
/// 5802, section 6).
const CBIND_FLAG_Y: &[u8] = b"y,";

/// The credential of one user.
#[derive(Clone)]
pub struct SingleScramCredential {
    scram_version: ScramVersion,
    username: String,
    record: ScramRecord,
}

impl SingleScramCredential {
    /// Computes the credential of a typed password, with 32 random bytes of salt and [`DEFAULT_SCRAM_ITERATIONS`].
    ///
    /// # Panics
    ///
    /// If the system has no random bytes.
    pub fn new(
        username: impl Into<String>,
        password: impl AsRef<str>,
        scram_version: ScramVersion,
    ) -> Result<Self, ServerScramErrorKind> {
        let salt = generate_nonce();
        let record = ScramRecord::from_password(scram_version, password.as_ref(), &salt, DEFAULT_SCRAM_ITERATIONS)?;
        Ok(Self::with_record(username, record))
    }

    /// Returns the credential of a record.
    pub fn with_record(username: impl Into<String>, record: ScramRecord) -> Self {
        Self { scram_version: record.version(), username: username.into(), record }
    }
}

impl UserRecords for SingleScramCredential {
    fn records(&self, username: &str) -> Result<Vec<ScramRecord>, StoreError> {
        if username == self.username {
            Ok(vec![self.record.clone()])
        } else {
            Ok(Vec::new())
        }
    }

    fn scram_version(&self) -> &ScramVersion {
        &self.scram_version
    }
}

impl fmt::Debug for SingleScramCredential {
    fn fmt(&self, f: &mut fmt::Formatter<'_>) -> fmt::Result {
        f.debug_struct("SingleScramCredential")
            .field("scram_version", &self.scram_version)
            .field("username", &self.username)
            .finish_non_exhaustive()
    }
}

/// The settings of mock records.
#[derive(Clone)]
pub(crate) struct MockSettings {
    pub(crate) secret: [u8; 32],
    pub(crate) salt_len: usize,
    pub(crate) iterations: u32,
}

impl MockSettings {
    /// Returns the mock record of a name.
    pub(crate) fn record(&self, version: ScramVersion, username: &str) -> Result<ScramRecord, ServerScramErrorKind> {
        Ok(ScramRecord::mock(version, &self.secret, username, self.salt_len, self.iterations)?)
    }
}

/// A server over a store of credentials.
///
/// With `mock_unknown_users` the answers do not tell which names exist:
///
/// ```
/// use fe2o3_sasl_proved::*;
///
/// # fn main() -> Result<(), Box<dyn std::error::Error>> {
/// let credential = SingleScramCredential::new("user", "pencil", ScramVersion::Sha256)?;
/// let secret = generate_nonce(); // in production, kept as long as the records
/// // (the salt of `SingleScramCredential::new` has 32 bytes)
/// let mut server = ScramAuthenticator::new(credential).mock_unknown_users(secret, 32, DEFAULT_SCRAM_ITERATIONS);
/// let mut client = ScramClient::new("unknown", "pencil", ScramVersion::Sha256).with_min_iterations(4096);
///
/// let client_first = client.compute_client_first_message();
/// let server_first = server.compute_server_first_message(&client_first)?.expect("each name is answered");
/// let client_final = client.compute_client_final_message(std::str::from_utf8(&server_first)?)?;
/// let refused = server.compute_server_final_message(&client_final);
/// assert_eq!(refused, Err(ServerScramErrorKind::AuthenticationFailed));
/// # Ok(())
/// # }
/// ```
#[derive(Clone)]
pub struct ScramAuthenticator<C: UserRecords + Clone> {
    credentials: C,
    mock: Option<MockSettings>,
    rules: Rules,
    challenged: String,
    state: sys::ScramServer,
    store_error: Option<StoreError>,
}

impl<C: UserRecords + Clone> ScramAuthenticator<C> {
    /// Returns a server without an open challenge, which answers an unknown user with `None`. Its hash is
    /// [`UserRecords::scram_version`].
    pub fn new(credentials: C) -> Self {
        let (rules, challenged, state) = (Rules::NONE, String::new(), NO_CHALLENGE);
        Self { credentials, mock: None, rules, challenged, state, store_error: None }
    }

    /// Makes the server answer an unknown user with a mock record ([`ScramRecord::mock`]), by 32 random bytes that are kept as
    /// long as the records. The salt length, at most 64, and the iteration count have to be those of all records. New
    /// records have [`DEFAULT_SALT_LEN`](crate::DEFAULT_SALT_LEN) and [`DEFAULT_SCRAM_ITERATIONS`].
    pub fn mock_unknown_users(mut self, secret: [u8; 32], salt_len: usize, iterations: u32) -> Self {
        self.mock = Some(MockSettings { secret, salt_len, iterations });
        self
    }

    /// Makes the server also accept the GS2 header `y,,`: the client supports channel binding, and was offered no
    /// mechanism with `-PLUS` (RFC 5802, section 6). Only for a server that offers none.
    pub fn accept_cbind_flag_y(mut self) -> Self {
        self.rules.accept_cbind_flag_y = 1;
        self
    }

    /// With `accept`, makes the server accept a client that names an identity to act for (RFC 5802, section 5.1). A user may
    /// act for itself and for the identities that the store returns ([`UserRecords::identities`]). A user without
    /// the right gets [`ServerScramErrorKind::AuthenticationFailed`], like one with a wrong password. Such a
    /// server tests extensions like a strict one.
    pub fn accept_authzid(mut self, accept: bool) -> Self {
        self.rules.accept_authzid = accept.into();
        self
    }

    /// With `is_strict`, makes the server read messages by the grammar of RFC 5802, section 7. A user name has to be of
    /// one or more characters and without NUL, and a nonce printable and not empty. What follows the nonce has to be an
    /// extension, or [`ServerScramErrorKind::MisplacedAttribute`] is returned. A server with channels tests the extensions
    /// in any case.
    pub fn strict(mut self, is_strict: bool) -> Self {
        self.rules.strict = is_strict.into();
        self
    }

    /// With `reject`, makes the server reject what is no extension in the place of one
    /// ([`ServerScramErrorKind::MisplacedAttribute`]), like a strict one, and nothing more: an empty user name is accepted. If
    /// you offer a mechanism with `-PLUS` beside one without it, set it for both. Then nobody on the way can make a client
    /// that has a channel log in without binding it, whatever library the client is of. A server with channels does so in
    /// any case.
    pub fn reject_misplaced(mut self, reject: bool) -> Self {
        self.rules.reject_misplaced = reject.into();
        self
    }

    /// Makes the server one of the mechanism with `-PLUS` (RFC 5802, section 6): it accepts only clients that bind one of
    /// these channels. Pass a channel for each kind that you accept; of two channels of one kind the last one counts.
    /// Without a channel the server accepts no client. Set them before the client-first message.
    pub fn with_channels(mut self, channels: impl IntoIterator<Item = Channel>) -> Self {
        self.rules.channels = bound(channels);
        self
    }

    /// Returns the store of credentials.
    pub fn credentials(&self) -> &C {
        &self.credentials
    }

    /// Answers a client-first message with the server-first message, or with `None` if there is no such user. This
    /// starts a new exchange, whatever the state of the server is.
    ///
    /// # Panics
    ///
    /// If the system has no random bytes.
    pub fn compute_server_first_message(
        &mut self,
        client_first: &[u8],
    ) -> Result<Option<Vec<u8>>, ServerScramErrorKind> {
        self.compute_server_first_message_with(client_first, &generate_nonce())
    }

    /// Like [`Self::compute_server_first_message`], but with your nonce: 32 random bytes, fresh for each exchange.
    pub fn compute_server_first_message_with(
        &mut self,
        client_first: &[u8],
        nonce: &[u8; 32],
    ) -> Result<Option<Vec<u8>>, ServerScramErrorKind> {
        // (without channels, the call that returns the claimed user accepts both headers)
        let is_flag_y = client_first.starts_with(CBIND_FLAG_Y) && std::str::from_utf8(client_first).is_ok();
        if is_flag_y && self.rules.accept_cbind_flag_y == 0 {
            return Err(ServerScramErrorKind::CannotParseGs2Header);
        }
        let username = claimed_user(&self.rules.lend(&[]).rules, client_first)?;
        let record = match self.record(&username)? {
            Some(record) => record,
            None => return Ok(None),
        };
        let (lent, state) = (self.rules.lend(&[]), &mut self.state);
        let message = filled(client_first.len() + 256, |out, len| {
            // SAFETY: the rules, the record, the nonce and the message are borrowed and live through the call; the
            // state, the room and its length are borrowed for writing, and so overlap nothing.
            unsafe {
                sys::fe2o3_scram_server_first(
                    &lent.rules,
                    &record.0,
                    state,
                    nonce,
                    client_first.as_ptr(),
                    client_first.len(),
                    out.as_mut_ptr(),
                    out.len(),
                    len,
                )
            }
        })
        .map_err(ServerScramErrorKind::of)?;
        self.challenged = username;
        Ok(Some(message))
    }

    /// Answers a client-final message with the server-final message, if its proof is right. Only `Ok(Some(_))` means
    /// that the user is authenticated. `None` is a user who has been removed meanwhile.
    pub fn compute_server_final_message(
        &mut self,
        client_final: &[u8],
    ) -> Result<Option<Vec<u8>>, ServerScramErrorKind> {
        if !CHALLENGE_IS_OPEN.contains(&self.state.state) {
            return Err(ServerScramErrorKind::IllegalAuthenticatorState);
        }
        let challenged = self.challenged.clone();
        let record = match self.record(&challenged)? {
            Some(record) => record,
            None => return Ok(None),
        };
        let identities = match self.rules.accept_authzid {
            0 => Vec::new(),
            _ => self.credentials.identities(&self.challenged).map_err(|why| self.failed(why))?,
        };
        let identities = joined(&identities);
        let (lent, state) = (self.rules.lend(&identities), &mut self.state);
        filled(90, |out, len| {
            // SAFETY: the rules, the record and the message are borrowed and live through the call; the state, the room
            // and its length are borrowed for writing, and so overlap nothing.
            unsafe {
                sys::fe2o3_scram_server_final(
                    &lent.rules,
                    &record.0,
                    state,
                    client_final.as_ptr(),
                    client_final.len(),
                    out.as_mut_ptr(),
                    out.len(),
                    len,
                )
            }
        })
        .map(Some)
        .map_err(ServerScramErrorKind::of)
    }

    /// Returns why the user could not be looked up, if the last call returned
    /// [`ServerScramErrorKind::StoreUnavailable`]. You can repeat that call.
    pub fn store_error(&self) -> Option<&StoreError> {
        self.store_error.as_ref()
    }

    /// Returns the authenticated user; `None` if no user is authenticated.
    pub fn authenticated_user(&self) -> Option<String> {
        authenticated_user(&self.state)
    }

    /// Returns the identity that the authenticated user acts for (RFC 4422, section 2); `None` if the user acts for
    /// itself, or no user is authenticated. The exchange was for this identity, if there is one, and not for the user.
    pub fn acts_for(&self) -> Option<String> {
        acts_for(&self.state)
    }

    /// Returns the record of a user, or a mock record; `None` if there is neither.
    fn record(&mut self, username: &str) -> Result<Option<ScramRecord>, ServerScramErrorKind> {
        self.store_error = None;
        let version = *self.credentials.scram_version();
        let records = self.credentials.records(username).map_err(|why| self.failed(why))?;
        match (records.into_iter().find(|record| record.version() == version), &self.mock) {
            (None, Some(settings)) => settings.record(version, username).map(Some),
            (found, _) => Ok(found),
        }
    }

    /// Keeps why the store has failed.
    fn failed(&mut self, why: StoreError) -> ServerScramErrorKind {
        self.store_error = Some(why);
        ServerScramErrorKind::StoreUnavailable
    }
}

/// Returns the authenticated user of a server's struct.
pub(crate) fn authenticated_user(state: &sys::ScramServer) -> Option<String> {
    let name = filled(state.user.len(), |out, len| {
        // SAFETY: the state is borrowed; the room and its length are borrowed for writing, and so overlap nothing.
        unsafe { sys::fe2o3_scram_server_authenticated_user(state, out.as_mut_ptr(), out.len(), len) }
    });
    String::from_utf8(name.ok()?).ok()
}

/// Returns the user of the challenge that is open in a server's struct.
pub(crate) fn challenged_user(state: &sys::ScramServer) -> Option<String> {
    let is_open = CHALLENGE_IS_OPEN.contains(&state.state);
    is_open.then(|| String::from_utf8_lossy(head(&state.user, state.user_len as usize)).into_owned())
}

/// Returns the identity that the authenticated user of a server's struct acts for.
pub(crate) fn acts_for(state: &sys::ScramServer) -> Option<String> {
    let name = filled(state.acts_for.len(), |out, len| {
        // SAFETY: the state is borrowed; the room and its length are borrowed for writing, and so overlap nothing.
        unsafe { sys::fe2o3_scram_server_acts_for(state, out.as_mut_ptr(), out.len(), len) }
    });
    String::from_utf8(name.ok()?).ok().filter(|name| !name.is_empty())
}

/// Returns identities as the library takes them, with a zero byte after each. One with NUL is left out: no client can name
/// it.
pub(crate) fn joined(identities: &[String]) -> Vec<u8> {
    let named = identities.iter().filter(|name| !name.contains('\0'));
    named.flat_map(|name| name.bytes().chain([0])).collect()
}

/// What a server accepts.
#[derive(Clone)]
struct Rules {
    accept_cbind_flag_y: u32,
    strict: u32,
    reject_misplaced: u32,
    accept_authzid: u32,
    channels: sys::ServerChannels,
}

/// Rules for the library, whose pointer points to what is borrowed for `'a`.
struct LentRules<'a> {
    rules: sys::ScramRules,
    from: PhantomData<&'a ()>,
}

impl Rules {
    /// The rules of a server that accepts the GS2 header `n,,` only, and is not strict.
    const NONE: Self =
        Self { accept_cbind_flag_y: 0, strict: 0, reject_misplaced: 0, accept_authzid: 0, channels: NO_CHANNELS };

    /// Returns the rules with these identities, joined.
    fn lend<'a>(&self, identities: &'a [u8]) -> LentRules<'a> {
        let rules = sys::ScramRules {
            accept_cbind_flag_y: self.accept_cbind_flag_y,
            strict: self.strict,
            channels: self.channels,
            accept_authzid: self.accept_authzid,
            reject_misplaced: self.reject_misplaced,
            identities: identities.as_ptr(),
            identities_len: identities.len(),
        };
        LentRules { rules, from: PhantomData }
    }
}

/// Returns the user name that a client-first message claims, without escapes.
fn claimed_user(rules: &sys::ScramRules, client_first: &[u8]) -> Result<String, ServerScramErrorKind> {
    let name = filled(client_first.len(), |out, len| {
        // SAFETY: the rules are borrowed, and the message is a slice that lives through the call; the room and its
        // length are borrowed for writing, and so overlap nothing.
        unsafe {
            sys::fe2o3_scram_server_claimed_user(
                rules,
                client_first.as_ptr(),
                client_first.len(),
                out.as_mut_ptr(),
                out.len(),
                len,
            )
        }
    })
    .map_err(ServerScramErrorKind::of)?;
    String::from_utf8(name).map_err(|_| ServerScramErrorKind::Utf8Error)
}

impl<C: UserRecords + Clone> fmt::Debug for ScramAuthenticator<C> {
    fn fmt(&self, f: &mut fmt::Formatter<'_>) -> fmt::Result {
        f.debug_struct("ScramAuthenticator")
            .field("scram_version", self.credentials.scram_version())
            .finish_non_exhaustive()
    }
}
