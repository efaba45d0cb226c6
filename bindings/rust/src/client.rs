//! The client's side of an exchange.

use crate::calls::{done, filled};
use crate::channels::ClientChannel;
use crate::keys::NO_KEYS;
use crate::{
    generate_nonce, sys, CachedKeys, Channel, IdentityError, Password, ScramErrorKind, ScramVersion, ServerError,
};
use std::fmt;
use std::marker::PhantomData;

/// The longest identity that a client can act for, in bytes.
const MAX_IDENTITY_LEN: usize = 256;

pub(crate) const INITIAL: sys::ScramClient =
    sys::ScramClient { state: 0, signature_len: 0, nonce: [0; 32], signature: [0; 64], keys: NO_KEYS };

/// A user and a secret.
#[derive(Clone)]
pub(crate) struct Who {
    username: String,
    acts_for: String,
    password: String,
    form: u32,
    keys: sys::ScramKeys,
    secret: u32,
    version: ScramVersion,
    min_iterations: u32,
    max_iterations: u32,
    signature_by_challenge: bool,
    strict: bool,
    channel: ClientChannel,
}

/// A login struct of the library, whose pointers point to what is borrowed for `'a`.
pub(crate) struct Lent<'a> {
    pub(crate) login: sys::Login,
    who: PhantomData<&'a Who>,
}

impl Who {
    /// A login that accepts 4096 to 1,000,000 iterations.
    pub(crate) fn new(
        username: String,
        password: Password<'_>,
        keys: sys::ScramKeys,
        secret: u32,
        version: ScramVersion,
    ) -> Self {
        let (password, form) = (password.as_str().to_owned(), password.form());
        Self {
            username,
            acts_for: String::new(),
            password,
            form,
            keys,
            secret,
            version,
            min_iterations: 4096,
            max_iterations: 1_000_000,
            signature_by_challenge: false,
            strict: false,
            channel: ClientChannel::Absent,
        }
    }

    /// Returns this login, but for this identity.
    pub(crate) fn acting_for(self, identity: String) -> Self {
        Self { acts_for: identity, ..self }
    }

    /// Returns the name of the mechanism of SCRAM.
    pub(crate) fn mechanism(&self) -> &'static str {
        if self.channel.is_bound() {
            self.version.plus_mechanism()
        } else {
            self.version.mechanism()
        }
    }

    pub(crate) fn lend(&self) -> Lent<'_> {
        let (channel_use, channel_kind, channel_data_len, channel_data) = self.channel.fields();
        let login = sys::Login {
            version: self.version.number(),
            secret: self.secret,
            form: self.form,
            min_iterations: self.min_iterations,
            max_iterations: self.max_iterations,
            username: self.username.as_ptr(),
            username_len: self.username.len(),
            acts_for: self.acts_for.as_ptr(),
            acts_for_len: self.acts_for.len(),
            password: self.password.as_ptr(),
            password_len: self.password.len(),
            keys: &self.keys,
            signature_by_challenge: self.signature_by_challenge.into(),
            strict: self.strict.into(),
            channel_use,
            channel_kind,
            channel_data_len,
            channel_data,
        };
        Lent { login, who: PhantomData }
    }
}

/// A client of one user.
///
/// The keys of a login replace the password at the next one:
///
/// ```
/// use fe2o3_sasl_proved::*;
///
/// # fn main() -> Result<(), Box<dyn std::error::Error>> {
/// fn log_in(
///     client: &mut ScramClient,
///     server: &mut ScramAuthenticator<SingleScramCredential>,
/// ) -> Result<(), Box<dyn std::error::Error>> {
///     let client_first = client.compute_client_first_message();
///     let server_first = server.compute_server_first_message(&client_first)?.ok_or("no such user")?;
///     let client_final = client.compute_client_final_message(std::str::from_utf8(&server_first)?)?;
///     let server_final = server.compute_server_final_message(&client_final)?.ok_or("no such user")?;
///     Ok(client.validate_server_final(&server_final)?)
/// }
///
/// let mut server = ScramAuthenticator::new(SingleScramCredential::new("user", "pencil", ScramVersion::Sha256)?);
/// let mut client = ScramClient::new("user", "pencil", ScramVersion::Sha256).with_min_iterations(4096);
/// log_in(&mut client, &mut server)?;
///
/// let keys = client.keys().ok_or("not logged in")?;
/// log_in(&mut ScramClient::with_keys("user", keys), &mut server)?;
/// # Ok(())
/// # }
/// ```
#[derive(Clone)]
pub struct ScramClient {
    pub(crate) who: Who,
    state: sys::ScramClient,
}

impl ScramClient {
    /// Returns a client that logs in with a typed password.
    pub fn new(username: impl Into<String>, password: impl Into<String>, scram_version: ScramVersion) -> Self {
        Self::with_password(username, &password.into(), scram_version)
    }

    /// Returns a client that logs in with a password. A text is a typed password.
    pub fn with_password<'a>(
        username: impl Into<String>,
        password: impl Into<Password<'a>>,
        scram_version: ScramVersion,
    ) -> Self {
        Self::by(username.into(), password.into(), NO_KEYS, sys::BY_PASSWORD, scram_version)
    }

    /// Returns a client that logs in with the keys of an earlier login.
    pub fn with_keys(username: impl Into<String>, keys: CachedKeys) -> Self {
        Self::by(username.into(), Password::Typed(""), keys.0, sys::BY_KEYS, keys.version())
    }

    /// Returns a client that logs in with keys if they are of the server's salt and iteration count, and otherwise
    /// with a password. A text is a typed password.
    pub fn with_password_and_keys<'a>(
        username: impl Into<String>,
        password: impl Into<Password<'a>>,
        keys: CachedKeys,
    ) -> Self {
        Self::by(username.into(), password.into(), keys.0, sys::BY_PASSWORD_AND_KEYS, keys.version())
    }

    fn by(username: String, password: Password<'_>, keys: sys::ScramKeys, secret: u32, version: ScramVersion) -> Self {
        Self { who: Who::new(username, password, keys, secret, version), state: INITIAL }
    }

    /// Sets the maximum iteration count that the client accepts. The default is 1,000,000.
    pub fn with_iteration_limit(mut self, max_iterations: u32) -> Self {
        self.who.max_iterations = max_iterations;
        self
    }

    /// Sets the minimum iteration count that the client accepts. The default is 4096, the minimum of RFC 7677.
    pub fn with_min_iterations(mut self, min_iterations: u32) -> Self {
        self.who.min_iterations = min_iterations;
        self
    }

    /// With `accept`, a [`crate::ClientNegotiation`] also accepts the server's signature in a challenge, before an outcome
    /// without data (RFC 4422, section 5).
    pub fn signature_by_challenge(mut self, accept: bool) -> Self {
        self.who.signature_by_challenge = accept;
        self
    }

    /// Makes the client bind this channel, by the mechanism with `-PLUS` ([`Self::mechanism`]). Its GS2 header is then
    /// `p=` with the kind of the channel, and it tests extensions. Set the channel before the client-first message.
    /// If the server did not offer that mechanism, use [`Self::channel_not_offered`].
    pub fn with_channel(mut self, channel: Channel) -> Self {
        self.who.channel = ClientChannel::Bound(channel);
        self
    }

    /// Returns whether the client binds a channel.
    pub(crate) fn binds_channel(&self) -> bool {
        self.who.channel.is_bound()
    }

    /// Makes the client say that it has a channel, but was offered no mechanism with `-PLUS`: its GS2 header is `y,,`. A
    /// server that offers one has to reject this header, as the servers here do (RFC 5802, section 6). The client also tests
    /// extensions: nobody on the way can move text between the messages. Removing the mechanism from the offer then ends the
    /// login. A server that offers `-PLUS` and accepts `y,,` does not protect against that, so log in to it only with
    /// [`Self::with_channel`].
    pub fn channel_not_offered(mut self) -> Self {
        self.who.channel = ClientChannel::NotOffered;
        self
    }

    /// Makes the client act for this identity (RFC 4422, section 2), without escapes, or for itself if it is empty. The
    /// server has to let the user act for it. The GS2 header is then `n,a=` with the identity, and the client tests
    /// extensions like a strict one, so that nobody on the way can change the identity. Set it before the client-first
    /// message. The errors are `TooLong`, for more than 256 bytes, and `ProhibitedCharacter`.
    ///
    /// ```
    /// use fe2o3_sasl_proved::*;
    ///
    /// # fn main() -> Result<(), IdentityError> {
    /// let mut client = ScramClient::new("alice", "pencil", ScramVersion::Sha256).acting_for("bob")?;
    /// assert!(client.compute_client_first_message().starts_with(b"n,a=bob,n=alice,r="));
    /// # Ok(())
    /// # }
    /// ```
    pub fn acting_for(mut self, identity: impl Into<String>) -> Result<Self, IdentityError> {
        let identity = identity.into();
        if identity.len() > MAX_IDENTITY_LEN {
            return Err(IdentityError::of(sys::TOO_LONG));
        }
        if identity.contains('\0') {
            return Err(IdentityError::of(sys::PROHIBITED_CHARACTER));
        }
        self.who = self.who.acting_for(identity);
        Ok(self)
    }

    /// Returns the identity that the client acts for, or `None` if it acts for itself.
    pub fn acts_for(&self) -> Option<&str> {
        Some(self.who.acts_for.as_str()).filter(|name| !name.is_empty())
    }

    /// With `is_strict`, makes the client read messages by the grammar of RFC 5802, section 7. The server's part of the
    /// nonce has to be printable and not empty, and the iteration count without a sign or leading zeros. What follows the
    /// count or the signature has to be an extension, or [`ScramErrorKind::MisplacedAttribute`] is returned. A client
    /// with a channel tests the extensions in any case.
    pub fn strict(mut self, is_strict: bool) -> Self {
        self.who.strict = is_strict;
        self
    }

    /// Returns the name of the mechanism, with `-PLUS` if the client binds a channel.
    pub fn mechanism(&self) -> &'static str {
        self.who.mechanism()
    }

    /// Returns the client-first message. This starts a new exchange, whatever the state of the client is.
    ///
    /// # Panics
    ///
    /// If an allocation fails, or the system has no random bytes.
    pub fn compute_client_first_message(&mut self) -> Vec<u8> {
        self.compute_client_first_message_with(&generate_nonce()).expect("there is memory for a message")
    }

    /// Like [`Self::compute_client_first_message`], but with your nonce: 32 random bytes, fresh for each exchange.
    pub fn compute_client_first_message_with(&mut self, nonce: &[u8; 32]) -> Result<Vec<u8>, ScramErrorKind> {
        let lent = self.who.lend();
        let state = &mut self.state;
        // (each `,` and each `=` of a name is written with three bytes)
        let names = self.who.username.len().saturating_add(self.who.acts_for.len());
        let room = names.saturating_mul(3).saturating_add(100);
        filled(room, |out, len| {
            // SAFETY: the login's pointers are to what `lent` borrows; the state, the room and its length are borrowed
            // for writing, and so overlap nothing.
            unsafe { sys::fe2o3_scram_client_first(&lent.login, state, nonce, out.as_mut_ptr(), out.len(), len) }
        })
        .map_err(ScramErrorKind::of)
    }

    /// Answers the server-first message with the client-final message. An error leaves the client as it was.
    pub fn compute_client_final_message(&mut self, server_first: &str) -> Result<Vec<u8>, ScramErrorKind> {
        let lent = self.who.lend();
        let state = &mut self.state;
        let more = if self.who.channel.is_bound() { 256 } else { 128 };
        // (the identity is escaped, and then in base64)
        let identity = self.who.acts_for.len().saturating_mul(4);
        filled((server_first.len() + more).saturating_add(identity), |out, len| {
            // SAFETY: the login's pointers are to what `lent` borrows, and the message is a slice that lives through
            // the call; the state, the room and its length are borrowed for writing, and so overlap nothing.
            unsafe {
                sys::fe2o3_scram_client_final(
                    &lent.login,
                    state,
                    server_first.as_ptr(),
                    server_first.len(),
                    out.as_mut_ptr(),
                    out.len(),
                    len,
                )
            }
        })
        .map_err(ScramErrorKind::of)
    }

    /// Verifies the server-final message. Only `Ok` means that the login is complete and the server authenticated.
    ///
    /// If the message is an error of the server, the result is `ScramErrorKind::ServerError` with that error.
    pub fn validate_server_final(&mut self, server_final: &[u8]) -> Result<(), ScramErrorKind> {
        let lent = self.who.lend();
        // SAFETY: the login's pointers are to what `lent` borrows, and the message is a slice that lives through the
        // call; the state is borrowed for writing, and so overlaps nothing.
        let status = unsafe {
            sys::fe2o3_scram_client_verify(&lent.login, &mut self.state, server_final.as_ptr(), server_final.len())
        };
        done(status).map_err(|status| match ServerError::parse(server_final) {
            Some(error) if status == sys::SERVER_ERROR => ScramErrorKind::ServerError(error),
            _ => ScramErrorKind::of(status),
        })
    }

    /// Returns the keys of a complete login. `None` before that, and if the server's salt is longer than 128 bytes. The
    /// keys are secret: they suffice to log in.
    pub fn keys(&self) -> Option<CachedKeys> {
        CachedKeys::handed_out(&self.state)
    }
}

impl fmt::Debug for ScramClient {
    fn fmt(&self, f: &mut fmt::Formatter<'_>) -> fmt::Result {
        f.debug_struct("ScramClient")
            .field("username", &self.who.username)
            .field("scram", &self.who.version)
            .finish_non_exhaustive()
    }
}
