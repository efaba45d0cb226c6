//! The server's side of a connection.

use crate::attempts::claim;
use crate::calls::{done, head};
use crate::channels::{bound, NO_CHANNELS};
use crate::connection::{progress_of, Progress, Received, FRESH};
use crate::frames::view_frame;
use crate::peeks::{end_of_input, foreign_header, peek_body, wants_nonce};
use crate::records::ScramRecord;
use crate::server::{acts_for, authenticated_user, challenged_user, joined, MockSettings, NO_CHALLENGE};
use crate::users::{StoreError, UserRecords};
use crate::{
    generate_nonce, sys, Channel, ConnectionError, Frame, LoginAttempt, Rejection, ScramVersion,
    DEFAULT_SCRAM_ITERATIONS,
};
use std::fmt;
use std::marker::PhantomData;

/// The most bytes that are sent at once: a header, and after it a frame (AMQP 1.0, part 5, section 5.3.1).
const SENT_MOST: usize = 520;

/// The frame of the outcome sys-temp (AMQP 1.0, part 5, section 5.3.3.6).
const TRY_AGAIN_LATER: [u8; 16] = [0, 0, 0, 16, 2, 1, 0, 0, 0, 0x53, 0x44, 0xc0, 3, 1, 0x50, 4];

/// Returns the value of the library for SCRAM with this hash.
fn offer_of(version: ScramVersion) -> u32 {
    match version {
        ScramVersion::Sha1 => sys::OFFER_SCRAM_SHA_1,
        ScramVersion::Sha256 => sys::OFFER_SCRAM_SHA_256,
        ScramVersion::Sha512 => sys::OFFER_SCRAM_SHA_512,
    }
}

/// Returns the records as the library takes them.
fn structs(records: &[ScramRecord]) -> Vec<sys::ScramRecord> {
    records.iter().map(|record| record.0).collect()
}

/// The hashes of SCRAM.
const HASHES: [ScramVersion; 3] = [ScramVersion::Sha256, ScramVersion::Sha512, ScramVersion::Sha1];

/// Which password PLAIN tests for the received one. User names are compared as received.
#[derive(Clone, Copy, Debug, PartialEq, Eq)]
pub enum PlainPasswords {
    /// The password as typed, which is printable ASCII. Every other password is rejected.
    Typed,

    /// The password as received, as a prepared text. It is for clients that prepare their passwords.
    Prepared,

    /// The text that SASLprep (RFC 4013) prepares the password to, with unassigned code points allowed. A password that
    /// SASLprep rejects, or whose prepared text is empty, is rejected.
    Saslprep,
}

/// A server of SCRAM, PLAIN, ANONYMOUS and EXTERNAL over the records of users. Without options it offers SCRAM-SHA-512
/// and SCRAM-SHA-256, rejects what is no extension, and a name without a record is rejected at once, which shows that there
/// is none. A server for the users in a file is at [`RecordStore`](crate::RecordStore).
///
/// ```
/// use fe2o3_sasl_proved::*;
/// use std::collections::HashMap;
///
/// # fn main() -> Result<(), Box<dyn std::error::Error>> {
/// # let (secret, is_tls) = (generate_nonce(), false);
/// let mut records = HashMap::new();
/// let salt = &generate_nonce()[..DEFAULT_SALT_LEN];
/// let record = ScramRecord::from_password(ScramVersion::Sha256, "pencil", salt, DEFAULT_SCRAM_ITERATIONS)?;
/// records.insert("user".to_owned(), vec![record]);
/// let server = PasswordServer::new(records).hashes(&[ScramVersion::Sha256]);
/// let server = server.mock_unknown_users(secret, DEFAULT_SALT_LEN, DEFAULT_SCRAM_ITERATIONS).plain_under_tls(is_tls);
/// let side = ServerNegotiation::new(server);
/// # drop(side);
/// # Ok(())
/// # }
/// ```
#[derive(Clone)]
pub struct PasswordServer<R: UserRecords + Clone> {
    records: R,
    mock: Option<MockSettings>,
    mechanisms: u32,
    flags: u32,
    external_authcid: String,
    channels: sys::ServerChannels,
    accept_authzid: u32,
}

/// What the store has of a name: its records, and the identities that the user may act for, joined.
#[derive(Default)]
pub(crate) struct FoundRecords {
    pub(crate) records: Vec<sys::ScramRecord>,
    identities: Vec<u8>,
}

/// A configuration for the library, whose pointers point to what is borrowed for `'a`.
pub(crate) struct LentConfig<'a> {
    pub(crate) config: sys::SaslServerConfig,
    from: PhantomData<&'a ()>,
}

impl<R: UserRecords + Clone> PasswordServer<R> {
    /// Returns a server over these records.
    pub fn new(records: R) -> Self {
        let mechanisms = sys::OFFER_SCRAM_SHA_512 + sys::OFFER_SCRAM_SHA_256;
        Self {
            records,
            mock: None,
            mechanisms,
            flags: sys::REJECT_MISPLACED,
            external_authcid: String::new(),
            channels: NO_CHANNELS,
            accept_authzid: 0,
        }
    }

    /// Adds this value of enum fe2o3_offer to the offer, or removes it.
    fn with(mut self, offer: u32, is_offered: bool) -> Self {
        self.mechanisms = if is_offered { self.mechanisms | offer } else { self.mechanisms & !offer };
        self
    }

    /// Sets this value of enum fe2o3_server_flag, or clears it.
    fn flag(mut self, flag: u32, is_set: bool) -> Self {
        self.flags = if is_set { self.flags | flag } else { self.flags & !flag };
        self
    }

    /// Makes the server offer SCRAM with these hashes. Offer only those of which every user has a record
    /// ([`RecordStore::hashes`](crate::RecordStore::hashes)): a user without one cannot log in by that hash, and many clients
    /// select the strongest.
    pub fn hashes(self, hashes: &[ScramVersion]) -> Self {
        HASHES.into_iter().fold(self, |server, version| server.with(offer_of(version), hashes.contains(&version)))
    }

    /// Makes the answers not show which names exist: a name gets a mock record ([`ScramRecord::mock`]) for each offered hash
    /// for which the store returns none, also the name of a known user. The secret is 32 random bytes, one value for all
    /// names, kept as long as the records. All records need this salt length, at most 64, and this iteration count. Those
    /// of new records are [`DEFAULT_SALT_LEN`](crate::DEFAULT_SALT_LEN) and
    /// [`DEFAULT_SCRAM_ITERATIONS`](crate::DEFAULT_SCRAM_ITERATIONS), those of a file
    /// [`RecordStore::mock_form`](crate::RecordStore::mock_form).
    ///
    /// PLAIN hashes the password of an unknown user with the first of SHA-256, SHA-512 and SHA-1 by which SCRAM is offered,
    /// or SHA-256 if SCRAM is not offered. Let the records of each user begin with that hash too.
    ///
    /// For the server's own log, [`ServerNegotiation::rejection`] says whether the user is unknown.
    pub fn mock_unknown_users(mut self, secret: [u8; 32], salt_len: usize, iterations: u32) -> Self {
        self.mock = Some(MockSettings { secret, salt_len, iterations });
        self
    }

    /// Makes the server offer PLAIN (RFC 4616) only if the connection is under TLS: the client sends the password in
    /// clear.
    pub fn plain_under_tls(self, is_tls: bool) -> Self {
        self.with(sys::OFFER_PLAIN, is_tls)
    }

    /// Sets which password PLAIN tests for the received one. The default is [`PlainPasswords::Typed`].
    pub fn plain_passwords(self, passwords: PlainPasswords) -> Self {
        let server = self.flag(sys::PLAIN_PREPARED | sys::PLAIN_SASLPREP, false);
        match passwords {
            PlainPasswords::Typed => server,
            PlainPasswords::Prepared => server.flag(sys::PLAIN_PREPARED, true),
            PlainPasswords::Saslprep => server.flag(sys::PLAIN_SASLPREP, true),
        }
    }

    /// Makes the server offer ANONYMOUS (RFC 4505).
    pub fn anonymous(self, is_offered: bool) -> Self {
        self.with(sys::OFFER_ANONYMOUS, is_offered)
    }

    /// Makes the server offer EXTERNAL (RFC 4422, appendix A) for the name that the transport has authenticated. If the
    /// name is empty, EXTERNAL is not offered, and an init for it fails.
    pub fn external(self, authcid: impl Into<String>) -> Self {
        let server = self.with(sys::OFFER_EXTERNAL, true);
        Self { external_authcid: authcid.into(), ..server }
    }

    /// Makes the server bind the channel of the connection (RFC 5802, section 6): SCRAM is also offered with `-PLUS`, by
    /// the same hashes. Pass the channel once for each kind that the server accepts; without any, SCRAM with `-PLUS` accepts
    /// no client. Clients that support no channel binding still log in without `-PLUS`.
    pub fn channels(self, channels: impl IntoIterator<Item = Channel>) -> Self {
        Self { channels: bound(channels), ..self }
    }

    /// Makes SCRAM also accept the GS2 header `y,,`: the client supports channel binding, and was offered no mechanism
    /// with `-PLUS` (RFC 5802, section 6). It has no effect beside [`PasswordServer::channels`].
    pub fn accept_cbind_flag_y(self) -> Self {
        self.flag(sys::ACCEPT_CBIND_FLAG_Y, true)
    }

    /// With `accept`, makes SCRAM and PLAIN accept a client that names an identity to act for: see
    /// [`ScramAuthenticator::accept_authzid`](crate::ScramAuthenticator::accept_authzid). The store says who may act for
    /// whom ([`UserRecords::identities`]).
    pub fn accept_authzid(self, accept: bool) -> Self {
        Self { accept_authzid: accept.into(), ..self }
    }

    /// With `is_strict`, makes SCRAM read messages by the grammar of RFC 5802, section 7: see
    /// [`ScramAuthenticator::strict`](crate::ScramAuthenticator::strict). libpq sends an empty user name, which is rejected
    /// then.
    pub fn strict(self, is_strict: bool) -> Self {
        self.flag(sys::STRICT, is_strict)
    }

    /// With `reject`, which is the default, makes SCRAM reject what is no extension in the place of one: see
    /// [`ScramAuthenticator::reject_misplaced`](crate::ScramAuthenticator::reject_misplaced). It has no effect beside
    /// [`PasswordServer::channels`]: such a server does so in any case.
    pub fn reject_misplaced(self, reject: bool) -> Self {
        self.flag(sys::REJECT_MISPLACED, reject)
    }

    /// With `by_challenge`, makes SCRAM send the server's signature in a challenge: the outcome follows the client's empty
    /// response (RFC 4422, section 5). Only for clients that do not read the data of an outcome.
    pub fn signature_by_challenge(self, by_challenge: bool) -> Self {
        self.flag(sys::SIGNATURE_BY_CHALLENGE, by_challenge)
    }

    /// With `by_challenge`, makes SCRAM and PLAIN answer an init without an initial response by an empty challenge. The
    /// client's response is then the initial response (RFC 4422, section 5). Otherwise such an init is rejected.
    pub fn initial_response_by_challenge(self, by_challenge: bool) -> Self {
        self.flag(sys::INITIAL_RESPONSE_BY_CHALLENGE, by_challenge)
    }

    /// Returns what the store has of the claimed user.
    pub(crate) fn records(&self, name: Option<&str>) -> Result<FoundRecords, StoreError> {
        let Some(name) = name else { return Ok(FoundRecords::default()) };
        let records = structs(&self.records.records(name)?);
        Ok(FoundRecords { records, identities: self.identities_of(name)? })
    }

    /// Returns the identities that a user may act for, joined; none if the server accepts no identity.
    fn identities_of(&self, name: &str) -> Result<Vec<u8>, StoreError> {
        match self.accept_authzid {
            0 => Ok(Vec::new()),
            _ => self.records.identities(name).map(|identities| joined(&identities)),
        }
    }

    /// Returns the configuration with the records of a user who was looked up, and the identities that the user may act for.
    pub(crate) fn lend<'a>(
        &'a self,
        name: Option<&'a str>,
        records: &'a [sys::ScramRecord],
        identities: &'a [u8],
    ) -> LentConfig<'a> {
        let username = name.unwrap_or_default();
        let mock = self.mock.as_ref();
        let secret = mock.map_or(&[][..], |mock| &mock.secret);
        let config = sys::SaslServerConfig {
            mechanisms: self.mechanisms,
            flags: self.flags,
            iterations: mock.map_or(DEFAULT_SCRAM_ITERATIONS, |mock| mock.iterations),
            mock_salt_len: mock.map_or(0, |mock| u32::try_from(mock.salt_len).unwrap_or(u32::MAX)),
            mock_secret: secret.as_ptr(),
            mock_secret_len: secret.len(),
            looked_up: name.is_some().into(),
            username: username.as_ptr(),
            username_len: username.len(),
            records: records.as_ptr(),
            records_count: records.len(),
            external_authcid: self.external_authcid.as_ptr(),
            external_authcid_len: self.external_authcid.len(),
            channels: self.channels,
            accept_authzid: self.accept_authzid,
            identities: identities.as_ptr(),
            identities_len: identities.len(),
        };
        LentConfig { config, from: PhantomData }
    }
}

/// What a call of the library does.
enum Step {
    /// Takes that many bytes, and returns these to send.
    Answered(usize, Vec<u8>),

    /// Takes nothing, because it needs the records of this user, whom the bytes claim.
    NeedsRecords(String),
}

/// The server's side of one AMQP 1.0 connection, without I/O: bytes in, bytes out.
///
/// ```
/// use fe2o3_sasl_proved::*;
///
/// # fn main() -> Result<(), Box<dyn std::error::Error>> {
/// let credential = SingleScramCredential::new("user", "pencil", ScramVersion::Sha256)?;
/// let mut server = ServerNegotiation::new(PasswordServer::new(credential));
/// let client = ScramClient::new("user", "pencil", ScramVersion::Sha256).with_min_iterations(4096);
/// let mut client = ClientNegotiation::new(client, None);
/// let mut to_server = ClientNegotiation::open();
/// while !to_server.is_empty() {
///     let answer = server.receive(&to_server)?.sent;
///     to_server = client.receive(&answer)?.sent;
/// }
/// assert_eq!((server.progress(), client.progress()), (Progress::Authenticated, Progress::Authenticated));
/// assert_eq!(server.authenticated_user().as_deref(), Some("user"));
/// # Ok(())
/// # }
/// ```
#[derive(Clone)]
pub struct ServerNegotiation<R: UserRecords + Clone> {
    config: PasswordServer<R>,
    state: sys::SaslServer,
    attempt: Option<LoginAttempt>,
    rejection: Option<Rejection>,
    store_error: Option<StoreError>,
}

impl<R: UserRecords + Clone> ServerNegotiation<R> {
    /// Returns a new connection to this server.
    pub fn new(server: PasswordServer<R>) -> Self {
        let state = sys::SaslServer { connection: FRESH, scram: NO_CHALLENGE };
        Self { config: server, state, attempt: None, rejection: None, store_error: None }
    }

    /// Sets whether the server accepts frames with an extended header, like
    /// [`ClientNegotiation::accept_extended_headers`](crate::ClientNegotiation::accept_extended_headers).
    pub fn accept_extended_headers(&mut self, accept: bool) {
        self.state.connection.extended_headers = accept.into();
    }

    /// Takes received bytes, until all are used or the login ends. After an error the frames before the one that failed
    /// have been taken, and their answers are lost: close the connection. If the store of users fails, the login ends with
    /// the outcome sys-temp ([`Self::store_error`]).
    ///
    /// # Panics
    ///
    /// If the system has no random bytes.
    pub fn receive(&mut self, bytes: &[u8]) -> Result<Received, ConnectionError> {
        let mut received = Received { taken: 0, sent: Vec::new() };
        while received.taken < bytes.len() && self.progress() == Progress::InProgress {
            let rest = &bytes[received.taken..];
            let body = peek_body(&self.state.connection, rest)?;
            let frame = body.and_then(|body| view_frame(&body).ok());
            // (the response to a challenge claims the user of the challenge)
            let mut name = match frame {
                Some(Frame::Response(_)) => challenged_user(&self.state.scram),
                _ => None,
            };
            let (taken, sent) = self.look_up_and_step(rest, &mut name)?;
            if let Some(frame) = frame {
                claim(&mut self.attempt, frame, name.as_deref());
            }
            received.taken += taken;
            received.sent.extend(sent);
        }
        Ok(received)
    }

    /// Calls the library with the records of the user, or, if it then asks for those of a user, once more.
    fn look_up_and_step(
        &mut self,
        bytes: &[u8],
        name: &mut Option<String>,
    ) -> Result<(usize, Vec<u8>), ConnectionError> {
        // (a call that asks for records does not use the nonce)
        let nonce = generate_nonce();
        loop {
            let found = match self.config.records(name.as_deref()) {
                Ok(found) => found,
                Err(why) => return Ok(self.reject_for_now(bytes, why)),
            };
            match self.step(bytes, &nonce, name.as_deref(), &found)? {
                Step::Answered(taken, sent) => return Ok((taken, sent)),
                Step::NeedsRecords(user) => *name = Some(user),
            }
        }
    }

    /// Ends the login by the outcome sys-temp. Returns how many bytes the frame took that names the user.
    fn reject_for_now(&mut self, bytes: &[u8], why: StoreError) -> (usize, Vec<u8>) {
        let held = head(&self.state.connection.held, self.state.connection.held_len as usize);
        let size = held.iter().chain(bytes).take(4).fold(0, |size, byte| size << 8 | usize::from(*byte));
        let taken = size.saturating_sub(held.len()).min(bytes.len());
        let extended_headers = self.state.connection.extended_headers;
        let (progress, reason) = (sys::FAILED, sys::REFUSED_SYS_TEMP);
        let connection = sys::Connection { progress, why: reason, extended_headers, ..FRESH };
        self.state = sys::SaslServer { connection, scram: NO_CHALLENGE };
        self.store_error = Some(why);
        (taken, TRY_AGAIN_LATER.to_vec())
    }

    /// Calls the library once, with the records of the claimed user, if it was looked up.
    fn step(
        &mut self,
        bytes: &[u8],
        nonce: &[u8; 32],
        name: Option<&str>,
        found: &FoundRecords,
    ) -> Result<Step, ConnectionError> {
        let lent = self.config.lend(name, &found.records, &found.identities);
        let (mut out, mut len, mut taken) = (vec![0; SENT_MOST], 0, 0);
        // SAFETY: the configuration's pointers point to what `lent` borrows, and the bytes are a slice that lives
        // through the call; the state, the room, its length and the count are borrowed for writing, and so
        // overlap nothing.
        let status = unsafe {
            sys::fe2o3_sasl_server_receive(
                &lent.config,
                &mut self.state,
                bytes.as_ptr(),
                bytes.len(),
                nonce,
                &mut taken,
                out.as_mut_ptr(),
                out.len(),
                &mut len,
            )
        };
        out.truncate(len);
        if status == sys::NEEDS_RECORDS {
            return Ok(Step::NeedsRecords(String::from_utf8_lossy(&out).into_owned()));
        }
        done(status).map_err(ConnectionError::of)?;
        self.rejection = Rejection::of(self.state.scram.rejection);
        Ok(Step::Answered(taken, out))
    }

    /// Returns how far the login is.
    pub fn progress(&self) -> Progress {
        progress_of(&self.state.connection)
    }

    /// Ends the login, because the other side ended its stream. A login in progress fails with
    /// [`ConnectionError::EndOfInput`]. Otherwise nothing changes.
    pub fn end_of_input(&mut self) {
        end_of_input(&mut self.state.connection);
    }

    /// Returns the eight bytes that the other side sent in the place of the SASL protocol header, if the login failed with
    /// [`ConnectionError::ProtocolHeaderMismatch`]. They say which protocol it speaks (AMQP 1.0, part 2, section 2.2).
    pub fn foreign_header(&self) -> Option<[u8; 8]> {
        foreign_header(&self.state.connection)
    }

    /// Returns whether the next step of the login may use a nonce. [`Self::receive`] passes fresh random bytes in any case.
    pub fn wants_nonce(&self) -> bool {
        wants_nonce(&self.state.connection)
    }

    /// Returns the frame that received bytes complete, if they complete one. Nothing is taken: pass the same bytes to
    /// [`Self::receive`] after that. After the end of the login this is an error.
    pub fn peek_frame(&self, bytes: &[u8]) -> Result<Option<Frame>, ConnectionError> {
        peek_body(&self.state.connection, bytes)?.map(|body| view_frame(&body)).transpose()
    }

    /// Returns what the last init claims, also after a rejection, for a log; `None` before the first init. Nobody is
    /// authenticated by it ([`Self::authenticated_user`]).
    pub fn last_attempt(&self) -> Option<&LoginAttempt> {
        self.attempt.as_ref()
    }

    /// Returns why the login was rejected by the outcome Auth, for the server's log only; `None` otherwise. Also a server
    /// with mock records says whether the user of SCRAM is unknown, or has no record for the hash
    /// ([`PasswordServer::mock_unknown_users`]).
    pub fn rejection(&self) -> Option<Rejection> {
        self.rejection
    }

    /// Returns why the user could not be looked up, if the login has ended for that reason: its progress is then
    /// [`ConnectionError::RefusedSysTemp`], and the client was sent that outcome.
    pub fn store_error(&self) -> Option<&StoreError> {
        self.store_error.as_ref()
    }

    /// Returns the authenticated user; `None` before the login is complete, and for ANONYMOUS.
    pub fn authenticated_user(&self) -> Option<String> {
        authenticated_user(&self.state.scram)
    }

    /// Returns the identity that the authenticated user acts for (RFC 4422, section 2); `None` if the user acts for
    /// itself, or no user is authenticated. The connection belongs to this identity, if there is one.
    pub fn acts_for(&self) -> Option<String> {
        acts_for(&self.state.scram)
    }
}

impl<R: UserRecords + Clone> fmt::Debug for ServerNegotiation<R> {
    fn fmt(&self, f: &mut fmt::Formatter<'_>) -> fmt::Result {
        f.debug_struct("ServerNegotiation").field("progress", &self.progress()).finish_non_exhaustive()
    }
}

#[cfg(test)]
mod tests {
    use super::*;
    use crate::RecordStore;

    /// What a server lends to the library for a name: the iteration count, the salt length and the length of the secret
    /// of mock records, and the hash of each record.
    fn lent(server: &PasswordServer<RecordStore>, name: &str) -> (u32, u32, usize, Vec<u32>) {
        let records = server.records(Some(name)).unwrap().records;
        let config = server.lend(Some(name), &records, &[]).config;
        let versions = records.iter().map(|record| record.version).collect();
        (config.iterations, config.mock_salt_len, config.mock_secret_len, versions)
    }

    #[test]
    fn the_library_has_the_settings_of_mock_records() {
        let record = ScramRecord::from_password(ScramVersion::Sha512, "pencil", &[1; 20], 5000).unwrap();
        let store = RecordStore::parse_lines(&format!("user {record}\n")).unwrap();
        let server = PasswordServer::new(store).hashes(&HASHES).plain_under_tls(true);
        assert_eq!(lent(&server, "nobody"), (4096, 0, 0, Vec::new()));
        let mocking = server.mock_unknown_users([3; 32], 20, 5000);
        assert_eq!(lent(&mocking, "nobody"), (5000, 20, 32, Vec::new()));
        assert_eq!(lent(&mocking, "user"), (5000, 20, 32, vec![512]));
    }
}
