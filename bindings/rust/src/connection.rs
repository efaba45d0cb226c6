//! The client's side of a connection.

use crate::calls::filled;
use crate::client::{Who, INITIAL};
use crate::frames::view_frame;
use crate::keys::NO_KEYS;
use crate::messages::plain_message;
use crate::peeks::{end_of_input, foreign_header, peek_body, wants_nonce};
use crate::policies::{refusal_data, Choice};
use crate::{
    generate_nonce, sys, CachedKeys, ClientPolicy, ConnectionError, Frame, PlainError, ScramClient, ScramVersion,
};
use std::fmt;
use std::marker::PhantomData;

/// A connection that has received nothing, and accepts no extended headers.
pub(crate) const FRESH: sys::Connection =
    sys::Connection { progress: 0, why: 0, expected: 0, held_len: 0, held: [0; 512], extended_headers: 0 };

const NEW: sys::SaslClient = sys::SaslClient { connection: FRESH, scram: INITIAL };

/// The maximum size of a frame (AMQP 1.0, part 5, section 5.3.1).
const FRAME_MOST: usize = 512;

/// What a client logs in with.
// (a connection has one of them, so the size of SCRAM's does not matter)
#[allow(clippy::large_enum_variant)]
#[derive(Clone)]
pub enum SaslProfile {
    /// ANONYMOUS (RFC 4505).
    Anonymous,

    /// PLAIN (RFC 4616), which sends the password in clear.
    Plain {
        /// The user name.
        username: String,

        /// The password.
        password: String,
    },

    /// PLAIN that asks to act for an identity, made by [`Self::acting_for`].
    PlainAs {
        /// The identity.
        identity: String,

        /// The user name.
        username: String,

        /// The password.
        password: String,
    },

    /// EXTERNAL (RFC 4422, appendix A): as the user that the transport has authenticated.
    External,

    /// ANONYMOUS with this trace information as its initial response (RFC 4505, section 2), which may be empty. The
    /// client also answers one empty challenge by it.
    AnonymousAs(String),

    /// EXTERNAL with this authorization identity as its initial response (RFC 4422, appendix A). The empty identity asks
    /// for the user that the transport has authenticated. The client also answers one empty challenge by it.
    ExternalAs(String),

    /// SCRAM, for the identity of [`ScramClient::acting_for`] if it has one. The client's own exchange is not affected.
    Scram(ScramClient),
}

impl SaslProfile {
    /// Returns PLAIN with this user name and this password, if a message can have them (RFC 4616, section 2): like
    /// [`plain_message`], an empty word and a zero byte are errors. `SaslProfile::Plain` sends every word.
    pub fn plain_checked(username: &str, password: &str) -> Result<Self, PlainError> {
        plain_message(None, username, password)?;
        Ok(SaslProfile::Plain { username: username.to_owned(), password: password.to_owned() })
    }

    /// Returns this profile, but it asks to act for this identity (RFC 4422, section 2), or for its user if the identity is
    /// empty. The server has to let the user act for it.
    ///
    /// - SCRAM names it in the GS2 header, like [`ScramClient::acting_for`].
    /// - PLAIN names it in the first part of its message (RFC 4616, section 2).
    /// - EXTERNAL sends it as its initial response, like [`Self::ExternalAs`].
    ///
    /// Returns `None`
    /// - for ANONYMOUS, which names no identity;
    /// - if the identity has a zero byte (RFC 4422, section 3.4.1), or for SCRAM and PLAIN more than 256 bytes;
    /// - for PLAIN if the user name or the password is empty or has a zero byte, as no message may have it.
    pub fn acting_for(self, identity: impl Into<String>) -> Option<Self> {
        let identity = identity.into();
        match self {
            SaslProfile::Anonymous | SaslProfile::AnonymousAs(_) => None,
            SaslProfile::Plain { username, password } | SaslProfile::PlainAs { username, password, .. } => {
                plain_message(Some(&identity), &username, &password).ok()?;
                Some(SaslProfile::PlainAs { identity, username, password })
            }
            SaslProfile::External | SaslProfile::ExternalAs(_) if identity.contains('\0') => None,
            SaslProfile::External | SaslProfile::ExternalAs(_) => Some(SaslProfile::ExternalAs(identity)),
            SaslProfile::Scram(client) => client.acting_for(identity).ok().map(SaslProfile::Scram),
        }
    }
}

impl From<ScramClient> for SaslProfile {
    fn from(client: ScramClient) -> Self {
        SaslProfile::Scram(client)
    }
}

impl fmt::Debug for SaslProfile {
    fn fmt(&self, f: &mut fmt::Formatter<'_>) -> fmt::Result {
        match self {
            SaslProfile::Anonymous => f.write_str("Anonymous"),
            SaslProfile::Plain { username, .. } => {
                f.debug_struct("Plain").field("username", username).finish_non_exhaustive()
            }
            SaslProfile::PlainAs { identity, username, .. } => f
                .debug_struct("PlainAs")
                .field("identity", identity)
                .field("username", username)
                .finish_non_exhaustive(),
            SaslProfile::External => f.write_str("External"),
            SaslProfile::AnonymousAs(trace) => f.debug_tuple("AnonymousAs").field(trace).finish(),
            SaslProfile::ExternalAs(identity) => f.debug_tuple("ExternalAs").field(identity).finish(),
            SaslProfile::Scram(client) => f.debug_tuple("Scram").field(client).finish(),
        }
    }
}

/// A client's login, and its mechanism.
#[derive(Clone)]
pub(crate) struct Login {
    who: Who,
    mechanism: u32,
    hostname: String,
}

/// A login struct of the library, whose pointers point to what is borrowed for `'a`.
pub(crate) struct LentLogin<'a> {
    pub(crate) login: sys::SaslLogin,
    from: PhantomData<&'a Login>,
}

impl Login {
    /// Returns the login of a profile. The init has the hostname, if it is not empty.
    pub(crate) fn new(profile: SaslProfile, hostname: Option<&str>) -> Self {
        let words = |username, password: &str| {
            Who::new(username, password.into(), NO_KEYS, sys::BY_PASSWORD, ScramVersion::Sha256)
        };
        let (mechanism, who) = match profile {
            SaslProfile::Scram(client) => (sys::SCRAM, client.who),
            SaslProfile::Plain { username, password } => (sys::PLAIN, words(username, &password)),
            SaslProfile::PlainAs { identity, username, password } => {
                (sys::PLAIN, words(username, &password).acting_for(identity))
            }
            SaslProfile::Anonymous => (sys::ANONYMOUS, words(String::new(), "")),
            SaslProfile::External => (sys::EXTERNAL, words(String::new(), "")),
            SaslProfile::AnonymousAs(trace) => (sys::ANONYMOUS_AS, words(trace, "")),
            SaslProfile::ExternalAs(identity) => (sys::EXTERNAL_AS, words(identity, "")),
        };
        Self { who, mechanism, hostname: hostname.unwrap_or_default().to_owned() }
    }

    /// Returns the name of the mechanism.
    pub(crate) fn mechanism(&self) -> &'static str {
        match self.mechanism {
            sys::SCRAM => self.who.mechanism(),
            sys::PLAIN => "PLAIN",
            sys::ANONYMOUS | sys::ANONYMOUS_AS => "ANONYMOUS",
            _ => "EXTERNAL",
        }
    }

    pub(crate) fn lend(&self) -> LentLogin<'_> {
        let login = sys::SaslLogin {
            mechanism: self.mechanism,
            hostname: self.hostname.as_ptr(),
            hostname_len: self.hostname.len(),
            login: self.who.lend().login,
        };
        LentLogin { login, from: PhantomData }
    }
}

/// How far a login on a connection is.
#[derive(Clone, Copy, Debug, PartialEq, Eq)]
pub enum Progress {
    /// The login goes on: the other side has to send more.
    InProgress,

    /// The login is complete. What comes next on the connection belongs to AMQP.
    Authenticated,

    /// The login has failed, and you have to close the connection.
    Failed(ConnectionError),
}

/// Returns how far the login of a connection is.
pub(crate) fn progress_of(connection: &sys::Connection) -> Progress {
    match connection.progress {
        sys::IN_PROGRESS => Progress::InProgress,
        sys::AUTHENTICATED => Progress::Authenticated,
        _ => Progress::Failed(ConnectionError::of(connection.why)),
    }
}

/// The result of received bytes.
#[derive(Clone, PartialEq, Eq)]
pub struct Received {
    /// How many of them were used. After the login the rest belongs to AMQP.
    pub taken: usize,

    /// The bytes to send. With PLAIN they contain the password.
    pub sent: Vec<u8>,
}

impl fmt::Debug for Received {
    fn fmt(&self, f: &mut fmt::Formatter<'_>) -> fmt::Result {
        f.debug_struct("Received")
            .field("taken", &self.taken)
            .field("sent", &format_args!("{} bytes", self.sent.len()))
            .finish()
    }
}

/// The client's side of one AMQP 1.0 connection, without I/O: bytes in, bytes out.
///
/// ```no_run
/// use fe2o3_sasl_proved::*;
/// use std::io::{Read, Write};
///
/// # fn main() -> Result<(), Box<dyn std::error::Error>> {
/// let client = ScramClient::new("user", "pencil", ScramVersion::Sha256).with_min_iterations(4096);
/// let mut side = ClientNegotiation::new(client, Some("broker.example"));
/// let mut socket = std::net::TcpStream::connect("broker.example:5672")?;
/// socket.write_all(&ClientNegotiation::open())?;
/// let mut came = [0; 4096];
/// while side.progress() == Progress::InProgress {
///     let len = socket.read(&mut came)?;
///     if len == 0 {
///         side.end_of_input();
///         break;
///     }
///     let received = side.receive(&came[..len])?;
///     socket.write_all(&received.sent)?;
/// }
/// assert_eq!(side.progress(), Progress::Authenticated);
/// # Ok(())
/// # }
/// ```
#[derive(Clone)]
pub struct ClientNegotiation {
    choice: Choice,
    state: sys::SaslClient,
    refusal_data: Option<Vec<u8>>,
}

impl ClientNegotiation {
    /// Returns a new connection, on which the client logs in with this profile. The init has the hostname, if it is not
    /// empty.
    pub fn new(profile: impl Into<SaslProfile>, hostname: Option<&str>) -> Self {
        Self { choice: Choice::of(profile.into(), hostname), state: NEW, refusal_data: None }
    }

    /// Returns a new connection, on which the client logs in by the first profile of the policy whose mechanism the server
    /// offers. If it offers none, the client sends nothing more, and the login fails with
    /// [`ConnectionError::NotImplemented`]. The init has the hostname, if it is not empty.
    pub fn select(policy: ClientPolicy, hostname: Option<&str>) -> Self {
        Self { choice: Choice::among(policy, hostname), state: NEW, refusal_data: None }
    }

    /// Sets whether the client accepts frames with an extended header, which a new connection does not. It then reads such
    /// a frame without that header (AMQP 1.0, part 2, section 2.3.1). Otherwise the frame fails the login with
    /// [`ConnectionError::NoSaslFrame`].
    pub fn accept_extended_headers(&mut self, accept: bool) {
        self.state.connection.extended_headers = accept.into();
    }

    /// Returns the SASL protocol header, which a client sends first.
    pub fn open() -> Vec<u8> {
        // SAFETY: the room and its length are borrowed for writing, and so overlap nothing.
        filled(8, |out, len| unsafe { sys::fe2o3_sasl_client_open(out.as_mut_ptr(), out.len(), len) })
            .unwrap_or_default()
    }

    /// Takes received bytes, until all are used or the login ends. After an error the frames before the one that failed
    /// have been taken, and their answers are lost: close the connection.
    ///
    /// # Panics
    ///
    /// If the system has no random bytes.
    pub fn receive(&mut self, bytes: &[u8]) -> Result<Received, ConnectionError> {
        let mut received = Received { taken: 0, sent: Vec::new() };
        while received.taken < bytes.len() && self.progress() == Progress::InProgress {
            let rest = &bytes[received.taken..];
            let body = peek_body(&self.state.connection, rest)?;
            if let Some(body) = &body {
                self.choice.select(body);
            }
            let (taken, sent) = self.step(rest, &generate_nonce())?;
            received.taken += taken;
            received.sent.extend(sent);
            self.refusal_data = body.and_then(|body| refusal_data(self.progress(), &body));
        }
        Ok(received)
    }

    /// Calls the library once: takes bytes to the end of the expected header or frame. The nonce is 32 random bytes,
    /// fresh for each call.
    fn step(&mut self, bytes: &[u8], nonce: &[u8; 32]) -> Result<(usize, Vec<u8>), ConnectionError> {
        let lent = self.choice.lend();
        let state = &mut self.state;
        let mut taken = 0;
        let sent = filled(FRAME_MOST, |out, len| {
            // SAFETY: the login's pointers are to what `lent` borrows, and the bytes are a slice that lives through the
            // call; the state, the room, its length and the count are borrowed for writing, and so overlap nothing.
            unsafe {
                sys::fe2o3_sasl_client_receive(
                    &lent.login,
                    state,
                    bytes.as_ptr(),
                    bytes.len(),
                    nonce,
                    &mut taken,
                    out.as_mut_ptr(),
                    out.len(),
                    len,
                )
            }
        })
        .map_err(ConnectionError::of)?;
        Ok((taken, sent))
    }

    /// Returns how far the login is.
    pub fn progress(&self) -> Progress {
        progress_of(&self.state.connection)
    }

    /// Ends the login, because the other side ended its stream. A login in progress fails with
    /// [`ConnectionError::EndOfInput`]. Otherwise nothing changes.
    pub fn end_of_input(&mut self) {
        end_of_input(&mut self.state.connection);
    }

    /// Returns the eight bytes that the other side sent in the place of the SASL protocol header, if the login failed with
    /// [`ConnectionError::ProtocolHeaderMismatch`]. They say which protocol it speaks (AMQP 1.0, part 2, section 2.2).
    pub fn foreign_header(&self) -> Option<[u8; 8]> {
        foreign_header(&self.state.connection)
    }

    /// Returns whether the next step of the login may use a nonce. [`Self::receive`] passes fresh random bytes in any case.
    pub fn wants_nonce(&self) -> bool {
        wants_nonce(&self.state.connection)
    }

    /// Returns the frame that received bytes complete, if they complete one. Nothing is taken: pass the same bytes to
    /// [`Self::receive`] after that. After the end of the login this is an error.
    pub fn peek_frame(&self, bytes: &[u8]) -> Result<Option<Frame>, ConnectionError> {
        peek_body(&self.state.connection, bytes)?.map(|body| view_frame(&body)).transpose()
    }

    /// Returns the name of the mechanism; `None` if the client selects it and has not yet ([`Self::select`]).
    pub fn mechanism(&self) -> Option<&'static str> {
        self.choice.mechanism()
    }

    /// Returns the additional data of the outcome that rejected the login (AMQP 1.0, part 5, section 5.3.3.6), if it has
    /// any. They are not authenticated: anyone who can alter the connection can write them.
    pub fn refusal_data(&self) -> Option<&[u8]> {
        self.refusal_data.as_deref()
    }

    /// Returns the keys of a complete login by SCRAM, like [`ScramClient::keys`].
    pub fn keys(&self) -> Option<CachedKeys> {
        CachedKeys::handed_out(&self.state.scram)
    }
}

impl fmt::Debug for ClientNegotiation {
    fn fmt(&self, f: &mut fmt::Formatter<'_>) -> fmt::Result {
        f.debug_struct("ClientNegotiation").field("progress", &self.progress()).finish_non_exhaustive()
    }
}
