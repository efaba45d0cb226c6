//! Whole logins over `std::io`: [`log_in`] for a client and [`serve`] for a server, over anything that reads and writes,
//! such as a TCP socket or a TLS stream.
//!
//! ```
//! use fe2o3_sasl_proved::io::{log_in, serve};
//! use fe2o3_sasl_proved::*;
//! use std::net::{TcpListener, TcpStream};
//!
//! # fn main() -> Result<(), Box<dyn std::error::Error>> {
//! let listener = TcpListener::bind("127.0.0.1:0")?;
//! let address = listener.local_addr()?;
//! let credential = SingleScramCredential::new("user", "pencil", ScramVersion::Sha256)?;
//! let config = PasswordServer::new(credential).hashes(&[ScramVersion::Sha256]);
//! let server = std::thread::spawn(move || {
//!     let (socket, _) = listener.accept()?;
//!     serve(&socket, &mut ServerNegotiation::new(config))
//! });
//!
//! let socket = TcpStream::connect(address)?;
//! let client = ScramClient::new("user", "pencil", ScramVersion::Sha256);
//! let rest = log_in(&socket, &mut ClientNegotiation::new(client, Some("localhost")))?;
//!
//! let served = server.join().expect("the server does not panic")?;
//! assert_eq!(served.user.as_deref(), Some("user"));
//! // Both sides are authenticated. AMQP begins with these bytes, and then with what the sockets read.
//! assert!(rest.is_empty() && served.rest.is_empty());
//! # Ok(())
//! # }
//! ```
//!
//! The calls never close the stream. After a failed login you close it. A server that rejects a client lets it read the
//! outcome first: with unread bytes a close resets a TCP connection (`hang_up` of `examples/server.rs`).
//!
//! A login takes a few frames of at most 512 bytes, so its bytes need no limit. Its time does, and is that of the stream,
//! such as [`TcpStream::set_read_timeout`](std::net::TcpStream::set_read_timeout). The stream has to block: at
//! [`WouldBlock`](std::io::ErrorKind::WouldBlock) the login fails.

use crate::{ClientNegotiation, ConnectionError, Progress, Received, ServerNegotiation, StoreError, UserRecords};
use std::error::Error;
use std::fmt;
use std::io::{self, ErrorKind, Read, Write};

/// How many bytes are read at once. A frame of a login has 512 bytes at most.
const ROOM: usize = 4096;

/// Why a login over a stream failed. The [`source`](Error::source) is the error that the variant holds.
#[derive(Debug)]
#[non_exhaustive]
pub enum LoginError {
    /// The stream failed, or its time limit passed.
    Io(io::Error),

    /// The other side ended the stream before the login was complete.
    Ended,

    /// The outcome rejected the login, such as by [`ConnectionError::RefusedAuth`] for wrong credentials. The client has
    /// received that outcome; the server has sent it, if the stream still took it.
    Rejected(ConnectionError),

    /// The server could not look the user up. It has sent the outcome sys-temp, if the stream still took it.
    Store(StoreError),

    /// The other side broke the protocol, could not be authenticated, or supports no mechanism of this side; or an
    /// allocation failed. It is [`ConnectionError::Ended`] if the negotiation had ended before.
    Connection(ConnectionError),
}

impl From<io::Error> for LoginError {
    fn from(why: io::Error) -> Self {
        LoginError::Io(why)
    }
}

impl From<ConnectionError> for LoginError {
    fn from(why: ConnectionError) -> Self {
        use ConnectionError::{EndOfInput, RefusedAuth, RefusedSys, RefusedSysPerm, RefusedSysTemp};
        match why {
            EndOfInput => LoginError::Ended,
            RefusedAuth | RefusedSys | RefusedSysPerm | RefusedSysTemp => LoginError::Rejected(why),
            _ => LoginError::Connection(why),
        }
    }
}

impl fmt::Display for LoginError {
    fn fmt(&self, f: &mut fmt::Formatter<'_>) -> fmt::Result {
        f.write_str(match self {
            LoginError::Io(_) => "the stream failed during the login",
            LoginError::Ended => "the other side ended the stream before the login was complete",
            LoginError::Rejected(_) => "the login was rejected",
            LoginError::Store(_) => "the login was rejected for a time",
            LoginError::Connection(_) => "the login failed",
        })
    }
}

impl Error for LoginError {
    fn source(&self) -> Option<&(dyn Error + 'static)> {
        match self {
            LoginError::Io(why) => Some(why),
            LoginError::Ended => None,
            LoginError::Store(why) => Some(why),
            LoginError::Rejected(why) | LoginError::Connection(why) => Some(why),
        }
    }
}

/// A login that a server has accepted.
#[derive(Clone, Debug, PartialEq, Eq)]
pub struct Served {
    /// The authenticated user; `None` for ANONYMOUS.
    pub user: Option<String>,

    /// The bytes received after the login, which belong to AMQP.
    pub rest: Vec<u8>,
}

/// Logs in as a client, on a stream over which nothing was sent. Returns the bytes received after the login, which belong
/// to AMQP: read them first, for example by `rest.as_slice().chain(stream)`.
///
/// Pass a negotiation that has not begun. It keeps more about the login, also after an error:
/// [`keys`](ClientNegotiation::keys), [`mechanism`](ClientNegotiation::mechanism),
/// [`refusal_data`](ClientNegotiation::refusal_data), [`foreign_header`](ClientNegotiation::foreign_header).
///
/// # Errors
///
/// Every variant of [`LoginError`], unless the login is complete; with SCRAM the server is then authenticated too.
///
/// # Panics
///
/// If the system has no random bytes.
pub fn log_in(mut stream: impl Read + Write, side: &mut ClientNegotiation) -> Result<Vec<u8>, LoginError> {
    in_progress(side)?;
    send(&mut stream, &ClientNegotiation::open())?;
    carry(&mut stream, side)
}

/// Serves the login of a client, on a stream over which nothing was received. Returns the authenticated user, and the bytes
/// received after the login.
///
/// Pass a negotiation that has not begun. It keeps more about the login, also after an error:
/// [`last_attempt`](ServerNegotiation::last_attempt), [`rejection`](ServerNegotiation::rejection),
/// [`foreign_header`](ServerNegotiation::foreign_header).
///
/// # Errors
///
/// Every variant of [`LoginError`], unless the client is logged in and was sent the outcome.
///
/// # Panics
///
/// If the system has no random bytes.
pub fn serve<R: UserRecords + Clone>(
    mut stream: impl Read + Write,
    side: &mut ServerNegotiation<R>,
) -> Result<Served, LoginError> {
    in_progress(side)?;
    let rest = carry(&mut stream, side).map_err(|why| match (why, side.store_error()) {
        (LoginError::Rejected(_), Some(why)) => LoginError::Store(why.clone()),
        (why, _) => why,
    })?;
    Ok(Served { user: side.authenticated_user(), rest })
}

/// What both sides of a connection do.
trait Side {
    fn progress(&self) -> Progress;
    fn receive(&mut self, bytes: &[u8]) -> Result<Received, ConnectionError>;
    fn end_of_input(&mut self);
}

impl Side for ClientNegotiation {
    fn progress(&self) -> Progress {
        self.progress()
    }

    fn receive(&mut self, bytes: &[u8]) -> Result<Received, ConnectionError> {
        self.receive(bytes)
    }

    fn end_of_input(&mut self) {
        self.end_of_input();
    }
}

impl<R: UserRecords + Clone> Side for ServerNegotiation<R> {
    fn progress(&self) -> Progress {
        self.progress()
    }

    fn receive(&mut self, bytes: &[u8]) -> Result<Received, ConnectionError> {
        self.receive(bytes)
    }

    fn end_of_input(&mut self) {
        self.end_of_input();
    }
}

/// Rejects a side whose login has ended: an earlier login says nothing about this stream.
fn in_progress(side: &impl Side) -> Result<(), LoginError> {
    match side.progress() {
        Progress::InProgress => Ok(()),
        _ => Err(LoginError::Connection(ConnectionError::Ended)),
    }
}

/// Receives and sends until the login of either side ends. Returns the bytes received after it.
fn carry(stream: &mut (impl Read + Write), side: &mut impl Side) -> Result<Vec<u8>, LoginError> {
    let mut room = [0; ROOM];
    loop {
        let len = uninterrupted(|| stream.read(&mut room))?;
        if len == 0 {
            side.end_of_input();
            return Err(LoginError::Ended);
        }
        let received = side.receive(&room[..len])?;
        let sent = send(stream, &received.sent);
        match side.progress() {
            // (also if the outcome was not sent: why it says so is worth more)
            Progress::Failed(why) => return Err(why.into()),
            Progress::InProgress => sent?,
            Progress::Authenticated => {
                sent?;
                return Ok(room[received.taken..len].to_vec());
            }
        }
    }
}

/// Sends bytes, if there are any.
fn send(stream: &mut impl Write, bytes: &[u8]) -> io::Result<()> {
    if bytes.is_empty() {
        return Ok(());
    }
    stream.write_all(bytes)?;
    uninterrupted(|| stream.flush())
}

/// Repeats a call until it is not interrupted.
fn uninterrupted<T>(mut call: impl FnMut() -> io::Result<T>) -> io::Result<T> {
    loop {
        match call() {
            Err(why) if why.kind() == ErrorKind::Interrupted => {}
            result => return result,
        }
    }
}
