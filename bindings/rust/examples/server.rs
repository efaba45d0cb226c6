//! Serves logins over TCP on the loopback, and closes each connection after its login: `server PORT USERS`. USERS has a line
//! for each user and hash, as `scram users add` writes them. `USERS.secret`, which is made at the first start, has the secret
//! of mock records. The program prints the port, which is a free one for 0, and how each login ended, or why it was rejected.

use fe2o3_sasl_proved::io::{serve, LoginError, Served};
use fe2o3_sasl_proved::*;
use std::error::Error;
use std::fs::{self, OpenOptions};
use std::io::{self, ErrorKind, Read, Write};
use std::net::{Shutdown, TcpListener, TcpStream};
use std::os::unix::fs::OpenOptionsExt;
use std::time::{Duration, Instant};
use std::{env, iter, thread};

/// The time that a login may take, and the time and the bytes that a close may take.
const LOGIN: Duration = Duration::from_secs(10);
const CLOSE: (Duration, usize) = (Duration::from_secs(2), 65536);

/// A socket whose reads and writes fail after an instant.
struct Until<'a>(&'a TcpStream, Instant);

impl Until<'_> {
    /// Returns the time that is left.
    fn left(&self) -> io::Result<Option<Duration>> {
        match self.1.saturating_duration_since(Instant::now()) {
            Duration::ZERO => Err(ErrorKind::TimedOut.into()),
            left => Ok(Some(left)),
        }
    }
}

impl Read for Until<'_> {
    fn read(&mut self, room: &mut [u8]) -> io::Result<usize> {
        self.0.set_read_timeout(self.left()?)?;
        self.0.read(room)
    }
}

impl Write for Until<'_> {
    fn write(&mut self, bytes: &[u8]) -> io::Result<usize> {
        self.0.set_write_timeout(self.left()?)?;
        self.0.write(bytes)
    }

    fn flush(&mut self) -> io::Result<()> {
        self.0.flush()
    }
}

/// Closes a connection: ends the sending side, and discards what arrives until the client ends, up to a time and a
/// number of bytes. A close with unread bytes resets the connection (RFC 1122, section 4.2.2.13), and the client can
/// lose the outcome.
pub fn hang_up(socket: TcpStream) {
    let (mut input, mut left, mut room) = (Until(&socket, Instant::now() + CLOSE.0), CLOSE.1, [0; 4096]);
    if socket.shutdown(Shutdown::Write).is_err() {
        return;
    }
    while let Ok(len @ 1..) = input.read(&mut room) {
        if len >= left {
            return;
        }
        left -= len;
    }
}

/// Returns an error with its causes.
fn with_causes(why: &LoginError) -> String {
    let why: &dyn Error = why;
    iter::successors(Some(why), |why| (*why).source()).map(|why| why.to_string()).collect::<Vec<_>>().join(": ")
}

/// Serves each connection in a thread.
pub fn listen(listener: &TcpListener, server: &PasswordServer<RecordStore>) -> io::Result<()> {
    for socket in listener.incoming() {
        let (socket, mut side) = (socket?, ServerNegotiation::new(server.clone()));
        thread::spawn(move || {
            match serve(Until(&socket, Instant::now() + LOGIN), &mut side) {
                Ok(Served { user, .. }) => println!("logged in: {user:?}"),
                Err(why) => {
                    let reason = side.rejection().map(|reason| format!(": {reason}")).unwrap_or_default();
                    println!("not logged in: {}{reason}", with_causes(&why));
                }
            }
            hang_up(socket);
        });
    }
    Ok(())
}

/// Returns the secret of mock records in this file, which the first call makes.
fn mock_secret(path: &str) -> io::Result<[u8; 32]> {
    match OpenOptions::new().write(true).create_new(true).mode(0o600).open(path) {
        Ok(mut file) => file.write_all(&generate_nonce())?,
        Err(why) if why.kind() == ErrorKind::AlreadyExists => {}
        Err(why) => return Err(why),
    }
    fs::read(path)?.try_into().map_err(|_| ErrorKind::InvalidData.into())
}

/// Returns a server for the users in a file. It offers the hashes for which every user has a record, and answers unknown
/// users like known ones.
pub fn server_of(users: &str) -> Result<PasswordServer<RecordStore>, Box<dyn Error>> {
    let store = RecordStore::parse_lines(&fs::read_to_string(users)?)?;
    let (hashes, (salt_len, iterations)) = (store.hashes(), store.mock_form());
    if hashes.is_empty() || store.forms().len() > 1 {
        return Err("the users need records of one hash, with one salt length and one iteration count".into());
    }
    let secret = mock_secret(&format!("{users}.secret"))?;
    Ok(PasswordServer::new(store).hashes(&hashes).mock_unknown_users(secret, salt_len, iterations))
}

fn main() -> Result<(), Box<dyn Error>> {
    let words: Vec<String> = env::args().skip(1).collect();
    let [port, users] = &words[..] else { return Err("server PORT USERS".into()) };
    let server = server_of(users)?;
    let listener = TcpListener::bind(("127.0.0.1", port.parse()?))?;
    println!("{}", listener.local_addr()?.port());
    listen(&listener, &server)?;
    Ok(())
}
