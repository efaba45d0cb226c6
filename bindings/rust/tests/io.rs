//! Whole logins over `std::io`: over sockets, over streams that pass a byte at a time, and over those that fail.

use fe2o3_sasl_proved::io::{log_in, serve, LoginError, Served};
use fe2o3_sasl_proved::*;
use std::collections::VecDeque;
use std::error::Error;
use std::io::{self, BufWriter, ErrorKind, Read, Write};
use std::os::unix::net::UnixStream;
use std::thread;
use std::time::Duration;

const HEADER: &[u8] = b"AMQP\x03\x01\x00\x00";
const AMQP: &[u8] = b"AMQP\x00\x01\x00\x00";

fn server() -> ServerNegotiation<SingleScramCredential> {
    let credential = SingleScramCredential::new("user", "pencil", ScramVersion::Sha256).unwrap();
    ServerNegotiation::new(PasswordServer::new(credential).hashes(&[ScramVersion::Sha256]))
}

fn client(password: &str) -> ClientNegotiation {
    ClientNegotiation::new(ScramClient::new("user", password, ScramVersion::Sha256), Some("host"))
}

/// Two sockets that are joined. A read fails after 10 seconds.
fn pair() -> (UnixStream, UnixStream) {
    let pair = UnixStream::pair().unwrap();
    for socket in [&pair.0, &pair.1] {
        socket.set_read_timeout(Some(Duration::from_secs(10))).unwrap();
    }
    pair
}

/// A stream over another one that passes a byte at a time, and is interrupted before each.
struct Slow<S> {
    stream: S,
    is_interrupted: bool,
}

impl<S> Slow<S> {
    fn new(stream: S) -> Self {
        Self { stream, is_interrupted: false }
    }

    fn interrupted(&mut self) -> io::Result<()> {
        self.is_interrupted = !self.is_interrupted;
        if self.is_interrupted {
            Err(ErrorKind::Interrupted.into())
        } else {
            Ok(())
        }
    }
}

impl<S: Read> Read for Slow<S> {
    fn read(&mut self, room: &mut [u8]) -> io::Result<usize> {
        self.interrupted()?;
        self.stream.read(&mut room[..1])
    }
}

impl<S: Write> Write for Slow<S> {
    fn write(&mut self, bytes: &[u8]) -> io::Result<usize> {
        self.interrupted()?;
        self.stream.write(&bytes[..1])
    }

    fn flush(&mut self) -> io::Result<()> {
        self.interrupted()?;
        self.stream.flush()
    }
}

/// A stream that sends nothing before it is flushed.
struct Buffered(UnixStream, BufWriter<UnixStream>);

impl Buffered {
    fn new(socket: UnixStream) -> Self {
        Self(socket.try_clone().unwrap(), BufWriter::new(socket))
    }
}

impl Read for Buffered {
    fn read(&mut self, room: &mut [u8]) -> io::Result<usize> {
        self.0.read(room)
    }
}

impl Write for Buffered {
    fn write(&mut self, bytes: &[u8]) -> io::Result<usize> {
        self.1.write(bytes)
    }

    fn flush(&mut self) -> io::Result<()> {
        self.1.flush()
    }
}

/// Makes a stream of a socket.
type Makes<S> = fn(UnixStream) -> S;

/// What both sides return.
type Ended = (Result<Vec<u8>, LoginError>, Result<Served, LoginError>);

/// A login of both sides, each over such a stream.
fn login_over<S: Read + Write + 'static>(make: Makes<S>, password: &str) -> Ended {
    let (near, far) = pair();
    let served = thread::spawn(move || serve(make(far), &mut server()));
    let ended = log_in(make(near), &mut client(password));
    (ended, served.join().unwrap())
}

fn logins_over<S: Read + Write + 'static>(make: Makes<S>) {
    let (ended, served) = login_over(make, "pencil");
    assert!(ended.unwrap().is_empty());
    assert_eq!(served.unwrap(), Served { user: Some("user".to_owned()), rest: Vec::new() });
    let (ended, served) = login_over(make, "pencils");
    assert!(matches!(ended, Err(LoginError::Rejected(ConnectionError::RefusedAuth))), "{ended:?}");
    assert!(matches!(served, Err(LoginError::Rejected(ConnectionError::RefusedAuth))), "{served:?}");
}

#[test]
fn both_sides() {
    logins_over(|socket| socket);
    logins_over(Slow::new);
    logins_over(Buffered::new);
}

/// A login without a user.
#[test]
fn anonymous() {
    let (near, far) = pair();
    let credential = SingleScramCredential::new("user", "pencil", ScramVersion::Sha256).unwrap();
    let mut server = ServerNegotiation::new(PasswordServer::new(credential).anonymous(true));
    let served = thread::spawn(move || serve(&far, &mut server));
    let mut client = ClientNegotiation::new(SaslProfile::Anonymous, None);
    assert!(log_in(&near, &mut client).unwrap().is_empty());
    assert_eq!(served.join().unwrap().unwrap(), Served { user: None, rest: Vec::new() });
}

/// A stream of which each read returns the next part, or an error, and then the end. It counts the reads, and takes this
/// many bytes.
struct Script {
    parts: VecDeque<Result<Vec<u8>, ErrorKind>>,
    reads: usize,
    sent: Vec<u8>,
    room: usize,
}

impl Script {
    fn new<P: Into<Vec<u8>>>(parts: impl IntoIterator<Item = Result<P, ErrorKind>>) -> Self {
        let parts = parts.into_iter().map(|part| part.map(Into::into)).collect();
        Self { parts, reads: 0, sent: Vec::new(), room: usize::MAX }
    }
}

impl Read for Script {
    fn read(&mut self, room: &mut [u8]) -> io::Result<usize> {
        self.reads += 1;
        let part = self.parts.pop_front().unwrap_or(Ok(Vec::new()))?;
        room[..part.len()].copy_from_slice(&part);
        Ok(part.len())
    }
}

impl Write for Script {
    fn write(&mut self, bytes: &[u8]) -> io::Result<usize> {
        if self.sent.len() + bytes.len() > self.room {
            return Err(ErrorKind::BrokenPipe.into());
        }
        self.sent.extend(bytes);
        Ok(bytes.len())
    }

    fn flush(&mut self) -> io::Result<()> {
        Ok(())
    }
}

/// A peer that answers at once what is written, until that many writes are done. It cannot be flushed without a write.
struct Peer<F> {
    answer: F,
    answers: VecDeque<u8>,
    writes: usize,
    is_flushed: bool,
}

impl<F> Read for Peer<F> {
    fn read(&mut self, room: &mut [u8]) -> io::Result<usize> {
        self.answers.read(room)
    }
}

impl<F: FnMut(&[u8]) -> Vec<u8>> Write for Peer<F> {
    fn write(&mut self, bytes: &[u8]) -> io::Result<usize> {
        self.writes = self.writes.checked_sub(1).ok_or(ErrorKind::BrokenPipe)?;
        self.answers.extend((self.answer)(bytes));
        self.is_flushed = false;
        Ok(bytes.len())
    }

    fn flush(&mut self) -> io::Result<()> {
        if std::mem::replace(&mut self.is_flushed, true) {
            return Err(ErrorKind::BrokenPipe.into());
        }
        Ok(())
    }
}

/// A server, which sends these bytes after an outcome that is ok.
fn peer_server(then: &[u8]) -> Peer<impl FnMut(&[u8]) -> Vec<u8> + '_> {
    let mut side = server();
    let answer = move |bytes: &[u8]| {
        let mut sent = side.receive(bytes).unwrap().sent;
        if side.progress() == Progress::Authenticated {
            sent.extend(then);
        }
        sent
    };
    Peer { answer, answers: VecDeque::new(), writes: usize::MAX, is_flushed: true }
}

/// A client, which sends these bytes with its response, after its header and its init.
fn peer_client<'a>(password: &str, then: &'a [u8]) -> Peer<impl FnMut(&[u8]) -> Vec<u8> + 'a> {
    let (mut side, mut frames) = (client(password), 0);
    let answer = move |bytes: &[u8]| {
        let mut sent = side.receive(bytes).unwrap().sent;
        frames += usize::from(!sent.is_empty());
        if frames == 2 && !sent.is_empty() {
            sent.extend(then);
        }
        sent
    };
    Peer { answer, answers: ClientNegotiation::open().into(), writes: usize::MAX, is_flushed: true }
}

#[test]
fn bytes_after_the_login_are_returned() {
    let mut side = client("pencil");
    assert_eq!(log_in(peer_server(AMQP), &mut side).unwrap(), AMQP);
    assert!(side.keys().is_some());
    let served = serve(peer_client("pencil", AMQP), &mut server()).unwrap();
    assert_eq!(served, Served { user: Some("user".to_owned()), rest: AMQP.to_vec() });
    // what the call has not read stays in the stream
    let many = [7; 5000];
    let mut stream = peer_server(&many);
    let mut all = log_in(&mut stream, &mut client("pencil")).unwrap();
    assert!((1..many.len()).contains(&all.len()));
    all.extend(stream.answers);
    assert_eq!(all, many);
}

#[test]
fn the_end_of_the_stream() {
    let offer = server().receive(&ClientNegotiation::open()).unwrap().sent;
    for len in 0..=offer.len() {
        let mut side = client("pencil");
        let ended = log_in(Script::new([Ok(&offer[..len])]), &mut side);
        assert!(matches!(ended, Err(LoginError::Ended)), "{len} {ended:?}");
        assert_eq!(side.progress(), Progress::Failed(ConnectionError::EndOfInput));
    }
    let init = client("pencil").receive(&offer).unwrap().sent;
    let mut side = server();
    let served = serve(Script::new([Ok(HEADER), Ok(&init)]), &mut side);
    assert!(matches!(served, Err(LoginError::Ended)), "{served:?}");
    assert_eq!(side.last_attempt().unwrap().claimed_user.as_deref(), Some("user"));
}

/// A stream that fails: each error ends the login at once, except an interruption.
#[test]
fn errors_of_the_stream() {
    for kind in [ErrorKind::WouldBlock, ErrorKind::TimedOut, ErrorKind::ConnectionReset] {
        let mut stream = Script::new([Err(ErrorKind::Interrupted), Ok(HEADER.to_vec()), Err(kind)]);
        let mut side = client("pencil");
        let Err(LoginError::Io(why)) = log_in(&mut stream, &mut side) else { panic!("{kind:?}") };
        assert_eq!((why.kind(), stream.reads, &stream.sent[..]), (kind, 3, HEADER));
        assert_eq!(side.progress(), Progress::InProgress);
    }
    // the header, and the init, are not sent
    let offer = server().receive(&ClientNegotiation::open()).unwrap().sent;
    for (room, reads) in [(7, 0), (8, 1)] {
        let mut stream = Script { room, ..Script::new([Ok(&offer[..])]) };
        let Err(LoginError::Io(why)) = log_in(&mut stream, &mut client("pencil")) else { panic!("{room}") };
        assert_eq!((why.kind(), stream.reads), (ErrorKind::BrokenPipe, reads));
    }
}

/// An outcome that is not sent: a client that the server accepts is not logged in, and why it rejects one is returned.
#[test]
fn an_outcome_that_is_not_sent() {
    let served = serve(Peer { writes: 2, ..peer_client("pencil", b"") }, &mut server());
    assert!(matches!(&served, Err(LoginError::Io(why)) if why.kind() == ErrorKind::BrokenPipe), "{served:?}");
    let served = serve(Peer { writes: 2, ..peer_client("pencils", b"") }, &mut server());
    assert!(matches!(served, Err(LoginError::Rejected(ConnectionError::RefusedAuth))), "{served:?}");
}

/// Another protocol, an offer that the client does not allow, and a server that offers nothing.
#[test]
fn errors_of_the_connection() {
    let mut side = client("pencil");
    let ended = log_in(Script::new([Ok(AMQP)]), &mut side);
    assert!(matches!(ended, Err(LoginError::Connection(ConnectionError::ProtocolHeaderMismatch))), "{ended:?}");
    assert_eq!(side.foreign_header().unwrap(), AMQP);

    let mut stream = Script::new([Ok(AMQP)]);
    let served = serve(&mut stream, &mut server());
    assert!(matches!(served, Err(LoginError::Connection(ConnectionError::ProtocolHeaderMismatch))), "{served:?}");
    assert_eq!(stream.sent, HEADER);

    let offer = server().receive(&ClientNegotiation::open()).unwrap().sent;
    let mut other = ClientNegotiation::new(SaslProfile::External, None);
    let ended = log_in(Script::new([Ok(offer)]), &mut other);
    assert!(matches!(ended, Err(LoginError::Connection(ConnectionError::NotImplemented))), "{ended:?}");

    let credential = SingleScramCredential::new("user", "pencil", ScramVersion::Sha256).unwrap();
    let mut nothing = ServerNegotiation::new(PasswordServer::new(credential).hashes(&[]));
    let served = serve(Script::new([Ok(HEADER)]), &mut nothing);
    assert!(matches!(served, Err(LoginError::Connection(ConnectionError::NoSuchMechanism))), "{served:?}");
}

/// A login says nothing about another stream: a side that has ended neither reads nor writes.
#[test]
fn a_side_that_has_ended() {
    let mut side = client("pencil");
    log_in(peer_server(b""), &mut side).unwrap();
    let mut stream = Script::new([Ok(AMQP)]);
    let again = log_in(&mut stream, &mut side);
    assert!(matches!(again, Err(LoginError::Connection(ConnectionError::Ended))), "{again:?}");
    assert_eq!((stream.reads, stream.sent.len()), (0, 0));

    let mut side = server();
    serve(peer_client("pencil", b""), &mut side).unwrap();
    let again = serve(&mut stream, &mut side);
    assert!(matches!(again, Err(LoginError::Connection(ConnectionError::Ended))), "{again:?}");
    assert_eq!((stream.reads, stream.sent.len()), (0, 0));
}

#[test]
fn errors_have_sources() {
    let io: LoginError = io::Error::from(ErrorKind::BrokenPipe).into();
    assert_eq!(io.source().unwrap().downcast_ref::<io::Error>().unwrap().kind(), ErrorKind::BrokenPipe);
    for (why, text) in [
        (ConnectionError::RefusedAuth, "the login was rejected"),
        (ConnectionError::RefusedSysTemp, "the login was rejected"),
        (ConnectionError::UnexpectedFrame, "the login failed"),
    ] {
        let error = LoginError::from(why);
        assert_eq!(error.source().unwrap().downcast_ref(), Some(&why));
        assert_eq!(error.to_string(), text);
    }
    assert!(LoginError::from(ConnectionError::EndOfInput).source().is_none());
    let boxed: Box<dyn Error + Send + Sync> = io.into();
    assert_eq!(boxed.to_string(), "the stream failed during the login");
}
