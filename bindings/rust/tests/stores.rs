//! Stores of users that fail: connections, logins over streams, and logins over messages.

mod common;

use common::{log_in, text};
use fe2o3_sasl_proved::io::{self, LoginError};
use fe2o3_sasl_proved::*;
use std::error::Error;
use std::io::{Cursor, Read, Write};
use std::sync::atomic::{AtomicBool, Ordering};
use std::sync::Arc;

const VERSION: ScramVersion = ScramVersion::Sha256;
const DOWN: Progress = Progress::Failed(ConnectionError::RefusedSysTemp);

/// The frame of the outcome sys-temp, written here.
const TRY_LATER: &[u8] = &[0, 0, 0, 16, 2, 1, 0, 0, 0, 0x53, 0x44, 0xc0, 3, 1, 0x50, 4];

/// A store of one user, of which the records or the identities cannot be read while it is down.
#[derive(Clone)]
struct Store {
    one: SingleScramCredential,
    records: Arc<AtomicBool>,
    identities: Arc<AtomicBool>,
}

impl Store {
    fn new() -> Self {
        let record = ScramRecord::from_password(VERSION, "pencil", &[3; 16], 4096).unwrap();
        let one = SingleScramCredential::with_record("user", record);
        Self { one, records: Arc::default(), identities: Arc::default() }
    }
}

impl UserRecords for Store {
    fn records(&self, username: &str) -> Result<Vec<ScramRecord>, StoreError> {
        match self.records.load(Ordering::Relaxed) {
            true => Err(StoreError::new("the table is gone")),
            false => self.one.records(username),
        }
    }

    fn identities(&self, _: &str) -> Result<Vec<String>, StoreError> {
        match self.identities.load(Ordering::Relaxed) {
            true => Err(StoreError::new(std::fmt::Error)),
            false => Ok(vec!["bob".to_owned()]),
        }
    }
}

fn client(password: &str) -> ScramClient {
    ScramClient::new("user", password, VERSION)
}

fn server(store: &Store) -> PasswordServer<Store> {
    PasswordServer::new(store.clone()).plain_under_tls(true)
}

/// Joins both sides, in pieces of this size. `before` is called before each message of the client.
fn joined(
    client: &mut ClientNegotiation,
    server: &mut ServerNegotiation<Store>,
    piece: usize,
    mut before: impl FnMut(usize),
) {
    let (mut to_server, mut messages) = (ClientNegotiation::open(), 0);
    while !to_server.is_empty() {
        before(messages);
        messages += 1;
        let mut to_client = Vec::new();
        for part in to_server.chunks(piece) {
            let received = server.receive(part).unwrap();
            assert_eq!(received.taken, part.len());
            to_client.extend(received.sent);
        }
        to_server = client.receive(&to_client).unwrap().sent;
    }
}

#[test]
fn a_store_that_is_down_is_no_wrong_password() {
    for (profile, fails_at) in [
        (SaslProfile::from(client("pencil")), 1),
        (SaslProfile::from(client("pencils")), 2),
        (SaslProfile::Plain { username: "user".to_owned(), password: "pencil".to_owned() }, 1),
    ] {
        for (piece, mocks) in [(1, false), (7, true), (512, true)] {
            let store = Store::new();
            let mut config = server(&store);
            if mocks {
                config = config.mock_unknown_users([7; 32], 16, 4096);
            }
            let mut server = ServerNegotiation::new(config);
            server.accept_extended_headers(true);
            let mut client = ClientNegotiation::new(profile.clone(), Some("host"));
            joined(&mut client, &mut server, piece, |at| store.records.store(at == fails_at, Ordering::Relaxed));
            assert_eq!((client.progress(), server.progress()), (DOWN, DOWN));
            assert_eq!((server.rejection(), server.authenticated_user(), server.acts_for()), (None, None, None));
            assert_eq!(server.last_attempt().unwrap().claimed_user.as_deref(), Some("user"));
            let why = server.store_error().unwrap();
            assert_eq!(why.to_string(), "The user cannot be looked up");
            assert_eq!(why.source().unwrap().to_string(), "the table is gone");
            // The login has ended.
            let ended = server.receive(b"AMQP").unwrap();
            assert_eq!((ended.taken, ended.sent), (0, Vec::new()));
            server.end_of_input();
            assert_eq!((server.progress(), server.foreign_header()), (DOWN, None));
        }
    }
}

#[test]
fn what_comes_after_the_frame_is_left() {
    let store = Store::new();
    store.records.store(true, Ordering::Relaxed);
    let mut server = ServerNegotiation::new(server(&store));
    let mut client = ClientNegotiation::new(client("pencil"), None);
    let offer = server.receive(&ClientNegotiation::open()).unwrap().sent;
    let init = client.receive(&offer).unwrap().sent;
    assert_eq!(server.receive(&init[..9]).unwrap().taken, 9);
    let received = server.receive(&[&init[9..], b"more"].concat()).unwrap();
    assert_eq!((received.taken, &received.sent[..]), (init.len() - 9, TRY_LATER));
}

#[test]
fn identities_that_cannot_be_read() {
    let store = Store::new();
    for (is_down, wanted) in [(false, Progress::Authenticated), (true, DOWN)] {
        store.identities.store(is_down, Ordering::Relaxed);
        let mut server = ServerNegotiation::new(server(&store).accept_authzid(true));
        let mut client = ClientNegotiation::new(client("pencil").acting_for("bob").unwrap(), None);
        joined(&mut client, &mut server, 512, |_| {});
        assert_eq!((client.progress(), server.progress()), (wanted, wanted));
        assert_eq!(server.acts_for().as_deref(), (!is_down).then_some("bob"));
        assert_eq!(server.store_error().is_some(), is_down);
    }
    // A server that accepts no identities does not ask for them.
    let mut server = ServerNegotiation::new(server(&store));
    joined(&mut ClientNegotiation::new(client("pencil"), None), &mut server, 512, |_| {});
    assert_eq!(server.progress(), Progress::Authenticated);
}

/// A stream that has these bytes to read.
struct Stream(Cursor<Vec<u8>>, Vec<u8>);

impl Read for Stream {
    fn read(&mut self, room: &mut [u8]) -> std::io::Result<usize> {
        self.0.read(room)
    }
}

impl Write for Stream {
    fn write(&mut self, bytes: &[u8]) -> std::io::Result<usize> {
        self.1.write(bytes)
    }

    fn flush(&mut self) -> std::io::Result<()> {
        Ok(())
    }
}

#[test]
fn a_login_over_a_stream() {
    let store = Store::new();
    store.records.store(true, Ordering::Relaxed);
    let config = server(&store);
    let offer = ServerNegotiation::new(config.clone()).receive(&ClientNegotiation::open()).unwrap().sent;
    let mut client = ClientNegotiation::new(client("pencil"), None);
    let init = client.receive(&offer).unwrap().sent;
    let mut stream = Stream(Cursor::new([ClientNegotiation::open(), init].concat()), Vec::new());
    let why = io::serve(&mut stream, &mut ServerNegotiation::new(config)).unwrap_err();
    assert!(matches!(why, LoginError::Store(_)), "{why:?}");
    assert_eq!(why.to_string(), "the login was rejected for a time");
    assert_eq!(why.source().unwrap().source().unwrap().to_string(), "the table is gone");
    assert_eq!(stream.1, [&offer[..], TRY_LATER].concat());
}

#[test]
fn messages() {
    let store = Store::new();
    let mut server = ScramAuthenticator::new(store.clone()).accept_authzid(true);
    let mut client = client("pencil").acting_for("bob").unwrap();
    let down = |which: &AtomicBool, is_down| which.store(is_down, Ordering::Relaxed);
    let first = client.compute_client_first_message();
    down(&store.records, true);
    assert_eq!(server.compute_server_first_message(&first), Err(ServerScramErrorKind::StoreUnavailable));
    assert_eq!(server.store_error().unwrap().source().unwrap().to_string(), "the table is gone");
    assert_eq!(ServerError::of(ServerScramErrorKind::StoreUnavailable), ServerError::OtherError);
    down(&store.records, false);
    let first = server.compute_server_first_message(&first).unwrap().unwrap();
    assert!(server.store_error().is_none());
    let last = client.compute_client_final_message(text(&first)).unwrap();
    for which in [&store.records, &store.identities] {
        down(which, true);
        assert_eq!(server.compute_server_final_message(&last), Err(ServerScramErrorKind::StoreUnavailable));
        assert!(server.store_error().is_some() && server.authenticated_user().is_none());
        down(which, false);
    }
    let last = server.compute_server_final_message(&last).unwrap().unwrap();
    client.validate_server_final(&last).unwrap();
    assert_eq!(server.acts_for().as_deref(), Some("bob"));
}

/// A store of several hashes is one of messages too, by the hash that it names.
#[test]
fn one_trait_for_both() {
    #[derive(Clone)]
    struct Sha512(RecordStore);

    impl UserRecords for Sha512 {
        fn records(&self, username: &str) -> Result<Vec<ScramRecord>, StoreError> {
            self.0.records(username)
        }

        fn scram_version(&self) -> &ScramVersion {
            &ScramVersion::Sha512
        }
    }

    let store = RecordStore::parse_lines(common::ADDED).unwrap();
    let version = ScramVersion::Sha512;
    let mut client = ScramClient::new("user", "pencil", version);
    log_in(&mut client, &mut ScramAuthenticator::new(Arc::new(Sha512(store.clone())))).unwrap();
    log_in(&mut self::client("pencil"), &mut ScramAuthenticator::new(store)).unwrap();
}

#[test]
fn errors_have_sources() {
    let why = RecordStore::parse_lines("user SCRAM-SHA-256$4096\n").unwrap_err();
    assert_eq!(why.to_string(), "Line 1 cannot be parsed");
    assert_eq!(why.source().unwrap().downcast_ref(), Some(&ReadLinesErrorKind::PartsMismatch));
    let boxed: Box<dyn Error> = ServerError::InvalidProof.into();
    assert_eq!(boxed.to_string(), "invalid-proof");
}
