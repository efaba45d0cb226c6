//! What servers are set to by default: files as `scram users add` makes them, the answers by which unknown users look like
//! known ones, why a login was rejected, and the nonces of connections.

mod common;
#[path = "../examples/server.rs"]
#[allow(dead_code)]
mod server;

use common::{ClientBodies, ServerBodies, UsersFile, ADDED};
use fe2o3_sasl_proved::*;
use std::collections::HashSet;
use std::fs;
use std::os::unix::fs::PermissionsExt;

const SHA_512_AND_256: [ScramVersion; 2] = [ScramVersion::Sha512, ScramVersion::Sha256];
const OUTCOME: u8 = 0x44;

/// Users as version 0.3.0 made them: with SHA-256, and salts of 32 bytes. The keys are those of Python's hashlib.
const OLDER: &str = "\
bob SCRAM-SHA-256$4096:AAECAwQFBgcICQoLDA0ODxAREhMUFRYXGBkaGxwdHh8=$TdXJfvTLMGIqn6ZFzuKQ8WKCcV0NBvDqXc3jrXOzIA8=:\
MpnbgTIYDyKVMmaU7VXsWVGtQ7z6ovGnQcOMNsTOB9A=
eve SCRAM-SHA-256$4096:ICEiIyQlJicoKSorLC0uLzAxMjM0NTY3ODk6Ozw9Pj8=$3XAWTwXsmF6Xqws6HgH01vle3xJ4mwY68CFm+c+66MI=:\
qJQKlIhe+f0r0KaA9iWRR88r5qAucHm1wHzBBj9i7pM=
";

/// A user with SHA-256 only.
const ONE: &str = "one SCRAM-SHA-256$4096:QEFCQ0RFRkdISUpLTE1OTw==$p0CCrMOBZbfWc8w7rpZaGrV39bVTzE2XIvqINECVwpI=:\
dWnpv0lcmONx63u9nPip8sEpXqFOGH0ms29RYbOl8LQ=
";

fn parse(lines: &str) -> RecordStore {
    RecordStore::parse_lines(lines).unwrap()
}

/// The body of a frame with a list of one mechanism.
fn offer_of(name: &str) -> Vec<u8> {
    let len = name.len() as u8;
    [&[2, 1, 0, 0, 0, 0x53, 0x40, 0xc0, len + 3, 1, 0xa3, len], name.as_bytes()].concat()
}

/// Joins both sides. The client reads that its mechanism is offered, also if it is not. Returns the bodies that the server
/// sends.
fn joined<R: UserRecords + Clone>(
    side: &mut ServerBodies<R>,
    client: impl Into<SaslProfile>,
    name: &str,
) -> Vec<Vec<u8>> {
    let mut client = ClientBodies::new(client, None);
    let (mut sent, mut to_client) = (Vec::new(), offer_of(name));
    while client.progress() == Progress::InProgress {
        let to_server = client.on_frame(&to_client).unwrap();
        if !to_server.is_empty() {
            to_client = side.on_frame(&to_server).unwrap();
            sent.push(to_client.clone());
        }
    }
    assert_eq!(client.progress(), side.progress());
    sent
}

/// A login by SCRAM: the bodies that the server sends, and whether the login is complete.
fn scram<R: UserRecords + Clone>(
    server: &PasswordServer<R>,
    user: &str,
    password: &str,
    version: ScramVersion,
) -> (Vec<Vec<u8>>, bool) {
    let mut side = ServerBodies::new(server.clone());
    let sent = joined(&mut side, ScramClient::new(user, password, version), version.mechanism());
    (sent, side.authenticated_user().as_deref() == Some(user))
}

/// A login by PLAIN, like [`scram`].
fn plain<R: UserRecords + Clone>(server: &PasswordServer<R>, user: &str, password: &str) -> (Vec<Vec<u8>>, bool) {
    let mut side = ServerBodies::new(server.clone());
    let profile = SaslProfile::Plain { username: user.to_owned(), password: password.to_owned() };
    (joined(&mut side, profile, "PLAIN"), side.authenticated_user().as_deref() == Some(user))
}

/// The code and the length of each body.
fn kinds(sent: &[Vec<u8>]) -> Vec<(u8, usize)> {
    sent.iter().map(|body| (body[6], body.len())).collect()
}

/// The parts of a challenge.
fn parts(sent: &[Vec<u8>]) -> Vec<String> {
    let at = sent[0].windows(2).position(|bytes| bytes == b"r=").unwrap();
    common::text(&sent[0][at..]).split(',').map(str::to_owned).collect()
}

#[test]
fn logins_by_each_offered_hash() {
    let users = UsersFile::new("each", ADDED);
    let server = server::server_of(users.path()).unwrap().plain_under_tls(true);
    let offer = ServerBodies::new(server.clone()).offer;
    for (name, is_offered) in
        [("SCRAM-SHA-512", true), ("SCRAM-SHA-256", true), ("SCRAM-SHA-1", false), ("PLAIN", true)]
    {
        assert_eq!(offers(&offer, name), Ok(is_offered));
    }
    for user in ["user", "a,b=c"] {
        for version in SHA_512_AND_256 {
            assert!(scram(&server, user, "pencil", version).1);
            assert!(!scram(&server, user, "pencils", version).1);
        }
        assert!(plain(&server, user, "pencil").1);
        assert!(!plain(&server, user, "pencils").1);
    }
}

#[test]
fn users_of_an_older_file() {
    for lines in [OLDER, ONE, &(ADDED.to_owned() + ONE)] {
        let users = UsersFile::new("older", lines);
        let server = server::server_of(users.path()).unwrap();
        let offer = ServerBodies::new(server.clone()).offer;
        assert_eq!((offers(&offer, "SCRAM-SHA-256"), offers(&offer, "SCRAM-SHA-512")), (Ok(true), Ok(false)));
        for user in ["bob", "eve", "one", "user"].into_iter().filter(|user| lines.contains(user)) {
            let mut side = ServerNegotiation::new(server.clone());
            let mut client = ClientNegotiation::select(ClientPolicy::scram(user, "pencil"), None);
            let mut to_server = ClientNegotiation::open();
            while !to_server.is_empty() {
                let to_client = side.receive(&to_server).unwrap().sent;
                to_server = client.receive(&to_client).unwrap().sent;
            }
            assert_eq!(side.authenticated_user().as_deref(), Some(user));
        }
    }
}

/// An outcome Auth without data.
const AUTH: [u8; 12] = [2, 1, 0, 0, 0, 0x53, 0x44, 0xc0, 3, 1, 0x50, 1];

/// Joins both sides of a connection, and returns why the server rejects the login.
fn reason<R: UserRecords + Clone>(server: PasswordServer<R>, client: impl Into<SaslProfile>) -> Option<Rejection> {
    let (mut side, mut client) = (ServerNegotiation::new(server), ClientNegotiation::new(client, None));
    let mut to_server = ClientNegotiation::open();
    while !to_server.is_empty() {
        assert_eq!(side.rejection(), None);
        let to_client = side.receive(&to_server).unwrap().sent;
        to_server = client.receive(&to_client).unwrap().sent;
    }
    assert_eq!(side.rejection().is_none(), side.progress() == Progress::Authenticated);
    side.rejection()
}

/// A server without mock records has the reasons of one with them.
#[test]
fn reasons_of_rejections() {
    use Rejection::*;
    let client = |user: &str, password: &str| ScramClient::new(user, password, ScramVersion::Sha512);
    let root = |user: &str| client(user, "pencil").acting_for("root").unwrap();
    let without = PasswordServer::new(parse(&(ADDED.to_owned() + ONE))).accept_authzid(true).plain_under_tls(true);
    for server in [without.clone(), without.mock_unknown_users([3; 32], 16, 4096)] {
        for (client, wanted) in [
            (client("user", "pencil"), None),
            (client("user", "pencils"), Some(WrongProof)),
            (client("one", "pencil"), Some(NoRecordForHash)),
            (client("nobody", "pencil"), Some(UnknownUser)),
            (root("user"), Some(NoRight)),
            (root("one"), Some(NoRecordForHash)),
            (root("nobody"), Some(UnknownUser)),
            (client("nobody", "pencil").channel_not_offered(), Some(Channel)),
        ] {
            assert_eq!(reason(server.clone(), client.clone()), wanted);
            let mut side = ServerBodies::new(server.clone());
            let sent = joined(&mut side, client, "SCRAM-SHA-512");
            assert_eq!(side.rejection(), wanted);
            // (the client receives the same outcome for each reason)
            assert_eq!(sent.last().unwrap() == &AUTH, wanted.is_some());
        }
        for user in ["user", "nobody"] {
            let profile = SaslProfile::Plain { username: user.to_owned(), password: "pencils".to_owned() };
            assert_eq!(reason(server.clone(), profile), Some(WrongPassword));
        }
    }
}

/// Inits that are rejected whatever the records are.
#[test]
fn reasons_of_rejected_inits() {
    use Rejection::*;
    let server = PasswordServer::new(parse(ADDED)).mock_unknown_users([3; 32], 16, 4096);
    let misplaced = Scram(ServerScramErrorKind::MisplacedAttribute);
    for (name, message, wanted) in [
        ("SCRAM-SHA-256", "n,,n=user,r=nonce,i=4096", misplaced),
        ("SCRAM-SHA-256", "user", Scram(ServerScramErrorKind::CannotParseGs2Header)),
        ("PLAIN", "\0user\0pencil", MechanismNotOffered),
    ] {
        let (name_len, message_len) = (name.len() as u8, message.len() as u8);
        let fields = [&[0xa3, name_len], name.as_bytes(), &[0xa0, message_len], message.as_bytes()].concat();
        let init = [&[2, 1, 0, 0, 0, 0x53, 0x41, 0xc0, fields.len() as u8 + 1, 2], &fields[..]].concat();
        let mut side = ServerBodies::new(server.clone());
        assert_eq!(side.on_frame(&init).unwrap(), AUTH);
        assert_eq!(side.rejection(), Some(wanted));
    }
    assert_eq!(Scram(ServerScramErrorKind::AuthenticationFailed).to_string(), "SCRAM: Authentication failed");
    assert_eq!((WrongProof.to_string(), UnknownUser.to_string()), ("Wrong password".into(), "Unknown user".into()));
}

/// A user with one record, one with all, and an unknown one get answers of the same kinds and lengths.
#[test]
fn names_are_not_shown() {
    let users = UsersFile::new("shown", &(ADDED.to_owned() + ONE));
    let by_file = server::server_of(users.path()).unwrap().plain_under_tls(true);
    let older = UsersFile::new("shown-older", OLDER);
    let of_older = server::server_of(older.path()).unwrap().plain_under_tls(true);
    for (server, names) in [
        (&by_file, ["one", "user", "nobody"]),
        (&by_file.clone().hashes(&SHA_512_AND_256), ["one", "user", "nobody"]),
        (&of_older, ["bob", "eve", "nobody"]),
        (&of_older.clone().hashes(&SHA_512_AND_256), ["bob", "eve", "nobody"]),
    ] {
        let offer = ServerBodies::new(server.clone()).offer;
        for version in [ScramVersion::Sha512, ScramVersion::Sha256, ScramVersion::Sha1] {
            let found = names.map(|user| kinds(&scram(server, user, "wrong", version).0));
            assert_eq!(found, [(); 3].map(|()| found[0].clone()));
            let is_offered = offers(&offer, version.mechanism()) == Ok(true);
            assert_eq!((found[0].len(), found[0].last().unwrap().0), (if is_offered { 2 } else { 1 }, OUTCOME));
        }
        let found = names.map(|user| kinds(&plain(server, user, "wrong").0));
        assert_eq!(found, [(); 3].map(|()| found[0].clone()));
    }
}

/// The salts are those of Python's hmac: the first bytes of HMAC-SHA-512 of `Salt:`, the mechanism, `:` and the name.
#[test]
fn mock_salts() {
    let store = parse(&(ADDED.to_owned() + ONE));
    let server = PasswordServer::new(store);
    for (user, version, salts) in [
        ("nobody", ScramVersion::Sha256, ["ySn4xuhTomX29UXtiD9amA==", "ySn4xuhTomX29UXtiD9amA2RqxI="]),
        ("one", ScramVersion::Sha512, ["2jIVjEVBpvmwJUrAjLjzxQ==", "2jIVjEVBpvmwJUrAjLjzxWwKSxc="]),
    ] {
        for (salt, salt_len, iterations) in
            [(salts[0], DEFAULT_SALT_LEN, DEFAULT_SCRAM_ITERATIONS), (salts[1], 20, 5000)]
        {
            let server = server.clone().mock_unknown_users([3; 32], salt_len, iterations);
            let parts = parts(&scram(&server, user, "wrong", version).0);
            assert_eq!(parts[1..], [format!("s={salt}"), format!("i={iterations}")]);
        }
    }
    assert_eq!((DEFAULT_SALT_LEN, DEFAULT_SCRAM_ITERATIONS), (16, 4096));
}

#[test]
fn hashes_of_a_store() {
    use ScramVersion::{Sha1, Sha256, Sha512};
    let of = |name: &str, versions: &[ScramVersion]| {
        let record = |version: &ScramVersion| ScramRecord::from_password(*version, "pencil", &[1; 16], 1).unwrap();
        versions.iter().map(|version| format!("{name} {}\n", record(version))).collect::<String>()
    };
    let cases: [(&[&[ScramVersion]], &[ScramVersion]); 8] = [
        (&[], &[]),
        (&[&[Sha256, Sha512]], &[Sha512, Sha256]),
        (&[&[Sha256]], &[Sha256]),
        (&[&[Sha256, Sha512], &[Sha256]], &[Sha256]),
        (&[&[Sha512], &[Sha256, Sha512]], &[Sha512]),
        (&[&[Sha512], &[Sha256]], &[]),
        (&[&[Sha1, Sha256, Sha512], &[Sha512, Sha256, Sha1]], &[Sha512, Sha256, Sha1]),
        (&[&[Sha1], &[Sha1, Sha256]], &[Sha1]),
    ];
    for (users, hashes) in cases {
        let lines: String = (0..).zip(users).map(|(at, versions)| of(&format!("user {at}"), versions)).collect();
        assert_eq!(parse(&lines).hashes(), hashes);
    }
    let versions = |records: Vec<ScramRecord>| records.iter().map(ScramRecord::version).collect::<Vec<_>>();
    let store = parse(&of("user", &[Sha1, Sha512, Sha256]));
    assert_eq!(versions(store.records("user").unwrap()), [Sha256, Sha512, Sha1]);
    assert!(store.records("nobody").unwrap().is_empty());
    assert_eq!(format!("{store:?}"), "RecordStore { users: 1, .. }");
}

#[test]
fn forms_of_a_store() {
    let store = parse(&(ADDED.to_owned() + OLDER));
    assert_eq!((store.forms(), store.mock_form()), (&[(16, 4096), (32, 4096)][..], (16, 4096)));
    assert_eq!((parse(OLDER).forms(), parse(OLDER).mock_form()), (&[(32, 4096)][..], (32, 4096)));
    assert_eq!((parse("").forms(), parse("").mock_form()), (&[][..], (16, 4096)));
    for lines in [ADDED.to_owned() + OLDER, String::new()] {
        let users = UsersFile::new("forms", &lines);
        assert!(server::server_of(users.path()).is_err());
    }
}

#[test]
fn mock_records_of_a_store() {
    let store = parse(ONE);
    let text = |user: &str, version| store.record(user, version, &[3; 32]).unwrap().to_text();
    assert_eq!(format!("one {}\n", text("one", ScramVersion::Sha256)), ONE);
    for (user, version, salt) in [
        ("nobody", ScramVersion::Sha256, "ySn4xuhTomX29UXtiD9amA=="),
        ("one", ScramVersion::Sha512, "2jIVjEVBpvmwJUrAjLjzxQ=="),
    ] {
        assert!(text(user, version).starts_with(&format!("{}$4096:{salt}$", version.mechanism())));
    }
    let long = OLDER.replace("AAECAwQFBgcICQoLDA0ODxAREhMUFRYXGBkaGxwdHh8=", &"AAAA".repeat(22));
    assert_eq!(parse(&long).record("nobody", ScramVersion::Sha1, &[3; 32]).err(), Some(RecordError::TooLong));
}

#[test]
fn lines_that_are_rejected() {
    for (lines, line, kind) in [
        (ADDED[..ADDED.len() - 1].to_owned(), 4, ReadLinesErrorKind::LineFeedMissing),
        (ADDED.to_owned() + "\n", 5, ReadLinesErrorKind::SpaceMissing),
        (ADDED.replace("=2C", ","), 3, ReadLinesErrorKind::InvalidName),
        (ADDED.replace("SHA-512", "SHA-224"), 2, ReadLinesErrorKind::UnknownMechanism),
        (ADDED.replace('\n', "\r\n"), 1, ReadLinesErrorKind::Base64DecodeError),
        (ONE.replace("4096", "04096"), 1, ReadLinesErrorKind::IterationCountParseError),
    ] {
        let why = RecordStore::parse_lines(&lines).unwrap_err();
        assert_eq!((why.line, why.kind), (line, kind));
        assert_eq!(why.to_string(), format!("Line {line} cannot be parsed"));
    }
}

#[test]
fn the_secret_is_kept() {
    let users = UsersFile::new("secret", ADDED);
    let salts = [(); 2].map(|()| {
        let server = server::server_of(users.path()).unwrap();
        parts(&scram(&server, "nobody", "wrong", ScramVersion::Sha256).0)[1].clone()
    });
    assert_eq!(salts[0], salts[1]);
    let secret = format!("{}.secret", users.path());
    assert_eq!(fs::metadata(&secret).unwrap().permissions().mode() & 0o777, 0o600);
    assert_eq!(fs::read(&secret).unwrap().len(), 32);
    fs::write(secret, "short").unwrap();
    assert!(server::server_of(users.path()).is_err());
}

/// Two connections never share a nonce. (That of a step without a nonce cannot be seen from here.)
#[test]
fn nonces_differ() {
    let server = PasswordServer::new(parse(ADDED));
    let mut nonces = HashSet::new();
    for _ in 0..20 {
        let (sent, _) = scram(&server, "user", "pencil", ScramVersion::Sha256);
        // (both are the base64 of 32 bytes: 44 characters)
        let nonce = parts(&sent)[0][2..].to_owned();
        assert_eq!(nonce.len(), 88);
        let (of_client, of_server) = nonce.split_at(44);
        assert!(nonces.insert(of_client.to_owned()) && nonces.insert(of_server.to_owned()));
    }
}
