//! Logins of callers that have the bodies of frames, and pass each with its size, against bodies that are written here
//! (AMQP 1.0, part 5, section 5.3.3).

mod common;

use common::{sized, ClientBodies, ServerBodies, HEADER};
use fe2o3_sasl_proved::*;

const MECHANISMS: u8 = 0x40;
const INIT: u8 = 0x41;
const CHALLENGE: u8 = 0x42;
const RESPONSE: u8 = 0x43;
const OUTCOME: u8 = 0x44;
const NULL: &[u8] = &[0x40];

/// The salt of the example in RFC 7677.
const SALT: [u8; 16] = [0x5b, 0x6d, 0x99, 0x68, 0x9d, 0x12, 0x35, 0x8e, 0xec, 0xa0, 0x4b, 0x14, 0x12, 0x36, 0xfa, 0x81];
const REFUSED: Progress = Progress::Failed(ConnectionError::RefusedAuth);

/// The body of a frame: a described list with these fields.
fn body(code: u8, fields: &[&[u8]]) -> Vec<u8> {
    let data = fields.concat();
    let head = [2, 1, 0, 0, 0, 0x53, code, 0xc0, data.len() as u8 + 1, fields.len() as u8];
    [&head, &data[..]].concat()
}

/// A value of variable width, whose size has one byte.
fn short(constructor: u8, bytes: &[u8]) -> Vec<u8> {
    [&[constructor, bytes.len() as u8], bytes].concat()
}

fn binary(text: &str) -> Vec<u8> {
    short(0xa0, text.as_bytes())
}

fn symbol(name: &str) -> Vec<u8> {
    short(0xa3, name.as_bytes())
}

fn list_of(names: &[&str]) -> Vec<u8> {
    let data: Vec<u8> = names.iter().flat_map(|name| [&[name.len() as u8], name.as_bytes()].concat()).collect();
    let array = [&[0xe0, data.len() as u8 + 2, names.len() as u8, 0xa3], &data[..]].concat();
    body(MECHANISMS, &[&array])
}

/// The body of an init by SCRAM-SHA-256 with this message, in a list whose size and whose count have four bytes.
fn wide_init(message: &str) -> Vec<u8> {
    let (mechanism, size) = (symbol("SCRAM-SHA-256"), (message.len() as u32).to_be_bytes());
    let fields = [&mechanism[..], &[0xb0], &size, message.as_bytes()].concat();
    let list = [&(fields.len() as u32 + 4).to_be_bytes(), &[0, 0, 0, 2], &fields[..]].concat();
    [&[2, 1, 0, 0, 0, 0x53, INIT, 0xd0], &list[..]].concat()
}

fn outcome(code: u8) -> Vec<u8> {
    body(OUTCOME, &[&[0x50, code]])
}

fn record(version: ScramVersion) -> ScramRecord {
    ScramRecord::from_password(version, "pencil", &SALT, 4096).unwrap()
}

type Store = SingleScramCredential;

/// The server of one user, which offers SCRAM with this hash.
fn scram(version: ScramVersion) -> PasswordServer<Store> {
    PasswordServer::new(SingleScramCredential::with_record("user", record(version))).hashes(&[version])
}

/// With all other mechanisms.
fn with_all(server: PasswordServer<Store>) -> PasswordServer<Store> {
    server.plain_under_tls(true).anonymous(true).external("peer")
}

fn server(version: ScramVersion) -> ServerBodies<Store> {
    ServerBodies::new(scram(version))
}

/// A server that answers unknown users like known ones.
fn hiding(version: ScramVersion) -> ServerBodies<Store> {
    ServerBodies::new(scram(version).mock_unknown_users([3; 32], SALT.len(), 4096))
}

fn plain(password: &str) -> SaslProfile {
    SaslProfile::Plain { username: "user".to_owned(), password: password.to_owned() }
}

/// Joins both sides up to the outcome, or to what the client refuses.
fn joined(client: &mut ClientBodies, server: &mut ServerBodies<Store>) -> Result<(), ConnectionError> {
    let mut to_client = server.offer.clone();
    loop {
        let to_server = client.on_frame(&to_client)?;
        if client.progress() != Progress::InProgress {
            assert!(to_server.is_empty());
            return Ok(());
        }
        to_client = server.on_frame(&to_server).unwrap();
    }
}

#[test]
fn a_signature_in_a_challenge() {
    for version in [ScramVersion::Sha1, ScramVersion::Sha256, ScramVersion::Sha512] {
        let server = || ServerBodies::new(scram(version).signature_by_challenge(true));
        let client = |accept| {
            let client = ScramClient::new("user", "pencil", version).signature_by_challenge(accept);
            ClientBodies::new(client, None)
        };
        let (mut accepts, mut side) = (client(true), server());
        assert_eq!((joined(&mut accepts, &mut side), side.authenticated_user().as_deref()), (Ok(()), Some("user")));
        assert!(accepts.keys().is_some());
        let mut rejects = client(false);
        assert_eq!(joined(&mut rejects, &mut server()), Err(ConnectionError::UnexpectedFrame));
        // An outcome without the signature before it, and a response to the signature that is not empty.
        let (mut early, mut side) = (client(true), server());
        let mut to_client = side.offer.clone();
        for _ in 0..2 {
            to_client = side.on_frame(&early.on_frame(&to_client).unwrap()).unwrap();
        }
        assert_eq!((to_client[6], side.authenticated_user()), (CHALLENGE, None));
        let why = early.on_frame(&outcome(0)).unwrap_err();
        assert_eq!(why.scram(), Some(ScramErrorKind::ServerSignatureMismatch));
        assert_eq!(side.on_frame(&body(RESPONSE, &[&binary("v")])), Ok(outcome(1)));
        assert_eq!((side.progress(), side.authenticated_user()), (REFUSED, None));
    }
}

#[test]
fn prepared_passwords() {
    let password = saslprep("pe\u{301}ncil", Unassigned::Refused).unwrap();
    let record = ScramRecord::from_password(ScramVersion::Sha256, Password::Prepared(&password), &SALT, 4096).unwrap();
    let credential = SingleScramCredential::with_record("user", record);
    let server = || ServerBodies::new(PasswordServer::new(credential.clone()));
    let client = ScramClient::with_password("user", Password::Prepared(&password), ScramVersion::Sha256);
    let (mut side, mut other) = (ClientBodies::new(client, None), server());
    assert_eq!(joined(&mut side, &mut other), Ok(()));
    assert_eq!((side.progress(), other.authenticated_user().as_deref()), (Progress::Authenticated, Some("user")));
}

#[test]
fn logins_by_scram() {
    for version in [ScramVersion::Sha1, ScramVersion::Sha256, ScramVersion::Sha512] {
        let mut side = server(version);
        assert_eq!(side.offer, list_of(&[version.mechanism()]));
        let mut client = ClientBodies::new(ScramClient::new("user", "pencil", version), None);
        assert_eq!((joined(&mut client, &mut side), side.authenticated_user().as_deref()), (Ok(()), Some("user")));
        assert_eq!((client.progress(), side.progress()), (Progress::Authenticated, Progress::Authenticated));

        let keys = client.keys().unwrap();
        let mut by_keys = ClientBodies::new(ScramClient::with_keys("user", keys), None);
        assert_eq!(joined(&mut by_keys, &mut server(version)), Ok(()));
        assert_eq!(by_keys.progress(), Progress::Authenticated);

        let sides = || [server(version), hiding(version)];
        let strangers = [("user", "pencils"), ("nobody", "pencil")];
        for ((user, password), mut side) in strangers.into_iter().flat_map(|who| sides().map(|side| (who, side))) {
            let mut client = ClientBodies::new(ScramClient::new(user, password, version), None);
            assert_eq!(joined(&mut client, &mut side), Ok(()));
            assert_eq!((client.progress(), side.progress(), side.authenticated_user()), (REFUSED, REFUSED, None));
            assert!(client.keys().is_none());
        }
    }
}

#[test]
fn other_mechanisms() {
    let asked = |name: &str, response: &[u8]| body(INIT, &[&symbol(name), response, &short(0xa1, b"host")]);
    for (profile, init, progress, user) in [
        (plain("pencil"), asked("PLAIN", &binary("\0user\0pencil")), Progress::Authenticated, Some("user")),
        (plain("pencils"), asked("PLAIN", &binary("\0user\0pencils")), REFUSED, None),
        (SaslProfile::Anonymous, asked("ANONYMOUS", NULL), Progress::Authenticated, None),
        (SaslProfile::External, asked("EXTERNAL", NULL), Progress::Authenticated, Some("peer")),
        (
            SaslProfile::ExternalAs("peer".to_owned()),
            asked("EXTERNAL", &binary("peer")),
            Progress::Authenticated,
            Some("peer"),
        ),
        (SaslProfile::ExternalAs("other".to_owned()), asked("EXTERNAL", &binary("other")), REFUSED, None),
    ] {
        let mut side = ServerBodies::new(with_all(scram(ScramVersion::Sha256)));
        let mut client = ClientBodies::new(profile, Some("host"));
        let sent = client.on_frame(&side.offer).unwrap();
        assert_eq!(sent, init);
        let reply = side.on_frame(&sent).unwrap();
        assert_eq!(reply, outcome(u8::from(progress == REFUSED)));
        assert_eq!((client.on_frame(&reply), client.progress()), (Ok(Vec::new()), progress));
        assert_eq!((side.progress(), side.authenticated_user().as_deref()), (progress, user));
    }
}

#[test]
fn external_without_a_peer() {
    let init = body(INIT, &[&symbol("EXTERNAL"), NULL, &short(0xa1, b"host")]);
    for peer in [None, Some("")] {
        let named = |server: PasswordServer<Store>| if let Some(peer) = peer { server.external(peer) } else { server };
        let others = scram(ScramVersion::Sha256).plain_under_tls(true).anonymous(true);
        let mut side = ServerBodies::new(named(others));
        assert_eq!(side.offer, list_of(&["SCRAM-SHA-256", "PLAIN", "ANONYMOUS"]));
        assert_eq!(side.on_frame(&init), Ok(outcome(1)));
        assert_eq!((side.progress(), side.authenticated_user()), (REFUSED, None));
        let mut alone = ServerNegotiation::new(named(scram(ScramVersion::Sha256).hashes(&[])));
        assert_eq!(alone.receive(HEADER), Err(ConnectionError::NoSuchMechanism));
    }
}

#[test]
fn a_server_without_the_verifier_is_not_believed() {
    let true_record = record(ScramVersion::Sha256);
    let stored = true_record.as_stored_password();
    let other = StoredPassword { server_key: &[0; 32], ..stored };
    let credential =
        SingleScramCredential::with_record("user", ScramRecord::from_parts(ScramVersion::Sha256, &other).unwrap());
    let mut side = ServerBodies::new(PasswordServer::new(credential));
    let mut client = ClientBodies::new(ScramClient::new("user", "pencil", ScramVersion::Sha256), None);
    let why = joined(&mut client, &mut side).unwrap_err();
    assert_eq!(why.scram(), Some(ScramErrorKind::ServerSignatureMismatch));
    assert_eq!(client.progress(), Progress::Failed(why));
    assert!(client.keys().is_none());
}

#[test]
fn refusals_of_a_client() {
    let scram = || ClientBodies::new(ScramClient::new("user", "pencil", ScramVersion::Sha256), None);
    let challenge = body(CHALLENGE, &[&binary("r=x,s=AAAA,i=4096")]);
    for (came, why) in [
        (outcome(0), ConnectionError::UnexpectedFrame),
        (challenge.clone(), ConnectionError::UnexpectedFrame),
        (body(RESPONSE, &[&binary("c=biws")]), ConnectionError::UnexpectedFrame),
        (list_of(&["PLAIN"]), ConnectionError::NotImplemented),
        (vec![2, 1, 0, 0], ConnectionError::MalformedFrame),
        (vec![2, 0, 0, 0, 0, 0x53, 0x44, 0xc0, 3, 1, 0x50, 0], ConnectionError::NoSaslFrame),
    ] {
        assert_eq!(scram().on_frame(&came), Err(why), "{:?}", came);
    }
    let mut begun = scram();
    begun.on_frame(&list_of(&["SCRAM-SHA-256"])).unwrap();
    let why = begun.on_frame(&challenge).unwrap_err();
    assert_eq!(why.scram(), Some(ScramErrorKind::ClientNonceMismatch));
    let mut begun = scram();
    begun.on_frame(&list_of(&["SCRAM-SHA-256"])).unwrap();
    begun.on_frame(&outcome(4)).unwrap();
    assert_eq!(begun.progress(), Progress::Failed(ConnectionError::RefusedSysTemp));

    let long = ScramClient::new("u".repeat(500), "pencil", ScramVersion::Sha256);
    let offer = list_of(&["SCRAM-SHA-256"]);
    assert_eq!(ClientBodies::new(long, None).on_frame(&offer), Err(ConnectionError::ReplyTooLarge));
}

#[test]
fn refusals_of_a_server() {
    let server = || server(ScramVersion::Sha256);
    for (came, why) in [
        (outcome(0), ConnectionError::UnexpectedFrame),
        (body(RESPONSE, &[&binary("c=biws")]), ConnectionError::UnexpectedFrame),
        (vec![2, 1, 0, 0], ConnectionError::MalformedFrame),
        (wide_init(&format!("n,,n=user,r={}", "x".repeat(420))), ConnectionError::ReplyTooLarge),
    ] {
        assert_eq!(server().on_frame(&came), Err(why));
    }
    let mut side = hiding(ScramVersion::Sha256);
    let name = wide_init(&format!("n,,n={},r=x", "u".repeat(257)));
    assert_eq!(side.on_frame(&name), Err(ConnectionError::TooLong));
    // That call has changed nothing.
    let nobody = body(INIT, &[&symbol("ANONYMOUS")]);
    assert_eq!((side.on_frame(&nobody), side.progress()), (Ok(outcome(1)), REFUSED));
}

#[test]
fn no_debug_shows_a_secret() {
    // What is sent by PLAIN holds the password, and so each of its bytes in a row.
    let secret = |text: &str| format!("{:?}", text.as_bytes()).trim_matches(&['[', ']'][..]).to_owned();
    let mut client = ClientNegotiation::new(plain("pencil"), None);
    let received = client.receive(&[HEADER, &sized(&list_of(&["PLAIN"]))].concat()).unwrap();
    assert!(format!("{:?}", received.sent).contains(&secret("pencil")));
    let mut side = ServerNegotiation::new(with_all(scram(ScramVersion::Sha256)));
    let reply = side.receive(&[HEADER, &received.sent].concat()).unwrap();
    let shown = format!("{received:?} {reply:?} {client:?} {side:?} {:?}", plain("pencil"));
    assert!(!shown.contains(&secret("pencil")) && !shown.contains("pencil"));
    assert!(!shown.contains('['), "{}", shown);
}

#[test]
fn all_of_it_may_go_to_another_thread() {
    fn may<T: Send + Sync>() {}
    may::<ClientNegotiation>();
    may::<ServerNegotiation<Store>>();
}
