//! Logins over the bytes of a connection, against frames that are written here (AMQP 1.0, part 5, section 5.3.3).

use fe2o3_sasl_proved::*;
use std::collections::HashMap;

const HEADER: &[u8] = b"AMQP\x03\x01\x00\x00";
const INIT: u8 = 0x41;
const CHALLENGE: u8 = 0x42;
const RESPONSE: u8 = 0x43;
const OUTCOME: u8 = 0x44;

/// A frame of a described list with these fields.
fn frame(code: u8, fields: &[&[u8]]) -> Vec<u8> {
    let data = fields.concat();
    let mut body = vec![2, 1, 0, 0, 0, 0x53, code, 0xc0, data.len() as u8 + 1, fields.len() as u8];
    body.extend(data);
    let mut whole = (body.len() as u32 + 4).to_be_bytes().to_vec();
    whole.extend(body);
    whole
}

fn binary(bytes: &[u8]) -> Vec<u8> {
    [&[0xa0, bytes.len() as u8], bytes].concat()
}

/// The header of a server, and a list of one mechanism.
fn offer(name: &str) -> Vec<u8> {
    let names = [&[0xe0, name.len() as u8 + 3, 1, 0xa3, name.len() as u8], name.as_bytes()].concat();
    [HEADER, &frame(0x40, &[&names])].concat()
}

/// The fields of a frame that the client sent: the bytes of each, and `None` for null.
fn fields(frame: &[u8]) -> Vec<Option<Vec<u8>>> {
    assert_eq!(frame[..4], (frame.len() as u32).to_be_bytes());
    assert_eq!(frame[11], 0xc0);
    let (mut rest, mut found) = (&frame[14..], Vec::new());
    while let [constructor, after @ ..] = rest {
        if *constructor == 0x40 {
            found.push(None);
            rest = after;
        } else {
            let len = after[0] as usize;
            found.push(Some(after[1..=len].to_vec()));
            rest = &after[1 + len..];
        }
    }
    found
}

fn server(version: ScramVersion) -> ScramAuthenticator<SingleScramCredential> {
    ScramAuthenticator::new(SingleScramCredential::new("user", "pencil", version).unwrap())
}

/// A server of one user, which offers SCRAM with this hash.
fn offering(version: ScramVersion) -> PasswordServer<SingleScramCredential> {
    PasswordServer::new(SingleScramCredential::new("user", "pencil", version).unwrap()).hashes(&[version])
}

/// A connection of a client of SCRAM up to its outcome, of which the bytes and some of AMQP's come last.
fn connected(client: ScramClient, version: ScramVersion, mechanism: &str) -> (ClientNegotiation, Received) {
    let mut server = server(version);
    let mut side = ClientNegotiation::new(client, Some("host"));
    let init = side.receive(&offer(mechanism)).unwrap();
    let fields_of_init = fields(&init.sent);
    assert_eq!(fields_of_init[0].as_deref(), Some(mechanism.as_bytes()));
    assert_eq!(fields_of_init[2].as_deref(), Some(&b"host"[..]));
    let challenge = server.compute_server_first_message(fields_of_init[1].as_deref().unwrap()).unwrap().unwrap();
    let response = side.receive(&frame(CHALLENGE, &[&binary(&challenge)])).unwrap();
    let answer = server.compute_server_final_message(fields(&response.sent)[0].as_deref().unwrap());
    let outcome = match answer {
        Ok(Some(message)) => frame(OUTCOME, &[&[0x50, 0], &binary(&message)]),
        _ => frame(OUTCOME, &[&[0x50, 1]]),
    };
    let last = side.receive(&[&outcome[..], b"AMQP"].concat()).unwrap();
    assert_eq!(last.taken, outcome.len());
    (side, last)
}

#[test]
fn logins_by_scram() {
    for (version, mechanism) in [
        (ScramVersion::Sha1, "SCRAM-SHA-1"),
        (ScramVersion::Sha256, "SCRAM-SHA-256"),
        (ScramVersion::Sha512, "SCRAM-SHA-512"),
    ] {
        let (side, last) = connected(ScramClient::new("user", "pencil", version), version, mechanism);
        assert_eq!((side.progress(), last.sent.len()), (Progress::Authenticated, 0));
        assert!(side.keys().is_some());
        let (side, _) = connected(ScramClient::new("user", "pencils", version), version, mechanism);
        assert_eq!(side.progress(), Progress::Failed(ConnectionError::RefusedAuth));
        assert!(side.keys().is_none());
    }
}

#[test]
fn other_mechanisms() {
    let plain = SaslProfile::Plain { username: "user".to_owned(), password: "pencil".to_owned() };
    for (profile, name, says) in [
        (plain, "PLAIN", Some(b"\0user\0pencil".to_vec())),
        (SaslProfile::Anonymous, "ANONYMOUS", None),
        (SaslProfile::External, "EXTERNAL", None),
    ] {
        let mut side = ClientNegotiation::new(profile, None);
        let init = fields(&side.receive(&offer(name)).unwrap().sent);
        assert_eq!((init[0].as_deref(), init.get(1).cloned().flatten()), (Some(name.as_bytes()), says));
        side.receive(&frame(OUTCOME, &[&[0x50, 0]])).unwrap();
        assert_eq!(side.progress(), Progress::Authenticated);
    }
}

#[test]
fn a_message_that_is_asked_for() {
    for (profile, name, says) in [
        (SaslProfile::ExternalAs(String::new()), "EXTERNAL", &b""[..]),
        (SaslProfile::AnonymousAs("me@example.org".to_owned()), "ANONYMOUS", b"me@example.org"),
    ] {
        let mut side = ClientNegotiation::new(profile, None);
        let init = fields(&side.receive(&offer(name)).unwrap().sent);
        assert_eq!((init[0].as_deref(), init[1].as_deref()), (Some(name.as_bytes()), Some(says)));
        let response = fields(&side.receive(&frame(CHALLENGE, &[&binary(b"")])).unwrap().sent);
        assert_eq!(response[0].as_deref(), Some(says));
        side.receive(&frame(OUTCOME, &[&[0x50, 0]])).unwrap();
        assert_eq!(side.progress(), Progress::Authenticated);
    }
}

#[test]
fn a_byte_at_a_time() {
    let mut side = ClientNegotiation::new(SaslProfile::Anonymous, None);
    let mut sent = Vec::new();
    for byte in offer("ANONYMOUS") {
        let received = side.receive(&[byte]).unwrap();
        assert_eq!(received.taken, 1);
        sent.extend(received.sent);
    }
    assert_eq!(fields(&sent)[0].as_deref(), Some(&b"ANONYMOUS"[..]));
}

#[test]
fn refusals() {
    let side = || ClientNegotiation::new(ScramClient::new("user", "pencil", ScramVersion::Sha256), None);
    for (bytes, why) in [
        (b"AMQP\0\x01\0\0".to_vec(), ConnectionError::ProtocolHeaderMismatch),
        ([HEADER, &[0, 0, 2, 1]].concat(), ConnectionError::FrameSize),
        (offer("PLAIN"), ConnectionError::NotImplemented),
        ([HEADER, &frame(OUTCOME, &[&[0x50, 0]])].concat(), ConnectionError::UnexpectedFrame),
    ] {
        let mut side = side();
        assert!(side.receive(&bytes).unwrap().sent.is_empty());
        assert_eq!(side.progress(), Progress::Failed(why));
        assert!(!why.to_string().is_empty() && why.scram().is_none());
        // what has ended takes nothing
        assert_eq!(side.receive(b"bytes"), Ok(Received { taken: 0, sent: Vec::new() }));
    }
    let mut side = side();
    side.receive(&offer("SCRAM-SHA-256")).unwrap();
    side.receive(&frame(CHALLENGE, &[&binary(b"r=x,s=AAAA,i=4096")])).unwrap();
    let Progress::Failed(why) = side.progress() else { panic!("the challenge is refused") };
    assert_eq!(why.scram(), Some(ScramErrorKind::ClientNonceMismatch));
}

fn joined<R: UserRecords + Clone>(client: &mut ClientNegotiation, server: &mut ServerNegotiation<R>) {
    let mut to_server = ClientNegotiation::open();
    while !to_server.is_empty() {
        let answer = server.receive(&to_server).unwrap().sent;
        to_server = client.receive(&answer).unwrap().sent;
    }
}

#[test]
fn both_sides() {
    let plain = |password: &str| SaslProfile::Plain { username: "user".to_owned(), password: password.to_owned() };
    let scram = |password: &str| ScramClient::new("user", password, ScramVersion::Sha256).into();
    let refused = Progress::Failed(ConnectionError::RefusedAuth);
    for (profile, progress, user) in [
        (scram("pencil"), Progress::Authenticated, Some("user")),
        (plain("pencil"), Progress::Authenticated, Some("user")),
        (SaslProfile::External, Progress::Authenticated, Some("peer")),
        (SaslProfile::Anonymous, Progress::Authenticated, None),
        (scram("pencils"), refused, None),
        (plain("pencils"), refused, None),
    ] {
        let mut client = ClientNegotiation::new(profile, None);
        let all = offering(ScramVersion::Sha256).plain_under_tls(true).anonymous(true).external("peer");
        let mut side = ServerNegotiation::new(all);
        joined(&mut client, &mut side);
        assert_eq!((client.progress(), side.progress()), (progress, progress));
        assert_eq!(side.authenticated_user().as_deref(), user);
    }
}

/// The frames of an init without its initial response, and of the response that is its initial response.
fn withheld(init: &[u8]) -> (Vec<u8>, Vec<u8>) {
    let found = fields(init);
    let [Some(name), Some(message), Some(host)] = &found[..] else { panic!("an init of three fields") };
    let value = |constructor: u8, bytes: &[u8]| [&[constructor, bytes.len() as u8], bytes].concat();
    let late = frame(INIT, &[&value(0xa3, name), &[0x40], &value(0xa1, host)]);
    (late, frame(RESPONSE, &[&binary(message)]))
}

/// A connection of a client that withholds its initial response until the server asks for it. The server is saved
/// before the response, of which it takes a byte at a time.
fn joined_late(
    client: &mut ClientNegotiation,
    server: PasswordServer<SingleScramCredential>,
) -> ServerNegotiation<SingleScramCredential> {
    let mut side = ServerNegotiation::new(server);
    let offer = side.receive(&ClientNegotiation::open()).unwrap().sent;
    let (init, response) = withheld(&client.receive(&offer).unwrap().sent);
    assert_eq!(side.receive(&init).unwrap().sent, frame(CHALLENGE, &[&binary(b"")]));
    assert_eq!((side.progress(), side.authenticated_user()), (Progress::InProgress, None));
    let mut again = side.clone();
    again.receive(&init).unwrap();
    assert_eq!(again.progress(), Progress::Failed(ConnectionError::UnexpectedFrame));
    let mut side = side.clone();
    let mut to_client = Vec::new();
    for byte in response {
        to_client.extend(side.receive(&[byte]).unwrap().sent);
    }
    while !to_client.is_empty() {
        let to_server = client.receive(&to_client).unwrap().sent;
        to_client = side.receive(&to_server).unwrap().sent;
    }
    side
}

#[test]
fn clients_that_withhold_their_initial_response() {
    let plain = |password: &str| SaslProfile::Plain { username: "user".to_owned(), password: password.to_owned() };
    for version in [ScramVersion::Sha1, ScramVersion::Sha256, ScramVersion::Sha512] {
        let scram = |user: &str, password: &str| SaslProfile::from(ScramClient::new(user, password, version));
        let server = offering(version).plain_under_tls(true);
        for (profile, user) in [
            (scram("user", "pencil"), Some("user")),
            (plain("pencil"), Some("user")),
            (scram("user", "pencils"), None),
            (scram("nobody", "pencil"), None),
            (plain("pencils"), None),
        ] {
            let mut client = ClientNegotiation::new(profile.clone(), Some("host"));
            let side = joined_late(&mut client, server.clone().initial_response_by_challenge(true));
            let refused = Progress::Failed(ConnectionError::RefusedAuth);
            let progress = if user.is_some() { Progress::Authenticated } else { refused };
            assert_eq!((client.progress(), side.progress()), (progress, progress));
            assert_eq!(side.authenticated_user().as_deref(), user);
            // without the option the init is rejected
            let mut client = ClientNegotiation::new(profile, Some("host"));
            let mut side = ServerNegotiation::new(server.clone());
            let offer = side.receive(&ClientNegotiation::open()).unwrap().sent;
            let (init, _) = withheld(&client.receive(&offer).unwrap().sent);
            assert_eq!(side.receive(&init).unwrap().sent, frame(OUTCOME, &[&[0x50, 1]]));
            assert_eq!(side.progress(), refused);
        }
    }
}

/// A client that could bind a channel, apart from the library: its init alone, since a proof takes hashes.
#[test]
fn a_client_that_could_bind_a_channel() {
    let init = frame(0x41, &[b"\xa3\x0dSCRAM-SHA-256", &binary(b"y,,n=user,r=x")]);
    let came = [HEADER, &init].concat();
    let mut side = ServerNegotiation::new(offering(ScramVersion::Sha256));
    side.receive(&came).unwrap();
    assert_eq!(side.progress(), Progress::Failed(ConnectionError::RefusedAuth));
    let mut side = ServerNegotiation::new(offering(ScramVersion::Sha256).accept_cbind_flag_y());
    let sent = side.receive(&came).unwrap().sent;
    assert_eq!(side.progress(), Progress::InProgress);
    let challenge = fields(&sent[offer("SCRAM-SHA-256").len()..]);
    assert!(challenge[0].as_deref().unwrap().starts_with(b"r=x"));
    let mut side = ServerNegotiation::new(offering(ScramVersion::Sha256).accept_cbind_flag_y().hashes(&[]));
    assert_eq!(side.receive(HEADER), Err(ConnectionError::NoSuchMechanism));
}

/// An attribute in the place of an extension: `i` is one of RFC 5802, and `x` is not.
#[test]
fn strict_servers() {
    let refused = Progress::Failed(ConnectionError::RefusedAuth);
    for (is_strict, extension, progress) in
        [(false, "i=4096", Progress::InProgress), (true, "i=4096", refused), (true, "x=1", Progress::InProgress)]
    {
        let init = frame(0x41, &[b"\xa3\x0dSCRAM-SHA-256", &binary(format!("n,,n=user,r=x,{extension}").as_bytes())]);
        for server in [
            offering(ScramVersion::Sha256).reject_misplaced(false).strict(is_strict),
            offering(ScramVersion::Sha256).reject_misplaced(is_strict),
        ] {
            let mut side = ServerNegotiation::new(server);
            let sent = side.receive(&[HEADER, &init].concat()).unwrap().sent;
            assert_eq!(side.progress(), progress, "{is_strict} {extension}");
            assert_eq!(sent.ends_with(&frame(OUTCOME, &[&[0x50, 1]])), progress == refused);
        }
    }
}

/// A frame with this data offset, in words of four bytes, and these bytes between its header and the list (AMQP 1.0, part
/// 2, section 2.3.1).
fn extended(data_offset: u8, header: &[u8], frame: &[u8]) -> Vec<u8> {
    let size = (frame.len() + header.len()) as u32;
    [&size.to_be_bytes(), &[data_offset, 1, 0, 0], header, &frame[8..]].concat()
}

/// Data offsets: the frame's extended header, and whether it is read without it.
const OFFSETS: [(u8, &[u8], bool); 5] = [
    (3, &[0xde, 0xad, 0xbe, 0xef], true),
    (4, &[0, 0x53, 0x41, 0xc0, 0, 0, 0, 10], true),
    (2, &[0xde, 0xad, 0xbe, 0xef], false),
    (1, &[], false),
    (10, &[], false),
];

#[test]
fn servers_of_extended_headers() {
    let init = frame(INIT, &[b"\xa3\x05PLAIN", &binary(b"\0user\0pencil")]);
    assert_eq!(init.len(), 35);
    for (data_offset, header, is_read) in OFFSETS {
        let came = extended(data_offset, header, &init);
        let closed = if data_offset == 2 { ConnectionError::MalformedFrame } else { ConnectionError::NoSaslFrame };
        for accepts in [false, true] {
            let server = offering(ScramVersion::Sha256).plain_under_tls(true);
            let mut side = ServerNegotiation::new(server);
            side.accept_extended_headers(!accepts);
            side.accept_extended_headers(accepts);
            side.receive(&[HEADER, &came[..9]].concat()).unwrap();
            let frame = side.peek_frame(&came[9..]);
            side.receive(&came[9..]).unwrap();
            if accepts && is_read {
                assert!(matches!(frame, Ok(Some(Frame::Init { .. }))));
                assert_eq!(side.progress(), Progress::Authenticated);
                assert_eq!(side.authenticated_user().as_deref(), Some("user"));
                assert_eq!(side.last_attempt().unwrap().claimed_user.as_deref(), Some("user"));
            } else {
                assert_eq!(frame.unwrap_err(), closed);
                assert_eq!(side.progress(), Progress::Failed(closed));
                assert!(side.last_attempt().is_none());
            }
        }
    }
}

#[test]
fn clients_of_extended_headers() {
    let refusal = frame(OUTCOME, &[&[0x50, 1], &binary(b"hi")]);
    for (data_offset, header, is_read) in OFFSETS {
        let came = [HEADER, &extended(data_offset, header, &offer("PLAIN")[8..])].concat();
        let plain = SaslProfile::plain_checked("user", "pencil").unwrap();
        let policy = ClientPolicy::scram("user", "pencil").or(plain.clone());
        let sides = [ClientNegotiation::new(plain, None), ClientNegotiation::select(policy, None)];
        for mut side in sides {
            let mut other = side.clone();
            other.receive(&came).unwrap();
            assert!(matches!(other.progress(), Progress::Failed(_)));
            side.accept_extended_headers(true);
            let sent = side.receive(&came).unwrap().sent;
            if is_read {
                assert_eq!(fields(&sent)[1].as_deref(), Some(&b"\0user\0pencil"[..]));
                side.receive(&extended(data_offset, header, &refusal)).unwrap();
                assert_eq!(side.progress(), Progress::Failed(ConnectionError::RefusedAuth));
                assert_eq!(side.refusal_data(), Some(&b"hi"[..]));
            } else {
                assert!(sent.is_empty() && matches!(side.progress(), Progress::Failed(_)));
            }
        }
    }
}

/// RFC 4616, section 2: a user name and a password of one or more characters, of which none is NUL.
#[test]
fn plain_words() {
    for (username, password, why) in [
        ("", "pencil", PlainError::NamesNoUser),
        ("user", "", PlainError::EmptyPassword),
        ("us\0er", "pencil", PlainError::ProhibitedCharacter),
        ("user", "pencil\0", PlainError::ProhibitedCharacter),
    ] {
        assert_eq!(SaslProfile::plain_checked(username, password).unwrap_err(), why);
    }
    let checked = SaslProfile::plain_checked("user", "pencil").unwrap();
    assert!(matches!(checked, SaslProfile::Plain { username, password } if username == "user" && password == "pencil"));
    let plain = SaslProfile::Plain { username: String::new(), password: String::new() };
    let sent = ClientNegotiation::new(plain, None).receive(&offer("PLAIN")).unwrap().sent;
    assert_eq!(fields(&sent)[1].as_deref(), Some(&[0, 0][..]));
}

#[test]
fn a_server_that_offers_nothing() {
    let mut side = ServerNegotiation::new(offering(ScramVersion::Sha1).hashes(&[]));
    assert_eq!(side.receive(HEADER), Err(ConnectionError::NoSuchMechanism));
    let mut side = ServerNegotiation::new(offering(ScramVersion::Sha1));
    assert!(side.receive(b"AMQP\0\x01\0\0").unwrap().sent.starts_with(HEADER));
    assert_eq!(side.progress(), Progress::Failed(ConnectionError::ProtocolHeaderMismatch));
}

/// RFC 4013, section 3: two of these texts are prepared to `IX`, and one mixes directions.
#[test]
fn plain_passwords() {
    let record = ScramRecord::from_password(ScramVersion::Sha256, "IX", &[1; 16], 4096).unwrap();
    let server = PasswordServer::new(HashMap::from([("user".to_owned(), vec![record])])).plain_under_tls(true);
    let refused = Progress::Failed(ConnectionError::RefusedAuth);
    for (passwords, password, progress) in [
        (PlainPasswords::Typed, "IX", Progress::Authenticated),
        (PlainPasswords::Typed, "I\u{ad}X", refused),
        (PlainPasswords::Prepared, "IX", Progress::Authenticated),
        (PlainPasswords::Prepared, "I\u{ad}X", refused),
        (PlainPasswords::Saslprep, "I\u{ad}X", Progress::Authenticated),
        (PlainPasswords::Saslprep, "\u{2168}", Progress::Authenticated),
        (PlainPasswords::Saslprep, "\u{ad}", refused),
        (PlainPasswords::Saslprep, "\u{627}1", refused),
    ] {
        let profile = SaslProfile::Plain { username: "user".to_owned(), password: password.to_owned() };
        let mut client = ClientNegotiation::new(profile, None);
        // (a later call replaces the form of an earlier one)
        let other = server.clone().plain_passwords(PlainPasswords::Prepared);
        let mut side = ServerNegotiation::new(other.plain_passwords(passwords));
        joined(&mut client, &mut side);
        assert_eq!((client.progress(), side.progress()), (progress, progress), "{passwords:?} {password:?}");
    }
}

/// A user of two hashes, at a server that offers three and PLAIN.
#[test]
fn a_server_of_several_hashes() {
    let hashes = [ScramVersion::Sha512, ScramVersion::Sha256, ScramVersion::Sha1];
    let record = |version| ScramRecord::from_password(version, "pencil", &[1; 16], 4096).unwrap();
    let records = HashMap::from([("user".to_owned(), vec![record(hashes[1]), record(hashes[0])])]);
    let server = PasswordServer::new(records).hashes(&hashes).mock_unknown_users([3; 32], 16, 4096);
    let refused = Progress::Failed(ConnectionError::RefusedAuth);
    let scram = |user: &str, password: &str, version| ScramClient::new(user, password, version).into();
    let plain = |password: &str| SaslProfile::Plain { username: "user".to_owned(), password: password.to_owned() };
    for (profile, progress) in [
        (scram("user", "pencil", hashes[0]), Progress::Authenticated),
        (scram("user", "pencil", hashes[1]), Progress::Authenticated),
        (scram("user", "pencil", hashes[2]), refused),
        (scram("user", "pencils", hashes[0]), refused),
        (scram("nobody", "pencil", hashes[0]), refused),
        (plain("pencil"), Progress::Authenticated),
        (plain("pencils"), refused),
    ] {
        let mut client = ClientNegotiation::new(profile, None);
        let mut side = ServerNegotiation::new(server.clone().plain_under_tls(true));
        joined(&mut client, &mut side);
        assert_eq!((client.progress(), side.progress()), (progress, progress));
    }
    let mut side = ServerNegotiation::new(server);
    let offered = side.receive(HEADER).unwrap().sent;
    let names = hashes.map(|version| version.mechanism());
    assert!(names.iter().all(|name| offered.windows(name.len()).any(|part| part == name.as_bytes())));
    assert!(offered.windows(5).all(|part| part != b"PLAIN"));
}
