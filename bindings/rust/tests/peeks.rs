//! What a side of a connection says between its calls, and clients that select, against frames that are written here
//! (AMQP 1.0, part 5, section 5.3.3).

use fe2o3_sasl_proved::*;
use std::collections::HashMap;

const HEADER: &[u8] = b"AMQP\x03\x01\x00\x00";
const NULL: &[u8] = &[0x40];
const ENDED: Progress = Progress::Failed(ConnectionError::EndOfInput);

/// A frame of a described list with these fields.
fn frame(code: u8, fields: &[&[u8]]) -> Vec<u8> {
    let data = fields.concat();
    let head = [2, 1, 0, 0, 0, 0x53, code, 0xc0, data.len() as u8 + 1, fields.len() as u8];
    [&(data.len() as u32 + 14).to_be_bytes()[..], &head, &data].concat()
}

fn short(constructor: u8, bytes: &[u8]) -> Vec<u8> {
    [&[constructor, bytes.len() as u8], bytes].concat()
}

fn mechanisms(names: &[&str]) -> Vec<u8> {
    let data: Vec<u8> = names.iter().flat_map(|name| [&[name.len() as u8], name.as_bytes()].concat()).collect();
    frame(0x40, &[&[&[0xe0, data.len() as u8 + 2, names.len() as u8, 0xa3], &data[..]].concat()])
}

fn init(mechanism: &str, response: Option<&[u8]>, hostname: &str) -> Vec<u8> {
    let response = response.map_or(NULL.to_vec(), |bytes| short(0xa0, bytes));
    frame(0x41, &[&short(0xa3, mechanism.as_bytes()), &response, &short(0xa1, hostname.as_bytes())])
}

fn outcome(code: u8, data: Option<&[u8]>) -> Vec<u8> {
    frame(0x44, &[&[0x50, code], &data.map_or(NULL.to_vec(), |bytes| short(0xa0, bytes))])
}

fn plain() -> SaslProfile {
    SaslProfile::Plain { username: "user".to_owned(), password: "pencil".to_owned() }
}

/// A server of one user, whose record has one iteration.
fn server() -> PasswordServer<HashMap<String, Vec<ScramRecord>>> {
    let record = ScramRecord::from_password(ScramVersion::Sha256, "pencil", &[1; 16], 1).unwrap();
    PasswordServer::new(HashMap::from([("user".to_owned(), vec![record])])).plain_under_tls(true)
}

#[test]
fn the_other_side_ends() {
    let mut client = ClientNegotiation::new(SaslProfile::Anonymous, None);
    let mut side = ServerNegotiation::new(server());
    client.receive(&HEADER[..5]).unwrap();
    side.receive(&HEADER[..5]).unwrap();
    for _ in 0..2 {
        client.end_of_input();
        side.end_of_input();
        assert_eq!((client.progress(), side.progress()), (ENDED, ENDED));
        assert_eq!((client.foreign_header(), side.foreign_header()), (None, None));
        assert_eq!(client.receive(HEADER), Ok(Received { taken: 0, sent: Vec::new() }));
    }
    let mut client = ClientNegotiation::new(SaslProfile::Anonymous, None);
    client.receive(&[HEADER, &mechanisms(&["ANONYMOUS"]), &outcome(0, None)].concat()).unwrap();
    client.end_of_input();
    assert_eq!(client.progress(), Progress::Authenticated);
}

#[test]
fn a_foreign_header() {
    for header in [b"AMQP\0\x01\0\0", b"GET / HT"] {
        let mut client = ClientNegotiation::new(SaslProfile::Anonymous, None);
        let mut side = ServerNegotiation::new(server());
        for byte in header {
            assert_eq!((client.foreign_header(), side.foreign_header()), (None, None));
            client.receive(&[*byte]).unwrap();
            side.receive(&[*byte]).unwrap();
        }
        let failed = Progress::Failed(ConnectionError::ProtocolHeaderMismatch);
        assert_eq!((client.progress(), side.progress()), (failed, failed));
        assert_eq!((client.foreign_header(), side.foreign_header()), (Some(*header), Some(*header)));
    }
    let mut client = ClientNegotiation::new(SaslProfile::Anonymous, None);
    client.receive(&[HEADER, &[0, 0, 2, 1]].concat()).unwrap();
    assert_eq!((client.progress(), client.foreign_header()), (Progress::Failed(ConnectionError::FrameSize), None));
}

#[test]
fn nonces_that_are_wanted() {
    let client = ScramClient::new("user", "pencil", ScramVersion::Sha256).with_min_iterations(1);
    let mut client = ClientNegotiation::new(client, None);
    let mut side = ServerNegotiation::new(server());
    let (mut wanted, mut to_server) = (Vec::new(), ClientNegotiation::open());
    while !to_server.is_empty() {
        wanted.push(side.wants_nonce());
        let to_client = side.receive(&to_server).unwrap().sent;
        let (header, frame) = to_client.split_at(if wanted.len() == 1 { 8 } else { 0 });
        client.receive(header).unwrap();
        wanted.push(client.wants_nonce());
        to_server = client.receive(frame).unwrap().sent;
    }
    assert_eq!((client.progress(), side.progress()), (Progress::Authenticated, Progress::Authenticated));
    assert_eq!(wanted, [false, true, true, false, false, false]);
}

#[test]
fn a_frame_is_peeked() {
    let offer = mechanisms(&["PLAIN", "ANONYMOUS"]);
    let mut client = ClientNegotiation::new(SaslProfile::Anonymous, None);
    assert_eq!(client.peek_frame(&[HEADER, &offer].concat()), Ok(None));
    client.receive(&[HEADER, &offer[..3]].concat()).unwrap();
    assert_eq!(client.peek_frame(&offer[3..offer.len() - 1]), Ok(None));
    for _ in 0..2 {
        let behind = [&offer[3..], b"more"].concat();
        assert_eq!(client.peek_frame(&behind), Ok(Some(Frame::Mechanisms { count: 2 })));
    }
    assert_eq!(offers(&offer[4..], "PLAIN"), Ok(true));
    assert_eq!(offers(&offer[4..], "EXTERNAL"), Ok(false));
    assert!(!client.receive(&offer[3..]).unwrap().sent.is_empty());
    let refused = outcome(1, Some(b"why"));
    let says = Frame::Outcome { code: 1, additional_data: Some(b"why".to_vec()) };
    assert_eq!(client.peek_frame(&refused), Ok(Some(says)));
    assert_eq!(offers(&refused[4..], "PLAIN"), Err(ConnectionError::UnexpectedFrame));
    assert_eq!(client.peek_frame(&[0, 0, 0, 8, 2, 1, 0, 0]), Err(ConnectionError::MalformedFrame));
    client.receive(&refused).unwrap();
    assert_eq!(client.peek_frame(&refused), Err(ConnectionError::Ended));

    let mut side = ServerNegotiation::new(server());
    side.receive(HEADER).unwrap();
    let frame = side.peek_frame(&init("PLAIN", Some(b"\0user\0pencil"), "host")).unwrap().unwrap();
    assert!(!format!("{frame:?}").contains("pencil"));
    let (mechanism, hostname) = ("PLAIN".to_owned(), Some("host".to_owned()));
    let initial_response = Some(b"\0user\0pencil".to_vec());
    assert_eq!(frame, Frame::Init { mechanism, initial_response, hostname });
}

#[test]
fn the_data_of_a_refusal() {
    let offer = [HEADER, &mechanisms(&["ANONYMOUS"])].concat();
    for (code, data, kept) in
        [(1, Some(&b"why"[..]), Some(&b"why"[..])), (4, Some(b""), Some(b"")), (2, None, None), (0, Some(b"why"), None)]
    {
        let mut client = ClientNegotiation::new(SaslProfile::Anonymous, None);
        client.receive(&offer).unwrap();
        for byte in outcome(code, data) {
            assert_eq!(client.refusal_data(), None);
            client.receive(&[byte]).unwrap();
        }
        assert_eq!((client.progress() == Progress::Authenticated, client.refusal_data()), (code == 0, kept));
    }
}

/// The mechanism of an init, or no text if there is none.
fn selected(sent: &[u8]) -> String {
    match view_frame(sent.get(4..).unwrap_or_default()) {
        Ok(Frame::Init { mechanism, .. }) => mechanism,
        _ => String::new(),
    }
}

#[test]
fn the_first_that_is_offered() {
    let all = ["SCRAM-SHA-512", "SCRAM-SHA-256", "SCRAM-SHA-1", "EXTERNAL", "PLAIN", "ANONYMOUS"];
    let policy = ClientPolicy::scram("user", "pencil").or(SaslProfile::External).or(plain());
    for number in 1..64 {
        let offered: Vec<&str> = (0..6).filter(|at| number >> at & 1 == 1).map(|at| all[at]).rev().collect();
        let wanted = all[..5].iter().find(|name| offered.contains(*name)).copied();
        let offer = [HEADER, &mechanisms(&offered)].concat();
        let mut client = ClientNegotiation::select(policy.clone(), None);
        let (first, rest) = offer.split_at(offer.len() - number % 12);
        assert_eq!(client.mechanism(), None);
        let sent = [client.receive(first).unwrap().sent, client.receive(rest).unwrap().sent].concat();
        assert_eq!((client.mechanism(), &selected(&sent)[..]), (wanted, wanted.unwrap_or_default()));
        if wanted.is_none() {
            let rejected = Progress::Failed(ConnectionError::NotImplemented);
            assert_eq!((client.progress(), sent.len()), (rejected, 0));
        }
    }
}

#[test]
fn a_login_of_a_client_that_selects() {
    let client = ScramClient::new("user", "pencil", ScramVersion::Sha256).with_min_iterations(1);
    let mut client = ClientNegotiation::select(ClientPolicy::new(client).or(plain()), None);
    let mut side = ServerNegotiation::new(server());
    let mut to_server = ClientNegotiation::open();
    while !to_server.is_empty() {
        let to_client = side.receive(&to_server).unwrap().sent;
        to_server = client.receive(&to_client).unwrap().sent;
    }
    assert_eq!((client.progress(), client.mechanism()), (Progress::Authenticated, Some("SCRAM-SHA-256")));
    assert!(client.keys().is_some());
    let mut client = ClientNegotiation::select(ClientPolicy::scram("user", "pencil"), None);
    client.receive(&[HEADER, &outcome(0, None)].concat()).unwrap();
    assert_eq!(client.progress(), Progress::Failed(ConnectionError::UnexpectedFrame));
}

#[test]
fn what_an_init_claims() {
    let scram = &b"n,,n=us=2Cer,r=nonce"[..];
    for (mechanism, response, claimed) in [
        ("SCRAM-SHA-256", Some(scram), Some("us,er")),
        ("SCRAM-SHA-256-PLUS", Some(b"p=tls-exporter,,n=us=2Cer,r=nonce"), Some("us,er")),
        ("SCRAM-SHA-256-PLUS", Some(scram), None),
        ("PLAIN", Some(b"\0user\0pencils"), Some("user")),
        ("ANONYMOUS", Some(b"trace"), None),
        ("OTHER", None, None),
    ] {
        let (hostname, claimed_user) = (Some("host".to_owned()), claimed.map(str::to_owned));
        let wanted = LoginAttempt { mechanism: mechanism.to_owned(), claimed_user, hostname };
        let mut side = ServerNegotiation::new(server());
        assert_eq!(side.last_attempt(), None);
        side.receive(&[HEADER, &init(mechanism, response, "host")].concat()).unwrap();
        assert_eq!(side.last_attempt(), Some(&wanted));
    }
    let mut side = ServerNegotiation::new(server().initial_response_by_challenge(true));
    side.receive(&[HEADER, &init("SCRAM-SHA-256", None, "host")].concat()).unwrap();
    assert_eq!(side.last_attempt().map(|attempt| attempt.claimed_user.as_deref()), Some(None));
    side.receive(&frame(0x43, &[&short(0xa0, scram)])).unwrap();
    assert_eq!(side.last_attempt().map(|attempt| attempt.claimed_user.as_deref()), Some(Some("us,er")));
}
