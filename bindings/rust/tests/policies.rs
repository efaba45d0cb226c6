//! Which mechanism a client selects from an offer, and what it says of its channel: for each offer of one, two or all
//! mechanisms that of `by_strength` in specs/ClientPolicy.antt.

use fe2o3_sasl_proved::*;

const HEADER: &[u8] = b"AMQP\x03\x01\x00\x00";

/// The mechanisms of clients, the strongest first.
const BY_STRENGTH: [&str; 9] = [
    "SCRAM-SHA-512-PLUS",
    "SCRAM-SHA-256-PLUS",
    "SCRAM-SHA-1-PLUS",
    "SCRAM-SHA-512",
    "SCRAM-SHA-256",
    "SCRAM-SHA-1",
    "EXTERNAL",
    "PLAIN",
    "ANONYMOUS",
];

fn channel() -> Channel {
    Channel::new(ChannelKind::TlsExporter, &[7; 32]).unwrap()
}

/// The header of SASL, and a frame of these mechanisms.
fn offer(names: &[&str]) -> Vec<u8> {
    let data: Vec<u8> = names.iter().flat_map(|name| [&[name.len() as u8], name.as_bytes()].concat()).collect();
    let array = [&[0xe0, data.len() as u8 + 2, names.len() as u8, 0xa3], &data[..]].concat();
    let head = [2, 1, 0, 0, 0, 0x53, 0x40, 0xc0, array.len() as u8 + 1, 1];
    [HEADER, &(array.len() as u32 + 14).to_be_bytes(), &head, &array].concat()
}

/// What the init of a client says, if it sends one: its mechanism and its message.
fn init(side: &mut ClientNegotiation, names: &[&str]) -> Option<(String, Vec<u8>)> {
    let sent = side.receive(&offer(names)).unwrap().sent;
    match view_frame(sent.get(4..)?).unwrap() {
        Frame::Init { mechanism, initial_response, .. } => Some((mechanism, initial_response.unwrap_or_default())),
        other => panic!("{other:?}"),
    }
}

fn plain() -> SaslProfile {
    SaslProfile::Plain { username: "user".to_owned(), password: "pencil".to_owned() }
}

/// Policies, with the mechanisms that each allows by name.
fn policies() -> Vec<(ClientPolicy, Vec<&'static str>)> {
    let scram = || ClientPolicy::scram("user", "pencil");
    let all = scram().or(SaslProfile::ExternalAs(String::new())).or(plain()).or(SaslProfile::Anonymous);
    let one = ClientPolicy::new(ScramClient::new("user", "pencil", ScramVersion::Sha256)).or(plain());
    vec![
        (scram(), BY_STRENGTH[3..6].to_vec()),
        (all, BY_STRENGTH[3..].to_vec()),
        (one, vec!["SCRAM-SHA-256", "PLAIN"]),
        (ClientPolicy::new(plain()), vec!["PLAIN"]),
    ]
}

/// Whether a policy allows a mechanism (`is_allowed` of specs/ClientPolicy.antt).
fn allows(named: &[&str], has_channel: bool, must_bind: bool, mechanism: &str) -> bool {
    match mechanism.strip_suffix("-PLUS") {
        Some(hash) => has_channel && named.contains(&hash),
        None => named.contains(&mechanism) && !(must_bind && mechanism.starts_with("SCRAM")),
    }
}

fn selects(policy: ClientPolicy, named: &[&str], has_channel: bool, must_bind: bool, offered: &[&str]) {
    let can_take = |name: &&&str| offered.contains(*name) && allows(named, has_channel, must_bind, name);
    let wanted = BY_STRENGTH.iter().find(can_take).copied();
    let mut side = ClientNegotiation::select(policy, Some("host"));
    assert_eq!(side.mechanism(), None);
    let sent = init(&mut side, offered);
    assert_eq!(side.mechanism(), wanted, "{named:?} {offered:?}");
    let Some((mechanism, message)) = sent else {
        assert_eq!(wanted, None);
        return assert_eq!(side.progress(), Progress::Failed(ConnectionError::NotImplemented));
    };
    assert_eq!(Some(&mechanism[..]), wanted);
    if mechanism.starts_with("SCRAM") {
        let header: &[u8] = match (has_channel, mechanism.ends_with("-PLUS")) {
            (_, true) => b"p=tls-exporter,,n=user,r=",
            (true, false) => b"y,,n=user,r=",
            (false, false) => b"n,,n=user,r=",
        };
        assert!(message.starts_with(header), "{:?}", String::from_utf8_lossy(&message));
    }
}

#[test]
fn the_strongest_of_each_offer() {
    for (policy, named) in policies() {
        for (has_channel, must_bind) in [(false, false), (true, false), (true, true)] {
            let policy = match (has_channel, must_bind) {
                (false, _) => policy.clone(),
                (true, false) => policy.clone().bind_channel(channel()),
                (true, true) => policy.clone().must_bind(channel()),
            };
            for one in BY_STRENGTH {
                for two in BY_STRENGTH {
                    // (the order of the offer says nothing)
                    selects(policy.clone(), &named, has_channel, must_bind, &[two, one]);
                }
            }
            selects(policy, &named, has_channel, must_bind, &BY_STRENGTH);
        }
    }
}

/// A profile before SCRAM stays before it, and a client with a channel of its own stays as it is.
#[test]
fn the_order_of_the_client() {
    let own = ScramClient::new("user", "pencil", ScramVersion::Sha1).with_channel(channel());
    let policy = ClientPolicy::new(SaslProfile::External)
        .or(ScramClient::new("user", "pencil", ScramVersion::Sha512))
        .or(own)
        .bind_channel(Channel::new(ChannelKind::TlsUnique, &[1; 12]).unwrap());
    for (offered, wanted, header) in [
        (&BY_STRENGTH[..], "EXTERNAL", &b""[..]),
        (&BY_STRENGTH[..6], "SCRAM-SHA-512-PLUS", b"p=tls-unique,,"),
        (&BY_STRENGTH[1..6], "SCRAM-SHA-512", b"y,,"),
        (&BY_STRENGTH[1..3], "SCRAM-SHA-1-PLUS", b"p=tls-exporter,,"),
    ] {
        let (mechanism, message) = init(&mut ClientNegotiation::select(policy.clone(), None), offered).unwrap();
        assert_eq!(mechanism, wanted);
        assert!(message.starts_with(header));
    }
}

/// Logs in by a policy at a server with this channel. Returns the mechanism, and how both sides end.
fn log_in(policy: ClientPolicy, channel: Option<Channel>) -> (Option<&'static str>, Progress, Progress) {
    let credential = SingleScramCredential::new("user", "pencil", ScramVersion::Sha256).unwrap();
    let server = PasswordServer::new(credential).hashes(&[ScramVersion::Sha256]);
    let server = if channel.is_some() { server.channels(channel) } else { server.accept_cbind_flag_y() };
    let (mut client, mut server) = (ClientNegotiation::select(policy, None), ServerNegotiation::new(server));
    let mut to_server = ClientNegotiation::open();
    while !to_server.is_empty() {
        to_server = client.receive(&server.receive(&to_server).unwrap().sent).unwrap().sent;
    }
    (client.mechanism(), client.progress(), server.progress())
}

#[test]
fn logins() {
    use Progress::Authenticated;
    let scram = || ClientPolicy::scram("user", "pencil").strict(true);
    let (plus, without) = (Some("SCRAM-SHA-256-PLUS"), Some("SCRAM-SHA-256"));
    let refused = Progress::Failed(ConnectionError::RefusedAuth);
    let other = Channel::new(ChannelKind::TlsExporter, &[8; 32]).unwrap();
    for (policy, server, wanted) in [
        (scram(), None, (without, Authenticated, Authenticated)),
        (scram(), Some(channel()), (without, Authenticated, Authenticated)),
        (scram().bind_channel(channel()), Some(channel()), (plus, Authenticated, Authenticated)),
        (scram().must_bind(channel()), Some(channel()), (plus, Authenticated, Authenticated)),
        (scram().bind_channel(other), Some(channel()), (plus, refused, refused)),
        (scram().bind_channel(channel()), None, (without, Authenticated, Authenticated)),
    ] {
        assert_eq!(log_in(policy, server), wanted);
    }
    let (mechanism, client, server) = log_in(scram().must_bind(channel()), None);
    assert_eq!((mechanism, client), (None, Progress::Failed(ConnectionError::NotImplemented)));
    assert_eq!(server, Progress::InProgress);
}

/// A strict client rejects what is no extension after the nonce of the server.
#[test]
fn strict_clients() {
    for (is_strict, wanted) in [(false, true), (true, false)] {
        let policy = ClientPolicy::scram("user", "pencil").strict(is_strict);
        let mut side = ClientNegotiation::select(policy, None);
        let (_, message) = init(&mut side, &["SCRAM-SHA-256"]).unwrap();
        let nonce = String::from_utf8(message).unwrap().split_once("r=").unwrap().1.to_owned();
        let first = format!("r={nonce}x,s=AAAA,i=4096,s=AAAA");
        let data = [&[0xa0, first.len() as u8], first.as_bytes()].concat();
        let head = [2, 1, 0, 0, 0, 0x53, 0x42, 0xc0, data.len() as u8 + 1, 1];
        let frame = [&(data.len() as u32 + 14).to_be_bytes()[..], &head, &data].concat();
        side.receive(&frame).unwrap();
        assert_eq!(side.progress() == Progress::InProgress, wanted);
    }
}
