//! Channel binding (RFC 5802, section 6), and strict sides. Proofs and signatures are those of Python's `hashlib` and
//! `hmac`, and channel bindings those of its `base64`, for the password `pencil`, a salt of 32 bytes 03, a client's nonce
//! of 32 bytes 01 and a server's of 32 bytes 02.

mod common;

use common::{log_in, text, ClientBodies};
use fe2o3_sasl_proved::*;

type Server = ScramAuthenticator<SingleScramCredential>;

const VERSIONS: [ScramVersion; 3] = [ScramVersion::Sha1, ScramVersion::Sha256, ScramVersion::Sha512];
const BARE: &str = "n=user,r=AQEBAQEBAQEBAQEBAQEBAQEBAQEBAQEBAQEBAQEBAQE=";
const NONCES: &str = "r=AQEBAQEBAQEBAQEBAQEBAQEBAQEBAQEBAQEBAQEBAQE=AgICAgICAgICAgICAgICAgICAgICAgICAgICAgICAgI=";

/// A kind, its name, the data of the channel, and the channel binding in base64.
struct Kind(ChannelKind, &'static str, &'static [u8], &'static str);

const KINDS: [Kind; 3] = [
    Kind(ChannelKind::TlsUnique, "tls-unique", &[4; 12], "cD10bHMtdW5pcXVlLCwEBAQEBAQEBAQEBAQ="),
    Kind(
        ChannelKind::TlsServerEndPoint,
        "tls-server-end-point",
        &[5; 64],
        "cD10bHMtc2VydmVyLWVuZC1wb2ludCwsBQUFBQUFBQUFBQUFBQUFBQUFBQUFBQUFBQUFBQUFBQUFBQUFBQUFBQUFBQUF\
         BQUFBQUFBQUFBQUFBQUFBQUFBQ==",
    ),
    Kind(
        ChannelKind::TlsExporter,
        "tls-exporter",
        &[255; 32],
        "cD10bHMtZXhwb3J0ZXIsLP//////////////////////////////////////////",
    ),
];

/// The proof and the signature of each version, and in it of each kind.
const PROOFS: [[(&str, &str); 3]; 3] = [
    [
        ("Q6qX9gG/sOUv8m0t7+UzEICGjH0=", "zcHV4mc2QKj+H59zu1hSNWwMdpg="),
        ("4r0CTZkB7t/1EDPOwEt8MnJux+U=", "48G7Yszocd93UFZemfyuTXavJEI="),
        ("eP14dlG9jdIyuoZz1RgBgb5hsC0=", "OFY4RM6ZhDFZ+aNg2QgWa6zfeig="),
    ],
    [
        ("06GnWUxjxFnVfnCdTHaz8w9hfm8ChKU7XsnbUANkPjw=", "7gUTTiWhteycgJ6C+RYpf2kEd45Kz9diVF8nbAxJjKs="),
        ("mSZst5FOv6qQhQadS6GyXiSXC5BRygTJdYhYEdn8IUA=", "Ue5DC4lfKvS0+VmzDLmkjIGit6va+GPvJuibp0SqokA="),
        ("AAORnRZesO1PCAmYiNNzQTpeoKmj8Hj30Q4Hlr7prKM=", "SgGu8jRHhwA6VTyPCwx8V8I1IgybjSzepXYuysgZY/s="),
    ],
    [
        (
            "TwI0mNPgbkVZQll3OuicGK9QBiYJqajSkKw3WvjkTgBxzzTaJ1raN9D0/i+7Cq139FDLJyhfQkbSeR3pO54R+Q==",
            "YSKUex4z+qZKtHGa3HLBTpJ3ghVFkVdsULOJdbZPRHDiJXGfJQJ+/ZrHVi8iSEqMN5nSatepGVk8bD1UD5dEZg==",
        ),
        (
            "E0Xk4NB3fPw44tqu6bR6Rhyucks92aDTRMom7WHZw96wao7qJOLqrtI0515VmcHkmJjMjFOrvafzMGNnSWdqjw==",
            "h42gOMcSu4bxU082vhHap9A+IlyxcpIUK1Qbt391kR0H9LLYuznK5u45WLNExCuLUKYbRuePKJRIueZoW6/cWQ==",
        ),
        (
            "LzcBmtQMpTfNgu7LPh19W5btEAIiZxresEo5sgraYfUUq252kwbHHw2R+Vkjg/zbQaceiBS/U1LNlxGcz3RuQQ==",
            "BojJ61LrhFo4AtedPQduAnt3ZACw23bu/v80qU8/1lrQzpOlDvCZ5C8BbbWrRjSM0ohvhW9L10FoitWo5tDt1g==",
        ),
    ],
];

fn client(version: ScramVersion) -> ScramClient {
    ScramClient::new("user", "pencil", version)
}

fn server(version: ScramVersion) -> Server {
    let record = ScramRecord::from_password(version, "pencil", &[3; 32], 4096).unwrap();
    ScramAuthenticator::new(SingleScramCredential::with_record("user", record))
}

fn channel(kind: &Kind) -> Channel {
    Channel::new(kind.0, kind.2).unwrap()
}

fn all() -> impl Iterator<Item = Channel> {
    KINDS.iter().map(channel)
}

fn server_first() -> String {
    format!("{},s=AwMDAwMDAwMDAwMDAwMDAwMDAwMDAwMDAwMDAwMDAwM=,i=4096", NONCES)
}

/// The answer of a server to a client-first message with this header and this extension.
fn opened(server: &mut Server, header: &str, extension: &str) -> Result<(), ServerScramErrorKind> {
    let message = format!("{}{}{}", header, BARE, extension);
    let answer = server.compute_server_first_message_with(message.as_bytes(), &[2; 32])?;
    assert_eq!(text(&answer.unwrap()), server_first());
    Ok(())
}

#[test]
fn each_message_of_each_kind() {
    for (version, proofs) in VERSIONS.into_iter().zip(PROOFS) {
        for (kind, (proof, signature)) in KINDS.iter().zip(proofs) {
            let mut client = client(version).with_channel(channel(kind));
            assert_eq!(client.mechanism(), format!("{}-PLUS", version.mechanism()));
            let client_first = client.compute_client_first_message_with(&[1; 32]).unwrap();
            assert_eq!(text(&client_first), format!("p={},,{}", kind.1, BARE));
            let client_final = client.compute_client_final_message(&server_first()).unwrap();
            assert_eq!(text(&client_final), format!("c={},{},p={}", kind.3, NONCES, proof));

            for mut server in [server(version).with_channels([channel(kind)]), server(version).with_channels(all())] {
                opened(&mut server, &format!("p={},,", kind.1), "").unwrap();
                let server_final = server.compute_server_final_message(&client_final).unwrap().unwrap();
                assert_eq!(text(&server_final), format!("v={}", signature));
                assert_eq!(server.authenticated_user().as_deref(), Some("user"));
                assert_eq!(client.clone().validate_server_final(&server_final), Ok(()));
            }
        }
    }
}

#[test]
fn logins_by_keys() {
    for version in VERSIONS {
        for kind in &KINDS {
            let mut server = server(version).with_channels(all());
            let mut client = client(version).with_channel(channel(kind));
            assert_eq!(log_in(&mut client, &mut server), Ok(()));
            let mut by_keys = ScramClient::with_keys("user", client.keys().unwrap()).with_channel(channel(kind));
            assert_eq!(log_in(&mut by_keys, &mut server), Ok(()));
        }
    }
}

#[test]
fn other_channels() {
    let other = Err(ServerScramErrorKind::InvalidChannelBinding);
    let reported = ServerError::of(ServerScramErrorKind::InvalidChannelBinding);
    assert_eq!(reported.message(), "e=channel-bindings-dont-match");
    for version in VERSIONS {
        for kind in &KINDS {
            let mut server = server(version).with_channels(all());
            let mut zeros = kind.2.to_vec();
            zeros.push(0);
            for data in [&kind.2[1..], &zeros, &[kind.2, b"x"].concat(), &vec![0; kind.2.len()]] {
                let Ok(bound) = Channel::new(kind.0, data) else { continue };
                assert_eq!(log_in(&mut client(version).with_channel(bound), &mut server), other);
                assert_eq!(server.authenticated_user(), None);
            }
            // The binding of another kind, and none.
            opened(&mut server, &format!("p={},,", kind.1), "").unwrap();
            let bindings = KINDS.iter().filter(|other| other.0 != kind.0).map(|other| other.3);
            for binding in bindings.chain(["biws", "eSws", ""]) {
                let message = format!("c={},{},p=YQ==", binding, NONCES);
                let refused = server.compute_server_final_message(message.as_bytes());
                assert_eq!(refused.map(drop), other, "{}", binding);
            }
        }
    }
}

#[test]
fn headers() {
    let headers = ["p=tls-unique,,", "p=tls-server-end-point,,", "p=tls-exporter,,"];
    let others = ["n,,", "y,,", "p=,,", "p=tls-other,,", "p=tls-exporter,", "p=tls-exporter,a=user,", ""];
    let plain = || server(ScramVersion::Sha256);
    let mut servers = vec![
        (plain(), vec!["n,,"]),
        (plain().accept_cbind_flag_y(), vec!["n,,", "y,,"]),
        (plain().with_channels([]), vec![]),
        (plain().accept_cbind_flag_y().with_channels(None), vec![]),
        (plain().with_channels(all()), headers.to_vec()),
        (plain().with_channels(all()).accept_cbind_flag_y(), headers.to_vec()),
        // (a later set replaces the one before)
        (plain().with_channels(all()).with_channels([channel(&KINDS[2])]), vec![headers[2]]),
    ];
    for (kind, header) in KINDS.iter().zip(headers) {
        servers.push((plain().with_channels([channel(kind)]), vec![header]));
    }
    for (mut server, accepted) in servers {
        for header in headers.into_iter().chain(others) {
            let wanted =
                if accepted.contains(&header) { Ok(()) } else { Err(ServerScramErrorKind::CannotParseGs2Header) };
            assert_eq!(opened(&mut server, header, ""), wanted, "{:?} {}", accepted, header);
        }
    }
}

#[test]
fn of_two_channels_of_one_kind_the_last_counts() {
    let (first, last) = (Channel::new(ChannelKind::TlsUnique, b"first data").unwrap(), channel(&KINDS[0]));
    let version = ScramVersion::Sha256;
    let mut server = server(version).with_channels([first, last]);
    assert_eq!(log_in(&mut client(version).with_channel(last), &mut server), Ok(()));
    let other = Err(ServerScramErrorKind::InvalidChannelBinding);
    assert_eq!(log_in(&mut client(version).with_channel(first), &mut server), other);
}

#[test]
fn an_offer_without_plus() {
    let no_header = Err(ServerScramErrorKind::CannotParseGs2Header);
    for version in VERSIONS {
        let mut client = client(version).with_channel(channel(&KINDS[2])).channel_not_offered();
        assert_eq!(client.mechanism(), version.mechanism());
        assert!(client.compute_client_first_message().starts_with(b"y,,"));
        assert_eq!(log_in(&mut client, &mut server(version).accept_cbind_flag_y()), Ok(()));
        // A server that offers -PLUS accepts it by neither mechanism.
        assert_eq!(log_in(&mut client, &mut server(version)), no_header);
        assert_eq!(log_in(&mut client, &mut server(version).with_channels(all())), no_header);
        let mut bound = client.with_channel(channel(&KINDS[2]));
        assert_eq!(log_in(&mut bound, &mut server(version).with_channels(all())), Ok(()));
    }
}

/// A man in the middle of two channels removes -PLUS from the offer, and moves text between the messages, so that both sides
/// would have the same AuthMessage. Each side refuses by itself.
#[test]
fn moved_text() {
    for version in VERSIONS {
        // The client, whose channel the server does not have.
        let mut client = client(version).with_channel(channel(&KINDS[2])).channel_not_offered();
        let client_first = client.compute_client_first_message();
        let forged = [b"n,,", &client_first[3..]].concat();
        let offers_plus = server(version).reject_misplaced(true);
        for mut server in [server(version), offers_plus.clone()] {
            let server_first = server.compute_server_first_message(&forged).unwrap().unwrap();
            let server_first = text(&server_first);
            let moved = format!("c=biws,{}", server_first.split(',').next().unwrap());
            let answer = client.clone().compute_client_final_message(&format!("{server_first},{moved}"));
            assert_eq!(answer, Err(ScramErrorKind::MisplacedAttribute));
            // (text without an attribute of RFC 5802 changes nothing of the client's channel)
            assert!(client.clone().compute_client_final_message(&format!("{server_first},x=1")).is_ok());
        }
        // The server, whatever a foreign client sends it: that text, and what such a client answers.
        let mut server = offers_plus;
        let server_first = server.compute_server_first_message(&forged).unwrap().unwrap();
        let nonces = text(&server_first).split(',').next().unwrap().to_owned();
        let client_final = format!("c=biws,{nonces},c=eSws,{nonces},p=AAAA");
        let refused = server.compute_server_final_message(client_final.as_bytes());
        assert_eq!(refused, Err(ServerScramErrorKind::MisplacedAttribute));
    }
}

#[test]
fn rules_that_change_during_an_exchange() {
    let mut opened_by_plus = server(ScramVersion::Sha256).with_channels(all());
    opened(&mut opened_by_plus, "p=tls-exporter,,", "").unwrap();
    let message = format!("c={},{},p={}", KINDS[2].3, NONCES, PROOFS[1][2].0);
    let illegal = Err(ServerScramErrorKind::IllegalAuthenticatorState);
    let mut others = opened_by_plus.clone().with_channels([channel(&KINDS[0])]);
    assert_eq!(others.compute_server_final_message(message.as_bytes()), illegal);
    let mut plain = server(ScramVersion::Sha256);
    opened(&mut plain, "n,,", "").unwrap();
    let message = format!("c=biws,{},p=BCNcOZg0+DjVmOYbquTj+7JaBIvtH0PUtQer0ntwLxQ=", NONCES);
    assert_eq!(plain.clone().with_channels(all()).compute_server_final_message(message.as_bytes()), illegal);
    let server_final = plain.compute_server_final_message(message.as_bytes()).unwrap().unwrap();
    assert_eq!(text(&server_final), "v=X3wMIzagbJ5+sxd0FRk7lZ5X07UBZA8KFKL41BMrTwo=");
}

/// What follows a nonce or a count, whether it is an attribute of RFC 5802, section 5.1, and the proof and the signature
/// of a client-final message with it: without a channel, and by `tls-exporter`.
const EXTENSIONS: [(&str, bool, [&str; 2], [&str; 2]); 2] = [
    (
        ",i=4096",
        true,
        ["xRuZVyy0f4x4/yyTR6GUXpzH7ZRTmZvoKwEgUQChIqw=", "yeC3Z+gfV5oHqbIlfEqvcjXiUft6wCD8A5fWqma0c4Q="],
        ["gNTnvF1O81m7oasVGohNXp9phR7h0zHFhW9g5hNO7qM=", "zHJgaAtaOxF3HhULD52/f8yGon9SsyrnR9Ok56l+8tQ="],
    ),
    (
        ",x=1",
        false,
        ["qlTlvsN9qcWgPB7larXztL/dD6q+ZT/WWM+wb95cw2o=", "5SqvXbcNhwTh6knf0xMEO2eBlPfedjv/XJW9AOClzKs="],
        ["6pavdlPAYI9Pl8HDykO9PEDkTeqajehm1jXfIpCMhCE=", "WhY50B4Vu47wQ7mmV/1lYTp5t/RT0B0biJQiqI7sjNE="],
    ),
];

/// Asserts what a server does with an extension in both messages.
fn takes(mut server: Server, header: &str, binding: &str, extension: &str, proof: [&str; 2], rejects: bool) {
    let misplaced = Err(ServerScramErrorKind::MisplacedAttribute);
    assert_eq!(opened(&mut server, header, extension), if rejects { misplaced } else { Ok(()) });
    opened(&mut server, header, "").unwrap();
    let message = format!("c={},{}{},p={}", binding, NONCES, extension, proof[0]);
    let answer = server.compute_server_final_message(message.as_bytes());
    match answer {
        Ok(answer) => assert!(!rejects && text(&answer.unwrap()) == format!("v={}", proof[1])),
        Err(why) => assert!(rejects && why == ServerScramErrorKind::MisplacedAttribute, "{:?}", why),
    }
}

#[test]
fn strict_servers() {
    let plain = || server(ScramVersion::Sha256);
    for (extension, is_attribute, proof, bound_proof) in EXTENSIONS {
        takes(plain(), "n,,", "biws", extension, proof, false);
        takes(plain().strict(false), "n,,", "biws", extension, proof, false);
        takes(plain().strict(true), "n,,", "biws", extension, proof, is_attribute);
        takes(plain().reject_misplaced(true), "n,,", "biws", extension, proof, is_attribute);
        takes(plain().reject_misplaced(true).reject_misplaced(false), "n,,", "biws", extension, proof, false);
        for bound in [plain().with_channels(all()), plain().strict(true).with_channels(all()).strict(false)] {
            takes(bound, "p=tls-exporter,,", KINDS[2].3, extension, bound_proof, is_attribute);
        }
    }
    // An option keeps the others.
    let mut both = plain().strict(true).accept_cbind_flag_y();
    assert_eq!(opened(&mut both, "y,,", ""), Ok(()));
    assert_eq!(opened(&mut both, "y,,", ",i=4096"), Err(ServerScramErrorKind::MisplacedAttribute));
    let mut rejects = plain().reject_misplaced(true).accept_cbind_flag_y();
    assert_eq!(opened(&mut rejects, "y,,", ",i=4096"), Err(ServerScramErrorKind::MisplacedAttribute));
    assert!(rejects.compute_server_first_message(b"n,,n=,r=x").is_ok());
}

#[test]
fn strict_clients() {
    let plain = || client(ScramVersion::Sha256);
    let bound = plain().with_channel(channel(&KINDS[2]));
    for (client, is_strict) in [
        (plain(), false),
        (plain().strict(true), true),
        (plain().strict(true).strict(false), false),
        (plain().channel_not_offered(), true),
        (bound.clone(), true),
        (bound.strict(false), true),
    ] {
        for (extension, is_attribute, ..) in EXTENSIONS {
            let mut client = client.clone();
            client.compute_client_first_message_with(&[1; 32]).unwrap();
            let answer = client.compute_client_final_message(&(server_first() + extension));
            if is_strict && is_attribute {
                assert_eq!(answer, Err(ScramErrorKind::MisplacedAttribute));
            } else {
                assert!(answer.is_ok());
            }
        }
    }
}

#[test]
fn channels_that_are_none() {
    for kind in &KINDS {
        for len in [0, 65, 1000] {
            assert_eq!(Channel::new(kind.0, &vec![7; len]), Err(ChannelDataLength));
        }
        for len in [1, 64] {
            let data = vec![7; len];
            let channel = Channel::new(kind.0, &data).unwrap();
            assert_eq!((channel.kind(), channel.data()), (kind.0, &data[..]));
        }
        assert_eq!(kind.0.name(), kind.1);
    }
    let shown = format!("{:?}", channel(&KINDS[2]));
    assert_eq!(shown, "Channel { kind: TlsExporter, .. }");
    assert_eq!(ChannelDataLength.to_string(), "Channel binding data of a wrong length");
}

/// The mechanism and the message of a client's init.
fn init(profile: impl Into<SaslProfile>, offered: &[&str]) -> Result<(String, String), ConnectionError> {
    let names: Vec<u8> = offered.iter().flat_map(|name| [&[name.len() as u8], name.as_bytes()].concat()).collect();
    let mut list = vec![0xe0, names.len() as u8 + 2, offered.len() as u8, 0xa3];
    list.extend(names);
    let mut body = vec![2, 1, 0, 0, 0, 0x53, 0x40, 0xc0, list.len() as u8 + 1, 1];
    body.extend(list);
    let mut side = ClientBodies::new(profile, None);
    match view_frame(&side.on_frame(&body)?)? {
        Frame::Init { mechanism, initial_response, .. } => {
            assert_eq!(side.mechanism(), Some(mechanism.as_str()));
            Ok((mechanism, text(&initial_response.unwrap()).split(',').next().unwrap().to_owned()))
        }
        other => panic!("{:?}", other),
    }
}

#[test]
fn clients_on_connections() {
    for version in VERSIONS {
        let (plus, name) = (format!("{}-PLUS", version.mechanism()), version.mechanism());
        for kind in &KINDS {
            let client = client(version).with_channel(channel(kind));
            let wanted = (plus.clone(), format!("p={}", kind.1));
            assert_eq!(init(client.clone(), &[name, &plus]), Ok(wanted));
            assert_eq!(init(client.clone(), &[name]), Err(ConnectionError::NotImplemented));
            let not_offered = client.channel_not_offered();
            assert_eq!(init(not_offered, &[name]), Ok((name.to_owned(), "y".to_owned())));
        }
    }
}

#[test]
fn all_of_it_may_go_to_another_thread() {
    fn may<T: Send + Sync>() {}
    may::<Channel>();
    may::<ScramClient>();
    may::<Server>();
}

/// Runs a login on a connection. Returns the mechanism and how the server ends.
fn connected(client: &ScramClient, server: PasswordServer<SingleScramCredential>) -> (String, Progress) {
    let (mut client, mut server) = (ClientNegotiation::new(client.clone(), None), ServerNegotiation::new(server));
    let mut to_server = ClientNegotiation::open();
    while !to_server.is_empty() {
        to_server = client.receive(&server.receive(&to_server).unwrap().sent).unwrap().sent;
    }
    (client.mechanism().unwrap().to_owned(), server.progress())
}

#[test]
fn servers_on_connections() {
    let rejected = Progress::Failed(ConnectionError::RefusedAuth);
    for version in VERSIONS {
        let (plus, name) = (format!("{}-PLUS", version.mechanism()), version.mechanism());
        let credential = SingleScramCredential::new("user", "pencil", version).unwrap();
        let server = || PasswordServer::new(credential.clone()).hashes(&[version]);
        for kind in &KINDS {
            let (own, bound) = (channel(kind), client(version).with_channel(channel(kind)));
            let others: Vec<Channel> = all().filter(|other| other.kind() != own.kind()).collect();
            let other_data = Channel::new(own.kind(), b"other").unwrap();
            for (server, progress) in [
                (server().channels([own]), Progress::Authenticated),
                (server().channels(all()), Progress::Authenticated),
                (server().channels(others), rejected),
                (server().channels([other_data]), rejected),
                (server().channels([]), rejected),
            ] {
                assert_eq!(connected(&bound, server), (plus.clone(), progress));
            }
            // Without a channel, and with one but without -PLUS in the offer that arrives.
            let unaware = connected(&client(version), server().channels([own]));
            assert_eq!(unaware, (name.to_owned(), Progress::Authenticated));
            let told_none = connected(&bound.channel_not_offered(), server().channels([own]).accept_cbind_flag_y());
            assert_eq!(told_none, (name.to_owned(), rejected));
        }
    }
}
