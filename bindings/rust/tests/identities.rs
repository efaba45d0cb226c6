//! Clients that act for an identity (RFC 4422, section 2; RFC 5802, section 5.1, `a=`). Proofs and signatures are those of
//! Python's `hashlib` and `hmac`, and channel bindings those of its `base64`, for SCRAM-SHA-256, the password `pencil`, a
//! salt of 32 bytes 03, a client's nonce of 32 bytes 01 and a server's of 32 bytes 02.

mod common;

use common::{log_in, text};
use fe2o3_sasl_proved::*;

const VERSION: ScramVersion = ScramVersion::Sha256;
const BARE: &str = "n=user,r=AQEBAQEBAQEBAQEBAQEBAQEBAQEBAQEBAQEBAQEBAQE=";
const NONCES: &str = "r=AQEBAQEBAQEBAQEBAQEBAQEBAQEBAQEBAQEBAQEBAQE=AgICAgICAgICAgICAgICAgICAgICAgICAgICAgICAgI=";

/// An identity, what the client says of its channel, its GS2 header, the channel binding in base64, the proof and the
/// signature.
struct Vector(&'static str, Says, &'static str, &'static str, &'static str, &'static str);

#[derive(Clone, Copy)]
enum Says {
    Nothing,
    NotOffered,
    Binds,
}

const VECTORS: [Vector; 6] = [
    Vector(
        "bob",
        Says::Nothing,
        "n,a=bob,",
        "bixhPWJvYiw=",
        "nWucG7QWlzX6M7dLL/c5Kmtj502D14krbgiUPCN3nbk=",
        "rGUem8Z/ZwquzgJcQHX13oMm5iHCPUuVnMkQ4xE27IA=",
    ),
    Vector(
        "bob",
        Says::NotOffered,
        "y,a=bob,",
        "eSxhPWJvYiw=",
        "aN6AzbIA/Hifo97qRyBgrqPdazCHh4PcywuxHdFxnUo=",
        "+ihfD6FKESZI/WW5OZjx68K7Ocb28bVtyP/xb5I0SbA=",
    ),
    Vector(
        "bob",
        Says::Binds,
        "p=tls-exporter,a=bob,",
        "cD10bHMtZXhwb3J0ZXIsYT1ib2Is//////////////////////////////////////////8=",
        "Wu0s88uF7ayHaCIFevAALTq7wMKcPKBrVqeTvsUVE6w=",
        "EzUqxRUInul7hXoDPp6pL9xl3bBCIMB8o0sqfMVaoR4=",
    ),
    Vector(
        "a,b=c",
        Says::Nothing,
        "n,a=a=2Cb=3Dc,",
        "bixhPWE9MkNiPTNEYyw=",
        "Ew+E0FwS6omBXNC9fRU3H3ERA0ksOlTQRs3+ul6kZQo=",
        "CYUEmHfuvFR4er5DjryXLICUbSaK0w2e2Rwicwyhwg0=",
    ),
    Vector(
        "user",
        Says::Nothing,
        "n,a=user,",
        "bixhPXVzZXIs",
        "CfzItip7o3Iyj+8YEQra7DZBsRvp33No0FNRbQ//vUE=",
        "j4lAxzKzgN2PoV0DEezXguBE5imFoboVbzWoAYdE8pw=",
    ),
    Vector(
        "J\u{f6}rg",
        Says::Nothing,
        "n,a=J\u{f6}rg,",
        "bixhPUrDtnJnLA==",
        "eMGcwPe/YP1+7lQs6Ec30iz2Ic2W8+ZUTMV1kPJ+bjo=",
        "PsdxGvqYdS1Fu7Pe+p83ua6Vk78VBeUsIGHaGSwtRaM=",
    ),
];

/// One user, who may act for these identities.
#[derive(Clone)]
struct Store(SingleScramCredential, Vec<String>);

impl UserRecords for Store {
    fn records(&self, username: &str) -> Result<Vec<ScramRecord>, StoreError> {
        self.0.records(username)
    }

    fn identities(&self, _username: &str) -> Result<Vec<String>, StoreError> {
        Ok(self.1.clone())
    }

    fn scram_version(&self) -> &ScramVersion {
        self.0.scram_version()
    }
}

fn store(identities: &[&str]) -> Store {
    let record = ScramRecord::from_password(VERSION, "pencil", &[3; 32], 4096).unwrap();
    let identities = identities.iter().map(|name| name.to_string()).collect();
    Store(SingleScramCredential::with_record("user", record), identities)
}

fn server(identities: &[&str]) -> ScramAuthenticator<Store> {
    ScramAuthenticator::new(store(identities)).accept_authzid(true)
}

fn exporter() -> Channel {
    Channel::new(ChannelKind::TlsExporter, &[255; 32]).unwrap()
}

fn client(password: &str, identity: &str) -> ScramClient {
    ScramClient::new("user", password, VERSION).acting_for(identity).unwrap()
}

fn server_first() -> String {
    format!("{},s=AwMDAwMDAwMDAwMDAwMDAwMDAwMDAwMDAwMDAwMDAwM=,i=4096", NONCES)
}

#[test]
fn each_message() {
    for Vector(identity, says, header, binding, proof, signature) in VECTORS {
        let (client, server) = (client("pencil", identity), server(&["other", identity]));
        let (mut client, mut server) = match says {
            Says::Nothing => (client, server),
            Says::NotOffered => (client.channel_not_offered(), server.accept_cbind_flag_y()),
            Says::Binds => (client.with_channel(exporter()), server.with_channels([exporter()])),
        };
        assert_eq!(client.acts_for(), Some(identity));
        let client_first = client.compute_client_first_message_with(&[1; 32]).unwrap();
        assert_eq!(text(&client_first), format!("{}{}", header, BARE));
        let answer = server.compute_server_first_message_with(&client_first, &[2; 32]).unwrap().unwrap();
        assert_eq!(text(&answer), server_first());
        let client_final = client.compute_client_final_message(&server_first()).unwrap();
        assert_eq!(text(&client_final), format!("c={},{},p={}", binding, NONCES, proof));
        assert_eq!(server.acts_for(), None);
        let server_final = server.compute_server_final_message(&client_final).unwrap().unwrap();
        assert_eq!(text(&server_final), format!("v={}", signature));
        assert_eq!(client.validate_server_final(&server_final), Ok(()));
        let names = (server.authenticated_user(), server.acts_for());
        assert_eq!(names, (Some("user".to_owned()), Some(identity.to_owned())));
    }
}

#[test]
fn rights() {
    let refused = Err(ServerScramErrorKind::AuthenticationFailed);
    for (password, identity, identities, wanted) in [
        ("pencil", "bob", &["bob"][..], Ok(())),
        ("pencil", "bob", &["carol", "bob"], Ok(())),
        ("pencil", "user", &[], Ok(())),
        ("pencil", "bob", &[], refused),
        ("pencil", "bob", &["carol", "Bob", "bobby", "bo"], refused),
        ("pencils", "bob", &["bob"], refused),
    ] {
        let mut server = server(identities);
        assert_eq!(log_in(&mut client(password, identity), &mut server), wanted, "{:?}", (identity, identities));
        assert_eq!(server.acts_for().as_deref(), wanted.ok().map(|()| identity));
    }
    // A server that accepts no identity.
    let mut server = ScramAuthenticator::new(store(&["bob"]));
    let rejected = Err(ServerScramErrorKind::CannotParseGs2Header);
    assert_eq!(log_in(&mut client("pencil", "bob"), &mut server), rejected);
}

#[test]
fn an_empty_identity_is_none() {
    let mut client = client("pencil", "bob").acting_for("").unwrap();
    assert_eq!(client.acts_for(), None);
    let message = client.compute_client_first_message_with(&[1; 32]).unwrap();
    assert_eq!(text(&message), format!("n,,{}", BARE));
    let mut server = ScramAuthenticator::new(store(&["bob"]));
    assert_eq!(log_in(&mut client, &mut server), Ok(()));
    assert_eq!((server.authenticated_user().as_deref(), server.acts_for()), (Some("user"), None));
}

#[test]
fn identities_that_no_client_can_send() {
    let plain = || ScramClient::new("user", "pencil", VERSION);
    assert_eq!(plain().acting_for("x".repeat(257)).map(drop), Err(IdentityError::TooLong));
    assert_eq!(plain().acting_for("J\u{f6}".repeat(86)).map(drop), Err(IdentityError::TooLong));
    assert_eq!(plain().acting_for("bo\0b").map(drop), Err(IdentityError::ProhibitedCharacter));
}

#[test]
fn the_longest_identity() {
    // (each comma is escaped)
    for name in ["x".repeat(256), ",".repeat(256), "\u{f6}".repeat(128)] {
        let mut server = server(&[&name]);
        assert_eq!(log_in(&mut client("pencil", &name), &mut server), Ok(()));
        assert_eq!(server.acts_for(), Some(name));
    }
}

#[test]
fn logins_by_keys() {
    let (mut server, mut client) = (server(&["bob"]), client("pencil", "bob"));
    assert_eq!(log_in(&mut client, &mut server), Ok(()));
    let by_keys = || ScramClient::with_keys("user", client.keys().unwrap());
    assert_eq!(log_in(&mut by_keys().acting_for("bob").unwrap(), &mut server), Ok(()));
    assert_eq!(server.acts_for().as_deref(), Some("bob"));
    assert_eq!(log_in(&mut by_keys(), &mut server), Ok(()));
    assert_eq!(server.acts_for(), None);
}

#[test]
fn a_client_that_names_an_identity_is_strict() {
    for (mut client, wanted) in
        [(client("pencil", ""), Ok(())), (client("pencil", "bob"), Err(ScramErrorKind::MisplacedAttribute))]
    {
        client.compute_client_first_message_with(&[1; 32]).unwrap();
        let answer = client.compute_client_final_message(&format!("{},s=AAAA", server_first()));
        assert_eq!(answer.map(drop), wanted);
    }
}

#[test]
fn plain_messages() {
    let message = plain_message(Some("bob"), "user", "pencil").unwrap();
    assert_eq!(message, b"bob\0user\0pencil");
    assert_eq!(plain_claimed_user(&message).as_deref(), Some("user"));
    assert_eq!(plain_claimed_identity(&message).as_deref(), Some("bob"));
    assert_eq!(plain_claimed_identity(b"user\0user\0pencil").as_deref(), Some("user"));
    assert_eq!(plain_claimed_identity(b"\0user\0pencil"), None);
    assert_eq!(plain_message(Some(""), "user", "pencil"), plain_message(None, "user", "pencil"));
    for (identity, username, password, error) in [
        ("bo\0b", "user", "pencil", PlainError::ProhibitedCharacter),
        (&"x".repeat(257), "user", "pencil", PlainError::TooLong),
        ("bob", "", "pencil", PlainError::NamesNoUser),
        ("bob", "user", "", PlainError::EmptyPassword),
    ] {
        assert_eq!(plain_message(Some(identity), username, password), Err(error));
    }
    assert!(plain_message(Some(&"x".repeat(256)), "user", "pencil").is_ok());
}

#[test]
fn plain_rights() {
    let record = ScramRecord::from_password(VERSION, "pencil", &[3; 32], 4096).unwrap();
    let refused = Err(ServerScramErrorKind::AuthenticationFailed);
    for (message, identities, wanted) in [
        (&b"bob\0user\0pencil"[..], &["bob"][..], Ok(())),
        (b"bob\0user\0pencil", &["carol", "bob"], Ok(())),
        (b"user\0user\0pencil", &[], Ok(())),
        (b"\0user\0pencil", &[], Ok(())),
        (b"bob\0user\0pencil", &[], refused),
        (b"bob\0user\0pencil", &["carol", "Bob", "bobby", "bo"], refused),
        (b"bob\0user\0pencils", &["bob"], refused),
    ] {
        let identities: Vec<String> = identities.iter().map(|name| name.to_string()).collect();
        let verify = |record| plain_verify(record, PlainPasswords::Typed, 4096, Some(&identities), message);
        assert_eq!(verify(Some(&record)), wanted, "{:?}", (text(message), &identities));
        assert_eq!(verify(None), refused);
        // (without rights, only the user's own name)
        let own = plain_verify(Some(&record), PlainPasswords::Typed, 4096, None, message);
        assert_eq!(own, if message.starts_with(b"bob") { refused } else { wanted });
    }
}

#[test]
fn profiles() {
    let plain = || SaslProfile::Plain { username: "user".to_owned(), password: "pencil".to_owned() };
    let with = |username: &str, password: &str| SaslProfile::Plain {
        username: username.to_owned(),
        password: password.to_owned(),
    };
    let scram = || SaslProfile::from(ScramClient::new("user", "pencil", VERSION));
    let long = "x".repeat(257);
    for (profile, identity, is_some) in [
        (plain(), "bob", true),
        (plain(), "", true),
        (plain(), "bo\0b", false),
        (plain(), &long, false),
        (with("", "pencil"), "bob", false),
        (with("user", "pen\0cil"), "bob", false),
        (scram(), "bob", true),
        (scram(), "bo\0b", false),
        (scram(), &long, false),
        (SaslProfile::External, "bob", true),
        (SaslProfile::ExternalAs("carol".to_owned()), "bob", true),
        (SaslProfile::External, "bo\0b", false),
        (SaslProfile::Anonymous, "bob", false),
        (SaslProfile::AnonymousAs("trace".to_owned()), "bob", false),
    ] {
        let shown = format!("{:?} {:?}", profile, identity);
        assert_eq!(profile.acting_for(identity).is_some(), is_some, "{}", shown);
    }
    let again = plain().acting_for("bob").unwrap().acting_for("carol").unwrap();
    assert!(matches!(&again, SaslProfile::PlainAs { identity, .. } if identity == "carol"));
    let shown = format!("{:?}", again);
    assert!(shown.contains("carol") && shown.contains("user") && !shown.contains("pencil"), "{}", shown);
    assert!(matches!(SaslProfile::External.acting_for("bob"), Some(SaslProfile::ExternalAs(name)) if name == "bob"));
}

#[test]
fn connections_by_plain() {
    let rejected = Progress::Failed(ConnectionError::RefusedAuth);
    let server = |identities: &[&str]| {
        PasswordServer::new(store(identities)).hashes(&[VERSION]).plain_under_tls(true).accept_authzid(true)
    };
    let plain = |password: &str, identity: &str| {
        let profile = SaslProfile::Plain { username: "user".to_owned(), password: password.to_owned() };
        profile.acting_for(identity).unwrap()
    };
    for (profile, server, acts_for) in [
        (plain("pencil", "bob"), server(&["bob"]), Ok(Some("bob"))),
        (plain("pencil", "user"), server(&[]), Ok(Some("user"))),
        (plain("pencil", ""), server(&["bob"]), Ok(None)),
        (plain("pencil", "bob"), server(&["carol"]), Err(())),
        (plain("pencils", "bob"), server(&["bob"]), Err(())),
        (plain("pencil", "bob"), server(&["bob"]).accept_authzid(false), Err(())),
    ] {
        let progress = if acts_for.is_ok() { Progress::Authenticated } else { rejected };
        let wanted = (progress, progress, acts_for.ok().flatten().map(str::to_owned));
        assert_eq!(connected(profile, server), wanted);
    }
}

/// How a login over the bytes of a connection ends at both sides, and for whom.
fn connected(client: impl Into<SaslProfile>, server: PasswordServer<Store>) -> (Progress, Progress, Option<String>) {
    let (mut client, mut server) = (ClientNegotiation::new(client, None), ServerNegotiation::new(server));
    let mut to_server = ClientNegotiation::open();
    while !to_server.is_empty() {
        to_server = client.receive(&server.receive(&to_server).unwrap().sent).unwrap().sent;
    }
    (client.progress(), server.progress(), server.acts_for())
}

#[test]
fn connections() {
    let rejected = Progress::Failed(ConnectionError::RefusedAuth);
    let server = |identities: &[&str]| PasswordServer::new(store(identities)).hashes(&[VERSION]);
    let bound = client("pencil", "bob").with_channel(exporter());
    for (client, server, acts_for) in [
        (client("pencil", "bob"), server(&["bob"]).accept_authzid(true), Ok(Some("bob"))),
        (bound, server(&["bob"]).accept_authzid(true).channels([exporter()]), Ok(Some("bob"))),
        (client("pencil", "user"), server(&[]).accept_authzid(true), Ok(Some("user"))),
        (client("pencil", ""), server(&["bob"]).accept_authzid(true), Ok(None)),
        (client("pencil", "bob"), server(&["carol"]).accept_authzid(true), Err(())),
        (client("pencils", "bob"), server(&["bob"]).accept_authzid(true), Err(())),
        (client("pencil", "bob"), server(&["bob"]), Err(())),
    ] {
        let progress = if acts_for.is_ok() { Progress::Authenticated } else { rejected };
        let wanted = (progress, progress, acts_for.ok().flatten().map(str::to_owned));
        assert_eq!(connected(client, server), wanted);
    }
}
