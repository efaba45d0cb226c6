//! Logins by each hash, both sides in one program, and what is refused.

use fe2o3_sasl_proved::*;

const VERSIONS: [ScramVersion; 3] = [ScramVersion::Sha1, ScramVersion::Sha256, ScramVersion::Sha512];
const SALT: [u8; 16] = [4; 16];
const OTHER_SALT: [u8; 16] = [5; 16];
const SECRET: [u8; 32] = [3; 32];

/// The salt of the example in RFC 7677.
const RFC_SALT: [u8; 16] =
    [0x5b, 0x6d, 0x99, 0x68, 0x9d, 0x12, 0x35, 0x8e, 0xec, 0xa0, 0x4b, 0x14, 0x12, 0x36, 0xfa, 0x81];

type Server = ScramAuthenticator<SingleScramCredential>;

/// Where an exchange was refused.
#[derive(Debug, PartialEq)]
enum Refused {
    ByClient(ScramErrorKind),
    ByServer(ServerScramErrorKind),
    NoSuchUser,
}

fn text(bytes: &[u8]) -> &str {
    std::str::from_utf8(bytes).unwrap()
}

fn record(version: ScramVersion, salt: &[u8]) -> ScramRecord {
    ScramRecord::from_password(version, "pencil", salt, 4096).unwrap()
}

fn server(version: ScramVersion, salt: &[u8]) -> Server {
    ScramAuthenticator::new(SingleScramCredential::with_record("user", record(version, salt)))
}

/// The client's answer to the challenge, and the challenge.
fn answered(client: &mut ScramClient, server: &mut Server) -> Result<(Vec<u8>, Vec<u8>), Refused> {
    let client_first = client.compute_client_first_message();
    let server_first = server.compute_server_first_message(&client_first).map_err(Refused::ByServer)?;
    let server_first = server_first.ok_or(Refused::NoSuchUser)?;
    let client_final = client.compute_client_final_message(text(&server_first)).map_err(Refused::ByClient)?;
    Ok((client_final, server_first))
}

fn log_in(client: &mut ScramClient, server: &mut Server) -> Result<(), Refused> {
    let (client_final, _) = answered(client, server)?;
    let server_final = server.compute_server_final_message(&client_final).map_err(Refused::ByServer)?;
    client.validate_server_final(&server_final.ok_or(Refused::NoSuchUser)?).map_err(Refused::ByClient)
}

#[test]
fn the_library_is_the_one_of_the_declarations() {
    assert!(fits());
    assert!(library_version() > 0);
}

#[test]
fn logins_by_password() {
    for version in VERSIONS {
        let mut server = server(version, &SALT);
        assert_eq!(server.authenticated_user(), None);
        let mut client = ScramClient::new("user", "pencil", version).with_min_iterations(4096);
        assert_eq!(log_in(&mut client, &mut server), Ok(()));
        assert_eq!(server.authenticated_user().as_deref(), Some("user"));
    }
}

#[test]
fn a_name_that_is_escaped() {
    let name = "a,b=c,,==\u{e9}";
    let record = record(ScramVersion::Sha256, &SALT);
    let mut server = ScramAuthenticator::new(SingleScramCredential::with_record(name, record));
    assert_eq!(log_in(&mut ScramClient::new(name, "pencil", ScramVersion::Sha256), &mut server), Ok(()));
    assert_eq!(server.authenticated_user().as_deref(), Some(name));
}

#[test]
fn logins_by_keys() {
    for version in VERSIONS {
        let mut first = ScramClient::new("user", "pencil", version);
        assert!(first.keys().is_none());
        assert_eq!(log_in(&mut first, &mut server(version, &SALT)), Ok(()));
        let keys = first.keys().unwrap();
        let made = CachedKeys::from_password(version, "pencil", &SALT, 4096).unwrap();
        assert!(keys.client_key() == made.client_key() && keys.server_key() == made.server_key());
        assert!(keys.salt() == SALT && keys.iterations() == 4096 && keys.version() == version);

        let mut by_keys = ScramClient::with_keys("user", keys.clone());
        assert_eq!(log_in(&mut by_keys, &mut server(version, &SALT)), Ok(()));
        let stale_keys = Err(Refused::ByClient(ScramErrorKind::StaleKeys));
        assert_eq!(log_in(&mut by_keys, &mut server(version, &OTHER_SALT)), stale_keys);

        let mut by_both = ScramClient::with_password_and_keys("user", "pencil", keys);
        assert_eq!(log_in(&mut by_both, &mut server(version, &SALT)), Ok(()));
        assert_eq!(log_in(&mut by_both, &mut server(version, &OTHER_SALT)), Ok(()));
    }
}

#[test]
fn a_salt_longer_than_keys_have_room_for_is_answered() {
    let mut client = ScramClient::new("user", "pencil", ScramVersion::Sha256).with_min_iterations(1);
    let nonce = challenged(&mut client);
    let challenge = format!("r={}x,s={},i=1", nonce, "YWFh".repeat(43));
    assert!(client.compute_client_final_message(&challenge).is_ok());
}

#[test]
fn a_wrong_password() {
    let refused = Err(Refused::ByServer(ServerScramErrorKind::AuthenticationFailed));
    for version in VERSIONS {
        let mut server = server(version, &SALT);
        assert_eq!(log_in(&mut ScramClient::new("user", "pencils", version), &mut server), refused);
        assert_eq!(server.authenticated_user(), None);
        assert_eq!(log_in(&mut ScramClient::new("user", "pencil", version), &mut server), Ok(()));
    }
}

#[test]
fn an_unknown_user() {
    let refused = Err(Refused::ByServer(ServerScramErrorKind::AuthenticationFailed));
    for version in VERSIONS {
        let mut stranger = ScramClient::new("nobody", "pencil", version);
        assert_eq!(log_in(&mut stranger, &mut server(version, &SALT)), Err(Refused::NoSuchUser));

        let mut hiding = server(version, &SALT).mock_unknown_users(SECRET, SALT.len(), 4096);
        assert_eq!(log_in(&mut stranger, &mut hiding), refused);
        assert_eq!(log_in(&mut ScramClient::new("user", "pencil", version), &mut hiding), Ok(()));

        let made_up = || ScramRecord::mock(version, &SECRET, "nobody", SALT.len(), 4096).unwrap().to_text();
        assert_eq!(made_up(), made_up());
    }
}

#[test]
fn records() {
    for version in VERSIONS {
        let record = record(version, &SALT);
        let read: ScramRecord = record.to_string().parse().unwrap();
        assert_eq!(read.to_text(), record.to_text());
        let parts = ScramRecord::from_parts(version, &read.as_stored_password()).unwrap();
        assert_eq!(parts.to_text(), record.to_text());
        assert!(parts.verify_password("pencil") && !parts.verify_password("pencils"));
    }
}

/// The salted password of "pencil" with the salt of RFC 7677 and 4096 iterations: that of Python's hashlib.
const SALTED: [u8; 32] = [
    0xc4, 0xa4, 0x95, 0x10, 0x32, 0x3a, 0xb4, 0xf9, 0x52, 0xca, 0xc1, 0xfa, 0x99, 0x44, 0x19, 0x39, 0xe7, 0x8e, 0xa7,
    0x4d, 0x6b, 0xe8, 0x1d, 0xdf, 0x70, 0x96, 0xe8, 0x75, 0x13, 0xdc, 0x61, 0x5d,
];

#[test]
fn salted_passwords() {
    let version = ScramVersion::Sha256;
    let record = ScramRecord::from_salted_password(version, &SALTED, &RFC_SALT, 4096).unwrap();
    let whole = ScramRecord::from_password(version, "pencil", &RFC_SALT, 4096).unwrap();
    assert_eq!(record.to_text(), whole.to_text());
    assert!(record.verify_salted_password(&SALTED) && record.verify_password("pencil"));
    let mut other = SALTED;
    other[31] ^= 1;
    assert!(!record.verify_salted_password(&other) && !record.verify_salted_password(&SALTED[1..]));

    let keys = CachedKeys::from_salted_password(version, &SALTED, &RFC_SALT, 4096).unwrap();
    let made = CachedKeys::from_password(version, "pencil", &RFC_SALT, 4096).unwrap();
    assert!(keys.client_key() == made.client_key() && keys.server_key() == made.server_key());
    let mut server = ScramAuthenticator::new(SingleScramCredential::with_record("user", record));
    assert_eq!(log_in(&mut ScramClient::with_keys("user", keys), &mut server), Ok(()));

    let fails = |salted: &[u8], salt: &[u8], count| {
        let keys = CachedKeys::from_salted_password(version, salted, salt, count).err();
        assert_eq!(keys, ScramRecord::from_salted_password(version, salted, salt, count).err());
        keys
    };
    assert_eq!(fails(&SALTED[1..], &[0; 129], 0), Some(RecordError::KeyLengthMismatch));
    assert_eq!(fails(&[0; 33], &[0; 129], 0), Some(RecordError::KeyLengthMismatch));
    assert_eq!(fails(&SALTED, &[0; 129], 0), Some(RecordError::TooLong));
    assert_eq!(fails(&SALTED, &[0; 128], 0), Some(RecordError::ZeroIterations));
}

#[test]
fn records_of_fields() {
    for version in VERSIONS {
        let whole = record(version, &[7; 28]);
        let stored = whole.as_stored_password();
        let again = ScramRecord::from_parts(version, &stored).unwrap();
        assert_eq!(again.to_text(), whole.to_text());
        let fails = |salt, iterations, stored_key| {
            let parts = StoredPassword { salt, iterations, stored_key, server_key: stored.server_key };
            ScramRecord::from_parts(version, &parts).err()
        };
        assert_eq!(fails(&[0; 129], 0, &[]), Some(RecordError::TooLong));
        assert_eq!(fails(&[0; 128], 0, &[]), Some(RecordError::ZeroIterations));
        assert_eq!(fails(&SALT, 1, &stored.stored_key[1..]), Some(RecordError::KeyLengthMismatch));
        assert_eq!(fails(&SALT, 1, &[0; 65]), Some(RecordError::KeyLengthMismatch));
    }
}

#[test]
fn plain_over_messages() {
    let message = plain_message(None, "user", "pencil").unwrap();
    assert_eq!(message, b"\0user\0pencil");
    assert_eq!(plain_claimed_user(&message).as_deref(), Some("user"));
    let failed = Err(ServerScramErrorKind::AuthenticationFailed);
    for version in VERSIONS {
        let known = record(version, &SALT);
        let unknown = ScramRecord::mock(version, &SECRET, "user", 16, 4096).unwrap();
        for passwords in [PlainPasswords::Typed, PlainPasswords::Prepared, PlainPasswords::Saslprep] {
            let tested = |kept, message: &[u8]| plain_verify(kept, passwords, 4096, None, message);
            assert_eq!(tested(Some(&known), &message), Ok(()));
            assert_eq!(tested(Some(&known), b"user\0user\0pencil"), Ok(()));
            assert_eq!(tested(Some(&unknown), &message), failed);
            assert_eq!(tested(None, &message), failed);
            for other in [&b"\0user\0pencils"[..], b"root\0user\0pencil", b"\0user\0", b"\0\0pencil", b"user", b""] {
                assert_eq!(tested(Some(&known), other), failed);
            }
        }
        let spelled = plain_message(None, "user", "p\u{ad}encil").unwrap();
        assert_eq!(plain_verify(Some(&known), PlainPasswords::Typed, 4096, None, &spelled), failed);
        assert_eq!(plain_verify(Some(&known), PlainPasswords::Prepared, 4096, None, &spelled), failed);
        assert_eq!(plain_verify(Some(&known), PlainPasswords::Saslprep, 4096, None, &spelled), Ok(()));
    }
    for none in [&b""[..], b"\0user\0", b"\0\0pencil", b"root\0\0pencil", b"\0user\0pen\0cil", b"\0\xff\0pencil"] {
        assert_eq!((plain_claimed_user(none), plain_claimed_identity(none)), (None, None));
    }
    assert_eq!(plain_message(None, "", "\0"), Err(PlainError::NamesNoUser));
    assert_eq!(plain_message(None, "us\0er", "pencil"), Err(PlainError::ProhibitedCharacter));
    assert_eq!(plain_message(None, "user", "pencil\0"), Err(PlainError::ProhibitedCharacter));
    assert_eq!(plain_message(None, "user", ""), Err(PlainError::EmptyPassword));
    assert_eq!(plain_message(None, "us\0er", ""), Err(PlainError::EmptyPassword));
    assert_eq!(PlainError::EmptyPassword.to_string(), "The password is empty");
}

#[test]
fn external_over_messages() {
    assert!(external_verify("CN=client", b""));
    assert!(external_verify("CN=client", b"CN=client"));
    for other in [&b"CN=other!"[..], b"CN=client ", b"CN=", b"\0"] {
        assert!(!external_verify("CN=client", other));
    }
    assert!(!external_verify("", b"") && !external_verify("", b"CN=client"));
}

#[test]
fn the_record_of_the_example_in_rfc_7677() {
    let text = "SCRAM-SHA-256$4096:W22ZaJ0SNY7soEsUEjb6gQ==$\
        WG5d8oPm3OtcPnkdi4Uo7BkeZkBFzpcXkuLmtbsT4qY=:wfPLwcE6nTWhTAmQ7tl2KeoiWGPlZqQxSrmfPwDl2dU=";
    assert_eq!(record(ScramVersion::Sha256, &RFC_SALT).to_text(), text);
}

/// A non-ASCII password as typed, what SASLprep prepares it to, and the records of that with the salt above: the text by Python's `stringprep` and `unicodedata`, the keys by its `hashlib` and `hmac`.
const TYPED: &str = "pe\u{301}nci\u{ad}l";
const PREPARED: &str = "p\u{e9}ncil";
const PREPARED_RECORDS: [&str; 3] = [
    "SCRAM-SHA-1$4096:W22ZaJ0SNY7soEsUEjb6gQ==$Ht246LvWj4JbiUgVboZaa3Roj10=:VnM/xDSMFNP7iA5XaO6kdgL3zFE=",
    "SCRAM-SHA-256$4096:W22ZaJ0SNY7soEsUEjb6gQ==$\
        GvjFZBfZSolQ8xuwIHAJlAq3MY+MGTjIrstgvbZu83E=:a+w26Tb6NHrNXdjMF/QgL5GZ3qvfbaNAgGoK6yh4x/E=",
    "SCRAM-SHA-512$4096:W22ZaJ0SNY7soEsUEjb6gQ==$\
        KsGVSzjR/2GTgnCTFuoXTEgtTdhv1X2UYlOIB436eFfyQZSvN7Wcfc90BvtmTOMVnB4GiRHOZJJHNA85LTOSKw==:\
        g6s6sk5II26TgxYONS1psawypQCoArOrIGmhgNDCAgMpL7vo0MABNZh1G+EXYl037K3ZabWKSRDbDdobxkbHUA==",
];

#[test]
fn prepared_passwords() {
    assert_eq!(saslprep(TYPED, Unassigned::Refused).as_deref(), Ok(PREPARED));
    for (version, text) in VERSIONS.into_iter().zip(PREPARED_RECORDS) {
        let password = Password::Prepared(PREPARED);
        let record = ScramRecord::from_password(version, password, &RFC_SALT, 4096).unwrap();
        assert_eq!(record.to_text(), text);
        assert!(record.verify_password(password) && !record.verify_password(Password::Prepared(TYPED)));
        assert!(!record.verify_password(PREPARED));

        let server = || ScramAuthenticator::new(SingleScramCredential::with_record("user", record.clone()));
        let other = ScramRecord::from_password(version, password, &OTHER_SALT, 4096).unwrap();
        let mut client = ScramClient::with_password("user", password, version);
        assert_eq!(log_in(&mut client, &mut server()), Ok(()));
        let keys = client.keys().unwrap();
        let made = CachedKeys::from_password(version, password, &RFC_SALT, 4096).unwrap();
        assert!(keys.client_key() == made.client_key() && keys.server_key() == made.server_key());
        let mut by_both = ScramClient::with_password_and_keys("user", password, keys);
        assert_eq!(log_in(&mut by_both, &mut server()), Ok(()));
        let mut another = ScramAuthenticator::new(SingleScramCredential::with_record("user", other));
        assert_eq!(log_in(&mut by_both, &mut another), Ok(()));

        let refused = Err(Refused::ByClient(ScramErrorKind::NormalizeError));
        assert_eq!(log_in(&mut ScramClient::new("user", PREPARED, version), &mut server()), refused);
        let refused = Err(Refused::ByServer(ServerScramErrorKind::AuthenticationFailed));
        let mut unprepared = ScramClient::with_password("user", Password::Prepared(TYPED), version);
        assert_eq!(log_in(&mut unprepared, &mut server()), refused);
    }
}

#[test]
fn what_texts_are_prepared_to() {
    use SaslprepError::*;
    // RFC 4013, section 3, and an unassigned code point
    for (typed, prepared) in [
        ("I\u{ad}X", Ok("IX")),
        ("user", Ok("user")),
        ("\u{aa}", Ok("a")),
        ("\u{2168}", Ok("IX")),
        ("\u{7}", Err(ProhibitedCharacter)),
        ("\u{627}1", Err(MixedDirections)),
        ("\u{221}", Err(UnassignedCodePoint)),
    ] {
        assert_eq!(saslprep(typed, Unassigned::Refused), prepared.map(str::to_owned), "{:?}", typed);
    }
    assert_eq!(saslprep("\u{221}", Unassigned::Allowed).as_deref(), Ok("\u{221}"));
    // one that is prepared to more bytes than it has
    assert_eq!(saslprep("\u{fdfa}", Unassigned::Refused).map(|text| text.len()), Ok(33));
}

/// A client that could bind a channel: its proof and the server's signature are those of Python's `hashlib` and `hmac`.
#[test]
fn a_client_that_could_bind_a_channel() {
    use ServerScramErrorKind::*;
    let (mut first, mut second) = ([0; 32], [0; 32]);
    (first[0], second[0]) = (1, 2);
    let nonce = "AQAAAAAAAAAAAAAAAAAAAAAAAAAAAAAAAAAAAAAAAAA=";
    let nonces = format!("{}AgAAAAAAAAAAAAAAAAAAAAAAAAAAAAAAAAAAAAAAAAA=", nonce);
    let client_first = format!("y,,n=user,r={}", nonce);
    let client_final = format!("c=eSws,r={},p=SJ1/Pm0x+vAkhmfEkR72IPuVMVkUt0BF477aSDSc3vM=", nonces);
    let other_final = format!("c=biws,r={},p=MIHdNcfet0LbDJOcfcN6eFJrJahL13kbab8XbO3ku+k=", nonces);

    let mut server = server(ScramVersion::Sha256, &RFC_SALT);
    for unread in ["y,,", "y,,n=user", "y,,n=nobody,r=x", &client_first] {
        assert_eq!(server.compute_server_first_message(unread.as_bytes()), Err(CannotParseGs2Header));
    }
    assert_eq!(server.compute_server_first_message(b"y,,\xff"), Err(Utf8Error));

    let mut server = server.accept_cbind_flag_y();
    let server_first = server.compute_server_first_message_with(client_first.as_bytes(), &second).unwrap().unwrap();
    assert_eq!(text(&server_first), format!("r={},s=W22ZaJ0SNY7soEsUEjb6gQ==,i=4096", nonces));
    assert_eq!(server.compute_server_final_message(other_final.as_bytes()), Err(InvalidChannelBinding));
    let server_final = server.compute_server_final_message(client_final.as_bytes()).unwrap().unwrap();
    assert_eq!(text(&server_final), "v=mZx4E2gu+jcdDC0u/pNy5NPrR0Zh6PMH8UcHTIgvIxU=");
    assert_eq!(server.authenticated_user().as_deref(), Some("user"));

    // and one that could not
    let mut client = ScramClient::new("user", "pencil", ScramVersion::Sha256);
    assert_eq!(text(&client.compute_client_first_message_with(&first).unwrap()), format!("n,,n=user,r={}", nonce));
    assert_eq!(log_in(&mut client, &mut server), Ok(()));
}

#[test]
fn what_is_no_record() {
    let version = ScramVersion::Sha256;
    let made = |password: &str, salt: &[u8], count| ScramRecord::from_password(version, password, salt, count).err();
    assert_eq!(made("\u{e9}", &SALT, 4096), Some(RecordError::NotPrintable));
    assert_eq!(made("pencil", &SALT, 0), Some(RecordError::ZeroIterations));
    assert_eq!(made("pencil", &[0; 129], 1), Some(RecordError::TooLong));
    let stored = StoredPassword { salt: &SALT, iterations: 4096, stored_key: &[0; 20], server_key: &[0; 32] };
    assert_eq!(ScramRecord::from_parts(version, &stored).err(), Some(RecordError::KeyLengthMismatch));
    let keys = |key: &[u8]| CachedKeys::from_parts(version, &SALT, 4096, key, key).err();
    assert_eq!(keys(&[0; 64]), Some(RecordError::KeyLengthMismatch));
    assert_eq!(ScramRecord::mock(version, &SECRET, "nobody", 65, 1).err(), Some(RecordError::TooLong));
    let new = SingleScramCredential::new("user", "\u{e9}", version);
    assert_eq!(new.err(), Some(ServerScramErrorKind::NormalizeError));

    let parsed = |text: &str| ScramRecord::parse(text).unwrap_err();
    assert_eq!(parsed("SCRAM-SHA-256"), RecordTextError::PartsMismatch);
    assert_eq!(parsed("SCRAM-MD5$1:YQ==$YQ==:YQ=="), RecordTextError::UnknownMechanism);
    assert_eq!(parsed("SCRAM-SHA-256$01:YQ==$YQ==:YQ=="), RecordTextError::IterationCountParseError);
    assert_eq!(parsed("SCRAM-SHA-256$1:YQ=$YQ==:YQ=="), RecordTextError::Base64DecodeError);
    assert_eq!(parsed("SCRAM-SHA-256$1:YQ==$YQ==:YQ=="), RecordTextError::KeyLengthMismatch);
}

/// The nonce of a client-first message, for a server-first message that is written by hand.
fn challenged(client: &mut ScramClient) -> String {
    let client_first = client.compute_client_first_message();
    text(&client_first).split(",r=").nth(1).unwrap().to_string()
}

#[test]
fn what_a_client_refuses() {
    use ScramErrorKind::*;
    let mut client =
        ScramClient::new("user", "pencil", ScramVersion::Sha256).with_min_iterations(2).with_iteration_limit(4096);
    assert_eq!(client.compute_client_final_message("r=x,s=YQ==,i=2"), Err(IllegalClientState));
    assert_eq!(client.validate_server_final(b"v=YQ=="), Err(IllegalClientState));
    let nonce = challenged(&mut client);
    let rows = [
        (format!("r={}x,s=YQ==", nonce), InsufficientParts),
        (format!("m=x,r={}x,s=YQ==,i=2", nonce), ExtensionNotSupported),
        (format!("n={}x,s=YQ==,i=2", nonce), NonceNotFound),
        ("r=x,s=YQ==,i=2".to_string(), ClientNonceMismatch),
        (format!("r={}x,t=YQ==,i=2", nonce), SaltNotFound),
        (format!("r={}x,s=YQ=,i=2", nonce), Base64DecodeError),
        (format!("r={}x,s=YQ==,j=2", nonce), IterationCountNotFound),
        (format!("r={}x,s=YQ==,i=two", nonce), IterationCountParseError),
        (format!("r={}x,s=YQ==,i=0", nonce), IterationCountParseError),
        (format!("r={}x,s=YQ==,i=1", nonce), IterationCountTooSmall),
        (format!("r={}x,s=YQ==,i=4097", nonce), IterationCountTooLarge),
    ];
    for (message, why) in rows {
        assert_eq!(client.compute_client_final_message(&message), Err(why), "{}", message);
    }
    // None of them has changed the client: it still answers a challenge to its nonce.
    let answer = client.compute_client_final_message(&format!("r={}x,s=YQ==,i=2", nonce)).unwrap();
    assert!(text(&answer).starts_with(&format!("c=biws,r={}x,p=", nonce)));
    assert_eq!(client.validate_server_final(b"\xff"), Err(Utf8Error));
    assert_eq!(client.validate_server_final(b"v=YQ="), Err(Base64DecodeError));
    assert_eq!(client.validate_server_final(b"v=YQ=="), Err(ServerSignatureMismatch));
    assert_eq!(client.validate_server_final(b"x=y"), Err(ServerSignatureMismatch));
    let (wrong, other) = (NAMES[2].1, NAMES[10].1);
    assert_eq!(client.validate_server_final(b"e=invalid-proof"), Err(ServerError(wrong)));
    assert_eq!(client.validate_server_final(b"e=invalid-proof,x=y"), Err(ServerError(wrong)));
    assert_eq!(client.validate_server_final(b"e=of-another-document"), Err(ServerError(other)));
    assert!(client.keys().is_none());

    let mut accented = ScramClient::new("user", "p\u{e9}ncil", ScramVersion::Sha256).with_min_iterations(2);
    let nonce = challenged(&mut accented);
    let refused = accented.compute_client_final_message(&format!("r={}x,s=YQ==,i=2", nonce));
    assert_eq!(refused, Err(NormalizeError));
}

/// The names of RFC 5802, section 7, in its order.
const NAMES: [(&str, ServerError); 11] = [
    ("invalid-encoding", ServerError::InvalidEncoding),
    ("extensions-not-supported", ServerError::ExtensionsNotSupported),
    ("invalid-proof", ServerError::InvalidProof),
    ("channel-bindings-dont-match", ServerError::ChannelBindingsDontMatch),
    ("server-does-support-channel-binding", ServerError::ServerDoesSupportChannelBinding),
    ("channel-binding-not-supported", ServerError::ChannelBindingNotSupported),
    ("unsupported-channel-binding-type", ServerError::UnsupportedChannelBindingType),
    ("unknown-user", ServerError::UnknownUser),
    ("invalid-username-encoding", ServerError::InvalidUsernameEncoding),
    ("no-resources", ServerError::NoResources),
    ("other-error", ServerError::OtherError),
];

#[test]
fn errors_of_a_server() {
    for (name, error) in NAMES {
        let message = format!("e={}", name);
        assert_eq!(error.name(), name);
        assert_eq!(error.to_string(), name);
        assert_eq!(error.message(), message);
        assert_eq!(ServerError::parse(message.as_bytes()), Some(error));
    }
    let none: [&[u8]; 4] = [b"", b"v=", b"x=y,e=invalid-proof", b"e=\xff"];
    for message in none {
        assert_eq!(ServerError::parse(message), None, "{:?}", message);
    }
    // A wrong proof and an unknown user have one message.
    assert_eq!(ServerError::of(ServerScramErrorKind::AuthenticationFailed).message(), "e=invalid-proof");
    assert_eq!(ServerError::of_unknown_user().message(), "e=invalid-proof");
    let text = ScramErrorKind::ServerError(ServerError::InvalidProof).to_string();
    assert_eq!(text, "Client: The server sent an error: invalid-proof");
}

#[test]
fn what_a_server_refuses_first() {
    use ServerScramErrorKind::*;
    let mut server = server(ScramVersion::Sha256, &SALT);
    let rows: [(&[u8], ServerScramErrorKind); 6] = [
        (b"n,,n=user,r=\xff", Utf8Error),
        (b"y,,n=user,r=x", CannotParseGs2Header),
        (b"n,,m=user,r=x", CannotParseUsername),
        (b"n,,n=us=er,r=x", CannotParseUsername),
        (b"n,,n=user", CannotParseClientNonce),
        (b"n,,n=user,s=x", CannotParseClientNonce),
    ];
    for (message, why) in rows {
        assert_eq!(server.compute_server_first_message(message), Err(why), "{:?}", message);
    }
    let long = format!("n,,n=user,r={}", "x".repeat(512));
    assert_eq!(server.compute_server_first_message(long.as_bytes()), Err(TooLong));
    let mut answers_all = self::server(ScramVersion::Sha256, &SALT).mock_unknown_users(SECRET, 16, 4096);
    let mut named = |len| answers_all.compute_server_first_message(format!("n,,n={},r=x", "u".repeat(len)).as_bytes());
    assert!(matches!(named(256), Ok(Some(_))));
    assert_eq!(named(257), Err(TooLong));
    assert_eq!(server.compute_server_final_message(b"c=biws"), Err(IllegalAuthenticatorState));
}

#[test]
fn what_a_server_refuses_last() {
    use ServerScramErrorKind::*;
    let mut client = ScramClient::new("user", "pencil", ScramVersion::Sha256);
    let mut server = server(ScramVersion::Sha256, &SALT);
    let (client_final, server_first) = answered(&mut client, &mut server).unwrap();
    let nonce = text(&server_first).split(',').next().unwrap();
    let other_proof = format!("c=biws,{},p={}=", nonce, "A".repeat(43));
    let rows = [
        (format!("b=biws,{},p=YQ==", nonce), CannotParseClientFinalMessage),
        ("c=biws".to_string(), CannotParseClientFinalMessage),
        (format!("c=eSws,{},p=YQ==", nonce), InvalidChannelBinding),
        (format!("c=biw,{},p=YQ==", nonce), Base64DecodeError),
        (format!("c=biws,{}x,p=YQ==", nonce), IncorrectClientFinalNonce),
        (format!("c=biws,{}", nonce), ProofNotFoundInClientFinal),
        (format!("c=biws,{},p=YQ=", nonce), Base64DecodeError),
        (format!("c=biws,{},p=YQ==", nonce), XorLengthMismatch),
        (other_proof, AuthenticationFailed),
    ];
    for (message, why) in rows {
        assert_eq!(server.compute_server_final_message(message.as_bytes()), Err(why), "{}", message);
    }
    assert_eq!(server.compute_server_final_message(b"\xff"), Err(Utf8Error));
    assert_eq!(server.compute_server_first_message(b"y,,"), Err(CannotParseGs2Header));
    assert_eq!(server.compute_server_first_message(b"n,,n=nobody,r=x"), Ok(None));
    assert_eq!(server.authenticated_user(), None);
    // None of them has closed the challenge: its answer still logs in, and once only.
    let server_final = server.compute_server_final_message(&client_final).unwrap().unwrap();
    assert_eq!(client.validate_server_final(&server_final), Ok(()));
    assert_eq!(server.authenticated_user().as_deref(), Some("user"));
    assert_eq!(server.compute_server_final_message(&client_final), Err(IllegalAuthenticatorState));
    assert_eq!(client.validate_server_final(&server_final), Err(ScramErrorKind::IllegalClientState));
}

#[test]
fn parts_that_are_no_record() {
    let made = |iterations, salt_len, key_len| {
        let (salt, key) = (&[0; 200][..salt_len], &[0; 64][..key_len]);
        let parts = StoredPassword { salt, iterations, stored_key: key, server_key: key };
        ScramRecord::from_parts(ScramVersion::Sha256, &parts).map(drop).map_err(ServerScramErrorKind::from)
    };
    assert_eq!(made(0, 16, 32), Err(ServerScramErrorKind::ZeroIterations));
    assert_eq!(made(1, 129, 32), Err(ServerScramErrorKind::TooLong));
    assert_eq!(made(1, 16, 20), Err(ServerScramErrorKind::KeyLengthMismatch));
    assert_eq!(made(1, 16, 32), Ok(()));
}

#[test]
fn no_debug_shows_a_secret() {
    let version = ScramVersion::Sha256;
    let (mut client, mut server) = (ScramClient::new("user", "pencil", version), server(version, &SALT));
    log_in(&mut client, &mut server).unwrap();
    let (keys, record) = (client.keys().unwrap(), record(version, &SALT));
    let stored = record.as_stored_password();
    let shown = format!("{:?}{:?}{:?}{:?}{:?}{:?}", client, server, keys, record, stored, server.credentials());
    assert!(!shown.contains("pencil"));
    // No array of bytes, and so no key, is shown.
    assert!(!shown.contains('['));
}

#[test]
fn errors_have_the_texts_of_the_library() {
    fn shown(error: &dyn std::error::Error) -> String {
        error.to_string()
    }
    assert_eq!(shown(&ScramErrorKind::NonceNotFound), "Client: Cannot find Nonce in challenge");
    assert_eq!(shown(&ServerScramErrorKind::AuthenticationFailed), "Server: Authentication failed");
    assert_eq!(shown(&RecordError::ZeroIterations), "The iteration count is 0");
    assert_eq!(shown(&RecordTextError::UnknownMechanism), "Record: Unknown SCRAM mechanism");
    assert_eq!(shown(&SaslprepError::MixedDirections), "The text mixes directions");
}

#[test]
fn all_of_it_may_go_to_another_thread() {
    fn may<T: Send + Sync>() {}
    may::<ScramClient>();
    may::<CachedKeys>();
    may::<ScramRecord>();
    may::<Server>();
}
