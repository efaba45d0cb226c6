//! What the two programs share: base64, users' lines, and how a login is told.

use fe2o3_sasl_proved::{generate_nonce, Channel, ChannelKind, ScramAuthenticator, ScramRecord, ScramVersion};
use fe2o3_sasl_proved::{PasswordServer, StoreError, UserRecords};
use std::io::BufRead;
use std::sync::Arc;

/// What goes wrong, in words.
pub type Failure = Box<dyn std::error::Error>;

const DIGITS: &[u8; 64] = b"ABCDEFGHIJKLMNOPQRSTUVWXYZabcdefghijklmnopqrstuvwxyz0123456789+/";

/// The base64 of bytes.
pub fn to_base64(bytes: &[u8]) -> String {
    let mut text = String::new();
    for group in bytes.chunks(3) {
        let number = (0..3).fold(0, |sum, at| sum << 8 | u32::from(*group.get(at).unwrap_or(&0)));
        for at in 0..4 {
            let digit = DIGITS[(number >> (18 - 6 * at) & 63) as usize];
            text.push(if at <= group.len() { digit as char } else { '=' });
        }
    }
    text
}

/// The bytes of a base64; `None` where it is none.
pub fn from_base64(text: &str) -> Option<Vec<u8>> {
    let (mut number, mut bits, mut bytes) = (0, 0, Vec::new());
    for digit in text.trim_end_matches('=').bytes() {
        number = (number << 6 | DIGITS.iter().position(|known| *known == digit)? as u32) & 0xff_ffff;
        bits += 6;
        if bits >= 8 {
            bits -= 8;
            bytes.push((number >> bits) as u8);
        }
    }
    Some(bytes)
}

/// The first line of standard input, which is the password.
pub fn password() -> Result<String, Failure> {
    let mut line = String::new();
    std::io::stdin().lock().read_line(&mut line)?;
    Ok(line.trim_end_matches('\n').to_owned())
}

/// The channel of a word, KIND:HEX; `None` if it is none.
pub fn channel_of(word: &str) -> Option<Channel> {
    let (kind, digits) = word.split_once(':')?;
    let kinds = [ChannelKind::TlsUnique, ChannelKind::TlsServerEndPoint, ChannelKind::TlsExporter];
    let kind = kinds.into_iter().find(|known| known.name() == kind)?;
    let bytes = (0..digits.len()).step_by(2).map(|at| u8::from_str_radix(digits.get(at..at + 2)?, 16).ok());
    Channel::new(kind, &bytes.collect::<Option<Vec<u8>>>()?).ok()
}

/// The version of a mechanism, whose name may end with `-PLUS`.
pub fn version_of(mechanism: &str) -> Option<ScramVersion> {
    let mechanism = mechanism.strip_suffix("-PLUS").unwrap_or(mechanism);
    [ScramVersion::Sha1, ScramVersion::Sha256, ScramVersion::Sha512]
        .into_iter()
        .find(|version| version.mechanism() == mechanism)
}

/// Whether a word is an identity, for:IDENTITY.
pub fn is_identity(word: &str) -> bool {
    word.starts_with("for:")
}

/// Whether a server of these options accepts authorization identities.
pub fn accepts_identities(options: &[&str]) -> bool {
    options.iter().any(|word| is_identity(word))
}

/// The identities of words, for:IDENTITY; an empty one adds none.
pub fn identities<'a>(options: &[&'a str]) -> Vec<&'a str> {
    options.iter().filter_map(|word| word.strip_prefix("for:")).filter(|name| !name.is_empty()).collect()
}

/// What a server says of a user who acts for an identity, if there is one.
pub fn named(name: String, acts_for: Option<String>) -> String {
    match acts_for {
        Some(identity) => format!("{name} for {identity}"),
        None => name,
    }
}

/// The users of a file, their records of one version, and the identities that each of them may act for.
pub struct Users {
    version: ScramVersion,
    records: Vec<(String, ScramRecord)>,
    identities: Vec<String>,
}

impl Users {
    /// Reads a file of users' lines: an escaped name, a space, a record.
    pub fn read(file: &str, version: ScramVersion) -> Result<Self, Failure> {
        let mut records = Vec::new();
        for line in std::fs::read_to_string(file)?.lines() {
            let (name, record) = line.rsplit_once(' ').ok_or("a line without a record")?;
            let record = ScramRecord::parse(record)?;
            if record.version() == version {
                records.push((name.replace("=2C", ",").replace("=3D", "="), record));
            }
        }
        Ok(Users { version, records, identities: Vec::new() })
    }

    /// The users, each of whom may act for these identities.
    pub fn acting_for(self, identities: &[&str]) -> Self {
        Users { identities: identities.iter().map(|name| name.to_string()).collect(), ..self }
    }

    /// A server of connections over these users, which answers unknown users as known ones.
    pub fn server(self) -> PasswordServer<Arc<Users>> {
        PasswordServer::new(Arc::new(self)).mock_unknown_users(generate_nonce(), 16, 4096)
    }

    /// A server over these users, which hides whom it does not know.
    pub fn authenticator(self) -> ScramAuthenticator<Arc<Users>> {
        ScramAuthenticator::new(Arc::new(self)).mock_unknown_users(generate_nonce(), 16, 4096)
    }
}

impl UserRecords for Users {
    fn records(&self, username: &str) -> Result<Vec<ScramRecord>, StoreError> {
        let of_user = self.records.iter().filter(|(name, _)| name == username);
        Ok(of_user.map(|(_, record)| record.clone()).collect())
    }

    fn identities(&self, _username: &str) -> Result<Vec<String>, StoreError> {
        Ok(self.identities.clone())
    }

    fn scram_version(&self) -> &ScramVersion {
        &self.version
    }
}

/// Says how a login ended, and answers the status of the program.
pub fn told(what: &str, ended: &Result<(), Failure>) -> i32 {
    match ended {
        Ok(()) => println!("{what}: Done"),
        Err(why) => println!("not {what}: {why}"),
    }
    i32::from(ended.is_err())
}
