//! What docs/GUIDE-rust.md shows: all of this file, in its order.

use fe2o3_sasl_proved::io::{log_in, serve, LoginError, Served};
use fe2o3_sasl_proved::*;
use std::collections::HashMap;
use std::fs::OpenOptions;
use std::io::{Read, Write};
use std::os::unix::fs::OpenOptionsExt;
use std::path::Path;
use std::sync::{Arc, RwLock};

pub fn new_client(user: &str, password: &str) -> ScramClient {
    ScramClient::new(user, password, ScramVersion::Sha256)
        .with_min_iterations(4096)
        .with_iteration_limit(100_000)
        .strict(true)
}

/// Logs in. Returns the client's side, and the bytes that belong to AMQP.
pub fn log_in_by(
    client: ScramClient,
    host: &str,
    stream: impl Read + Write,
) -> Result<(ClientNegotiation, Vec<u8>), LoginError> {
    let mut side = ClientNegotiation::new(client, Some(host));
    let rest = log_in(stream, &mut side)?;
    Ok((side, rest))
}

/// A store of users. Clones share it.
#[derive(Clone, Default)]
pub struct Users(Arc<RwLock<HashMap<String, Vec<ScramRecord>>>>);

impl Users {
    /// Adds a user, with a record for each hash that the server offers.
    pub fn add(&self, name: &str, password: &str) -> Result<(), RecordError> {
        let mut records = Vec::new();
        for version in [ScramVersion::Sha256, ScramVersion::Sha512] {
            let salt = &generate_nonce()[..DEFAULT_SALT_LEN];
            records.push(ScramRecord::from_password(version, password, salt, DEFAULT_SCRAM_ITERATIONS)?);
        }
        self.0.write().unwrap().insert(name.to_owned(), records);
        Ok(())
    }
}

impl UserRecords for Users {
    fn records(&self, username: &str) -> Result<Vec<ScramRecord>, StoreError> {
        let users = self.0.read().map_err(|why| StoreError::new(why.to_string()))?;
        Ok(users.get(username).cloned().unwrap_or_default())
    }
}

/// What all connections share. It offers SCRAM with SHA-512 and SHA-256.
pub fn new_server<R: UserRecords + Clone>(users: R, secret: [u8; 32]) -> PasswordServer<R> {
    let server = PasswordServer::new(users);
    server.mock_unknown_users(secret, DEFAULT_SALT_LEN, DEFAULT_SCRAM_ITERATIONS)
}

/// Serves one connection. Returns the user, and the bytes that belong to AMQP.
pub fn serve_one(server: PasswordServer<Users>, is_tls: bool, stream: impl Read + Write) -> Result<Served, LoginError> {
    let mut side = ServerNegotiation::new(server.plain_under_tls(is_tls));
    let served = serve(stream, &mut side);
    eprintln!("{}", log_line(&side));
    served
}

/// Makes the secret of mock records, once. Only the owner can read the file.
pub fn make_secret(path: &Path) -> std::io::Result<()> {
    let mut file = OpenOptions::new().write(true).create_new(true).mode(0o600).open(path)?;
    file.write_all(&generate_nonce())
}

/// A client of SCRAM-SHA-256-PLUS. The login fails if the server does not offer that.
pub fn new_bound_client(client: ScramClient, exported: &[u8]) -> Result<ScramClient, ChannelDataLength> {
    Ok(client.with_channel(Channel::new(ChannelKind::TlsExporter, exported)?))
}

/// The server of a TLS connection. It also accepts clients without a channel.
pub fn new_bound_server<R: UserRecords + Clone>(
    server: PasswordServer<R>,
    exported: &[u8],
) -> Result<PasswordServer<R>, ChannelDataLength> {
    Ok(server.channels([Channel::new(ChannelKind::TlsExporter, exported)?]))
}

/// A store that also says for whom a user may act.
#[derive(Clone)]
pub struct Acting {
    pub users: Users,
    pub rights: Arc<HashMap<String, Vec<String>>>,
}

impl UserRecords for Acting {
    fn records(&self, username: &str) -> Result<Vec<ScramRecord>, StoreError> {
        self.users.records(username)
    }

    fn identities(&self, username: &str) -> Result<Vec<String>, StoreError> {
        Ok(self.rights.get(username).cloned().unwrap_or_default())
    }
}

/// Returns the identity to which the connection belongs after the login. Its client is made by `acting_for`.
pub fn serve_acting(server: PasswordServer<Acting>, stream: impl Read + Write) -> Result<Option<String>, LoginError> {
    let mut side = ServerNegotiation::new(server.accept_authzid(true));
    serve(stream, &mut side)?;
    Ok(side.acts_for().or_else(|| side.authenticated_user()))
}

/// Says what the last init claimed, and why it was rejected. `{:?}` quotes names, which may hold line feeds.
pub fn log_line<R: UserRecords + Clone>(side: &ServerNegotiation<R>) -> String {
    match side.last_attempt() {
        None => "no init".to_owned(),
        Some(LoginAttempt { mechanism, claimed_user, hostname }) => {
            format!("{mechanism:?} {claimed_user:?} {hostname:?}: {:?}, {:?}", side.progress(), side.rejection())
        }
    }
}

/// A client without a password. The keys are those of the side of an earlier login (`keys`).
pub fn new_client_with_keys(user: &str, keys: CachedKeys) -> ScramClient {
    ScramClient::with_keys(user, keys).with_iteration_limit(100_000).strict(true)
}

pub fn has_stale_keys(why: &LoginError) -> bool {
    matches!(why, LoginError::Connection(why) if why.scram() == Some(ScramErrorKind::StaleKeys))
}

/// The parts of keys, which a program stores.
pub type Parts = (ScramVersion, u32, [Vec<u8>; 3]);

pub fn save(keys: &CachedKeys) -> Parts {
    let parts = [keys.salt(), keys.client_key(), keys.server_key()];
    (keys.version(), keys.iterations(), parts.map(<[u8]>::to_vec))
}

pub fn restore((version, iterations, [salt, client_key, server_key]): &Parts) -> Result<CachedKeys, RecordError> {
    CachedKeys::from_parts(*version, salt, *iterations, client_key, server_key)
}
