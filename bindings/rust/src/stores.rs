//! The records of the users in a file.

use crate::records::NO_RECORD;
use crate::{
    sys, ReadLinesError, ReadLinesErrorKind, RecordError, ScramRecord, ScramVersion, StoreError, UserRecords,
    DEFAULT_SALT_LEN, DEFAULT_SCRAM_ITERATIONS,
};
use std::collections::HashMap;
use std::fmt;
use std::sync::Arc;

/// The hashes in the order in which a server offers them: the strongest first.
const HASHES: [ScramVersion; 3] = [ScramVersion::Sha512, ScramVersion::Sha256, ScramVersion::Sha1];

/// The records of the users in a text of lines, as the program `scram users` writes them. A clone shares the records.
///
/// A server for these users, which answers unknown users like known ones:
///
/// ```
/// use fe2o3_sasl_proved::*;
///
/// # fn main() -> Result<(), Box<dyn std::error::Error>> {
/// # let salt = &generate_nonce()[..DEFAULT_SALT_LEN];
/// # let record = ScramRecord::from_password(ScramVersion::Sha256, "pencil", salt, DEFAULT_SCRAM_ITERATIONS)?;
/// # let (text, secret) = (format!("user {record}\n"), generate_nonce());
/// let store = RecordStore::parse_lines(&text)?; // in production, the text of the file
/// let (hashes, (salt_len, iterations)) = (store.hashes(), store.mock_form());
/// let server = PasswordServer::new(store).hashes(&hashes).mock_unknown_users(secret, salt_len, iterations);
/// let side = ServerNegotiation::new(server);
/// # drop(side);
/// # Ok(())
/// # }
/// ```
#[derive(Clone, Default)]
pub struct RecordStore {
    users: Arc<HashMap<String, Vec<ScramRecord>>>,
    forms: Vec<(usize, u32)>,
}

impl RecordStore {
    /// Parses the lines: of each user and record the name with its commas and equals signs escaped, a space, the text of
    /// the record, and a line feed.
    pub fn parse_lines(lines: &str) -> Result<Self, ReadLinesError> {
        test(lines)?;
        let (mut users, mut forms) = (HashMap::<String, Vec<ScramRecord>>::new(), Vec::new());
        for (number, (name, text)) in (1..).zip(lines.split_terminator('\n').filter_map(|line| line.rsplit_once(' '))) {
            let record = ScramRecord::parse(text);
            let record =
                record.map_err(|why| ReadLinesError { line: number, kind: ReadLinesErrorKind::of(why.number()) })?;
            let form = record.form();
            if !forms.contains(&form) {
                forms.push(form);
            }
            users.entry(name.replace("=2C", ",").replace("=3D", "=")).or_default().push(record);
        }
        users.values_mut().for_each(|records| records.sort_by_key(|record| record.version().rank()));
        Ok(Self { users: Arc::new(users), forms })
    }

    /// Returns the hashes for which every user has a record, for [`PasswordServer::hashes`](crate::PasswordServer::hashes);
    /// none if there is no user. Offer only these: a user cannot log in by a hash for which it has no record, and many
    /// clients select the strongest.
    pub fn hashes(&self) -> Vec<ScramVersion> {
        let has = |records: &Vec<ScramRecord>, version| records.iter().any(|record| record.version() == version);
        let is_shared = |version: &ScramVersion| self.users.values().all(|records| has(records, *version));
        HASHES.into_iter().filter(|version| !self.users.is_empty() && is_shared(version)).collect()
    }

    /// Returns each salt length with an iteration count that records have, in the order of their first lines. If there are
    /// several, the answers show which names exist, since mock records have one.
    pub fn forms(&self) -> &[(usize, u32)] {
        &self.forms
    }

    /// Returns the salt length and the iteration count by which mock records look like the records of the store, for
    /// [`PasswordServer::mock_unknown_users`](crate::PasswordServer::mock_unknown_users): those of the first line. Without
    /// lines these are [`DEFAULT_SALT_LEN`] and [`DEFAULT_SCRAM_ITERATIONS`].
    pub fn mock_form(&self) -> (usize, u32) {
        self.forms.first().copied().unwrap_or((DEFAULT_SALT_LEN, DEFAULT_SCRAM_ITERATIONS))
    }

    /// Returns the first record of a user and a hash, for [`plain_verify`](crate::plain_verify). If there is none, returns a
    /// mock record by this secret and [`Self::mock_form`], so that the answers do not show which names exist. The errors are
    /// those of [`ScramRecord::mock`].
    pub fn record(
        &self,
        username: &str,
        version: ScramVersion,
        mock_secret: &[u8; 32],
    ) -> Result<ScramRecord, RecordError> {
        let of_user = self.users.get(username);
        let found = of_user.and_then(|records| records.iter().find(|record| record.version() == version));
        let (salt_len, iterations) = self.mock_form();
        match found {
            Some(record) => Ok(record.clone()),
            None => ScramRecord::mock(version, mock_secret, username, salt_len, iterations),
        }
    }
}

/// The records of a user, those of SHA-256 first, of which PLAIN takes the first.
impl UserRecords for RecordStore {
    fn records(&self, username: &str) -> Result<Vec<ScramRecord>, StoreError> {
        Ok(self.users.get(username).cloned().unwrap_or_default())
    }
}

impl fmt::Debug for RecordStore {
    fn fmt(&self, f: &mut fmt::Formatter<'_>) -> fmt::Result {
        f.debug_struct("RecordStore").field("users", &self.users.len()).finish_non_exhaustive()
    }
}

/// Returns an error if any line cannot be parsed.
fn test(lines: &str) -> Result<(), ReadLinesError> {
    let (mut line, mut record) = (0, NO_RECORD);
    let (name, version) = ("", ScramVersion::Sha256.number());
    // SAFETY: the texts are slices that live through the call, and the number and the struct are of this function.
    let status = unsafe {
        sys::fe2o3_scram_lines_find(
            lines.as_ptr(),
            lines.len(),
            name.as_ptr(),
            name.len(),
            version,
            &mut line,
            &mut record,
        )
    };
    match status {
        sys::OK | sys::NO_SUCH_USER => Ok(()),
        why => Err(ReadLinesError { line, kind: ReadLinesErrorKind::of(why) }),
    }
}
