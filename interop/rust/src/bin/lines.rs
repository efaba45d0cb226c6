//! The program of `../lines.c`, by the crate for Rust: the same words, the same lines.

use fe2o3_sasl_proved::{external_verify, plain_claimed_identity, plain_claimed_user, plain_message};
use fe2o3_sasl_proved::{plain_verify, saslprep, Channel};
use fe2o3_sasl_proved::{Password, PlainPasswords, ScramClient, ScramRecord, ScramVersion, ServerScramErrorKind};
use fe2o3_sasl_proved::{Unassigned, UserRecords};
use interop::{accepts_identities, identities, is_identity, named};
use interop::{channel_of, from_base64, password, to_base64, told, version_of, Failure, Users};
use std::io::{BufRead, BufReader, Write};
use std::net::{TcpListener, TcpStream};

const ENDED: &str = "the other side ended";
/// The mechanisms with one message only, that of the client.
const ONE_MESSAGE: [&str; 3] = ["PLAIN", "ANONYMOUS", "EXTERNAL"];

/// A connection, a line at a time.
struct Lines {
    channel: BufReader<TcpStream>,
}

impl Lines {
    fn line(&mut self) -> Result<String, Failure> {
        let mut line = String::new();
        match self.channel.read_line(&mut line) {
            Ok(len) if len > 0 => Ok(line.trim_end_matches(['\r', '\n']).to_owned()),
            _ => Err(ENDED.into()),
        }
    }

    fn message(&mut self) -> Result<Vec<u8>, Failure> {
        from_base64(&self.line()?).ok_or_else(|| ENDED.into())
    }

    fn say(&mut self, message: &[u8]) -> Result<(), Failure> {
        let line = to_base64(message) + "\n";
        self.channel.get_mut().write_all(line.as_bytes()).map_err(|_| ENDED.into())
    }
}

/// A connection to a server, after its first two lines.
fn connected(port: u16) -> Result<Lines, Failure> {
    let mut lines = Lines { channel: BufReader::new(TcpStream::connect(("127.0.0.1", port))?) };
    lines.line()?;
    lines.line()?;
    Ok(lines)
}

fn log_in_by_message(port: u16, message: &[u8]) -> Result<(), Failure> {
    let mut lines = connected(port)?;
    lines.say(message)?;
    lines.message()?;
    lines.say(b"")
}

fn log_in(port: u16, client: &mut ScramClient) -> Result<(), Failure> {
    let mut lines = connected(port)?;
    let first = client.compute_client_first_message();
    lines.say(&first)?;
    let challenge = lines.message()?;
    let last = client.compute_client_final_message(std::str::from_utf8(&challenge)?)?;
    lines.say(&last)?;
    client.validate_server_final(&lines.message()?)?;
    lines.say(b"")
}

/// The message of a mechanism with one message: that of PLAIN, for the identity of the options, or the user name itself.
fn message_of(mechanism: &str, user: &str, options: &[&str]) -> Result<Vec<u8>, Failure> {
    let (password, identity) = (password()?, identities(options).pop().unwrap_or(""));
    Ok(match (mechanism, options.contains(&"prepared")) {
        ("PLAIN", true) => plain_message(Some(identity), user, saslprep(&password, Unassigned::Allowed)?.as_ref())?,
        ("PLAIN", false) => plain_message(Some(identity), user, &password)?,
        _ => user.as_bytes().to_vec(),
    })
}

fn client_of(user: &str, version: ScramVersion, prepared: bool) -> Result<ScramClient, Failure> {
    let password = password()?;
    Ok(match prepared {
        true => {
            let password = saslprep(&password, Unassigned::Allowed)?;
            ScramClient::with_password(user, Password::Prepared(&password), version)
        }
        false => ScramClient::new(user, password, version),
    })
}

/// A client of this mechanism that has a channel: it binds the channel, or was not offered a mechanism with `-PLUS`.
fn with_channel(client: ScramClient, channel: Channel, mechanism: &str) -> ScramClient {
    match mechanism.ends_with("-PLUS") {
        true => client.with_channel(channel),
        false => client.channel_not_offered(),
    }
}

fn run_client(words: &[&str], options: &[&str]) -> Result<i32, Failure> {
    let (port, user) = (words[0].parse()?, words[2]);
    if ONE_MESSAGE.contains(&words[1]) {
        let message = message_of(words[1], user, options)?;
        return Ok(told("logged in", &log_in_by_message(port, &message)));
    }
    let (least, most) = (words[3].parse()?, words[4].parse()?);
    let version = version_of(words[1]).ok_or("no such mechanism")?;
    let mut client =
        client_of(user, version, options.contains(&"prepared"))?.with_min_iterations(least).with_iteration_limit(most);
    let channel = options.iter().find_map(|word| channel_of(word));
    if let Some(channel) = channel {
        client = with_channel(client, channel, words[1]);
    }
    if let Some(identity) = identities(options).pop() {
        client = client.acting_for(identity)?;
    }
    let ended = log_in(port, &mut client);
    let status = told("logged in", &ended);
    if ended.is_err() || !options.contains(&"again") {
        return Ok(status);
    }
    let again = match client.keys() {
        Some(keys) => {
            let mut client = ScramClient::with_keys(user, keys);
            if let Some(channel) = channel {
                client = with_channel(client, channel, words[1]);
            }
            log_in(port, &mut client)
        }
        None => Err("no keys".into()),
    };
    Ok(told("logged in by keys", &again))
}

/// Lets the client log in that sent this first message, and returns its name, and the identity that it acts for.
fn serve_scram(lines: &mut Lines, first: &[u8], users: Users, options: &[&str]) -> Result<String, Failure> {
    let users = users.acting_for(&identities(options));
    let mut server = users.authenticator().accept_authzid(accepts_identities(options));
    if options.contains(&"unbound") {
        server = server.accept_cbind_flag_y();
    }
    server = server.reject_misplaced(options.contains(&"misplaced"));
    if let Some(channel) = options.iter().find_map(|word| channel_of(word)) {
        server = server.with_channels([channel]);
    }
    let challenge = server.compute_server_first_message(first)?.ok_or("no such user")?;
    lines.say(&challenge)?;
    let last = lines.message()?;
    let answer = server.compute_server_final_message(&last)?.ok_or("no such user")?;
    lines.say(&answer)?;
    let name = server.authenticated_user().ok_or("no name")?;
    Ok(named(name, server.acts_for()))
}

/// Tests a message of PLAIN, and returns the name of its user, and the identity that it acts for if the server accepts one.
fn serve_plain(message: &[u8], users: &Users, options: &[&str]) -> Result<String, ServerScramErrorKind> {
    let name = plain_claimed_user(message).unwrap_or_default();
    let record = users.records(&name)?.pop();
    let identities: Vec<String> = identities(options).into_iter().map(String::from).collect();
    let allowed = accepts_identities(options).then_some(&identities[..]);
    plain_verify(record.as_ref(), passwords(options), 4096, allowed, message)?;
    if allowed.is_none() {
        return Ok(name);
    }
    Ok(named(name, plain_claimed_identity(message)))
}

/// Tests a message of EXTERNAL against the name that the transport authenticated, and returns this name.
fn serve_external(message: &[u8], name: &str) -> Result<String, ServerScramErrorKind> {
    match external_verify(name, message) {
        true => Ok(name.to_owned()),
        false => Err(ServerScramErrorKind::AuthenticationFailed),
    }
}

fn serve(channel: TcpStream, users: Users, words: &[&str], options: &[&str]) -> Result<String, Failure> {
    let mut lines = Lines { channel: BufReader::new(channel) };
    if lines.line()? != words[1] {
        return Err(ENDED.into());
    }
    let message = lines.message()?;
    let name = match words[1] {
        "PLAIN" => serve_plain(&message, &users, options)?,
        "ANONYMOUS" => String::new(),
        "EXTERNAL" => serve_external(&message, words.get(3).unwrap_or(&""))?,
        _ => serve_scram(&mut lines, &message, users, options)?,
    };
    if ONE_MESSAGE.contains(&words[1]) {
        lines.say(b"")?;
    }
    // (the server does not depend on whether the client accepts its signature)
    let _ = lines.line().and_then(|_| lines.say(b""));
    Ok(name)
}

/// Which passwords a server of PLAIN expects.
fn passwords(options: &[&str]) -> PlainPasswords {
    match options.first() {
        Some(&"prepared") => PlainPasswords::Prepared,
        Some(&"saslprep") => PlainPasswords::Saslprep,
        _ => PlainPasswords::Typed,
    }
}

fn run_server(words: &[&str], options: &[&str]) -> Result<i32, Failure> {
    let version = match ONE_MESSAGE.contains(&words[1]) {
        true => ScramVersion::Sha256,
        false => version_of(words[1]).ok_or("no such mechanism")?,
    };
    let listener = TcpListener::bind(("127.0.0.1", 0))?;
    println!("{}", listener.local_addr()?.port());
    for _ in 0..words[2].parse()? {
        let (channel, _) = listener.accept()?;
        match serve(channel, Users::read(words[0], version)?, words, options) {
            Ok(name) => println!("logged in: {name}"),
            Err(why) => println!("not logged in: {why}"),
        }
    }
    Ok(0)
}

fn record_of(version: ScramVersion, salt: &str, count: &str, prepared: bool) -> Result<ScramRecord, Failure> {
    let (password, count) = (password()?, count.parse()?);
    let salt = from_base64(salt).ok_or("no base64")?;
    if prepared {
        let password = saslprep(&password, Unassigned::Refused)?;
        return Ok(ScramRecord::from_password(version, Password::Prepared(&password), &salt, count)?);
    }
    Ok(ScramRecord::from_password(version, &password, &salt, count)?)
}

fn run_record(words: &[&str], options: &[&str]) -> Result<i32, Failure> {
    let version = version_of(words[0]).ok_or("no such mechanism")?;
    match record_of(version, words[1], words[2], options.contains(&"prepared")) {
        Ok(record) => println!("{record}"),
        Err(why) => println!("no record: {why}"),
    }
    Ok(0)
}

fn is_of(record: &ScramRecord, password: &str, prepared: bool) -> bool {
    match prepared {
        true => saslprep(password, Unassigned::Allowed)
            .is_ok_and(|prepared| record.verify_password(Password::Prepared(&prepared))),
        false => record.verify_password(password),
    }
}

fn run_verify(words: &[&str], options: &[&str]) -> Result<i32, Failure> {
    let password = password()?;
    let ended: Result<(), Failure> = match ScramRecord::parse(words[0]) {
        Ok(record) if is_of(&record, &password, options.contains(&"prepared")) => Ok(()),
        Ok(_) => Err("The password is not that of the record".into()),
        Err(why) => Err(why.into()),
    };
    Ok(told("verified", &ended))
}

fn main() -> Result<(), Failure> {
    let words: Vec<String> = std::env::args().skip(1).collect();
    let words: Vec<&str> = words.iter().map(String::as_str).collect();
    let is_option = |word: &&str| {
        ["prepared", "again", "unbound", "misplaced", "saslprep"].contains(word)
            || is_identity(word)
            || channel_of(word).is_some()
    };
    let count = words.len() - words.iter().rev().take_while(|word| is_option(word)).count();
    let (words, options) = words.split_at(count);
    let status = match (words.first().copied(), words.len()) {
        (Some("client"), 6) => run_client(&words[1..], options)?,
        (Some("server"), 4 | 5) => run_server(&words[1..], options)?,
        (Some("record"), 4) => run_record(&words[1..], options)?,
        (Some("verify"), 2) => run_verify(&words[1..], options)?,
        _ => 2,
    };
    std::process::exit(status)
}
