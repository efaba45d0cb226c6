//! Logins of AMQP 1.0 over TCP on the loopback, by the crate for Rust: what `bindings/c/client.c` and
//! `bindings/c/server.c` do in C.
//!
//! ```text
//! frames client HOST PORT MECHANISM USER [challenge] [for:IDENTITY]
//! frames server USERS LOGINS MECHANISM [PEER [challenge | ask | for:IDENTITY]..]
//! ```
//!
//! The client takes the password from standard input. `EXTERNAL as` and `ANONYMOUS as` send USER as the initial
//! response, which can be empty. With `challenge` the client also accepts the server's signature in a challenge, and the
//! server sends it there. With `ask` the server answers an init without an initial response by an empty challenge. With
//! `for:` the client acts for IDENTITY, and each user of the server may act for it. The server offers this mechanism only,
//! where EXTERNAL accepts the name PEER.

use fe2o3_sasl_proved::{ClientNegotiation, Progress, SaslProfile, ScramClient, ScramVersion, ServerNegotiation};
use interop::{accepts_identities, identities, is_identity, named, password, told, version_of, Failure, Users};
use std::io::{Read, Write};
use std::net::{Shutdown, TcpListener, TcpStream};
use std::time::{Duration, Instant};

fn profile(mechanism: &str, user: &str, by_challenge: bool) -> Result<SaslProfile, Failure> {
    Ok(match mechanism {
        "PLAIN" => SaslProfile::Plain { username: user.to_owned(), password: password()? },
        "ANONYMOUS" => SaslProfile::Anonymous,
        "EXTERNAL" => SaslProfile::External,
        "EXTERNAL as" => SaslProfile::ExternalAs(user.to_owned()),
        "ANONYMOUS as" => SaslProfile::AnonymousAs(user.to_owned()),
        _ => ScramClient::new(user, password()?, version_of(mechanism).ok_or("no such mechanism")?)
            .with_min_iterations(4096)
            .with_iteration_limit(1_000_000)
            .signature_by_challenge(by_challenge)
            .into(),
    })
}

/// What the programs in C also say where the other side ends the connection first.
const NO_CONNECTION: &str = "no connection";

/// What came of the connection, and an error where the other side ends it first.
fn came(channel: &mut TcpStream, room: &mut [u8]) -> Result<usize, Failure> {
    match channel.read(room) {
        Ok(len) if len > 0 => Ok(len),
        _ => Err(NO_CONNECTION.into()),
    }
}

fn ended(progress: Progress) -> Result<(), Failure> {
    match progress {
        Progress::Failed(why) => Err(why.into()),
        _ => Ok(()),
    }
}

fn log_in(host: &str, port: u16, profile: SaslProfile) -> Result<(), Failure> {
    let mut side = ClientNegotiation::new(profile, Some(host));
    let mut channel = TcpStream::connect((host, port))?;
    let mut room = [0; 4096];
    channel.write_all(&ClientNegotiation::open())?;
    while side.progress() == Progress::InProgress {
        let len = came(&mut channel, &mut room)?;
        let received = side.receive(&room[..len])?;
        channel.write_all(&received.sent)?;
    }
    ended(side.progress())
}

fn run_client(words: &[&str]) -> Result<i32, Failure> {
    let mut profile = profile(words[2], words[3], words.contains(&"challenge"))?;
    if let Some(identity) = identities(&words[4..]).pop() {
        profile = profile.acting_for(identity).ok_or("this identity is not sent")?;
    }
    match log_in(words[0], words[1].parse()?, profile) {
        Err(why) if why.to_string() == NO_CONNECTION => {
            println!("{NO_CONNECTION}");
            Ok(2)
        }
        ended => Ok(told("logged in", &ended)),
    }
}

/// What the server offers: a mechanism, the name that EXTERNAL accepts, and its options.
struct Offer<'a> {
    mechanism: &'a str,
    peer: &'a str,
    options: &'a [&'a str],
}

/// The options of a server: its signature goes into a challenge, and it asks for an initial response.
const OPTIONS: [&str; 2] = ["challenge", "ask"];

fn serve(channel: &mut TcpStream, users: Users, offer: &Offer) -> Result<String, Failure> {
    let mechanism = offer.mechanism;
    let hashes: Vec<_> = version_of(mechanism).into_iter().collect();
    let server = users
        .acting_for(&identities(offer.options))
        .server()
        .accept_authzid(accepts_identities(offer.options))
        .hashes(&hashes)
        .plain_under_tls(mechanism == "PLAIN")
        .anonymous(mechanism == "ANONYMOUS")
        .external(offer.peer)
        .signature_by_challenge(offer.options.contains(&OPTIONS[0]))
        .initial_response_by_challenge(offer.options.contains(&OPTIONS[1]));
    let mut side = ServerNegotiation::new(server);
    let mut room = [0; 4096];
    while side.progress() == Progress::InProgress {
        let len = came(channel, &mut room)?;
        let received = side.receive(&room[..len])?;
        channel.write_all(&received.sent)?;
    }
    ended(side.progress())?;
    Ok(named(side.authenticated_user().unwrap_or_default(), side.acts_for()))
}

/// Closes a connection like `bindings/c/server.c`: ends the sending side, and discards what arrives until the client
/// ends, for two seconds and 64 KiB at most.
fn hang_up(mut channel: TcpStream) {
    let (until, mut left, mut room) = (Instant::now() + Duration::from_secs(2), 65536_usize, [0; 4096]);
    let _ = channel.shutdown(Shutdown::Write);
    while left > 0 {
        let wait = until.saturating_duration_since(Instant::now());
        if wait.is_zero() || channel.set_read_timeout(Some(wait)).is_err() {
            return;
        }
        match channel.read(&mut room) {
            Ok(len @ 1..) => left = left.saturating_sub(len),
            _ => return,
        }
    }
}

fn run_server(words: &[&str]) -> Result<i32, Failure> {
    let version = version_of(words[2]).unwrap_or(ScramVersion::Sha256);
    let peer = words.get(3).copied().unwrap_or("");
    let offer = Offer { mechanism: words[2], peer, options: words.get(4..).unwrap_or_default() };
    let listener = TcpListener::bind(("127.0.0.1", 0))?;
    println!("{}", listener.local_addr()?.port());
    for _ in 0..words[1].parse()? {
        let (mut channel, _) = listener.accept()?;
        match serve(&mut channel, Users::read(words[0], version)?, &offer) {
            Ok(name) => println!("logged in: {name}"),
            Err(why) if why.to_string() == NO_CONNECTION => println!("{NO_CONNECTION}"),
            Err(why) => println!("not logged in: {why}"),
        }
        hang_up(channel);
    }
    Ok(0)
}

fn main() -> Result<(), Failure> {
    let words: Vec<String> = std::env::args().skip(1).collect();
    let words: Vec<&str> = words.iter().map(String::as_str).collect();
    let status = match (words.first().copied(), words.len()) {
        (Some("client"), 5..) if words[5..].iter().all(|word| *word == "challenge" || is_identity(word)) => {
            run_client(&words[1..])?
        }
        (Some("server"), 4..) if words.iter().skip(5).all(|word| OPTIONS.contains(word) || is_identity(word)) => {
            run_server(&words[1..])?
        }
        _ => 2,
    };
    std::process::exit(status)
}
