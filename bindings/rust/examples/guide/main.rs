//! Makes each login that docs/GUIDE-rust.md shows, over pairs of sockets, and prints how it ended.

mod tasks;

use fe2o3_sasl_proved::io::LoginError;
use fe2o3_sasl_proved::*;
use std::collections::HashMap;
use std::error::Error;
use std::os::unix::net::UnixStream;
use std::sync::Arc;
use std::{env, fs, process, thread};
use tasks::*;

/// What a client returns: its side, with the bytes that belong to AMQP.
type LoggedIn = Result<(ClientNegotiation, Vec<u8>), LoginError>;

/// Runs both sides of a login, each over its end of a pair of sockets.
fn meet<T>(client: ScramClient, server: impl FnOnce(&UnixStream) -> T) -> std::io::Result<(LoggedIn, T)> {
    let (near, far) = UnixStream::pair()?;
    let client = thread::spawn(move || log_in_by(client, "broker.example", &near));
    let served = server(&far);
    drop(far);
    Ok((client.join().expect("a client does not panic"), served))
}

/// Logs in by a server of these users. Returns the mechanism and the user, or why the client failed.
fn by(client: ScramClient, server: PasswordServer<Users>) -> Result<String, Box<dyn Error>> {
    let (client, served) = meet(client, |stream| serve_one(server, true, stream))?;
    Ok(match (client, served) {
        (Ok((side, _)), Ok(served)) => format!("{}, {:?}", side.mechanism().unwrap_or_default(), served.user),
        (Err(why), Err(_)) if has_stale_keys(&why) => "stale keys".to_owned(),
        (Err(LoginError::Rejected(why) | LoginError::Connection(why)), Err(_)) => format!("{why:?}"),
        (client, served) => format!("{:?}, {:?}", client.map(|_| ()), served),
    })
}

/// Logs in for an identity. Returns the identity of the connection, or why the client failed.
fn acting(identity: &str, server: PasswordServer<Acting>) -> Result<String, Box<dyn Error>> {
    let client = new_client("user", "pencil").acting_for(identity)?;
    let (client, served) = meet(client, |stream| serve_acting(server, stream))?;
    Ok(match (client, served) {
        (Ok(_), Ok(owner)) => format!("{owner:?}"),
        (client, _) => format!("{:?}", client.map(|_| ())),
    })
}

/// Makes the secret of mock records, and reads it.
fn secret() -> Result<[u8; 32], Box<dyn Error>> {
    let path = env::temp_dir().join(format!("fe2o3-sasl-guide-{}.secret", process::id()));
    make_secret(&path)?;
    let bytes = fs::read(&path);
    fs::remove_file(&path)?;
    bytes?.try_into().map_err(|_| "the secret does not have 32 bytes".into())
}

/// Returns the keys of a login by password, saved and restored.
fn keys_of_a_login(server: PasswordServer<Users>) -> Result<CachedKeys, Box<dyn Error>> {
    let (client, _) = meet(new_client("user", "pencil"), |stream| serve_one(server, false, stream))?;
    let (side, _) = client?;
    Ok(restore(&save(&side.keys().ok_or("a login has keys")?))?)
}

fn main() -> Result<(), Box<dyn Error>> {
    let (users, secret) = (Users::default(), secret()?);
    users.add("user", "pencil")?;
    let server = || new_server(users.clone(), secret);
    println!("a login: {}", by(new_client("user", "pencil"), server())?);
    println!("a wrong password: {}", by(new_client("user", "crayon"), server())?);
    println!("an unknown user: {}", by(new_client("nobody", "pencil"), server())?);

    let (near, far) = ([7; 32], [8; 32]);
    let bound = |exported| new_bound_client(new_client("user", "pencil"), exported);
    println!("a channel: {}", by(bound(&near)?, new_bound_server(server(), &near)?)?);
    println!("another channel: {}", by(bound(&near)?, new_bound_server(server(), &far)?)?);
    println!("a channel that is not bound: {}", by(bound(&near)?, server())?);

    let rights = HashMap::from([("user".to_owned(), vec!["alice".to_owned()])]);
    let store = Acting { users: users.clone(), rights: Arc::new(rights) };
    for identity in ["alice", "user", "bob"] {
        println!("for {identity}: {}", acting(identity, new_server(store.clone(), secret))?);
    }

    let keys = keys_of_a_login(server())?;
    println!("keys: {}", by(new_client_with_keys("user", keys.clone()), server())?);
    users.add("user", "pencil")?;
    println!("other records: {}", by(new_client_with_keys("user", keys), server())?);
    Ok(())
}
