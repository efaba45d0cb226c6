//! Logs in to a server over TCP: `client HOST PORT USER`, with the password as the first line of standard input. It uses the
//! strongest mechanism of SCRAM that the server offers. It prints how the login ended. The exit status is 0 if both sides
//! are authenticated.

use fe2o3_sasl_proved::io::log_in;
use fe2o3_sasl_proved::*;
use std::error::Error;
use std::net::TcpStream;
use std::time::Duration;
use std::{env, io, iter, process::ExitCode};

/// The time that a read or a write may take.
const LIMIT: Option<Duration> = Some(Duration::from_secs(10));

/// Logs in, and closes the connection. Returns the mechanism.
fn run() -> Result<&'static str, Box<dyn Error>> {
    let words: Vec<String> = env::args().skip(1).collect();
    let [host, port, user] = &words[..] else { return Err("client HOST PORT USER".into()) };
    let mut password = String::new();
    io::stdin().read_line(&mut password)?;

    let policy = ClientPolicy::scram(user, password.trim_end_matches(['\r', '\n']));
    let mut side = ClientNegotiation::select(policy, Some(host));
    let socket = TcpStream::connect((host.as_str(), port.parse()?))?;
    socket.set_read_timeout(LIMIT)?;
    socket.set_write_timeout(LIMIT)?;
    let _rest = log_in(&socket, &mut side)?;
    // AMQP begins here: `_rest` are its first bytes, and `socket` reads those after them.
    Ok(side.mechanism().unwrap_or_default())
}

fn main() -> ExitCode {
    match run() {
        Ok(mechanism) => {
            println!("logged in: {mechanism}");
            ExitCode::SUCCESS
        }
        Err(why) => {
            let causes = iter::successors(Some(why.as_ref() as &dyn Error), |why| (*why).source());
            println!("not logged in: {}", causes.map(|why| why.to_string()).collect::<Vec<_>>().join(": "));
            ExitCode::FAILURE
        }
    }
}
