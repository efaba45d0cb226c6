//! The programs `examples/server.rs` and `examples/client.rs` against each other, as `cargo test` has built them.

mod common;

use std::io::{BufRead, BufReader, Write};
use std::path::PathBuf;
use std::process::{Child, Command, Stdio};

/// A running program, which ends with this value.
struct Running(Child);

impl Drop for Running {
    fn drop(&mut self) {
        let _ = self.0.kill();
        let _ = self.0.wait();
    }
}

/// Returns the program of an example, which is in the folder `examples` beside that of this test.
fn example(name: &str) -> Command {
    let test = std::env::current_exe().unwrap();
    let program: PathBuf = test.parent().unwrap().with_file_name("examples").join(name);
    assert!(program.is_file(), "{} is missing: `cargo build --examples` makes it", program.display());
    Command::new(program)
}

/// Runs the client, and returns what it prints, and whether it succeeded.
fn log_in(port: &str, user: &str, password: &str) -> (String, bool) {
    let mut client = example("client");
    client.args(["127.0.0.1", port, user]).stdin(Stdio::piped()).stdout(Stdio::piped());
    let mut client = client.spawn().unwrap();
    client.stdin.take().unwrap().write_all(format!("{password}\n").as_bytes()).unwrap();
    let ended = client.wait_with_output().unwrap();
    (String::from_utf8(ended.stdout).unwrap(), ended.status.success())
}

#[test]
fn server_and_client() {
    let users = common::UsersFile::new("examples", common::ADDED);
    let mut server = Running(example("server").args(["0", users.path()]).stdout(Stdio::piped()).spawn().unwrap());
    let mut said = BufReader::new(server.0.stdout.take().unwrap()).lines().map(|line| line.unwrap());
    let port = said.next().unwrap();
    let rejected = "not logged in: the login was rejected: Connection: The login was rejected";
    for (user, password, client_says, server_says) in [
        ("user", "pencil", "logged in: SCRAM-SHA-512", "logged in: Some(\"user\")"),
        ("user", "pencils", rejected, &format!("{rejected}: Wrong password")),
        ("nobody", "pencil", rejected, &format!("{rejected}: Unknown user")),
    ] {
        assert_eq!(log_in(&port, user, password), (format!("{client_says}\n"), password == "pencil" && user == "user"));
        assert_eq!(said.next().unwrap(), server_says);
    }
    let (unprepared, is_success) = log_in(&port, "user", "p\u{e9}ncil");
    assert_eq!(
        (unprepared.as_str(), is_success),
        ("not logged in: the login failed: Client: Error normalizing password\n", false)
    );
    assert_eq!(said.next().unwrap(), "not logged in: the other side ended the stream before the login was complete");
}

/// The logins of docs/GUIDE-rust.md, and the lines of the server's log.
#[test]
fn guide() {
    let ended = example("guide").output().unwrap();
    let (said, log) = (String::from_utf8(ended.stdout).unwrap(), String::from_utf8(ended.stderr).unwrap());
    assert_eq!(
        said.lines().collect::<Vec<_>>(),
        [
            "a login: SCRAM-SHA-256, Some(\"user\")",
            "a wrong password: RefusedAuth",
            "an unknown user: RefusedAuth",
            "a channel: SCRAM-SHA-256-PLUS, Some(\"user\")",
            "another channel: RefusedAuth",
            "a channel that is not bound: NotImplemented",
            "for alice: Some(\"alice\")",
            "for user: Some(\"user\")",
            "for bob: Err(Rejected(RefusedAuth))",
            "keys: SCRAM-SHA-256, Some(\"user\")",
            "other records: stale keys",
        ]
    );
    for line in [
        "\"SCRAM-SHA-256\" Some(\"user\") Some(\"broker.example\"): Authenticated, None",
        "\"SCRAM-SHA-256\" Some(\"user\") Some(\"broker.example\"): Failed(RefusedAuth), Some(WrongProof)",
        "\"SCRAM-SHA-256\" Some(\"nobody\") Some(\"broker.example\"): Failed(RefusedAuth), Some(UnknownUser)",
        "\"SCRAM-SHA-256-PLUS\" Some(\"user\") Some(\"broker.example\"): Failed(RefusedAuth), Some(Channel)",
        "no init",
    ] {
        assert!(log.lines().any(|said| said == line), "{line} is not in {log}");
    }
    assert!(ended.status.success());
}
