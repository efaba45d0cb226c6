//! Connections of the example server over TCP: a client that sends more than the server reads still gets the outcome.

use fe2o3_sasl_proved::*;
use std::io::{Read, Write};
use std::net::{TcpListener, TcpStream};
use std::{thread, time::Duration};

mod common;
#[path = "../examples/server.rs"]
#[allow(dead_code)]
mod server;

/// A port where the example server listens.
fn port() -> u16 {
    let listener = TcpListener::bind(("127.0.0.1", 0)).unwrap();
    let port = listener.local_addr().unwrap().port();
    let users = common::UsersFile::new("closing", common::ADDED);
    let server = server::server_of(users.path()).unwrap();
    thread::spawn(move || server::listen(&listener, &server));
    port
}

/// Logs in, and sends more bytes with the last response before it reads the outcome.
fn progress_of_login(port: u16, password: &str) -> Progress {
    let client = ScramClient::new("user", password, ScramVersion::Sha256).with_min_iterations(4096);
    let mut side = ClientNegotiation::new(client, None);
    let mut socket = TcpStream::connect(("127.0.0.1", port)).unwrap();
    socket.write_all(&ClientNegotiation::open()).unwrap();
    let mut room = [0; 4096];
    let mut sent = 0;
    while side.progress() == Progress::InProgress {
        let len = socket.read(&mut room).unwrap();
        assert!(len > 0, "the server closed the connection before the outcome");
        let received = side.receive(&room[..len]).unwrap();
        sent += usize::from(!received.sent.is_empty());
        socket.write_all(&received.sent).unwrap();
        if sent == 2 && !received.sent.is_empty() {
            socket.write_all(&[0; 20_000]).unwrap();
            thread::sleep(Duration::from_millis(100));
        }
    }
    assert_eq!(socket.read(&mut room).unwrap(), 0);
    side.progress()
}

#[test]
fn the_outcome_arrives_although_bytes_are_unread() {
    let port = port();
    for _ in 0..10 {
        assert_eq!(progress_of_login(port, "pencil"), Progress::Authenticated);
        assert!(matches!(progress_of_login(port, "pencils"), Progress::Failed(_)));
    }
}
