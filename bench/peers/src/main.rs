//! A driver in Rust against the static library: the client of postgres-protocol logs in at the library's
//! server, and both clients' answers are timed in one process.

use postgres_protocol::authentication::sasl::{ChannelBinding, ScramSha256};
use std::time::{Duration, Instant};

mod library {
    //! Safe calls of the exports, for SHA-256. A refusal is `None`.

    type Bytes = *const u8;
    extern "C" {
        fn bench_digest(version: u32, message: Bytes, len: usize, out: *mut u8, room: usize) -> usize;
        fn bench_hmac(
            version: u32,
            key: Bytes,
            key_len: usize,
            text: Bytes,
            len: usize,
            out: *mut u8,
            room: usize,
        ) -> usize;
        fn bench_hi(
            version: u32,
            password: Bytes,
            password_len: usize,
            salt: Bytes,
            salt_len: usize,
            count: u32,
            out: *mut u8,
            room: usize,
        ) -> usize;
        fn bench_server_first(
            version: u32,
            user: Bytes,
            user_len: usize,
            message: Bytes,
            len: usize,
            nonce: Bytes,
            nonce_len: usize,
            times: u32,
            out: *mut u8,
            room: usize,
        ) -> usize;
        fn bench_server_final(
            version: u32,
            message: Bytes,
            len: usize,
            nonce: Bytes,
            nonce_len: usize,
            bare: Bytes,
            bare_len: usize,
            challenge: Bytes,
            challenge_len: usize,
            stored: Bytes,
            stored_len: usize,
            server: Bytes,
            server_len: usize,
            out: *mut u8,
            room: usize,
        ) -> usize;
        fn bench_client_final(
            version: u32,
            nonce: Bytes,
            nonce_len: usize,
            password: Bytes,
            password_len: usize,
            message: Bytes,
            len: usize,
            bare: Bytes,
            bare_len: usize,
            limit: u32,
            out: *mut u8,
            room: usize,
            signature: *mut u8,
            signature_room: usize,
        ) -> usize;
    }

    fn taken(mut room: Vec<u8>, len: usize) -> Option<Vec<u8>> {
        if len > room.len() {
            return None;
        }
        room.truncate(len);
        Some(room)
    }

    pub fn digest(message: &[u8]) -> Option<Vec<u8>> {
        let mut room = vec![0; 32];
        let len = unsafe { bench_digest(256, message.as_ptr(), message.len(), room.as_mut_ptr(), 32) };
        taken(room, len)
    }

    pub fn hmac(key: &[u8], text: &[u8]) -> Option<Vec<u8>> {
        let mut room = vec![0; 32];
        let len = unsafe {
            bench_hmac(
                256,
                key.as_ptr(),
                key.len(),
                text.as_ptr(),
                text.len(),
                room.as_mut_ptr(),
                32,
            )
        };
        taken(room, len)
    }

    pub fn hi(password: &[u8], salt: &[u8], count: u32) -> Option<Vec<u8>> {
        let mut room = vec![0; 32];
        let len = unsafe {
            bench_hi(
                256,
                password.as_ptr(),
                password.len(),
                salt.as_ptr(),
                salt.len(),
                count,
                room.as_mut_ptr(),
                32,
            )
        };
        taken(room, len)
    }

    /// The challenge of a server of this one user, with the password `pencil`, the salt of 32 bytes 3 and
    /// the count 1.
    pub fn server_first(user: &str, message: &[u8], nonce: &str) -> Option<Vec<u8>> {
        let mut room = vec![0; 4096];
        let len = unsafe {
            bench_server_first(
                256,
                user.as_ptr(),
                user.len(),
                message.as_ptr(),
                message.len(),
                nonce.as_ptr(),
                nonce.len(),
                1,
                room.as_mut_ptr(),
                room.len(),
            )
        };
        taken(room, len)
    }

    pub fn server_final(
        message: &[u8],
        nonce: &str,
        bare: &str,
        challenge: &str,
        stored: &[u8],
        server: &[u8],
    ) -> Option<Vec<u8>> {
        let mut room = vec![0; 4096];
        let len = unsafe {
            bench_server_final(
                256,
                message.as_ptr(),
                message.len(),
                nonce.as_ptr(),
                nonce.len(),
                bare.as_ptr(),
                bare.len(),
                challenge.as_ptr(),
                challenge.len(),
                stored.as_ptr(),
                stored.len(),
                server.as_ptr(),
                server.len(),
                room.as_mut_ptr(),
                room.len(),
            )
        };
        taken(room, len)
    }

    pub fn client_final(nonce: &str, challenge: &str, bare: &str) -> Option<Vec<u8>> {
        let (mut room, mut signature) = (vec![0; 4096], [0; 32]);
        let len = unsafe {
            bench_client_final(
                256,
                nonce.as_ptr(),
                nonce.len(),
                b"pencil".as_ptr(),
                6,
                challenge.as_ptr(),
                challenge.len(),
                bare.as_ptr(),
                bare.len(),
                u32::MAX,
                room.as_mut_ptr(),
                room.len(),
                signature.as_mut_ptr(),
                32,
            )
        };
        taken(room, len)
    }
}

/// StoredKey and ServerKey of the server's user.
fn keys() -> Option<(Vec<u8>, Vec<u8>)> {
    let salted = library::hi(b"pencil", &[3; 32], 1)?;
    let client_key = library::hmac(&salted, b"Client Key")?;
    Some((library::digest(&client_key)?, library::hmac(&salted, b"Server Key")?))
}

/// A login, and how long each client took to answer the same challenge.
fn login(stored: &[u8], server: &[u8]) -> Option<(Duration, Duration)> {
    let mut client = ScramSha256::new(b"pencil", ChannelBinding::unsupported());
    let first = client.message().to_vec();
    let bare = std::str::from_utf8(&first).ok()?.strip_prefix("n,,")?.to_owned();
    let nonce = bare.split_once("r=")?.1.to_owned();
    // postgres-protocol sends an empty user name.
    let challenge = library::server_first("", &first, "server")?;
    let challenge = String::from_utf8(challenge).ok()?;

    let start = Instant::now();
    client.update(challenge.as_bytes()).ok()?;
    let theirs = start.elapsed();
    let start = Instant::now();
    let answer = library::client_final(&nonce, &challenge, &bare)?;
    let ours = start.elapsed();
    if answer != client.message() {
        return None;
    }
    let full_nonce = format!("{nonce}server");
    let last = library::server_final(client.message(), &full_nonce, &bare, &challenge, stored, server)?;
    client.finish(&last).ok()?;
    Some((ours, theirs))
}

fn main() {
    let (stored, server) = keys().expect("the keys");
    let mut least = (Duration::MAX, Duration::MAX);
    for _ in 0..2000 {
        let (ours, theirs) = login(&stored, &server).expect("a login of postgres-protocol at the library's server");
        least = (least.0.min(ours), least.1.min(theirs));
    }
    println!("2000 logins of postgres-protocol at the library's server; both clients answered alike each time");
    println!(
        "least time of an answer at the count 1: library {:?}, postgres-protocol {:?}",
        least.0, least.1
    );
}
