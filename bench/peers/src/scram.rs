//! SCRAM as a Rust programmer writes it over RustCrypto, with the same tests as ours; and the client
//! of postgres-protocol.
use crate::{at, put};
use hmac::{Hmac, Mac};
use postgres_protocol::authentication::sasl::{ChannelBinding, ScramSha256};
use sha1::Sha1;
use sha2::{Digest, Sha256, Sha512};

macro_rules! scram {
    ($name:ident, $h:ty, $n:expr) => {
        mod $name {
            use super::*;
            type Out = [u8; $n];
            fn hmac(key: &[u8], parts: &[&[u8]]) -> Out {
                let mut mac = <Hmac<$h> as Mac>::new_from_slice(key).unwrap();
                for p in parts {
                    mac.update(p);
                }
                mac.finalize().into_bytes().into()
            }
            fn hash(m: &[u8]) -> Out {
                <$h>::digest(m).into()
            }
            fn hi(password: &[u8], salt: &[u8], count: u32) -> Out {
                let mut out = [0u8; $n];
                pbkdf2::pbkdf2::<Hmac<$h>>(password, salt, count, &mut out);
                out
            }
            pub fn client_final(nonce: &str, password: &str, first: &str, bare: &[u8]) -> Option<(Vec<u8>, Out)> {
                let mut parts = first.split(',');
                let r = parts.next()?.strip_prefix("r=")?;
                let s = parts.next()?.strip_prefix("s=")?;
                let i = parts.next()?.strip_prefix("i=")?;
                if !r.starts_with(nonce) {
                    return None;
                }
                let salt = base64::decode(s).ok()?;
                let count: u32 = i.parse().ok()?;
                if count == 0 || !password.bytes().all(|b| (0x20..=0x7e).contains(&b)) {
                    return None;
                }
                let mut message = format!("c=biws,r={r}");
                let salted = hi(password.as_bytes(), &salt, count);
                let auth: [&[u8]; 5] = [bare, b",", first.as_bytes(), b",", message.as_bytes()];
                let mut proof = hmac(&salted, &[b"Client Key"]);
                let signature = hmac(&hash(&proof), &auth);
                for (p, s) in proof.iter_mut().zip(signature) {
                    *p ^= s;
                }
                let server_key = hmac(&salted, &[b"Server Key"]);
                let verifier = hmac(&server_key, &auth);
                message.push_str(",p=");
                base64::encode_config_buf(proof, base64::STANDARD, &mut message);
                Some((message.into_bytes(), verifier))
            }
            pub fn server_final(
                client_final: &[u8],
                nonce: &[u8],
                bare: &[u8],
                first: &[u8],
                stored: &[u8],
                server: &[u8],
            ) -> Option<Vec<u8>> {
                let text = std::str::from_utf8(client_final).ok()?;
                let mut parts = text.split(',');
                let c = parts.next()?.strip_prefix("c=")?;
                if base64::decode(c).ok()? != b"n,," {
                    return None;
                }
                let r = parts.next()?.strip_prefix("r=")?;
                if r.as_bytes() != nonce {
                    return None;
                }
                let (before, last) = text.rsplit_once(',')?;
                let proof = base64::decode(last.strip_prefix("p=")?).ok()?;
                let mut proof: Out = proof.try_into().ok()?;
                let auth: [&[u8]; 5] = [bare, b",", first, b",", before.as_bytes()];
                let signature = hmac(stored, &auth);
                for (p, s) in proof.iter_mut().zip(signature) {
                    *p ^= s;
                }
                if hash(&proof) != stored {
                    return None;
                }
                let mut out = String::from("v=");
                base64::encode_config_buf(hmac(server, &auth), base64::STANDARD, &mut out);
                Some(out.into_bytes())
            }
        }
    };
}
scram!(sha1_, Sha1, 20);
scram!(sha256_, Sha256, 32);
scram!(sha512_, Sha512, 64);

#[no_mangle]
pub unsafe extern "C" fn peer_client_final(
    v: u32,
    r: *const u8,
    rn: usize,
    p: *const u8,
    pn: usize,
    s: *const u8,
    sn: usize,
    b: *const u8,
    bn: usize,
    out: *mut u8,
    room: usize,
    sig: *mut u8,
    sig_room: usize,
) -> usize {
    let (Ok(r), Ok(p), Ok(s)) = (
        std::str::from_utf8(at(r, rn)),
        std::str::from_utf8(at(p, pn)),
        std::str::from_utf8(at(s, sn)),
    ) else {
        return 0;
    };
    let b = at(b, bn);
    macro_rules! go {
        ($m:ident) => {
            match $m::client_final(r, p, s, b) {
                Some((m, v)) => {
                    put(&v, sig, sig_room);
                    put(&m, out, room)
                }
                None => 0,
            }
        };
    }
    match v {
        1 => go!(sha1_),
        512 => go!(sha512_),
        _ => go!(sha256_),
    }
}

#[no_mangle]
pub unsafe extern "C" fn peer_server_final(
    v: u32,
    c: *const u8,
    cn: usize,
    r: *const u8,
    rn: usize,
    b: *const u8,
    bn: usize,
    s: *const u8,
    sn: usize,
    k: *const u8,
    kn: usize,
    y: *const u8,
    yn: usize,
    out: *mut u8,
    room: usize,
) -> usize {
    let (c, r, b, s, k, y) = (at(c, cn), at(r, rn), at(b, bn), at(s, sn), at(k, kn), at(y, yn));
    macro_rules! go {
        ($m:ident) => {
            match $m::server_final(c, r, b, s, k, y) {
                Some(m) => put(&m, out, room),
                None => 0,
            }
        };
    }
    match v {
        1 => go!(sha1_),
        512 => go!(sha512_),
        _ => go!(sha256_),
    }
}

/// A client of postgres-protocol that has sent its first message: its nonce is random.
#[no_mangle]
pub unsafe extern "C" fn postgres_new(nonce: *mut u8, len: *mut usize) -> *mut ScramSha256 {
    let client = ScramSha256::new(b"pencil", ChannelBinding::unsupported());
    let text = std::str::from_utf8(client.message())
        .unwrap()
        .split_once("r=")
        .unwrap()
        .1;
    *len = put(text.as_bytes(), nonce, 100);
    Box::into_raw(Box::new(client))
}

/// Its client-final message, timed by the caller.
#[no_mangle]
pub unsafe extern "C" fn postgres_update(client: *mut ScramSha256, s: *const u8, n: usize) -> usize {
    match (*client).update(at(s, n)) {
        Ok(()) => (*client).message().len(),
        Err(_) => 0,
    }
}

#[no_mangle]
pub unsafe extern "C" fn postgres_free(client: *mut ScramSha256) {
    drop(Box::from_raw(client));
}
