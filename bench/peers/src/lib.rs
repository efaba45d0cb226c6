//! Peers in Rust: RustCrypto's hashes, SCRAM written by hand over them, the client of the crate
//! postgres-protocol, and a codec of the five frames written by hand.
#![allow(clippy::missing_safety_doc)]

mod frames;
mod scram;

use hmac::{Hmac, Mac};
use sha1::Sha1;
use sha2::{Digest, Sha256, Sha512};
use std::slice;

pub(crate) unsafe fn at<'a>(p: *const u8, n: usize) -> &'a [u8] {
    if n == 0 {
        &[]
    } else {
        slice::from_raw_parts(p, n)
    }
}

pub(crate) unsafe fn put(bytes: &[u8], out: *mut u8, room: usize) -> usize {
    let n = bytes.len().min(room);
    slice::from_raw_parts_mut(out, n).copy_from_slice(&bytes[..n]);
    n
}

#[no_mangle]
pub unsafe extern "C" fn peer_digest(v: u32, m: *const u8, n: usize, out: *mut u8, room: usize) -> usize {
    let m = at(m, n);
    match v {
        1 => put(&Sha1::digest(m), out, room),
        512 => put(&Sha512::digest(m), out, room),
        _ => put(&Sha256::digest(m), out, room),
    }
}

#[no_mangle]
pub unsafe extern "C" fn peer_hmac(
    v: u32,
    k: *const u8,
    kn: usize,
    m: *const u8,
    n: usize,
    out: *mut u8,
    room: usize,
) -> usize {
    let (k, m) = (at(k, kn), at(m, n));
    macro_rules! go {
        ($h:ty) => {{
            let mut mac = <Hmac<$h> as Mac>::new_from_slice(k).unwrap();
            mac.update(m);
            put(&mac.finalize().into_bytes(), out, room)
        }};
    }
    match v {
        1 => go!(Sha1),
        512 => go!(Sha512),
        _ => go!(Sha256),
    }
}

#[no_mangle]
pub unsafe extern "C" fn peer_hi(
    v: u32,
    p: *const u8,
    pn: usize,
    s: *const u8,
    sn: usize,
    i: u32,
    out: *mut u8,
    _room: usize,
) -> usize {
    let (p, s) = (at(p, pn), at(s, sn));
    match v {
        1 => {
            pbkdf2::pbkdf2::<Hmac<Sha1>>(p, s, i, slice::from_raw_parts_mut(out, 20));
            20
        }
        512 => {
            pbkdf2::pbkdf2::<Hmac<Sha512>>(p, s, i, slice::from_raw_parts_mut(out, 64));
            64
        }
        _ => {
            pbkdf2::pbkdf2::<Hmac<Sha256>>(p, s, i, slice::from_raw_parts_mut(out, 32));
            32
        }
    }
}
