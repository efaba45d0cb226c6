//! What all calls of the library share.

use crate::{sys, Password, RecordError, ScramVersion};
use std::io::Read;

/// Returns 32 bytes of the system's random source, `/dev/urandom`.
///
/// # Panics
///
/// If the system has no such file.
pub fn generate_nonce() -> [u8; 32] {
    let mut nonce = [0; 32];
    std::fs::File::open("/dev/urandom")
        .and_then(|mut source| source.read_exact(&mut nonce))
        .expect("the system gives random bytes");
    nonce
}

/// Returns whether the structs of this crate have the sizes of those of the linked library. If not, the library is of
/// another version, and must not be called.
///
/// ```
/// assert!(fe2o3_sasl_proved::fits());
/// ```
pub fn fits() -> bool {
    (0..).zip(sys::SIZES).all(|(which, size)| {
        // SAFETY: the call takes a number alone, and any number has its answer.
        size == unsafe { sys::fe2o3_size(which) }
    })
}

/// Returns the version of the library: 10000 times the major, 100 times the minor, and the patch number.
pub fn library_version() -> u32 {
    // SAFETY: the call takes nothing.
    unsafe { sys::fe2o3_version() }
}

/// An export that lends the text of a number.
type Lends = unsafe extern "C" fn(u32, *mut sys::Text);

/// Returns the text that such an export lends for a number.
fn lent_by(lend: Lends, number: u32) -> &'static str {
    let none: &[u8] = &[];
    let mut text = sys::Text { bytes: none.as_ptr(), bytes_len: 0 };
    // SAFETY: `lend` is an export of the library, `text` is a struct of this function, and any number has its text. The
    // text that the call lends stays valid, for as many bytes as its length says.
    let bytes: &'static [u8] = unsafe {
        lend(number, &mut text);
        std::slice::from_raw_parts(text.bytes, text.bytes_len)
    };
    let words = bytes.strip_suffix(b"\0").unwrap_or(bytes);
    std::str::from_utf8(words).unwrap_or_default()
}

/// Returns the text of a status.
pub(crate) fn text_of(status: u32) -> &'static str {
    lent_by(sys::fe2o3_status_text, status)
}

/// Returns the name of an error of a server.
pub(crate) fn text_of_error(error: u32) -> &'static str {
    lent_by(sys::fe2o3_scram_server_error_text, error)
}

/// Returns a status as a result.
pub(crate) fn done(status: u32) -> Result<(), u32> {
    if status == sys::OK {
        Ok(())
    } else {
        Err(status)
    }
}

/// An export that computes a struct of a salted password, its salt and its iteration count.
type MakesOfSalted<S> = unsafe extern "C" fn(u32, *const u8, usize, *const u8, usize, u32, *mut S) -> u32;

/// Returns the struct that such an export writes over this one.
pub(crate) fn made_of_salted<S>(
    make: MakesOfSalted<S>,
    mut of: S,
    version: ScramVersion,
    salted: &[u8],
    salt: &[u8],
    iterations: u32,
) -> Result<S, RecordError> {
    // SAFETY: `make` is an export of the library; the bytes are slices that live through the call, and the struct is one
    // of this function.
    let status = unsafe {
        make(version.number(), salted.as_ptr(), salted.len(), salt.as_ptr(), salt.len(), iterations, &mut of)
    };
    done(status).map_err(RecordError::of)?;
    Ok(of)
}

/// An export that computes a struct of a password, a salt and an iteration count.
type Makes<S> = unsafe extern "C" fn(u32, u32, *const u8, usize, *const u8, usize, u32, *mut S) -> u32;

/// Returns the struct that such an export writes over this one.
pub(crate) fn made<S>(
    make: Makes<S>,
    mut of: S,
    version: ScramVersion,
    password: Password<'_>,
    salt: &[u8],
    iterations: u32,
) -> Result<S, RecordError> {
    let (number, form, password) = (version.number(), password.form(), password.as_str());
    // SAFETY: `make` is an export of the library; the texts are slices that live through the call, and the struct is
    // one of this function.
    let status = unsafe {
        make(number, form, password.as_ptr(), password.len(), salt.as_ptr(), salt.len(), iterations, &mut of)
    };
    done(status).map_err(RecordError::of)?;
    Ok(of)
}

/// Returns the text that a call writes into a buffer of this size, or into one that suffices according to the call.
pub(crate) fn filled(room: usize, mut call: impl FnMut(&mut [u8], &mut usize) -> u32) -> Result<Vec<u8>, u32> {
    let mut out = vec![0; room];
    let mut len = 0;
    let mut status = call(&mut out, &mut len);
    if status == sys::ROOM_TOO_SMALL {
        out.resize(len, 0);
        status = call(&mut out, &mut len);
    }
    done(status)?;
    out.truncate(len);
    Ok(out)
}

/// Returns the first bytes of an array of a struct, or all of them if the length is too large.
pub(crate) fn head(array: &[u8], len: usize) -> &[u8] {
    array.get(..len).unwrap_or(array)
}

/// Writes bytes to the beginning of an array; `None` if they do not fit.
pub(crate) fn put(bytes: &[u8], array: &mut [u8]) -> Option<u32> {
    array.get_mut(..bytes.len())?.copy_from_slice(bytes);
    u32::try_from(bytes.len()).ok()
}
