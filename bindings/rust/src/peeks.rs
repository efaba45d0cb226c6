//! What both sides of a connection say between their calls, and how the other side ends it.

use crate::calls::filled;
use crate::{sys, ConnectionError};

/// The most bytes of the body of a frame (AMQP 1.0, part 5, section 5.3.1).
const BODY_MOST: usize = 508;

/// Ends the login, because the other side ended its stream.
pub(crate) fn end_of_input(connection: &mut sys::Connection) {
    // SAFETY: the connection is borrowed for writing.
    unsafe { sys::fe2o3_sasl_end_of_input(connection) }
}

/// Returns the eight bytes that the other side sent in the place of the header of SASL, if the login failed for them.
pub(crate) fn foreign_header(connection: &sys::Connection) -> Option<[u8; 8]> {
    let why = (connection.progress, connection.why, connection.held_len);
    if why != (sys::FAILED, sys::PROTOCOL_HEADER_MISMATCH, 8) {
        return None;
    }
    connection.held[..8].try_into().ok()
}

/// Returns whether the next call may use its nonce.
pub(crate) fn wants_nonce(connection: &sys::Connection) -> bool {
    // SAFETY: the connection is borrowed and lives through the call.
    unsafe { sys::fe2o3_sasl_wants_nonce(connection) != 0 }
}

/// Returns the body of the frame that these bytes complete, if they complete one. Nothing is taken.
pub(crate) fn peek_body(connection: &sys::Connection, bytes: &[u8]) -> Result<Option<Vec<u8>>, ConnectionError> {
    let body = filled(BODY_MOST, |out, len| {
        // SAFETY: the connection and the bytes are borrowed and live through the call; the room and its length are
        // borrowed for writing, and so overlap nothing.
        unsafe { sys::fe2o3_sasl_peek_frame(connection, bytes.as_ptr(), bytes.len(), out.as_mut_ptr(), out.len(), len) }
    })
    .map_err(ConnectionError::of)?;
    Ok(if body.is_empty() { None } else { Some(body) })
}
