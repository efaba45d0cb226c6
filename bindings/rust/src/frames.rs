//! What frames say (AMQP 1.0, part 5, section 5.3.3).

use crate::calls::done;
use crate::{sys, ConnectionError};
use std::fmt;

/// What the body of a frame says.
#[derive(Clone, PartialEq, Eq)]
pub enum Frame {
    /// The mechanisms that a server offers. [`offers`] tests for one.
    Mechanisms {
        /// How many there are.
        count: usize,
    },

    /// An init, by which a client selects a mechanism.
    Init {
        /// The mechanism.
        mechanism: String,

        /// The initial response, if there is one. By PLAIN it contains the password.
        initial_response: Option<Vec<u8>>,

        /// The hostname, if there is one.
        hostname: Option<String>,
    },

    /// A challenge.
    Challenge(Vec<u8>),

    /// A response.
    Response(Vec<u8>),

    /// An outcome.
    Outcome {
        /// The code, from 0 (ok) to 4 (sys-temp).
        code: u32,

        /// The additional data, if there are any.
        additional_data: Option<Vec<u8>>,
    },
}

impl fmt::Debug for Frame {
    fn fmt(&self, f: &mut fmt::Formatter<'_>) -> fmt::Result {
        match self {
            Frame::Mechanisms { count } => f.debug_struct("Mechanisms").field("count", count).finish(),
            Frame::Init { mechanism, hostname, .. } => {
                f.debug_struct("Init").field("mechanism", mechanism).field("hostname", hostname).finish_non_exhaustive()
            }
            Frame::Challenge(_) => f.debug_struct("Challenge").finish_non_exhaustive(),
            Frame::Response(_) => f.debug_struct("Response").finish_non_exhaustive(),
            Frame::Outcome { code, .. } => f.debug_struct("Outcome").field("code", code).finish_non_exhaustive(),
        }
    }
}

/// Returns a copy of the bytes that a view points to.
///
/// # Safety
///
/// The pointer is valid for as many bytes, or there are none.
unsafe fn copied(bytes: *const u8, len: usize) -> Vec<u8> {
    if len == 0 {
        return Vec::new();
    }
    // SAFETY: the caller ensures that the pointer is valid.
    unsafe { std::slice::from_raw_parts(bytes, len) }.to_vec()
}

/// Returns what the body of a frame says, which begins with its data offset, after the four bytes of its size. Bytes after
/// the frame are not read.
pub fn view_frame(body: &[u8]) -> Result<Frame, ConnectionError> {
    let none: &[u8] = &[];
    let mut view = sys::SaslFrameView {
        kind: 0,
        code: 0,
        has_message: 0,
        has_hostname: 0,
        count: 0,
        taken: 0,
        mechanism: none.as_ptr(),
        mechanism_len: 0,
        message: none.as_ptr(),
        message_len: 0,
        hostname: none.as_ptr(),
        hostname_len: 0,
    };
    // SAFETY: the body is a slice that lives through the call, and the view is a struct of this function.
    done(unsafe { sys::fe2o3_sasl_view_frame(body.as_ptr(), body.len(), &mut view) }).map_err(ConnectionError::of)?;
    // SAFETY: the pointers of the view are to parts of the body, of these lengths.
    let (mechanism, message, hostname) = unsafe {
        (
            copied(view.mechanism, view.mechanism_len),
            copied(view.message, view.message_len),
            copied(view.hostname, view.hostname_len),
        )
    };
    let text = |bytes| String::from_utf8(bytes).unwrap_or_default();
    let given = (view.has_message != 0).then_some(message);
    Ok(match view.kind {
        sys::KIND_MECHANISMS => Frame::Mechanisms { count: view.count },
        sys::KIND_INIT => Frame::Init {
            mechanism: text(mechanism),
            initial_response: given,
            hostname: (view.has_hostname != 0).then(|| text(hostname)),
        },
        sys::KIND_CHALLENGE => Frame::Challenge(given.unwrap_or_default()),
        sys::KIND_RESPONSE => Frame::Response(given.unwrap_or_default()),
        _ => Frame::Outcome { code: view.code, additional_data: given },
    })
}

/// Returns whether the body of a frame, which is a server's list of mechanisms, has this one. Another frame is an error.
pub fn offers(body: &[u8], mechanism: &str) -> Result<bool, ConnectionError> {
    // SAFETY: the body and the name are slices that live through the call.
    match unsafe { sys::fe2o3_sasl_offers(body.as_ptr(), body.len(), mechanism.as_ptr(), mechanism.len()) } {
        sys::NOT_IMPLEMENTED => Ok(false),
        status => done(status).map(|()| true).map_err(ConnectionError::of),
    }
}
