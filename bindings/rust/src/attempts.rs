//! What clients claim, for the log of a server.

use crate::frames::Frame;

/// What the last init of a client claims, also after a rejection. Nobody is authenticated by it.
#[derive(Clone, Debug, PartialEq, Eq)]
pub struct LoginAttempt {
    /// The mechanism that the init names, also one that the server does not offer.
    pub mechanism: String,

    /// The user name that the initial response of SCRAM or PLAIN claims, without escapes.
    pub claimed_user: Option<String>,

    /// The hostname that the init names.
    pub hostname: Option<String>,
}

/// Stores what a frame claims: an init, or a response that is the initial response. The name is that of the user.
pub(crate) fn claim(attempt: &mut Option<LoginAttempt>, frame: Frame, name: Option<&str>) {
    match frame {
        Frame::Init { mechanism, hostname, .. } => {
            *attempt = Some(LoginAttempt { mechanism, claimed_user: name.map(str::to_owned), hostname });
        }
        _ => {
            if let (Some(attempt), Some(name)) = (attempt, name) {
                attempt.claimed_user = Some(name.to_owned());
            }
        }
    }
}
