//! Clients that select their mechanism from the server's offer.

use crate::connection::{LentLogin, Login};
use crate::frames::{offers, view_frame, Frame};
use crate::{Channel, ConnectionError, Password, Progress, SaslProfile, ScramClient, ScramVersion};
use std::iter::once;

/// The profiles by which a client may log in, from the strongest to the weakest. It selects the first one whose mechanism
/// the server offers ([`ClientNegotiation::select`](crate::ClientNegotiation::select)). An attacker can alter an offer, but
/// the client never selects a mechanism that is not allowed here.
///
/// ```
/// use fe2o3_sasl_proved::*;
///
/// # let is_tls = true;
/// let mut policy = ClientPolicy::scram("user", "pencil");
/// if is_tls {
///     policy = policy.or(SaslProfile::Plain { username: "user".to_owned(), password: "pencil".to_owned() });
/// }
/// let side = ClientNegotiation::select(policy, Some("broker.example"));
/// assert_eq!(side.mechanism(), None);
/// ```
#[derive(Clone, Debug)]
pub struct ClientPolicy {
    strongest: SaslProfile,
    others: Vec<SaslProfile>,
    channel: Option<Channel>,
    must_bind: bool,
    strict: bool,
}

impl ClientPolicy {
    /// Allows this profile only.
    pub fn new(profile: impl Into<SaslProfile>) -> Self {
        Self { strongest: profile.into(), others: Vec::new(), channel: None, must_bind: false, strict: false }
    }

    /// Allows SCRAM-SHA-512, SCRAM-SHA-256 and SCRAM-SHA-1 with a password. A text is a typed password. To change the
    /// limits of iterations, or to leave out a hash, pass each [`ScramClient`] to [`Self::new`] and [`Self::or`].
    pub fn scram<'a>(username: impl Into<String>, password: impl Into<Password<'a>>) -> Self {
        let (username, password) = (username.into(), password.into());
        let client = |version| ScramClient::with_password(username.clone(), password, version);
        let policy = Self::new(client(ScramVersion::Sha512));
        policy.or(client(ScramVersion::Sha256)).or(client(ScramVersion::Sha1))
    }

    /// Allows this profile too, if the server offers none of those before it. PLAIN sends the password in clear, so allow
    /// it over TLS only.
    pub fn or(mut self, profile: impl Into<SaslProfile>) -> Self {
        self.others.push(profile.into());
        self
    }

    /// Binds this channel (RFC 5802, section 6): SCRAM with `-PLUS` is allowed too, by each SCRAM client of the policy, and
    /// preferred to SCRAM without it. If the server offers none of these, the client says so by SCRAM (`y,,`,
    /// [`ScramClient::channel_not_offered`]), and a server that did offer one has to reject it. Against a server that
    /// accepts `y,,` all the same, only [`Self::must_bind`] protects. A client that binds a channel of its own
    /// ([`ScramClient::with_channel`]) stays as it is.
    ///
    /// ```
    /// use fe2o3_sasl_proved::*;
    ///
    /// # fn main() -> Result<(), Box<dyn std::error::Error>> {
    /// # let exported = [7; 32];
    /// let channel = Channel::new(ChannelKind::TlsExporter, &exported)?;
    /// let policy = ClientPolicy::scram("user", "pencil").bind_channel(channel).strict(true);
    /// # drop(ClientNegotiation::select(policy, None));
    /// # Ok(())
    /// # }
    /// ```
    pub fn bind_channel(self, channel: Channel) -> Self {
        Self { channel: Some(channel), must_bind: false, ..self }
    }

    /// Binds this channel like [`Self::bind_channel`], and allows SCRAM only if it does.
    pub fn must_bind(self, channel: Channel) -> Self {
        Self { channel: Some(channel), must_bind: true, ..self }
    }

    /// With `is_strict`, makes each SCRAM client of the policy strict ([`ScramClient::strict`]).
    pub fn strict(self, is_strict: bool) -> Self {
        Self { strict: is_strict, ..self }
    }

    /// Returns the allowed profiles in their order. Those that bind the channel of the policy come before the first other
    /// one of SCRAM.
    fn profiles(self) -> Vec<SaslProfile> {
        let (mut before, mut bound, mut after) = (Vec::new(), Vec::new(), Vec::new());
        for profile in once(self.strongest).chain(self.others) {
            let client = match profile {
                SaslProfile::Scram(client) if self.strict => client.strict(true),
                SaslProfile::Scram(client) => client,
                other if bound.is_empty() && after.is_empty() => {
                    before.push(other);
                    continue;
                }
                other => {
                    after.push(other);
                    continue;
                }
            };
            match self.channel {
                Some(channel) if !client.binds_channel() => {
                    bound.push(client.clone().with_channel(channel).into());
                    if !self.must_bind {
                        after.push(client.channel_not_offered().into());
                    }
                }
                _ => after.push(client.into()),
            }
        }
        before.into_iter().chain(bound).chain(after).collect()
    }
}

/// The login of a client, and those among which it has yet to select.
#[derive(Clone)]
pub(crate) struct Choice {
    login: Login,
    allowed: Vec<Login>,
}

impl Choice {
    /// A client of one mechanism.
    pub(crate) fn of(profile: SaslProfile, hostname: Option<&str>) -> Self {
        Self { login: Login::new(profile, hostname), allowed: Vec::new() }
    }

    /// A client that selects.
    pub(crate) fn among(policy: ClientPolicy, hostname: Option<&str>) -> Self {
        let profiles = policy.profiles().into_iter();
        let allowed: Vec<Login> = profiles.map(|profile| Login::new(profile, hostname)).collect();
        Self { login: allowed[0].clone(), allowed }
    }

    pub(crate) fn lend(&self) -> LentLogin<'_> {
        self.login.lend()
    }

    /// Selects the first allowed login that a list of mechanisms offers. Otherwise leaves the first one: the library
    /// rejects the list, or the other frame, for it.
    pub(crate) fn select(&mut self, body: &[u8]) {
        let is_offered = |login: &Login| offers(body, login.mechanism()) == Ok(true);
        if let Some(at) = self.allowed.iter().position(is_offered) {
            self.login = self.allowed.swap_remove(at);
            self.allowed.clear();
        }
    }

    /// Returns the mechanism; `None` before it is selected.
    pub(crate) fn mechanism(&self) -> Option<&'static str> {
        self.allowed.is_empty().then(|| self.login.mechanism())
    }
}

/// Returns the additional data of a frame after which the login is rejected.
pub(crate) fn refusal_data(progress: Progress, body: &[u8]) -> Option<Vec<u8>> {
    use ConnectionError::{RefusedAuth, RefusedSys, RefusedSysPerm, RefusedSysTemp};
    match (progress, view_frame(body)) {
        (
            Progress::Failed(RefusedAuth | RefusedSys | RefusedSysPerm | RefusedSysTemp),
            Ok(Frame::Outcome { additional_data, .. }),
        ) => additional_data,
        _ => None,
    }
}
