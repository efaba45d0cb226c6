//! The channel under an exchange, such as TLS (RFC 5802, section 6).

use crate::calls::{head, put, text_of};
use crate::sys;
use std::error::Error;
use std::fmt;

/// The longest data of a channel, in bytes.
const MAX_DATA_LEN: usize = 64;

/// A kind of channel binding. Both sides have to use one kind: a client selects it, and cannot ask a server which kinds it
/// has.
#[derive(Clone, Copy, Debug, PartialEq, Eq)]
pub enum ChannelKind {
    /// `tls-unique` (RFC 5929, section 3): the first Finished message of the TLS handshake. Only for TLS 1.2 and older,
    /// and only with the extended master secret (RFC 7627).
    TlsUnique,

    /// `tls-server-end-point` (RFC 5929, section 4): the hash of the server's certificate. It does not protect against
    /// anyone who has the server's private key.
    TlsServerEndPoint,

    /// `tls-exporter` (RFC 9266): 32 bytes of exported keying material. For TLS 1.3, and for TLS 1.2 with the extended
    /// master secret.
    TlsExporter,
}

impl ChannelKind {
    /// Returns the registered name.
    ///
    /// ```
    /// assert_eq!(fe2o3_sasl_proved::ChannelKind::TlsExporter.name(), "tls-exporter");
    /// ```
    pub fn name(self) -> &'static str {
        match self {
            ChannelKind::TlsUnique => "tls-unique",
            ChannelKind::TlsServerEndPoint => "tls-server-end-point",
            ChannelKind::TlsExporter => "tls-exporter",
        }
    }

    /// Returns the number of the kind in the structs of the library.
    fn number(self) -> u32 {
        match self {
            ChannelKind::TlsUnique => sys::TLS_UNIQUE,
            ChannelKind::TlsServerEndPoint => sys::TLS_SERVER_END_POINT,
            ChannelKind::TlsExporter => sys::TLS_EXPORTER,
        }
    }
}

/// The data of a channel are empty or have more than 64 bytes, which no registered kind has.
#[derive(Clone, Copy, Debug, PartialEq, Eq)]
pub struct ChannelDataLength;

impl fmt::Display for ChannelDataLength {
    fn fmt(&self, f: &mut fmt::Formatter<'_>) -> fmt::Result {
        f.write_str(text_of(sys::CHANNEL_DATA_LENGTH))
    }
}

impl Error for ChannelDataLength {}

/// A channel, such as a TLS connection, as one kind identifies it. Both sides have the data from TLS, and an exchange is
/// bound to the channel if both have the same.
///
/// A client that binds its channel, and a server of the mechanism with `-PLUS`:
///
/// ```
/// use fe2o3_sasl_proved::*;
///
/// # fn main() -> Result<(), Box<dyn std::error::Error>> {
/// # let (exported_by_the_client, exported_by_the_server) = ([7; 32], [7; 32]);
/// # let credential = SingleScramCredential::new("user", "pencil", ScramVersion::Sha256)?;
/// let channel = Channel::new(ChannelKind::TlsExporter, &exported_by_the_client)?;
/// let mut client = ScramClient::new("user", "pencil", ScramVersion::Sha256).with_channel(channel);
/// assert_eq!(client.mechanism(), "SCRAM-SHA-256-PLUS");
///
/// let channel = Channel::new(ChannelKind::TlsExporter, &exported_by_the_server)?;
/// let mut server = ScramAuthenticator::new(credential).with_channels([channel]);
///
/// let client_first = client.compute_client_first_message();
/// let server_first = server.compute_server_first_message(&client_first)?.ok_or("no such user")?;
/// let client_final = client.compute_client_final_message(std::str::from_utf8(&server_first)?)?;
/// let server_final = server.compute_server_final_message(&client_final)?.ok_or("no such user")?;
/// client.validate_server_final(&server_final)?;
/// # Ok(())
/// # }
/// ```
#[derive(Clone, Copy, PartialEq, Eq)]
pub struct Channel {
    kind: ChannelKind,
    data: [u8; MAX_DATA_LEN],
    len: u32,
}

impl Channel {
    /// Returns the channel that these data identify, of 1 to 64 bytes.
    pub fn new(kind: ChannelKind, data: &[u8]) -> Result<Self, ChannelDataLength> {
        let mut array = [0; MAX_DATA_LEN];
        match put(data, &mut array) {
            None | Some(0) => Err(ChannelDataLength),
            Some(len) => Ok(Self { kind, data: array, len }),
        }
    }

    /// Returns the kind.
    pub fn kind(&self) -> ChannelKind {
        self.kind
    }

    /// Returns the data.
    pub fn data(&self) -> &[u8] {
        head(&self.data, self.len as usize)
    }
}

impl fmt::Debug for Channel {
    fn fmt(&self, f: &mut fmt::Formatter<'_>) -> fmt::Result {
        f.debug_struct("Channel").field("kind", &self.kind).finish_non_exhaustive()
    }
}

/// What a client says of its channel.
#[derive(Clone, Copy)]
pub(crate) enum ClientChannel {
    /// No channel: the GS2 header is `n,,`.
    Absent,

    /// A channel, but no mechanism with `-PLUS` was offered: the GS2 header is `y,,`.
    NotOffered,

    /// The channel that the client binds.
    Bound(Channel),
}

impl ClientChannel {
    /// Returns whether the client binds its channel.
    pub(crate) fn is_bound(self) -> bool {
        matches!(self, ClientChannel::Bound(_))
    }

    /// Returns these fields of a login: the use, the kind, the length of the data and the data.
    pub(crate) fn fields(self) -> (u32, u32, u32, [u8; MAX_DATA_LEN]) {
        match self {
            ClientChannel::Absent => (sys::CHANNEL_ABSENT, 0, 0, [0; MAX_DATA_LEN]),
            ClientChannel::NotOffered => (sys::CHANNEL_NOT_OFFERED, 0, 0, [0; MAX_DATA_LEN]),
            ClientChannel::Bound(Channel { kind, data, len }) => (sys::CHANNEL_BOUND, kind.number(), len, data),
        }
    }
}

/// The channels of a server that binds none.
pub(crate) const NO_CHANNELS: sys::ServerChannels = sys::ServerChannels {
    binds_channel: 0,
    tls_unique_len: 0,
    tls_unique: [0; MAX_DATA_LEN],
    tls_server_end_point_len: 0,
    tls_server_end_point: [0; MAX_DATA_LEN],
    tls_exporter_len: 0,
    tls_exporter: [0; MAX_DATA_LEN],
};

/// Returns the channels of a server that binds these and no other.
pub(crate) fn bound(channels: impl IntoIterator<Item = Channel>) -> sys::ServerChannels {
    let mut bound = sys::ServerChannels { binds_channel: 1, ..NO_CHANNELS };
    for Channel { kind, data, len } in channels {
        match kind {
            ChannelKind::TlsUnique => (bound.tls_unique, bound.tls_unique_len) = (data, len),
            ChannelKind::TlsServerEndPoint => {
                (bound.tls_server_end_point, bound.tls_server_end_point_len) = (data, len);
            }
            ChannelKind::TlsExporter => (bound.tls_exporter, bound.tls_exporter_len) = (data, len),
        }
    }
    bound
}
