"""The channel under an exchange, such as TLS."""

from __future__ import annotations

import ctypes
import hashlib
from typing import TYPE_CHECKING, Any, Union

from ._native import Bytes, _bytes, _number
from ._numbers import ChannelKind

if TYPE_CHECKING:
    import ssl

#: The versions of TLS of which the first Finished message identifies a connection (RFC 5929, section 3; RFC 9266).
_TLS_UNIQUE_VERSIONS = ("TLSv1", "TLSv1.1", "TLSv1.2")


class Channel:
    """A channel under an exchange, such as TLS, to which the exchange is bound (RFC 5802, section 6). Pass it to
    `Client` and to `Server`. Both sides need the same kind, one of `ChannelKind`, and the same data, which they have
    from TLS.

    The module `ssl` has no data of TLS_EXPORTER. A TLS library that has exports 32 bytes with the label
    `EXPORTER-Channel-Binding` and an empty context (RFC 9266, section 2)."""

    __slots__ = ("_data", "_kind")

    def __init__(self, kind: int, data: Bytes) -> None:
        """A channel of this kind, with 1 to 64 bytes that identify it."""
        self._kind, self._data = ChannelKind(_number(kind)), _bytes(data)
        if not 1 <= len(self._data) <= 64:
            raise ValueError("the data of a channel have 1 to 64 bytes")

    @classmethod
    def tls_unique(cls, sock: Union[ssl.SSLSocket, ssl.SSLObject]) -> Channel:
        """The channel of a TLS connection after its handshake, by its first Finished message (RFC 5929, section 3).
        With `asyncio`, `sock` is the `ssl_object` of the transport. Raises ValueError before the handshake and above
        TLS 1.2.

        Use it only if TLS has the extended master secret (RFC 7627): otherwise a man in the middle can make two
        connections with one Finished message. OpenSSL 1.1.0 and later has it if the other side does, but `ssl` does not
        say so."""
        try:
            data = sock.get_channel_binding("tls-unique") if sock.version() in _TLS_UNIQUE_VERSIONS else None
        except AttributeError:
            raise TypeError("not a TLS socket") from None
        if not data:
            raise ValueError("there is no tls-unique before the handshake, nor above TLS 1.2")
        return cls(ChannelKind.TLS_UNIQUE, data)

    @classmethod
    def tls_server_end_point(cls, certificate: Bytes, hash: str = "sha256") -> Channel:
        """The channel to the server with this certificate, in DER, by the certificate's hash (RFC 5929, section 4). A
        client has it from `getpeercert(binary_form=True)`, a server from `ssl.PEM_cert_to_DER_cert`. This kind does not
        protect against anyone who has the server's private key.

        `hash` is that of the certificate's signature, as `hashlib` names it. MD5 and SHA-1 are replaced by SHA-256.
        Raises ValueError for an unknown hash, and for a certificate that is not DER."""
        given, name = _bytes(certificate), str.lower(hash)
        if not given.startswith(b"\x30"):
            raise ValueError("the certificate is not DER")
        digest = hashlib.new("sha256" if name in ("md5", "sha1") else name, given)
        return cls(ChannelKind.TLS_SERVER_END_POINT, digest.digest())

    @property
    def kind(self) -> ChannelKind:
        """The kind."""
        return self._kind

    @property
    def data(self) -> bytes:
        """The data that identify the channel."""
        return self._data

    def _array(self) -> Any:
        """Returns the data as a struct holds them: with zeros after them."""
        return (ctypes.c_uint8 * 64)(*self._data)

    def __eq__(self, other: object) -> bool:
        if not isinstance(other, Channel):
            return NotImplemented
        return (self._kind, self._data) == (other._kind, other._data)

    def __hash__(self) -> int:
        return hash((self._kind, self._data))

    def __repr__(self) -> str:
        return f"Channel(kind={self._kind.name})"
