"""Logs in over a TLS socket by SCRAM that is bound to the TLS connection (RFC 5802, section 6), as a client and as a
server.

Each message is a line of base64: the server's mechanisms, then the client's mechanism, then the messages of SCRAM. The
certificate of the server identifies the connection (`tls-server-end-point`), with every version of TLS.

A man in the middle with another certificate cannot pass a login on, even if the client trusts that certificate, removes
the mechanism with `-PLUS` from the offer and moves text between the messages. The client then says that it has a channel
(`y,,`), and both sides test extensions. The server accepts clients that have no channel (`n,,`): nothing protects these.
"""

from __future__ import annotations

import base64
import ssl

from fe2o3_sasl import SHA_256, Channel, Client, RecordStore, Refused, Server, server_error, server_error_message

NAME = "SCRAM-SHA-256"
OFFER = [f"{NAME}-PLUS", NAME]


def send(sock: ssl.SSLSocket, message: bytes) -> None:
    sock.sendall(base64.b64encode(message) + b"\n")


def receive(sock: ssl.SSLSocket, size: int = 2048) -> bytes:
    """Receives a line of at most this size, and nothing after it. Raises if there is none."""
    line = b""
    while not line.endswith(b"\n"):
        if len(line) == size or not (data := sock.recv(1)):
            raise ConnectionError("the line is too long, or the other side ended the stream")
        line += data
    return base64.b64decode(line[:-1], validate=True)


def log_in(sock: ssl.SSLSocket, username: str, password: str, hash: str = "sha256") -> str:
    """Logs in. Returns the mechanism. Raises unless both sides are authenticated. `hash` is that of the signature of
    the server's certificate."""
    offered = receive(sock).decode("ascii").split()
    channel = Channel.tls_server_end_point(sock.getpeercert(binary_form=True) or b"", hash)
    # If the offer lacks -PLUS, the client says that it has a channel. A server that did offer it rejects the login. The
    # client tests extensions, so nobody on the way can move what it says into another place.
    client = Client(SHA_256, username, password, channel=channel, plus_offered=f"{NAME}-PLUS" in offered)
    send(sock, client.mechanism().encode("ascii"))
    send(sock, client.first())
    server_first = receive(sock)
    if error := server_error(server_first):
        raise ConnectionError(f"the server sent an error: {error}")
    send(sock, client.final(server_first))
    client.verify(receive(sock))
    return client.mechanism()


def serve(
    sock: ssl.SSLSocket, store: RecordStore, secret: bytes, certificate: bytes, hash: str = "sha256"
) -> tuple[str, str]:
    """Serves one login of the users in the store. `secret` is that of mock records. `certificate` is that of the socket,
    in DER. Returns the mechanism and the user."""
    send(sock, " ".join(OFFER).encode("ascii"))
    if (mechanism := receive(sock).decode("ascii")) not in OFFER:
        raise ConnectionError("the client named a mechanism that is not offered")
    # Without channels the server rejects the GS2 header `y,,`, as it has to: it offers -PLUS. It also tests extensions.
    channels = [Channel.tls_server_end_point(certificate, hash)] if mechanism.endswith("-PLUS") else None
    server = Server(channels=channels, reject_misplaced=True)
    try:
        client_first = receive(sock)
        record = store.record(server.claimed_user(client_first), SHA_256, secret)
        send(sock, server.first(record, client_first))
        send(sock, server.final(receive(sock)))
    except Refused as why:
        send(sock, server_error_message(why.status))
        raise
    return mechanism, server.authenticated_user()
