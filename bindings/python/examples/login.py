"""Logs in over a connected socket, as an AMQP 1.0 client and as a server, and closes it."""

import contextlib
import socket
import ssl
import time

from fe2o3_sasl import SHA_256, Client, ClientConnection, Offer, Progress, RecordStore, ServerConnection


def log_in(sock: socket.socket) -> bytes:
    """Logs in as `user`. Returns the bytes that belong to AMQP. Raises unless both sides are authenticated."""
    client = Client(SHA_256, "user", "pencil", min_iterations=4096, max_iterations=100_000, strict=True)
    side = ClientConnection(client, hostname="broker.example")
    sock.sendall(side.open())
    return finish(side, sock)


def serve(sock: socket.socket, store: RecordStore, secret: bytes, tls: bool) -> "tuple[bytes, str | None]":
    """Serves one login of a store's users. Returns AMQP's bytes and the user. `secret`: 32 random bytes, kept with them."""
    mechanisms = store.hashes() | (Offer.PLAIN if tls else 0)
    side = ServerConnection(store.records, mechanisms=mechanisms, mock=store.mock_settings(secret))
    return finish(side, sock), side.authenticated_user()


def finish(side: "ClientConnection | ServerConnection", sock: socket.socket) -> bytes:
    """Receives and sends until the login of either side ends."""
    rest = b""
    while side.progress == Progress.IN_PROGRESS:
        if not (data := sock.recv(4096)):
            side.end_of_input()
            break
        answer, rest = side.receive(data)
        if answer:
            sock.sendall(answer)
    if side.why is not None:
        raise side.why
    return rest


def hang_up(sock: socket.socket, seconds: float = 2, size: int = 65536) -> None:
    """Closes a connection, also after a failed login. First discards what arrives, up to that time and that many bytes:
    a close with unread bytes resets the connection (RFC 1122, section 4.2.2.13), and the peer can lose the outcome."""
    until, left = time.monotonic() + seconds, size
    with sock:
        with contextlib.suppress(OSError):
            sock.settimeout(seconds)
            if isinstance(sock, ssl.SSLSocket):
                sock.unwrap()  # sends close_notify
        with contextlib.suppress(OSError):
            sock.shutdown(socket.SHUT_WR)
            while left > 0 and (wait := until - time.monotonic()) > 0:
                sock.settimeout(wait)
                left -= len(sock.recv(4096)) or left
