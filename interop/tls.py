"""TLS for logins by EXTERNAL, and for those that bind a channel. Our programs do not speak TLS: a relay in a thread does,
between them and a peer."""

from __future__ import annotations

import contextlib
import select
import socket
import ssl
import subprocess
import threading
from pathlib import Path
from typing import Callable, NamedTuple, Optional

from sides import PATIENCE, Ending, Side, dialled, ended_after, listening

#: The name of a server's certificate.
HOST = "localhost"


class Pair(NamedTuple):
    """The files of a certificate and of its key."""

    certificate: Path
    key: Path


class Authority:
    """Issues the certificates of a run, in a folder. Its own certificate is the only one that is trusted."""

    def __init__(self, folder: Path) -> None:
        self.folder = folder
        folder.mkdir(exist_ok=True)
        self.pair = Pair(folder / "authority.pem", folder / "authority.key")
        self.issued: dict[str, Pair] = {}
        words = ["req", "-x509", "-nodes", "-days", "2", "-newkey", "rsa:2048", "-subj", "/CN=authority"]
        # (Python 3.13 and later require it)
        words += ["-addext", "keyUsage=critical,keyCertSign,cRLSign"]
        self.openssl(*words, "-keyout", self.pair.key, "-out", self.pair.certificate)

    def openssl(self, *words: object) -> None:
        subprocess.run(["openssl", *map(str, words)], capture_output=True, timeout=PATIENCE, check=True)

    def issue(self, name: str) -> Pair:
        """A certificate with this common name. A name is only issued once."""
        if name not in self.issued:
            stem = self.folder / str(len(self.issued))
            pair, request = Pair(stem.with_suffix(".pem"), stem.with_suffix(".key")), stem.with_suffix(".csr")
            self.openssl(
                "req",
                "-nodes",
                "-newkey",
                "rsa:2048",
                "-utf8",
                "-subj",
                f"/CN={name}",
                "-keyout",
                pair.key,
                "-out",
                request,
            )
            self.openssl(
                "x509",
                "-req",
                "-days",
                "2",
                "-in",
                request,
                "-CA",
                self.pair.certificate,
                "-CAkey",
                self.pair.key,
                "-CAcreateserial",
                "-out",
                pair.certificate,
            )
            self.issued[name] = pair
        return self.issued[name]

    def client(self, name: Optional[str]) -> ssl.SSLContext:
        """How a client with this name in its certificate begins TLS, or one without a certificate."""
        context = ssl.create_default_context(cafile=str(self.pair.certificate))
        if name is not None:
            context.load_cert_chain(*self.issue(name))
        return context

    def server(self) -> ssl.SSLContext:
        """How a server begins TLS that requires a client's certificate."""
        context = ssl.create_default_context(ssl.Purpose.CLIENT_AUTH, cafile=str(self.pair.certificate))
        context.verify_mode = ssl.CERT_REQUIRED
        context.load_cert_chain(*self.issue(HOST))
        return context


def name_of(channel: ssl.SSLSocket) -> str:
    """The common name in the other side's certificate, which was verified."""
    subject = channel.getpeercert()["subject"]
    return next(value for part in subject for kind, value in part if kind == "commonName")


def received(channel: socket.socket) -> Optional[bytes]:
    """The bytes that have arrived, nothing once the other side has ended, and `None` if there is no data yet."""
    # (what arrived can be a part of a record, or one of TLS itself)
    channel.setblocking(False)
    try:
        return channel.recv(65536)
    except (BlockingIOError, ssl.SSLWantReadError):
        return None
    finally:
        channel.settimeout(PATIENCE)


def relay(plain: socket.socket, secure: ssl.SSLSocket) -> None:
    """Hands bytes over in both directions until one side ends."""
    # (in one thread, since a connection of OpenSSL must not be read and written at once)
    while waiting := [secure] if secure.pending() else select.select([plain, secure], [], [], PATIENCE)[0]:
        for one in waiting:
            came = received(one)
            if came == b"":
                return
            if came:
                (plain if one is secure else secure).sendall(came)


def in_background(listener: socket.socket, serve: Callable[[socket.socket], None]) -> int:
    """The port of a listener, whose first connection is served in a thread."""

    def run() -> None:
        with contextlib.suppress(OSError), listener:
            channel, _ = listener.accept()
            with channel:
                serve(channel)

    threading.Thread(target=run, daemon=True).start()
    return listener.getsockname()[1]


def to_tls(port: int, context: ssl.SSLContext) -> int:
    """A port for a client that does not speak TLS. Its connection is handed over to another port in TLS."""

    def serve(plain: socket.socket) -> None:
        with context.wrap_socket(dialled(port), server_hostname=HOST) as secure:
            relay(plain, secure)

    return in_background(listening(), serve)


def from_tls(context: ssl.SSLContext, start: Callable[[str], int]) -> int:
    """A port for a client that speaks TLS. Its connection is handed over to a server that does not, which is started
    with the name in the client's certificate and returns its port."""

    def serve(channel: socket.socket) -> None:
        with context.wrap_socket(channel, server_side=True) as secure, dialled(start(name_of(secure))) as plain:
            relay(plain, secure)

    return in_background(listening(), serve)


def serve_external(side: Side, authority: Authority, peer: Callable[[int], Optional[bool]]) -> Ending:
    """A login by EXTERNAL at our server over frames, which accepts the name in the client's certificate. The peer is
    called with the port for TLS."""
    started: list[subprocess.Popen] = []

    def start(name: str) -> int:
        started.append(side.external_server(name))
        return side.tapped(int(started[0].stdout.readline()))

    seen = peer(from_tls(authority.server(), start))
    if not started:
        return Ending("no connection", seen)
    with ended_after(started[0]) as program:
        return Ending(program.stdout.readline().strip(), seen)


class Tunnel:
    """A connection under TLS 1.2 over the loopback, between a program of ours and a peer that do not speak TLS."""

    def __init__(self, authority: Authority) -> None:
        near, far = authority.client(None), ssl.create_default_context(ssl.Purpose.CLIENT_AUTH)
        far.load_cert_chain(*authority.issue(HOST))
        # (no later version has tls-unique)
        near.maximum_version = ssl.TLSVersion.TLSv1_2
        with listening() as listener:
            begun = dialled(listener.getsockname()[1])
            accepted, _ = listener.accept()
        ends: list[ssl.SSLSocket] = []
        other = threading.Thread(target=lambda: ends.append(far.wrap_socket(accepted, server_side=True)))
        other.start()
        self.near = near.wrap_socket(begun, server_hostname=HOST)
        other.join()
        self.far = ends[0]

    def channel(self) -> str:
        """What binds the channel at our end: `tls-unique` (RFC 5929, section 3)."""
        return f"tls-unique:{self.near.get_channel_binding('tls-unique').hex()}"

    def other(self) -> str:
        """The data of the channel at the peer's end."""
        return self.far.get_channel_binding("tls-unique").hex()

    def between(self, ours: socket.socket, peer: Callable[[socket.socket], Optional[bool]]) -> Optional[bool]:
        """Hands over what our program and a peer send, which is called with its end."""
        plain, end = socket.socketpair()
        for one, secure in ((ours, self.near), (plain, self.far)):
            threading.Thread(target=handed_over, args=(one, secure), daemon=True).start()
        with end:
            return peer(end)


def handed_over(plain: socket.socket, secure: ssl.SSLSocket) -> None:
    """Hands bytes over until one side ends, and then ends the other."""
    # (ValueError where the login has ended, and its socket is closed)
    with contextlib.suppress(OSError, ValueError), secure:
        relay(plain, secure)
    with contextlib.suppress(OSError):
        plain.shutdown(socket.SHUT_WR)
