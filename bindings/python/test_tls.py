"""Channel binding over real TLS."""

from __future__ import annotations

import hashlib
import socket
import ssl
import struct
import subprocess
import tempfile
import unittest
from concurrent.futures import ThreadPoolExecutor
from pathlib import Path
from typing import Any, Optional

from cases import Case
from fe2o3_sasl import (
    SHA_256,
    Channel,
    ChannelKind,
    Client,
    ClientConnection,
    Offer,
    Progress,
    Record,
    Refused,
    Rejection,
    Server,
    ServerConnection,
    ServerError,
    Status,
    server_error_message,
)
from peers import SASL_HEADER, mechanisms_frame


class Tls(Case):
    """Channel binding over TLS on the loopback."""

    folder: Any

    @classmethod
    def setUpClass(cls) -> None:
        cls.folder = tempfile.TemporaryDirectory()
        cls.addClassCleanup(cls.folder.cleanup)
        for name in ("server", "other"):
            words = ["req", "-x509", "-nodes", "-days", "2", "-subj", "/CN=localhost", "-newkey", "rsa:2048", "-sha256"]
            cls.openssl(*words, "-keyout", cls.path(name, "key"), "-out", cls.path(name, "pem"))

    @classmethod
    def path(cls, name: str, kind: str) -> str:
        return f"{cls.folder.name}/{name}.{kind}"

    @staticmethod
    def openssl(*words: str) -> bytes:
        return subprocess.run(["openssl", *words], stdout=subprocess.PIPE, stderr=subprocess.DEVNULL, check=True).stdout

    def certificate(self, name: str) -> bytes:
        return ssl.PEM_cert_to_DER_cert(Path(self.path(name, "pem")).read_text())

    def contexts(self, name: str, version: ssl.TLSVersion) -> tuple[ssl.SSLContext, ssl.SSLContext]:
        """The contexts of a client, and of a server with this certificate."""
        client, server = ssl.SSLContext(ssl.PROTOCOL_TLS_CLIENT), ssl.SSLContext(ssl.PROTOCOL_TLS_SERVER)
        client.check_hostname, client.verify_mode = False, ssl.CERT_NONE
        server.load_cert_chain(self.path(name, "pem"), self.path(name, "key"))
        for context in (client, server):
            context.minimum_version = context.maximum_version = version
        return client, server

    def session(
        self, client: ssl.SSLContext, server: ssl.SSLContext, session: Optional[ssl.SSLSession] = None
    ) -> tuple[ssl.SSLSocket, ssl.SSLSocket]:
        """Both ends of a TLS connection after its handshake."""
        with socket.create_server(("127.0.0.1", 0)) as listener, ThreadPoolExecutor() as threads:
            accepted = threads.submit(lambda: server.wrap_socket(listener.accept()[0], server_side=True))
            near = client.wrap_socket(socket.create_connection(listener.getsockname(), 20), session=session)
            far = accepted.result(20)
        for end in (near, far):
            end.settimeout(20)
            self.addCleanup(end.close)
        return near, far

    def log_in(self, near: ssl.SSLSocket, channel: Channel) -> Client:
        """A client that logs in over TLS, each message with its size."""
        client = Client(SHA_256, "user", "pencil", channel=channel)
        send(near, client.first())
        send(near, client.final(receive(near)))
        client.verify(receive(near))
        return client

    def serve(self, far: ssl.SSLSocket, *channels: Channel) -> str:
        """A server of one login over TLS, which sends an error in the place of a message."""
        server, record = Server(channels=channels), Record.make(SHA_256, "pencil")
        try:
            send(far, server.first(record, receive(far)))
            send(far, server.final(receive(far)))
        except Refused as why:
            send(far, server_error_message(why.status))
            raise
        return server.authenticated_user()

    def relay(self, near: ssl.SSLSocket, far: ssl.SSLSocket) -> None:
        """A man in the middle with both connections, who passes each of the four messages on."""
        for source, target in ((near, far), (far, near)) * 2:
            send(target, receive(source))

    def logs_in(self, near: ssl.SSLSocket, channel: Channel, far: ssl.SSLSocket, *channels: Channel) -> None:
        with ThreadPoolExecutor() as threads:
            served = threads.submit(self.serve, far, *channels)
            self.log_in(near, channel)
            self.assertEqual(served.result(20), "user")

    def test_tls_unique(self) -> None:
        contexts = self.contexts("server", ssl.TLSVersion.TLSv1_2)
        near, far = self.session(*contexts)
        self.assertEqual(near.version(), "TLSv1.2")
        channel, expected = Channel.tls_unique(near), Channel.tls_unique(far)
        self.assertEqual((channel.kind, len(channel.data)), (ChannelKind.TLS_UNIQUE, 12))
        self.assertEqual(channel.data, expected.data)
        self.logs_in(near, channel, far, expected)
        # A resumed session and another one have other data, on both ends the same.
        known = [channel.data]
        for session in (near.session, near.session, None):
            again, other = self.session(*contexts, session=session)
            self.assertEqual(again.session_reused, session is not None)
            channel = Channel.tls_unique(again)
            self.assertNotIn(channel.data, known)
            known.append(channel.data)
            self.logs_in(again, channel, other, Channel.tls_unique(other))

    def test_tls_unique_of_objects(self) -> None:
        client, server = self.contexts("server", ssl.TLSVersion.TLSv1_2)
        one, two = ssl.MemoryBIO(), ssl.MemoryBIO()
        ends = client.wrap_bio(one, two), server.wrap_bio(two, one, server_side=True)
        for end in ends:
            self.assertRaises(ValueError, Channel.tls_unique, end)
        for _ in range(4):
            for end in ends:
                try:
                    end.do_handshake()
                except ssl.SSLWantReadError:
                    pass
        self.assertEqual(*(Channel.tls_unique(end).data for end in ends))

    def test_tls_server_end_point(self) -> None:
        hashed = hashlib.sha256(self.certificate("server")).digest()
        printed = self.openssl("x509", "-noout", "-fingerprint", "-sha256", "-in", self.path("server", "pem")).decode()
        self.assertEqual(printed.strip().rpartition("=")[2].replace(":", "").lower(), hashed.hex())
        for version in (ssl.TLSVersion.TLSv1_2, ssl.TLSVersion.TLSv1_3):
            near, far = self.session(*self.contexts("server", version))
            channel = Channel.tls_server_end_point(near.getpeercert(binary_form=True) or b"")
            self.assertEqual(channel.data, hashed)
            self.logs_in(near, channel, far, Channel.tls_server_end_point(self.certificate("server")))

    def test_a_selected_mechanism(self) -> None:
        """A client that takes the mechanism from the offer binds its channel, and a man in the middle with another
        certificate cannot pass the login on, nor remove `-PLUS` from the offer."""
        record = Record.make(SHA_256, "pencil")
        for name, plus, is_allowed in (
            ("server", True, True),
            ("other", True, False),
            ("server", False, False),
        ):
            with self.subTest(name=name, plus=plus):
                near, _ = self.session(*self.contexts(name, ssl.TLSVersion.TLSv1_3))
                channel = Channel.tls_server_end_point(near.getpeercert(binary_form=True) or b"")
                bound = [Channel.tls_server_end_point(self.certificate("server"))]
                server = ServerConnection(lambda _: [record], mechanisms=Offer.SCRAM_SHA_256, channels=bound)
                client = ClientConnection.select("user", "pencil", channel=channel, strict=True)
                to_server, offered = client.open(), b""
                while to_server:
                    to_client = server.receive(to_server)[0]
                    if not offered:
                        offered = to_client
                        to_client = offered if plus else SASL_HEADER + mechanisms_frame("SCRAM-SHA-256")
                    to_server = client.receive(to_client)[0]
                self.assertIn(b"SCRAM-SHA-256-PLUS", offered)
                self.assertEqual(client.mechanism(), "SCRAM-SHA-256-PLUS" if plus else "SCRAM-SHA-256")
                wanted = Progress.AUTHENTICATED if is_allowed else Progress.FAILED
                self.assertEqual((client.progress, server.progress), (wanted, wanted))
                if not is_allowed:
                    reasons = Rejection.CHANNEL, Rejection.SERVER_CANNOT_PARSE_GS2_HEADER
                    self.assertIn(server.rejection, reasons)

    def test_tls_unique_above_tls_1_2(self) -> None:
        for end in self.session(*self.contexts("server", ssl.TLSVersion.TLSv1_3)):
            self.assertEqual(end.version(), "TLSv1.3")
            self.assertRaises(ValueError, Channel.tls_unique, end)
        with ssl.SSLContext(ssl.PROTOCOL_TLS_SERVER).wrap_socket(socket.socket(), server_side=True) as unconnected:
            self.assertRaises(ValueError, Channel.tls_unique, unconnected)

    def test_a_man_in_the_middle(self) -> None:
        def unique(end: ssl.SSLSocket, name: str) -> Channel:
            return Channel.tls_unique(end)

        def end_point(end: ssl.SSLSocket, name: str) -> Channel:
            return Channel.tls_server_end_point(end.getpeercert(binary_form=True) or self.certificate(name))

        version = ssl.TLSVersion.TLSv1_2
        for identify, has_certificate, passes in (
            (unique, False, False),
            (unique, True, False),
            (end_point, False, False),
            (end_point, True, True),
        ):
            with self.subTest(identify=identify.__name__, has_certificate=has_certificate):
                name = "server" if has_certificate else "other"
                near, middle = self.session(*self.contexts(name, version))
                beyond, far = self.session(*self.contexts("server", version))
                with ThreadPoolExecutor() as threads:
                    served = threads.submit(self.serve, far, identify(far, "server"))
                    relayed = threads.submit(self.relay, middle, beyond)
                    if passes:
                        # (by this kind, a man in the middle with the certificate and its key is the server)
                        self.log_in(near, identify(near, name))
                        self.assertEqual(served.result(20), "user")
                        continue
                    with self.assertRaises(ServerError) as caught:
                        self.log_in(near, identify(near, name))
                    self.assertEqual(caught.exception.error, "channel-bindings-dont-match")
                    relayed.result(20)
                    self.refused(Status.SERVER_INVALID_CHANNEL_BINDING, served.result, 20)


def send(sock: socket.socket, message: bytes) -> None:
    sock.sendall(struct.pack(">I", len(message)) + message)


def receive(sock: socket.socket) -> bytes:
    held = b""
    while len(held) < 4 or len(held) < 4 + int.from_bytes(held[:4], "big"):
        if not (came := sock.recv(4096)):
            raise EOFError
        held += came
    return held[4:]


if __name__ == "__main__":
    unittest.main()
