"""Tries the examples: how `login.py` closes a connection, the broker and the client over TCP, `channel.py` over TLS."""

from __future__ import annotations

import asyncio
import contextlib
import io
import shutil
import socket
import ssl
import subprocess
import tempfile
import threading
import time
import unittest
from concurrent.futures import Future, ThreadPoolExecutor
from pathlib import Path
from typing import Any, Callable, Optional
from unittest import mock

from examples import broker, channel, client
from examples.login import finish, hang_up
from fe2o3_sasl import Client as ScramClient
from fe2o3_sasl import ProtocolError, RecordStore, Refused, Server, ServerConnection, ServerError, Status
from peers import INIT, MECHANISMS, OUTCOME, SASL_HEADER, SHA_256, SHA_512, Login, Plain, Secret, Side
from peers import bare_of, base64_of, frame_of, mechanisms_frame, short

SALT = b"a salt of bytes!"
#: The secret of mock records.
SECRET = bytes(range(32))
ENDED = "Connection: The other side ended the stream before the negotiation was complete"
#: More than a server reads at once, and less than it discards.
MORE = bytes(10_000)


def line(version: int, name: str, password: str) -> str:
    return f"{name} {Secret(version, password, SALT, 4096).record_text()}\n"


def outcome(port: int, by: Side, messages: int) -> Optional[int]:
    """The code of the outcome that a client reads, which sends more after that many messages, and then waits."""
    by.begin(ask=True)
    with socket.create_connection(("127.0.0.1", port), timeout=20) as channel:
        answer = by.open()
        while by.code is None:
            channel.sendall(answer)
            messages -= bool(answer)
            if messages == 0 and answer:
                for _ in range(3):
                    channel.sendall(MORE)
                    time.sleep(0.02)
            if not (came := channel.recv(4096)):
                return None
            answer = by.receive(came)
        while channel.recv(4096):
            pass
        return by.code


def challenged(port: int, version: int, name: str) -> dict[bytes, bytes]:
    """The attributes of the challenge that the broker sends to a client, which then closes."""
    by = Login(version, name, "pencil")
    by.begin()
    with socket.create_connection(("127.0.0.1", port), timeout=20) as channel:
        answer, seen = by.open(), []
        by.answer = lambda challenge: seen.append(challenge) or b""  # type: ignore[method-assign, func-returns-value]
        while not seen and answer:
            channel.sendall(answer)
            answer = by.receive(channel.recv(4096))
    return {part[:1]: part[2:] for part in seen[0].split(b",")}


class HangUp(unittest.TestCase):
    """A server that closes with `hang_up`, over TCP."""

    def serve(self, listener: socket.socket, count: int) -> None:
        for _ in range(count):
            channel, _ = listener.accept()
            side = ServerConnection(RecordStore(line(SHA_256, "user", "pencil")).records)
            with contextlib.suppress(Refused):
                finish(side, channel)
            hang_up(channel)

    def test_the_outcome_arrives(self) -> None:
        clients = [
            (Login(SHA_256, "user", "pencil"), 3, 0),
            (Login(SHA_256, "user", "pencils"), 3, 1),
            (Plain("user", "pencil"), 2, 1),
        ] * 5
        with socket.create_server(("127.0.0.1", 0)) as listener:
            server = threading.Thread(target=self.serve, args=(listener, len(clients)), daemon=True)
            server.start()
            for by, messages, code in clients:
                self.assertEqual(outcome(listener.getsockname()[1], by, messages), code)
            server.join(20)
        self.assertFalse(server.is_alive())

    def ended(self, send: Callable[[socket.socket], None], **limits: float) -> float:
        """How long a close takes while the peer sends."""
        with socket.create_server(("127.0.0.1", 0)) as listener:
            with socket.create_connection(listener.getsockname()) as peer:
                channel, _ = listener.accept()
                threading.Thread(target=send, args=(peer,), daemon=True).start()
                began = time.monotonic()
                hang_up(channel, **limits)
                self.assertEqual(channel.fileno(), -1)
                return time.monotonic() - began

    @unittest.skipUnless(shutil.which("openssl"), "it makes the certificate")
    def test_tls(self) -> None:
        with tempfile.TemporaryDirectory() as folder:
            certificate, key = f"{folder}/certificate.pem", f"{folder}/key.pem"
            words = ["openssl", "req", "-x509", "-nodes", "-days", "2", "-subj", "/CN=localhost", "-newkey", "rsa:2048"]
            subprocess.run([*words, "-keyout", key, "-out", certificate], stderr=subprocess.DEVNULL, check=True)
            context = ssl.create_default_context(ssl.Purpose.CLIENT_AUTH)
            context.load_cert_chain(certificate, key)
        trusting = ssl.create_default_context()
        trusting.check_hostname, trusting.verify_mode = False, ssl.CERT_NONE

        def serve(channel: socket.socket) -> None:
            secure = context.wrap_socket(channel, server_side=True)
            secure.recv(4)
            secure.sendall(b"outcome")
            hang_up(secure)

        with socket.create_server(("127.0.0.1", 0)) as listener:
            for _ in range(5):
                peer = socket.create_connection(listener.getsockname())
                with trusting.wrap_socket(peer, do_handshake_on_connect=False) as peer:
                    server = threading.Thread(target=serve, args=(listener.accept()[0],), daemon=True)
                    server.start()
                    peer.do_handshake()
                    for _ in range(3):
                        peer.sendall(MORE)
                        time.sleep(0.02)
                    self.assertEqual(peer.recv(4096), b"outcome")
                    self.assertEqual(peer.recv(4096), b"")
                server.join(20)
                self.assertFalse(server.is_alive())

    def test_limits(self) -> None:
        def often(peer: socket.socket) -> None:
            with contextlib.suppress(OSError):
                while True:
                    peer.sendall(b"byte")
                    time.sleep(0.01)

        def much(peer: socket.socket) -> None:
            with contextlib.suppress(OSError):
                peer.sendall(bytes(1_000_000))

        self.assertLess(0.3, self.ended(lambda peer: None, seconds=0.3))
        self.assertLess(self.ended(often, seconds=0.3), 2)
        self.assertLess(self.ended(much, seconds=20), 2)


class Broker(unittest.IsolatedAsyncioTestCase):
    """The broker and the client, over TCP."""

    async def asyncSetUp(self) -> None:
        folder = tempfile.TemporaryDirectory()
        self.addCleanup(folder.cleanup)
        self.users = Path(folder.name) / "users.txt"
        users = {"user": "pencil", "a=2Cb=3Dc": "pen"}
        self.users.write_text("".join(line(version, *user) for user in users.items() for version in MECHANISMS))
        self.printed = io.StringIO()
        out = contextlib.redirect_stdout(self.printed)
        out.__enter__()
        self.addCleanup(out.__exit__, None, None, None)

    @contextlib.asynccontextmanager
    async def running(self, **limits: int):
        """The port of a broker with other limits."""
        with mock.patch.multiple(broker, **{"REFUSALS": 5, **limits}):
            serve = broker.Broker(self.users, is_tls=False).serve
            async with await asyncio.start_server(serve, "127.0.0.1", 0, limit=4096) as server:
                yield server.sockets[0].getsockname()[1]
                await asyncio.sleep(0.05)

    def told(self) -> list[str]:
        return self.printed.getvalue().splitlines()

    async def log_in(self, port: int, name: str, password: str) -> str:
        """The mechanism of a login by the client, or why there is none."""
        try:
            login = client.Login("127.0.0.1", port, name, password, None, False)
            return await asyncio.wait_for(client.run(login), 20)
        except (OSError, Refused) as why:
            return str(why)

    async def test_logins(self) -> None:
        refused = "Connection: The login was rejected"
        async with self.running() as port:
            self.assertEqual(await self.log_in(port, "user", "pencil"), "SCRAM-SHA-512")
            self.assertEqual(await self.log_in(port, "a,b=c", "pen"), "SCRAM-SHA-512")
            for name, password in (("user", "pencils"), ("nobody", "pencil"), ("a,b=c", "pencil")):
                self.assertIn(refused, await self.log_in(port, name, password))
            self.assertEqual(await self.log_in(port, "user", ""), "no mechanism is allowed")
        by = "('SCRAM-SHA-512', user {!r}, host '127.0.0.1'{})"
        reasons = {"user": ", WRONG_PROOF", "nobody": ", UNKNOWN_USER", "a,b=c": ", WRONG_PROOF"}
        self.assertEqual(
            self.told(),
            [f"logged in: {name!r} " + by.format(name, "") for name in ("user", "a,b=c")]
            + [
                f"not logged in: {refused}, 1 of {name!r} " + by.format(name, reason)
                for name, reason in reasons.items()
            ]
            + [f"not logged in: {ENDED}"],
        )

    async def test_each_hash(self) -> None:
        async with self.running() as port:
            for version in MECHANISMS:
                self.assertEqual(await asyncio.to_thread(outcome, port, Login(version, "user", "pencil"), 3), 0)
            # (PLAIN is not offered without TLS)
            self.assertEqual(await asyncio.to_thread(outcome, port, Plain("user", "pencil"), 2), 1)
        by = [f"logged in: 'user' ({name!r}, user 'user', host None)" for name in MECHANISMS.values()]
        self.assertEqual(self.told()[:3], by)

    async def test_the_hashes_of_the_file_are_offered(self) -> None:
        self.users.write_text(line(SHA_256, "user", "pencil"))
        async with self.running() as port:
            self.assertEqual(await self.log_in(port, "user", "pencil"), "SCRAM-SHA-256")
            self.assertEqual(await asyncio.to_thread(outcome, port, Login(SHA_512, "user", "pencil"), 2), 1)

    async def test_the_outcome_arrives(self) -> None:
        async with self.running(REFUSALS=100) as port:
            for _ in range(10):
                by = Login(SHA_256, "user", "pencils")
                self.assertEqual(await asyncio.to_thread(outcome, port, by, 3), 1)

    async def test_a_lock(self) -> None:
        async with self.running(LOCK_SECONDS=1) as port:
            for _ in range(5):
                await self.log_in(port, "user", "pencils")
            self.assertIn("rejected", await self.log_in(port, "user", "pencil"))
            self.assertIn("not logged in: Connection: The login was rejected, 5 of 'user' (", self.told()[-1])
            self.assertTrue(self.told()[-1].endswith(", UNKNOWN_USER)"))
            await asyncio.sleep(1.1)
            self.assertEqual(await self.log_in(port, "user", "pencil"), "SCRAM-SHA-512")

    async def test_counts_of_few_names(self) -> None:
        async with self.running(NAMES=2) as port:
            for name in ("a", "b", "a", "c", "b"):
                await self.log_in(port, name, "pencil")
        counts = [text.partition(" (")[0].rpartition(", ")[2] for text in self.told()]
        self.assertEqual(counts, ["1 of 'a'", "1 of 'b'", "2 of 'a'", "1 of 'c'", "1 of 'b'"])

    async def test_limits(self) -> None:
        async with self.running(LOGIN_SECONDS=0.2, CLOSE_SECONDS=0.2) as port:
            reader, writer = await asyncio.open_connection("127.0.0.1", port)
            writer.write(SASL_HEADER)
            offer = await reader.read()
            self.assertTrue(offer.startswith(SASL_HEADER))
            writer.close()
        async with self.running(CONNECTIONS=0) as port:
            self.assertRegex(await self.log_in(port, "user", "pencil"), f"reset by peer|{ENDED}")
        self.assertEqual(self.told(), ["no login: it took too long"])

    async def test_another_protocol(self) -> None:
        async with self.running() as port:
            reader, writer = await asyncio.open_connection("127.0.0.1", port)
            writer.write(b"GET / HTTP/1.1\r\n\r\n")
            self.assertEqual(await reader.read(), SASL_HEADER)
            writer.close()

    async def test_an_init_and_no_more(self) -> None:
        init = frame_of(INIT, short(0xA3, b"SCRAM-SHA-256"), short(0xA0, b"n,,n=user,r=nonce"), short(0xA1, b"host"))
        async with self.running() as port:
            reader, writer = await asyncio.open_connection("127.0.0.1", port)
            writer.write(SASL_HEADER + init)
            writer.write_eof()
            self.assertTrue((await reader.read()).startswith(SASL_HEADER))
            writer.close()
        self.assertEqual(self.told(), [f"not logged in: {ENDED} ('SCRAM-SHA-256', user 'user', host 'host')"])

    async def test_the_secret_is_kept(self) -> None:
        settings = [broker.Broker(self.users, is_tls=False).mock for _ in range(2)]
        secret = Path(f"{self.users}.secret")
        self.assertEqual((secret.stat().st_mode & 0o777, secret.stat().st_size), (0o600, 32))
        self.assertEqual(settings, [(secret.read_bytes(), len(SALT), 4096)] * 2)
        secret.write_bytes(b"short")
        self.assertRaises(ValueError, broker.Broker, self.users, False)

    async def test_unknown_and_locked_names(self) -> None:
        """An unknown user, a locked one and a known one get challenges of one length, by each hash, and one salt each."""
        async with self.running(LOCK_SECONDS=60) as port:
            for _ in range(5):
                await self.log_in(port, "user", "pencils")
            for version in MECHANISMS:
                challenges = [
                    await asyncio.to_thread(challenged, port, version, name)
                    for name in ("user", "a,b=c", "nobody", "nobody")
                ]
                salts = [fields[b"s"] for fields in challenges]
                self.assertEqual([len(salt) for salt in salts], [24] * 4)
                self.assertEqual({fields[b"i"] for fields in challenges}, {b"4096"})
                self.assertEqual(salts[2], salts[3])
                self.assertNotIn(base64_of(SALT), (salts[0], salts[2]))
                self.assertEqual(salts[1], base64_of(SALT))

    async def test_files_that_are_rejected(self) -> None:
        one = line(SHA_256, "user", "pencil")
        salt = f"other {Secret(SHA_256, 'pencil', SALT * 2, 4096).record_text()}\n"
        count = f"other {Secret(SHA_256, 'pencil', SALT, 4097).record_text()}\n"
        for more in (salt, count, line(SHA_512, "other", "pencil")):
            self.users.write_text(one + line(SHA_256, "third", "pencil") + more)
            with self.assertRaisesRegex(ValueError, "have to be the same|there is no hash"):
                broker.Broker(self.users, False)
        self.users.write_text("")
        with self.assertRaisesRegex(ValueError, "there is no hash"):
            broker.Broker(self.users, False)
        for text in (one + "user SCRAM-SHA-256$4096\n", one[:-1]):
            self.users.write_text(text)
            self.assertRaises(Refused, broker.Broker, self.users, False)


#: What a man in the middle sends in the place of a message, of which this is the number.
Alter = Callable[[int, bytes], bytes]


def ended_by(call: "Future[Any]") -> Any:
    """What a call in a thread returns or raises."""
    return call.exception(20) or call.result()


class Mover:
    """A man in the middle who removes -PLUS from the offer, and moves text between the messages: what he adds to the
    server-first message, he also puts before the client-final message."""

    moved = b""

    def alter(self, number: int, message: bytes) -> bytes:
        if number == 0:
            return b"SCRAM-SHA-256"
        if number == 2:
            return b"n" + message[1:]
        if number == 3:
            self.moved = b"c=biws," + message.split(b",")[0]
            return message + b"," + self.moved
        return self.moved + b"," + message if number == 4 else message


def lax_log_in(sock: ssl.SSLSocket, username: str, password: str) -> bool:
    """Logs in like `channel.log_in` without -PLUS, but tests no extensions. Returns whether the server is authenticated."""
    channel.receive(sock)
    channel.send(sock, b"SCRAM-SHA-256")
    bare = bare_of(username, bytes(32))
    channel.send(sock, b"y,," + bare)
    last, expected = Secret(SHA_256, password, SALT, 4096).finals(bare, channel.receive(sock), b"y,,")
    channel.send(sock, last)
    return channel.receive(sock) == expected


@unittest.skipUnless(shutil.which("openssl"), "it makes the certificates")
class Bound(unittest.TestCase):
    """Logins by `channel.py`, over TLS."""

    def setUp(self) -> None:
        folder = tempfile.TemporaryDirectory()
        self.addCleanup(folder.cleanup)
        self.folder = folder.name
        self.store = RecordStore(line(SHA_256, "user", "pencil"))

    def certify(self, name: str, hash: str = "sha256") -> None:
        words = ["openssl", "req", "-x509", "-nodes", "-days", "2", "-subj", "/CN=localhost", "-newkey", "rsa:2048"]
        words += [f"-{hash}", "-keyout", f"{self.folder}/{name}.key", "-out", f"{self.folder}/{name}.pem"]
        subprocess.run(words, stderr=subprocess.DEVNULL, check=True)

    def connect(self, name: str, version: ssl.TLSVersion) -> tuple[ssl.SSLSocket, ssl.SSLSocket]:
        """Both ends of a TLS connection to a server with this certificate, which the client trusts."""
        near = ssl.create_default_context(cafile=f"{self.folder}/{name}.pem")
        far = ssl.create_default_context(ssl.Purpose.CLIENT_AUTH)
        far.load_cert_chain(f"{self.folder}/{name}.pem", f"{self.folder}/{name}.key")
        near.minimum_version = near.maximum_version = version
        with socket.create_server(("127.0.0.1", 0)) as listener, ThreadPoolExecutor() as threads:
            accepted = threads.submit(lambda: far.wrap_socket(listener.accept()[0], server_side=True))
            peer = socket.create_connection(listener.getsockname(), timeout=20)
            ends = near.wrap_socket(peer, server_hostname="localhost"), accepted.result(20)
        for end in ends:
            end.settimeout(20)
            self.addCleanup(end.close)
        return ends

    def serve(self, far: ssl.SSLSocket, hash: str = "sha256") -> tuple[str, str]:
        certificate = ssl.PEM_cert_to_DER_cert(Path(f"{self.folder}/server.pem").read_text())
        return channel.serve(far, self.store, SECRET, certificate, hash)

    def test_logins(self) -> None:
        for hash in ("sha256", "sha384"):
            self.certify("server", hash)
            for version in (ssl.TLSVersion.TLSv1_2, ssl.TLSVersion.TLSv1_3):
                near, far = self.connect("server", version)
                with ThreadPoolExecutor() as threads:
                    served = threads.submit(self.serve, far, hash)
                    self.assertEqual(channel.log_in(near, "user", "pencil", hash), "SCRAM-SHA-256-PLUS")
                    self.assertEqual(served.result(20), ("SCRAM-SHA-256-PLUS", "user"))

    def test_a_client_without_channel_binding(self) -> None:
        self.certify("server")
        near, far = self.connect("server", ssl.TLSVersion.TLSv1_3)
        by = ScramClient(SHA_256, "user", "pencil")
        with ThreadPoolExecutor() as threads:
            served = threads.submit(self.serve, far)
            self.assertEqual(channel.receive(near), b"SCRAM-SHA-256-PLUS SCRAM-SHA-256")
            channel.send(near, b"SCRAM-SHA-256")
            channel.send(near, by.first())
            channel.send(near, by.final(channel.receive(near)))
            by.verify(channel.receive(near))
            self.assertEqual(served.result(20), ("SCRAM-SHA-256", "user"))

    def test_logins_that_are_none(self) -> None:
        self.certify("server")
        for name, password in (("user", "pencils"), ("nobody", "pencil")):
            near, far = self.connect("server", ssl.TLSVersion.TLSv1_3)
            with ThreadPoolExecutor() as threads:
                served = threads.submit(self.serve, far)
                with self.assertRaises(ServerError) as caught:
                    channel.log_in(near, name, password)
                self.assertEqual(caught.exception.error, "invalid-proof")
                self.assertRaises(Refused, served.result, 20)
        for said in (b"PLAIN", None):
            near, far = self.connect("server", ssl.TLSVersion.TLSv1_3)
            with ThreadPoolExecutor() as threads:
                served = threads.submit(self.serve, far)
                channel.receive(near)
                if said:
                    channel.send(near, said)
                else:
                    near.sendall(bytes(5000))
                self.assertRaises(ConnectionError, served.result, 20)

    def passed_on(self, alter: Alter, log_in: Callable[..., Any] = channel.log_in) -> tuple[Any, Any]:
        """A login through a man in the middle, who has a certificate that the client trusts, and may alter messages: what
        the client and the server return or raise."""
        near, middle = self.connect("other", ssl.TLSVersion.TLSv1_2)
        beyond, far = self.connect("server", ssl.TLSVersion.TLSv1_2)

        def relay() -> None:
            to_client, to_server = (beyond, middle), (middle, beyond)
            ways = (to_client, to_server, to_server, to_client, to_server, to_client)
            try:
                for number, (source, target) in enumerate(ways):
                    channel.send(target, alter(number, channel.receive(source)))
            finally:
                beyond.close()

        with ThreadPoolExecutor() as threads:
            served, relayed = threads.submit(self.serve, far), threads.submit(relay)
            ended = ended_by(threads.submit(log_in, near, "user", "pencil"))
            near.close()
            relayed.exception(20)
            return ended, ended_by(served)

    def test_a_man_in_the_middle(self) -> None:
        self.certify("server")
        self.certify("other")

        def unaltered(number: int, message: bytes) -> bytes:
            return message

        def without_plus(number: int, message: bytes) -> bytes:
            return b"SCRAM-SHA-256" if number == 0 else message

        def without_header(number: int, message: bytes) -> bytes:
            return b"n" + message[1:] if number == 2 else without_plus(number, message)

        for alter in (unaltered, without_header):
            why, refused = self.passed_on(alter)
            self.assertIsInstance(why, ServerError)
            self.assertEqual(why.error, "channel-bindings-dont-match")
            self.assertEqual(refused.status, Status.SERVER_INVALID_CHANNEL_BINDING)
        why, refused = self.passed_on(without_plus)
        self.assertIsInstance(why, ConnectionError)
        self.assertEqual(refused.status, Status.SERVER_CANNOT_PARSE_GS2_HEADER)

    def test_moved_text(self) -> None:
        """The man in the middle removes -PLUS from the offer, and moves text between the messages, so that both sides would
        have the same AuthMessage. Each side refuses by itself, whatever the other one tests."""
        self.certify("server")
        self.certify("other")

        def lax(channels: Any, reject_misplaced: bool) -> Server:
            return Server(channels=channels)

        why, refused = self.passed_on(Mover().alter)
        self.assertIsInstance(why, ProtocolError)
        self.assertEqual(why.status, Status.CLIENT_MISPLACED_ATTRIBUTE)
        self.assertIsInstance(refused, ConnectionError)
        why, refused = self.passed_on(Mover().alter, lax_log_in)
        self.assertEqual((why, refused.status), (False, Status.SERVER_MISPLACED_ATTRIBUTE))
        with mock.patch.object(channel, "Server", lax):
            why, refused = self.passed_on(Mover().alter)
            self.assertEqual(why.status, Status.CLIENT_MISPLACED_ATTRIBUTE)
            self.assertIsInstance(refused, ConnectionError)
            # (two sides that test nothing log in: the texts above are those of the attack)
            self.assertEqual(self.passed_on(Mover().alter, lax_log_in), (True, ("SCRAM-SHA-256", "user")))


class Client(unittest.IsolatedAsyncioTestCase):
    """The client at servers that are none."""

    async def test_other_servers(self) -> None:
        name, refused = "SCRAM-SHA-256", frame_of(OUTCOME, b"\x50\1", short(0xA0, b"locked"))
        for said, why in (
            (b"AMQP\0\1\0\0", r"(70): b'AMQP\x00\x01\x00\x00'"),
            (SASL_HEADER + b"\0\0\2\1", "(71)"),
            (SASL_HEADER + mechanisms_frame("PLAIN"), "the server offers no allowed mechanism"),
            (SASL_HEADER + mechanisms_frame(name) + refused, "(81): b'locked'"),
            (SASL_HEADER, f"{ENDED} (90)"),
        ):

            async def serve(reader: asyncio.StreamReader, writer: asyncio.StreamWriter) -> None:
                await reader.readexactly(8)
                writer.write(said)
                writer.close()

            async with await asyncio.start_server(serve, "127.0.0.1", 0) as server:
                login = client.Login("127.0.0.1", server.sockets[0].getsockname()[1], "user", "pencil", None, False)
                with self.assertRaises(ConnectionError) as raised:
                    await client.run(login)
                self.assertIn(why, str(raised.exception))


if __name__ == "__main__":
    unittest.main()
