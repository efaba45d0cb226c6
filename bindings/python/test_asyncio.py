"""Tries fe2o3_sasl.asyncio over the loopback: both sides, and each against a peer that is made here."""

from __future__ import annotations

import asyncio
import contextlib
import shutil
import socket
import ssl
import struct
import subprocess
import tempfile
import threading
import time
import unittest
from pathlib import Path
from typing import Any, Awaitable, Callable, Optional
from unittest import mock

import fe2o3_sasl.asyncio
from fe2o3_sasl import (
    SHA_256,
    SHA_512,
    AuthenticationFailed,
    Client,
    ClientConnection,
    CredentialsRejected,
    EndOfInput,
    IterationCountError,
    MechanismUnavailable,
    Offer,
    Progress,
    ProtocolError,
    Record,
    Refused,
    Rejection,
    ServerConnection,
    ServerNotAuthenticated,
    Status,
    Wiped,
)
from fe2o3_sasl.asyncio import log_in, serve
from peers import OUTCOME, SASL_HEADER, Broker, Login, Plain, Secret, Side, frame_of, mechanisms_frame, short

FOLDER = Path(__file__).resolve().parent
SALT = b"a salt of bytes!"
RECORDS = [Record.make(version, "pencil", salt=SALT) for version in (SHA_512, SHA_256)]
AMQP = b"AMQP\0\1\0\0"

Handler = Callable[[asyncio.StreamReader, asyncio.StreamWriter], Awaitable[Any]]


def records_of(name: str) -> list[Record]:
    return RECORDS if name == "user" else []


def client(password: str = "pencil", **options: Any) -> ClientConnection:
    return ClientConnection(Client(SHA_256, "user", password, **options), hostname="host")


class Case(unittest.IsolatedAsyncioTestCase):
    async def joined(self, near: Handler, far: Handler) -> tuple[Any, Any]:
        """What both ends of a connection return or raise. Each end closes it afterwards."""
        ended: asyncio.Future[Any] = asyncio.get_running_loop().create_future()

        async def tried(handler: Handler, reader: asyncio.StreamReader, writer: asyncio.StreamWriter) -> Any:
            try:
                return await handler(reader, writer)
            except (Refused, OSError, asyncio.TimeoutError, LookupError, Wiped) as why:
                return why
            finally:
                writer.close()

        async def accepted(reader: asyncio.StreamReader, writer: asyncio.StreamWriter) -> None:
            ended.set_result(await tried(far, reader, writer))

        async with await asyncio.start_server(accepted, "127.0.0.1", 0) as server:
            streams = await asyncio.open_connection(*server.sockets[0].getsockname())
            return await asyncio.wait_for(asyncio.gather(tried(near, *streams), ended), 20)


def by(call: Any, side: Any, **options: Any) -> Handler:
    """An end of the library, which never closes."""

    async def called(reader: asyncio.StreamReader, writer: asyncio.StreamWriter) -> Any:
        with mock.patch.object(writer, "close") as close:
            try:
                return await call(reader, writer, side, **options)
            finally:
                close.assert_not_called()

    return called


def of_broker(broker: Broker, behind: bytes = b"") -> Handler:
    """A server that is made here. It sends more after its last frame."""

    async def answered(reader: asyncio.StreamReader, writer: asyncio.StreamWriter) -> None:
        while data := await reader.read(3):
            answer = broker.receive(data)
            writer.write(answer + (behind if bytes([OUTCOME]) in answer[10:11] else b""))

    return answered


def of_side(side: Side, behind: bytes = b"") -> Handler:
    """A client that is made here. It sends more once it has an outcome."""
    side.begin(ask=True)

    async def answered(reader: asyncio.StreamReader, writer: asyncio.StreamWriter) -> None:
        writer.write(side.open())
        while side.code is None and (data := await reader.read(5)):
            writer.write(side.receive(data))
        writer.write(behind)

    return answered


def sends(*pieces: bytes, ends: bool = True) -> Handler:
    """An end that sends this, and then ends its stream or waits."""

    async def sent(reader: asyncio.StreamReader, writer: asyncio.StreamWriter) -> bytes:
        for piece in pieces:
            writer.write(piece)
            await asyncio.sleep(0.01)
        if ends:
            writer.write_eof()
        return await reader.read()

    return sent


class Logins(Case):
    async def test_both_sides(self) -> None:
        for make, mechanism in (
            (client, "SCRAM-SHA-256"),
            (lambda: ClientConnection.select("user", "pencil"), "SCRAM-SHA-512"),
            (lambda: ClientConnection.plain("user", "pencil"), "PLAIN"),
        ):
            offered = Offer.SCRAM_SHA_512 | Offer.SCRAM_SHA_256 | Offer.PLAIN
            with make() as near, ServerConnection(records_of, mechanisms=offered) as far:
                self.assertEqual(await self.joined(by(log_in, near), by(serve, far)), [b"", b""])
                self.assertEqual((near.progress, far.progress), (Progress.AUTHENTICATED,) * 2)
                self.assertEqual((near.mechanism(), far.authenticated_user()), (mechanism, "user"))

    async def test_without_a_timeout(self) -> None:
        near, far = client(), ServerConnection(records_of, mock=bytes(32))
        self.assertEqual(await self.joined(by(log_in, near, timeout=None), by(serve, far, timeout=None)), [b"", b""])

    async def test_bytes_of_amqp(self) -> None:
        secret = Secret(SHA_256, "pencil", SALT, 4096)
        rest, _ = await self.joined(by(log_in, client()), of_broker(Broker(secret, "SCRAM-SHA-256"), AMQP * 3))
        self.assertEqual(rest, AMQP * 3)
        for peer in (Login(SHA_256, "user", "pencil"), Plain("user", "pencil")):
            _, rest = await self.joined(
                of_side(peer), by(serve, ServerConnection(records_of, mechanisms=Offer.SCRAM_SHA_256 | Offer.PLAIN))
            )
            self.assertEqual((peer.code, peer.logged_in, rest), (0, True, b""))
        # A client of PLAIN can send all of it at once.
        init = frame_of(0x41, short(0xA3, b"PLAIN"), short(0xA0, b"\0user\0pencil"))
        far = ServerConnection(records_of, mechanisms=Offer.PLAIN)
        _, rest = await self.joined(sends(SASL_HEADER + init + AMQP), by(serve, far))
        self.assertEqual((rest, far.authenticated_user()), (AMQP, "user"))

    async def test_many_at_once(self) -> None:
        pairs = [(client(), ServerConnection(records_of, mock=bytes(32))) for _ in range(30)]
        found = await asyncio.gather(*(self.joined(by(log_in, near), by(serve, far)) for near, far in pairs))
        self.assertEqual(found, [[b"", b""]] * 30)

    @unittest.skipUnless(shutil.which("openssl"), "it makes the certificate")
    async def test_tls(self) -> None:
        """The server closes before the client has taken the outcome: the client is logged in."""
        with tempfile.TemporaryDirectory() as folder:
            certificate, key = f"{folder}/certificate.pem", f"{folder}/key.pem"
            words = ["openssl", "req", "-x509", "-nodes", "-days", "2", "-subj", "/CN=localhost", "-newkey", "rsa:2048"]
            words += ["-addext", "subjectAltName=DNS:localhost", "-keyout", key, "-out", certificate]
            await asyncio.to_thread(subprocess.run, words, stderr=subprocess.DEVNULL, check=True)
            far_context = ssl.create_default_context(ssl.Purpose.CLIENT_AUTH)
            far_context.load_cert_chain(certificate, key)
            near_context = ssl.create_default_context(cafile=certificate)
        users: list[Optional[str]] = []

        async def accepted(reader: asyncio.StreamReader, writer: asyncio.StreamWriter) -> None:
            with ServerConnection(records_of, mechanisms=Offer.PLAIN) as side:
                await serve(reader, writer, side)
                users.append(side.authenticated_user())
            writer.close()

        async with await asyncio.start_server(accepted, "127.0.0.1", 0, ssl=far_context) as server:
            port = server.sockets[0].getsockname()[1]
            reader, writer = await asyncio.open_connection("localhost", port, ssl=near_context)
            receive = ClientConnection.receive

            def slow(side: ClientConnection, data: bytes) -> tuple[bytes, bytes]:
                time.sleep(0.1)
                return receive(side, data)

            with ClientConnection.plain("user", "pencil") as side, mock.patch.object(ClientConnection, "receive", slow):
                self.assertEqual(await log_in(reader, writer, side), b"")
            self.assertEqual(await reader.read(), b"")
            writer.close()
        self.assertEqual(users, ["user"])


class Rejections(Case):
    async def test_a_wrong_password(self) -> None:
        for make, reason in (
            (lambda: client("pencils"), Rejection.WRONG_PROOF),
            (lambda: ClientConnection.plain("user", "pencils"), Rejection.WRONG_PASSWORD),
        ):
            near, far = make(), ServerConnection(records_of, mechanisms=Offer.SCRAM_SHA_256 | Offer.PLAIN)
            for why, side in zip(await self.joined(by(log_in, near), by(serve, far)), (near, far)):
                self.assertIsInstance(why, CredentialsRejected)
                self.assertIsInstance(why, AuthenticationFailed)
                self.assertEqual((why.status, side.why.status), (Status.REFUSED_AUTH,) * 2)
            self.assertIs(far.rejection, reason)
            self.assertRaises(Refused, far.authenticated_user)

    async def test_a_server_that_is_not_authenticated(self) -> None:
        secret = Secret(SHA_256, "pencil", SALT, 4096)
        broker = Broker(secret, "SCRAM-SHA-256", mar=lambda message: b"v=" + b"A" * 43 + b"=")
        why, _ = await self.joined(by(log_in, client()), of_broker(broker))
        self.assertIsInstance(why, ServerNotAuthenticated)

    async def test_no_common_mechanism(self) -> None:
        far = ServerConnection(records_of, mechanisms=Offer.PLAIN)
        near, end = await self.joined(by(log_in, client()), by(serve, far))
        self.assertIsInstance(near, MechanismUnavailable)
        self.assertIsInstance(end, EndOfInput)

    async def test_many_iterations(self) -> None:
        near, end = await self.joined(
            by(log_in, client(max_iterations=4095, min_iterations=1)), by(serve, ServerConnection(records_of))
        )
        self.assertIsInstance(near, IterationCountError)
        self.assertIsInstance(end, EndOfInput)

    async def test_another_protocol(self) -> None:
        far = ServerConnection(records_of)
        answer, why = await self.joined(sends(b"GET / HTTP/1.1\r\n\r\n"), by(serve, far))
        self.assertEqual((answer, far.foreign_header()), (SASL_HEADER, b"GET / HT"))
        self.assertIsInstance(why, ProtocolError)
        near = client()
        why, _ = await self.joined(by(log_in, near), sends(AMQP))
        self.assertIsInstance(why, ProtocolError)
        self.assertEqual(near.foreign_header(), AMQP)

    async def test_the_end_of_the_input(self) -> None:
        """Each end can end its stream after any number of bytes."""
        offer = SASL_HEADER + mechanisms_frame("SCRAM-SHA-256")
        for size in range(0, len(offer) + 1, 7):
            near = client()
            why, sent = await self.joined(by(log_in, near), sends(offer[:size]))
            self.assertIsInstance(why, EndOfInput)
            self.assertIsInstance(why, EOFError)
            self.assertEqual((near.progress, sent[:8]), (Progress.FAILED, SASL_HEADER))
        init = frame_of(0x41, short(0xA3, b"SCRAM-SHA-256"), short(0xA0, b"n,,n=user,r=nonce"))
        for size in (0, 1, 8, 9, 8 + len(init) - 1, 8 + len(init)):
            far = ServerConnection(records_of)
            sent, why = await self.joined(sends((SASL_HEADER + init)[:size]), by(serve, far))
            self.assertIsInstance(why, EndOfInput)
            self.assertEqual(far.progress, Progress.FAILED)
            # What was due is sent, although the client has ended its stream.
            self.assertEqual(sent[:8], SASL_HEADER if size >= 8 else b"")

    async def test_a_connection_that_is_reset(self) -> None:
        async def resets(reader: asyncio.StreamReader, writer: asyncio.StreamWriter) -> None:
            await reader.read(8)
            sock = writer.get_extra_info("socket")
            sock.setsockopt(socket.SOL_SOCKET, socket.SO_LINGER, struct.pack("ii", 1, 0))

        why, _ = await self.joined(by(log_in, client()), resets)
        self.assertIsInstance(why, ConnectionResetError)

    async def test_the_reason_precedes_a_failed_write(self) -> None:
        """A server that cannot send its outcome says that it rejected the login."""
        init = frame_of(0x41, short(0xA3, b"PLAIN"), short(0xA0, b"\0user\0pencils"))

        async def breaks(reader: asyncio.StreamReader, writer: asyncio.StreamWriter) -> None:
            async def broken() -> None:
                raise ConnectionResetError

            writer.drain = broken  # type: ignore[method-assign]
            await serve(reader, writer, far)

        far = ServerConnection(records_of, mechanisms=Offer.PLAIN)
        _, why = await self.joined(sends(SASL_HEADER + init), breaks)
        self.assertIsInstance(why, CredentialsRejected)
        far = ServerConnection(records_of, mechanisms=Offer.PLAIN)
        _, why = await self.joined(sends(SASL_HEADER), breaks)
        self.assertIsInstance(why, ConnectionResetError)

    async def test_records_that_raise(self) -> None:
        def failing(name: str) -> list[Record]:
            raise KeyError(name)

        _, why = await self.joined(by(log_in, client()), by(serve, ServerConnection(failing)))
        self.assertEqual(repr(why), "KeyError('user')")

    async def test_a_wiped_side(self) -> None:
        side = client()
        side.wipe()
        why, _ = await self.joined(by(log_in, side), sends(b""))
        self.assertIsInstance(why, Wiped)


class Timeouts(Case):
    async def test_a_silent_peer(self) -> None:
        for pieces in ([], [SASL_HEADER], [SASL_HEADER, mechanisms_frame("SCRAM-SHA-256")]):
            began = time.monotonic()
            near = client()
            why, _ = await self.joined(by(log_in, near, timeout=0.2), sends(*pieces, ends=False))
            self.assertIsInstance(why, asyncio.TimeoutError)
            self.assertLess(time.monotonic() - began, 5)
            self.assertEqual(near.progress, Progress.IN_PROGRESS)
            far = ServerConnection(records_of)
            _, why = await self.joined(sends(*pieces[:1], ends=False), by(serve, far, timeout=0.2))
            self.assertIsInstance(why, asyncio.TimeoutError)

    async def test_a_slow_peer(self) -> None:
        """The timeout is of the whole login, not of each read."""

        async def slow(reader: asyncio.StreamReader, writer: asyncio.StreamWriter) -> None:
            with contextlib.suppress(OSError):
                for byte in SASL_HEADER + mechanisms_frame("SCRAM-SHA-256"):
                    writer.write(bytes([byte]))
                    await writer.drain()
                    await asyncio.sleep(0.05)

        why, _ = await self.joined(by(log_in, client(), timeout=0.3), slow)
        self.assertIsInstance(why, asyncio.TimeoutError)

    async def test_a_step_that_is_running(self) -> None:
        """A cancellation, such as that of a timeout, waits for the thread, so that `wipe` does not block the loop."""
        entered, ended = threading.Event(), threading.Event()

        def slow(name: str) -> list[Record]:
            entered.set()
            time.sleep(0.3)
            ended.set()
            return RECORDS

        async def cancelled(reader: asyncio.StreamReader, writer: asyncio.StreamWriter) -> bool:
            with ServerConnection(slow) as far:
                served = asyncio.ensure_future(serve(reader, writer, far))
                await asyncio.to_thread(entered.wait, 20)
                served.cancel()
                with self.assertRaises(asyncio.CancelledError):
                    await served
                return ended.is_set()

        init = frame_of(0x41, short(0xA3, b"SCRAM-SHA-256"), short(0xA0, b"n,,n=user,r=nonce"))
        _, waited = await self.joined(sends(SASL_HEADER + init, ends=False), cancelled)
        self.assertIs(waited, True)

    async def test_a_cancellation(self) -> None:
        near, far = socket.socketpair()
        with near, far:
            reader, writer = await asyncio.open_connection(sock=near)
            task = asyncio.ensure_future(log_in(reader, writer, client()))
            await asyncio.sleep(0.05)
            task.cancel()
            with self.assertRaises(asyncio.CancelledError):
                await task
            writer.close()


class Types(unittest.TestCase):
    @unittest.skipUnless(shutil.which("mypy"), "it tests the types")
    def test_strict(self) -> None:
        with tempfile.TemporaryDirectory() as cache:
            words = ["mypy", "--strict", "--python-version", "3.9", "--cache-dir", cache, "-p", "fe2o3_sasl"]
            done = subprocess.run(words, stdout=subprocess.PIPE, stderr=subprocess.STDOUT, cwd=FOLDER, text=True)
        if "No module named" in done.stdout or "Python 3.9 is not supported" in done.stdout:
            self.skipTest("mypy does not run here")
        self.assertEqual(done.returncode, 0, done.stdout)

    def test_names(self) -> None:
        for name in fe2o3_sasl.asyncio.__all__:
            self.assertTrue(getattr(fe2o3_sasl.asyncio, name).__doc__)


if __name__ == "__main__":
    unittest.main()
