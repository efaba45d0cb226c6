"""Runs the Python of docs/GUIDE-python.md and of README.md as it is printed: the blocks of a page, in their order."""

from __future__ import annotations

import re
import socket
import stat
import tempfile
import unittest
from concurrent.futures import ThreadPoolExecutor
from pathlib import Path
from types import SimpleNamespace
from typing import Any

from cases import of
from examples import guide
from fe2o3_sasl import (
    SHA_256,
    Client,
    CredentialsRejected,
    EndOfInput,
    MechanismUnavailable,
    Record,
    RecordStore,
    Refused,
    Rejection,
    ServerConnection,
    StaleKeys,
)

TOP = Path(__file__).resolve().parents[2]
BLOCK = re.compile(r"^```python\n# (\S+)\n(.*?)^```$", re.MULTILINE | re.DOTALL)
SECRET = bytes(range(32))
#: A certificate is only hashed, and begins like DER.
CERTIFICATE = b"\x30 a certificate"


def printed(page: str) -> list[tuple[str, str]]:
    """The blocks of Python of a page, as pairs of the file that a block names, and its text."""
    return BLOCK.findall((TOP / page).read_text(encoding="utf-8"))


def run(code: str) -> Any:
    """The names that a text of Python defines."""
    names: dict[str, Any] = {"__name__": "printed"}
    exec(compile(code, "printed", "exec"), names)
    return SimpleNamespace(**names)


class Guide(unittest.TestCase):
    """The blocks of the guide, put together."""

    def setUp(self) -> None:
        self.page = run("\n\n".join(text for _, text in printed("docs/GUIDE-python.md")))
        self.users = self.page.Users(":memory:")
        self.addCleanup(self.users.table.close)
        self.users.set_password("user", "pencil")

    def meet(self, client: Client, server: ServerConnection) -> tuple[Any, Any]:
        """A login over a pair of sockets. Returns what both sides return or raise. Each sends `AMQP` after its login."""
        near, far = socket.socketpair()

        def log_in() -> Any:
            with near:
                try:
                    return self.page.log_in(near, "broker.example", client)
                except Refused as why:
                    return why

        with far, ThreadPoolExecutor() as threads:
            for end in (near, far):
                end.settimeout(60)
            call = threads.submit(log_in)
            try:
                served = self.page.serve(far, server)
            except Refused as why:
                served = why
            far.shutdown(socket.SHUT_WR)
            return call.result(60), served

    def test_the_page_is_the_module(self) -> None:
        source = Path(guide.__file__).read_text(encoding="utf-8")
        _, docstring, code = source.split('"""', 2)
        self.assertIn("docs/GUIDE-python.md", docstring)
        blocks = printed("docs/GUIDE-python.md")
        self.assertEqual({file for file, _ in blocks}, {"bindings/python/examples/guide.py"})
        lines = [line for _, text in blocks for line in text.splitlines() if line]
        self.assertEqual(lines, [line for line in code.splitlines() if line])
        self.assertTrue(all(len(text.splitlines()) <= 25 for _, text in blocks))

    def test_a_client_and_a_server(self) -> None:
        for is_tls in (False, True):
            (side, rest), served = self.meet(
                self.page.new_client("user", "pencil"), self.page.new_server(self.users, SECRET, is_tls)
            )
            self.assertEqual((side.mechanism(), rest, served), ("SCRAM-SHA-256", b"", ("user", b"")))

    def test_rejected_logins(self) -> None:
        for user, password, reason in (
            ("user", "crayon", Rejection.WRONG_PROOF),
            ("nobody", "pencil", Rejection.UNKNOWN_USER),
            ("a\nb", "pencil", Rejection.UNKNOWN_USER),
        ):
            server = self.page.new_server(self.users, SECRET, False)
            ended = self.meet(self.page.new_client(user, password), server)
            self.assertEqual([type(why) for why in ended], [CredentialsRejected] * 2)
            self.assertEqual(
                self.page.log_line(server), f"'SCRAM-SHA-256' user={user!r} host='broker.example': {reason.name}"
            )

    def test_other_lines_of_the_log(self) -> None:
        server = self.page.new_server(self.users, SECRET, False)
        self.assertEqual(self.page.log_line(server), "no init")
        self.meet(self.page.new_client("user", "pencil"), server)
        self.assertEqual(self.page.log_line(server), "'SCRAM-SHA-256' user='user' host='broker.example': None")
        near, far = socket.socketpair()
        with near, far:
            near.shutdown(socket.SHUT_WR)
            self.assertRaises(EndOfInput, self.page.serve, far, self.page.new_server(self.users, SECRET, False))

    def test_the_secret(self) -> None:
        with tempfile.TemporaryDirectory() as folder:
            path = Path(folder) / "secret"
            self.page.make_secret(path)
            self.assertEqual((len(path.read_bytes()), stat.S_IMODE(path.stat().st_mode)), (32, 0o600))
            self.assertRaises(FileExistsError, self.page.make_secret, path)
            self.page.new_server(self.users, path.read_bytes(), False).wipe()

    def test_channel_binding(self) -> None:
        def bound(certificate: bytes) -> Client:
            return self.page.new_bound_client("user", "pencil", SimpleNamespace(getpeercert=lambda **_: certificate))

        server = self.page.new_bound_server(self.users, SECRET, CERTIFICATE)
        (side, _), served = self.meet(bound(CERTIFICATE), server)
        self.assertEqual((side.mechanism(), served), ("SCRAM-SHA-256-PLUS", ("user", b"")))
        server = self.page.new_bound_server(self.users, SECRET, CERTIFICATE)
        ended = self.meet(bound(b"\x30 another"), server)
        self.assertEqual([type(why) for why in ended], [CredentialsRejected] * 2)
        self.assertEqual(server.rejection, Rejection.CHANNEL)
        client, _ = self.meet(bound(CERTIFICATE), self.page.new_server(self.users, SECRET, True))
        self.assertIsInstance(client, MechanismUnavailable)
        (side, _), served = self.meet(
            self.page.new_client("user", "pencil"), self.page.new_bound_server(self.users, SECRET, CERTIFICATE)
        )
        self.assertEqual((side.mechanism(), served), ("SCRAM-SHA-256", ("user", b"")))

    def test_identities(self) -> None:
        rights = {"user": ["alice"]}
        server = self.page.new_acting_server(self.users, SECRET, rights)
        _, served = self.meet(self.page.new_acting_client("user", "pencil", "alice"), server)
        self.assertEqual((served, self.page.owner(server)), (("user", b""), "alice"))
        server = self.page.new_acting_server(self.users, SECRET, rights)
        self.meet(self.page.new_client("user", "pencil"), server)
        self.assertEqual(self.page.owner(server), "user")
        server = self.page.new_acting_server(self.users, SECRET, rights)
        ended = self.meet(self.page.new_acting_client("user", "pencil", "bob"), server)
        self.assertEqual([type(why) for why in ended], [CredentialsRejected] * 2)
        self.assertEqual(server.rejection, Rejection.NO_RIGHT)

    def test_keys(self) -> None:
        (side, _), _ = self.meet(
            self.page.new_client("user", "pencil"), self.page.new_server(self.users, SECRET, False)
        )
        keys = self.page.restore(self.page.save(side.keys()))
        (side, _), served = self.meet(
            self.page.new_client_with_keys("user", keys), self.page.new_server(self.users, SECRET, False)
        )
        self.assertEqual((side.keys().client_key, served), (keys.client_key, ("user", b"")))
        self.users.set_password("user", "pencil")
        self.assertEqual(len(self.users.records("user")), 2)
        why, _ = self.meet(
            self.page.new_client_with_keys("user", keys), self.page.new_server(self.users, SECRET, False)
        )
        self.assertIsInstance(why, StaleKeys)


class ReadMe(unittest.TestCase):
    """The block of README.md."""

    def test_a_login(self) -> None:
        ((_, text),) = printed("README.md")
        page = run(text)
        store = RecordStore("".join(Record.make(SHA_256, "pencil").line(name) for name in ("user", "other")))
        near, far = socket.socketpair()
        with near, far, ThreadPoolExecutor() as threads:
            near.settimeout(60)
            far.settimeout(60)
            call = threads.submit(page.log_in, near)
            self.assertEqual(page.serve(far, store, SECRET, False), (b"", "user"))
            self.assertEqual(call.result(60), b"")

    def test_a_wrong_password(self) -> None:
        ((_, text),) = printed("README.md")
        page = run(text)
        near, far = socket.socketpair()
        with near, far, ThreadPoolExecutor() as threads:
            call = threads.submit(page.log_in, near)
            server = ServerConnection(of({"user": Record.make(SHA_256, "crayon")}))
            self.assertRaises(CredentialsRejected, page.finish, server, far)
            self.assertIsInstance(call.exception(60), CredentialsRejected)


if __name__ == "__main__":
    unittest.main()
