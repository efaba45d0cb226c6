"""Tries what README's server is set to: its code as printed, over a file as `scram users add` makes it, the answers by
which unknown users look like known ones, why a login was rejected, and the nonces of connections."""

from __future__ import annotations

import contextlib
import re
import secrets
import socket
import unittest
from concurrent.futures import ThreadPoolExecutor
from pathlib import Path
from typing import Any, Callable, Iterator, Optional
from unittest import mock

import fe2o3_sasl
from fe2o3_sasl import _native
from fe2o3_sasl import DEFAULT_ITERATIONS, DEFAULT_SALT_LEN, Channel, ChannelKind, Client, ClientConnection
from fe2o3_sasl import Offer, Progress, Record, RecordError, RecordStore, Refused, Rejection
from fe2o3_sasl import ServerConnection, Status, UnknownUser, Wiped
from peers import INIT, MECHANISMS, OUTCOME, SASL_HEADER, SHA_1, SHA_256, SHA_512, Login, Other, Plain, Secret, Side
from peers import base64_of, fields_of, frame_of, mac, short

README = Path(__file__).resolve().parents[2] / "README.md"
LIBRARY: Any = _native._library

#: The secret of mock records.
SECRET = bytes(range(32))
#: The hashes of a new user, in the order of the lines of `scram users add`.
ADDED = (SHA_256, SHA_512)
OFFERS = {SHA_512: Offer.SCRAM_SHA_512, SHA_256: Offer.SCRAM_SHA_256, SHA_1: Offer.SCRAM_SHA_1}
BOTH = Offer.SCRAM_SHA_512 | Offer.SCRAM_SHA_256


def added(
    name: str, password: str = "pencil", hashes: tuple[int, ...] = ADDED, salt_len: int = 16, iterations: int = 4096
) -> str:
    """The lines of a user, as `scram users add` writes them, with fresh salts."""
    escaped = name.replace("=", "=3D").replace(",", "=2C")
    made = [Secret(hash, password, secrets.token_bytes(salt_len), iterations).record_text() for hash in hashes]
    return "".join(f"{escaped} {text}\n" for text in made)


def printed() -> dict[str, Any]:
    """What the Python code of README.md defines, as it is printed."""
    block = re.search(r"^```python\n(.*?)^```$", README.read_text(encoding="utf-8"), re.MULTILINE | re.DOTALL)
    assert block is not None
    names: dict[str, Any] = {}
    # (without the future import of this file, so that the annotations are evaluated)
    exec(compile(block[1], "README.md, its Python code", "exec", dont_inherit=True), names)
    return names


def units(data: bytes) -> Iterator[bytes]:
    """The header and the frames in these bytes."""
    while data:
        size = 8 if data[:4] == b"AMQP" else int.from_bytes(data[:4], "big")
        yield data[:size]
        data = data[size:]


def kinds(data: bytes) -> list[tuple[Optional[int], int]]:
    """Of each header or frame: its code and its length."""
    return [(None if unit[:4] == b"AMQP" else unit[10], len(unit)) for unit in units(data)]


def answers(side: ServerConnection, by: Side) -> list[bytes]:
    """What a server answers to a client that also asks for what is not offered."""
    by.begin(ask=True)
    sent, found = by.open(), []
    while sent:
        found.append(side.receive(sent)[0])
        sent = by.receive(found[-1])
    return found


class Printed(unittest.TestCase):
    """README's Python code, as it is printed."""

    def setUp(self) -> None:
        self.code = printed()

    def serve(self, store: RecordStore, log_in: Callable[[socket.socket], Any], tls: bool = False) -> tuple[Any, Any]:
        """What both sides of a login return or raise."""
        near, far = socket.socketpair()
        with near, far, ThreadPoolExecutor() as threads:

            def serve() -> Any:
                try:
                    return self.code["serve"](far, store, SECRET, tls)
                finally:
                    far.shutdown(socket.SHUT_WR)

            near.settimeout(20)
            far.settimeout(20)
            served = threads.submit(serve)
            try:
                logged_in = log_in(near)
            except Refused as why:
                logged_in = why
                near.shutdown(socket.SHUT_WR)
            return logged_in, served.exception(20) or served.result()

    def asked(self, by: Side) -> Callable[[socket.socket], tuple[Optional[int], list[tuple[Optional[int], int]]]]:
        """A client that asks for its mechanism, also if it is not offered. Returns the code of the outcome, and the codes and
        lengths of what it received."""

        def log_in(sock: socket.socket) -> tuple[Optional[int], list[tuple[Optional[int], int]]]:
            by.begin(ask=True)
            received, answer = b"", by.open()
            while by.code is None:
                if answer:
                    sock.sendall(answer)
                data = sock.recv(4096)
                if not data:
                    break
                received += data
                answer = by.receive(data)
            return by.code, kinds(received)

        return log_in

    def test_its_client_and_its_server(self) -> None:
        store = RecordStore(added("user") + added("a,b=c"))
        self.assertEqual(self.serve(store, self.code["log_in"]), (b"", (b"", "user")))
        ended, served = self.serve(RecordStore(added("user", "pencils")), self.code["log_in"])
        self.assertEqual((ended.status, served.status), (Status.REFUSED_AUTH, Status.REFUSED_AUTH))

    def test_each_offered_hash(self) -> None:
        store = RecordStore(added("user") + added("a,b=c"))
        for name in ("user", "a,b=c"):
            for by in (*(Login(hash, name, "pencil") for hash in ADDED), Plain(name, "pencil")):
                (code, received), served = self.serve(store, self.asked(by), tls=True)
                self.assertEqual((code, served, by.logged_in), (0, (b"", name), True))
        for by in (Login(SHA_1, "user", "pencil"), Plain("user", "pencil")):
            self.assertEqual(self.serve(store, self.asked(by))[0][0], 1)
        for hash, mechanism in ((SHA_256, "SCRAM-SHA-256"), (SHA_512, "SCRAM-SHA-512")):
            older = RecordStore(added("user", hashes=(hash,)))

            def select(sock: socket.socket) -> Optional[str]:
                side = ClientConnection.select("user", "pencil")
                sock.sendall(side.open())
                self.code["finish"](side, sock)
                return side.mechanism()

            self.assertEqual(self.serve(older, select), (mechanism, (b"", "user")))
            self.assertEqual(self.serve(store, select), ("SCRAM-SHA-512", (b"", "user")))

    def test_users_of_an_older_file(self) -> None:
        """Users with SHA-256 and salts of 32 bytes, as version 0.3.0 made them, and one with both hashes."""
        older = "".join(added(name, hashes=(SHA_256,), salt_len=32) for name in ("user", "bob"))
        store = RecordStore(older + added("carol", salt_len=32))
        for name in ("user", "bob", "carol"):
            by = Login(SHA_256, name, "pencil")
            self.assertEqual(self.serve(store, self.asked(by))[1], (b"", name))
        self.assertEqual(self.serve(store, self.code["log_in"]), (b"", (b"", "user")))

    def test_names_are_not_shown(self) -> None:
        """A user with one record, one with all, and an unknown one get answers of the same kinds and lengths."""
        for salt_len, iterations in ((16, 4096), (32, 4096), (16, 10000)):

            def of(name: str, *hashes: int) -> str:
                return added(name, "pencil", hashes, salt_len, iterations)

            for lines in (
                of("one", SHA_256) + of("all", *ADDED),
                of("one", SHA_512) + of("all", *ADDED),
                of("one", *ADDED) + of("all", *ADDED),
            ):
                store = RecordStore(lines)
                for hash in (SHA_512, SHA_256, SHA_1):
                    found = [
                        self.serve(store, self.asked(Login(hash, name, "wrong")), tls=True)[0]
                        for name in ("one", "all", "unknown")
                    ]
                    self.assertEqual(found, [found[0]] * 3)
                    self.assertEqual(found[0][0], 1)
                    is_offered = bool(store.hashes() & OFFERS[hash])
                    self.assertEqual([code for code, _ in found[0][1]], [None, 0x40, *[0x42] * is_offered, 0x44])
                found = [
                    self.serve(store, self.asked(Plain(name, "wrong")), tls=True)[0]
                    for name in ("one", "all", "nobody")
                ]
                self.assertEqual(found, [found[0]] * 3)


class MockRecords(unittest.TestCase):
    """Servers that make mock records."""

    def setUp(self) -> None:
        lines = added("one", hashes=(SHA_256,)) + added("all") + added("other", hashes=(SHA_512,))
        self.store = RecordStore(lines)

    def test_each_offered_hash(self) -> None:
        for mechanisms in (BOTH, BOTH | Offer.SCRAM_SHA_1 | Offer.PLAIN):
            for hash in OFFERS:
                found = {}
                for name in ("one", "all", "other", "nobody"):
                    side = ServerConnection(self.store.records, mechanisms=mechanisms, mock=SECRET)
                    sent = answers(side, Login(hash, name, "wrong"))
                    found[name] = [kinds(one) for one in sent]
                    self.assertEqual(
                        (side.progress, len(sent)), (Progress.FAILED, 3 if mechanisms & OFFERS[hash] else 2)
                    )
                    if len(sent) == 3:
                        challenge = fields_of(sent[1])[1][0] or b""
                        self.assertRegex(challenge, rb"^r=[^,]{88},s=[A-Za-z0-9+/]{22}==,i=4096$")
                self.assertEqual([*found.values()], [found["one"]] * 4)

    def test_the_default_offer(self) -> None:
        """The server of no other argument, and a client of the library that asks for SHA-512."""
        found = []
        for name in ("one", "nobody"):
            side, by = ServerConnection(self.store.records, mock=SECRET), ClientConnection(
                Client(SHA_512, name, "pencil")
            )
            init, _ = by.receive(side.receive(by.open())[0])
            found.append((len(side.receive(init)[0]), side.progress))
        self.assertEqual(found, [found[0]] * 2)
        self.assertEqual(found[0][1], Progress.IN_PROGRESS)

    def test_the_salts_are_those_of_the_secret(self) -> None:
        for name, hash in (("one", SHA_512), ("nobody", SHA_512), ("nobody", SHA_256), ("a,b=c", SHA_256)):
            salt = mac(SHA_512, SECRET, f"Salt:{MECHANISMS[hash]}:{name}".encode())
            for settings, length, count in (
                (SECRET, 16, 4096),
                ((SECRET, 20, 5000), 20, 5000),
                (bytearray(SECRET), 16, 4096),
            ):
                side = ServerConnection(self.store.records, mock=settings)
                challenge = fields_of(answers(side, Login(hash, name, "pencil"))[1])[1][0] or b""
                self.assertEqual(challenge.split(b",")[1:], [b"s=" + base64_of(salt[:length]), b"i=%d" % count])

    def test_logins(self) -> None:
        """Known users log in by their own records."""
        for name, hashes in (("one", (SHA_256,)), ("all", ADDED), ("other", (SHA_512,))):
            for hash in ADDED:
                side = ServerConnection(self.store.records, mock=SECRET)
                answers(side, by := Login(hash, name, "pencil"))
                self.assertEqual((by.logged_in, side.progress == Progress.AUTHENTICATED), (hash in hashes,) * 2)
            side = ServerConnection(self.store.records, mechanisms=BOTH | Offer.PLAIN, mock=SECRET)
            answers(side, plain := Plain(name, "pencil"))
            self.assertTrue(plain.logged_in)

    def lent(self, name: str, **options: Any) -> tuple[int, int, int, list[int]]:
        """What a server lends to the library for an init of PLAIN: the iteration count, the salt length and the length of
        the secret of mock records, and the hash of each record."""
        found: list[Any] = []
        receive = LIBRARY.fe2o3_sasl_server_receive

        def seen(config: Any, *more: Any) -> int:
            records = [config.records[at] for at in range(config.records_count)]
            if config.looked_up:
                form = (config.iterations, config.mock_salt_len, config.mock_secret_len)
                found.append((*form, [one.version for one in records]))
            return int(receive(config, *more))

        side = ServerConnection(self.store.records, mechanisms=BOTH | Offer.PLAIN, **options)
        init, _ = ClientConnection.plain(name, "wrong").receive(side.receive(SASL_HEADER)[0])
        with mock.patch.object(LIBRARY, "fe2o3_sasl_server_receive", seen):
            side.receive(init)
        self.assertEqual(side.progress, Progress.FAILED)
        self.assertEqual(len(found), 1)
        return found[0]

    def test_what_is_lent(self) -> None:
        """The library gets the records of the user, and the settings of mock records."""
        self.assertEqual(self.lent("nobody", mock=SECRET), (4096, 16, len(SECRET), []))
        self.assertEqual(self.lent("all", mock=SECRET), (4096, 16, len(SECRET), [*ADDED]))
        self.assertEqual(self.lent("other", mock=(SECRET, 20, 5000)), (5000, 20, len(SECRET), [SHA_512]))
        self.assertEqual(self.lent("nobody"), (4096, 0, 0, []))
        self.assertEqual(self.lent("nobody", iterations=5000), (5000, 0, 0, []))

    def test_records_of_that_returns_mock_records(self) -> None:
        """Callers that return mock records get what they got before, with `mock` and without."""

        def records_of(name: str) -> list[Record]:
            return self.store.records(name) or [Record.mock(hash, SECRET, name, salt_len=20) for hash in ADDED]

        for options in ({}, {"mock": bytes(32)}):
            for hash in ADDED:
                salt = mac(SHA_512, SECRET, f"Salt:{MECHANISMS[hash]}:nobody".encode())[:20]
                side = ServerConnection(records_of, **options)
                challenge = fields_of(answers(side, Login(hash, "nobody", "pencil"))[1])[1][0] or b""
                self.assertEqual(challenge.split(b",")[1:], [b"s=" + base64_of(salt), b"i=4096"])

    def test_arguments(self) -> None:
        for settings, kind in (
            ((SECRET, 65, 4096), fe2o3_sasl.TooLong),
            ((SECRET, 16, 0), fe2o3_sasl.InvalidArgument),
            (SECRET[1:], ValueError),
            ((SECRET[1:], 16, 4096), ValueError),
            ((SECRET, -1, 1), ValueError),
            ((SECRET, 16), ValueError),
            ("x" * 32, TypeError),
            ((SECRET, 16, "4096"), TypeError),
        ):
            self.assertRaises(kind, ServerConnection, self.store.records, mock=settings)
        self.assertRaises(ValueError, ServerConnection, self.store.records, mock=SECRET, iterations=4096)
        self.assertRaises(fe2o3_sasl.InvalidArgument, Record.mock, SHA_256, SECRET, "user", iterations=0)
        self.assertRaises(ValueError, Record.mock, SHA_256, SECRET[1:], "user")

    def test_the_secret_is_copied(self) -> None:
        secret = bytearray(SECRET)
        side = ServerConnection(self.store.records, mock=secret)
        secret[:] = bytes(32)
        challenge = fields_of(answers(side, Login(SHA_256, "nobody", "pencil"))[1])[1][0] or b""
        salt = mac(SHA_512, SECRET, b"Salt:SCRAM-SHA-256:nobody")[:16]
        self.assertEqual(challenge.split(b",")[1], b"s=" + base64_of(salt))

    def test_new_records(self) -> None:
        self.assertEqual((DEFAULT_SALT_LEN, DEFAULT_ITERATIONS), (16, 4096))
        for record in (Record.make(SHA_256, "pencil"), Record.mock(SHA_256, SECRET, "user")):
            self.assertEqual((len(record.salt), record.iterations), (16, 4096))


class Rejections(unittest.TestCase):
    """Why a login was rejected, for the log of the server."""

    def setUp(self) -> None:
        self.store = RecordStore(added("one", hashes=(SHA_256,)) + added("all"))

    def ended(self, by: Side, **options: Any) -> Optional[Rejection]:
        """Why a server rejects a login, or None. The client receives the same outcome for each reason."""
        options["mechanisms"] = BOTH | Offer.PLAIN | Offer.EXTERNAL | options.get("mechanisms", 0)
        side = ServerConnection(self.store.records, **options)
        outcome = answers(side, by)[-1]
        self.assertEqual(by.logged_in, side.rejection is None)
        self.assertEqual(side.progress, Progress.AUTHENTICATED if by.logged_in else Progress.FAILED)
        if not by.logged_in:
            self.assertEqual(outcome, frame_of(OUTCOME, b"\x50\1"))
        return side.rejection

    def test_each_reason(self) -> None:
        as_bob = b"n,a=bob,"
        bob: Any = {"identities_of": lambda name: ["bob"] if name == "all" else []}
        carol: Any = {"identities_of": lambda name: ["carol"]}
        bound: Any = {"channels": [Channel(ChannelKind.TLS_EXPORTER, b"own")]}
        binds = b"p=tls-exporter,,"
        rows: list[tuple[Side, dict[str, Any], Optional[Rejection]]] = [
            (Login(SHA_256, "all", "pencil"), {}, None),
            (Login(SHA_512, "all", "pencil", as_bob), bob, None),
            (Login(SHA_256, "all", "pencil", binds, b"own"), bound, None),
            (Plain("one", "pencil"), {}, None),
            (Login(SHA_256, "all", "wrong"), {}, Rejection.WRONG_PROOF),
            (Login(SHA_512, "all", "wrong", as_bob), bob, Rejection.WRONG_PROOF),
            (Login(SHA_512, "one", "pencil"), {}, Rejection.NO_RECORD_FOR_HASH),
            (Login(SHA_512, "one", "pencil", as_bob), bob, Rejection.NO_RECORD_FOR_HASH),
            (Login(SHA_256, "nobody", "pencil"), {}, Rejection.UNKNOWN_USER),
            (Login(SHA_512, "nobody", "pencil", as_bob), bob, Rejection.UNKNOWN_USER),
            (Login(SHA_256, "one", "pencil", as_bob), bob, Rejection.NO_RIGHT),
            (Login(SHA_256, "all", "wrong", as_bob), carol, Rejection.NO_RIGHT),
            (Login(SHA_256, "all", "pencil", binds, b"other"), bound, Rejection.CHANNEL),
            (Login(SHA_256, "nobody", "pencil", b"y,,"), {}, Rejection.CHANNEL),
            (Plain("all", "wrong"), {}, Rejection.WRONG_PASSWORD),
            (Plain("nobody", "pencil"), {}, Rejection.WRONG_PASSWORD),
            (Other("PLAIN", b"pencil"), {}, Rejection.INVALID_MESSAGE),
            (Other("PLAIN"), {}, Rejection.NO_INITIAL_RESPONSE),
            (Other("EXTERNAL", b"other"), {"external_authcid": "peer"}, Rejection.OTHER_IDENTITY),
            (Login(SHA_1, "all", "pencil"), {}, Rejection.MECHANISM_NOT_OFFERED),
            (
                Other("SCRAM-SHA-256", b"n,,n=all,r=nonce,i=4096"),
                {},
                Rejection.SERVER_MISPLACED_ATTRIBUTE,
            ),
            (Other("SCRAM-SHA-256", b"all"), {}, Rejection.SERVER_CANNOT_PARSE_GS2_HEADER),
        ]
        for by, options, reason in rows:
            for more in ({}, {"mock": SECRET}):
                with self.subTest(mechanism=by.mechanism, reason=reason, **more):
                    self.assertIs(self.ended(by, **options, **more), reason)

    def test_a_fault_of_the_message_comes_before_a_mock_record(self) -> None:
        by = Login(SHA_512, "nobody", "pencil", b"p=tls-exporter,,", b"other")
        bound = [Channel(ChannelKind.TLS_EXPORTER, b"own")]
        self.assertIs(self.ended(by, channels=bound, mock=SECRET), Rejection.CHANNEL)
        by = Login(SHA_512, "one", "pencil")
        with mock.patch.object(by, "answer", lambda challenge: b"c=biws,r=other,p=AAAA"):
            self.assertIs(self.ended(by, mock=SECRET), Rejection.SERVER_INCORRECT_CLIENT_FINAL_NONCE)

    def test_other_failures_have_none(self) -> None:
        side = ServerConnection(self.store.records, mock=SECRET)
        init = frame_of(INIT, short(0xA3, b"SCRAM-SHA-256"), short(0xA0, b"n,,n=nobody,r=nonce"))
        side.receive(SASL_HEADER + init)
        self.assertEqual((side.progress, side.rejection), (Progress.IN_PROGRESS, None))
        side.receive(init)
        self.assertEqual((side.progress, side.rejection), (Progress.FAILED, None))
        side.wipe()
        self.assertRaises(Wiped, lambda: side.rejection)

    def test_a_reason_of_a_later_library(self) -> None:
        side = ServerConnection(self.store.records)
        side._struct.scram.rejection = 4_000_000_000
        self.assertIs(side.rejection, Rejection.OTHER)


class Stores(unittest.TestCase):
    """A file of records."""

    def test_hashes(self) -> None:
        one, two, three = Offer.SCRAM_SHA_1, Offer.SCRAM_SHA_256, Offer.SCRAM_SHA_512
        for users, offer in (
            ([], 0),
            ([ADDED], two | three),
            ([(SHA_512, SHA_256)], two | three),
            ([(SHA_256,)], two),
            ([ADDED, (SHA_256,)], two),
            ([(SHA_512,), ADDED], three),
            ([(SHA_512,), (SHA_256,)], 0),
            ([(SHA_1, SHA_256, SHA_512)] * 2, one | two | three),
            ([(SHA_1,), (SHA_1, SHA_256)], one),
        ):
            lines = "".join(added(f"user {at}", hashes=hashes, iterations=1) for at, hashes in enumerate(users))
            store = RecordStore(lines)
            self.assertEqual(store.hashes(), offer)
            self.assertIsInstance(store.hashes(), Offer)
        # (the lines of a user can be anywhere)
        halves = [added(name, hashes=(hash,), iterations=1) for hash in ADDED for name in ("a", "b")]
        self.assertEqual(RecordStore("".join(halves)).hashes(), BOTH)

    def test_records(self) -> None:
        lines = {
            name: added(name, hashes=(SHA_1, SHA_512, SHA_256), iterations=2)
            for name in ("", "user", "a,b=c d", "=2C", "J\u00fcrgen \U0001f600")
        }
        for given in ("".join(lines.values()), "".join(lines.values()).encode()):
            store = RecordStore(given)
            for name, text in lines.items():
                found = store.records(name)
                self.assertEqual([record.version for record in found], [SHA_256, SHA_512, SHA_1])
                self.assertEqual(sorted(record.line(name) for record in found), sorted(text.splitlines(True)))
                for hash in (SHA_1, SHA_256, SHA_512):
                    self.assertEqual(store.record(name, hash).line(name), Record.find(given, name, hash).line(name))
            self.assertEqual((store.records("nobody"), repr(store)), ([], "RecordStore(users=5)"))
            self.assertEqual((store.forms(), store.mock_settings(SECRET)), ([(16, 2)], (SECRET, 16, 2)))
        # Of several lines for a name and a hash, the first counts.
        first, second = (added("user", password, (SHA_256,)) for password in ("first", "second"))
        store = RecordStore(first + second)
        self.assertEqual(store.record("user", SHA_256).line("user"), first)
        self.assertEqual([record.line("user") for record in store.records("user")], [first, second])

    def test_forms(self) -> None:
        lines = [added("a", salt_len=32), added("b", iterations=4097), added("c", salt_len=32, hashes=(SHA_1,))]
        store = RecordStore("".join(lines))
        self.assertEqual(store.forms(), [(32, 4096), (16, 4097)])
        self.assertEqual(store.mock_settings(SECRET), (SECRET, 32, 4096))
        self.assertEqual(RecordStore("").forms(), [])
        self.assertEqual(RecordStore("").mock_settings(SECRET), (SECRET, DEFAULT_SALT_LEN, DEFAULT_ITERATIONS))

    def test_mock_records(self) -> None:
        store = RecordStore(added("user", hashes=(SHA_256,), salt_len=20, iterations=5))
        for name, hash in (("user", SHA_512), ("nobody", SHA_256)):
            self.assertRaises(UnknownUser, store.record, name, hash)
            mocked = Record.mock(hash, SECRET, name, salt_len=20, iterations=5)
            self.assertEqual(store.record(name, hash, SECRET).text(), mocked.text())
        self.assertTrue(store.record("user", SHA_256, SECRET).verify("pencil"))

    def test_lines_that_are_rejected(self) -> None:
        lines = added("user", iterations=1)
        for text, number, status in (
            (lines[:-1], 2, Status.LINE_FEED_MISSING),
            (lines + "\n", 3, Status.SPACE_MISSING),
            (added("a,b", iterations=1).replace("=2C", ","), 1, Status.INVALID_NAME),
            (lines.replace("SHA-512", "SHA-224"), 2, Status.RECORD_UNKNOWN_MECHANISM),
        ):
            with self.assertRaisesRegex(RecordError, f"^Line {number}: ") as caught:
                RecordStore(text)
            self.assertEqual(caught.exception.status, status)
        with self.assertRaises(Refused) as refused:
            RecordStore(b"\xff")
        self.assertEqual(refused.exception.status, Status.NOT_UTF8)

    def test_wipe(self) -> None:
        with RecordStore(added("user")) as store:
            record = store.record("user", SHA_256)
        self.assertEqual(repr(store), "RecordStore(wiped)")
        self.assertRaises(Wiped, record.text)
        for call in (
            store.hashes,
            store.forms,
            lambda: store.records("user"),
            lambda: store.record("user", SHA_256, SECRET),
            lambda: store.mock_settings(SECRET),
        ):
            self.assertRaisesRegex(Wiped, "the RecordStore is wiped", call)
        store.wipe()


class Nonces(unittest.TestCase):
    """No two connections share a nonce, also not one that a step does not use (the law of replayed logins)."""

    @contextlib.contextmanager
    def passed(self) -> Iterator[list[bytes]]:
        """The nonces that the library gets."""
        nonces: list[bytes] = []
        with contextlib.ExitStack() as stack:
            for name in ("client_receive", "server_receive"):
                call = getattr(LIBRARY, f"fe2o3_sasl_{name}")

                def seen(
                    one: Any, state: Any, data: bytes, size: int, nonce: bytes, *more: Any, call: Any = call
                ) -> int:
                    status = int(call(one, state, data, size, nonce, *more))
                    if status != Status.NEEDS_RECORDS:  # (that call is repeated, with the same nonce)
                        nonces.append(nonce)
                    return status

                stack.enter_context(mock.patch.object(LIBRARY, f"fe2o3_sasl_{name}", seen))
            yield nonces

    def test_connections(self) -> None:
        store = RecordStore(added("user"))
        with self.passed() as nonces:
            for piece in (1, 7, 4096):
                for by in (lambda: ClientConnection(Client(SHA_256, "user", "pencil")), ClientConnection.anonymous):
                    side = ServerConnection(store.records, mechanisms=BOTH | Offer.ANONYMOUS)
                    client = by()
                    sent = client.open()
                    while sent:
                        answer = b"".join(side.receive(sent[at : at + piece])[0] for at in range(0, len(sent), piece))
                        sent = b"".join(
                            client.receive(answer[at : at + piece])[0] for at in range(0, len(answer), piece)
                        )
                    self.assertEqual((side.progress, client.progress), (Progress.AUTHENTICATED,) * 2)
        self.assertGreater(len(nonces), 500)
        self.check(nonces)

    def check(self, nonces: list[bytes]) -> None:
        self.assertEqual(len(set(nonces)), len(nonces))
        self.assertEqual({len(nonce) for nonce in nonces}, {32})
        self.assertNotIn(bytes(32), nonces)


if __name__ == "__main__":
    unittest.main()
