"""Tries `wipe` and `with` of fe2o3_sasl.py: it looks into the memory of the structs and buffers, before and after."""

from __future__ import annotations

import contextlib
import copy
import ctypes
import os
import pickle
import sys
import threading
import time
import unittest
from concurrent.futures import ThreadPoolExecutor
from pathlib import Path
from typing import Any, Callable, Iterable
from unittest import mock

from cases import ClientBodies, ServerBodies
from fe2o3_sasl import _client_sides, _native
from fe2o3_sasl import (
    SHA_1,
    SHA_256,
    SHA_512,
    Client,
    ClientConnection,
    Keys,
    Offer,
    PlainPasswords,
    Progress,
    Record,
    RecordStore,
    Refused,
    Server,
    ServerConnection,
    Wiped,
    plain_message,
    plain_verify,
    saslprep,
)
from peers import MECHANISMS, Secret, mechanisms_frame

SALT = b"a salt of bytes!"
PASSWORD = "a rare p\u00e4ssword, \U0001f600"
UTF8 = PASSWORD.encode()
RECORD = Record.make(SHA_256, PASSWORD, prepared=True, salt=SALT)
SECRET = Secret(SHA_256, PASSWORD, SALT, 4096)
#: The secret of mock records.
MOCK = b"the secret of all mock records !"
MAKES: list[Callable[[], Any]] = [
    lambda: Client(SHA_256, "user", PASSWORD, prepared=True),
    lambda: Client(SHA_256, "user", keys=keys_of()),
    Server,
    lambda: keys_of(),
    lambda: Record.make(SHA_256, PASSWORD, prepared=True, salt=SALT),
    lambda: ClientConnection(Client(SHA_256, "user", PASSWORD, prepared=True)),
    lambda: ClientConnection.plain("user", PASSWORD),
    lambda: ClientConnection.select("user", PASSWORD, [*MECHANISMS.values(), "PLAIN"], prepared=True),
    lambda: ServerConnection(records_of),
    lambda: ServerConnection(records_of, mock=MOCK),
    lambda: RecordStore(RECORD.line("user") + RECORD.line("other")),
]


def keys_of() -> Keys:
    return Keys.make(SHA_256, PASSWORD, SALT, 4096, prepared=True)


def records_of(name: str) -> list[Record]:
    return [RECORD]


def parts(owner: Any) -> list[Any]:
    """The structs and buffers with secrets."""
    if isinstance(owner, RecordStore):
        return [record._struct for records in (owner._users or {}).values() for record in records]
    return [owner._struct] if isinstance(owner, (Keys, Record)) else list(owner._secrets())


class Memory:
    """The memory of structs and buffers, read by its addresses."""

    def __init__(self, *held: Any) -> None:
        self.held = held
        self.places = [(ctypes.addressof(one), ctypes.sizeof(one)) for one in held]

    def bytes(self) -> bytes:
        return b"".join(ctypes.string_at(*place) for place in self.places)

    def is_wiped(self) -> bool:
        return self.bytes() == bytes(sum(size for _, size in self.places))


class Seen:
    """Copies of what the module wipes, as it was before."""

    def __enter__(self) -> Seen:
        self.before: list[bytes] = []
        self.places: list[Memory] = []
        wipe = _native._library.fe2o3_wipe

        def seen(*held: Any) -> None:
            for one in held:
                self.before.append(bytes(one))
                self.places.append(Memory(one))
                wipe(ctypes.byref(one), ctypes.sizeof(one))

        modules = [one for name, one in sys.modules.items() if name.startswith("fe2o3_sasl.") and hasattr(one, "_wipe")]
        self.patches = [mock.patch.object(module, "_wipe", seen) for module in modules]
        for patch in self.patches:
            patch.start()
        return self

    def __exit__(self, *why: object) -> None:
        for patch in self.patches:
            patch.stop()

    def count(self, secret: bytes) -> int:
        return sum(secret in one for one in self.before)

    def has(self, secret: bytes) -> bool:
        return self.count(secret) > 0 and all(place.is_wiped() for place in self.places)


def public(owner: Any) -> Iterable[str]:
    return (name for name in dir(type(owner)) if not name.startswith("_"))


class Objects(unittest.TestCase):
    def refuses(self, owner: Any) -> None:
        """Each method and property raises, also before it looks at its arguments' values."""
        arguments: dict[str, list[Any]] = {
            "first": [RECORD, b"n,,n=user,r=a"] if isinstance(owner, Server) else [],
            "claimed_user": [b"n,,n=user,r=a"],
            **{name: [b"AMQP\3\1\0\0"] for name in ("final", "verify", "receive", "on_frame", "peek_frame")},
            "verify_salted": [bytes(32)],
            "line": ["user"],
            "records": ["user"],
            "record": ["user", SHA_256],
            "mock_settings": [MOCK],
        }
        kept = {"wipe", "open"}
        kept |= {name for name in public(owner) if isinstance(vars_of(owner).get(name), classmethod)}
        for name in public(owner):
            if name not in kept:
                with self.subTest(owner=owner, name=name), self.assertRaises(Wiped) as caught:
                    member = getattr(owner, name)
                    member(*arguments.get(name, []))
                self.assertEqual(str(caught.exception), f"the {type(owner).__name__} is wiped")
        with self.assertRaises(Wiped), owner:
            self.fail("it was entered")
        self.assertEqual(repr(owner), f"{type(owner).__name__}(wiped)")
        owner.wipe()

    def test_a_with_statement_wipes(self) -> None:
        for make in MAKES:
            owner = make()
            memory = Memory(*parts(owner))
            with self.subTest(owner=owner):
                with owner as same:
                    self.assertIs(same, owner)
                self.assertTrue(memory.is_wiped())
                self.refuses(owner)

    def test_an_exception_wipes_and_passes(self) -> None:
        for make in MAKES:
            owner = make()
            memory = Memory(*parts(owner))
            with self.assertRaises(ZeroDivisionError), owner:
                raise ZeroDivisionError
            self.assertTrue(memory.is_wiped())

    def test_wipe_without_a_with_statement(self) -> None:
        for make in MAKES:
            owner = make()
            memory = Memory(*parts(owner))
            owner.wipe()
            self.assertTrue(memory.is_wiped())
            self.refuses(owner)

    def test_the_secrets_were_there(self) -> None:
        for make in MAKES:
            owner = make()
            memory = Memory(*parts(owner)).bytes()
            expected = {Keys: SECRET.client_key, Record: SECRET.stored_key, Client: UTF8, ClientConnection: UTF8}
            expected[RecordStore] = SECRET.stored_key
            if isinstance(owner, Client) and owner._login.secret == 1:
                expected[Client] = SECRET.client_key
            if isinstance(owner, ServerConnection) and owner._mock is not None:
                expected[ServerConnection] = MOCK
            if type(owner) in expected:
                self.assertIn(expected[type(owner)], memory)

    def test_a_login_over_messages(self) -> None:
        with Client(SHA_256, "user", PASSWORD, prepared=True) as client, Server() as server:
            client.verify(server.final(client.final(server.first(RECORD, client.first()))))
            with client.keys() as keys:
                memory = Memory(*parts(client), *parts(server), *parts(keys))
                structs = Memory(client._login, client._struct, server._exchange[1], server._rules, keys._struct)
                found = memory.bytes()
        for secret in (UTF8, SECRET.client_key, SECRET.server_key, SECRET.stored_key):
            self.assertIn(secret, found)
        self.assertTrue(memory.is_wiped())
        self.assertTrue(structs.is_wiped())
        self.refuses(client)
        self.refuses(server)
        self.refuses(keys)
        self.assertEqual(RECORD.stored_key, SECRET.stored_key)

    def test_a_login_on_a_connection(self) -> None:
        with Client(SHA_256, "user", PASSWORD, prepared=True) as client:
            side = ClientConnection(client)
        with side, ServerConnection(records_of) as server:
            sent = side.open()
            while sent:
                sent = side.receive(server.receive(sent)[0])[0]
            self.assertEqual((side.progress, server.progress), (Progress.AUTHENTICATED,) * 2)
            keys = side.keys()
            memory = Memory(*parts(side), *parts(server))
            found = memory.bytes()
        self.assertIn(UTF8, found)
        self.assertIn(SECRET.client_key, found)
        self.assertTrue(memory.is_wiped())
        self.assertEqual(keys.client_key, SECRET.client_key)

    def test_a_password_that_is_held_in_part(self) -> None:
        """A server's connection holds the first part of an init of PLAIN."""
        client, server = ClientBodies.plain("user", PASSWORD), ServerBodies(records_of, mechanisms=Offer.PLAIN)
        init = client.on_frame(server.offer())
        with ServerConnection(records_of, mechanisms=Offer.PLAIN) as side:
            side.receive(b"AMQP\3\1\0\0" + (len(init) + 4).to_bytes(4, "big") + init[:-1])
            memory = Memory(*parts(side))
            self.assertIn(UTF8[:-1], memory.bytes())
        self.assertTrue(memory.is_wiped())


class Copies(unittest.TestCase):
    """What an object was made of can be wiped, and it can be wiped itself, without the other."""

    def test_keys_of_a_client(self) -> None:
        with keys_of() as keys:
            client = Client(SHA_256, "user", keys=keys)
        server = Server()
        client.verify(server.final(client.final(server.first(RECORD, client.first()))))
        with keys_of() as keys:
            Client(SHA_256, "user", keys=keys).wipe()
            self.assertEqual(keys.client_key, SECRET.client_key)

    def test_the_client_of_a_connection(self) -> None:
        client = Client(SHA_256, "user", PASSWORD, prepared=True)
        ClientConnection(client).wipe()
        server = Server()
        client.verify(server.final(client.final(server.first(RECORD, client.first()))))
        client.wipe()
        self.assertRaises(Wiped, ClientConnection, client)

    def test_the_record_of_a_server(self) -> None:
        client, server = Client(SHA_256, "user", PASSWORD, prepared=True), Server()
        with pickle.loads(pickle.dumps(RECORD)) as record:
            server_first = server.first(record, client.first())
        client.verify(server.final(client.final(server_first)))
        self.assertRaises(Wiped, server.first, record, client.first())
        self.assertRaises(Wiped, plain_verify, record, b"")
        side = ServerBodies(lambda name: [record], mechanisms=Offer.SCRAM_SHA_256)
        self.assertRaises(Wiped, side.on_frame, ClientBodies(client).on_frame(side.offer()))

    def test_wiped_keys_of_a_client(self) -> None:
        keys = keys_of()
        keys.wipe()
        self.assertRaises(Wiped, Client, SHA_256, "user", keys=keys)

    def test_pickles(self) -> None:
        for one in (keys_of(), RECORD):
            for other in (pickle.loads(pickle.dumps(one)), copy.deepcopy(one)):
                memory = bytes(one._struct)
                self.assertEqual(bytes(other._struct), memory)
                other.wipe()
                self.assertEqual(bytes(one._struct), memory)

    def test_a_replaced_exchange(self) -> None:
        server, client = Server(), Client(SHA_256, "user", PASSWORD, prepared=True)
        server.first(RECORD, client.first())
        memory = Memory(*server._exchange[:2])
        self.assertIn(SECRET.stored_key, memory.bytes())
        server.first(RECORD, client.first())
        self.assertTrue(memory.is_wiped())
        with Seen() as seen:
            self.assertRaises(Refused, server.first, RECORD, b"")
        self.assertTrue(seen.has(SECRET.stored_key))

    def test_mechanisms_that_are_not_selected(self) -> None:
        side = ClientBodies.select("user", PASSWORD, [*MECHANISMS.values(), "PLAIN"], prepared=True)
        allowed = [Memory(*_client_sides._secrets_of(login)) for login in side._allowed]
        self.assertEqual([memory.bytes().count(UTF8) for memory in allowed], [1] * 4)
        with Seen() as seen:
            ClientBodies.select("user", PASSWORD, [*MECHANISMS.values(), "PLAIN"], prepared=True)
        self.assertTrue(seen.has(UTF8))
        self.assertEqual(seen.count(UTF8), 4)
        side.on_frame(mechanisms_frame("SCRAM-SHA-256")[4:])
        self.assertEqual(
            [memory.is_wiped() for memory in allowed],
            [name != "SCRAM-SHA-256" for name in [*MECHANISMS.values(), "PLAIN"]],
        )


class Calls(unittest.TestCase):
    """Copies that live as long as one call."""

    def test_passwords(self) -> None:
        message = plain_message("user", PASSWORD)
        calls: list[Callable[[], object]] = [
            lambda: Record.make(SHA_1, PASSWORD, prepared=True),
            lambda: Record.make(SHA_1, UTF8, prepared=True),
            lambda: Record.make(SHA_1, bytearray(UTF8), prepared=True),
            lambda: Record.make(SHA_1, memoryview(UTF8), prepared=True),
            lambda: RECORD.verify(PASSWORD, prepared=True),
            lambda: RECORD.verify(PASSWORD),
            lambda: Keys.make(SHA_512, PASSWORD, SALT, 1, prepared=True),
            lambda: plain_message("user", PASSWORD),
            lambda: saslprep(PASSWORD, unassigned=True),
            lambda: ClientConnection.plain("user", PASSWORD),
        ]
        for call in calls:
            with Seen() as seen:
                call()
            self.assertTrue(seen.has(UTF8))
        with Seen() as seen:
            self.assertTrue(plain_verify(RECORD, message, passwords=PlainPasswords.PREPARED))
        self.assertTrue(seen.has(SECRET.stored_key))

    def test_keys_and_salted_passwords(self) -> None:
        salted, one, other = b"s" * 32, b"1" * 32, b"2" * 32
        calls: list[tuple[Callable[[], object], list[bytes]]] = [
            (lambda: Keys.of_salted(SHA_256, salted, SALT, 1), [salted]),
            (lambda: Record.of_salted(SHA_256, salted, SALT, 1), [salted]),
            (lambda: RECORD.verify_salted(salted), [salted, SECRET.stored_key]),
            (lambda: Keys(SHA_256, 1, SALT, one, other), [one, other]),
            (lambda: Record.from_fields(SHA_256, SALT, 1, one, other), [one, other]),
            (lambda: Record.mock(SHA_256, one, "user"), [one]),
            (lambda: RECORD.verify("other"), [SECRET.stored_key]),
            (RECORD.text, [SECRET.stored_key]),
            (lambda: RECORD.line("user"), [SECRET.stored_key]),
        ]
        for call, secrets in calls:
            with Seen() as seen:
                call()
            self.assertEqual([seen.has(secret) for secret in secrets], [True] * len(secrets))

    def test_records_of_a_connection(self) -> None:
        with Seen() as seen:
            side = ServerBodies(records_of, mechanisms=Offer.SCRAM_SHA_256)
            side.on_frame(ClientBodies(Client(SHA_256, "user", "pencil")).on_frame(side.offer()))
        # Those that `_lending` copies, and those of the configuration.
        self.assertTrue(seen.has(SECRET.stored_key))
        self.assertEqual(seen.count(SECRET.stored_key), 2)

    def test_what_a_call_writes(self) -> None:
        with Seen() as seen:
            plain_message("user", PASSWORD)
        self.assertTrue(seen.has(b"\0user\0" + UTF8))
        with Seen() as seen:
            RECORD.text()
        self.assertTrue(seen.has(SECRET.record_text().encode()))

    def test_texts(self) -> None:
        """The buffer has the bytes of `str.encode`, also of half a surrogate pair."""
        texts = ["", "pencil", PASSWORD, "\0", "\x7f\x80\u07ff\u0800\uffff\U00010000\U0010ffff", "\ud800\udc00"]
        long = [PASSWORD[:5] * 51, "\ud83d\ude00" * 127 + "ab", "\ud83d\ude00" * 1000, PASSWORD * 10_000, "x" * 256]
        for text in texts + long:
            buffer = _native._hidden(text)
            self.assertEqual(buffer.raw, _native._text(text) + b"\0")
            self.assertLessEqual(sum(1 for _ in _native._pieces(text)), 256)
        self.assertEqual([*_native._pieces(PASSWORD)], [character.encode() for character in PASSWORD])
        view = memoryview(b"pencil")
        for other in (b"", b"pencil", bytearray(b"pencil"), view, view[::2], view.cast("H")):
            self.assertEqual(_native._hidden(other).raw, memoryview(other).tobytes() + b"\0")
        for wrong in (None, 5, object(), ["a"]):
            self.assertRaises(TypeError, _native._hidden, wrong)
        self.assertRaises(TypeError, _native._hidden_bytes, "text")


@unittest.skipUnless(Path("/proc/self/mem").exists(), "it reads the memory of the process")
@unittest.skipIf(os.environ.get("HEAP") == "plain", "the heap of the library does not wipe")
class Process(unittest.TestCase):
    """The memory of the whole process, searched for a password that no `str` or `bytes` has."""

    MASK = bytes(byte ^ 0xA5 for byte in range(256))

    def count(self, masked: bytes) -> int:
        """How often the memory has the text whose bytes are masked here."""
        found = 0
        with open("/proc/self/maps") as regions, open("/proc/self/mem", "rb", 0) as memory:
            for region in [line.split() for line in regions]:
                start, end = (int(place, 16) for place in region[0].split("-"))
                if region[1].startswith("rw"):
                    with contextlib.suppress(OSError):  # (a device)
                        memory.seek(start)
                        found += memory.read(end - start).translate(self.MASK).count(masked)
        return found

    def test_no_copy_is_left(self) -> None:
        password = bytearray(24)
        with open("/dev/urandom", "rb", 0) as random:
            random.readinto(password)
        for at, byte in enumerate(password):
            password[at] = ord("0") + byte % 64
        masked = bytes(byte ^ 0xA5 for byte in password)
        self.assertEqual(self.count(masked), 1)
        Keys.make(SHA_1, password, SALT, 1, prepared=True)
        with Record.make(SHA_256, password, prepared=True) as record:
            self.assertTrue(record.verify(password, prepared=True))
            with Client(SHA_256, "user", password, prepared=True) as client, Server() as server:
                client.verify(server.final(client.final(server.first(record, client.first()))))
                self.assertGreater(self.count(masked), 1)
            allowed = ["SCRAM-SHA-512", "SCRAM-SHA-256"]
            with ClientConnection.select("user", password, allowed, prepared=True) as side:
                with ServerConnection(lambda name: [record], mechanisms=Offer.SCRAM_SHA_256) as server_side:
                    sent = side.open()
                    while sent:
                        sent = side.receive(server_side.receive(sent)[0])[0]
                    self.assertEqual(side.progress, Progress.AUTHENTICATED)
        password[:] = bytes(len(password))
        self.assertEqual(self.count(masked), 0)


class Threads(unittest.TestCase):
    def test_wipe_waits_for_a_call(self) -> None:
        entered, goes_on = threading.Event(), threading.Event()

        def slow(name: str) -> list[Record]:
            entered.set()
            goes_on.wait(20)
            return [RECORD]

        server = ServerBodies(slow, mechanisms=Offer.SCRAM_SHA_256)
        init = ClientBodies(Client(SHA_256, "user", "pencil")).on_frame(server.offer())
        with ThreadPoolExecutor() as pool:
            answer = pool.submit(server.on_frame, init)
            entered.wait(20)
            wiped = pool.submit(server.wipe)
            time.sleep(0.05)
            self.assertFalse(wiped.done())
            goes_on.set()
            self.assertTrue(answer.result(20))
            wiped.result(20)
        self.assertRaises(Wiped, server.on_frame, init)

    def test_each_thread_is_refused(self) -> None:
        client = Client(SHA_256, "user", PASSWORD, prepared=True)
        client.wipe()
        self.assertRaises(Wiped, client.first)
        with ThreadPoolExecutor() as pool:
            self.assertRaises(Wiped, pool.submit(client.first).result, 20)

    def test_a_record_that_wipes_its_server(self) -> None:
        def wiping(name: str) -> list[Record]:
            server.wipe()
            return [RECORD]

        server = ServerBodies(wiping, mechanisms=Offer.SCRAM_SHA_256)
        init = ClientBodies(Client(SHA_256, "user", "pencil")).on_frame(server.offer())
        self.assertRaises(Wiped, server.on_frame, init)

    def test_a_record_that_is_wiped_meanwhile(self) -> None:
        """A call uses all of a record or raises."""
        for _ in range(200):
            record = pickle.loads(pickle.dumps(RECORD))
            with ThreadPoolExecutor(2) as pool:
                found = pool.submit(lambda: (record.text(), record.salt, record.server_key, record.iterations))
                pool.submit(record.wipe).result(20)
                with contextlib.suppress(Wiped):
                    self.assertEqual(found.result(20), (SECRET.record_text(), SALT, SECRET.server_key, 4096))
                self.assertEqual(repr(record), "Record(wiped)")


def vars_of(owner: Any) -> dict[str, Any]:
    """The members of the classes of an object."""
    return {name: member for kind in reversed(type(owner).__mro__) for name, member in vars(kind).items()}


if __name__ == "__main__":
    unittest.main()
