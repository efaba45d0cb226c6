"""Arguments that fit no call, calls that change nothing, `examples/login.py`, and the declarations."""

from __future__ import annotations

import copy
import ctypes
import os
import re
import socket
import unittest
from concurrent.futures import ThreadPoolExecutor
from pathlib import Path
from typing import Any, Callable, Optional
from unittest import mock

import fe2o3_sasl
from fe2o3_sasl import _exports, _native, _server, _structs
from cases import LIBRARY, SALT, Case, ClientBodies, ServerBodies, login, of
from examples.login import log_in, serve
from fe2o3_sasl import (
    SHA_1,
    SHA_256,
    SHA_512,
    Channel,
    ChannelKind,
    Client,
    ClientConnection,
    Keys,
    Offer,
    Record,
    RecordStore,
    Refused,
    Server,
    ServerConnection,
    ServerFlag,
    Status,
    Wiped,
)
from peers import Secret, base64_of

HEADER = Path(__file__).resolve().parent.parent / "c" / "fe2o3_sasl.h"
#: The secret of mock records.
SECRET = bytes(32)


class Arguments(Case):
    def test_none_is_called_with_what_does_not_fit(self) -> None:
        record: Any = Record.make(SHA_1, "a")
        unfit: Any = None
        for number in (-1, 2**32, 2**32 + 1, 2**64 + 1):
            with self.assertRaises(ValueError):
                Record.make(number, "a")
            with self.assertRaises(ValueError):
                Record.make(SHA_1, "a", iterations=number)
            with self.assertRaises(ValueError):
                Keys.make(SHA_1, "a", SALT, number)
            with self.assertRaises(ValueError):
                Client(SHA_1, "a", "a", min_iterations=number)
            with self.assertRaises(ValueError):
                Client(SHA_1, "a", "a", max_iterations=number)
            with self.assertRaises(ValueError):
                Record.mock(SHA_1, bytes(32), "a", salt_len=number)
            with self.assertRaises(ValueError):
                Record.from_fields(SHA_1, SALT, number, bytes(20), bytes(20))
        for number in (-1, 129, 2**32):
            with self.assertRaises(ValueError):
                Record.make(SHA_1, "a", salt_len=number)
        for unfit in (None, 5, 5.0, object()):
            for call in (
                record.verify,
                Record.parse,
                Server.claimed_user,
                Client(SHA_1, "a", "a").verify,
                Server().final,
            ):
                with self.assertRaises(TypeError):
                    call(unfit)
        for message in ("text", None, 3):
            with self.assertRaises(TypeError):
                Client(SHA_1, "a", "a").final(message)  # type: ignore[arg-type]
        with self.assertRaises(ValueError):
            Client(SHA_1, "a")
        with self.assertRaises(TypeError):
            Record()
        for lengths in ((129, 20, 20), (16, 19, 20), (16, 20, 0), (16, 20, 64)):
            with self.assertRaises(ValueError):
                Keys(SHA_1, 1, *map(bytes, lengths))
        with self.assertRaises(ValueError):
            Keys(0, 1, b"", b"", b"")

        class Longer(bytes):
            def __len__(self) -> int:
                return 1 << 40

        self.assertTrue(Record.make(SHA_1, Longer(b"a"), salt=bytearray(SALT)).verify(memoryview(b"a")))

    def test_logins_that_are_none(self) -> None:
        keys = Keys.make(SHA_1, "pencil", SALT, 4096)
        self.refused(Status.NO_SUCH_VERSION, Client, 2, "user", "pencil")
        self.refused(Status.NOT_UTF8, Client, SHA_1, b"\xff", "pencil")
        for password in (None, "pencil"):
            self.refused(Status.OTHER_VERSION, Client, SHA_256, "user", password, keys)
        client = Client(SHA_1, "user", keys=keys)
        client._login.version = SHA_256
        self.refused(Status.OTHER_VERSION, client.first)
        client._login.keys.contents.version = 0
        self.refused(Status.NO_KEYS, client.first)
        client = Client(SHA_1, "user", "\u00e9")
        server_first = Server().first(Record.make(SHA_1, "pencil"), client.first())
        self.refused(Status.CLIENT_NORMALIZE_ERROR, client.final, server_first)

    def test_no_secret_is_shown(self) -> None:
        password, name = "a rare password", "user"
        record = Record.make(SHA_256, password)
        client, server = Client(SHA_256, name, password), Server()
        login(client, server, record)
        keys = client.keys()
        secret = Secret(SHA_256, password, record.salt, 4096)
        sides = ClientBodies.plain(name, password), ServerBodies(of({name: record}), mechanisms=Offer.PLAIN)
        init = sides[0].on_frame(sides[1].offer())
        self.assertIn(password.encode(), init)
        frame = fe2o3_sasl.view_frame(init)
        self.assertEqual(frame.message, f"\0{name}\0{password}".encode())
        shown = "".join(map(repr, (client, server, record, keys, client._struct, client._login, keys._struct)))
        shown += "".join(map(repr, (*sides, frame, ClientConnection.plain(name, password)))) + f"{frame}"
        shown += "".join(map(str, (client, server, record, keys)))
        for status in range(100):
            try:
                _native._done(status)
            except Refused as refused:
                shown += repr(refused) + str(refused)
        for part in (secret.client_key, secret.server_key, secret.stored_key):
            for text in (repr(part), part.hex(), base64_of(part).decode()):
                self.assertNotIn(text[4:20], shown)
        self.assertNotIn(password, shown)

    def test_arguments_are_tested_when_they_are_passed(self) -> None:
        record, keys = Record.make(SHA_256, "pencil", salt=SALT), Keys.make(SHA_256, "pencil", SALT, 4096)
        channel = Channel(ChannelKind.TLS_EXPORTER, bytes(32))
        select, server = ClientConnection.select, ServerConnection
        unfit: list[tuple[type[Exception], Callable[[], object]]] = [
            (ValueError, lambda: Client(255, "user", "pencil")),
            (ValueError, lambda: Client(SHA_256, "user", "pencil", min_iterations=2, max_iterations=1)),
            (ValueError, lambda: Client(SHA_256, "user", "pencil", min_iterations=-1)),
            (ValueError, lambda: Client(SHA_256, "user", "pencil", max_iterations=1 << 32)),
            (ValueError, lambda: Client(SHA_512, "user", keys=keys)),
            (TypeError, lambda: Client(SHA_256, "user", keys=record)),  # type: ignore[arg-type]
            (TypeError, lambda: Client(SHA_256, "user", "pencil", channel=b"data")),  # type: ignore[arg-type]
            (TypeError, lambda: Client("256", "user", "pencil")),  # type: ignore[arg-type]
            (TypeError, lambda: Client(SHA_256, 5, "pencil")),  # type: ignore[arg-type]
            (TypeError, lambda: ClientConnection("user")),  # type: ignore[arg-type]
            (ValueError, lambda: select("user", "pencil", ["SCRAM-SHA-256-PLUS"], channel=channel)),
            (ValueError, lambda: select("user", "pencil", [])),
            (ValueError, lambda: select("user", "pencil", min_iterations=2, max_iterations=1)),
            (ValueError, lambda: select("user", "pencil", must_bind=True)),
            (TypeError, lambda: select("user", "pencil", channel=32)),  # type: ignore[arg-type]
            (ValueError, lambda: server(lambda name: [], mechanisms=0)),
            (ValueError, lambda: server(lambda name: [], mechanisms=ServerFlag.STRICT)),
            (ValueError, lambda: server(lambda name: [], flags=Offer.PLAIN)),
            (ValueError, lambda: server(lambda name: [], iterations=0)),
            (TypeError, lambda: server([record])),  # type: ignore[arg-type]
            (TypeError, lambda: server(lambda name: [], identities_of=["bob"])),  # type: ignore[arg-type]
            (TypeError, lambda: server(lambda name: [], mechanisms="PLAIN")),  # type: ignore[arg-type]
            (ValueError, lambda: Record.make(255, "pencil")),
            (ValueError, lambda: Record.mock(255, bytes(32), "user")),
            (ValueError, lambda: RecordStore(record.line("user")).record("user", 255)),
            (ValueError, lambda: Keys(SHA_256, 0, SALT, bytes(32), bytes(32))),
            (ValueError, lambda: Channel(ChannelKind.TLS_EXPORTER, b"")),
        ]
        for at, (kind, call) in enumerate(unfit):
            with self.subTest(at=at), self.assertRaises(kind):
                call()
        Client(SHA_256, "user", "pencil", min_iterations=1, max_iterations=1)

    def test_equal_values(self) -> None:
        def record(version: int = SHA_256, password: str = "pencil", salt: bytes = SALT, count: int = 4096) -> Record:
            return Record.make(version, password, salt=salt, iterations=count)

        one, keys = record(), Keys.make(SHA_256, "pencil", SALT, 4096)
        for same in (record(), Record.parse(one.text()), copy.copy(one)):
            self.assertEqual(one, same)
            self.assertEqual(hash(one), hash(same))
        others = record(SHA_1), record(password="pencils"), record(salt=SALT[:-1]), record(count=4097)
        for other in (*others, keys, one.text(), None):
            self.assertNotEqual(one, other)
        self.assertEqual(len({one, record(), *others}), 5)
        self.assertEqual(keys, Keys(SHA_256, 4096, SALT, keys.client_key, keys.server_key))
        self.assertNotEqual(keys, Keys(SHA_256, 4096, SALT, keys.client_key, bytes(32)))
        kind = ChannelKind.TLS_EXPORTER
        self.assertEqual(len({Channel(kind, b"a"), Channel(kind, b"a"), Channel(kind, b"b")}), 2)
        wiped = record()
        wiped.wipe()
        for call in (lambda: wiped == one, lambda: one == wiped, lambda: hash(wiped)):
            self.assertRaises(Wiped, call)


class Refusals(Case):
    def test_a_refusal_changes_nothing(self) -> None:
        client, server, record = Client(SHA_256, "user", "pencil"), Server(), Record.make(SHA_256, "pencil")
        other = Record.make(SHA_1, "pencil")

        def stays(status: int, call: Callable[..., object], *arguments: object) -> None:
            before = bytes(client._struct), bytes(server._exchange[1]), server._exchange[0]
            self.refused(status, call, *arguments)
            self.assertEqual((bytes(client._struct), bytes(server._exchange[1]), server._exchange[0]), before)

        stays(Status.CLIENT_ILLEGAL_CLIENT_STATE, client.final, b"r=a,s=AAAA,i=4096")
        stays(Status.CLIENT_ILLEGAL_CLIENT_STATE, client.verify, b"v=AAAA")
        stays(Status.CLIENT_ILLEGAL_CLIENT_STATE, client.keys)
        stays(Status.SERVER_ILLEGAL_AUTHENTICATOR_STATE, server.final, b"c=biws,r=a,p=AAAA")
        stays(Status.SERVER_ILLEGAL_AUTHENTICATOR_STATE, server.authenticated_user)
        client_first = client.first()
        nonce = client_first.split(b"r=")[1]
        server_first = server.first(record, client_first)
        stays(Status.SERVER_UTF8_ERROR, server.first, other, b"\xff")
        stays(Status.SERVER_CANNOT_PARSE_GS2_HEADER, server.first, other, b"y,,n=user,r=a")
        stays(Status.SERVER_CANNOT_PARSE_USERNAME, server.first, other, b"n,,m=user,r=a")
        stays(Status.SERVER_CANNOT_PARSE_USERNAME, server.first, other, b"n,,n=a=2D,r=a")
        stays(Status.SERVER_CANNOT_PARSE_CLIENT_NONCE, server.first, other, b"n,,n=user")
        stays(Status.TOO_LONG, server.first, other, b"n,,n=" + b"x" * 257 + b",r=a")
        stays(Status.TOO_LONG, server.first, other, b"n,,n=user,r=" + b"x" * 1100)
        stays(Status.CLIENT_UTF8_ERROR, client.final, b"\xff")
        stays(Status.CLIENT_INSUFFICIENT_PARTS, client.final, b"r=a")
        stays(Status.CLIENT_EXTENSION_NOT_SUPPORTED, client.final, b"m=a," + server_first)
        stays(Status.CLIENT_NONCE_NOT_FOUND, client.final, b"x=a,s=AAAA,i=4096")
        stays(Status.CLIENT_CLIENT_NONCE_MISMATCH, client.final, b"r=a,s=AAAA,i=4096")
        stays(Status.CLIENT_SALT_NOT_FOUND, client.final, b"r=%sa,x=AAAA,i=4096" % nonce)
        stays(Status.CLIENT_BASE64_DECODE_ERROR, client.final, b"r=%sa,s=!,i=4096" % nonce)
        stays(Status.CLIENT_ITERATION_COUNT_NOT_FOUND, client.final, b"r=%sa,s=AAAA,x=4096" % nonce)
        stays(Status.CLIENT_ITERATION_COUNT_PARSE_ERROR, client.final, b"r=%sa,s=AAAA,i=0" % nonce)
        stays(Status.CLIENT_ITERATION_COUNT_TOO_SMALL, client.final, b"r=%sa,s=AAAA,i=4095" % nonce)
        stays(Status.CLIENT_ITERATION_COUNT_TOO_LARGE, client.final, b"r=%sa,s=AAAA,i=4294967295" % nonce)
        client_final = client.final(server_first)
        without_proof = client_final[: client_final.index(b",p=")]
        stays(Status.SERVER_CANNOT_PARSE_CLIENT_FINAL_MESSAGE, server.final, b"x=biws")
        stays(Status.SERVER_INVALID_CHANNEL_BINDING, server.final, client_final.replace(b"biws", b"eSws"))
        stays(Status.SERVER_INCORRECT_CLIENT_FINAL_NONCE, server.final, client_final.replace(b"r=", b"r=x"))
        stays(Status.SERVER_PROOF_NOT_FOUND_IN_CLIENT_FINAL, server.final, without_proof)
        stays(Status.SERVER_BASE64_DECODE_ERROR, server.final, without_proof + b",p=!")
        stays(Status.SERVER_XOR_LENGTH_MISMATCH, server.final, without_proof + b",p=AAAA")
        stays(Status.SERVER_AUTHENTICATION_FAILED, server.final, without_proof + b",p=" + base64_of(bytes(32)))
        stays(Status.SERVER_CANNOT_PARSE_GS2_HEADER, server.first, other, b"")
        # None of this stood in the way of the login.
        client.verify(server.final(client_final))
        self.assertEqual(server.authenticated_user(), "user")
        stays(Status.SERVER_ILLEGAL_AUTHENTICATOR_STATE, server.final, client_final)

    def test_a_room_that_is_too_small(self) -> None:
        client, record = Client(SHA_512, "user", "pencil"), Record.make(SHA_512, "pencil")
        given, server = (client._login, client._struct), _structs._ScramServerStruct()

        def rooms(suffices: Optional[int], struct: ctypes.Structure, call: Callable[..., int]) -> bytes:
            length = ctypes.c_size_t()
            out = ctypes.create_string_buffer(b"\xa5" * 2048, 2048)
            before = bytes(struct)
            self.assertEqual(call(out, 0, ctypes.byref(length)), Status.ROOM_TOO_SMALL)
            needed = length.value
            self.assertEqual(call(out, needed - 1, ctypes.byref(length)), Status.ROOM_TOO_SMALL)
            self.assertEqual((length.value, out.raw, bytes(struct)), (needed, b"\xa5" * 2048, before))
            self.assertEqual(call(out, needed, ctypes.byref(length)), Status.OK)
            self.assertEqual(needed, length.value if suffices is None else suffices)
            self.assertEqual(out.raw[length.value :], b"\xa5" * (2048 - length.value))
            return out.raw[: length.value]

        one, two = os.urandom(32), os.urandom(32)
        first = rooms(None, client._struct, lambda *room: LIBRARY.fe2o3_scram_client_first(*given, one, *room))
        rules = _server._rules_of()
        known = rules, record._struct, server
        user = rooms(
            None, server, lambda *room: LIBRARY.fe2o3_scram_server_claimed_user(rules, first, len(first), *room)
        )
        self.assertEqual(user, b"user")
        challenge = rooms(
            None,
            server,
            lambda *room: LIBRARY.fe2o3_scram_server_first(*known, two, first, len(first), *room),
        )
        final = rooms(
            len(challenge) + 128,
            client._struct,
            lambda *room: LIBRARY.fe2o3_scram_client_final(*given, challenge, len(challenge), *room),
        )
        verdict = rooms(90, server, lambda *room: LIBRARY.fe2o3_scram_server_final(*known, final, len(final), *room))
        client.verify(verdict)
        told = rooms(None, server, lambda *room: LIBRARY.fe2o3_scram_server_authenticated_user(server, *room))
        self.assertEqual(told, b"user")
        text = rooms(None, record._struct, lambda *room: LIBRARY.fe2o3_scram_record_text(record._struct, *room))
        self.assertEqual(text.decode(), record.text())
        # A name that no room of the module's own suffices for.
        name = "=" * 5000
        self.assertEqual(Server.claimed_user(Client(SHA_1, name, "pencil").first()), name)


class Examples(Case):
    """Runs `examples/login.py`, which the pages quote."""

    def setUp(self) -> None:
        self.client, self.server = socket.socketpair()
        self.addCleanup(self.client.close)
        self.addCleanup(self.server.close)

    def test_a_login(self) -> None:
        record = Record.make(SHA_256, "pencil")
        with ThreadPoolExecutor() as pool:
            served = pool.submit(serve, self.server, RecordStore(record.line("user")), SECRET, False)
            self.assertEqual(log_in(self.client), b"")
            self.assertEqual(served.result(), (b"", "user"))

    def test_a_wrong_password(self) -> None:
        record = Record.make(SHA_256, "crayon")
        with ThreadPoolExecutor() as pool:
            served = pool.submit(serve, self.server, RecordStore(record.line("user")), SECRET, False)
            self.refused(Status.REFUSED_AUTH, log_in, self.client)
            self.refused(Status.REFUSED_AUTH, served.result)

    def test_few_iterations(self) -> None:
        record = Record.make(SHA_256, "pencil", iterations=4095)
        with ThreadPoolExecutor() as pool:
            served = pool.submit(serve, self.server, RecordStore(record.line("user")), SECRET, False)
            self.refused(Status.CLIENT_ITERATION_COUNT_TOO_SMALL, log_in, self.client)
            self.client.close()
            self.refused(Status.END_OF_INPUT, served.result)

    def test_a_server_that_closes(self) -> None:
        self.server.shutdown(socket.SHUT_WR)
        self.refused(Status.END_OF_INPUT, log_in, self.client)

    def test_a_client_that_closes(self) -> None:
        self.client.shutdown(socket.SHUT_WR)
        store = RecordStore(Record.make(SHA_256, "pencil").line("user"))
        self.refused(Status.END_OF_INPUT, serve, self.server, store, SECRET, False)


class Declarations(Case):
    def test_statuses_are_those_of_the_header(self) -> None:
        block = re.search(
            r"^enum fe2o3_status \{\n(.*?)^\};$", HEADER.read_text(encoding="utf-8"), re.MULTILINE | re.DOTALL
        )
        declared = re.findall(r"^    FE2O3_(\w+) = (\d+)", block[1], re.MULTILINE)
        self.assertEqual([(name, int(number)) for name, number in declared], [(x.name, x.value) for x in Status])

    def test_exports_are_those_of_the_header(self) -> None:
        declared = set(re.findall(r"\b(fe2o3_\w+)\(\n?", HEADER.read_text(encoding="utf-8")))
        written = set(re.findall(r'"(fe2o3_\w+)": \(', Path(_exports.__file__).read_text(encoding="utf-8")))
        self.assertEqual(written, declared)

    def test_texts_of_statuses(self) -> None:
        texts = {_native._status_text(status) for status in Status}
        self.assertNotIn("", texts)
        self.assertEqual(_native._status_text(4_000_000_000), "Unknown status")

    def test_a_library_that_does_not_fit(self) -> None:
        fits = {which: ctypes.sizeof(struct) for which, struct in enumerate(_structs._SIZED)}
        for which in fits:
            other = mock.MagicMock()
            other.fe2o3_size.side_effect = lambda asked: fits[asked] + (asked == which)
            with mock.patch("ctypes.CDLL", return_value=other), self.assertRaises(OSError):
                _native._load("other")
        with self.assertRaises(OSError):
            _native._load("libc.so.6")
        with self.assertRaises(OSError):
            _native._load("there is none")

    def test_version(self) -> None:
        self.assertEqual(len(fe2o3_sasl.library_version()), 3)


if __name__ == "__main__":
    unittest.main()
