"""Logins over the bytes of connections."""

from __future__ import annotations

import base64
import ctypes
import random
import struct
import unittest
from typing import Any, Optional

from fe2o3_sasl import _structs
from cases import LIBRARY, NAMES, OFFERS, PASSWORDS, SALT, Case, connected, nobody, of, served
from fe2o3_sasl import (
    SHA_1,
    SHA_256,
    SHA_512,
    Client,
    ClientConnection,
    Offer,
    Progress,
    Record,
    ServerConnection,
    ServerFlag,
    Status,
)
from peers import (
    CHALLENGE,
    INIT,
    MECHANISMS,
    NULL,
    OUTCOME,
    RESPONSE,
    SASL_HEADER,
    VERSIONS,
    Broker,
    Login,
    Other,
    Plain,
    Secret,
    bare_of,
    base64_of,
    fields_of,
    frame_of,
    framed,
    mechanisms_frame,
    short,
)


class Connections(Case):
    def closed(self, side: ClientConnection, status: int) -> None:
        self.assertEqual(side.progress, Progress.FAILED)
        assert side.why is not None
        self.assertEqual(side.why.status, status)
        self.assertTrue(side.why.text)
        self.refused(Status.CLIENT_ILLEGAL_CLIENT_STATE, side.keys)
        # What has ended takes nothing and sends nothing.
        self.assertEqual(side.receive(b"bytes"), (b"", b"bytes"))

    def test_logins_in_pieces(self) -> None:
        for version, mechanism in MECHANISMS.items():
            for number, name in enumerate(NAMES):
                for piece in (1, 7, 4096):
                    password = PASSWORDS[number % len(PASSWORDS)]
                    with self.subTest(version=version, name=name, piece=piece):
                        known = Secret(version, password, SALT, 4096)
                        broker = Broker(known, "PLAIN", mechanism)
                        side = ClientConnection(Client(version, name, password), hostname="broker.example")
                        self.assertEqual(connected(side, broker, piece, b"AMQP\0\1\0\0"), b"AMQP\0\1\0\0")
                        self.assertEqual((side.progress, side.why), (Progress.AUTHENTICATED, None))
                        bare = bare_of(name, base64.b64decode((broker.init[1] or b"").split(b",r=")[1]))
                        self.assertEqual(broker.init, [mechanism.encode(), b"n,," + bare, b"broker.example"])
                        keys = side.keys()
                        self.assertEqual((keys.client_key, keys.server_key), (known.client_key, known.server_key))
                        again = ClientConnection(Client(version, name, keys=keys))
                        connected(again, Broker(known, mechanism), piece)
                        self.assertEqual(again.progress, Progress.AUTHENTICATED)

    def test_other_mechanisms(self) -> None:
        known = Secret(SHA_1, "pencil", SALT, 1)
        for side, init in (
            (ClientConnection.plain("us\u00e9r", "p\u00e9ncil"), [b"PLAIN", "\0us\u00e9r\0p\u00e9ncil".encode(), None]),
            (ClientConnection.anonymous(), [b"ANONYMOUS", None, None]),
            (ClientConnection.external(hostname="b"), [b"EXTERNAL", None, b"b"]),
        ):
            for code, progress in ((0, Progress.AUTHENTICATED), (1, Progress.FAILED)):
                broker, side_again = Broker(known, "PLAIN", "ANONYMOUS", "EXTERNAL", code=code), side
                side = ClientConnection.__new__(ClientConnection)
                again = side_again._login
                side._begin(side._login_of(again[0].mechanism, again[1], again[0].hostname))
                connected(side, broker, 5)
                self.assertEqual(side.progress, progress)
                self.assertEqual((broker.init + [None, None])[:3], init)

    def test_refusals(self) -> None:
        known = Secret(SHA_256, "pencil", SALT, 4096)

        def side() -> ClientConnection:
            return ClientConnection(Client(SHA_256, "user", "pencil"))

        def run(broker: Broker, status: int) -> None:
            one = side()
            connected(one, broker, 4096)
            self.closed(one, status)

        name = MECHANISMS[SHA_256]
        run(Broker(known, "PLAIN", "ANONYMOUS"), Status.NOT_IMPLEMENTED)
        run(Broker(Secret(SHA_256, "pencils", SALT, 4096), name), Status.REFUSED_AUTH)
        run(Broker(Secret(SHA_256, "pencil", SALT, 4095), name), Status.CLIENT_ITERATION_COUNT_TOO_SMALL)
        for code in (1, 2, 3, 4):
            run(Broker(known, name, code=code), Status.REFUSED_AUTH + code - 1)
        for mar in (lambda m: m[:-4] + b"AAA=", lambda m: b"v=", lambda m: b"e=other-error"):
            one = side()
            connected(one, Broker(known, name, mar=mar), 4096)
            self.assertEqual(one.progress, Progress.FAILED)
            assert one.why is not None
            self.assertIn(one.why.status, (Status.CLIENT_SERVER_SIGNATURE_MISMATCH, Status.CLIENT_BASE64_DECODE_ERROR))

        for data, status in {
            b"AMQP\0\1\0\0": Status.PROTOCOL_HEADER_MISMATCH,
            SASL_HEADER + b"\0\0\0\7": Status.FRAME_SIZE,
            SASL_HEADER + b"\0\0\2\1": Status.FRAME_SIZE,
            SASL_HEADER + frame_of(CHALLENGE, short(0xA0, b"")): Status.UNEXPECTED_FRAME,
            SASL_HEADER + framed(b"\0\x53\x40"): Status.MALFORMED_FRAME,
            SASL_HEADER + b"\0\0\0\x08\2\0\0\0": Status.NO_SASL_FRAME,
        }.items():
            with self.subTest(data=data):
                one = side()
                self.assertEqual(one.receive(data)[0], b"")
                self.closed(one, status)

    # Data offsets in words of four bytes, the bytes of the extended header (AMQP 1.0, part 2, section 2.3.1), and why the
    # frame is not read, without the option and with it.
    OFFSETS: tuple[tuple[int, bytes, Optional[Status], Optional[Status]], ...] = (
        (2, b"", None, None),
        (3, b"\xde\xad\xbe\xef", Status.NO_SASL_FRAME, None),
        (4, b"\0\x53\x41\xc0\0\0\0\x0a", Status.NO_SASL_FRAME, None),
        (1, b"", Status.NO_SASL_FRAME, Status.NO_SASL_FRAME),
        (40, b"", Status.NO_SASL_FRAME, Status.NO_SASL_FRAME),
    )

    def test_extended_headers(self) -> None:
        # (an init of PLAIN, and a list of the one mechanism, from the byte after the frame's header)
        init = bytes.fromhex("005341c01602a305504c41494ea00c00757365720070656e63696c")
        offer = bytes.fromhex("005340c00b01e00801a305504c41494e")
        record = Record.parse(Secret(SHA_256, "pencil", SALT, 4096).record_text())

        def passed(side: Any, body: bytes, offset: int, header: bytes, accepts: bool) -> tuple[bytes, Optional[int]]:
            frame = struct.pack(">IBBH", 8 + len(header) + len(body), offset, 1, 0) + header + body
            side.accept_extended_headers(not accepts)
            side.accept_extended_headers(accepts)
            sent, rest = side.receive(SASL_HEADER + frame)
            self.assertEqual(rest, b"")
            return sent, None if side.why is None else side.why.status

        for offset, header, *rows in self.OFFSETS:
            for accepts, why in zip((False, True), rows):
                with self.subTest(offset=offset, accepts=accepts):
                    server = ServerConnection(lambda name: [record], mechanisms=Offer.PLAIN)
                    self.assertEqual(passed(server, init, offset, header, accepts)[1], why)
                    if why is None:
                        self.assertEqual(server.authenticated_user(), "user")
                        self.assertEqual(server.last_attempt(), ("PLAIN", "user", None))
                    for client in (
                        ClientConnection.plain("user", "pencil"),
                        ClientConnection.plain("user", "pencil", strict=True),
                        ClientConnection.select("user", "pencil", ["SCRAM-SHA-256", "PLAIN"]),
                    ):
                        sent = b"" if why is not None else b"\0\0\0\x23\2\1\0\0" + init
                        self.assertEqual(passed(client, offer, offset, header, accepts), (sent, why))

    def test_words_of_plain(self) -> None:
        for status, name, password in (
            (Status.NAMES_NO_USER, "", "pencil"),
            (Status.EMPTY_PASSWORD, "user", ""),
            (Status.PROHIBITED_CHARACTER, "us\0er", "pencil"),
            (Status.PROHIBITED_CHARACTER, "user", "pencil\0"),
        ):
            with self.subTest(name=name, password=password):
                offer = SASL_HEADER + mechanisms_frame("PLAIN")
                for call in (
                    ClientConnection.plain,
                    lambda *words, **more: ClientConnection.select(*words, ["PLAIN"], **more),
                ):
                    self.refused(status, lambda: call(name, password, strict=True))
                strict = ClientConnection.plain(name, password)
                strict._login[0].login.strict = 1
                self.refused(status, strict.receive, offer)
                sent, _ = ClientConnection.plain(name, password).receive(offer)
                self.assertEqual(fields_of(sent), (INIT, [b"PLAIN", f"\0{name}\0{password}".encode()]))

    def test_a_message_that_is_asked_for(self) -> None:
        for side, name, message in (
            (ClientConnection.external_as(), b"EXTERNAL", b""),
            (ClientConnection.anonymous_as("me@example.org"), b"ANONYMOUS", b"me@example.org"),
        ):
            sent, _ = side.receive(SASL_HEADER + mechanisms_frame(name.decode()))
            self.assertEqual(fields_of(sent), (INIT, [name, message]))
            sent, _ = side.receive(frame_of(CHALLENGE, short(0xA0, b"")))
            self.assertEqual(fields_of(sent), (RESPONSE, [message]))
            side.receive(frame_of(OUTCOME, b"\x50\0"))
            self.assertEqual((side.progress, side.why), (Progress.AUTHENTICATED, None))

    def test_a_frame_that_is_too_large(self) -> None:
        one = ClientConnection(Client(SHA_256, "x" * 500, "pencil"))
        self.assertEqual(one.receive(SASL_HEADER + mechanisms_frame(MECHANISMS[SHA_256])), (b"", b""))
        self.closed(one, Status.REPLY_TOO_LARGE)

    def test_logins_that_are_none(self) -> None:
        self.refused(Status.NOT_UTF8, lambda: ClientConnection.anonymous(hostname=b"\xff"))
        self.refused(Status.NOT_UTF8, ClientConnection.plain("a", b"\xff").receive, b"A")
        one = ClientConnection.anonymous()
        one._login[0].mechanism = 6
        self.refused(Status.NO_SUCH_MECHANISM, one.receive, b"A")
        for field, value in (("expected", 7), ("held_len", 513), ("held_len", 8)):
            one = ClientConnection.anonymous()
            setattr(one._struct.connection, field, value)
            self.refused(Status.INVALID_SNAPSHOT, one.receive, b"A")

    def test_servers(self) -> None:
        for version in VERSIONS:
            for name in NAMES:
                record = Record.make(version, "pencil", salt=SALT, iterations=4096)
                known = {name: record}
                for password, progress in (("pencil", Progress.AUTHENTICATED), ("pencils", Progress.FAILED)):
                    for by in (Login(version, name, password), Plain(name, password)):
                        for piece in (1, 7, 4096):
                            side = ServerConnection(
                                of(known), mechanisms=OFFERS[version] | Offer.PLAIN | Offer.EXTERNAL
                            )
                            by.begin()
                            served(side, by, piece)
                            # (PLAIN has no empty name, and the frames that are made here have 255 bytes at most)
                            if (name == "" and isinstance(by, Plain)) or len(name) > 200:
                                continue
                            self.assertEqual(side.progress, progress, (name, password, piece))
                            self.assertEqual(by.logged_in, progress == Progress.AUTHENTICATED)
                            if progress == Progress.AUTHENTICATED:
                                self.assertEqual(side.authenticated_user(), name)
                            else:
                                assert side.why is not None
                                self.assertEqual(side.why.status, Status.REFUSED_AUTH)
                                self.refused(Status.SERVER_ILLEGAL_AUTHENTICATOR_STATE, side.authenticated_user)

    def test_servers_of_other_mechanisms(self) -> None:
        def server(mechanisms: int) -> ServerConnection:
            return ServerConnection(nobody, mechanisms=mechanisms, external_authcid="peer")

        for by, mechanisms, name in (
            (Other("ANONYMOUS"), Offer.ANONYMOUS, None),
            (Other("EXTERNAL"), Offer.EXTERNAL | Offer.PLAIN, "peer"),
            (Other("EXTERNAL", b"peer"), Offer.EXTERNAL | Offer.SCRAM_SHA_256, "peer"),
        ):
            side = server(mechanisms)
            by.begin()
            served(side, by, 5)
            self.assertEqual((side.progress, side.authenticated_user()), (Progress.AUTHENTICATED, name))
        for by, mechanisms in ((Other("EXTERNAL", b"other"), Offer.EXTERNAL), (Other("ANONYMOUS"), Offer.EXTERNAL)):
            side = server(mechanisms)
            by.begin(ask=True)
            served(side, by, 5)
            self.assertEqual(side.progress, Progress.FAILED)
        for mechanisms in (0, 64, 128, 512, 1024, 4096, Offer.PLAIN | 64):
            self.refused(Status.NO_SUCH_MECHANISM, server, mechanisms)
            side = server(Offer.PLAIN)
            side._mechanisms = int(mechanisms)
            self.refused(Status.NO_SUCH_MECHANISM, side.receive, b"A")
        both_forms = ServerFlag.PLAIN_PREPARED | ServerFlag.PLAIN_SASLPREP
        for flags in (1, 32, 63, 65, both_forms, ServerFlag.STRICT | 8192):
            self.refused(Status.NO_SUCH_CHOICE, lambda: ServerConnection(nobody, flags=flags))
            side = server(Offer.PLAIN)
            side._flags = int(flags)
            self.refused(Status.NO_SUCH_CHOICE, side.receive, b"A")
        self.refused(Status.NOT_UTF8, lambda: ServerConnection(nobody, external_authcid=b"\xff"))

    def rejected(self, side: ServerConnection, status: int) -> None:
        self.assertEqual(side.progress, Progress.FAILED)
        assert side.why is not None
        self.assertEqual(side.why.status, status)
        self.refused(Status.SERVER_ILLEGAL_AUTHENTICATOR_STATE, side.authenticated_user)

    def test_servers_that_ask_for_the_initial_response(self) -> None:
        for version in VERSIONS:
            known = of({name: Record.make(version, "pencil", salt=SALT) for name in ("user", "a=b,c")})
            offer, asks = OFFERS[version] | Offer.PLAIN, ServerFlag.INITIAL_RESPONSE_BY_CHALLENGE
            for name, password, logged_in in (
                ("user", "pencil", True),
                ("a=b,c", "pencil", True),
                ("user", "pencils", False),
                ("nobody", "pencil", False),
            ):
                for by in (Login(version, name, password), Plain(name, password)):
                    for piece, signs in ((1, 0), (7, ServerFlag.SIGNATURE_BY_CHALLENGE), (4096, 0)):
                        side = ServerConnection(known, mechanisms=offer, flags=asks | signs)
                        by.begin(late=True)
                        served(side, by, piece)
                        progress = Progress.AUTHENTICATED if logged_in else Progress.FAILED
                        self.assertEqual((side.progress, by.logged_in), (progress, logged_in), (name, piece, signs))
                        if logged_in:
                            self.assertEqual(side.authenticated_user(), name)
                        else:
                            self.rejected(side, Status.REFUSED_AUTH)
                    side = ServerConnection(known, mechanisms=OFFERS[version] | Offer.PLAIN)
                    by.begin(late=True)
                    served(side, by, 4096)
                    self.rejected(side, Status.REFUSED_AUTH)
                    self.assertEqual((by.logged_in, by.code), (False, 1))

    def test_a_saved_server_that_has_asked(self) -> None:
        known = of({"user": Record.make(SHA_256, "pencil", salt=SALT)})
        offer, asks = OFFERS[SHA_256] | Offer.PLAIN, ServerFlag.INITIAL_RESPONSE_BY_CHALLENGE
        init, refused = frame_of(INIT, short(0xA3, b"PLAIN"), NULL, short(0xA1, b"host")), frame_of(OUTCOME, b"\x50\1")
        saved = ServerConnection(known, mechanisms=offer, flags=asks)
        self.assertTrue(saved.receive(SASL_HEADER + init)[0].endswith(frame_of(CHALLENGE, short(0xA0, b""))))
        self.assertEqual((saved.progress, saved._struct.scram.state), (Progress.IN_PROGRESS, 5))
        self.refused(Status.SERVER_ILLEGAL_AUTHENTICATOR_STATE, saved.authenticated_user)
        for frame, sent, why in (
            (frame_of(RESPONSE, short(0xA0, b"\0user\0pencil")), frame_of(OUTCOME, b"\x50\0"), None),
            (frame_of(RESPONSE, short(0xA0, b"\0user\0pencils")), refused, Status.REFUSED_AUTH),
            (frame_of(RESPONSE, short(0xA0, b"pencil")), refused, Status.REFUSED_AUTH),
            (frame_of(RESPONSE, short(0xA0, b"")), refused, Status.REFUSED_AUTH),
            (init, b"", Status.UNEXPECTED_FRAME),
        ):
            side = ServerConnection(known, mechanisms=offer, flags=asks)
            side._struct = type(saved._struct).from_buffer_copy(bytes(saved._struct))
            self.assertEqual(side.receive(frame), (sent, b""))
            if why is None:
                self.assertEqual((side.progress, side.authenticated_user()), (Progress.AUTHENTICATED, "user"))
            else:
                self.rejected(side, why)

    def test_plain_passwords(self) -> None:
        # (RFC 4013, section 3, prepares two of these texts to "IX"; "\xad" alone to nothing; and rejects the last one)
        passwords = {"ix": "IX", "accents": "p\xe4ssw\xf6rd"}
        known = {
            name: Record.parse(Secret(SHA_256, text, SALT, 4096).record_text()) for name, text in passwords.items()
        }
        for form, name, password, logged_in in (
            (0, "ix", "IX", True),
            (0, "ix", "I\xadX", False),
            (0, "accents", "p\xe4ssw\xf6rd", False),
            (ServerFlag.PLAIN_PREPARED, "ix", "I\xadX", False),
            (ServerFlag.PLAIN_PREPARED, "accents", "p\xe4ssw\xf6rd", True),
            (ServerFlag.PLAIN_SASLPREP, "ix", "IX", True),
            (ServerFlag.PLAIN_SASLPREP, "ix", "I\xadX", True),
            (ServerFlag.PLAIN_SASLPREP, "ix", "\u2168", True),
            (ServerFlag.PLAIN_SASLPREP, "accents", "pa\u0308sswo\u0308rd", True),
            (ServerFlag.PLAIN_SASLPREP, "nobody", "\u2168", False),
            (ServerFlag.PLAIN_SASLPREP, "ix", "\xad", False),
            (ServerFlag.PLAIN_SASLPREP, "ix", "\u06271", False),
        ):
            side, by = ServerConnection(of(known), mechanisms=Offer.PLAIN, flags=form), Plain(name, password)
            by.begin()
            served(side, by, 4096)
            progress = Progress.AUTHENTICATED if logged_in else Progress.FAILED
            self.assertEqual((side.progress, by.logged_in), (progress, logged_in), (form, name, password))

    def test_several_hashes(self) -> None:
        known = [Record.make(version, "pencil", salt=SALT) for version in (SHA_256, SHA_512)]
        offers = Offer.SCRAM_SHA_512 | Offer.SCRAM_SHA_256 | Offer.SCRAM_SHA_1 | Offer.PLAIN
        for by, logged_in in (
            (Login(SHA_512, "user", "pencil"), True),
            (Login(SHA_256, "user", "pencil"), True),
            (Login(SHA_1, "user", "pencil"), False),
            (Login(SHA_512, "user", "pencils"), False),
            (Plain("user", "pencil"), True),
        ):
            for piece in (1, 7, 4096):
                side = ServerConnection(lambda name: known, mechanisms=offers)
                by.begin()
                served(side, by, piece)
                self.assertEqual(side.progress, Progress.AUTHENTICATED if logged_in else Progress.FAILED)
                self.assertEqual(by.logged_in, logged_in)

    def test_both_sides(self) -> None:
        for version in VERSIONS:
            record = Record.make(version, "pencil")
            side = ClientConnection(Client(version, "user", "pencil"))
            server = ServerConnection(of({"user": record}), mechanisms=OFFERS[version])
            to_server, to_client = side.open(), b""
            for _ in range(4):
                to_client, _ = server.receive(to_server)
                to_server, _ = side.receive(to_client)
            self.assertEqual((side.progress, server.progress), (Progress.AUTHENTICATED, Progress.AUTHENTICATED))
            self.assertEqual(server.authenticated_user(), "user")

    def test_structs_of_random_bytes(self) -> None:
        """Of whatever bits the structs are, a call is done or refused, and refused it has changed nothing."""
        bits, seen = random.Random(20261125), set()
        keys = _structs._ScramKeysStruct()
        for number in range(100_000):
            size = ctypes.sizeof(_structs._SaslClientStruct)
            struct_of = _structs._SaslClientStruct.from_buffer_copy
            client = struct_of(bits.getrandbits(8 * size).to_bytes(size, "little"))
            kept = client.connection
            if bits.random() < 0.9:
                kept.progress = 0
                kept.expected = bits.randrange(7)
                kept.held_len = bits.choice((0, bits.randrange(8), bits.randrange(520)))
                kept.held[:4] = list(bits.choice((12, 300, 513)).to_bytes(4, "big"))
                client.scram.state = bits.randrange(5)
                client.scram.signature_len = bits.randrange(66)
            login = _structs._SaslLoginStruct(
                mechanism=bits.choice((0, 0, 0, bits.randrange(7))),
                hostname=b"",
                login=_structs._LoginStruct(
                    version=256,
                    max_iterations=2,
                    username=b"u",
                    username_len=1,
                    password=b"p",
                    password_len=1,
                    keys=ctypes.pointer(keys),
                ),
            )
            data = bits.choice(
                (
                    SASL_HEADER,
                    mechanisms_frame(MECHANISMS[SHA_256], "PLAIN"),
                    frame_of(CHALLENGE, short(0xA0, b"r=" + base64_of(bytes(client.scram.nonce)) + b"x,s=AAAA,i=1")),
                    frame_of(OUTCOME, b"\x50\0", short(0xA0, b"v=" + base64_of(bytes(client.scram.signature)[:32]))),
                    bytes(bits.randrange(256) for _ in range(bits.randrange(20))),
                )
            )
            before, taken = bytes(client), ctypes.c_size_t(99)
            length, room = ctypes.c_size_t(7), bits.choice((511, 512, 512, 512))
            out = ctypes.create_string_buffer(b"\xa5" * 600, 600)
            status = LIBRARY.fe2o3_sasl_client_receive(
                login, client, data, len(data), bytes(32), ctypes.byref(taken), out, room, ctypes.byref(length)
            )
            self.assertIn(status, set(Status))
            seen.add((status, int(client.connection.progress) if status == 0 else None))
            if status == Status.OK:
                self.assertLessEqual(taken.value, len(data))
                self.assertLessEqual(length.value, room)
                self.assertEqual(out.raw[length.value :], b"\xa5" * (600 - length.value))
                self.assertLessEqual(client.connection.held_len, 512)
            else:
                self.assertEqual((bytes(client), out.raw, taken.value), (before, b"\xa5" * 600, 99))
        for status in (Status.ROOM_TOO_SMALL, Status.ENDED, Status.INVALID_SNAPSHOT, Status.NO_SUCH_MECHANISM):
            self.assertIn((status, None), seen)
        for progress in Progress:
            self.assertIn((Status.OK, progress), seen)


if __name__ == "__main__":
    unittest.main()
