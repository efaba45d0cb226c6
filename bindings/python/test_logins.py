"""Logins over messages: by each hash, with keys, prepared passwords, the GS2 flag `y` and strict sides."""

from __future__ import annotations

import ctypes
import hmac
import os
import stringprep
import threading
import unicodedata
import unittest
from typing import Any

import fe2o3_sasl
from fe2o3_sasl import _native
from cases import (
    EXTENSIONS,
    LIBRARY,
    NAMES,
    OFFERS,
    PASSWORDS,
    SALT,
    SERVER_ERRORS,
    Case,
    channel_of,
    connected,
    login,
    nonces,
    of,
    served,
)
from fe2o3_sasl import (
    SHA_1,
    SHA_256,
    Channel,
    ChannelKind,
    Client,
    ClientConnection,
    Keys,
    Offer,
    Progress,
    Record,
    Refused,
    Server,
    ServerConnection,
    ServerError,
    ServerFlag,
    Status,
    server_error,
    server_error_message,
)
from peers import (
    INIT,
    MECHANISMS,
    SASL_HEADER,
    VERSIONS,
    Broker,
    Login,
    Secret,
    bare_of,
    base64_of,
    frame_of,
    mac,
    short,
)

OTHER_SALT = bytes(range(100, 124))


class Logins(Case):
    def test_each_message_of_each_hash(self) -> None:
        client_nonce, server_nonce = os.urandom(32), os.urandom(32)
        for version in VERSIONS:
            for number, name in enumerate(NAMES):
                password = PASSWORDS[number % len(PASSWORDS)]
                iterations = 4096 + number
                with self.subTest(version=version, name=name, password=password):
                    known = Secret(version, password, SALT, iterations)
                    record = Record.make(version, password, salt=SALT, iterations=iterations)
                    client, server = Client(version, name, password), Server()
                    with nonces(client_nonce, server_nonce):
                        client_first = client.first()
                        server_first = server.first(record, client_first)
                    bare = bare_of(name, client_nonce)
                    self.assertEqual(client_first, b"n,," + bare)
                    self.assertEqual(Server.claimed_user(client_first), name)
                    self.assertEqual(server_first, known.server_first(client_nonce, server_nonce))
                    client_final = client.final(server_first)
                    server_final = server.final(client_final)
                    self.assertEqual((client_final, server_final), known.finals(bare, server_first))
                    client.verify(server_final)
                    self.assertEqual(server.authenticated_user(), name)
                    keys = client.keys()
                    self.assertEqual(
                        (keys.version, keys.iterations, keys.salt, keys.client_key, keys.server_key),
                        (version, iterations, SALT, known.client_key, known.server_key),
                    )

    def test_keys(self) -> None:
        for version in VERSIONS:
            with self.subTest(version=version):
                record = Record.make(version, "pencil", salt=SALT)
                other = Record.make(version, "pencil", salt=OTHER_SALT)
                made = Keys.make(version, "pencil", SALT, 4096)
                again = Keys(version, 4096, made.salt, made.client_key, made.server_key)
                self.assertEqual(bytes(made._struct), bytes(again._struct))
                server = Server()
                login(Client(version, "user", keys=again), server, record)
                self.assertEqual(server.authenticated_user(), "user")
                client = Client(version, "user", keys=made)
                self.refused(Status.CLIENT_STALE_KEYS, login, client, Server(), other)
                # With both: by the keys, also where the password is another, and else by the password.
                both = Client(version, "user", "pencils", made)
                login(both, Server(), record)
                self.refused(Status.SERVER_AUTHENTICATION_FAILED, login, both, Server(), other)
                both = Client(version, "user", "pencil", made)
                login(both, Server(), other)
                self.assertEqual(both.keys().salt, OTHER_SALT)

    def test_iteration_limits(self) -> None:
        for version in VERSIONS:
            low, high = (Record.make(version, "pencil", iterations=count) for count in (4095, 4097))
            self.refused(
                Status.CLIENT_ITERATION_COUNT_TOO_SMALL, login, Client(version, "user", "pencil"), Server(), low
            )
            login(Client(version, "user", "pencil", min_iterations=4095), Server(), low)
            client = Client(version, "user", "pencil", max_iterations=4096)
            self.refused(Status.CLIENT_ITERATION_COUNT_TOO_LARGE, login, client, Server(), high)

    def test_wrong_password_and_unknown_user(self) -> None:
        secret = os.urandom(32)
        for version in VERSIONS:
            with self.subTest(version=version):
                record, server = Record.make(version, "pencil"), Server()
                client = Client(version, "u", "pencils")
                self.refused(Status.SERVER_AUTHENTICATION_FAILED, login, client, server, record)
                self.refused(Status.SERVER_ILLEGAL_AUTHENTICATOR_STATE, server.authenticated_user)
                nobody = Record.mock(version, secret, "u", salt_len=20, iterations=5000)
                label = f"Salt:{MECHANISMS[version]}:u".encode()
                salt = hmac.new(secret, label, "sha512").digest()[:20]
                stored, server_key = mac(version, secret, b"StoredKey:u"), mac(version, secret, b"ServerKey:u")
                self.assertEqual(
                    nobody.text(),
                    f"{MECHANISMS[version]}$5000:{base64_of(salt).decode()}"
                    f"${base64_of(stored).decode()}:{base64_of(server_key).decode()}",
                )
                self.refused(Status.SERVER_AUTHENTICATION_FAILED, login, Client(version, "u", "pencil"), server, nobody)
                self.assertFalse(nobody.verify("pencil"))
        self.refused(Status.TOO_LONG, lambda: Record.mock(SHA_256, secret, "u", salt_len=65))
        with self.assertRaises(ValueError):
            Record.mock(SHA_256, secret[:31], "u")

    def test_another_server_is_not_believed(self) -> None:
        client, server = Client(SHA_256, "user", "pencil"), Server()
        record = Record.make(SHA_256, "pencil")
        server_final = server.final(client.final(server.first(record, client.first())))
        before = bytes(client._struct)
        for other in (b"", b"v=", b"v=AAAA", b"x=y,e=other-error", server_final[:-4], server_final + b"A", b"\xff"):
            with self.assertRaises(Refused) as caught:
                client.verify(other)
            self.assertNotIsInstance(caught.exception, ServerError)
            self.assertEqual(bytes(client._struct), before)
            self.refused(Status.CLIENT_ILLEGAL_CLIENT_STATE, client.keys)
        for message, error in (
            (b"e=invalid-proof", "invalid-proof"),
            (b"e=invalid-proof,x=y", "invalid-proof"),
            (b"e=of-another-document", "other-error"),
        ):
            with self.assertRaises(ServerError) as told:
                client.verify(message)
            self.assertEqual((told.exception.status, told.exception.error), (Status.SERVER_ERROR, error))
            self.assertIn(error, str(told.exception))
            self.assertEqual(bytes(client._struct), before)
        client.verify(server_final)

    def test_errors_of_a_server(self) -> None:
        for name in SERVER_ERRORS:
            self.assertEqual(server_error(b"e=" + name.encode()), name)
        for message in (b"", b"e", b"v=", b"x=y,e=invalid-proof", b"E=invalid-proof", b"e=\xff"):
            self.assertIsNone(server_error(message), message)
        self.assertEqual(_native._lent(LIBRARY.fe2o3_scram_server_error_text, 12), "No server error")
        # A wrong proof and an unknown user have one message.
        for status, message in {
            Status.SERVER_AUTHENTICATION_FAILED: b"e=invalid-proof",
            Status.NO_SUCH_USER: b"e=invalid-proof",
            Status.SERVER_UTF8_ERROR: b"e=invalid-encoding",
            Status.SERVER_CANNOT_PARSE_USERNAME: b"e=invalid-username-encoding",
            Status.SERVER_INVALID_CHANNEL_BINDING: b"e=channel-bindings-dont-match",
            Status.OUT_OF_MEMORY: b"e=no-resources",
            Status.TOO_LONG: b"e=other-error",
        }.items():
            self.assertEqual(server_error_message(status), message)

    def test_threads(self) -> None:
        record = Record.make(SHA_256, "pencil")
        keys = Keys.make(SHA_256, "pencil", record.salt, 4096)
        done: list[str] = []

        def some() -> None:
            for number in range(50):
                server = Server()
                login(Client(SHA_256, f"user {number}", keys=keys), server, record)
                done.append(server.authenticated_user())

        threads = [threading.Thread(target=some) for _ in range(4)]
        for thread in threads:
            thread.start()
        for thread in threads:
            thread.join()
        self.assertEqual(sorted(done), sorted([f"user {number}" for number in range(50)] * 4))


def prepared_apart(typed: str) -> str:
    """What SASLprep prepares an accepted text to (RFC 4013, sections 2.1 and 2.2)."""
    spaced = "".join(" " if stringprep.in_table_c12(c) else c for c in typed)
    kept = "".join(c for c in spaced if not stringprep.in_table_b1(c))
    return unicodedata.ucd_3_2_0.normalize("NFKC", kept)


class Prepared(Case):
    TYPED = ["pe\u0301nci\u00adl", "\u00aa\u2168", "\u1100\u1161\u00a0\uff21", "\u0627\u0628", "\U0001d400", "pencil"]

    def test_texts(self) -> None:
        for typed in self.TYPED:
            self.assertEqual(fe2o3_sasl.saslprep(typed), prepared_apart(typed))
            self.assertEqual(fe2o3_sasl.saslprep(typed.encode(), unassigned=True), prepared_apart(typed))
        # RFC 4013, section 3
        rows = {"I\u00adX": "IX", "user": "user", "USER": "USER", "\u00aa": "a", "\u2168": "IX"}
        for typed, prepared in rows.items():
            self.assertEqual(fe2o3_sasl.saslprep(typed), prepared)
        self.refused(Status.PROHIBITED_CHARACTER, fe2o3_sasl.saslprep, "\u0007")
        self.refused(Status.MIXED_DIRECTIONS, fe2o3_sasl.saslprep, "\u0627\u0031")
        self.refused(Status.UNASSIGNED_CODE_POINT, fe2o3_sasl.saslprep, "\u0221")
        self.assertEqual(fe2o3_sasl.saslprep("\u0221", unassigned=True), "\u0221")
        self.refused(Status.NOT_UTF8, fe2o3_sasl.saslprep, b"\xff")
        status = LIBRARY.fe2o3_saslprep(b"a", 1, 2, ctypes.create_string_buffer(1), 1, ctypes.byref(ctypes.c_size_t()))
        self.assertEqual(status, Status.NO_SUCH_CHOICE)

    def test_logins(self) -> None:
        for version in VERSIONS:
            for typed in self.TYPED:
                with self.subTest(version=version, typed=typed):
                    password = fe2o3_sasl.saslprep(typed)
                    known = Secret(version, prepared_apart(typed), SALT, 4096)
                    record = Record.make(version, password, prepared=True, salt=SALT)
                    other = Record.make(version, password, prepared=True, salt=OTHER_SALT)
                    self.assertEqual(record.text(), known.record_text())
                    self.assertTrue(record.verify(password, prepared=True))
                    self.assertEqual(record.verify(typed, prepared=True), typed == password)
                    self.assertEqual(record.verify(password), password.isascii())
                    client, server = Client(version, "user", password=password, prepared=True), Server()
                    login(client, server, record)
                    self.assertEqual(server.authenticated_user(), "user")
                    keys, made = client.keys(), Keys.make(version, password, SALT, 4096, prepared=True)
                    self.assertEqual((keys.client_key, keys.server_key), (known.client_key, known.server_key))
                    self.assertEqual(bytes(keys._struct), bytes(made._struct))
                    both = Client(version, "user", keys=keys, password=password, prepared=True)
                    login(both, Server(), record)
                    login(both, Server(), other)
                    self.assertEqual(both.keys().salt, OTHER_SALT)
                    side = ClientConnection(Client(version, "user", password=password, prepared=True))
                    connected(side, Broker(known, MECHANISMS[version]), 4096)
                    self.assertEqual(side.progress, Progress.AUTHENTICATED)
                    side = ClientConnection(Client(version, "user", keys=keys, password=password, prepared=True))
                    connected(side, Broker(known, MECHANISMS[version]), 4096)
                    self.assertEqual(side.progress, Progress.AUTHENTICATED)
                    if not password.isascii():
                        plain = Client(version, "user", password)
                        self.refused(Status.CLIENT_NORMALIZE_ERROR, login, plain, Server(), record)
                        self.refused(Status.NOT_PRINTABLE, Record.make, version, password)
                        self.refused(Status.NOT_PRINTABLE, Keys.make, version, password, SALT, 4096)
        for make in (
            lambda *given: Record.make(*given, prepared=True),
            lambda *given: Keys.make(*given, SALT, 4096, prepared=True),
        ):
            self.refused(Status.NOT_UTF8, make, SHA_1, b"\xff")
        status = LIBRARY.fe2o3_scram_record_verify(record._struct, 2, b"a", 1)
        self.assertEqual(status, Status.NO_SUCH_CHOICE)


class Unbound(Case):
    def test_texts(self) -> None:
        client_nonce = os.urandom(32)
        for version in VERSIONS:
            known, record = Secret(version, "pencil", SALT, 4096), Record.make(version, "pencil", salt=SALT)
            server, bare = Server(), bare_of("user", client_nonce)
            self.refused(Status.SERVER_CANNOT_PARSE_GS2_HEADER, server.first, record, b"y,," + bare)
            self.assertEqual(Server.claimed_user(b"y,," + bare), "user")
            for header in (b"y,,", b"n,,"):
                server_first = server.first(record, header + bare, accept_cbind_flag_y=True)
                client_final, server_final = known.finals(bare, server_first, header)
                other_final, _ = known.finals(bare, server_first, b"n,," if header == b"y,," else b"y,,")
                self.refused(Status.SERVER_INVALID_CHANNEL_BINDING, server.final, other_final)
                self.assertEqual(server.final(client_final), server_final)
                self.assertEqual(server.authenticated_user(), "user")
            # (the argument is of one exchange)
            self.refused(Status.SERVER_CANNOT_PARSE_GS2_HEADER, server.first, record, b"y,," + bare)

    def test_sides(self) -> None:
        for version in VERSIONS:
            known = {"user": Record.make(version, "pencil", salt=SALT)}
            for header in (b"y,,", b"n,,"):
                scram = OFFERS[version]
                for mechanisms, flags in (
                    (scram, 0),
                    (scram, ServerFlag.ACCEPT_CBIND_FLAG_Y),
                    (scram | Offer.PLAIN, 64),
                ):
                    by = Login(version, "user", "pencil", header)
                    taken = header == b"n,," or flags != 0
                    connection = ServerConnection(of(known), mechanisms=mechanisms, flags=flags)
                    by.begin()
                    served(connection, by, 7)
                    self.assertEqual(connection.progress == Progress.AUTHENTICATED, taken)
                    if taken:
                        self.assertEqual(connection.authenticated_user(), "user")
                    self.assertEqual(by.logged_in, taken)


class Strict(Case):
    def test_attributes_in_the_place_of_extensions(self) -> None:
        for version, mechanism in MECHANISMS.items():
            known = of({"user": Record.make(version, "pencil", salt=SALT)})
            channel = Channel(ChannelKind.TLS_EXPORTER, bytes(32))
            for option, channels, extension, progress in (
                (0, None, b"i=4096", Progress.IN_PROGRESS),
                (ServerFlag.STRICT, None, b"i=4096", Progress.FAILED),
                (ServerFlag.STRICT, None, b"x=1", Progress.IN_PROGRESS),
                (ServerFlag.REJECT_MISPLACED, None, b"i=4096", Progress.FAILED),
                (ServerFlag.REJECT_MISPLACED, None, b"x=1", Progress.IN_PROGRESS),
                # A server with channels tests the extensions of SCRAM without -PLUS too.
                (0, [channel], b"i=4096", Progress.FAILED),
                (0, [channel], b"x=1", Progress.IN_PROGRESS),
            ):
                message = b"n,,n=user,r=nonce," + extension
                init = frame_of(INIT, short(0xA3, mechanism.encode()), short(0xA0, message))
                connection = ServerConnection(known, mechanisms=OFFERS[version], flags=option, channels=channels)
                connection.receive(SASL_HEADER + init)
                self.assertEqual(connection.progress, progress, (extension, option))
                if progress == Progress.FAILED:
                    assert connection.why is not None
                    self.assertEqual(connection.why.status, Status.REFUSED_AUTH)

    def test_grammar(self) -> None:
        record = Record.make(SHA_256, "pencil", salt=SALT)
        for strict in (False, True):
            client, server = Client(SHA_256, "user", "pencil", strict=strict), Server(strict=strict)
            client.first()
            nonce = client.first().split(b",r=")[1]
            for call, message, status in (
                (lambda said: server.first(record, said), b"n,,n=,r=nonce", Status.SERVER_CANNOT_PARSE_USERNAME),
                (lambda said: server.first(record, said), b"n,,n=user,r=", Status.SERVER_CANNOT_PARSE_CLIENT_NONCE),
                (client.final, b"r=" + nonce + b"x,s=BAQ=,i=04096", Status.CLIENT_ITERATION_COUNT_PARSE_ERROR),
            ):
                with self.subTest(strict=strict, message=message):
                    if strict:
                        self.refused(status, call, message)
                    else:
                        call(message)

    def test_an_empty_name(self) -> None:
        """A server that rejects misplaced attributes tests nothing else."""
        record = Record.make(SHA_256, "pencil", salt=SALT)
        server = Server(reject_misplaced=True)
        login(Client(SHA_256, "", "pencil"), server, record)
        self.assertEqual(server.authenticated_user(), "")
        self.refused(Status.SERVER_CANNOT_PARSE_USERNAME, Server(strict=True).first, record, b"n,,n=,r=nonce")

    def test_misplaced_and_nothing_more(self) -> None:
        record = Record.make(SHA_256, "pencil", salt=SALT)
        server = Server(reject_misplaced=True)
        for message in (b"n,,n=,r=nonce", b"n,,n=user,r=", b"n,,n=user,r=nonce,x=1"):
            server.first(record, message)
        for call in (server.claimed_user, lambda said: server.first(record, said)):
            self.refused(Status.SERVER_MISPLACED_ATTRIBUTE, call, b"n,,n=user,r=nonce,i=4096")

    def test_messages(self) -> None:
        channel = channel_of(ChannelKind.TLS_EXPORTER)
        # A strict client and server, and ones that only test the extensions.
        kinds: list[tuple[bool, dict[str, Any], dict[str, Any], bytes]] = [
            (False, {}, {}, b"n,,"),
            (True, {"strict": True}, {"strict": True}, b"n,,"),
            (
                True,
                {"channel": channel, "plus_offered": False},
                {"reject_misplaced": True, "accept_cbind_flag_y": True},
                b"y,,",
            ),
        ]
        for version in VERSIONS:
            known, record = Secret(version, "pencil", SALT, 4096), Record.make(version, "pencil", salt=SALT)
            for tests, of_client, of_server, header in kinds:
                for extension, is_attribute in EXTENSIONS.items():
                    rejected = tests and is_attribute
                    with self.subTest(version=version, header=header, tests=tests, extension=extension):
                        client, server = Client(version, "user", "pencil", **of_client), Server(**of_server)
                        client_first = client.first()
                        if rejected:
                            for call in (server.claimed_user, lambda said: server.first(record, said)):
                                self.refused(Status.SERVER_MISPLACED_ATTRIBUTE, call, client_first + extension)
                        else:
                            self.assertEqual(server.claimed_user(client_first + extension), "user")
                            server.first(record, client_first + extension)
                        server_first = server.first(record, client_first)
                        if rejected:
                            misplaced = Status.CLIENT_MISPLACED_ATTRIBUTE
                            self.refused(misplaced, client.final, server_first + extension)
                        else:
                            client.final(server_first + extension)
                            client.first()
                        client_final, server_final = known.finals(client_first[3:], server_first, header, extension)
                        if rejected:
                            self.refused(Status.SERVER_MISPLACED_ATTRIBUTE, server.final, client_final)
                        else:
                            self.assertEqual(server.final(client_final), server_final)


if __name__ == "__main__":
    unittest.main()
