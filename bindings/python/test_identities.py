"""Authorization identities over messages and connections."""

from __future__ import annotations

import os
import shutil
import unittest
from typing import Callable

from cases import ALL_OTHERS, OFFERS, SALT, Case, login, nonces, of
from fe2o3_sasl import (
    SHA_256,
    AuthenticationFailed,
    Channel,
    ChannelKind,
    Client,
    ClientConnection,
    Progress,
    Record,
    Server,
    ServerConnection,
    Status,
)
from peers import VERSIONS, Secret, bare_of


@unittest.skipUnless(shutil.which("openssl"), "it makes the certificates")
class Identities(Case):
    """Clients that act for an identity (RFC 4422, section 2), over messages and on connections."""

    def test_each_message(self) -> None:
        client_nonce, server_nonce, data = os.urandom(32), os.urandom(32), os.urandom(32)
        channel = Channel(ChannelKind.TLS_EXPORTER, data)
        for version in VERSIONS:
            known, record = Secret(version, "pencil", SALT, 4096), Record.make(version, "pencil", salt=SALT)
            for identity, escaped in (
                ("bob", b"bob"),
                ("user", b"user"),
                ("a,b=c", b"a=2Cb=3Dc"),
                ("J\u00f6rg", "J\u00f6rg".encode()),
                ("," * 256, b"=2C" * 256),
            ):
                for flag, bound, options, rules in (
                    (b"n", b"", {}, {}),
                    (b"y", b"", {"channel": channel, "plus_offered": False}, {"accept_cbind_flag_y": True}),
                    (b"p=tls-exporter", data, {"channel": channel}, {"channels": [channel]}),
                ):
                    with self.subTest(version=version, identity=identity, flag=flag):
                        client = Client(version, "user", "pencil", acts_for=identity, **options)
                        server = Server(accept_authzid=True, **rules)
                        with nonces(client_nonce, server_nonce):
                            client_first = client.first()
                            server_first = server.first(record, client_first)
                        header, bare = flag + b",a=" + escaped + b",", bare_of("user", client_nonce)
                        self.assertEqual(client_first, header + bare)
                        self.assertEqual(server.claimed_user(client_first), "user")
                        client_final = client.final(server_first)
                        if identity != "user":
                            self.refused(Status.SERVER_AUTHENTICATION_FAILED, server.final, client_final)
                        server_final = server.final(client_final, identities=["other", identity])
                        wanted = known.finals(bare, server_first, header + bound)
                        self.assertEqual((client_final, server_final), wanted)
                        client.verify(server_final)
                        self.assertEqual((server.authenticated_user(), server.acts_for()), ("user", identity))

    def test_rights(self) -> None:
        record = Record.make(SHA_256, "pencil", salt=SALT)
        for identity, identities, is_allowed in (
            ("bob", ["bob"], True),
            ("bob", ["carol", "bob"], True),
            ("user", [], True),
            ("bob", [], False),
            ("bob", ["carol", "Bob", "bobby", "bo"], False),
        ):
            with self.subTest(identity=identity, identities=identities):
                client, server = Client(SHA_256, "user", "pencil", acts_for=identity), Server(accept_authzid=True)
                client_final = client.final(server.first(record, client.first()))
                if is_allowed:
                    client.verify(server.final(client_final, identities=identities))
                    self.assertEqual(server.acts_for(), identity)
                else:
                    with self.assertRaises(AuthenticationFailed):
                        server.final(client_final, identities=identities)
                    self.refused(Status.SERVER_ILLEGAL_AUTHENTICATOR_STATE, server.acts_for)
        other = Client(SHA_256, "user", "pencils", acts_for="bob")
        server = Server(accept_authzid=True)
        client_final = other.final(server.first(record, other.first()))
        with self.assertRaises(AuthenticationFailed):
            server.final(client_final, identities=["bob"])
        first = Client(SHA_256, "user", "pencil", acts_for="bob").first()
        self.refused(Status.SERVER_CANNOT_PARSE_GS2_HEADER, Server().first, record, first)

    def test_an_empty_identity_is_none(self) -> None:
        record = Record.make(SHA_256, "pencil", salt=SALT)
        for identity in (None, ""):
            client, server = Client(SHA_256, "user", "pencil", acts_for=identity), Server()
            self.assertTrue(client.first().startswith(b"n,,n=user,"))
            login(client, server, record)
            self.assertIsNone(server.acts_for())

    def test_identities_that_no_client_can_send(self) -> None:
        for identity, status in (
            ("x" * 257, Status.TOO_LONG),
            ("\u00f6" * 129, Status.TOO_LONG),
            ("bo\0b", Status.PROHIBITED_CHARACTER),
            (b"\xff", Status.NOT_UTF8),
        ):
            with self.subTest(identity=identity):
                self.refused(status, lambda: Client(SHA_256, "user", "pencil", acts_for=identity))
                for mechanism in ("SCRAM-SHA-256", "PLAIN", "EXTERNAL"):
                    self.refused(
                        status, lambda: ClientConnection.select("user", "pencil", [mechanism], acts_for=identity)
                    )

    def test_a_client_that_names_an_identity_is_strict(self) -> None:
        record = Record.make(SHA_256, "pencil", salt=SALT)
        for identity in (None, "bob"):
            client = Client(SHA_256, "user", "pencil", acts_for=identity)
            server_first = Server(accept_authzid=True).first(record, client.first()) + b",s=AAAA"
            if identity is None:
                client.final(server_first)
            else:
                self.refused(Status.CLIENT_MISPLACED_ATTRIBUTE, client.final, server_first)

    def test_connections(self) -> None:
        record, asked = Record.make(SHA_256, "pencil", salt=SALT), []

        def allowing(*identities: str) -> Callable[[str], list[str]]:
            def identities_of(name: str) -> list[str]:
                asked.append(name)
                return list(identities)

            return identities_of

        channel = Channel(ChannelKind.TLS_EXPORTER, os.urandom(32))
        for password, identity, identities_of, channels, is_allowed in (
            ("pencil", "bob", allowing("bob"), None, True),
            ("pencil", "bob", allowing("carol", "bob"), channel, True),
            ("pencil", "user", allowing(), None, True),
            ("pencil", None, allowing("bob"), None, True),
            ("pencil", "bob", allowing("carol"), None, False),
            ("pencil", "bob", None, None, False),
            ("pencils", "bob", allowing("bob"), None, False),
        ):
            with self.subTest(identity=identity, is_allowed=is_allowed):
                options = {"channels": channels and [channels], "identities_of": identities_of}
                server = ServerConnection(of({"user": record}), mechanisms=OFFERS[SHA_256], **options)
                client = ClientConnection(Client(SHA_256, "user", password, acts_for=identity, channel=channels))
                to_server = client.open()
                while to_server:
                    to_server = client.receive(server.receive(to_server)[0])[0]
                wanted = Progress.AUTHENTICATED if is_allowed else Progress.FAILED
                self.assertEqual((client.progress, server.progress), (wanted, wanted))
                if is_allowed:
                    self.assertEqual((server.authenticated_user(), server.acts_for()), ("user", identity))
                else:
                    self.refused(Status.SERVER_ILLEGAL_AUTHENTICATOR_STATE, server.acts_for)
        self.assertEqual(set(asked), {"user"})

    def test_connections_by_other_mechanisms(self) -> None:
        record = Record.make(SHA_256, "pencil", salt=SALT)
        offer = OFFERS[SHA_256] | ALL_OTHERS
        mechanisms = ["SCRAM-SHA-256", "PLAIN", "EXTERNAL"]
        plain, select = ClientConnection.plain, ClientConnection.select
        for client, identities, acts_for, is_allowed in (
            (plain("user", "pencil", acts_for="bob"), ["bob"], "bob", True),
            (plain("user", "pencil", acts_for="user"), [], "user", True),
            (plain("user", "pencil", acts_for=""), ["bob"], None, True),
            (plain("user", "pencil", acts_for="bob"), ["carol"], None, False),
            (plain("user", "pencil", acts_for="bob"), None, None, False),
            (plain("user", "pencils", acts_for="bob"), ["bob"], None, False),
            (select("user", "pencil", mechanisms, acts_for="bob"), ["bob"], "bob", True),
            (select("user", "pencil", mechanisms[1:], acts_for="bob"), ["bob"], "bob", True),
            (select("user", "pencil", mechanisms[1:], acts_for="bob"), ["carol"], None, False),
            (select("user", "pencil", mechanisms[2:], acts_for="bob"), ["bob"], None, False),
            (select("user", "pencil", mechanisms[2:], acts_for="peer"), ["bob"], None, True),
        ):
            with self.subTest(mechanism=client.mechanism(), identities=identities, acts_for=acts_for):
                identities_of = None if identities is None else lambda name: identities
                options = {"external_authcid": "peer", "identities_of": identities_of}
                server = ServerConnection(of({"user": record}), mechanisms=offer, **options)
                to_server = client.open()
                while to_server:
                    to_server = client.receive(server.receive(to_server)[0])[0]
                wanted = Progress.AUTHENTICATED if is_allowed else Progress.FAILED
                self.assertEqual((client.progress, server.progress), (wanted, wanted))
                if is_allowed:
                    self.assertEqual(server.acts_for(), acts_for)
        with self.assertRaises(ValueError):
            select("user", "pencil", [*mechanisms, "ANONYMOUS"], acts_for="bob")
        select("user", "pencil", [*mechanisms, "ANONYMOUS"], acts_for="")
        for words, status in (
            (("user", "", "bob"), Status.EMPTY_PASSWORD),
            (("", "pencil", "bob"), Status.NAMES_NO_USER),
            (("user", "pencil", "bo\0b"), Status.PROHIBITED_CHARACTER),
            (("user", "pencil", "x" * 257), Status.TOO_LONG),
        ):
            self.refused(status, lambda: plain(*words[:2], acts_for=words[2]))


if __name__ == "__main__":
    unittest.main()
