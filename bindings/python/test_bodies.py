"""Logins of callers that have the bodies of frames, and pass each with its size."""

from __future__ import annotations

import ctypes
import os
import unittest
from typing import Any

import fe2o3_sasl
from cases import (
    ALL_OTHERS,
    NAMES,
    OFFERS,
    PASSWORDS,
    SALT,
    Case,
    ClientBodies,
    ServerBodies,
    bodies_served,
    nobody,
    nonces,
    of,
    sized,
)
from fe2o3_sasl import _structs
from fe2o3_sasl import SHA_256, Client, Offer, Progress, Record, Rejection, ServerFlag, Status
from peers import (
    CHALLENGE,
    INIT,
    MECHANISMS,
    OUTCOME,
    RESPONSE,
    SASL_HEADER,
    VERSIONS,
    Broker,
    Login,
    Other,
    Plain,
    Secret,
    bare_of,
    fields_of,
    frame_of,
    mechanisms_frame,
    short,
)


def body_of(code: int, *fields: bytes) -> bytes:
    return frame_of(code, *fields)[4:]


class Bodies(Case):
    def closed(self, side: Any, status: int) -> None:
        self.assertEqual(side.progress, Progress.FAILED)
        assert side.why is not None
        self.assertEqual((side.why.status, bool(side.why.text)), (status, True))

    def fails(self, side: Any, body: bytes, status: int) -> None:
        """A side that fails at a body sends nothing."""
        self.assertEqual(side.on_frame(body), b"")
        self.closed(side, status)

    def test_each_body_of_each_hash(self) -> None:
        drawn = [os.urandom(32) for _ in range(5)]
        for version, mechanism in MECHANISMS.items():
            for number, name in enumerate(NAMES[:-1]):
                password = PASSWORDS[number % len(PASSWORDS)]
                record = Record.make(version, password, salt=SALT)
                client = ClientBodies(Client(version, name, password), hostname="broker.example")
                server = ServerBodies(of({name: record}), mechanisms=OFFERS[version])
                offer = server.offer()
                client.receive(SASL_HEADER)
                with self.subTest(version=version, name=name), nonces(*drawn):
                    known = Secret(version, password, SALT, 4096)
                    bare = bare_of(name, drawn[0])
                    server_first = known.server_first(drawn[0], drawn[1])
                    client_final, server_final = known.finals(bare, server_first)
                    self.assertEqual(offer, mechanisms_frame(mechanism)[4:])
                    init = client.on_frame(offer)
                    fields = short(0xA3, mechanism.encode()), short(0xA0, b"n,," + bare), short(0xA1, b"broker.example")
                    self.assertEqual(init, body_of(INIT, *fields))
                    challenge = server.on_frame(init)
                    self.assertEqual(challenge, body_of(CHALLENGE, short(0xA0, server_first)))
                    response = client.on_frame(challenge)
                    self.assertEqual(response, body_of(RESPONSE, short(0xA0, client_final)))
                    self.assertEqual((client.progress, server.progress), (Progress.IN_PROGRESS, Progress.IN_PROGRESS))
                    self.refused(Status.SERVER_ILLEGAL_AUTHENTICATOR_STATE, server.authenticated_user)
                    outcome = server.on_frame(response)
                    self.assertEqual(outcome, body_of(OUTCOME, b"\x50\0", short(0xA0, server_final)))
                    self.assertEqual(client.on_frame(outcome), b"")
                    self.assertEqual((client.progress, client.why), (Progress.AUTHENTICATED, None))
                    self.assertEqual((server.progress, server.why), (Progress.AUTHENTICATED, None))
                    self.assertEqual(server.authenticated_user(), name)
                    self.assertEqual(client.keys().client_key, known.client_key)

    def test_a_signature_in_a_challenge(self) -> None:
        done, empty = body_of(OUTCOME, b"\x50\0"), body_of(RESPONSE, short(0xA0, b""))
        for version, mechanism in MECHANISMS.items():
            broker = Broker(Secret(version, "pencil", SALT, 4096), mechanism)

            def signed(accept: bool) -> tuple[ClientBodies, bytes]:
                """A client that has sent its client-final message, and the signature in a challenge."""
                side = ClientBodies(Client(version, "user", "pencil", signature_by_challenge=accept))
                init = side.on_frame(mechanisms_frame(mechanism)[4:])
                response = side.on_frame(broker.frame(*fields_of(sized(init)))[4:])
                outcome = broker.frame(*fields_of(sized(response)))
                return side, body_of(CHALLENGE, short(0xA0, fields_of(outcome)[1][-1] or b""))

            side, final = signed(True)
            self.assertEqual((side.on_frame(final), side.progress), (empty, Progress.IN_PROGRESS))
            self.refused(Status.CLIENT_ILLEGAL_CLIENT_STATE, side.keys)
            self.assertEqual((side.on_frame(done), side.progress), (b"", Progress.AUTHENTICATED))
            self.assertEqual(side.keys().client_key, broker.secret.client_key)
            # An outcome without the signature before it, and a challenge that is not expected.
            for accept in (True, False):
                self.fails(signed(accept)[0], done, Status.CLIENT_SERVER_SIGNATURE_MISMATCH)
            self.fails(*signed(False), Status.UNEXPECTED_FRAME)

    def test_a_server_that_sends_its_signature_in_a_challenge(self) -> None:
        for version in VERSIONS:
            known = of({"user": Record.make(version, "pencil", salt=SALT)})
            signs = ServerFlag.SIGNATURE_BY_CHALLENGE
            for accept in (True, False):
                client = ClientBodies(Client(version, "user", "pencil", signature_by_challenge=accept))
                side = ServerBodies(known, mechanisms=OFFERS[version], flags=signs)
                challenge = side.on_frame(client.on_frame(side.offer()))
                signed = side.on_frame(client.on_frame(challenge))
                self.assertEqual((signed[6], side.progress), (CHALLENGE, Progress.IN_PROGRESS))
                self.assertEqual(side._struct.scram.state, 4)
                self.refused(Status.SERVER_ILLEGAL_AUTHENTICATOR_STATE, side.authenticated_user)
                if not accept:
                    self.fails(client, signed, Status.UNEXPECTED_FRAME)
                    outcome = side.on_frame(body_of(RESPONSE, short(0xA0, b"v")))
                    self.assertEqual((outcome, side.progress), (body_of(OUTCOME, b"\x50\1"), Progress.FAILED))
                    continue
                done = side.on_frame(client.on_frame(signed))
                self.assertEqual((done, side.progress), (body_of(OUTCOME, b"\x50\0"), Progress.AUTHENTICATED))
                self.assertEqual((client.on_frame(done), client.progress), (b"", Progress.AUTHENTICATED))
                self.assertEqual(side.authenticated_user(), "user")

    def test_clients_that_withhold_their_initial_response(self) -> None:
        for version in VERSIONS:
            known = of({name: Record.make(version, "pencil", salt=SALT) for name in NAMES[1:-1]})
            offer, asks = OFFERS[version] | Offer.PLAIN, ServerFlag.INITIAL_RESPONSE_BY_CHALLENGE
            for name, password, signs in (
                (name, password, signs)
                for name in NAMES[:-1]
                for password in ("pencil", "pencils")
                for signs in (0, ServerFlag.SIGNATURE_BY_CHALLENGE)
            ):
                for by in (Login(version, name, password), Plain(name, password)):
                    side = ServerBodies(known, mechanisms=offer, flags=asks | signs)
                    bodies_served(side, by, late=True)
                    # (PLAIN has no empty name, and "user" has no record)
                    logged_in = password == "pencil" and name in NAMES[1:] and (name != "" or isinstance(by, Login))
                    self.assertEqual((side.progress == Progress.AUTHENTICATED, by.logged_in), (logged_in, logged_in))
                    if logged_in:
                        self.assertEqual(side.authenticated_user(), name)
                    else:
                        self.closed(side, Status.REFUSED_AUTH)
        # Inits of ANONYMOUS and EXTERNAL may go without a message, and are not asked for one.
        for by in (Other("ANONYMOUS"), Other("EXTERNAL")):
            asks = ServerFlag.INITIAL_RESPONSE_BY_CHALLENGE
            side = ServerBodies(nobody, mechanisms=ALL_OTHERS, flags=asks, external_authcid="peer")
            bodies_served(side, by)
            self.assertEqual((side.progress, by.logged_in), (Progress.AUTHENTICATED, True))

    def test_refusals_of_a_client(self) -> None:
        def scram() -> ClientBodies:
            return ClientBodies(Client(SHA_256, "user", "pencil"))

        challenge, asked = body_of(CHALLENGE, short(0xA0, b"r=x,s=AAAA,i=4096")), body_of(CHALLENGE, short(0xA0, b""))
        for body, status in (
            (challenge, Status.UNEXPECTED_FRAME),
            (body_of(OUTCOME, b"\x50\0"), Status.UNEXPECTED_FRAME),
            (body_of(RESPONSE, short(0xA0, b"")), Status.UNEXPECTED_FRAME),
            (b"\2\1\0\0", Status.MALFORMED_FRAME),
            (b"\2\0" + challenge[2:], Status.NO_SASL_FRAME),
        ):
            side = scram()
            self.fails(side, body, status)
            self.assertEqual(bytes(side._struct.scram), bytes(ctypes.sizeof(side._struct.scram)))
        side = scram()
        side.on_frame(mechanisms_frame(MECHANISMS[SHA_256])[4:])
        self.fails(side, challenge, Status.CLIENT_CLIENT_NONCE_MISMATCH)
        for body, status in ((challenge, Status.NOT_IMPLEMENTED), (asked, None)):
            side = ClientBodies.external_as("peer")
            side.on_frame(mechanisms_frame("EXTERNAL")[4:])
            if status is not None:
                self.fails(side, body, status)
            else:
                self.assertEqual(side.on_frame(asked), body_of(RESPONSE, short(0xA0, b"peer")))
                self.fails(side, asked, Status.UNEXPECTED_FRAME)

    def test_servers(self) -> None:
        for version in VERSIONS:
            for name in NAMES[:-1]:
                record = Record.make(version, "pencil", salt=SALT)
                for password, progress in (("pencil", Progress.AUTHENTICATED), ("pencils", Progress.FAILED)):
                    for by in (Login(version, name, password), Plain(name, password)):
                        if name == "" and isinstance(by, Plain):
                            continue  # (PLAIN has no empty name)
                        side = ServerBodies(of({name: record}), mechanisms=OFFERS[version] | Offer.PLAIN)
                        bodies_served(side, by)
                        self.assertEqual((side.progress, by.logged_in), (progress, progress == Progress.AUTHENTICATED))
                        if progress == Progress.AUTHENTICATED:
                            self.assertEqual(side.authenticated_user(), name)
                        else:
                            self.closed(side, Status.REFUSED_AUTH)
                            self.refused(Status.SERVER_ILLEGAL_AUTHENTICATOR_STATE, side.authenticated_user)
                            reason = Rejection.WRONG_PROOF if isinstance(by, Login) else Rejection.WRONG_PASSWORD
                            ended = _structs._ScramServerStruct(rejection=reason)
                            self.assertEqual(bytes(side._struct.scram), bytes(ended))

    def test_whom_a_server_asks_for(self) -> None:
        for known in (True, False):
            asked: list[str] = []

            def records_of(name: str) -> list[Record]:
                asked.append(name)
                return [record if known else Record.mock(SHA_256, bytes(32), name)]

            record = Record.make(SHA_256, "pencil")
            side, by = ServerBodies(records_of), Login(SHA_256, "a=b,c", "pencil")
            bodies_served(side, by)
            self.assertEqual((asked, by.logged_in), (["a=b,c", "a=b,c"], known))
            self.assertEqual(by.code, 0 if known else 1)
            asked.clear()
            side = ServerBodies(records_of, mechanisms=Offer.ANONYMOUS)
            bodies_served(side, Other("ANONYMOUS"))
            self.assertEqual((asked, side.progress), ([], Progress.AUTHENTICATED))

    def test_external_without_a_peer(self) -> None:
        for peer in (None, "", b""):
            side = ServerBodies(nobody, mechanisms=Offer.SCRAM_SHA_256 | ALL_OTHERS, external_authcid=peer)
            self.assertEqual(side.offer(), mechanisms_frame(MECHANISMS[SHA_256], "PLAIN", "ANONYMOUS")[4:])
            side = ServerBodies(nobody, mechanisms=Offer.SCRAM_SHA_256 | ALL_OTHERS, external_authcid=peer)
            bodies_served(side, Other("EXTERNAL"), ask=True)
            self.closed(side, Status.REFUSED_AUTH)
            alone = ServerBodies(nobody, mechanisms=Offer.EXTERNAL, external_authcid=peer)
            self.refused(Status.NO_SUCH_MECHANISM, alone.offer)

    def test_servers_of_other_mechanisms(self) -> None:
        def server(mechanisms: int) -> ServerBodies:
            return ServerBodies(nobody, mechanisms=mechanisms, external_authcid="peer")

        all_of_them = mechanisms_frame(MECHANISMS[SHA_256], "PLAIN", "ANONYMOUS", "EXTERNAL")
        self.assertEqual(server(Offer.SCRAM_SHA_256 | ALL_OTHERS).offer(), all_of_them[4:])
        for by, mechanisms, name in (
            (Other("ANONYMOUS"), Offer.ANONYMOUS, None),
            (Other("EXTERNAL"), Offer.EXTERNAL | Offer.PLAIN, "peer"),
            (Other("EXTERNAL", b"peer"), Offer.EXTERNAL | Offer.SCRAM_SHA_256, "peer"),
        ):
            side = server(mechanisms)
            bodies_served(side, by)
            self.assertEqual(
                (side.progress, side.authenticated_user(), by.logged_in), (Progress.AUTHENTICATED, name, True)
            )
        for by, mechanisms in ((Other("EXTERNAL", b"other"), Offer.EXTERNAL), (Other("ANONYMOUS"), Offer.EXTERNAL)):
            side = server(mechanisms)
            bodies_served(side, by, ask=True)
            self.closed(side, Status.REFUSED_AUTH)
        for offered in (0, 64, 128, 512, 4096, Offer.PLAIN | 8192):
            self.refused(Status.NO_SUCH_MECHANISM, server, offered)
            side = server(Offer.PLAIN)
            side._mechanisms = int(offered)
            self.refused(Status.NO_SUCH_MECHANISM, side.offer)

    def test_refusals_of_a_server(self) -> None:
        for body, status in (
            (mechanisms_frame("PLAIN")[4:], Status.UNEXPECTED_FRAME),
            (body_of(CHALLENGE, short(0xA0, b"")), Status.UNEXPECTED_FRAME),
            (body_of(RESPONSE, short(0xA0, b"c=biws")), Status.UNEXPECTED_FRAME),
            (body_of(OUTCOME, b"\x50\0"), Status.UNEXPECTED_FRAME),
            (b"\2\1\0\0", Status.MALFORMED_FRAME),
        ):
            side = ServerBodies(nobody)
            self.fails(side, body, status)
            self.assertEqual(bytes(side._struct.scram), bytes(ctypes.sizeof(side._struct.scram)))
            self.assertIsNone(side.rejection)


if __name__ == "__main__":
    unittest.main()
