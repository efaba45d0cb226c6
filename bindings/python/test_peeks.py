"""What a side says between two calls, and how a client selects its mechanism."""

from __future__ import annotations

import os
import random
import unittest
from unittest import mock

from cases import SALT, Case, connected, nobody, of
from fe2o3_sasl import (
    SHA_1,
    SHA_256,
    Client,
    ClientConnection,
    Offer,
    Progress,
    Record,
    ServerConnection,
    ServerFlag,
    Status,
)
from peers import (
    INIT,
    MECHANISMS,
    NULL,
    OUTCOME,
    RESPONSE,
    SASL_HEADER,
    Broker,
    Secret,
    base64_of,
    fields_of,
    frame_of,
    framed,
    mechanisms_frame,
    short,
)


def few(version: int, password: str = "pencil") -> Secret:
    """The keys of a server with one iteration."""
    return Secret(version, password, SALT, 1)


class Peeks(Case):
    """What a connection says before and after its calls: its end, a foreign header, the next frame, its nonce."""

    def test_the_other_side_ends(self) -> None:
        for side in (ClientConnection.anonymous(), ServerConnection(nobody)):
            for data in (b"", SASL_HEADER[:5]):
                side.receive(data)
                self.assertEqual(side.progress, Progress.IN_PROGRESS)
            for _ in range(2):
                side.end_of_input()
                assert side.why is not None
                self.assertEqual((side.progress, side.why.status), (Progress.FAILED, Status.END_OF_INPUT))
                self.assertEqual((side.receive(SASL_HEADER), side.foreign_header()), ((b"", SASL_HEADER), None))
        one = ClientConnection.anonymous()
        connected(one, Broker(few(SHA_256), "ANONYMOUS"), 4096)
        one.end_of_input()
        self.assertEqual((one.progress, one.why), (Progress.AUTHENTICATED, None))
        one = ClientConnection.anonymous()
        one.receive(SASL_HEADER + b"\0\0\0\7")
        one.end_of_input()
        assert one.why is not None
        self.assertEqual(one.why.status, Status.FRAME_SIZE)

    def test_a_foreign_header(self) -> None:
        for header in (b"AMQP\0\1\0\0", b"AMQP\2\1\0\0", b"GET / HT", bytes(8)):
            for piece in (1, 3, 8):
                for side, answer in ((ClientConnection.anonymous(), b""), (ServerConnection(nobody), SASL_HEADER)):
                    sent = b""
                    for at in range(0, 8, piece):
                        self.assertIsNone(side.foreign_header())
                        sent += side.receive(header[at : at + piece])[0]
                    assert side.why is not None
                    self.assertEqual(side.why.status, Status.PROTOCOL_HEADER_MISMATCH)
                    self.assertEqual((side.foreign_header(), sent), (header, answer))
        side = ClientConnection.anonymous()
        side.receive(SASL_HEADER + b"\0\0\2\1")
        self.assertEqual((side.progress, side.foreign_header()), (Progress.FAILED, None))

    def test_what_wants_a_nonce(self) -> None:
        known, drawn = of({"user": Record.make(SHA_256, "pencil", salt=SALT, iterations=1)}), []

        def draw(size: int) -> bytes:
            drawn.append(size)
            return os.urandom(size)

        with mock.patch("secrets.token_bytes", side_effect=draw):
            client = ClientConnection(Client(SHA_256, "user", "pencil", min_iterations=1))
            server = ServerConnection(known, mechanisms=Offer.SCRAM_SHA_256)
            wanted, to_server = [], client.open()
            while to_server:
                wanted.append(server.wants_nonce())
                to_client, _ = server.receive(to_server)
                wanted.append(client.wants_nonce())
                to_server, _ = client.receive(to_client)
            self.assertEqual((client.progress, server.progress), (Progress.AUTHENTICATED, Progress.AUTHENTICATED))
        # (the client has its header and the list at once, of which only the list uses the nonce)
        self.assertEqual(wanted, [False, False, True, False, False, False])
        # Each call of the library has its own nonce: three of the server, four of the client.
        self.assertEqual(drawn, [32] * 7)

    def test_the_nonce_of_an_asked_initial_response(self) -> None:
        known, challenges = of({"user": Record.make(SHA_256, "pencil", salt=SALT, iterations=1)}), set()
        asks = ServerFlag.INITIAL_RESPONSE_BY_CHALLENGE
        for _ in range(2):
            side = ServerConnection(known, mechanisms=Offer.SCRAM_SHA_256, flags=asks)
            init, first = frame_of(INIT, short(0xA3, b"SCRAM-SHA-256"), NULL), b"n,,n=user,r=nonce"
            side.receive(SASL_HEADER + init)
            challenge, _ = side.receive(frame_of(RESPONSE, short(0xA0, first)))
            challenges.add(bytes(fields_of(challenge)[1][0] or b"").split(b",")[0])
        self.assertEqual(len(challenges), 2)
        self.assertNotIn(b"r=nonce" + base64_of(bytes(32)), challenges)

    def test_a_frame_is_peeked(self) -> None:
        offer = mechanisms_frame("PLAIN", "ANONYMOUS")
        side = ClientConnection.anonymous()
        self.assertIsNone(side.peek_frame(SASL_HEADER + offer))
        side.receive(SASL_HEADER + offer[:3])
        for part in (b"", offer[3:9], offer[3:-1]):
            self.assertIsNone(side.peek_frame(part))
        for _ in range(2):
            frame = side.peek_frame(bytearray(offer[3:] + b"more"))
            assert frame is not None
            self.assertEqual((frame.kind, frame.count), (0x40, 2))
        self.assertEqual(fields_of(side.receive(offer[3:])[0]), (INIT, [b"ANONYMOUS"]))
        outcome = frame_of(OUTCOME, b"\x50\1", short(0xA0, b"why"))
        frame = side.peek_frame(outcome)
        assert frame is not None
        self.assertEqual((frame.kind, frame.code, frame.message), (0x44, 1, b"why"))
        self.refused(Status.MALFORMED_FRAME, side.peek_frame, framed(b"\0\x53\x44"))
        side.receive(outcome)
        self.refused(Status.ENDED, side.peek_frame, outcome)

        server = ServerConnection(nobody, mechanisms=Offer.PLAIN, iterations=1)
        server.receive(SASL_HEADER)
        init = frame_of(INIT, short(0xA3, b"PLAIN"), short(0xA0, b"\0user\0pencil"), short(0xA1, b"host"))
        frame = server.peek_frame(init)
        assert frame is not None
        self.assertEqual((frame.mechanism, frame.message, frame.hostname), ("PLAIN", b"\0user\0pencil", "host"))
        self.assertEqual(fields_of(server.receive(init)[0])[0], OUTCOME)

    def test_the_data_of_a_refusal(self) -> None:
        offer = SASL_HEADER + mechanisms_frame("ANONYMOUS", MECHANISMS[SHA_256])
        for code in (1, 2, 3, 4):
            for data in (None, b"", b"why", bytes(range(100))):
                outcome = frame_of(OUTCOME, bytes([0x50, code]), *([] if data is None else [short(0xA0, data)]))
                for client in (None, Client(SHA_256, "user", "pencil")):
                    side = ClientConnection.anonymous() if client is None else ClientConnection(client)
                    side.receive(offer)
                    for at in range(len(outcome)):
                        self.assertIsNone(side.refusal_data)
                        side.receive(outcome[at : at + 1])
                    assert side.why is not None
                    self.assertEqual(side.why.status, Status.REFUSED_AUTH + code - 1)
                    self.assertEqual(side.refusal_data, data)
        side = ClientConnection.anonymous()
        side.receive(offer)
        side.receive(frame_of(OUTCOME, b"\x50\0", short(0xA0, b"data")))
        self.assertEqual((side.progress, side.refusal_data), (Progress.AUTHENTICATED, None))

    def test_what_an_init_claims(self) -> None:
        known = of({"user": Record.make(SHA_256, "pencil", salt=SALT, iterations=1)})
        first, plain = b"n,,n=us=2Cer,r=nonce", b"\0user\0pencils"
        for name, response, host, claimed in (
            (b"SCRAM-SHA-256", first, b"host", "us,er"),
            (b"SCRAM-SHA-256", b"n,,r=nonce", b"host", None),
            (b"SCRAM-SHA-256-PLUS", b"p=tls-exporter,,n=us=2Cer,r=nonce", b"host", "us,er"),
            (b"SCRAM-SHA-256-PLUS", first, b"host", None),
            (b"PLAIN", plain, None, "user"),
            (b"ANONYMOUS", b"trace", b"", None),
            (b"OTHER", None, b"host", None),
        ):
            values = [short(0xA3, name), NULL if response is None else short(0xA0, response)]
            init = frame_of(INIT, *values, *([] if host is None else [short(0xA1, host)]))
            wanted = (name.decode(), claimed, None if host is None else host.decode())
            side = ServerConnection(known, mechanisms=Offer.SCRAM_SHA_256 | Offer.PLAIN)
            for at in range(len(SASL_HEADER + init)):
                self.assertIsNone(side.last_attempt())
                side.receive((SASL_HEADER + init)[at : at + 1])
            self.assertEqual(side.last_attempt(), wanted)
            side = ServerConnection(known, mechanisms=Offer.SCRAM_SHA_256 | Offer.PLAIN)
            side.receive(SASL_HEADER + init)
            self.assertEqual(side.last_attempt(), wanted)
        offer, asks = Offer.SCRAM_SHA_256 | Offer.PLAIN, ServerFlag.INITIAL_RESPONSE_BY_CHALLENGE
        for name, response, claimed in (("SCRAM-SHA-256", first, "us,er"), ("PLAIN", plain, "user")):
            side = ServerConnection(known, mechanisms=offer, flags=asks)
            side.receive(SASL_HEADER + frame_of(INIT, short(0xA3, name.encode()), NULL, short(0xA1, b"host")))
            self.assertEqual(side.last_attempt(), (name, None, "host"))
            side.receive(frame_of(RESPONSE, short(0xA0, response)))
            self.assertEqual(side.last_attempt(), (name, claimed, "host"))
        side = ServerConnection(known)
        side.receive(SASL_HEADER + frame_of(OUTCOME, b"\x50\0"))
        self.assertEqual((side.progress, side.last_attempt()), (Progress.FAILED, None))


class Policies(Case):
    """Clients that select their mechanism from the offer."""

    ALL = ("SCRAM-SHA-512", "SCRAM-SHA-256", "SCRAM-SHA-1", "EXTERNAL", "PLAIN", "ANONYMOUS")

    def test_the_first_that_is_offered(self) -> None:
        bits = random.Random(20261127)
        offers = [tuple(name for at, name in enumerate(self.ALL) if number >> at & 1) for number in range(1, 64)]
        for number in range(200):
            offered, allowed = bits.choice(offers), bits.choice(offers)
            allowed = tuple(bits.sample(allowed, len(allowed)))
            wanted = next((name for name in allowed if name in offered), None)
            offer = mechanisms_frame(*bits.sample(offered, len(offered)))
            side = ClientConnection.select("us\u00e9r", "pencil", allowed, hostname="host")
            self.assertIsNone(side.mechanism())
            piece, sent = bits.choice((1, 5, 600)), b""
            for at in range(0, len(SASL_HEADER + offer), piece):
                self.assertEqual(sent, b"")
                sent, _ = side.receive((SASL_HEADER + offer)[at : at + piece])
            self.assertEqual(side.mechanism(), wanted, (offered, allowed))
            if wanted is None:
                assert side.why is not None
                self.assertEqual((sent, side.why.status), (b"", Status.NOT_IMPLEMENTED))
                continue
            code, fields = fields_of(sent)
            self.assertEqual((code, fields[0], fields[2]), (INIT, wanted.encode(), b"host"))
            message = fields[1] or b""
            name = "us\u00e9r".encode()
            others = {"EXTERNAL": b"", "ANONYMOUS": b"", "PLAIN": b"\0" + name + b"\0pencil"}
            starts = others.get(wanted, b"n,,n=" + name)
            self.assertTrue(message.startswith(starts) and (starts or not message))

    def test_logins(self) -> None:
        for version, mechanism in MECHANISMS.items():
            side = ClientConnection.select("user", "pencil", min_iterations=1)
            connected(side, Broker(few(version), "PLAIN", mechanism), 7)
            self.assertEqual((side.progress, side.mechanism()), (Progress.AUTHENTICATED, mechanism))
            self.assertEqual(side.keys().version, version)
        side = ClientConnection.select("user", "pencil", (*self.ALL[:2], "PLAIN"))
        connected(side, Broker(few(SHA_1), "SCRAM-SHA-1", "PLAIN"), 4096)
        self.assertEqual((side.progress, side.mechanism()), (Progress.AUTHENTICATED, "PLAIN"))
        for options, status in (
            ({}, Status.CLIENT_ITERATION_COUNT_TOO_SMALL),
            ({"min_iterations": 0, "max_iterations": 0}, Status.CLIENT_ITERATION_COUNT_TOO_LARGE),
        ):
            side = ClientConnection.select("user", "pencil", **options)
            connected(side, Broker(few(SHA_256), MECHANISMS[SHA_256]), 4096)
            assert side.why is not None
            self.assertEqual((side.why.status, side.mechanism()), (status, MECHANISMS[SHA_256]))

    def test_the_default_is_scram(self) -> None:
        side = ClientConnection.select("user", "pencil")
        sent, _ = side.receive(SASL_HEADER + mechanisms_frame("PLAIN", "EXTERNAL", "ANONYMOUS", "SCRAM-SHA-3"))
        assert side.why is not None
        self.assertEqual((sent, side.why.status, side.mechanism()), (b"", Status.NOT_IMPLEMENTED, None))
        side = ClientConnection.select("user", "pencil")
        sent, _ = side.receive(SASL_HEADER + frame_of(OUTCOME, b"\x50\0"))
        assert side.why is not None
        self.assertEqual((sent, side.why.status), (b"", Status.UNEXPECTED_FRAME))

    def test_policies_that_are_none(self) -> None:
        for allowed in ((), ("SCRAM-SHA-512-PLUS",), ("plain",), ("SCRAM-SHA-256", "")):
            self.assertRaises(ValueError, ClientConnection.select, "user", "pencil", allowed)
        self.assertRaises(ValueError, ClientConnection.select, "user", None)
        self.assertRaises(ValueError, ClientConnection.select, "user", None, ("EXTERNAL", "PLAIN"))
        side = ClientConnection.select("user", None, ("EXTERNAL", "ANONYMOUS"))
        self.assertEqual(fields_of(side.receive(SASL_HEADER + mechanisms_frame("ANONYMOUS"))[0])[1][0], b"ANONYMOUS")

    def test_mechanisms_that_are_not_selected(self) -> None:
        for name, side in (
            ("SCRAM-SHA-1", ClientConnection(Client(SHA_1, "user", "pencil"))),
            ("PLAIN", ClientConnection.plain("user", "pencil")),
            ("ANONYMOUS", ClientConnection.anonymous_as("trace")),
            ("EXTERNAL", ClientConnection.external()),
        ):
            self.assertEqual(side.mechanism(), name)


if __name__ == "__main__":
    unittest.main()
