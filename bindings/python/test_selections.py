"""Which mechanism a client selects from an offer, and what it says of its channel."""

from __future__ import annotations

import itertools
import unittest
from typing import Iterable, Optional

from cases import Case, ClientBodies, connected
from fe2o3_sasl import (
    SHA_1,
    SHA_256,
    SHA_512,
    Channel,
    ChannelKind,
    ClientConnection,
    MechanismUnavailable,
    Progress,
    Status,
)
from peers import INIT, SASL_HEADER, Broker, Secret, fields_of, mechanisms_frame

#: The mechanisms of clients, the strongest first (`by_strength` of specs/ClientPolicy.antt).
BY_STRENGTH = [
    "SCRAM-SHA-512-PLUS",
    "SCRAM-SHA-256-PLUS",
    "SCRAM-SHA-1-PLUS",
    "SCRAM-SHA-512",
    "SCRAM-SHA-256",
    "SCRAM-SHA-1",
    "EXTERNAL",
    "PLAIN",
    "ANONYMOUS",
]
NAMED = BY_STRENGTH[3:]
CHANNEL = Channel(ChannelKind.TLS_EXPORTER, bytes(range(32)))


def allowed(name: str, named: Iterable[str], has_channel: bool, must_bind: bool) -> bool:
    """Whether a policy allows a mechanism (`is_allowed` of specs/ClientPolicy.antt)."""
    if name.endswith("-PLUS"):
        return has_channel and name.removesuffix("-PLUS") in named
    return name in named and not (must_bind and name.startswith("SCRAM"))


def sent(side: ClientConnection, offer: Iterable[str]) -> bytes:
    return side.receive(SASL_HEADER + mechanisms_frame(*offer))[0]


class Selections(Case):
    def selects(self, named: list[str], offer: list[str], channel: Optional[Channel], must_bind: bool) -> None:
        """The client takes the strongest allowed mechanism that is offered, and says what it has to say of its channel."""
        takes = [name for name in BY_STRENGTH if name in offer and allowed(name, named, channel is not None, must_bind)]
        side = ClientConnection.select("user", "pencil", named, channel=channel, must_bind=must_bind)
        self.assertIsNone(side.mechanism())
        answer = sent(side, offer)
        if not takes:
            self.assertIsInstance(side.why, MechanismUnavailable)
            return self.assertEqual((answer, side.mechanism()), (b"", None))
        self.assertEqual(side.mechanism(), takes[0])
        kind, fields = fields_of(answer)
        self.assertEqual((kind, fields[0]), (INIT, takes[0].encode()))
        if takes[0].startswith("SCRAM"):
            header = b"p=tls-exporter,," if takes[0].endswith("-PLUS") else b"n,," if channel is None else b"y,,"
            self.assertTrue(fields[1].startswith(header + b"n=user,r="), fields[1])

    def test_the_strongest_of_each_offer(self) -> None:
        for size in (1, 2, 9):
            for offer in itertools.combinations(BY_STRENGTH, size):
                for named in (NAMED, NAMED[1:3], NAMED[2:4], ["SCRAM-SHA-256", "PLAIN"], NAMED[3:]):
                    for channel, must_bind in ((None, False), (CHANNEL, False), (CHANNEL, True)):
                        if must_bind or named != NAMED[3:]:
                            # (the order of the offer says nothing)
                            self.selects(named, [*reversed(offer)], channel, must_bind)

    def test_the_order_of_the_client(self) -> None:
        named = ["EXTERNAL", "SCRAM-SHA-1", "PLAIN", "SCRAM-SHA-512"]
        for offer, mechanism in (
            (BY_STRENGTH, "EXTERNAL"),
            (BY_STRENGTH[:6], "SCRAM-SHA-1-PLUS"),
            (["SCRAM-SHA-1", "PLAIN", "SCRAM-SHA-512-PLUS"], "SCRAM-SHA-512-PLUS"),
            (["SCRAM-SHA-1", "PLAIN", "SCRAM-SHA-256-PLUS"], "SCRAM-SHA-1"),
            (["SCRAM-SHA-512", "PLAIN"], "PLAIN"),
        ):
            side = ClientConnection.select("user", "pencil", named, channel=CHANNEL)
            sent(side, offer)
            self.assertEqual(side.mechanism(), mechanism)

    def test_logins_that_bind(self) -> None:
        for version, name in ((SHA_1, "SCRAM-SHA-1"), (SHA_256, "SCRAM-SHA-256"), (SHA_512, "SCRAM-SHA-512")):
            side = ClientBodies.select("user", "pencil", [name], channel=CHANNEL, strict=True, min_iterations=1)
            side.on_frame(mechanisms_frame(name, f"{name}-PLUS")[4:])
            self.assertEqual(side.mechanism(), f"{name}-PLUS")
            self.assertEqual((side._login[0].login.version, side._login[0].login.strict), (version, 1))

    def test_strict_clients(self) -> None:
        for strict, why in ((False, None), (True, Status.CLIENT_MISPLACED_ATTRIBUTE)):
            secret = Secret(SHA_256, "pencil", b"salt", 4096)
            broker = Broker(secret, "SCRAM-SHA-256", mar=lambda server_final: server_final + b",s=AAAA")
            side = ClientConnection.select("user", "pencil", strict=strict)
            connected(side, broker, 512)
            self.assertEqual(side.progress, Progress.FAILED if strict else Progress.AUTHENTICATED)
            self.assertEqual(side.why and side.why.status, why)


if __name__ == "__main__":
    unittest.main()
