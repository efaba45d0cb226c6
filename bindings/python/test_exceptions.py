"""Tries the exceptions of fe2o3_sasl.py: the class of each status, and what calls and connections raise."""

from __future__ import annotations

import copy
import inspect
import pickle
import re
import types
import unittest

import fe2o3_sasl
from fe2o3_sasl import _errors, _native
from fe2o3_sasl import (
    SHA_256,
    AuthenticationFailed,
    Channel,
    ChannelBindingError,
    ChannelKind,
    Client,
    ClientConnection,
    CredentialsRejected,
    EndOfInput,
    InvalidArgument,
    InvalidState,
    IterationCountError,
    Keys,
    LoginRejected,
    MechanismUnavailable,
    OutOfMemory,
    PreparationError,
    ProtocolError,
    Record,
    RecordError,
    Refused,
    Server,
    ServerConnection,
    ServerError,
    ServerNotAuthenticated,
    StaleKeys,
    Status,
    TemporarilyRejected,
    TooLong,
    UnknownUser,
)
from peers import OUTCOME, SASL_HEADER, frame_of, mechanisms_frame

SALT = b"a salt of bytes!"
#: The class of each status that a caller sees, by ranges of their numbers.
EXPECTED: dict[type[Refused], list[int]] = {
    Refused: [2, 16, 33, 34, 44],
    OutOfMemory: [1],
    InvalidArgument: [3, 4, *range(7, 11), 12, 85, 93],
    TooLong: [5],
    PreparationError: [6, 31, 46, 86, 87, 88],
    AuthenticationFailed: [11, 45, 52],
    InvalidState: [13, 14, 35, 53],
    ProtocolError: [15, *range(20, 29), 37, *range(40, 44), 47, 49, 50, 51, 54, *range(70, 77)],
    IterationCountError: [29, 30],
    StaleKeys: [32],
    ServerNotAuthenticated: [36],
    ChannelBindingError: [48, 91, 92],
    RecordError: [*range(60, 68), 69],
    UnknownUser: [68],
    MechanismUnavailable: [77],
    CredentialsRejected: [81],
    LoginRejected: [82, 83],
    TemporarilyRejected: [84],
    ServerError: [89],
    EndOfInput: [90],
}
BUILT_IN = {
    OutOfMemory: MemoryError,
    EndOfInput: EOFError,
    InvalidArgument: ValueError,
    PreparationError: ValueError,
    TooLong: ValueError,
    RecordError: ValueError,
    UnknownUser: LookupError,
    InvalidState: RuntimeError,
}


class Classes(unittest.TestCase):
    def test_each_status_has_one_class(self) -> None:
        for status in Status:
            kinds = [kind for kind, numbers in EXPECTED.items() if status in numbers]
            if status == Status.OK:
                self.assertEqual(kinds, [])
                _native._done(status)
                continue
            self.assertEqual(len(kinds), 1, status)
            with self.subTest(status=status), self.assertRaises(Refused) as caught:
                _native._done(status)
            self.assertIs(type(caught.exception), kinds[0])
            self.assertEqual(caught.exception.status, status)
            self.assertEqual(caught.exception.text, _native._status_text(status))
            self.assertIn(f"({status.value})", str(caught.exception))
        rows = [status for row in _errors._STATUSES.values() for status in row]
        self.assertEqual(sorted(rows), sorted(set(Status) - {Status.OK}))

    def test_a_status_of_a_later_library(self) -> None:
        for status in (100, 4_000_000_000):
            with self.assertRaises(Refused) as caught:
                _native._done(status)
            self.assertIs(type(caught.exception), Refused)
            self.assertEqual(caught.exception.status, status)

    def test_built_in_classes(self) -> None:
        found = (ValueError, LookupError, RuntimeError, EOFError, MemoryError, OSError)
        for kind in EXPECTED:
            expected = [BUILT_IN[kind]] if kind in BUILT_IN else []
            self.assertEqual([one for one in found if issubclass(kind, one)], expected, kind)

    def test_copies(self) -> None:
        for status in [*Status][1:]:
            one = _native._refusal(status)
            for other in (pickle.loads(pickle.dumps(one)), copy.copy(one)):
                self.assertEqual((type(other), vars(other), str(other)), (type(one), vars(one), str(one)))

    def test_help(self) -> None:
        tree = inspect.getdoc(Refused) or ""
        for kind, numbers in EXPECTED.items():
            self.assertRegex(tree, rf"(?m)^ +{kind.__name__}\b")
            if kind is not Refused:
                names = re.search(r"Its statuses: (.*)\.", inspect.getdoc(kind) or "")
                self.assertIsNotNone(names)
                self.assertEqual(names[1].split(", "), [Status(number).name for number in numbers])
        # The lines of the tree are indented by their class.
        above: list[str] = []
        for line in re.findall(r"(?m)^    ( *)(\w+)", tree):
            depth = len(line[0]) // 4
            above[depth:] = [line[1]]
            if depth:
                self.assertTrue(issubclass(getattr(fe2o3_sasl, line[1]), getattr(fe2o3_sasl, above[depth - 1])), line)


class Names(unittest.TestCase):
    def test_all_is_complete(self) -> None:
        names = {
            name
            for name, value in vars(fe2o3_sasl).items()
            if not name.startswith("_") and not isinstance(value, types.ModuleType)
            if getattr(value, "__module__", "fe2o3_sasl") in ("fe2o3_sasl", "typing")
        }
        self.assertEqual((names - {"annotations"}) | {"__version__"}, set(fe2o3_sasl.__all__))
        self.assertEqual(len(fe2o3_sasl.__all__), len(set(fe2o3_sasl.__all__)))

    def test_each_public_name_has_a_docstring(self) -> None:
        for name in fe2o3_sasl.__all__:
            one = getattr(fe2o3_sasl, name)
            if isinstance(one, type):
                for part, member in vars(one).items():
                    is_call = inspect.isroutine(member) or isinstance(member, (property, classmethod, staticmethod))
                    if is_call and not part.startswith("_"):
                        with self.subTest(name=f"{name}.{part}"):
                            self.assertTrue(inspect.getdoc(getattr(one, part)))
            if isinstance(one, type) or inspect.isroutine(one):
                with self.subTest(name=name):
                    self.assertTrue(one.__doc__)
                    self.assertNotRegex(one.__doc__, r"^(Alias for|An enumeration|\w+\()")


class Raised(unittest.TestCase):
    """What callers catch."""

    def setUp(self) -> None:
        self.record = Record.make(SHA_256, "pencil", salt=SALT)

    def test_messages(self) -> None:
        client, server = Client(SHA_256, "user", "pencils"), Server()
        client_final = client.final(server.first(self.record, client.first()))
        self.assertRaises(AuthenticationFailed, server.final, client_final)
        self.assertRaises(ServerError, client.verify, b"e=invalid-proof")
        self.assertRaises(LoginRejected, client.verify, b"e=invalid-proof")
        self.assertRaises(ServerNotAuthenticated, client.verify, b"v=AAAA")
        self.assertRaises(ProtocolError, server.first, self.record, b"n,,m=user,r=a")
        self.assertRaises(TooLong, server.first, self.record, b"n,,n=user,r=" + b"x" * 1100)
        self.assertRaises(ProtocolError, server.first, self.record, b"n,,n=user,r=" + b"x" * 1100)
        self.assertRaises(InvalidState, Client(SHA_256, "user", "pencil").keys)
        self.assertRaises(PreparationError, fe2o3_sasl.saslprep, "\0")
        self.assertRaises(ValueError, Client, 5, "user", "pencil")

    def test_keys(self) -> None:
        client = Client(SHA_256, "user", keys=Keys.make(SHA_256, "pencil", b"another", 4096))
        self.assertRaises(StaleKeys, client.final, Server().first(self.record, client.first()))

    def test_iteration_counts(self) -> None:
        for limits in ({"min_iterations": 4097}, {"max_iterations": 4095, "min_iterations": 1}):
            client = Client(SHA_256, "user", "pencil", **limits)
            self.assertRaises(IterationCountError, client.final, Server().first(self.record, client.first()))

    def test_channels(self) -> None:
        near, far = (Channel(ChannelKind.TLS_EXPORTER, data) for data in (b"near", b"far"))
        client, server = Client(SHA_256, "user", "pencil", channel=near), Server(channels=[far])
        client_final = client.final(server.first(self.record, client.first()))
        self.assertRaises(ChannelBindingError, server.final, client_final)

    def test_records(self) -> None:
        self.assertRaises(RecordError, Record.parse, "SCRAM-SHA-256$4096")
        line = self.record.line("user")
        self.assertRaises(UnknownUser, Record.find, line, "nobody", SHA_256)
        with self.assertRaises(RecordError) as caught:
            Record.find(line + "user\n", "nobody", SHA_256)
        self.assertIn("Line 2", caught.exception.text)

    def test_connections(self) -> None:
        def rejected(*frames: bytes) -> Refused:
            side = ClientConnection(Client(SHA_256, "user", "pencil"))
            self.assertIsNone(side.why)
            side.receive(b"".join((SASL_HEADER, *frames)))
            if side.why is None:
                side.end_of_input()
            assert side.why is not None
            return side.why

        offer = mechanisms_frame("SCRAM-SHA-256")
        self.assertIsInstance(rejected(), EndOfInput)
        self.assertIsInstance(rejected(mechanisms_frame("PLAIN")), MechanismUnavailable)
        self.assertIsInstance(rejected(frame_of(OUTCOME, b"\x50\0")), ProtocolError)
        kinds = {1: CredentialsRejected, 2: LoginRejected, 3: LoginRejected, 4: TemporarilyRejected}
        for code, kind in kinds.items():
            self.assertIs(type(rejected(offer, frame_of(OUTCOME, bytes([0x50, code])))), kind)

    def test_a_server_that_rejects(self) -> None:
        client = ClientConnection(Client(SHA_256, "user", "pencils"))
        server = ServerConnection(lambda name: [self.record])
        sent = client.open()
        while sent:
            sent = client.receive(server.receive(sent)[0])[0]
        for side in (client, server):
            self.assertIsInstance(side.why, CredentialsRejected)
            self.assertIsInstance(side.why, AuthenticationFailed)
            self.assertIsInstance(side.why, LoginRejected)


if __name__ == "__main__":
    unittest.main()
