"""Records, messages of other mechanisms, and views of frames."""

from __future__ import annotations

import base64
import hashlib
import os
import struct
import unittest

import fe2o3_sasl
from fe2o3_sasl import _structs
from cases import NAMES, PASSWORDS, SALT, Case, login
from fe2o3_sasl import SHA_1, SHA_256, SHA_512, Client, Keys, Record, Refused, Server, Status
from peers import NULL, VERSIONS, Secret, frame_of, mechanisms_frame, short


class Records(Case):
    def test_text_and_verify(self) -> None:
        for version in VERSIONS:
            for password in PASSWORDS:
                for salt in (b"", SALT, os.urandom(128)):
                    for iterations in (1, 2, 4096):
                        record = Record.make(version, password, salt=salt, iterations=iterations)
                        text = record.text()
                        self.assertEqual(text, Secret(version, password, salt, iterations).record_text())
                        self.assertEqual(bytes(Record.parse(text)._struct), bytes(record._struct))
                        self.assertTrue(record.verify(password))
                        self.assertFalse(record.verify(password + "s"))
                        self.assertFalse(record.verify("\u00e9"))
                        self.assertEqual((record.version, record.iterations, record.salt), (version, iterations, salt))
        self.assertNotEqual(Record.make(SHA_1, "a").salt, Record.make(SHA_1, "a").salt)
        for length in (0, 16, 28, 128):
            self.assertEqual(len(Record.make(SHA_256, "a", salt_len=length).salt), length)
        self.assertEqual(len(Record.make(SHA_256, "a").salt), 16)
        self.assertEqual(Record.make(SHA_256, "a", salt=SALT, salt_len=28).salt, SALT)

    def test_fields(self) -> None:
        for version in VERSIONS:
            for salt in (b"", SALT, os.urandom(28), os.urandom(128)):
                secret = Secret(version, "pencil", salt, 4096)
                fields = version, salt, 4096, secret.stored_key, secret.server_key
                record = Record.from_fields(*fields)
                self.assertEqual(record.text(), secret.record_text())
                self.assertTrue(record.verify("pencil"))
                again = record.version, record.salt, record.iterations, record.stored_key, record.server_key
                self.assertEqual(again, fields)
        key = bytes(32)
        for status, given in (
            (Status.NO_SUCH_VERSION, (2, bytes(129), 0, b"", b"")),
            (Status.TOO_LONG, (SHA_256, bytes(129), 0, b"", b"")),
            (Status.ZERO_ITERATIONS, (SHA_256, bytes(128), 0, b"", b"")),
            (Status.RECORD_KEY_LENGTH_MISMATCH, (SHA_256, SALT, 1, key[1:], key)),
            (Status.RECORD_KEY_LENGTH_MISMATCH, (SHA_256, SALT, 1, key, key + b"\0")),
            (Status.RECORD_KEY_LENGTH_MISMATCH, (SHA_512, SALT, 1, key, key)),
        ):
            self.refused(status, Record.from_fields, *given)

    def test_salted_passwords(self) -> None:
        hashes = {SHA_1: "sha1", SHA_256: "sha256", SHA_512: "sha512"}
        for version, digest in hashes.items():
            for password, salt, count in (("pencil", SALT, 4096), ("", b"", 1), ("\u00e9", os.urandom(128), 3)):
                secret = password.encode()
                salted = hashlib.pbkdf2_hmac(digest, secret, salt, count)
                record = Record.of_salted(version, salted, salt, count)
                made = Record.make(version, secret, prepared=True, salt=salt, iterations=count)
                self.assertEqual(bytes(record._struct), bytes(made._struct))
                self.assertTrue(record.verify_salted(salted))
                other = salted[:-1] + bytes([salted[-1] ^ 1])
                self.assertFalse(record.verify_salted(other))
                self.assertFalse(Record.make(version, "a", salt=salt, iterations=count).verify_salted(salted))
                keys = Keys.of_salted(version, salted, salt, count)
                by_password = Keys.make(version, secret, salt, count, prepared=True)
                self.assertEqual(bytes(keys._struct), bytes(by_password._struct))
                server = Server()
                login(Client(version, "user", keys=keys, min_iterations=1), server, record)
                self.assertEqual(server.authenticated_user(), "user")
                for length in (0, len(salted) - 1, len(salted) + 1, 128):
                    self.refused(Status.RECORD_KEY_LENGTH_MISMATCH, record.verify_salted, bytes(length))
        key = bytes(32)
        for make in Keys.of_salted, Record.of_salted:
            for status, given in (
                (Status.NO_SUCH_VERSION, (2, b"", bytes(129), 0)),
                (Status.RECORD_KEY_LENGTH_MISMATCH, (SHA_256, key[1:], bytes(129), 0)),
                (Status.RECORD_KEY_LENGTH_MISMATCH, (SHA_256, key + b"\0", bytes(129), 0)),
                (Status.RECORD_KEY_LENGTH_MISMATCH, (SHA_512, key, SALT, 1)),
                (Status.TOO_LONG, (SHA_256, key, bytes(129), 0)),
                (Status.ZERO_ITERATIONS, (SHA_256, key, bytes(128), 0)),
            ):
                self.refused(status, make, *given)

    def test_example_of_the_standard(self) -> None:
        # RFC 7677, section 3. Its messages cannot be met, since its nonces are not 32 bytes in base64; its record can.
        salt = base64.b64decode("W22ZaJ0SNY7soEsUEjb6gQ==")
        text = (
            "SCRAM-SHA-256$4096:W22ZaJ0SNY7soEsUEjb6gQ==$"
            "WG5d8oPm3OtcPnkdi4Uo7BkeZkBFzpcXkuLmtbsT4qY=:wfPLwcE6nTWhTAmQ7tl2KeoiWGPlZqQxSrmfPwDl2dU="
        )
        self.assertEqual(Record.make(SHA_256, "pencil", salt=salt).text(), text)
        self.assertTrue(Record.parse(text).verify("pencil"))
        # What is written above, against the messages of the example.
        known = Secret(SHA_256, "pencil", salt, 4096)
        server_first = b"r=rOprNGfwEbeRWgbNEkqO%hvYDpWUa2RaTCAfuxFIlj)hNlF$k0,s=W22ZaJ0SNY7soEsUEjb6gQ==,i=4096"
        self.assertEqual(
            known.finals(b"n=user,r=rOprNGfwEbeRWgbNEkqO", server_first),
            (
                b"c=biws,r=rOprNGfwEbeRWgbNEkqO%hvYDpWUa2RaTCAfuxFIlj)hNlF$k0,"
                b"p=dHzbZapWIk4jUhN+Ute9ytag9zjfMHgsqmmiz7AndVQ=",
                b"v=6rriTRBi23WpRR/wtup+mMhUZUn/dB5nLTJRsjl95G4=",
            ),
        )

    def test_refusals(self) -> None:
        text = Record.make(SHA_256, "pencil").text()
        for spelled, status in {
            "": Status.RECORD_PARTS_MISMATCH,
            text + ":": Status.RECORD_PARTS_MISMATCH,
            "X" + text: Status.RECORD_UNKNOWN_MECHANISM,
            text.replace("$4096", "$04096"): Status.RECORD_ITERATION_COUNT_PARSE_ERROR,
            text.replace("$4096", "$0"): Status.RECORD_ITERATION_COUNT_PARSE_ERROR,
            text + "!": Status.RECORD_BASE64_DECODE_ERROR,
            text.replace("256", "512"): Status.RECORD_KEY_LENGTH_MISMATCH,
            "\ud800": Status.NOT_UTF8,
        }.items():
            with self.subTest(spelled=spelled):
                self.refused(status, Record.parse, spelled)
        for make in (
            lambda version, password, salt, count: Record.make(version, password, salt=salt, iterations=count),
            Keys.make,
        ):
            self.refused(Status.NO_SUCH_VERSION, make, 2, "a", SALT, 1)
            self.refused(Status.NOT_UTF8, make, SHA_1, b"\xff", SALT, 1)
            self.refused(Status.NOT_UTF8, make, SHA_1, "\ud800", SALT, 1)
            self.refused(Status.TOO_LONG, make, SHA_1, "a", bytes(129), 1)
            self.refused(Status.NOT_PRINTABLE, make, SHA_1, "\u00e9", SALT, 1)
            self.refused(Status.NOT_PRINTABLE, make, SHA_1, "a\0b", SALT, 1)
            self.refused(Status.ZERO_ITERATIONS, make, SHA_1, "a", SALT, 0)
        self.refused(Status.NOT_UTF8, Record.parse(text).verify, b"\xff")

    def test_lines(self) -> None:
        records = {version: Record.make(version, "pencil", salt=SALT, iterations=2) for version in VERSIONS}
        name = "a=b,c d"
        lines = "".join(record.line(name) for record in records.values()) + records[SHA_1].line("user")
        self.assertEqual(lines.split("\n")[0], "a=3Db=2Cc d " + Secret(SHA_1, "pencil", SALT, 2).record_text())
        for version, record in records.items():
            self.assertEqual(bytes(Record.find(lines, name, version)._struct), bytes(record._struct))
        first = Record.find(lines + Record.make(SHA_1, "other", salt=SALT).line("user"), "user", SHA_1)
        self.assertEqual(bytes(first._struct), bytes(records[SHA_1]._struct))
        for text, user, version, status in (
            (lines, "user", SHA_256, Status.NO_SUCH_USER),
            ("", "user", SHA_1, Status.NO_SUCH_USER),
            (lines, "user", 2, Status.NO_SUCH_VERSION),
            (lines, b"\xff", SHA_1, Status.NOT_UTF8),
            (b"\xff", "user", SHA_1, Status.NOT_UTF8),
            (lines[:-1], "user", SHA_1, Status.LINE_FEED_MISSING),
            (lines + "\n", "user", SHA_1, Status.SPACE_MISSING),
            (lines.replace("=2C", ","), "user", SHA_1, Status.INVALID_NAME),
            (lines.replace("SHA-512", "SHA-224"), "user", SHA_1, Status.RECORD_UNKNOWN_MECHANISM),
            (records[SHA_1].line("user").replace("SCRAM", " SCRAM") + "x\n", "user", SHA_1, Status.SPACE_MISSING),
        ):
            with self.subTest(text=text, user=user):
                self.refused(status, Record.find, text, user, version)
        with self.assertRaisesRegex(Refused, "Line 3: "):
            Record.find(lines.replace("SHA-512", "SHA-224"), "user", SHA_1)
        self.refused(Status.NOT_WRITABLE, records[SHA_1].line, "a\nb")
        self.refused(Status.NOT_UTF8, records[SHA_1].line, b"\xff")


class Messages(Case):
    """PLAIN and EXTERNAL over messages (RFC 4616; RFC 4422, appendix A)."""

    # Texts that are no message of PLAIN which a server accepts for a test.
    NONE = [
        b"",
        b"user\0pencil",
        b"\0user\0pencil\0",
        b"\0\0pencil",
        b"\0user\0",
        b"root\0\0pencil",
        b"\0user\0" + b"x" * 1025,
        b"\xff\0user\0pencil",
        b"\0user\0pencil\xff",
    ]

    def test_plain_messages(self) -> None:
        for name in filter(None, NAMES):
            for password in ("pencil", "p\xe4sswort", " ", "x" * 1024):
                message = fe2o3_sasl.plain_message(name, password)
                self.assertEqual(message, f"\0{name}\0{password}".encode())
                self.assertEqual(fe2o3_sasl.plain_claimed_user(message), name)
                self.assertEqual(fe2o3_sasl.plain_claimed_user(name.encode() + message), name)
        for status, name, password in (
            (Status.EMPTY_PASSWORD, "user", ""),
            (Status.EMPTY_PASSWORD, "us\0er", ""),
            (Status.NAMES_NO_USER, "", ""),
            (Status.NOT_UTF8, b"\xff", "a"),
            (Status.NOT_UTF8, "", b"\xff"),
            (Status.NAMES_NO_USER, "", "\0"),
            (Status.PROHIBITED_CHARACTER, "a\0b", "a"),
            (Status.PROHIBITED_CHARACTER, "a", "\0a"),
        ):
            self.refused(status, fe2o3_sasl.plain_message, name, password)
        for message in self.NONE:
            self.refused(Status.NAMES_NO_USER, fe2o3_sasl.plain_claimed_user, message)
            self.refused(Status.NAMES_NO_USER, fe2o3_sasl.plain_claimed_identity, message)

    def test_plain_identities(self) -> None:
        record = Record.make(SHA_256, "pencil", salt=SALT)
        message = fe2o3_sasl.plain_message("user", "pencil", acts_for="bob")
        self.assertEqual(message, b"bob\0user\0pencil")
        claimed = fe2o3_sasl.plain_claimed_user(message), fe2o3_sasl.plain_claimed_identity(message)
        self.assertEqual(claimed, ("user", "bob"))
        self.assertIsNone(fe2o3_sasl.plain_claimed_identity(b"\0user\0pencil"))
        for identity in (None, ""):
            self.assertEqual(fe2o3_sasl.plain_message("user", "pencil", acts_for=identity), b"\0user\0pencil")
        for status, identity in (
            (Status.NOT_UTF8, b"\xff"),
            (Status.PROHIBITED_CHARACTER, "bo\0b"),
            (Status.TOO_LONG, "x" * 257),
        ):
            self.refused(status, lambda: fe2o3_sasl.plain_message("user", "pencil", acts_for=identity))
        for given, identities, is_allowed in (
            (message, ["bob"], True),
            (message, ["carol", "bob"], True),
            (b"user\0user\0pencil", [], True),
            (b"user\0user\0pencil", None, True),
            (b"\0user\0pencil", [], True),
            (message, [], False),
            (message, None, False),
            (message, ["carol", "Bob", "bobby", "bo"], False),
            (message + b"s", ["bob"], False),
        ):
            with self.subTest(given=given, identities=identities):
                self.assertEqual(fe2o3_sasl.plain_verify(record, given, identities=identities), is_allowed)
                self.assertFalse(fe2o3_sasl.plain_verify(None, given, identities=identities))

    def test_plain_logins(self) -> None:
        message = fe2o3_sasl.plain_message("user", "pencil")
        for version in VERSIONS:
            record = Record.parse(Secret(version, "pencil", SALT, 4096).record_text())
            self.assertTrue(fe2o3_sasl.plain_verify(record, message))
            self.assertTrue(fe2o3_sasl.plain_verify(record, b"user" + message, iterations=0))
            self.assertFalse(fe2o3_sasl.plain_verify(record, message + b"s"))
            self.assertFalse(fe2o3_sasl.plain_verify(Record.mock(version, bytes(32), "user"), message))
            for none in self.NONE:
                self.assertFalse(fe2o3_sasl.plain_verify(record, none))
        for iterations in (0, 1, 4096):
            self.assertFalse(fe2o3_sasl.plain_verify(None, message, iterations=iterations))
        # A struct of zeros is no record, so the user is unknown.
        self.assertFalse(fe2o3_sasl.plain_verify(Record._of(_structs._ScramRecordStruct()), message))
        self.refused(Status.NO_SUCH_CHOICE, lambda: fe2o3_sasl.plain_verify(None, message, passwords=3))
        with self.assertRaises(ValueError):
            fe2o3_sasl.plain_verify(None, message, iterations=2**32)

    def test_plain_passwords(self) -> None:
        # (RFC 4013, section 3, prepares two of these texts to "IX"; "\xad" alone to nothing; and rejects the last one)
        typed, prepared, by_saslprep = fe2o3_sasl.PlainPasswords
        for passwords, known, password, logged_in in (
            (typed, "IX", "IX", True),
            (typed, "IX", "I\xadX", False),
            (typed, "p\xe4ss", "p\xe4ss", False),
            (prepared, "IX", "I\xadX", False),
            (prepared, "p\xe4ss", "p\xe4ss", True),
            (by_saslprep, "IX", "IX", True),
            (by_saslprep, "IX", "I\xadX", True),
            (by_saslprep, "IX", "\u2168", True),
            (by_saslprep, "p\xe4ss", "pa\u0308ss", True),
            (by_saslprep, "IX", "\xad", False),
            (by_saslprep, "IX", "\u06271", False),
        ):
            record = Record.parse(Secret(SHA_256, known, SALT, 4096).record_text())
            message = fe2o3_sasl.plain_message("user", password)
            answer = fe2o3_sasl.plain_verify(record, message, passwords=passwords)
            self.assertEqual(answer, logged_in, (passwords, known, password))

    def test_external(self) -> None:
        for name in ("CN=client", "J\u00fcrgen"):
            self.assertTrue(fe2o3_sasl.external_verify(name, b""))
            self.assertTrue(fe2o3_sasl.external_verify(name, name.encode()))
            for other in (b"CN=other!", name.encode() + b"s", name.encode()[1:], b"\0", b"\xff"):
                self.assertFalse(fe2o3_sasl.external_verify(name, other))
        for message in (b"", b"CN=client"):
            self.assertFalse(fe2o3_sasl.external_verify("", message))
        self.refused(Status.NOT_UTF8, fe2o3_sasl.external_verify, b"\xff", b"\xff")


class Frames(Case):
    def test_each_kind(self) -> None:
        long = bytes(300)
        big = struct.pack(">B", 0xB0) + struct.pack(">I", len(long)) + long
        wide = b"\2\1\0\0\0\x53\x42\xd0" + struct.pack(">II", len(big) + 4, 1) + big
        for body, shown in (
            (mechanisms_frame("PLAIN", "ANONYMOUS")[4:], (0x40, 0, 2, "", None, None)),
            (
                frame_of(0x41, short(0xA3, b"PLAIN"), short(0xA0, b"\0a\0b"), short(0xA1, b"h"))[4:],
                (0x41, 0, 0, "PLAIN", b"\0a\0b", "h"),
            ),
            (frame_of(0x41, short(0xA3, b"EXTERNAL"), NULL, NULL)[4:], (0x41, 0, 0, "EXTERNAL", None, None)),
            (frame_of(0x42, short(0xA0, b""))[4:], (0x42, 0, 0, "", b"", None)),
            (wide, (0x42, 0, 0, "", long, None)),
            (frame_of(0x43, short(0xA0, b"c=biws"))[4:], (0x43, 0, 0, "", b"c=biws", None)),
            (frame_of(0x44, b"\x50\4")[4:], (0x44, 4, 0, "", None, None)),
            (frame_of(0x44, b"\x50\0", short(0xA0, b"v="))[4:], (0x44, 0, 0, "", b"v=", None)),
        ):
            with self.subTest(body=body):
                view = fe2o3_sasl.view_frame(body + b"behind")
                self.assertEqual((view[0], view[1], view[2], *view[4:]), shown)
                if view.message:
                    self.assertNotIn(repr(view.message), repr(view))
                self.assertEqual(view.taken, len(body))

    def test_refusals(self) -> None:
        body = mechanisms_frame("PLAIN")[4:]
        for other, status in (
            (b"\2\1\0", Status.MALFORMED_FRAME),
            (body[:-1], Status.MALFORMED_FRAME),
            (b"\2\0" + body[2:], Status.NO_SASL_FRAME),
            (b"\3" + body[1:], Status.NO_SASL_FRAME),
        ):
            self.refused(status, fe2o3_sasl.view_frame, other)
            self.refused(status, fe2o3_sasl.offers, other, "PLAIN")
        self.assertTrue(fe2o3_sasl.offers(body, "PLAIN"))
        self.assertFalse(fe2o3_sasl.offers(body, "PLAI"))
        self.refused(Status.UNEXPECTED_FRAME, fe2o3_sasl.offers, frame_of(0x42, short(0xA0, b""))[4:], "PLAIN")
        self.refused(Status.NOT_UTF8, fe2o3_sasl.offers, body, b"\xff")


if __name__ == "__main__":
    unittest.main()
