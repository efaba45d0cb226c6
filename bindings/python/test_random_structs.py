"""Structs of random bytes: every call returns, and what it returns follows from the struct."""

from __future__ import annotations

import ctypes
import hashlib
import os
import random
import unittest
from typing import Any, Optional

from fe2o3_sasl import _server, _structs
from cases import KIND_NAMES, LIBRARY, Case
from fe2o3_sasl import ChannelKind, Status
from peers import VERSIONS, Secret, bare_of, base64_of, exclusive_or, mac


class RandomStructs(Case):
    """Structs of random bytes: each call answers a status, and what is refused is left as it was."""

    COUNT = 10_000

    def setUp(self) -> None:
        self.random = random.Random(20240229)
        self.answers: dict[str, set[int]] = {}

    def filled(self, kind: Any) -> Any:
        size = ctypes.sizeof(kind)
        return kind.from_buffer_copy(self.random.getrandbits(8 * size).to_bytes(size, "little"))

    def chance(self) -> bool:
        return self.random.random() < 0.7

    def marred(self, message: bytes) -> bytes:
        at = self.random.randrange(len(message))
        return message[:at] + bytes([self.random.randrange(256)]) + message[at + self.random.randrange(2) :]

    def ask(self, name: str, structs: tuple[Any, ...], *arguments: Any, room: Optional[int] = None) -> Optional[bytes]:
        """Calls, and answers the text that was written, if the call is done."""
        before = [bytes(struct) for struct in structs]
        length, out = ctypes.c_size_t(7), ctypes.create_string_buffer(b"\xa5" * 4096, 4096)
        behind = () if room is None else (out, room, ctypes.byref(length))
        status = getattr(LIBRARY, name)(*arguments, *behind)
        self.assertIn(status, set(Status))
        self.answers.setdefault(name, set()).add(status)
        if status != Status.OK:
            self.assertEqual([bytes(struct) for struct in structs], before)
            self.assertEqual(out.raw, b"\xa5" * 4096)
            if status != Status.ROOM_TOO_SMALL:
                self.assertEqual(length.value, 7)
            return None
        if room is None:
            return b""
        self.assertLessEqual(length.value, room)
        self.assertEqual(out.raw[length.value :], b"\xa5" * (4096 - length.value))
        return out.raw[: length.value]

    def keys(self) -> Any:
        keys = self.filled(_structs._ScramKeysStruct)
        if self.chance():
            keys.version = self.random.choice(list(VERSIONS))
        if self.chance():
            keys.salt_len = self.random.randrange(140)
        return keys

    def test_clients(self) -> None:
        finals = bound = 0
        for _ in range(self.COUNT):
            client, keys, handed = self.filled(_structs._ScramClientStruct), self.keys(), self.keys()
            if self.chance():
                client.state = self.random.randrange(5)
            if self.chance():
                client.signature_len = self.random.choice((0, 20, 32, 64, 65))
            if self.chance():
                client.keys = self.keys()
            version = self.random.choice([*VERSIONS, 0, 2]) if self.chance() else keys.version
            who = _structs._LoginStruct(
                version=version,
                secret=self.random.randrange(4),
                form=self.random.randrange(3),
                min_iterations=self.random.randrange(3),
                max_iterations=self.random.randrange(2, 9),
                username=b"user",
                username_len=4,
                password=b"pencil",
                password_len=6,
                keys=ctypes.pointer(keys),
                strict=self.random.randrange(2),
                channel_use=self.random.choice((0, 0, 0, 1, 1, 2, 2, 2, 2, 3)),
                channel_kind=self.random.choice((1, 2, 3, 1, 2, 3, 0, 4)),
                channel_data_len=self.random.choice((1, 12, 20, 32, 48, 64, 0, 65)),
                channel_data=(ctypes.c_uint8 * 64)(*self.random.choices(range(256), k=64)),
            )
            header = (b"n,,", b"y,,", b"", b"")[who.channel_use]
            if who.channel_use == 2 and 1 <= who.channel_kind <= 3:
                header = b"p=" + KIND_NAMES[ChannelKind(who.channel_kind)] + b",,"
                header += bytes(who.channel_data)[: who.channel_data_len]
            salt, count = bytes(keys.salt)[: min(keys.salt_len, 128)], self.random.randrange(1, 9)
            if self.chance():
                keys.iterations = count
            nonce = bytes(client.nonce)
            server_first = b"r=%sx,s=%s,i=%d" % (base64_of(nonce), base64_of(salt), count)
            signature = bytes(client.signature)[: client.signature_len]
            given = who, client
            self.ask("fe2o3_scram_client_get_keys", (client, handed), client, handed)
            started = _structs._ScramClientStruct.from_buffer_copy(client)
            self.ask("fe2o3_scram_client_first", (started,), who, started, nonce, room=self.random.randrange(120))
            believing = _structs._ScramClientStruct.from_buffer_copy(client)
            server_final = b"v=" + base64_of(signature)
            sent = client.state
            believed = self.ask(
                "fe2o3_scram_client_verify", (believing,), who, believing, server_final, len(server_final)
            )
            if believed is not None:
                self.assertEqual((sent, believing.state), (2, 3))
            for message in (self.marred(server_first), os.urandom(self.random.randrange(40))):
                other = _structs._ScramClientStruct.from_buffer_copy(client)
                self.ask("fe2o3_scram_client_final", (other,), who, other, message, len(message), room=1024)
                other = _structs._ScramClientStruct.from_buffer_copy(client)
                self.ask("fe2o3_scram_client_verify", (other,), who, other, message, len(message))
            final = self.ask("fe2o3_scram_client_final", (client,), *given, server_first, len(server_first), room=1024)
            if final is not None:
                self.assertEqual((sent, client.state), (1, 2))
                known = Secret(version, "pencil", salt, count)
                if who.secret == 1 or (who.secret in (2, 4) and keys.iterations == count):
                    digest = len(known.client_key)
                    known.client_key = bytes(keys.client_key)[:digest]
                    known.server_key = bytes(keys.server_key)[:digest]
                    known.stored_key = hashlib.new(VERSIONS[version], known.client_key).digest()
                self.assertLess(who.channel_use, 3)
                message, verdict = known.finals(bare_of("user", nonce), server_first, header)
                self.assertEqual(final, message)
                bound += who.channel_use == 2
                self.ask("fe2o3_scram_client_verify", (client,), *given, verdict, len(verdict))
                self.assertEqual(client.state, 3)
                finals += 1
        self.assertGreater(finals, 100)
        self.assertGreater(bound, 20)
        for name, statuses in self.answers.items():
            self.assertIn(Status.OK, statuses, name)
            self.assertGreater(len(statuses), 1, name)

    def test_servers(self) -> None:
        no_rules = _server._rules_of()
        for _ in range(self.COUNT):
            server, record = self.filled(_structs._ScramServerStruct), self.filled(_structs._ScramRecordStruct)
            if self.chance():
                server.state = self.random.randrange(7)
            # (3 is an open challenge to a client whose GS2 header is `y,,`)
            header = b"y,," if server.state == 3 else b"n,,"
            for field, most in (("user", 256), ("bare", 1024), ("nonce", 512), ("first", 1024)):
                if self.random.random() < 0.9:
                    setattr(server, field + "_len", self.random.randrange(most + 2))
            if self.chance():
                server.user_len, server.acts_for_len = self.random.randrange(3), 0
            if self.chance():
                nonce = base64_of(os.urandom(33))
                server.nonce_len = len(nonce)
                ctypes.memmove(server.nonce, nonce, len(nonce))
            if self.chance():
                record.version = self.random.choice(list(VERSIONS))
            if self.chance():
                record.salt_len = self.random.randrange(140)
            proof = b""
            within = max(server.bare_len, server.first_len) <= 1024 and server.nonce_len <= 512
            if within and record.version in VERSIONS:
                # The proof that meets this struct, by a record whose key is known.
                version = record.version
                client_key = os.urandom(hashlib.new(VERSIONS[version]).digest_size)
                stored = hashlib.new(VERSIONS[version], client_key).digest()
                ctypes.memmove(record.stored_key, stored, len(stored))
                parts = (
                    bytes(server.bare)[: server.bare_len],
                    bytes(server.first)[: server.first_len],
                    b"c=" + base64_of(header) + b",r=" + bytes(server.nonce)[: server.nonce_len],
                )
                proof = exclusive_or(client_key, mac(version, stored, b",".join(parts)))
                if self.random.random() < 0.1:
                    proof = proof[::-1]
            said = b"c=" + base64_of(header) + b",r=" + bytes(server.nonce)[: min(server.nonce_len, 512)]
            client_final = said + b",p=" + base64_of(proof)
            stands = server.state
            self.ask("fe2o3_scram_server_authenticated_user", (server,), server, room=self.random.choice((0, 256)))
            self.ask("fe2o3_scram_record_text", (record,), record, room=self.random.choice((200, 384)))
            again = _structs._ScramServerStruct.from_buffer_copy(server)
            first = self.random.choice((b"n,,", b"y,,")) + b"n=user,r=" + base64_of(os.urandom(32))
            self.ask(
                "fe2o3_scram_server_first",
                (again, record),
                _server._rules_of(accept_cbind_flag_y=self.chance()),
                record,
                again,
                os.urandom(32),
                first,
                len(first),
                room=self.random.choice((100, 1024)),
            )
            for message in (self.marred(client_final), self.marred(first), os.urandom(self.random.randrange(40))):
                for export in ("fe2o3_scram_server_first", "fe2o3_scram_server_final"):
                    other = _structs._ScramServerStruct.from_buffer_copy(server)
                    nonce_too = [os.urandom(32)] if export == "fe2o3_scram_server_first" else []
                    given = no_rules, record, other, *nonce_too, message, len(message)
                    self.ask(export, (other, record), *given, room=1024)
            final = self.ask(
                "fe2o3_scram_server_final",
                (server, record),
                no_rules,
                record,
                server,
                client_final,
                len(client_final),
                room=self.random.choice((89, 90, 90, 90)),
            )
            if final is not None:
                self.assertIn((stands, server.state), ((1, 2), (3, 2)))
                key = bytes(record.server_key)[: len(proof)]
                self.assertEqual(final, b"v=" + base64_of(mac(record.version, key, b",".join(parts))))
            # (a count of random bytes could take hours)
            record.iterations = self.random.randrange(4)
            meets = record.version in VERSIONS and record.salt_len <= 128 and record.iterations > 0 and self.chance()
            if meets:
                known = Secret(record.version, "pencil", bytes(record.salt)[: record.salt_len], record.iterations)
                ctypes.memmove(record.stored_key, known.stored_key, len(known.stored_key))
                ctypes.memmove(record.server_key, known.server_key, len(known.server_key))
            for form in (0, 1):
                verified = self.ask("fe2o3_scram_record_verify", (record,), record, form, b"pencil", 6)
                self.assertEqual(verified is not None, meets)
        for name, statuses in self.answers.items():
            self.assertIn(Status.OK, statuses, name)
            self.assertGreater(len(statuses), 1, name)

    def rules(self) -> tuple[Any, dict[bytes, tuple[int, bytes]], bool]:
        """Rules of random bytes, whose lengths mostly fit. For each GS2 header the state of an open challenge and the
        data of the channel. Whether no length is too large."""
        rules = self.filled(_structs._ScramRulesStruct)
        rules.accept_authzid, rules.identities, rules.identities_len = 0, None, 0
        channels = rules.channels
        flags = (
            (rules, "accept_cbind_flag_y"),
            (rules, "strict"),
            (rules, "reject_misplaced"),
            (channels, "binds_channel"),
        )
        for owner, field in flags:
            if self.chance():
                setattr(owner, field, self.random.randrange(2))
        headers, fits = {b"n,,": (1, b""), b"y,,": (3, b"")}, True
        for kind, text in KIND_NAMES.items():
            name = kind.name.lower()
            if self.random.random() < 0.95:
                setattr(channels, name + "_len", self.random.choice((0, 1, 12, 32, 64)))
            size = getattr(channels, name + "_len")
            headers[b"p=" + text + b",,"] = 6 + kind, bytes(getattr(channels, name))[:size]
            fits = fits and size <= 64
        return rules, headers, fits or not channels.binds_channel

    @staticmethod
    def rejects_attributes(rules: Any) -> bool:
        return bool(rules.strict or rules.reject_misplaced or rules.channels.binds_channel)

    def known_record(self) -> tuple[Any, bytes, bytes]:
        """A record with a salt of a length that fits, and the ClientKey and the StoredKey of it."""
        record = self.filled(_structs._ScramRecordStruct)
        record.version, record.salt_len = self.random.choice(list(VERSIONS)), self.random.randrange(129)
        key = os.urandom(hashlib.new(VERSIONS[record.version]).digest_size)
        stored = hashlib.new(VERSIONS[record.version], key).digest()
        ctypes.memmove(record.stored_key, stored, len(stored))
        return record, key, stored

    def test_servers_begin_by_rules(self) -> None:
        claimed, first = (f"fe2o3_scram_server_{name}" for name in ("claimed_user", "first"))
        begun = {state: 0 for state in (1, 3, 7, 8, 9)}
        for _ in range(self.COUNT):
            (rules, headers, fits), (record, _, _) = self.rules(), self.known_record()
            server = self.filled(_structs._ScramServerStruct)
            header, extension = self.random.choice(list(headers)), self.random.choice((b"", b",x=1", b",i=4096"))
            state, data = headers[header]
            if rules.channels.binds_channel:
                is_named = is_accepted = fits and data != b""
            else:
                is_named = state < 7
                is_accepted = state == 1 or (state == 3 and rules.accept_cbind_flag_y != 0)
            if extension == b",i=4096" and self.rejects_attributes(rules):
                is_named = is_accepted = False
            message = header + b"n=user,r=nonce" + extension
            name = self.ask(claimed, (rules,), rules, message, len(message), room=256)
            self.assertEqual(name, b"user" if is_named else None)
            given = rules, record, server, os.urandom(32), message, len(message)
            sent = self.ask(first, (server, record, rules), *given, room=1024)
            self.assertEqual(sent is not None, is_accepted)
            if sent is not None:
                self.assertEqual(server.state, state)
                begun[state] += 1
        self.assertGreater(min(begun.values()), 100)
        self.assertGreater(min(map(len, self.answers.values())), 2)

    def test_servers_conclude_by_rules(self) -> None:
        final, concluded = "fe2o3_scram_server_final", {state: 0 for state in (1, 3, 7, 8, 9)}
        for _ in range(self.COUNT):
            (rules, headers, fits), (record, client_key, stored) = self.rules(), self.known_record()
            server, nonce = self.filled(_structs._ScramServerStruct), base64_of(os.urandom(32))
            server.state = state = self.random.choice((*concluded, *concluded, 0, 2, 4, 10, server.state))
            server.user_len, server.nonce_len, server.acts_for_len = 4, len(nonce), 0
            server.bare_len, server.first_len = self.random.randrange(1025), self.random.randrange(1025)
            ctypes.memmove(server.user, b"user", 4)
            ctypes.memmove(server.nonce, nonce, len(nonce))
            # The message that meets the struct, with the data of the rules.
            said = {of_state: header + data for header, (of_state, data) in headers.items()}.get(state, b"")
            extension = self.random.choice((b"", b",x=1", b",i=4096"))
            said = b"c=" + base64_of(said) + b",r=" + nonce + extension
            parts = bytes(server.bare)[: server.bare_len], bytes(server.first)[: server.first_len], said
            proof = exclusive_or(client_key, mac(record.version, stored, b",".join(parts)))
            message = said + b",p=" + base64_of(proof)
            data_of_state = dict(headers.values()).get(state, b"")
            is_accepted = fits and state in concluded and (state > 6) == bool(rules.channels.binds_channel)
            # (the GS2 header `y,,` too says that the client has a channel)
            if extension == b",i=4096" and (state == 3 or self.rejects_attributes(rules)):
                is_accepted = False
            if state > 6 and not data_of_state:
                is_accepted = False
            other, marred = _structs._ScramServerStruct.from_buffer_copy(server), self.marred(message)
            self.ask(final, (other, rules, record), rules, record, other, marred, len(marred), room=90)
            given = rules, record, server, message, len(message)
            answer = self.ask(final, (server, rules, record), *given, room=90)
            self.assertEqual(answer is not None, is_accepted)
            if answer is not None:
                self.assertEqual(server.state, 2)
                key = bytes(record.server_key)[: len(stored)]
                self.assertEqual(answer, b"v=" + base64_of(mac(record.version, key, b",".join(parts))))
                concluded[state] += 1
        self.assertGreater(min(concluded.values()), 100)
        self.assertGreater(len(self.answers[final]), 5)


if __name__ == "__main__":
    unittest.main()
