"""Channel binding over messages and connections."""

from __future__ import annotations

import ctypes
import hashlib
import os
import ssl
import unittest
from typing import Any, Callable

from cases import (
    DATA,
    EXTENSIONS,
    KIND_NAMES,
    LIBRARY,
    OFFERS,
    SALT,
    SERVER_ERRORS,
    Case,
    channel_of,
    connected,
    login,
    nobody,
    nonces,
    of,
    served,
)
from fe2o3_sasl import (
    SHA_256,
    SHA_512,
    Channel,
    ChannelKind,
    Client,
    ClientConnection,
    Offer,
    Progress,
    Record,
    Refused,
    Server,
    ServerConnection,
    ServerError,
    ServerFlag,
    Status,
    offers,
    server_error_message,
)
from peers import (
    CHALLENGE,
    INIT,
    MECHANISMS,
    RESPONSE,
    SASL_HEADER,
    VERSIONS,
    Broker,
    Login,
    Secret,
    bare_of,
    binary,
    fields_of,
    frame_of,
    mechanisms_frame,
    short,
)

#: The proofs and signatures of crates/test_driver_texts, for SCRAM-SHA-256, a salt of 32 bytes 03, and nonces of 01 and 02.
PROOFS = {
    ChannelKind.TLS_UNIQUE: (
        b"06GnWUxjxFnVfnCdTHaz8w9hfm8ChKU7XsnbUANkPjw=",
        b"7gUTTiWhteycgJ6C+RYpf2kEd45Kz9diVF8nbAxJjKs=",
    ),
    ChannelKind.TLS_SERVER_END_POINT: (
        b"mSZst5FOv6qQhQadS6GyXiSXC5BRygTJdYhYEdn8IUA=",
        b"Ue5DC4lfKvS0+VmzDLmkjIGit6va+GPvJuibp0SqokA=",
    ),
    ChannelKind.TLS_EXPORTER: (
        b"AAORnRZesO1PCAmYiNNzQTpeoKmj8Hj30Q4Hlr7prKM=",
        b"SgGu8jRHhwA6VTyPCwx8V8I1IgybjSzepXYuysgZY/s=",
    ),
}


class Channels(Case):
    """Channel binding over messages and on connections."""

    def reported(self, status: int, name: str, call: Callable[..., object], *arguments: object) -> None:
        """A call of a server fails, and the server reports it by this name (RFC 5802, section 7)."""
        self.refused(status, call, *arguments)
        self.assertEqual(server_error_message(status), b"e=" + name.encode())

    def test_each_message_of_each_kind(self) -> None:
        client_nonce, server_nonce = os.urandom(32), os.urandom(32)
        for version, mechanism in MECHANISMS.items():
            known, record = Secret(version, "pencil", SALT, 4096), Record.make(version, "pencil", salt=SALT)
            for kind, name in KIND_NAMES.items():
                for size in (1, len(DATA[kind]), 64):
                    with self.subTest(version=version, kind=kind, size=size):
                        data = os.urandom(size)
                        client = Client(version, "a,b", "pencil", channel=Channel(kind, data))
                        self.assertEqual(client.mechanism(), mechanism + "-PLUS")
                        others = [channel_of(other) for other in ChannelKind if other != kind]
                        server = Server(channels=iter([*others, Channel(kind, data)]))
                        with nonces(client_nonce, server_nonce):
                            client_first = client.first()
                            server_first = server.first(record, client_first)
                        header, bare = b"p=" + name + b",,", bare_of("a,b", client_nonce)
                        self.assertEqual(client_first, header + bare)
                        self.assertEqual(server.claimed_user(client_first), "a,b")
                        self.assertEqual(server_first, known.server_first(client_nonce, server_nonce))
                        client_final = client.final(server_first)
                        server_final = server.final(client_final)
                        wanted = known.finals(bare, server_first, header + data)
                        self.assertEqual((client_final, server_final), wanted)
                        client.verify(server_final)
                        self.assertEqual(server.authenticated_user(), "a,b")
                        by_keys = Client(version, "a,b", keys=client.keys(), channel=Channel(kind, data))
                        login(by_keys, server, record)

    def test_messages_of_the_proved_crates(self) -> None:
        record = Record.make(SHA_256, "pencil", salt=bytes([3] * 32))
        for kind, (proof, signature) in PROOFS.items():
            client = Client(SHA_256, "user", "pencil", channel=channel_of(kind))
            server = Server(channels=[channel_of(kind)])
            with nonces(bytes([1] * 32), bytes([2] * 32)):
                server_first = server.first(record, client.first())
            client_final = client.final(server_first)
            self.assertEqual(client_final.rpartition(b",p=")[2], proof)
            self.assertEqual(server.final(client_final), b"v=" + signature)

    def test_other_channels(self) -> None:
        for version in VERSIONS:
            known, record = Secret(version, "pencil", SALT, 4096), Record.make(version, "pencil", salt=SALT)
            for kind, data in DATA.items():
                server = Server(channels=map(channel_of, ChannelKind))
                invalid = Status.SERVER_INVALID_CHANNEL_BINDING, "channel-bindings-dont-match"
                others = [data[:-1], data + b"\0", bytes(len(data)), bytes([data[0] ^ 1]) + data[1:]]
                for other in (one for one in others if len(one) <= 64):
                    client = Client(version, "user", "pencil", channel=Channel(kind, other))
                    client_final = client.final(server.first(record, client.first()))
                    self.reported(*invalid, server.final, client_final)
                    self.refused(Status.SERVER_ILLEGAL_AUTHENTICATOR_STATE, server.authenticated_user)
                # The data of another kind, another header, no data, and what no channel binding is.
                client_first = b"p=" + KIND_NAMES[kind] + b",,n=user,r=nonce"
                server_first = server.first(record, client_first)
                for bound in (
                    *(b"p=" + name + b",," + DATA[other] for other, name in KIND_NAMES.items() if other != kind),
                    *(b"p=" + KIND_NAMES[kind] + b",," + DATA[other] for other in DATA if other != kind),
                    b"n,," + data,
                    b"y,," + data,
                    b"n,,",
                    b"y,,",
                    b"p=" + KIND_NAMES[kind] + b",,",
                ):
                    client_final, _ = known.finals(b"n=user,r=nonce", server_first, bound)
                    self.reported(*invalid, server.final, client_final)
                # None of it has closed the challenge.
                right, server_final = known.finals(b"n=user,r=nonce", server_first, client_first[:-14] + data)
                self.assertEqual(server.final(right), server_final)
                self.assertEqual(server.authenticated_user(), "user")

    def test_headers(self) -> None:
        record, bare = Record.make(SHA_256, "pencil", salt=SALT), b"n=user,r=nonce"
        headers = [b"p=" + name + b",," for name in KIND_NAMES.values()]
        strange = [b"", b"p=,,", b"p=tls-other,,", b"p=tls-exporter,", b"p=tls-exporter,a=user,", b"P=tls-exporter,,"]
        servers: list[tuple[Server, list[bytes]]] = [
            (Server(), [b"n,,"]),
            (Server(accept_cbind_flag_y=True), [b"n,,", b"y,,"]),
            (Server(channels=[]), []),
            (Server(channels=[], accept_cbind_flag_y=True), []),
            *((Server(channels=[channel_of(kind)]), [header]) for kind, header in zip(ChannelKind, headers)),
            (Server(channels=map(channel_of, ChannelKind), accept_cbind_flag_y=True), headers),
        ]
        for server, accepted in servers:
            for header in (b"n,,", b"y,,", *headers, *strange):
                with self.subTest(header=header, accepted=accepted):
                    rejects = Status.SERVER_CANNOT_PARSE_GS2_HEADER, server.first, record, header + bare
                    if header not in accepted:
                        self.refused(*rejects)
                        if header != b"y,," or server._rules.channels.binds_channel:
                            # (without channels, `claimed_user` accepts both headers)
                            self.refused(Status.SERVER_CANNOT_PARSE_GS2_HEADER, server.claimed_user, header + bare)
                        continue
                    self.assertEqual(server.claimed_user(header + bare), "user")
                    server.first(record, header + bare)
        self.assertEqual(Server.claimed_user(b"n,," + bare), "user")
        self.refused(Status.SERVER_CANNOT_PARSE_GS2_HEADER, Server.claimed_user, headers[0] + bare)
        # The argument of `first` does not open a server of -PLUS either.
        server = servers[-1][0]
        with self.assertRaises(Refused) as caught:
            server.first(record, b"y,," + bare, accept_cbind_flag_y=True)
        self.assertEqual(caught.exception.status, Status.SERVER_CANNOT_PARSE_GS2_HEADER)

    def test_an_offer_without_plus(self) -> None:
        channel = channel_of(ChannelKind.TLS_EXPORTER)
        for version, mechanism in MECHANISMS.items():
            record = Record.make(version, "pencil", salt=SALT)
            client = Client(version, "user", "pencil", channel=channel, plus_offered=False)
            self.assertEqual(client.mechanism(), mechanism)
            self.assertEqual(client.first()[:3], b"y,,")
            login(client, Server(accept_cbind_flag_y=True), record)
            # A server that offers -PLUS accepts it by neither mechanism.
            for server in (Server(), Server(channels=[channel])):
                self.refused(Status.SERVER_CANNOT_PARSE_GS2_HEADER, login, client, server, record)
            for offered in (True, False):
                without = Client(version, "user", "pencil", plus_offered=offered)
                self.assertEqual((without.mechanism(), without.first()[:3]), (mechanism, b"n,,"))
                login(without, Server(), record)

    def test_moved_text(self) -> None:
        """A man in the middle of two channels removes -PLUS from the offer, and moves text between the messages, so that both
        sides would have the same AuthMessage. Each side refuses by itself."""
        own, other = channel_of(ChannelKind.TLS_EXPORTER), Channel(ChannelKind.TLS_EXPORTER, bytes(32))
        for version, mechanism in MECHANISMS.items():
            known, name = of({"user": Record.make(version, "pencil", salt=SALT)}), mechanism.encode()
            for client_tests, server_tests in ((True, True), (True, False), (False, True), (False, False)):
                client = Client(version, "user", "pencil", channel=own, plus_offered=False)
                near: Any = ClientConnection(client) if client_tests else Login(version, "user", "pencil", b"y,,")
                if not client_tests:
                    near.begin()
                channels = [other] if server_tests else None
                far = ServerConnection(known, mechanisms=OFFERS[version], flags=0, channels=channels)

                def passed(data: bytes) -> bytes:
                    answer = near.receive(data)
                    return answer[0] if client_tests else answer

                offered, _ = far.receive(near.open())
                self.assertEqual(name + b"-PLUS" in offered, server_tests)
                _, (_, first, *_) = fields_of(passed(SASL_HEADER + mechanisms_frame(mechanism)))
                assert first is not None and first.startswith(b"y,,")
                sent, _ = far.receive(frame_of(INIT, short(0xA3, name), short(0xA0, b"n" + first[1:])))
                server_first = fields_of(sent)[1][0] or b""
                moved = b"c=biws," + server_first.split(b",")[0]
                response = passed(frame_of(CHALLENGE, binary(server_first + b"," + moved)))
                if client_tests:
                    self.assertEqual(response, b"")
                    self.assertEqual(near.why.status, Status.CLIENT_MISPLACED_ATTRIBUTE)
                    self.assertEqual(far.progress, Progress.IN_PROGRESS)
                    continue
                client_final = fields_of(response)[1][0] or b""
                sent, _ = far.receive(frame_of(RESPONSE, binary(moved + b"," + client_final)))
                near.receive(sent)
                # (two sides that test nothing log in: the texts above are those of the attack)
                self.assertEqual(far.progress, Progress.FAILED if server_tests else Progress.AUTHENTICATED)
                self.assertEqual(near.logged_in, not server_tests)

    def test_both_sides_are_strict(self) -> None:
        for kind, data in DATA.items():
            known, record = Secret(SHA_256, "pencil", SALT, 4096), Record.make(SHA_256, "pencil", salt=SALT)
            client = Client(SHA_256, "user", "pencil", channel=channel_of(kind))
            server = Server(channels=[channel_of(kind)])
            client_first = client.first()
            for extension, is_attribute in EXTENSIONS.items():
                if is_attribute:
                    misplaced, first = Status.SERVER_MISPLACED_ATTRIBUTE, client_first + extension
                    self.refused(misplaced, server.first, record, first)
                    self.refused(misplaced, server.claimed_user, first)
            server_first = server.first(record, client_first)
            header, bare = client_first[: -len(bare_of("user", bytes(32)))], client_first.partition(b",,")[2]
            for extension, is_attribute in EXTENSIONS.items():
                if is_attribute:
                    self.refused(Status.CLIENT_MISPLACED_ATTRIBUTE, client.final, server_first + extension)
                    client_final, _ = known.finals(bare, server_first, header + data, extension)
                    self.refused(misplaced, server.final, client_final)
            client.verify(server.final(client.final(server_first)))

    def test_a_wrong_password_and_an_unknown_user(self) -> None:
        channel = channel_of(ChannelKind.TLS_EXPORTER)
        for password, record in (
            ("pencils", Record.make(SHA_256, "pencil")),
            ("pencil", Record.mock(SHA_256, bytes(32), "user")),
        ):
            server = Server(channels=[channel])
            client = Client(SHA_256, "user", password, channel=channel)
            client_final = client.final(server.first(record, client.first()))
            self.reported(Status.SERVER_AUTHENTICATION_FAILED, "invalid-proof", server.final, client_final)

    def test_errors_of_a_server(self) -> None:
        client = Client(SHA_256, "user", "pencil", channel=channel_of(ChannelKind.TLS_EXPORTER))
        server = Server(channels=[channel_of(ChannelKind.TLS_EXPORTER)])
        client.final(server.first(Record.make(SHA_256, "pencil"), client.first()))
        for name in SERVER_ERRORS:
            with self.assertRaises(ServerError) as caught:
                client.verify(b"e=" + name.encode())
            self.assertEqual(caught.exception.error, name)

    def test_connections(self) -> None:
        for version, mechanism in MECHANISMS.items():
            known = Secret(version, "pencil", SALT, 4096)
            for kind, name in KIND_NAMES.items():
                client = Client(version, "user", "pencil", channel=channel_of(kind))
                for data, progress in ((DATA[kind], Progress.AUTHENTICATED), (b"other", Progress.FAILED)):
                    broker = Broker(known, mechanism, mechanism + "-PLUS", channel_data=data)
                    connection = ClientConnection(client)
                    connected(connection, broker, 7)
                    self.assertEqual((broker.init[0] or b"").decode(), mechanism + "-PLUS")
                    self.assertEqual((broker.init[1] or b"").split(b",")[0], b"p=" + name)
                    self.assertEqual((connection.mechanism(), connection.progress), (mechanism + "-PLUS", progress))
            # Without -PLUS in the offer it sends nothing.
            connection = ClientConnection(client)
            connected(connection, Broker(known, mechanism), 7)
            assert connection.why is not None
            self.assertEqual(connection.why.status, Status.NOT_IMPLEMENTED)
            not_offered = Client(version, "user", "pencil", channel=channel_of(kind), plus_offered=False)
            connection = ClientConnection(not_offered)
            connected(connection, Broker(known, mechanism), 7)
            self.assertEqual((connection.mechanism(), connection.progress), (mechanism, Progress.AUTHENTICATED))

    def test_servers_on_connections(self) -> None:
        accept_y = ServerFlag.ACCEPT_CBIND_FLAG_Y
        for version, mechanism in MECHANISMS.items():
            known = of({"user": Record.make(version, "pencil", salt=SALT)})
            for kind, name in KIND_NAMES.items():
                bound, data, own = b"p=" + name + b",,", DATA[kind], channel_of(kind)
                others = [channel_of(other) for other in KIND_NAMES if other != kind]
                for header, sent, channels, option, is_accepted in (
                    (bound, data, [own], 0, True),
                    (bound, data, [own, *others], accept_y, True),
                    (bound, data, others, 0, False),
                    (bound, data, [], 0, False),
                    (bound, data, None, 0, False),
                    (bound, b"other", [own], 0, False),
                    (b"n,,", b"", [own], 0, True),
                    # A client that has seen no -PLUS: someone has removed it from the offer.
                    (b"y,,", b"", [own], accept_y, False),
                    (b"y,,", b"", [], accept_y, False),
                    (b"y,,", b"", None, accept_y, True),
                ):
                    by = Login(version, "user", "pencil", header, sent)
                    options: Any = {"mechanisms": OFFERS[version], "flags": option, "channels": channels}
                    offer = ServerConnection(known, **options).receive(SASL_HEADER)[0][12:]
                    self.assertEqual(offers(offer, mechanism + "-PLUS"), channels is not None)
                    self.assertTrue(offers(offer, mechanism))
                    connection = ServerConnection(known, **options)
                    by.begin()
                    served(connection, by, 7)
                    self.assertEqual(connection.progress == Progress.AUTHENTICATED, is_accepted, (header, channels))
                    self.assertEqual(by.logged_in, is_accepted)
        for two in ([Channel(1, b"a"), Channel(1, b"a")], [Channel(1, b"a"), Channel(2, b"a"), Channel(1, b"b")]):
            with self.assertRaises(ValueError):
                ServerConnection(nobody, channels=two)

    def test_channels_that_are_none(self) -> None:
        unfit: Any
        for kind in (0, 4, -1, 2**32 + 1):
            self.assertRaises(ValueError, Channel, kind, b"data")
        for unfit in (None, "1", 1.0):
            self.assertRaises(TypeError, Channel, unfit, b"data")
        for data in (b"", bytes(65), bytearray(), memoryview(bytes(100))):
            self.assertRaises(ValueError, Channel, ChannelKind.TLS_UNIQUE, data)
        for unfit in (None, "data", 12):
            self.assertRaises(TypeError, Channel, ChannelKind.TLS_UNIQUE, unfit)
            self.assertRaises(TypeError, Channel.tls_unique, unfit)
            self.assertRaises(TypeError, Channel.tls_server_end_point, unfit)
        for size in (1, 64):
            channel = Channel(1, bytearray(size))
            self.assertEqual((channel.kind, channel.data), (ChannelKind.TLS_UNIQUE, bytes(size)))
        self.assertEqual(repr(Channel(3, b"rare data")), "Channel(kind=TLS_EXPORTER)")
        for two in ([Channel(1, b"a"), Channel(1, b"a")], [Channel(1, b"a"), Channel(2, b"a"), Channel(1, b"b")]):
            with self.assertRaises(ValueError):
                Server(channels=two)
        unfit = Channel(1, b"a")
        with self.assertRaises(TypeError):
            Server(channels=unfit)

    def test_hashes_of_certificates(self) -> None:
        certificate = b"\x30" + os.urandom(300)
        for name, used in (
            ("md5", "sha256"),
            ("MD5", "sha256"),
            ("sha1", "sha256"),
            ("SHA1", "sha256"),
            ("sha224", "sha224"),
            ("sha256", "sha256"),
            ("SHA256", "sha256"),
            ("sha384", "sha384"),
            ("sha512", "sha512"),
        ):
            channel = Channel.tls_server_end_point(memoryview(certificate), name)
            self.assertEqual(channel.kind, ChannelKind.TLS_SERVER_END_POINT)
            self.assertEqual(channel.data, hashlib.new(used, certificate).digest())
        self.assertEqual(Channel.tls_server_end_point(certificate).data, hashlib.sha256(certificate).digest())
        unfit: Any = None
        self.assertRaises(ValueError, Channel.tls_server_end_point, certificate, "sha257")
        self.assertRaises(TypeError, Channel.tls_server_end_point, certificate, unfit)
        for other in (b"", ssl.DER_cert_to_PEM_cert(certificate).encode()):
            self.assertRaises(ValueError, Channel.tls_server_end_point, other)

    def test_structs_that_no_call_writes(self) -> None:
        record = Record.make(SHA_256, "pencil")
        channel = channel_of(ChannelKind.TLS_EXPORTER)
        for field, number, status in (
            ("channel_use", 3, Status.NO_SUCH_CHANNEL),
            ("channel_kind", 0, Status.NO_SUCH_CHANNEL),
            ("channel_kind", 4, Status.NO_SUCH_CHANNEL),
            ("channel_data_len", 0, Status.CHANNEL_DATA_LENGTH),
            ("channel_data_len", 65, Status.CHANNEL_DATA_LENGTH),
        ):
            client = Client(SHA_256, "user", "pencil", channel=channel)
            server_first = Server(channels=[channel]).first(record, client.first())
            setattr(client._login, field, number)
            self.refused(status, client.first)
            self.refused(status, client.final, server_first)
        client = Client(SHA_256, "user", "pencil", channel=channel)
        for kind in ChannelKind:
            server = Server(channels=[channel])
            client_final = client.final(server.first(record, client.first()))
            for rules in (server._rules, server._exchange[2]):
                setattr(rules.channels, kind.name.lower() + "_len", 65)
            self.refused(Status.CHANNEL_DATA_LENGTH, server.final, client_final)
            self.refused(Status.CHANNEL_DATA_LENGTH, server.first, record, client.first())
            self.refused(Status.CHANNEL_DATA_LENGTH, server.claimed_user, client.first())

    def test_a_room_that_suffices(self) -> None:
        # The longest answer: SHA-512, 64 bytes of data, and the longest name of a kind.
        channel = channel_of(ChannelKind.TLS_SERVER_END_POINT)
        for client, more in (
            (Client(SHA_512, "user", "pencil", channel=channel), 256),
            (Client(SHA_512, "user", "pencil", channel=channel, plus_offered=False), 128),
        ):
            server = Server(channels=[channel] if more == 256 else None, accept_cbind_flag_y=True)
            server_first = server.first(Record.make(SHA_512, "pencil"), client.first())
            before, length = bytes(client._struct), ctypes.c_size_t()
            out = ctypes.create_string_buffer(4096)
            given = client._login, client._struct, server_first, len(server_first), out
            short_of = len(server_first) + more - 1
            status = LIBRARY.fe2o3_scram_client_final(*given, short_of, ctypes.byref(length))
            self.assertEqual((status, length.value), (Status.ROOM_TOO_SMALL, short_of + 1))
            self.assertEqual(bytes(client._struct), before)
            self.assertLessEqual(len(client.final(server_first)), short_of + 1)


if __name__ == "__main__":
    unittest.main()
