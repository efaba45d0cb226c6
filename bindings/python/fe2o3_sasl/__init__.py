"""SCRAM (RFC 5802, RFC 7677), and the SASL layer of AMQP 1.0, by the library of `fe2o3_sasl.h`, called by `ctypes`.

The package loads the library that the environment variable FE2O3_SASL_LIB names, otherwise the file `libfe2o3_sasl.so.3`
of its own folder, otherwise that of the system. Importing it fails if the structs of the library have other sizes than those
here.

A client:

    client = Client(SHA_256, "user", password="pencil", min_iterations=4096)
    send(client.first())
    send(client.final(receive()))
    client.verify(receive())            # raises unless the server is authenticated too
    keys = client.keys()                # replaces the password at the next login

A server:

    store = RecordStore(Path("users.txt").read_bytes())                 # the file that `scram users add` makes
    server = Server()
    message = receive()
    record = store.record(Server.claimed_user(message), SHA_256, secret)
    send(server.first(record, message))
    send(server.final(receive()))
    name = server.authenticated_user()

`secret` is 32 random bytes, which you make once and keep beside the records. With it a name without a record gets a mock
record, so that the answers do not show which names exist.

Both sides bind their TLS channel (RFC 5802, section 6), so that a man in the middle cannot pass the login on:

    channel = Channel.tls_server_end_point(tls_socket.getpeercert(binary_form=True))     # the client
    client = Client(SHA_256, "user", "pencil", channel=channel, plus_offered="SCRAM-SHA-256-PLUS" in offered)
    select(client.mechanism())          # SCRAM-SHA-256-PLUS if it is offered, otherwise SCRAM-SHA-256

    server = Server(channels=[Channel.tls_server_end_point(own_certificate)])            # the server, of -PLUS
    record = store.record(server.claimed_user(message), SHA_256, secret)
    send(server.first(record, message))

If you also offer the mechanism without `-PLUS`, its server is `Server(reject_misplaced=True)`. Then nobody on the way can
make a client that has a channel log in without binding it.

PLAIN and EXTERNAL over messages, for protocols other than AMQP. `ANONYMOUS` needs no call: its message is trace
information, and a server accepts any (RFC 4505, section 2).

    send(plain_message("user", "pencil"))                               # the client, over TLS only
    message = receive()                                                 # the server
    name = plain_claimed_user(message)                                  # nobody is authenticated yet
    if plain_verify(store.record(name, SHA_256, secret), message):
        log_in(name)
    if external_verify(name_from_the_certificate, message):
        log_in(name_from_the_certificate)

Prepare a non-ASCII password on both sides:

    password = saslprep("pe\\u0301ncil")
    record = Record.make(SHA_256, password, prepared=True)
    client = Client(SHA_256, "user", password, prepared=True)

The client's side of a connection of AMQP 1.0, before its first frame of AMQP:

    side = ClientConnection(client, hostname="broker.example")   # or ClientConnection.plain("user", "pencil")
    socket.sendall(side.open())
    rest = b""
    while side.progress == Progress.IN_PROGRESS:
        data = socket.recv(4096)
        if not data:
            side.end_of_input()
            break
        answer, rest = side.receive(data)
        socket.sendall(answer)
    # complete if side.progress is Progress.AUTHENTICATED; then `rest` belongs to AMQP. Otherwise side.why says why not.

The server's side, for the users of the file:

    side = ServerConnection(store.records, mechanisms=store.hashes(), mock=store.mock_settings(secret))
    # the same loop; then the user is side.authenticated_user(), or side.rejection says for your log why there is none

A client that selects the first of its allowed mechanisms that the server offers, here SCRAM with SHA-512 or SHA-256:

    side = ClientConnection.select("user", "pencil", ("SCRAM-SHA-512", "SCRAM-SHA-256"), hostname="broker.example")

With `channel=channel` it prefers the mechanisms with `-PLUS` of these hashes.

A program that reads frames itself passes `receive` the header of eight bytes first, and then each frame with its four
bytes of size.

A program with asyncio logs in by `fe2o3_sasl.asyncio` (`from fe2o3_sasl.asyncio import log_in, serve`).

A call that fails raises `Refused` or a subclass, and leaves the object as it was. Only `receive` of a connection has then
taken the frames before the one that failed, and their answers are lost. Catch the subclass that you can handle:

    try:
        client.verify(receive())
    except ServerError as why:          # the server sent an error, such as `invalid-proof` for a wrong password
        log(why.error)
    except ServerNotAuthenticated:      # the server does not know the password
        close()

`help(Refused)` lists the classes, and the help of each its statuses. `why` of a connection is of these classes too. An
argument that no call can accept raises TypeError or ValueError where you pass it: one of a wrong type, a number that is no
hash or does not fit its C type, a minimum above its maximum, a server that offers nothing. Any thread may call. Calls on one
object wait for each other, and the interpreter is not locked meanwhile.

Wipe the objects that hold secrets once you no longer need them:

    with Client(SHA_256, "user", password) as client:
        ...
    # the client's copies of the password and the keys are overwritten by zeros, and its calls raise `Wiped`

`Client`, `Server`, `Keys`, `Record`, `RecordStore`, and the sides of connections have `wipe` and work in a `with`
statement. Each has its own copies, so that you can wipe one and go on with another; but a `RecordStore` returns its own
records. The copies that last for one call are wiped in any case, also by the library.

Not wiped are the values of Python: the `str` and `bytes` that you pass, the messages that a call takes and returns, of
which those of PLAIN have the password, and what properties such as `Keys.client_key` return. Pass a password as a
`bytearray` if you want to overwrite your own copy. No `repr` and no exception of this module contains a secret.
"""

from __future__ import annotations

from ._channels import Channel
from ._client import Client
from ._client_sides import ClientConnection
from ._errors import (
    AuthenticationFailed,
    ChannelBindingError,
    CredentialsRejected,
    EndOfInput,
    InvalidArgument,
    InvalidState,
    IterationCountError,
    LoginRejected,
    MechanismUnavailable,
    OutOfMemory,
    PreparationError,
    ProtocolError,
    RecordError,
    Refused,
    ServerError,
    ServerNotAuthenticated,
    StaleKeys,
    TemporarilyRejected,
    TooLong,
    UnknownUser,
    Wiped,
)
from ._frames import Frame, offers, view_frame
from ._keys import Keys
from ._messages import (
    external_verify,
    plain_claimed_identity,
    plain_claimed_user,
    plain_message,
    plain_verify,
    saslprep,
    server_error,
    server_error_message,
)
from ._native import Bytes, Text, library_version
from ._numbers import (
    ChannelKind,
    DEFAULT_ITERATIONS,
    DEFAULT_SALT_LEN,
    Offer,
    PlainPasswords,
    Progress,
    Rejection,
    SHA_1,
    SHA_256,
    SHA_512,
    ServerFlag,
    Status,
)
from ._records import MockSettings, Record
from ._server import Server
from ._server_sides import LoginAttempt, ServerConnection
from ._stores import RecordStore

#: The version of the package. `library_version` returns that of the loaded library.
__version__ = "0.5.0.dev0"

__all__ = [
    "DEFAULT_ITERATIONS",
    "DEFAULT_SALT_LEN",
    "SHA_1",
    "SHA_256",
    "SHA_512",
    "AuthenticationFailed",
    "Bytes",
    "Channel",
    "ChannelBindingError",
    "ChannelKind",
    "Client",
    "ClientConnection",
    "CredentialsRejected",
    "EndOfInput",
    "Frame",
    "InvalidArgument",
    "InvalidState",
    "IterationCountError",
    "Keys",
    "LoginAttempt",
    "LoginRejected",
    "MechanismUnavailable",
    "MockSettings",
    "Offer",
    "OutOfMemory",
    "PlainPasswords",
    "PreparationError",
    "Progress",
    "ProtocolError",
    "Record",
    "RecordError",
    "RecordStore",
    "Refused",
    "Rejection",
    "Server",
    "ServerConnection",
    "ServerError",
    "ServerFlag",
    "ServerNotAuthenticated",
    "StaleKeys",
    "Status",
    "TemporarilyRejected",
    "Text",
    "TooLong",
    "UnknownUser",
    "Wiped",
    "__version__",
    "external_verify",
    "library_version",
    "offers",
    "plain_claimed_identity",
    "plain_claimed_user",
    "plain_message",
    "plain_verify",
    "saslprep",
    "server_error",
    "server_error_message",
    "view_frame",
]

# The names are those of the package, also in tracebacks and in what `pickle` writes.
for _name in __all__:
    if getattr(globals()[_name], "__module__", "").startswith(f"{__name__}."):
        globals()[_name].__module__ = __name__
del _name
