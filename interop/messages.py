"""The cells of PLAIN, ANONYMOUS and EXTERNAL over lines, where a client has one message. GNU SASL and Cyrus SASL share
them."""

from __future__ import annotations

import socket
from typing import Callable, Iterator, Optional

from cells import Cell
from sides import COMMA, PAST, SOFT, TRACE, USER, Client, Ending, Side, User

Login = Callable[[Side], Ending]
#: Makes a login of our client at a server of theirs. The server knows one user: by the password, by the trace
#: information, or as the name that the transport authenticated.
LogIn = Callable[[Client, User], Login]
#: Runs a client of theirs over a connection: mechanism, user name, password, and authorization identity or trace
#: information. Returns whether it ends well, once our server has accepted its message.
RunClient = Callable[[socket.socket, str, str, str, str], bool]

DONE, ENDED = Ending("logged in: Done", True), Ending("not logged in: the other side ended", False)
REFUSED = Ending("not logged in: Server: Authentication failed", False)
BOB, NO_ONE = User("bob", ""), User("", "")
#: Trace information without an `@`: the client of Cyrus SASL appends one, and the name of its host.
TOKEN = "trace"
#: What a client of EXTERNAL asks for: the identity, the user whom the transport authenticated, and whether it may.
IDENTITIES = (
    ("an empty authorization identity", NO_ONE, USER, True),
    ("the authenticated name as the authorization identity", USER, USER, True),
    ("another name as the authorization identity", BOB, USER, False),
    ("a name with `,` and `=`", COMMA, COMMA, True),
)


def by_client(log_in: LogIn, mechanism: str, what: str, user: User, known: Optional[User] = None, ends: Ending = DONE):
    """A cell of our client, at a server that knows the same user, or another one."""
    return Cell("client", mechanism, what, log_in(Client(mechanism, user), known or user), ends)


def our_clients(log_in: LogIn, past: User) -> Iterator[Cell]:
    """Cells of our clients. `past` has a non-ASCII password that SASLprep does not change."""
    yield by_client(log_in, "PLAIN", "a login", USER)
    yield by_client(log_in, "PLAIN", "a name with `,` and `=`", COMMA)
    yield by_client(log_in, "PLAIN", "wrong password", User("user", "pencils"), USER, ENDED)
    yield by_client(log_in, "PLAIN", "non-ASCII password, as typed", past)
    yield by_client(log_in, "PLAIN", "non-ASCII password, prepared", past._replace(prepared=True))
    yield by_client(log_in, "ANONYMOUS", "trace information", TRACE)
    for what, user, known, may in IDENTITIES:
        yield by_client(log_in, "EXTERNAL", what, user, known, DONE if may else ENDED)


def serve(
    run: RunClient, mechanism: str, user: User, known: User = USER, identity: str = "", more: tuple[str, ...] = ()
) -> Login:
    """A login of their client at our server, which knows one user and has more words."""

    def login(side: Side) -> Ending:
        records = {known.name: side.record("SCRAM-SHA-256", known)} if mechanism == "PLAIN" else {}
        words = (mechanism, user.name, user.password, identity)
        return side.serve(mechanism, records, lambda channel: run(channel, *words), more=more)

    return login


def by_identity(run: RunClient):
    """Makes logins of their client by PLAIN with an authorization identity, at our server."""

    def made(user: User, identity: str, more: tuple[str, ...]) -> Login:
        return serve(run, "PLAIN", user, identity=identity, more=more)

    return made


def our_servers(run: RunClient) -> Iterator[Cell]:
    """Cells of our servers."""
    yield from our_plain_servers(run)
    yield anonymous(run, "trace information", TOKEN)
    for what, user, known, may in IDENTITIES:
        login = serve(run, "EXTERNAL", known, known, user.name, (known.name,))
        yield Cell("server", "EXTERNAL", what, login, Ending(f"logged in: {known.name}", True) if may else REFUSED)


def anonymous(run: RunClient, what: str, trace: str) -> Cell:
    """A cell of our server of ANONYMOUS, which accepts any message."""
    return Cell(
        "server", "ANONYMOUS", what, serve(run, "ANONYMOUS", NO_ONE, identity=trace), Ending("logged in:", True)
    )


def our_plain_servers(run: RunClient) -> Iterator[Cell]:
    """Cells of our servers of PLAIN."""
    done = Ending("logged in: user", True)
    past, soft = PAST._replace(prepared=True), SOFT._replace(prepared=True)

    def cell(what: str, login: Login, ends: Ending = done) -> Cell:
        return Cell("server", "PLAIN", what, login, ends)

    def refused(what: str, login: Login) -> Cell:
        return cell(what, login, REFUSED)

    yield cell("a login", serve(run, "PLAIN", USER))
    yield cell("a name with `,` and `=`", serve(run, "PLAIN", COMMA, COMMA), Ending("logged in: a,b=c", True))
    yield refused("wrong password", serve(run, "PLAIN", User("user", "pencils")))
    yield refused("unknown user", serve(run, "PLAIN", User("nobody", "pencil")))
    yield cell("the authenticated name as the authorization identity", serve(run, "PLAIN", USER, identity="user"))
    yield refused("non-ASCII password, as typed", serve(run, "PLAIN", PAST, past))
    yield cell("non-ASCII password, prepared", serve(run, "PLAIN", PAST, past, more=("prepared",)))
    yield refused(
        "password with a soft hyphen, which it does not prepare", serve(run, "PLAIN", SOFT, soft, more=("prepared",))
    )
    yield cell(
        "password with a soft hyphen, which our server prepares", serve(run, "PLAIN", SOFT, soft, more=("saslprep",))
    )
