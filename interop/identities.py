"""The cells of clients that name an authorization identity in SCRAM (RFC 5802, section 5.1) or PLAIN (RFC 4616, section 2).
GNU SASL and Cyrus SASL share them."""

from __future__ import annotations

from typing import Callable, Iterator

from cells import Cell
from messages import DONE, ENDED
from sides import USER, Client, Ending, Side, User

#: Makes a login of a client of theirs, with an authorization identity if it is not empty, at our server, which has more
#: words and knows the user of the tests.
Serve = Callable[[User, str, tuple[str, ...]], Callable[[Side], Ending]]

#: Makes a login of our client at a server of theirs, which knows the user of the tests. The user may act for this identity,
#: and has to.
LogIn = Callable[[Client, str], Callable[[Side], Ending]]

REFUSED = Ending("not logged in: Server: Authentication failed", False)
NO_HEADER = Ending("not logged in: Server: Cannot parse GS2-header", False)
ALLOWED = "an authorization identity that the user may act for"
BOB, COMMA = "bob", "a,b=c"


def acting(identity: str) -> Ending:
    """The end of a login of the user who acts for this identity."""
    return Ending(f"logged in: user for {identity}", True)


def may_act(*identities: str) -> tuple[str, ...]:
    """The words for a server whose users may act for these identities; without one, only for themselves."""
    return tuple(f"for:{identity}" for identity in identities or ("",))


def our_clients(log_in: LogIn, mechanism: str) -> Iterator[Cell]:
    """Cells of our clients."""
    wrong = User("user", "pencils")
    rows = (
        ("the user's own name as the authorization identity", USER, "user", "user", DONE),
        (ALLOWED, USER, BOB, BOB, DONE),
        (f"{ALLOWED}, with `,` and `=`", USER, COMMA, COMMA, DONE),
        ("an authorization identity that the user may not act for", USER, "carol", BOB, ENDED),
        (f"{ALLOWED}, and a wrong password", wrong, BOB, BOB, ENDED),
    )
    for what, user, identity, allowed, ends in rows:
        yield Cell("client", mechanism, what, log_in(Client(mechanism, user, acts_for=identity), allowed), ends)


def our_servers(serve: Serve, mechanism: str) -> Iterator[Cell]:
    """Cells of our servers."""
    is_plain = mechanism == "PLAIN"
    rows = (
        ("the user's own name as the authorization identity", USER, "user", may_act(), acting("user")),
        (ALLOWED, USER, BOB, may_act(BOB), acting(BOB)),
        (f"{ALLOWED}, with `,` and `=`", USER, COMMA, may_act(BOB, COMMA), acting(COMMA)),
        (
            "no authorization identity, at a server that accepts them",
            USER,
            "",
            may_act(BOB),
            Ending("logged in: user", True),
        ),
        ("an authorization identity that the user may not act for", USER, "carol", may_act(BOB), REFUSED),
        (f"{ALLOWED}, and a wrong password", User("user", "pencils"), BOB, may_act(BOB), REFUSED),
        ("an authorization identity, at a server that accepts none", USER, BOB, (), REFUSED if is_plain else NO_HEADER),
    )
    for what, user, identity, words, ends in rows:
        yield Cell("server", mechanism, what, serve(user, identity, words), ends)
