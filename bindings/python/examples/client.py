"""Logs in to a broker over TCP or TLS, by the first mechanism below that the server offers.

    client.py HOST PORT USER [AUTHORITY [CERTIFICATE KEY]]

These are SCRAM-SHA-512, SCRAM-SHA-256, EXTERNAL with a certificate, and PLAIN under TLS. The password is the first line of
standard input. If it is empty, only EXTERNAL is left. AUTHORITY issues the server's certificate. Prints how the login
ended. The exit status is 0 if the client is logged in.
"""

from __future__ import annotations

import asyncio
import contextlib
import ssl
import sys
from dataclasses import dataclass, field
from typing import Optional

import fe2o3_sasl.asyncio
from fe2o3_sasl import ClientConnection, MechanismUnavailable, Refused

LOGIN_SECONDS = 30


@dataclass
class Login:
    """Where to log in, and as which user."""

    host: str
    port: int
    user: str
    password: str = field(repr=False)
    tls: Optional[ssl.SSLContext]
    has_certificate: bool

    def allowed(self) -> list[str]:
        """Returns the allowed mechanisms, the strongest first. An altered offer cannot add one."""
        found = ["SCRAM-SHA-512", "SCRAM-SHA-256"] if self.password else []
        if self.tls and self.has_certificate:
            found += ["EXTERNAL"]
        if self.tls and self.password:
            found += ["PLAIN"]
        return found

    def side(self) -> ClientConnection:
        """Returns a login that has not begun. Qpid Proton's servers send the signature of SCRAM in a challenge."""
        if not (allowed := self.allowed()):
            raise ConnectionError("no mechanism is allowed")
        return ClientConnection.select(
            self.user,
            self.password,
            allowed,
            hostname=self.host,
            max_iterations=100_000,
            signature_by_challenge=True,
        )


async def log_in(login: Login, reader: asyncio.StreamReader, writer: asyncio.StreamWriter) -> tuple[str, bytes]:
    """Logs in. Returns the mechanism, and the bytes that belong to AMQP. Raises unless the client is logged in."""
    with login.side() as side:
        try:
            rest = await fe2o3_sasl.asyncio.log_in(reader, writer, side, timeout=LOGIN_SECONDS)
        except Refused as why:
            raise ConnectionError(reason(why, side)) from None
        return side.mechanism() or "", rest


def reason(why: Refused, side: ClientConnection) -> str:
    """Returns why a login failed, with what the server sent about it."""
    if isinstance(why, MechanismUnavailable) and side.mechanism() is None:
        return "the server offers no allowed mechanism"
    more = side.foreign_header() or side.refusal_data
    return f"{why}: {more!r}" if more else str(why)


async def run(login: Login) -> str:
    """Connects, logs in and closes. Returns the mechanism."""
    reader, writer = await asyncio.open_connection(login.host, login.port, ssl=login.tls)
    try:
        mechanism, _ = await log_in(login, reader, writer)
        return mechanism
    finally:
        writer.close()
        with contextlib.suppress(OSError):
            await writer.wait_closed()


def main(host: str, port: str, user: str, authority: str = "", *certificate: str) -> int:
    context = ssl.create_default_context(cafile=authority) if authority else None
    if context is not None and certificate:
        context.load_cert_chain(*certificate)
    login = Login(host, int(port), user, sys.stdin.readline().rstrip("\n"), context, bool(certificate))
    try:
        mechanism = asyncio.run(asyncio.wait_for(run(login), LOGIN_SECONDS))
    except (OSError, Refused, asyncio.TimeoutError) as why:
        print(f"not logged in: {str(why) or 'it took too long'}")
        return 1
    print(f"logged in: {mechanism}")
    return 0


if __name__ == "__main__":
    sys.exit(main(*sys.argv[1:]))
