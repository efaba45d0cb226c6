"""A broker's logins over TCP or TLS: SCRAM, PLAIN under TLS, and EXTERNAL by client certificate.

    broker.py PORT USERS [CERTIFICATE KEY AUTHORITY]

USERS has a line for each user and hash, as `scram users add` writes them. The broker offers the hashes for which every
user has a record. `USERS.secret` is made at the first start. It has the secret of mock records. AUTHORITY issues the
certificates of clients, which need none. Prints the port and a line for each login: how it ended, the mechanism, the
claimed user, the hostname, and why a login was rejected. Then it closes the connection, since it speaks no AMQP.
"""

from __future__ import annotations

import asyncio
import contextlib
import secrets
import ssl
import sys
import time
from pathlib import Path

import fe2o3_sasl.asyncio
from fe2o3_sasl import CredentialsRejected, Offer, Record, RecordStore, Refused, ServerConnection

#: The limits: of open connections, of seconds for a login, and of bytes and seconds for a close. A login ends by itself
#: after a few frames of at most 512 bytes.
CONNECTIONS, LOGIN_SECONDS, CLOSE_BYTES, CLOSE_SECONDS = 1000, 10, 65536, 2
#: That many refused logins lock a user for that many seconds. The counts of that many names are kept.
REFUSALS, LOCK_SECONDS, NAMES = 5, 60, 100_000


class Broker:
    """What the connections share: the users, and the counts of refused logins."""

    def __init__(self, users: Path, is_tls: bool) -> None:
        self.store = RecordStore(users.read_bytes())
        if not self.store.hashes():
            raise ValueError("there is no hash for which every user has a record")
        if len(self.store.forms()) > 1:
            raise ValueError("the salt lengths and iteration counts of all users have to be the same")
        secret = Path(f"{users}.secret")
        with contextlib.suppress(FileExistsError):
            secret.touch(0o600, exist_ok=False)
            secret.write_bytes(secrets.token_bytes(32))
        self.mock, self.connections = self.store.mock_settings(secret.read_bytes()), 0
        self.mechanisms = self.store.hashes() | (Offer.PLAIN if is_tls else 0)
        self.refusals: dict[str, tuple[int, float]] = {}
        self.side("")  # raises if the secret is too short

    def side(self, identity: str) -> ServerConnection:
        """Returns a login that has not begun, of a client whose certificate has this name, if any."""
        mechanisms = self.mechanisms | (Offer.EXTERNAL if identity else 0)
        return ServerConnection(self.records_of, mechanisms=mechanisms, mock=self.mock, external_authcid=identity)

    def records_of(self, name: str) -> list[Record]:
        """Returns the records of a user; none for an unknown name or a locked one. Both get mock records, and both are
        logged as UNKNOWN_USER."""
        return self.store.records(name) if self.refused(name) < REFUSALS else []

    def refused(self, name: str) -> int:
        """Returns the number of refused logins of a name over all connections. It ends LOCK_SECONDS after the last."""
        count, last = self.refusals.get(name, (0, 0.0))
        return count if time.monotonic() - last < LOCK_SECONDS else 0

    def refuse(self, name: str) -> int:
        """Counts a refused login of a name, known or not. At a locked name nothing changes, so that the lock ends."""
        count = self.refused(name)
        if count < REFUSALS:
            self.refusals.pop(name, None)
            self.refusals[name] = count + 1, time.monotonic()
        if len(self.refusals) > NAMES:
            del self.refusals[next(iter(self.refusals))]
        return self.refused(name)

    async def serve(self, reader: asyncio.StreamReader, writer: asyncio.StreamWriter) -> None:
        """Serves a connection: reports how its login ended, and closes it."""
        if self.connections >= CONNECTIONS:
            return writer.transport.abort()
        self.connections += 1
        try:
            print(await self.login(reader, writer), flush=True)
            await hang_up(reader, writer)
        finally:
            self.connections -= 1

    async def login(self, reader: asyncio.StreamReader, writer: asyncio.StreamWriter) -> str:
        """Serves a login, and returns how it ended, what its last init claimed, and why it was rejected."""
        identity = certified_name(writer)
        with self.side(identity) as side:
            try:
                await fe2o3_sasl.asyncio.serve(reader, writer, side, timeout=LOGIN_SECONDS)
            except Refused as why:
                attempt, count = side.last_attempt(), ""
                if isinstance(why, CredentialsRejected) and attempt is not None:
                    name = identity if attempt.claimed_user is None else attempt.claimed_user
                    count = f", {self.refuse(name)} of {name!r}"
                return f"not logged in: {why.text}{count}{claims(side)}"
            except (OSError, asyncio.TimeoutError) as why:
                return f"no login: {str(why) or 'it took too long'}{claims(side)}"
            return f"logged in: {side.authenticated_user()!r}{claims(side)}"


def claims(side: ServerConnection) -> str:
    """Returns what the last init claimed, if there was one, and why the login was rejected, if it was. Names are
    quoted, since they may hold line feeds."""
    if (attempt := side.last_attempt()) is None:
        return ""
    reason = "" if side.rejection is None else f", {side.rejection.name}"
    return f" ({attempt.mechanism!r}, user {attempt.claimed_user!r}, host {attempt.hostname!r}{reason})"


def certified_name(writer: asyncio.StreamWriter) -> str:
    """Returns the common name in the certificate that TLS has verified; empty unless there is exactly one."""
    subject = (writer.get_extra_info("peercert") or {}).get("subject", ())
    names: list[str] = [value for part in subject for kind, value in part if kind == "commonName"]
    return names[0] if len(names) == 1 else ""


async def hang_up(reader: asyncio.StreamReader, writer: asyncio.StreamWriter) -> None:
    """Discards what still arrives, and closes. With unread bytes a close resets the connection (RFC 1122, 4.2.2.13)."""
    until, left = time.monotonic() + CLOSE_SECONDS, CLOSE_BYTES
    with contextlib.suppress(OSError, asyncio.TimeoutError):
        if writer.can_write_eof():  # not under TLS: there the client ends first, or the time does
            writer.write_eof()
        while left > 0 and (data := await asyncio.wait_for(reader.read(4096), until - time.monotonic())):
            left -= len(data)
    writer.close()
    try:
        await asyncio.wait_for(writer.wait_closed(), CLOSE_SECONDS)
    except asyncio.TimeoutError:  # TLS does not end
        writer.transport.abort()
    except OSError:
        pass  # the peer has broken TLS, or the connection


async def main(port: str, users: str, *tls: str) -> None:
    context = ssl.create_default_context(ssl.Purpose.CLIENT_AUTH, cafile=tls[2]) if tls else None
    if context is not None:
        context.verify_mode = ssl.CERT_OPTIONAL
        context.load_cert_chain(*tls[:2])
    serve = Broker(Path(users), is_tls=bool(tls)).serve
    seconds = LOGIN_SECONDS if tls else None
    server = await asyncio.start_server(
        serve, "127.0.0.1", int(port), ssl=context, limit=4096, ssl_handshake_timeout=seconds
    )
    print(server.sockets[0].getsockname()[1], flush=True)
    await server.serve_forever()


if __name__ == "__main__":
    asyncio.run(main(*sys.argv[1:]))
