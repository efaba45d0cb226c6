"""Logins of AMQP 1.0 over the streams of asyncio, by the connections of `fe2o3_sasl`.

A client:

    reader, writer = await asyncio.open_connection("broker.example", 5671, ssl=context)
    with ClientConnection.select("user", password, hostname="broker.example") as side:
        rest = await log_in(reader, writer, side)       # raises unless both sides are authenticated
    # `rest`, and then what `reader` returns, belong to AMQP

A server, in the callback of `asyncio.start_server`, for the users in a file (`RecordStore`):

    with ServerConnection(store.records, mechanisms=store.hashes(), mock=store.mock_settings(secret)) as side:
        try:
            rest = await serve(reader, writer, side)
        except (Refused, OSError, asyncio.TimeoutError) as why:
            log(why, side.rejection, side.last_attempt())
            ...                                         # close
        name = side.authenticated_user()

The calls never close the connection. After a failed login the caller closes it, and after a rejected one lets the other
side read the outcome first: with unread bytes a close resets the connection (`hang_up` of examples/broker.py).

Each step of a login runs in a thread of the event loop's default executor, since it can hash for a second: on the
client's side with SCRAM, on the server's side with PLAIN. The library runs without the interpreter's lock. `records_of`
of a server is called in such a thread. A timeout or a cancellation waits for the step that is running.

A login takes a few frames of at most 512 bytes, so its bytes need no limit.
"""

from __future__ import annotations

import asyncio
from typing import Optional, Union

from ._client_sides import ClientConnection
from ._numbers import Progress
from ._server_sides import ServerConnection

__all__ = ["log_in", "serve"]

#: How many bytes are read at once. A frame of a login has 512 bytes at most.
_SIZE = 4096


async def log_in(
    reader: asyncio.StreamReader,
    writer: asyncio.StreamWriter,
    side: ClientConnection,
    *,
    timeout: Optional[float] = 30,
) -> bytes:
    """Logs in as a client, on a connection over which nothing was sent. Returns the bytes received after the login,
    which belong to AMQP. Pass a `side` that has not begun.

    Raises unless the login is complete, with SCRAM on both sides:

    - a `Refused`, which is `side.why`, such as `CredentialsRejected`, `ServerNotAuthenticated`, `MechanismUnavailable`,
      or `EndOfInput` if the server ends its stream;
    - asyncio.TimeoutError if the login takes longer than `timeout` seconds, None for no limit;
    - OSError if the connection fails."""
    return await asyncio.wait_for(_log_in(reader, writer, side), timeout)


async def serve(
    reader: asyncio.StreamReader,
    writer: asyncio.StreamWriter,
    side: ServerConnection,
    *,
    timeout: Optional[float] = 30,
) -> bytes:
    """Serves the login of a client, on a connection over which nothing was received. Returns the bytes received after
    the login, which belong to AMQP. `side.authenticated_user` then returns the user. Pass a `side` that has not begun.

    Raises unless the client is logged in. An outcome that rejects it has then been sent:

    - a `Refused`, which is `side.why`, such as `CredentialsRejected`, `ProtocolError`, or `EndOfInput` if the client
      ends its stream;
    - asyncio.TimeoutError if the login takes longer than `timeout` seconds, None for no limit;
    - OSError if the connection fails;
    - what `records_of` raises."""
    return await asyncio.wait_for(_carry(reader, writer, side), timeout)


async def _log_in(reader: asyncio.StreamReader, writer: asyncio.StreamWriter, side: ClientConnection) -> bytes:
    writer.write(side.open())
    await writer.drain()
    return await _carry(reader, writer, side)


async def _carry(
    reader: asyncio.StreamReader, writer: asyncio.StreamWriter, side: Union[ClientConnection, ServerConnection]
) -> bytes:
    """Receives and sends until the login of either side ends."""
    rest = b""
    while side.progress == Progress.IN_PROGRESS:
        data = await reader.read(_SIZE)
        if not data:
            side.end_of_input()
            break
        answer, rest = await _step(side, data)
        if not answer:  # (`drain` would raise if the other side has closed, also after a complete login)
            continue
        try:
            writer.write(answer)
            await writer.drain()
        except OSError:
            if side.progress != Progress.FAILED:  # (otherwise `why` says more)
                raise
    if side.why is not None:
        raise side.why
    return rest


async def _step(side: Union[ClientConnection, ServerConnection], data: bytes) -> tuple[bytes, bytes]:
    """Receives in a thread. If it is cancelled, it waits for the thread: otherwise `wipe` would, and block the loop."""
    step = asyncio.ensure_future(asyncio.to_thread(side.receive, data))
    try:
        return await asyncio.shield(step)
    finally:
        if not step.done():
            await asyncio.wait([step])
