"""What a user of the wheel types in full: `mypy --strict` finds no fault, and knows the types of each module."""
from __future__ import annotations

import asyncio

from fe2o3_sasl import Channel, ChannelKind, ClientConnection, Offer, Record, RecordStore, Refused, ServerConnection
from fe2o3_sasl import __version__ as version
from fe2o3_sasl.asyncio import log_in, serve

CHANNEL = Channel(ChannelKind.TLS_EXPORTER, bytes(32))


async def both(reader: asyncio.StreamReader, writer: asyncio.StreamWriter, store: RecordStore) -> bytes | str:
    client = ClientConnection.select("user", "pencil", ["SCRAM-SHA-256"], channel=CHANNEL, must_bind=True, strict=True)
    server = ServerConnection(store.records, mechanisms=store.hashes() | Offer.PLAIN, channels=[CHANNEL])
    try:
        rest: bytes = await log_in(reader, writer, client)
        return rest + await serve(reader, writer, server)
    except Refused as why:
        status: int = why.status
        return f"{version} {status}"


def equal(one: Record, other: Record) -> bool:
    return one == other and hash(one) == hash(other)
