"""PostgreSQL's server and `psql`, with an attacker between them and our side, who removes `-PLUS` and moves text."""

from __future__ import annotations

import ssl
from pathlib import Path
from typing import Iterator

import tls
from attacker import MOVES_TEXT, ONLY_RELAYS, SAYS_N, Attacker
from cells import Cell, certificate
from messages import DONE, ENDED
from postgresql import BINDS, BINDS_NOT, MECHANISM, PLUS, PostgreSql, from_psql, to_server
from sides import USER, Client, Ending, Side

REMOVED = "`-PLUS` removed from the offer"
FOR_Y, FOR_P = (f"`n,,` sent in place of `{header}`" for header in ("y,,", "p=..,,"))
#: What a side says that tests extensions, and finds another attribute in the place of one.
MISPLACED = "Attribute in the place of an extension"
CLIENT_MISPLACED = Ending(f"not logged in: Client: {MISPLACED}", False)
SERVER_MISPLACED = Ending(f"not logged in: Server: {MISPLACED}", False)
#: The word for a server that offers `-PLUS` too, and therefore tests extensions.
OFFERS_BOTH = ("misplaced",)


class AttackedPostgreSql(PostgreSql):
    name = "PostgreSQL with an attacker between"

    def start(self, folder: Path) -> None:
        super().start(folder)
        self.authority = tls.Authority(folder / "authority")

    def attacked_client(self, mechanism: str, attacker: Attacker, has_channel: bool = True):
        """A login of our client to the server, which offers `-PLUS`. Both have a connection under TLS to the attacker."""

        def login(side: Side) -> Ending:
            self.role(USER.name, USER.password)
            tunnel = tls.Tunnel(self.authority)
            client = Client(mechanism, channel=tunnel.channel() if has_channel else "")
            words = (USER.name, mechanism, True, attacker)
            return side.log_in(client, lambda ours: tunnel.between(ours, lambda end: to_server(self.port, end, *words)))

        return login

    def attacked_server(self, mechanism: str, attacker: Attacker, more: tuple[str, ...] = OFFERS_BOTH):
        """A login of `psql` to our server. Both have a connection under TLS to the attacker, who offers this mechanism."""
        context = ssl.SSLContext(ssl.PROTOCOL_TLS_SERVER)
        context.load_cert_chain(*certificate(self.folder))
        words = (USER, context, BINDS if mechanism == PLUS else BINDS_NOT, (mechanism,), attacker)

        def login(side: Side) -> Ending:
            tunnel, records = tls.Tunnel(self.authority), {"": side.record(MECHANISM, USER)}
            return side.serve(
                MECHANISM, records, lambda ours: tunnel.between(ours, lambda end: from_psql(end, *words)), more=more
            )

        return login

    def cells(self) -> Iterator[Cell]:
        yield from self.attacked_clients()
        yield from self.attacked_servers()

    def attacked_clients(self) -> Iterator[Cell]:
        """Cells of our client. PostgreSQL's server ignores text in the place of extensions, as the last cell shows."""

        def cell(mechanism: str, what: str, ends: Ending, attacker: Attacker, has_channel: bool = True) -> Cell:
            return Cell("client", mechanism, what, self.attacked_client(mechanism, attacker, has_channel), ends)

        yield cell(MECHANISM, f"{REMOVED}, and `y,,` sent on", ENDED, ONLY_RELAYS)
        yield cell(MECHANISM, f"{REMOVED}, and {FOR_Y}", ENDED, SAYS_N)
        yield cell(MECHANISM, f"{REMOVED}, {FOR_Y}, and text moved", CLIENT_MISPLACED, MOVES_TEXT)
        yield cell(PLUS, f"{FOR_P}, and text moved", CLIENT_MISPLACED, MOVES_TEXT)
        yield cell(MECHANISM, "text moved, from a client that has no channel to protect", DONE, MOVES_TEXT, False)

    def attacked_servers(self) -> Iterator[Cell]:
        """Cells of our server. `psql` ignores text in the place of extensions, as the last two cells show: their server is
        not set to test extensions, since it offers no `-PLUS`."""
        done, header = Ending("logged in:", True), Ending("not logged in: Server: Cannot parse GS2-header", False)
        other_data = Ending("not logged in: Server: Invalid channel binding", False)
        no_channel = "at a server that offers no `-PLUS` and has no channel to protect"

        def cell(
            mechanism: str, what: str, ends: Ending, attacker: Attacker, more: tuple[str, ...] = OFFERS_BOTH
        ) -> Cell:
            return Cell("server", mechanism, what, self.attacked_server(mechanism, attacker, more), ends)

        yield cell(MECHANISM, f"{REMOVED}, and `y,,` sent on", header, ONLY_RELAYS)
        yield cell(MECHANISM, f"{REMOVED}, and {FOR_Y}", other_data, SAYS_N)
        yield cell(MECHANISM, f"{REMOVED}, {FOR_Y}, and text moved", SERVER_MISPLACED, MOVES_TEXT)
        yield cell(PLUS, f"{FOR_P}, and text moved", SERVER_MISPLACED, MOVES_TEXT)
        yield cell(MECHANISM, f"{FOR_Y}, and text moved, {no_channel}", done, MOVES_TEXT, ())
        yield cell(PLUS, f"`-PLUS` added to the offer, {FOR_P}, and text moved, {no_channel}", done, MOVES_TEXT, ())
