"""An attacker between a client and a server of SCRAM, with a connection under TLS to each, who knows no password."""

from __future__ import annotations

import base64
from typing import NamedTuple


class Attacker(NamedTuple):
    """What an attacker changes in the messages of a login: nothing by default.

    With `moves` both sides compute one AuthMessage (RFC 5802, section 3), unless one of them tests extensions. The server
    expects other channel binding data than the client sends. The attacker therefore puts the attributes that the server
    expects before the client-final message, and after the server-first message, where the client ignores them."""

    #: The GS2 header that the server receives in place of the client's, if it is not empty.
    header: bytes = b""
    moves: bool = False

    def mechanism(self, name: bytes) -> bytes:
        """The name that the server receives: with another GS2 header the client binds no channel."""
        return name.removesuffix(b"-PLUS") if self.header else name

    def client_first(self, message: bytes) -> bytes:
        return self.header + message.split(b",", 2)[2] if self.header else message

    def server_first(self, message: bytes) -> bytes:
        return message + b"," + self.expected(message.split(b",")[0]) if self.moves else message

    def client_final(self, message: bytes) -> bytes:
        return self.expected(message.split(b",")[1]) + b"," + message if self.moves else message

    def expected(self, nonce: bytes) -> bytes:
        """The first attributes of the client-final message that the server expects, with this attribute of the nonce."""
        return b"c=" + base64.b64encode(self.header) + b"," + nonce


#: An attacker that sends all messages on as received, one that replaces the GS2 header, and one that moves text too.
ONLY_RELAYS, SAYS_N, MOVES_TEXT = Attacker(), Attacker(b"n,,"), Attacker(b"n,,", True)
