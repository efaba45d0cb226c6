"""The bytes of a login as rows of stored vectors: of one over lines as in peer-runs.txt of crates/test_driver_frames/data,
whose frames are made here around real messages, and of one over frames as in
tools/models/peer-streams.txt."""

from __future__ import annotations

import base64
import hashlib
import hmac
import re
import sys

from sides import PYTHON, SALT, Tap, User

sys.path.insert(0, str(PYTHON))
from peers import CHALLENGE, INIT, OUTCOME, RESPONSE, frame_of, mechanisms_frame, short  # noqa: E402

ZEROS = "00" * 32
REFUSED = b"\x50\x01"
#: The end of the name of a mechanism that binds a channel.
PLUS = "-PLUS"


def hexed(data: bytes) -> str:
    return data.hex() or "-"


def body(code: int, *fields: bytes) -> str:
    """The body of a frame in hexadecimal digits."""
    return frame_of(code, *fields)[4:].hex()


def data(message: bytes) -> bytes:
    return short(0xA0, message)


def messages(tap: Tap, whose: str) -> list[bytes]:
    """The messages that one side sent, a line each."""
    lines = b"".join(came for side, came in tap.kept if side == whose).split(b"\n")
    return [base64.b64decode(line) for line in lines if re.fullmatch(rb"[A-Za-z0-9+/]+=*", line)]


def nonce_of(message: bytes, behind: int = 0) -> str:
    """The 32 bytes of a nonce, after that many characters of the other side's."""
    nonce = next(part for part in message.split(b",") if part.startswith(b"r="))[2 + behind :]
    return base64.b64decode(nonce).hex()


def record_words(mechanism: str, user: User) -> str:
    """The words of a record of a user's password as given (RFC 5802, section 3), by Python."""
    name = mechanism.removeprefix("SCRAM-").replace("-", "").lower()
    salted = hashlib.pbkdf2_hmac(name, user.password.encode(), SALT, user.count)
    client, server = (hmac.digest(salted, words, name) for words in (b"Client Key", b"Server Key"))
    stored = hashlib.new(name, client).digest()
    return f"{hexed(user.name.encode())} {SALT.hex()} {user.count} {stored.hex()} {server.hex()}"


def side_of(side: str, mechanism: str) -> tuple[str, str]:
    """The words of a side and of the version of its mechanism: a side that binds its channel has a word of its own."""
    version = mechanism.removesuffix(PLUS)
    return (side if version == mechanism else f"{side}_plus"), version


def channel_words(mechanism: str, last: bytes) -> str:
    """The kind and the data of the channel that a client-final message binds (RFC 5802, section 7), if there is one."""
    if not mechanism.endswith(PLUS):
        return ""
    binding = next(part for part in last.split(b",") if part.startswith(b"c="))[2:]
    header, channel = base64.b64decode(binding).split(b",,", 1)
    return f" {header.decode().removeprefix('p=')} {channel.hex()}"


def client_run(side: str, mechanism: str, user: User, tap: Tap) -> list[str]:
    """A run of our client."""
    first, last = messages(tap, "client")[:2]
    challenge, *finals = messages(tap, "server")
    offer = mechanisms_frame(mechanism)[4:].hex()
    init = body(INIT, short(0xA3, mechanism.encode()), data(first))
    words = " ".join([*side_of(side, mechanism), *map(hexed, (user.name.encode(), user.password.encode()))])
    rows = [
        words + channel_words(mechanism, last),
        f"{nonce_of(first)} {offer} => Init {init}",
        f"{ZEROS} {body(CHALLENGE, data(challenge))} => Response {body(RESPONSE, data(last))}",
    ]
    outcome = body(OUTCOME, b"\x50\0", data(finals[0]))
    return [*rows, f"{ZEROS} {outcome} => Outcome:Ok {outcome}"]


def server_run(side: str, mechanism: str, user: User, tap: Tap) -> list[str]:
    """A run of our server: a login, or one whose first message is refused."""
    first, *lasts = messages(tap, "client")
    answers = messages(tap, "server")
    words = " ".join(map(hexed, (user.name.encode(), user.password.encode(), SALT)))
    init = body(INIT, short(0xA3, mechanism.encode()), data(first))
    words = record_words(mechanism, user) if side == "records" else words
    rows = [" ".join([*side_of(side, mechanism), words]) + (channel_words(mechanism, lasts[0]) if lasts else "")]
    if not answers:
        return [*rows, f"{ZEROS} {init} => Outcome:Auth {body(OUTCOME, REFUSED)}"]
    theirs = next(part for part in first.split(b",") if part.startswith(b"r="))
    nonce = nonce_of(answers[0], len(theirs) - 2)
    outcome = body(OUTCOME, b"\x50\0", data(answers[1]))
    return [
        *rows,
        f"{nonce} {init} => Challenge {body(CHALLENGE, data(answers[0]))}",
        f"{ZEROS} {body(RESPONSE, data(lasts[0]))} => Outcome:Ok {outcome}",
    ]


def of_other_channel(rows: list[str]) -> list[str]:
    """The run of a server that binds a channel, with one bit of the channel data flipped: the last event is rejected."""
    words, channel = rows[0].rsplit(" ", 1)
    other = bytes.fromhex(channel)
    asked = rows[-1].partition(" => ")[0]
    return [
        f"{words} {bytes([other[0] ^ 1]).hex()}{other[1:].hex()}",
        *rows[1:-1],
        f"{asked} => Outcome:Auth {body(OUTCOME, REFUSED)}",
    ]


def stream(side: str, mechanism: str, user: User, tap: Tap, options: str) -> list[str]:
    """What came to our side with these options, and what it sent, in order."""
    name, password = hexed(user.name.encode()), hexed(user.password.encode())
    if side == "client":
        rows = [f"client {mechanism} {name} {password} 1000000 {b'127.0.0.1'.hex()}"]
    elif mechanism.startswith("SCRAM"):
        rows = [f"server {mechanism} {name} {password} {SALT.hex()} {user.count}"]
    else:
        rows = [f"server {mechanism}" + ("" if mechanism == "ANONYMOUS" else f" {name} {password}")]
    rows[0] += f" {options}" if options else ""
    sent = b"".join(came for whose, came in tap.kept if whose == side)
    found = re.search(
        rb"\xa0.(n,,n=[^,]*,r=[A-Za-z0-9+/]{43}=)" if side == "client" else rb"\xa0.(r=[^,]*,s=[^,]*,i=\d+)",
        sent,
        re.DOTALL,
    )
    if found:
        rows.append("nonce " + nonce_of(found[1], 0 if side == "client" else found[1].index(b",s=") - 2 - 44))
    return rows + [f"{'sent' if whose == side else 'came'} {came.hex()}" for whose, came in tap.kept]
