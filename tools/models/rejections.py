"""The line that `scram server` prints of a login that it rejects: see "LOG" of `scram man`.

The name is the one that the client-first message claims: its header has to fit the mechanism, and one that binds a channel
or names an identity has only extensions after its nonce.
"""
import base64
import re

MARK = "! rejected: "
FIRST = re.compile(rb"(n|y|p=[a-z-]+),(a=[^,]+)?,n=([^,]*),r=[^,]+(,.*)?$", re.S)


def shown(name):
    """A name as the program prints it: a word that a shell takes back."""
    data = name.encode()
    if re.fullmatch(rb"[A-Za-z0-9@._/-]+", data):
        return name
    return "$'" + "".join(chr(b) if 32 <= b <= 126 and b not in b"'\\" else f"\\{b:03o}" for b in data) + "'"


def claimed(mechanism, message):
    """The user that a client-first message of this mechanism claims."""
    found = FIRST.match(message)
    if not found or found[1].startswith(b"p=") != mechanism.endswith("-PLUS"):
        return "no user"
    if re.search(rb"=(?!2C|3D)", found[3]):
        return "no user"
    more = found[4] or b""
    if (found[2] or found[1].startswith(b"p=")) and re.match(rb",[nmrcsipva]=", more):
        return "no user"
    return "user " + shown(found[3].decode().replace("=2C", ",").replace("=3D", "="))


def first_of(mechanism, given):
    """The mechanism that a client names, and its first message: in a line, or in a frame."""
    if given.startswith("< "):
        return mechanism, base64.b64decode(given[2:])
    data = bytes.fromhex(given[2:])
    named = re.search(rb"\xa3.(SCRAM-SHA-[0-9]+(?:-PLUS)?)\xa0(.)", data, re.S)
    return named[1].decode(), data[named.end() : named.end() + named[2][0]]


def rejected(words, given, reason):
    """The line of a run with these words and this first line of the input."""
    words = words.split(" ")
    kind = words[words.index("--channel") + 1].split(":")[0] if "--channel" in words else "none"
    mechanism = words[words.index("server") + 1] + ("" if kind == "none" else "-PLUS")
    user = claimed(*first_of(mechanism, given))
    return f"! scram: login rejected: {user}, {mechanism}, channel {kind}: {reason}"


def told(words, given, lines):
    """The lines of a run, with what a server prints in place of a reason after the mark."""
    return [rejected(words, given[0], it[len(MARK) :]) if it.startswith(MARK) else it for it in lines]
