#!/usr/bin/env python3
"""Logs in over TCP on the loopback: by the program of client.c to a server that is made here, and to the program of
server.c by that and by a client that is made here: `tcp.py CLIENT SERVER`.

Prints a line for each login, and ends with 1 where one of them does not end as it should.
"""
import contextlib
import itertools
import socket
import subprocess
import sys
import tempfile
import threading
import time
from pathlib import Path

sys.dont_write_bytecode = True
sys.path.insert(0, str(Path(__file__).resolve().parent.parent / "python"))
from peers import MECHANISMS, SHA_256, Broker, Login, Plain, Secret  # noqa: E402

OTHERS = ("PLAIN", "ANONYMOUS", "EXTERNAL")


def serve(listener, broker, piece):
    """One connection, whose answers go out in pieces."""
    channel, _ = listener.accept()
    with channel:
        channel.setsockopt(socket.IPPROTO_TCP, socket.TCP_NODELAY, 1)
        while came := channel.recv(4096):
            answer = broker.receive(came)
            for at in range(0, len(answer), piece):
                channel.sendall(answer[at : at + piece])


def logged_in(program, mechanism, password, broker, piece):
    """The status of the program, and what it said."""
    with socket.create_server(("127.0.0.1", 0)) as listener:
        listener.settimeout(20)
        port = str(listener.getsockname()[1])
        side = threading.Thread(target=serve, args=(listener, broker, piece), daemon=True)
        side.start()
        done = subprocess.run(
            [program, "127.0.0.1", port, mechanism, "user"],
            input=password + "\n",
            capture_output=True,
            text=True,
            timeout=60,
            check=False,
        )
        side.join(20)
    return done.returncode, done.stdout.strip() or done.stderr.strip()


def cases():
    """Each a mechanism, the password that is typed, the server, and how the login ends."""
    for version, name in MECHANISMS.items():
        known = Secret(version, "pencil", b"a salt of bytes", 4096)
        yield name, "pencil", Broker(known, *OTHERS, name), (0, "logged in: Done")
        yield name, "pencils", Broker(known, name), (1, "not logged in: Connection: The login was rejected")
        yield name, "pencil", Broker(known, *OTHERS), (1, "not logged in: Connection: Not implemented")
        forged = Broker(known, name, mar=lambda message: message[:-8] + b"AAAAAAA=")
        yield name, "pencil", forged, (1, "not logged in: Client: Server signature mismatch")
        few = Broker(Secret(version, "pencil", b"salt", 4095), name)
        yield name, "pencil", few, (1, "not logged in: Client: Iteration count too small")
    for name in OTHERS:
        yield name, "pencil", Broker(known, *OTHERS), (0, "logged in: Done")
        busy = Broker(known, *OTHERS, code=4)
        late = "not logged in: Connection: The login was rejected: temporary system error"
        yield name, "pencil", busy, (1, late)


USERS = {"user": "pencil", "a,b=c": "pen,cil"}


def by_peer(port, by, piece, late=False, unread=0):
    """Whether a client that is made here is logged in. After that many messages it sends more, before it reads the
    outcome, and then reads to the end."""
    by.begin(late=late)
    with socket.create_connection(("127.0.0.1", port), timeout=20) as channel:
        channel.setsockopt(socket.IPPROTO_TCP, socket.TCP_NODELAY, 1)
        to_server = by.open()
        while to_server:
            for at in range(0, len(to_server), piece):
                channel.sendall(to_server[at : at + piece])
            unread -= 1
            for _ in range(3 if unread == 0 else 0):
                channel.sendall(bytes(10_000))
                time.sleep(0.02)
            to_server = b""
            while not to_server and by.code is None:
                if not (came := channel.recv(4096)):
                    return by.logged_in
                to_server = by.receive(came)
        while unread == 0 and channel.recv(4096):
            pass
    return by.logged_in


REFUSED = "not logged in: Connection: The login was rejected"
#: What the log of server.c says of a wrong password, and of an unknown user, by SCRAM-SHA-256 and by PLAIN.
LOGGED = {"user": ("WRONG_PROOF", "WRONG_PASSWORD"), "nobody": ("UNKNOWN_USER", "WRONG_PASSWORD")}
#: A name, a password, and what the server should say of them.
WORDS = [
    *((name, word, f"logged in: {name}") for name, word in USERS.items()),
    ("user", "pencils", REFUSED),
    ("nobody", "pencil", REFUSED),
]


@contextlib.contextmanager
def server_program(server, logins, *words, log=None):
    """The program of server.c for that many logins, and its port."""
    lines = [
        name.replace("=", "=3D").replace(",", "=2C")
        + " "
        + Secret(SHA_256, word, b"a salt of bytes!", 4096).record_text()
        for name, word in USERS.items()
    ]
    with tempfile.NamedTemporaryFile("w", suffix=".users") as file:
        file.write("".join(line + "\n" for line in lines))
        file.flush()
        pipes = {"stdout": subprocess.PIPE, "stderr": log}
        with subprocess.Popen([server, file.name, str(logins), *words], **pipes, text=True) as program:
            yield program, int(program.stdout.readline())


def peer_of(mechanism, name, word):
    return Plain(name, word) if mechanism == "PLAIN" else Login(SHA_256, name, word)


def to_the_server(client, server):
    """Logins to the program of server.c, each with what the server should say of it, and at last what it should log."""
    with server_program(server, len(WORDS) * 8, log=subprocess.PIPE) as (program, port):
        for name, word, wanted in WORDS:
            for mechanism in ("SCRAM-SHA-256", "PLAIN"):
                done = subprocess.run(
                    [client, "127.0.0.1", str(port), mechanism, name],
                    input=word + "\n",
                    capture_output=True,
                    text=True,
                    timeout=60,
                    check=False,
                )
                said = program.stdout.readline().strip()
                yield f"{mechanism}, {name}", (done.returncode, said), (int(wanted == REFUSED), wanted)
                for piece in (1, 4096):
                    logged_in = by_peer(port, peer_of(mechanism, name, word), piece)
                    said = program.stdout.readline().strip()
                    yield f"{mechanism} of a peer, {name}", (logged_in, said), (wanted != REFUSED, wanted)
                unread = 2 if mechanism == "PLAIN" else 3
                logged_in = by_peer(port, peer_of(mechanism, name, word), 4096, unread=unread)
                said = program.stdout.readline().strip()
                yield f"{mechanism} with unread bytes, {name}", (logged_in, said), (wanted != REFUSED, wanted)
        refused = [name for name, _, wanted in WORDS if wanted == REFUSED]
        wanted = [f"rejected: FE2O3_REJECTION_{why}" for name in refused for why in LOGGED[name] for _ in range(4)]
        yield "the log", (program.stderr.read().splitlines(),), (wanted,)


def without_initial_response(server):
    """Logins of clients that withhold their initial response until the server asks for it, which it does by option."""
    for mechanism in ("SCRAM-SHA-256", "PLAIN"):
        for options in (["ask"], ["challenge", "ask"], []):
            with server_program(server, len(WORDS) * 2, mechanism, "", *options) as (program, port):
                for name, word, says in WORDS:
                    wanted = says if options else REFUSED
                    for piece in (1, 4096):
                        logged_in = by_peer(port, peer_of(mechanism, name, word), piece, late=True)
                        said = program.stdout.readline().strip()
                        what = " ".join([f"{mechanism} without an initial response, {name}", *options])
                        yield what, (logged_in, said), (wanted != REFUSED, wanted)


#: The identity that a client names, the words of the server, and what the server should say of the user.
IDENTITIES = [
    ("", ["for:bob"], "logged in: user"),
    ("user", ["for:bob"], "logged in: user for user"),
    ("bob", ["for:bob"], "logged in: user for bob"),
    ("carol", ["for:bob"], REFUSED),
    ("bobby", ["for:bob"], REFUSED),
    ("bob", [], REFUSED),
]


def for_identities(client, server):
    """Logins of clients that name an authorization identity, to the program of server.c."""
    for mechanism in ("SCRAM-SHA-256", "PLAIN"):
        for identity, words, wanted in IDENTITIES:
            with server_program(server, 1, mechanism, "", *words) as (program, port):
                done = subprocess.run(
                    [client, "127.0.0.1", str(port), mechanism, "user", *([f"for:{identity}"] if identity else [])],
                    input="pencil\n",
                    capture_output=True,
                    text=True,
                    timeout=60,
                    check=False,
                )
                what = " ".join([f"{mechanism} as {identity or 'itself'}", *words])
                yield what, (done.returncode, program.stdout.readline().strip()), (int(wanted == REFUSED), wanted)


def main():
    differ = 0
    for mechanism, password, broker, wanted in cases():
        for piece in (1, 4096):
            broker_again = Broker(broker.secret, *broker.names, code=broker.code, mar=broker.mar)
            found = logged_in(sys.argv[1], mechanism, password, broker_again, piece)
            differ += found != wanted
            print(mechanism, f"in pieces of {piece}:", *found, "" if found == wanted else f"DIFFERS: {wanted}")
    programs = sys.argv[1:3]
    runs = (to_the_server(*programs), without_initial_response(sys.argv[2]), for_identities(*programs))
    for what, found, wanted in itertools.chain(*runs):
        differ += found != wanted
        print(what, *found, "" if found == wanted else f"DIFFERS: {wanted}")
    return 1 if differ else 0


if __name__ == "__main__":
    sys.exit(main())
