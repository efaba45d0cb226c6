#!/usr/bin/env python3
"""Plays logins of the built program `scram`: its client against its server, and each against GNU SASL's `gsasl`.

    tools/program_peers.py [PROGRAM]    the program defaults to crates/scram/out/scram

Each login is played with the right password and with another, and again for an identity that the user may act for and
for one that it may not. `gsasl` is left out if it is not installed. As a server it accepts every identity.
"""
import base64
import os
import re
import shutil
import subprocess
import sys
import tempfile
import threading
from pathlib import Path

TOP = Path(__file__).resolve().parent.parent
PROGRAM = str(Path(sys.argv[1] if len(sys.argv) > 1 else TOP / "crates/scram/out/scram").resolve())
MECHANISMS = ("SCRAM-SHA-1", "SCRAM-SHA-256", "SCRAM-SHA-512")
DEFAULTS = ("SCRAM-SHA-256", "SCRAM-SHA-512")  # those that `users add` makes records for
USER, PASSWORD = "alice", "pencil"
ALLOWED, OTHER = "b=o,b", "carol"
ASKS_ALLOWED, ASKS_OTHER = ("--acts-for", ALLOWED), ("--acts-for", OTHER)
RIGHT = ("--may-act", f"{USER}:{ALLOWED}")
SECONDS = 20


def scram(*words, password=""):
    """Runs the program, and answers its status."""
    return subprocess.run(
        [PROGRAM, *words],
        input=(password + "\n").encode(),
        stdout=subprocess.DEVNULL,
        stderr=subprocess.DEVNULL,
        timeout=SECONDS,
    ).returncode


def start(*command):
    return subprocess.Popen(
        command, stdin=subprocess.PIPE, stdout=subprocess.PIPE, stderr=subprocess.DEVNULL, bufsize=0
    )


def tell(process, data):
    """Writes what a process reads, which may have ended."""
    try:
        process.stdin.write(data)
    except BrokenPipeError:
        pass


def end(process, last=b""):
    """Writes the last of what a process reads, and answers its status."""
    tell(process, last)
    process.stdin.close()
    return process.wait(timeout=SECONDS)


def text_of(line):
    """The text in the last word of a line, which is base64, or None."""
    words = re.findall(rb"[A-Za-z0-9+/]+=*", line)
    try:
        return base64.b64decode(words[-1], validate=True) if words else None
    except ValueError:
        return None


def next_line(process, heads):
    """The next line of a process whose text begins with one of these, alone and with its end; or none at its end."""
    for line in iter(process.stdout.readline, b""):
        text = text_of(line)
        if text and text.startswith(heads):
            return base64.b64encode(text) + b"\n"
    return b""


def carry(client, server):
    """Carries two lines each way."""
    for heads in ((b"n,",), (b"c=",)):
        tell(server, next_line(client, heads))
        answer = next_line(server, (b"r=", b"v=", b"e="))
        if not answer:
            return
        tell(client, answer)


def over_lines(mechanism, users, password, asks=(), rights=()):
    """Both statuses of a login of the program with itself."""
    client = start(PROGRAM, "client", mechanism, USER, *asks)
    server = start(PROGRAM, "server", mechanism, users, *rights)
    tell(client, password.encode() + b"\n")
    carry(client, server)
    return end(client), end(server)


def over_bytes(mechanism, users, password, asks=(), rights=()):
    """Plays a login over the bytes of AMQP, by two pipes."""
    (from_client, to_server), (from_server, to_client) = os.pipe(), os.pipe()
    os.write(to_client, password.encode() + b"\n")
    client = subprocess.Popen(
        [PROGRAM, "client", mechanism, USER, "--frames", *asks],
        stdin=from_server,
        stdout=to_server,
        stderr=subprocess.DEVNULL,
    )
    server = subprocess.Popen(
        [PROGRAM, "server", mechanism, users, "--frames", *rights],
        stdin=from_client,
        stdout=to_client,
        stderr=subprocess.DEVNULL,
    )
    for end_of_pipe in (from_client, to_server, from_server, to_client):
        os.close(end_of_pipe)
    return client.wait(timeout=SECONDS), server.wait(timeout=SECONDS)


def relay(source, sink, last=b""):
    """Passes all that a process writes to another one, and then these last bytes."""
    for line in iter(source.stdout.readline, b""):
        tell(sink, line)
    tell(sink, last)
    sink.stdin.close()


def joined(program, gsasl):
    """Statuses of the program and of `gsasl`, each of which reads all that the other one writes."""
    ways = [
        threading.Thread(target=relay, args=(gsasl, program)),
        threading.Thread(target=relay, args=(program, gsasl, b"\n")),
    ]  # `gsasl` ends its exchange by an empty line
    for way in ways:
        way.start()
    for way in ways:
        way.join()
    return program.wait(timeout=SECONDS), gsasl.wait(timeout=SECONDS)


def against_gsasl_server(mechanism, _users, password, asks=()):
    """Statuses of the program's client and of `gsasl` as server."""
    client = start(PROGRAM, "client", mechanism, USER, *asks)
    tell(client, password.encode() + b"\n")
    return joined(client, start("gsasl", "--server", "--quiet", "--no-cb", "-m", mechanism, "-p", PASSWORD))


def against_gsasl_client(mechanism, users, password, asks=(), rights=()):
    """Statuses of the program's server and of `gsasl` as client."""
    server = start(PROGRAM, "server", mechanism, users, *rights)
    identity = [f"--authorization-id={name}" for name in asks[1:]]
    return joined(
        server, start("gsasl", "--client", "--quiet", "--no-cb", "-m", mechanism, "-a", USER, "-p", password, *identity)
    )


def as_others(way, mechanism, users):
    """Statuses of logins for an identity: with a right, and then without one, by a server that accepts none, and with
    another password."""
    if way == against_gsasl_server:
        return way(mechanism, users, PASSWORD, ASKS_ALLOWED), [way(mechanism, users, "pencils", ASKS_ALLOWED)]
    return way(mechanism, users, PASSWORD, ASKS_ALLOWED, RIGHT), [
        way(mechanism, users, PASSWORD, ASKS_OTHER, RIGHT),
        way(mechanism, users, PASSWORD, ASKS_ALLOWED),
        way(mechanism, users, "pencils", ASKS_ALLOWED, RIGHT),
    ]


def main():
    ways = [(over_lines, MECHANISMS), (over_bytes, MECHANISMS)]
    if shutil.which("gsasl"):
        ways += [(against_gsasl_server, MECHANISMS[:2]), (against_gsasl_client, MECHANISMS[:2])]
    wrong = 0
    with tempfile.TemporaryDirectory() as folder:
        users = str(Path(folder) / "users.txt")
        for mechanism in MECHANISMS:
            assert scram("users", "add", users, USER, "--mechanism", mechanism, password=PASSWORD) == 0
        assert scram("users", "check", users, USER, password=PASSWORD) == 0
        by_default = str(Path(folder) / "default.txt")
        assert scram("users", "add", by_default, USER, password=PASSWORD) == 0
        for mechanism in DEFAULTS:
            right, other = (over_lines(mechanism, by_default, password) for password in (PASSWORD, "pencils"))
            holds = right == (0, 0) and 0 not in other
            wrong += not holds
            print(f"by default {mechanism}: {right} {other}{'' if holds else ' WRONG'}")
        for way, mechanisms in ways:
            for mechanism in mechanisms:
                right = way(mechanism, users, PASSWORD)
                other = way(mechanism, users, "pencils")
                holds = right == (0, 0) and 0 not in other
                wrong += not holds
                print(f"{way.__name__} {mechanism}: {right} {other}{'' if holds else ' WRONG'}")
                right, others = as_others(way, mechanism, users)
                holds = right == (0, 0) and all(0 not in other for other in others)
                wrong += not holds
                print(f"{way.__name__} {mechanism} for an identity: {right} {others}{'' if holds else ' WRONG'}")
    sys.exit(1 if wrong else 0)


if __name__ == "__main__":
    main()
