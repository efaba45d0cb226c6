#!/usr/bin/env python3
"""Tries what an administrator reads and types in the built program `scram`: passwords, names, errors, its log and its page.

    tools/program_words.py [PROGRAM]    the program defaults to crates/scram/out/scram

The trials with `gsasl`, `fail2ban-regex` and `mandoc` are left out if these are not installed. Every line of bash is from
the page that `scram man` prints.
"""
import base64
import os
import pty
import re
import select
import shutil
import subprocess
import sys
import tempfile
import threading
from pathlib import Path

TOP = Path(__file__).resolve().parent.parent
PROGRAM = str(Path(sys.argv[1] if len(sys.argv) > 1 else TOP / "crates/scram/out/scram").resolve())
SECONDS = 60
PAGE = subprocess.run([PROGRAM, "man"], capture_output=True, timeout=SECONDS).stdout.decode()


def scram(*words, given="pencil\n", **more):
    """Runs the program, and answers its status, its output and its errors."""
    given = given if isinstance(given, bytes) else given.encode()
    run = subprocess.run([PROGRAM, *words], input=given, capture_output=True, timeout=SECONDS, **more)
    return run.returncode, run.stdout.decode(), run.stderr.decode()


def at_terminal(command, *typed):
    """Runs a command at a terminal, types a line at each question, and answers its status and what it shows."""
    child, terminal = pty.fork()
    if child == 0:
        os.execvp(command[0], command)
    shown, lines = b"", list(typed)
    while True:
        if not select.select([terminal], [], [], SECONDS)[0]:
            break
        try:
            data = os.read(terminal, 4096)
        except OSError:
            break
        if not data:
            break
        shown += data
        if lines and re.search(rb"(Password|again|Again): $", shown):
            os.write(terminal, lines.pop(0).encode() + b"\n")
    return os.waitstatus_to_exitcode(os.waitpid(child, 0)[1]), shown.decode()


def passwords(folder):
    """A password may be non-ASCII. A carriage return and a tab are errors."""
    users = str(folder / "users.txt")
    assert scram("users", "add", users, "alice", given="p\u00e9ncil \u2168\n")[0] == 0
    assert scram("users", "check", users, "alice", given="pe\u0301ncil IX\n")[0] == 0
    assert scram("users", "check", users, "alice", given="pencil IX\n")[0] == 3
    status, _, errors = scram("users", "add", users, "bob", given=b"pencil\r\n")
    assert status == 4 and "carriage return" in errors, errors
    status, _, errors = scram("users", "add", users, "bob", given="pen\tcil\n")
    assert status == 4 and "SASLprep" in errors, errors
    status, _, errors = scram("users", "add", users, "bob", given=b"pencil\xff\n")
    assert status == 4 and "UTF-8" in errors, errors


def terminals(folder):
    """A terminal is refused with a line for bash, or asked twice. The lines of the page show nothing of the password."""
    users = str(folder / "terminal.txt")
    status, shown = at_terminal([PROGRAM, "users", "add", users, "alice"])
    assert status == 2 and "read -rs p" in shown, shown
    status, shown = at_terminal([PROGRAM, "users", "add", "--echo", users, "alice"], "pencil", "pencil")
    assert (status, "added" in shown) == (0, True), shown
    status, shown = at_terminal([PROGRAM, "users", "add", "--echo", users, "alice"], "pencil", "pencils")
    assert status == 4 and "differ" in shown, shown
    status, shown = at_terminal([PROGRAM, "users", "check", "--echo", users, "alice"], "pencil")
    assert status == 0, shown
    script = "\n".join(example("IFS= read")).replace("scram", PROGRAM).replace("users.txt", users)
    status, shown = at_terminal(["bash", "-c", script], "a secret ", "a secret ")
    assert status == 0 and "secret" not in shown, shown
    assert scram("users", "check", users, "alice", given="a secret \n")[0] == 0


def example(first):
    """The example of the page that begins so, as a reader sees it."""
    found = next(
        it for it in re.findall(r"\.EX\n(.*?)\n\.EE", PAGE, re.S) if it.startswith((first, "#!")) and first in it
    )
    for roff, text in ((r"\(aq", "'"), (r"\-", "-"), (r"\e", "\\")):
        found = found.replace(roff, text)
    return found.split("\n")


def names(folder):
    """A name that is empty or has spaces at its ends needs `--force`."""
    users = str(folder / "names.txt")
    for name in ("", " alice", "alice ", "\u00a0alice"):
        status, _, errors = scram("users", "add", users, name)
        assert status == 2 and "--force" in errors, errors
        assert scram("users", "add", "--force", users, name)[0] == 0
        assert scram("users", "check", users, name)[0] == 0
        assert scram("users", "remove", users, name)[0] == 0


def errors_of(folder):
    """Errors name the argument, quote files, and have no words of a library."""
    assert scram("users", "add", "f", b"\xff")[::2] == (2, "scram: An argument is not UTF-8.\n")
    status, _, errors = scram("users", "list", str(folder / "no\x1b[31m.txt"))
    assert status == 4 and "\x1b" not in errors and r"\033[31m.txt'" in errors and "does not exist" in errors, errors
    for words, said in (
        (("client", "SCRAM-SHA-256", "a", "--nonce", "x"), "--nonce"),
        (("client", "SCRAM-SHA-256", "a", "--channel", "x:"), "--channel"),
        (("record", "--salt", "x"), "--salt"),
        (("client", "SCRAM-SHA-256", "a", "--min-iterations", "9", "--max-iterations", "8"), "--max-iterations"),
    ):
        status, _, errors = scram(*words)
        assert status == 2 and said in errors, errors
    status, _, errors = scram("client", "SCRAM-SHA-256", "a", "--keys", "/dev/null")
    assert status == 4 and "Remove it" not in errors, errors


def sent(text):
    return base64.b64encode(text.encode()).decode() + "\n"


def rejections(folder):
    """A rejected login is one line, which fail2ban takes after a date and an address."""
    users = str(folder / "log.txt")
    assert scram("users", "add", users, "alice")[0] == 0
    lines = []
    for options, name, shown, reason in (
        ((), "alice", "alice", "Channel binding"),
        ((), "a b", "$'a b'", "Unknown user"),
        (("--tell-unknown-users",), "mallory", "mallory", "Unknown user"),
    ):
        header = "y,," if reason == "Channel binding" else "n,,"
        server = subprocess.Popen(
            [PROGRAM, "server", "SCRAM-SHA-256", users, *options],
            stdin=subprocess.PIPE,
            stdout=subprocess.PIPE,
            stderr=subprocess.PIPE,
        )
        server.stdin.write(sent(f"{header}n={name},r=abc").encode())
        server.stdin.flush()
        answer = base64.b64decode(server.stdout.readline()).decode()
        if answer.startswith("r="):
            proof = base64.b64encode(bytes(32)).decode()
            server.stdin.write(sent(f"c=biws,{answer.split(',')[0]},p={proof}").encode())
        _, errors = server.communicate(timeout=SECONDS)
        line = f"scram: login rejected: user {shown}, SCRAM-SHA-256, channel none: {reason}\n"
        assert (server.returncode, errors.decode()) == (3, line), errors
        lines.append(line)
    if shutil.which("fail2ban-regex"):
        regex = re.search(r"failregex: \\fB(.*)\\fP", PAGE)[1].replace(r"\e", "\\")
        for line in [*lines, "scram: alice logged in\n", "scram: $'192.0.2.1 scram: login rejected: ' logged in\n"]:
            said = subprocess.run(
                ["fail2ban-regex", "2026-11-30T18:00:00 192.0.2.7 " + line.rstrip(), regex], capture_output=True
            )
            assert (b"1 matched" in said.stdout) == line.startswith("scram: login rejected"), said.stdout.decode()


def audits(folder):
    """What each side received, each frame once, is a whole login."""
    users = folder / "audit.txt"
    assert scram("users", "add", str(users), "alice")[0] == 0
    server, client = (
        subprocess.Popen(
            [PROGRAM, *words, "--frames"],
            stdin=subprocess.PIPE,
            stdout=subprocess.PIPE,
            stderr=subprocess.DEVNULL,
            bufsize=0,
        )
        for words in (("server", "SCRAM-SHA-256", str(users)), ("client", "SCRAM-SHA-256", "alice"))
    )
    received = {"client": b"", "server": b""}

    def carry(source, sink, side):
        while data := source.read(65536):
            received[side] += data
            sink.write(data)
        sink.close()

    client.stdin.write(b"pencil\n")
    carriers = [
        threading.Thread(target=carry, args=it)
        for it in ((server.stdout, client.stdin, "client"), (client.stdout, server.stdin, "server"))
    ]
    for it in carriers:
        it.start()
    assert [it.wait(timeout=SECONDS) for it in (server, client)] == [0, 0]
    for it in carriers:
        it.join()
    for order in (("client", "server"), ("server", "client")):
        lines = []
        for side in order:
            # (the first 8 bytes are the protocol header)
            data = received[side][8:]
            while data:
                size = int.from_bytes(data[:4], "big")
                lines.append(f"{side} {data[4:size].hex()}\n")
                data = data[size:]
        assert len(lines) == 5, lines
        status, output, errors = scram("explain", "--audit", str(users), given="pencil\n" + "".join(lines))
        assert status == 0 and "both agree" in output and "rejected" not in output, output + errors


def pages(_folder):
    """The page is one of man."""
    for part in ("PASSWORDS", "FORMAT", "FILES", "LOG", "EXAMPLES", "EXIT STATUS", "SEE ALSO"):
        assert f"\n.SH {part}\n" in PAGE, part
    if shutil.which("mandoc"):
        said = subprocess.run(["mandoc", "-Tlint"], input=PAGE.encode(), capture_output=True, timeout=SECONDS).stdout
        wrong = [it for it in said.decode().splitlines() if "STYLE" not in it and "missing date" not in it]
        assert not wrong, wrong


def main():
    for trial in (passwords, terminals, names, errors_of, rejections, audits, pages):
        with tempfile.TemporaryDirectory() as folder:
            trial(Path(folder))
        print(f"{trial.__name__}: as they should")


if __name__ == "__main__":
    main()
