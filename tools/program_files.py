#!/usr/bin/env python3
"""Tries the built program `scram` on real files, streams and terminals: what no run over files in memory shows.

    tools/program_files.py [PROGRAM]    the program defaults to crates/scram/out/scram

The trials of owners need root, those of relays `socat`, and those of many lines `/usr/bin/time`. They are left out
otherwise.
"""
import base64
import fcntl
import hashlib
import hmac
import os
import pty
import shutil
import socket
import subprocess
import sys
import tempfile
import time
from pathlib import Path

TOP = Path(__file__).resolve().parent.parent
PROGRAM = str(Path(sys.argv[1] if len(sys.argv) > 1 else TOP / "crates/scram/out/scram").resolve())
SECONDS = 60
NOBODY = 65534


def scram(*words, password="pencil", **streams):
    """Runs the program, and answers its status, its output and its errors."""
    streams.setdefault("stdout", subprocess.PIPE)
    run = subprocess.run(
        [PROGRAM, *words], input=(password + "\n").encode(), stderr=subprocess.PIPE, timeout=SECONDS, **streams
    )
    return run.returncode, (run.stdout or b"").decode(), run.stderr.decode()


def devices(folder):
    """A device and a pipe are not changed."""
    os.mkfifo(folder / "pipe")
    for name in ("/dev/null", str(folder / "pipe")):
        status, _, errors = scram("users", "add", name, "alice")
        assert status == 4 and name in errors and "not a regular file" in errors, errors
    assert Path("/dev/null").is_char_device()
    assert not Path("/dev/null.new").exists()


def links(folder):
    """A link stays a link, and the file that it leads to is changed. A link to no file is an error."""
    (folder / "below").mkdir()
    (folder / "link").symlink_to("below/users.txt")
    status, _, errors = scram("users", "add", str(folder / "link"), "alice")
    assert status == 4 and "link" in errors, errors
    (folder / "below/users.txt").touch(mode=0o640)
    assert scram("users", "add", str(folder / "link"), "alice")[:2] == (0, "added\n")
    assert (folder / "link").is_symlink()
    assert (folder / "below/users.txt").read_text().startswith("alice SCRAM-SHA-256$")
    assert sorted(path.name for path in (folder / "below").iterdir()) == ["users.txt"]


def owners(folder):
    """The new file has the owner, the group and the mode of the old one."""
    users = folder / "users.txt"
    users.touch()
    users.chmod(0o640)
    os.chown(users, NOBODY, NOBODY)
    assert scram("users", "add", str(users), "alice")[0] == 0
    found = users.stat()
    assert (found.st_uid, found.st_gid, found.st_mode & 0o777) == (NOBODY, NOBODY, 0o640)


def owner_lost(folder):
    """Without the right to keep the owner, the old file stays."""
    users = folder / "users.txt"
    users.write_text("")
    users.chmod(0o666)
    folder.chmod(0o777)
    status, _, errors = scram("users", "add", str(users), "alice", user=NOBODY, group=NOBODY)
    assert status == 4 and "owner" in errors and str(users) in errors, errors
    assert users.read_text() == "" and users.stat().st_uid == 0
    assert [path.name for path in folder.iterdir()] == ["users.txt"]


def changes_at_once(folder):
    """Of changes that start at once each is made, if it may wait."""
    users = str(folder / "users.txt")
    runs = [
        subprocess.Popen(
            [PROGRAM, "users", "add", users, f"user{number}", "--wait", "50"],
            stdin=subprocess.PIPE,
            stdout=subprocess.DEVNULL,
        )
        for number in range(12)
    ]
    for run in runs:
        run.communicate(b"pencil\n", timeout=SECONDS)
    assert [run.returncode for run in runs] == [0] * 12
    assert len(Path(users).read_text().splitlines()) == 24


def left_over(folder):
    """A new file that a killed process left is replaced. One that a process has locked is waited for, or an error."""
    users, new = folder / "users.txt", folder / "users.txt.new"
    other = folder / "other.txt"
    other.write_text("kept")
    os.link(other, new)
    assert scram("users", "add", str(users), "alice")[:2] == (0, "added\n")
    assert not new.exists() and other.read_text() == "kept"
    with open(new, "w", encoding="ascii") as held:
        fcntl.flock(held, fcntl.LOCK_EX)
        status, _, errors = scram("users", "add", str(users), "bob", "--wait", "1")
        assert status == 4 and str(new) in errors and "--wait" in errors, errors
        waiting = subprocess.Popen(
            [PROGRAM, "users", "add", str(users), "bob", "--wait", "50"], stdin=subprocess.PIPE, stdout=subprocess.DEVNULL
        )
        waiting.stdin.write(b"pencil\n")
        waiting.stdin.close()
        time.sleep(1)
        assert waiting.poll() is None
    assert waiting.wait(timeout=SECONDS) == 0
    new.symlink_to(other)
    status, _, errors = scram("users", "add", str(users), "carol")
    assert status == 4 and str(new) in errors and other.read_text() == "kept", errors


def killed(folder):
    """A change that is killed leaves the whole old or new file, and the next change works."""
    users = folder / "users.txt"
    users.write_text("".join(record(f"user{number}", "SCRAM-SHA-256", b"salt", 1) for number in range(2000)))
    for number in range(20):
        run = subprocess.Popen(
            [PROGRAM, "users", "add", str(users), f"name{number}"], stdin=subprocess.PIPE, stdout=subprocess.DEVNULL
        )
        run.stdin.write(b"pencil\n")
        run.stdin.close()
        time.sleep(number / 500)
        run.kill()
        run.wait()
    assert scram("users", "add", str(users), "last")[:2] == (0, "added\n")
    assert scram("users", "list", str(users))[0] == 0 and not (folder / "users.txt.new").exists()


def hard_links(folder):
    """A file with two names is not changed, and the error says what to do."""
    users = folder / "users.txt"
    users.write_text("")
    os.link(users, folder / "second.txt")
    status, _, errors = scram("users", "add", str(users), "alice")
    assert status == 4 and "hard link" in errors and "symbolic link" in errors and str(users) in errors, errors
    assert users.read_text() == "" and not (folder / "users.txt.new").exists()


def odd_lines(folder):
    """A line that is empty, a comment, or of a Windows file is named as such, with its number."""
    users = folder / "users.txt"
    line = record("alice", "SCRAM-SHA-256", b"salt", 1)
    for odd, words in (
        ("\n", "line 2 is empty"),
        ("# users\n", "line 2 is a comment"),
        (line[:-1] + "\r\n", "line 2 ends with a carriage return"),
    ):
        users.write_bytes((line + odd + line).encode())
        for command in (["list"], ["add"], ["check"]):
            status, said, errors = scram("users", *command, str(users), *["bob"] * (command == ["add"]))
            assert (status, said) == (4, "") and words in errors, errors


def gsasl_of(line):
    """A line with the record as `gsasl --mkpasswd` writes it."""
    name, _, text = line.rstrip("\n").rpartition(" ")
    mechanism, count, salt, stored, server = text.replace(":", "$").split("$")
    return f"{name} {{{mechanism}}}{count},{salt},{stored},{server}\n"


def imports(folder):
    """Records of PostgreSQL, of gsasl and of a database are imported and exported. A dry run and an error change nothing."""
    users = folder / "users.txt"
    alice, bob = (record(name, "SCRAM-SHA-256", b"0123456789abcdef", 4096) for name in ("alice", "b=2Cob c"))
    given = alice + gsasl_of(bob)
    status, said, _ = scram("users", "import", str(users), "--dry-run", password=given[:-1])
    assert (status, said.splitlines()[-1]) == (0, "2 to add, 0 to replace") and not users.exists(), said
    assert said.startswith("add SCRAM-SHA-256 4096 alice\nadd SCRAM-SHA-256 4096 $'b,ob c'\n"), said
    assert scram("users", "import", str(users), password=given[:-1])[:2] == (0, "2 added, 0 replaced\n")
    assert users.read_text() == alice + bob
    other = record("alice", "SCRAM-SHA-256", b"0123456789abcdef", 4096, password="other")
    assert scram("users", "import", str(users), password=other[:-1])[:2] == (0, "0 added, 1 replaced\n")
    assert users.read_text() == other + bob
    for given, words in ((alice + "bob", "Line 2"), (alice + alice[:-1], "Line 2"), ("alice {SCRAM-SHA-256}1,2", "Line 1")):
        status, _, errors = scram("users", "import", str(users), password=given)
        assert status == 4 and words in errors and users.read_text() == other + bob, errors
    status, said, errors = scram("users", "export", str(users), "--gsasl")
    assert (status, said) == (0, gsasl_of(other) + gsasl_of(bob)) and "2 exported" in errors, (said, errors)
    status, said, _ = scram("users", "export", str(users))
    assert (status, said) == (0, other + bob)
    assert scram("users", "import", str(folder / "users.db"), "--db", password=said[:-1])[1] == "2 added, 0 replaced\n"
    assert scram("users", "import", str(folder / "users.db"), "--db", password=alice[:-1])[1] == "0 added, 1 replaced\n"
    assert scram("users", "export", str(folder / "users.db"), "--db")[:2] == (0, alice + bob)


def outputs(folder):
    """After a change the errors say that it is made, also if the output cannot be written."""
    users = str(folder / "users.txt")
    with open("/dev/full", "wb") as full:
        status, _, errors = scram("users", "add", users, "alice", stdout=full)
    assert status == 4 and "The file is changed, but" in errors, errors
    assert Path(users).read_text().startswith("alice ")
    for closed, words in ((">&-", "Standard output is closed."), ("<&-", "Standard input is closed.")):
        run = subprocess.run(
            ["sh", "-c", f'exec "$0" record {closed}', PROGRAM],
            input=b"pencil\n",
            stdout=subprocess.DEVNULL,
            stderr=subprocess.PIPE,
            timeout=SECONDS,
        )
        assert run.returncode == 4 and words in run.stderr.decode(), run.stderr


def quoted_names(folder):
    """A shell passes each name that `users list` prints to `users remove`."""
    users = str(folder / "users.txt")
    names = ["alice", "a,b c=", "\x1b[31m'\\", "Müller", ""]
    for name in names:
        assert scram("users", "add", users, name, "--mechanism", "SCRAM-SHA-256", "--force")[0] == 0
    listed = scram("users", "list", users)[1]
    assert listed.isascii() and "\x1b" not in listed
    for line, name in zip(listed.splitlines(), names):
        word = line.split(" ", 2)[2]
        shell = ["bash", "-c", f'exec "$0" users remove "$1" {word}', PROGRAM, users]
        assert subprocess.run(shell, stdout=subprocess.DEVNULL, timeout=SECONDS).returncode == 0, name
    assert Path(users).read_text() == ""


def terminals(_folder):
    """At a terminal the password is an error, or asked for on the errors."""
    for words, status, text in ((["record"], 2, b"--echo"), (["record", "--echo"], 0, b"Password: ")):
        above, below = pty.openpty()
        os.write(above, b"pencil\npencil\n")
        run = subprocess.run(
            [PROGRAM, *words], stdin=below, stdout=subprocess.DEVNULL, stderr=subprocess.PIPE, timeout=SECONDS
        )
        os.close(above)
        os.close(below)
        assert run.returncode == status and text in run.stderr, run.stderr


def relays(folder):
    """Behind `socat` a client receives the error of a server that rejects it."""
    users = str(folder / "users.txt")
    assert scram("users", "add", users, "alice")[0] == 0
    with socket.socket() as free:
        free.bind(("127.0.0.1", 0))
        port = free.getsockname()[1]
    command = f"SYSTEM:'{PROGRAM} server SCRAM-SHA-256 {users}; true'"
    relay = subprocess.Popen(
        ["socat", f"TCP-LISTEN:{port},bind=127.0.0.1,reuseaddr,fork", command], stderr=subprocess.DEVNULL
    )
    try:
        time.sleep(1)
        for _ in range(10):
            with socket.create_connection(("127.0.0.1", port), timeout=SECONDS) as client:
                client.sendall(b"ZZZZ\n")
                answer = b"".join(iter(lambda: client.recv(4096), b""))
            assert answer == b"ZT1pbnZhbGlkLWVuY29kaW5n\n", answer  # e=invalid-encoding
    finally:
        relay.terminate()
        relay.wait(timeout=SECONDS)


def init(name):
    """The start of a client over the bytes of AMQP: the header of SASL, and the init of a user."""
    mechanism, message = b"SCRAM-SHA-256", f"n,,n={name},r=nonce".encode()
    fields = b"\2\xa3" + bytes([len(mechanism)]) + mechanism + b"\xa0" + bytes([len(message)]) + message
    body = b"\2\1\0\0\0\x53\x41\xc0" + bytes([len(fields)]) + fields
    return b"AMQP\3\1\0\0" + (len(body) + 4).to_bytes(4, "big") + body


def measured(given, *words):
    """The output of the program for an input, its processor time in seconds, and its memory in kB."""
    run = subprocess.run(
        ["/usr/bin/time", "-f", "%U %S %M", PROGRAM, *words], input=given, capture_output=True, timeout=SECONDS
    )
    user, system, memory = run.stderr.split()[-3:]
    return run.stdout, float(user) + float(system), int(memory)


def record(name, mechanism, salt, count, password="pencil"):
    """The line of a user (RFC 5802, section 3), by Python's hashlib."""
    digest = {"SCRAM-SHA-1": "sha1", "SCRAM-SHA-256": "sha256", "SCRAM-SHA-512": "sha512"}[mechanism]
    salted = hashlib.pbkdf2_hmac(digest, password.encode(), salt, count)
    stored = hashlib.new(digest, hmac.digest(salted, b"Client Key", digest)).digest()
    keys = (base64.b64encode(it).decode() for it in (salt, stored, hmac.digest(salted, b"Server Key", digest)))
    return "{} {}${}:{}${}:{}\n".format(name, mechanism, count, *keys)


def parts(line):
    """The name, the mechanism, the salt and the iteration count of a line."""
    name, _, rest = line.rpartition(" ")
    mechanism, _, rest = rest.partition("$")
    count, _, keys = rest.partition(":")
    return name, mechanism, base64.b64decode(keys.split("$")[0]), int(count)


def challenged(users, mechanism, name):
    """The form that a server's challenge shows of a user: the length of the salt, and the iteration count."""
    given = base64.b64encode(f"n,,n={name},r=nonce".encode()) + b"\n"
    run = subprocess.run([PROGRAM, "server", mechanism, users], input=given, capture_output=True, timeout=SECONDS)
    fields = dict(field.split("=", 1) for field in base64.b64decode(run.stdout.splitlines()[0]).decode().split(","))
    return len(base64.b64decode(fields["s"])), int(fields["i"]), run.stderr.decode()


def two_hashes(folder):
    """A new user has a record for SCRAM-SHA-256 and then one for SCRAM-SHA-512. Their keys are those of Python's hashlib."""
    users = folder / "users.txt"
    assert scram("users", "add", str(users), "alice")[:2] == (0, "added\n")
    lines = users.read_text().splitlines(keepends=True)
    found = [parts(line) for line in lines]
    assert [it[:2] for it in found] == [("alice", "SCRAM-SHA-256"), ("alice", "SCRAM-SHA-512")], found
    assert all((len(salt), count) == (16, 4096) for _, _, salt, count in found) and found[0][2] != found[1][2], found
    assert lines == [record(*it) for it in found]
    assert scram("users", "check", str(users), "alice")[:2] == (0, "SCRAM-SHA-256 yes\nSCRAM-SHA-512 yes\n")
    assert scram("users", "list", "--hashes", str(users))[:2] == (0, "SCRAM-SHA-256\nSCRAM-SHA-512\n")
    for mechanism in ("SCRAM-SHA-256", "SCRAM-SHA-512"):
        known, unknown = (challenged(str(users), mechanism, name) for name in ("alice", "nobody"))
        assert known[:2] == unknown[:2] == (16, 4096) and "several forms" not in known[2] + unknown[2]


def older_file(folder):
    """The users of a file with one hash get records for the other one by `users passwd`, in the form of the file."""
    users = folder / "users.txt"
    users.write_text("".join(record(name, "SCRAM-SHA-256", bytes(24), 5000) for name in ("alice", "bob")))
    assert scram("users", "list", "--hashes", str(users))[:2] == (0, "SCRAM-SHA-256\n")
    assert scram("users", "check", str(users))[:2] == (0, "")
    assert scram("users", "add", str(users), "carol", password="third")[:2] == (0, "added\n")
    forms = [(len(it[2]), it[3]) for it in map(parts, users.read_text().splitlines())]
    assert forms == [(24, 5000)] * 3 + [(16, 4096)], forms
    status, said, errors = scram("users", "check", str(users))
    assert (status, said) == (3, "SCRAM-SHA-512 alice: no record\nSCRAM-SHA-512 bob: no record\n"), said
    assert "passwd" in errors, errors
    assert scram("users", "list", "--hashes", str(users))[1] == "SCRAM-SHA-256\n"
    for name in ("alice", "bob"):
        assert scram("users", "passwd", str(users), name, password="new")[:2] == (0, "changed\n")
    assert scram("users", "check", str(users))[:2] == (0, "")
    assert scram("users", "list", "--hashes", str(users))[1] == "SCRAM-SHA-256\nSCRAM-SHA-512\n"
    assert scram("users", "check", str(users), "alice", password="new")[0] == 0
    assert users.read_text().splitlines(keepends=True) == [
        record(*it, password="third" if it[0] == "carol" else "new")
        for it in map(parts, users.read_text().splitlines())
    ]


def other_forms(folder):
    """Another form by options is noted. The server notes a file with several forms, and the check lists the records."""
    users = folder / "users.txt"
    assert scram("users", "add", str(users), "alice")[2] == ""
    status, said, errors = scram("users", "add", str(users), "bob", "--iterations", "5000", "--salt-length", "20")
    assert (status, said) == (0, "added\n") and errors.count("a salt of 20 bytes and 5000 iterations") == 2, errors
    for mechanism in ("SCRAM-SHA-256", "SCRAM-SHA-512"):
        salt, count, errors = challenged(str(users), mechanism, "nobody")
        assert (salt, count) == (16, 4096) and errors.count("several forms") == 1 and str(users) in errors, errors
    status, said, _ = scram("users", "check", str(users))
    assert status == 3 and said.count(" bob: a salt of 20 bytes and 5000 iterations") == 2 and "alice" not in said, said
    assert scram("users", "passwd", str(users), "bob")[:2] == (0, "changed\n")
    assert scram("users", "check", str(users))[:2] == (0, "")


def many_lines(folder):
    """Among 200,000 lines a server parses only those of the client's user. `list` holds one line, and `add` two texts."""
    users = folder / "users.txt"
    assert scram("users", "add", str(users), "alice", "--mechanism", "SCRAM-SHA-256")[0] == 0
    record = users.read_text().removeprefix("alice")
    users.write_text("".join(f"user{number:07}{record}" for number in range(200_000)))
    line = base64.b64encode(b"n,,n=user0199999,r=nonce") + b"\n"
    for given, options in ((line, ()), (init("user0199999"), ("--frames",))):
        answer, seconds, memory = measured(given, "server", "SCRAM-SHA-256", str(users), *options)
        print(f"  {seconds:.2f} s of the processor, {memory} kB of memory {' '.join(options)}")
        assert b"r=nonce" in (answer if options else base64.b64decode(answer)), answer
        assert seconds < 1 and memory < 64_000, (seconds, memory)
    for words, most, room in (("list", 1, 20_000), ("add", 1.5, 80_000)):
        answer, seconds, memory = measured(b"pencil\n", "users", words, str(users), *["bob"] * (words == "add"))
        print(f"  users {words}: {seconds:.2f} s of the processor, {memory} kB of memory")
        assert answer.count(b"\n") == (200_000 if words == "list" else 1), answer[-100:]
        assert seconds < most and memory < room, (seconds, memory)


def main():
    trials = [
        devices,
        links,
        changes_at_once,
        left_over,
        killed,
        hard_links,
        odd_lines,
        imports,
        outputs,
        quoted_names,
        terminals,
        two_hashes,
        older_file,
        other_forms,
    ]
    if os.geteuid() == 0:
        trials += [owners, owner_lost]
    if shutil.which("socat"):
        trials.append(relays)
    if os.path.exists("/usr/bin/time"):
        trials.append(many_lines)
    wrong = 0
    for trial in trials:
        with tempfile.TemporaryDirectory() as folder:
            os.chmod(folder, 0o755)
            try:
                trial(Path(folder))
                print(f"{trial.__name__}: as expected")
            except AssertionError as error:
                wrong += 1
                print(f"{trial.__name__}: WRONG: {error}")
    sys.exit(1 if wrong else 0)


if __name__ == "__main__":
    main()
