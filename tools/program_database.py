#!/usr/bin/env python3
"""Tries the built program `scram` on SQLite files (`--db`): logins at once, beside `sqlite3`, without the right to write, and
beside changes that are killed; locks and faults. How it makes a new file is tried by tools/program_new_database.py.

    tools/program_database.py [PROGRAM]           the program defaults to crates/scram/out/scram
    tools/program_database.py [PROGRAM] --sizes   also measures a login among 1, 1,000 and 1,000,000 users

It needs `sqlite3`, and Python's sqlite3 module. Without the right to change users one trial is left out.
"""
import fcntl
import base64
import hashlib
import hmac
import os
import random
import re
import sqlite3
import subprocess
import sys
import tempfile
import threading
import time
from pathlib import Path

TOP = Path(__file__).resolve().parent.parent
WORDS = [word for word in sys.argv[1:] if not word.startswith("--")]
PROGRAM = str(Path(WORDS[0] if WORDS else TOP / "crates/scram/out/scram").resolve())
SECONDS = 60

TABLE = (
    "CREATE TABLE users (name TEXT NOT NULL, mechanism TEXT NOT NULL, salt BLOB NOT NULL, "
    "iterations INTEGER NOT NULL, stored_key BLOB NOT NULL, server_key BLOB NOT NULL, "
    "PRIMARY KEY (name, mechanism)) WITHOUT ROWID"
)

HASHES = {"SCRAM-SHA-1": "sha1", "SCRAM-SHA-256": "sha256", "SCRAM-SHA-512": "sha512"}

# SQLite's lock bytes (fileformat2.html, section 1.6: the lock page).
LOCK_START, LOCK_LENGTH = 1 << 30, 512

# The head of a journal (fileformat2.html, section 3).
JOURNAL_HEAD = b"\xd9\xd5\x05\xf9 \xa1c\xd7"

# The salt of changes that are taken back.
TAKEN_BACK = b"never committed."


def scram(*words, password="pencil"):
    """Runs the program, and answers its status, its output and its errors."""
    run = subprocess.run([PROGRAM, *words], input=(password + "\n").encode(), capture_output=True, timeout=SECONDS)
    return run.returncode, run.stdout.decode(), run.stderr.decode()


def record(password, salt, iterations, digest="sha256"):
    """The record of a password (RFC 5802, section 3), by Python's hashlib."""
    salted = hashlib.pbkdf2_hmac(digest, password.encode(), salt, iterations)
    client = hmac.digest(salted, b"Client Key", digest)
    return hashlib.new(digest, client).digest(), hmac.digest(salted, b"Server Key", digest)


def make(path, count, salt=bytes(range(16))):
    """Makes a file of this many users with SQLite, each with the password `pencil`."""
    with sqlite3.connect(path) as base:
        base.execute("PRAGMA synchronous=OFF")
        base.execute(TABLE)
        shared = record("pencil", salt, 4096)
        base.executemany(
            "INSERT INTO users VALUES (?, 'SCRAM-SHA-256', ?, 4096, ?, ?)",
            ((f"user{i:07}", salt, *shared) for i in range(count)),
        )
    base.close()
    os.chmod(path, 0o600)


def rows(path):
    base = sqlite3.connect(path)
    found = base.execute("SELECT name, mechanism, salt, iterations, stored_key, server_key FROM users").fetchall()
    assert base.execute("PRAGMA integrity_check").fetchone() == ("ok",)
    base.close()
    return found


class Login:
    """A login by both sides of the program: the client's output is the server's input, and the other way round."""

    def __init__(self, path, name, password="pencil", options=()):
        self.server = subprocess.Popen(
            [PROGRAM, "server", "SCRAM-SHA-256", path, "--db", *options],
            stdin=subprocess.PIPE,
            stdout=subprocess.PIPE,
            stderr=subprocess.PIPE,
        )
        self.client = subprocess.Popen(
            [PROGRAM, "client", "SCRAM-SHA-256", name],
            stdin=subprocess.PIPE,
            stdout=subprocess.PIPE,
            stderr=subprocess.PIPE,
        )
        self.pass_on(self.client, (password + "\n").encode())

    @staticmethod
    def pass_on(side, line):
        side.stdin.write(line)
        side.stdin.flush()

    def first(self):
        """Passes the client's first message on, and answers the challenge."""
        self.pass_on(self.server, self.client.stdout.readline())
        return self.server.stdout.readline()

    def finish(self, challenge):
        """Passes the other messages on, and answers both statuses and the server's errors."""
        self.pass_on(self.client, challenge)
        self.pass_on(self.server, self.client.stdout.readline())
        self.pass_on(self.client, self.server.stdout.readline())
        return self.end()

    def end(self):
        ended = [side.communicate(timeout=SECONDS) for side in (self.client, self.server)]
        return self.client.returncode, self.server.returncode, ended[1][1].decode()


def log_in(path, name, password="pencil", options=()):
    login = Login(path, name, password, options)
    return login.finish(login.first())


def log_in_over_frames(path, name, password="pencil", options=()):
    """A login over the bytes of AMQP, by two pipes: both statuses, and the server's errors."""
    (from_client, to_server), (from_server, to_client) = os.pipe(), os.pipe()
    os.write(to_client, (password + "\n").encode())
    server = subprocess.Popen(
        [PROGRAM, "server", "SCRAM-SHA-256", path, "--db", "--frames", *options],
        stdin=from_client,
        stdout=to_client,
        stderr=subprocess.PIPE,
    )
    client = subprocess.Popen(
        [PROGRAM, "client", "SCRAM-SHA-256", name, "--frames"],
        stdin=from_server,
        stdout=to_server,
        stderr=subprocess.DEVNULL,
    )
    for end_of_pipe in (from_client, to_server, from_server, to_client):
        os.close(end_of_pipe)
    errors = server.communicate(timeout=SECONDS)[1].decode()
    return client.wait(timeout=SECONDS), server.returncode, errors


def commands(folder):
    """Each command of `users`; SQLite reads the same rows."""
    path = str(folder / "users.db")
    assert scram("users", "list", "--db", path)[0] == 4
    assert scram("users", "add", "--db", path, "alice")[:2] == (0, "added\n")
    assert scram("users", "add", "--db", path, "alice", password="second")[:2] == (0, "replaced\n")
    assert scram("users", "add", "--db", path, "alice", "--mechanism", "SCRAM-SHA-1", password="second")[0] == 0
    assert scram("users", "add", "--db", path, "b=o,b é", "--mechanism", "SCRAM-SHA-256", "--iterations", "1")[0] == 0
    assert scram("users", "check", "--db", path, "alice", password="second")[:2] == (
        0,
        "SCRAM-SHA-1 yes\nSCRAM-SHA-256 yes\nSCRAM-SHA-512 yes\n",
    )
    assert scram("users", "check", "--db", path, "alice")[0] == 3
    assert scram("users", "passwd", "--db", path, "alice", password="third")[:2] == (0, "changed\n")
    assert scram("users", "check", "--db", path, "alice", password="third")[0] == 0
    assert [row[:2] for row in rows(path)] == [
        ("alice", "SCRAM-SHA-1"),
        ("alice", "SCRAM-SHA-256"),
        ("alice", "SCRAM-SHA-512"),
        ("b=o,b é", "SCRAM-SHA-256"),
    ]
    for name, mechanism, salt, count, stored, server in rows(path):
        assert (stored, server) == record("third" if name == "alice" else "pencil", salt, count, HASHES[mechanism])
    status, listed, _ = scram("users", "list", "--db", path)
    assert status == 0 and len(listed.splitlines()) == 4, listed
    assert scram("users", "remove", "--db", path, "alice")[:2] == (0, "removed\n")
    assert [row[0] for row in rows(path)] == ["b=o,b é"]
    assert scram("users", "remove", "--db", path, "alice")[0] == 3


def challenged(path, mechanism, name):
    """The form that a server's challenge shows of a user: the length of the salt, and the iteration count."""
    given = base64.b64encode(f"n,,n={name},r=nonce".encode()) + b"\n"
    run = subprocess.run(
        [PROGRAM, "server", mechanism, path, "--db"], input=given, capture_output=True, timeout=SECONDS
    )
    fields = dict(field.split("=", 1) for field in base64.b64decode(run.stdout.splitlines()[0]).decode().split(","))
    return len(base64.b64decode(fields["s"])), int(fields["i"])


def forms(folder):
    """New records and mock records have the form of the first record for the hash, in the order of the names."""
    path = str(folder / "users.db")
    make(path, 2000, bytes(24))
    assert scram("users", "add", "--db", path, "alice")[:2] == (0, "added\n")
    zoe = ("zoe", "--mechanism", "SCRAM-SHA-1", "--salt-length", "9", "--iterations", "7")
    assert scram("users", "add", "--db", path, *zoe)[0] == 0
    assert scram("users", "add", "--db", path, "aaron", "--mechanism", "SCRAM-SHA-1")[:2] == (0, "added\n")
    added = {row[:2]: (len(row[2]), row[3]) for row in rows(path) if not row[0].startswith("user")}
    assert added == {
        ("aaron", "SCRAM-SHA-1"): (9, 7),
        ("zoe", "SCRAM-SHA-1"): (9, 7),
        ("alice", "SCRAM-SHA-256"): (24, 4096),
        ("alice", "SCRAM-SHA-512"): (16, 4096),
    }, added
    assert challenged(path, "SCRAM-SHA-1", "nobody") == challenged(path, "SCRAM-SHA-1", "zoe") == (9, 7)
    assert challenged(path, "SCRAM-SHA-256", "nobody") == challenged(path, "SCRAM-SHA-256", "user0000007") == (24, 4096)
    assert challenged(path, "SCRAM-SHA-512", "nobody") == challenged(path, "SCRAM-SHA-512", "alice") == (16, 4096)
    assert scram("users", "list", "--db", path, "--hashes")[:2] == (0, "")
    status, said, _ = scram("users", "check", "--db", path)
    assert status == 3 and "SCRAM-SHA-512 user0001999: no record\n" in said and "a salt" not in said, said[-200:]
    status, said, errors = scram("users", "passwd", "--db", path, "user0000007", "--iterations", "1")
    assert (status, said) == (0, "changed\n") and errors.count("but the first has") == 2, errors
    assert [row[1:4:2] for row in rows(path) if row[0] == "user0000007"] == [("SCRAM-SHA-256", 1), ("SCRAM-SHA-512", 1)]
    status, said, _ = scram("users", "check", "--db", path)
    assert status == 3 and "SCRAM-SHA-256 user0000007: a salt of 24 bytes and 1 iterations" in said, said[:200]


def logins(folder):
    """Logins by records that SQLite wrote. A wrong password and an unknown user are rejected alike.

    Over lines and over frames, also by names that SASLprep prepares.
    """
    path = str(folder / "users.db")
    make(path, 300)
    client, server, errors = log_in(path, "user0000299")
    assert (client, server) == (0, 0) and "user0000299 logged in" in errors, errors
    for way in (log_in, log_in_over_frames):
        client, server, errors = way(path, "us\u00ader00000\u2460\u2461", options=("--saslprep",))
        assert (client, server) == (0, 0) and "user0000012 logged in" in errors, errors
        assert way(path, "us\u00ader0000012")[1] == 3
    client, server, errors = log_in_over_frames(path, "user0000299")
    assert (client, server) == (0, 0) and "user0000299 logged in" in errors, errors
    for name, password in (("user0000007", "crayon"), ("nobody", "pencil")):
        client, server, errors = log_in_over_frames(path, name, password)
        assert client != 0 and server == 3 and "logged in" not in errors, errors
    wrong = Login(path, "user0000007", "crayon")
    unknown = Login(path, "nobody")
    challenges = [wrong.first(), unknown.first()]
    assert all(challenges), "an unknown user gets a challenge too"
    for login, challenge in zip((wrong, unknown), challenges):
        client, server, errors = login.finish(challenge)
        assert client != 0 and server == 3 and "logged in" not in errors, errors


def closed_at_the_challenge(folder):
    """While a login waits for the client, the file is not open: another program locks and changes it."""
    path = str(folder / "users.db")
    make(path, 3)
    login = Login(path, "user0000001")
    challenge = login.first()
    assert path not in {os.path.realpath(link) for link in Path(f"/proc/{login.server.pid}/fd").iterdir()}
    assert scram("users", "passwd", "--db", path, "user0000001", password="new")[0] == 0
    assert login.finish(challenge)[:2] == (0, 0)
    assert log_in(path, "user0000001")[1] == 3
    assert log_in(path, "user0000001", "new")[:2] == (0, 0)


def at_once(folder):
    """A hundred logins at once are all answered, while a change is made."""
    path = str(folder / "users.db")
    make(path, 1000)
    ended, changed = [], []

    def one(number):
        ended.append(log_in(path, f"user{number:07}"))

    def change():
        for number in range(8):
            changed.append(scram("users", "add", "--db", path, f"new{number}", "--iterations", "1", "--wait", "30")[:2])

    threads = [threading.Thread(target=one, args=(number,)) for number in range(100)] + [
        threading.Thread(target=change)
    ]
    for thread in threads:
        thread.start()
    for thread in threads:
        thread.join()
    assert len(ended) == 100 and all(login[:2] == (0, 0) for login in ended), ended
    assert changed == [(0, "added\n")] * 8, changed
    assert len(rows(path)) == 1016 and is_plain(path)


def is_plain(path):
    """Whether a file is in rollback-journal mode and has no log."""
    with open(path, "rb") as file:
        return file.read(20)[18:] == b"\1\1" and not any(
            os.path.exists(f"{path}{end}") for end in ("-wal", "-shm", "-journal")
        )


class Sqlite:
    """A `sqlite3` that runs beside the program."""

    def __init__(self, path):
        self.process = subprocess.Popen(
            ["sqlite3", path], stdin=subprocess.PIPE, stdout=subprocess.PIPE, stderr=subprocess.STDOUT, text=True
        )

    def do(self, text):
        """Does what the text asks, and answers the output."""
        self.process.stdin.write(f"{text}\n.print done\n")
        self.process.stdin.flush()
        return "".join(iter(self.process.stdout.readline, "done\n"))

    def end(self):
        self.process.communicate(timeout=SECONDS)


def beside_sqlite(folder):
    """Beside an idle `sqlite3` logins and changes work; in its transactions logins work, and a change waits."""
    path = str(folder / "users.db")
    make(path, 500)
    beside = Sqlite(path)
    assert beside.do("SELECT count(*) FROM users;") == "500\n"
    for number in range(3):
        assert log_in(path, "user0000007")[:2] == (0, 0)
        assert add(path, f"new{number}") == (0, "added\n") and is_plain(path)
        assert beside.do("SELECT count(*) FROM users; PRAGMA integrity_check;") == f"{502 + 2 * number}\nok\n"
    for begin in (
        "BEGIN; SELECT 1 FROM users LIMIT 1;",
        "BEGIN IMMEDIATE; DELETE FROM users WHERE name = 'user0000008';",
        "BEGIN EXCLUSIVE; DELETE FROM users WHERE name = 'user0000008';",
    ):
        beside.do(begin)
        assert log_in(path, "user0000008")[:2] == (0, 0)
        assert len(scram("users", "list", "--db", path)[1].splitlines()) == 506
        begun = time.monotonic()
        status, _, errors = scram("users", "add", "--db", path, "late", "--wait", "1")
        assert status == 4 and "another program has it open" in errors, errors
        assert 0.9 < time.monotonic() - begun < 20
        threading.Timer(1, lambda: beside.do("ROLLBACK;")).start()
        assert add(path, "late", "--wait", "30") == (0, "added\n")
        assert scram("users", "remove", "--db", path, "late")[0] == 0
    for number in range(5):
        copy = str(folder / f"copy{number}.db")
        thread = threading.Thread(target=add, args=(path, f"beside{number}"))
        thread.start()
        assert beside.do(f".backup {copy}") == "" and log_in(path, "user0000009")[:2] == (0, 0)
        thread.join()
        assert len(rows(copy)) >= 506 + 2 * number
    assert len(rows(path)) == 516
    beside.end()


def add(path, name, *options):
    """Adds a user, and answers the status and the output."""
    return scram("users", "add", "--db", path, name, "--iterations", "1", *options)[:2]


def beside_a_log(folder):
    """Beside a `sqlite3` in WAL mode logins work, and a change waits until it ends. Then the file has no log again."""
    path = str(folder / "users.db")
    make(path, 500)
    beside = Sqlite(path)
    assert beside.do("PRAGMA journal_mode = WAL;") == "wal\n"
    beside.do("UPDATE users SET name = 'in the log' WHERE name = 'user0000007';")
    beside.do("BEGIN; DELETE FROM users WHERE name = 'in the log';")
    assert log_in(path, "in the log")[:2] == (0, 0) and log_in(path, "user0000007")[1] == 3
    beside.do("COMMIT;")
    assert log_in(path, "in the log")[1] == 3
    assert scram("users", "add", "--db", path, "new", "--wait", "0")[0] == 4
    if os.fork() == 0:
        os.execvp(
            "sqlite3",
            ["sqlite3", path, "INSERT INTO users SELECT 'more', mechanism, salt, 1, salt, salt FROM users LIMIT 1;"],
        )
    assert os.wait()[1] == 0
    beside.process.kill()
    beside.process.wait()
    assert log_in(path, "user0000008")[:2] == (0, 0)
    assert add(path, "new") == (0, "added\n") and is_plain(path) and len(rows(path)) == 502


def without_rights(folder):
    """A login needs no right to write the file or its folder, also where a change was killed."""
    if os.geteuid() != 0:
        return
    path = folder / "users.db"
    make(str(path), 300)
    path.chmod(0o644)
    log = folder / "users.db-wal"
    for turn in range(1000):
        kill_change(str(path), f"new{turn}", random.uniform(0, 0.2))
        if log.exists() and log.stat().st_size > 4096:
            break
    for mode in (0o444, 0o440):
        path.chmod(mode)
        folder.chmod(0o555)
        check = [PROGRAM, "users", "check", "--db", str(path), "user0000007"]
        run = subprocess.run(check, input=b"pencil\n", capture_output=True, user=65534, group=65534, extra_groups=[])
        if mode == 0o444:
            assert run.returncode == 0, run.stderr
        else:
            assert run.returncode == 4 and b"permission denied" in run.stderr, run.stderr
    folder.chmod(0o755)
    assert log.stat().st_size > 4096


def kill_change(path, name, pause):
    """Kills a command that adds a user."""
    process = subprocess.Popen(
        [PROGRAM, "users", "add", "--db", path, name, "--iterations", "1"],
        stdin=subprocess.PIPE,
        stdout=subprocess.PIPE,
    )
    process.stdin.write(b"pencil\n")
    process.stdin.flush()
    time.sleep(pause)
    process.kill()
    return process.communicate()[0]


def killed(folder):
    """300 changes are killed: nothing is lost, `sqlite3` finds no damage, and logins and changes go on."""
    path = folder / "users.db"
    make(str(path), 1000)
    path.chmod(0o640)
    if os.geteuid() == 0:
        os.chown(path, 65534, 65534)
    begun = time.monotonic()
    assert add(str(path), "first")[0] == 0
    longest = 1.2 * (time.monotonic() - begun)
    known, left = {row[:2]: row for row in rows(str(path))}, set()
    for turn in range(300):
        said = kill_change(str(path), f"new{turn}", random.uniform(0, longest))
        left.add(frozenset((file.name, file.stat().st_size) for file in folder.iterdir()))
        log = folder / "users.db-wal"
        if log.exists() and log.stat().st_size:
            owned = [(file.stat().st_mode, file.stat().st_uid, file.stat().st_gid) for file in (path, log)]
            assert owned[0] == owned[1], owned
        if turn % 2:
            status, _, errors = scram("users", "check", "--db", str(path), f"user{turn:07}")
            assert status == 0, errors
        if turn % 3 == 0:
            assert add(str(path), f"after{turn}") == (0, "added\n") and is_plain(str(path))
        found = {row[:2]: row for row in rows(str(path))}
        assert all(found[key] == row for key, row in known.items())
        new = {key[0] for key in found.keys() - known.keys()}
        assert new <= {f"new{turn}", f"after{turn}"} and (not said or f"new{turn}" in new), (said, new)
        assert all((name, f"SCRAM-SHA-{bits}") in found for name in new for bits in (256, 512))
        known = found
    assert len(left) > 3, "the commands were killed at too few places"
    assert add(str(path), "last") == (0, "added\n") and is_plain(str(path))


def journals(folder):
    """A transaction of SQLite's that was killed is an error, until `sqlite3` takes it back."""
    path = str(folder / "users.db")
    make(path, 20_000)
    beside = Sqlite(path)
    beside.do("PRAGMA cache_size = 1; BEGIN; UPDATE users SET salt = 'cut off', name = name || 'x';")
    beside.process.kill()
    beside.process.wait()
    assert os.path.exists(path + "-journal")
    for words in (("check", "--db", path, "user0000007"), ("add", "--db", path, "new")):
        status, _, errors = scram("users", *words, "--wait", "1")
        assert status == 4 and "rollback journal" in errors, errors
    assert len(rows(path)) == 20_000
    assert scram("users", "check", "--db", path, "user0000007")[0] == 0
    assert add(path, "new") == (0, "added\n")


def locked(folder):
    """A file that SQLite writes all the time is an error of its own, and no unknown user; afterwards it is read."""
    path = str(folder / "users.db")
    make(path, 2)
    with open(path, "r+b") as file:
        fcntl.lockf(file, fcntl.LOCK_EX, LOCK_LENGTH, LOCK_START)
        assert scram("users", "check", "--db", path, "user0000000")[0] == 0
        status, _, errors = scram("users", "add", "--db", path, "new", "--wait", "1")
        assert status == 4 and "another program has it open" in errors and path in errors, errors
    journal = Path(path + "-journal")
    for head in (b"", bytes(512), JOURNAL_HEAD):
        journal.write_bytes(head)
        begun = time.monotonic()
        status, _, errors = scram("users", "check", "--db", path, "user0000000")
        if head != JOURNAL_HEAD:
            assert status == 0, errors
    assert status == 4 and "a change that is under way" in errors and path in errors, errors
    assert 4 < time.monotonic() - begun < 20
    login = Login(path, "user0000000", options=("--tell-unknown-users",))
    assert login.first() == b"", "no answer, and no e=unknown-user"
    login.client.kill()
    _, server, errors = login.end()
    assert server == 4 and "a change that is under way" in errors, errors
    for words in ("list",), ("export",), ("check", "user0000000"):
        begun = time.monotonic()
        assert scram("users", words[0], path, *words[1:], "--db", "--wait", "1")[0] == 4
        assert 0.9 < time.monotonic() - begun < 4
    threading.Timer(7, journal.unlink).start()
    assert log_in(path, "user0000000", options=("--wait", "30"))[:2] == (0, 0), "it waits for more than 5 seconds"
    journal.write_bytes(JOURNAL_HEAD)
    threading.Timer(1, journal.unlink).start()
    assert scram("users", "check", "--db", path, "user0000000")[0] == 0


def changed_by_sqlite(folder):
    """While SQLite changes all rows, in each journal mode, and takes changes back, every look-up finds one state."""
    path = str(folder / "users.db")
    make(path, 2000)
    for mode in ("DELETE", "TRUNCATE", "PERSIST", "WAL"):
        ended, changes, states = threading.Event(), [], set()
        thread = threading.Thread(target=change_all, args=(path, mode, ended, changes))
        thread.start()
        looked, end = 0, time.monotonic() + SECONDS
        while looked < 40 or min(len(states), len(changes)) < 4 and time.monotonic() < end:
            looked += 1
            status, listed, errors = scram("users", "export", "--db", path)
            assert status == 0, errors
            users = {re.sub("user[0-9]{7}", "", line) for line in listed.splitlines()}
            assert len(users) == 1 and len(listed.splitlines()) == 2000, users
            states |= users
            assert scram("users", "check", "--db", path, "user0000007")[0] in (0, 3)
        ended.set()
        thread.join()
        taken_back = base64.b64encode(TAKEN_BACK).decode()
        assert len(states) > 3 and len(changes) > 3 and not any(taken_back in state for state in states)


def change_all(path, mode, ended, changes):
    """Changes the salts of all users again and again. The cache is so small that pages are written before the end."""
    base = sqlite3.connect(path, isolation_level=None, timeout=SECONDS)
    base.execute(f"PRAGMA journal_mode={mode}")
    base.execute("PRAGMA cache_size=2")
    while not ended.is_set():
        number = len(changes)
        base.execute("BEGIN IMMEDIATE")
        base.execute("UPDATE users SET salt = ?", (b"%016d" % number if number % 3 else TAKEN_BACK,))
        base.execute("COMMIT" if number % 3 else "ROLLBACK")
        if mode == "WAL" and number % 2:
            base.execute("PRAGMA wal_checkpoint(TRUNCATE)")
        changes.append(number)
        time.sleep(random.uniform(0, 0.2))
    base.close()


def changed_by_scram(folder):
    """While passwords are changed, each login finds the old or the new one."""
    path = str(folder / "users.db")
    make(path, 100)
    ended, changes, statuses = threading.Event(), [], set()

    def change():
        while not ended.is_set():
            words = ("users", "passwd", "--db", path, "user0000007")
            changes.append(scram(*words, password=("pencil", "other")[len(changes) % 2])[0])

    thread = threading.Thread(target=change)
    thread.start()
    for _ in range(60):
        status, _, errors = scram("users", "check", "--db", path, "user0000007")
        assert status in (0, 3), errors
        statuses.add(status)
        assert log_in(path, "user0000007")[1] in (0, 3)
    ended.set()
    thread.join()
    assert statuses == {0, 3} and set(changes) == {0} and is_plain(path)


def faults(folder):
    """Files that are no database of users. Each is left as it is."""
    path = folder / "users.db"
    path.write_bytes(b"no database" * 1000)
    status, _, errors = scram("users", "check", "--db", str(path), "alice")
    assert status == 4 and "not a SQLite database" in errors, errors
    assert path.read_bytes() == b"no database" * 1000
    for number, text in enumerate(
        (
            "CREATE TABLE users (name TEXT)",
            TABLE + "; CREATE INDEX other ON users (salt)",
            "CREATE TABLE first (x); " + TABLE,
        )
    ):
        other = str(folder / f"other{number}.db")
        with sqlite3.connect(other) as base:
            base.executescript(text)
        base.close()
        status, _, errors = scram("users", "add", "--db", other, "alice")
        assert status == 4 and "table of users" in errors, errors
    wrong = str(folder / "wrong.db")
    make(wrong, 1)
    with sqlite3.connect(wrong) as base:
        base.execute("UPDATE users SET salt = 'text'")
    base.close()
    status, _, errors = scram("users", "check", "--db", wrong, "user0000000")
    assert status == 4 and "not a record" in errors, errors
    status, _, errors = scram("users", "check", "--db", str(folder / "missing.db"), "alice")
    assert status == 4 and "does not exist" in errors and not (folder / "missing.db").exists(), errors
    os.mkfifo(folder / "pipe")
    for place in (folder, folder / "pipe"):
        for words in (("check",), ("add",), ("remove",)):
            status, _, errors = scram("users", *words, "--db", str(place), "alice")
            assert status == 4 and "not a regular file" in errors, errors


def wrong_rows(folder):
    """A row that is no record is named with its user, and all others are used."""
    path = str(folder / "users.db")
    make(path, 10)
    changes = ("salt = 'text'", "iterations = 0", "iterations = 5000000000", "stored_key = x'00'", "server_key = 7")
    with sqlite3.connect(path) as base:
        for number, change in enumerate(changes):
            base.execute(f"UPDATE users SET {change} WHERE name = 'user000000{number}'")
    base.close()
    status, listed, errors = scram("users", "list", "--db", path)
    assert status == 4 and len(listed.splitlines()) == 5, (status, listed, errors)
    assert errors.splitlines() == [
        f"scram: {path}: the row of user000000{number} for SCRAM-SHA-256 is not a record" for number in range(5)
    ]
    for number in range(5):
        status, _, errors = scram("users", "check", "--db", path, f"user000000{number}")
        assert status == 4 and f"the row of user000000{number} for SCRAM-SHA-256" in errors, errors
    assert log_in(path, "user0000007")[:2] == (0, 0) and log_in(path, "nobody")[1] == 3
    assert challenged(path, "SCRAM-SHA-256", "nobody") == (16, 4096)
    assert add(path, "new") == (0, "added\n")


def damage(folder):
    """A database with a damaged page: no command adds a user and does not find it afterwards, and each ends."""
    path = folder / "users.db"
    make(str(path), 800)
    whole, said = path.read_bytes(), set()
    for turn in range(100):
        bytes_left = bytearray(whole)
        page = random.randrange(1, len(whole) // 4096)
        start = page * 4096 + random.choice((0, 0, random.randrange(4096)))
        length = random.choice((1, 8, 100, 4096 - start % 4096))
        bytes_left[start : start + length] = bytes(random.choice((bytes(length), random.randbytes(length))))[:length]
        path.write_bytes(bytes_left)
        name = f"user{random.randrange(800):07}x"
        status, output, errors = scram("users", "add", "--db", str(path), name, "--iterations", "1")
        assert (status, output) == (0, "added\n") or status == 4, (status, output, errors)
        said.add(errors.split("the database cannot be used")[-1])
        if status == 0:
            assert scram("users", "check", "--db", str(path), name)[0] == 0, (turn, page, start, length)
        assert scram("users", "list", "--db", str(path))[0] in (0, 4)
    assert any("a page is damaged" in errors for errors in said), said


def sizes(folder):
    """Measures a check and logins among few and many users."""
    for count in (1, 1000, 1_000_000):
        path = str(folder / f"users{count}.db")
        make(path, count)
        name = f"user{count // 2:07}"
        ways = {
            "a check": lambda: scram("users", "check", "--db", path, name)[:1],
            "a login over lines": lambda: log_in(path, name)[:2],
            "over frames": lambda: log_in_over_frames(path, name)[:2],
        }
        figures = ", ".join(f"{label} {least(way) * 1000:.0f} ms" for label, way in ways.items())
        run = subprocess.run(
            ["/usr/bin/time", "-f", "%M", PROGRAM, "users", "check", "--db", path, name],
            input=b"pencil\n",
            capture_output=True,
        )
        memory = run.stderr.decode().split()[-1]
        print(f"{count} users, {os.path.getsize(path)} bytes: {figures}, {memory} kB of memory")


def least(way):
    """The least time of ten runs, each with status 0."""
    times = []
    for _ in range(10):
        begun = time.monotonic()
        statuses = way()
        times.append(time.monotonic() - begun)
        assert not any(statuses), statuses
    return min(times)


def run(trials):
    """Runs each trial in a folder of its own, and prints what it is of."""
    for trial in trials:
        with tempfile.TemporaryDirectory() as name:
            trial(Path(name))
        print(f"ok: {trial.__doc__.splitlines()[0]}")


def main():
    trials = [commands, forms, logins, closed_at_the_challenge, at_once, locked, faults, wrong_rows, damage]
    trials += [changed_by_sqlite, changed_by_scram, beside_sqlite, beside_a_log, without_rights, journals, killed]
    if "--sizes" in sys.argv:
        trials.append(sizes)
    run(trials)


if __name__ == "__main__":
    main()
