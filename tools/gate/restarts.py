#!/usr/bin/env python3
"""Starts the built `example_broker` and `scram server` again and again, and compares what known and unknown users get.

    tools/gate/restarts.py      the programs crates/example_broker/out/example_broker and crates/scram/out/scram, which
                                `make test` builds

An unknown user has to get the salt that the secret beside the records gives, at each start and from processes that start
at the same time. Challenge and outcome have to be those of a known user except for the salt. A file that is no secret or
cannot be read has to stop them. A new secret or database is for its owner only, from the first. It prints nothing if all
is well.
"""
import base64
import contextlib
import ctypes
import hashlib
import hmac
import io
import os
import shutil
import signal
import sqlite3
import struct
import subprocess
import sys
import tempfile
import unittest
from pathlib import Path

TOP = Path(__file__).resolve().parents[2]
sys.dont_write_bytecode = True
sys.path[:0] = [str(TOP / "tools/models"), str(TOP / "tools")]

import broker_rows as rows
from program_database import TABLE

BROKER, SCRAM = (TOP / f"crates/{name}/out/{name}" for name in ("example_broker", "scram"))
KNOWN, UNKNOWN = b"user", b"usor"
NONCE, PROOF = base64.b64encode(b"\1" * 32), {"SCRAM-SHA-256": 32, "SCRAM-SHA-512": 64}
SECONDS = 20


# The commands that read a secret, and their exit status if they cannot.
READERS = ([BROKER, "records.txt"], 1), ([SCRAM, "server", "SCRAM-SHA-256", "records.txt"], 4)

# The number of the system call fchmod, by which a file gets another mode (Linux, x86-64).
FCHMOD = 91


spelled = rows.model.spelled


def start(command, folder, **options):
    return subprocess.Popen(
        command, cwd=folder, stdin=subprocess.PIPE, stdout=subprocess.PIPE, stderr=subprocess.PIPE, **options
    )


def stopped_at(call):
    """What a child has to run before its program, so that the system kills it at this system call (seccomp(2))."""

    def limit():
        # Load the call's number; if it is `call`, kill the process; otherwise allow it.
        steps = b"".join(
            struct.pack("HBBI", *step)
            for step in ((0x20, 0, 0, 0), (0x15, 0, 1, call), (0x06, 0, 0, 0x80000000), (0x06, 0, 0, 0x7FFF0000))
        )
        kept = ctypes.create_string_buffer(steps)
        program = struct.pack("HxxxxxxP", len(steps) // 8, ctypes.addressof(kept))
        libc = ctypes.CDLL(None, use_errno=True)
        no_new_privileges, seccomp, filter_mode = 38, 22, 2
        if libc.prctl(no_new_privileges, 1, 0, 0, 0) or libc.prctl(
            seccomp, filter_mode, ctypes.c_char_p(program), 0, 0
        ):
            raise OSError(ctypes.get_errno(), "seccomp")

    return limit


def ask(process, data):
    """What a process prints by the time that it has printed a challenge, or at its end."""
    process.stdin.write(data)
    process.stdin.flush()
    printed = b""
    while b",i=" not in printed and (more := process.stdout.read1()):
        printed += more
    return printed


def end(process, data):
    """What a process prints at last."""
    printed, _ = process.communicate(data, timeout=SECONDS)
    return printed


def wrong_login(folder, mechanism, name):
    """The challenge of the broker to a name, and what it answers to a proof of zeros."""
    process = start([BROKER, "records.txt"], folder)
    printed = ask(process, rows.HEADER + spelled("Init", mechanism.encode(), b"n,,n=%b,r=%b" % (name, NONCE), None))
    challenge = printed[printed.index(b"r=" + NONCE) :]
    nonce = challenge[2 : challenge.index(b",")]
    proof = base64.b64encode(bytes(PROOF[mechanism]))
    return challenge, end(process, spelled("Response", b"c=biws,r=%b,p=%b" % (nonce, proof)))


def parts(challenge):
    """The server's salt, and the rest of a challenge without the server's own nonce."""
    nonce, salt, count = challenge.split(b",")
    return base64.b64decode(salt[2:]), (len(nonce), len(salt), count)


def mock_salt(folder, mechanism, name, length, records="records.txt"):
    """The salt of a mock record by the secret beside the records (docs/SECURITY.md)."""
    secret = folder / f"{records}.secret"
    text = b"Salt:%b:%b" % (mechanism.encode(), name)
    return hmac.new(secret.read_bytes(), text, hashlib.sha512).digest()[:length]


class Restarts(unittest.TestCase):
    def setUp(self):
        room = tempfile.TemporaryDirectory()
        self.addCleanup(room.cleanup)
        self.folder = Path(room.name)
        # (the broker offers a hash only if each user has a record for it)
        (self.folder / "records.txt").write_text(rows.TWO_HASHES)

    def test_a_broker_that_starts_again(self):
        for mechanism in PROOF:
            salts = set()
            for _ in range(2):
                known, refused = wrong_login(self.folder, mechanism, KNOWN)
                unknown, refused_unknown = wrong_login(self.folder, mechanism, UNKNOWN)
                self.assertEqual(parts(known)[1], parts(unknown)[1])
                self.assertEqual(refused, refused_unknown)
                self.assertEqual(refused, rows.AUTH)
                self.assertEqual(parts(unknown)[0], mock_salt(self.folder, mechanism, UNKNOWN, 16))
                salts |= {parts(known)[0], parts(unknown)[0]}
            self.assertEqual(len(salts), 2)
        secret = (self.folder / "records.txt.secret").stat()
        self.assertEqual((secret.st_mode & 0o7777, secret.st_size, secret.st_nlink), (0o600, 32, 1))
        self.assertEqual(len(list(self.folder.iterdir())), 2)

    def test_brokers_that_start_at_once(self):
        init = rows.HEADER + spelled("Init", b"SCRAM-SHA-256", b"n,,n=%b,r=%b" % (UNKNOWN, NONCE), None)
        processes = [start([BROKER, "records.txt"], self.folder) for _ in range(8)]
        challenges = [ask(process, init) for process in processes]
        for process in processes:
            end(process, b"")
        salts = {parts(challenge[challenge.index(b"r=" + NONCE) :])[0] for challenge in challenges}
        self.assertEqual(salts, {mock_salt(self.folder, "SCRAM-SHA-256", UNKNOWN, 16)})
        self.assertEqual(len(list(self.folder.iterdir())), 2)

    def is_refused(self, command, status, why, **options):
        """A program has to end with a status and an error, before it prints anything."""
        process = start(command, self.folder, **options)
        self.addCleanup(process.kill)
        printed, said = process.communicate(b"", timeout=SECONDS)
        self.assertEqual((printed, process.returncode), (b"", status), said)
        self.assertIn(why, said)
        self.assertIn(b".secret", said)

    def test_rejected_secrets(self):
        secret = self.folder / "records.txt.secret"
        for content, mode, why in (
            (b"7" * 31, 0o600, b"exactly 32 bytes"),
            (b"7" * 33, 0o600, b"exactly 32 bytes"),
            (b"7" * 32, 0o640, b"access to its group or to others"),
            (b"7" * 32, 0o604, b"access to its group or to others"),
        ):
            secret.write_bytes(content)
            secret.chmod(mode)
            for command, status in READERS:
                self.is_refused(command, status, why)
            secret.unlink()

    def test_no_file(self):
        secret = self.folder / "records.txt.secret"
        for make, remove in ((secret.mkdir, secret.rmdir), (lambda: os.mkfifo(secret, 0o600), secret.unlink)):
            make()
            for command, status in READERS:
                self.is_refused(command, status, b"not a regular file")
            remove()

    def test_unreadable_secrets(self):
        """No metadata, by a link to itself; bytes that cannot be read; and no right to open the file."""
        secret = self.folder / "records.txt.secret"
        for target in (secret.name, "/proc/self/mem"):
            secret.symlink_to(target)
            for command, status in READERS:
                self.is_refused(command, status, b"cannot be read")
            secret.unlink()
        secret.write_bytes(b"7" * 32)
        secret.chmod(0o600 if os.geteuid() == 0 else 0)
        self.folder.chmod(0o755)
        for (program, *words), status in READERS:
            copy = shutil.copy(program, self.folder)
            self.is_refused([copy, *words], status, b"cannot be read", **({"user": 65534} if os.geteuid() == 0 else {}))

    def test_a_new_secret_is_never_open_to_others(self):
        """Each process is killed before it can change the mode that it made the file with."""
        for command, _ in READERS:
            process = start(command, self.folder, umask=0, preexec_fn=stopped_at(FCHMOD))
            process.communicate(b"", timeout=SECONDS)
            self.assertEqual(process.returncode, -signal.SIGSYS)
            (new,) = self.folder.glob("records.txt.secret.*")
            self.assertEqual((new.stat().st_mode & 0o7777, new.stat().st_size), (0o600, 0))
            new.unlink()

    def test_a_new_database_is_never_open_to_others(self):
        """A new database is an empty file at first, which a killed process leaves. One that is there keeps its mode."""
        add = [SCRAM, "users", "add", "--db", "users.db", "alice", "--iterations", "1"]
        process = start(add, self.folder, umask=0, preexec_fn=stopped_at(FCHMOD))
        process.communicate(b"pencil\n", timeout=SECONDS)
        self.assertEqual(process.returncode, -signal.SIGSYS)
        database = self.folder / "users.db"
        self.assertEqual((database.stat().st_mode & 0o7777, database.stat().st_size), (0o600, 0))
        self.assertEqual(list(self.folder.glob("users.db.new*")), [])
        for mode in (0o600, 0o640):
            process = start(add, self.folder, umask=0)
            process.communicate(b"pencil\n", timeout=SECONDS)
            self.assertEqual((process.returncode, database.stat().st_mode & 0o7777), (0, mode))
            database.write_bytes(b"")
            database.chmod(0o640)

    def test_what_a_new_database_has(self):
        """The table of users and nothing else, with both records of the user, as SQLite reads them."""
        process = start([SCRAM, "users", "add", "--db", "users.db", "alice", "--iterations", "1"], self.folder)
        process.communicate(b"pencil\n", timeout=SECONDS)
        self.assertEqual(process.returncode, 0)
        with contextlib.closing(sqlite3.connect(self.folder / "users.db")) as database:
            schema = database.execute("SELECT type, name, sql FROM sqlite_schema").fetchall()
            kept = database.execute("SELECT name, mechanism, iterations FROM users ORDER BY mechanism").fetchall()
        self.assertEqual(schema, [("table", "users", TABLE)])
        self.assertEqual(kept, [("alice", mechanism, 1) for mechanism in sorted(PROOF)])

    def test_a_server_of_lines_that_starts_again(self):
        for mechanism in PROOF:
            salts = set()
            for name in (KNOWN, UNKNOWN) * 2:
                process = start([SCRAM, "server", mechanism, "records.txt"], self.folder)
                printed = end(process, base64.b64encode(b"n,,n=%b,r=%b" % (name, NONCE)) + b"\n")
                challenge = base64.b64decode(printed)
                salts.add(parts(challenge)[0])
                if name == UNKNOWN:
                    self.assertEqual(parts(challenge)[0], mock_salt(self.folder, mechanism, UNKNOWN, 16))
            self.assertEqual(len(salts), 2)


def main():
    # (a program that waits for more than it was sent ends the trials, and does not hold them up)
    signal.alarm(15 * SECONDS)
    told = io.StringIO()
    tests = unittest.defaultTestLoader.loadTestsFromTestCase(Restarts)
    if not unittest.TextTestRunner(stream=told, verbosity=0).run(tests).wasSuccessful():
        sys.exit(told.getvalue())


if __name__ == "__main__":
    main()
