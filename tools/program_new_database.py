#!/usr/bin/env python3
"""Tries how the built program `scram` makes a database (`--db`): at once, killed, on a full disk, and beside
other files.

    tools/program_new_database.py [PROGRAM]       the program defaults to crates/scram/out/scram

It needs Python's sqlite3 module, and the right to mount a tmpfs: as root, or by user namespaces. The folders of the trials
are in $TMPDIR. On a disk that syncs slowly the 300 kills take some minutes.
"""
import os
import random
import sqlite3
import subprocess
import sys
import threading
import time
from pathlib import Path

sys.dont_write_bytecode = True

from program_database import PROGRAM, SECONDS, TABLE, is_plain, make, rows, run, scram


def add_user(path, name, *options):
    """The status of a command that adds a user."""
    return scram("users", "add", "--db", path, name, "--iterations", "1", *options)[0]


def users(path):
    """The users of a database. Each has both records that a new user gets."""
    names = [row[0] for row in rows(path)]
    assert all(names.count(name) == 2 for name in names), names
    return sorted(set(names))


def timed(way):
    begun = time.monotonic()
    assert way() == 0
    return time.monotonic() - begun


def first_adds_at_once(folder):
    """Commands that make a file at once: the user of each is there afterwards."""
    for turn in range(20):
        path, ended = str(folder / f"users{turn}.db"), []
        threads = [
            threading.Thread(target=lambda name=name: ended.append(add_user(path, name)))
            for name in ("alice", "bob", "carol")[: 2 + turn % 2]
        ]
        for thread in threads:
            thread.start()
        for thread in threads:
            thread.join()
        assert ended == [0] * len(threads), ended
        assert users(path) == ["alice", "bob", "carol"][: len(threads)] and is_plain(path)


def first_adds_killed(folder):
    """300 commands that make a file are killed: the next one works."""
    longest = max(timed(lambda: add_user(str(folder / f"whole{turn}.db"), "alice")) for turn in range(5))
    left = set()
    for turn in range(300):
        path = str(folder / f"users{turn}.db")
        process = subprocess.Popen(
            [PROGRAM, "users", "add", "--db", path, "alice", "--iterations", "1"],
            stdin=subprocess.PIPE,
            stdout=subprocess.DEVNULL,
        )
        process.stdin.write(b"pencil\n")
        process.stdin.close()
        time.sleep(random.uniform(0, longest))
        process.kill()
        process.wait()
        left.add(
            frozenset(
                (file.name[len(f"users{turn}.db") :], file.stat().st_size) for file in folder.glob(f"users{turn}.db*")
            )
        )
        assert add_user(path, "bob") == 0, left
        assert users(path) in (["bob"], ["alice", "bob"]) and is_plain(path)
        assert os.stat(path).st_mode & 0o7777 == 0o600
    assert len(left) > 3, "the commands were killed at too few places"


def full_disk(folder):
    """A file is made on a disk with too little room: the next command works once there is room."""
    spaces = ["unshare", "--mount"] if os.geteuid() == 0 else ["unshare", "--map-root-user", "--mount"]
    process = subprocess.run([*spaces, sys.executable, __file__, PROGRAM, f"--full-disk={folder}"], timeout=5 * SECONDS)
    assert process.returncode == 0


def on_a_full_disk(folder):
    """Leaves each number of free pages from none on, until the command succeeds."""
    subprocess.run(["mount", "-t", "tmpfs", "-o", "size=1M", "none", folder], check=True)
    filler, failed = Path(folder) / "filler", 0
    for pages in range(100):
        path = f"{folder}/users{pages}.db"
        filler.write_bytes(
            bytes(
                (1 << 20)
                - sum(4096 * -(-file.stat().st_size // 4096) for file in Path(folder).iterdir())
                - 4096 * pages
            )
        )
        status, _, errors = scram("users", "add", "--db", path, "alice", "--iterations", "1")
        assert status in (0, 4) and (status == 0 or "cannot be used" in errors), errors
        assert scram("users", "list", "--db", path)[0] in (0, 4)
        filler.unlink()
        assert add_user(path, "bob") == 0
        assert users(path) == (["bob"] if status else ["alice", "bob"]) and is_plain(path)
        for file in Path(folder).iterdir():
            file.unlink()
        failed += status == 4
        if status == 0:
            break
    assert failed > 1, failed


def modes(folder):
    """A new file has mode 0600, whatever the umask. An empty file keeps its mode."""
    for mask in (0, 0o22, 0o77):
        path = folder / f"users{mask}.db"
        subprocess.run(
            [PROGRAM, "users", "add", "--db", path, "alice"],
            input=b"pencil\n",
            stdout=subprocess.DEVNULL,
            check=True,
            umask=mask,
        )
        assert path.stat().st_mode & 0o7777 == 0o600
    path = folder / "empty.db"
    path.touch()
    path.chmod(0o640)
    assert add_user(str(path), "alice") == 0 and path.stat().st_mode & 0o7777 == 0o640
    assert is_plain(path)


def leftovers(folder):
    """A file without a table counts as new, and a log beside an empty file is not its own."""
    path, whole, logged = folder / "users.db", folder / "whole.db", folder / "logged.db"
    make(str(whole), 0)
    with_log(logged)
    old_log = (folder / "logged.db-wal").read_bytes()
    for begun in (None, b"", b"\0", without_table(folder), whole.read_bytes()):
        for log in (None, b"", old_log):
            if log and begun:
                continue
            if begun is not None:
                path.write_bytes(begun)
            if log is not None:
                Path(f"{path}-wal").write_bytes(log)
            assert scram("users", "list", "--db", str(path))[0] == (0 if begun == whole.read_bytes() else 4)
            assert add_user(str(path), "alice") == 0, (begun, log)
            assert users(str(path)) == ["alice"] and is_plain(path)
            path.unlink()


def with_log(path):
    """Makes a database whose table and rows are in its log only."""
    base = sqlite3.connect(path)
    base.execute("PRAGMA journal_mode=WAL")
    base.execute(TABLE)
    base.execute("INSERT INTO users VALUES ('old', 'SCRAM-SHA-256', x'00', 1, x'00', x'00')")
    base.commit()
    log = Path(f"{path}-wal").read_bytes()
    base.close()
    Path(f"{path}-wal").write_bytes(log)


def without_table(folder):
    """The bytes of a database of one page, without a table."""
    path = folder / "bare.db"
    base = sqlite3.connect(path)
    base.execute("PRAGMA user_version=1")
    base.commit()
    base.close()
    return path.read_bytes()


def in_the_way(folder):
    """A link to a file that does not exist, and a journal beside a new file, are errors."""
    path = folder / "users.db"
    path.symlink_to("target")
    status, _, errors = scram("users", "add", "--db", str(path), "alice")
    assert status == 4 and "a link to a file that does not exist" in errors, errors
    assert path.is_symlink() and not (folder / "target").exists()
    (folder / "target").touch()
    assert add_user(str(path), "alice") == 0 and users(str(path)) == ["alice"] and path.is_symlink()
    assert is_plain(folder / "target")
    other = folder / "other.db"
    (folder / "other.db-journal").write_bytes(b"\xd9\xd5\x05\xf9 \xa1c\xd7")
    status, _, errors = scram("users", "add", "--db", str(other), "alice")
    assert status == 4 and "rollback journal" in errors and not other.stat().st_size, errors


def main():
    for word in sys.argv[1:]:
        if word.startswith("--full-disk="):
            return on_a_full_disk(word.split("=", 1)[1])
    run([first_adds_at_once, first_adds_killed, full_disk, modes, leftovers, in_the_way])


if __name__ == "__main__":
    main()
