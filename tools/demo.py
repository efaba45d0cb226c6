#!/usr/bin/env python3
"""Answers the example of RFC 7677, section 3, beside what the standard prints, and plays a login over frame bodies.

    tools/demo.py try       compiles and runs crates/example_rfc7677 and crates/sasl_lab without their proofs
    tools/demo.py run       proves them first, and builds crates/sasl_lab/out/sasl_lab
"""
import subprocess
import sys
from pathlib import Path

CRATES = Path(__file__).resolve().parents[1] / "crates"
BODIES = ("server mechanisms", "client init", "server challenge", "client response", "server outcome")
FIRST_LINES = {
    "try": "Nothing is proved by this run: it compiles the programs without their proofs (make prove proves them).",
    "run": "The programs are proved before they run.",
}
# One step of the interpreter is enough, which `rt try` asks first and which would take its time.
COMMANDS = {"try": ["rt", "try", "--steps", "1", "--"], "run": ["rt", "run", "--"]}


def answer(how, crate, *words):
    """What the program of a crate prints for these words. What the toolchain says is shown only if that fails."""
    run = subprocess.run(
        [*COMMANDS[how], *words],
        cwd=CRATES / crate,
        stdin=subprocess.DEVNULL,
        capture_output=True,
        encoding="utf-8",
        errors="replace",
    )
    if run.returncode:
        sys.exit("\n".join(run.stderr.splitlines()[-40:]) or f"{crate}: status {run.returncode}")
    return run.stdout


def indented(text):
    return "".join(f"    {line}\n" for line in text.splitlines())


def named(bodies):
    """Each body under its name, and below it its text, with a point for each byte that is not printable."""
    lines = bodies.splitlines()
    if len(lines) != len(BODIES):
        sys.exit(f"sasl_lab printed {len(lines)} bodies:\n{bodies}")
    for name, digits in zip(BODIES, lines):
        text = "".join(chr(byte) if 31 < byte < 127 else "." for byte in bytes.fromhex(digits))
        print(f"{name}\n    {digits}\n    {text}")


def main():
    how = sys.argv[1] if len(sys.argv) > 1 else "try"
    if how not in COMMANDS or len(sys.argv) > 2:
        print("usage: tools/demo.py try|run", file=sys.stderr)
        sys.exit(2)
    print(FIRST_LINES[how])
    print('\nSCRAM-SHA-256, user "user", password "pencil": client-final, and the server-final it waits for')
    wanted = (CRATES / "example_rfc7677/stdout").read_text(encoding="utf-8")
    print(f"RFC 7677, section 3, prints\n{indented(wanted)}", end="", flush=True)
    found = answer(how, "example_rfc7677")
    print(f"crates/example_rfc7677 answers\n{indented(found)}", end="")
    if found.rstrip("\n") != wanted.rstrip("\n"):
        sys.exit("they differ")
    print("they are equal.\n\nA whole login over frame bodies, by sasl_lab login:", flush=True)
    # The salt is 32 bytes 03, the client's nonce 01, and the server's 02.
    values = [bytes([byte] * 32).hex() for byte in (3, 1, 2)]
    named(answer(how, "sasl_lab", "login", "SCRAM-SHA-256", "user", "pencil", *values))
    print("Both sides ended the login with Ok.")


if __name__ == "__main__":
    main()
