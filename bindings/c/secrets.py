#!/usr/bin/env python3
"""Prints the secrets of the logins of every_call.h as C: the password, the salted passwords, and parts of eight bytes
of all secrets, for which secrets.c searches.

Each secret is printed as its bytes, as big-endian words (of which hashes are made), both also under the pads of HMAC,
and in base64. All is masked, so that the program itself does not contain what it searches for.
"""
import base64
import hashlib
import hmac

PASSWORD = b"Xq7-mellon-Zz9-rosebud-K"
SALTS = [bytes([first]) + bytes(15) for first in (4, 5)]
ITERATIONS, MASK = 64, 0xA5
WORDS = {"sha1": 4, "sha256": 4, "sha512": 8}


def secrets():
    """The secrets of a right and of a wrong password: a name, the bytes, and the length of a word of their hash."""
    yield "password", PASSWORD, 4
    yield "password", PASSWORD, 8
    for name, word in WORDS.items():
        for password in (PASSWORD, PASSWORD[:-1]):
            for salt in SALTS:
                salted = hashlib.pbkdf2_hmac(name, password, salt, ITERATIONS)
                client = hmac.digest(salted, b"Client Key", name)
                yield "SaltedPassword", salted, word
                yield "ClientKey", client, word
                yield "StoredKey", hashlib.new(name, client).digest(), word
                yield "ServerKey", hmac.digest(salted, b"Server Key", name), word


def masked(secret):
    """The bytes of a secret, masked, as C has them in a list."""
    return "{" + ", ".join(f"{byte ^ MASK}" for byte in secret) + "}"


def forms(secret, word):
    """How the bytes of a secret can be stored."""
    swapped = b"".join(secret[at : at + word][::-1] for at in range(0, len(secret), word))
    for one in (secret, swapped):
        for pad in (0, 0x36, 0x5C):
            yield bytes(byte ^ pad for byte in one)
    yield base64.b64encode(secret)


def main():
    pieces = {}
    for what, secret, word in secrets():
        for form in forms(secret, word):
            for at in range(0, len(form) - 7, 8):
                part = bytes(byte ^ MASK for byte in form[at : at + 8])
                pieces[int.from_bytes(part, "little")] = what
    print("/* Written by bindings/c/secrets.py. */")
    print(f"#define MASK 0x{MASK:02x}")
    print(f"static const uint8_t masked_password[] = {masked(PASSWORD)};")
    print("/* By the hash, and of the right and of the wrong password. */")
    print("static const uint8_t masked_salted[3][2][64] = {")
    for name in WORDS:
        right, wrong = (hashlib.pbkdf2_hmac(name, one, SALTS[0], ITERATIONS) for one in (PASSWORD, PASSWORD[:-1]))
        print(f"    {{{masked(right)}, {masked(wrong)}}},")
    print("};")
    print("static const struct piece {\n    uint64_t masked;\n    const char *what;\n} pieces[] = {")
    for part, what in pieces.items():
        print(f'    {{UINT64_C(0x{part:016x}), "{what}"}},')
    print("};")


if __name__ == "__main__":
    main()
