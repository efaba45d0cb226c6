"""Tries broker.py over TLS with peers that break TLS, or end it early."""

from __future__ import annotations

import asyncio
import os
import shutil
import socket
import ssl
import struct
import subprocess
import sys
import tempfile
import time
import unittest
from pathlib import Path

from examples import broker, client
from peers import SASL_HEADER, SHA_256, Secret


def line(version: int, name: str, password: str) -> str:
    return f"{name} {Secret(version, password, bytes(16), 4096).record_text()}\n"


@unittest.skipUnless(shutil.which("openssl"), "it makes the certificate")
class Rude(unittest.TestCase):
    """The broker over TLS, and peers that break TLS or end it early."""

    def setUp(self) -> None:
        folder = tempfile.TemporaryDirectory()
        self.addCleanup(folder.cleanup)
        self.files = [f"{folder.name}/{name}" for name in ("users.txt", "certificate.pem", "key.pem")]
        Path(self.files[0]).write_text(line(SHA_256, "user", "pencil"))
        words = ["openssl", "req", "-x509", "-nodes", "-days", "2", "-subj", "/CN=localhost", "-newkey", "rsa:2048"]
        words += ["-keyout", self.files[2], "-out", self.files[1]]
        subprocess.run(words, stderr=subprocess.DEVNULL, check=True)
        self.trusting = ssl.create_default_context(cafile=self.files[1])
        self.trusting.check_hostname = False

    def peers(self, port: int) -> None:
        """Connections that end in many ways, before, in and after the handshake."""
        reset = struct.pack("ii", 1, 0)
        for rude in range(10):
            sock = socket.create_connection(("127.0.0.1", port), 20)
            if rude == 0:
                sock.close()
            elif rude < 3:  # no TLS at all
                sock.sendall(b"AMQP\3\1\0\0" * 9 if rude == 1 else b"\x16\3\1\2\0")
                sock.close()
            elif rude < 9:
                secure = self.trusting.wrap_socket(sock, suppress_ragged_eofs=True)
                if rude in (3, 4):  # no end of TLS
                    secure.setsockopt(socket.SOL_SOCKET, socket.SO_LINGER, reset if rude == 3 else bytes(8))
                elif rude in (5, 6):
                    secure.sendall(SASL_HEADER if rude == 5 else b"GET / HTTP/1.1\r\n\r\n")
                elif rude == 7:  # a record that cannot be decrypted
                    os.write(secure.fileno(), b"\x17\3\3\0\x20" + bytes(32))
                else:
                    secure.sendall(SASL_HEADER)
                    secure.recv(4096)
                    secure.unwrap()
                secure.close()
            else:
                untrusting = ssl.create_default_context()
                with self.assertRaises(ssl.SSLError):
                    untrusting.wrap_socket(sock, server_hostname="localhost")

    def test_it_writes_no_traceback(self) -> None:
        program = Path(broker.__file__)
        environment = {**os.environ, "PYTHONPATH": str(program.parents[1])}
        words = [sys.executable, "-B", str(program), "0", *self.files, self.files[1]]
        with subprocess.Popen(
            words, stdout=subprocess.PIPE, stderr=subprocess.PIPE, text=True, env=environment
        ) as process:
            assert process.stdout is not None and process.stderr is not None
            try:
                port = int(process.stdout.readline())
                for _ in range(3):
                    self.peers(port)
                login = client.Login("127.0.0.1", port, "user", "pencil", self.trusting, False)
                self.assertEqual(asyncio.run(client.run(login)), "SCRAM-SHA-256")
                time.sleep(broker.CLOSE_SECONDS + 0.5)
            finally:
                process.terminate()
            self.assertEqual(process.stderr.read(), "")


if __name__ == "__main__":
    unittest.main()
