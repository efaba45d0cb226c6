#!/usr/bin/python3
"""Clients of AMQP 1.0 that send no initial response: it answers an empty challenge of the server. The codec of Qpid
Proton writes and reads the bodies of their frames. The messages are those of a program over lines, a message a line in
base64, which begins with the name of its mechanism and says nothing before the first line of the server (cyrus.c with
`late`, or `gsasl --no-client-first`). Reads a line of JSON for each login on standard input:

    {"port": PORT, "mechanism": NAME, "hostname": NAME, "program": WORDS}

and writes {"in": BOOL} once it has ended, or {"fault": TEXT} if the server sent what a server must not send. The client
is logged in if the outcome is Ok and the program ends with the status 0, which has then verified the server. An empty
hostname is left out of the init.
"""

import base64
import json
import socket
import struct
import subprocess
import sys

from proton import Data, Described, symbol, ulong

PATIENCE = 60
SASL_HEADER = b"AMQP\x03\x01\x00\x00"
#: The descriptors of the frames (AMQP 1.0, part 5, section 5.3.3).
MECHANISMS, INIT, CHALLENGE, RESPONSE, OUTCOME = range(0x40, 0x45)


class Fault(Exception):
    """The server sent what a server must not send."""


def written(descriptor, *fields):
    """A frame of SASL (part 5, section 5.3.1)."""
    data = Data()
    data.put_object(Described(ulong(descriptor), list(fields)))
    body = data.encode()
    return struct.pack(">IBBH", len(body) + 8, 2, 1, 0) + body


def received(channel, count):
    """That many bytes."""
    held = b""
    while len(held) < count:
        came = channel.recv(count - len(held))
        if not came:
            raise Fault("the connection has ended")
        held += came
    return held


def read(channel):
    """The descriptor of the next frame, and its fields."""
    size, offset, kind, _ = struct.unpack(">IBBH", received(channel, 8))
    if not 8 <= size <= 512 or (offset, kind) != (2, 1):
        raise Fault("no frame of SASL")
    body, data = received(channel, size - 8), Data()
    if data.decode(body) != len(body):
        raise Fault("bytes after the body of a frame")
    data.rewind()
    data.next()
    frame = data.get_object()
    return int(frame.descriptor), frame.value


class Program:
    """The program that has the messages."""

    def __init__(self, words):
        pipes = {"stdin": subprocess.PIPE, "stdout": subprocess.PIPE, "stderr": subprocess.DEVNULL}
        self.process = subprocess.Popen(words, text=True, **pipes)
        self.mechanism = self.process.stdout.readline().strip()

    def hears(self, message):
        print(base64.b64encode(message).decode(), file=self.process.stdin, flush=True)

    def says(self):
        """Its next message, or None where it has ended."""
        line = self.process.stdout.readline()
        return base64.b64decode(line) if line else None

    def ended(self):
        """Whether it ends well, once the server has said all."""
        try:
            self.process.stdin.close()
        except BrokenPipeError:
            pass
        status = self.process.wait(PATIENCE)
        self.process.stdout.close()
        return status == 0


def verified(program, text):
    """Whether a program is content with the data of an outcome Ok, if there are any."""
    try:
        if text is not None:
            program.hears(bytes(text))
            if program.says() != b"":
                return False
        program.hears(b"")
    except BrokenPipeError:
        return False
    return True


def answered(channel, program):
    """Answers challenges up to the outcome, and returns whether that is Ok and the program is content with it."""
    asked = False
    while True:
        descriptor, fields = read(channel)
        if descriptor == OUTCOME:
            is_ok = fields[0] == 0
            if is_ok and not asked:
                raise Fault("an outcome Ok without an initial response")
            return is_ok and verified(program, fields[1] if len(fields) > 1 else None)
        if descriptor != CHALLENGE or (not asked and bytes(fields[0]) != b""):
            raise Fault(f"the frame {descriptor:#x} with {fields}")
        asked = True
        program.hears(bytes(fields[0]))
        message = program.says()
        if message is None:
            return False
        channel.sendall(written(RESPONSE, message))


def logged_in(job):
    with socket.create_connection(("127.0.0.1", job["port"]), timeout=PATIENCE) as channel:
        channel.sendall(SASL_HEADER)
        if received(channel, 8) != SASL_HEADER:
            raise Fault("another protocol header")
        descriptor, fields = read(channel)
        offered = getattr(fields[0], "elements", [fields[0]])
        if descriptor != MECHANISMS or job["mechanism"] not in [str(name) for name in offered]:
            raise Fault(f"the mechanisms {offered}")
        program = Program(job["program"])
        try:
            if program.mechanism != job["mechanism"]:
                raise Fault(f"the program has the mechanism {program.mechanism}")
            hostname = [None, job["hostname"]] if job["hostname"] else []
            channel.sendall(written(INIT, symbol(job["mechanism"]), *hostname))
            is_in = answered(channel, program)
        finally:
            well = program.ended()
        return is_in and well


def main():
    for line in sys.stdin:
        try:
            told = {"in": logged_in(json.loads(line))}
        except (Fault, OSError) as fault:
            told = {"fault": str(fault)}
        print(json.dumps(told), flush=True)


if __name__ == "__main__":
    main()
