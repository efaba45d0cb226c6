#!/usr/bin/python3
"""A login by libgsasl over standard input and output, a message a line in base64, by PLAIN, ANONYMOUS, EXTERNAL, or SCRAM
with a channel or an authorization identity:

    gnu_worker.py client MECHANISM USER PASSWORD IDENTITY
    gnu_worker.py server MECHANISM NAME
    gnu_worker.py server PLAIN NAME PASSWORD IDENTITY
    gnu_worker.py scram client MECHANISM USER PASSWORD IDENTITY TLS_UNIQUE
    gnu_worker.py scram server MECHANISM PASSWORD IDENTITY TLS_UNIQUE

The program `gsasl` cannot do these. As a client it ends with the status 0 before the server has accepted its message. As a
server it has no callbacks for ANONYMOUS and EXTERNAL, and ignores the authorization identity of SCRAM. It takes a channel
only from its own TLS.

IDENTITY is the authorization identity, or the trace information of ANONYMOUS. A server of SCRAM or PLAIN accepts only a client
that names this identity, or names none if it is empty. NAME is the trace information that the server expects, or the name that
the transport authenticated. TLS_UNIQUE is the data of a channel in hexadecimal, or empty for none. The library passes the
trace information and the identity of EXTERNAL to a callback, which accepts NAME, and an empty identity of EXTERNAL. The
status is 0 if the login succeeds.
"""

import base64
import ctypes
import sys

OK, NEEDS_MORE, AUTHENTICATION_ERROR, NO_CALLBACK = 0, 1, 31, 51
#: Properties of gsasl.h.
AUTHID, AUTHZID, PASSWORD, ANONYMOUS_TOKEN = 1, 2, 3, 4
VALIDATE_SIMPLE, VALIDATE_EXTERNAL, VALIDATE_ANONYMOUS = 500, 501, 502
SCRAM_ITER, SCRAM_SALT, CB_TLS_UNIQUE = 15, 16, 18

CALLBACK = ctypes.CFUNCTYPE(ctypes.c_int, ctypes.c_void_p, ctypes.c_void_p, ctypes.c_int)


class Failure(Exception):
    """A call of the library fails, or the other side has ended."""


def library():
    """The library, with the types of its calls."""
    gsasl = ctypes.CDLL("libgsasl.so.18")
    gsasl.gsasl_init.argtypes = [ctypes.POINTER(ctypes.c_void_p)]
    gsasl.gsasl_callback_set.argtypes = [ctypes.c_void_p, CALLBACK]
    gsasl.gsasl_callback_set.restype = None
    for start in (gsasl.gsasl_client_start, gsasl.gsasl_server_start):
        start.argtypes = [ctypes.c_void_p, ctypes.c_char_p, ctypes.POINTER(ctypes.c_void_p)]
    gsasl.gsasl_property_set.argtypes = [ctypes.c_void_p, ctypes.c_int, ctypes.c_char_p]
    gsasl.gsasl_property_fast.argtypes = [ctypes.c_void_p, ctypes.c_int]
    gsasl.gsasl_property_fast.restype = ctypes.c_char_p
    gsasl.gsasl_step64.argtypes = [ctypes.c_void_p, ctypes.c_char_p, ctypes.POINTER(ctypes.c_char_p)]
    gsasl.gsasl_strerror.restype = ctypes.c_char_p
    return gsasl


class Session:
    """A session of the library, of a client or of a server."""

    def __init__(self, side, mechanism, callback):
        self.gsasl, self.context, self.session = library(), ctypes.c_void_p(), ctypes.c_void_p()
        # (the library keeps only its address)
        self.callback = CALLBACK(callback)
        self.done(self.gsasl.gsasl_init(ctypes.byref(self.context)))
        self.gsasl.gsasl_callback_set(self.context, self.callback)
        start = self.gsasl.gsasl_client_start if side == "client" else self.gsasl.gsasl_server_start
        self.done(start(self.context, mechanism.encode(), ctypes.byref(self.session)))

    def done(self, status, *expected):
        if status not in (OK, *expected):
            raise Failure(self.gsasl.gsasl_strerror(status).decode())
        return status

    def set(self, name, text):
        self.gsasl.gsasl_property_set(self.session, name, text.encode())

    def text(self, name):
        """The text of a property that the library has read from a message, or an empty one."""
        return (self.gsasl.gsasl_property_fast(self.session, name) or b"").decode()

    def step(self, line):
        """Takes a line, and returns the status and the next line."""
        out = ctypes.c_char_p()
        status = self.gsasl.gsasl_step64(self.session, None if line is None else line.encode(), ctypes.byref(out))
        return self.done(status, NEEDS_MORE), (out.value or b"").decode()


def hear():
    line = sys.stdin.readline()
    if not line:
        raise Failure("the other side ended")
    return line.rstrip("\r\n")


def say(line):
    print(line, flush=True)


def run_client(mechanism, user, password, identity):
    session = Session("client", mechanism, lambda *_: NO_CALLBACK)
    session.set(AUTHID, user)
    session.set(PASSWORD, password)
    if identity or mechanism == "ANONYMOUS":
        session.set(ANONYMOUS_TOKEN if mechanism == "ANONYMOUS" else AUTHZID, identity)
    status, message = session.step(None)
    say(mechanism)
    say(message)
    if status != OK or hear():
        raise Failure("more than one message")
    say("")
    hear()


def run_server(mechanism, name, password="", identity=""):
    accepted = {
        VALIDATE_EXTERNAL: {AUTHZID: ("", name)},
        VALIDATE_ANONYMOUS: {ANONYMOUS_TOKEN: (name,)},
        VALIDATE_SIMPLE: {AUTHID: (name,), PASSWORD: (password,), AUTHZID: (identity,)},
    }

    def validate(_, session, asked):
        if asked not in accepted:
            return NO_CALLBACK
        texts = {which: (server.gsasl.gsasl_property_fast(session, which) or b"").decode() for which in accepted[asked]}
        return OK if all(texts[which] in accepted[asked][which] for which in texts) else AUTHENTICATION_ERROR

    server = Session("server", mechanism, validate)
    say(mechanism)
    say(server.step(None)[1])
    status, answer = server.step(hear())
    if status != OK:
        raise Failure("more than one message")
    say(answer)
    hear()
    say("")


def properties(known):
    """A callback that tells what is known, when the library asks for it."""

    def tell(_, session, asked):
        if asked not in known:
            return NO_CALLBACK
        library().gsasl_property_set(session, asked, known[asked].encode())
        return OK

    return tell


def run_scram(side, mechanism, *words):
    """A login by SCRAM, with `-PLUS` if there is a channel."""
    *names, identity, data = words
    known = dict(zip((AUTHID, PASSWORD, AUTHZID), (*names, identity))) if side == "client" else {PASSWORD: names[0]}
    known |= {SCRAM_ITER: "4096", SCRAM_SALT: base64.b64encode(b"a salt").decode()}
    known[CB_TLS_UNIQUE] = base64.b64encode(bytes.fromhex(data)).decode()
    # (an empty text is none)
    session = Session(side, mechanism, properties({which: text for which, text in known.items() if text}))
    say(mechanism)
    # (a server sends an empty challenge first, which our client expects)
    if side == "server":
        say("")
    status, message = session.step(None if side == "client" else hear())
    while status == NEEDS_MORE or message:
        if status == OK and side == "server" and session.text(AUTHZID) != identity:
            raise Failure("the user may not act for this identity")
        say(message)
        if status == OK:
            break
        status, message = session.step(hear())
    if side == "client":
        say("")
    hear()
    if side == "server":
        say("")


def main():
    side, *words = sys.argv[1:]
    runs = {"client": run_client, "server": run_server, "scram": run_scram}
    try:
        runs[side](*words)
    except (Failure, BrokenPipeError) as why:
        print(why, file=sys.stderr)
        return 1
    return 0


if __name__ == "__main__":
    sys.exit(main())
