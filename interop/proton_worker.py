#!/usr/bin/python3
"""Logins by Qpid Proton's engine over sockets of the loopback. Reads a line of JSON for each on standard input:

    {"side": "client", "port": PORT, "mechanism": NAME, "user": NAME, "password": WORD}
    {"side": "server", "mechanisms": NAMES, "settings": FOLDER}

and writes {"in": BOOL} once it has ended; a server first {"port": PORT}, and then also {"user": NAME, "acts_as": NAME}.
A client also writes the code of the outcome, and what is wrong with the connection: {"outcome": CODE, "error": NAME}.
With "to_the_end" it sends its first frame of AMQP after a login, and reads until the server ends.
The settings of a server's libsasl2 are the file proton-server.conf of that folder. A login is made over TLS with

    "tls": {"authority": FILE, "certificate": FILE, "key": FILE}

and a client's authorization identity is "acts_as", if there is one.
"""

import json
import socket
import sys

from proton import SASL, SSL, Connection, ProtonException, SSLDomain, Transport

PATIENCE = 60


def say(**words):
    print(json.dumps(words), flush=True)


def run(transport, channel, to_the_end=False):
    """Sends and takes bytes until the login has ended, or the connection, and then what is still to be sent. `to_the_end`
    also reads until the server ends. Returns the name of the connection's error, if there is one."""
    try:
        while not transport.closed:
            while transport.pending() > 0:
                count = channel.send(transport.peek(transport.pending()))
                transport.pop(count)
            if transport.sasl().outcome is not None:
                # (another outcome is its own, where the server offers no mechanism that it can use)
                while to_the_end and transport.sasl().outcome in (SASL.OK, SASL.AUTH) and channel.recv(4096):
                    pass
                return ""
            came = channel.recv(min(transport.capacity(), 4096))
            if not came:
                return ""
            transport.push(came)
    except OSError as why:
        return type(why).__name__
    except ProtonException:
        pass
    return ""


def begin_tls(transport, mode, files):
    """Begins TLS with a certificate, and verifies that of the other side."""
    domain = SSLDomain(mode)
    domain.set_credentials(files["certificate"], files["key"], None)
    domain.set_trusted_ca_db(files["authority"])
    if mode == SSLDomain.MODE_SERVER:
        domain.set_peer_authentication(SSLDomain.VERIFY_PEER, files["authority"])
        SSL(transport, domain)
    else:
        domain.set_peer_authentication(SSLDomain.VERIFY_PEER_NAME)
        SSL(transport, domain).peer_hostname = "localhost"


def client(job):
    connection, transport = Connection(), Transport()
    connection.hostname, connection.user, connection.password = "localhost", job["user"], job["password"]
    if job.get("acts_as"):
        connection.authorization = job["acts_as"]
    if job.get("tls"):
        begin_tls(transport, SSLDomain.MODE_CLIENT, job["tls"])
    sasl = transport.sasl()
    sasl.allow_insecure_mechs = True
    sasl.allowed_mechs(job["mechanism"])
    transport.bind(connection)
    connection.open()
    with socket.create_connection(("127.0.0.1", job["port"]), timeout=PATIENCE) as channel:
        error = run(transport, channel, job.get("to_the_end", False))
    say(**{"in": sasl.outcome == SASL.OK, "outcome": sasl.outcome, "error": error})


def server(job):
    transport = Transport(Transport.SERVER)
    sasl = transport.sasl()
    sasl.config_path(job["settings"])
    sasl.config_name("proton-server")
    sasl.allow_insecure_mechs = True
    sasl.allowed_mechs(job["mechanisms"])
    transport.require_auth(job["mechanisms"] != "ANONYMOUS")
    if job.get("tls"):
        begin_tls(transport, SSLDomain.MODE_SERVER, job["tls"])
    transport.bind(Connection())
    with socket.create_server(("127.0.0.1", 0)) as listener:
        listener.settimeout(PATIENCE)
        say(port=listener.getsockname()[1])
        channel, _ = listener.accept()
    with channel:
        channel.settimeout(PATIENCE)
        run(transport, channel)
    say(**{"in": sasl.outcome == SASL.OK, "user": sasl.user or "", "acts_as": sasl.authorization or ""})


def main():
    for line in sys.stdin:
        job = json.loads(line)
        (client if job["side"] == "client" else server)(job)


if __name__ == "__main__":
    main()
