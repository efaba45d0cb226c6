#!/usr/bin/env python3
"""Logins of programs that use Cyrus SASL, each side by the plugin or by Cyrus SASL's own: `make plugin-logins`.

Prints a table, a line for each program, pair of sides and mechanism: how many logins succeeded, and how many with a
wrong password, an unknown name or an authorization identity that is not allowed were refused. Missing programs are
reported, and are no failure. Ends with 1 where a line is not as it should be. All files are in a folder of its own,
all ports are free ones of 127.0.0.1, and what it starts it ends.
"""
import argparse
import base64
import contextlib
import functools
import os
import pty
import shutil
import signal
import socket
import ssl
import subprocess
import sys
import tempfile
import termios
import threading
import time
from pathlib import Path

MECHANISMS = ("SCRAM-SHA-1", "SCRAM-SHA-256", "SCRAM-SHA-512")
USERS = {"user": "pencil", "a,b=c": "pen,cil="}
STRANGERS = (("user", "pencils"), ("a,b=c", "pencil"), ("nobody", "pencil"))
RECORDED = "pen of lead"
# (with scram_saslprep a server of ours prepares it, and their client has it as it is; ours has no word for the option)
PAST = {"past": "p\u00e4ssw\u00f6rd"}
LOGGED_IN, REFUSED = "logged in", "refused"
# Who logs in with which authorization identity. The sample server lets a user act for no other, slapd as it is set up.
OWN_NAME, OTHER_NAME = ("user", "user"), ("user", "a,b=c")
NOT_ALLOWED = ("a,b=c", "user")
TIMES = 10
SECONDS = 60


def program(name):
    """The path of a program of the system, or None."""
    return shutil.which(name, path=os.environ.get("PATH", "") + ":/usr/sbin:/sbin")


def recorded(mechanism):
    """The user of whom there is a record for this mechanism alone, and no password."""
    return f"recorded-{mechanism}"


def free_port():
    with socket.create_server(("127.0.0.1", 0)) as listener:
        return listener.getsockname()[1]


def run(words, env, typed=""):
    return subprocess.run(words, env=env, input=typed, capture_output=True, text=True, timeout=SECONDS, check=False)


def told(done):
    """How a program has ended."""
    return f"status {done.returncode}: {' '.join((done.stdout + done.stderr).split())[-200:]}"


@contextlib.contextmanager
def started(words, env, **more):
    """A process that is ended, and waited for, in each case: slapd under a sanitizer does not end by itself."""
    with subprocess.Popen(words, env=env, text=True, **more) as process:
        try:
            yield process
        finally:
            if process.poll() is None:
                process.terminate()
            try:
                process.wait(3)
            except subprocess.TimeoutExpired:
                process.kill()


class Sides:
    """The folders of plugins, and the environment of a process with either."""

    def __init__(self, at, plugins, ours, kind, proton):
        self.at, self.kind, self.proton = at, kind, proton
        self.configuration = at / "configuration"
        self.configuration.mkdir()
        for side, scram in (("ours", ours), ("theirs", plugins / "libscram.so")):
            (at / side).mkdir()
            for file in (scram, plugins / "libsasldb.so"):
                if file.exists():
                    (at / side / file.name).symlink_to(file.resolve())
        self.has_theirs = (at / "theirs" / "libscram.so").exists()
        self.has_sasldb = (at / "ours" / "libsasldb.so").exists()

    def pairs(self):
        return (("ours", "ours"), ("ours", "theirs"), ("theirs", "ours")) if self.has_theirs else (("ours", "ours"),)

    def env(self, side):
        env = dict(os.environ, SASL_PATH=str(self.at / side), SASL_CONF_PATH=str(self.configuration), LC_ALL="C.UTF-8")
        env.update(LDAPNOINIT="1")
        if self.proton:
            env.update(LD_LIBRARY_PATH=str(self.proton.resolve()))
        if self.kind == "sanitized":
            compiler, report = os.environ.get("CC", "cc"), f"log_path={self.at}/report"
            env.update(LD_PRELOAD=run([compiler, "-print-file-name=libasan.so"], env).stdout.strip())
            env.update(ASAN_OPTIONS=f"detect_leaks=0:{report}", UBSAN_OPTIONS=report)
        return env

    def reports(self):
        """What the sanitizers have found."""
        return "".join(file.read_text() for file in self.at.glob("report*"))

    def users(self, application, file, options=""):
        """Writes the users into a database of Cyrus SASL, and a configuration for a program of this name.

        Cyrus SASL's own plugin writes a record for each mechanism, of a user who has no password there.
        """
        lines = f"auxprop_plugin: sasldb\nsasldb_path: {file}\nlog_level: 1\n{options}"
        (self.configuration / f"{application}.conf").write_text(lines)
        for name, password in {**USERS, **PAST}.items():
            self.user(file, name, password, "ours")
        for mechanism in MECHANISMS if self.has_theirs else ():
            making = f"{lines}mech_list: {mechanism}\nscram_secret_generate: yes\n"
            (self.configuration / "records.conf").write_text(making)
            self.user(file, recorded(mechanism), RECORDED, "theirs", "-a", "records", "-n")

    def user(self, file, name, password, side, *more):
        words = [program("saslpasswd2"), "-c", "-p", "-f", str(file), *more, name]
        if run(words, self.env(side), password).returncode != 0:
            raise OSError(f"saslpasswd2 has not made the user {name}")


class Programs:
    """A client and a server. Which of them log in, and what else is tried."""

    more = ()

    @staticmethod
    def logs_in(client, server):
        return True


class Sample(Programs):
    """The sample programs of Cyrus SASL, which print what they send and read what comes; this carries it over."""

    name = "sasl-sample-client and -server"
    acting, not_acting = (OWN_NAME,), (OTHER_NAME, NOT_ALLOWED)

    def __init__(self, sides):
        self.sides, self.has_records = sides, sides.has_theirs
        sides.users("sample", sides.at / "sample.db", "scram_saslprep: yes\n")

    @staticmethod
    def missing(sides):
        names = ("sasl-sample-client", "sasl-sample-server", "saslpasswd2")
        return [name for name in names if not program(name)] + ([] if sides.has_sasldb else ["libsasldb.so"])

    @contextlib.contextmanager
    def server(self, side, mechanism):
        """There is a server for each login."""
        yield side, mechanism

    @contextlib.contextmanager
    def talker(self, words, side):
        """A program whose output is a terminal, so that it comes line by line; its input is none, for the password."""
        ours, its = pty.openpty()
        # (no carriage return before a line feed)
        modes = termios.tcgetattr(its)
        modes[1] &= ~termios.OPOST
        termios.tcsetattr(its, termios.TCSANOW, modes)
        with started(
            words,
            self.sides.env(side),
            stdin=subprocess.PIPE,
            stdout=its,
            stderr=subprocess.STDOUT,
            start_new_session=True,
        ) as process:
            os.close(its)
            with open(ours, "r", encoding="utf-8", errors="replace") as lines:
                yield process, lines

    @staticmethod
    def said(lines, letter, heard):
        """The next line that is a message, or None where there is none any more."""
        with contextlib.suppress(OSError):
            for line in lines:
                heard.append(line.strip())
                if line.startswith(letter + ": "):
                    return line[3:].strip()
        return None

    def login(self, side, server, name, password, identity=""):
        server_side, mechanism = server
        client = [program("sasl-sample-client"), "-m", mechanism, "-s", "sample", "-n", "localhost", "-a", name]
        client += ["-u", identity]
        serving = [program("sasl-sample-server"), "-s", "sample"]
        heard = [], []
        with self.talker(serving, server_side) as (s, from_server), self.talker(client, side) as (c, from_client):
            typed = password + "\n"
            with contextlib.suppress(BrokenPipeError):
                while (message := self.said(from_server, "S", heard[1])) is not None:
                    c.stdin.write(f"S: {message}\n{typed}")
                    c.stdin.flush()
                    typed = ""
                    if (message := self.said(from_client, "C", heard[0])) is None:
                        break
                    s.stdin.write(f"C: {message}\n")
                    s.stdin.flush()
            c.stdin.close()
            s.stdin.close()
            self.said(from_server, "-", heard[1])
            self.said(from_client, "-", heard[0])
            codes = c.wait(SECONDS), s.wait(SECONDS)
        if codes == (0, 0) and all(f"Username: {name}" in one for one in heard):
            return LOGGED_IN
        said = "\n".join(heard[1])
        return REFUSED if "authentication failure" in said or "user not found" in said else f"{codes}: {heard}"


class Proton(Programs):
    """Qpid Proton over AMQP 1.0: a server and a client of its module for Python, and a message."""

    name = "Qpid Proton (AMQP 1.0)"
    acting, not_acting = (), ()

    def __init__(self, sides):
        self.sides, self.has_records = sides, sides.has_theirs
        sides.users("proton-server", sides.at / "proton.db")

    @staticmethod
    def missing(sides):
        if not (python := Proton.python()):
            return ["python3-qpid-proton"]
        words = [python, "-c", "import proton; assert proton.SASL.extended()"]
        names = [] if run(words, sides.env("ours")).returncode == 0 else ["Proton that was built with Cyrus SASL"]
        names += [] if program("saslpasswd2") else ["saslpasswd2"]
        return names + ([] if sides.has_sasldb else ["libsasldb.so"])

    @staticmethod
    def python():
        """A Python that has the module."""
        for python in (sys.executable, "/usr/bin/python3"):
            with contextlib.suppress(OSError):
                if run([python, "-c", "import proton"], dict(os.environ)).returncode == 0:
                    return python
        return None

    @contextlib.contextmanager
    def server(self, side, mechanism):
        """A server, and a client of the other side once there is a login."""
        port, python, pipe = free_port(), self.python(), subprocess.PIPE
        words = [python, "-B", __file__, "proton-server", str(port), mechanism]
        with started(words, self.sides.env(side), stdout=pipe) as process, contextlib.ExitStack() as clients:
            if process.stdout.readline() != "ready\n":
                raise OSError("the server of Proton is not ready")
            words = [python, "-B", __file__, "proton-client", str(port), mechanism]

            @functools.cache
            def client(side):
                return clients.enter_context(started(words, self.sides.env(side), stdin=pipe, stdout=pipe))

            yield process, client, mechanism

    def login(self, side, server, name, password):
        process, client, mechanism = server
        client(side).stdin.write(f"{name}\t{password}\n")
        client(side).stdin.flush()
        how = client(side).stdout.readline().strip()
        if how != "sent":
            return REFUSED if "'Authentication failed [" in how else f"the client says {how}"
        who = process.stdout.readline().strip()
        return LOGGED_IN if who == f"{mechanism} {name}" else f"the server says {who}"


class OpenLdap(Programs):
    """slapd and ldapwhoami, over users of slapd's own, one of whom may act for the other."""

    name, scheme, folder = "OpenLDAP", "ldap", "slapd"
    acting, not_acting = (OWN_NAME, OTHER_NAME), (NOT_ALLOWED,)

    def __init__(self, sides, more=""):
        self.sides, self.has_records = sides, False
        self.file = sides.at / f"{self.folder}.conf"
        data = sides.at / self.folder
        data.mkdir()
        self.file.write_text(
            "include /etc/ldap/schema/core.schema\ninclude /etc/ldap/schema/cosine.schema\n"
            "modulepath /usr/lib/ldap\nmoduleload back_mdb\n"
            f"pidfile {data}/slapd.pid\nsasl-host localhost\nsasl-secprops none\n{more}"
            "authz-regexp uid=([^,]*),cn=[^,]*,cn=auth uid=$1,dc=example\nauthz-policy to\n"
            f'database mdb\nsuffix "dc=example"\ndirectory {data}\n'
        )
        entries = ["dn: dc=example\nobjectClass: dcObject\nobjectClass: organization\ndc: example\no: example\n"]
        for name, password in USERS.items():
            word = base64.b64encode(password.encode()).decode()
            right = f"authzTo: dn.exact:{self.entry(OTHER_NAME[1])}\n" if name == OTHER_NAME[0] else ""
            entries.append(
                f"dn: {self.entry(name)}\nobjectClass: account\nobjectClass: simpleSecurityObject\n"
                f"uid: {name}\nuserPassword:: {word}\n{right}"
            )
        done = run([program("slapadd"), "-f", str(self.file)], dict(os.environ), "\n".join(entries))
        if done.returncode != 0:
            raise OSError(f"slapadd: {done.stderr}")

    @staticmethod
    def entry(name):
        """The distinguished name of a user's entry."""
        return "uid={},dc=example".format(name.replace(",", "\\2C").replace("=", "\\3D"))

    @staticmethod
    def missing(_):
        return [name for name in ("slapd", "slapadd", "ldapwhoami") if not program(name)]

    @contextlib.contextmanager
    def server(self, side, mechanism):
        port = free_port()
        words = [program("slapd"), "-f", str(self.file), "-h", f"{self.scheme}://127.0.0.1:{port}", "-d", "0"]
        with started(words, self.sides.env(side), stdout=subprocess.DEVNULL, stderr=subprocess.DEVNULL) as process:
            for _ in range(200):
                with contextlib.suppress(OSError), socket.create_connection(("127.0.0.1", port), 1):
                    break
                if process.poll() is not None:
                    raise OSError("slapd has ended")
                time.sleep(0.05)
            yield port, mechanism

    def login(self, side, server, name, password, identity="", more=()):
        port, mechanism = server
        words = [program("ldapwhoami"), "-H", f"{self.scheme}://127.0.0.1:{port}", "-Q", "-Y", mechanism, "-U", name]
        words += ["-X", f"u:{identity}"] if identity else []
        done = run([*words, *more, "-w", password], self.sides.env(side))
        if done.returncode == 0 and done.stdout.lower() == f"dn:{self.entry(identity or name)}\n".lower():
            return LOGGED_IN
        # (LDAP_INVALID_CREDENTIALS, and LDAP_OTHER, which slapd answers to a name that it does not have; for an identity
        # that is not allowed LDAP_INSUFFICIENT_ACCESS)
        return REFUSED if done.returncode in ((50,) if identity else (49, 80)) else told(done)


class BoundOpenLdap(OpenLdap):
    """slapd and ldapwhoami over TLS, which bind the certificate. Only plugins of one kind log in: Cyrus SASL's own names
    the channel as OpenLDAP does, ours as it is registered."""

    name, scheme, folder = "OpenLDAP, sasl-cbinding", "ldaps", "slapd-tls"
    acting, not_acting = (), ()
    # (somebody who hands everything on is let in by those alone who do not bind)
    more = ((("user", "pencil", "relayed"), REFUSED), (("user", "pencil", "relayed, unbound"), LOGGED_IN))

    def __init__(self, sides):
        self.certificates = [self.certificate(sides.at / name) for name in ("own", "other")]
        shown, key = self.certificates[0]
        lines = f"sasl-cbinding tls-endpoint\nTLSCertificateFile {shown}\nTLSCertificateKeyFile {key}\n"
        super().__init__(sides, lines)

    @staticmethod
    def missing(sides):
        # (with the sanitizer loaded before it, it hangs in what it loads for TLS as it exits, also without a plugin)
        ends = [] if sides.kind == "plain" else ["ldapwhoami that ends under a sanitizer"]
        return OpenLdap.missing(sides) + ([] if program("openssl") else ["openssl"]) + ends

    @staticmethod
    def certificate(at):
        made = f"{at}.pem", f"{at}-key.pem"
        words = "openssl req -x509 -nodes -days 2 -subj /CN=localhost -newkey rsa:2048 -out".split()
        subprocess.run([*words, made[0], "-keyout", made[1]], stderr=subprocess.DEVNULL, check=True)
        return made

    @staticmethod
    def logs_in(client, server):
        return client == server

    def login(self, side, server, name, password, way=""):
        port, mechanism = server
        more = ["-o", "TLS_REQCERT=never"]
        if "unbound" not in way:
            mechanism, more = f"{mechanism}-PLUS", [*more, "-o", "SASL_CBINDING=tls-endpoint"]
        with relayed(port, self.certificates[1]) if way else contextlib.nullcontext(port) as at:
            return super().login(side, (at, mechanism), name, password, more=more)


@contextlib.contextmanager
def relayed(port, certificate):
    """The port of somebody on the way with another certificate, who hands on what the two sides of one connection send."""
    shown, asking = ssl.SSLContext(ssl.PROTOCOL_TLS_SERVER), ssl.SSLContext(ssl.PROTOCOL_TLS_CLIENT)
    shown.load_cert_chain(*certificate)
    asking.check_hostname, asking.verify_mode = False, ssl.CERT_NONE

    def carry(source, sink):
        with contextlib.suppress(OSError), source, sink:
            while data := source.recv(4096):
                sink.sendall(data)

    def relay(listener):
        with contextlib.suppress(OSError):
            client = shown.wrap_socket(listener.accept()[0], server_side=True)
            server = asking.wrap_socket(socket.create_connection(("127.0.0.1", port)))
            threading.Thread(target=carry, args=(client, server), daemon=True).start()
            carry(server, client)

    with socket.create_server(("127.0.0.1", 0)) as listener:
        threading.Thread(target=relay, args=(listener,), daemon=True).start()
        yield listener.getsockname()[1]


def cell(one, client, server, mechanism):
    """How many of how many logins succeed, how many of those of strangers are refused, and what else there was."""
    users, strangers, counts, others = dict(USERS), list(STRANGERS), [], []
    if client == "theirs" and isinstance(one, Sample):
        users.update(PAST)
    if one.has_records:
        users[recorded(mechanism)] = RECORDED
        strangers.append((recorded(mechanism), "pencil"))
    due = LOGGED_IN if one.logs_in(client, server) else REFUSED
    tried = [(user, due) for user in users.items() for _ in range(TIMES)]
    tried += [(user, REFUSED) for user in strangers] + list(one.more)
    for acting, due, times in ((one.acting, LOGGED_IN, TIMES), (one.not_acting, REFUSED, 1)):
        tried += [((name, USERS[name], identity), due) for name, identity in acting for _ in range(times)]
    with one.server(server, mechanism) as serving:
        hows = [(one.login(client, serving, *words), due) for words, due in tried]
    others += [how for how, due in hows if how != due]
    for wanted in (LOGGED_IN, REFUSED):
        counts.append((hows.count((wanted, wanted)), [due for _, due in hows].count(wanted)))
    return *counts, others


def table(sides):
    """Prints the table, and answers how many lines are not as they should be."""
    differ = 0
    for kind in (Sample, Proton, OpenLdap, BoundOpenLdap):
        if missing := kind.missing(sides):
            print(f"{kind.name}: not tried, since there is no {', '.join(missing)}")
            continue
        one = kind(sides)
        for client, server, mechanism in [(*pair, mechanism) for pair in sides.pairs() for mechanism in MECHANISMS]:
            logged_in, refused, others = cell(one, client, server, mechanism)
            differ += bool(others)
            counts = "{} of {} logins, {} of {} refused".format(*logged_in, *refused)
            print(f"{kind.name:31}{client:>7} to {server:7}{mechanism:14}{counts}", flush=True)
            for other in dict.fromkeys(others):
                print(f"DIFFERS, {others.count(other)} times: {other}", flush=True)
    if reports := sides.reports():
        print(reports)
    return differ + bool(reports)


def proton_server(port, mechanism):
    from proton.handlers import MessagingHandler
    from proton.reactor import Container

    class Server(MessagingHandler):
        def on_start(self, event):
            event.container.listen(f"127.0.0.1:{port}")
            print("ready", flush=True)

        def on_connection_bound(self, event):
            event.transport.require_auth(True)
            sasl = event.transport.sasl()
            sasl.config_name("proton-server")
            sasl.allowed_mechs(mechanism)

        def on_link_opening(self, event):
            event.link.target.address = event.link.remote_target.address

        def on_message(self, event):
            sasl = event.transport.sasl()
            if event.message.body == "a message":
                print(sasl.mech, sasl.user, flush=True)

    signal.signal(signal.SIGTERM, lambda *_: os._exit(0))
    Container(Server()).run()


def proton_client(port, mechanism):
    """A login, and a message, for each line of a name and a password."""
    from proton import ConnectionException, Message
    from proton.utils import BlockingConnection

    for name, password in (line.rstrip("\n").split("\t") for line in sys.stdin):
        try:
            connection = BlockingConnection(
                f"127.0.0.1:{port}", timeout=20, user=name, password=password, allowed_mechs=mechanism, reconnect=False
            )
            connection.create_sender("here").send(Message(body="a message"))
            connection.close()
            print("sent", flush=True)
        except ConnectionException as fault:
            print(" ".join(str(fault).split()), flush=True)


def main():
    if sys.argv[1:2] == ["proton-server"]:
        return proton_server(sys.argv[2], sys.argv[3])
    if sys.argv[1:2] == ["proton-client"]:
        return proton_client(sys.argv[2], sys.argv[3])
    asked = argparse.ArgumentParser(description=__doc__, formatter_class=argparse.RawDescriptionHelpFormatter)
    asked.add_argument("--plugins", type=Path, required=True, help="the folder of the system's plugins")
    asked.add_argument("--ours", type=Path, default=Path("build/plugins"), help="the folder of plain/ and sanitized/")
    asked.add_argument("--proton", type=Path, help="the folder of a library of Proton with Cyrus SASL")
    asked = asked.parse_args()
    differ = 0
    for kind in ("plain", "sanitized"):
        if not (asked.ours / kind / "libfe2o3_scram.so").exists():
            print(f"There is no {kind} plugin in {asked.ours}.")
            differ += 1
            continue
        print(f"The plugin, {kind}:")
        with tempfile.TemporaryDirectory() as folder:
            ours = asked.ours / kind / "libfe2o3_scram.so"
            sides = Sides(Path(folder), asked.plugins, ours, kind, asked.proton)
            if not sides.has_theirs:
                print(f"There is no libscram.so in {asked.plugins}: both sides are ours.")
            differ += table(sides)
    return 1 if differ else 0


if __name__ == "__main__":
    sys.exit(main())
