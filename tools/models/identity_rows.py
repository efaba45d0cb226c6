#!/usr/bin/env python3
"""Runs of `scram client`, `scram server` and `scram explain` with an identity to act for (RFC 4422, section 2).

    tools/models/identity_rows.py write   writes crates/test_driver_programs/data/identities.txt
    tools/models/identity_rows.py check   compares that file with what would be written

Nothing of this repository is used: proofs, signatures and frames are those of `channel_rows.py`. The sentences are written
by hand.
"""
import re
import sys

sys.dont_write_bytecode = True
from channel_rows import AUTH, CLIENT_NONCE, COUNT, DONE, FILE, KINDS, LOGGED_IN, MISPLACED, NO_HEADER, REFUSED, SALT
from channel_rows import SHA_256, USER, Login, b64, challenge, channel, client, client_frames, init, line
from channel_rows import message_rejected, offer, ok, plain, response, row, server, server_frames, server_refuses

FILE = FILE.with_name("identities.txt")

HEAD = """# Runs of `scram client`, `scram server` and `scram explain` with an identity to act for, separated by empty lines.
#     $ WORDS       the words, each cut at one space, the name of the program first
#     < LINE        a line of the input
#     x BYTES       an input of bytes, in hexadecimal digits
#     f NAME        a file, which everybody may read and its owner write
#     - LINE        a line of it
#     > LINE        a line of what is printed
#     X BYTES       what is printed, where the input is bytes
#     ! LINE        a line among the errors
#     = STATUS      the status
#     F NAME MODE   a file after the run, with its permissions
#     + LINE        a line of it
# Source: written by `tools/models/identity_rows.py`, whose proofs and signatures are of Python's `hashlib` and `hmac`;
# sentences written by hand."""

NOT_ALLOWED = server_refuses("No right to act for this identity")
WRONG_PROOF = "e=invalid-proof"
PLUS = SHA_256 + "-PLUS"


def acting(identity, flag="n", data=b"", **options):
    """A login of a client that names this identity, which is written as it is."""
    header = f"{flag},a={identity},"
    return Login(header, header.encode() + data, **options)


def logged_in(shown):
    """The end of a server's run that authenticates the user for an identity."""
    return f"! scram: {USER} logged in, acts for {shown}", DONE


def with_wrong_proof(login):
    """The client's last message with the proof of another password."""
    wrong = bytes(byte ^ 1 for byte in login.proof)
    return login.client_final.replace(b64(login.proof), b64(wrong))


def clients():
    rows = []
    bob = acting("bob")
    first, challenged, last, signed = bob.texts()
    rows.append(client("A client that acts for another.", "--acts-for bob", [challenged, signed], [first, last], DONE))
    rows.append(
        client(
            "The server does not let the user act for it.",
            "--acts-for bob",
            [challenged, WRONG_PROOF],
            [first, last],
            *REFUSED,
        )
    )
    own = acting(USER)
    rows.append(
        client(
            "Its own name.",
            f"--acts-for {USER}",
            [own.server_first, own.server_final],
            [own.client_first, own.client_final],
            DONE,
        )
    )
    escaped = acting("a=2Cb=3Dc")
    rows.append(
        client(
            "A comma and an equals sign.",
            "--acts-for a,b=c",
            [escaped.server_first, escaped.server_final],
            [escaped.client_first, escaped.client_final],
            DONE,
        )
    )
    other = acting("J\u00f6rg")
    rows.append(
        client(
            "A name that is not ASCII.",
            "--acts-for J\u00f6rg",
            [other.server_first, other.server_final],
            [other.client_first, other.client_final],
            DONE,
        )
    )
    none = plain("n,,")
    rows.append(
        client(
            "An empty identity is none.",
            "--acts-for  --max-iterations 4096",
            [none.server_first, none.server_final],
            [none.client_first, none.client_final],
            DONE,
        )
    )
    not_offered = acting("bob", "y")
    rows.append(
        client(
            "A client that was offered no channel binding.",
            "--acts-for bob --channel-not-offered",
            [not_offered.server_first, not_offered.server_final],
            [not_offered.client_first, not_offered.client_final],
            DONE,
        )
    )
    bound = acting("bob", "p=tls-exporter", KINDS["tls-exporter"])
    rows.append(
        client(
            "A client that binds a channel.",
            f"--acts-for bob {channel('tls-exporter')}",
            [bound.server_first, bound.server_final],
            [bound.client_first, bound.client_final],
            DONE,
        )
    )
    strict = acting("bob", server_more=",s=AAAA")
    rows.append(
        client(
            "A client that names an identity is strict.",
            "--acts-for bob",
            [strict.server_first],
            [strict.client_first],
            f"! scram: The server's message is rejected: {MISPLACED}.",
            "= 3",
        )
    )
    rows.append(
        client_frames(
            "Over frames.",
            "--acts-for bob",
            [offer(SHA_256), challenge(challenged), ok(signed)],
            [init(SHA_256, first), response(last)],
            DONE,
        )
    )
    rows.append(
        client_frames(
            "Over frames, the server does not let the user act for it.",
            "--acts-for bob",
            [offer(SHA_256), challenge(challenged), AUTH],
            [init(SHA_256, first), response(last)],
            *REFUSED,
        )
    )
    return rows


def allowed(name, options, login, shown):
    """Runs of a server that lets the user act for the identity, over lines and over frames."""
    first, challenged, last, signed = login.texts()
    return [
        server(name, options, [first, last], [challenged, signed], *logged_in(shown)),
        server_frames(
            name,
            options,
            [init(login.plus, first), response(last)],
            [offer(login.plus), challenge(challenged), ok(signed)],
            *logged_in(shown),
        ),
    ]


def refused(name, options, login):
    """Runs of a server that does not let the user act for the identity, over lines and over frames."""
    first, challenged, last, _ = login.texts()
    return [
        server(name, options, [first, last], [challenged, WRONG_PROOF], *NOT_ALLOWED),
        server_frames(
            name,
            options,
            [init(login.plus, first), response(last)],
            [offer(login.plus), challenge(challenged), AUTH],
            *NOT_ALLOWED,
        ),
    ]


def beside_rights(run, *lines):
    """The run beside a file of rights with these lines, which stays as it is."""
    before, record, after = re.split(r"(?m)(^- .*\n)", run, maxsplit=1)
    given, kept = ("".join(f"{mark} {it}\n" for it in lines) for mark in "-+")
    return f"{before}{record}f users.txt.rights\n{given}{after}F users.txt.rights 644\n{kept}"


def rights_of_a_file(bob):
    """Runs of a server with a file of rights."""
    first, challenged, last, signed = bob.texts()
    wrong = "is not USER IDENTITY, both escaped as in a file of records. A user has no space and no colon."
    by_both = server(
        "A right of the file beside one of an argument.",
        "--may-act alice:carol",
        [first, last],
        [challenged, signed],
        *logged_in("bob"),
    )
    rejected = [
        server(name, "--accept-authzid", [first, last], [], f"! scram: users.txt.rights: Line {line} {wrong}", "= 4")
        for name, line in (("A line that is no right.", 2), ("A user with a colon.", 1))
    ]
    by_file = allowed("A user who may act for another by the file of rights.", "--accept-authzid", bob, "bob")
    return [
        *(beside_rights(it, "carol bob", "alice bob") for it in by_file),
        beside_rights(by_both, "alice bob"),
        beside_rights(rejected[0], "alice bob", "alice"),
        beside_rights(rejected[1], "a:b bob"),
    ]


def servers():
    bob, own = acting("bob"), acting(USER)
    exporter = acting("bob", "p=tls-exporter", KINDS["tls-exporter"])
    option = channel("tls-exporter")
    rows = [
        *allowed("A user who may act for another.", "--may-act alice:bob", bob, "bob"),
        *allowed("Both options.", "--accept-authzid --may-act alice:bob", bob, "bob"),
        *rights_of_a_file(bob),
        *allowed("The second of two rights.", "--may-act alice:carol --may-act alice:bob", bob, "bob"),
        *allowed("Its own name.", "--accept-authzid", own, USER),
        *allowed("Its own name, beside a right of another user.", "--may-act bob:carol", own, USER),
        *allowed("An identity with colons.", "--may-act alice:urn:x:1", acting("urn:x:1"), "$'urn:x:1'"),
        *allowed("A comma and an equals sign.", "--may-act alice:a,b=c", acting("a=2Cb=3Dc"), "$'a,b=c'"),
        *allowed("A name that is not ASCII.", "--may-act alice:J\u00f6rg", acting("J\u00f6rg"), r"$'J\303\266rg'"),
        *allowed("A channel.", f"--may-act alice:bob {option}", exporter, "bob"),
        *allowed(
            "A client that was offered no channel binding.", "--may-act alice:bob --accept-y", acting("bob", "y"), "bob"
        ),
        *refused("A user without a right.", "--accept-authzid", bob),
        *refused("The right of another user.", "--may-act carol:bob", bob),
        *refused("A right to another identity.", "--may-act alice:carol", bob),
        *refused("A right in the other direction.", "--may-act bob:alice", bob),
        *refused("Upper and lower case differ.", "--may-act alice:Bob", bob),
        *refused("A channel, without a right.", f"--accept-authzid {option}", exporter),
    ]
    first, challenged, last, signed = plain("n,,").texts()
    rows.append(
        server(
            "A client that names no identity.", "--may-act alice:bob", [first, last], [challenged, signed], *LOGGED_IN
        )
    )
    rows.append(
        server(
            "A wrong proof of a user who has the right.",
            "--may-act alice:bob",
            [bob.client_first, with_wrong_proof(bob)],
            [bob.server_first, WRONG_PROOF],
            *server_refuses("Wrong password"),
        )
    )
    rows.append(server("A server that accepts no identity.", "", [bob.client_first], ["e=other-error"], *NO_HEADER))
    rows.append(
        server_frames(
            "A server that accepts no identity.",
            "",
            [init(SHA_256, bob.client_first)],
            [offer(SHA_256), AUTH],
            *NO_HEADER,
        )
    )
    rows.append(
        server("An empty identity.", "--accept-authzid", [acting("").client_first], ["e=other-error"], *NO_HEADER)
    )
    unknown = acting("bob", user="carol")
    rows.append(
        server(
            "An unknown user.",
            "--may-act carol:bob",
            [unknown.client_first],
            ["e=unknown-user"],
            *server_refuses("Unknown user"),
        )
    )
    for name, header in (("no identity", b"n,,"), ("another identity", b"n,a=carol,")):
        moved = Login("n,a=bob,", header)
        rows.append(
            server(
                f"The last message has {name}.",
                "--may-act alice:bob",
                [moved.client_first, moved.client_final],
                [moved.server_first, "e=channel-bindings-dont-match"],
                *server_refuses("Channel binding"),
            )
        )
    strict = plain("n,,", client_more=",i=1")
    rows.append(
        server(
            "A server that accepts identities is strict.",
            "--accept-authzid",
            [strict.client_first],
            ["e=other-error"],
            *server_refuses("SCRAM: " + MISPLACED),
        )
    )
    return rows


def prepared():
    """A server that prepares names: rights are those of the record's name, identities are as sent."""
    soft = "ali\u00adce"
    option = "--saslprep --may-act alice:bob"
    return [
        *allowed("A right of the prepared name.", option, acting("bob", user=soft), "bob"),
        *allowed("The prepared name.", "--saslprep --accept-authzid", acting(USER, user=soft), USER),
        *allowed(
            "The name as sent, which is printed prepared.", "--saslprep --accept-authzid", acting(soft, user=soft), USER
        ),
        *refused("An identity is not prepared.", option, acting("bo\u00adb", user=soft)),
        *refused("An identity that would be prepared to the user's name.", option, acting(soft)),
        *refused("A right of the name as sent.", f"--saslprep --may-act {soft}:bob", acting("bob", user=soft)),
    ]


def wrong_words():
    rows = []
    for name, words in (
        ("No colon.", "alice"),
        ("No user.", ":bob"),
        ("No identity.", "alice:"),
        ("A colon.", ":"),
        ("A second right without a colon.", "alice:bob --may-act carol"),
    ):
        rows.append(
            row(
                name,
                f"server {SHA_256} nothing.txt --may-act {words}",
                [],
                "! scram: The value of --may-act is not a user, a colon and an identity.",
                "= 2",
            )
        )
    return rows


def explained(name, login, identity, said_first, said_header):
    """A run of `explain` over a login's lines."""
    wanted = [
        f'client-first: {said_first}user "{USER}", acts for "{identity}", nonce "{b64(CLIENT_NONCE)}"',
        f'server-first: salt {SALT.hex()}, {COUNT} iterations, nonce "{login.nonce}"',
        f"client-final: {said_header}proof {login.proof.hex()}, same nonce",
        f"server-final: signature {login.signature.hex()}",
    ]
    return row(name, "explain", ["< " + line(text) for text in login.texts()], *("> " + said for said in wanted), "= 0")


def explain():
    data = KINDS["tls-exporter"]
    first = "> client-first: rejected: "
    rows = [
        explained("A login for an identity.", acting("bob"), "bob", "", 'header "n,a=bob,", '),
        explained("A comma and an equals sign.", acting("a=2Cb=3Dc"), "a,b=c", "", 'header "n,a=a=2Cb=3Dc,", '),
        explained(
            "A client that was offered no channel binding.",
            acting("bob", "y"),
            "bob",
            "channel binding not offered, ",
            'header "y,a=bob,", ',
        ),
        explained(
            "A channel.",
            acting("bob", "p=tls-exporter", data),
            "bob",
            "channel binding tls-exporter, ",
            f'header "p=tls-exporter,a=bob,", data {data.hex()}, ',
        ),
        row(
            "An empty identity.",
            "explain",
            ["< " + line(acting("").client_first)],
            first + "Cannot parse GS2-header",
            message_rejected(1),
            "= 3",
        ),
        row(
            "An escape that is none.",
            "explain",
            ["< " + line(acting("b=2cb").client_first)],
            first + "Cannot parse GS2-header",
            message_rejected(1),
            "= 3",
        ),
        row(
            "A message with an identity is read strictly.",
            "explain",
            ["< " + line(acting("bob", client_more=",i=1").client_first)],
            f"{first}{MISPLACED}",
            message_rejected(1),
            "= 3",
        ),
    ]
    for name, login in (
        ("The last message has no identity.", Login("n,a=bob,", b"n,,")),
        ("The last message has an identity that the first has not.", Login("n,,", b"n,a=bob,")),
        ("Another channel.", Login("p=tls-exporter,a=bob,", b"p=tls-unique,a=bob," + data)),
    ):
        flag, identity, _ = login.client_first.split(",", 2)
        channel_said = "channel binding tls-exporter, " if flag != "n" else ""
        identity_said = 'acts for "bob", ' if identity else ""
        rows.append(
            row(
                name,
                "explain",
                ["< " + line(text) for text in login.texts()[:3]],
                f'> client-first: {channel_said}user "{USER}", {identity_said}nonce "{b64(CLIENT_NONCE)}"',
                f'> server-first: salt {SALT.hex()}, {COUNT} iterations, nonce "{login.nonce}"',
                "> client-final: rejected: Invalid channel binding",
                message_rejected(3),
                "= 3",
            )
        )
    return rows


def text():
    """The text of the file."""
    return "".join([HEAD + "\nparagraphs run\n", *clients(), *servers(), *prepared(), *wrong_words(), *explain()])


def main():
    if sys.argv[1:] == ["write"]:
        FILE.write_text(text())
        return 0
    if sys.argv[1:] == ["check"]:
        made = text()
        same = FILE.read_text() == made
        print(f"{FILE.name}: {made.count(chr(10) + '$ ')} runs{'' if same else ', which differ'}")
        return 0 if same else 1
    print(__doc__, file=sys.stderr)
    return 2


if __name__ == "__main__":
    sys.exit(main())
