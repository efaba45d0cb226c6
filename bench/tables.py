"""Prints the tables of a run: tables.py INSTRUCTIONS REQUESTS TIMES GROWTH, as other commands write them."""
import sys

NAMES = {
    "library": "library",
    "openssl": "OpenSSL",
    "openssl-nosha": "OpenSSL, SHA hidden",
    "rustcrypto": "RustCrypto",
    "rustcrypto-soft": "RustCrypto, force-soft",
    "by-hand": "by hand in Rust",
    "by-hand-soft": "the same, force-soft",
    "postgres-protocol": "postgres-protocol",
    "gsasl": "GNU SASL",
    "proton": "Qpid Proton",
    "two-blocks": "two blocks of OpenSSL",
    "two-blocks-nosha": "the same, SHA hidden",
}


def counts(path):
    with open(path, encoding="utf-8") as lines:
        return {tuple(line.split()[:2]): line.split()[2] for line in lines if line.strip()}


def times(path):
    with open(path, encoding="utf-8") as lines:
        rows = [line.split() for line in lines if not line.startswith("#") and not line.startswith("job ")]
    return {(row[0], row[1]): f"{float(row[3]):,.0f}" + ("" if row[1] == "library" else f" ({row[5]})") for row in rows}


def table(head, jobs, values, who_is_row):
    """A row for each peer and a column for each job, or the other way round; empty rows are left out."""
    whos = [who for who in NAMES if any((job, who) in values for job in jobs)]
    jobs = [job for job in jobs if any((job, who) in values for who in whos)]
    if not jobs:
        return

    def cell(job, who):
        return values.get((job, who), "")

    if who_is_row:
        print("| " + " | ".join([head] + jobs) + " |")
        print("|---" * (len(jobs) + 1) + "|")
        for who in whos:
            print("| " + " | ".join([NAMES[who]] + [cell(job, who) for job in jobs]) + " |")
    else:
        print("| " + " | ".join([head] + [NAMES[who] for who in whos]) + " |")
        print("|---" * (len(whos) + 1) + "|")
        for job in jobs:
            print("| " + " | ".join([job] + [cell(job, who) for who in whos]) + " |")
    print()


def pairs(head, columns, rows):
    """A row for each name, and for each column the library's instructions and requests of its job."""
    print("| " + " | ".join([head] + [f"{column}, {what}" for column in columns for what in WHAT]) + " |")
    print("|---" * (1 + 2 * len(columns)) + "|")
    for name, jobs in rows:
        jobs = jobs + [""] * (len(columns) - len(jobs))
        cells = [values.get((job, "library"), "") for job in jobs for values in (instructions, requests)]
        print("| " + " | ".join([name] + cells) + " |")
    print()


WHAT = ["instructions", "requests"]
HI = ["hi-sha1", "hi-sha256", "hi-sha512"]
HASHES = ["h-16k-sha1", "h-16k-sha256", "h-16k-sha512", "hmac-sha1", "hmac-sha256", "hmac-sha512"]
FRAMES = ["mechanisms", "init", "challenge", "response", "outcome"]
CODEC = [f"{what}-{frame}" for what in ("view", "decode", "recode") for frame in FRAMES]
VERSIONS = ["sha1", "sha256", "sha512"]
CALLS = (
    ["client-first", "server-first"]
    + [f"client-final-{version}" for version in VERSIONS]
    + [f"server-final-{version}" for version in VERSIONS]
    + ["validate"]
)
REST = [
    "salted-password",
    "auth-message",
    "escape",
    "unescape",
    "headers",
]
SIDES = ["by password", "by keys"]
LOGIN = (
    [("client-first", ["machine-client-first", "keyed-client-first"]), ("server-first", ["machine-server-first"])]
    + [(f"client-final-{v}", [f"machine-client-final-{v}", f"keyed-client-final-{v}"]) for v in VERSIONS]
    + [(f"server-final-{v}", [f"machine-server-final-{v}"]) for v in VERSIONS]
    + [("validate", ["machine-validate", "keyed-validate"])]
    + [(f"the five calls, {v}", [f"login-{v}", f"login-keys-{v}"]) for v in VERSIONS]
    + [("the five calls, sha256 at 4096", ["login-4096-sha256", "login-keys-4096-sha256"])]
    + [("making the client", ["new-client", "new-keyed-client"]), ("making the server", ["new-server"])]
)
RECORDS = ["record-make", "record-write", "record-read", "lines-read", "lines-write", "look-up"]
RUNS = ["run-client", "run-server", "run-audit"]
instructions, requests = counts(sys.argv[1]), counts(sys.argv[2])
spent = times(sys.argv[3])
for title, values in (("Instructions", instructions), ("Least time, ns, and ours by theirs", spent)):
    print(f"{title}\n")
    table("an iteration of Hi", HI, values, True)
    table("a block, a value", HASHES, values, False)
    table("a call at the count 1", CALLS, values, False)
    table("a body", CODEC, values, False)
    table("the library's other calls", REST, values, False)
print("Machines\n")
pairs("a login's call", SIDES, LOGIN)
print("Records, runs and audits\n")
pairs("a call", ["the library's"], [(job, [job]) for job in RECORDS + RUNS])
print("The same, least time, ns\n")
table("a call", [job for _, jobs in LOGIN for job in jobs] + RECORDS + RUNS, spent, False)
print("Requests for memory\n")
table("a call", HASHES + HI + CALLS + CODEC + REST, requests, False)
print("Growth\n")
print("| call | size | instructions | each | requests | bytes asked for | exponent |\n|---|---|---|---|---|---|---|")
with open(sys.argv[4], encoding="utf-8") as lines:
    for line in lines:
        cells = line.split()
        if len(cells) > 5 and cells[1].isdigit():
            exponent = cells[6] if len(cells) > 6 and cells[6].replace(".", "").isdigit() else ""
            note = "" if exponent else ": " + " ".join(cells[6:])
            print("| " + " | ".join([cells[0] + note] + cells[1:6] + [exponent]) + " |")
