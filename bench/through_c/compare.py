"""What the calls take through C, beside the library's own: compare.py DUMPS STORED.

DUMPS is the callgrind file of calls.c, STORED the counts of the driver. It prints a table, and ends with 1 where two
counts of one call differ, or where one is above its goal: at SHA-256 3 % more for a client-final, also by keys, and 5 %
for a server-final, and 60 instructions for a view."""
import sys
from pathlib import Path

sys.dont_write_bytecode = True
sys.path.insert(0, str(Path(__file__).resolve().parent.parent))
import callgrind  # noqa: E402

# The same work in Rattle: a call of a machine that exists, of the message, the record or the body that is named.
PAIRS = {
    "client-first-sha256": "machine-client-first",
    "client-first-by-keys-sha256": "keyed-client-first",
    "server-first-sha256": "machine-server-first",
    "verify-sha256": "machine-validate",
    "verify-by-keys-sha256": "keyed-validate",
    **{f"client-final-sha{version}": f"machine-client-final-sha{version}" for version in (1, 256, 512)},
    **{f"client-final-by-keys-sha{version}": f"keyed-client-final-sha{version}" for version in (1, 256, 512)},
    **{f"server-final-sha{version}": f"machine-server-final-sha{version}" for version in (1, 256, 512)},
    **{job: job for job in ("record-make", "record-write", "record-read")},
    **{job: job for job in ("view-mechanisms", "view-init", "view-challenge", "view-response", "view-outcome")},
}


def most(job, own):
    """The most that a call may take, or None."""
    if job.startswith("view"):
        return own + 60
    if job.startswith("client-final") and job.endswith("-sha256"):
        return own * 1.03
    return own * 1.05 if job == "server-final-sha256" else None


def read_counts(path):
    with open(path, encoding="utf-8") as lines:
        rows = [line.split() for line in lines if line.strip()]
    return {job: int(count) for job, who, count in rows if who == "library"}


def row(job, through, own):
    more = f"{through - own:+d}, {100 * (through - own) / own:+.1f} %" if own else ""
    return f"| {job} | {through} | {own or ''} | {more} |"


stored = read_counts(sys.argv[2])
counts: dict = {}
wrong = 0
for name, instructions in callgrind.dumps(sys.argv[1]):
    job = name.split()[0]
    if counts.setdefault(job, instructions) != instructions:
        print(f"{job}: {counts[job]} and {instructions}")
        wrong += 1
print("| a call | through C | in Rattle | more |\n|---|---|---|---|")
for job, through in counts.items():
    own = stored.get(PAIRS.get(job))
    if own is None and (job.endswith("-sha1") or job.endswith("-sha512")):
        continue
    print(row(job, through, own))
    if own and most(job, own) is not None and through > most(job, own):
        print(f"{job}: above {int(most(job, own))}", file=sys.stderr)
        wrong += 1
sys.exit(1 if wrong else 0)
