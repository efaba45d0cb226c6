#!/usr/bin/env python3
"""Logs in to other programs and lets them log in, through the library's bindings for C, Rust and Python.

    run.py [--only PEER] [--what WORDS] [--logins N] [--table FILE] [--record FILE] [--proton FOLDER]

Makes twenty fresh logins for each cell, prints the table, and exits with 1 if a login does not end as expected. A
peer whose package is not installed is reported, and is no failure. Everything runs in a temporary folder and on free
ports of the loopback, and is removed after the run. `make interop` builds our programs in `build/interop`. The
results are also written to a file named after the time, in `build/interop/results`, or to that of --table. None is
committed: docs/COMPATIBILITY.md has the sums.
"""

from __future__ import annotations

import argparse
import os
import platform
import signal
import sys
import tempfile
import time
from multiprocessing.pool import ThreadPool
from pathlib import Path
from typing import Optional

sys.dont_write_bytecode = True
sys.path.insert(0, str(Path(__file__).resolve().parent))
import record  # noqa: E402
from attacked import AttackedPostgreSql  # noqa: E402
from cells import Cell, Peer  # noqa: E402
from cyrus_sasl import CyrusSasl  # noqa: E402
from example_broker import ExampleBroker  # noqa: E402
from gnu_sasl import GnuSasl  # noqa: E402
from late import LateCyrus, LateGnu  # noqa: E402
from postgresql import PostgreSql  # noqa: E402
from qpid_proton import ProtonWithCyrus, QpidProton  # noqa: E402
from rabbitmq import RabbitMq  # noqa: E402
from shared_users import SharedUsers  # noqa: E402
from sides import PYTHON, Side  # noqa: E402

#: The head of a file of results.
HEAD = "# Logins to other programs and by them\n\nWritten by `interop/run.py`.\n\n"


def peers(built: Path, proton: Optional[Path]) -> list[Peer]:
    """The peers, in the order of the table."""
    with_sasl_alone = [GnuSasl(), CyrusSasl(built), PostgreSql(), AttackedPostgreSql(), SharedUsers()]
    proton_peers = [QpidProton(), ProtonWithCyrus(proton), ExampleBroker(proton)]
    return [*with_sasl_alone, *proton_peers, LateCyrus(built), LateGnu(), RabbitMq()]


def sides(built: Path, folder: Path) -> list[Side]:
    """Our side in C, in Rust and in Python. In Python it has no program over lines."""
    rust = built / "rust" / "release"
    frames, examples = str(rust / "frames"), PYTHON / "examples"
    programs = [[sys.executable, "-B", str(examples / name)] for name in ("client.py", "broker.py")]
    library = Path(os.environ.setdefault("FE2O3_SASL_LIB", str(built.parent / "libfe2o3_sasl.so")))
    found = [
        (rust / "lines", Side("Rust", rust / "lines", [frames, "client"], [frames, "server"], folder)),
        (library, Side("Python", Path("-"), *programs, folder)),
    ]
    missing = [side.language for program, side in found if not program.exists()]
    for language in missing:
        print(f"- our programs in {language}: not built")
    in_c = Side("C", built / "lines", [str(built / "client")], [str(built / "server")], folder)
    return [in_c, *(side for _, side in found if side.language not in missing)]


def one(cell: Cell, side: Side) -> str:
    """A login of a cell: nothing where it ended as it is to end, and else how it ended."""
    try:
        ending = cell.login(side)
    except Exception as why:  # noqa: BLE001 (whatever a login runs into is told, and the next one is made)
        return f"{type(why).__name__}: {why}"
    return "" if ending == cell.ends else str(ending)


def counted(cell: Cell, side: Side, logins: int) -> tuple[str, bool]:
    """The result of a cell, and whether each login ended as it is to end."""
    if cell.login is None:
        return f"none: {cell.reason}", True
    with ThreadPool(logins if cell.at_once else 1) as pool:
        endings = pool.map(lambda _: one(cell, side), range(logins))
    right, other = endings.count(""), next(filter(None, endings), "")
    result = f"{right} of {logins}"
    return (result, True) if right == logins else (f"{result}, one of them {other}", False)


def recorded(cell: Cell, peer: Peer, side: Side) -> str:
    """The rows of one more login of a cell, or nothing where its bytes are not kept."""
    if cell.kept is None:
        return ""
    side.taps = []
    ending, tap, side.taps = one(cell, side), side.taps[0] if side.taps else None, None
    if ending or tap is None:
        return ""
    other = "server" if cell.ours == "client" else "client"
    head = f"# {peer.name} {peer.version()} as the {other}: {cell.what}"
    if peer.by_frames:
        rows = record.stream(cell.ours, cell.mechanism, cell.kept, tap, cell.kept_as)
    else:
        run = record.client_run if cell.ours == "client" else record.server_run
        rows = run(cell.kept_as or cell.ours, cell.mechanism, cell.kept, tap)
    rows = ["", head, *rows]
    if rows[2].startswith("server_plus"):
        rows += ["", f"{head}, to a server with other channel data (altered)", *record.of_other_channel(rows[2:])]
    return "\n".join([*rows, ""])


def wanted(cell: Cell) -> list[str]:
    """How the logins of a cell end, for our program and for the peer; or why there is none."""
    if cell.login is None:
        return [f"none: {cell.reason}", "none"]
    return [cell.ends.ours, {None: "not seen", True: "yes", False: "no"}[cell.ends.peer]]


def run_peer(peer: Peer, ours: list[Side], told: argparse.Namespace) -> tuple[list[list[str]], bool]:
    """The rows of a peer, and whether all are right."""
    rows, all_right = [], True
    for cell in peer.cells():
        if told.what and told.what not in f"{cell.ours} {cell.mechanism} {cell.what}":
            continue
        results = {side.language: "none" for side in ours}
        for side in ours:
            if side.language not in peer.languages:
                continue
            began = time.monotonic()
            result, right = counted(cell, side, told.logins)
            results[side.language] = "none" if cell.login is None else result
            if told.record and side.language == "C":
                with told.record.open("a") as file:
                    file.write(recorded(cell, peer, side))
            all_right &= right
            took = "" if cell.login is None else f" ({time.monotonic() - began:.1f} s)"
            words = (peer.name, f"ours is {cell.ours}", side.language, cell.mechanism, cell.what, result)
            print(" | ".join(words) + took, flush=True)
        rows.append([peer.name, cell.ours, cell.mechanism, cell.what, *wanted(cell), *results.values()])
    return rows, all_right


def table(rows: list[list[str]], versions: list[str], languages: list[str]) -> str:
    """The table of a run: one line for all mechanisms whose other columns are equal."""
    merged: dict[tuple[str, ...], list[str]] = {}
    for peer, ours, mechanism, *rest in rows:
        merged.setdefault((peer, ours, *rest), []).append(mechanism)
    head = ["peer", "ours is the", "mechanisms", "what", "our program says", "the peer says yes", *languages]
    body = [[peer, ours, ", ".join(names), *rest] for (peer, ours, *rest), names in merged.items()]
    lines = ["| " + " | ".join(row) + " |" for row in [head, ["---"] * len(head), *body]]
    when = f"Run on {time.strftime('%-d %B %Y')}, {platform.platform()}, with"
    return "\n".join([when, "", *versions, "", *lines]) + "\n"


def results() -> Path:
    """The file for the results of a run that begins now."""
    return Path("build/interop/results") / f"{time.strftime('%Y-%m-%d-%H%M')}.md"


def given() -> argparse.Namespace:
    """The words of the command line."""
    words = argparse.ArgumentParser(description=__doc__, formatter_class=argparse.RawDescriptionHelpFormatter)
    words.add_argument("--only", default="", help="only this peer")
    words.add_argument("--what", default="", help="only the cells whose text contains these words")
    words.add_argument("--logins", type=int, default=20, help="how many logins a cell has")
    words.add_argument("--table", type=Path, default=results(), help="the file to which the results are written")
    words.add_argument("--record", type=Path, help="a file to which rows of stored vectors are added")
    words.add_argument("--built", type=Path, default=Path("build/interop"), help="the folder of our programs")
    words.add_argument("--proton", type=Path, help="the folder of a libqpid-proton-core that is built with Cyrus SASL")
    return words.parse_args()


def visited(peer: Peer, ours: list[Side], told: argparse.Namespace, place: Path) -> tuple[str, list[list[str]], bool]:
    """The line of a peer's version, its rows, and whether all are right."""
    if peer.missing():
        version = f"- {peer.name}: not installed (Debian: {peer.package})"
        print(version)
        return version, [], True
    version = f"- {peer.name} {peer.version()} (Debian: {peer.package})"
    print(version)
    place.mkdir()
    try:
        peer.start(place)
        return version, *run_peer(peer, ours, told)
    finally:
        peer.stop()


def main() -> int:
    told = given()
    # (so that what was started is ended)
    signal.signal(signal.SIGTERM, lambda *_: sys.exit(1))
    rows, versions, all_right = [], [], True
    with tempfile.TemporaryDirectory(prefix="interop-") as folder:
        os.chmod(folder, 0o755)
        ours = sides(told.built.resolve(), Path(folder))
        for peer in peers(told.built.resolve(), told.proton):
            if told.only.lower() in peer.name.lower():
                version, found, right = visited(peer, ours, told, Path(folder) / type(peer).__name__)
                versions.append(version)
                rows += found
                all_right &= right
    text = table(rows, versions, [side.language for side in ours])
    print(f"\n{text}")
    told.table.parent.mkdir(parents=True, exist_ok=True)
    told.table.write_text(HEAD + text)
    return 0 if all_right else 1


if __name__ == "__main__":
    sys.exit(main())
