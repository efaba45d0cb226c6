#!/usr/bin/env python3
"""Pins what functions with a store of credentials call at a client-first message, so that memory does not show users.

    tools/gate/stores.py             compares the sources with CALLS
    tools/gate/stores.py --list      prints the calls that the sources have

With mock authentication known and unknown users have to make the same requests for memory. No clause can say that, since
it would compare two calls. So no function that asks for memory at a client-first message has a store among its
parameters (docs/DECISIONS.md). A function with a store may only pass the allocator on: CALLS has every call of each such
function that a client-first message reaches, in order. It fails on another call, on a function that CALLS does not have,
and on one that names an error of memory. It does not see on which branch a call is made.
"""
import re
import sys
from pathlib import Path

sys.dont_write_bytecode = True

from local_names import closing
from meters import HEAD, IMPL, body_of, code_of, owner_of

TOP = Path(__file__).resolve().parents[2]
LIBRARIES = ("fe2o3_scram", "fe2o3_sasl_core")
STORE = "ScramCredentialProvider"

# Where a client-first message arrives: the types whose calls of these names receive one.
ENTRIES = {
    "ScramVersion": ("compute_server_first_message", "compute_server_first_message_with_rules"),
    "ScramAuthenticator": ("compute_server_first_message", "compute_server_first_message_metered"),
    "ScramAuthenticator as SaslAcceptor": ("on_init", "on_init_metered"),
    "ServerExchange": ("open",),
}

# The calls of each function with a store that a client-first message reaches. Those that get the allocator have no store
# among their parameters, or are here too.
CALLS = {
    "fe2o3_sasl_core::scram_acceptor::ScramAuthenticator::on_init": "on_init_metered Meter::new",
    "fe2o3_sasl_core::scram_acceptor::ScramAuthenticator::on_init_metered": "answer_init",
    "fe2o3_sasl_core::scram_acceptor::answer_init": (
        "as_str mechanism compute_server_first_message_metered challenge refusal reason_of_first rules"
    ),
    "fe2o3_scram::scram_messages::server_first::ScramVersion::compute_server_first_message": "challenge ServerRules::new",
    "fe2o3_scram::scram_messages::server_first::ScramVersion::compute_server_first_message_with_rules": "challenge",
    "fe2o3_scram::scram_messages::server_first::challenge": (
        "ClientFirst::parse_with_rules get_stored_password challenge_to"
    ),
    "fe2o3_scram::scram_server::ScramAuthenticator::compute_server_first_message": (
        "compute_server_first_message_metered Meter::new"
    ),
    "fe2o3_scram::scram_server::ScramAuthenticator::compute_server_first_message_metered": "lent ServerExchange::open",
    "fe2o3_scram::scram_server::exchange::ServerExchange::open": (
        "base64_of_nonce ClientFirst::parse_with_rules mock_values look_up challenged"
    ),
    "fe2o3_scram::scram_server::mock_users::look_up": "get_stored_password as_ref as_stored_password",
}

CALL = re.compile(r"(?:\b([A-Z]\w*)\s*::\s*)?\b([a-z_]\w*!?)\s*(?:::\s*<[^()]*?>\s*)?\(")
NO_CALL = {"if", "match", "while", "for", "in", "return", "let", "move", "fn"}
MEMORY = re.compile(r"\b(?:OutOfMemory|AllocError|AllocFailed)\b")


class Function:
    """A function that has a store among its parameters, by its own head or by that of its impl."""

    def __init__(self, file, place, owner, name, body):
        self.file, self.place, self.owner, self.name, self.body = file, place, owner, name, body

    def calls(self):
        found = CALL.finditer(self.body)
        return [f"{it[1]}::{it[2]}" if it[1] else it[2] for it in found if it[2] not in NO_CALL]


def owner_in(head):
    """The type of an impl, and its trait if it has one, as ENTRIES name them."""
    name, before = owner_of(head), re.split(r"\bwhere\b", head)[0].rpartition(" for ")[0]
    trait = re.findall(r"[A-Z]\w*", before)[-1:]
    return name, " as ".join([name, *trait])


def functions_of(file, text):
    """The functions of a file that have a store."""
    code, path = code_of(text), file.removeprefix("crates/").removesuffix(".rt").replace("/src/", "/")
    impls = [(found.start(), closing(code, found.end() - 1), found[1]) for found in IMPL.finditer(code)]
    for found in HEAD.finditer(code):
        begin = body_of(code, found.end())
        if begin is None:
            continue
        head = code[found.end() : begin]
        around = next((it[2] for it in impls if it[0] < found.start() < it[1]), "")
        if STORE in head or STORE in around and re.search(r"\bself\b", head):
            owner, full = owner_in(around) if around else ("", "")
            place = "::".join(it for it in (path.replace("/", "::"), owner, found[1]) if it)
            yield Function(file, place, full, found[1], code[begin : closing(code, begin)])


def reached(functions):
    """The functions with a store that a client-first message reaches."""
    order = [it for it in functions if it.name in ENTRIES.get(it.owner, ())]
    for function in order:
        named = {call.rpartition("::")[2] for call in function.calls()}
        order += [it for it in functions if it.name in named and not it.owner and it not in order]
    return order


def faults_of(texts, listed):
    found = reached([it for file, text in texts.items() for it in functions_of(file, text)])
    faults = [f"{it}: no such function is left" for it in sorted(set(listed) - {it.place for it in found})]
    for function in found:
        calls, allowed = function.calls(), listed.get(function.place)
        if allowed is None:
            faults.append(f"{function.place}: a function with a store that a client-first message reaches")
        elif calls != allowed.split():
            faults.append(f"{function.place}: calls {' '.join(calls)}, and not {allowed}")
        faults += [f"{function.place}: names {it[0]}" for it in MEMORY.finditer(function.body)]
    return faults


def texts_of(top):
    files = [it for crate in LIBRARIES for it in sorted((top / "crates" / crate / "src").rglob("*.rt"))]
    return {it.relative_to(top).as_posix(): it.read_text(encoding="utf-8") for it in files}


def main():
    texts = texts_of(TOP)
    if "--list" in sys.argv:
        found = reached([it for file, text in texts.items() for it in functions_of(file, text)])
        print("\n".join(sorted(f'    "{it.place}": "{" ".join(it.calls())}",' for it in found)))
    elif faults := faults_of(texts, CALLS):
        sys.exit("\n".join(f"stores: {it}" for it in faults))
    else:
        print(f"stores: {len(CALLS)} functions with a store make the calls that are listed")


if __name__ == "__main__":
    main()
