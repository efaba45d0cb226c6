#!/usr/bin/env python3
"""What `tools/gate/stores.py` has to report: ways by which memory would show whether a user is known."""
import sys
import unittest
from pathlib import Path

sys.dont_write_bytecode = True
sys.path.insert(0, str(Path(__file__).resolve().parents[1]))

import stores

TEXTS = stores.texts_of(stores.TOP)
SERVER = "crates/fe2o3_scram/src/scram_server/"
EXCHANGE, MOCK, ACCEPTOR = (
    SERVER + "exchange.rt",
    SERVER + "mock_users.rt",
    "crates/fe2o3_sasl_core/src/scram_acceptor.rt",
)
OPEN, LOOK_UP = (
    "fe2o3_scram::scram_server::exchange::ServerExchange::open",
    "fe2o3_scram::scram_server::mock_users::look_up",
)
UNKNOWN = "            return Ok(None);\n        };\n        let opened = challenged("


class Stores(unittest.TestCase):
    def faults(self, file, old, new):
        text = TEXTS[file]
        self.assertEqual(text.count(old), 1, old)
        return stores.faults_of(TEXTS | {file: text.replace(old, new)}, stores.CALLS)

    def refused(self, place, file, old, new):
        faults = self.faults(file, old, new)
        self.assertTrue(any(it.startswith(place + ": ") for it in faults), faults)

    def test_the_sources(self):
        self.assertEqual(stores.faults_of(TEXTS, stores.CALLS), [])

    def test_an_unknown_name_that_gives_out_of_memory(self):
        new = UNKNOWN.replace("Ok(None)", "Err(ServerScramErrorKind::OutOfMemory)")
        self.refused(OPEN, EXCHANGE, UNKNOWN, new)

    def test_memory_for_an_unknown_name(self):
        for work in ("let _ = username.to_string(alloc)?;", "let _ = Vec::<u8>::with_capacity(alloc, 64)?;"):
            self.refused(OPEN, EXCHANGE, UNKNOWN, work + " " + UNKNOWN)
        self.refused(LOOK_UP, MOCK, "None => Some(mock.as_ref()?", "None => Some(mock.clone().ok()?.as_ref()?")

    def test_a_store_for_a_function_that_requests_memory(self):
        """The writer of a challenge gets the store: it is a function that the list does not have."""
        self.refused(
            "fe2o3_scram::scram_server::exchange::challenged",
            EXCHANGE,
            "fn challenged(\n    alloc: Global,",
            "fn challenged<C: ScramCredentialProvider>(\n    alloc: Global,\n    credentials: &C,",
        )

    def test_memory_above_the_server(self):
        old = "Ok(None) => Ok(SaslServerFrame::Rejected(Rejection::UnknownUser)),"
        self.refused(
            "fe2o3_sasl_core::scram_acceptor::answer_init",
            ACCEPTOR,
            old,
            old.replace("=> Ok(", "=> one_name(alloc, scram.mechanism()).map(|_| "),
        )

    def test_a_function_that_is_gone(self):
        listed = stores.CALLS | {"fe2o3_scram::gone": ""}
        self.assertEqual(stores.faults_of(TEXTS, listed), ["fe2o3_scram::gone: no such function is left"])


if __name__ == "__main__":
    unittest.main(verbosity=0)
