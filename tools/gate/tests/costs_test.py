#!/usr/bin/env python3
"""What `tools/gate/costs.py` takes from a sample of processes, and what the gate prints of it."""
import os
import sys
import unittest
from pathlib import Path

sys.dont_write_bytecode = True
sys.path.insert(0, str(Path(__file__).resolve().parents[1]))

import costs

LINES = {"low": "low: base64", "middle": "middle: low", "side": "side: low", "high": "high: middle side base64"}
# A process: its parent and its words.
PROCESSES = {
    "1": ("0", " init "),
    "10": ("1", " python3 rt ci "),
    "11": ("10", " rattle build --crate-name low src/lib.rt "),
    "12": ("11", " clang low.o "),
    "13": ("10", " rattle build --crate-name low src/lib.rt --test "),
    "14": ("10", " rattle build --crate-name high src/main.rt --crate-checked checked "),
    "15": ("10", " rattle-test --seconds 60 /rt-run-10-a_b2c3d4/bin/low_tests "),
    "20": ("1", " python3 tools/gate/wrong_bodies.py "),
    "21": ("20", " rattle check --crate-name low src/lib.rt "),
    "30": ("1", " rattle check --crate-name other src/lib.rt "),
}
RECORD = {
    "processors": 4,
    "seconds": 10812,
    "others": 1200,
    "wall": 3960,
    "chain": {"seconds": 3360, "crates": ["low", "middle (tests)"]},
}


class Costs(unittest.TestCase):
    def setUp(self):
        self.addCleanup(setattr, costs, "words", costs.words)
        costs.words = lambda pid: PROCESSES[pid][1]

    def test_a_sample(self):
        sample = costs.Sample(10, 20)
        for passed, gone in ((2, "14"), (3, "13")):
            living = {pid: (parent, "7", float(passed)) for pid, (parent, _) in PROCESSES.items() if pid != gone}
            sample.take(sample.now + passed, living)
        wanted = {"low": {"proof": 6, "tests": 2, "run": 3, "wrong": 3}, "high": {"build": 3}}
        self.assertEqual(sample.seconds(), wanted)
        times = {("low", "proof"): 5, ("low", "tests"): 2, ("low", "wrong"): 5, ("high", "proof"): 3}
        self.assertEqual({work: round(it) for work, it in sample.times.items()}, times)

    def test_processes(self):
        parent, _, seconds = costs.processes()[str(os.getpid())]
        self.assertEqual(parent, str(os.getppid()))
        self.assertAlmostEqual(seconds, sum(os.times()[:2]), delta=1)
        self.assertGreater(costs.machine_seconds(), 0)

    def test_the_longest_chain(self):
        times = {("low", "proof"): 5, ("side", "proof"): 4, ("middle", "proof"): 3, ("high", "proof"): 2}
        self.assertEqual(costs.longest_chain(times, LINES), (11, ("low", "side", "high")))
        times |= {("low", "wrong"): 6, ("high", "tests"): 3}
        self.assertEqual(costs.longest_chain(times, LINES), (12, ("low", "side", "high (tests)")))
        # `low` and `side` are kept.
        self.assertEqual(costs.longest_chain({("high", "wrong"): 2}, LINES), (2, ("high (wrong bodies)",)))
        self.assertEqual(costs.longest_chain({}, LINES), (0, ()))

    def test_the_closing_lines(self):
        self.assertEqual(
            costs.closing(RECORD),
            [
                "gate: 10,812 processor seconds, 66 min on 4 processors; other processes took 1,200 s",
                "gate: longest chain 56 min: low, middle (tests)",
            ],
        )
        self.assertEqual(len(costs.closing(RECORD | {"chain": {"seconds": 0, "crates": ()}})), 1)


if __name__ == "__main__":
    unittest.main(verbosity=0)
