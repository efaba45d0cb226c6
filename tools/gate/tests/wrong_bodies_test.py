#!/usr/bin/env python3
"""What `tools/gate/wrong_bodies.py` and `tools/gate/gate.py` have to refuse, without the prover: on lines as it prints them."""
import contextlib
import io
import os
import sys
import tempfile
import unittest

sys.dont_write_bytecode = True
sys.path.insert(0, os.path.dirname(os.path.dirname(os.path.realpath(__file__))))
import gate
import wrong_bodies

LIBRARY = """\
/// Two numbers.
pub struct Pair {
    left: u32,
    right: u32,
}

/// Half of a number.
pub fn half(x: u32) -> u32
    ensures { result ≡ x / 2 }
{
    x / 2
}

impl Pair {
    /// The larger of the two.
    pub fn larger(&self) -> u32
        ensures { result ≡ max self.now.left self.now.right }
    {
        self.left.max(self.right)
    }
}

impl Clone for Pair {
    ghost is_clone = { λ pair copy. copy ≡ pair };

    fn clone(&self) -> Result<Pair, AllocError> {
        Ok(Pair { left: self.left, right: self.right })
    }
}

impl Keeps for Pair {
    ghost keeps = { λ pair copy. refl };
}

impl From<u32> for Pair {
    fn from(left: u32) -> Pair {
        Pair { left, right: 0 }
    }
}

impl TryFrom<[u8; 2]> for Pair {
    type Error = ();

    fn try_from(both: [u8; 2]) -> Result<Pair, ()> {
        Ok(Pair { left: both[0] as u32, right: both[1] as u32 })
    }
}
"""
HALF = "note: src/lib.rt:8:1: it is not proved that what the function ensures holds when it returns (`returns`)"
HALF_FALLS = (
    "fn numbers::half: no proof: expected answers in ./proofs/half/Answers.antt; `search` did not prove `returns`"
)
HALF_PROVED = "fn numbers::half: no holes"
LARGER = "note: src/lib.rt:16:5: it is not proved that what the function ensures holds when it returns (`returns`)"
LARGER_FALLS = "fn numbers::Pair::larger: no proof: expected answers in ./proofs/Pair/larger/Answers.antt"
LARGER_WAITS = "fn numbers::Pair::larger: no proof: it calls `numbers::half`, which is not proved"
LARGER_RESTS = "fn numbers::Pair::larger: depends on a hole in `Rattle.numbers.proofs.half.Proof.half_spec`"
LAW = "src/lib.rt:32:29: error: keeps-value: expected type `copy ≡ pair`"
ONE_FALLS, TWO_FALL = "only=1 holes=0", "only=2 holes=0"
NOT_PROVED = "logic=not-proved functions=3"


def edit(old, new, *more):
    return "\n".join(
        ["It turns something. Refused by its clause.", *more, "file: src/lib.rt", f"old: {old}", f"new: {new}", ""]
    )


class EditsOfThisRepository(unittest.TestCase):
    def test_each_can_be_planted(self):
        bad = [line for crate in wrong_bodies.libraries([]) for line in wrong_bodies.bodies_of(crate, "")[1]]
        self.assertEqual(bad, [])


class WrongBodies(unittest.TestCase):
    def setUp(self):
        room = tempfile.TemporaryDirectory()
        self.addCleanup(room.cleanup)
        self.crate = f"{room.name}/crates/numbers"
        os.makedirs(f"{self.crate}/src")
        os.makedirs(f"{self.crate}/{wrong_bodies.FOLDER}")
        with open(f"{self.crate}/src/lib.rt", "w", encoding="utf-8") as it:
            it.write(LIBRARY)
        self.root, wrong_bodies.ROOT = wrong_bodies.ROOT, room.name
        self.addCleanup(setattr, wrong_bodies, "ROOT", self.root)

    def read(self, text, name="body"):
        file = f"{self.crate}/{wrong_bodies.FOLDER}/{name}.edit"
        with open(file, "w", encoding="utf-8") as it:
            it.write(text)
        return wrong_bodies.read("numbers", file)

    def judge(self, bodies, *lines, status=1):
        at, stray = wrong_bodies.judge("numbers", bodies, "\n".join(lines), status)
        return [bool(at[it.name]) for it in bodies], bool(stray)

    def test_refused_where_it_stands(self):
        body = self.read(edit("    x / 2", "    x / 3"))
        self.assertEqual(self.judge([body], HALF, HALF_FALLS, ONE_FALLS), ([True], False))
        self.assertEqual(self.judge([body], HALF, HALF_FALLS, LARGER_WAITS, "only=3 holes=0"), ([True], False))
        self.assertEqual(self.judge([body], HALF, HALF_FALLS, LARGER_RESTS, "only=3 holes=1"), ([True], False))

    def test_an_edit_that_is_proved(self):
        body = self.read(edit("    x / 2", "    x / 2 + 0"))
        self.assertEqual(self.judge([body], HALF_PROVED, "only=1 holes=0", status=0), ([False], True))
        self.assertEqual(self.judge([body], HALF_PROVED, LARGER_WAITS, TWO_FALL), ([False], True))

    def test_an_edit_that_is_refused_elsewhere(self):
        body = self.read(edit("    x / 2", "    x / 3"))
        self.assertEqual(self.judge([body], LARGER, LARGER_FALLS, TWO_FALL), ([False], True))

    def test_an_edit_that_fells_another_function_too(self):
        body = self.read(edit("    x / 2", "    x / 3"))
        self.assertEqual(self.judge([body], HALF, HALF_FALLS, LARGER, LARGER_FALLS, TWO_FALL), ([True], True))

    def test_a_function_that_the_check_does_not_tell_of(self):
        body = self.read(edit("    x / 2", "    x / 3"))
        self.assertEqual(self.judge([body], HALF, LARGER_WAITS, ONE_FALLS), ([True], True))
        self.assertEqual(self.judge([body], HALF, HALF_PROVED, ONE_FALLS), ([True], True))
        self.assertEqual(self.judge([body], HALF, HALF_FALLS, "only=0 holes=0"), ([True], True))
        self.assertEqual(self.judge([body], HALF, HALF_FALLS, "only=1 proved=0"), ([True], True))

    def test_a_check_of_another_kind(self):
        body = self.read(edit("    x / 2", "    x / 3"))
        self.assertEqual(self.judge([body], HALF, HALF_FALLS, NOT_PROVED), ([True], True))
        body = self.read(edit("left: self.left,", "left: self.right,", "law: keeps"))
        self.assertEqual(self.judge([body], LAW, ONE_FALLS), ([True], True))

    def asked(self, *texts):
        return wrong_bodies.asked_of([self.read(it, f"body{at}") for at, it in enumerate(texts)])

    def test_what_a_round_asks_for(self):
        larger, clone = edit("left.max(self.right)", "left"), edit("left: self.left,", "left: self.right,")
        paths = ["numbers::Pair::larger", "numbers::PairClone::clone", "numbers::half"]
        self.assertEqual(self.asked(edit("    x / 2", "    x / 3"), larger, clone), paths)
        self.assertEqual(self.asked(edit("right: 0", "right: left")), ["numbers::PairFromU32::from"])

    def test_rounds_that_are_a_whole_check(self):
        half = edit("    x / 2", "    x / 3")
        self.assertEqual(self.asked(half, edit("left: both[0] as", "left: both[1] as")), [])
        self.assertEqual(self.asked(half, edit("left: self.left,", "left: self.right,", "law: keeps")), [])
        beside = edit("    x / 2", "    third(x)") + "old: /// Two numbers.\nnew: "
        self.assertEqual(self.asked(beside + "fn third(x: u32) -> u32 { x / 3 } /// Two numbers.\n"), ["numbers::half"])
        self.assertEqual(self.asked(beside + "const THREE: u32 = 3; /// Two numbers.\n"), [])
        self.assertEqual(self.asked(beside + "fn third(x: u32) -> u32 { x / 3 }\n"), [])

    def test_functions_that_are_taken_by_their_contracts(self):
        half = self.read(edit("    x / 2", "    x / 3"))
        texts = wrong_bodies.by_contract("numbers", wrong_bodies.planted([half]), ["numbers::half"])
        left = LIBRARY.replace("    x / 2", "    x / 3")
        for body in (
            "self.left.max(self.right)",
            "Ok(Pair { left: self.left, right: self.right })",
            "Pair { left, right: 0 }",
        ):
            left = left.replace(f"        {body}", wrong_bodies.NO_BODY)
        self.assertEqual(texts.pop("src/lib.rt"), left)
        folders = [f"proofs/{it}" for it in ("Pair/larger", "PairClone/clone", "PairFromU32/from")]
        self.assertEqual(sorted({os.path.dirname(it) for it in texts}), folders)
        self.assertIn("\nclone_spec = ?\n", texts["proofs/PairClone/clone/Proof.antt"])
        self.assertIn("Rattle.numbers.proofs.PairClone.clone.Statement.", texts["proofs/PairClone/clone/Proof.antt"])
        self.assertIsNone(texts["proofs/PairClone/clone/Answers.antt"])

    def test_functions_that_keep_their_text(self):
        with open(f"{self.crate}/src/lib.rt", "a", encoding="utf-8") as it:
            it.write("\npub fn law()\n    ensures { Law }\n{}\n\npub struct Other {\n    one: u32,\n}\n")
            it.write("\nconst fn one() -> u32 {\n    1\n}\n\npub trait Keeps {\n    fn keep(&self);\n}\n")
            it.write("\nfn third(x: u32) -> u32 { x / 3 } impl Other {\n    ghost one = { λ x. x };\n}\n")
        texts = wrong_bodies.by_contract("numbers", {}, ["numbers::half"])
        more = wrong_bodies.source("numbers", "src/lib.rt").removeprefix(LIBRARY)
        self.assertIn("const fn one", more)
        self.assertTrue(texts["src/lib.rt"].endswith(more))

    def test_how_methods_are_named(self):
        text = "pub struct Key {\n    bits: u32,\n}\n\nimpl Drop for Key {\n    fn drop(self) {\n        wipe(self);\n    }\n}\n"
        with open(f"{self.crate}/src/key.rt", "w", encoding="utf-8") as it:
            it.write(text)
        with open(f"{self.crate}/src/more.rt", "w", encoding="utf-8") as it:
            it.write(text.partition("\n\n")[2].replace("Drop for ", "").replace("drop", "clear"))
            it.write("\nimpl Keeps for Key {\n    fn keep(&self) {\n        wipe(self);\n    }\n}\n")
        texts = wrong_bodies.by_contract("numbers", {}, ["numbers::half"])
        self.assertIn("proofs/key/Key/drop/Proof.antt", texts)
        self.assertIn("proofs/key/Key/clear/Proof.antt", texts)
        self.assertIn("proofs/more/KeyKeeps/keep/Proof.antt", texts)

    def test_a_type_of_two_modules(self):
        for name in ("one", "two"):
            with open(f"{self.crate}/src/{name}.rt", "w", encoding="utf-8") as it:
                it.write("struct Lock {\n    bits: u32,\n}\n\nimpl Lock {\n    fn open(&self) {\n        turn(self);\n    }\n}\n")
        with open(f"{self.crate}/src/more.rt", "w", encoding="utf-8") as it:
            it.write("impl Lock {\n    fn shut(&self) {\n        turn(self);\n    }\n}\n")
        texts = wrong_bodies.by_contract("numbers", {}, ["numbers::half"])
        self.assertIn("proofs/one/Lock/open/Proof.antt", texts)
        self.assertIn("proofs/two/Lock/open/Proof.antt", texts)
        self.assertNotIn("shut", " ".join(texts))

    def test_a_proof_file_alone_that_no_longer_fits(self):
        body = self.read(edit("    x / 2", "    x / 3"))
        names = "./proofs/half/Answers.antt:7:3: error: `returns`: `quotient` is not in scope"
        self.assertEqual(self.judge([body], names, HALF_FALLS, ONE_FALLS), ([False], False))

    def test_a_goal_of_safety_alone(self):
        body = self.read(edit("    x / 2", "    x + 1"))
        sum_fits = HALF.replace("what the function ensures holds when it returns", "the sum fits its type")
        self.assertEqual(self.judge([body], sum_fits, HALF_FALLS, ONE_FALLS), ([False], False))

    def test_a_text_that_cannot_be_read(self):
        body = self.read(edit("    x / 2", "    x /"))
        self.assertEqual(self.judge([body], "error: expected an expression", status=1), ([False], True))

    def test_a_check_that_was_killed(self):
        body = self.read(edit("    x / 2", "    x / 3"))
        self.assertEqual(self.judge([body], HALF, status=-9), ([True], True))
        self.assertEqual(self.judge([body], HALF, HALF_FALLS, status=-9), ([True], True))
        self.assertEqual(self.judge([body], HALF, HALF_FALLS, ONE_FALLS, status=-9), ([True], True))
        self.assertEqual(self.judge([body], HALF, HALF_FALLS, "rattle: no verdict", status=3), ([True], True))

    def test_one_of_two_in_a_round(self):
        bodies = [
            self.read(edit("    x / 2", "    x / 3"), "one"),
            self.read(edit("left.max(self.right)", "left"), "two"),
        ]
        self.assertEqual(wrong_bodies.rounds_of(bodies), [bodies])
        waits = LARGER_FALLS.partition(" expected")[0] + " it calls `numbers::half`, which is not proved"
        self.assertEqual(self.judge(bodies, HALF, HALF_FALLS, waits, TWO_FALL), ([True, False], False))
        self.assertEqual(self.judge(bodies, HALF, HALF_FALLS, TWO_FALL), ([True, False], True))
        self.assertEqual(self.judge(bodies, HALF, HALF_FALLS, LARGER, LARGER_FALLS, ONE_FALLS), ([True, True], True))

    def test_two_of_one_function_stand_apart(self):
        bodies = [self.read(edit("    x / 2", "    x / 3"), "one"), self.read(edit("    x / 2", "    x"), "two")]
        self.assertEqual(wrong_bodies.rounds_of(bodies), [[bodies[0]], [bodies[1]]])

    def test_a_law_refuses(self):
        body = self.read(edit("left: self.left,", "left: self.right,", "law: keeps"))
        self.assertEqual(self.judge([body], LAW, NOT_PROVED), ([True], False))
        self.assertEqual(self.judge([body], HALF, HALF_FALLS, NOT_PROVED), ([False], True))

    def refuses(self, text):
        with self.assertRaises(wrong_bodies.BadEdit):
            wrong_bodies.planted([self.read(text)])

    def test_bad_edits(self):
        self.refuses(edit("    x / 2", "    x / 2"))
        self.refuses(edit("    x / 5", "    x / 2"))
        self.refuses(edit("self.left", "self.right"))
        self.refuses(edit("/// Half of a number.", "/// A number."))
        self.refuses(edit("    ensures { result ≡ x / 2 }", "    ensures { result ≡ x }"))
        self.refuses(edit("    x / 2", "    x / 3", "law: keeps"))
        self.refuses(edit("    x / 2", "    x / 3").partition("\n")[2])
        self.refuses("It turns nothing.\n")

    def test_what_the_gate_hands_over(self):
        for name in ("numbers", "others", "users", "kept"):
            os.makedirs(f"{wrong_bodies.ROOT}/crates/{name}/out/rlib/{name}.rlib")
        with tempfile.TemporaryDirectory() as folder:
            libraries = {"numbers", "others", "kept"}
            gate.hand_over(libraries, folder, "rt: numbers: its tests are proved\n")
            gate.hand_over(libraries, folder, "rt: users proved\n")
            self.assertEqual(os.listdir(folder), [])
            gate.hand_over(libraries, folder, "rt: numbers proved\n")
            gate.hand_over(libraries, folder, "rt: others NOT PROVED: its library numbers failed\n")
            self.assertEqual(sorted(os.listdir(folder)), ["numbers", "others.failed"])
            self.assertEqual((os.listdir(f"{folder}/numbers"), libraries), (["numbers.rlib"], {"kept"}))
            by = "an earlier run on this machine proved the same files over the same libraries"
            gate.hand_over(libraries, folder, f"rt: kept is kept: {by}\n")
            self.assertEqual((os.listdir(f"{folder}/kept"), libraries), (["kept.rlib"], set()))

    def test_how_many_crates_at_a_time(self):
        enough = 5 * gate.NEEDED
        self.assertEqual([gate.side_by_side(it, enough) for it in (1, 2, 4, 64)], [1, 2, 4, 4])
        self.assertEqual([gate.side_by_side(4, it) for it in (enough - 1, 3 * gate.NEEDED, 0)], [3, 2, 1])
        with tempfile.NamedTemporaryFile("w", encoding="utf-8") as quota:
            quota.write("max 100000\n")
            quota.flush()
            self.assertIsNone(gate.number(quota.name, r"^(\d+)"))
            self.assertEqual(gate.number(quota.name, r" (\d+)"), 100000)
        self.assertIsNone(gate.number(quota.name))

    def test_the_sum_of_the_gate(self):
        with contextlib.redirect_stdout(io.StringIO()):
            self.assertEqual(gate.counted("rt ci", 0, "3 passed, 0 failed\n"), (3, 0))
            self.assertEqual(gate.counted("rt ci", 1, "3 passed, 2 failed\n"), (3, 2))
            self.assertEqual(gate.counted("rt ci", 1, "3 passed, 0 failed\n"), (3, 1))
            self.assertEqual(gate.counted("rt ci", -9, "rt: fe2o3_sasl proved\n"), (0, 1))
            self.assertEqual(gate.counted("rt ci", 0, ""), (0, 1))
            self.assertEqual(gate.counted("rt ci", 0, "0 passed, 0 failed"), (0, 1))


if __name__ == "__main__":
    unittest.main(verbosity=0)
