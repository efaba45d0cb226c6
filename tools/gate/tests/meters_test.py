#!/usr/bin/env python3
"""What `tools/gate/meters.py` has to refuse, and where: bodies that the prover lets pass, planted in the sources."""
import sys
import unittest
from pathlib import Path

sys.dont_write_bytecode = True
sys.path.insert(0, str(Path(__file__).resolve().parents[1]))

import meters

TEXTS = meters.texts_of(meters.TOP)
LISTED = (meters.TOP / meters.LIST).read_text(encoding="utf-8")
SCRAM, RUNS, SASL = "crates/fe2o3_scram/src/", "crates/fe2o3_sasl_core/src/", "crates/fe2o3_sasl/src/"
C_FINAL, C_CONNECTION = "crates/sasl_c/src/client_final.rt", "crates/sasl_c/src/server_receive.rt"
C_KEYS, C_RECORDS = "crates/sasl_c/src/keys.rt", "crates/sasl_c/src/records.rt"
CLIENT, FINAL = SCRAM + "scram_client.rt", SCRAM + "scram_messages/client_final.rt"
PLAIN_OF_CLIENT = "self.compute_client_final_message_metered(alloc, server_first, &mut Meter::new())"
PLAIN_OF_FINAL = (
    "self.compute_client_final_message_metered(\n            alloc,\n            client_nonce,\n"
    "            password,\n            server_first,\n            client_first_message_bare,\n"
    "            &mut Meter::new(),\n        )"
)
HELPER = """
fn unlimited(scram: ScramVersion, alloc: Global, nonce: &str, secret: ClientSecret<'_>, first: &str, bare: &[u8]) {
    let _ = scram.answer_server_first(alloc, nonce, secret, first, bare, IterationLimits::none(), &mut Meter::new());
}
"""


def first(old, new):
    """An edit that puts something before a text."""
    return old, new + old


IMPORT = first("use crate::hmac::{Meter, ScramVersion};", "use crate::hmac::hasher::digest_of;\n")


class Meters(unittest.TestCase):
    def faults(self, file, *edits):
        """What is told of the sources with these edits in a file."""
        text = TEXTS[file]
        for old, new in edits:
            self.assertEqual(text.count(old), 1, f"{file} has to have once: {old}")
            text = text.replace(old, new)
        return meters.faults_of(TEXTS | {file: text}, LISTED)

    def refused(self, uses, file, *edits):
        """Each of these uses is refused, in this file."""
        told = "\n".join(self.faults(file, *edits))
        for use in uses:
            self.assertRegex(told, rf"(?m)^{file}:\d+: \S*::{use}: tools/gate/meters.txt has no such use$")

    def test_unchanged(self):
        self.assertEqual(meters.faults_of(TEXTS, LISTED), [])
        self.assertEqual(meters.renewed(TEXTS, LISTED), LISTED)

    def test_words_in_comments_strings_and_ghost_code(self):
        words = '// Meter::new() h_i(\n        /* h_i( */ let _text = "Meter::new() h_i(";\n        '
        law = first("    /// Returns a client that has sent nothing, and accepts", "    ghost law = { h_i( x ) };\n\n")
        self.assertEqual(self.faults(CLIENT, first(PLAIN_OF_CLIENT, words), law), [])

    def test_a_line_that_no_longer_has_its_use(self):
        told = self.faults(
            SCRAM + "hmac.rt", ("digest_of(*self, input).as_slice().to_vec(alloc)", "Ok(Vec::new(alloc))")
        )
        place = "fe2o3_scram::hmac::ScramVersion::h"
        self.assertIn(f"tools/gate/meters.txt: {place}: digest_of: no such use is left", told)

    def test_plain_calls_that_work_twice(self):
        self.refused(
            ["compute_client_final_message: Meter::new x2"],
            FINAL,
            first(PLAIN_OF_FINAL, f"let _ = {PLAIN_OF_FINAL};\n        "),
        )

    def test_plain_hi_that_stretches_twice(self):
        body = "self.h_i_metered(alloc, password, salt, iterations, &mut Meter::new())"
        self.refused(
            ["h_i: Meter::new x2", "h_i: h_i_metered x2"],
            SCRAM + "pbkdf2_hi.rt",
            first(body, f"let _ = {body};\n        "),
        )

    def test_a_plain_call_that_works_twice_on_one_meter(self):
        one = PLAIN_OF_CLIENT.replace("Meter::new()", "meter")
        self.refused(
            ["compute_client_final_message: compute_client_final_message_metered x2"],
            CLIENT,
            (PLAIN_OF_CLIENT, f"let mut meter = Meter::new();\n        let _ = {one};\n        {one}"),
        )

    def test_a_record_that_stretches_twice(self):
        self.refused(
            ["from_password: Meter::new", "from_password: salted_password x2"],
            SCRAM + "credentials/scram_record.rt",
            first(
                "let stored_key = scram_version.stored_key(",
                "let _ = scram_version.salted_password("
                "text.as_bytes(), salt, iterations, &mut Meter::new());\n        ",
            ),
        )

    def test_the_plain_machine_before_its_limit(self):
        work = (
            'let _ = self.scram.answer_server_first(alloc, "", self.secret.lent(), server_first, b"",'
            " IterationLimits::none(), &mut Meter::new());\n        "
        )
        self.refused(
            ["compute_client_final_message: Meter::new x2", "compute_client_final_message: answer_server_first"],
            CLIENT,
            first(PLAIN_OF_CLIENT, work),
        )

    def test_the_metered_machine_before_its_limit_in_a_helper(self):
        call = (
            "unlimited(self.scram, alloc, client_nonce, self.secret.lent(), server_first,"
            " client_first_message_bare);\n"
        )
        self.refused(
            ["unlimited: Meter::new", "compute_client_final_message_metered: unlimited"],
            CLIENT,
            first("let answer = self.scram.answer_server_first(", call),
            first("\nimpl fmt::Debug for ScramClient {", HELPER),
        )

    def test_the_limited_form_before_its_limit(self):
        work = (
            "let _ = self.answer_server_first(alloc, client_nonce, ClientSecret::Password(Password::Typed(password)),"
            " server_first, client_first_message_bare, IterationLimits::none(), &mut Meter::new());\n        "
        )
        self.refused(
            ["compute_client_final_message_limited: Meter::new"],
            FINAL,
            first("let answer = self.answer_server_first(", work),
        )

    def test_a_hash_for_each_iteration(self):
        work = 'for _ in 0..self.iterations() { digest_of(self.scram_version(), b""); }\n        '
        self.refused(
            ["answer: digest_of in a loop"],
            FINAL,
            IMPORT,
            first("let proof = self.client_proof(&auth_message, meter);", work),
        )

    def test_a_server_that_signs_before_its_tests(self):
        work = "self.server_signature_over(stored_password.server_key, &[], &mut Meter::new());\n        "
        self.refused(
            ["answer_proof: Meter::new"],
            SCRAM + "scram_messages/server_final.rt",
            first("if client_final.proof.len() != self.digest_len() {", work),
        )

    def test_an_acceptor_that_stretches_before_each_challenge(self):
        old = "let Some(client_first) = &init.initial_response else {"
        self.refused(
            ["answer_init: Meter::new", "answer_init: h_i_metered"],
            RUNS + "scram_acceptor.rt",
            first(
                old,
                'let _ = ScramVersion::Sha256.h_i_metered(alloc, b"", b"", 4294967295, &mut Meter::new());\n        ',
            ),
        )

    def test_an_acceptor_that_stretches_by_a_plain_call(self):
        old = "let Some(client_first) = &init.initial_response else {"
        self.refused(
            ["answer_init: h_i"],
            RUNS + "scram_acceptor.rt",
            first(old, 'let _ = ScramVersion::Sha256.h_i(alloc, b"", b"", 4294967295);\n        '),
        )

    def test_each_form_of_a_call(self):
        old = "let client_nonce = base64_of_nonce(nonce, &mut room);\n        let ("
        for call in (
            "self.scram.h_i(alloc)",
            "ScramVersion::h_i(alloc)",
            "crate::hmac::ScramVersion::h_i(alloc)",
            "<ScramVersion>::h_i(alloc)",
            "self.scram\n.h_i (alloc)",
            "alloc.map(ScramVersion::h_i)",
        ):
            with self.subTest(call):
                self.refused(
                    [r"compute_client_first_message: (?:ScramVersion::)?h_i"], CLIENT, first(old, f"{call};\n        ")
                )

    def test_a_profile_that_stretches_before_its_limit(self):
        old = "let Ok(server_first) = str::from_utf8(challenge) else {"
        self.refused(
            ["answer: h_i"],
            RUNS + "sasl_profile/scram_frames.rt",
            first(old, 'let _ = ScramVersion::Sha256.h_i(alloc, b"", b"", 4294967295);\n    '),
        )

    def test_an_audit_that_stretches_before_it_looks_at_the_kept_keys(self):
        work = "let _ = words.version.h_i(alloc, words.password.as_bytes(), &first.salt, first.iterations)?;\n    "
        self.refused(["keys_of: h_i x2"], SASL + "audit/client_receipts.rt", first("if let Some(last) = kept {", work))

    def test_a_digest_as_a_value(self):
        """The name of a function that is a value, and what is a local of its name."""
        before, loop = "let salted_password = self.salted_password(", 'for _ in 0..9 { stretch(b""); }\n'
        for value in (
            "digest_of",
            "crate::hmac::hasher::digest_of",
            "{ let digest_of = digest_of; digest_of }",
            "match first { digest_of => 0 }; let stretch = digest_of",
            "if let digest_of = 0 { digest_of } else { digest_of }",
            "(|digest_of| digest_of, digest_of).1",
        ):
            with self.subTest(value):
                self.refused(
                    ["keys_of: digest_of as a value(?: in a loop)?"],
                    FINAL,
                    IMPORT,
                    first(before, f"let stretch = {value}; {loop}        "),
                )
        for no_value in (
            "let digest_of = 0; digest_of",
            "match first { digest_of => digest_of }",
            "Hash { digest_of: 0 }.digest_of",
            "for digest_of in 0..1 { digest_of; }",
        ):
            with self.subTest(no_value):
                self.assertEqual(self.faults(FINAL, IMPORT, first(before, f"{no_value};\n        ")), [])

    def test_a_digest_as_a_value_in_a_loop(self):
        work = "for _ in 0..first.iterations { twice(digest_of); }\n        "
        self.refused(
            ["keys_of: digest_of as a value in a loop"],
            FINAL,
            IMPORT,
            first("let salted_password = self.salted_password(", work),
        )

    def test_other_names_of_a_digest(self):
        renamed = (
            "use crate::hmac::{Meter, ScramVersion};",
            "use crate::hmac::{Meter, ScramVersion};\nuse crate::hmac::hasher::digest_of as plain;",
        )
        self.refused(
            ["keys_of: digest_of as a value", "keys_of: digest_of"],
            FINAL,
            renamed,
            first("let salted_password = self.salted_password(", 'let stretch = plain; plain(*self, b"");\n        '),
        )
        exported = (renamed[0], renamed[1].replace("use crate::hmac::hasher", "pub(crate) use crate::hmac::hasher"))
        self.assertIn("another name", "\n".join(self.faults(FINAL, exported)))
        constant = first("impl CachedKeys {", "const H: fn(ScramVersion, &[u8]) -> Digest = digest_of;\n\n")
        self.assertIn("a function that is a constant", "\n".join(self.faults(FINAL, IMPORT, constant)))

    def test_an_answer_for_c_before_there_is_room(self):
        """An export, and what it calls, that makes its answer on a meter of its own before it looks for the room."""
        early = (
            "let Ok(text) = str::from_utf8(server_first) else { return 0 };\n    "
            "let _ = compute_answer(alloc, login, client, text, &mut Meter::new());\n    "
        )
        self.refused(
            ["fe2o3_scram_client_final: Meter::new x2", "fe2o3_scram_client_final: compute_answer"],
            C_FINAL,
            first("let mut meter = Meter::new();", early),
        )
        self.refused(
            ["answer: Meter::new", "answer: compute_answer x2"],
            C_FINAL,
            first(
                "let suffices = server_first.len() + answer_more(login);", early.replace("return 0", "return Ok(())")
            ),
        )

    def test_an_answer_for_c_before_its_limit(self):
        stretched = (
            "let _ = version.answer_server_first(alloc, nonce, secret, server_first, bare.as_slice(),"
            " IterationLimits::none(), &mut Meter::new());\n    "
        )
        self.refused(
            ["answer_with_secret: Meter::new", "answer_with_secret: answer_server_first x2"],
            C_FINAL,
            first("match version.answer_server_first(", stretched),
        )

    def test_an_answer_for_c_that_is_made_twice(self):
        """The contracts of the library for C do not count what is done on the meter of an export."""
        again = "let _ = compute_answer(alloc, login, client, text, meter);\n    "
        self.refused(
            ["answer: compute_answer x2"],
            C_FINAL,
            first("let answer = compute_answer(alloc, login, client, text, meter)?;", again),
        )

    def test_a_connection_for_c_before_there_is_room(self):
        step = "let _ = received(alloc, host, server, bytes, nonce, &mut Meter::new());\n    "
        self.refused(
            ["fe2o3_sasl_server_receive: Meter::new x2", "fe2o3_sasl_server_receive: received"],
            C_CONNECTION,
            first("let mut meter = Meter::new();", step),
        )
        self.refused(
            ["receive: Meter::new", "receive: received"], C_CONNECTION, first("if out.len() < SENT_MOST {", step)
        )

    def test_keys_and_passwords_for_c_that_are_stretched_twice(self):
        again = (
            "let _ = CachedKeys::from_password(alloc, version, Password::Prepared(password), salt, iterations,"
            " &mut Meter::new());\n    "
        )
        self.refused(
            ["compute_keys: Meter::new x2", "compute_keys: CachedKeys::from_password x2"],
            C_KEYS,
            first("let mut meter = Meter::new();", again),
        )
        verified = "number(verify(kept, form, password))"
        self.refused(["fe2o3_scram_record_verify: verify x2"], C_RECORDS, first(verified, f"let _ = {verified};\n    "))

    def test_what_it_does_not_see(self):
        """An audit that never takes the kept keys makes no call that it did not make before."""
        told = self.faults(
            SASL + "audit/client_receipts.rt", ("if last.iterations() == first.iterations &&", "if false &&")
        )
        self.assertEqual(told, [])

    def test_another_name_and_a_meter_that_can_be_copied(self):
        renamed = self.faults(
            CLIENT, ("use crate::hmac::{Meter, ScramVersion};", "use crate::hmac::{Meter as Fresh, ScramVersion};")
        )
        self.assertIn("another name", "\n".join(renamed))
        for edit in (
            ("derive(Debug, Drop)", "derive(Debug, Clone, Drop)"),
            first("impl Meter {", "const FRESH: Meter = Meter { count: 0 };\n\n"),
        ):
            self.assertIn("a Meter can be copied", "\n".join(self.faults(SCRAM + "hmac/meter.rt", edit)))

    def test_a_function_that_is_new_in_the_list(self):
        renewed = meters.renewed(TEXTS, LISTED.replace("fe2o3_scram::hmac::ScramVersion::h: digest_of\n", ""))
        self.assertTrue(renewed.endswith(f"{meters.UNSORTED}\nfe2o3_scram::hmac::ScramVersion::h: digest_of\n"))
        self.assertEqual(meters.faults_of(TEXTS, renewed), [f"tools/gate/meters.txt says: {meters.UNSORTED}"])


if __name__ == "__main__":
    unittest.main(verbosity=0)
