#!/usr/bin/env python3
"""What `tools/test_rows.py` selects and alters in a file of rows, and what `tools/test_memory.py` finds in a program."""
import subprocess
import sys
import tempfile
import unittest
from pathlib import Path

sys.dont_write_bytecode = True
TOP = Path(__file__).resolve().parents[3]
sys.path.insert(0, str(TOP / "tools"))

import test_memory
import test_rows

LINES = "# A comment.\ncall one\na => 1\ngiven x\nb => 2\n\ncall two\nc => \nd => 4 # 5\n"
PARAGRAPHS = "# A comment.\nparagraphs run\n\nserver\na => 1\n\nclient\n# b\nc d => 2\n> e\n"

# A program that answers a line of a file by a call of two requests, and prints what a driver prints. By the word of its
# line it hides a refusal, keeps a block after one, or makes a call that should request nothing.
DRIVER = r"""
#include <stdio.h>
#include <stdlib.h>
#include <string.h>
static void *mark;
static void set_mark(size_t size) { void *other = malloc(size); free(mark); mark = other; }
static int call(const char *word)
{
    set_mark(strcmp(word, "free\n") ? 700001 : 700003);
    void *one = malloc(10), *two = one == NULL ? NULL : realloc(NULL, 20);
    set_mark(700005);
    if (two != NULL || strcmp(word, "keep\n"))
        free(one);
    free(two);
    return two != NULL || !strcmp(word, "hide\n");
}
static int answer(const char *word) { return call(word) && (strcmp(word, "two\n") || call(word)); }
int main(int count, char **words)
{
    char line[20];
    FILE *file = fopen(words[count - 1], "r");
    int rows = 0, differ = 0;
    for (; fgets(line, sizeof line, file) != NULL; rows++) {
        if (!answer(line)) {
            printf("calls.txt: ran out of memory: %s", line);
            differ += !answer(line);
        }
        set_mark(700007);
    }
    fclose(file);
    printf("calls.txt: %d rows, %d differ\n", rows, differ);
    return differ != 0;
}
"""


class Rows(unittest.TestCase):
    def test_selected_lines(self):
        for wanted, kept in (
            ({3}, "call one\na => 1\n"),
            ({5}, "call one\ngiven x\nb => 2\n"),
            ({9}, "call two\nd => 4 # 5\n"),
            ({3, 8}, "call one\na => 1\ncall two\nc => \n"),
            ({1, 2, 6, 10}, ""),
        ):
            self.assertEqual(test_rows.selected(LINES, wanted), kept)

    def test_selected_paragraphs(self):
        head = "# A comment.\nparagraphs run"
        for wanted, kept in (
            ({4}, f"{head}\n\nserver\na => 1"),
            ({5}, f"{head}\n\nserver\na => 1"),
            ({3, 6}, head),
            ({9}, f"{head}\n\nclient\n# b\nc d => 2\n> e\n"),
            ({5, 7}, PARAGRAPHS),
        ):
            self.assertEqual(test_rows.selected(PARAGRAPHS, wanted), kept)

    def test_altered(self):
        self.assertEqual(
            test_rows.altered(LINES),
            ("# A comment.\ncall one\na => 1?\ngiven x\nb => 2?\n\ncall two\nc => ?\nd => 4 # 5?\n", 4),
        )
        self.assertEqual(
            test_rows.altered(PARAGRAPHS),
            ("# A comment.\nparagraphs run\n\nserver\na => 1?\n\nclient\n# b\nc d => 2?\n> e?\n", 2),
        )
        self.assertEqual(test_rows.altered("call x\n00 01\n"), ("call x\n00 00\n", 1))


class Memory(unittest.TestCase):
    @classmethod
    def setUpClass(cls):
        room = tempfile.TemporaryDirectory()
        cls.addClassCleanup(room.cleanup)
        cls.folder = Path(room.name)
        (cls.folder / "driver.c").write_text(DRIVER)
        for words in (
            ["-o", "driver", "driver.c"],
            ["-shared", "-fPIC", "-o", "refuse.so", TOP / "tools/test_memory/refuse.c"],
        ):
            subprocess.run(["cc", *words], cwd=cls.folder, check=True)

    def found(self, rows, name="calls.txt"):
        """The calls that ran out, the refused requests, the rows, and the number of faults."""
        (self.folder / name).write_text(rows)
        *counts, wrong = test_memory.tried(self.folder / "driver", self.folder / name, str(self.folder / "refuse.so"))
        return *counts, len(wrong)

    def test_calls(self):
        for rows, wanted in (
            ("one\none\n", ({"one"}, 4, 2, 0)),
            ("two\none\n", ({"one", "two"}, 6, 2, 0)),
            ("hide\n", (set(), 2, 1, 2)),
            ("keep\n", ({"keep"}, 2, 1, 1)),
            ("free\n", (set(), 0, 1, 1)),
        ):
            self.assertEqual(self.found(rows), wanted)

    def test_hints(self):
        self.assertEqual(self.found("hide\n", test_memory.HINTS), (set(), 2, 1, 0))

    def test_list(self):
        calls = test_memory.calls_of([test_memory.signatures.Library("fe2o3_sasl_wire")])["fe2o3_sasl_wire"]
        self.assertLessEqual({"Symbol::new", "FrameCodec::decode", "Binary::clone", "view_frame"}, calls)
        self.assertTrue(calls.isdisjoint({"SaslCode::clone", "ProtocolHeaderCodec::decode", "Symbol::as_str"}))


if __name__ == "__main__":
    unittest.main()
