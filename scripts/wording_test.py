#!/usr/bin/env python3
# SPDX-License-Identifier: Apache-2.0
"""Tests scripts/wording.py on texts that are made up here. The last line is 'N passed, M failed'."""
import pathlib
import sys
import tempfile
import unittest
import unittest.mock

sys.dont_write_bytecode = True
sys.path.insert(0, str(pathlib.Path(__file__).resolve().parent))
import unit_tests  # noqa: E402
import wording  # noqa: E402

WORDS = """\
# what is written | what is not
[everywhere]
again | anew, once more
is rejected | refused
[pages]
directory | folder
"""


class WordingTest(unittest.TestCase):
    def faults(self, texts, kind, **files):
        """Writes files, and returns the faults of one kind of text, without what to write."""
        with tempfile.TemporaryDirectory() as root:
            for name, text in {"scripts/words.txt": WORDS, **files}.items():
                path = pathlib.Path(root, name)
                path.parent.mkdir(parents=True, exist_ok=True)
                path.write_text(text)
            with unittest.mock.patch.object(wording, "ROOT", pathlib.Path(root)), unittest.mock.patch.object(wording, "FEWEST", 0):
                found = list(wording.faults(texts(), wording.words_not_written(kind)))
        return sorted(fault.rsplit(":", 1)[0] for fault in found)

    def pages(self, text, name="page.md"):
        return self.faults(lambda: wording.pages(("**/*.md", "**/*.1")), "pages", **{name: text})

    def documentation(self, name, text):
        kind = {"made.py": "Python", "made.h": "C", "made.rs": "Rust"}[name]
        with unittest.mock.patch.object(wording, "DOCUMENTATION", {kind: (name,)}):
            return self.faults(lambda: wording.documentation(kind), f"documentation in {kind}", **{name: text})

    def messages(self, name, text):
        with unittest.mock.patch.object(wording, "MESSAGES", {"host": (name,)}):
            return self.faults(lambda: wording.messages("host"), "messages of host", **{name: text})

    def test_a_page(self):
        self.assertEqual(self.pages("One\n\nIt is Refused,\nonce\nmore.\n"), ['page.md:3: "Refused"', 'page.md:4: "once more"'])

    def test_each_row_of_the_list(self):
        self.assertEqual(self.pages("anew\n\nrefused\n"), ['page.md:1: "anew"', 'page.md:3: "refused"'])

    def test_rows_for_pages_only(self):
        self.assertEqual(self.pages("a folder\n"), ['page.md:1: "folder"'])
        self.assertEqual(self.messages("made.c", 'fail("a folder is refused");\n'), ['made.c:1: "refused"'])

    def test_whole_words(self):
        self.assertEqual(self.pages("unrefused, refused_plan and sinew anewly\n"), [])

    def test_code_of_a_page(self):
        self.assertEqual(self.pages("`anew`\n\n    anew\n\n```\nanew\n```\n[a](anew.md)\n"), [])

    def test_text_after_code(self):
        self.assertEqual(self.pages("    code\n\nanew\n\n```sh\ncode\n```\n\nrefused\n"), ['page.md:3: "anew"', 'page.md:9: "refused"'])

    def test_a_manual_page(self):
        self.assertEqual(self.pages(".Sh NAME\nIt is\nrefused\n.Sh NEXT\nanew\n", "man.1"), ['man.1:3: "refused"', 'man.1:5: "anew"'])

    def test_documentation_of_python(self):
        text = '"""Does it anew."""\nname = "anew and anew"\n"""It is refused."""\n# anew\n'
        self.assertEqual(self.documentation("made.py", text), ['made.py:1: "anew"', 'made.py:3: "refused"'])

    def test_documentation_of_c(self):
        text = 'const char *x = "anew /* refused */";\n/* Does it\n * anew. */\nint anew; // refused\n'
        self.assertEqual(self.documentation("made.h", text), ['made.h:3: "anew"', 'made.h:4: "refused"'])

    def test_documentation_of_rust(self):
        text = "//! Begins anew.\n// anew\n    /// Is refused by `anew`.\n    let anew = 1;\n"
        self.assertEqual(self.documentation("made.rs", text), ['made.rs:1: "anew"', 'made.rs:3: "refused"'])

    def test_messages_of_python(self):
        text = '"""It is anew."""\nraise ValueError(f"it is refused: {1}")\nword = "anew"\n'
        self.assertEqual(self.messages("made.py", text), ['made.py:2: "refused"'])

    def test_messages_of_c(self):
        text = "/* it is anew */\nchar c = '\"';\nfail(\"it is \"\n     \"refused\"); // anew too\n"
        self.assertEqual(self.messages("made.c", text), ['made.c:3: "refused"'])

    def test_messages_of_sql(self):
        text = "-- it's anew\nCOMMENT ON f IS 'it''s refused -- and anew';\nSELECT 'anew';\n"
        self.assertEqual(self.messages("made.sql", text), ['made.sql:2: "anew"', 'made.sql:2: "refused"'])

    def test_too_few_texts(self):
        found = list(wording.faults([], {}))
        self.assertEqual(found, ["0 texts were found, and there are more"])


if __name__ == "__main__":
    sys.exit(unit_tests.run())
