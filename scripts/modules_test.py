#!/usr/bin/env python3
# SPDX-License-Identifier: Apache-2.0
"""Tests scripts/modules.py on crates that are made up here, with and without cycles. The last line is 'N passed, M failed'."""
import contextlib
import io
import pathlib
import sys
import tempfile
import unittest
import unittest.mock

sys.dont_write_bytecode = True
sys.path.insert(0, str(pathlib.Path(__file__).resolve().parent))
import modules  # noqa: E402
import unit_tests  # noqa: E402


class ModulesTest(unittest.TestCase):
    def run_main(self, crates, *words):
        """Runs the script over crates, each the texts of its modules; returns the exit status and the lines."""
        with tempfile.TemporaryDirectory() as root:
            for crate, texts in crates.items():
                sources = pathlib.Path(root, "crates", crate, "src")
                sources.mkdir(parents=True)
                for module, text in texts.items():
                    (sources / (module + ".rt")).write_text(text)
            with unittest.mock.patch.object(modules, "ROOT", pathlib.Path(root)), \
                    unittest.mock.patch.object(sys, "argv", ["modules.py", *words]), \
                    contextlib.redirect_stdout(io.StringIO()) as out:
                status = modules.main()
        return int(status), out.getvalue().splitlines()

    def cycles(self, **texts):
        """The cycles that are found in a crate, without the words before them."""
        status, lines = self.run_main({"one": texts}, "check")
        found = [line.removeprefix("FAIL: one has a cycle: ") for line in lines[:-1]]
        self.assertEqual((status, lines[-1]), (1, "0 passed, %d failed" % len(found)) if found else (0, "1 passed, 0 failed"))
        return found

    def all_faults(self, **texts):
        """All that is wrong with a crate, without the word before it."""
        _, lines = self.run_main({"one": texts}, "check")
        return [line.removeprefix("FAIL: ") for line in lines[:-1]]

    def test_no_cycle(self):
        self.assertEqual(self.cycles(lib="mod a;\nmod b;\npub use a::A;", a="use crate::b::B;", b="use std::a::A;"), [])

    def test_a_cycle_of_two(self):
        self.assertEqual(self.cycles(lib="mod a; mod b;", a="use crate::b::B;", b="use crate::a::A;"), ["a uses b uses a"])

    def test_a_cycle_of_three_in_groups_and_bodies(self):
        self.assertEqual(self.cycles(lib="", c="use crate::{a::{A, b}, d};", a="fn f() { crate::b::g() }", b="use crate::c;", d=""),
                         ["a uses b uses c uses a"])

    def test_two_cycles_with_a_module_in_common(self):
        self.assertEqual(self.cycles(lib="", a="use crate::b::B;\nuse crate::c::C;", b="use crate::a::A;", c="use crate::a::A;"),
                         ["a uses b uses a", "a uses c uses a"])

    def test_a_cycle_through_the_root(self):
        self.assertEqual(self.cycles(main="mod a;\nuse a::A;\npub fn run() {}", a="use crate::run;"), ["a uses main uses a"])
        self.assertEqual(self.cycles(main="mod tests;\npub fn run() {}", tests="use crate::run;"), [])

    def test_comments_and_texts_use_nothing(self):
        self.assertEqual(self.cycles(lib="", a="use crate::b;", b='// crate::a\nfn f() -> &str { "crate::a" }'), [])

    def test_a_cycle_by_a_method(self):
        """Of `self`, of a parameter, a variable, a field, and of a type before `::`; clauses of contracts call nothing."""
        header = "pub struct Header {\n    held: Held,\n}\n// More methods are in the module b.\n"
        of_b = "use crate::a::Header;\nimpl Header {\n    pub fn room(&self) -> u8\n        ensures { self.room() }\n    {\n        1\n    }\n}\n"
        for body in ("self.room();", "let next = Header::new();\n        next.room();", "let next = Header { held };\n        next.room();",
                     "other.room();", "other.held.more();", "Header::room(&other);", "Self::room(self);"):
            held = "pub struct Held {\n    x: u8,\n}\n" if "held.more" in body else ""
            of_a = "impl Header {\n    fn grow(&mut self, other: &Header) {\n        %s\n    }\n}\n" % body
            more = "impl Held {\n    pub fn more(&self) {\n    }\n}\n" if held else ""
            said = self.all_faults(lib="", a="// More methods are in the module b.\n" + header.split("// More")[0] + of_a,
                                   b=of_b + held + more)
            self.assertEqual(said, ["one has a cycle: a uses b uses a"], body)

    def test_methods_that_are_no_use(self):
        """Of a type of another crate with the same name of a method, and of what a call returns."""
        of_b = "use crate::a::A;\npub struct B {\n    x: u8,\n}\nimpl B {\n    pub fn push(&mut self) {\n    }\n}\n"
        for body in ("other.push();", "self.x.push();", "other.pop().push();", "// self.b.push();"):
            of_a = "pub struct A {\n    x: u8,\n}\nimpl A {\n    fn grow(&mut self, other: &Vec<u8>) {\n        %s\n    }\n}\n" % body
            self.assertEqual(self.all_faults(lib="", a=of_a, b=of_b), [], body)

    def test_a_comment_at_a_type(self):
        of_a = "/// A type.\n%spub struct A {\n    x: u8,\n}\nimpl A {\n    fn f(&self) {\n    }\n}\n"
        of_b = "impl crate::a::A {\n    fn g(&self) {\n    }\n}\n"
        right = "// More methods are in the modules b and c.\n"
        self.assertEqual(self.all_faults(lib="", a=of_a % right, b=of_b, c=of_b), [])
        for wrong in ("", "// More methods are in the module b.\n"):
            self.assertEqual(self.all_faults(lib="", a=of_a % wrong, b=of_b, c=of_b), ["one/a.rt: at A, write: " + right.strip()])
        self.assertEqual(self.all_faults(lib="", a=of_a % "", b="impl From<u8> for crate::a::A {\n}\n"), [])
        self.assertEqual(self.all_faults(lib="", a=of_a % right), ["one/a.rt: at A, write: no such comment"])

    def test_the_drawing(self):
        status, lines = self.run_main({"one": {"lib": "mod a;", "a": "use crate::b;\nuse crate::c;", "b": "use crate::c;", "c": ""},
                                       "two": {"lib": ""}}, "one")
        self.assertEqual((status, lines), (0, ["one", "    c", "    lib", "    b    c", "    a    b, c", "1 passed, 0 failed"]))

    def test_a_drawing_with_a_cycle(self):
        status, lines = self.run_main({"one": {"a": "use crate::b;", "b": "use crate::a;\nuse crate::c;", "c": ""}})
        self.assertEqual((status, sorted(lines[1:4])), (1, ["    a  b", "    b  a, c", "    c"]))
        self.assertLess(lines.index("    c"), lines.index("    b  a, c"))

    def test_a_crate_that_is_not_there(self):
        with self.assertRaises(SystemExit):
            self.run_main({"one": {"lib": ""}}, "two")


if __name__ == "__main__":
    sys.exit(unit_tests.run())
