#!/usr/bin/env python3
# SPDX-License-Identifier: Apache-2.0
"""Tests how ./check counts the TAP of a part (its function `count`, over texts that are made up here), and when it runs the commands
of the pages. Prints TAP."""
import pathlib
import re
import subprocess
import sys
import tempfile
import unittest

sys.dont_write_bytecode = True
sys.path.insert(0, str(pathlib.Path(__file__).resolve().parent))
import unit_tests  # noqa: E402

CHECK = pathlib.Path(__file__).resolve().parent.parent / "check"
STUBS = """
is_chosen() { [ -z "$TESTS" ] || [[ " $TESTS " == *" $1 "* ]]; }
run_python() { ! is_chosen "$1" || echo "$1"; }
skip() { echo "not $1: $2"; }
site() { :; }
want() { :; }
has() { :; }
programs_are_built() { :; }
"""


def function(name):
    """Returns the text of a function of ./check."""
    return re.search(r"(?ms)^%s\(\) \{.*?^\}$" % name, CHECK.read_text("utf-8"))[0]


class CountTest(unittest.TestCase):
    def count(self, *lines, status=0):
        """Returns how many tests passed and failed, what was skipped, and what was printed."""
        with tempfile.TemporaryDirectory() as room:
            part = pathlib.Path(room, "01-part.tap")
            part.write_text("".join(line + "\n" for line in lines))
            part.with_suffix(".status").write_text("%d 7\n" % status)
            script = "set -u\nscratch=$1 passed=0 failed=0\n%s\ncount \"$1/01-part.tap\"\necho \"$passed $failed\"\n" % function("count")
            ran = subprocess.run(["bash", "-c", script, "bash", room], capture_output=True, text=True, check=True)
            *said, last = ran.stdout.splitlines()
            self.assertEqual(ran.stderr, "")
            return (*map(int, last.split()), pathlib.Path(room, "skipped").read_text(), "\n".join(said))

    def test_a_part_that_passes(self):
        self.assertEqual(self.count("ok 1 - one", "# over 5 comparisons", "ok 2 - two", "1..2"), (2, 0, "", ""))

    def test_a_test_that_fails(self):
        passed, failed, _, said = self.count("ok 1 - one", "not ok 2 - two", "# why", "1..2", status=1)
        self.assertEqual((passed, failed), (1, 1))
        self.assertIn("not ok 2 - two\n# why", said)

    def test_a_part_that_ends_badly(self):
        """With a status, without a plan, or with another number of tests."""
        for lines, status in ((("ok 1 - one", "1..1"), 1), (("ok 1 - one",), 0), (("ok 1 - one", "1..2"), 0), ((), 0)):
            self.assertEqual(self.count(*lines, status=status)[1], 1, lines)

    def test_what_is_skipped_with_a_reason(self):
        self.assertEqual(self.count("ok 1 - one", "ok 2 - two # SKIP cc is not here", "1..2"), (1, 0, "part: two, as cc is not here\n", ""))
        self.assertEqual(self.count("1..0 # SKIP the part, as cc is not here"), (0, 0, "part: all of it: the part, as cc is not here\n", ""))

    def test_what_is_skipped_without_a_reason(self):
        for end in (" # SKIP", " # SKIP ", " # SKIP   "):
            passed, failed, _, said = self.count("ok 1 - one", "ok 2 - two" + end, "1..2")
            self.assertEqual((passed, failed), (1, 1))
            self.assertIn("skipped without a reason: ok 2 - two" + end, said)
            passed, failed, _, said = self.count("1..0" + end)
            self.assertEqual((passed, failed), (0, 1))
            self.assertIn("skipped without a reason: 1..0", said)


class MachineTest(unittest.TestCase):
    def machine(self, **tools):
        """Returns what is printed of a machine with these tools alone, each of which is a script."""
        with tempfile.TemporaryDirectory() as room:
            for name, code in {"uname": "echo Linux x86_64", "getconf": "echo 4", **tools}.items():
                tool = pathlib.Path(room, name)
                tool.write_text("#!/bin/sh\n%s\n" % code)
                tool.chmod(0o755)
            script = "set -u\n%s\nmachine" % function("machine")
            ran = subprocess.run(["/bin/bash", "-c", script], capture_output=True, text=True, check=True, env={"PATH": room})
            self.assertEqual(ran.stderr, "")
            return ran.stdout

    def test_all_is_here(self):
        said = self.machine(rt="echo kit", cc="echo cc 12; echo more", python3="echo Python 3")
        self.assertEqual(said, "on Linux x86_64, 4 processors, kit, cc 12, Python 3\n")

    def test_what_lacks_is_said(self):
        said = self.machine()
        self.assertEqual(said, "on Linux x86_64, 4 processors, no rt, no C compiler (cc), no python3, so most parts are skipped\n")


class DocumentsTest(unittest.TestCase):
    def documents(self, is_fresh, words=""):
        """Returns what is run of the part `documents`."""
        fresh = "is_prebuilt_fresh() { %s; }\n" % ("true" if is_fresh else "false")
        script = "set -u\nTESTS=$1\n%s%s%s\ndocuments\n" % (STUBS, fresh, function("documents"))
        ran = subprocess.run(["bash", "-c", script, "bash", words], capture_output=True, text=True, check=True, cwd=CHECK.parent)
        return ran.stdout.splitlines()

    def test_commands_where_prebuilt_is_stale(self):
        always = ["names", "words", "links", "numbers of the proof"]
        self.assertEqual(self.documents(True), [*always, "commands", "plans"])
        *others, last = self.documents(False)
        self.assertEqual(others, always)
        self.assertRegex(last, "^not commands and plans: prebuilt/ is .*: ./check documents commands plans proves the library first$")

    def test_commands_that_are_asked_for(self):
        self.assertEqual(self.documents(False, "commands"), ["commands"])
        self.assertEqual(self.documents(False, "plans names"), ["names", "plans"])


if __name__ == "__main__":
    sys.exit(unit_tests.run())
