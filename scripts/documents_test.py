#!/usr/bin/env python3
# SPDX-License-Identifier: Apache-2.0
"""Tests what scripts/documents.py finds in a checkout that is made up here. Prints TAP."""
import contextlib
import io
import pathlib
import shutil
import subprocess
import sys
import tempfile
import unittest
import unittest.mock

sys.dont_write_bytecode = True
sys.path.insert(0, str(pathlib.Path(__file__).resolve().parent))
import documents  # noqa: E402
import unit_tests  # noqa: E402


class CheckoutTest(unittest.TestCase):
    def setUp(self):
        self.root = pathlib.Path(tempfile.mkdtemp())
        self.addCleanup(shutil.rmtree, self.root)
        patched = unittest.mock.patch.object(documents, "ROOT", self.root)
        patched.start()
        self.addCleanup(patched.stop)
        self.put(".gitignore", "/made.txt\nout/\n")
        self.put("kept.txt", "kept\n")

    def put(self, name, text, mode=0o644):
        path = self.root / name
        path.parent.mkdir(exist_ok=True)
        path.write_text(text)
        path.chmod(mode)

    def git(self, *words):
        subprocess.run(["git", "-c", "init.defaultBranch=main", *words], cwd=self.root, check=True, capture_output=True)

    def test_a_file_that_git_keeps_and_ignores(self):
        self.git("init", "-q")
        self.put("made.txt", "made\n")
        self.put("out/made.txt", "made\n")
        self.git("add", "-A")
        self.assertEqual(list(documents.faults_of_ignored_files()), [])
        self.git("add", "-f", "made.txt", "out/made.txt")
        self.assertEqual([fault.split(":")[0] for fault in documents.faults_of_ignored_files()], ["made.txt", "out/made.txt"])
        self.git("rm", "-q", "--cached", "made.txt", "out/made.txt")
        self.assertEqual(list(documents.faults_of_ignored_files()), [])

    def test_a_page_that_names_a_file_which_git_ignores(self):
        self.git("init", "-q")
        page = self.root / "README.md"
        self.put("docs/made.txt", "made\n")
        self.assertTrue(documents.is_there(page, "docs/made.txt"))
        self.put(".gitignore", "/docs/made.txt\n")
        documents.ignored_files.cache_clear()
        self.assertFalse(documents.is_there(page, "docs/made.txt"))

    def test_no_checkout_of_git(self):
        self.assertEqual(list(documents.faults_of_ignored_files()), [])

    def test_a_script_that_can_not_be_executed(self):
        self.put("scripts/one.py", "#!/usr/bin/env python3\n", 0o755)
        self.put("scripts/two.py", '"""A module."""\n')
        self.assertEqual(list(documents.faults_of_scripts()), [])
        self.put("scripts/three.sh", "#!/bin/sh\n")
        self.assertEqual(list(documents.faults_of_scripts()), ["scripts/three.sh: it begins with #! and can't be executed: chmod +x"])

    def test_both_are_among_the_names(self):
        """`names` counts them: pages and sources that are right otherwise."""
        for name in ("faults_of_sources", "faults_of_numbers", "faults_of_citation"):
            patched = unittest.mock.patch.object(documents, name, return_value=[])
            patched.start()
            self.addCleanup(patched.stop)
        self.assertEqual(documents.check_names(), (1, 0))
        for name in ("faults_of_scripts", "faults_of_ignored_files"):
            with unittest.mock.patch.object(documents, name, return_value=["a fault"]), contextlib.redirect_stdout(io.StringIO()):
                self.assertEqual(documents.check_names(), (0, 1))


if __name__ == "__main__":
    sys.exit(unit_tests.run())
