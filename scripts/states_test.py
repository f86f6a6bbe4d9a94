#!/usr/bin/env python3
# SPDX-License-Identifier: Apache-2.0
"""Tests that no file outside the crates reads the bytes of a state: what they say is asked by `hll_state_info`. The last line
is 'N passed, M failed'."""
import pathlib
import re
import subprocess
import sys
import unittest

sys.dont_write_bytecode = True
sys.path.insert(0, str(pathlib.Path(__file__).resolve().parent))
import unit_tests  # noqa: E402

ROOT = pathlib.Path(__file__).resolve().parent.parent
FOLDERS = ("bindings", "examples", "programs", "bench")
OWN = {"bindings/c/tests/states.c"}
"""Makes states that no call made."""

FIRST_NUMBER = re.compile(r"0x[0-9a-f]{2}_?48_?4c_?4[12]|\b3829254[56]\b|0x4[12],? (?:0x)?4c", re.IGNORECASE)
"""What a state begins with."""

INDEXED = re.compile(r"(?<![\w.>&-])(?:\w+(?:\.|->))*_?(?:state|memory|bytes_)(?:(?:\.|->)bytes)?\[(?:0|4|8|12|16|20|24)\b(?!:0\])")
"""One of the numbers of a header."""


def sources():
    """The files of the bindings, as git has them."""
    listed = subprocess.run(["git", "ls-files", "-z", *FOLDERS], cwd=ROOT, capture_output=True, text=True, check=True).stdout
    for name in filter(None, listed.split("\0")):
        if pathlib.PurePath(name).suffix in {".c", ".h", ".hpp", ".cpp", ".rs", ".py", ".go", ".java"} and name not in OWN:
            yield name, (ROOT / name).read_text()


class StatesTest(unittest.TestCase):
    def test_no_file_reads_the_bytes_of_a_state(self):
        found = [f"{name}: {hit[0]}" for name, text in sources() for rule in (FIRST_NUMBER, INDEXED) for hit in rule.finditer(text)]
        self.assertEqual(found, [])

    def test_readers_of_bytes_are_found(self):
        for text in ("number(state, 0) == 0x0248_4c42", "state[0] == 0x42", "self._memory[4] & 31", "state->bytes[24]"):
            self.assertTrue(FIRST_NUMBER.search(text) or INDEXED.search(text), text)

    def test_the_numbers_are_those_of_the_crate(self):
        header = (ROOT / "crates" / "hll_state" / "src" / "header.rt").read_text()
        numbers = re.findall(r"= (0x\w+);", header)
        self.assertEqual(len(numbers), 2)
        self.assertTrue(all(FIRST_NUMBER.search(number) for number in numbers), numbers)


if __name__ == "__main__":
    sys.exit(unit_tests.run())
