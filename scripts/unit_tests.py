# SPDX-License-Identifier: Apache-2.0
"""Runs the unit tests of a script in this folder."""
import pathlib
import sys
import unittest

sys.path.insert(0, str(pathlib.Path(__file__).resolve().parent.parent / "tests"))
import tap  # noqa: E402


def run():
    """Runs the unit tests of the script that calls it, or those with a word of the command line in their names, and prints
    TAP. Returns the status of the script."""
    results = tap.Tap(sys.argv[1:])
    tap.run_unit_tests(results, unittest.defaultTestLoader.loadTestsFromModule(sys.modules["__main__"]))
    return results.finish()
