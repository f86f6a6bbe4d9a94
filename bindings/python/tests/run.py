#!/usr/bin/env python3
# SPDX-License-Identifier: Apache-2.0
"""Runs the tests of the package, and prints TAP: all, or those with a word in their names."""
import pathlib
import sys
import unittest

FOLDER = pathlib.Path(__file__).resolve().parent


def main():
    sys.path.insert(0, str(FOLDER))
    import common
    import tap

    sys.path.append(str(common.PACKAGE))
    results = tap.Tap(sys.argv[1:])
    tap.run_unit_tests(results, unittest.defaultTestLoader.discover(str(FOLDER), top_level_dir=str(FOLDER)))
    return results.finish()


if __name__ == "__main__":
    sys.exit(main())
