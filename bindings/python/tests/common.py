# SPDX-License-Identifier: Apache-2.0
"""What the tests share: the package, the plain reader, and the program."""
import os
import pathlib
import shutil
import subprocess
import sys

sys.dont_write_bytecode = True
PACKAGE = pathlib.Path(__file__).resolve().parent.parent
ROOT = PACKAGE.parent.parent
sys.path[:0] = [str(PACKAGE), str(ROOT / "tests")]


def program():
    """The program hll_merge: the one that HLL_MERGE names, or what the checkout builds; None if
    neither can be had."""
    named = os.environ.get("HLL_MERGE")
    if named:
        return named
    if shutil.which("make") is None or shutil.which("cc") is None:
        return None
    done = subprocess.run(["make", "-s", "-C", ROOT / "programs"], stdout=subprocess.DEVNULL)
    return ROOT / "bin" / "hll_merge" if done.returncode == 0 else None

