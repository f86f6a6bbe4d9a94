#!/usr/bin/env python3
# SPDX-License-Identifier: Apache-2.0
"""Times calls of libhll compared with the library of an earlier commit, in one process, in turn.

    bench/against.py COMMIT [WORD ..]

Builds the library of the commit from `git archive`, with make, and compares bindings/c/build/libhll.so with it. With WORDs,
only the rows whose names contain one of them. Prints a table: nanoseconds a call, the least of many turns, and the ratio.
Needs bindings/c built, git, GNU make and a C compiler.

Targets, as ratios to the library of 03af997b: no row above 1.02, within what the clock can tell.

    join, 4 bits, lg_k 12; 14                             0.85; 0.75
    estimate of an image of 20 coupons; of one            0.45; 0.28
    estimate of an image of registers                     0.75
    convert an image of 8 bits to its own width           0.35
    add a value that an image has, 8; 6; 4 bits           0.3; 0.5; 0.5
    add a value that changes an image, 8; 6; 4 bits       0.45; 0.6; 0.6

Targets, in nanoseconds above the time of hll_registers_merge of the same image:

    join, 8 or 6 bits                                     30, and 1.05 of that time
    join, 4 bits                                          40, and 1.1 of that time
"""
import pathlib
import subprocess
import sys
import tempfile

ROOT = pathlib.Path(__file__).resolve().parent.parent
LIBRARY = ROOT / "bindings" / "c"


def built_at(commit, folder):
    """The shared library of a commit, built in this folder."""
    archive = subprocess.run(["git", "archive", commit], cwd=ROOT, stdout=subprocess.PIPE, check=True).stdout
    subprocess.run(["tar", "-x"], cwd=folder, input=archive, check=True)
    subprocess.run(["make", "-C", folder / "bindings" / "c"], stdout=subprocess.DEVNULL, check=True)
    return folder / "bindings" / "c" / "build" / "libhll.so"


def main():
    if len(sys.argv) < 2 or sys.argv[1].startswith("-"):
        print(__doc__.strip(), file=sys.stderr)
        return 2
    with tempfile.TemporaryDirectory() as name:
        folder = pathlib.Path(name)
        program = folder / "against"
        subprocess.run(["cc", "-O2", "-std=c99", "-I", LIBRARY, ROOT / "bench" / "against.c", "-ldl", "-o", program], check=True)
        (folder / "earlier").mkdir()
        earlier = built_at(sys.argv[1], folder / "earlier")
        return subprocess.run([program, earlier, LIBRARY / "build" / "libhll.so", *sys.argv[2:]]).returncode


if __name__ == "__main__":
    sys.exit(main())
