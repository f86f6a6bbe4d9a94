#!/usr/bin/env python3
# SPDX-License-Identifier: Apache-2.0
"""Times unions of one to a thousand images by libhll, compared with the library of an earlier commit, in one process, in turn.

    bench/unions.py COMMIT

Builds the library of the commit from `git archive`, with make, and compares bindings/c/build/libhll.so with it. Prints a table
for docs/NUMBERS.md, "Unions": nanoseconds of CPU time of one call, the least of many turns, and the ratio to the earlier library.
Needs bindings/c built, git, GNU make and a C compiler.

Targets, as ratios to the library of 03af997b: two sets of 20 at most 0.3, and ten at most 0.85; 8-bit registers at most 0.75; no row above
1.03, but those of hundreds of lists (1.15) and of 6-bit and 4-bit registers, which are merged in elements of four bytes.
"""
import pathlib
import subprocess
import sys
import tempfile

sys.dont_write_bytecode = True
sys.path.insert(0, str(pathlib.Path(__file__).resolve().parent))
import against  # noqa: E402


def main():
    if len(sys.argv) != 2 or sys.argv[1].startswith("-"):
        print(__doc__.strip(), file=sys.stderr)
        return 2
    with tempfile.TemporaryDirectory() as name:
        folder = pathlib.Path(name)
        program = folder / "unions"
        source = against.ROOT / "bench" / "unions.c"
        subprocess.run(["cc", "-O2", "-std=c99", "-I", against.LIBRARY, source, "-ldl", "-o", program], check=True)
        (folder / "earlier").mkdir()
        earlier = against.built_at(sys.argv[1], folder / "earlier")
        return subprocess.run([program, earlier, against.LIBRARY / "build" / "libhll.so"]).returncode


if __name__ == "__main__":
    sys.exit(main())
