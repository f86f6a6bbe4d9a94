#!/usr/bin/env python3
# SPDX-License-Identifier: Apache-2.0
"""Times calls on states of libhll at lg_k 12 compared with calls over images, and inputs that were chosen to be slow, compared with random ones.

    bench/states.py

Needs bindings/c built, and a C compiler. Prints tables for docs/NUMBERS.md, "States".
"""
import pathlib
import subprocess
import sys
import tempfile

ROOT = pathlib.Path(__file__).resolve().parent.parent
LIBRARY = ROOT / "bindings" / "c"


def main():
    with tempfile.TemporaryDirectory() as folder:
        program = pathlib.Path(folder) / "states"
        subprocess.run(["cc", "-O2", "-std=c99", "-I", LIBRARY, ROOT / "bench" / "states.c", LIBRARY / "build" / "libhll.a",
                        "-lm", "-o", program], check=True)
        return subprocess.run([program]).returncode


if __name__ == "__main__":
    sys.exit(main())
