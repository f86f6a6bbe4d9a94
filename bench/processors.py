#!/usr/bin/env python3
# SPDX-License-Identifier: Apache-2.0
"""Times calls of libhll with its code for x86-64-v2 and with that for x86-64-v3, in one process and in turn: the least times of many
turns. Then it times a library that has the code for x86-64-v2 alone, next to one that chooses it, which shows what the choice costs.

    bench/processors.py

Needs a processor with AVX2, bindings/c built, GNU make and a C compiler. Prints tables for docs/NUMBERS.md, "Both codes for x86-64".
"""
import pathlib
import shutil
import subprocess
import sys
import tempfile

ROOT = pathlib.Path(__file__).resolve().parent.parent
LIBRARY = ROOT / "bindings" / "c"
V2 = "x86-64-v2"


def built_alone(folder):
    """A library with the code for x86-64-v2 alone, built in a folder."""
    for file in [*LIBRARY.glob("*.[ch]"), *(LIBRARY / name for name in ("Makefile", "hll.map", "hll.pc.in", "pc.sh"))]:
        shutil.copy(file, folder)
    text = ROOT / "prebuilt" / "x86_64" / "libhll_c.s"
    subprocess.run(["make", "-s", "-C", folder, "PROVED=%s" % text, "build/libhll.so"], check=True)
    return folder / "build" / "libhll.so"


def main():
    with tempfile.TemporaryDirectory() as name:
        folder = pathlib.Path(name)
        program, one, other = folder / "processors", folder / "one.so", folder / "other.so"
        subprocess.run(["cc", "-O2", "-std=c99", "-I", LIBRARY, ROOT / "bench" / "processors.c", "-ldl", "-o", program], check=True)
        for copy in (one, other):
            shutil.copy(LIBRARY / "build" / "libhll.so", copy)
        (folder / "alone").mkdir()
        for libraries in ([one, V2, other, "-"], [built_alone(folder / "alone"), "-", one, V2]):
            if subprocess.run([program, *libraries]).returncode:
                return 1
            print(flush=True)
    return 0


if __name__ == "__main__":
    sys.exit(main())
