#!/usr/bin/env python3
# SPDX-License-Identifier: Apache-2.0
"""Times calls of libhll at lg_k 12 compared with plain loops in C, and with the Rust crate `datasketches`.

    bench/compare.py [--crate FOLDER]

FOLDER has the source of the crate, version 0.6.0, as its registry gives it; without it the rows of the crate are left out.
Needs bindings/c built, a C compiler, and for the crate `cargo`. Prints tables for docs/NUMBERS.md, "Next to other code".

Targets, as ratios to the crate's time. A target for one width names it.

    registers of 20,000 values
      hll_image_merge of two                                1
      hll_image_convert to the same width                   1.2 (8 bits), 1.5 (6 bits), 1.3 (4 bits)
      hll_images_agree                                      1
      hll_image_add of 1 value; of 100; of 1,000            3; 1; 1
    sets of 20, in table order or updatable
      hll_image_merge of two                                0.9
      hll_image_convert                                     1.2
      hll_images_agree                                      1
      hll_image_add of 1 value; of 100; of 1,000            1.3; 1; 1
    states
      a new state, also with 1 to 300 values                1.2
      100,000 values                                        0.7
      a join of registers; of sets of 20                    0.3; 1

Targets, as ratios to the time of the loops.

      hll_coupons                                           1.2
      a union, each image, next to AVX2 by hand, checked    1.0 (8 bits), 1.1 (6 bits), 1.5 (4 bits)
      a union, each image of 4 bits, next to plain C        1.0
      hll_image_add of 1,000 values to registers            1.35
      hll_estimate, next to hll_image_check                 10

Target, as a ratio to the call's own time before weights were summed by windows.

      hll_image_merge of two images of 8 bits               0.6
"""
import argparse
import pathlib
import subprocess
import sys
import tempfile

ROOT = pathlib.Path(__file__).resolve().parent.parent
LIBRARY = ROOT / "bindings" / "c"

MANIFEST = """[package]
name = "beside"
version = "0.0.0"
edition = "2024"

[[bin]]
name = "beside"
path = "%s"

[dependencies]
datasketches = { path = "%s", features = ["hll"] }
"""


def run(*words, folder=None):
    subprocess.run([str(word) for word in words], cwd=folder, check=True)


def beside_loops(folder):
    program = folder / "beside-loops"
    run("cc", "-O3", "-std=c99", "-I", LIBRARY, ROOT / "bench" / "compare.c", LIBRARY / "build" / "libhll.a", "-lm", "-o", program)
    run(program)


def beside_crate(folder, crate):
    (folder / "Cargo.toml").write_text(MANIFEST % (ROOT / "bench" / "compare.rs", crate.resolve()))
    (folder / ".cargo").mkdir()
    (folder / ".cargo" / "config.toml").write_text('[build]\nrustflags = ["-L", "%s"]\n' % (LIBRARY / "build"))
    run("cargo", "build", "--release", "--quiet", folder=folder)
    run(folder / "target" / "release" / "beside")


def main():
    parser = argparse.ArgumentParser(description=__doc__.splitlines()[0])
    parser.add_argument("--crate", type=pathlib.Path, metavar="FOLDER")
    options = parser.parse_args()
    with tempfile.TemporaryDirectory() as folder:
        beside_loops(pathlib.Path(folder))
        if options.crate:
            print()
            beside_crate(pathlib.Path(folder), options.crate)
    return 0


if __name__ == "__main__":
    sys.exit(main())
