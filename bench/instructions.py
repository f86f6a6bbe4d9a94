#!/usr/bin/env python3
# SPDX-License-Identifier: Apache-2.0
"""Counts the instructions of calls of libhll at lg_k 12, as callgrind counts them.

    bench/instructions.py [--library FOLDER] [--arm]

FOLDER has hll.h and libhll.a, of another build for example; without it bindings/c is taken, which has to be built. Prints
tables for docs/NUMBERS.md, "Calls from C".

With --arm it counts those of some calls on 64-bit ARM, which qemu-aarch64 executes and logs one by one (bench/arm.c). This needs
aarch64-linux-gnu-gcc and `make -C bindings/c TARGET=aarch64-unknown-linux-gnu`, and takes a minute.
"""
import argparse
import concurrent.futures
import os
import pathlib
import re
import subprocess
import sys
import tempfile

ROOT = pathlib.Path(__file__).resolve().parent.parent

REGISTERS = ("8", "6", "4")
SETS = ("ascending", "placed", "updatable")
BYTES = ("4B", "8B", "16B", "32B", "64B")

# a name, the call, and by how much its instructions are divided
CALLS = [
    ("union of 1,000 images, each", "union", 1),
    ("`hll_image_check`", "check", 1),
    ("`hll_image_convert` to the same width", "convert", 1),
    ("the same, where it sets the fields", "fill", 1),
    ("`hll_image_merge` of two, which sets the fields", "merge", 1),
    ("`hll_image_fold` to lg_k 10", "fold", 1),
    ("`hll_image_set_estimator_fields`", "set_fields", 1),
    ("`hll_image_info`", "info", 1),
    ("`hll_estimate`", "estimate", 1),
    ("`hll_images_agree`, of the same bytes", "agree", 1),
    ("the same, where one has no fields", "agree_cleared", 1),
    ("`hll_image_add` of a value that is held", "add_held", 1),
    ("`hll_image_add` of a value that raises a register", "add_raising", 1),
    ("`hll_image_add` of 100 values", "add_100", 1),
    ("`hll_image_add` of 1,000 values, a value", "add_1000", 1000),
    ("`hll_registers_merge`", "registers_merge", 1),
]

SET_CALLS = [
    ("union into registers, each", "union", 1),
    ("`hll_image_merge` of two", "merge", 1),
    ("`hll_image_convert`", "convert", 1),
    ("`hll_image_fold` to lg_k 10", "fold", 1),
    ("`hll_image_set_estimator_fields`", "set_fields", 1),
    ("`hll_image_add_coupon`", "add_coupon", 1),
    ("`hll_image_info`", "info", 1),
    ("`hll_estimate`", "estimate", 1),
    ("`hll_images_agree`, of the same bytes", "agree", 1),
    ("`hll_image_add` of a value that is held", "add_held", 1),
    ("`hll_image_add` of 100 values", "add_100", 1),
    ("`hll_image_add` of 1,000 values, a value", "add_1000", 1000),
]

VALUE_CALLS = [
    ("`hll_coupons`, a value", "coupons", 1000),
    ("`hll_registers_add`, a value", "registers_add", 1000),
]


def built(folder, library):
    """The program of calls.c, in a folder."""
    program = folder / "calls"
    archive = library / "libhll.a" if (library / "libhll.a").exists() else library / "build" / "libhll.a"
    subprocess.run(["cc", "-O2", "-std=c99", "-I", library, ROOT / "bench" / "calls.c", archive, "-lm", "-o", program], check=True)
    return program


ARM_CALLS = [
    ("`hll_image_check`", "check", 1),
    ("`hll_images_unionv` of one image", "union1", 1),
    ("of eleven images", "union", 1),
    ("`hll_image_convert` to the same width", "convert", 1),
    ("`hll_registers_merge`", "merge", 1),
    ("`hll_estimate`", "estimate", 1),
]


def built_for_arm(folder, library):
    """The program of arm.c for 64-bit ARM, in a folder."""
    program = folder / "arm"
    archive = library / "build" / "aarch64-unknown-linux-gnu" / "libhll.a"
    subprocess.run(["aarch64-linux-gnu-gcc", "-static", "-O2", "-std=c99", "-I", library, ROOT / "bench" / "arm.c", archive, "-lm", "-o", program], check=True)
    return program


def executed(program, call, given, rounds):
    """How many instructions the emulator executes. With these options it logs a line for each."""
    emulator = "qemu-aarch64 -singlestep -d exec,nochain \"$@\" 2>&1 >/dev/null | grep -c ^Trace"
    done = subprocess.run(["sh", "-c", emulator, "sh", program, call, given, str(rounds)], stdout=subprocess.PIPE, text=True, check=True)
    return int(done.stdout)


def collected(program, call, given, rounds):
    """How many instructions the program executes for so many rounds of a call."""
    command = ["valgrind", "--tool=callgrind", "--callgrind-out-file=/dev/null", program, call, given, str(rounds)]
    done = subprocess.run(command, stderr=subprocess.PIPE, text=True, check=True)
    return int(re.search(r"Collected : (\d+)", done.stderr)[1])


def count(program, call, given, divisor):
    """How many instructions one call takes, divided: the rest of the program is the same for each number of rounds."""
    if program.name == "arm":
        return (executed(program, call, given, 3) - executed(program, call, given, 1)) / 2
    few, many = (1000, 3000) if divisor == 1 else (10, 30)
    more = collected(program, call, given, many) - collected(program, call, given, few)
    return more / (many - few) / divisor


def table(executor, program, first, inputs, calls):
    """The lines of a table, a row for each call and a column for each input."""
    found = {(call, given): executor.submit(count, program, call, given, divisor) for _, call, divisor in calls for given in inputs}
    yield "| %s |" % " | ".join([first, *inputs])
    yield "|%s" % ("---|" * (len(inputs) + 1))
    for name, call, _ in calls:
        yield "| %s | %s |" % (name, " | ".join("%s" % format(round(found[call, given].result()), ",") for given in inputs))


def main():
    parser = argparse.ArgumentParser(description=__doc__.splitlines()[0])
    parser.add_argument("--library", type=pathlib.Path, metavar="FOLDER", default=ROOT / "bindings" / "c")
    parser.add_argument("--arm", action="store_true")
    options = parser.parse_args()
    with tempfile.TemporaryDirectory() as folder, concurrent.futures.ThreadPoolExecutor(os.cpu_count()) as executor:
        if options.arm:
            program = built_for_arm(pathlib.Path(folder), options.library)
            print("\n".join(table(executor, program, "registers, bits", REGISTERS, ARM_CALLS)))
            return 0
        program = built(pathlib.Path(folder), options.library)
        tables = [
            table(executor, program, "registers, bits", REGISTERS, CALLS),
            table(executor, program, "sets of 20", SETS, SET_CALLS),
            table(executor, program, "bytes of a value", BYTES, VALUE_CALLS),
        ]
        for lines in tables:
            print("\n".join(lines) + "\n", flush=True)
    return 0


if __name__ == "__main__":
    sys.exit(main())
