#!/usr/bin/env python3
# SPDX-License-Identifier: Apache-2.0
"""Measures the program on whole plans, compared with the least work on their text: time, instructions and memory.

The baseline is the small program baseline.c: it reads the same text in pieces, finds its lines, decodes the words of `image`
lines into one buffer, and reads the numbers of other lines. Each plan is written to a temporary file, and program and baseline
run on it in turn. Printed are the medians of their processor times, the median of the ratios of the pairs, the instructions that
callgrind counts on a smaller plan of the same kind (where valgrind is installed) with their ratio, and the least address space
that is enough, the program itself included. What the program prints is compared with a plain model. The random numbers are the
same at each run. Without the program's path it is built if need be. Needs a C compiler.

Targets, as ratios to the baseline.

    20,000 images of lg_k 7                     1.4
    200,000 lists of seven coupons              1.6
    one image of lg_k 21 at 8, 6, 4 bits        1.3, 1.4, 1.6
"""
import argparse
import math
import pathlib
import random
import sys
import tempfile
from dataclasses import dataclass
from typing import Callable

sys.dont_write_bytecode = True
sys.path.insert(0, str(pathlib.Path(__file__).resolve().parent.parent / "tests"))
from built import built_program  # noqa: E402
from plain_images import coupon_line, image_line, image_of, list_image, set_image  # noqa: E402
from shared import (built_baseline, check_printed, has_callgrind, instructions, least_space, machine, medians, plan_file,  # noqa: E402
                    run)

SEED = 9001
PAIRS = 11
DIFFERENT = 40
FEW_COUPONS = [3 << 26 | 5, 1 << 26, 64 * 2**26 - 1, 42 << 26 | 12345, 7 << 26 | 7, 10 << 26 | 1000, 21 << 26 | 99999]


@dataclass(frozen=True)
class Row:
    """A kind of plan: `write` puts one of so many items into a file, and gives the image that is printed for it."""
    name: str
    count: int
    fewer: int
    write: Callable


# ---- plans


def random_value(numbers):
    """A value of 1 to 63, each half as likely as the one before."""
    return 63 - numbers.getrandbits(62).bit_length()


def random_coupon(numbers):
    return random_value(numbers) << 26 | numbers.getrandbits(26)


def random_registers(numbers, lg_k):
    """Registers as eight coupons for each of them leave them."""
    def value():
        return min(max(math.ceil(3 - math.log2(-math.log(1 - numbers.random()))), 0), 63)

    return bytes(value() for _ in range(1 << lg_k))


def raise_register(registers, coupon):
    slot = coupon % len(registers)
    registers[slot] = max(registers[slot], coupon >> 26)


def registers_in_one_union(lg_k, width):
    """Images of registers of one width."""
    def write(file, count):
        numbers = random.Random(SEED)
        children = [random_registers(numbers, lg_k) for _ in range(min(count, DIFFERENT))]
        lines = [image_line(image_of(lg_k, width, registers)) for registers in children]
        file.writelines(lines[number % len(lines)] for number in range(count))
        file.write("union %d %d 8\n" % (count, lg_k))
        return image_of(lg_k, 8, bytes(max(values) for values in zip(*children)))

    return write


def lists_in_one_union(file, count):
    """Images of lists of seven coupons, which differ."""
    registers = bytearray(1 << 10)
    for number in range(count):
        coupons = [(number % 63 + 1) << 26 | (8 * number + place) % (1 << 26) for place in range(7)]
        for coupon in coupons:
            raise_register(registers, coupon)
        file.write(image_line(list_image(10, coupons)))
    file.write("union %d 10 8\n" % count)
    return image_of(10, 8, bytes(registers))


def coupons_into_registers(file, count):
    """Random coupons for one sketch that soon has registers."""
    numbers = random.Random(SEED)
    registers = bytearray(1 << 12)
    file.write("new 12 8\n")
    for _ in range(count):
        coupon = random_coupon(numbers)
        raise_register(registers, coupon)
        file.write(coupon_line(coupon))
    return image_of(12, 8, bytes(registers))


def coupons_into_a_set(file, count):
    """Random coupons for one sketch that stays a set."""
    numbers = random.Random(SEED)
    coupons = [random_coupon(numbers) for _ in range(count)]
    file.write("new 21 8\n")
    file.writelines(map(coupon_line, coupons))
    kept = set(coupons)
    lg_size = next(size for size in range(5, 19) if 4 * len(kept) <= 3 << size)
    return set_image(21, lg_size, kept)


def few_coupons(file, count):
    """The same few coupons in turn for one sketch."""
    file.write("new 10 8\n")
    file.writelines(coupon_line(FEW_COUPONS[number % len(FEW_COUPONS)]) for number in range(count))
    return list_image(10, FEW_COUPONS)


ROWS = [
    Row("2,000 images of lg_k 12 at 8 bits, one union", 2000, 40, registers_in_one_union(12, 8)),
    Row("2,000 images of lg_k 12 at 6 bits, one union", 2000, 40, registers_in_one_union(12, 6)),
    Row("2,000 images of lg_k 12 at 4 bits, one union", 2000, 40, registers_in_one_union(12, 4)),
    Row("20,000 images of lg_k 7 at 8 bits, one union", 20000, 2000, registers_in_one_union(7, 8)),
    Row("200,000 images of lists of seven, one union", 200000, 20000, lists_in_one_union),
    Row("one image of lg_k 21 at 8 bits", 1, 1, registers_in_one_union(21, 8)),
    Row("one image of lg_k 21 at 6 bits", 1, 1, registers_in_one_union(21, 6)),
    Row("one image of lg_k 21 at 4 bits", 1, 1, registers_in_one_union(21, 4)),
    Row("1,000,000 random coupon lines", 1000000, 100000, coupons_into_registers),
    Row("10,000,000 random coupon lines", 10000000, 100000, coupons_into_registers),
    Row("1,000,000 lines of seven coupons in turn", 1000000, 100000, few_coupons),
    Row("190,000 random coupon lines into a set", 190000, 190000, coupons_into_a_set),
]


# ---- rows


def timed_pair(name, programs, path, image):
    """The seconds of program and baseline."""
    (printed, seconds), (_, least) = [run(program, path) for program in programs]
    check_printed(name, printed, image)
    return seconds, least


def counted(row, programs):
    """The instructions of program and baseline on a smaller plan in millions, and their ratio."""
    with plan_file() as file:
        row.write(file, row.fewer)
        file.flush()
        ours, least = [instructions(program, file.name) for program in programs]
    return "%9.1f %9.1f %6.2f" % (ours / 1e6, least / 1e6, ours / least)


def measure(row, programs, pairs):
    with plan_file() as file:
        image = row.write(file, row.count)
        file.flush()
        ours, least, ratio = medians([timed_pair(row.name, programs, file.name, image) for _ in range(pairs)])
        space = least_space(programs[0], file.name)
    count = counted(row, programs) if has_callgrind() else "%9s %9s %6s" % ("-", "-", "-")
    print("%-46s %8.1f %8.1f %6.2f %s %9d" % (row.name, 1000 * ours, 1000 * least, ratio, count, space), flush=True)


def arguments():
    parser = argparse.ArgumentParser(description="Measures the program on whole plans.")
    parser.add_argument("program", nargs="?", type=pathlib.Path, help="the program hll_merge")
    parser.add_argument("--only", default="", metavar="WORDS", help="the rows whose names have these words")
    parser.add_argument("--pairs", type=int, default=PAIRS, help="how often program and baseline run")
    return parser.parse_args()


def main():
    given = arguments()
    print(machine())
    print("%-46s %8s %8s %6s %9s %9s %6s %9s" % ("plan", "ms", "baseline", "ratio", "mega-ins.", "baseline", "ratio", "kilobytes"))
    with tempfile.TemporaryDirectory() as folder:
        programs = [(given.program or built_program()).resolve(), built_baseline(folder)]
        for row in ROWS:
            if given.only in row.name:
                measure(row, programs, given.pairs)


if __name__ == "__main__":
    main()
