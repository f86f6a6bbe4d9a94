#!/usr/bin/env python3
# SPDX-License-Identifier: Apache-2.0
"""Runs the program on plans that take the most time and memory for their size.

The paths of a table are part of the format (docs/FORMAT.md, "Probing"), so whoever writes an image can choose coupons
that all search the same places. Tables are filled to three quarters, the most that updates leave. Each row is a plan: one
image, and lines after it that search its table again. Printed are the seconds of processor time of both plans and their
ratio; what the program prints is compared with the image that it has to be.

A second table has the seconds and the least address space, the program itself included, of plans that make much of few
bytes. Without the program's path it is built if need be.
"""
import argparse
import pathlib
import statistics
import sys
from dataclasses import dataclass
from typing import Callable

sys.dont_write_bytecode = True
sys.path.insert(0, str(pathlib.Path(__file__).resolve().parent.parent / "tests"))
from built import built_program  # noqa: E402
from long_searches import (KINDS, SLOTS, path_coupons, path_slots, random_coupons, random_slots, registers_with,  # noqa: E402
                           stride_coupons, unsorted_set)
from plain_images import coupon_line, image_line, image_of, set_image  # noqa: E402
from shared import check_printed, least_space, machine, plan_file, run  # noqa: E402

LINES = 4


@dataclass(frozen=True)
class Row:
    """Two plans: `text` gives the one over coupons on one path or over random ones, and the image that is printed."""
    name: str
    text: Callable


# ---- plans


def set_plan(lg_size, is_path, more=""):
    """A set in a table of a size, and lines that leave it as it is."""
    coupons = path_coupons(lg_size) if is_path else random_coupons(lg_size)
    image = set_image(lg_size + 3, lg_size, coupons)
    return image_line(image) + more, image


def strides_plan(lg_size, is_path):
    """A set of all places but one, in an order of its own."""
    coupons = stride_coupons(lg_size) if is_path else random_coupons(lg_size, (1 << lg_size) - 1)
    return image_line(unsorted_set(lg_size, coupons)), set_image(lg_size + 3, lg_size, coupons)


def folded_plan(lg_size, is_path):
    """A set of a greater lg_k than its table needs, and lines that fold it down to that."""
    coupons = path_coupons(lg_size) if is_path else random_coupons(lg_size)
    text = image_line(set_image(lg_size + 5, lg_size, coupons)) + "fold %d\nfold %d\n" % (lg_size + 4, lg_size + 3)
    return text, set_image(lg_size + 3, lg_size, coupons)


def held_plan(lg_size, is_path):
    """A set, and lines of a coupon that it has: on one path, of one that starts first and is placed among the last."""
    coupons = path_coupons(lg_size) if is_path else random_coupons(lg_size)
    image = set_image(lg_size + 3, lg_size, coupons)
    return image_line(image) + 1000 * coupon_line(coupons[KINDS - 2]), image


def joined_plan(lg_size, is_path):
    """A set and the same once more, in one union."""
    text, image = set_plan(lg_size, is_path)
    return text + text + "union 2 %d 8\n" % (lg_size + 3), image


def slots_of(lg_k, is_path):
    return path_slots(lg_k) if is_path else random_slots(lg_k)


def exceptions_plan(lg_k, is_path):
    """Registers of four bits with exceptions."""
    image = image_of(lg_k, 4, registers_with(lg_k, slots_of(lg_k, is_path), 40))
    return image_line(image), image


def lowered_plan(lg_k, is_path):
    """4-bit registers stored with a minimum below the least of them, so reading packs them again."""
    registers = registers_with(lg_k, slots_of(lg_k, is_path), 40, 1)
    return image_line(image_of(lg_k, 4, registers, 0)), image_of(lg_k, 4, registers)


def converted_plan(lg_k, is_path):
    """Registers of eight bits, and lines that convert them to four."""
    registers = registers_with(lg_k, slots_of(lg_k, is_path), 40)
    text = image_line(image_of(lg_k, 8, registers)) + LINES * ("union 1 %d 4\n" % lg_k)
    return text, image_of(lg_k, 4, registers)


def lowered_to(lg_k, is_path):
    """Exceptions at lg_k 21, and a line that folds them to a smaller lg_k."""
    text, _ = exceptions_plan(21, is_path)
    slots = {slot % (1 << lg_k) for slot in slots_of(21, is_path)}
    return text + "union 1 %d 8\n" % lg_k, image_of(lg_k, 8, registers_with(lg_k, slots, 40))


def rising_plan(lg_k, is_path):
    """Registers of four bits, one each at the values from 0 on, and lines that raise the least of them."""
    slots = slots_of(lg_k, is_path)
    registers = registers_with(lg_k, slots, 63, 14)
    low = sorted(set(range(1 << lg_k)) - set(slots))[-LINES:]
    for value, slot in enumerate(low):
        registers[slot] = value
    text = image_line(image_of(lg_k, 4, registers)) + "".join(coupon_line(63 * SLOTS + slot) for slot in low)
    for slot in low:
        registers[slot] = 63
    return text, image_of(lg_k, 4, registers)


def set_row(lg_size):
    return Row("a set of 2^%d places" % lg_size, lambda is_path: set_plan(lg_size, is_path))


def exceptions_row(lg_k):
    return Row("exceptions at lg_k %d" % lg_k, lambda is_path: exceptions_plan(lg_k, is_path))


ROWS = [
    *map(set_row, (9, 11, 13, 16, 17, 18)),
    Row("a set of 2^18 places but one, each stride", lambda is_path: strides_plan(18, is_path)),
    *map(exceptions_row, (12, 14, 16, 18, 20, 21)),
    Row("exceptions at lg_k 21, the minimum too low", lambda is_path: lowered_plan(21, is_path)),
    Row("a set of 2^16 places, 4 lines `fold 19`", lambda is_path: set_plan(16, is_path, LINES * "fold 19\n")),
    Row("a set of 2^16 places, `fold 20`, `fold 19`", lambda is_path: folded_plan(16, is_path)),
    Row("a set of 2^16 places, 1,000 lines `coupon`", lambda is_path: held_plan(16, is_path)),
    Row("a set of 2^16 places twice, `union 2 19 8`", lambda is_path: joined_plan(16, is_path)),
    Row("registers of lg_k 21, 4 lines `union 1 21 4`", lambda is_path: converted_plan(21, is_path)),
    Row("exceptions at lg_k 21, 4 lines `coupon`", lambda is_path: rising_plan(21, is_path)),
    Row("exceptions at lg_k 21, `union 1 4 8`", lambda is_path: lowered_to(4, is_path)),
    Row("exceptions at lg_k 21, `union 1 12 8`", lambda is_path: lowered_to(12, is_path)),
]
EMPTY_SET = image_line(set_image(21, 18, []))


def registers_lines(width, count, unions=1):
    """Lines of so many images of registers of lg_k 21, of their union, and of further unions of that alone."""
    line = image_line(image_of(21, width, registers_with(21, [], 0, 1)))
    return count * line + "union %d 21 8\n" % count + (unions - 1) * "union 1 21 8\n"


SPACES = {
    "one line `new 4 8`": lambda: "new 4 8\n",
    "100,000 lines `new 21 8`": lambda: 100000 * "new 21 8\n" + "union 100000 21 8\n",
    "100 sets of no coupon in 2^18 places": lambda: 100 * EMPTY_SET + "union 100 21 8\n",
    "a comment of 10,000,000 bytes": lambda: "new 4 8\n#" + 9999999 * " " + "\n",
    "one image of lg_k 21 at 8 bits": lambda: registers_lines(8, 1),
    "one image of lg_k 21 at 4 bits": lambda: registers_lines(4, 1),
    "ten images of lg_k 21 at 8 bits": lambda: registers_lines(8, 10),
    "ten images of lg_k 21 at 4 bits": lambda: registers_lines(4, 10),
    "one image of lg_k 21, 1,000 lines `union 1 21 8`": lambda: registers_lines(8, 1, 1000),
}


# ---- rows


def seconds(name, program, text, image, runs):
    """The median of the seconds of some runs."""
    with plan_file() as file:
        file.write(text)
        file.flush()
        times = []
        for _ in range(runs):
            printed, took = run(program, file.name)
            check_printed(name, printed, image)
            times.append(took)
    return statistics.median(times)


def measure(program, row, runs):
    plan, image = row.text(True)
    path = seconds(row.name, program, plan, image, runs)
    usual = seconds(row.name, program, *row.text(False), runs)
    print("%-48s %9d %9.3f %9.3f %8.1f" % (row.name, len(plan), path, usual, path / usual), flush=True)


def measure_space(program, name, text):
    with plan_file() as file:
        file.write(text)
        file.flush()
        _, took = run(program, file.name)
        print("%-48s %9d %9.3f %9d" % (name, len(text), took, least_space(program, file.name)), flush=True)


def arguments():
    parser = argparse.ArgumentParser(description="Runs the program on plans that take the most time and memory.")
    parser.add_argument("program", nargs="?", type=pathlib.Path, help="the program hll_merge")
    parser.add_argument("--only", default="", metavar="WORDS", help="the rows whose names have these words")
    parser.add_argument("--runs", type=int, default=1, help="how often each plan runs")
    return parser.parse_args()


def main():
    given = arguments()
    program = (given.program or built_program()).resolve()
    print(machine())
    print("%-48s %9s %9s %9s %8s" % ("plan", "bytes", "one path", "random", "ratio"))
    for row in ROWS:
        if given.only in row.name:
            measure(program, row, given.runs)
    print("\n%-48s %9s %9s %9s" % ("plan", "bytes", "seconds", "kilobytes"))
    for name, text in SPACES.items():
        if given.only in name:
            measure_space(program, name, text())


if __name__ == "__main__":
    main()
