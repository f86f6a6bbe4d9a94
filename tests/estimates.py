#!/usr/bin/env python3
# SPDX-License-Identifier: Apache-2.0
"""Compares the rows of crates/hll_arrays_tests/src/estimates.rt with estimates by decimals of a hundred digits, and doubles with
Python's own division, which rounds once, ties to even (docs/NUMBERS.md, "Estimates").

    tests/estimates.py          prints the rows as they should be
    tests/estimates.py check    compares them with that file, and prints 'N passed, M failed'

Registers of 63 are weighed as 2^-63: τ is left out.
"""
import pathlib
import re
import struct
import sys
from decimal import Decimal, getcontext

ROWS = pathlib.Path(__file__).resolve().parent.parent / "crates" / "hll_arrays_tests" / "src" / "estimates.rt"
HEAD = "const %s: [%s; %d] = ["
# lg_k, how many registers are 0, the value of the others, and that of the last one
FILLED = [
    *((4, zeros, value, last) for zeros, value, last in ((15, 1, 1), (15, 1, 63), (8, 1, 2), (1, 1, 1), (1, 63, 63), (0, 1, 1), (0, 30, 31), (0, 63, 62))),
    *((12, zeros, value, last) for zeros, value, last in ((4095, 1, 1), (4094, 2, 1), (2048, 1, 5), (1, 10, 20), (0, 1, 1), (0, 40, 3), (0, 63, 1))),
    *((21, zeros, value, last) for zeros, value, last in ((2097151, 1, 1), (2097151, 63, 63), (1048576, 1, 2), (1, 5, 6), (0, 1, 1), (0, 20, 63), (0, 63, 62))),
]
# lg_k, and what is added to registers that are scattered
SCATTERED = [(lg_k, least) for lg_k in (4, 7, 12, 16, 21) for least in (0, 1, 20, 31)]
# estimates in units of 2^-32
DOUBLES = [0, 1, 3, 2**32, 2**52 + 1, 2**53 - 1, 2**53, 2**53 + 1, 2**53 + 2, 2**53 + 3, 2**54 - 1, 2**54 + 1, 2**54 + 2, 2**54 + 3, 2**54 + 6,
           2**55 - 2, 2**55 - 3, 2**84 + 2**31, 2**84 + 3 * 2**31, 2**84 + 2**31 - 1, 2**84 + 2**31 + 1, 2**118 - 1, 2**127, 2**128 - 2**74, 2**128 - 2**74 - 1, 2**128 - 1]


def filled(lg_k, zeros, value, last):
    return [0] * zeros + [value] * ((1 << lg_k) - zeros - 1) + [last]


def scattered(lg_k, least):
    """Registers as of a few values for each: the leading zeros of numbers that are all over the 32 bits."""
    return [least + 32 - (index * 0x9E3779B9 % 2**32).bit_length() for index in range(1 << lg_k)]


def estimate_of(registers):
    """The estimate in units of 2^-32, rounded down."""
    m = Decimal(len(registers))
    x = registers.count(0) / m
    sigma, power, weight = x, x * x, Decimal(1)
    while weight * power > Decimal(10) ** -90:
        sigma, power, weight = sigma + weight * power, power * power, weight + weight
    z = m * sigma + Decimal(sum(1 << (63 - value) for value in registers if value)) / 2**63
    e = (50 + 58 * (1 - x) ** 2) / Decimal(100)
    estimate = m * m / (2 * Decimal(2).ln() * z * (1 + e / m))
    return int(max(estimate, m - registers.count(0)) * 2**32)


def bits_of(units):
    return struct.unpack("<Q", struct.pack("<d", units / 2**32))[0]


def tables():
    """Each table: its head, and its rows as text."""
    yield "FILLED", "(u8, usize, u8, u8, u128)", ["(%d, %d, %d, %d, %d)" % (*it, estimate_of(filled(*it))) for it in FILLED]
    yield "SCATTERED", "(u8, u8, u128)", ["(%d, %d, %d)" % (*it, estimate_of(scattered(*it))) for it in SCATTERED]
    yield "DOUBLES", "(u128, u64)", ["(%d, 0x%016x)" % (it, bits_of(it)) for it in DOUBLES]


def main(words):
    getcontext().prec = 100
    if not words:
        for name, of, rows in tables():
            print("\n".join([HEAD % (name, of, len(rows)), *("    %s," % row for row in rows), "];"]))
        return 0
    if words != ["check"]:
        print(__doc__, file=sys.stderr)
        return 2
    passed = failed = 0
    text = ROWS.read_text()
    for name, of, rows in tables():
        table = re.search(re.escape(HEAD % (name, of, len(rows))) + r"\n(.*?)\n\];", text, re.S)
        found = re.findall(r"\([^()]*\)", table[1]) if table else []
        wrong = [row for row in rows if row not in found] + [row for row in found if row not in rows]
        for row in wrong:
            print("FAIL: %s: %s" % (name, row))
        passed, failed = passed + len(rows), failed + len(wrong) + (not table)
    print("%d passed, %d failed" % (passed, failed))
    return int(failed != 0)


if __name__ == "__main__":
    sys.exit(main(sys.argv[1:]))
