#!/usr/bin/env python3
# SPDX-License-Identifier: Apache-2.0
"""Compares the estimator fields that the program `hll_estimator_fields` sets with sums of exact fractions.

Random registers of each width become images with random fields. For each the program has to print the same image with the
flag set and the fields replaced: by 0, the sum of 2^-v over the registers v below 32, and the sum over the others, each as
Python packs a float that is exactly that sum. The random numbers are the same at each run. Call it with the number of
images, and with the program's path; without one it is bin/hll_estimator_fields, which is built if need be.
"""
import pathlib
import random
import struct
import subprocess
import sys
from fractions import Fraction

sys.dont_write_bytecode = True
from built import built_filter
from plain_images import OUT_OF_ORDER, image_of

IMAGES = 10000


def registers_of(source):
    """2^4 to 2^9 registers: all alike, uniform, of a band, or as hashes make them."""
    count = 2 ** source.randrange(4, 10)
    kind = source.randrange(4)
    if kind == 0:
        return [source.randrange(64)] * count
    if kind == 1:
        return [source.randrange(64) for _ in range(count)]
    if kind == 2:
        least = source.randrange(60)
        return [source.randrange(least, min(least + 20, 64)) for _ in range(count)]
    return [min(63, 64 - source.getrandbits(63).bit_length()) for _ in range(count)]


def exact_word(numbers):
    """The float that is exactly the sum of 2^-v over the numbers v, as eight bytes."""
    total = sum((Fraction(1, 2**v) for v in numbers), Fraction(0))
    assert Fraction(float(total)) == total
    return struct.pack("<d", float(total))


def words_of_registers(registers):
    low = exact_word(v for v in registers if v < 32)
    high = exact_word(v for v in registers if v >= 32)
    return struct.pack("<d", 0.0) + low + high


def with_words(image, words, flag):
    """The image with these estimator fields, and with or without the flag."""
    flags = image[5] & ~OUT_OF_ORDER | (OUT_OF_ORDER if flag else 0)
    return image[:5] + bytes([flags]) + image[6:8] + words + image[32:]


def pair(source):
    """An image with random estimator fields, and what it has to become."""
    registers = registers_of(source)
    image = image_of(len(registers).bit_length() - 1, source.choice((4, 6, 8)), registers)
    given = with_words(image, source.randbytes(24), source.random() < 0.5)
    return given, with_words(image, words_of_registers(registers), True)


def main():
    count = int(sys.argv[1]) if len(sys.argv) > 1 else IMAGES
    program = pathlib.Path(sys.argv[2]) if len(sys.argv) > 2 else built_filter()
    source = random.Random(1)
    pairs = [pair(source) for _ in range(count)]
    lines = "".join("%s\n" % given.hex() for given, _ in pairs)
    done = subprocess.run([program], input=lines, stdout=subprocess.PIPE, text=True, check=True)
    printed = done.stdout.splitlines()
    if len(printed) != count:
        sys.exit("%d lines for %d images" % (len(printed), count))
    for number, ((given, wanted), line) in enumerate(zip(pairs, printed), 1):
        if line != wanted.hex():
            sys.exit("line %d: %s became %s, not %s" % (number, given.hex(), line, wanted.hex()))
    print("%d images, none differs" % count)


if __name__ == "__main__":
    main()
