#!/usr/bin/env python3
# SPDX-License-Identifier: Apache-2.0
"""Makes the first inputs of the fuzz target from the test vectors and the walks: corpus.py DIRECTORY.

Each plan is one input: its images, its coupons added to a state, to a counter and to registers, and its unions. More inputs are
sequences of calls on states, on counters and of C++ with such images, by a seeded generator. A file is named by the checksum of its bytes, as
libFuzzer names files.
"""
import hashlib
import pathlib
import random
import re
import struct
import sys

sys.dont_write_bytecode = True
sys.path.insert(0, str(pathlib.Path(__file__).resolve().parent.parent))
from rows import rows_in, texts

IMAGE, UNION, CHAIN, REGISTERS, STATE, COUNTER, CPP = 0, 2, 3, 4, 5, 7, 16
IMAGES = 8


def record(kind, numbers, content):
    """One call: its kind, three numbers, and bytes."""
    return bytes([kind, *numbers]) + struct.pack("<H", len(content)) + content


def of_coupons(coupons):
    """Coupons that are added to a state, to a counter and to registers."""
    content = struct.pack("<%dI" % len(coupons), *coupons)
    calls = record(STATE, (2, 0, 2), content) + record(STATE, (20, 2, 0), b"")
    calls += record(COUNTER, (6, 2, 0), content) + record(COUNTER, (18, 0, 0), b"")
    return calls + record(REGISTERS, (2, 0, 2), content) + record(REGISTERS, (12, 1, 0), b"")


def of_union(count, bound, width):
    """A union of the last images, also by a state and by a counter."""
    places = bytes(reversed([(IMAGES - 1 - place) % IMAGES for place in range(min(count, IMAGES))]))
    calls = record(UNION, (bound, (width - 4) // 2, 3), places)
    calls += record(CHAIN, (bound - 4, (width - 4) // 2, 0), places)
    for place in places:
        calls += record(STATE, (8, bound, place), b"") + record(COUNTER, (8, 0, place), b"")
    return calls


def numbers_of(words):
    """The numbers of a line, if each word is a small one."""
    return [int(word) for word in words] if all(word.isdigit() and len(word) <= 8 for word in words) else []


def of_line(line, coupons):
    """The calls of a line. Coupons are kept for the end."""
    first, *words = line.split(b" ")
    try:
        content = bytes.fromhex(words[0].decode()) if first == b"image" and words else b""
    except ValueError:
        content = b""
    numbers = numbers_of(words)
    if first == b"image" and len(content) < 2**16:
        return record(IMAGE, (4, 8, 9), content)
    if first == b"coupon" and len(numbers) == 2 and numbers[0] < 2**26 and numbers[1] < 64:
        coupons.append(numbers[1] << 26 | numbers[0])
    if first == b"union" and len(numbers) == 3 and 4 <= numbers[1] <= 21 and numbers[2] in (4, 6, 8):
        return of_union(*numbers)
    if first == b"new" and len(numbers) == 2 and numbers[0] <= 21:
        return record(STATE, (0, numbers[0], 40), b"") + record(COUNTER, (0, numbers[0], 0), b"")
    return b""


def input_of(plan):
    coupons = []
    calls = b"".join(of_line(line, coupons) for line in plan.split(b"\n"))
    return calls + of_coupons(coupons) if coupons else calls


def some_values(chance):
    """Two bytes, which stand for a number of values: few, more than are in the struct of a counter, or many."""
    number = chance.choice((chance.randrange(20), chance.randrange(16, 60), chance.randrange(300, 1200)))
    return bytes([number % 4, number // 4]) if number < 1024 else bytes([number - 1020, 255])


def sequence(chance, kind, images, calls):
    """Calls on two states, or on two counters, of one lg_k or of several, some with allocations that fail."""
    lg_ks = [chance.choice((4, 8, 10, 12, 13, 14)) for _ in range(2)] if chance.randrange(2) else [chance.randrange(10, 15)] * 2
    made = b"".join(record(IMAGE, (4, 8, 9), image) for image in images)
    for place, lg_k in enumerate(lg_ks):
        made += record(kind, (place, lg_k, 40), b"")
    for _ in range(chance.randrange(3, 14)):
        number = chance.randrange(2, 2 * calls)
        failing = chance.choice((0, 0, 0, 0, 5, 6, 7)) << 5
        made += record(kind | failing, (number, chance.randrange(256), chance.randrange(256)), some_values(chance))
    return made


def sequences(plans):
    chance = random.Random(1)
    found = {digits for plan in plans for digits in re.findall(rb"^image ((?:[0-9a-f]{2}){8,2000})$", plan, re.M)}
    images = [bytes.fromhex(digits.decode()) for digits in sorted(found)]
    return {sequence(chance, kind, chance.sample(images, 3), calls) for kind, calls in ((STATE, 13), (COUNTER, 15), (CPP, 32)) for _ in range(500)}


def main():
    place = pathlib.Path(sys.argv[1])
    place.mkdir(parents=True, exist_ok=True)
    plans = [plan for path in texts() for plan, _, _ in rows_in(path)]
    inputs = {input_of(plan) for plan in plans} - {b""} | sequences(plans)
    for content in inputs:
        (place / hashlib.sha1(content).hexdigest()).write_bytes(content)
    print("%d passed, %d failed" % (len(inputs), not inputs))
    return not inputs


if __name__ == "__main__":
    sys.exit(main())
