#!/usr/bin/env python3
# SPDX-License-Identifier: Apache-2.0
"""Exchanges images with the Rust crate `datasketches`, of which this library is a port, in both directions.

    tests/exchange.py FOLDER

FOLDER has the source of the crate, version 0.6.0, as its registry gives it. Both sides make sketches of the same values, for
each `lg_k` and width: 64-bit integers, byte strings, and byte strings whose coupons were chosen, so registers have all values up
to 63. Each side reads what the other wrote, and both merge images of both sides, in both orders. Registers have to be those that
plain Python makes of the coupons. Estimates of the crate are not compared: those of this library have to be the same for its own
image and the crate's, and finite unless all registers are 63. All images are correct, so none has a fault of docs/FAULTS.md.
docs/OTHER_LIBRARIES.md has the outcome.

Where the hash in FOLDER is a stand-in, the values show nothing about the crate's hash. `./check` doesn't run this test, as the
crate is not on each machine. Needs `cargo`, bindings/c built, and the program hll_merge, of which HLL_MERGE may name another
copy. The last line is 'N passed, M failed'.
"""
import array
import collections
import dataclasses
import functools
import math
import os
import pathlib
import random
import struct
import subprocess
import sys
import tempfile

ROOT = pathlib.Path(__file__).resolve().parent.parent
sys.dont_write_bytecode = True
sys.path.insert(0, str(ROOT / "bindings" / "python"))
from built import built_program  # noqa: E402
from hll_sketches import Registers, Sketch, fault_of, union_of  # noqa: E402
from plain_hash import MASK, SEED, coupon_of, rotated  # noqa: E402

WIDTHS = (4, 6, 8)
LG_KS = range(4, 22)
CHOSEN_LG_KS = range(4, 15)     # of sketches of chosen coupons, which are added one by one
MOST_VALUES = 1 << 18           # of a sketch; at lg_k 21 this is more than a set has
UNIONS = 1000
MOST_MERGED = 1 << 12           # coupons of a sketch that is merged
MANIFEST = """[package]
name = "exchange"
version = "0.0.0"
edition = "2024"

[[bin]]
name = "exchange"
path = "%s"

[dependencies]
datasketches = { path = "%s", features = ["hll"] }
"""


class Crate:
    """The crate, as a program that handles one request at a time."""

    def __init__(self, folder, crate):
        (folder / "Cargo.toml").write_text(MANIFEST % (ROOT / "tests" / "exchange.rs", crate.resolve()))
        subprocess.run(["cargo", "build", "--release", "--quiet"], cwd=folder, check=True)
        program = folder / "target" / "release" / "exchange"
        self.process = subprocess.Popen([program], stdin=subprocess.PIPE, stdout=subprocess.PIPE, text=True)

    def ask(self, *words):
        """Returns the image that the crate makes."""
        print(*words, file=self.process.stdin, flush=True)
        line = self.process.stdout.readline().strip()
        if line.startswith("error") or not line:
            raise ValueError(f"{words[0]}: {line}")
        return bytes.fromhex(line)


# ---- chosen coupons


def unmixed(x):
    """Returns the number of which `mixed` of plain_hash.py returns x."""
    x = (x ^ x >> 33) * pow(0xc4ceb9fe1a85ec53, -1, 2**64) & MASK
    x = (x ^ x >> 33) * pow(0xff51afd7ed558ccd, -1, 2**64) & MASK
    return x ^ x >> 33


def value_of_hash(low, high):
    """Returns the 16 bytes that have this hash: the steps of `hash_of` of plain_hash.py, backwards."""
    c1, c2, fifth = (pow(number, -1, 2**64) for number in (0x87c37b91114253d5, 0x4cf5ad432745937f, 5))
    second = high - low & MASK
    first, second = unmixed(low - second & MASK), unmixed(second)
    second = second - first & MASK
    first, second = first - second & MASK ^ 16, second ^ 16
    k1 = rotated(((first - 0x52dce729) * fifth & MASK) - SEED & MASK, 64 - 27) ^ SEED
    k2 = rotated(((second - 0x38495ab5) * fifth & MASK) - first & MASK, 64 - 31) ^ SEED
    return struct.pack("<QQ", rotated(k1 * c2 & MASK, 64 - 31) * c1 & MASK, rotated(k2 * c1 & MASK, 64 - 33) * c2 & MASK)


def value_of_coupon(chosen, coupon):
    """Returns 16 bytes that have this coupon."""
    top = 1 << 64 - (coupon >> 26)
    value = value_of_hash(chosen.getrandbits(38) << 26 | coupon % 2**26, top | chosen.randrange(top))
    assert coupon_of(value) == coupon
    return value


def scattered(chosen, count):
    """Returns different coupons with slots and values of any size."""
    return [chosen.randint(1, 63) << 26 | slot for slot in chosen.sample(range(2**26), count)]


def filled(chosen, lg_k, least, most):
    """Returns a coupon for each register, with values between these, and a few of any size, in any order."""
    slots = [chosen.getrandbits(26 - lg_k) << lg_k | slot for slot in range(1 << lg_k)]
    coupons = [chosen.randint(least, most) << 26 | slot for slot in slots]
    coupons += scattered(chosen, 4)
    chosen.shuffle(coupons)
    return coupons


# ---- registers by plain rules


def registers_of(lg_k, coupons):
    """Returns the maximum value of the coupons in each slot."""
    registers = bytearray(1 << lg_k)
    for coupon in coupons:
        slot, value = coupon % (1 << lg_k), coupon >> 26
        if value > registers[slot]:
            registers[slot] = value
    return bytes(registers)


def registers_of_8_bits(image):
    """Returns the registers of a compact 8-bit image, without this library."""
    if stage_of(image) == "registers":
        return image[40:]
    start = 8 if stage_of(image) == "list" else 12
    return registers_of(image[3], (coupon for coupon, in struct.iter_unpack("<I", image[start:])))


def stage_of(image):
    return ("list", "set", "registers")[image[7] & 3]


# ---- sketches


def merged_by_program(image):
    """Returns the same sketch as the program hll_merge writes it, with estimator fields of zero."""
    plan = f"image {image.hex()}\nunion 1 {image[3]} {WIDTHS[image[7] >> 2 & 3]}\n"
    program = os.environ.get("HLL_MERGE") or built_program()
    return bytes.fromhex(subprocess.run([program], input=plan, stdout=subprocess.PIPE, text=True, check=True).stdout)


@dataclasses.dataclass
class Case:
    """A sketch that both sides make: its coupons, this library's sketch, and the crate's image."""

    coupons: list
    ours: Sketch
    theirs: bytes

    @functools.cached_property
    def registers(self):
        return registers_of(self.ours.lg_k, self.coupons)

    @functools.cached_property
    def images(self):
        """The images that this library writes: at each width, and with estimator fields of zero."""
        images = {self.ours.convert(width).to_bytes() for width in WIDTHS}
        images |= {self.ours.to_bytes(), self.ours.to_bytes(plain=True), merged_by_program(self.ours.to_bytes())}
        return sorted(images)


def full_set(lg_k):
    """Returns how many coupons a set has at most, or from which size on small sketches have registers."""
    return 3 << lg_k - 5 if lg_k >= 8 else 8


@functools.cache
def coupons_of_integers():
    return [coupon_of(number.to_bytes(8, "little")) for number in range(MOST_VALUES)]


@functools.cache
def numbers_until(distinct):
    """Returns how many integers from 0 on have this many different coupons."""
    seen = set()
    for number, coupon in enumerate(coupons_of_integers(), 1):
        seen.add(coupon)
        if len(seen) == distinct:
            return number
    raise ValueError(f"more than {MOST_VALUES} values")


def numbers_of_integers(lg_k):
    """Returns how many integers sketches get: around each change of stage, and enough to fill registers."""
    full = full_set(lg_k)
    few = {0, 1, 5, 7, 8, 9, 24, 25, numbers_until(full), numbers_until(full + 1)}
    many = {1 << lg_k, 40 << lg_k} if lg_k <= 12 else {min(2 << lg_k, MOST_VALUES)}
    return sorted(few | many)


def case_of_integers(crate, lg_k, width, count):
    ours = Sketch(lg_k, width)
    ours.update_many(array.array("Q", range(count)))
    return Case(coupons_of_integers()[:count], ours, crate.ask("integers", lg_k, width, count))


def case_of_coupons(crate, chosen, lg_k, width, coupons):
    ours = Sketch(lg_k, width)
    for coupon in coupons:
        ours.add_coupon(coupon % 2**26, coupon >> 26)
    return Case(coupons, ours, crate.ask("bytes", lg_k, width, *(value_of_coupon(chosen, coupon).hex() for coupon in coupons)))


def case_of_strings(crate, chosen, lg_k, width):
    """Returns a sketch of strings of each length up to three blocks of the hash."""
    strings = [chosen.randbytes(length) for length in range(1, 49)]
    ours = Sketch(lg_k, width)
    ours.update_many(strings)
    coupons = [coupon_of(string) for string in strings]
    return Case(coupons, ours, crate.ask("bytes", lg_k, width, *(string.hex() for string in strings)))


def lists_of_coupons(chosen, lg_k):
    """Yields chosen coupons: of each stage, and registers that begin at each minimum, with and without exceptions."""
    for count in (1, 5, 7, 8, 9, full_set(lg_k), full_set(lg_k) + 1, 1 << lg_k - 1):
        yield scattered(chosen, count)
    if lg_k <= 10:
        for least, most in ((1, 15), (1, 16), (1, 63), (30, 50), (48, 62), (48, 63), (49, 63), (63, 63)):
            yield filled(chosen, lg_k, least, most)


def cases(crate, chosen):
    for lg_k in LG_KS:
        for width in WIDTHS:
            for count in numbers_of_integers(lg_k):
                yield case_of_integers(crate, lg_k, width, count)
            yield case_of_strings(crate, chosen, lg_k, width)
            if lg_k in CHOSEN_LG_KS:
                for coupons in lists_of_coupons(chosen, lg_k):
                    yield case_of_coupons(crate, chosen, lg_k, width, coupons)


class Exchange:
    """Counts the images that were exchanged, and prints those with a difference."""

    def __init__(self, crate):
        self.crate = crate
        self.counts, self.failed = collections.Counter(), 0
        self.merged = []

    def report(self, what, image, differences):
        """Counts an image without differences, and prints another one."""
        try:
            found = ", ".join(differences)
        except Exception as error:
            found = f"{type(error).__name__}: {error}"
        if not found:
            self.counts[what, stage_of(image), image[7] >> 2 & 3] += 1
        else:
            self.failed += 1
            print(f"{what}: {image.hex()[:200]}: {found[:200]}")

    def read_here(self, case):
        """Yields what differs where this library reads the crate's image."""
        if fault_of(case.theirs) is not None:
            yield "rejected with " + fault_of(case.theirs)
            return
        registers, read = Registers(case.ours.lg_k), Sketch.from_bytes(case.theirs)
        registers.merge(case.theirs)
        if bytes(registers.memory) != case.registers:
            yield "registers"
        if read.estimate() != case.ours.estimate() or math.isfinite(read.estimate()) == (min(case.registers) == 63):
            yield "estimate"
        if not read.agrees_with(case.ours):
            yield "agreement"

    def read_there(self, case, image):
        """Yields what differs where the crate reads this library's image, and writes it again."""
        if not Sketch.from_bytes(self.crate.ask("read", image.hex())).agrees_with(case.ours):
            yield "agreement"
        if registers_of_8_bits(self.crate.ask("union", image[3], 8, image.hex())) != case.registers:
            yield "registers"

    def exchange(self, case):
        failed = self.failed
        self.report("the crate wrote", case.theirs, self.read_here(case))
        for image in case.images:
            self.report("this library wrote", image, self.read_there(case, image))
        if failed == self.failed and len(case.coupons) <= MOST_MERGED:
            self.merged.append(case)

    def merge_both(self, bound, width, images, coupons):
        """Yields what differs between the unions of both sides, at 8 bits and at a width."""
        plain, ours = (union_of(images, lg_max_k=bound, width=bits) for bits in (8, width))
        theirs, again = (self.crate.ask("union", bound, bits, *(image.hex() for image in images)) for bits in (8, width))
        registers = registers_of(ours.lg_k, coupons)
        if registers_of_8_bits(plain.to_bytes()) != registers:
            yield "this library's registers"
        if registers_of_8_bits(theirs) != registers:
            yield "the crate's registers"
        if not Sketch.from_bytes(again).agrees_with(ours):
            yield "agreement"

    def merge(self, chosen):
        """Merges two or three images of both sides in both orders: of any lg_k, or all of one lg_k."""
        for number in range(UNIONS):
            first = chosen.choice(self.merged)
            others = [case for case in self.merged if number % 2 or case.ours.lg_k == first.ours.lg_k]
            second, third = chosen.choices(others, k=2)
            count, bound, width = chosen.randint(2, 3), chosen.randint(4, 16), chosen.choice(WIDTHS)
            images = [first.theirs, chosen.choice(second.images), chosen.choice([third.theirs, *third.images])][:count]
            coupons = [coupon for case in (first, second, third)[:count] for coupon in case.coupons]
            for order in (images, images[::-1]):
                ours = union_of(order, lg_max_k=bound, width=width).to_bytes()
                self.report("both merged", ours, self.merge_both(bound, width, order, coupons))

    def table(self):
        """Prints how many images had no difference."""
        print("| images | stage | width | number |\n|---|---|---|---|")
        for (what, stage, width), count in sorted(self.counts.items()):
            print(f"| {what} | {stage} | {WIDTHS[width]} | {count:,} |")


def main():
    if len(sys.argv) != 2 or sys.argv[1].startswith("-"):
        sys.exit("usage: exchange.py FOLDER")
    chosen = random.Random(1)
    with tempfile.TemporaryDirectory() as folder:
        exchange = Exchange(Crate(pathlib.Path(folder), pathlib.Path(sys.argv[1])))
        for case in cases(exchange.crate, chosen):
            exchange.exchange(case)
        exchange.merge(chosen)
        exchange.crate.process.communicate()
    exchange.table()
    print(f"{sum(exchange.counts.values())} passed, {exchange.failed} failed")
    return 1 if exchange.failed else 0


if __name__ == "__main__":
    sys.exit(main())
