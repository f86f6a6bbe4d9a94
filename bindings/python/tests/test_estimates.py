# SPDX-License-Identifier: Apache-2.0
"""Estimates and bounds beside the formulas of docs/NUMBERS.md, computed by Python's own functions."""
import math
import random
import struct
import sys
import unittest
from decimal import Decimal

import common
from hll_sketches import Sketch
from plain_images import image_of

sys.path.append(str(common.ROOT / "bindings" / "c" / "tests"))
import expected  # noqa: E402, the formulas for registers in decimal numbers


def expected_coupons(values):
    """How many distinct coupons so many values have on average: each value's slots, one by one."""
    parts = [2.0**-v for v in range(1, 63)] + [2.0**-62]
    return -sum(2**26 * math.expm1(values * math.log1p(-part / 2**26)) for part in parts)


def poisson(mean, many):
    """How often a number of this mean is at most so many, and how often at least."""
    parts = [math.exp(i * math.log(mean) - mean - math.lgamma(i + 1)) if mean else float(i == 0)
             for i in range(many + 1)]
    return math.fsum(parts), 1 - math.fsum(parts[:-1])


def bounds_of_coupons(coupons, estimate):
    """Bounds at 1, 2 and 3 deviations: of as many values, so many would share coupons with others
    no less often than the tails of a normal distribution."""
    shares = []
    for lost in range(400):
        values = coupons + lost
        shares.append(poisson(max(values - expected_coupons(values), 0), lost))
    for d in (1, 2, 3):
        tail = math.erfc(d / math.sqrt(2)) / 2
        too_few = [lost for lost, (at_most, _) in enumerate(shares) if at_most < tail]
        enough = [lost for lost, (_, at_least) in enumerate(shares) if at_least >= tail]
        lower = coupons + max(too_few, default=-1) + 1
        yield lower, max(coupons + max(enough), estimate)


class EstimatesTest(unittest.TestCase):
    def check_estimate(self, sketch, estimate, error):
        self.assertAlmostEqual(sketch.estimate() / estimate, 1, 9)
        self.assertAlmostEqual(sketch.relative_standard_error() / error, 1, 9)

    def check_registers(self, sketch, counts):
        """The estimate, its error and its bounds are those of the formulas."""
        wanted = expected.of_histogram(sketch.lg_k, dict(enumerate(counts)))
        self.check_estimate(sketch, float(wanted[0]), float(wanted[1]))
        for d in (1, 2, 3):
            for found, bound in zip(sketch.bounds(d), (wanted[1 + d], wanted[4 + d])):
                self.assertAlmostEqual(found / float(bound), 1, 9)

    def check_nearest(self, estimate, exact):
        """As near as docs/NUMBERS.md promises, and rounded to a double."""
        self.assertLessEqual(abs(Decimal(estimate) - exact), exact * (Decimal(2) ** -40 + Decimal(2) ** -53) + Decimal(2) ** -32)

    def test_registers(self):
        source = random.Random(8)
        for case in range(300):
            lg_k = source.randint(4, 10)
            most = source.choice((1, 3, 14, 40, 62, 63))
            least = source.randint(0, most) if case % 3 else 0
            registers = [source.randint(least, most) for _ in range(2**lg_k)]
            registers[0] = 1
            sketch = Sketch.from_bytes(image_of(lg_k, source.choice((4, 6, 8)), registers))
            counts = [registers.count(value) for value in range(64)]
            self.assertEqual(sketch.histogram(), counts)
            exact = expected.estimate_of(dict(enumerate(counts)), Decimal(2**lg_k))
            self.check_nearest(sketch.estimate(), max(exact, Decimal(2**lg_k - counts[0])))
            self.check_registers(sketch, counts)

    def test_raised_registers(self):
        """No register that is raised lowers the estimate."""
        source = random.Random(11)
        for lg_k in (4, 7, 10):
            registers = [0] * 2**lg_k
            before = 0
            for _ in range(500):
                slot = source.randrange(2**lg_k)
                registers[slot] = min(63, registers[slot] + source.choice((1, 1, 1, 2, 7)))
                estimate = Sketch.from_bytes(image_of(lg_k, 8, registers)).estimate()
                self.assertGreaterEqual(estimate, before)
                before = estimate

    def test_coupons(self):
        source = random.Random(9)
        for count in (2, 3, 7, 100, 3000, 190_000):
            sketch = Sketch(21)
            sketch.update_many(source.getrandbits(64) for _ in range(count))
            coupons = sketch.num_coupons
            self.assertNotEqual(sketch.stage, "registers")
            estimate = sketch.estimate()
            self.assertLess(abs(expected_coupons(estimate) - coupons), 1e-9 * coupons)
            error = math.sqrt((estimate - 1) / estimate / 6 / 2**26)
            self.check_estimate(sketch, estimate, error)
            for d, (lower, upper) in enumerate(bounds_of_coupons(coupons, estimate), 1):
                found = sketch.bounds(d)
                self.assertAlmostEqual(found[0] / lower, 1, 9, (count, d))
                self.assertAlmostEqual(found[1] / upper, 1, 9, (count, d))

    def test_one_and_none(self):
        sketch = Sketch()
        numbers = sketch.estimate(), sketch.relative_standard_error(), sketch.bounds(3)
        self.assertEqual(numbers, (0, 0, (0, 0)))
        sketch.update("x")
        numbers = sketch.estimate(), sketch.relative_standard_error(), sketch.bounds(3)
        self.assertEqual(numbers, (1, 0, (1, 1)))

    def test_full(self):
        full = Sketch.from_bytes(image_of(4, 8, [63] * 16))
        self.assertEqual(full.estimate(), math.inf)

    def test_kept_estimates(self):
        """That of a program which counts in order, as long as nothing else is done."""
        whole = Sketch(8)
        whole.update_many(range(1000))
        self.assertIsNone(Sketch(8).hip_estimate())
        self.assertIsNone(whole.hip_estimate())
        for width in (4, 6, 8):
            image = bytearray(whole.convert(width).to_bytes())
            image[5] &= ~16
            image[8:16] = struct.pack("<d", 1012.5)
            sketch = Sketch.from_bytes(image)
            self.assertEqual(sketch.hip_estimate(), 1012.5)
            self.assertEqual(sketch.convert(8).hip_estimate(), 1012.5)
            for changed in (sketch | whole, sketch.fold(7)):
                self.assertIsNone(changed.hip_estimate())
            sketch.add_coupon(3, 60)
            self.assertIsNone(sketch.hip_estimate())


if __name__ == "__main__":
    unittest.main()
