# SPDX-License-Identifier: Apache-2.0
"""Random sketches, widths, unions and folds beside a plain model: the greatest value at each slot,
as a plain reader reads it from the image."""
import random
import struct
import unittest

import common  # noqa: F401, for the path
from hll_sketches import Sketch, SketchUnion, coupons, union_of
from plain_images import image_of
from plain_reader import read

CASES = 20_000
WIDTHS = (4, 6, 8)


def read_image(image):
    """lg_k, width, and the coupons or the registers of an image."""
    value = read(image)
    lg_k, width, size = value[0], WIDTHS[value[1]], value[2]
    if size == 0:
        return lg_k, width, None, list(value[28:])
    return lg_k, width, set(struct.unpack(f"<{(len(value) - 3) // 4}I", value[3:])), None


def folded(pairs, lg_k):
    """The greatest value of the coupons at each slot."""
    registers = [0] * 2**lg_k
    for pair in pairs:
        slot = pair % 2**lg_k
        registers[slot] = max(registers[slot], pair >> 26 & 63)
    return registers


def can_hold(lg_k, count):
    """Whether a list or a set of this lg_k grows to so many coupons."""
    return count <= 7 or lg_k >= 8 and 4 * count <= 3 * 2 ** (lg_k - 3)


class Model:
    """A sketch with all coupons that went in, and whether it is in registers."""

    def __init__(self, lg_k, width, pairs, in_registers):
        self.lg_k, self.width, self.pairs = lg_k, width, set(pairs)
        self.in_registers = in_registers or not can_hold(lg_k, len(self.pairs))

    def is_image(self, image):
        """Whether an image is of this sketch."""
        lg_k, width, pairs, registers = read_image(image)
        if (lg_k, width) != (self.lg_k, self.width):
            return False
        if self.in_registers:
            return registers == folded(self.pairs, lg_k)
        return pairs == self.pairs


def union(models, lg_max_k, width):
    """The model of the union. Its lg_k is at most that of each sketch in registers, so all may be
    folded from coupons."""
    in_registers = [model for model in models if model.in_registers and model.pairs]
    lg_k = min([lg_max_k, *(model.lg_k for model in in_registers)])
    return Model(lg_k, width, set().union(*(model.pairs for model in models)), bool(in_registers))


class RandomTest(unittest.TestCase):
    def setUp(self):
        self.random = random.Random(20251)

    def values(self):
        """A number of values that makes lists, sets and registers."""
        count = self.random.choice((0, 1, 3, 7, 8, 9, 20, 24, 25, 60, 150, 300))
        return [self.random.getrandbits(64) for _ in range(count)]

    def coupon_sketch(self):
        """A sketch of values, in one of three ways."""
        lg_k, width = self.random.randint(4, 9), self.random.choice(WIDTHS)
        sketch, values = Sketch(lg_k, width), self.values()
        if self.random.randrange(2):
            sketch.update_many(values)
        else:
            for value in values:
                sketch.update(value)
        return sketch, Model(lg_k, width, coupons(values), False)

    def register_sketch(self):
        """The sketch of an image with random registers."""
        lg_k, width = self.random.randint(4, 8), self.random.choice(WIDTHS)
        most = self.random.choice((0, 3, 14, 40, 63))
        registers = [self.random.randint(0, most) for _ in range(2**lg_k)]
        pairs = [value << 26 | slot for slot, value in enumerate(registers) if value]
        sketch = Sketch.from_bytes(image_of(lg_k, width, registers))
        return sketch, Model(lg_k, width, pairs, True)

    def sketch(self):
        return (self.coupon_sketch if self.random.randrange(3) else self.register_sketch)()

    def united(self, sketches, lg_max_k, width):
        """The union, in one of four ways."""
        how = self.random.randrange(4)
        if how == 0:
            return union_of(sketches, lg_max_k, width)
        made = SketchUnion(lg_max_k, width)
        if how == 1:
            made.update_many(sketch.to_bytes() for sketch in sketches)
        elif how == 2:
            for sketch in sketches:
                made.update(sketch)
        else:
            result = Sketch(lg_max_k)
            for sketch in sketches:
                result.merge(sketch, lg_max_k)
            return result.convert(width)
        return made.sketch()

    def case(self):
        pairs = [self.sketch() for _ in range(self.random.randint(1, 3))]
        for sketch, model in pairs:
            self.assertTrue(model.is_image(sketch.to_bytes()), sketch)
        lg_max_k, width = self.random.randint(4, 10), self.random.choice(WIDTHS)
        made = self.united([sketch for sketch, _ in pairs], lg_max_k, width)
        model = union([model for _, model in pairs], lg_max_k, width)
        self.assertTrue(model.is_image(made.to_bytes()), (pairs, made))
        lg_k, width = self.random.randint(4, made.lg_k), self.random.choice(WIDTHS)
        result = made.fold(lg_k).convert(width)
        wanted = Model(lg_k, width, model.pairs, model.in_registers)
        self.assertTrue(wanted.is_image(result.to_bytes()), (pairs, made, result))
        self.assertTrue(result.agrees_with(made))

    def test_random(self):
        for _ in range(CASES):
            self.case()
        print(f"{CASES} random cases")


if __name__ == "__main__":
    unittest.main()
