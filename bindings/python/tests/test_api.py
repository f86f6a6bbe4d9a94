# SPDX-License-Identifier: Apache-2.0
"""What each call of the package gives, and what it refuses."""
import copy
import ctypes
import datetime
import gzip
import io
import json
import math
import mmap
import os
import pickle
import random
import re
import struct
import subprocess
import sys
import tempfile
import threading
import unittest
import uuid
from array import array
from decimal import Context, Decimal
from functools import partial
from unittest import mock

import common
import hll_sketches
from hll_sketches import ArgumentError, HllError, ImageError, PrecisionError, Registers, Sketch
from hll_sketches import SketchUnion, _library, coupon, coupons, fault_of, is_image, is_small
from hll_sketches import merge_files, union_of
from plain_hash import coupon_of, hash_of

EMPTY = bytes.fromhex("0201070a030c0008")
ONE = bytes.fromhex("0201070a030801080500000c")
OUTSIDE = (-1, 0, 3, 22, 255, 256 + 12, 2**64)


class IsSmallTest(unittest.TestCase):
    def test_bounds(self):
        image = Sketch(12).to_bytes()
        self.assertTrue(is_small(image))
        self.assertTrue(is_small(memoryview(image), 12, len(image)))
        self.assertFalse(is_small(image, 11))
        self.assertFalse(is_small(bytearray(image), 12, len(image) - 1))
        self.assertTrue(is_small(b""))          # rejected at once, as is each image whose header has a fault
        self.assertTrue(is_small(image[:3]))
        self.assertTrue(is_small(bytes([0, 0, 0, 255]), 21))
        self.assertFalse(is_small(bytes(8193)))
        self.assertTrue(is_small(bytes(8192)))
        self.assertRaises(ArgumentError, is_small, image, 22)
        self.assertRaises(TypeError, is_small, "text")


class ValuesTest(unittest.TestCase):
    def test_known_hashes(self):
        self.assertEqual(hash_of(b"", 0), (0, 0))
        fox = b"The quick brown fox jumps over the lazy dog"
        self.assertEqual(hash_of(fox, 0), (0xE34BBC7BBC071B6C, 0x7A433CA9C49A9347))

    def test_coupons_of_bytes(self):
        source = random.Random(3)
        values = [source.randbytes(length) for length in range(100)]
        wanted = [coupon_of(value) for value in values]
        self.assertEqual([coupon(value) for value in values], wanted)
        self.assertEqual(list(coupons(values)), wanted)
        self.assertEqual(list(coupons([])), [])

    def test_other_types_of_bytes_and_numbers(self):
        """What the cases of tests/behaviour can't write, alone and among others."""
        for value, data in (
            (bytearray(b"xy"), b"xy"), (memoryview(b"xy"), b"xy"), (-float("nan"), bytes(6) + b"\xf8\x7f"),
        ):
            self.assertEqual(coupon(value), coupon_of(data))
        for call in (Sketch().update_many, coupons):
            with self.assertWarnsRegex(UserWarning, "^integers and texts of digits are different values: ") as caught:
                call([7, "7"])
            self.assertEqual(caught.filename, __file__)
        mixed = Sketch()
        mixed.update_many(["xy", b"other", 7, bytearray(b"xy"), 7.0, True])
        self.assertEqual(mixed.num_coupons, 5)

    def test_many_of_one_type(self):
        source = random.Random(4)
        kinds = [
            [source.getrandbits(63) - 2**62 for _ in range(70000)],
            [source.getrandbits(64) for _ in range(5000)],
            [source.random() for _ in range(5000)],
            [str(number) for number in range(5000)],
            [source.randbytes(number % 40) for number in range(5000)],
            [(number, str(number), float(number))[number % 3] for number in range(5000)],
        ]
        for values in kinds:
            one, many = Sketch(), Sketch()
            for value in values:
                one.update(value)
            many.update_many(iter(values))
            self.assertEqual(one, many)
            self.assertEqual(list(coupons(values)), [coupon(value) for value in values])

    def test_wrong_values(self):
        calls = (
            Sketch().update,
            coupon,
            lambda one: Sketch().update_many([one]),
            lambda one: coupons([one]),
        )
        for value in (None, [1], (1,), {}, object(), 1j):
            for call in calls:
                with self.assertRaises((TypeError, ArgumentError)):
                    call(value)
        for value, cure in (
            (datetime.date(2026, 11, 28), "isoformat"), (datetime.timedelta(1), "total_seconds"),
            (None, "missing"), ([1], "update_many"),
            (datetime.date(1970, 1, 2), "toordinal() - 719163"),
        ):
            with self.assertRaisesRegex(TypeError, f"^a value is .*: .*{re.escape(cure)}"):
                Sketch().update(value)

        for value in (2**64, -(2**63) - 1, 2**70):
            for call in calls:
                with self.assertRaisesRegex(OverflowError, f"{value.bit_length()} bits: pass"):
                    call(value)

    def test_cures(self):
        """What an error says to pass is the same for equal values, and is what SQL counts."""
        second = datetime.datetime(1970, 1, 1, 0, 0, 1)
        india, utc = datetime.timezone(datetime.timedelta(hours=5.5)), datetime.timezone.utc
        late = datetime.datetime(1970, 1, 1, 5, 30, 1, tzinfo=india)
        id_, long = uuid.UUID(int=7), "1234567890123456789012345678901234567890.1234567890"
        for values, counted in (
            (("1.0", "1.00", "1", "10e-1"), "1"), (("1E+2", "100", "100.0"), "100"),
            (("0.0", "-0.0", "0E+5", "-0E-9"), "0"), (("-1.50", "-1.5"), "-1.5"), (("1E-7",), "0.0000001"),
            ((long, long + "00"), long[:-1]), (("NaN",), "NaN"), (("-inf", "-Infinity"), "-Infinity"),
            ((second, second.replace(fold=1)), 10**6), ((second.replace(microsecond=7),), 10**6 + 7),
            ((second.replace(tzinfo=utc), late, late.astimezone(utc)), 10**6),
            ((second.replace(year=1969, tzinfo=utc),), -364 * 24 * 3600 * 10**6 - 86399 * 10**6),
            ((id_, uuid.UUID(str(id_)), uuid.UUID("{%s}" % str(id_).upper())), id_.bytes),
            ((0j, complex(-0.0, -0.0), complex(0.0, -0.0)), "0j"),
        ):
            for value in values:
                value = Decimal(value) if isinstance(value, str) else value
                with self.assertRaises(TypeError) as caught:
                    coupon(value)
                cure = re.search(": pass (.*?\\))(?:, as|$)|: pass (value.bytes), as", str(caught.exception))
                names = dict(vars(datetime), Context=Context, Decimal=Decimal, value=value)
                passed = eval(cure[1] or cure[2], names)
                self.assertEqual((type(passed), coupon(passed)), (type(counted), coupon(counted)))

    def test_wrong_types(self):
        """Errors name what was given, and the call that does what was meant."""
        name_of_file = "expected the bytes of a sketch, not str: Sketch.read reads a file"
        for call, said in (
            (lambda: Sketch("12"), "an lg_k is an int, not str"),
            (lambda: Sketch(12, 8.0), "a width is an int, not float"),
            (lambda: Sketch().add_coupon(1.0, 1), "a slot is an int, not float"),
            (lambda: Sketch().update({1, 2}),
             "a value is bytes, str, int or float, not set: "
             "pass one value, or many to update_many"),
            (lambda: merge_files("days"), "expected many paths, not one str: pass a list of it"),
            (lambda: Sketch().update_many(5),
             "expected many values, not one int: pass a list of it, or call update()"),
            (lambda: union_of(["day.hll"]), name_of_file),
            (lambda: Sketch.from_bytes(5), "expected the bytes of a sketch, not int"),
            (lambda: is_small("day.hll"), name_of_file),
        ):
            with self.assertRaises(TypeError) as caught:
                call()
            self.assertEqual(str(caught.exception), said)
        with self.assertRaisesRegex(ArgumentError, "^an lg_k is 4 to 21, not 50$"):
            is_small(b"", 50)

    def test_missing_values(self):
        """They are refused by their number, or passed over, whatever is beside them."""
        for values in ([1, None, 2], [1, 2, math.nan], iter([None, 1, 2]), [None, "a", "b"],
                       array("d", [1.5, math.nan, math.nan, 2.5]), [math.nan] * 3 + [1, 2],
                       [1.5, math.nan, 2.5]):
            values = values if isinstance(values, array) else list(values)
            number = next(n for n, value in enumerate(values) if value is None or value != value)
            for made in (Sketch(), Registers(), SketchUnion()):
                count = getattr(made, "update_values", None) or made.update_many
                with self.assertRaisesRegex(ArgumentError, f"^values\\[{number}\\] is missing"):
                    count(values)
                self.assertTrue(made.is_empty)
                count(values, skip_missing=True)
                self.assertEqual(round(made.estimate()), 2)
        late = Sketch()
        with self.assertRaisesRegex(ArgumentError, "^values\\[50000\\] is missing"):
            late.update_many([1] * 50_000 + [None])
        self.assertEqual(late.num_coupons, 1)
        self.assertEqual(len(coupons([1, math.nan])), 2)
        infinite = Sketch()
        infinite.update_many([math.inf, -math.inf, 1.0])
        self.assertEqual(infinite.num_coupons, 3)

    def test_one_value_is_not_many(self):
        for value in ("abc", b"abc", bytearray(b"abc"), 5):
            for call in (Sketch().update_many, coupons):
                with self.assertRaises(TypeError):
                    call(value)

    def test_wrong_value_changes_nothing(self):
        sketch = Sketch(10)
        with self.assertRaises(TypeError):
            sketch.update(None)
        self.assertEqual(sketch.to_bytes(), EMPTY)


class SketchTest(unittest.TestCase):
    def filled(self, lg_k=12, width=8, count=20000):
        sketch = Sketch(lg_k, width)
        sketch.update_many(range(count))
        return sketch

    def test_small(self):
        sketch = Sketch(10)
        self.assertEqual((sketch.to_bytes(), bytes(sketch)), (EMPTY, EMPTY))
        self.assertTrue(sketch.is_empty)
        sketch.add_coupon(5, 3)
        self.assertEqual(sketch.to_bytes(), ONE)
        self.assertEqual((sketch.lg_k, sketch.width, sketch.stage), (10, 8, "list"))
        self.assertEqual((sketch.is_empty, sketch.num_coupons, sketch.num_zeros), (False, 1, 0))
        self.assertEqual(sketch.histogram(), [1023, 0, 0, 1] + [0] * 60)
        self.assertEqual(sketch.convert(4).to_bytes(), bytes.fromhex("0201070a030801000500000c"))
        self.assertEqual(Sketch().lg_k, 12)

    def test_stages(self):
        stages = [self.filled(count=count).stage for count in (7, 8, 300, 400)]
        self.assertEqual(stages, ["list", "set", "set", "registers"])
        sketch = self.filled()
        self.assertEqual(sketch.num_zeros, sketch.histogram()[0])
        self.assertEqual(sum(sketch.histogram()), 4096)
        self.assertEqual(sketch.num_coupons, 0)
        sketch.add_coupon(7, 63)
        self.assertEqual(sketch.histogram()[63], 1)

    def test_arguments(self):
        for lg_k in OUTSIDE:
            for call in (Sketch, SketchUnion, lambda k: union_of([], k), Sketch(21).fold):
                with self.assertRaises(ArgumentError):
                    call(lg_k)
        for width in (-4, 0, 3, 5, 7, 9, 256 + 8):
            calls = (
                lambda bits: Sketch(12, bits),
                lambda bits: SketchUnion(12, bits),
                lambda bits: union_of([], 12, bits),
                Sketch().convert,
            )
            for call in calls:
                with self.assertRaises(ArgumentError):
                    call(width)
        outside = ((-1, 1), (2**26, 1), (2**32 + 1, 1), (1, 0), (1, 64), (1, 257), (1, -1))
        for slot, value in outside:
            with self.assertRaises(ArgumentError):
                Sketch().add_coupon(slot, value)
        with self.assertRaises(ArgumentError):
            Sketch(10).fold(11)
        image = Sketch(10).to_bytes()
        for number in (256 + 8, 268, 2**32 - 1):    # not cut down to a byte
            calls = (
                lambda: _library.new(number, 8),
                lambda: _library.new(12, number),
                lambda: _library.merge(12, number, image, image),
                lambda: _library.union(12, number, [image]),
                lambda: _library.convert(image, number),
                lambda: _library.image_of((ctypes.c_uint8 * 16)(), number),
                lambda: _library.fold_registers((ctypes.c_uint8 * 16)(), number),
            )
            for call in calls:
                with self.assertRaises(ArgumentError):
                    call()
        for deviations in (0, 4, -1):
            with self.assertRaises(ArgumentError):
                Sketch().bounds(deviations)
        calls = (
            lambda: Sketch("12"),
            lambda: Sketch(12, 8.0),
            lambda: Sketch().add_coupon(1.0, 1),
            lambda: Sketch().merge(EMPTY),
            lambda: Sketch().agrees_with(EMPTY),
            lambda: Sketch.from_bytes(5),
            lambda: fault_of(5),
            lambda: is_image(5),
            lambda: union_of([5]),
            lambda: SketchUnion().update("x"),
            lambda: Sketch() | EMPTY,
        )
        for call in calls:
            with self.assertRaises(TypeError):
                call()

    def test_updates_are_kept_and_applied(self):
        sketch, many = Sketch(), Sketch()
        for value in range(10000):
            sketch.update(value)
            self.assertLess(sum(map(sys.getsizeof, sketch._pending)), 4096)
        many.update_many(range(10000))
        self.assertEqual(sketch, many)
        large = Sketch()
        for number in range(5):
            large.update(bytes([number]) * 600_000)
            self.assertEqual(large._pending_bytes, 0)
        self.assertEqual(large.num_coupons, 5)
        one = Sketch()
        one.update("x")
        pickled = pickle.loads(pickle.dumps(one))
        for asked in (one.copy(), pickled, one | Sketch(), Sketch() | one, one.fold(8)):
            self.assertEqual(asked.num_coupons, 1)

    def test_merge(self):
        left, right, both = Sketch(12, 6), Sketch(12, 6), Sketch(12, 6)
        left.update_many(range(5000))
        right.update_many(range(4000, 9000))
        both.update_many(range(9000))
        for kept in (left | right, right | left, left | right | left):
            self.assertEqual((kept, kept.width), (both, 6))
        before = right.copy()
        left.merge(right)
        self.assertEqual((left, right), (both, before))
        right |= left
        self.assertEqual(right, both)
        self.assertEqual(both | both, both)

    def test_merge_of_two_widths(self):
        for one, other in ((4, 6), (6, 8), (8, 4)):
            left, right = self.filled(12, one), self.filled(12, other, 50)
            self.assertEqual((left | right, right | left), (left.convert(8),) * 2)
            left |= right
            self.assertEqual(left.width, 8)

    def test_merge_of_empty_sketches(self):
        """They count for nothing, but among themselves by their lg_k and width."""
        for width in (4, 6, 8):
            for both in (self.filled(10, width), self.filled(10, width, 3)):
                for empty in (Sketch(4), Sketch(10, 4), Sketch(21, 6)):
                    self.assertEqual((both | empty, empty | both), (both, both))
        for sizes in ((9, 11, 10), (11, 9, 10), (4, 4, 11)):
            one, two, three = (Sketch(lg_k, 4) for lg_k in sizes)
            for union in ((one | two) | three, one | (two | three), union_of([one, two, three])):
                self.assertEqual(union, Sketch(11, 4))
        self.assertEqual(Sketch(9, 4) | Sketch(10, 6), Sketch(10, 8))

    def test_merge_of_two_lg_k(self):
        large, small, few = self.filled(12), self.filled(9), self.filled(9, count=10)
        for left, right in ((large, small), (small, large), (large, few), (few, small.fold(8))):
            before = left.to_bytes()
            words = f"the sketch has lg_k {right.lg_k} and not {left.lg_k}: "
            words += f"union_of([a, b], lg_max_k={min(left.lg_k, right.lg_k)}) merges them"
            for call in (lambda: left | right, lambda: left.merge(right)):
                with self.assertRaises(PrecisionError) as caught:
                    call()
                self.assertEqual(str(caught.exception), words)
            self.assertEqual(left.to_bytes(), before)
        few.merge(large, 12)
        self.assertEqual(few.lg_k, 12)
        small.merge(large, 12)
        self.assertEqual(small, self.filled(9))
        with self.assertRaises(ArgumentError):
            small.merge(large, 22)

    def test_fold_and_agree(self):
        for width in (4, 6, 8):
            large, small = self.filled(12, width), self.filled(8, width)
            self.assertEqual(large.fold(8), small)
            self.assertEqual(large.fold(12), large)
            self.assertTrue(large.agrees_with(small))
            self.assertFalse(large.agrees_with(self.filled(8, width, 40000)))
        self.assertFalse(self.filled(count=10).agrees_with(self.filled(count=11)))

    def test_estimator_fields(self):
        sketch = self.filled(8)
        image, plain = sketch.to_bytes(), sketch.to_bytes(plain=True)
        low = sum(2.0**-value for value in image[40:] if value < 32)
        self.assertEqual(struct.unpack("<3d", image[8:32]), (0.0, low, 0.0))
        sketch.set_estimator_fields()
        self.assertEqual(sketch.to_bytes(), image)
        self.assertEqual(plain, image[:8] + bytes(24) + image[32:])
        self.assertEqual(Sketch.from_bytes(plain).to_bytes(), image)
        foreign = bytearray(image)
        foreign[5] &= ~16
        foreign[8:32] = struct.pack("<3d", 5.0, 6.0, 7.0)
        kept = Sketch.from_bytes(foreign)
        self.assertEqual(kept.to_bytes(), foreign)
        self.assertEqual(kept.to_bytes(plain=True), plain)
        kept.set_estimator_fields()
        self.assertEqual(kept.to_bytes(), image)
        few = self.filled(8, count=5)
        before = few.to_bytes()
        few.set_estimator_fields()
        self.assertEqual(few.to_bytes(), before)
        self.assertEqual(few.to_bytes(plain=True), few.to_bytes())

    def test_images(self):
        places = "0201070a030002080000000007000008000000000500000c" + "00" * 16
        sketch = Sketch.from_bytes(bytearray.fromhex(places))
        self.assertEqual(sketch.to_bytes(), bytes.fromhex("0201070a03080208070000080500000c"))
        self.assertEqual(Sketch.from_bytes(bytes.fromhex("0201070a03040008") + bytes(32)), Sketch(10))
        with self.assertRaisesRegex(ImageError, r"trailing \(bytes follow the image, which takes 12 bytes of 18\)$") as caught:
            Registers(10).merge(memoryview(ONE + b"behind"))
        self.assertEqual((is_image(ONE), is_image(ONE + ONE)), (True, False))
        self.assertEqual(str(pickle.loads(pickle.dumps(caught.exception))), str(caught.exception))
        for width in (4, 6, 8):
            for count in (0, 5, 100, 20000):
                sketch = self.filled(12, width, count)
                again = Sketch.from_bytes(sketch.to_bytes())
                self.assertEqual((again, again.width), (sketch, width))
                self.assertTrue(is_image(sketch.to_bytes()))

    def test_base64(self):
        sketch = self.filled(12, 8, 3000)
        self.assertEqual(Sketch.from_base64(sketch.to_base64()), sketch)
        self.assertEqual(Sketch.from_base64("AgEHDAMIAgj4EWAEvyBkHA==").to_base64(), "AgEHDAMIAgj4EWAEvyBkHA==")
        with self.assertRaisesRegex(ArgumentError, "^the text is not base64: "):
            Sketch.from_base64("ann!")

    def test_equality(self):
        self.assertEqual(Sketch(10), Sketch(10))
        self.assertNotEqual(Sketch(10), Sketch(11))
        self.assertNotEqual(Sketch(10), EMPTY)
        with self.assertRaises(TypeError):
            hash(Sketch())

    def copied(self, *calls):
        """Each copy has the same values, and its changes are its own."""
        for sketch in (Sketch(), self.filled(count=100), self.filled(12, 4)):
            for call in calls:
                made = call(sketch)
                self.assertEqual(made, sketch)
                made.add_coupon(1, 63)
                self.assertNotEqual(made, sketch)

    def test_life_copied(self):
        self.copied(Sketch.copy)

    def test_life_language(self):
        pickles = (partial(pickle.dumps, protocol=protocol) for protocol in range(2, pickle.HIGHEST_PROTOCOL + 1))
        self.copied(copy.copy, copy.deepcopy, *(lambda sketch, dumps=dumps: pickle.loads(dumps(sketch)) for dumps in pickles))

    def test_life_json(self):
        with self.assertRaisesRegex(TypeError, "not JSON serializable"):
            json.dumps([Sketch()])
        self.assertEqual(json.dumps(Sketch.from_bytes(bytes.fromhex("0201070c03080208f8116004bf20641c")).to_base64()), '"AgEHDAMIAgj4EWAEvyBkHA=="')

    def test_subclass(self):
        class Mine(Sketch):
            pass

        mine = Mine(10)
        self.assertIs(type(mine | Sketch(10)), Mine)
        self.assertIs(type(mine.fold(8)), Mine)
        self.assertIs(type(Mine.from_bytes(ONE)), Mine)

    def test_open_files(self):
        """A file that is open for bytes is read from its position, and written at it."""
        made = self.filled()
        with tempfile.TemporaryDirectory() as folder:
            path = os.path.join(folder, "sketch.gz")
            with gzip.open(path, "wb") as file:
                made.write(file)
            with gzip.open(path, "rb") as file:
                self.assertEqual(Sketch.read(file), made)
            with open(path, "wb", buffering=0) as file:
                file.write(b"before")
                made.write(file)
            with open(path, "rb") as file:
                self.assertEqual((file.read(6), Sketch.read(file)), (b"before", made))
            with open(path, "rb") as file, self.assertRaises(ImageError) as caught:
                Sketch.read(file)
            self.assertEqual((caught.exception.reason, caught.exception.place), ("family", path))
        for data, reason in ((b"", "truncated"), (made.to_bytes() * 2, "trailing")):
            with self.assertRaises(ImageError) as caught:
                Sketch.read(io.BytesIO(data))
            self.assertEqual((caught.exception.reason, caught.exception.place), (reason, None))
        for call, mode in ((Sketch.read, "rb"), (made.write, "wb")):
            with self.assertRaisesRegex(TypeError, f"a file of bytes, not of text: open it with the mode '{mode}'"):
                call(io.StringIO())

    def test_a_file_that_takes_a_part(self):
        """A file may write a part of what it is given, and the rest is written, too."""
        class Slow(io.RawIOBase):
            taken = b""

            def write(self, data):
                self.taken += bytes(data[:1000])
                return min(len(data), 1000)

        made, file = self.filled(), Slow()
        made.write(file)
        self.assertEqual(file.taken, made.to_bytes())

    def test_format(self):
        made = Sketch()
        made.update_many(range(5000))
        self.assertEqual(f"{made:.0f} {made:,.1f} {made:10.2e}", "{0:.0f} {0:,.1f} {0:10.2e}".format(made.estimate()))
        self.assertEqual((f"{made}", f"{made!r:.7}"), (repr(made), "<Sketch"))
        self.assertRaises(ValueError, format, made, "x!")

    def test_repr(self):
        self.assertEqual(repr(Sketch(10)), "<Sketch lg_k=10 width=8: list, 0 coupons>")
        about = r"^<Sketch lg_k=12 width=8: registers, about (19|20),\d\d\d values>$"
        self.assertRegex(repr(self.filled()), about)
        inner = "<Sketch lg_k=9 width=4: list, 0 coupons>"
        self.assertEqual(repr(SketchUnion(9, 4)), f"<SketchUnion of 0 sketches: {inner}>")

    def test_largest(self):
        for width in (4, 6, 8):
            sketch = self.filled(21, width, 300_000)
            self.assertEqual(sketch.stage, "registers")
            self.assertEqual(union_of([sketch, sketch], 21, width), sketch)
            self.assertEqual(sketch.fold(12), self.filled(12, width, 300_000))


class UnionTest(unittest.TestCase):
    def setUp(self):
        source = random.Random(5)
        self.sketches = []
        for number in range(700):
            sketch = Sketch(source.choice((11, 12, 12, 13)), source.choice((4, 6, 8)))
            count = source.choice((0, 3, 50, 3000 if number % 5 == 0 else 0))
            sketch.update_many(source.getrandbits(40) for _ in range(count))
            self.sketches.append(sketch)

    def test_ways(self):
        for lg_max_k, width in ((12, 8), (10, 4), (21, 6)):
            wanted = union_of(self.sketches, lg_max_k, width)
            self.assertEqual(wanted.lg_k, min(lg_max_k, 11))
            made = SketchUnion(lg_max_k, width)
            self.assertEqual((made.lg_max_k, made.width), (lg_max_k, width))
            for sketch in self.sketches:
                made.update(sketch)
            self.assertEqual(made.sketch(), wanted)
            made.update_many(self.sketches[::-1])
            self.assertEqual(made.sketch(), wanted)
            images = (bytes(sketch) for sketch in self.sketches[::-1])
            self.assertEqual(union_of(images, lg_max_k, width), wanted)
            even, odd = self.sketches[::2], self.sketches[1::2]
            halves = [union_of(even, lg_max_k), union_of(odd, lg_max_k, 4)]
            self.assertEqual(union_of(halves, lg_max_k, width), wanted)

    def test_of_none(self):
        self.assertEqual(union_of([], 10), Sketch(10))
        self.assertEqual(SketchUnion(10).sketch(), Sketch(10))
        made = SketchUnion(10)
        made.update_many([])
        self.assertEqual(made.sketch(), Sketch(10))

    def test_number_of_a_bad_image(self):
        images = [sketch.to_bytes() for sketch in self.sketches]
        for number in (0, 1, 7, 8, 9, 63, 64, 65, 350, 699):
            bad = [*images[:number], images[number][:6], *images[number + 1 :]]
            made = SketchUnion(12)
            made.update(images[0])
            before = made.sketch()
            for call in (lambda images: union_of(images, 12), made.update_many):
                with self.assertRaises(ImageError) as caught:
                    call(bad)
                error = caught.exception
                self.assertEqual((error.reason, error.number), ("truncated", number))
            self.assertEqual(made.sketch(), before)

    def test_bad_update(self):
        made = SketchUnion()
        with self.assertRaises(ImageError) as caught:
            made.update(EMPTY[:7])
        self.assertEqual((caught.exception.reason, caught.exception.number), ("truncated", None))
        made.update(ONE)
        self.assertEqual(made.sketch().num_coupons, 1)


class AccessorsTest(unittest.TestCase):
    """What sketches, unions and registers have alike."""

    def test_alike(self):
        sketch, union, registers = Sketch(), SketchUnion(), Registers()
        for made in (sketch, union, registers):
            self.assertTrue(made.is_empty)
        sketch.update_many(range(20_000))
        union.update(sketch)
        registers.merge(sketch)
        for made in (union, registers):
            self.assertFalse(made.is_empty)
            self.assertEqual(made.lg_k, 12)
            self.assertEqual(made.estimate(), sketch.estimate())
            self.assertEqual(made.to_bytes(), sketch.to_bytes())
            self.assertEqual(made.relative_standard_error(), sketch.relative_standard_error())
            for deviations in (1, 2, 3):
                bounds = made.bounds(deviations)
                self.assertEqual(bounds, sketch.bounds(deviations))
                one_by_one = made.lower_bound(deviations), made.upper_bound(deviations)
                self.assertEqual(one_by_one, bounds)
        for made in (sketch, union, registers):
            for wrong in (0, 4, 2.0, "2", None):
                with self.assertRaisesRegex(ArgumentError, "1, 2 or 3 deviations, not "):
                    made.bounds(wrong)
            lg_k = made.lg_k
            made.reset()
            self.assertTrue(made.is_empty)
            self.assertEqual(made.lg_k, lg_k)
        self.assertEqual((sketch, union.sketch()), (Sketch(), Sketch()))

    def test_values_of_a_union(self):
        union, wanted = SketchUnion(), Sketch(14, 4)
        union.update_values(["ann"])
        self.assertEqual((union.lg_k, union.sketch().num_coupons), (12, 1))
        union.reset()
        union.update(Sketch(14, 4))
        wanted.update_many(range(500))
        union.update_values(range(500))
        self.assertEqual((union.sketch(), union.sketch().width), (wanted, 4))
        bounded = SketchUnion(9)
        bounded.update_values(range(3000))
        self.assertEqual((bounded.lg_k, bounded.sketch().lg_k), (9, 9))

    def test_reset_forgets_values_that_wait(self):
        sketch = Sketch(10, 4)
        sketch.update("x")
        sketch.reset()
        self.assertEqual((sketch, sketch.to_bytes()), (Sketch(10, 4), Sketch(10, 4).to_bytes()))

    def test_sizes(self):
        for lg_k in (4, 12, 21):
            for width in (8, 6):
                sketch = Sketch(lg_k, width)
                sketch.update_many(range(4 << lg_k))
                self.assertEqual(len(sketch.to_bytes()), Sketch.max_bytes(lg_k, width))
            self.assertGreater(Sketch.max_bytes(lg_k, 4), Sketch.max_bytes(lg_k, 8))
        far = Sketch(10, 4)
        for slot in range(1, 1 << 10):      # all but one are exceptions
            far.add_coupon(slot, 63)
        self.assertEqual(len(far.to_bytes()), Sketch.max_bytes(10, 4))
        for wrong in ((3, 8), (12, 5)):
            with self.assertRaises(ArgumentError):
                Sketch.max_bytes(*wrong)

    def test_any_buffer(self):
        image = Sketch().to_bytes()
        with mmap.mmap(-1, len(image)) as mapped:
            mapped[:] = image
            for shown in (image, bytearray(image), memoryview(image), array("B", image), mapped):
                self.assertEqual(Sketch.from_bytes(shown), Sketch())
                self.assertTrue(is_image(shown))
                self.assertEqual(union_of([shown]), Sketch())

    def test_bytes_that_are_longer_than_they_are(self):
        """A derived type is read by its memory, whatever it says of its length."""
        class Longer(bytes):
            def __len__(self):
                return 1 << 40

            def __bytes__(self):
                return self

        class LongerArray(bytearray):
            def __len__(self):
                return 1 << 40

        counted = Sketch()
        counted.update_many(range(100))
        image = counted.to_bytes()
        header = Sketch.from_bytes(image).fold(4).to_bytes()[:40]
        announced = header[:3] + bytes([21]) + header[4:]       # of two megabytes, which aren't there
        for kind in (Longer, LongerArray):
            self.assertEqual(fault_of(kind(announced)), "truncated")
            self.assertEqual(Sketch.from_bytes(kind(image)).to_bytes(), image)
            self.assertEqual(union_of([kind(image)]).to_bytes(), image)
            union = SketchUnion()
            union.update(kind(image))
            union.update_many([kind(image)])
            self.assertEqual(union.to_bytes(), image)
            self.assertRaises(ImageError, Sketch.from_bytes, kind(announced))
            self.assertRaises(ImageError, union_of, [kind(announced)])
            registers = Registers()
            registers.merge(kind(image))
            self.assertEqual(registers.to_sketch().histogram(), counted.histogram())
            self.assertEqual(coupon(kind(b"abc")), coupon(b"abc"))
            self.assertEqual(list(coupons([kind(b"abc"), kind(b"")])), [coupon(b"abc"), coupon(b"")])
            one, two = Sketch(), Sketch()
            one.update(kind(b"abc"))
            one.update_bytes(kind(b"abc"), [1, 3])
            two.update_many([b"abc", b"a", b"bc"])
            self.assertEqual(one, two)

    def test_one_image_is_not_many(self):
        for one in (EMPTY, bytearray(EMPTY), memoryview(EMPTY), Sketch()):
            for call in (union_of, SketchUnion().update_many):
                with self.assertRaisesRegex(TypeError, "^expected many sketches, not one "):
                    call(one)


class ErrorsTest(unittest.TestCase):
    def test_kinds(self):
        for kind in (ImageError, ArgumentError, PrecisionError):
            self.assertTrue(issubclass(kind, HllError) and issubclass(kind, ValueError))
        self.assertFalse(issubclass(HllError, ValueError))

    def test_pickles(self):
        images = ImageError("count"), ImageError("count", 7), ImageError("count", None, "a/b.hll")
        for error in (*images, ArgumentError("an lg_k"), HllError("x")):
            again = pickle.loads(pickle.dumps(error))
            self.assertIs(type(again), type(error))
            self.assertEqual((str(again), vars(again)), (str(error), vars(error)))
        count = "count (a count is above its bound, or not the number of filled buckets)"
        self.assertEqual(str(ImageError("count", 7)), f"images[7] is rejected: {count}")
        self.assertEqual(str(ImageError("count")), f"image is rejected: {count}")
        words = f"$'a\\nb.hll': image is rejected: {count}"
        self.assertEqual(str(ImageError("count", 7, "a\nb.hll")), words)
        for error in (PrecisionError(9, 12), PrecisionError(9, 12, 3, "a/b.hll", "try {least}")):
            again = pickle.loads(pickle.dumps(error))
            self.assertEqual((str(again), vars(again)), (str(error), vars(error)))
        self.assertEqual(str(again), "a/b.hll has lg_k 9 and not 12: try 9")
        self.assertIn("sketches[7] has", str(PrecisionError(9, 12, 7)))

    def test_memory(self):
        """A process with little memory is refused some, and can go on."""
        code = (
            "import resource, sys; sys.path.insert(0, sys.argv[1])\n"
            "from hll_sketches import Sketch\n"
            "sketch = Sketch(21); sketch.update_many(range(400000)); image = bytes(sketch)\n"
            "used = int(open('/proc/self/statm').read().split()[0]) * resource.getpagesize()\n"
            "resource.setrlimit(resource.RLIMIT_AS, (used + 9_000_000, used + 9_000_000))\n"
            "kept = []\n"
            "try:\n    while True: kept.append(Sketch.from_bytes(image))\n"
            "except MemoryError:\n    print('refused')\n"
            "del kept[:]\n"
            "sketch = Sketch(10); sketch.update('x'); print(sketch.num_coupons)\n"
        )
        command = [sys.executable, "-c", code, str(common.PACKAGE)]
        done = subprocess.run(command, capture_output=True, text=True)
        self.assertEqual((done.stdout, done.returncode), ("refused\n1\n", 0), done.stderr)

    def test_refused_memory_loses_nothing(self):
        sketch, union, refuse = Sketch(), SketchUnion(), mock.Mock(side_effect=MemoryError)
        sketch.update("x")
        union.update(sketch)
        with mock.patch.multiple(_library, add_pieces_to_counter=refuse, add_to_counter=refuse):
            for call in (sketch.to_bytes, sketch.estimate, lambda: sketch.update_many(["y"])):
                sketch.update("z")
                with self.assertRaises(MemoryError):
                    call()
        self.assertEqual(sketch.num_coupons, 2)
        large = Sketch()
        large.update_many(range(9999))
        with mock.patch.object(_library, "image_of_counter", side_effect=MemoryError):
            with self.assertRaises(MemoryError):
                union.sketch()
        self.assertEqual(union.sketch().num_coupons, 1)
        union.update_many([sketch, large])
        self.assertEqual(union.sketch(), sketch | large)

    def test_no_library(self):
        code = """
import sys
import tempfile
sys.path.insert(0, sys.argv[1])
from hll_sketches import Sketch, coupon
for call in (Sketch, lambda: coupon("ann"), Sketch):
    try:
        call()
    except ImportError as error:
        print(error)
"""
        for place in ("/nowhere/libhll.so", os.devnull):
            environment = {**os.environ, "HLL_SKETCHES_LIBRARY": place}
            command = [sys.executable, "-c", code, str(common.PACKAGE)]
            done = subprocess.run(command, capture_output=True, text=True, env=environment)
            self.assertEqual((done.returncode, done.stderr), (0, ""))
            lines = done.stdout.splitlines()
            self.assertEqual(len(lines), 3)
            for line in lines:
                self.assertTrue(line.startswith(f"the library {place} can't be used: "), line)


class EstimateTest(unittest.TestCase):
    def test_estimates(self):
        for lg_k in (8, 12, 14):
            for count in (0, 1, 5, 100, 10_000, 200_000):
                sketch = Sketch(lg_k)
                sketch.update_many(range(count))
                estimate, error = sketch.estimate(), sketch.relative_standard_error()
                self.assertLessEqual(abs(estimate - count), 4 * error * count + 1e-9 * count)
                lowers, uppers = zip(*(sketch.bounds(deviations) for deviations in (1, 2, 3)))
                ordered = [*lowers[::-1], estimate, *uppers]
                self.assertEqual(ordered, sorted(ordered))
                if sketch.stage == "registers":
                    self.assertEqual(len(set(ordered)), 7)
                self.assertLess(error, 1.1 / 2 ** (lg_k / 2))
                self.assertEqual(sketch.bounds(), sketch.bounds(2))

    def test_near_exact(self):
        sketch = Sketch(21)
        sketch.update_many(range(100_000))
        self.assertEqual(sketch.stage, "set")
        self.assertLess(abs(sketch.estimate() - 100_000), 20)
        self.assertGreater(sketch.bounds(1)[0], sketch.num_coupons - 1)


class ThreadsTest(unittest.TestCase):
    def run_all(self, calls):
        """Runs the calls at once, each in a thread; what they raised."""
        raised = []

        def run(call):
            try:
                call()
            except BaseException as error:  # noqa: B902
                raised.append(error)

        threads = [threading.Thread(target=run, args=(call,)) for call in calls]
        for thread in threads:
            thread.start()
        for thread in threads:
            thread.join()
        self.assertEqual(raised, [])

    def test_one_sketch(self):
        """Eight threads update one sketch, and read it; no value is lost."""
        sketch, wanted = Sketch(), Sketch()
        wanted.update_many(range(16000))

        def update(thread):
            for value in range(thread * 2000, thread * 2000 + 1900):
                sketch.update(value)
                if value % 20 == 0:
                    self.assertIn(sketch.stage, ("list", "set", "registers"))
            sketch.update_many(range(thread * 2000 + 1900, thread * 2000 + 2000))

        self.run_all([lambda thread=thread: update(thread) for thread in range(8)])
        self.assertEqual(sketch, wanted)

    def test_merges(self):
        """Eight threads merge into one sketch, and into each other."""
        parts = []
        for thread in range(8):
            part = Sketch()
            part.update_many(range(thread * 1000, thread * 1000 + 1000))
            parts.append(part)
        wanted, made, union = union_of(parts), Sketch(), SketchUnion()

        def merge(thread):
            for part in parts:
                made.merge(part)
                union.update(part)
                parts[thread].merge(part)

        self.run_all([lambda thread=thread: merge(thread) for thread in range(8)])
        self.assertEqual((made, union.sketch(), union_of(parts)), (wanted, wanted, wanted))


class PackageTest(unittest.TestCase):
    def test_names(self):
        for name in hll_sketches.__all__:
            self.assertTrue(hasattr(hll_sketches, name), name)
            self.assertTrue(name == "Value" or getattr(hll_sketches, name).__doc__, name)
        for kind in (Sketch, SketchUnion):
            for name in vars(kind):
                if not name.startswith("_"):
                    self.assertTrue(getattr(kind, name).__doc__, name)

    def test_version(self):
        header = (common.ROOT / "bindings" / "c" / "hll.h").read_text("utf-8")
        major, minor, patch = hll_sketches.__version__.split(".")
        for name, number in (("MAJOR", major), ("MINOR", minor), ("PATCH", patch)):
            self.assertIn(f"#define HLL_VERSION_{name} {number}\n", header)


if __name__ == "__main__":
    unittest.main()
