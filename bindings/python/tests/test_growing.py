# SPDX-License-Identifier: Apache-2.0
"""A sketch that changes is a counter, and its images are those that hll_image_add makes of the image before."""
import ctypes
import pickle
import random
import struct
import subprocess
import sys
import threading
import unittest
from unittest import mock

import common
from hll_sketches import ArgumentError, ImageError, Sketch, _library, coupons, union_of
from plain_images import image_of, list_image, set_image, words_of
from test_sharing import Allocator, sketch

CASES = 800
WIDTHS = (4, 6, 8)
COMPACT, OUT_OF_ORDER = 8, 16


def image_add(image, values):
    """What the call of the C library makes of an image and byte strings."""
    call = ctypes.CDLL(_library._places()[0]).hll_image_add
    size, ends = ctypes.c_size_t(), _library.ends_of(values)
    out = ctypes.create_string_buffer(Sketch.max_bytes(image[3], 4) + 100)
    given = image, ctypes.c_size_t(len(image)), b"".join(values), ctypes.c_size_t(sum(map(len, values)))
    places = ctypes.c_void_p(_library.address_of(ends)), ctypes.c_size_t(len(values))
    status = call(*given, *places, out, ctypes.c_size_t(len(out)), ctypes.byref(size))
    assert status == 0, status
    return out.raw[: size.value]


def buckets(found, count):
    """Coupons in buckets of their table, of which the others are empty."""
    return struct.pack("<%dI" % count, *(found + [0] * (count - len(found))))


def updatable(image, found):
    """An image of these coupons or exceptions with all buckets of their table."""
    flags, stage = image[5] & ~COMPACT, image[7] & 3
    if stage == 2:
        lg_size = 4 + len(found).bit_length()
        table = buckets(found, 1 << lg_size) if found else b""
        return image[:4] + bytes([lg_size, flags]) + image[6 : len(image) - 4 * len(found)] + table
    head = image[:5] + bytes([flags]) + image[6 : 12 if stage else 8]
    return head + buckets(found, 1 << image[4])


def hip_of(image):
    """An image of registers with a HIP estimate."""
    return image[:5] + bytes([image[5] & ~OUT_OF_ORDER]) + image[6:8] + struct.pack("<d", 12345.5) + image[16:]


class GrowingTest(unittest.TestCase):
    def setUp(self):
        self.random = random.Random(20261)

    def values(self, *counts):
        return [b"%d" % self.random.randrange(10**6) for _ in range(self.random.choice(counts))]

    def coupon_image(self):
        """An image of coupons as another program may write it: in a full list or a large table, and in no order."""
        lg_k, width = self.random.choice((8, 10, 12)), self.random.choice(WIDTHS)
        values = self.values(1, 5, 7, 8, 9, 20)
        found = list(set(coupons(values)))
        self.random.shuffle(found)
        image = list_image(lg_k, found) if len(found) <= 8 else set_image(lg_k, self.random.randint(5, lg_k - 3), found)
        image = image[: len(image) - 4 * len(found)] + b"".join(words_of([one]) for one in found)
        image = image[:7] + bytes([image[7] & 3 | (width - 4) // 2 << 2]) + image[8:]
        return (updatable(image, found) if self.random.randrange(2) else image), values

    def register_image(self):
        """An image of registers as another program may write it, with a HIP estimate, other estimator fields or none."""
        lg_k, width = self.random.choice((4, 7, 8, 10)), self.random.choice(WIDTHS)
        values = self.values(100, 900, 5000)
        registers = [0] * 2**lg_k
        for coupon in coupons(values):
            registers[coupon % 2**lg_k] = max(registers[coupon % 2**lg_k], coupon >> 26)
        if self.random.randrange(3) == 0:
            registers[0] = 50
        image = image_of(lg_k, width, registers)
        exceptions = struct.unpack_from("<I", image, 36)[0]
        if self.random.randrange(2):
            image = updatable(image, list(struct.unpack(f"<{exceptions}I", image[len(image) - 4 * exceptions :])))
        kind = self.random.randrange(3)
        if kind:
            image = Sketch.from_bytes(image).to_bytes()
        return (hip_of(image) if kind == 2 else image), values

    def sketch(self):
        """A sketch, and values that it has."""
        kind = self.random.randrange(3)
        if kind == 0:
            return Sketch(self.random.choice((4, 7, 8, 12)), self.random.choice(WIDTHS)), []
        image, values = self.coupon_image() if kind == 1 else self.register_image()
        return Sketch.from_bytes(image), values

    def change(self, made, held):
        """Adds values in one of the ways, and returns them."""
        some = self.values(0, 1, 2, 3, 30, 300, 3000) + [one for one in held if self.random.randrange(4) == 0][:9]
        some = self.random.choice((some, held[:3]))
        way = self.random.randrange(3)
        if way == 0:
            made.update_many(some)
        elif way == 1:
            made.update_bytes(b"".join(some), _library.ends_of(some))
        else:
            for value in some:
                made.update(value)
        return some

    def check(self, made, image):
        """A sketch is that of an image, however it is read."""
        plain = Sketch.from_bytes(image)
        facts = [(one.estimate(), one.bounds(3), one.lg_k, one.width) for one in (made, plain)]
        self.assertEqual(*facts)
        if self.random.randrange(2):
            self.assertEqual(made.to_bytes(), image)
            self.assertEqual((made.hip_estimate(), made.stage), (plain.hip_estimate(), plain.stage))

    def test_images(self):
        for _ in range(CASES):
            made, held = self.sketch()
            image = made.copy().to_bytes()
            for _ in range(self.random.randint(1, 4)):
                image = image_add(image, self.change(made, held))
                self.check(made, image)
            self.assertEqual(made.to_bytes(), image)

    def test_coupons(self):
        """A coupon changes a sketch as a value with this coupon does."""
        for count in (0, 6, 7, 50, 3000):
            for width in WIDTHS:
                made, values = Sketch(10, width), [b"%d" % number for number in range(count + 1)]
                made.update_many(values[:-1])
                image = image_add(made.copy().to_bytes(), values[-1:])
                raw = coupons(values[-1:])[0]
                made.add_coupon(raw & 2**26 - 1, raw >> 26)
                self.assertEqual(made.to_bytes(), image)

    def test_what_was_read_is_written(self):
        """An image that didn't change keeps its fields, also where values were added that it has."""
        for _ in range(200):
            image, held = self.register_image()
            before = Sketch.from_bytes(image).to_bytes()
            made = Sketch.from_bytes(image)
            made.estimate(), made.update_many([]), made.update_bytes(b"", [])
            self.assertEqual(made.to_bytes(), before)
            for value in held[:40]:
                made.update(value)
            made.estimate()
            self.assertEqual(made.to_bytes(), image_add(before, held[:40]))

    def test_merges_between_changes(self):
        for width, other_width in ((8, 8), (4, 4), (4, 8)):
            made, part = Sketch(11, width), Sketch(11, other_width)
            made.update_many(range(3000))
            part.update_many(range(2000, 4000))
            made |= part
            made.update("more")
            wanted = image_add(union_of([made.copy(), part]).to_bytes(), [b"more"])
            self.assertEqual((made.to_bytes(), made.width), (wanted, width if width == other_width else 8))
            made.reset()
            self.assertEqual(made, Sketch(11, made.width))
            made.update("again")
            self.assertEqual(made.to_bytes(), image_add(Sketch(11, made.width).to_bytes(), [b"again"]))

    def test_wrong_ends_change_nothing(self):
        for data, ends in ((b"abc", [2, 1]), (b"abc", [4]), (b"x" * 10**5, [7] * 9 + [10**5 + 1])):
            made = Sketch()
            made.update_many(range(50))
            before = made.copy()
            with self.assertRaisesRegex(ArgumentError, "ends have to ascend"):
                made.update_bytes(data, ends)
            self.assertEqual(made, before)


class MemoryTest(unittest.TestCase):
    def counted(self, made):
        """Calls that allocate: for values one by one, for few and for many, and for what reads a counter."""
        def one_by_one():
            for number in range(300):
                made.update(number)

        yield lambda: made.update("x")
        yield one_by_one
        yield lambda: made.update_many(range(1000, 1020))
        yield made.estimate
        yield lambda: made.update_many(range(20_000))
        yield lambda: made.add_coupon(5, 60)
        yield made.to_bytes
        yield lambda: made.update_many(range(30_000, 30_010))

    def test_it_is_freed(self):
        memory = Allocator()
        with memory.used():
            for width in WIDTHS:
                made = Sketch(12, width)
                for call in self.counted(made):
                    call()
                self.assertEqual(len(memory.blocks), 1)
                pickle.dumps(made), made.copy()     # as an image, which takes none
                self.assertEqual(memory.blocks, {})
                made.update("y")
                made.estimate()
                self.assertEqual(len(memory.blocks), 1)
                made.reset()
                self.assertEqual(memory.blocks, {})
                made.update_many(range(50))
                self.assertEqual(len(memory.blocks), 1)
                del made, call
                self.assertEqual(memory.blocks, {})
            self.assertRaises(ImageError, Sketch.from_bytes, b"none")
        self.assertEqual(memory.blocks, {})

    def failed(self, at):
        """Makes the calls while this allocation fails, and again what failed. Returns the number of allocations, that of
        failures, and the image."""
        memory, failures = Allocator(), 0
        memory.fails_at = at
        with memory.used():
            made = Sketch(12)
            for call in self.counted(made):
                try:
                    call()
                except MemoryError:
                    failures += 1
                    call()
            image = made.to_bytes()
            del made, call
        self.assertEqual(memory.blocks, {})
        return memory.requests, failures, image

    def test_each_allocation_fails(self):
        """The call raises MemoryError, and no value is lost that was counted before or is counted again."""
        requests, failures, image = self.failed(0)
        self.assertEqual(failures, 0)
        found = [self.failed(at) for at in range(1, requests + 1)]
        self.assertEqual({one[2] for one in found}, {image})
        self.assertGreater(sum(one[1] for one in found), 3)

    def test_at_the_end_of_python(self):
        """A sketch of a module, and one in a cycle, are freed or left without an error."""
        code = """
import sys
sys.path.insert(0, sys.argv[1])
from hll_sketches import Sketch
kept = Sketch()
kept.update_many(range(10000))
cycle = [Sketch(18)]
cycle.append(cycle)
cycle[0].update_many(range(10000))
print(kept.estimate() > 9000)
"""
        done = subprocess.run([sys.executable, "-c", code, str(common.PACKAGE)], capture_output=True, text=True)
        self.assertEqual((done.returncode, done.stdout, done.stderr), (0, "True\n", ""))


class ThreadsTest(unittest.TestCase):
    def test_no_value_is_lost(self):
        """Threads change one sketch in all ways, while others read it."""
        made, is_over = Sketch(12, 4), threading.Event()

        def read():
            while not is_over.is_set():
                made.to_bytes(), made.estimate(), made.copy(), made.lg_k, made.width

        def change(start):
            for number in range(start, start + 3000):
                made.update(number)
            for at in range(start, start + 9000, 1000):
                made.update_many(range(at, at + 1000))
            part = Sketch(12, 4)
            part.update_many(range(start + 9000, start + 9500))
            made.merge(part)

        readers = [threading.Thread(target=read) for _ in range(2)]
        writers = [threading.Thread(target=change, args=(start,)) for start in range(0, 40_000, 10_000)]
        for one in readers + writers:
            one.start()
        for one in writers:
            one.join()
        is_over.set()
        for one in readers:
            one.join()
        wanted = Sketch(12, 4)
        for start in range(0, 40_000, 10_000):
            wanted.update_many(range(start, start + 9500))
        self.assertEqual(made, wanted)

    def test_others_run_while_many_values_are_hashed(self):
        """The values of a large batch are hashed by a call that lets other threads run."""
        names, made = [], sketch(range(10))
        calls = _library._load()

        class Noted:
            def __getattr__(self, name):
                names.append(name)
                return calls[name]

        with mock.patch.object(_library, "_library", Noted()):
            made.update_many(range(100_000))
        self.assertEqual(set(names), {"hll_coupons", "hll_counter_add_coupons"})
        self.assertIsInstance(calls["hll_coupons"], type(calls["hll_estimate"]))
        self.assertNotIsInstance(calls["hll_coupons"], type(calls["hll_counter_add_coupons"]))


if __name__ == "__main__":
    unittest.main()
