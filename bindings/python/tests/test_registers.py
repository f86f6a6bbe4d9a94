# SPDX-License-Identifier: Apache-2.0
"""Registers that a program keeps, beside sketches and registers that are made plainly."""
import copy
import mmap
import pickle
import random
import threading
import unittest
from array import array
from unittest import mock

import common  # noqa: F401, for the path
from hll_sketches import ArgumentError, ImageError, PrecisionError, Registers, Sketch, coupons
from hll_sketches import _library, union_of

ROUNDS = 300


def plain_registers(lg_k, words):
    """The greatest value of the coupons of each slot."""
    made = bytearray(1 << lg_k)
    for word in words:
        slot, value = word % 2**26 % len(made), word >> 26
        made[slot] = max(made[slot], value)
    return bytes(made)


def sketch_with(lg_k, width, values):
    made = Sketch(lg_k, width)
    made.update_many(values)
    return made


class JoinTest(unittest.TestCase):
    def test_random_unions(self):
        """Values, coupons, sketches, images and registers, in random turns."""
        numbers = random.Random(11)
        for _ in range(ROUNDS):
            lg_k = numbers.randint(4, 14)
            made, words, sketches = Registers(lg_k), [], []
            for _ in range(numbers.randint(1, 8)):
                count = numbers.choice((0, 1, 5, 20, 300, 3000))
                values = [numbers.getrandbits(20) for _ in range(count)]
                words += coupons(values)
                kind = numbers.randrange(6)
                other = sketch_with(numbers.randint(lg_k, 15), numbers.choice((4, 6, 8)), values)
                sketches.append(other)
                if kind == 0:
                    made.update_many(values)
                elif kind == 1:
                    for value in values[:50]:
                        made.update(value)
                    made.update_many(values[50:])
                elif kind == 2:
                    made.add_coupons(coupons(values))
                elif kind == 3:
                    made.merge(other)
                elif kind == 4:
                    made.merge(memoryview(other.to_bytes()))
                else:
                    others = Registers(other.lg_k)
                    others.update_many(values)
                    made.merge(others)
            self.assertEqual(bytes(made.memory), plain_registers(lg_k, words))
            union = union_of(sketches, lg_k)
            self.assertTrue(made.to_sketch().agrees_with(union))
            if union.stage == "registers":
                for width in (4, 6, 8):
                    image = union.convert(width).to_bytes()
                    self.assertEqual(made.to_bytes(width), image)
                self.assertEqual(made.estimate(), union.estimate())
                self.assertEqual(made.bounds(3), union.bounds(3))
            self.assertEqual(made.histogram(), made.to_sketch().histogram())

    def test_small_sketches_are_joined_at_any_lg_k(self):
        made, small = Registers(14), sketch_with(4, 8, range(5))
        made.merge(small)
        self.assertEqual(bytes(made.memory), plain_registers(14, coupons(range(5))))

    def test_fewer_registers(self):
        made, before = Registers(12), plain_registers(12, coupons(range(40)))
        made.update_many(range(40))
        fewer = sketch_with(10, 6, range(5000))
        others = Registers(10)
        others.merge(fewer)
        for other in (fewer, fewer.to_bytes(), others):
            with self.assertRaises(PrecisionError) as raised:
                made.merge(other)
            self.assertEqual((raised.exception.lg_k, raised.exception.other_lg_k), (10, 12))
            self.assertEqual(bytes(made.memory), before)
        folded = made.fold(10)
        folded.merge(fewer)
        self.assertEqual(folded.to_sketch(), union_of([made.to_sketch(), fewer], 10, 8))

    def test_empty_ones_change_nothing(self):
        made = Registers(12)
        made.merge(Sketch(4))
        made.merge(Registers(4))
        made.add_coupons([])
        given = array("I")
        made.add_coupons(given)
        made.update_many([])
        self.assertEqual((bytes(made.memory), len(given)), (bytes(4096), 0))
        self.assertEqual(made.estimate(), 0.0)

    def test_refusals_change_nothing(self):
        made = Registers(4)
        made.update("x")
        before = bytes(made.memory)
        for image, reason in ((b"", "truncated"), (sketch_with(12, 8, range(9000)).to_bytes()[:-1],
                                                   "truncated"), (bytes(8), "preamble")):
            with self.assertRaises(ImageError) as raised:
                made.merge(image)
            self.assertIn(raised.exception.reason, (reason, "family", "version"))
        for words in ([5], [1 << 26, 2**26 - 1], [2**32], [-1]):
            with self.assertRaises(ArgumentError):
                made.add_coupons(words)
        for wrong in (None, 5, "text", Registers):
            with self.assertRaises(TypeError):
                made.merge(wrong)
        with self.assertRaises(TypeError):
            made.update_many("text")
        self.assertEqual(bytes(made.memory), before)

    def test_registers_over_the_same_memory(self):
        """Joined with themselves, and with others that share a part of their bytes."""
        made = Registers(6)
        made.update_many(range(200))
        before = bytes(made.memory)
        made.merge(made)
        self.assertEqual(bytes(made.memory), before)
        front = Registers.over(made.memory[:32])
        front.merge(made)
        self.assertEqual(bytes(front.memory), bytes(map(max, before[:32], before[32:])))
        self.assertEqual(bytes(made.memory[32:]), before[32:])

    def test_an_array_keeps_its_size_meanwhile(self):
        """So that no other thread takes away what is read."""
        words, made = coupons(range(50)), Registers(6)
        if not isinstance(words, array):
            words = array("I", words)
        add, refused = _library.add_coupons_to, []

        def add_beside(place, taken):
            with self.assertRaises(BufferError):
                taken.append(1)
            refused.append(len(taken))
            add(place, taken)

        with mock.patch.object(_library, "add_coupons_to", add_beside):
            made.add_coupons(words)
        self.assertEqual(refused, [50])
        self.assertEqual(bytes(made.memory), plain_registers(6, words))
        words.append(1 << 26)

    def test_lg_k(self):
        for lg_k in range(4, 22):
            self.assertEqual((Registers(lg_k).lg_k, len(Registers(lg_k).memory)), (lg_k, 1 << lg_k))
        for lg_k in (-1, 3, 22, 256 + 12, 2**64):
            self.assertRaises(ArgumentError, Registers, lg_k)

    def test_folds(self):
        made = Registers(10)
        made.update_many(range(3000))
        before = bytes(made.memory)
        for lg_k in range(4, 11):
            folded = made.fold(lg_k)
            self.assertEqual(bytes(folded.memory), plain_registers(lg_k, coupons(range(3000))))
            folded.update("more")
        self.assertEqual(bytes(made.memory), before)
        for lg_k in (3, 11, 22):
            self.assertRaises(ArgumentError, made.fold, lg_k)

    def test_widths(self):
        made = Registers(5)
        made.update_many(range(100))
        for width in (0, 5, 7, 9, 256 + 8):
            self.assertRaises(ArgumentError, made.to_bytes, width)
        for deviations in (0, 4):
            self.assertRaises(ArgumentError, made.bounds, deviations)


class MemoryTest(unittest.TestCase):
    """Registers over memory of the caller."""

    def test_kinds_of_memory(self):
        expected = plain_registers(12, coupons(range(100)))
        for memory in (bytearray(4096), array("B", bytes(4096)), mmap.mmap(-1, 4096),
                       memoryview(bytearray(8192))[1000:5096]):
            made = Registers.over(memory)
            made.update_many(range(100))
            self.assertEqual(bytes(memory), expected)
            again = Registers.over(memory)
            self.assertEqual(again, made)
            self.assertEqual(again.estimate(), made.estimate())

    def test_shared_memory(self):
        try:
            from multiprocessing import shared_memory

            room = shared_memory.SharedMemory(create=True, size=4096)
        except (ImportError, OSError) as why:
            self.skipTest(f"there is no shared memory: {why}")
        try:
            made = Registers.over(room.buf[:4096])
            made.update_many(range(100))
            self.assertEqual(bytes(room.buf[:4096]), plain_registers(12, coupons(range(100))))
            del made
        finally:
            room.close()
            room.unlink()

    def test_other_memory(self):
        for wrong in (bytes(16), "text", 16, None, memoryview(bytes(16)), array("I", [0] * 16),
                      memoryview(bytearray(32))[::2]):
            with self.assertRaises(TypeError):
                Registers.over(wrong)
        for count in (0, 1, 8, 15, 17, 24, 2**21 + 1, 2**22):
            with self.assertRaises(ArgumentError):
                Registers.over(bytearray(count))

    def test_size_is_fixed(self):
        memory = bytearray(16)
        made = Registers.over(memory)
        with self.assertRaises(BufferError):
            memory.append(0)
        del made
        memory.append(0)

    def test_bytes_above_63(self):
        memory = bytearray(16)
        made, good = Registers.over(memory), Registers(4)
        memory[3] = 64
        made.update_many(range(10))
        made.merge(sketch_with(4, 8, range(1000)))
        self.assertEqual(memory[3], 64)
        for call in (made.estimate, made.histogram, made.to_bytes, made.bounds, made.to_sketch,
                     lambda: made.fold(4), lambda: good.merge(made)):
            self.assertRaises(ArgumentError, call)
        self.assertEqual(bytes(good.memory), bytes(16))


class ObjectTest(unittest.TestCase):
    def test_copies(self):
        made = Registers(8)
        made.update_many(range(1000))
        for copied in (made.copy(), copy.copy(made), copy.deepcopy(made),
                       pickle.loads(pickle.dumps(made))):
            self.assertEqual(copied, made)
            copied.update_many(range(1000, 2000))
            self.assertNotEqual(copied, made)
        self.assertNotEqual(made, Registers(9))
        self.assertNotEqual(made, bytes(made.memory))
        self.assertRaises(TypeError, hash, made)
        self.assertEqual(repr(made), "<Registers lg_k=8>")

    def test_threads(self):
        """Threads that add at once lose nothing."""
        made = Registers(4)
        parts = [range(n, 40_000, 8) for n in range(8)]
        working = [threading.Thread(target=made.update_many, args=[part]) for part in parts]
        for thread in working:
            thread.start()
        for thread in working:
            thread.join()
        self.assertEqual(bytes(made.memory), plain_registers(4, coupons(range(40_000))))


if __name__ == "__main__":
    unittest.main()
