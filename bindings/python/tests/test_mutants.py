# SPDX-License-Identifier: Apache-2.0
"""Mutated images: `fault_of` answers as a plain reader and as the program do."""
import collections
import subprocess
import unittest

import common
from hll_sketches import ImageError, Sketch, _library, fault_of, union_of
from mutants import KINDS, Mutants
from plain_reader import answer, read

READ_PLAINLY, BY_PROGRAM = 2500, 250
REGISTERS = Sketch(10)
REGISTERS.update_many(range(2000))


def program_answer(program, image):
    """The word of the program, and the image that it prints."""
    plan = b"image %s\n" % image.hex().encode()
    done = subprocess.run([program], input=plan, capture_output=True)
    if done.returncode == 0:
        return "accepted", bytes.fromhex(done.stdout.decode())
    return done.stderr.decode().strip().replace("line 1: image ", ""), b""


class MutantsTest(unittest.TestCase):
    def compare_merged(self, image, word):
        """A mutant is merged into registers as the sketch that it is read as, or is refused."""
        if word == "accepted":
            read = Sketch.from_bytes(image)
            merged = union_of([REGISTERS, image], 10), union_of([REGISTERS, read], 10)
            self.assertEqual(*merged, image.hex())
            return
        with self.assertRaises(ImageError) as caught:
            union_of([REGISTERS, image], 10)
        self.assertEqual((caught.exception.reason, caught.exception.number), (word, 1), image.hex())

    def whole(self, image):
        """An image without the bytes after it, with which it is rejected. The plain reader and plans don't read them."""
        if fault_of(image) != "trailing":
            return image
        with self.assertRaisesRegex(ImageError, "trailing"):
            Sketch.from_bytes(image)
        return image[: _library.head(image).size]

    def test_plain_reader(self):
        words = collections.Counter()
        for number, kind in enumerate(KINDS):
            mutants = Mutants(kind, number)
            for _ in range(READ_PLAINLY):
                image = mutants.image()
                word, value = answer(image)
                image = self.whole(image)
                words[word] += 1
                self.assertEqual(fault_of(image) or "accepted", word, image.hex())
                if word == "accepted":
                    self.assertEqual(read(Sketch.from_bytes(image).to_bytes()), value, image.hex())
                else:
                    with self.assertRaises(ImageError) as caught:
                        Sketch.from_bytes(image)
                    error = caught.exception
                    self.assertEqual((error.reason, error.number), (word, None))
                self.compare_merged(image, word)
        print(f"{sum(words.values())} mutants read plainly:", dict(words.most_common()))
        self.assertEqual(len(words), 12, "each answer")

    def test_program(self):
        program = common.program()
        if program is None:
            self.skipTest("the program hll_merge is not built")
        ran = 0
        for number, kind in enumerate(KINDS):
            mutants = Mutants(kind, 100 + number)
            for _ in range(BY_PROGRAM):
                image = mutants.image()
                if not image:
                    continue
                word, printed = program_answer(program, image)
                image = self.whole(image)
                self.assertEqual(fault_of(image) or "accepted", word, image.hex())
                if word == "accepted":
                    self.assertEqual(Sketch.from_bytes(image).to_bytes(), printed, image.hex())
                ran += 1
        print(f"{ran} mutants answered by the program")
        self.assertGreater(ran, 2000)


if __name__ == "__main__":
    unittest.main()
