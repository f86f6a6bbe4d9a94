# SPDX-License-Identifier: Apache-2.0
"""`./check foreign` reads images in the forms that other libraries write, and finds those that are wrong."""
import pathlib
import struct
import subprocess
import sys
import tempfile
import unittest

from common import ROOT
from hll_sketches import Sketch
from plain_hash import coupon_of
from plain_images import image_of, list_image, set_image

LG_K = 12
EMPTY = bytes([2, 1, 7, LG_K, 3, 12, 0, 8])    # with the flags of compact and empty images


def coupons_of(count):
    return [coupon_of(struct.pack("<q", value)) for value in range(count)]


def registers_of(coupons):
    registers = [0] * (1 << LG_K)
    for coupon in coupons:
        slot = coupon % (1 << LG_K)
        registers[slot] = max(registers[slot], coupon >> 26)
    return registers


def with_hip(image, hip):
    """The image with a HIP estimate, in order."""
    return image[:5] + bytes([image[5] & ~16]) + image[6:8] + struct.pack("<d", hip) + image[16:]


def updatable_list(coupons):
    """The image of a list with all its buckets, in the order of adding."""
    image = bytearray(list_image(LG_K, []))
    image[5], image[6] = 0, len(coupons)
    return bytes(image) + struct.pack("<8I", *(coupons + [0] * (8 - len(coupons))))


def set_in_table_order(coupons, lg_size):
    """The compact image of a set whose coupons don't ascend."""
    image = set_image(LG_K, lg_size, coupons)
    return image[:12] + struct.pack("<%dI" % len(coupons), *sorted(coupons, key=lambda it: (it * 2654435761) % 2**32))


class Foreign(unittest.TestCase):
    def setUp(self):
        kept = tempfile.TemporaryDirectory()
        self.addCleanup(kept.cleanup)
        self.folder = pathlib.Path(kept.name)

    def write(self, name, image):
        file = self.folder / name
        file.parent.mkdir(exist_ok=True)
        file.write_bytes(image)

    def run_check(self):
        done = subprocess.run([sys.executable, "-B", ROOT / "tests" / "foreign.py", self.folder], capture_output=True, text=True)
        return done.returncode, done.stdout + done.stderr

    def test_reads_the_forms_of_others(self):
        for width in (4, 6, 8):
            bits = {4: 0, 6: 4, 8: 8}[width]

            def at_width(image):
                return image[:7] + bytes([image[7] & 3 | bits]) + image[8:]

            self.write(f"java/hll{width}_n0_java.sk", at_width(EMPTY))
            self.write(f"java/hll{width}_n5_java.sk", at_width(updatable_list(coupons_of(5))))
            self.write(f"cpp/hll{width}_n100_cpp.sk", at_width(set_in_table_order(coupons_of(100), 8)))
            for count in (3_000, 50_000):
                image = image_of(LG_K, width, registers_of(coupons_of(count)), None if width != 4 else 0)
                self.write(f"cpp/hll{width}_n{count}_cpp.sk", with_hip(image, count * 1.01))
        self.write("theta_n10_java.sk", bytes([1, 3, 3, 0, 0, 30, 147, 204]))
        status, said = self.run_check()
        self.assertEqual((status, said.splitlines()[-1]), (0, "15 passed, 0 failed"), said)
        self.assertIn("| 4 | 12 | registers | 50000 |", said)
        self.assertIn(" 50500.0 | right |", said)
        self.assertIn("| theta_n10_java.sk | 8 | | | | | | | | | family |", said)

    def test_finds_what_is_wrong(self):
        image = Sketch(LG_K, 8)
        image.update_many(range(20_000))
        self.write("hll8_n20000_java.sk", image.to_bytes())
        self.write("hll6_n20000_java.sk", image.to_bytes())
        self.write("hll8_n30000_java.sk", image.to_bytes())
        self.write("hll8_n20000_cut.bin", image.to_bytes()[:-1])
        self.write("other.bin", image.to_bytes())
        self.write("other.txt", b"not read")
        status, said = self.run_check()
        self.assertEqual((status, said.splitlines()[-1]), (1, "2 passed, 3 failed"), said)
        self.assertIn("has 8 bits a register", said)
        self.assertIn("the number of values is outside the bounds", said)
        self.assertIn("| hll8_n20000_cut.bin | 4135 | | | | | | | | | truncated |", said)

    def test_says_how_to_call_it(self):
        status, said = self.run_check()
        self.assertEqual((status, "no *.sk or *.bin file" in said), (1, True), said)


if __name__ == "__main__":
    unittest.main()
