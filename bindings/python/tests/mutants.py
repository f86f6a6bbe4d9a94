# SPDX-License-Identifier: Apache-2.0
"""Images of each stage and width, unchanged or mutated, by a seeded generator."""
import random
import struct

LIST, SET, REGISTERS = range(3)
KINDS = [(stage, width) for stage in (LIST, SET, REGISTERS) for width in (0, 1, 2)]
HEADER = 8


class Mutants:
    """Images of one kind: a stage, and 0, 1 or 2 for four, six or eight bits."""

    def __init__(self, kind, seed):
        self.stage, self.width = kind
        self.random = random.Random(seed)

    def one_in(self, n):
        return self.random.randrange(n) == 0

    def within(self, least, most):
        return self.random.randint(least, most)

    def coupons(self, count):
        """Distinct raw coupons."""
        made = set()
        while len(made) < count:
            made.add(self.within(1, 63) << 26 | self.random.getrandbits(26))
        return list(made)

    def spread(self, words, places):
        """Words in places of which the others are 0."""
        table = [0] * places
        for place, word in zip(self.random.sample(range(places), len(words)), words):
            table[place] = word
        return table

    def flags(self, flags):
        """The flags with the bits that have no meaning set at random."""
        byte = self.random.getrandbits(8)
        return flags | (byte & ~12 if self.one_in(4) else byte & 16)

    def mode(self):
        """The mode byte with the bits that have no meaning set at random."""
        high = self.random.getrandbits(8) & 0xF0 if self.one_in(4) else 0
        return self.stage | self.width << 2 | high

    def list(self):
        count, compact = self.within(0, 8), self.one_in(2)
        coupons = self.coupons(count)
        places = coupons if compact or count == 0 else self.spread(coupons, 8)
        flags = self.flags((4 if count == 0 else 0) | (8 if compact else 0))
        return bytes([2, 1, 7, self.within(4, 21), 3, flags, count, self.mode()]) + packed(places)

    def set(self):
        lg_k = self.within(8, 12)
        size = self.within(5, lg_k - 3)
        count, compact = self.random.randrange(1 << size), self.one_in(2)
        coupons = self.coupons(count)
        places = coupons if compact else self.spread(coupons, 1 << size)
        flags = self.flags(8 if compact else 0) | (4 if self.one_in(8) else 0)
        header = bytes([3, 1, 7, lg_k, size, flags, self.random.getrandbits(8), self.mode()])
        return header + struct.pack("<I", count) + packed(places)

    def registers(self):
        lg_k = self.within(9, 14) if self.one_in(32) else self.within(4, 8)
        header = bytearray([10, 1, 7, lg_k, *self.random.randbytes(3), self.mode()])
        words = self.random.randbytes(24) + struct.pack("<I", self.within(0, 1 << lg_k))
        if self.width == 0:
            rest = self.four(header, lg_k)
        elif self.width == 1:
            rest = bytes(4) + self.random.randbytes((3 << lg_k) // 4 + 1)
        else:
            rest = bytes(4) + bytes(byte % 64 for byte in self.random.randbytes(1 << lg_k))
        return bytes(header) + words + rest

    def four(self, header, lg_k):
        """The exception count, nibbles and exceptions; the header gets what it says of them."""
        minimum = self.within(0, 63) if self.one_in(8) else self.within(0, 20)
        often = self.random.choice((0, 4, 16))
        exceptions, nibbles = [], bytearray(1 << (lg_k - 1))
        for slot in range(1 << lg_k):
            nibble = self.within(0, min(14, 63 - minimum))
            if minimum + 15 <= 63 and often and self.one_in(64 // often):
                nibble = 15
                high = self.random.getrandbits(26 - lg_k) << lg_k
                exceptions.append(self.within(minimum + 15, 63) << 26 | high | slot)
            nibbles[slot // 2] |= nibble << slot % 2 * 4
        self.random.shuffle(exceptions)
        compact = self.one_in(2)
        header[5] = header[5] & ~8 | (8 if compact else 0)
        header[6] = minimum
        count = len(exceptions)
        if not compact and exceptions:
            header[4] = (count - 1).bit_length() + self.within(0, 2)
            exceptions = self.spread(exceptions, 1 << header[4])
        return struct.pack("<I", count) + nibbles + packed(exceptions)

    def mutate(self, image):
        """Changes an image of at least a header."""
        length = len(image)
        # Where words of four bytes begin: coupons, or the numbers of registers.
        start = min(length, HEADER + 4 if image[7] % 4 == SET else HEADER)
        words = max(1, (length - start) // 4)
        first, second = (start + 4 * self.random.randrange(words) for _ in range(2))
        whole = max(first, second) + 4 <= length
        which = self.random.randrange(10)
        if which == 0:
            bit = self.random.randrange(8 * length)
            image[bit // 8] ^= 1 << bit % 8
        elif which == 1:
            image[self.random.randrange(8)] = self.random.getrandbits(8)
        elif which == 2:
            del image[self.random.randrange(length + 1) :]
        elif which == 3:
            self.change_count(image)
        elif which in (4, 5) and whole:
            swapped = image[first : first + 4], image[second : second + 4]
            image[second : second + 4], image[first : first + 4] = swapped
        elif which == 6 and whole:
            image[second : second + 4] = image[first : first + 4]
        elif which == 7:
            image[4] = self.within(0, 27) if self.one_in(2) else self.random.getrandbits(8)
        elif which == 8:
            image += self.random.randbytes(self.within(1, 40))
        elif which == 9:
            image[self.random.randrange(length)] = self.random.getrandbits(8)

    def change_count(self, image):
        """A count by one more or less, or any number."""
        of_registers = 32 + 4 * self.random.randrange(2), 4
        place, size = {LIST: (6, 1), SET: (8, 4)}.get(image[7] % 4, of_registers)
        if len(image) < place + size:
            return
        which = self.random.randrange(3)
        if which < 2:
            image[place] = (image[place] + (1, -1)[which]) % 256
        else:
            image[place : place + size] = self.random.randbytes(size)

    def image(self):
        """An image, unchanged or mutated up to three times."""
        image = bytearray((self.list, self.set, self.registers)[self.stage]())
        for _ in range(self.random.choice((0, 1, 1, 1, 2, 3))):
            if len(image) >= HEADER:
                self.mutate(image)
        return bytes(image)


def packed(words):
    return struct.pack(f"<{len(words)}I", *words)
