# SPDX-License-Identifier: Apache-2.0
"""Writes images and lines of plans plainly, by docs/FORMAT.md and docs/PLAN.md alone."""
import struct

OUT_OF_ORDER = 16


def words_of(coupons):
    """Coupons as they are written: in ascending raw coupons."""
    return struct.pack("<%dI" % len(coupons), *sorted(coupons))


def list_image(lg_k, coupons):
    """The image of a list of eight bits."""
    return bytes([2, 1, 7, lg_k, 3, 8, len(coupons), 8]) + words_of(coupons)


def set_image(lg_k, lg_size, coupons):
    """The image of a set of eight bits, in a table of 2^lg_size places."""
    return bytes([3, 1, 7, lg_k, lg_size, 8, 0, 9]) + struct.pack("<I", len(coupons)) + words_of(coupons)


def packed(registers, width, least):
    """The bytes of registers of a width; at four bits those of what they are above the least."""
    if width == 8:
        return bytes(registers)
    if width == 6:
        groups = zip(*(registers[place::4] for place in range(4)))
        return b"".join((a | b << 6 | c << 12 | d << 18).to_bytes(3, "little") for a, b, c, d in groups) + b"\0"
    nibbles = bytes(min(value - least, 15) for value in registers)
    return bytes(low | high << 4 for low, high in zip(nibbles[::2], nibbles[1::2]))


def image_of(lg_k, width, registers, minimum=None):
    """The image of registers, with the flag of merged ones and fields of 0; at four bits above the least, or a lower minimum."""
    least, exceptions = 0, []
    if width == 4:
        least = min(registers) if minimum is None else minimum
        exceptions = [value << 26 | slot for slot, value in enumerate(registers) if value >= least + 15]
    flags = OUT_OF_ORDER + 8 * (width == 4)
    header = bytes([10, 1, 7, lg_k, 0, flags, least, 2 * width - 6])
    counts = struct.pack("<II", registers.count(least), len(exceptions))
    return header + bytes(24) + counts + packed(registers, width, least) + words_of(exceptions)


def image_line(image):
    return "image %s\n" % image.hex()


def coupon_line(coupon):
    """The line of a raw coupon."""
    return "coupon %d %d\n" % (coupon % 2**26, coupon >> 26)
