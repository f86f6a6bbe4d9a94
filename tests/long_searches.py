# SPDX-License-Identifier: Apache-2.0
"""Coupons and slots whose searches in a table are as long as they can be, and random ones.

The paths of a table are part of the format (docs/FORMAT.md, "Probing"), so whoever writes an image can choose coupons
that all search the same places. Tables are filled to three quarters, the most that updates leave.
"""
import random
import struct

SEED = 9001
SLOTS = 1 << 26
# How many coupons have one start place and one stride: those of each value, and of two slots.
KINDS = 126


def filled(lg_size):
    """Three quarters of the places of a table."""
    return 3 << lg_size >> 2


def path_coupons(lg_size):
    """Coupons on one path of a table that is searched by raw coupon: the start places follow one another by the stride."""
    stride = (SLOTS - 1) >> lg_size
    places = 1 << lg_size
    coupons = []
    for number in range(filled(lg_size)):
        step, kind = divmod(number, KINDS)
        high = stride - kind % 2
        coupons.append((kind // 2 + 1) * SLOTS + (high << lg_size) + step * stride % places)
    return coupons


def stride_coupons(lg_size):
    """Coupons that fill all places of a table but one, on one path of each stride, in turn."""
    strides = [2 * number + 1 for number in range(1 << (25 - lg_size))]
    places = 1 << lg_size
    coupons = []
    for number in range(places - 1):
        on_path, which = divmod(number, len(strides))
        step, kind = divmod(on_path, KINDS)
        high = strides[which] - kind % 2
        coupons.append((kind // 2 + 1) * SLOTS + (high << lg_size) + step * strides[which] % places)
    return coupons


def unsorted_set(lg_size, coupons):
    """The image of a set whose coupons stand in this order."""
    words = struct.pack("<%dI" % (len(coupons) + 1), len(coupons), *coupons)
    return bytes([3, 1, 7, lg_size + 3, lg_size, 8, 0, 9]) + words


def random_coupons(lg_size, count=0):
    numbers = random.Random(SEED)
    coupons = set()
    while len(coupons) < (count or filled(lg_size)):
        coupons.add(numbers.randint(1, 63) * SLOTS + numbers.randrange(SLOTS))
    return list(coupons)


def path_slots(lg_k):
    """Slots on one path of the table of exceptions of half as many places as there are registers."""
    half = 1 << (lg_k - 1)
    return [place + side for place in range(filled(lg_k - 1) // 2) for side in (0, half)]


def random_slots(lg_k):
    return random.Random(SEED).sample(range(1 << lg_k), filled(lg_k - 1))


def registers_with(lg_k, slots, value, others=0):
    """Registers of one value at these slots, and of another elsewhere."""
    registers = bytearray([others]) * (1 << lg_k)
    for slot in slots:
        registers[slot] = value
    return registers
