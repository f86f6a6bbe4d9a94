# SPDX-License-Identifier: Apache-2.0
"""A plain reader of images that follows docs/FORMAT.md alone; tests compare its results with those of the library."""
import struct

PREAMBLES = [2, 3, 10]
LIST, SET = 0, 1
EMPTY, COMPACT, OUT_OF_ORDER = 4, 8, 16


class Refused(Exception):
    """An image is rejected, for the reason of this word."""


def check(passes, word):
    if not passes:
        raise Refused(word)


def slot_of(coupon):
    return coupon % 2**26


def value_of(coupon):
    return coupon // 2**26


def coupons_at(image, start, places, compact):
    """The coupons of that many places; of a table those that are not 0."""
    check(len(image) >= start + 4 * places, "truncated")
    words = struct.unpack_from(f"<{places}I", image, start)
    return list(words) if compact else [word for word in words if word != 0]


def check_coupons(coupons, key):
    """Each has a value, and no key comes twice."""
    check(all(value_of(coupon) >= 1 for coupon in coupons), "coupon")
    check(len({key(coupon) for coupon in coupons}) == len(coupons), "coupon")


def read_list(image, lg_arr, flags, state):
    check(lg_arr == 3, "lgarr")
    check(state <= 8 and (flags & EMPTY != 0) == (state == 0), "count")
    if flags & EMPTY:
        return 3, []
    compact = flags & COMPACT != 0
    coupons = coupons_at(image, 8, state if compact else 8, compact)
    check_coupons(coupons, lambda coupon: coupon)
    check(len(coupons) == state, "count")
    return 3, coupons


def read_set(image, lg_k, lg_arr, flags):
    check(5 <= lg_arr <= lg_k - 3, "lgarr")
    check(len(image) >= 12, "truncated")
    count = struct.unpack_from("<I", image, 8)[0]
    check(count < 2**lg_arr, "count")
    compact = flags & COMPACT != 0
    coupons = coupons_at(image, 12, count if compact else 2**lg_arr, compact)
    check_coupons(coupons, lambda coupon: coupon)
    check(len(coupons) == count, "count")
    return lg_arr, coupons


def read_six(image, k, low, excepted):
    check(low <= 2**k and excepted == 0, "count")
    size = 3 * 2**k // 4 + 1
    check(len(image) >= 40 + size, "truncated")
    packed = image[40 : 40 + size - 1]
    words = (low | middle << 8 | high << 16 for low, middle, high in zip(packed[::3], packed[1::3], packed[2::3]))
    return [word >> shift & 63 for word in words for shift in (0, 6, 12, 18)]


def read_eight(image, k, low, excepted):
    check(low <= 2**k and excepted == 0, "count")
    check(len(image) >= 40 + 2**k, "truncated")
    registers = list(image[40 : 40 + 2**k])
    check(all(register <= 63 for register in registers), "register")
    return registers


def read_four(image, k, lg_arr, flags, minimum, low, excepted):
    check(low <= 2**k and excepted <= 2**k, "count")
    compact = flags & COMPACT != 0
    check(compact or excepted == 0 or lg_arr <= 26, "lgarr")
    start = 40 + 2 ** (k - 1)
    check(len(image) >= start, "truncated")
    places = excepted if compact or excepted == 0 else 2**lg_arr
    entries = coupons_at(image, start, places, compact)
    check_coupons(entries, lambda entry: slot_of(entry) % 2**k)
    check(len(entries) == excepted, "count")
    exceptions = {slot_of(entry) % 2**k: value_of(entry) for entry in entries}
    registers = []
    for slot in range(2**k):
        nibble = image[40 + slot // 2] >> slot % 2 * 4 & 15
        value = exceptions.get(slot)
        if value is None:
            check(nibble < 15 and minimum + nibble <= 63, "register")
            registers.append(minimum + nibble)
        else:
            check(nibble == 15 and value >= minimum + 15, "register")
            registers.append(value)
    return registers


def read(image):
    """The value of an image: lg_k, width, and coupons with the size of their table, or registers with a state."""
    check(len(image) >= 8, "truncated")
    preamble, version, family, lg_k, lg_arr, flags, state, mode = image[:8]
    check(family == 7, "family")
    check(version == 1, "version")
    check(4 <= lg_k <= 21, "lgk")
    stage, width = mode & 3, mode >> 2 & 3
    check(width < 3, "width")
    check(stage < 3, "stage")
    check(preamble == PREAMBLES[stage], "preamble")
    if stage in (LIST, SET):
        if stage == LIST:
            size, coupons = read_list(image, lg_arr, flags, state)
        else:
            size, coupons = read_set(image, lg_k, lg_arr, flags)
        return bytes([lg_k, width, size]) + struct.pack(f"<{len(coupons)}I", *sorted(coupons))
    check(len(image) >= 40, "truncated")
    low, excepted = struct.unpack_from("<II", image, 32)
    if width == 0:
        registers = read_four(image, lg_k, lg_arr, flags, state, low, excepted)
    else:
        registers = (read_six if width == 1 else read_eight)(image, lg_k, low, excepted)
    return bytes([lg_k, width, 0, flags & OUT_OF_ORDER != 0]) + image[8:32] + bytes(registers)


def answer(image):
    try:
        return "accepted", read(image)
    except Refused as refusal:
        return str(refusal), b""
