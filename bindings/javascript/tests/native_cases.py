#!/usr/bin/env python3
# SPDX-License-Identifier: Apache-2.0
"""Writes random images, of which more than half are damaged, and what the native library says of each, for cases.mjs:

    native_cases.py LIBHLL.so IMAGES SEED OUT [INPUTS ..]

With directories of inputs of the fuzz target (tests/fuzz/fuzz.c), the images are those in these inputs, at most so many.

A case is a number for the call, two numbers that it gets, one or two strings of bytes, its status, and what it wrote.
"""
import ctypes
import pathlib
import random
import struct
import sys

LIBRARY, IMAGES, SEED, OUT, *INPUTS = sys.argv[1:]
LARGEST = 14    # the lg_k of the images of inputs: others take long
lib = ctypes.CDLL(LIBRARY)
chance = random.Random(int(SEED))
Size, Bytes, Number = ctypes.c_size_t, ctypes.c_char_p, ctypes.c_uint
out = ctypes.create_string_buffer(40 + (5 << 21))
report = ctypes.create_string_buffer(512)
size, failed = Size(0), Size(0)
NAMES = ["check", "info", "histogram", "estimate", "convert", "fold", "merge", "add", "agree", "size", "set", "clear", "hip"]


# ---- calls: each returns its status and what it wrote


def passed(image):
    return Bytes(image), Size(len(image))


def call(name, *words):
    return getattr(lib, name)(*words) & 255


def number_of_failed(status):
    """Returns the number of the image that was rejected, if one was."""
    return struct.pack("<I", failed.value) if 1 <= status <= 11 else b""


def written(name, *words, more=()):
    status = call(name, *words, out, Size(len(out)), ctypes.byref(size), *more)
    return status, ctypes.string_at(out, size.value) if status == 0 else number_of_failed(status) if more else b""


def reported(name, image, count, *more):
    ctypes.memset(report, 0, 512)
    status = call(name, *passed(image), report, *more)
    return status, ctypes.string_at(report, count) if status == 0 else b""


def added(image, values):
    n = len(values) // 8
    ends = (Size * max(n, 1))(*[8 * (i + 1) for i in range(n)])
    return written("hll_image_add", *passed(image), *passed(values), ends, Size(n))


def agreed(left, right):
    status = call("hll_images_agree", *passed(left), *passed(right), report, ctypes.byref(failed))
    return status, report.raw[:1] if status == 0 else number_of_failed(status)


def merged(lg_k, width, left, right):
    return written("hll_image_merge", Number(lg_k), Number(width), *passed(left), *passed(right), more=[ctypes.byref(failed)])


# ---- images


def updatable(image):
    """Returns an image of coupons as a table of buckets, as other libraries write it: their order is free for a reader."""
    head = 8 if image[7] & 3 == 0 else 12
    coupons = [image[at : at + 4] for at in range(head, len(image), 4)]
    buckets = [b"\0" * 4] * (1 << image[4])
    places = chance.sample(range(len(buckets)), len(coupons)) if head == 12 else range(len(coupons))
    for place, coupon in zip(places, coupons):
        buckets[place] = coupon
    made = bytearray(image[:head] + b"".join(buckets))
    made[5] &= ~8
    return bytes(made)


def with_other_fields(image):
    """Returns an image of registers with other estimator fields, or with coupons that were added one by one."""
    made = bytearray(image)
    if chance.random() < 0.3:
        made[5] &= ~16
        struct.pack_into("<d", made, 8, chance.random() * 1e6)
    if chance.random() < 0.1:
        made[8:32] = chance.randbytes(24)
    if chance.random() < 0.2:
        for _ in range(chance.randrange(1, 8)):
            slot, value = Number(chance.randrange(1 << 26)), Number(chance.choice([1, 2, 20, 40, 63]))
            made = bytearray(written("hll_image_add_coupon", *passed(bytes(made)), slot, value)[1] or made)
    return bytes(made)


def correct():
    lg_k = chance.choice([4, 5, 6, 7, 8, 8, 9, 10, 10, 11, 12, 12, 13, 14]) if chance.random() < 0.98 else chance.choice([16, 18])
    n = chance.choice([0, 1, 2, 7, 8, 9, 20, 30, 60, 200, chance.randrange(1 << lg_k), chance.randrange(8 << lg_k)])
    empty = written("hll_image_new", Number(lg_k), Number(chance.choice([4, 6, 8])))[1]
    status, image = added(empty, chance.randbytes(8 * min(n, 1 << 16)))
    assert status == 0
    if image[7] & 3 == 2:
        return with_other_fields(image)
    return updatable(image) if len(image) > 8 and chance.random() < 0.3 else image


def damage(image):
    """Changes the bytes in one way of eight, if they are long enough for it."""
    kind = chance.randrange(8)
    if kind == 0 and len(image) > 1:
        del image[chance.randrange(len(image)) :]
    elif kind == 1:
        image += chance.randbytes(chance.randrange(1, 40))
    elif kind == 2 and image:
        image[chance.randrange(min(len(image), 8))] = chance.randrange(256)
    elif kind == 3 and image:
        image[chance.randrange(min(len(image), 44))] = chance.choice([0, 1, 2, 3, 7, 8, 15, 26, 63, 64, 128, 255])
    elif kind == 4 and image:
        image[chance.randrange(len(image))] ^= 1 << chance.randrange(8)
    elif kind == 5 and len(image) > 16:
        at = chance.randrange(8, len(image) - 7) & ~3
        image[at : at + 4] = image[8:12]
    elif kind == 6 and len(image) > 40:
        struct.pack_into("<I", image, chance.choice([8, 32, 36]), chance.choice([0, 1, 5, 1 << 12, 1 << 31, 0xFFFFFFFF]))
    elif kind == 7 and len(image) > 7:
        image[5] ^= chance.choice([4, 8, 16, 64])
        image[7] ^= chance.choice([0, 1, 2, 4, 8, 16, 128])


def damaged(image):
    made = bytearray(image)
    for _ in range(chance.choice([1, 1, 1, 2, 3])):
        damage(made)
    return bytes(made)


def random_images():
    """Yields random images, of which more than half are damaged."""
    for _ in range(int(IMAGES)):
        image, kind = correct(), chance.random()
        if kind >= 0.45:
            image = damaged(image) if kind < 0.97 else chance.randbytes(chance.randrange(60))
        yield image


def contents(data):
    """Yields the bytes of each record of an input."""
    while len(data) >= 6:
        end = 6 + int.from_bytes(data[4:6], "little")
        yield data[6:end]
        data = data[end:]


def images_of_inputs():
    """Returns the bytes in inputs that begin as an image, but for one byte at most."""
    inputs = (file.read_bytes() for folder in INPUTS for file in sorted(pathlib.Path(folder).iterdir()))
    found = {content for data in inputs for content in contents(data) if len(content) >= 4 and content[3] <= LARGEST}
    images = sorted(content for content in found if (content[0] in (2, 3, 10)) + (content[1] == 1) + (content[2] == 7) >= 2)
    return chance.sample(images, min(int(IMAGES), len(images)))


# ---- cases


def cases_of(image, before):
    """Yields what each call says of an image: a name, two numbers, a second string, and its status with what it wrote."""
    yield "check", 0, 0, b"", (call("hll_image_check", *passed(image)), b"")
    yield "info", 0, 0, b"", reported("hll_image_info", image, 64, Size(64))
    yield "histogram", 0, 0, b"", reported("hll_image_histogram", image, 512)
    yield "estimate", 0, 0, b"", reported("hll_estimate", image, 64)
    yield "hip", 0, 0, b"", reported("hll_hip_estimate", image, 64)
    yield "size", 0, 0, b"", reported("hll_image_size", image, 8)
    width = chance.choice([0, 4, 6, 8, 8, 5])
    yield "convert", width, 0, b"", written("hll_image_convert", *passed(image), Number(width))
    lg_k = chance.choice([3, 4, 5, 8, 10, 12, 22])
    yield "fold", lg_k, 0, b"", written("hll_image_fold", *passed(image), Number(lg_k))
    lg_k, width = chance.choice([4, 8, 10, 12, 14, 21, 22]), chance.choice([4, 6, 8, 8, 0])
    yield "merge", lg_k, width, before, merged(lg_k, width, image, before)
    n = chance.choice([0, 1, 5, 100])
    values = chance.randbytes(8 * n)
    yield "add", n, 0, values, added(image, values)
    kind = chance.choice(["set", "clear"])
    yield kind, 0, 0, b"", written("hll_image_%s_estimator_fields" % kind, *passed(image))
    yield "agree", 0, 0, before, agreed(image, before)


def main():
    before, count, images = written("hll_image_new", Number(10), Number(8))[1], 0, 0
    with open(OUT, "wb") as file:
        for image in images_of_inputs() if INPUTS else random_images():
            images += 1
            for name, a, b, second, (status, found) in cases_of(image, before):
                file.write(struct.pack("<BIIIIBI", NAMES.index(name), a, b, len(image), len(second), status, len(found)) + image + second + found)
                count += 1
            if call("hll_image_check", *passed(image)) == 0:
                before = image
    print(count, "cases of", images, "images")


main()
