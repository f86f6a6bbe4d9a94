# SPDX-License-Identifier: Apache-2.0
"""Images, made by docs/FORMAT.md without the library: random ones, and those of values."""
import math
import pathlib
import struct
import sys

ROOT = pathlib.Path(__file__).resolve().parents[3]
sys.path.insert(0, str(ROOT / "tests"))
from built import built_program  # noqa: E402,F401
from plain_hash import coupon_of  # noqa: E402
from plain_images import image_of  # noqa: E402,F401
from plain_plans import LIST_SIZE, Sketch, content_of, greatest, pairs_of, sketch_of, union, written  # noqa: E402,F401


def random_value(numbers):
    """1 to 63, each half as likely as the one before."""
    return 63 - numbers.getrandbits(62).bit_length()


def random_coupons(numbers, count):
    coupons = set()
    slots = numbers.sample(range(2**26), count)
    for slot in slots:
        coupons.add(random_value(numbers) << 26 | slot)
    return sorted(coupons)


def random_registers(numbers, lg_k, load):
    """Registers as so many coupons for each of them leave them."""
    def value():
        return min(max(math.ceil(math.log2(load) - math.log2(-math.log(1 - numbers.random()))), 0), 63)
    return bytes(value() for _ in range(2**lg_k))


def with_words(image):
    """The image as the extension writes it: registers whose words are 0 get the sums of 2^-v over their values v."""
    if image[7] & 3 != 2 or any(image[8:32]) or not image[5] & 16:
        return image
    values = sketch_of(image).content.values
    sums = [sum(2.0**-v for v in values if v < 32), sum(2.0**-v for v in values if v >= 32)]
    return image[:8] + struct.pack("<3d", 0, *sums) + image[32:]


def image_of_union(images, bound, width):
    """Their union by the plain model."""
    return with_words(written(union([sketch_of(image) for image in images], bound, width)))


def is_empty(image):
    """Whether an image has no coupon and no register above 0."""
    content = sketch_of(image).content
    return not any(content.values) if image[7] & 3 == 2 else not content.members


def length_of(image):
    """How many bytes an accepted image takes, by docs/FORMAT.md; others may follow."""
    stage, is_compact = image[7] & 3, image[5] & 8
    if stage < 2:
        start = 8 + 4 * stage
        count = image[6] if stage == 0 else int.from_bytes(image[8:12], "little")
        return start + 4 * (count if is_compact or not count and stage == 0 else 2**image[4])
    count = 2**image[3]
    if width_of(image) > 4:
        return 40 + (count if width_of(image) == 8 else count // 4 * 3 + 1)
    exceptions = int.from_bytes(image[36:40], "little")
    return 40 + count // 2 + 4 * (exceptions if is_compact or not exceptions else 2**image[4])


def width_of(image):
    return 4 + 2 * (image[7] >> 2 & 3)


def merged(images, bound=None):
    """What SQL makes of images, by the plain model; None where their lg_k differ and there is no bound.

    Empty images count for nothing, unless all are empty: then the greatest lg_k is taken. The width is theirs, or 8 where they differ.
    """
    full = [image for image in images if not is_empty(image)]
    sizes, widths = {image[3] for image in full}, {width_of(image) for image in full or images}
    if bound is None and len(sizes) > 1:
        return None
    if bound is None:
        bound = max(sizes or [image[3] for image in images])
    return image_of_union(images, bound, widths.pop() if len(widths) == 1 else 8)


def image_of_coupons(lg_k, width, coupons):
    """The image of coupons, in the stage that so many have."""
    return with_words(written(Sketch(lg_k, width, content_of(lg_k, frozenset(coupons), LIST_SIZE))))


def random_image(numbers, lg_k=None):
    """An image of any stage, width and size."""
    lg_k = lg_k or numbers.choice([4, 5, 7, 8, 9, 10, 10, 11, 12, 12, 13])
    width = numbers.choice([4, 6, 8])
    stage = numbers.randrange(4)
    if stage == 0:
        return image_of_coupons(lg_k, width, random_coupons(numbers, numbers.randrange(8)))
    if stage == 1:
        return image_of_coupons(lg_k, width, random_coupons(numbers, numbers.randrange(8, 200)))
    return image_of(lg_k, width, random_registers(numbers, lg_k, numbers.choice([0.1, 1, 8, 1000])))


# ---- images as other programs write them


def placed(words, lg_size, by_slot=False):
    """The places of a table into which raw coupons were put one by one, 0 where none is (docs/FORMAT.md, "Probing")."""
    places = [0] * 2**lg_size
    for word in words:
        slot = word % 2**26
        place = slot if by_slot else word
        while places[place % 2**lg_size]:
            place += slot >> lg_size | 1
        places[place % 2**lg_size] = word
    return places


def packed_words(words):
    return struct.pack("<%dI" % len(words), *words)


def other_coupons(lg_k, width, coupons, is_compact):
    """A list in the order of arrival, or a set in that of its places; compact, or with the empty places."""
    mode = 2 * width - 8
    if len(coupons) <= 8:
        flags = 8 * is_compact | 4 * (not coupons)
        places = coupons if is_compact else coupons + [0] * (8 - len(coupons))
        return bytes([2, 1, 7, lg_k, 3, flags, len(coupons), mode]) + packed_words(places)
    lg_size = next(size for size in range(5, lg_k - 2) if 4 * len(coupons) <= 3 * 2**size)
    places = placed(coupons, lg_size)
    words = [word for word in places if word] if is_compact else places
    return bytes([3, 1, 7, lg_k, lg_size, 8 * is_compact, 0, mode + 1]) + packed_words([len(coupons)] + words)


START_SIZES = [0, 0, 0, 0, 2, 2, 2, 3, 3, 3, 4, 4, 5, 5, 6]


def other_registers(lg_k, width, registers, hip):
    """Registers that were counted in order: with that number as a word, and the other two, and without the flag; the
    exceptions of four bits in the order of their table, with its empty places."""
    image = image_of(lg_k, width, registers)
    sums = [sum(2.0**-v for v in registers if v < 32), sum(2.0**-v for v in registers if v >= 32)]
    words = struct.pack("<3d", hip, *sums)
    if width > 4:
        return image[:5] + bytes([0]) + image[6:8] + words + image[32:]
    end = 40 + 2**lg_k // 2
    exceptions = [word for word, in struct.iter_unpack("<I", image[end:])]
    size = START_SIZES[lg_k]
    while 4 * len(exceptions) > 3 * 2**size:
        size += 1
    table = packed_words(placed(exceptions, size, True)) if exceptions else b""
    return image[:4] + bytes([size, 0]) + image[6:8] + words + image[32:end] + table


def other_image(numbers, lg_k=None):
    """An image of any stage, as another program leaves it; also registers that are all 0."""
    lg_k = lg_k or numbers.choice([4, 5, 7, 8, 9, 10, 11, 12])
    width, stage = numbers.choice([4, 6, 8]), numbers.randrange(6)
    if stage < 2 or stage == 2 and lg_k < 8:
        return other_coupons(lg_k, width, random_coupons(numbers, numbers.randrange(8)), stage == 0)
    if stage < 4 and lg_k >= 8:
        coupons = random_coupons(numbers, numbers.randrange(9, 3 * 2**(lg_k - 5) + 1))
        numbers.shuffle(coupons)
        return other_coupons(lg_k, width, coupons, stage == 2)
    registers = random_registers(numbers, lg_k, numbers.choice([0.1, 1, 8, 1000]))
    if numbers.randrange(8) == 0:
        registers = bytes(2**lg_k)
    return other_registers(lg_k, width, registers, numbers.choice([0.0, 1.5, 4321.0]))


# ---- values


def image_of_values(lg_k, width, values):
    return image_of_coupons(lg_k, width, sorted({coupon_of(value) for value in values}))
