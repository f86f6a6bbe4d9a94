#!/usr/bin/env python3
# SPDX-License-Identifier: Apache-2.0
"""Makes rows of plans that walk over images, values, orders and sizes, each with the answer of the plain model
(docs/PLAN.md, "Rows").

    tests/walks.py          makes tests/walks.txt; git does not keep it
    tests/walks.py check    compares their checksum with tests/walks.sha256, and prints 'N passed, M failed'
    tests/walks.py write    writes the checksum too, after a change of this script

A plan that is among the worked rows is left out.
"""
import itertools
import os
import struct
import sys
import tempfile

sys.dont_write_bytecode = True
from long_searches import path_coupons, path_slots, registers_with, unsorted_set
from plain_plans import WIDTHS, Coupons, Registers, Sketch, answer_of, greatest, written
from plain_reader import Refused, read
from rows import WALKS, WALKS_SUM, WORKED, rows_in, sum_of

WORDS = struct.pack("<QQQ", 1, 2, 3)
SLOT_0_IS_20 = 0x50000000


def sketch_with(lg_k, width, values, words=bytes(24), out_of_order=True):
    return written(Sketch(lg_k, width, Registers(tuple(values), words, out_of_order)))


# ---- rows


def is_image(data):
    try:
        read(data)
        return True
    except Refused:
        return False


def has_more(line):
    """Whether bytes stand after the image of a line."""
    data = bytes.fromhex(line.removeprefix("image ")) if line.startswith("image ") else b""
    return bool(data) and is_image(data[:-1])


class Rows:
    """Rows as text, each once, and none whose plan stands elsewhere."""

    def __init__(self, plans):
        self.plans = plans
        self.lines = []

    def note(self, text):
        self.lines += [f"// {text}"] + [""] * text.startswith("==")

    def row(self, *lines):
        plan = "\n".join(lines).encode()
        if plan in self.plans:
            return
        self.plans.add(plan)
        answer = answer_of(plan)
        mark = "!" if answer.startswith("line ") else "+" if any(map(has_more, lines)) else "="
        self.lines += [*lines, f"{mark} {answer}", ""]

    def image(self, data, *after):
        self.row(f"image {bytes(data).hex()}", *after)


def coupons(pairs):
    return [f"coupon {slot} {value}" for slot, value in pairs]


# ---- images of four bits


def four_bits(minimum, counts, nibbles=b"", exceptions=(), lg_table=None):
    """An image of four bits at `lg_k` 4: compact, or with a table of exceptions."""
    flags = 8 if lg_table is None else 0
    front = bytes([10, 1, 7, 4, lg_table or 0, flags, minimum, 2])
    entries = struct.pack(f"<{len(exceptions)}I", *exceptions)
    return front + WORDS + struct.pack("<II", *counts) + bytes(nibbles).ljust(8, b"\0") + entries


def walk_four_bits(rows):
    def reads(*image, **table):
        """The image; with bytes after it; and with each register raised by nine."""
        data = four_bits(*image, **table)
        values = read(data)[28:]
        rows.image(data)
        rows.image(data + b"\xff\xff\xff\xff")
        rows.image(data, *coupons((slot, min(63, value + 9)) for slot, value in enumerate(values)))

    def refused(*image, **table):
        rows.image(four_bits(*image, **table))

    rows.note("== Registers of four bits: nibbles, tables of exceptions, and minimums; then each register raised by nine ==")
    rows.note("the minimum is the least register")
    reads(0, [16, 0])
    reads(1, [15, 0], [0x0E])
    reads(0, [8, 1], [0x1F, 0x11, 0x11, 0x11], [SLOT_0_IS_20])
    rows.note("two exceptions, in either order")
    for entries in itertools.permutations([SLOT_0_IS_20, 0x40000001]):
        reads(0, [8, 2], [0xFF, 0x11, 0x11, 0x11], entries)
    rows.note("the greatest registers")
    reads(63, [16, 0])
    reads(49, [16, 0], [0xE0])
    rows.note("tables of four places and of one, and slots modulo 16")
    reads(0, [15, 1], [0x0F], [0, 0, SLOT_0_IS_20, 0], lg_table=2)
    reads(0, [15, 1], [0x0F], [SLOT_0_IS_20], lg_table=0)
    reads(0, [15, 1], [0x0F], [0x53FFFFF0], lg_table=0)
    rows.note("without exceptions there is no table, whatever its size is")
    for lg_table in (0, 26, 27, 255):
        reads(0, [16, 0], lg_table=lg_table)
    rows.note("counts at the minimum that are wrong but in their bound, and minimums below the least register")
    for count in (0, 1, 15, 16):
        reads(0, [count, 0])
        reads(0, [count, 0], [0x11] * 8)
        reads(49, [count, 0], [0xEE] * 8)
    rows.note("above 3 the exception 17 falls to a nibble, and 18 and 40 stay")
    reads(0, [16, 3], [0xF3, 0xFF, 0xE4] + [0x33] * 5, [0x44000001, 0x48000002, 0xA0000003])
    rows.note("all exceptions fall")
    reads(0, [0, 2], [0xF3, 0x3F, 0xE4] + [0x33] * 5, [0x44000001, 0x3C000002])
    rows.note("all registers are exceptions")
    exceptions = [20 + slot << 26 | slot for slot in range(15)] + [63 << 26 | 15]
    reads(0, [0, 16], [0xFF] * 8, exceptions)
    rows.note("counts, and sizes of tables")
    for counts in ([17, 0], [0, 17], [2**32 - 1, 0], [0, 2**32 - 1], [17, 17]):
        refused(0, counts)
        refused(0, counts, lg_table=27)
    for lg_table in (27, 64, 255):
        refused(0, [15, 1], [0x0F], lg_table=lg_table)
    for lg_table, count in ((26, 1), (2, 1), (0, 16)):
        refused(0, [15, count], [0x0F], lg_table=lg_table)
    rows.note("exceptions without a value, slots that come twice, and numbers of filled places")
    for entries in ([0], [5], [SLOT_0_IS_20] * 2, [SLOT_0_IS_20, 0x54000000], [SLOT_0_IS_20, 0x50000010]):
        refused(0, [15, len(entries)], [0x0F], entries)
    for lg_table, count, entries in (
        (0, 1, [5]),
        (1, 1, [SLOT_0_IS_20, 0x53FFFFF0]),
        (1, 1, [0, 0]),
        (1, 2, [SLOT_0_IS_20, 0]),
        (1, 1, [SLOT_0_IS_20, 0x50000001]),
        (0, 16, [SLOT_0_IS_20]),
    ):
        refused(0, [15, count], [0x0F], entries, lg_table=lg_table)
    rows.note("nibbles and exceptions that don't agree, and registers above 63")
    refused(0, [15, 2], [0x0F], [SLOT_0_IS_20, 0x50000001])
    for nibbles in ([0x0F], [0xF0], [0] * 7 + [0xF0]):
        refused(0, [15, 0], nibbles)
    for nibbles in ([], [0xF0]):
        refused(0, [16, 1], nibbles, [SLOT_0_IS_20])
    refused(0, [15, 1], [0xFF], [SLOT_0_IS_20])
    for minimum in (6, 10, 241):
        refused(minimum, [15, 1], [0x0F], [SLOT_0_IS_20])
    for minimum, nibbles in ((50, [0x0E]), (63, [0x01]), (64, []), (255, [])):
        refused(minimum, [15 + (not nibbles), 0], nibbles)
    refused(241, [0, 1], [0x0F], [SLOT_0_IS_20])
    refused(255, [0, 16], [0xFF] * 8, exceptions)
    rows.note("just high enough")
    reads(5, [15, 1], [0x0F], [SLOT_0_IS_20])


# ---- headers, bytes and places


def walk_changes(rows):
    rows.note("== Registers of eight and six bits with a byte changed ==")
    changes = [(32, 0), (32, 16), (32, 17), (33, 1), (35, 128), (36, 1), (39, 128), (40, 0), (40, 63), (40, 64)]
    changes += [(40, 0xC1), (42, 0), (43, 1), (48, 63), (48, 255), (51, 4), (51, 255), (52, 255), (55, 63), (55, 64)]
    for width, values in ((8, [1, 2, 3, 4, 5, 6, 7, 8]), (6, [0, 63, 42, 51])):
        image = sketch_with(4, width, values + [0] * (16 - len(values)))
        for place, byte in changes:
            if place < len(image):
                rows.image(image[:place] + bytes([byte]) + image[place + 1 :])
        for flags in (0, 16):
            flagged = image[:5] + bytes([flags]) + image[6:]
            rows.image(flagged)
            rows.image(flagged[:8] + WORDS + flagged[32:])
            rows.image(flagged[:8] + WORDS + flagged[32:] + b"\xff\xff")


def walk_headers(rows):
    rows.note("== Headers ==")
    rows.note("each stage at each width, with other bits of the mode byte too")
    fronts = ("0201070403080100050000040000", "030107080508000101000000050000", "0a01070403080002")
    for front, last in zip(fronts, (0, 4, 0)):
        for bits in (0, 4, 248):
            image = bytearray((bytes.fromhex(front) + bytes([last])).ljust(64, b"\0"))
            image[7] |= bits
            rows.image(image)
    rows.note("the first fault of a header")
    for header in (
        "000000000000000f", "0201080a030c0008", "000007000000000f", "0202070a030c0008", "000107000000000f",
        "02010703030c0008", "02010716030c0008", "0001070a0000000f", "0201070a030c000c", "0001070a0000000b",
        "0201070a030c0003", "0301070a030c0008", "0201070a05080009", "0301070a0000000a", "0201070a0000000a",
    ):  # fmt: skip
        rows.image(bytes.fromhex(header))
    rows.note("of two faults the first in the order of checks")
    flips = [(2, 1), (1, 3), (3, 28), (7, 4), (7, 3), (0, 1), (4, 1), (6, 8), (11, 12)]
    for pair in itertools.combinations(flips, 2):
        image = bytearray.fromhex("0201070a030801080500000c")
        for place, bits in pair:
            image[place] ^= bits
        rows.image(image)
    rows.note("the state of registers is out of order by one flag alone")
    image = sketch_with(4, 8, [5] + [0] * 15, WORDS)
    for flags in (0, 4, 8, 16, 227):
        rows.image(image[:5] + bytes([flags]) + image[6:] + b"\xff")
    for place, byte in ((7, 14), (32, 17), (55, 64)):
        rows.image(image[:place] + bytes([byte]) + image[place + 1 :])
    rows.note("eight places with gaps, cut short, and in a table of another size")
    places = bytes.fromhex("0201070a0300020800000000070000080000000000000000050000040000000000000000")
    places = places.ljust(40, b"\0")
    for image in (places + b"\xff", places, places[:-1], places[:4] + b"\4" + places[5:]):
        rows.image(image)
    rows.image(bytes.fromhex("0201071503000204000000000500000c0000000006000008").ljust(40, b"\0"))
    rows.image(bytes.fromhex("02010704030803000500000c0600000c07000008"))
    rows.note("a list of one coupon at each `lg_k` and width")
    for lg_k, mode in itertools.product(range(4, 22), (0, 4, 8)):
        rows.image([2, 1, 7, lg_k, 3, 8, 1, mode, 5, 0, 0, 12])


# Sketches of the coupon with this slot and value, in groups that are joined one by one and then with each other.
GROUPS = """
    123456 654321 426153 1123245561 123.456 654.321 51.46.23 642..531. 123456.654321 3.123456
    12345678 87654321 31862754 112324556771883 1234.5678 8765.4321 8.76.543.21 1234567.78 87.7654321 123456.345678
    12345678.87654321 .1234..5678. 12345678.3 3.12345678
    123456789 987654321 492716385 99121344567798281 12345.6789 98765.4321 123.456.789 987.654.321 12345678.9 9.12345678
    1234567.89 1234567.3456789 123456789.987654321 5.123456789.5 1..23.456789
"""


def walk_groups(rows):
    rows.note("== Orders, repeats and groups of sketches of one coupon ==")
    for groups in GROUPS.split():
        lines = []
        for group in groups.split("."):
            lines += [line for slot in group for line in ("new 4 8", f"coupon {slot} {slot}")]
            lines.append(f"union {len(group)} 4 8")
        if "." in groups:
            lines.append(f"union {len(groups.split('.'))} 4 8")
        rows.row(*lines)


# ---- registers of each width


def walk_values(rows):
    rows.note("== Registers of eight bits made into four and six: each value beside others that are all the same ==")
    for others, value, width in itertools.product((0, 1, 30, 63), range(64), (4, 6)):
        values = [others] * 16
        values[value * 5 % 16] = value
        rows.image(sketch_with(4, 8, values), f"union 1 4 {width}")


def walk_minimums(rows):
    rows.note("== Registers of four bits: minimums that rise ==")
    rows.note("by one, at the last of sixteen registers")
    for value in range(1, 64):
        rows.image(sketch_with(4, 4, [value - 1] * 16), *coupons((slot, value) for slot in range(16)))
    rows.note("at once")
    for value in (1, 14, 15, 16, 31, 63):
        rows.row("new 4 4", *coupons((slot, value) for slot in range(16)))
    rows.note("three exceptions, whose searches begin at one place, in every order; then all fall")
    exceptions = [(1, 21), (5, 22), (9, 20)]
    for order in itertools.permutations(exceptions):
        rows.row("new 4 4", *coupons(order), *coupons((slot, 1) for slot in (0, 2, 3, 4, 6)))
    rows.row("new 4 4", *coupons(exceptions), *coupons((slot, 30) for slot in range(16)))


def spread(count):
    """Slots and values from a multiplicative sequence, with all values from 1 to 63."""
    word = 1
    for _ in range(count):
        word = word * 0xD1342543DE82EF95 % 2**64
        if word >> 58:
            yield (word >> 32) % 2**26, word >> 58


def walk_updates(rows):
    rows.note("== Updates of each width, by coupons of all values ==")
    for width in WIDTHS:
        for lg_k, count in ((4, 20), (4, 64), (4, 192), (5, 96), (6, 96), (7, 160)):
            rows.row(f"new {lg_k} {width}", *coupons(spread(count)))
    rows.note("the greater value stays, and slots count modulo sixteen")
    ones = [(slot, 1) for slot in range(8)]
    first = [(0, 20), (16, 5), (17, 63), (1, 62), (3, 1)]
    second = [(3, 5), (3, 4), (3, 5), (3, 6), (16, 7), (17, 1), (67108848, 6), (67108863, 62), (67108863, 63), (15, 63)]
    for width, more in itertools.product(WIDTHS, (first, [*second, (19, 9), (3, 8), (33554440, 1)])):
        rows.row(f"new 4 {width}", *coupons(ones + more))


def walk_merges(rows):
    rows.note("== Registers of each width merged into eight bits, and folded ==")
    for lg_k, width in itertools.product(range(4, 9), WIDTHS):
        image = sketch_with(lg_k, width, greatest(spread(9 << lg_k), lg_k), WORDS, False)
        for least in sorted({4, *range(lg_k - 2, lg_k + 1)} & set(range(4, 9))):
            rows.image(image, f"union 1 {least} 8")
            rows.image(image, f"fold {least}")
        rows.image(image, f"union 1 12 {width}")
    rows.note("exceptions at slots that fold to one, and at the ends of blocks")
    for lg_k, pairs in (
        (6, [(3, 20), (19, 41), (35, 40), (51, 1), (12, 14), (60, 15)]),
        (7, [(0, 15), (31, 16), (96, 63), (127, 14), (126, 40), (33, 4)]),
    ):
        image = sketch_with(lg_k, 4, greatest(pairs, lg_k))
        for line in (f"union 1 {lg_k} 8", f"union 1 {lg_k - 2} 8", "union 1 4 8", "fold 4"):
            rows.image(image, line)


def places_of(size):
    """Each place of a small image, and those at the ends of blocks of a larger one."""
    if size <= 16:
        return range(size)
    ends = {end + more for end in (0, 16, 32, 64, 128, size) for more in (-2, -1, 0, 1)}
    return sorted(place for place in ends if 0 <= place < size)


def walk_places(rows):
    rows.note("== One register of another value, at each place of small images and at the ends of blocks of larger ones ==")

    def changed(lg_k, width, place, byte):
        image = bytearray(sketch_with(lg_k, width, [0] * 2**lg_k))
        image[40 + place] = byte
        rows.image(image)

    rows.note("eight bits: a register of at most 63, and one above")
    for lg_k in (4, 5, 7):
        for place, byte in itertools.product(places_of(2**lg_k), (63, 64, 255)):
            changed(lg_k, 8, place, byte)
    rows.note("six bits: a bit of each byte, and all of them")
    for lg_k in (4, 5, 7):
        for place, byte in itertools.product(places_of(3 * 2 ** (lg_k - 2)), (1, 4, 8, 32, 128, 255)):
            changed(lg_k, 6, place, byte)
    rows.note("four bits: a nibble of 14, and one of 15 that has no exception")
    for lg_k in (4, 5, 7):
        for slot, nibble in itertools.product(places_of(2**lg_k), (14, 15)):
            changed(lg_k, 4, slot // 2, nibble << 4 * (slot % 2))
    rows.note("eight bits into four, and back")
    for lg_k in (4, 5, 7):
        for slot, value in itertools.product(places_of(2**lg_k), (14, 15, 63)):
            values = greatest([(slot, value)], lg_k)
            rows.image(sketch_with(lg_k, 8, values), f"union 1 {lg_k} 4")
            rows.image(sketch_with(lg_k, 4, values), f"union 1 {lg_k} 8")


def walk_stages(rows):
    rows.note("== Images of each stage and width, and with a coupon more ==")
    tables = [(4, 0, 3), (4, 7, 3), (9, 7, 3), (9, 8, 5), (9, 24, 5), (9, 25, 6), (9, 48, 6), (10, 49, 7), (21, 49, 7)]
    contents = [(lg_k, Coupons(frozenset(1 << 26 | slot for slot in range(count)), size)) for lg_k, count, size in tables]
    for lg_k, count in ((4, 8), (7, 8), (8, 26), (9, 49)):
        contents.append((lg_k, Registers(greatest([(slot, 1) for slot in range(count)], lg_k))))
    for (lg_k, content), width in itertools.product(contents, WIDTHS):
        image = written(Sketch(lg_k, width, content))
        rows.image(image)
        rows.image(image + b"\xff")
        rows.image(image, "coupon 3 40")


def walk_paths(rows):
    rows.note("== Coupons and exceptions whose searches all go one way ==")
    for lg_size in (5, 6, 7):
        lg_k, words = lg_size + 3, path_coupons(lg_size)
        image, half = unsorted_set(lg_size, words), unsorted_set(lg_size, words[::-2])
        rows.note(f"a set of 2^{lg_size} places, in the order of the path")
        rows.image(image)
        rows.image(unsorted_set(lg_size, words[::-1]))
        rows.image(unsorted_set(lg_size, words[:-1] + words[:1]))
        for line in (f"fold {lg_k - 1}", "fold 4", "coupon 67108863 1", f"coupon {words[7] % 2**26} {words[7] >> 26}"):
            rows.image(image, line)
        rows.image(image, f"image {half.hex()}", f"union 2 {lg_k} 8")
        rows.image(half, f"image {image.hex()}", f"union 2 {lg_k - 1} 4")
    for lg_k in (6, 7, 8):
        registers = registers_with(lg_k, path_slots(lg_k), 20, 1)
        registers[-1] = 0
        image, front = sketch_with(lg_k, 4, registers), 40 + 2 ** (lg_k - 1)
        entries = [image[at : at + 4] for at in range(front, len(image), 4)]
        rows.note(f"exceptions in a table of 2^{lg_k - 1} places, in both orders")
        for order in (entries, entries[::-1]):
            data = image[:front] + b"".join(order)
            rows.image(data)
            for line in (f"coupon {2**lg_k - 1} 5", f"coupon {2**lg_k - 1} 40", f"union 1 {lg_k} 8", f"union 1 {lg_k - 2} 4", "fold 4"):
                rows.image(data, line)
        rows.image(image[:front] + b"".join(entries[:-1] + entries[:1]))


def text_of_walks():
    rows = Rows({plan for plan, _, _ in rows_in(WORKED)})
    for walk in (walk_four_bits, walk_changes, walk_headers, walk_groups, walk_values, walk_minimums, walk_updates,
                 walk_merges, walk_places, walk_stages, walk_paths):  # fmt: skip
        walk(rows)
    return ("\n".join(rows.lines).rstrip("\n") + "\n").encode()


def put(walks):
    """Writes the walks at once, as several tests may make them at the same time."""
    place, name = tempfile.mkstemp(dir=WALKS.parent)
    with open(place, "wb") as file:
        file.write(walks)
    os.chmod(name, 0o644)
    os.replace(name, WALKS)


def main():
    walks, words = text_of_walks(), sys.argv[1:]
    if words == ["write"]:
        WALKS_SUM.write_text(sum_of(walks))
    is_same = WALKS_SUM.exists() and sum_of(walks) == WALKS_SUM.read_text()
    if not is_same:
        print("the walks are not those of tests/walks.sha256: after a change of tests/walks.py, run tests/walks.py write")
    if words == ["check"]:
        print("%d passed, %d failed" % (is_same, not is_same))
    elif is_same:
        put(walks)
    return not is_same


if __name__ == "__main__":
    sys.exit(main())
