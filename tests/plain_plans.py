#!/usr/bin/env python3
# SPDX-License-Identifier: Apache-2.0
"""Answers plans by a plain model that follows docs/PLAN.md, docs/MODEL.md and docs/FORMAT.md alone, and shares no code with
the library; each row of a text of rows has to have that result (docs/PLAN.md, "Rows").

Call it with the files of rows; without one it takes the test vectors and the walks. It prints each row whose result is another,
and 'N passed, M failed' at the end, and ends with status 1 if there is one.
"""
import pathlib
import re
import struct
import sys
from dataclasses import dataclass, replace

sys.dont_write_bytecode = True
from plain_reader import Refused, read, slot_of, value_of
from rows import rows_in, texts

WIDTHS = (4, 6, 8)
LIST_SIZE, LEAST_SET_SIZE = 3, 5


class Fault(Exception):
    """A line is rejected, with these words."""


# ---- sketches


@dataclass(frozen=True)
class Coupons:
    """Coupons in a table of 2^size places."""
    members: frozenset
    size: int


@dataclass(frozen=True)
class Registers:
    """A register for each slot, and the three fields and the flag of the estimate state."""
    values: tuple
    words: bytes = bytes(24)
    out_of_order: bool = True


@dataclass(frozen=True)
class Sketch:
    lg_k: int
    width: int
    content: object

    def is_empty(self):
        """Whether there is no coupon, or no register above 0."""
        content = self.content
        return not any(content.values if isinstance(content, Registers) else content.members)


def empty(lg_k, width):
    return Sketch(lg_k, width, Coupons(frozenset(), LIST_SIZE))


def table_size(lg_k, least, count):
    """The least size of a table from one on that keeps so many coupons, or none: then registers do."""
    if least <= LIST_SIZE and count <= 7:
        return LIST_SIZE
    sizes = range(max(least, LEAST_SET_SIZE), lg_k - 2)
    return next((size for size in sizes if 4 * count <= 3 * 2**size), None)


def greatest(pairs, lg_k):
    """The greatest value at each slot modulo 2^lg_k."""
    values = [0] * 2**lg_k
    for slot, value in pairs:
        values[slot % 2**lg_k] = max(values[slot % 2**lg_k], value)
    return tuple(values)


def pairs_of(sketch):
    if isinstance(sketch.content, Registers):
        return list(enumerate(sketch.content.values))
    return [(slot_of(coupon), value_of(coupon)) for coupon in sketch.content.members]


def content_of(lg_k, coupons, least):
    """What keeps coupons: a table of a size from the least one on, or registers."""
    size = table_size(lg_k, least, len(coupons))
    if size is not None:
        return Coupons(coupons, size)
    return Registers(greatest([(slot_of(coupon), value_of(coupon)) for coupon in coupons], lg_k))


def add(sketch, coupon):
    content = sketch.content
    if isinstance(content, Coupons):
        return replace(sketch, content=content_of(sketch.lg_k, content.members | {coupon}, content.size))
    values = greatest(pairs_of(sketch) + [(slot_of(coupon), value_of(coupon))], sketch.lg_k)
    return sketch if values == content.values else replace(sketch, content=Registers(values))


def fold(sketch, lg_k):
    content = sketch.content
    if isinstance(content, Coupons):
        return Sketch(lg_k, sketch.width, content_of(lg_k, content.members, LIST_SIZE))
    if lg_k == sketch.lg_k:
        return sketch
    return Sketch(lg_k, sketch.width, Registers(greatest(pairs_of(sketch), lg_k)))


def merge(bound, gadget, sketch):
    if sketch.is_empty():
        return gadget
    if isinstance(sketch.content, Coupons):
        if gadget.is_empty() and gadget.lg_k == sketch.lg_k:
            return replace(gadget, content=sketch.content)
        for coupon in sorted(sketch.content.members):
            gadget = add(gadget, coupon)
        return gadget
    if gadget.is_empty() and sketch.lg_k <= bound:
        return replace(sketch, width=8)
    lg_k = min(gadget.lg_k, sketch.lg_k)
    return Sketch(lg_k, 8, Registers(greatest(pairs_of(gadget) + pairs_of(sketch), lg_k)))


def union(sketches, bound, width):
    gadget = empty(bound, 8)
    for sketch in sketches:
        gadget = merge(bound, gadget, sketch)
    return replace(gadget, width=width)


# ---- images


def sketch_of(image):
    """The sketch of an image, from what the plain reader says of it."""
    value = read(image)
    lg_k, width, size = value[0], WIDTHS[value[1]], value[2]
    if size:
        words = struct.unpack(f"<{(len(value) - 3) // 4}I", value[3:])
        return Sketch(lg_k, width, Coupons(frozenset(words), size))
    return Sketch(lg_k, width, Registers(tuple(value[28:]), value[4:28], bool(value[3])))


def words_of(coupons):
    return struct.pack(f"<{len(coupons)}I", *sorted(coupons))


def written(sketch):
    """The image that is written for a sketch."""
    mode = 4 * WIDTHS.index(sketch.width)
    content, lg_k = sketch.content, sketch.lg_k
    if isinstance(content, Coupons):
        count = len(content.members)
        if content.size == LIST_SIZE:
            return bytes([2, 1, 7, lg_k, 3, 8 if count else 12, count, mode]) + words_of(content.members)
        front = bytes([3, 1, 7, lg_k, content.size, 8, 0, mode + 1])
        return front + struct.pack("<I", count) + words_of(content.members)
    values, least = content.values, 0
    exceptions = set()
    if sketch.width == 4:
        least = min(values)
        exceptions = {value << 26 | slot for slot, value in enumerate(values) if value >= least + 15}
        packed = sum(min(value - least, 15) << 4 * slot for slot, value in enumerate(values))
    else:
        packed = sum(value << sketch.width * slot for slot, value in enumerate(values))
    size = len(values) * sketch.width // 8 + (sketch.width == 6)
    flags = 8 * (sketch.width == 4) + 16 * content.out_of_order
    front = bytes([10, 1, 7, lg_k, 0, flags, least, mode + 2]) + content.words
    counts = struct.pack("<II", values.count(least), len(exceptions))
    return front + counts + packed.to_bytes(size, "little") + words_of(exceptions)


# ---- plans


def numbers(words, count):
    if len(words) != count or not all(re.fullmatch(rb"[0-9]{1,8}", word) for word in words):
        raise Fault("syntax")
    return [int(word) for word in words]


def check_range(*tests):
    if not all(tests):
        raise Fault("range")


def carry_out(stack, line):
    """Carries out a line on a stack of sketches."""
    first, *words = line.split(b" ")
    if first == b"new":
        lg_k, width = numbers(words, 2)
        check_range(4 <= lg_k <= 21, width in WIDTHS)
        stack.append(empty(lg_k, width))
    elif first == b"coupon":
        slot, value = numbers(words, 2)
        check_range(slot < 2**26, 1 <= value <= 63)
        if not stack:
            raise Fault("stack")
        stack[-1] = add(stack[-1], value << 26 | slot)
    elif first == b"image":
        push_image(stack, words)
    elif first == b"union":
        count, bound, width = numbers(words, 3)
        check_range(4 <= bound <= 21, width in WIDTHS)
        if count > len(stack):
            raise Fault("stack")
        children = stack[len(stack) - count :]
        stack[len(stack) - count :] = [union(children, bound, width)]
    elif first == b"fold":
        (lg_k,) = numbers(words, 1)
        check_range(4 <= lg_k <= 21)
        if not stack:
            raise Fault("stack")
        if lg_k > stack[-1].lg_k:
            raise Fault("fold")
        stack[-1] = fold(stack[-1], lg_k)
    else:
        raise Fault("syntax")


def push_image(stack, words):
    if len(words) != 1 or not words[0]:
        raise Fault("syntax")
    if len(words[0]) % 2 or not re.fullmatch(rb"[0-9a-fA-F]*", words[0]):
        raise Fault("hex")
    try:
        stack.append(sketch_of(bytes.fromhex(words[0].decode())))
    except Refused as refusal:
        raise Fault(f"image {refusal}") from None


def lines_of(text):
    """The lines of a text. One CR before the LF of a line belongs to its end."""
    lines = text.split(b"\n")
    last = lines.pop()
    return [line.removesuffix(b"\r") for line in lines] + ([last] if last else [])


def answer_of(plan):
    """What is printed for a plan."""
    stack, lines = [], lines_of(plan)
    for number, line in enumerate(lines, 1):
        try:
            if line and not line.startswith(b"#"):
                carry_out(stack, line)
        except Fault as fault:
            return f"line {number}: {fault}"
    if len(stack) != 1:
        return f"line {len(lines)}: stack"
    return written(stack[0]).hex()


def main():
    paths = [pathlib.Path(word) for word in sys.argv[1:]] or texts()
    rows = [(plan, answer) for path in paths for plan, _, answer in rows_in(path)]
    differing = [(plan, answer) for plan, answer in rows if answer_of(plan) != answer]
    for plan, answer in differing:
        print(f"{plan.decode(errors='replace')}\n{answer}, plainly {answer_of(plan)}\n")
    print(f"{len(rows) - len(differing)} passed, {len(differing)} failed")
    sys.exit(1 if differing or not rows else 0)


if __name__ == "__main__":
    main()
