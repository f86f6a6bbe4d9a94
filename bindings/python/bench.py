#!/usr/bin/env python3
# SPDX-License-Identifier: Apache-2.0
"""Times calls of the package at lg_k 12, beside the calls of the library alone, and prints a table.

Times are of this process's processor time. Both calls of a row run in turn; what is printed is the
median of eleven turns, and that of the ratios. Threads are timed by the clock on the wall.
"""
import pathlib
import statistics
import sys
import threading
import time
from array import array

sys.dont_write_bytecode = True
sys.path.insert(0, str(pathlib.Path(__file__).resolve().parent))

from hll_sketches import Registers, Sketch, SketchUnion, _library, coupons, union_of  # noqa: E402

IMAGES, TURNS, THREADS = 1000, 11, 4


def seconds_of(call):
    start = time.process_time()
    call()
    return time.process_time() - start


def images_of(width):
    """A thousand images in registers."""
    made = []
    for number in range(IMAGES):
        sketch = Sketch(12, width)
        sketch.update_many(range(number * 20000, number * 20000 + 20000))
        made.append(sketch.to_bytes())
    return made


def call_alone(images):
    """The call of the library for all images at once, with its arguments made before."""
    joined, ends = b"".join(images), _library.ends_of(images)
    out, size, failed = bytearray(1 << 16), _library.c_size_t(), _library.c_size_t()
    room = _library.byref(_library.c_uint8.from_buffer(out))
    numbers = _library.byref(size), _library.byref(failed)
    union = _library._library.hll_images_union

    def call():
        rest = ends.buffer_info()[0], len(ends), room, len(out)
        if union(12, 8, joined, len(joined), *rest, *numbers) != _library.OK:
            raise RuntimeError("the call of the library failed")

    return call


def add_alone(lg_k, values):
    """The call of the library for all values of eight bytes at once, on a new counter."""
    data, ends, add = values.tobytes(), _library.ends_of_width(8, len(values)), _library._library.hll_counter_add_many

    def call():
        counter = _library.new_counter(lg_k)
        if add(_library.byref(counter), data, len(data), ends.buffer_info()[0], len(values)) != _library.OK:
            raise RuntimeError("the call of the library failed")

    return call


def add_to_alone(values):
    """The same into registers."""
    registers, data, ends = Registers(12), values.tobytes(), _library.ends_of_width(8, len(values))
    return lambda: _library.add_to(registers._place, data, ends, len(values))


def in_turn(images):
    """A union that takes images one at a time."""
    union = SketchUnion(12)
    for image in images:
        union.update(image)
    return union.sketch()


def one_by_one(values):
    """Values that are added one at a time."""
    sketch = Sketch(12)
    for value in values:
        sketch.update(value)
    return sketch.to_bytes()


def row(name, count, call, alone=None):
    """Times and prints a row: a call that does so many, and the call of the library alone."""
    turns = [(seconds_of(call), seconds_of(alone) if alone else 1.0) for _ in range(TURNS)]
    each, least = (1e9 * statistics.median(times) / count for times in zip(*turns))
    ratio = statistics.median(ours / theirs for ours, theirs in turns)
    beside = f"{least:.0f} | {ratio:.2f}" if alone else "|"
    print(f"| {name} | {each:.0f} | {beside} |")


def in_threads(values):
    """How many times as many values threads add, each to a sketch of its own, as one of them."""

    def waited(threads):
        start = time.perf_counter()
        for thread in threads:
            thread.start()
        for thread in threads:
            thread.join()
        return time.perf_counter() - start

    def some(count):
        return [threading.Thread(target=lambda: Sketch(12).update_many(values)) for _ in range(count)]

    turns = [(waited(some(1)), waited(some(THREADS))) for _ in range(TURNS)]
    return statistics.median(THREADS * one / all_of_them for one, all_of_them in turns)


def main():
    print("| lg_k 12, ns each | Python | the C call | ratio |\n|---|---|---|---|")
    for width in (8, 6, 4):
        images = images_of(width)
        sketches = [Sketch.from_bytes(image) for image in images]
        alone, bits = call_alone(images), f"{width} bits"
        row(f"`union_of` 1,000 images of {bits}", IMAGES, lambda: union_of(images), alone)
        row(f"`union_of` 1,000 sketches of {bits}", IMAGES, lambda: union_of(sketches), alone)
        row(f"`SketchUnion.update`, 1,000 images of {bits}", IMAGES, lambda: in_turn(images), alone)
    left, right = sketches[:2]
    image = images[0]
    row("`left | right`", 1000, lambda: [left | right for _ in range(1000)])
    row("`Sketch.from_bytes`", 1000, lambda: [Sketch.from_bytes(image) for _ in range(1000)])
    row("`Sketch.estimate`", 1000, lambda: [left.estimate() for _ in range(1000)])
    ints, words = list(range(1_000_000)), [str(number) for number in range(1_000_000)]
    row("`update_many` of a million int", len(ints), lambda: Sketch(12).update_many(ints))
    row("`update_many` of a million str", len(words), lambda: Sketch(12).update_many(words))
    for lg_k in (12, 21):
        eights, floats = array("q", ints), array("d", ints)
        alone = add_alone(lg_k, eights)
        row(f"the same of an array of int64, lg_k {lg_k}", len(ints), lambda: Sketch(lg_k).update_many(eights), alone)
        row(f"the same of an array of float64, lg_k {lg_k}", len(ints), lambda: Sketch(lg_k).update_many(floats), alone)
    small = array("i", ints)
    row("the same of an array of int32, lg_k 12", len(ints), lambda: Sketch(12).update_many(small), add_alone(12, eights))
    registers = Registers(12)
    row("`Registers.update_many` of an array of int64", len(ints), lambda: registers.update_many(eights), add_to_alone(eights))
    row("`update` of an int", 100_000, lambda: one_by_one(ints[:100_000]))
    row("`coupons` of a million int", len(ints), lambda: coupons(ints))
    print(f"\n{THREADS} threads add {in_threads(array('q', range(8_000_000))):.2f} times as many int64 as one.")


if __name__ == "__main__":
    main()
