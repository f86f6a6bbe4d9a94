#!/usr/bin/env python3
# SPDX-License-Identifier: Apache-2.0
"""Times the aggregates at lg_k 12 on tables in memory, beside the calls of the library alone, and prints a table.

The scan of the same column, by an aggregate that only asks for its bytes (tests/touch.c), is taken off. Times are of this process's processor time; what runs in
a row runs in turn, and of its times and ratios the median of eleven turns is told. Needs the extension in build/ and the
library of bindings/c.
"""
import pathlib
import sqlite3
import statistics
import subprocess
import sys
import time
from array import array

sys.dont_write_bytecode = True
HERE = pathlib.Path(__file__).resolve().parent
sys.path.insert(0, str(HERE.parent / "python"))

from hll_sketches import Sketch, _library  # noqa: E402

GROUPS = "SELECT count(u) FROM (SELECT touch(x) AS u FROM t GROUP BY g)"
TURNS, IMAGES, VALUES = 11, 20000, 1000000
CALLS = _library._library


def connect():
    touch = HERE / "build" / "touch.so"
    subprocess.run(["cc", "-O2", "-fPIC", "-shared", "-o", touch, HERE / "tests" / "touch.c"], check=True)
    db = sqlite3.connect(":memory:")
    db.enable_load_extension(True)
    for module in ("hll_sketches", "touch"):
        db.load_extension(str(HERE / "build" / module))
    db.execute("CREATE TABLE t (g INTEGER, x)")
    return db


def fill(db, rows):
    db.execute("DELETE FROM t")
    db.executemany("INSERT INTO t VALUES (?, ?)", rows)


def images_of(width, count, values):
    """Images, each of its own values."""
    for number in range(count):
        sketch = Sketch(12, width)
        sketch.update_many(range(number * values, number * values + values))
        yield sketch.to_bytes()


def seconds_of(call):
    start = time.process_time()
    call()
    return time.process_time() - start


def union_alone(images):
    """The call of the library for all images at once, with its arguments made before."""
    joined, ends = b"".join(images), _library.ends_of(images)
    out, size, failed = bytearray(1 << 16), _library.c_size_t(), _library.c_size_t()
    room = _library.byref(_library.c_uint8.from_buffer(out))

    def call():
        CALLS.hll_images_union(12, 8, joined, len(joined), ends.buffer_info()[0], len(ends), room, len(out),
                               _library.byref(size), _library.byref(failed))
    return call


def add_alone(values):
    """The call of the library for all values at once: byte strings, or integers."""
    if isinstance(values[0], int):
        data, ends = array("q", values).tobytes(), _library.array(_library._END, range(8, 8 * len(values) + 1, 8))
    else:
        pieces = [value.encode() for value in values]
        data, ends = b"".join(pieces), _library.ends_of(pieces)
    registers = _library.place_of(memoryview(bytearray(1 << 12)))
    return lambda: CALLS.hll_registers_add(registers, len(registers), data, len(data), ends.buffer_info()[0], len(ends))


def row(db, name, count, query, alone, scan="SELECT touch(x) FROM t"):
    """Times and prints a row."""
    def run(sql):
        return seconds_of(lambda: db.execute(sql).fetchall())
    turns = [(run(query), run(scan), seconds_of(alone) if alone else 0) for _ in range(TURNS)]
    ours = statistics.median(query - scan for query, scan, _ in turns)
    scans = statistics.median(scan for _, scan, _ in turns)
    theirs = statistics.median(alone for _, _, alone in turns)
    ratio = "%.2f" % statistics.median((query - scan) / alone for query, scan, alone in turns) if alone else ""
    beside = "%.0f" % (1e9 * theirs / count) if alone else ""
    print("| %s | %.0f | %.0f | %s | %s | %s |" % (name, 1e9 * scans / count, 1e9 * ours / count, beside, ratio,
                                               "{:,.0f}".format(count / (ours + scans))))


def main():
    db = connect()
    print("| lg_k 12, ns each | scan | aggregate | the C call | ratio | a second, with the scan |\n|---|---|---|---|---|---|")
    for width in (8, 6, 4):
        images = list(images_of(width, IMAGES // 10, 20000)) * 10
        fill(db, ((0, image) for image in images))
        row(db, "`hll_image_union_agg`, %d bits" % width, IMAGES, "SELECT hll_image_union_agg(x) FROM t", union_alone(images))
    images = list(images_of(8, IMAGES, 20)) * 10
    fill(db, ((number // 10, image) for number, image in enumerate(images)))
    row(db, "the same, of 20 values", len(images), "SELECT hll_image_union_agg(x) FROM t", union_alone(images))
    row(db, "in groups of ten", len(images), "SELECT count(u) FROM (SELECT hll_image_union_agg(x) AS u FROM t GROUP BY g)", None,
        GROUPS)
    for name, values in (("integers", list(range(VALUES))), ("texts of 8 to 14 bytes", ["visitor %d" % n for n in range(VALUES)])):
        fill(db, ((number // 10, value) for number, value in enumerate(values)))
        row(db, "`hll_image_add_agg`, %s" % name, VALUES, "SELECT hll_image_add_agg(x) FROM t", add_alone(values))
        row(db, "in groups of ten", VALUES, "SELECT count(u) FROM (SELECT hll_image_add_agg(x) AS u FROM t GROUP BY g)", None,
            GROUPS)


if __name__ == "__main__":
    main()
