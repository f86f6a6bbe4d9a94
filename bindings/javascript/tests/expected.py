#!/usr/bin/env python3
# SPDX-License-Identifier: Apache-2.0
"""Prints as JSON what the Python package makes of values, for module.test.mjs to compare with:

    expected.py PACKAGE_DIRECTORY LIBHLL.so
"""
import json
import os
import sys

sys.dont_write_bytecode = True
sys.path.insert(0, sys.argv[1])
os.environ["HLL_SKETCHES_LIBRARY"] = sys.argv[2]
from hll_sketches import Sketch, union_of  # noqa: E402

# Parts of a union, each an lg_k, a width and a range of integers; and the bound.
UNIONS = [
    ([(12, 8, 0, 10), (12, 8, 5, 300)], 0),
    ([(12, 4, 0, 9000), (12, 4, 5000, 12000)], 0),
    ([(12, 8, 0, 9000), (10, 4, 5000, 12000)], 12),
    ([(12, 8, 0, 9000), (14, 6, 5, 30000)], 12),
    ([(12, 8, 0, 9000), (12, 6, 0, 1)], 10),
    ([(12, 8, 0, 0), (10, 6, 0, 3)], 0),
]


def image(values, lg_k=12, width=8):
    """Returns the image of a sketch of these values."""
    sketch = Sketch(lg_k, width)
    sketch.update_many(values)
    return sketch.to_bytes().hex()


def union(parts, bound):
    """Returns the bound, the images of the parts, and what their union says."""
    images = [bytes.fromhex(image(range(first, last), lg_k, width)) for lg_k, width, first, last in parts]
    found = union_of([Sketch.from_bytes(it) for it in images], lg_max_k=bound or None)
    bounds = [list(found.bounds(deviations)) for deviations in (1, 2, 3)]
    return [bound, [it.hex() for it in images], found.to_bytes().hex(), found.estimate(), *bounds, found.lg_k, found.width]


json.dump({
    "long": image(["x" * 100000]),
    "many": [[lg_k, width, n, image(["v%d" % i for i in range(n)], lg_k, width)]
             for lg_k in (4, 8, 10, 12, 16) for width in (4, 6, 8) for n in (2, 7, 8, 100, 400, 5000, 70000)],
    "ints": image(range(-5000, 5000)),
    "eighths": image([i / 8 for i in range(5000)]),
    "unions": [union(*it) for it in UNIONS],
}, sys.stdout)
