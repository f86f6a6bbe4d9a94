# SPDX-License-Identifier: Apache-2.0
"""HyperLogLog sketches in the DataSketches format.

A sketch counts distinct values in a few kilobytes, within a percent or two. Sketches can be
merged into the sketch of all their values.

    >>> from hll_sketches import Sketch, union_of
    >>> monday, tuesday = Sketch(), Sketch()
    >>> monday.update_many(["ann", "bob", "cid"])
    >>> tuesday.update_many(["bob", "dan"])
    >>> round(union_of([monday, tuesday]).estimate())
    4

Proved calls of the C library hash and add values, read, merge and write images, and estimate from
registers. What a counter (a sketch that grows by itself) counts, merges and writes, and what it
estimates from registers, is decided by proved calls alone. Bounds, and estimates from few values, are
plain C (`estimate.c`). The C of a counter allocates memory, copies bytes to it and frees it. What is
plain C is tested, not proved. This package is tested, too.
"""
from typing import TYPE_CHECKING

from ._errors import ArgumentError, DatabaseError, FilesError, HllError, ImageError, PrecisionError
from ._library import processor
from ._values import Value, coupon, coupons
from .merging import merge_files
from .registers import Registers
from .sketch import Sketch, fault_of, is_image, is_small
from .union import SketchUnion, union_of

if TYPE_CHECKING:
    from .database import Database

__version__ = "0.2.0"

__all__ = [
    "ArgumentError",
    "Database",
    "DatabaseError",
    "FilesError",
    "HllError",
    "ImageError",
    "PrecisionError",
    "Registers",
    "Sketch",
    "SketchUnion",
    "Value",
    "coupon",
    "coupons",
    "fault_of",
    "is_image",
    "is_small",
    "merge_files",
    "processor",
    "union_of",
]


def __getattr__(name: str) -> object:
    """Loads ``Database``, and with it SQLite, once it is used."""
    if name == "Database":
        from .database import Database

        return Database
    raise AttributeError(f"module {__name__!r} has no attribute {name!r}")
