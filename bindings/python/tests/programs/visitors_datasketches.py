# SPDX-License-Identifier: Apache-2.0
"""Counts the visitors of pages by day and over all days, in the names of the package datasketches.

The tests change the line of its import as the README says, and no other. visitors.py does the same by Sketch and union_of.
"""
import pathlib
import pickle
import sys
from collections import defaultdict

from datasketches import hll_sketch, hll_union, tgt_hll_type

LG_K = 12
SAVED = pathlib.Path(sys.argv[1])


def visits(day):
    """The lines of a day's log, made up: a page, a visitor (none in every tenth line), an account, and seconds."""
    for number in range(6000):
        visitor = "" if number % 10 == 0 else f"visitor {day * 1500 + number}"
        yield f"page {number % 3}", visitor, number % 700, number % 40 / 4


def count(day):
    """Returns a sketch of each page."""
    pages = defaultdict(lambda: hll_sketch(LG_K))
    for page, visitor, account, seconds in visits(day):
        pages[page].update(visitor)
        pages["accounts"].update(account)
        pages["seconds"].update(seconds)
    return pages


def show(name, counted):
    low, high = counted.get_lower_bound(2), counted.get_upper_bound(2)
    print(f"{name}: {counted.get_estimate():.3f} ({low:.3f} to {high:.3f})")


def save():
    """Writes a file for each page of each day."""
    for day in range(3):
        for page, sketch in sorted(count(day).items()):
            (SAVED / f"{page}.{day}").write_bytes(sketch.serialize_compact())
            show(f"{page}, day {day}", sketch)


def read(path):
    """Returns the sketch of a file, or None if it is damaged."""
    try:
        return hll_sketch.deserialize(path.read_bytes())
    except (ValueError, IndexError, RuntimeError):
        print(f"{path.name} is damaged")
        return None


def total(pattern):
    """Returns the union of files."""
    union = hll_union(LG_K)
    for path in sorted(SAVED.glob(pattern)):
        sketch = read(path)
        if sketch is not None:
            union.update(sketch)
    return union


def main():
    save()
    (SAVED / "page 1.2").write_bytes(b"\x0a\x01\x07\x0c\x00")
    for pattern in ("page 0.*", "page 1.*", "accounts.*", "seconds.*", "none.*"):
        union = total(pattern)
        show(pattern, union)
        print(union.is_empty(), union.lg_config_k, len(union.get_result().serialize_compact()))
    everyone = total("page *")
    everyone.update("an operator")
    wide = everyone.get_result(tgt_hll_type.HLL_8)
    sent = pickle.loads(pickle.dumps(wide))
    show("everyone", sent)
    print(len(wide.serialize_compact()), len(hll_sketch(wide, tgt_hll_type.HLL_6).serialize_compact()))
    wide.reset()
    print(wide.is_empty(), round(sent.get_estimate()), sent.lg_config_k)


if __name__ == "__main__":
    main()
