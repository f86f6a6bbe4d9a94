# SPDX-License-Identifier: Apache-2.0
"""Counts the visitors of pages by day and over all days, by Sketch and union_of: what visitors_datasketches.py does."""
import pathlib
import pickle
import sys
from collections import defaultdict

from hll_sketches import ImageError, Sketch, SketchUnion

LG_K, WIDTH = 12, 4
SAVED = pathlib.Path(sys.argv[1])


def visits(day):
    """The lines of a day's log, made up: a page, a visitor (none in every tenth line), an account, and seconds."""
    for number in range(6000):
        visitor = "" if number % 10 == 0 else f"visitor {day * 1500 + number}"
        yield f"page {number % 3}", visitor, number % 700, number % 40 / 4


def count(day):
    """Returns a sketch of each page."""
    values = defaultdict(list)
    for page, visitor, account, seconds in visits(day):
        if visitor:
            values[page].append(visitor)
        values["accounts"].append(account)
        values["seconds"].append(seconds)
    pages = {page: Sketch(LG_K, WIDTH) for page in values}
    for page, sketch in pages.items():
        sketch.update_many(values[page])
    return pages


def show(name, counted):
    low, high = counted.bounds(2)
    print(f"{name}: {counted.estimate():.3f} ({low:.3f} to {high:.3f})")


def save():
    """Writes a file for each page of each day."""
    for day in range(3):
        for page, sketch in sorted(count(day).items()):
            sketch.write(SAVED / f"{page}.{day}", sync=False)
            show(f"{page}, day {day}", sketch)


def total(pattern):
    """Returns the union of files."""
    union = SketchUnion(LG_K, WIDTH)
    for path in sorted(SAVED.glob(pattern)):
        try:
            union.update(Sketch.read(path))
        except ImageError:
            print(f"{path.name} is damaged")
    return union


def main():
    save()
    (SAVED / "page 1.2").write_bytes(b"\x0a\x01\x07\x0c\x00")
    for pattern in ("page 0.*", "page 1.*", "accounts.*", "seconds.*", "none.*"):
        union = total(pattern)
        show(pattern, union)
        print(union.is_empty, union.lg_k, len(union.to_bytes()))
    everyone = total("page *")
    everyone.update_values(["an operator"])
    wide = everyone.sketch().convert(8)
    sent = pickle.loads(pickle.dumps(wide))
    show("everyone", sent)
    print(len(wide.to_bytes()), len(wide.convert(6).to_bytes()))
    wide.reset()
    print(wide.is_empty, round(sent.estimate()), sent.lg_k)


if __name__ == "__main__":
    main()
