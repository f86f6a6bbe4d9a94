#!/usr/bin/env python3
# SPDX-License-Identifier: Apache-2.0
"""Reads images that other DataSketches libraries wrote, and prints a table to paste into a report.

    ./check foreign FOLDER      each *.sk and *.bin file in the folder and its subfolders

A file whose name begins like `hll4_n1000_java.sk`, as Apache's published test images are named, was written with this width and
this number of distinct values. Both are compared: the number has to be within the bounds at three standard deviations. Each image is
written and read again, and has to keep its registers, `lg_k`, width, stage and HIP estimate. Images of other sketches than HLL
are listed and not counted. The last line is 'N passed, M failed', and the status is 0 only if nothing failed.
"""
import pathlib
import re
import sys

sys.dont_write_bytecode = True
sys.path.insert(0, str(pathlib.Path(__file__).resolve().parent.parent / "bindings" / "python"))
from hll_sketches import Sketch, fault_of  # noqa: E402

NAMED = re.compile(r"hll_?([468])_n([0-9]+)")
HEAD = "| file | bytes | width | lg_k | stage | values | estimate | lower | upper | HIP | |\n|---|---|---|---|---|---|---|---|---|---|---|"


def faults_of(sketch, name):
    """Yields what is wrong with the sketch of a file of this name."""
    named = NAMED.match(name)
    lower, upper = sketch.bounds(3)
    if named and sketch.width != int(named[1]):
        yield f"has {sketch.width} bits a register"
    if named and not lower <= int(named[2]) <= upper:
        yield "the number of values is outside the bounds"
    again = Sketch.from_bytes(sketch.to_bytes())
    if not sketch.agrees_with(again):
        yield "has other registers after it was written"
    for what in ("lg_k", "width", "stage"):
        if getattr(again, what) != getattr(sketch, what):
            yield f"has another {what} after it was written"
    if again.hip_estimate() != sketch.hip_estimate():
        yield "has another HIP estimate after it was written"


def row_of(file, folder):
    """Returns the row of a file, and whether all is right, or None for a sketch that is not HLL."""
    image = file.read_bytes()
    name = file.relative_to(folder)
    fault = fault_of(image)
    if fault is not None:
        return f"| {name} | {len(image)} | | | | | | | | | {fault} |", None if fault == "family" else False
    sketch = Sketch.from_bytes(image)
    named = NAMED.match(file.name)
    lower, upper = sketch.bounds(3)
    hip = sketch.hip_estimate()
    faults = list(faults_of(sketch, file.name))
    columns = [name, len(image), sketch.width, sketch.lg_k, sketch.stage, named[2] if named else "", f"{sketch.estimate():.1f}",
               f"{lower:.1f}", f"{upper:.1f}", "" if hip is None else f"{hip:.1f}", "; ".join(faults) or "right"]
    return "| " + " | ".join(map(str, columns)) + " |", not faults


def main(words):
    if len(words) != 1 or not pathlib.Path(words[0]).is_dir():
        sys.exit("usage: ./check foreign FOLDER, where the folder has *.sk or *.bin files")
    folder = pathlib.Path(words[0])
    files = sorted(it for it in folder.rglob("*") if it.suffix in (".sk", ".bin"))
    if not files:
        sys.exit(f"{folder}: no *.sk or *.bin file is in this folder or its subfolders")
    print(HEAD)
    results = []
    for file in files:
        row, is_right = row_of(file, folder)
        print(row)
        results.append(is_right)
    print(f"\n{results.count(True)} passed, {results.count(False)} failed")
    return 1 if False in results else 0


if __name__ == "__main__":
    sys.exit(main(sys.argv[1:]))
