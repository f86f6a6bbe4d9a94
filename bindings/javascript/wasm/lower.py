#!/usr/bin/env python3
# SPDX-License-Identifier: Apache-2.0
"""Lowers a module with a 64-bit memory to a 32-bit memory, by binaryen: lower.py IN.wasm OUT.wasm

binaryen 108 leaves the addresses of some loads and stores of vectors as 64 bits. They are wrapped here, in its text.
"""
import pathlib
import re
import subprocess
import sys
import tempfile

FEATURES = ["bulk-memory", "mutable-globals", "sign-ext", "nontrapping-float-to-int", "multivalue", "memory64", "simd"]
LEFT = re.compile(r"\(v128\.(?:load(?:8|16|32|64)_(?:splat|zero|lane)|store(?:8|16|32|64)_lane|load(?:8x8|16x4|32x2)_[su])\b([^()]*)")


def wasm_opt(*words):
    subprocess.run(["wasm-opt", *["--enable-" + name for name in FEATURES], *map(str, words)], check=True)


def end_of(text, start):
    """Returns where the expression ends that begins at a place."""
    depth = 0
    for place in range(start, len(text)):
        depth += {"(": 1, ")": -1}.get(text[place], 0)
        if depth == 0:
            return place + 1
    raise ValueError("an expression has no end")


def wrapped(text):
    """Returns the text in which the first operand of each such load and store is wrapped."""
    places = []
    for found in LEFT.finditer(text):
        places += [(found.end(), " (i32.wrap_i64 "), (end_of(text, found.end()), ")")]
    out, last = [], 0
    for place, added in sorted(places, key=lambda it: (it[0], it[1] != ")")):    # at one place an end comes first
        out += [text[last:place], added]
        last = place
    return "".join([*out, text[last:]])


def main():
    with tempfile.TemporaryDirectory() as room:
        room = pathlib.Path(room)
        # without validation, which these loads and stores fail
        wasm_opt("-n", "-S", "--memory64-lowering", sys.argv[1], "-o", room / "lowered.wat")
        (room / "wrapped.wat").write_text(wrapped((room / "lowered.wat").read_text()))
        wasm_opt("-O3", "--strip-debug", "--strip-producers", room / "wrapped.wat", "-o", sys.argv[2])


main()
