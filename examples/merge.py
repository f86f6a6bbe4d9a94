#!/usr/bin/env python3
# SPDX-License-Identifier: Apache-2.0
"""The union of sketches in files: merge.py OUT FILE.. writes it to OUT, and prints an estimate of its values."""
import sys

from hll_sketches import HllError, merge_files


def main(arguments):
    if len(arguments) < 2:
        return "usage: merge.py OUT FILE.."
    try:
        merged = merge_files(arguments[1:], lg_max_k=12)
        merged.write(arguments[0])
    except (HllError, OSError) as error:
        return str(error)
    lower, upper = merged.bounds(2)
    print(f"{merged.estimate():.0f} distinct values; with 95% certainty {lower:.0f} to {upper:.0f}")
    return 0


if __name__ == "__main__":
    sys.exit(main(sys.argv[1:]))
