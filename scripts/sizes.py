#!/usr/bin/env python3
# SPDX-License-Identifier: Apache-2.0
"""Ranks the functions of a crate by what `rt check` keeps of them: where a proof is expensive, without a run.

    scripts/sizes.py CRATE [COUNT]

Call it after `rt check` in the crate. The columns are megabytes: of the walk over a body (each way out, with its borrows,
moves and drops), which takes about a processor second each, and of all that is kept.
"""
import collections
import pathlib
import re
import sys

CRATES = pathlib.Path(__file__).resolve().parent.parent / "crates"
KINDS = "Lts|Proof|Tie|Carried|Goals|Answers"


def sizes(crate):
    """The megabytes of each function: of its walk, and of all."""
    found = collections.defaultdict(lambda: [0, 0])
    name = re.compile(r"Rattle-%s-proofs\.(.*?)\.(%s)\b.*\.oantt" % (crate, KINDS))
    for file in (CRATES / crate / "out" / "incremental").glob("*/Rattle-%s-proofs.*.oantt" % crate):
        match = name.fullmatch(file.name)
        if match:
            size = file.stat().st_size / 1e6
            found[match[1]][0] += size if match[2] == "Lts" else 0
            found[match[1]][1] += size
    return found


def main(crate, count="20"):
    found = sizes(crate)
    if not found:
        sys.exit("sizes.py: nothing is kept of %s: run rt check in crates/%s" % (crate, crate))
    for function, (walk, whole) in sorted(found.items(), key=lambda it: -it[1][1])[: int(count)]:
        print("%7.1f %7.1f  %s" % (walk, whole, function))
    print("%7.0f %7.0f  in all, %d functions" % (*map(sum, zip(*found.values())), len(found)))


if __name__ == "__main__":
    if not 2 <= len(sys.argv) <= 3:
        sys.exit(__doc__)
    main(*sys.argv[1:])
