#!/bin/sh
# SPDX-License-Identifier: Apache-2.0
# A filter that reads `image` lines and prints one `image` line: their union, with bound BOUND (12) and WIDTH (8) bits:
#
#     examples/merge_lines.sh [BOUND [WIDTH]] < lines > line
#
# Its output can be its input again, so it serves at every stage of a merge (docs/OPERATING.md). Needs sh, awk and sed.
set -eu
root=$(CDPATH='' cd -- "$(dirname -- "$0")/.." && pwd -P)
# the program in the checkout, if make has built it, or an installed one
merge=$(command -v "$root/bin/hll_merge" || command -v hll_merge) || {
    echo "merge_lines.sh: no hll_merge: run make in $root, or install hll-sketches" >&2
    exit 2
}
plan=$(mktemp)
trap 'rm -f "$plan"' EXIT
awk -v rest="${1:-12} ${2:-8}" '{ print } END { print "union " NR " " rest }' >"$plan"
image=$("$merge" <"$plan")
echo "image $image"
