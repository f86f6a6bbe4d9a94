#!/bin/sh
# SPDX-License-Identifier: Apache-2.0
# Merges all sketch files of a folder in parallel, and writes the merged image to standard output:
#
#     examples/merge_folder.sh FOLDER [BOUND [WIDTH [FILES]]] > merged.bin
#
# Each group of FILES files (500) becomes one plan, with a union of bound BOUND (12) and WIDTH (8) bits. One plan runs on each
# processor at a time. Their output is the `image` lines of the last plan, whose image gets the fields that other libraries
# estimate from. docs/OPERATING.md says why the grouping makes no difference. If a file is not a sketch, the script prints
# `FILE: ` and the reason on standard error, for one file of each group; then it writes nothing and ends with status 1. Needs
# sh, find, sort, xargs, od and xxd.
set -eu

[ $# -ge 1 ] && [ -d "$1" ] || {
    echo "usage: merge_folder.sh FOLDER [BOUND [WIDTH [FILES]]]" >&2
    exit 2
}
folder=$1
BOUND=${2:-12}
WIDTH=${3:-8}
files=${4:-500}
root=$(CDPATH='' cd -- "$(dirname -- "$0")/.." && pwd -P)
# the programs in the checkout, if make has built them, or installed ones
MERGE=$(command -v "$root/bin/hll_merge" || command -v hll_merge) && WORDS=$(command -v "$root/bin/hll_estimator_fields" || command -v hll_estimator_fields) || {
    echo "merge_folder.sh: no hll_merge or hll_estimator_fields: run make in $root, or install hll-sketches" >&2
    exit 2
}
WORK=$(mktemp -d)
export BOUND WIDTH MERGE WORK
trap 'rm -rf "$WORK"' EXIT
mkdir "$WORK/groups"

find "$folder" -type f -print0 >"$WORK/files"

sort -z "$WORK/files" | xargs -0 -n "$files" -P "$(nproc)" sh -c '
    set -eu
    group=$(mktemp "$WORK/groups/XXXXXXXX")
    if {
        for file in "$@"; do
            printf "image "
            od -An -v -tx1 "$file" | tr -d " \n"
            echo
        done
        echo "union $# $BOUND $WIDTH"
    } | "$MERGE" >"$group" 2>"$group.error"; then
        rm "$group.error"
    else
        # the number of the line is that of the file
        error=$(cat "$group.error")
        line=${error#line }
        line=${line%%:*}
        if [ "$line" -ge 1 ] 2>/dev/null && [ "$line" -le $# ]; then
            shift $((line - 1))
            [ -s "$1" ] || error="line $line: image truncated"
            printf "%s\n" "$1: ${error#*: }" >&2
        else
            echo "$error" >&2
        fi
        exit 1
    fi
' merge_group || exit 1

{
    sed 's/^/image /' "$WORK"/groups/*
    echo "union $(ls "$WORK/groups" | wc -l) $BOUND $WIDTH"
} | "$MERGE" >"$WORK/merged"
"$WORDS" <"$WORK/merged" >"$WORK/words"
xxd -r -p "$WORK/words"
