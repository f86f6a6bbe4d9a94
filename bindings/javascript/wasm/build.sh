#!/bin/sh
# SPDX-License-Identifier: Apache-2.0
# Links the module for JavaScript: build.sh PROVED.o TOOLCHAIN OUT.wasm
#
# PROVED.o is the proved library for wasm64 (scripts/retarget.py), TOOLCHAIN the toolchain's directory, which has bin/rattle-link
# and toolchain/bin/clang. Needs binaryen and Python.
set -eu
proved=$(realpath -- "$1") kit=$(realpath -- "$2") out=$(realpath -m -- "$3")
cd "$(dirname -- "$0")"
clang=$kit/toolchain/bin/clang
target='--target=wasm64-unknown-unknown -mcpu=lime1 -msimd128'
parts=$(mktemp -d)
trap 'rm -rf -- "$parts"' EXIT
for file in heap.c calls.c ../../c/counter.c ../../c/estimate.c ../../c/optional.c ../../c/state.c; do
    part=$parts/$(basename "$file" .c)
    # shellcheck disable=SC2086 # words
    "$clang" $target -O2 -Wall -Wextra -Werror -ffreestanding -nostdinc -Iinclude -I../../c -DHLL_MALLOC_ONLY -S -o "$part.s" "$file"
    # Without the mark by which clang makes a 64-bit table of functions: no call uses it, and binaryen 108 can't read it.
    sed -i '/no_dead_strip.*__indirect_function_table/d' "$part.s"
    if grep -q 'call_indirect' "$part.s"; then
        echo "build.sh: $file calls a function by a pointer" >&2
        exit 1
    fi
    # (clang's assembler takes memory.size for 32 bits here)
    # shellcheck disable=SC2086
    "$clang" $target -Wa,--no-type-check -c -o "$part.o" "$part.s"
done
cp "$proved" "$parts/proved.o"
ln -s "$clang" "$parts/llvm-ar"
"$parts/llvm-ar" rcD "$parts/all.a" "$parts"/*.o
"$kit/bin/rattle-link" --target wasm64-unknown-unknown --toolchain "$kit/toolchain" --stack 262144 -o "$parts/linked.wasm" "$parts/all.a"
python3 lower.py "$parts/linked.wasm" "$out"
