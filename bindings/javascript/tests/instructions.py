#!/usr/bin/env python3
# SPDX-License-Identifier: Apache-2.0
"""Compares the three instructions of x86-64 that scripts/retarget.py writes as others with the processor's own, over random vectors.

    tests/instructions.py [VECTORS]

A program in C makes vectors, and what the instructions of this processor make of them. A module of three functions, which call the
intrinsics of x86-64, goes the way of the proved library: retarget.py, clang, rattle-link and lower.py. Node runs it on the same
vectors. Needs the command rt, an x86-64 processor, a C compiler, node and binaryen. The last line is 'N passed, M failed'.
"""
import pathlib
import subprocess
import sys
import tempfile

sys.dont_write_bytecode = True
HERE = pathlib.Path(__file__).resolve().parent
ROOT = HERE.parent.parent.parent
sys.path.insert(0, str(ROOT / "scripts"))
import prebuilt  # noqa: E402
import retarget  # noqa: E402

C = r"""
#include <stdint.h>
#include <stdio.h>
#include <stdlib.h>
#include <string.h>
#include <tmmintrin.h>

static uint64_t state = 88172645463325252u;

static uint64_t number(void)
{
    state ^= state << 13;
    state ^= state >> 7;
    state ^= state << 17;
    return state;
}

/* Bytes of which some vectors have many at the ends of their range. */
static void fill(uint8_t *bytes)
{
    static const uint8_t ends[] = {0, 1, 15, 16, 63, 64, 127, 128, 129, 143, 144, 254, 255};
    unsigned kind = number() % 4;
    int i;
    for (i = 0; i < 16; i++)
        bytes[i] = kind == 0 || (kind == 1 && number() % 2) ? ends[number() % sizeof ends] : (uint8_t)(number() >> 32);
    if (kind == 2)
        for (i = 0; i < 16; i++)
            bytes[i] = i % 2 ? 128 : 0; /* the least 16-bit number */
}

int main(int argc, char **argv)
{
    long n = atol(argv[argc - 1]);
    while (n-- > 0) {
        uint8_t parts[5][16];
        __m128i a, b;
        fill(parts[0]);
        fill(parts[1]);
        a = _mm_loadu_si128((const __m128i *)parts[0]);
        b = _mm_loadu_si128((const __m128i *)parts[1]);
        _mm_storeu_si128((__m128i *)parts[2], _mm_shuffle_epi8(a, b));
        _mm_storeu_si128((__m128i *)parts[3], _mm_maddubs_epi16(a, b));
        _mm_storeu_si128((__m128i *)parts[4], _mm_madd_epi16(a, b));
        fwrite(parts, sizeof parts, 1, stdout);
    }
    return 0;
}
"""

# Each function reads two vectors at its first address, and writes the result behind them.
FUNCTION = """
define i32 @call_%(at)d(i32 %%place) #0 {
  %%p = zext i32 %%place to i64
  %%one = inttoptr i64 %%p to ptr
  %%q = add i64 %%p, 16
  %%two = inttoptr i64 %%q to ptr
  %%s = add i64 %%p, 32
  %%three = inttoptr i64 %%s to ptr
  %%a = load %(inner)s, ptr %%one, align 1
  %%b = load %(inner)s, ptr %%two, align 1
  %%r = call %(outer)s @%(name)s(%(inner)s %%a, %(inner)s %%b)
  store %(outer)s %%r, ptr %%three, align 1
  ret i32 0
}

declare %(outer)s @%(name)s(%(inner)s, %(inner)s)
"""
KINDS = {"llvm.x86.ssse3.pshuf.b.128": ("<16 x i8>", "<16 x i8>"), "llvm.x86.ssse3.pmadd.ub.sw.128": ("<16 x i8>", "<8 x i16>"),
         "llvm.x86.sse2.pmadd.wd": ("<8 x i16>", "<4 x i32>")}
STUBS = """
#include "hll.h"
#define EXPORT(name) __attribute__((export_name(#name))) uint32_t js_##name
uint32_t call_0(uint32_t), call_1(uint32_t), call_2(uint32_t);
static unsigned char room[65536];
EXPORT(place)(void) { return (uint32_t)(uintptr_t)room; }
EXPORT(f0)(uint32_t at) { return call_0(at); }
EXPORT(f1)(uint32_t at) { return call_1(at); }
EXPORT(f2)(uint32_t at) { return call_2(at); }
"""
NODE = """
import fs from "node:fs";
const { instance: { exports: wasm } } = await WebAssembly.instantiate(fs.readFileSync(process.argv[2]));
const data = fs.readFileSync(process.argv[3]), u8 = new Uint8Array(wasm.memory.buffer), place = wasm.place(), same = [0, 0, 0], other = [0, 0, 0];
for (let at = 0; at < data.length; at += 80)
  for (let f = 0; f < 3; f++) {
    u8.set(data.subarray(at, at + 32), place);
    wasm[`f${f}`](place);
    if (data.subarray(at + 32 + 16 * f, at + 48 + 16 * f).equals(u8.subarray(place + 32, place + 48))) same[f]++;
    else if (other[f]++ < 3) console.log("differs:", f, data.subarray(at, at + 32).toString("hex"), Buffer.from(u8.subarray(place + 32, place + 48)).toString("hex"), data.subarray(at + 32 + 16 * f, at + 48 + 16 * f).toString("hex"));
  }
const sum = (list) => list.reduce((x, y) => x + y);
console.log(`${sum(same)} passed, ${sum(other)} failed`);
process.exit(sum(other) || sum(same) < 3000 ? 1 : 0);
"""


def run(*words, **more):
    return subprocess.run(list(map(str, words)), check=True, **more)


def module(room):
    """Makes the module of three functions."""
    kit = pathlib.Path(prebuilt.toolchain().KIT)
    clang, out = kit / "toolchain" / "bin" / "clang", room / "module.o"
    text = "".join(FUNCTION % {"at": at, "name": name, "inner": KINDS[name][0], "outer": KINDS[name][1]} for at, name in enumerate(retarget.WRITTEN))
    retarget.compiled(clang, retarget.retargeted(text + '\nattributes #0 = { nounwind "target-cpu"="x86-64-v2" }\n'), out)
    (room / "stubs.c").write_text(STUBS)
    flags = ["--target=wasm64-unknown-unknown", "-mcpu=lime1", "-msimd128", "-O2", "-ffreestanding", "-nostdinc", "-I%s" % (HERE.parent / "wasm" / "include"),
             "-I%s" % (ROOT / "bindings" / "c")]
    run(clang, *flags, "-S", "-o", room / "stubs.s", room / "stubs.c")
    lines = [line for line in (room / "stubs.s").read_text().splitlines(keepends=True) if "__indirect_function_table" not in line]
    (room / "stubs.s").write_text("".join(lines))
    run(clang, *flags[:3], "-c", "-o", room / "stubs.o", room / "stubs.s")
    (room / "llvm-ar").symlink_to(clang)
    run(room / "llvm-ar", "rcD", room / "all.a", room / "stubs.o", out)
    run(kit / "bin" / "rattle-link", "--target", "wasm64-unknown-unknown", "--toolchain", kit / "toolchain", "--stack", 65536, "-o", room / "linked.wasm",
        room / "all.a", stdout=subprocess.DEVNULL)
    run(sys.executable, HERE.parent / "wasm" / "lower.py", room / "linked.wasm", room / "lowered.wasm")
    return room / "lowered.wasm"


def main():
    with tempfile.TemporaryDirectory() as room:
        room = pathlib.Path(room)
        (room / "vectors.c").write_text(C)
        run("cc", "-O1", "-mssse3", "-o", room / "vectors", room / "vectors.c")
        with open(room / "data", "wb") as out:
            run(room / "vectors", sys.argv[1] if len(sys.argv) > 1 else "200000", stdout=out)
        (room / "compare.mjs").write_text(NODE)
        return subprocess.run(["node", str(room / "compare.mjs"), str(module(room)), str(room / "data")]).returncode


if __name__ == "__main__":
    sys.exit(main())
