#!/usr/bin/env python3
# SPDX-License-Identifier: Apache-2.0
"""Compiles LLVM's module of the proved library, which the toolchain makes for x86-64, for WebAssembly.

    scripts/retarget.py CLANG X86.bc ARM.bc OUT.o

CLANG is the toolchain's. X86.bc and ARM.bc are the modules that the toolchain hands to it for both processors (scripts/prebuilt.py
keeps them in crates/hll_c/out). OUT.o is for a 64-bit memory with vectors; bindings/javascript/wasm/build.sh links it.

The module names x86-64 in attributes of functions, which are taken out here, and in three instructions for vectors, which are
written as others. Nothing else of it may be for that processor, so this script fails
  - on an intrinsic that it doesn't know, or a function outside the module;
  - on a function that returns two words to code outside the module, or gets them from it, but the two that allocate;
  - on any difference between the modules for x86-64 and 64-bit ARM that it doesn't know.

The calls that the C files of bindings/c hand over to get their names proved_hll_.. here, as the Makefile's objcopy gives them.
What is written was proved for x86-64 and compiled for another target: the prover's verdict does not name that target.
"""
import hashlib
import pathlib
import re
import subprocess
import sys

ROOT = pathlib.Path(__file__).resolve().parent.parent
TARGET = "wasm64-unknown-unknown"
# As the toolchain passes them for its own targets; and vectors.
FLAGS = ["--target=" + TARGET, "-mcpu=lime1", "-msimd128", "-O3", "-ffunction-sections", "-fdata-sections", "-mllvm", "-trap-unreachable",
         "-mllvm", "-no-trap-after-noreturn", "--no-default-config", "-no-canonical-prefixes", "-fintegrated-cc1", "-fno-crash-diagnostics",
         "-Werror", "-Wno-unused-command-line-argument", "-Wno-override-module"]

# The three instructions of x86-64. `pshufb` takes byte i mod 16, or 0 if i is 128 or more; WebAssembly's swizzle gives 0 if i is
# 16 or more. Both sums are of neighbouring products, and the first one saturates.
LANES8, LANES4 = ([", ".join("i32 %d" % n for n in range(first, 2 * count, 2)) for first in (0, 1)] for count in (8, 4))
WRITTEN = {
    "llvm.x86.ssse3.pshuf.b.128": """
define internal <16 x i8> @written_pshufb(<16 x i8> %a, <16 x i8> %i) alwaysinline nounwind {
  %k = and <16 x i8> %i, splat (i8 -113)
  %r = call <16 x i8> @llvm.wasm.swizzle(<16 x i8> %a, <16 x i8> %k)
  ret <16 x i8> %r
}

declare <16 x i8> @llvm.wasm.swizzle(<16 x i8>, <16 x i8>)
""",
    "llvm.x86.ssse3.pmadd.ub.sw.128": """
define internal <8 x i16> @written_pmaddubsw(<16 x i8> %%a, <16 x i8> %%b) alwaysinline nounwind {
  %%x = zext <16 x i8> %%a to <16 x i32>
  %%y = sext <16 x i8> %%b to <16 x i32>
  %%m = mul <16 x i32> %%x, %%y
  %%e = shufflevector <16 x i32> %%m, <16 x i32> poison, <8 x i32> <%s>
  %%o = shufflevector <16 x i32> %%m, <16 x i32> poison, <8 x i32> <%s>
  %%s = add <8 x i32> %%e, %%o
  %%l = call <8 x i32> @llvm.smax.v8i32(<8 x i32> %%s, <8 x i32> splat (i32 -32768))
  %%h = call <8 x i32> @llvm.smin.v8i32(<8 x i32> %%l, <8 x i32> splat (i32 32767))
  %%r = trunc <8 x i32> %%h to <8 x i16>
  ret <8 x i16> %%r
}

declare <8 x i32> @llvm.smax.v8i32(<8 x i32>, <8 x i32>)
declare <8 x i32> @llvm.smin.v8i32(<8 x i32>, <8 x i32>)
""" % tuple(LANES8),
    "llvm.x86.sse2.pmadd.wd": """
define internal <4 x i32> @written_pmaddwd(<8 x i16> %a, <8 x i16> %b) alwaysinline nounwind {
  %r = call <4 x i32> @llvm.wasm.dot(<8 x i16> %a, <8 x i16> %b)
  ret <4 x i32> %r
}

declare <4 x i32> @llvm.wasm.dot(<8 x i16>, <8 x i16>)
""",
}
# Intrinsics that mean the same for every target.
COMMON = re.compile(r"llvm\.(?:memset|memcpy|memmove|trap|assume|cttz|ctlz|ctpop|bswap|bitreverse|fshl|fshr|abs|[su](?:max|min)|[su]add\.sat"
                    r"|[su]sub\.sat|[su](?:add|sub|mul)\.with\.overflow|vector\.reduce\.(?:add|mul|and|or|xor|[su]max|[su]min))(?:\.[\w.]+)?")
# Functions outside the module. The first two return two words: whether an allocation succeeded, and its address.
ALLOCATING = ("rattle_alloc", "rattle_realloc")
OUTSIDE = {*ALLOCATING, "rattle_dealloc"}
NAME = r'@(?:"([^"]+)"|([\w.$]+))'
# The functions in which the modules for both processors differ. The first eight have vectors: they look bytes up, sum them, or make
# a bit of each byte, for which the toolchain writes intrinsics of each processor, or plain operations. The last two get the two
# words of an allocation, which C's conventions of both processors return differently.
DIFFERING = {"hll_kernels::kernels::" + name for name in ("upper_bytes", "lower_bytes", "byte_sums", "are_below", "nonzeros_in")}
DIFFERING |= {"hll_kernels::nibbles::" + name for name in ("are_at_most", "low_zeros", "high_zeros")}
DIFFERING |= {"libc::heap::" + name for name in ALLOCATING}
DECLARED = re.compile(r"(?m)^declare (.*?)%s\(" % NAME)
DEFINED = re.compile(r"(?ms)^define (.*?)%s\((.*?)^\}\n" % NAME)


class Unknown(Exception):
    """What in a module this script doesn't know."""


def named(found, first):
    """Returns the name that a match of NAME has, in quotes or without them."""
    return found[first] or found[first + 1]


# ---- what a module may have


def test_names(text):
    """`Unknown` if the module has an intrinsic or a function outside it that isn't known, or returns two words to code outside."""
    for found in DECLARED.finditer(text):
        name = named(found, 2)
        if not (name in OUTSIDE or name in WRITTEN or COMMON.fullmatch(name)):
            raise Unknown("the module needs %s" % name)
        if re.search(r"[\[{]", found[1]) and name not in ALLOCATING and not name.startswith("llvm."):
            raise Unknown("%s returns more than one word" % name)
    for found in DEFINED.finditer(text):
        if not re.match(r"(?:internal|private) ", found[1]) and re.search(r"[\[{]", found[1]):
            raise Unknown("%s returns more than one word" % named(found, 2))
    if "asm sideeffect" in text or " asm \"" in text:
        raise Unknown("the module has assembler text")


def plain(line):
    """Returns a line without the numbers of attributes."""
    return re.sub(r" #\d+\b", "", line).rstrip()


def parts_of(text):
    """Returns the functions and the data of a module: bodies and lines by their names."""
    functions = {named(it, 2): "\n".join(map(plain, it[0].splitlines())) for it in DEFINED.finditer(text)}
    data = {line.partition(" = ")[0]: plain(line) for line in text.splitlines() if line.startswith("@")}
    return functions, data


def test_same(x86, arm):
    """`Unknown` if the modules for both processors differ in more than DIFFERING. Returns the names of the functions that differ."""
    (functions, data), (others, other_data) = parts_of(x86), parts_of(arm)
    if data != other_data:
        raise Unknown("the data of the modules differ: %s" % ", ".join(sorted(dict(data.items() ^ other_data.items()))[:5]))
    if functions.keys() != others.keys():
        raise Unknown("the modules have other functions: %s" % ", ".join(sorted(functions.keys() ^ others.keys())[:5]))
    differing = {name for name in functions if functions[name] != others[name]}
    if differing - DIFFERING:
        raise Unknown("functions of the modules differ: %s" % ", ".join(sorted(differing - DIFFERING)[:5]))
    return sorted(differing)


# ---- what is changed


def handed_over():
    """Returns the names of the calls that C files hand over to."""
    return sorted(re.findall(r"(?m)^WRAPPED\(\w+, (hll_\w+),", (ROOT / "bindings" / "c" / "proved_calls.h").read_text()))


def without_x86(text):
    """Returns the module with the three instructions written as others."""
    for name, written in WRITTEN.items():
        if "@%s(" % name in text:
            text = re.sub(r"(?m)^declare .*@%s\(.*\n" % re.escape(name), "", text)
            text = text.replace("@%s(" % name, "@%s(" % re.search(r"@(written_\w+)", written)[1]) + written
    seen = set()
    return "".join(line for line in text.splitlines(keepends=True) if not line.startswith("declare ") or line not in seen and not seen.add(line))


def retargeted(text):
    """Returns the module for WebAssembly. There the stack ends at address 0, and the assembler reads no names in quotes."""
    test_names(text)
    text = re.sub(r"(?m)^target (datalayout|triple) = .*\n", "", text)
    text = re.sub(r' "(target-cpu|target-features|tune-cpu|probe-stack|stack-probe-size)"="[^"]*"', "", text)
    text = re.sub(r"@(%s)\b" % "|".join(handed_over()), r"@proved_\1", without_x86(text))
    return re.sub(r'@"([^"]+)"', lambda it: "@f" + hashlib.sha256(it[1].encode()).hexdigest()[:12], text)


def text_of(clang, module):
    """Returns a module as text."""
    words = [clang, "-S", "-emit-llvm", "-Xclang", "-disable-llvm-passes", "-Wno-override-module", "-x", "ir", module, "-o", "-"]
    return subprocess.run(list(map(str, words)), check=True, stdout=subprocess.PIPE, text=True).stdout


def compiled(clang, text, out):
    """Compiles the text of a module that was retargeted into an object file."""
    subprocess.run([str(clang), *FLAGS, "-x", "ir", "-", "-c", "-o", str(out)], input=text, text=True, check=True)


def retarget(clang, x86, arm, out):
    """Compiles the module for x86-64 for WebAssembly, if it differs from the one for ARM in nothing unknown. Returns the names of
    the functions that differ."""
    text = text_of(clang, x86)
    differing = test_same(text, text_of(clang, arm))
    compiled(clang, retargeted(text), out)
    return differing


def main():
    clang, x86, arm, out = sys.argv[1:]
    print("the modules for x86-64 and ARM differ in %s" % ", ".join(retarget(clang, x86, arm, pathlib.Path(out))))


if __name__ == "__main__":
    main()
