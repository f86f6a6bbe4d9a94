#!/usr/bin/env python3
# SPDX-License-Identifier: Apache-2.0
"""Compiles LLVM's module of the proved library, which the toolchain makes for x86-64, into assembler text for RISC-V, Windows and
macOS, as scripts/retarget.py does for WebAssembly.

    scripts/other_systems.py CLANG X86.bc ARM.bc TARGET OUT.s

CLANG is the toolchain's. X86.bc and ARM.bc are the modules that the toolchain hands to it for both processors (scripts/prebuilt.py
keeps them in crates/hll_c/out). TARGET is a name of TEXTS.

It fails on what scripts/retarget.py fails on, and
  - on a call for C whose arguments and result are not all integers of up to 64 bits, pointers or doubles;
  - on a call for C that is declared otherwise by hll.h, as clang reads it for the target.

What is written was proved for x86-64 on Linux and compiled for another target: the prover's verdict does not name that target.
"""
import collections
import dataclasses
import hashlib
import pathlib
import re
import subprocess
import sys
import tempfile

sys.dont_write_bytecode = True
sys.path.insert(0, str(pathlib.Path(__file__).resolve().parent))
import retarget  # noqa: E402
from retarget import DEFINED, NAME, Unknown, named  # noqa: E402

C = retarget.ROOT / "bindings" / "c"
HEADERS = retarget.ROOT / "bindings" / "javascript" / "wasm" / "include"
# Flags for all targets: those for WebAssembly but the first three, which are for that target.
FLAGS = retarget.FLAGS[3:]

# The three instructions of x86-64, as operations that every target has (scripts/retarget.py says what they do).
LANE = """  %%i%(at)d = extractelement <16 x i8> %%low, i32 %(at)d
  %%b%(at)d = extractelement <16 x i8> %%a, i8 %%i%(at)d
  %%v%(next)d = insertelement <16 x i8> %(old)s, i8 %%b%(at)d, i32 %(at)d
"""
WRITTEN = {
    "llvm.x86.ssse3.pshuf.b.128": """
define internal <16 x i8> @written_pshufb(<16 x i8> %%a, <16 x i8> %%i) alwaysinline nounwind {
  %%low = and <16 x i8> %%i, splat (i8 15)
%s  %%none = icmp slt <16 x i8> %%i, zeroinitializer
  %%r = select <16 x i1> %%none, <16 x i8> zeroinitializer, <16 x i8> %%v16
  ret <16 x i8> %%r
}
""" % "".join(LANE % {"at": at, "next": at + 1, "old": "%%v%d" % at if at else "poison"} for at in range(16)),
    "llvm.x86.ssse3.pmadd.ub.sw.128": retarget.WRITTEN["llvm.x86.ssse3.pmadd.ub.sw.128"],
    "llvm.x86.sse2.pmadd.wd": """
define internal <4 x i32> @written_pmaddwd(<8 x i16> %%a, <8 x i16> %%b) alwaysinline nounwind {
  %%x = sext <8 x i16> %%a to <8 x i32>
  %%y = sext <8 x i16> %%b to <8 x i32>
  %%m = mul <8 x i32> %%x, %%y
  %%e = shufflevector <8 x i32> %%m, <8 x i32> poison, <4 x i32> <%s>
  %%o = shufflevector <8 x i32> %%m, <8 x i32> poison, <4 x i32> <%s>
  %%r = add <4 x i32> %%e, %%o
  ret <4 x i32> %%r
}
""" % tuple(retarget.LANES4),
}
# A look-up that 64-bit ARM has, which gives 0 for an index of 16 or more.
LOOK_UP = """
define internal <16 x i8> @written_pshufb(<16 x i8> %a, <16 x i8> %i) alwaysinline nounwind {
  %k = and <16 x i8> %i, splat (i8 -113)
  %r = call <16 x i8> @llvm.aarch64.neon.tbl1.v16i8(<16 x i8> %a, <16 x i8> %k)
  ret <16 x i8> %r
}

declare <16 x i8> @llvm.aarch64.neon.tbl1.v16i8(<16 x i8>, <16 x i8>)
"""
NEON = {**WRITTEN, "llvm.x86.ssse3.pshuf.b.128": LOOK_UP}


@dataclasses.dataclass(frozen=True)
class Target:
    """What the module is compiled for: clang's name, flags, and what takes the place of the instructions of x86-64; None if it has
    these."""

    triple: str
    flags: tuple
    written: object = None

    @property
    def is_windows(self):
        return "windows" in self.triple


# By the directories of prebuilt/.
TEXTS = {
    "riscv64-linux-gnu": Target("riscv64-unknown-linux-gnu", ("-fPIC", "-march=rv64gc", "-mabi=lp64d"), WRITTEN),
    "x86_64-windows-gnu": Target("x86_64-w64-windows-gnu", ("-march=x86-64-v2", "-fno-function-sections", "-fno-data-sections")),
    "x86_64-macos": Target("x86_64-apple-macos11", ("-fPIC", "-march=x86-64-v2")),
    # (in ARM's own syntax, as older versions of clang don't read udot in Apple's)
    "aarch64-macos": Target("arm64-apple-macos11", ("-fPIC", "-mllvm", "-aarch64-neon-syntax=generic"), NEON),
}


# ---- what crosses a call


# Types that every calling convention passes in one register or in eight bytes of the stack, if both sides declare the same type.
SIMPLE = re.compile(r"(?:i8|i16|i32|i64|ptr|double|void)$")
# Attributes of arguments by which they don't cross in registers, as a struct by value.
IN_MEMORY = re.compile(r"\b(?:byval|sret|inalloca|preallocated|byref)\b")
EXTENDED = re.compile(r"\b(zeroext|signext)\b")


def types_of(line):
    """Returns the types of the result and of the arguments of a function for C, by the line that declares or defines it, and how its
    result is extended; `Unknown` if they aren't simple."""
    found = re.match(r"(?:declare|define) (.*?)%s\((.*)\)" % NAME, line)
    result, arguments = found[1].split(), re.split(r", (?![^()]*\))", found[4]) if found[4] else []
    types = [result[-1], *(argument.split()[0] for argument in arguments)]
    if IN_MEMORY.search(found[4]) or not all(map(SIMPLE.match, types)):
        raise Unknown("%s has an argument or a result that is no integer of up to 64 bits, pointer or double" % named(found, 2))
    return types, "".join(EXTENDED.findall(found[1]))


def exports_of(text):
    """Returns the types of each function that a module defines for C, by its name."""
    lines = {named(it, 2): it[0].partition("\n")[0] for it in DEFINED.finditer(text) if not re.match(r"(?:internal|private) ", it[1])}
    return {name: types_of(line) for name, line in lines.items()}


def declared(clang, target):
    """Returns the types of each call that hll.h declares, as clang reads it for a target, by its name."""
    names = re.findall(r"(?m)^(?:hll_status|uint32_t|void) (hll_\w+)\(", (C / "hll.h").read_text() + (C / "hll_state.h").read_text())
    source = '#include "hll_state.h"\n' + "".join("void *use_%s(void) { return (void *)&%s; }\n" % (name, name) for name in names)
    words = [clang, "--target=" + target.triple, *target.flags, "-ffreestanding", "-nostdinc", "-I%s" % C, "-I%s" % HEADERS,
             "-Wno-pedantic", "-S", "-emit-llvm", "-x", "c", "-", "-o", "-"]
    text = subprocess.run(list(map(str, words)), input=source, check=True, stdout=subprocess.PIPE, text=True).stdout
    return {named(it, 2): types_of(it[0]) for it in re.finditer(r"(?m)^declare (.*?)%s\(.*$" % NAME, text) if named(it, 2) in names}


def test_calls(text, wanted):
    """`Unknown` if a call for C has other types than hll.h declares, or another extension of its result."""
    for name, found in exports_of(text).items():
        name = name.replace("proved_", "", 1)
        if name not in wanted:
            raise Unknown("%s is not declared by hll.h" % name)
        if found != wanted[name]:
            raise Unknown("%s is %s, and hll.h declares %s" % (name, found, wanted[name]))


# ---- what is changed


def without_x86(text, written):
    """Returns the module with the three instructions written as others."""
    for name, other in (written or {}).items():
        if "@%s(" % name in text:
            text = re.sub(r"(?m)^declare .*@%s\(.*\n" % re.escape(name), "", text)
            text = text.replace("@%s(" % name, "@%s(" % re.search(r"@(written_\w+)", other)[1]) + other
    seen = set()
    return "".join(line for line in text.splitlines(keepends=True) if not line.startswith("declare ") or line not in seen and not seen.add(line))


# The two words of an allocation. LLVM returns them in RAX and RDX, and C for Windows through a pointer; by the convention of System V,
# which heap.c names there, C returns them in these registers, too.
PAIRS = re.compile(r"\b(call|declare)( \{ i64, i64 \} @rattle_(?:re)?alloc\()")


def by_system_v(text):
    """Returns the module with calls of what allocates by the convention of System V."""
    text, count = PAIRS.subn(r"\1 x86_64_sysvcc\2", text)
    if count != len(re.findall(r"@rattle_(?:re)?alloc\(", text)):
        raise Unknown("what allocates is called in another way")
    return text


# C code for RISC-V and macOS relies on a result of 8 or 16 bits to fill its register, and on RISC-V on one of 32 bits to be extended
# by its sign. On Linux for x86-64 and 64-bit ARM, for which the module was made, and on Windows nobody relies on it.
RESULT = re.compile(r"(?m)^define (?!internal |private )(.*?)\b(i8|i16|i32)( %s\()" % NAME)


def with_full_results(text, target):
    """Returns the module with the results for C extended as the target asks."""
    def extended(found):
        kind = "zeroext " if found[2] != "i32" else "signext " if target.triple.startswith("riscv") else ""
        return "define %s%s%s%s" % (found[1], kind, found[2], found[3])

    return text if target.is_windows else RESULT.sub(extended, text)


def plain_name(name):
    """Returns a name of letters, digits, `_` and `.`, which every assembler takes: `a.b.c.48f335490f6b880f` for
    `a::b::c::<#48f335490f6b880f>`. Other names of types, and of traits after a `+`, are kept too."""
    return re.sub(r"[^\w.]+", "_", re.sub(r"::<#(\w+)>", r".\1", name).replace("::", ".").replace("+", ".")).strip("_")


def checksum_of(name):
    return hashlib.sha256(name.encode()).hexdigest()[:12]


def plain_names(names, taken):
    """Returns plain names for names, with a checksum where names would become one, or the same as another one."""
    plain = {name: plain_name(name) for name in names}
    counts = collections.Counter(plain.values())
    return {name: one if counts[one] == 1 and one not in taken else "%s.%s" % (one, checksum_of(name)) for name, one in plain.items()}


def without_quotes(text):
    """Returns the module without names in quotes, which not every assembler reads."""
    names, taken = set(re.findall(r'@"([^"]+)"', text)), set(re.findall(r"@([\w.$]+)", text))
    others = plain_names(sorted(names), taken)
    if len(set(others.values())) < len(names) or taken & set(others.values()):
        raise Unknown("two names become one")
    return re.sub(r'@"([^"]+)"', lambda it: "@" + others[it[1]], text)


def retargeted(text, target):
    """Returns the module for a target. For Windows clang itself calls a function that touches each page of a large frame."""
    retarget.test_names(text)
    exports_of(text)
    text = re.sub(r"(?m)^target (datalayout|triple) = .*\n", "", text)
    text = re.sub(r' "(target-cpu|target-features|tune-cpu)"="[^"]*"', "", text)
    if target.is_windows:
        text = by_system_v(re.sub(r' "(probe-stack|stack-probe-size)"="[^"]*"', "", text))
    text = re.sub(r"@(%s)\b" % "|".join(retarget.handed_over()), r"@proved_\1", without_x86(text, target.written))
    return without_quotes(with_full_results(text, target))


def assembled(clang, text, target):
    """Compiles the text of a module that was retargeted into assembler text."""
    with tempfile.TemporaryDirectory() as room:
        out = pathlib.Path(room, "text.s")
        words = [str(clang), "--target=" + target.triple, *FLAGS, *target.flags, "-x", "ir", "-", "-S", "-fno-addrsig", "-fno-verbose-asm", "-o", str(out)]
        subprocess.run(words, input=text, text=True, check=True)
        # without RISC-V's list of extensions, which older assemblers can't read: -march says the same
        return re.sub(r"(?m)^\t\.attribute\t5, .*\n", "", out.read_text())


def text_for(clang, text, target):
    """Returns assembler text for a target of TEXTS, from the text of the module for x86-64."""
    text = retargeted(text, target)
    test_calls(text, declared(clang, target))
    return assembled(clang, text, target)


def main():
    clang, x86, arm, target, out = sys.argv[1:]
    text = retarget.text_of(clang, x86)
    print("the modules for x86-64 and ARM differ in %s" % ", ".join(retarget.test_same(text, retarget.text_of(clang, arm))))
    pathlib.Path(out).write_text(text_for(clang, text, TEXTS[target]))


if __name__ == "__main__":
    main()
