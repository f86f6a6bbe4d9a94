#!/usr/bin/env python3
# SPDX-License-Identifier: Apache-2.0
"""Compares the three instructions of x86-64 that scripts/other_systems.py writes as others with the processor's own, over random vectors,
on RISC-V and on 64-bit ARM, for which they are written as for macOS.

    tests/instructions.py riscv64|aarch64 [VECTORS]

A program makes vectors, and what the instructions of this processor make of them. A module of three functions goes the way of the
proved library: other_systems.py and clang. A program for the other processor runs it on the same vectors in an emulator. Needs the command
rt, an x86-64 processor, a C compiler, a cross compiler and qemu. The last line is 'N passed, M failed'.
"""
import pathlib
import subprocess
import sys
import tempfile

sys.dont_write_bytecode = True
ROOT = pathlib.Path(__file__).resolve().parent.parent.parent.parent
sys.path[:0] = [str(ROOT / "bindings" / "javascript" / "tests"), str(ROOT / "scripts")]
import instructions as others  # noqa: E402
import other_systems  # noqa: E402
import prebuilt  # noqa: E402

TARGETS = {"riscv64": other_systems.TEXTS["riscv64-linux-gnu"],
           "aarch64": other_systems.Target("aarch64-unknown-linux-gnu", ("-fPIC",), other_systems.TEXTS["aarch64-macos"].written)}
FUNCTION = """
define i32 @call_%(at)d(ptr %%one) #0 {
  %%two = getelementptr i8, ptr %%one, i64 16
  %%three = getelementptr i8, ptr %%one, i64 32
  %%a = load %(inner)s, ptr %%one, align 1
  %%b = load %(inner)s, ptr %%two, align 1
  %%r = call %(outer)s @%(name)s(%(inner)s %%a, %(inner)s %%b)
  store %(outer)s %%r, ptr %%three, align 1
  ret i32 0
}

declare %(outer)s @%(name)s(%(inner)s, %(inner)s)
"""
DRIVER = r"""
#include <stdint.h>
#include <stdio.h>
#include <string.h>

uint32_t call_0(uint8_t *place), call_1(uint8_t *place), call_2(uint8_t *place);

int main(void)
{
    static uint32_t (*const calls[])(uint8_t *) = {call_0, call_1, call_2};
    uint8_t data[80], place[48];
    long passed = 0, failed = 0;
    while (fread(data, sizeof data, 1, stdin) == 1) {
        int f;
        for (f = 0; f < 3; f++) {
            memcpy(place, data, 32);
            calls[f](place);
            if (memcmp(place + 32, data + 32 + 16 * f, 16) == 0)
                passed++;
            else
                failed++;
        }
    }
    printf("%ld passed, %ld failed\n", passed, failed);
    return failed != 0 || passed < 3000;
}
"""


def put_program(room, processor):
    """Makes the program for a processor."""
    clang, target, compiler = prebuilt.clang_of(prebuilt.toolchain()), TARGETS[processor], processor + "-linux-gnu-gcc"
    names = enumerate(other_systems.WRITTEN)
    text = "".join(FUNCTION % {"at": at, "name": name, "inner": others.KINDS[name][0], "outer": others.KINDS[name][1]} for at, name in names)
    text = other_systems.retargeted(text + '\nattributes #0 = { nounwind "target-cpu"="x86-64-v2" }\n', target)
    (room / "module.s").write_text(other_systems.assembled(clang, text, target))
    (room / "driver.c").write_text(DRIVER)
    others.run(compiler, "-O1", "-o", room / "program", room / "driver.c", room / "module.s")


def main():
    processor = sys.argv[1]
    with tempfile.TemporaryDirectory() as room:
        room = pathlib.Path(room)
        (room / "vectors.c").write_text(others.C)
        others.run("cc", "-O1", "-mssse3", "-o", room / "vectors", room / "vectors.c")
        with open(room / "data", "wb") as out:
            others.run(room / "vectors", *(sys.argv[2:] or ["200000"]), stdout=out)
        put_program(room, processor)
        with open(room / "data", "rb") as data:
            return subprocess.run(["qemu-" + processor, "-L", "/usr/%s-linux-gnu" % processor, str(room / "program")], stdin=data).returncode


if __name__ == "__main__":
    sys.exit(main())
