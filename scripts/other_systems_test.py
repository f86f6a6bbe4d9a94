#!/usr/bin/env python3
# SPDX-License-Identifier: Apache-2.0
"""Tests what scripts/other_systems.py accepts, rejects and writes, over the made-up modules of retarget_test.py.
bindings/c/tests/instructions.py tests the three instructions. Prints TAP.
"""
import pathlib
import re
import sys
import unittest

sys.dont_write_bytecode = True
sys.path.insert(0, str(pathlib.Path(__file__).resolve().parent))
import other_systems  # noqa: E402
import retarget  # noqa: E402
import unit_tests  # noqa: E402
from retarget_test import X86  # noqa: E402

RISCV, WINDOWS, MAC = (other_systems.TEXTS[name] for name in ("riscv64-linux-gnu", "x86_64-windows-gnu", "aarch64-macos"))


class OtherSystemsTest(unittest.TestCase):
    def rejects(self, why, call, *words):
        with self.assertRaisesRegex(retarget.Unknown, why):
            call(*words)

    def test_other_systems(self):
        """Each has the instructions that it has, and names that every assembler reads."""
        for target, has, lacks in ((RISCV, "extractelement", "x86"), (MAC, "llvm.aarch64.neon.tbl1", "llvm.x86"), (WINDOWS, "llvm.x86.ssse3.pshuf", "written_")):
            text = other_systems.retargeted(X86, target)
            self.assertIn(has, text)
            self.assertNotIn(lacks, text)
            self.assertNotIn('@"', text)
            self.assertIn("@hll_c.inner(", text)
            self.assertEqual("probe-stack" in text, target is not WINDOWS)

    def test_names_that_would_become_one(self):
        """They get a checksum, and stay two."""
        more = X86 + 'define internal void @"hll_c::<u8>"() {\n  ret void\n}\ndefine internal void @"hll_c::<[u8]>"() {\n  ret void\n}\n'
        names = set(re.findall(r"@(hll_c\._u8\.[0-9a-f]{12})\(", other_systems.retargeted(more, RISCV)))
        self.assertEqual(len(names), 2)
        text = other_systems.retargeted(X86 + "define internal void @hll_c.inner() {\n  ret void\n}\n", RISCV)
        self.assertRegex(text, r"call i8 @hll_c\.inner\.[0-9a-f]{12}\(i64 %a1\)")

    def test_what_allocates_on_windows(self):
        """The two calls that return two words are by the convention of System V, which heap.c names there."""
        text = other_systems.retargeted(X86, WINDOWS)
        self.assertIn("call x86_64_sysvcc { i64, i64 } @rattle_alloc(", text)
        self.assertIn("declare x86_64_sysvcc { i64, i64 } @rattle_alloc(", text)
        self.assertEqual(text.count("x86_64_sysvcc"), 2)
        self.assertNotIn("sysvcc", other_systems.retargeted(X86, MAC))
        self.rejects("in another way", other_systems.retargeted, X86.replace("call { i64, i64 } @rattle_alloc", "call fastcc { i64, i64 } @rattle_alloc")
                     .replace("declare { i64, i64 }", "declare fastcc { i64, i64 }"), WINDOWS)

    def test_results_that_fill_a_register(self):
        more = X86 + "define i32 @hll_coupon(ptr %a0, i64 %a1) {\n  ret i32 1\n}\n"
        for target, wanted in ((RISCV, ("zeroext i8", "signext i32")), (MAC, ("zeroext i8", "i32")), (WINDOWS, ("i8", "i32"))):
            text = other_systems.retargeted(more, target)
            self.assertIn("define %s @hll_image_check(" % wanted[0], text)
            self.assertIn("define %s @hll_coupon(" % wanted[1], text)
            self.assertIn("define internal i8 @hll_c.inner(", text)

    def test_what_crosses_a_call(self):
        """No integer of 128 bits, no struct by value, and nothing else but whole registers."""
        for kind in ("i128 %a0", "{ i64, i64 } %a0", "[2 x i64] %a0", "<16 x i8> %a0", "float %a0", "ptr byval({ i64, i64 }) %a0", "ptr %a0, i128 %a1"):
            self.rejects("hll_new has an argument or a result", other_systems.retargeted, X86 + "define i8 @hll_new(%s) {\n  ret i8 0\n}\n" % kind, RISCV)
        self.rejects("hll_new has an argument or a result", other_systems.retargeted, X86 + "define i128 @hll_new() {\n  ret i128 0\n}\n", RISCV)
        other_systems.retargeted(X86 + "define i8 @hll_new(i32 %a0, ptr noundef dereferenceable(8) %a1, double %a2) {\n  ret i8 0\n}\n", RISCV)

    def test_calls_that_hll_h_declares(self):
        wanted = {"hll_image_check": (["i8", "ptr", "i64"], "zeroext"), "hll_image_merge": (["i8", "i32"], "zeroext")}
        text = other_systems.retargeted(X86 + "define i8 @hll_image_merge(i32 %a0) {\n  ret i8 0\n}\n", MAC)
        other_systems.test_calls(text, wanted)
        for name, other in (("hll_image_check", (["i8", "ptr", "i32"], "zeroext")), ("hll_image_check", (["i8", "ptr"], "zeroext")),
                            ("hll_image_check", (["i8", "ptr", "i64"], "")), ("hll_image_merge", (["i8", "i64"], "zeroext"))):
            self.rejects("%s is .*, and hll.h declares" % name, other_systems.test_calls, text, {**wanted, name: other})
        self.rejects("hll_image_check is not declared", other_systems.test_calls, text, {"hll_image_merge": wanted["hll_image_merge"]})

    def test_what_retarget_rejects(self):
        for more in ("declare i32 @llvm.x86.sse41.ptestz(<2 x i64>, <2 x i64>) #2\n", "declare i32 @memcmp(ptr, ptr, i64) #1\n"):
            self.rejects("the module needs ", other_systems.retargeted, X86 + more, RISCV)


if __name__ == "__main__":
    sys.exit(unit_tests.run())
