#!/usr/bin/env python3
# SPDX-License-Identifier: Apache-2.0
"""Tests what scripts/retarget.py accepts and rejects, over made-up modules. bindings/javascript/tests/instructions.py tests the
three instructions. Prints TAP.
"""
import pathlib
import sys
import unittest

sys.dont_write_bytecode = True
sys.path.insert(0, str(pathlib.Path(__file__).resolve().parent))
import retarget  # noqa: E402
import unit_tests  # noqa: E402

X86 = """\
target datalayout = "e-m:e"
target triple = "x86_64-unknown-linux-gnu"

@table = private constant [2 x i8] c"ab"

define i8 @hll_image_check(ptr %a0, i64 %a1) #0 {
  %1 = call i8 @"hll_c::inner"(i64 %a1) #3
  ret i8 %1
}

define internal i8 @"hll_c::inner"(i64 %a0) #0 {
  call void @"libc::heap::rattle_alloc"(i64 %a0, i64 16)
  ret i8 0
}

define internal void @"libc::heap::rattle_alloc"(i64 %a0, i64 %a1) #0 {
  %1 = call { i64, i64 } @rattle_alloc(i64 %a0, i64 %a1)
  %2 = extractvalue { i64, i64 } %1, 0
  ret void
}

define internal { i64, i64 } @"hll_c::two"(i64 %a0) #0 {
  %1 = call i64 @llvm.ctlz.i64(i64 %a0, i1 false)
  ret { i64, i64 } zeroinitializer
}

define internal <16 x i8> @"hll_kernels::kernels::upper_bytes"(<16 x i8> %a0, <16 x i8> %a1) #0 {
  %1 = call <16 x i8> @llvm.x86.ssse3.pshuf.b.128(<16 x i8> %a0, <16 x i8> %a1)
  ret <16 x i8> %1
}

declare { i64, i64 } @rattle_alloc(i64, i64) #1

declare void @rattle_dealloc(ptr) #1

declare i64 @llvm.ctlz.i64(i64, i1 immarg) #2

declare <16 x i8> @llvm.x86.ssse3.pshuf.b.128(<16 x i8>, <16 x i8>) #2

attributes #0 = { nounwind "probe-stack"="inline-asm" "target-cpu"="x86-64-v2" "target-features"="+ssse3" }
attributes #1 = { nounwind }
"""
ARM = X86.replace("x86_64-unknown", "aarch64-unknown").replace("x86-64-v2", "generic").replace("#3", "#4") \
    .replace("call { i64, i64 } @rattle", "call [2 x i64] @rattle").replace("extractvalue { i64, i64 }", "extractvalue [2 x i64]") \
    .replace("llvm.x86.ssse3.pshuf.b.128", "llvm.aarch64.neon.tbl1.v16i8")


class RetargetTest(unittest.TestCase):
    def rejects(self, why, call, *words):
        with self.assertRaisesRegex(retarget.Unknown, why):
            call(*words)

    def test_a_module_that_is_known(self):
        text = retarget.retargeted(X86)
        for gone in ("x86", "target", "probe-stack", '@"'):
            self.assertNotIn(gone, text)
        self.assertIn("@written_pshufb(<16 x i8> %a0", text)
        self.assertIn("declare <16 x i8> @llvm.wasm.swizzle", text)
        self.assertNotIn("@written_pmadd", text)

    def test_names_of_calls_that_c_hands_over_to(self):
        text = retarget.retargeted(X86 + "define i8 @hll_image_merge() {\n  ret i8 0\n}\n")
        self.assertIn("define i8 @proved_hll_image_merge(", text)
        self.assertIn("define i8 @hll_image_check(", text)
        self.assertIn("hll_state_join", retarget.handed_over())

    def test_a_new_intrinsic(self):
        for name in ("llvm.x86.sse41.ptestz", "llvm.aarch64.neon.tbl1.v16i8", "llvm.new.thing"):
            self.rejects("needs " + name, retarget.retargeted, X86 + "declare i32 @%s(<2 x i64>, <2 x i64>) #2\n" % name)

    def test_a_new_function_outside(self):
        self.rejects("needs memcmp", retarget.retargeted, X86 + "declare i32 @memcmp(ptr, ptr, i64) #1\n")
        self.rejects("needs a::b", retarget.retargeted, X86 + 'declare i32 @"a::b"(ptr) #1\n')

    def test_two_words(self):
        self.rejects("rattle_dealloc returns", retarget.retargeted, X86.replace("void @rattle_dealloc", "{ i64, i64 } @rattle_dealloc"))
        for kind in ("{ i64, i64 }", "[2 x i64]", "noundef { ptr, i64 }"):
            self.rejects("hll_new returns", retarget.retargeted, X86 + "define %s @hll_new() {\n  unreachable\n}\n" % kind)
        retarget.retargeted(X86.replace('internal i8 @"hll_c::inner"', 'internal { ptr, i64 } @"hll_c::inner"'))

    def test_assembler(self):
        self.rejects("assembler", retarget.retargeted, X86.replace("  ret i8 0", '  call void asm sideeffect "nop", ""()\n  ret i8 0'))

    def test_modules_that_differ_as_they_may(self):
        self.assertEqual(retarget.test_same(X86, ARM), ["hll_kernels::kernels::upper_bytes", "libc::heap::rattle_alloc"])
        self.assertEqual(retarget.test_same(X86, X86), [])

    def test_modules_that_differ(self):
        for old, new, why in (('c"ab"', 'c"ac"', "data"), ("i64 16)", "i64 8)", "functions of the modules differ: hll_c::inner"),
                              ("i1 false", "i1 true", "functions of the modules differ: hll_c::two"),
                              ('@"hll_c::two"', '@"hll_c::three"', "have other functions: hll_c::three, hll_c::two"),
                              ("ret i8 %1", "ret i8 1", "functions of the modules differ: hll_image_check"),
                              ("kernels::upper_bytes", "kernels::other", "have other functions: hll_kernels::kernels::other, hll_kernels::kernels::upper_bytes")):
            self.assertIn(old, ARM)
            self.rejects(why, retarget.test_same, X86, ARM.replace(old, new))

    def test_a_function_with_vectors_that_is_not_known(self):
        x86, arm = (text.replace("kernels::upper_bytes", "kernels::another") for text in (X86, ARM))
        self.rejects("functions of the modules differ: hll_kernels::kernels::another", retarget.test_same, x86, arm)

    def test_data_that_one_module_lacks(self):
        self.rejects("data of the modules differ: @table", retarget.test_same, X86, ARM.replace("@table = ", "; "))


if __name__ == "__main__":
    sys.exit(unit_tests.run())
