#!/usr/bin/env python3
# SPDX-License-Identifier: Apache-2.0
"""Tests scripts/calls.py on a copy of what it reads, in which calls are planted. Prints TAP."""
import contextlib
import io
import pathlib
import shutil
import sys
import tempfile
import unittest
import unittest.mock

sys.dont_write_bytecode = True
sys.path.insert(0, str(pathlib.Path(__file__).resolve().parent))
import calls  # noqa: E402
import unit_tests  # noqa: E402

CHECKOUT = calls.ROOT
COPIED = ("bindings/c", "bindings/javascript", "bindings/python/hll_sketches", "bindings/rust/src", "crates/hll_c/src")
LIB = "crates/hll_c/src/lib.rt"
EXPORT = """
#[unsafe(no_mangle)]
pub extern "C" fn hll_planted(alloc: Global, image: &[u8], lg_k: u32, said: &mut HllInfo) -> u8
    ensures { result ≡ 0 }
{
    0
}
"""
PROTOTYPE = "hll_status hll_planted(const uint8_t *image, size_t len, unsigned lg_k,\n                       hll_info *said);\n\n"
BEFORE = "/* ---- making an image ---- */\n"


class CallsTest(unittest.TestCase):
    def setUp(self):
        self.root = pathlib.Path(tempfile.mkdtemp())
        self.addCleanup(shutil.rmtree, self.root)
        for folder in COPIED:
            shutil.copytree(CHECKOUT / folder, self.root / folder, ignore=shutil.ignore_patterns("build", "__pycache__", "node_modules"))
        patched = unittest.mock.patch.object(calls, "ROOT", self.root)
        patched.start()
        self.addCleanup(patched.stop)
        calls.main([])
        self.before = self.all_faults()

    def all_faults(self):
        with contextlib.redirect_stdout(io.StringIO()) as out:
            status = calls.main(["check"])
        faults = {line.removeprefix("FAIL: ") for line in out.getvalue().splitlines() if line.startswith("FAIL: ")}
        self.assertEqual(bool(status), bool(faults))
        return faults

    def faults(self):
        """What the check finds in addition to what it finds in the checkout."""
        return sorted(self.all_faults() - self.before)

    def change(self, path, old, new):
        file = self.root / path
        text = file.read_text("utf-8")
        self.assertIn(old, text)
        file.write_text(text.replace(old, new, 1), "utf-8")

    def plant(self, export=EXPORT, prototype=PROTOTYPE):
        """Plants a call in the crate and in hll.h, and writes the lists again."""
        self.change(LIB, "\n#[unsafe(no_mangle)]\n", export + "\n#[unsafe(no_mangle)]\n")
        self.change("bindings/c/hll.h", BEFORE, prototype + BEFORE)
        calls.main([])

    def test_an_export_that_is_planted(self):
        self.change(LIB, "\n#[unsafe(no_mangle)]\n", EXPORT + "\n#[unsafe(no_mangle)]\n")
        self.assertEqual(self.faults(), ["the crate hll_c exports hll_planted, which hll.h lacks"])

    def test_an_export_that_another_file_has(self):
        (self.root / "crates/hll_c/src/new.rt").write_text("pub fn hll_planted() {\n}\n")
        self.assertEqual(self.faults(), ["the crate hll_c exports hll_planted, which hll.h lacks"])

    def test_a_prototype_that_is_planted(self):
        self.change("bindings/c/hll.h", BEFORE, PROTOTYPE + BEFORE)
        self.assertEqual(self.faults(), [
            "bindings/c/hll.map lacks: hll_planted;",
            "hll.h has hll_planted, which the crate hll_c doesn't export and no C file defines",
            "no test names hll_planted",
        ])

    def test_a_call_that_is_planted_in_both(self):
        self.plant()
        self.assertEqual(self.faults(), ["no test names hll_planted"])
        lines = (self.root / "bindings/c/proved_calls.h").read_text().splitlines()
        self.assertIn("CALL(hll_status, hll_planted, (const uint8_t *image, size_t len, unsigned lg_k, hll_info *said), "
                      "(image, len, lg_k, said))", lines)
        (self.root / "bindings/c/tests/planted.c").write_text("/* hll_planted(a) */\n// hll_planted(b)\n")
        self.assertEqual(self.faults(), ["no test names hll_planted"])
        (self.root / "bindings/c/tests/planted.c").write_text("CHECK(hll_planted(image, len, 4, &info) == HLL_OK);\n")
        self.assertEqual(self.faults(), [])

    def test_parameters_of_other_types(self):
        for old, new in (("unsigned lg_k", "size_t lg_k"), ("hll_info *said", "hll_histogram *said"), ("size_t len, ", ""),
                         ("const uint8_t *image", "const uint32_t *image"), ("hll_status hll_planted", "void hll_planted")):
            with self.subTest(new):
                self.setUp()
                self.plant(prototype=PROTOTYPE.replace(old, new))
                (fault, _) = self.faults()
                self.assertRegex(fault, "^hll_planted has the types .* in hll.h, and .* in the crate hll_c$")

    def test_what_hll_h_writes_otherwise(self):
        """A state has elements of four bytes in the crate, and an estimate has no bounds."""
        export = EXPORT.replace("image: &[u8], lg_k: u32, said: &mut HllInfo", "state: &mut [[u8; 4]], said: &mut HllEstimate")
        prototype = "hll_status hll_planted(void *state, size_t room, hll_estimation *estimation);\n\n"
        (self.root / "bindings/c/planted.c").write_text(prototype.replace(";\n\n", "\n{\n    return 0;\n}\n"))
        self.plant(export, prototype)
        self.assertEqual(self.faults(), ["no test names hll_planted"])
        self.assertIn("WRAPPED(hll_status, hll_planted, (void *state, size_t elements, struct estimate *estimate), (state, elements, estimate))",
                      (self.root / "bindings/c/proved_calls.h").read_text().splitlines())

    def test_lists_that_differ(self):
        for path, mark in (("bindings/c/hll.map", " hll_coupon;"), ("bindings/c/proved_calls.h", ", hll_coupon,"),
                           ("bindings/javascript/wasm/exports.h", "(hll_coupon,"), ("bindings/python/hll_sketches/_library.py", '"hll_coupon":'),
                           ("bindings/rust/src/libhll.rs", "fn hll_coupon(value")):
            with self.subTest(path):
                lines = (self.root / path).read_text("utf-8").splitlines(True)
                (line,) = (line for line in lines if mark in line)
                self.change(path, line, "")
                self.assertEqual(self.faults(), ["%s lacks: %s" % (path, line.strip())])
                calls.main([])
                other = line.replace("hll_coupon", "hll_other")
                self.change(path, line, line + other)
                self.assertEqual(self.faults(), ["%s has: %s" % (path, other.strip())])
                calls.main([])
                self.assertEqual(self.faults(), [])

    def test_a_list_in_another_order(self):
        self.change("bindings/c/hll.map", "        hll_coupon;\n        hll_coupons;\n", "        hll_coupons;\n        hll_coupon;\n")
        self.assertEqual(self.faults(), ["bindings/c/hll.map has its lines in another order, or twice"])

    def test_a_call_that_a_binding_names(self):
        """And one that only a comment names."""
        self.plant()
        for path, line in (("bindings/python/hll_sketches/_library.py", "    _library.hll_planted(image)\n"),
                           ("bindings/rust/src/libhll.rs", "// hll_planted(image)\nfn planted() { unsafe { hll_planted(image) } }\n"),
                           ("bindings/javascript/core.mjs", "// wasm.hll_version\nwasm.hll_planted(image);\n")):
            with self.subTest(path):
                with (self.root / path).open("a") as file:
                    file.write(line.splitlines(True)[0] if len(line.splitlines()) > 1 else "")
                self.assertNotIn("hll_planted", self.listed(path))
                with (self.root / path).open("a") as file:
                    file.write(line.splitlines(True)[-1])
                self.assertIn("hll_planted", self.listed(path))

    def listed(self, path):
        """What stands in the list of a binding now."""
        path = "bindings/javascript/wasm/exports.h" if path.endswith("core.mjs") else path
        made = calls.lists()[path]
        return made.rpartition(calls.END)[0] or made

    def test_words_and_sentences(self):
        self.change("bindings/c/hll.h", '"The family byte is not 7."', '"The family byte is another."')
        self.change("bindings/c/hll.h", '"family",', '"kind",')
        said = self.faults()
        for path in ("python/hll_sketches/_errors.py", "rust/src/error.rs", "javascript/core.mjs", "javascript/hll.d.mts"):
            self.assertTrue(any(fault.startswith("bindings/%s lacks: " % path) for fault in said), path)
        self.assertIn('bindings/python/hll_sketches/_errors.py lacks: "kind": "the family byte is another",', said)

    def test_parameters_without_names(self):
        self.change("bindings/c/hll.h", BEFORE, "hll_status hll_planted(void (*call)(int), size_t);\n" + BEFORE)
        with self.assertRaisesRegex(calls.Broken, "other parameters than types and names"):
            calls.lists()

    def test_what_the_lists_can_not_be_made_of(self):
        self.plant(prototype=PROTOTYPE.replace("hll_info *said", "long double said"))
        with (self.root / "bindings/rust/src/libhll.rs").open("a") as file:
            file.write("fn planted() { unsafe { hll_planted(image) } }\n")
        with self.assertRaisesRegex(calls.Broken, "doesn't know the type long double"):
            calls.lists()
        self.change("bindings/rust/src/libhll.rs", calls.END, "the end")
        with self.assertRaisesRegex(calls.Broken, "libhll.rs lacks the comments"):
            calls.lists()


if __name__ == "__main__":
    sys.exit(unit_tests.run())
