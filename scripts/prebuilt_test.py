#!/usr/bin/env python3
# SPDX-License-Identifier: Apache-2.0
"""Tests scripts/prebuilt.py and scripts/prebuilt.sh in a scratch folder, with made-up texts in place of those that the toolchain
gives. The last line is 'N passed, M failed'.
"""
import contextlib
import io
import os
import pathlib
import shutil
import sys
import tempfile
import unittest
import unittest.mock

sys.dont_write_bytecode = True
sys.path.insert(0, str(pathlib.Path(__file__).resolve().parent))
import prebuilt  # noqa: E402
import unit_tests  # noqa: E402

SCRIPT = prebuilt.ROOT / "scripts" / "prebuilt.sh"
OWN, OTHER = "kit-1 logic a", "kit-2 logic a"
PATHS = [text.path for text in prebuilt.TEXTS] + [prebuilt.WASM]
OTHERS = [prebuilt.other_path(name) for name in prebuilt.other_systems.TEXTS]
TOTAL = len(PATHS) + len(OTHERS) + 1


def texts_of(version, paths=PATHS):
    return {path: b"# %s %s\n" % (path.encode(), version.encode()) for path in paths}


class PrebuiltTest(unittest.TestCase):
    def setUp(self):
        self.root = pathlib.Path(tempfile.mkdtemp())
        self.addCleanup(shutil.rmtree, self.root)
        (self.root / "scripts").mkdir()
        shutil.copy(SCRIPT, self.root / "scripts")
        (self.root / "HANDLES").write_text("none\n")
        (self.root / "crates.txt").write_text("hll_c staticlib: hll_base\nhll_base:\nhll_tests: hll_base\n")
        for name in ("hll_c", "hll_base", "hll_tests"):
            for part in ("src", "specs", "must-fail"):
                (self.root / "crates" / name / part).mkdir(parents=True)
                (self.root / "crates" / name / part / "a").write_text(name)
        others = self.root / "crates" / "hll_c" / "out"
        others.mkdir()
        for name in ("retarget.py", "other_systems.py"):
            (self.root / "scripts" / name).write_text("pass\n")
        for name in ("c", "javascript/wasm"):
            (self.root / "bindings" / name).mkdir(parents=True)
        for name in ("c/hll.h", "c/hll_state.h", "c/proved_calls.h", "c/counter.c", "c/estimate.c", "c/optional.c", "c/state.c", "javascript/wasm/calls.c", "javascript/wasm/build.sh", "javascript/wasm/lower.py"):
            (self.root / "bindings" / name).write_text("/* %s */ int x; /* two\nlines */\n" % name)
        places = {"ROOT": self.root, "PREBUILT": self.root / "prebuilt", "VERDICT": self.root / "prebuilt" / "VERDICT", "OTHERS": others,
                  "OTHER_TOOLCHAIN": others / "other-toolchain.s", "OTHER_ARCHIVE": others / "other-toolchain.a"}
        for name, value in places.items():
            patched = unittest.mock.patch.object(prebuilt, name, value)
            patched.start()
            self.addCleanup(patched.stop)
        patched = unittest.mock.patch.object(prebuilt, "binaryen", return_value="wasm-opt version 9")
        patched.start()
        self.addCleanup(patched.stop)
        self.others = others
        self.put(OWN, "1")

    def put(self, prover, version):
        """Writes prebuilt/ as this toolchain makes it of the sources as they are."""
        prebuilt.write(self.verdict(prover, version), texts_of(version))

    def verdict(self, prover, version, said="logic=proved functions=2"):
        files, others = ({path: prebuilt.sum_of(text) for path, text in texts_of(version, paths).items()} for paths in (PATHS, OTHERS))
        return prebuilt.Verdict(prover, prebuilt.asked("sum"), {path: [said] for path in PATHS}, files, prebuilt.wasm_line(),
                                prebuilt.texts_line(), others)

    def run_main(self, prover, version, *words, ci="", said="logic=proved functions=2"):
        """Runs the script where this toolchain is here and gives these texts, or is unknown (version None); returns the exit
        status, the last line, and all that was printed."""
        made = [(self.verdict(prover, version, said), texts_of(version), texts_of(version, OTHERS))] if version else prebuilt.Unknown("new words")
        with unittest.mock.patch.object(prebuilt, "make_all", side_effect=made), \
                unittest.mock.patch.object(prebuilt, "kit", return_value=prover), \
                unittest.mock.patch.object(prebuilt, "lib", side_effect=lambda _: (self.others / "libhll_c.a").write_text("a")), \
                unittest.mock.patch.object(shutil, "which", return_value="rt"), \
                unittest.mock.patch.dict(os.environ, {"CI": ci}), \
                unittest.mock.patch.object(sys, "argv", ["prebuilt.py", *words]), \
                contextlib.redirect_stdout(io.StringIO()) as out:
            status = prebuilt.main()
        return int(status), out.getvalue().splitlines()[-1], out.getvalue()

    def change(self, path, old, new):
        file = self.root / path
        self.assertIn(old, file.read_text())
        file.write_text(file.read_text().replace(old, new))

    def test_the_same(self):
        self.assertEqual(prebuilt.asked("state"), "fresh")
        self.assertEqual(self.run_main(OWN, "1", ci="true")[:2], (0, "%d passed, 0 failed" % TOTAL))

    def test_a_changed_text(self):
        self.change("prebuilt/x86_64/hll_estimator_fields.s", "hll_estimator_fields", "hll_worts")
        self.assertEqual(prebuilt.asked("state"), "damaged")
        status, last, said = self.run_main(OWN, "1")
        self.assertEqual((status, last), (1, "%d passed, 1 failed" % (TOTAL - 1)))
        self.assertIn("failed: prebuilt/x86_64/hll_estimator_fields.s", said)

    def test_one_byte_of_either_text_of_the_library(self):
        for path in ("x86_64/libhll_c.s", "x86_64/libhll_c_v3.s"):
            file = self.root / "prebuilt" / path
            data = file.read_bytes()
            file.write_bytes(data[:5] + bytes([data[5] ^ 1]) + data[6:])
            self.assertEqual(prebuilt.asked("state"), "damaged", path)
            status, last, said = self.run_main(OWN, "1", ci="true")
            self.assertEqual((status, last), (1, "%d passed, 1 failed" % (TOTAL - 1)))
            self.assertIn("failed: prebuilt/%s is not what the sources give" % path, said)
            file.write_bytes(data)
            self.assertEqual(prebuilt.asked("state"), "fresh")

    def test_the_processor_of_each_text(self):
        words = {text.path: text.words for text in prebuilt.TEXTS}
        self.assertEqual(words["x86_64/libhll_c.s"], ["--target", prebuilt.X86])
        self.assertEqual(words["x86_64/libhll_c_v3.s"], ["--target", prebuilt.X86, "--cpu", "x86-64-v3"])
        self.assertEqual([text.path for text in prebuilt.MODULES], ["x86_64/libhll_c.s", "aarch64/libhll_c.s"])

    def test_names_with_a_suffix(self):
        text = """\t.section\t.text.hll_add,"ax",@progbits
\t.globl\thll_add
\t.type\thll_add,@function
hll_add:
\tcallq\ta.b.c.48f335490f6b880f
\tcallq\trattle_alloc@PLT
\tleaq\t.LCPI1_0(%rip), %rax
\tjmp\thll_add_more
.Lfunc_end1:
\t.size\thll_add, .Lfunc_end1-hll_add
\t.type\ta.b.c.48f335490f6b880f,@function
a.b.c.48f335490f6b880f:
\t.ascii\t"hll_add"
"""
        wanted = text.replace("a.b.c.48f335490f6b880f", "a.b.c.48f335490f6b880f_v3")
        for before in (".text.hll_add,", "\t.globl\thll_add", ".type\thll_add,", "hll_add:", "\t.size\thll_add,", "1-hll_add\n"):
            wanted = wanted.replace(before, before.replace("hll_add", "hll_add_v3"))
        self.assertEqual(prebuilt.with_suffix(text, "_v3"), wanted)
        self.assertEqual(prebuilt.with_suffix(text, ""), text)

    def test_a_changed_text_whose_checksums_were_changed_too(self):
        prebuilt.write(self.verdict(OWN, "2"), texts_of("2"))
        self.assertEqual(prebuilt.asked("state"), "fresh")
        status, last, _ = self.run_main(OWN, "1")
        self.assertEqual((status, last), (1, "0 passed, %d failed" % TOTAL))

    def test_a_missing_text(self):
        (self.root / "prebuilt" / PATHS[0]).unlink()
        self.assertEqual(prebuilt.asked("state"), "damaged")
        self.assertEqual(self.run_main(OWN, "1")[0], 1)

    def test_a_changed_verdict(self):
        for old, new in (("functions=2", "functions=3"), ("kit-1", "kit-2"), ("lines above: ", "lines above: 0"), ("file: ", "file: 0")):
            self.change("prebuilt/VERDICT", old, new)
            self.assertEqual(prebuilt.asked("state"), "damaged", old)
            self.assertEqual(self.run_main(OWN, "1")[0], 1, old)
            self.put(OWN, "1")
        self.assertEqual(self.run_main(OWN, "1", said="logic=proved functions=4")[0], 1)

    def test_a_changed_source(self):
        for source in ("crates/hll_c/src/a", "crates/hll_base/specs/a", "crates.txt", "HANDLES"):
            for ci, wanted in (("true", 1), ("", 0)):
                (self.root / source).write_text((self.root / source).read_text() + "\n# more\n" if source == "HANDLES" else
                                                (self.root / source).read_text().replace("hll_base", "hll_base ", 1) + " ")
                self.assertEqual(prebuilt.asked("state"), "stale", source)
                status, _, said = self.run_main(OWN, "2", ci=ci)
                self.assertEqual(status, wanted, source)
                self.assertIn("written again now", said)
                self.assertEqual((prebuilt.asked("state"), self.run_main(OWN, "2", ci="true")[0]), ("fresh", 0), source)

    def test_what_does_not_count(self):
        for file in ("crates/hll_tests/src/a", "crates/hll_c/must-fail/a"):
            (self.root / file).write_text("other")
        self.assertEqual(prebuilt.asked("state"), "fresh")

    def test_another_toolchain(self):
        status, last, said = self.run_main(OTHER, "2", ci="true")
        self.assertEqual((status, last), (0, "1 passed, 0 failed"))
        self.assertIn("not compared: prebuilt/ was made by kit-1", said)
        self.assertEqual((self.others / "other-toolchain.s").read_bytes(), texts_of("2")["x86_64/libhll_c.s"])
        self.change("prebuilt/x86_64/hll_estimator_fields.s", "hll_estimator_fields", "hll_worts")
        self.assertEqual(self.run_main(OTHER, "2")[0], 1)

    def test_another_toolchain_with_the_same_text(self):
        status, last, said = self.run_main(OTHER, "1")
        self.assertEqual((status, last), (0, "%d passed, 0 failed" % (TOTAL - 1)))
        self.assertIn("kit-2 logic a gives the same text", said)

    def test_an_unknown_toolchain(self):
        self.assertEqual(self.run_main(OTHER, None, ci="true")[:2], (0, "1 passed, 0 failed"))
        self.assertEqual((self.others / "other-toolchain.a").read_text(), "a")
        self.assertEqual(self.run_main(OWN, None)[:2], (1, "0 passed, 1 failed"))
        self.change("crates/hll_c/src/a", "hll_c", "other")
        self.assertEqual(self.run_main(OTHER, None)[:2], (1, "0 passed, 1 failed"))

    def test_proofs_that_an_earlier_check_kept(self):
        anew = ["checking", "axioms libc: none reached of the 128 declared", "logic=proved functions=2 statements=trusted"]
        kept = [*anew[:2], "logic=proved functions=2 statements=trusted incremental=trusted"]
        self.assertEqual(prebuilt.said_of(anew), anew[1:])
        self.assertEqual(prebuilt.said_of(kept), anew[1:])
        other = [*anew[:2], "logic=proved functions=2 statements=trusted cache=trusted"]
        self.assertEqual(prebuilt.said_of(other), other[1:])

    def test_what_the_module_for_javascript_is_made_from(self):
        self.assertEqual(prebuilt.asked("wasm"), "fresh")
        self.change("bindings/c/counter.c", "two\nlines", "other\n\nwords")
        self.assertEqual(prebuilt.asked("wasm"), "fresh")
        for file, old, new in (("bindings/c/counter.c", "int x", "int y"), ("bindings/javascript/wasm/calls.c", "int x", "long x"),
                               ("bindings/javascript/wasm/lower.py", "two", "three"), ("scripts/retarget.py", "pass", "1")):
            self.change(file, old, new)
            self.assertEqual((prebuilt.asked("state"), prebuilt.asked("wasm")), ("fresh", "stale"), file)
            status, _, said = self.run_main(OWN, "1", ci="true")
            self.assertEqual(status, 1, file)
            self.assertIn("written again now", said)
            self.assertEqual((prebuilt.asked("wasm"), self.run_main(OWN, "1", ci="true")[0]), ("fresh", 0), file)

    def test_a_module_of_which_one_byte_is_changed(self):
        file = self.root / "prebuilt" / prebuilt.WASM
        file.write_bytes(file.read_bytes()[:-1] + b"!")
        self.assertEqual(prebuilt.asked("state"), "damaged")
        status, _, said = self.run_main(OWN, "1")
        self.assertEqual(status, 1)
        self.assertIn("failed: prebuilt/wasm/hll.wasm is not what", said)

    def put_wasm(self, version, made=b"new"):
        """Returns what put_wasm makes of hll.wasm with this version of binaryen, and what VERDICT would say of it."""
        verdict, texts = self.verdict(OWN, "1"), {}
        with unittest.mock.patch.object(prebuilt, "binaryen", return_value=version), \
                unittest.mock.patch.object(prebuilt, "made_wasm", return_value=made), contextlib.redirect_stdout(io.StringIO()) as out:
            prebuilt.put_wasm(None, verdict, texts)
        return texts[prebuilt.WASM], verdict.wasm, out.getvalue()

    def test_another_binaryen(self):
        old = (self.root / "prebuilt" / prebuilt.WASM).read_bytes()
        here = prebuilt.committed().wasm
        self.assertEqual(self.put_wasm("wasm-opt version 9"), (b"new", here, ""))
        for version in ("wasm-opt version 1", None):
            found, line, said = self.put_wasm(version)
            self.assertEqual((found, line), (old, here))
            self.assertIn("not compared: prebuilt/wasm/hll.wasm was made by", said)
        self.change("bindings/c/state.c", "int x", "int y")
        self.assertEqual(self.put_wasm("wasm-opt version 1")[0], b"new")
        with self.assertRaises(prebuilt.Unknown):
            self.put_wasm(None)

    def test_the_module_for_javascript_alone(self):
        def run(prover=OWN):
            with unittest.mock.patch.object(prebuilt, "made_wasm", return_value=b"again"), \
                    unittest.mock.patch.object(prebuilt, "toolchain", return_value=None):
                return self.run_main(prover, "1", "--wasm")[0]

        self.change("bindings/c/state.c", "int x", "int y")
        self.assertEqual((run(), prebuilt.asked("wasm")), (1, "stale"))
        for target in (prebuilt.X86, prebuilt.ARM):
            (self.root / "module").write_text("module")
            prebuilt.keep_module(self.root / "module", target)
        self.assertEqual((run(OTHER), prebuilt.asked("wasm")), (1, "stale"))
        self.assertEqual((run(), prebuilt.asked("wasm"), prebuilt.asked("state")), (0, "fresh", "fresh"))
        self.assertEqual((self.root / "prebuilt" / prebuilt.WASM).read_bytes(), b"again")
        self.change("crates/hll_c/src/a", "hll_c", "other")
        self.assertEqual((run(), prebuilt.asked("state")), (1, "stale"))

    def text_state(self, path):
        return prebuilt.asked("text", path.partition("/")[0])

    def test_texts_for_other_systems(self):
        self.assertEqual([self.text_state(path) for path in OTHERS], ["none"] * len(OTHERS))
        self.assertEqual(self.run_main(OWN, "1", ci="true")[0], 0)
        self.assertEqual([self.text_state(path) for path in OTHERS], ["fresh"] * len(OTHERS))
        (self.root / "prebuilt" / OTHERS[0]).write_bytes(b"of another commit")
        self.assertEqual([self.text_state(path) for path in OTHERS], ["stale"] + ["fresh"] * (len(OTHERS) - 1))
        self.assertEqual((prebuilt.asked("state"), prebuilt.asked("texts")), ("fresh", "fresh"))

    def test_a_text_for_another_system_that_differs(self):
        """Its checksum in VERDICT is compared, and a text that doesn't fit VERDICT is not written."""
        verdict = self.verdict(OWN, "1")
        verdict.others[OTHERS[1]] = "0" * 64
        prebuilt.write(verdict, texts_of("1"))
        status, last, said = self.run_main(OWN, "1")
        self.assertEqual((status, last), (1, "%d passed, 2 failed" % (TOTAL - 2)))
        self.assertIn("failed: prebuilt/%s is not what" % OTHERS[1], said)
        self.assertEqual([self.text_state(path) for path in OTHERS[:2]], ["fresh", "none"])

    def test_what_the_texts_for_other_systems_are_made_from(self):
        self.assertEqual(prebuilt.asked("texts"), "fresh")
        self.change("scripts/other_systems.py", "pass", "1")
        self.assertEqual((prebuilt.asked("texts"), self.run_main(OWN, "1", ci="true")[0]), ("stale", 1))
        self.assertEqual((prebuilt.asked("texts"), self.run_main(OWN, "1", ci="true")[0]), ("fresh", 0))
        (self.root / "bindings/c/proved_calls.h").write_text("WRAPPED(hll_status, hll_new, (int x), (x))\n")
        self.assertEqual(prebuilt.asked("texts"), "stale")

    def texts_alone(self, version, prover=OWN):
        with unittest.mock.patch.object(prebuilt, "made_texts", return_value=texts_of(version, OTHERS)), \
                unittest.mock.patch.object(prebuilt, "prove_modules") as proving, \
                unittest.mock.patch.object(prebuilt, "toolchain", return_value=None):
            return self.run_main(prover, "1", "--texts")[0], proving.called

    def test_the_texts_for_other_systems_alone(self):
        self.assertEqual(self.texts_alone("1"), (0, True))
        self.assertEqual(self.text_state(OTHERS[0]), "fresh")
        for target in (prebuilt.X86, prebuilt.ARM):
            (self.root / "module").write_text("module")
            prebuilt.keep_module(self.root / "module", target)
        self.assertEqual(self.texts_alone("1"), (0, False))
        self.assertEqual(self.texts_alone("2"), (1, False))
        self.assertEqual(self.texts_alone("1", OTHER), (1, False))
        self.change("scripts/other_systems.py", "pass", "1")
        self.assertEqual((self.texts_alone("2"), self.text_state(OTHERS[0]), prebuilt.asked("texts")), ((0, False), "fresh", "fresh"))
        self.change("crates/hll_c/src/a", "hll_c", "other")
        self.assertEqual(self.texts_alone("2"), (1, False))

    def test_no_text_yet(self):
        shutil.rmtree(self.root / "prebuilt")
        self.assertEqual(prebuilt.asked("state"), "stale")
        self.assertEqual(self.run_main(OWN, "1")[0], 0)
        self.assertEqual(prebuilt.asked("state"), "fresh")

    def test_write(self):
        self.change("prebuilt/x86_64/hll_estimator_fields.s", "hll_estimator_fields", "hll_worts")
        self.assertEqual(self.run_main(OWN, "1", "--write")[0], 0)
        self.assertEqual(prebuilt.asked("state"), "fresh")


class LabelTest(unittest.TestCase):
    TEXT = "\t.type\t%s,@function\n%s:\n.LBB%d_1:\n\tjmp\t.LBB%d_1\n.Lfunc_end%d:\n\t.size\t%s, .Lfunc_end%d-%s\n"

    def of(self, *names):
        return prebuilt.with_stable_labels("".join(self.TEXT % (name, name, at, at, at, name, at, name) for at, name in enumerate(names)))

    def test_a_function_more_changes_no_other_line(self):
        few, more = self.of("a", "c").splitlines(), self.of("a", '"b::<x, y>"', "c").splitlines()
        self.assertEqual([line for line in more if line in few], few)
        self.assertEqual(len(set(more)), len(more))

    def test_labels_that_clash(self):
        with unittest.mock.patch.object(prebuilt, "sum_of", return_value="0" * 64), self.assertRaises(prebuilt.Unknown):
            self.of("a", "b")


class NameTest(unittest.TestCase):
    TEXT = """\
	.file	"a::b"
	.section	".text.a::b::<#12ab>","ax",@progbits
	.type	"a::b::<#12ab>",@function
"a::b::<#12ab>":
	callq	"a::c::<[u8]>"
	jmpq	*".Lswitch.table.a::T+b.1.rel"(,%rax,8)
	.size	"a::b::<#12ab>", .Lfunc_end0-"a::b::<#12ab>"
	.ascii	"a::b \\"<#12ab>\\""
	.section	".text.a::<i8,31'b::c{}>","ax",@progbits
	.section	.text,"ax",@progbits
	.section	".note.GNU-stack","",@progbits
"""

    def test_plain_names(self):
        """Names are letters, digits, `_` and `.`; what is data or a flag stays."""
        self.assertEqual(prebuilt.with_plain_names(self.TEXT), """\
	.file	"a::b"
	.section	.text.a.b.12ab,"ax",@progbits
	.type	a.b.12ab,@function
a.b.12ab:
	callq	a.c._u8
	jmpq	*.Lswitch.table.a.T.b.1.rel(,%rax,8)
	.size	a.b.12ab, .Lfunc_end0-a.b.12ab
	.ascii	"a::b \\"<#12ab>\\""
	.section	.text.a._i8_31_b.c,"ax",@progbits
	.section	.text,"ax",@progbits
	.section	.note.GNU-stack,"",@progbits
""")

    def test_names_that_become_one(self):
        for text in ('\tcallq\t"a::b"\n\tcallq\t"a+b"\n', '\tcallq\t"a::b"\n\tcallq\ta.b\n'):
            with self.assertRaisesRegex(prebuilt.Unknown, "two names become one: a.b"):
                prebuilt.with_plain_names(text)

    def test_the_text_that_is_there(self):
        """No operand of it is quoted, which GNU's assembler 2.35 rejects."""
        for path in sorted(prebuilt.PREBUILT / text.path for text in prebuilt.TEXTS):
            quoted = [line for line in path.read_text().splitlines() if '"' in line and not prebuilt.DATA.match(line)]
            self.assertEqual([line for line in quoted if not line.startswith("\t.section\t") or line.startswith('\t.section\t"')], [], path)


class NoToolchainTest(unittest.TestCase):
    def test_a_line_says_what_lacks(self):
        """Nothing is begun, removed or traced back."""
        with tempfile.TemporaryDirectory() as room:
            there = pathlib.Path(room, "other-toolchain.s")
            there.touch()
            said = io.StringIO()
            with unittest.mock.patch.dict(os.environ, PATH=room), unittest.mock.patch.object(prebuilt, "OTHERS", pathlib.Path(room)), \
                    unittest.mock.patch.object(sys, "argv", ["prebuilt.py", "--prove"]), \
                    contextlib.redirect_stdout(said), contextlib.redirect_stderr(said):
                self.assertEqual(prebuilt.main(), 1)
            self.assertTrue(there.exists())
        self.assertEqual(said.getvalue(), "prebuilt.py: the command rt, which proves and compiles, is not on the path (CONTRIBUTING.md)\n")


if __name__ == "__main__":
    sys.exit(unit_tests.run())
