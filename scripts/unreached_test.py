#!/usr/bin/env python3
# SPDX-License-Identifier: Apache-2.0
"""Tests scripts/unreached.py on crates that are made up here, in which functions and lemmas are planted. Prints TAP."""
import contextlib
import io
import pathlib
import sys
import tempfile
import unittest
import unittest.mock

sys.dont_write_bytecode = True
sys.path.insert(0, str(pathlib.Path(__file__).resolve().parent))
import surface  # noqa: E402
import unreached  # noqa: E402
import unit_tests  # noqa: E402

LIB = """\
mod image;
#[unsafe(no_mangle)]
pub extern "C" fn hll_size(bytes: &[u8]) -> usize
    ensures { result ≡ length bytes.now }
{
    image::size(bytes)
}
"""
IMAGE = """\
use hll_low::table::{Table, total};
use hll_low::kind::Kind;
ghost use Rattle.hll_low.specs.Table.{size_of};

/// Returns a size.
pub(crate) fn size(bytes: &[u8]) -> usize
    ensures { result ≡ size_of bytes.now }
{
    let table = Table::new(bytes);
    for at in 0..steps::<4>(bytes) {
        check(at);
    }
    total(&table) + table.len()
}

fn steps<const N: usize>(bytes: &[u8]) -> usize {
    N
}

fn check(at: usize) {
    at + 1;
}
"""
TABLE = """\
pub struct Table<'a> {
    bytes: &'a [u8],
}
impl<'a> Table<'a> {
    pub fn new(bytes: &'a [u8]) -> Self {
        Self { bytes }
    }
    pub fn len(&self) -> usize {
        self.bytes.len()
    }
}
impl<'a> Drop for Table<'a> {
    fn drop(&mut self) {
        released()
    }
}
fn released() {
    1;
}
pub fn total(table: &Table) -> usize {
    table.len()
}
/// A law.
pub fn adding()
    ensures { Adding }
{}
"""
SOURCES = {"hll_c/src/lib.rt": LIB, "hll_c/src/image.rt": IMAGE, "hll_low/src/lib.rt": "pub mod table;\npub mod kind;\n",
           "hll_low/src/table.rt": TABLE, "hll_low/src/kind.rt": "pub struct Kind {\n    n: u8,\n}\n"}
SPECS = """\
-- A definition.
use Rattle.std.specs.Prelude.{ℕ, List}
use lib.Pointwise.{bytes_decides}

-- the size
abbrev pub size_of : List ℕ → ℕ
size_of b = length_of b

abbrev length_of : List ℕ → ℕ
length_of b = 0
"""
ANSWERS = """\
use Rattle.hll_low.proofs.Sizes.{size_is}
use Rattle.hll_low.proofs.Kinds as kinds
answer_1 = size_is b ∙ kinds.kind_is k
"""
SIZES = """\
use Rattle.hll_low.proofs.Laws.{◌⊕◌}

-- a lemma
pub size_is : (b : List ℕ) → size_of b ≡ 0
size_is b =
    helper b ⊕ refl

helper : (b : List ℕ) → length_of b ≡ 0
unfolding length_of
helper b = refl
"""
KINDS = """\
module _ (k : Kind)
    (legal : IsLegalKind k) where
  module _ (n : ℕ) where
    pub kind_is : n ≡ n
    kind_is = within refl

within : (n : ℕ) → n ≡ n
within n = refl

pub data IsLegalKind : Type 0 where
  legal : IsLegalKind
"""
PROOFS = {"hll_low/specs/Table.antt": SPECS, "hll_low/proofs/Sizes.antt": SIZES, "hll_low/proofs/Kinds.antt": KINDS,
          "hll_low/proofs/Laws.antt": "pub ◌⊕◌ : ℕ → ℕ\n", "hll_low/proofs/Lib.antt": "pub mod Sizes\n",
          "hll_c/proofs/image/size/Answers.antt": ANSWERS, "hll_low/proofs/SizeRows.antt": "pub row_1 : 1 ≡ 1\nrow_1 = refl\n"}


class UnreachedTest(unittest.TestCase):
    def faults(self, changes=(), kept=""):
        """What is found in the crates, with other texts for some files."""
        with tempfile.TemporaryDirectory() as place:
            root = pathlib.Path(place)
            for name, text in {**SOURCES, **PROOFS, **dict(changes)}.items():
                path = root / "crates" / name
                path.parent.mkdir(parents=True, exist_ok=True)
                path.write_text(text, "utf-8")
            (root / "crates.txt").write_text("hll_c staticlib: hll_low\nhll_low:\n")
            (root / unreached.PORT).parent.mkdir(parents=True)
            (root / unreached.PORT).write_text("# These are kept.\n" + kept)
            with unittest.mock.patch.object(unreached, "ROOT", root), unittest.mock.patch.object(surface, "ROOT", root), \
                    contextlib.redirect_stdout(io.StringIO()) as out:
                status = unreached.main()
        faults = [line.removeprefix("FAIL: ") for line in out.getvalue().splitlines()[:-1]]
        self.assertEqual(bool(status), bool(faults))
        return faults

    def planted(self, name, more, kept="", **others):
        """What is found where a text is appended to a file."""
        files = {**SOURCES, **PROOFS}
        return self.faults({name: files[name] + more, **others}, kept)

    def test_crates_without_a_fault(self):
        self.assertEqual(self.faults(), [])

    def test_a_function(self):
        for lost in ("pub fn lost(n: u8) -> u8 {\n    n\n}\n", "pub(crate) fn lost() {}\n"):
            self.assertEqual(self.planted("hll_low/src/kind.rt", lost), ["nothing calls hll_low::kind::lost (crates/hll_low/src/kind.rt:4)"])

    def test_a_method(self):
        """Also one that has the name of a method of another type, whose receiver's type the source names."""
        method = "impl Kind {\n    pub fn %s(&self) -> u8 {\n        self.n\n    }\n}\n"
        for name in ("lost", "new"):
            self.assertEqual(self.planted("hll_low/src/kind.rt", method % name),
                             ["nothing calls hll_low::kind::Kind::%s (crates/hll_low/src/kind.rt:5)" % name])
        self.assertEqual(self.planted("hll_low/src/kind.rt", method % "len"), [], "a variable without a type has one of this name")

    def test_functions_that_call_each_other(self):
        said = self.planted("hll_low/src/kind.rt", "fn one() {\n    two()\n}\nfn two() {\n    one()\n}\n")
        self.assertEqual([line.split(" ")[2] for line in said], ["hll_low::kind::one", "hll_low::kind::two"])

    def test_what_does_not_call(self):
        """A test, a comment, a string and a clause of a contract."""
        for user in ("// lost(1)\n", 'const NAME: &str = "lost(1)";\n', "fn used()\n    ensures { lost(1) }\n{}\n"):
            self.assertEqual(len(self.planted("hll_low/src/kind.rt", "pub fn lost(n: u8) -> u8 {\n    n\n}\n" + user)), 1, user)
        test = {"hll_low/src/lib.rt": "pub mod table;\npub mod kind;\nmod tests;\n",
                "hll_low/src/tests.rt": "use crate::kind::lost;\n#[test]\nfn test() {\n    lost(1)\n}\n"}
        self.assertEqual(len(self.planted("hll_low/src/kind.rt", "pub fn lost(n: u8) -> u8 {\n    n\n}\n", **test)), 1)

    def test_what_calls(self):
        """A constant, a macro and a method of a trait that another crate defines."""
        for user in ("const SIZE: u8 = lost(1);\n", "macro_rules! of {\n    () => { lost(1) };\n}\n",
                     "impl Iterator for Kind {\n    fn next(&mut self) {\n        lost(1)\n    }\n}\n"):
            self.assertEqual(self.planted("hll_low/src/kind.rt", "const fn lost(n: u8) -> u8 {\n    n\n}\n" + user), [], user)

    def test_a_trait_of_the_crates(self):
        """Its methods are reached together."""
        trait = "pub trait Store {\n    fn put(&mut self);\n}\nimpl Store for Kind {\n    fn put(&mut self) {\n        1;\n    }\n}\n"
        self.assertEqual(len(self.planted("hll_low/src/kind.rt", trait)), 2)
        self.assertEqual(self.planted("hll_low/src/kind.rt", trait + "const fn all<S: Store>(s: S) {\n    S::put(s)\n}\nconst ONE: u8 = all(1);\n"), [])

    def test_functions_that_are_kept(self):
        lost = "pub fn lost() {\n    helper()\n}\nfn helper() {\n    1;\n}\n"
        self.assertEqual(self.planted("hll_low/src/kind.rt", lost, "hll_low::kind::lost\n"), [])
        self.assertEqual(self.faults(kept="hll_low::kind::lost\n"), ["surface/lists/port.txt lists hll_low::kind::lost, which is gone"])
        self.assertEqual(self.faults(kept="hll_low::table::total\n"),
                         ["surface/lists/port.txt lists hll_low::table::total, which something calls: take it out"])
        self.assertEqual(self.planted("hll_low/src/kind.rt", lost, "hll_low::kind::lost\n" * 2),
                         ["surface/lists/port.txt lists hll_low::kind::lost twice"])

    def test_a_lemma(self):
        for name in ("hll_low/proofs/Sizes.antt", "hll_low/specs/Table.antt", "hll_low/proofs/Kinds.antt"):
            line = {**SOURCES, **PROOFS}[name].count("\n") + 2
            self.assertEqual(self.planted(name, "-- lost\npub lost : ℕ\nlost = size_is\n"), ["nothing names lost (crates/%s:%d)" % (name, line)])

    def test_a_lemma_inside_a_module(self):
        said = self.faults({"hll_low/proofs/Kinds.antt": KINDS.replace("    kind_is = within refl\n", "    kind_is = within refl\n\n    lost : n ≡ n\n    lost = refl\n")})
        self.assertEqual(said, ["nothing names lost (crates/hll_low/proofs/Kinds.antt:7)"])

    def test_lemmas_that_name_each_other(self):
        said = self.planted("hll_low/proofs/Sizes.antt", "one : ℕ\none = two\n\ntwo : ℕ\ntwo = one\n")
        self.assertEqual([line.split(" ")[2] for line in said], ["one", "two"])

    def test_what_does_not_name_a_lemma(self):
        """A comment, an import that nothing uses, and a name of another module."""
        self.assertEqual(self.planted("hll_low/proofs/Sizes.antt", "pub lost : ℕ\n-- lost\n"), ["nothing names lost (crates/hll_low/proofs/Sizes.antt:11)"])
        user = ANSWERS.replace("{size_is}", "{size_is, lost}")
        self.assertEqual(len(self.planted("hll_low/proofs/Sizes.antt", "pub lost : ℕ\n", **{"hll_c/proofs/image/size/Answers.antt": user})), 1)
        self.assertEqual(self.planted("hll_low/proofs/Sizes.antt", "pub lost : ℕ\n", **{"hll_c/proofs/image/size/Answers.antt": user + "answer_2 = lost\n"}), [])
        self.assertEqual(len(self.planted("hll_low/proofs/Sizes.antt", "pub lost : ℕ\n", **{"hll_c/proofs/image/size/Answers.antt": ANSWERS + "answer_2 = lost\n"})), 1)


if __name__ == "__main__":
    sys.exit(unit_tests.run())
