#!/usr/bin/env python3
# SPDX-License-Identifier: Apache-2.0
"""Tests scripts/twins.py on crates that are made up here. Prints TAP."""
import contextlib
import io
import pathlib
import sys
import tempfile
import unittest
import unittest.mock

sys.dont_write_bytecode = True
sys.path.insert(0, str(pathlib.Path(__file__).resolve().parent))
import twins  # noqa: E402
import unit_tests  # noqa: E402

FUNCTION = """\
/// Returns the greatest of some bytes, or 0.
pub fn greatest(bytes: &[u8]) -> u8
    ensures { result ≡ greatest_of bytes.now }
{
    let mut most = 0;
    for at in 0..bytes.len() {
        if bytes[at] > most {
            most = bytes[at];
        }
        let next = at + 1;
        check(next, most);
    }
    most
}
"""
LEMMA = """\
pub greatest-is : (bs : List ℕ) → greatest bs ≤ 255 → IsByte (greatest bs)
greatest-is bs below = record { fits = below } where
  first : 0 ≤ greatest bs
  first = from_zero (greatest bs)
  rest : (n : ℕ) → n ≤ 3
  rest n = up_to n first below
  last = rest 3 , first
"""


class TwinsTest(unittest.TestCase):
    def run_main(self, files, *words, listed=""):
        """Runs the script over files of a crate; returns the status, the lines, and the list afterwards."""
        with tempfile.TemporaryDirectory() as place:
            root = pathlib.Path(place)
            for name, text in {"surface/lists/twins.txt": listed, **files}.items():
                path = root / name
                path.parent.mkdir(parents=True, exist_ok=True)
                path.write_text(text, "utf-8")
            with unittest.mock.patch.object(twins, "ROOT", root), contextlib.redirect_stdout(io.StringIO()) as out:
                status = twins.main(list(words))
            return int(status), out.getvalue().splitlines(), (root / twins.LIST).read_text("utf-8")

    def faults(self, files, listed="", most="# At most 9 pairs: at the last release.\n"):
        status, lines, _ = self.run_main(files, "check", listed=most + listed)
        faults = [line.removeprefix("FAIL: ") for line in lines[:-1]]
        self.assertEqual(status, bool(faults))
        return faults

    def test_a_function_that_is_copied(self):
        """Into another file or crate, with other names and numbers, another contract and comments."""
        copy = FUNCTION.replace("greatest", "least_of_all").replace("most", "m").replace("255", "7").replace("bytes", "text")
        copy = copy.replace("/// Returns", "// It returns").replace("    let next", "\n    // then\n    let after").replace("(next", "(after")
        for name in ("crates/one/src/b.rt", "crates/two/src/a.rt"):
            self.assertEqual(self.faults({"crates/one/src/a.rt": FUNCTION, name: copy}), [
                "a twin: crates/one/src/a.rt fn greatest = %s fn least_of_all (2 and 2: 7 lines)" % name])

    def test_a_lemma_that_is_copied(self):
        copy = LEMMA.replace("greatest", "other").replace("below", "b")
        for folder in ("proofs", "specs", "proofs/a/b"):
            files = {"crates/one/proofs/A.antt": "-- one\n" + LEMMA, "crates/one/%s/B.antt" % folder: copy}
            (fault,) = self.faults(files)
            self.assertIn("crates/one/proofs/A.antt greatest-is = crates/one/%s/B.antt other-is" % folder if folder != "specs" else "greatest-is", fault)

    def test_other_code(self):
        """Code of another shape, fewer lines, tables, and imports are no twins."""
        changed = FUNCTION.replace("bytes[at] > most", "most < bytes[at] + 1")
        self.assertEqual(self.faults({"crates/one/src/a.rt": FUNCTION, "crates/one/src/b.rt": changed}), [])
        table = "fn table() {\n%s}\n" % "".join("    put(%d, name_%d);\n" % (n, n) for n in range(9))
        self.assertEqual(self.faults({"crates/one/src/a.rt": table, "crates/one/src/b.rt": table}), [])
        imports = "".join("use crate::a%d::{B, c%d};\nmod d%d;\n" % (n, n, n) for n in range(9))
        self.assertEqual(self.faults({"crates/one/src/a.rt": imports, "crates/one/src/b.rt": imports}), [])
        self.assertEqual(self.faults({"crates/one/src/a.rt": FUNCTION, "crates/one/other/b.rt": FUNCTION}), [])

    def test_the_list(self):
        """A pair of the list is meant; a pair that is gone has to leave it."""
        files = {"crates/one/src/a.rt": FUNCTION, "crates/one/src/b.rt": FUNCTION}
        pair = "crates/one/src/a.rt fn greatest = crates/one/src/b.rt fn greatest"
        self.assertEqual(self.faults(files, "# These are meant.\n%s\n" % pair), [])
        self.assertEqual(self.faults({"crates/one/src/a.rt": FUNCTION}, pair), [
            "no pair any more, so take it out of surface/lists/twins.txt: " + pair])
        _, _, made = self.run_main(files, "write", listed="# These are meant.\nold = pair\n")
        self.assertEqual(made, "# These are meant.\n%s\n" % pair)

    def test_a_list_that_gets_longer(self):
        files = {"crates/one/src/a.rt": FUNCTION, "crates/one/src/b.rt": FUNCTION}
        pair = "crates/one/src/a.rt fn greatest = crates/one/src/b.rt fn greatest"
        self.assertEqual(self.faults(files, pair, "# At most 1 pairs.\n"), [])
        self.assertEqual(self.faults(files, pair, "# At most 0 pairs.\n"), ["surface/lists/twins.txt has 1 pairs, and may have 0: share code"])
        for most in ("", "# At most 1 pairs.\n# At most 2 pairs.\n"):
            self.assertEqual(self.faults(files, pair, most), ["surface/lists/twins.txt has no line '# At most N pairs', or two"])
        _, _, made = self.run_main(files, "write", listed="# At most 0 pairs.\n")
        self.assertEqual(made, "# At most 0 pairs.\n%s\n" % pair)

    def test_twice_in_a_file(self):
        (fault,) = self.faults({"crates/one/src/a.rt": FUNCTION + FUNCTION.replace("greatest", "again")})
        self.assertIn("fn again = crates/one/src/a.rt fn greatest", fault)


if __name__ == "__main__":
    sys.exit(unit_tests.run())
