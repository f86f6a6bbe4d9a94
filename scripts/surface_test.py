#!/usr/bin/env python3
# SPDX-License-Identifier: Apache-2.0
"""Tests how scripts/surface.py follows the paths that callers write, in crates that are made up here. The last line is
'N passed, M failed'."""
import pathlib
import sys
import tempfile
import unittest
import unittest.mock

sys.dont_write_bytecode = True
sys.path.insert(0, str(pathlib.Path(__file__).resolve().parent))
import surface  # noqa: E402
import unit_tests  # noqa: E402

LIB = "pub mod kernels;\nmod inside;\npub use inside::Kind;\npub use hll_low::loops;\n"
INSIDE = ("#[derive(Clone, Copy)]\npub enum Kind { One, Two(u8) }\nimpl Kind {\n    pub fn number(self, alloc: &A, others: &mut [u8]) -> u8 {\n        1\n    }\n}\n"
          "pub fn hidden() {\n}\n")
SOURCES = {"hll_top": {"lib": LIB, "kernels": "pub use hll_low::loops::{sum, most};\n", "inside": INSIDE},
           "hll_low": {"lib": "pub mod loops;\n", "loops": "pub fn sum() {\n}\npub fn most() {\n}\npub fn least() {\n}\n"}}


class PathsTest(unittest.TestCase):
    def faults(self, sources, *paths):
        """What is wrong with the lines of a list."""
        with tempfile.TemporaryDirectory() as folder, \
                unittest.mock.patch.object(surface, "ROOT", pathlib.Path(folder)), \
                unittest.mock.patch.object(surface, "LISTS", pathlib.Path(folder)):
            pathlib.Path(folder, "crates.txt").write_text("".join(crate + ":\n" for crate in sources))
            pathlib.Path(folder, "paths.txt").write_text("# a comment\n\n" + "".join(path + "\n" for path in paths))
            for crate, texts in sources.items():
                for module, text in texts.items():
                    file = pathlib.Path(folder, "crates", crate, "src", module + ".rt")
                    file.parent.mkdir(parents=True, exist_ok=True)
                    file.write_text(text)
            names = [name for crate, is_program in surface.crates() for name in surface.surface_of(crate, is_program)]
            return list(surface.lost_paths(names))

    def lost(self, sources, *paths):
        """The paths of a list that lead to nothing public."""
        return [fault.split(" ")[2].rstrip(",") for fault in self.faults(sources, *paths)]

    def test_paths_that_lead(self):
        self.assertEqual(self.lost(SOURCES, "hll_low::loops::sum", "hll_top::kernels", "hll_top::kernels::sum", "hll_top::kernels::most",
                                   "hll_top::loops::least", "hll_top::Kind", "hll_top::Kind::One", "hll_top::Kind::Two", "hll_top::Kind::number"), [])

    def test_paths_that_lead_nowhere(self):
        lost = ["hll_low::loops::none", "hll_top::kernels::least", "hll_top::inside::Kind", "hll_top::inside::hidden", "hll_top::Kind::Three",
                "hll_top::Kind::numbers", "hll_other::Kind"]
        self.assertEqual(self.lost(SOURCES, *lost), lost)

    def test_arguments_in_their_order(self):
        self.assertEqual(self.faults(SOURCES, "hll_top::Kind::number(self, alloc, others)", "hll_top::kernels::sum()"), [])
        self.assertEqual(self.faults(SOURCES, "hll_top::Kind::number(self, others, alloc)", "hll_low::loops::most(alloc)"), [
            "paths.txt says hll_top::Kind::number(self, others, alloc), but its arguments are (self, alloc, others)",
            "paths.txt says hll_low::loops::most(alloc), but its arguments are ()"])

    def test_traits_that_callers_rely_on(self):
        self.assertEqual(self.faults(SOURCES, "hll_top::Kind: Clone, Copy"), [])
        self.assertEqual(self.faults(SOURCES, "hll_top::Kind: Clone, Debug, Hash"), ["paths.txt says hll_top::Kind: Clone, Debug, Hash, but it lacks Debug, Hash"])

    def test_a_name_that_moved(self):
        low = {"lib": "pub mod loops;\npub mod others;\n", "loops": "pub fn sum() {\n}\n", "others": "pub fn most() {\n}\n"}
        self.assertEqual(self.lost({**SOURCES, "hll_low": low}, "hll_top::kernels::sum", "hll_top::kernels::most"), ["hll_top::kernels::most"])


if __name__ == "__main__":
    sys.exit(unit_tests.run())
