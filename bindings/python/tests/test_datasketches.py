# SPDX-License-Identifier: Apache-2.0
"""A program in the names of the package datasketches does what the same program does by Sketch and SketchUnion."""
import copy
import os
import pathlib
import pickle
import re
import subprocess
import sys
import tempfile
import unittest

import common
from hll_sketches import ImageError, Sketch, SketchUnion
from hll_sketches.datasketches import hll_sketch, hll_union, tgt_hll_type

WIDTHS = {tgt_hll_type.HLL_4: 4, tgt_hll_type.HLL_6: 6, tgt_hll_type.HLL_8: 8}


def counted(lg_k, tgt_type, values):
    """A sketch in those names, and the same by Sketch."""
    made, plain = hll_sketch(lg_k, tgt_type), Sketch(lg_k, WIDTHS[tgt_type])
    for value in values:
        made.update(value)
    plain.update_many(value for value in values if value != "")
    return made, plain


class Programs(unittest.TestCase):
    def lines_of(self, program):
        """What a program prints, with the files that it wrote."""
        with tempfile.TemporaryDirectory() as folder:
            environment = {**os.environ, "PYTHONPATH": str(common.PACKAGE), "PYTHONDONTWRITEBYTECODE": "1"}
            done = subprocess.run([sys.executable, "-c", program, folder], capture_output=True, text=True, env=environment)
            self.assertEqual((done.returncode, done.stderr), (0, ""))
            return done.stdout.splitlines(), {file.name: file.read_bytes() for file in pathlib.Path(folder).iterdir()}

    def test_a_program_that_moved(self):
        """With the one line that the README changes it writes and prints what the program in our own names does."""
        programs = common.PACKAGE / "tests" / "programs"
        page = (common.PACKAGE / "README.md").read_text("utf-8")
        before, after = re.search(r"```diff\n-(.*)\n\+(.*)\n```", page).groups()
        program = (programs / "visitors_datasketches.py").read_text("utf-8")
        self.assertEqual(program.count(before + "\n"), 1)
        lines, files = self.lines_of(program.replace(before, after))
        self.assertEqual((lines, files), self.lines_of((programs / "visitors.py").read_text("utf-8")))
        self.assertEqual((len(lines), len(files)), (30, 15))
        estimates = dict(re.findall(r"(?m)^(.*): ([0-9.]+) \(", "\n".join(lines)))
        for name, wanted in {"page 1.*": 2250, "accounts.*": 700, "seconds.*": 40, "none.*": 0, "everyone": 7651}.items():
            self.assertAlmostEqual(float(estimates[name]), wanted, delta=0.06 * wanted)
        self.assertIn("page 1.2 is damaged", lines)


class Sketches(unittest.TestCase):
    def test_counts_as_sketch_does(self):
        for tgt_type in tgt_hll_type:
            for values in [[], [1, 1.0, "1", "", "ann", -7], range(20_000)]:
                made, plain = counted(11, tgt_type, values)
                self.assertEqual(made.serialize_compact(), plain.to_bytes())
                self.assertEqual(made.serialize_updatable(), plain.to_bytes())
                self.assertEqual(made.get_compact_serialization_bytes(), len(plain.to_bytes()))
                self.assertEqual(made.get_updatable_serialization_bytes(), len(plain.to_bytes()))
                self.assertEqual(made.get_estimate(), plain.estimate())
                self.assertEqual(made.get_composite_estimate(), plain.estimate())
                for deviations in (1, 2, 3):
                    self.assertEqual(made.get_lower_bound(deviations), plain.lower_bound(deviations))
                    self.assertEqual(made.get_upper_bound(deviations), plain.upper_bound(deviations))
                self.assertEqual(made.is_empty(), plain.is_empty)
                self.assertEqual((made.lg_config_k, made.tgt_type, made.is_compact()), (11, tgt_type, False))

    def test_defaults(self):
        self.assertIs(hll_sketch(12).tgt_type, tgt_hll_type.HLL_4)
        self.assertIs(hll_union(12).get_result().tgt_type, tgt_hll_type.HLL_4)
        self.assertIs(hll_union(12).tgt_type, tgt_hll_type.HLL_8)
        self.assertEqual(hll_sketch.get_max_updatable_serialization_bytes(12, tgt_hll_type.HLL_8), Sketch.max_bytes(12, 8))
        self.assertEqual(hll_union.get_rel_err(True, True, 12, 2), -2 * 1.04 / 64)
        self.assertEqual(hll_sketch.get_rel_err(False, False, 12, 1), 1.04 / 64)

    def test_reads_and_rejects(self):
        made, plain = counted(12, tgt_hll_type.HLL_6, range(5_000))
        read = hll_sketch.deserialize(made.serialize_compact())
        self.assertEqual(read.serialize_compact(), plain.to_bytes())
        with self.assertRaises(ImageError) as caught:
            hll_sketch.deserialize(plain.to_bytes()[:39])
        self.assertIsInstance(caught.exception, ValueError)
        for lg_k in (3, 22):
            with self.assertRaises(ValueError):
                hll_sketch(lg_k)
            with self.assertRaises(ValueError):
                hll_union(lg_k)
        with self.assertRaises(TypeError):
            hll_sketch(12).update([1, 2])

    def test_copies_are_independent(self):
        made, plain = counted(12, tgt_hll_type.HLL_8, range(100))
        copies = [copy.copy(made), copy.deepcopy(made), pickle.loads(pickle.dumps(made)), hll_sketch(made, made.tgt_type)]
        made.reset()
        self.assertTrue(made.is_empty())
        for one in copies:
            self.assertEqual(one.serialize_compact(), plain.to_bytes())
            self.assertIs(one.tgt_type, tgt_hll_type.HLL_8)
        narrow = hll_sketch(copies[0])
        self.assertEqual(narrow.serialize_compact(), plain.convert(4).to_bytes())

    def test_text_names_the_numbers(self):
        made, _ = counted(12, tgt_hll_type.HLL_8, range(100))
        self.assertIn("100", str(made))
        self.assertEqual(made.to_string(True, False), repr(made))


class Unions(unittest.TestCase):
    def test_merges_as_union_does(self):
        parts = [counted(12, tgt_hll_type.HLL_4, range(n, n + 3_000)) for n in (0, 1_000, 9_000)]
        made, plain = hll_union(11), SketchUnion(11)
        for sketch, same in parts:
            made.update(sketch)
            plain.update(same)
        for value in ("ann", "", 5, 2.5):
            made.update(value)
        plain.update_values(["ann", 5, 2.5])
        self.assertEqual(made.get_result(tgt_hll_type.HLL_8).serialize_compact(), plain.sketch().convert(8).to_bytes())
        self.assertEqual(made.get_estimate(), plain.estimate())
        self.assertEqual((made.lg_config_k, made.is_empty()), (11, False))
        same = [copy.copy(made), pickle.loads(pickle.dumps(made))]
        made.reset()
        self.assertTrue(made.is_empty())
        for one in same:
            self.assertEqual(one.get_estimate(), plain.estimate())


if __name__ == "__main__":
    unittest.main()
