# SPDX-License-Identifier: Apache-2.0
"""Unions have the lg_k of their sketches, or the one that is asked for; the width is theirs too."""
import functools
import json
import operator
import os
import pathlib
import pickle
import random
import tempfile
import unittest
import warnings

import common  # noqa: F401, for the path
from command import CUT, CommandTest, TRUNCATED
from hll_sketches import FilesError, ImageError, PrecisionError, Sketch, SketchUnion, _library
from hll_sketches import is_image, merge_files, union_of
from mutants import KINDS, Mutants

CASES = 400


def sketch(lg_k, count, width=8, first=0):
    made = Sketch(lg_k, width)
    made.update_many(range(first, first + count))
    return made


def zeros(lg_k, width):
    """Registers that are all 0, as another program may write them."""
    bits = {4: 0, 6: 1, 8: 2}[width]
    size = {4: 1 << lg_k >> 1, 6: (3 << lg_k >> 2) + 1, 8: 1 << lg_k}[width]
    header = bytes([10, 1, 7, lg_k, 0, 0, 0, 2 | bits << 2])
    return Sketch.from_bytes(
        header + bytes(24) + (1 << lg_k).to_bytes(4, "little") + bytes(4 + size)
    )


FINE, COARSE, FEW, EMPTY = sketch(12, 20_000), sketch(4, 1000), sketch(8, 5), Sketch(4)
REGISTERS = sketch(10, 2000)


# ---- the rule, plainly


class Part:
    """A sketch, and the values that it counts."""

    def __init__(self, numbers):
        self.lg_k, self.width = numbers.choice((9, 9, 10)), numbers.choice((4, 4, 6, 8))
        count = numbers.choice((0, 0, 3, 60, 3000))
        first = numbers.randrange(5000)
        self.values = range(first, first + count)
        self.sketch = sketch(self.lg_k, count, self.width, first)


def of_one_lg_k(numbers):
    """Parts whose sketches with values mostly have one lg_k."""
    parts = [Part(numbers) for _ in range(numbers.randrange(8))]
    if numbers.random() < 0.7:
        parts = [part for part in parts if part.lg_k == 9 or not part.values]
    return parts


def wanted_of(parts):
    """The union of parts without a bound; None if their lg_k differ."""
    counted = [part for part in parts if part.values] or parts
    lg_ks = {part.lg_k for part in counted}
    if any(part.values for part in parts) and len(lg_ks) > 1:
        return None
    widths = {part.width for part in counted}
    made = Sketch(max(lg_ks, default=12), widths.pop() if len(widths) == 1 else 8)
    for part in parts:
        made.update_many(part.values)
    return made


# ---- ways to merge


def one_by_one(sketches):
    union = SketchUnion()
    for one in sketches:
        union.update(one)
    return union.sketch()


def all_at_once(sketches):
    union = SketchUnion()
    union.update_many(one.to_bytes() for one in sketches)
    return union.sketch()


def by_operator(sketches):
    return functools.reduce(operator.or_, sketches) if sketches else Sketch()


def in_place(sketches):
    if not sketches:
        return Sketch()
    made = sketches[0].copy()
    for one in sketches[1:]:
        made |= one
    return made


def by_files(sketches, jobs=1):
    with tempfile.TemporaryDirectory() as folder:
        paths = [pathlib.Path(folder, str(number)) for number in range(len(sketches))]
        for path, one in zip(paths, sketches):
            path.write_bytes(one.to_bytes())
        return merge_files(paths, jobs=jobs)


def copied(sketches):
    """A union that is copied and pickled between its sketches."""
    union = SketchUnion()
    for number, one in enumerate(sketches):
        union = pickle.loads(pickle.dumps(union)) if number % 2 else union.copy()
        union.update(one)
    return union.sketch()


WAYS = (union_of, one_by_one, all_at_once, by_operator, in_place, by_files, copied)


def in_a_tree(sketches, numbers):
    """The union of unions of parts, each merged in some way."""
    if len(sketches) < 3:
        return numbers.choice(WAYS)(sketches)
    cut = numbers.randrange(1, len(sketches))
    parts = [in_a_tree(sketches[:cut], numbers), in_a_tree(sketches[cut:], numbers)]
    return numbers.choice(WAYS)(parts)


class RuleTest(unittest.TestCase):
    def test_random_trees(self):
        numbers, refused = random.Random(7), 0
        for _ in range(CASES):
            parts = of_one_lg_k(numbers)
            sketches, wanted = [part.sketch for part in parts], wanted_of(parts)
            ways = (*WAYS, functools.partial(in_a_tree, numbers=numbers))
            for way in ways:
                if wanted is None:
                    with self.assertRaises(PrecisionError):
                        way(sketches)
                    continue
                made = way(numbers.sample(sketches, len(sketches)))
                self.assertEqual((made, made.width), (wanted, wanted.width), (way, sketches))
            refused += wanted is None
        self.assertTrue(CASES // 20 < refused < CASES // 2, refused)

    def test_no_sketches(self):
        for way in WAYS:
            self.assertEqual(way([]), Sketch(12))
        self.assertEqual((union_of([], 9), union_of([], 9, 4)), (Sketch(9), Sketch(9, 4)))

    def test_registers_that_are_all_0(self):
        """They are empty, as those of other programs may be."""
        for width in (4, 6, 8):
            for way in WAYS:
                self.assertEqual(way([zeros(5, width), FINE, zeros(14, 4)]), FINE)

    def test_mutants(self):
        """An image that is merged decides by its lg_k if it holds a value, and only then."""
        seen = set()
        for number, kind in enumerate(KINDS):
            mutants = Mutants(kind, 300 + number)
            for _ in range(500):
                image = mutants.image()
                if not is_image(image):
                    continue
                is_empty = bool(_library.info(image).is_empty)
                seen.add((kind, is_empty))
                if is_empty or image[3] == 10:
                    made = union_of([REGISTERS, image])
                    self.assertEqual(made.lg_k, 10, image.hex())
                else:
                    with self.assertRaises(PrecisionError, msg=image.hex()):
                        union_of([REGISTERS, image])
        self.assertEqual(len({kind for kind, is_empty in seen if not is_empty}), len(KINDS))

    def test_a_bound(self):
        """It is the largest lg_k, and what lowers it is in registers."""
        sketches = [FINE, FEW, sketch(14, 50_000)]
        for lg_max_k, lg_k in ((21, 12), (13, 12), (11, 11)):
            self.assertEqual(union_of(sketches, lg_max_k).lg_k, lg_k)
        self.assertEqual(union_of([*sketches, COARSE], 12).lg_k, 4)
        self.assertEqual(union_of([FEW, sketch(14, 9)], 11).lg_k, 11)
        narrow = [sketch(lg_k, 5000, 4) for lg_k in (9, 10)]
        self.assertEqual((union_of(narrow, 21).width, union_of(narrow, 21, 6).width), (4, 6))
        self.assertEqual(union_of([*narrow, FEW], 21).width, 8)

    def test_the_odd_one_is_named(self):
        for number in (1, 7, 8, 9, 100):
            sketches = [EMPTY, *[FINE] * number, COARSE, *[FINE.to_bytes()] * 30]
            for call in (union_of, SketchUnion().update_many):
                with self.assertRaises(PrecisionError) as caught:
                    call(iter(sketches))
                error = caught.exception
                found = error.lg_k, error.other_lg_k, error.number
                self.assertEqual(found, (4, 12, number + 1))
        words = "sketches[101] has lg_k 4 and not 12: lg_max_k=4 merges them"
        self.assertEqual(str(error), words)
        with self.assertRaises(ImageError) as caught:
            union_of([FINE, b"", COARSE])
        self.assertEqual(caught.exception.number, 1)

    def test_what_is_refused_changes_nothing(self):
        union = SketchUnion()
        union.update(FINE)
        for call in (lambda: union.update(COARSE), lambda: union.update_many([FEW, COARSE])):
            with self.assertRaises(PrecisionError):
                call()
            self.assertEqual(union.sketch(), FINE)
        with self.assertRaises(PrecisionError) as caught:
            union.update_many([EMPTY, COARSE, COARSE])
        error = caught.exception
        self.assertEqual((error.lg_k, error.other_lg_k, error.number), (4, 12, None))
        union.update_many([])
        self.assertEqual((union.sketch(), union.lg_max_k, union.width), (FINE, None, None))


class FilesTest(CommandTest):
    def lay_out(self, **sketches):
        for name, one in sketches.items():
            self.write(f"all/{name}.hll", one.to_bytes())

    def test_files_of_one_lg_k(self):
        self.lay_out(a=sketch(14, 60_000, 4), b=sketch(14, 50, 4), c=EMPTY, d=Sketch(21))
        status, out, err = self.run_hll("merge", "all", "-o", "one.hll", "--json")
        self.assertEqual((status, err), (0, ""))
        told = json.loads(out)
        self.assertEqual((told["lg_k"], told["width"], told["merged"]), (14, 4, 4))

    def test_another_lg_k(self):
        self.lay_out(a=EMPTY, b=FINE, c=FINE, d=COARSE, e=FEW)
        words = "all/d.hll: it has lg_k 4, and all/b.hll has 12: --lg-k 4 merges both"
        self.write("one.hll", b"as it was")
        self.fails(1, [words], "merge", "all", "-o", "one.hll")
        self.fails(1, [words], "merge", "all", "-o", "one.hll", "--skip-bad")
        self.assertEqual(self.read("one.hll"), b"as it was")
        self.succeeds("merge", "all", "-o", "one.hll", "--lg-k", 4)
        self.assertEqual(self.read("one.hll"), union_of([FINE, COARSE, FEW], 4).to_bytes())

    def test_a_bound_above(self):
        """More is asked for than a file has, and the answer says so."""
        self.lay_out(a=FINE, b=sketch(10, 5000))
        err = "hll: merge: the result has lg_k 10, as a file has, and not 12\n"
        told = self.run_hll("merge", "all", "-o", "one.hll", "--lg-k", 12)
        self.assertEqual(told, (0, b"", err))
        self.succeeds("merge", "all", "-o", "one.hll", "--lg-k", 10)

    def test_over_processes(self):
        """More than a group of files, with the odd one in any of them."""
        self.lay_out(fine=FINE, coarse=COARSE, empty=EMPTY)
        for place in (3, 600, 1199):
            order = ["empty"] * 2 + ["fine"] * 1200
            order[place] = "coarse"
            self.write("list", "".join(f"all/{name}.hll\n" for name in order).encode())
            words = "all/coarse.hll: it has lg_k 4, and all/fine.hll has 12: --lg-k 4 merges both"
            for jobs in (1, 3):
                status, _, err = self.run_hll(
                    "merge", "--files-from", "list", "-o", "one.hll", "--jobs", jobs
                )
                self.assertEqual(status, 1)
                self.assertIn("--lg-k 4 merges both\n", err)
                if place == 3:
                    self.assertEqual(err, f"hll: {words}\n")
        self.write("list", "all/fine.hll\nall/empty.hll\n".encode() * 900)
        self.succeeds("merge", "--files-from", "list", "-o", "one.hll", "--jobs", 3)
        self.assertEqual(self.read("one.hll"), FINE.to_bytes())


class MergeFilesTest(CommandTest):
    def merged(self, *words, **more):
        with warnings.catch_warnings(record=True) as caught:
            warnings.simplefilter("always")
            made = merge_files(*words, **more)
        return made, [(one.category, str(one.message)) for one in caught]

    def paths(self, *sketches):
        return [self.write(f"all/{n}.hll", one.to_bytes()) for n, one in enumerate(sketches)]

    def test_as_a_union(self):
        sketches = [sketch(12, count, width) for count in (3, 200, 30_000) for width in (4, 6, 8)]
        paths, wanted = self.paths(*sketches), union_of(sketches, 11, 6)
        for given in (paths, [self.folder / "all"], list(map(bytes, paths)), map(str, paths)):
            self.assertEqual(self.merged(given, 11, 6), (wanted, []))
        self.assertEqual(merge_files(paths, 11, 6, jobs=2), wanted)

    def test_another_lg_k(self):
        paths = self.paths(FINE, COARSE)
        for jobs in (1, 2):
            with self.assertRaises(PrecisionError) as caught:
                merge_files(paths, jobs=jobs)
            error = caught.exception
            self.assertEqual((error.lg_k, error.other_lg_k), (4, 12))
            self.assertEqual(error.place, str(paths[1]))
            self.assertEqual(str(error), f"{paths[1]} has lg_k 4 and not 12: lg_max_k=4 merges them")
        self.assertEqual(self.merged(paths, 12), (FINE.fold(4), []))

    def test_links_that_lead_nowhere(self):
        self.paths(FINE)
        (self.folder / "all" / "gone").symlink_to("nowhere")
        words = f"{self.folder}/all/gone: a link that leads nowhere (passed over)"
        self.assertEqual(self.merged([self.folder / "all"]), (FINE, [(UserWarning, words)]))

    def test_refusals(self):
        paths = self.paths(FINE, FINE)
        bad, gone = self.write("all/bad", CUT), self.folder / "gone"
        wanted = [(str(gone), "No such file or directory"), (str(bad), TRUNCATED)]
        given, seen = [gone, *paths, bad], []
        with self.assertRaises(FilesError) as caught:
            merge_files(given)
        error = caught.exception
        self.assertEqual(sorted(error.refused), sorted(wanted))
        self.assertIn(" (and 1 files more)", str(error))
        self.assertEqual(vars(pickle.loads(pickle.dumps(error))), vars(error))
        made = merge_files(given, on_refused=lambda *one: seen.append(one))
        self.assertEqual((made, sorted(seen)), (FINE, sorted(wanted)))
        for wrong in (str(bad), bad, bytes(bad)):
            with self.assertRaises(TypeError):
                merge_files(wrong)

    def test_a_file_named_like_standard_input(self):
        self.write("-", FINE.to_bytes())
        before = os.getcwd()
        self.addCleanup(os.chdir, before)
        os.chdir(self.folder)
        self.assertEqual(merge_files(["-"]), FINE)
        self.assertEqual(Sketch.read("-"), FINE)


if __name__ == "__main__":
    unittest.main()
