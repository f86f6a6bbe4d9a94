#!/usr/bin/env python3
# SPDX-License-Identifier: Apache-2.0
"""Compares what the program prints for random trees of sketches and for rearranged forms of them.

A tree has sketches made of coupons, unions, folds, and coupons added to any of these. Its other form has the children of
unions shuffled, repeated, and grouped under further unions of the same bound and any width, and some of its parts stored
as their images. Both plans have to print the same bytes.

It also merges many small images: lists and sets whose coupons are random, or all on one path of a table, after a set,
registers or nothing, with images of nothing or of registers between them, in one union or in several. The program has to print what the plain model of plans returns
(tests/plain_plans.py).

The random numbers are the same at each run. Call it with the number of pairs, and with the program's path; without one it
is what the script hll_merge keeps, which is built if need be. For each ten pairs it merges small images once.
"""
import multiprocessing
import pathlib
import random
import subprocess
import sys
from dataclasses import dataclass, replace

sys.dont_write_bytecode = True
from built import built_program
from long_searches import path_coupons, random_coupons as scattered_coupons, unsorted_set
from plain_images import image_line, image_of, list_image, set_image
from plain_plans import answer_of

WIDTHS = (4, 6, 8)
SIZES = (0, 1, 7, 8, 9, 24, 25, 60, 200)
PAIRS = 1000


@dataclass(frozen=True)
class Sketch:
    """A new sketch."""
    lg_k: int
    width: int

    def lines(self):
        return ["new %d %d" % (self.lg_k, self.width)]

    def least_lg_k(self):
        return self.lg_k


@dataclass(frozen=True)
class Stored:
    """The image of a part."""
    image: str
    lg_k: int

    def lines(self):
        return ["image %s" % self.image]

    def least_lg_k(self):
        return self.lg_k


@dataclass(frozen=True)
class Updated:
    """A part with coupons added."""
    part: object
    coupons: tuple

    def lines(self):
        return self.part.lines() + ["coupon %d %d" % coupon for coupon in self.coupons]

    def least_lg_k(self):
        return self.part.least_lg_k()


@dataclass(frozen=True)
class Folded:
    """A part folded."""
    part: object
    lg_k: int

    def lines(self):
        return self.part.lines() + ["fold %d" % self.lg_k]

    def least_lg_k(self):
        return self.lg_k


@dataclass(frozen=True)
class Union:
    """The union of parts."""
    lg_max_k: int
    width: int
    parts: tuple

    def lines(self):
        below = [line for part in self.parts for line in part.lines()]
        return below + ["union %d %d %d" % (len(self.parts), self.lg_max_k, self.width)]

    def least_lg_k(self):
        """At most the `lg_k` of its result."""
        return min([self.lg_max_k] + [part.least_lg_k() for part in self.parts])


def random_coupons(numbers):
    slots = numbers.choice((1 << 5, 1 << 9, 1 << 26))
    return tuple((numbers.randrange(slots), min(63, 1 + int(numbers.expovariate(0.3)))) for _ in range(numbers.choice(SIZES)))


def random_tree(numbers, depth):
    kind = numbers.random()
    if depth == 0 or kind < 0.2:
        return Updated(Sketch(numbers.randint(4, 11), numbers.choice(WIDTHS)), random_coupons(numbers))
    if kind < 0.3:
        part = random_tree(numbers, depth - 1)
        return Folded(part, numbers.randint(4, part.least_lg_k()))
    if kind < 0.4:
        return Updated(random_tree(numbers, depth - 1), random_coupons(numbers)[:9])
    parts = tuple(random_tree(numbers, depth - 1) for _ in range(numbers.randint(1, 4)))
    return Union(numbers.randint(4, 12), numbers.choice(WIDTHS), parts)


def printed(program, tree):
    """What the program prints for a tree, without the LF."""
    text = "\n".join(tree.lines()) + "\n"
    done = subprocess.run([program], input=text.encode("ascii"), capture_output=True)
    if done.returncode != 0:
        raise RuntimeError("refused: %r\n%s" % (done.stderr, text))
    return done.stdout.decode("ascii").strip()


def regrouped(numbers, union, parts):
    """The parts in another order, some of them repeated, and some under further unions of the same bound."""
    parts = parts + [numbers.choice(parts) for _ in range(numbers.randint(0, 2))]
    numbers.shuffle(parts)
    while len(parts) > 1 and numbers.random() < 0.5:
        start = numbers.randrange(len(parts))
        end = numbers.randint(start + 1, len(parts))
        parts[start:end] = [Union(union.lg_max_k, numbers.choice(WIDTHS), tuple(parts[start:end]))]
    return tuple(parts)


def rearranged(program, numbers, tree):
    if isinstance(tree, (Updated, Folded)):
        tree = replace(tree, part=rearranged(program, numbers, tree.part))
    elif isinstance(tree, Union):
        tree = replace(tree, parts=regrouped(numbers, tree, [rearranged(program, numbers, part) for part in tree.parts]))
    if numbers.random() < 0.1:
        return Stored(printed(program, tree), tree.least_lg_k())
    return tree


def difference(task):
    """The two plans of a pair, where they don't print the same."""
    program, seed = task
    numbers = random.Random(seed)
    tree = random_tree(numbers, 3)
    other = rearranged(program, numbers, tree)
    if printed(program, tree) == printed(program, other):
        return None
    return "\n".join(tree.lines()), "\n".join(other.lines())


# ---- many small images


def small_image(numbers, pool):
    """A list of one to eight coupons, or a set of up to 24 in ascending or another order."""
    coupons = numbers.sample(pool, numbers.choice((1, 1, 1, 2, 7, 8, 9, 24)))
    if len(coupons) <= 8:
        return list_image(numbers.randint(4, 21), coupons)
    if numbers.random() < 0.5:
        return set_image(numbers.randint(8, 21), 5, coupons)
    return unsorted_set(5, coupons)


def image_between(numbers):
    """What comes between small images now and then: an image of nothing, or seldom of registers."""
    kind = numbers.random()
    if kind < 0.5:
        return set_image(numbers.randint(8, 21), 5, [])
    lg_k = numbers.randint(4, 10)
    return image_of(lg_k, 8, bytes(1 << lg_k) if kind < 0.95 else bytes(numbers.choice((0, 1, 5)) for _ in range(1 << lg_k)))


def first_images(numbers, pool, lg_size):
    """What the small images are merged after: a set with some of the same coupons, registers, or nothing."""
    kind = numbers.random()
    if kind < 0.6:
        return [unsorted_set(lg_size, numbers.sample(pool, numbers.choice((9, 66, 300, 700))))]
    if kind < 0.8:
        lg_k = numbers.randint(4, 10)
        return [image_of(lg_k, 8, bytes(numbers.choice((0, 0, 1, 5)) for _ in range(1 << lg_k)))]
    return []


def plan_of_small_images(numbers):
    """The lines of a plan: images, and unions of the last of them, the last union over all that is left."""
    lg_size = numbers.choice((10, 14))
    pool = (path_coupons if numbers.random() < 0.7 else scattered_coupons)(lg_size)[:2_000]
    images = first_images(numbers, pool, lg_size)
    for _ in range(numbers.choice((3, 40, 400))):
        images.append(image_between(numbers) if numbers.random() < 0.1 else small_image(numbers, pool))
    if numbers.random() < 0.3:
        numbers.shuffle(images)
    bound = numbers.choice((4, 10, 12, 17, 21))
    lines, waiting = [], 0
    for image in images:
        lines.append(image_line(image))
        waiting += 1
        if numbers.random() < 0.02:
            lines.append("union %d %d %d\n" % (waiting, bound, numbers.choice(WIDTHS)))
            waiting = 1
    return "".join(lines) + "union %d %d %d\n" % (waiting, bound, numbers.choice(WIDTHS))


def wrong_answer(task):
    """The plan of small images, if the program doesn't print what the plain model returns."""
    program, seed = task
    text = plan_of_small_images(random.Random(seed)).encode("ascii")
    done = subprocess.run([program], input=text, capture_output=True)
    answer = answer_of(text)
    if done.returncode == 0 and done.stdout.decode("ascii").strip() == answer:
        return None
    return text.decode("ascii"), "%r\n%r, plainly %s" % (done.stdout[:200], done.stderr, answer[:200])


def compared(compare, program, count, chunk):
    """Runs a comparison for each number below `count`, and stops at the first difference."""
    with multiprocessing.Pool() as pool:
        for found in pool.imap_unordered(compare, ((str(program), seed) for seed in range(count)), chunksize=chunk):
            if found is not None:
                sys.exit("these differ:\n%s\n\n%s" % found)


def main():
    pairs = int(sys.argv[1]) if len(sys.argv) > 1 else PAIRS
    program = pathlib.Path(sys.argv[2]).resolve() if len(sys.argv) > 2 else built_program()
    compared(difference, program, pairs, 50)
    print("%d pairs of plans print the same bytes" % pairs)
    compared(wrong_answer, program, pairs // 10, 1)
    print("%d unions of small images are those of the plain model" % (pairs // 10))


if __name__ == "__main__":
    main()
