#!/usr/bin/env python3
# SPDX-License-Identifier: Apache-2.0
"""Finds code that stands twice in the crates: runs of lines that are equal but for names and numbers.

    scripts/twins.py              prints all pairs of places, the longest first
    scripts/twins.py check        prints the pairs that are not in the list, and the lines of the list that are no pair any more
    scripts/twins.py write        writes the list again, from the pairs that are there

A run has at least six lines, in .rt files of src/ and .antt files of specs/ and proofs/. Comments, imports, contracts' clauses
and lines without a name don't count: the lines before and after them are next to each other. A place is a file with the
function, lemma or type in which the run begins. The list of pairs that are meant is surface/lists/twins.txt. Take a pair out
when its code is shared; `check` fails while the list names a pair that is gone. It also fails if the list has more pairs than its
line "# At most N pairs" allows: the number at the last release. The last line is 'N passed, M failed'.
"""
import collections
import itertools
import pathlib
import re
import sys

ROOT = pathlib.Path(__file__).resolve().parent.parent
LIST = pathlib.Path("surface", "lists", "twins.txt")
LEAST, DIFFERENT = 6, 4
"""The fewest lines of a run, and how many of its first lines differ in more than names: a table of alike rows is no code that
stands twice."""

FOLDERS = {".rt": ("src",), ".antt": ("specs", "proofs")}
KEPT = re.compile(r"\b(?:fn|let|mut|if|else|match|for|while|loop|return|break|continue|where|in|impl|struct|enum|record|data)\b")
NAME = re.compile(r"[\w'-]*[^\W\d][\w'-]*|\d[\w.]*")
LEFT_OUT = re.compile(r"^\s*(?:$|//|--|use\b|ghost\b|pub use\b|(?:pub )?mod\b|requires\b|ensures\b|invariant\b|#!?\[)")
RATTLE_ITEM = re.compile(r"^\s*(?:pub(?:\([\w ]+\))? )?(?:const |unsafe )*(?:fn|struct|enum|trait|impl)\b[^{(;]*")
LEMMA = re.compile(r"^(?:pub )?(?:record |data |abbrev )?([^\s:(]+)(?: [^:=]*)? [:=]")
Line = collections.namedtuple("Line", "shape number item")


def shape_of(line):
    """A line with `x` for each name that is no keyword, and `0` for each number."""
    def put(found):
        word = found[0]
        return word if KEPT.fullmatch(word) else "0" if word[0].isdigit() else "x"
    return NAME.sub(put, re.sub(r"\s+", " ", re.sub(r"\s(?://|--).*", "", line)).strip())


def item_in(line, is_rattle):
    """The name of the item that a line begins, if it begins one."""
    if is_rattle:
        found = RATTLE_ITEM.match(line)
        return re.sub(r"^(?:pub\S* |const |unsafe )*", "", found[0].strip()).split("<")[0].strip() if found else None
    found = LEMMA.match(line)
    return found[1] if found and line[0] not in " }" else None


def lines_of(path):
    """The lines of a file that count."""
    item = "the file"
    for number, line in enumerate(path.read_text("utf-8").splitlines(), 1):
        item = item_in(line, path.suffix == ".rt") or item
        shape = "" if LEFT_OUT.match(line) else shape_of(line)
        if re.search(r"\bx\b", shape) and shape not in ("x", "x,", "x;"):
            yield Line(shape, number, item)


def files(root):
    for suffix, folders in FOLDERS.items():
        for folder in folders:
            yield from sorted(root.glob("crates/*/%s/**/*%s" % (folder, suffix)))


def runs_in(texts):
    """Pairs of runs, each as two files with the indices at which they begin, and their length."""
    windows = collections.defaultdict(list)
    for name, lines in texts.items():
        shapes = [line.shape for line in lines]
        for at in range(len(shapes) - LEAST + 1):
            window = tuple(shapes[at : at + LEAST])
            if len(set(window)) >= DIFFERENT:
                windows[window].append((name, at))
    seen = set()
    for places in windows.values():
        for (first, at), (second, there) in itertools.combinations(places, 2):
            if first == second and there - at < LEAST or (first, at, second, there) in seen:
                continue
            length = LEAST
            one, two = texts[first], texts[second]
            most = min(len(one) - at, len(two) - there, there - at if first == second else len(one))
            while length < most and one[at + length].shape == two[there + length].shape:
                length += 1
            if at and there and one[at - 1].shape == two[there - 1].shape and (first != second or there - at > length):
                continue        # a longer run has this one
            seen.update((first, at + n, second, there + n) for n in range(length - LEAST + 1))
            yield first, at, second, there, length


def pairs_of(root):
    """The pairs of places, each with the lines of its runs."""
    texts = {str(path.relative_to(root)): list(lines_of(path)) for path in files(root)}
    pairs = collections.defaultdict(list)
    for first, at, second, there, length in runs_in(texts):
        one, two = texts[first][at], texts[second][there]
        key = tuple(sorted(("%s %s" % (first, one.item), "%s %s" % (second, two.item))))
        pairs[key].append((one.number, two.number, length))
    return pairs


def lines_of_list(path):
    """The lines of a list, none if it is not there."""
    return path.read_text("utf-8").splitlines() if path.exists() else []


def listed(path):
    """The pairs of a list."""
    return {tuple(line.split(" = ")) for line in lines_of_list(path) if line and not line.startswith("#")}


def faults_of_length(path):
    """What is wrong with the number of pairs of a list."""
    allowed = re.findall(r"^# At most (\d+) pairs", "\n".join(lines_of_list(path)), re.M)
    if len(allowed) != 1:
        yield "%s has no line '# At most N pairs', or two" % LIST
    elif len(listed(path)) > int(allowed[0]):
        yield "%s has %d pairs, and may have %s: share code" % (LIST, len(listed(path)), allowed[0])


def main(words):
    pairs, path = pairs_of(ROOT), ROOT / LIST
    meant = listed(path)
    if words == ["write"]:
        head = [line for line in lines_of_list(path) if line.startswith("#")]
        path.write_text("\n".join([*head, *(" = ".join(pair) for pair in sorted(pairs))]) + "\n", "utf-8")
        return 0
    is_check = words == ["check"]
    new = [pair for pair in pairs if pair not in meant] if is_check else list(pairs)
    for pair in sorted(new, key=lambda pair: (-sum(length for *_, length in pairs[pair]), pair)):
        lines = ", ".join("%d and %d: %d lines" % run for run in pairs[pair])
        print("%s%s = %s (%s)" % ("FAIL: a twin: " if is_check else "", *pair, lines))
    gone = sorted(meant - set(pairs)) if is_check else []
    for pair in gone:
        print("FAIL: no pair any more, so take it out of %s: %s" % (LIST, " = ".join(pair)))
    wrong = list(faults_of_length(path)) if is_check else []
    for fault in wrong:
        print("FAIL: " + fault)
    failed = len(gone) + len(wrong) + (len(new) if is_check else 0)
    print("%d passed, %d failed" % (len(pairs) - (len(new) if is_check else 0), failed))
    return failed != 0


if __name__ == "__main__":
    sys.exit(main(sys.argv[1:]))
