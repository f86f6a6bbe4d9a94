#!/usr/bin/env python3
# SPDX-License-Identifier: Apache-2.0
"""Counts what a line costs in `hll add`: instructions, as callgrind counts them, and lines a second of CPU time.

    bench/lines.py [--lines N]

The lines are of a log with a day, a page and a visitor, of which there are 20,832 pairs of day and page, or of the visitors alone. They are split
and counted by the module in C, and without it in Python. Prints the table for docs/NUMBERS.md, "Unions". Needs valgrind, `make`, and
some minutes.
"""
import argparse
import os
import pathlib
import random
import re
import resource
import statistics
import subprocess
import sys
import tempfile

ROOT = pathlib.Path(__file__).resolve().parent.parent
CALLGRIND = ["valgrind", "--tool=callgrind", "--callgrind-out-file=/dev/null"]
WAYS = [{}, {"HLL_SKETCHES_LINES": ""}]
"""What is in the environment: for the module in C, and for Python."""

WORKS = [
    ("whole lines", "visitors", ["--create", "@"]),
    ("a column of three", "log", ["--create", "@", "--value", "3"]),
    ("a column of three, by key", "log", ["--db", "@", "--key", "day=1,page=2", "--value", "3"]),
]
"""A name, the lines, and the words of `hll add`, in which @ is a file that isn't there."""

MORE = 10
RUNS = 5


def write_lines(folder, count):
    """Writes files of so many lines: visitors, and a log."""
    numbers = random.Random(1)
    rows = [("2026-10-%02d" % numbers.randrange(1, 32), "/page%d" % numbers.randrange(672), "visitor%d" % numbers.randrange(333_333)) for _ in range(count)]
    texts = {
        "visitors": "".join(visitor + "\n" for _, _, visitor in rows),
        "log": "".join("\t".join(row) + "\n" for row in rows),
    }
    for name, text in texts.items():
        (folder / f"{name}{count}").write_text(text)


def run(path, words, more, before=()):
    """Runs `hll add`. Returns what is written to standard error."""
    made = path.with_suffix(".made")
    made.unlink(missing_ok=True)
    command = [*before, sys.executable, "-B", "-m", "hll_sketches", "add", *(str(made) if word == "@" else word for word in words), str(path)]
    environment = {**os.environ, "PYTHONPATH": str(ROOT / "bindings" / "python"), "PYTHONHASHSEED": "0", **more}
    return subprocess.run(command, env=environment, stderr=subprocess.PIPE, text=True, check=True).stderr


def instructions(folder, name, words, more, count):
    """The instructions for a line, without those of a run over one line."""
    many, one = (int(re.search(r"Collected : (\d+)", run(folder / f"{name}{lines}", words, more, CALLGRIND))[1]) for lines in (count, 1))
    return (many - one) / (count - 1)


def seconds(path, words, more):
    """The seconds of CPU time of a run: the median of several."""
    times = []
    for _ in range(RUNS):
        before = resource.getrusage(resource.RUSAGE_CHILDREN)
        run(path, words, more)
        after = resource.getrusage(resource.RUSAGE_CHILDREN)
        times.append(after.ru_utime + after.ru_stime - before.ru_utime - before.ru_stime)
    return statistics.median(times)


def main():
    parser = argparse.ArgumentParser(description=__doc__.splitlines()[0])
    parser.add_argument("--lines", type=int, default=200_000)
    count = parser.parse_args().lines
    print("| `hll add` of | instructions a line in C | in Python | lines a second in C | in Python |\n|---|---|---|---|---|")
    with tempfile.TemporaryDirectory() as folder:
        folder = pathlib.Path(folder)
        for lines in (1, count, MORE * count):
            write_lines(folder, lines)
        for title, name, words in WORKS:
            each = [format(round(instructions(folder, name, words, more, count)), ",") for more in WAYS]
            rates = [format(round(MORE * count / seconds(folder / f"{name}{MORE * count}", words, more), -4), ",.0f") for more in WAYS]
            print("| %s |" % " | ".join([title, *each, *rates]), flush=True)
    return 0


if __name__ == "__main__":
    sys.exit(main())
