#!/usr/bin/env python3
# SPDX-License-Identifier: Apache-2.0
"""Counts a month of logs by key, and prints the CPU time of each way; then what one line costs in a large database.

    bench/month.py [FOLDER]     FOLDER keeps the log, which is made if it isn't there: 7,500,000 lines, 170 MB

The log has 30 days of 24 hours and 50 pages. A line is an hour, a page and a visitor. A page has 300 to 121,000 visitors in the month. So
there are 36,000 keys. `hll add --db` is compared with a loop in Python over `update_many` by key, which reads the lines of an hour, groups
them by key, and counts each group. Both have to make the same sketches. The large database has a million keys of one value.
"""
import os
import pathlib
import random
import resource
import subprocess
import sys
import tempfile
import time

ROOT = pathlib.Path(__file__).resolve().parent.parent
sys.path.insert(0, str(ROOT / "bindings" / "python"))
LINES, DAYS, PAGES, ROUNDS, MANY = 7_500_000, 30, 50, 3, 1_000_000

LOOP = """
import sys
from collections import defaultdict
from hll_sketches import Database, Sketch

sketches = defaultdict(Sketch)
values, hour = defaultdict(list), None

def count():
    for key, some in values.items():
        sketches[key].update_many(some)
    values.clear()

with open(sys.argv[1], "rb") as lines:
    for line in lines:
        *key, value = line.rstrip(b"\\n").split(b"\\t")
        if key[0] != hour:
            count()
            hour = key[0]
        values[tuple(key)].append(value)
count()
with Database(sys.argv[2], ["hour", "page"]) as database:
    database.update(sketches.items())
"""


def make_log(path):
    """Writes the month's log, in the order of its hours."""
    numbers = random.Random(20261128)
    visitors = [int(300 * (121_000 / 300) ** (page / (PAGES - 1))) for page in range(PAGES)]
    weights = [count ** 0.7 for count in visitors]
    each = LINES // (DAYS * 24)
    with open(path, "w") as log:
        for hour in range(DAYS * 24):
            name = "2026-11-%02dT%02d" % (hour // 24 + 1, hour % 24)
            pages = numbers.choices(range(PAGES), weights, k=each)
            log.writelines("%s\t/page%02d\tvisitor %d of %d\n" % (name, page, int(visitors[page] * numbers.random()), page)
                           for page in pages)


def times_of(words, **more):
    """The processor time and the time of a command, in seconds."""
    before, begun = resource.getrusage(resource.RUSAGE_CHILDREN), time.monotonic()
    subprocess.run(words, check=True, env=dict(os.environ, PYTHONPATH=str(ROOT / "bindings" / "python")), **more)
    after, taken = resource.getrusage(resource.RUSAGE_CHILDREN), time.monotonic() - begun
    return after.ru_utime + after.ru_stime - before.ru_utime - before.ru_stime, taken


def dumped(command, path):
    return subprocess.run([*command, "dump", str(path)], check=True, stdout=subprocess.PIPE,
                          env=dict(os.environ, PYTHONPATH=str(ROOT / "bindings" / "python"))).stdout


def put(name, times):
    """Prints the median of times."""
    cpu, taken = (sorted(one)[len(times) // 2] for one in zip(*times))
    print("%-28s %6.2f s of CPU time, %6.2f s" % (name, cpu, taken))


def large(command, folder):
    """A database of a million keys of one value: made, one line added, one key read, and all merged by day."""
    path, lines = str(folder / "large.db"), folder / "large.tsv"
    lines.write_text("".join("2026-11-%02d\t/page%06d\tvisitor %d\n" % (n % 30 + 1, n, n % 50_000) for n in range(MANY)))
    columns = ["add", "--db", path, "--key", "day=1,page=2", "--value", "3"]
    put("a million keys", [times_of([*command, *columns, str(lines)])])
    (folder / "one.tsv").write_text("2026-11-28\t/page777777\tanother\n")
    put("one line more", [times_of([*command, *columns, str(folder / "one.tsv")]) for _ in range(ROUNDS)])
    put("no line", [times_of([*command, *columns, os.devnull]) for _ in range(ROUNDS)])
    where = "day = '2026-11-28' AND page = '/page777777'"
    put("one key", [times_of([*command, "get", path, "--where", where, "-o", str(folder / "one.hll")]) for _ in range(ROUNDS)])
    put("by day", [times_of([*command, "estimate", path, "--by", "day"], stdout=subprocess.DEVNULL) for _ in range(ROUNDS)])


def main():
    with tempfile.TemporaryDirectory() as room:
        folder = pathlib.Path(sys.argv[1] if len(sys.argv) > 1 else room)
        log, made = folder / "month.log", pathlib.Path(room)
        if not log.exists():
            make_log(log)
        command = [sys.executable, "-m", "hll_sketches"]
        columns = ["--key", "hour=1,page=2", "--value", "3"]
        ways = {
            "a loop, and Database": lambda n: times_of([sys.executable, "-c", LOOP, str(log), str(made / ("loop%d" % n))]),
            "hll add --db": lambda n: times_of([*command, "add", "--db", str(made / ("add%d" % n)), *columns, str(log)]),
        }
        for name, call in ways.items():
            put(name, [call(number) for number in range(ROUNDS)])
        print("both are the same" if dumped(command, made / "loop0") == dumped(command, made / "add0") else "THEY DIFFER")
        large(command, made)


if __name__ == "__main__":
    main()
