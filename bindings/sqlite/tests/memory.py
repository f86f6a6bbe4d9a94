# SPDX-License-Identifier: Apache-2.0
"""Want of memory: SQLite's own limit, and each request refused in turn (refusals.c)."""
import os
import re
import subprocess
import sys

from base import EXTENSION, FOLDER
from report import check, comparisons, equal

LIMITED = """
import sqlite3, sys
sys.path.insert(0, %r)
from base import connect
db = connect()
db.execute("PRAGMA hard_heap_limit = %d").fetchall()
try:
    print(len(db.execute(%r).fetchone()[0]))
except MemoryError:
    print("memory")
"""
LARGE = """WITH RECURSIVE n (i) AS (SELECT 1 UNION ALL SELECT i + 1 FROM n WHERE i < 400000)
SELECT hll_image_add_agg(i, 21) FROM n"""


def limits():
    """A limit of SQLite's counts what a group has: at lg_k 21 2^21 bytes, half as many again while coupons become
    registers, and its image as much again."""
    whole = str(2**21 + 40)
    for limit, wanted in ((2**20, "memory"), (3 * 2**20, "memory"), (2**22 + 2**19, whole), (2**24, whole)):
        code = LIMITED % (str(FOLDER / "tests"), limit, LARGE)
        done = subprocess.run([sys.executable, "-B", "-c", code], env=dict(os.environ, PYTHONPATH=os.pathsep.join(sys.path)),
                              stdout=subprocess.PIPE, stderr=subprocess.STDOUT, text=True)
        equal("a limit of %d bytes" % limit, done.stdout.strip(), wanted)


def refusals():
    program = FOLDER / "build" / "refusals"
    built = subprocess.run([os.environ.get("CC", "cc"), "-std=c11", "-O1", "-Wall", "-Wextra", "-Werror", "-o", program,
                            FOLDER / "tests" / "refusals.c", "-lsqlite3", "-ldl"], stdout=subprocess.PIPE,
                           stderr=subprocess.STDOUT, text=True)
    check("refusals.c compiles", built.returncode == 0, built.stdout)
    done = subprocess.run([program, EXTENSION], stdout=subprocess.PIPE, stderr=subprocess.STDOUT, text=True)
    said = re.fullmatch(r"(.*)^(\d+) passed, (\d+) failed\n", done.stdout, re.S | re.M)
    check("refusals end with their counts", said is not None, done.stdout)
    if said is not None:
        comparisons.passed += int(said[2])
        comparisons.failed += int(said[3])
        check("refusals are many", int(said[2]) > 500, said[2])
        print(said[1], end="")
