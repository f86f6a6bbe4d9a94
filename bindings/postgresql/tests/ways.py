# SPDX-License-Identifier: Apache-2.0
"""A day of logs, counted by hour and page and merged by page in the shell, in Python, in PostgreSQL and in SQLite: all sketches have the
same bytes."""
import collections
import functools
import os
import pathlib
import random
import shutil
import subprocess
import sys
import tempfile

from report import SEED, check, equal, skip
from server import HERE

HOURS, PAGES = 24, 10
PACKAGE = HERE.parent / "python"
EXTENSION = HERE.parent / "sqlite" / "build" / "hll_sketches"


def lines():
    """The columns of each line: an hour, a page and a visitor. Pages have 3 to 30,000 visitors in the day."""
    numbers = random.Random(SEED + 91)
    for hour in range(HOURS):
        for page in range(PAGES):
            visitors = int(3 * 10 ** (4 * page / (PAGES - 1)))
            for _ in range(numbers.randint(0, visitors // 6 + 2)):
                yield "2026-11-01T%02d" % hour, "/p%d \u00e9" % page, "visitor %d of %d" % (numbers.randrange(visitors), page)


def by_shell(folder, log):
    """A database of hours and pages, whose days `hll get` merges; and a database for each hour, merged key by key."""
    hll = functools.partial(subprocess.run, cwd=folder, env=dict(os.environ, PYTHONPATH=str(PACKAGE)), check=True)
    command = [sys.executable, "-m", "hll_sketches"]
    lines = "".join("%s\t%s\t%s\n" % line for line in log).encode()
    hll([*command, "add", "--db", "hours.db", "--key", "hour=1,page=2", "--value", "3"], input=lines)
    sys.path.insert(0, str(PACKAGE))
    from hll_sketches import Database
    with Database(folder / "hours.db") as database:
        hours = {key: sketch.to_bytes() for key, sketch in database.items()}
    days = {}
    for page in {page for _, page in hours}:
        hll([*command, "get", "hours.db", "--where", "page = '%s'" % page, "-o", "day.hll"])
        days[page] = (folder / "day.hll").read_bytes()
    names = []
    for hour in sorted({hour for hour, _, _ in log}):
        names.append(hour + ".db")
        of_hour = "".join("%s\t%s\n" % (page, visitor) for one, page, visitor in log if one == hour)
        hll([*command, "add", "--db", names[-1], "--key", "page=1", "--value", "2"], input=of_hour.encode())
    hll([*command, "merge", *names, "-o", "day.db"])
    with Database(folder / "day.db") as database:
        equal("databases of hours, merged key by key", {page: sketch.to_bytes() for (page,), sketch in database.items()}, days)
    return hours, days


def by_python(log):
    sys.path.insert(0, str(PACKAGE))
    from hll_sketches import Sketch, union_of
    values, pages = collections.defaultdict(list), collections.defaultdict(list)
    for hour, page, visitor in log:
        values[hour, page].append(visitor)
    hours = {}
    for (hour, page), some in values.items():
        hours[hour, page] = Sketch()
        hours[hour, page].update_many(some)
        pages[page].append(hours[hour, page])
    return {key: sketch.to_bytes() for key, sketch in hours.items()}, {page: union_of(some).to_bytes() for page, some in pages.items()}


def images_in(rows):
    """What rows of an hour, a page and an image say, and rows of a page and an image; the images are hexadecimal digits."""
    split = [row.split("|") for row in rows.split("\n")]
    hours = {(hour, page): bytes.fromhex(image) for hour, page, image in (row for row in split if len(row) == 3)}
    return hours, {page: bytes.fromhex(image) for page, image in (row for row in split if len(row) == 2)}


def by_postgresql(server, log):
    server.ask("CREATE TABLE day_log (hour text, page text, visitor text)")
    path = server.file("day")
    path.write_text("".join("%s\t%s\t%s\n" % line for line in log))
    return images_in(server.ask("""COPY day_log FROM '%s';
        CREATE TABLE day_hours AS SELECT hour, page, hyperloglog_agg(visitor) AS image FROM day_log GROUP BY hour, page;
        SELECT hour, page, encode(image::bytea, 'hex') FROM day_hours;
        SELECT page, encode(hyperloglog_union_agg(image)::bytea, 'hex') FROM day_hours GROUP BY page;
        DROP TABLE day_log, day_hours""" % path))


def by_sqlite(folder, log):
    (folder / "log").write_text("".join("%s\t%s\t%s\n" % line for line in log))
    asked = """.load %s
CREATE TABLE day_log (hour TEXT, page TEXT, visitor TEXT);
.mode tabs
.import %s day_log
.mode list
CREATE TABLE day_hours AS SELECT hour, page, hll_add_agg(visitor) AS image FROM day_log GROUP BY hour, page;
SELECT hour, page, hex(image) FROM day_hours;
SELECT page, hex(hll_union_agg(image)) FROM day_hours GROUP BY page;
""" % (EXTENSION, folder / "log")
    done = subprocess.run(["sqlite3", "-batch"], input=asked, stdout=subprocess.PIPE, stderr=subprocess.STDOUT, text=True)
    return images_in(done.stdout.strip())


def four_ways(server):
    log = list(lines())
    hours, days = by_postgresql(server, log)
    check("a day of hours and pages", 200 < len(hours) <= HOURS * PAGES and len(days) == PAGES, (len(hours), len(days)))
    check("of each stage", {image[7] & 3 for image in hours.values()} == {0, 1, 2}, "")
    with tempfile.TemporaryDirectory() as name:
        folder = pathlib.Path(name)
        equal("the shell", by_shell(folder, log), (hours, days))
        equal("Python", by_python(log), (hours, days))
        if shutil.which("sqlite3") and EXTENSION.with_suffix(".so").exists():
            equal("SQLite", by_sqlite(folder, log), (hours, days))
        else:
            skip("a day in SQLite", "the command sqlite3, or its extension, is not here")
