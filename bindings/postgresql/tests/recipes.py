# SPDX-License-Identifier: Apache-2.0
"""The SQL of docs/RECIPES.md, pasted into one psql, and what the page says of it."""
import os
import pathlib
import re
import subprocess
import sys
import tempfile

from report import CHECKED, DATA, check, equal, refused, skip
from server import HERE

PAGE = HERE.parent.parent / "docs" / "RECIPES.md"
# Sections whose blocks need another extension, with its package.
NEEDS = {"postgresql-hll": ("hll", "postgresql-%s-hll"), "PostgreSQL, by `postgres_fdw`": ("postgres_fdw", "postgresql-%s")}
# Stands for the type of Apache's extension: bytes under another name. Its table has a sketch of three values, of four bits.
STAND_IN = """SET client_min_messages = warning;
    CREATE TYPE hll_sketch;
    CREATE FUNCTION sketch_in(cstring) RETURNS hll_sketch IMMUTABLE STRICT LANGUAGE internal AS 'byteain';
    CREATE FUNCTION sketch_out(hll_sketch) RETURNS cstring IMMUTABLE STRICT LANGUAGE internal AS 'byteaout';
    CREATE TYPE hll_sketch (INPUT = sketch_in, OUTPUT = sketch_out, STORAGE = external);
    CREATE CAST (bytea AS hll_sketch) WITHOUT FUNCTION AS ASSIGNMENT;
    CREATE CAST (hll_sketch AS bytea) WITHOUT FUNCTION AS ASSIGNMENT;
    CREATE TABLE datasketches_daily (day date, sketch hll_sketch);
    INSERT INTO datasketches_daily VALUES ('2026-11-01', '%s')"""


def sections(server):
    """The text of the page, without the sections that need what isn't here."""
    for section in re.split(r"^(?=##)", PAGE.read_text(), flags=re.M):
        needed = NEEDS.get(section.split("\n")[0].lstrip("# "))
        if needed is None or server.has_extension(*needed):
            yield section
        else:
            skip("the recipes of %s" % needed[0], "it is not here")


def recipes(server):
    """The blocks print the lines that stand after `-->`, and no others, so none fails; then what the page says of them."""
    text = "".join(sections(server))
    blocks = re.findall(r"^```sql\n(.*?)^```$", text, re.S | re.M)
    check("recipes have queries", len(blocks) >= 6, len(blocks))
    server.ask("CREATE DATABASE visits")
    server.ask(STAND_IN % server.ask("SELECT hll_image_add_agg('visitor ' || n, 12, 4) FROM generate_series(1, 3) n"), "visits")
    with tempfile.TemporaryDirectory() as folder:
        rows_for_copy(folder)
        said = server.run("".join(blocks), "visits", folder).split("\n")
        equal("recipes print what they show", said, re.findall(r"^--> (.*)$", "".join(blocks), re.M))
        files_of_copy(folder)
    months(server)
    cron(server, text)
    windows(server)
    changed_lg_k(server)
    others(server)
    if "CREATE FOREIGN TABLE" in text:
        shards(server)


def questions(server):
    """The blocks of docs/QUESTIONS.md print what the page shows."""
    blocks = "".join(re.findall(r"^```sql\n(.*?)^```$", PAGE.with_name("QUESTIONS.md").read_text(), re.S | re.M))
    server.ask("CREATE DATABASE questions")
    server.ask("CREATE EXTENSION hll_sketches", "questions")
    equal("questions print what they show", server.run(blocks, "questions").split("\n"), re.findall(r"^--> (.*)$", blocks, re.M))


def run_python(folder, *marks):
    """Runs the blocks in Python of the page that have one of these texts."""
    blocks = re.findall(r"^```python\n(.*?)^```$", PAGE.read_text(), re.S | re.M)
    chosen = [code for code in blocks if any(mark in code for mark in marks)]
    equal("blocks in Python", len(chosen), len(marks))
    environment = dict(os.environ, PYTHONPATH=str(HERE.parent / "python"))
    done = subprocess.run([sys.executable, "-B", "-c", "".join(chosen)], cwd=folder, env=environment, stdout=subprocess.PIPE,
                          stderr=subprocess.STDOUT, text=True)
    equal("a block in Python", (done.returncode, done.stdout), (0, ""))


def rows_for_copy(folder):
    """The file that psql loads, of files of sketches."""
    run_python(folder, 'Path(f"days/{day', 'open("daily.tsv", "w")')


def files_of_copy(folder):
    """Files again, of what psql has written: they are the same."""
    run_python(folder, 'open("daily.tsv") as rows')
    place = pathlib.Path(folder)
    before = {"%s-%s" % (path.parent.name, path.name): path.read_bytes() for path in place.glob("days/*/*.hll")}
    equal("files, a table and files", {path.name: path.read_bytes() for path in place.glob("from_table/*")}, before)
    equal("many files", len(before), 40)


def counted(server, month):
    return server.ask("SELECT round(# image) FROM monthly WHERE month = '%s'" % month, "visits")


def months(server):
    """A month is the union of its days, with those that were deleted since."""
    agree = """SELECT month, hll_agree(monthly.image, hyperloglog_union_agg(daily.image, 14))
        FROM monthly JOIN daily ON month = date_trunc('month', day) GROUP BY month ORDER BY 1"""
    equal("months are the unions of their days", server.ask(agree, "visits"), "2026-10-01|t\n2026-11-01|t\n2026-12-01|t")
    equal("nothing is left", server.ask("SELECT count(*) FROM arrived", "visits"), "0")
    server.ask("DELETE FROM daily WHERE day = '2026-10-24'; INSERT INTO arrived VALUES ('2026-10-25', 'visitor 30')", "visits")
    server.ask("CALL refresh_visitors()", "visits")
    equal("a month counts a deleted day", counted(server, "2026-10-01"), "100")


def cron(server, text):
    """The line for cron moves the rows that arrived, and twice is as good as once."""
    line = re.findall(r"^```crontab\n(.*?)\n```$", text, re.S | re.M)[0]
    times, command = re.fullmatch(r"((?:[\d*/,-]+ ){5})(.*)", line).groups()
    check("cron runs psql", command.startswith("psql ") and "%" not in command, command)
    environment = dict(server.environment, PATH=os.pathsep.join([str(server.bin), os.environ["PATH"]]))
    server.ask("INSERT INTO arrived VALUES ('2026-10-22', 'by cron')", "visits")
    for _ in range(2):
        done = subprocess.run(["sh", "-c", command], env=environment, stdout=subprocess.PIPE, stderr=subprocess.STDOUT, text=True)
        equal("the line for cron", (done.returncode, done.stdout, counted(server, "2026-10-01")), (0, "", "101"))


def windows(server):
    """ROWS counts the days that have rows, and RANGE the days of the calendar."""
    moving = """SELECT visitors FROM (SELECT day, round(# (hyperloglog_union_agg(image, 14) OVER (ORDER BY day %s PRECEDING))) AS visitors
        FROM daily) x WHERE day = '2026-11-29'"""
    equal("thirty days of the calendar", server.ask(moving % "RANGE '29 days'", "visits"), "290")
    equal("thirty rows", server.ask(moving % "ROWS 29", "visits"), "300")
    today = "SELECT count(*) FROM generate_series(CURRENT_DATE - 40, CURRENT_DATE, '1 day') day WHERE day > CURRENT_DATE - 30"
    equal("today's thirty days", server.ask(today), "30")


def changed_lg_k(server):
    """Without a bound a merge over the change fails, and names both."""
    said = server.run("SELECT hyperloglog_union_agg(image) FROM daily WHERE day >= '2026-11-30' AND day <= '2026-12-01';", "visits")
    refused("no bound", said, DATA, "sketches of lg_k 1")
    check("both are named", "12" in said and "14" in said, said)
    server.ask("UPDATE daily SET image = hll_fold(image, 12) WHERE lg_k > 12", "visits")
    equal("folded", server.ask("SELECT DISTINCT lg_k FROM daily", "visits"), "12")


def others(server):
    """A column rejects what the function gives a reason for; and sketches go back to the other type."""
    said = server.run("CREATE TABLE received (name text, image bytea CHECK (why_rejected(image) IS NULL)); "
                      "INSERT INTO received SELECT * FROM inbox WHERE name = 'good'; INSERT INTO received VALUES ('none', NULL);", "visits")
    refused("no image is inserted", said, CHECKED)
    for name in ("cut", "long", "other lg_k"):
        refused("not inserted: " + name, server.run("INSERT INTO received SELECT * FROM inbox WHERE name = '%s';" % name, "visits"), CHECKED)
    equal("inserted", server.ask("SELECT string_agg(name, ',') FROM received", "visits"), "good")
    back = "SELECT hll_agree(carried_over.image, (carried_over.image::bytea::hll_sketch)::bytea) FROM carried_over"
    equal("back to the other type", server.ask(back, "visits"), "t")


def shards(server):
    """Each shard makes its unions, and all at the same time; PostgreSQL sends no date_trunc."""
    plan = server.ask("EXPLAIN (VERBOSE, COSTS OFF) SELECT day, hyperloglog_union_agg(image) FROM daily_of_shards GROUP BY day", "visits")
    sent = re.findall("Remote SQL: (.*)", plan)
    equal("shards make unions", sent, ["SELECT day, public.hyperloglog_union_agg(image) FROM public.daily GROUP BY 1"] * 2)
    equal("shards work at the same time", plan.count("Async Foreign Scan"), 2)
    plan = server.ask("EXPLAIN (VERBOSE, COSTS OFF) SELECT date_trunc('month', day), hyperloglog_union_agg(image) FROM daily_1 GROUP BY 1", "visits")
    equal("date_trunc is not sent", re.findall("Remote SQL: (.*)", plan), ["SELECT day, image FROM public.daily"])
