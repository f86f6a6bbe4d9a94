# SPDX-License-Identifier: Apache-2.0
"""Bytes of strangers, schemas of strangers, and queries that are interrupted."""
import threading
import time

from base import FINDING, ask, connect, said_by
from images import image_of_values, length_of
from mutants import KINDS, Mutants
from plain_reader import answer
from report import SEED, check, equal

MUTANTS = 400       # of each kind


def mutants():
    """Mutated images are answered as the plain reader answers them, and refused alike by all calls."""
    for number, kind in enumerate(KINDS):
        made = Mutants(kind, SEED + number)
        for _ in range(MUTANTS):
            image = made.image()
            word, _ = answer(image)
            if word == "accepted" and length_of(image) < len(image):
                word = "trailing"
            equal("a mutant", ask("SELECT hll_fault(?)", image), None if word == "accepted" else word)
            equal("whether a mutant is an image", ask("SELECT hll_is_image(?)", image), word == "accepted")
            if word == "trailing":
                equal("the image of a mutant", ask("SELECT hll_first_image(?)", image), image[:length_of(image)])
            for call in ("hll_convert(?, 4)", "hll_estimate(?)", "hll_image_union_agg(?)", "hll_info(?)", "hll_add(?, 7)"):
                said = said_by("SELECT " + call, image)
                ends = {"accepted": said == "", "trailing": " it (hll_merge merges" in said}
                check("%s of a mutant" % call, ends.get(word, said.endswith(": %s (%s)" % (word, FINDING))), (said, word))


def interrupts():
    """`sqlite3_interrupt` is heard between rows, by aggregates and by functions."""
    other = connect()
    endless = "WITH RECURSIVE n (i) AS (SELECT 1 UNION ALL SELECT i + 1 FROM n) SELECT %s FROM n"
    for call in ("hll_image_add_agg(i)", "hll_count_distinct(i)", "hll_image_union_agg(hll_image_empty(4 + i % 18))",
                 "max(hll_estimate(hll_image_empty(4 + i % 18)))"):
        timer = threading.Timer(0.3, other.interrupt)
        timer.start()
        started = time.monotonic()
        said = said_by(endless % call, on=other)
        check("an interrupt of " + call, said == "interrupted" and time.monotonic() - started < 10, said)
        timer.join()
    equal("after interrupts", ask("SELECT hll_image_add_agg('a')", on=other), image_of_values(12, 8, [b"a"]))
    other.close()


def schemas():
    """Functions serve constraints, indexes, views, generated columns and triggers, also where the schema is not trusted."""
    other = connect()
    other.execute("PRAGMA trusted_schema = OFF")
    other.execute("CREATE TABLE days (day PRIMARY KEY, image BLOB NOT NULL CHECK (hll_fault(image) IS NULL))")
    other.execute("CREATE INDEX estimates ON days (hll_estimate(image))")
    other.execute("CREATE VIEW month AS SELECT hll_image_union_agg(image) AS image FROM days")
    other.execute("CREATE TABLE whole (image BLOB, about REAL AS (round(hll_estimate(image))) STORED)")
    other.execute("INSERT INTO whole VALUES (hll_image_empty())")
    other.execute("CREATE TABLE late (visitor TEXT)")
    other.execute("CREATE TRIGGER add_late AFTER INSERT ON late BEGIN UPDATE whole SET image = hll_add(image, NEW.visitor); END")
    other.execute("CREATE TRIGGER join_day AFTER INSERT ON days BEGIN UPDATE whole SET image = hll_merge(image, NEW.image); END")
    for day in range(30):
        other.execute("INSERT INTO days SELECT ?, hll_image_add_agg(?)", (day, "visitor %d" % day))
    for bad in (b"", b"no image", "text", 7):
        said = said_by("INSERT INTO days VALUES (99, ?)", bad, on=other)
        check("a constraint refuses %r" % (bad,), said.startswith("CHECK constraint failed"), said)
    found = ask("SELECT image FROM month", on=other)
    equal("a generated column, and a trigger", ask("SELECT about FROM whole", on=other), 30.0)
    other.execute("INSERT INTO late VALUES ('visitor 7'), ('somebody new'), (NULL)")
    equal("a trigger that adds values", ask("SELECT about FROM whole", on=other), 31.0)
    equal("a view", found, image_of_values(12, 8, [b"visitor %d" % day for day in range(30)]))
    plan = other.execute("EXPLAIN QUERY PLAN SELECT day FROM days WHERE hll_estimate(image) > 100").fetchall()
    check("an index is used", "INDEX estimates" in plan[0][3], plan)
    other.close()
