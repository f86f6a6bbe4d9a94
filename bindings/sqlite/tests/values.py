# SPDX-License-Identifier: Apache-2.0
"""The cases of tests/behaviour, and many values beside the hash of docs/FORMAT.md and the Python package."""
import math
import random
import struct

from base import ask, connect, db, plain, said_by, table_of
from behaviour.cases import cases, is_right, printed
from behaviour_in_sql import expressions, joined, rejected
from hll_sketches import Sketch
from images import image_of_values
from report import SEED, check, equal

NUMBERS = random.Random(SEED)
INTEGERS = [0, 1, -1, 7, 255, 2**31, -2**31, 2**53 + 1, 2**63 - 1, -2**63]
REALS = [0.0, -0.0, 1.0, -1.0, 7.0, 0.1, 1e300, -1e-300, 5e-324, math.inf, -math.inf, math.pi, 2.0**53, float(2**63)]
TEXTS = ["", "a", "7", "7.0", "ä€😀", "x\0y", "\0", "y" * 15, "z" * 16, "w" * 33, "long" * 10**5]
BLOBS = [b"", b"a", b"\0", b"\xff" * 16, bytes(range(256)), bytes(10**6)]


def bytes_of(value):
    """The table of docs/FORMAT.md, "What values are hashed as"."""
    if isinstance(value, str):
        return value.encode()
    if isinstance(value, int):
        return struct.pack("<q", value)
    if isinstance(value, float):
        return struct.pack("<d", value + 0.0)
    return value


def kept(image):
    return "missing" if image is None else "%08x" % int.from_bytes(image[8:], "little")


def of_value(kind, written):
    """What an aggregate keeps of a value: a parameter, and else as SQL has it."""
    arguments = {"text": bytes.decode, "bytes": bytes, "real": float}.get(kind)
    if arguments:
        return kept(ask("SELECT hll_image_add_agg(?)", arguments(written)))
    sql = "SELECT hll_image_add_agg(%s)" % {"missing": "NULL", "surrogate": "char(0x%s)" % written}.get(kind, written)
    said = said_by(sql)
    return "rejected: " + said if said else kept(ask(sql))


def own_width(image):
    return "json_extract(hll_info(%s), '$.width')" % image


def of_call(call, given):
    """What each way in makes, or SQLite says."""
    answers = []
    for sql in expressions(call, given, "x'%s'".__mod__, own_width):
        said = said_by("SELECT " + sql)
        answers.append(rejected(call, said) if said else getattr(ask("SELECT " + sql), "hex", lambda: "missing")())
    if call == "whole":
        fault = ask("SELECT hll_fault(x'%s')" % given)
        answers += ["rejected: %s" % fault] if fault else []
    return joined(answers)


def behaviour():
    """The cases of tests/behaviour, which every binding runs."""
    for case in cases("sqlite"):
        call, given, _ = case
        answer = of_value(call, given) if call in ("text", "bytes", "surrogate", "integer", "real", "boolean", "missing") else of_call(call, given)
        check(printed(case), is_right(case, answer), answer)


def types():
    """Values that the cases of tests/behaviour can't write: long ones, and those of columns."""
    for value in TEXTS[-1], BLOBS[-1]:
        equal("%d bytes" % len(value), ask("SELECT hll_image_add_agg(?)", value), image_of_values(12, 8, [bytes_of(value)]))
    db.execute("CREATE TEMP TABLE IF NOT EXISTS people (name TEXT COLLATE NOCASE)")
    db.execute("INSERT INTO people VALUES ('Ann'), ('ann'), ('Bob')")
    found = ask("SELECT json_array(count(DISTINCT name), hll_estimate(hll_add_agg(name)) > 2.5, hll_estimate(hll_add_agg(lower(name))) < 2.5) FROM people")
    equal("texts under NOCASE", found, "[2,1,1]")
    equal("a column of a type", ask("SELECT hll_image_add_agg(x) FROM (SELECT CAST(7.0 AS INTEGER) AS x)"),
          image_of_values(12, 8, [bytes_of(7)]))


def many():
    """Values of all types at once, few and many, at each stage and width."""
    mixed = INTEGERS + REALS + TEXTS[:-1] + BLOBS[:-1]
    mixed += [NUMBERS.choice([NUMBERS.randrange(-2**63, 2**63), NUMBERS.random(), "v%d" % n, b"b%d" % n]) for n in range(5000)]
    for count in (1, 6, 7, 8, 9, 30, 100, 400, 1500, len(mixed)):
        for lg_k, width in ((12, 8), (4, 4), (10, 6), (9, 4), (14, 6)):
            some = NUMBERS.sample(mixed, count)
            found = ask("SELECT hll_image_add_agg(x, ?, ?) FROM %s" % table_of(some), lg_k, width)
            equal("%d values of all types" % count, plain(found), plain(image_of_values(lg_k, width, map(bytes_of, some))))
            wanted = Sketch(lg_k, width)
            wanted.update_many(some)
            equal("%d values in Python" % count, plain(found), plain(wanted.to_bytes()))
    again = ask("SELECT hll_image_add_agg(x) FROM (SELECT x FROM temp.t UNION ALL SELECT x FROM temp.t)")
    equal("each twice", again, ask("SELECT hll_image_add_agg(x) FROM temp.t"))
    check("words of what is made", again[8:32] == ask("SELECT hll_set_estimator_fields(?)", again)[8:32], again[8:32])
    few = ask("WITH RECURSIVE n (i) AS (SELECT 1 UNION ALL SELECT i + 1 FROM n WHERE i < 200000) SELECT hll_image_add_agg(i % 5) FROM n")
    equal("200,000 rows of five values", few, image_of_values(12, 8, map(bytes_of, range(5))))


def encodings():
    """A database of UTF-16 has the same bytes."""
    for encoding in ("UTF-16le", "UTF-16be"):
        other = connect()
        other.execute("PRAGMA encoding = '%s'" % encoding)
        other.execute("CREATE TABLE t (x)")
        other.executemany("INSERT INTO t VALUES (?)", [(text,) for text in TEXTS])
        found = ask("SELECT hll_image_add_agg(x) FROM t", on=other)
        equal("texts of " + encoding, found, image_of_values(12, 8, map(bytes_of, TEXTS)))
        equal("a word in " + encoding, ask("SELECT hll_fault(x'02')", on=other), "truncated")
        other.close()


# ---- tests/behaviour/life.txt


def life_zero():
    """A column that was not set is NULL, and stays NULL in each call."""
    db.execute("CREATE TEMP TABLE IF NOT EXISTS days (image BLOB)")
    db.execute("INSERT INTO days DEFAULT VALUES")
    for call in ("hll_estimate(image)", "hll_merge(image, image)", "hll_fold(image, 4)", "hll_image_union_agg(image)"):
        equal(call + " of NULL", ask("SELECT %s FROM days" % call), None)
    db.execute("DROP TABLE days")


def life_json():
    """SQLite rejects a BLOB in JSON."""
    check("an image in JSON", "BLOB" in said_by("SELECT json_array(hll_image_empty())"), said_by("SELECT json_array(hll_image_empty())"))
