# SPDX-License-Identifier: Apache-2.0
"""Aggregates over groups: beside unions of the Python package; what lowers an lg_k, NULLs, options, rows and windows."""
import collections
import os
import pathlib
import random
import struct
import tempfile
from unittest import mock

from base import EXTENSION, ask, db, plain, refused, rejected, said_by, table_of
from calls import GOOD, bad_images
from hll_sketches import Database, Sketch, union_of
from hll_sketches import database as module
from images import image_of, image_of_coupons, image_of_values, is_empty, merged, random_coupons, random_image
from report import SEED, check, equal

NUMBERS = random.Random(SEED + 1)
OF_VALUES, OF_IMAGES = ("hll_image_add_agg", "hll_add_agg", "hyperloglog_agg"), ("hll_image_union_agg", "hll_union_agg", "hyperloglog_union_agg")
POOL = [random_image(NUMBERS) for _ in range(400)]
SMALL = [image_of_coupons(12, 8, random_coupons(NUMBERS, NUMBERS.randrange(20))) for _ in range(400)]


def group_table(groups):
    """A temporary table of the images of groups, in any order."""
    db.execute("DROP TABLE IF EXISTS temp.g")
    db.execute("CREATE TEMP TABLE g (g, image)")
    rows = [(number, image) for number, images in enumerate(groups) for image in images]
    NUMBERS.shuffle(rows)
    db.executemany("INSERT INTO g VALUES (?, ?)", rows)


def unions():
    """Groups of few images and of many, of each kind, at each bound and width."""
    for pool in (POOL, SMALL):
        groups = [NUMBERS.choices(pool, k=NUMBERS.choice([1, 1, 2, 3, 5, 20])) for _ in range(300)] + [pool * 3]
        group_table(groups)
        for lg_k, width in ((12, 8), (12, 4), (9, 6), (21, 8), (4, 4)):
            query = "SELECT g, hll_image_union_agg(image, ?, ?) FROM g GROUP BY g"
            found = dict(db.execute(query, (lg_k, width)))
            check("groups", len(found) == len(groups), len(found))
            for number, images in enumerate(groups):
                wanted = union_of(images, lg_k, width).to_bytes()
                equal("union of a group", registers_of(found[number]), registers_of(wanted))
                if all(image[7] & 3 != 2 for image in images) and lg_k == 12 and pool is SMALL:
                    equal("bytes of a union", plain(found[number]), plain(wanted))
        for name in OF_IMAGES:
            equal(name, ask("SELECT %s(image, 10, 6) FROM g" % name), ask("SELECT hll_image_union_agg(image, 10, 6) FROM g"))


def registers_of(image):
    """An image by what it means: at eight bits, and as registers."""
    sketch = Sketch.from_bytes(image)
    return sketch.lg_k, sketch.width, sketch.histogram(), plain(sketch.convert(8).to_bytes()) if sketch.stage == "registers" else None


def words():
    """Fields that another program set stay in the union of one image, alone or with empty ones; of two they are set
    again."""
    counted = bytearray(image_of_values(10, 8, [b"%d" % number for number in range(3000)]))
    counted[5] &= ~16
    counted[8:16] = struct.pack("<d", 3000.5)
    counted, empty, zeros = bytes(counted), image_of_values(10, 8, []), image_of(5, 8, bytes(32))
    for images in ([counted], [None, counted, None], [counted, empty], [empty, counted, empty], [counted, counted],
                   [zeros, counted], [counted, zeros], [zeros, zeros, counted, empty, zeros]):
        table = table_of(images)
        given = [image for image in images if image is not None]
        for lg_k, width in ((12, 8), (10, 4), (9, 8)):
            found = ask("SELECT hll_image_union_agg(x, ?, ?) FROM %s" % table, lg_k, width)
            equal("words of a union", found, union_of(given, lg_k, width).to_bytes())
    equal("kept", ask("SELECT hll_hip_estimate(hll_union_agg(?))", counted), 3000.5)


def added():
    """Many small groups of values, and the union of their sketches."""
    db.execute("DROP TABLE IF EXISTS temp.v")
    db.execute("CREATE TEMP TABLE v AS WITH RECURSIVE n (i) AS (SELECT 0 UNION ALL SELECT i + 1 FROM n WHERE i < 29999) "
               "SELECT i % 3001 AS g, 'v' || (i % 7919) AS x FROM n")
    groups = {}
    for group, value in db.execute("SELECT g, x FROM v"):
        groups.setdefault(group, set()).add(value.encode())
    for group, image in db.execute("SELECT g, hll_image_add_agg(x) FROM v GROUP BY g"):
        equal("a small group", image, image_of_values(12, 8, groups[group]))
    equal("the union of groups", plain(ask("SELECT hll_union_agg(i) FROM (SELECT hll_add_agg(x) AS i FROM v GROUP BY g)")),
          plain(image_of_values(12, 8, {value for some in groups.values() for value in some})))
    for name in OF_VALUES:
        equal(name, ask("SELECT %s(x, 9, 6) FROM v" % name), ask("SELECT hll_image_add_agg(x, 9, 6) FROM v"))
    two = db.execute("SELECT hll_image_add_agg(x, 8), hll_image_add_agg(g, 9, 4) FROM v").fetchone()
    equal("two aggregates at once", two, db.execute("SELECT (SELECT hll_add_agg(x, 8) FROM v), (SELECT hll_add_agg(g, 9, 4) FROM v)").fetchone())
    equal("DISTINCT", ask("SELECT hll_add_agg(DISTINCT x) = hll_add_agg(x) FROM v"), 1)
    equal("FILTER", ask("SELECT hll_add_agg(x) FILTER (WHERE g = 5) = (SELECT hll_add_agg(x) FROM v WHERE g = 5) FROM v"), 1)


def growth():
    """Groups of each size, from one value to registers, each value once or three times; unions of as many images."""
    db.execute("DROP TABLE IF EXISTS temp.n")
    db.execute("CREATE TEMP TABLE n AS SELECT value AS x, hll_image_add_agg(value) AS image "
               "FROM json_each(?) GROUP BY value", (str(list(range(600))),))
    thrice = "(SELECT * FROM n UNION ALL SELECT * FROM n UNION ALL SELECT * FROM n)"
    for lg_k, most in ((4, 40), (7, 80), (9, 200), (12, 600)):
        sketch = Sketch(lg_k)
        for count in range(1, most):
            sketch.update(count - 1)
            for rows in ("n", thrice):
                query = "SELECT %%s FROM %s WHERE x < ?" % rows
                for call in ("hll_image_add_agg(x, ?)", "hll_image_union_agg(image, ?)"):
                    equal("%s of %d" % (call, count), ask(query % call, lg_k, count), sketch.to_bytes())


def lg_k():
    """Under a bound registers of a smaller lg_k lower a union, whenever they come; coupons, and registers that are all 0, don't."""
    coarse, coarser = image_of(8, 8, bytes([3] * 256)), image_of(6, 4, bytes([2] * 63 + [40]))
    empty = image_of(5, 8, bytes(32))
    few = image_of_coupons(12, 8, random_coupons(NUMBERS, 5))
    many = image_of_coupons(12, 8, random_coupons(NUMBERS, 5000))
    for images in ([few, coarse], [coarse, few], [many, coarse], [coarse, many, coarser], [coarser, coarse], [few, many],
                   [empty], [empty, few], [few, empty], [empty, many, empty], [many, empty, coarser, few]):
        found, wanted = ask("SELECT hll_image_union_agg(x, 12) FROM " + table_of(images)), merged(images, 12)
        equal("union of lg_k %s" % [image[3] for image in images], plain(found), plain(wanted))


OTHERS = ("sketches of lg_k %d and %d can't be merged without a bound: %s, %d) merges them at lg_k %d "
          "(SELECT json_extract(hll_info(image), '$.lg_k'), count(*) .. GROUP BY 1 counts the sketches of each lg_k)")


def sizes():
    """Without a bound: sketches of one lg_k give the bytes of the plain model in any tree of merges, and of several are refused."""
    full = {lg_k: [random_image(NUMBERS, lg_k) for _ in range(12)] for lg_k in (4, 7, 9, 10, 12, 13, 14)}
    empty = [image_of_coupons(lg_k, width, []) for lg_k in full for width in (4, 6, 8)]
    for number in range(400):
        images = empty if number % 8 == 0 else full[NUMBERS.choice(list(full))]
        images = [image for image in images if number % 2 or image[7] & 12 == images[0][7] & 12]
        group = [NUMBERS.choice(empty) if NUMBERS.random() < 0.2 else image for image in NUMBERS.choices(images, k=NUMBERS.randint(2, 9))]
        wanted = merged(group)
        for _ in range(4):
            equal("a tree of merges", tree(NUMBERS.sample(group, len(group))), wanted)
        equal("a union", ask("SELECT hll_image_union_agg(x) FROM " + table_of([None, *group])), wanted)
    different_sizes(full, empty)


def tree(images):
    """The union of images by hll_merge, split anywhere, and of some by the aggregate."""
    if len(images) == 1:
        return images[0]
    if NUMBERS.random() < 0.2:
        return ask("SELECT hll_union_agg(x) FROM " + table_of(images))
    front = NUMBERS.randrange(1, len(images))
    return ask("SELECT hll_merge(?, ?)", tree(images[:front]), tree(images[front:]))


def different_sizes(full, empty):
    for number in range(100):
        small, large = NUMBERS.sample(list(full), 2)
        a, b = [NUMBERS.choice([image for image in full[lg_k] if not is_empty(image)]) for lg_k in (small, large)]
        least = min(small, large)
        rows = [None, NUMBERS.choice(empty), a, a, None, b, a]
        refused("a union of different lg_k", OTHERS % (small, large, "hll_image_union_agg(image", least, least),
                "SELECT hll_image_union_agg(x) FROM " + table_of(rows))
        found = db.execute("SELECT json_extract(hll_info(x), '$.lg_k'), count(*) FROM temp.t WHERE x NOT NULL GROUP BY 1").fetchall()
        counts = collections.Counter(image[3] for image in rows if image is not None)
        equal("what the query finds", dict(found), dict(counts))
        refused("a merge of different lg_k", OTHERS % (small, large, "hll_merge(a, b", least, least),
                "SELECT hll_merge(?, ?)", a, b)
        for bound in (least, 12, 21):
            found = ask("SELECT hll_image_union_agg(x, ?) FROM " + table_of(rows), bound)
            equal("under the bound %d" % bound, found, merged([a, b], bound))
            equal("a merge under the bound %d" % bound, ask("SELECT hll_merge(?, ?, ?)", a, b, bound), found)
    for lg_k in range(4, 22):
        found = ask("SELECT hll_union_agg(x) FROM (SELECT hll_add_agg(value, ?) AS x FROM json_each('[1, 2, 3, 4, 5]') GROUP BY value % 2)", lg_k)
        equal("lg_k %d stays" % lg_k, found[3], lg_k)


def large():
    """Large sets at lg_k 21."""
    sets = [image_of_coupons(21, 8, random_coupons(NUMBERS, 3000)) for _ in range(30)]
    found, wanted = ask("SELECT hll_image_union_agg(x, 21) FROM " + table_of(sets)), union_of(sets, 21)
    equal("union of large sets", found, wanted.to_bytes())
    found, wanted = ask("SELECT hll_image_union_agg(x, 14, 8) FROM " + table_of(sets + SMALL[:50])), union_of(sets + SMALL[:50], 14)
    equal("union of large sets and of small ones", registers_of(found), registers_of(wanted.to_bytes()))
    words = ["value %d" % number for number in range(40000)]
    found = ask("SELECT hll_image_add_agg(x, 21, 6) FROM " + table_of(words))
    equal("a large set of values", found, image_of_values(21, 6, [word.encode() for word in words]))


def nulls():
    image = image_of_coupons(12, 8, [1 << 26])
    for values in ([], [None], [None, None]):
        equal("hll_count_distinct of %r" % values, ask("SELECT hll_count_distinct(x) FROM " + table_of(values)), 0)
        for name in OF_VALUES + OF_IMAGES:
            equal("%s of %r" % (name, values), ask("SELECT %s(x) FROM %s" % (name, table_of(values))), None)
    equal("an image among NULLs", ask("SELECT hll_image_union_agg(x) FROM " + table_of([None, image, None])), image)
    equal("a value among NULLs", ask("SELECT hll_image_add_agg(x) FROM " + table_of([None, "a", None, "a"])),
          image_of_values(12, 8, [b"a"]))


def options():
    """Ranges, types, and what changes between rows."""
    same = "lg_k and width must be the same for all rows of a group"
    for arguments, said in (("3", "lg_max_k must be between 4 and 21, not 3"), ("22", "lg_max_k must be between 4 and 21, not 22"),
                            ("268", "lg_max_k must be between 4 and 21, not 268"), ("12, 5", "width must be 4, 6 or 8, not 5"),
                            ("NULL", "lg_max_k must not be null"), ("12, NULL", "width must not be null"),
                            ("12.0", "lg_max_k must be an integer"), ("12, '8'", "width must be an integer")):
        refused("union, " + arguments, said, "SELECT hll_image_union_agg(x'', %s)" % arguments)
        refused("values, " + arguments, said.replace("lg_max_k", "lg_k"), "SELECT hll_image_add_agg('a', %s)" % arguments)
    for name in ("hll_image_union_agg", "hll_image_add_agg"):
        for arguments in ("n", "12, n - 2"):
            refused("%s changes %s" % (name, arguments), same,
                    "SELECT %s(NULL, %s) FROM (SELECT 10 AS n UNION ALL SELECT 8)" % (name, arguments))
        refused("count, " + arguments, said.replace("lg_max_k", "lg_k") if "," not in arguments else
                "wrong number of arguments to function hll_count_distinct()", "SELECT hll_count_distinct('a', %s)" % arguments)
    refused("hll_count_distinct changes lg_k", same, "SELECT hll_count_distinct(NULL, n) FROM (SELECT 10 AS n UNION ALL SELECT 8)")
    refused("four arguments", "wrong number of arguments to function hll_image_add_agg()", "SELECT hll_image_add_agg(1, 2, 3, 4)")
    refused("no argument", "wrong number of arguments to function hll_image_union_agg()", "SELECT hll_image_union_agg()")
    rejected("a text for an image", "an HLL image must be a blob", "SELECT hll_image_union_agg('a')")


def rows():
    """A refusal tells the query that finds the row, and spoils no other query."""
    few = image_of_coupons(12, 8, random_coupons(NUMBERS, 3))
    for word, image in bad_images():
        for good in (GOOD, few):
            for row in (1, 2, 5, 400, 3000):
                values = [None if n % 3 == 0 else good for n in range(row + 8)]
                values[row - 1] = image
                rejected("row %d of %s" % (row, word), "invalid HLL image: " + word,
                         "SELECT hll_image_union_agg(x) FROM " + table_of(values))
                equal("what the query finds", db.execute("SELECT rowid FROM temp.t WHERE NOT hll_is_image(x)").fetchall(), [(row,)])
    equal("afterwards", ask("SELECT hll_image_union_agg(?)", few), few)


def counts():
    """hll_count_distinct is the rounded estimate of a group, an integer; 0 for no value, as count."""
    query = "SELECT hll_count_distinct(x), CAST(round(hll_estimate(hll_image_add_agg(x))) AS INTEGER) FROM %s"
    db.execute("CREATE TEMP TABLE IF NOT EXISTS c AS WITH RECURSIVE n (i) AS (SELECT 0 UNION ALL SELECT i + 1 FROM n WHERE i < 99999) "
               "SELECT i % 7 AS g, 'v' || (i % 30011) AS x FROM n")
    for rows in ("c WHERE g < 3", "c WHERE g = 5 LIMIT 9", "c GROUP BY g"):
        for found, wanted in db.execute(query % rows):
            equal("hll_count_distinct of " + rows, (type(found), found), (int, wanted))
    for lg_k in (4, 9, 14, 21):
        sketch = Sketch(lg_k)
        sketch.update_many(["v%d" % n for n in range(30011)])
        equal("hll_count_distinct at lg_k %d" % lg_k, ask("SELECT hll_count_distinct(x, ?) FROM c", lg_k), round(sketch.estimate()))
    equal("few", ask("SELECT hll_count_distinct(value) FROM json_each('[1, 1.0, \"1\", null, 1]')"), 3)
    equal("like count", ask("SELECT json_array(hll_count_distinct(x), count(DISTINCT x)) FROM c WHERE g > 9"), "[0,0]")
    check("half a surrogate pair", "half a surrogate pair" in said_by("SELECT hll_count_distinct(char(55296))"), "no error")


# Frames that start where their partition does, and the rows b that are in the frame of a row a.
FRAMES = (("ORDER BY g", "b.g <= a.g"), ("PARTITION BY g ORDER BY x", "b.g = a.g AND b.x <= a.x"), ("", "true"), ("PARTITION BY g", "b.g = a.g"),
          ("ORDER BY x ROWS UNBOUNDED PRECEDING", "b.x <= a.x"), ("ORDER BY x ROWS BETWEEN UNBOUNDED PRECEDING AND 3 FOLLOWING", "b.x <= a.x + 3"),
          ("ORDER BY x ROWS BETWEEN UNBOUNDED PRECEDING AND 2 PRECEDING", "b.x <= a.x - 2"))
MOVING = ("ORDER BY x ROWS 2 PRECEDING", "ORDER BY x ROWS BETWEEN CURRENT ROW AND UNBOUNDED FOLLOWING", "ORDER BY x RANGE BETWEEN 1 PRECEDING AND CURRENT ROW")


def windows():
    """A frame that no row leaves has the result of its rows. Of a moving frame an error says what to write, which runs as it stands."""
    db.execute("DROP TABLE IF EXISTS temp.w")
    db.execute("CREATE TEMP TABLE w AS SELECT value AS x, value % 7 AS g, value % 50 AS v, hll_image_add_agg(value % 50, 9, 4) AS image "
               "FROM json_each(?) GROUP BY value", (str(list(range(120))),))
    for name in OF_VALUES + OF_IMAGES + ("hll_count_distinct",):
        column = "image" if name in OF_IMAGES else "v"
        for window, joined in FRAMES:
            over = db.execute("SELECT a.x, %s(%s) OVER (%s) FROM w a ORDER BY 1" % (name, column, window)).fetchall()
            wanted = db.execute("SELECT a.x, (SELECT %s(b.%s) FROM w b WHERE %s) FROM w a ORDER BY 1" % (name, column, joined)).fetchall()
            equal("%s OVER (%s)" % (name, window), over, wanted)
        for window in MOVING:
            refused("%s OVER (%s)" % (name, window), MOVED, "SELECT %s(%s) OVER (%s) FROM w" % (name, column, window))
    equal("rows without a value", ask("SELECT json_group_array(n) FROM (SELECT hll_count_distinct(nullif(x, 0)) OVER (ORDER BY x) AS n FROM w LIMIT 3)"), "[0,1,2]")
    equal("FILTER", ask("SELECT max(n) FROM (SELECT hll_count_distinct(v) FILTER (WHERE g = 3) OVER (ORDER BY x) AS n FROM w)"),
          ask("SELECT count(DISTINCT v) FROM w WHERE g = 3"))
    rejected("a row of a window", "invalid HLL image: truncated", "SELECT hll_union_agg(iif(x = 60, x'00', image)) OVER (ORDER BY x) FROM w")
    moving_days()


MOVED = ("a sketch can't remove a row, so the frame of a window must start at UNBOUNDED PRECEDING; for a moving frame write a subquery: "
         "SELECT day, (SELECT hll_union_agg(image) FROM days WHERE day BETWEEN date(d.day, '-6 days') AND d.day) FROM days AS d")


def moving_days():
    """What the error of a moving frame says to write: seven days up to each day."""
    db.execute("CREATE TEMP TABLE IF NOT EXISTS days AS SELECT date('2026-11-01', value || ' days') AS day, hll_add_agg(value) AS image "
               "FROM json_each('[0, 1, 2, 3, 4, 5, 6, 7, 8, 9, 10, 12]') GROUP BY value")
    found = db.execute("SELECT round(hll_estimate(u)) FROM (%s)" % MOVED.partition("subquery: ")[2].replace(") FROM days AS d", ") AS u FROM days AS d"))
    equal("seven days", [count for (count,) in found], [1, 2, 3, 4, 5, 6, 7, 7, 7, 7, 7, 6])
    db.execute("DROP TABLE days")


def sketches_in(path, pairs):
    """What a database of the Python package has after these pairs were added twice: keys and unions with their images, and faults."""
    with Database(path, ["day", "page"]) as database:
        database.update(pairs)
        database.update(pairs[::-1])
        unions_in = [*database.items(), *database.union(["week(day)"]), *database.union()]
        return database.has_extension, [(key, sketch.to_bytes()) for key, sketch in unions_in], list(database.faults())


def databases():
    """Databases of keys in Python have the same sketches with this extension and without it."""
    pairs = []
    for n in range(300):
        sketch = Sketch()
        sketch.update_many(range(n, n * 3))
        pairs.append((("2026-11-%02d" % (n % 9 + 1), "%d" % (n % 7)), sketch))
    with tempfile.TemporaryDirectory() as folder:
        results = []
        for extension in ("", str(EXTENSION)):
            with mock.patch.dict(os.environ, {module.EXTENSION: extension}):
                results.append(sketches_in(pathlib.Path(folder) / ("with.db" if extension else "without.db"), pairs))
    (_, wanted, faults), found = results
    equal("faults of a database", faults, [])
    equal("a database with the extension", found, (True, wanted, []))
    check("keys and unions", len(wanted) > 63, "%d" % len(wanted))
