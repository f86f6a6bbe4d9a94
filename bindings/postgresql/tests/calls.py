# SPDX-License-Identifier: Apache-2.0
"""Calls of one image or two, and small aggregates, beside the program, the plain model and docs/FORMAT.md."""
import itertools
import os
import random
import re
import struct
from dataclasses import replace

from images import (greatest, image_of, image_of_coupons, image_of_values, merged, pairs_of, random_coupons,
                    random_image, sketch_of, width_of, with_words, written)
from report import (ARGUMENT, IMAGE, NULL, REASONS, SEED, all_bytes_of, answer_of, bytes_of, check, equal, literal,
                    load, refused, union_of)
from rows import rows_in, texts

# ---- both codes of the library

# Images of each width, of coupons and of registers, with unions, folds, conversions and estimates of them.
OF_BOTH = """CREATE TEMP TABLE images AS SELECT lg_k, width, most, hll_image_add_agg(x, lg_k, width) AS image
        FROM generate_series(1, 6000) x, unnest(ARRAY[4, 7, 10, 12]) lg_k, unnest(ARRAY[4, 6, 8]) width, unnest(ARRAY[5, 100, 6000]) most
        WHERE x <= most GROUP BY lg_k, width, most;
    SELECT image, hll_info(image), hll_estimate(image), hll_estimate_bounds(image), hll_fold(image, 4), hll_convert(image, 6) FROM images
        ORDER BY lg_k, width, most;
    SELECT hll_image_union_agg(image, 12), hll_image_union_agg(image, 9, 4), hyperloglog_union_agg(image, 11) FROM images;
    SELECT md5(hll_merge(a.image, b.image, 12)::text), hll_agree(a.image, b.image) FROM images a, images b
        ORDER BY a.lg_k, a.width, a.most, b.lg_k, b.width, b.most"""


def both_codes(server):
    """With the code for x86-64-v2, which HLL_CPU in the server's environment chooses, each answer is the same."""
    if os.uname().machine != "x86_64":
        return
    check("the code that runs", server.ask("SELECT hll_processor()") in ("x86-64-v2", "x86-64-v3"), "")
    answers = server.ask(OF_BOTH).split("\n")
    equal("answers", len(answers), 36 + 1 + 36 * 36)
    server.begin_again(HLL_CPU="x86-64-v2")
    equal("the code for x86-64-v2", server.ask("SELECT hll_processor()"), "x86-64-v2")
    for number, (one, other) in enumerate(zip(answers, server.ask(OF_BOTH).split("\n"))):
        equal("answer %d" % number, other, one)
    worked_rows(server)
    server.begin_again()


# ---- worked rows

PLAN_LINE = r"image ([0-9a-fA-F]{2})+|new \d+ \d+|union \d+ \d+ \d+|fold \d+"


def rows_of_calls():
    """The lines of the plans and the answers of the worked rows and the walks whose plans have no coupons."""
    for plan, mark, answer in (row for path in texts() for row in rows_in(path)):
        lines = [line for line in plan.decode("latin-1").split("\n") if not line.startswith("#")]
        if all(re.fullmatch(PLAN_LINE, line) for line in lines):
            yield lines, mark + " " + answer


def union_expression(images, bound, width):
    return "(SELECT hll_image_union_agg(i, %s, %s) FROM unnest(ARRAY[%s]) i)" % (bound, width, ", ".join(images))


def expression_of(plan, image="'\\x%s'::bytea", union=union_expression):
    """A plan as an expression of SQL, with images written by a pattern, and unions of some by a function; None where its stack
    runs out or more than one sketch is left."""
    stack = []
    for line in plan:
        word, *rest = line.split(" ")
        if word == "image":
            stack.append(image % rest[0])
        elif word == "new":
            stack.append("hll_image_empty(%s, %s)" % tuple(rest))
        elif word == "fold" and stack:
            stack.append("hll_fold(%s, %s)" % (stack.pop(), rest[0]))
        elif word == "union" and int(rest[0]) <= len(stack):
            first = len(stack) - int(rest[0])
            stack[first:] = [union(stack[first:], *rest[1:]) if first < len(stack) else "hll_image_empty(%s, %s)" % tuple(rest[1:])]
        else:
            return None
    return stack[0] if len(stack) == 1 else None


def worked_rows(server):
    """Each answers as the row says, also where an image is refused. Plans pass over bytes after an image, and SQL cuts them."""
    rows = [(plan, answer, expression_of(plan, "hll_first_image('\\x%s')")) for plan, answer in rows_of_calls()]
    rows = [row for row in rows if row[2] and not re.search("stack|range|memory|syntax", row[1])]
    query = "SELECT hll_convert(u, (hll_info(u)).width) FROM (SELECT %s u) x;\n\\echo ----"
    answers = server.run("\n".join(query % row[2] for row in rows)).split("----")
    words = set()
    for (plan, answer, _), said in zip(rows, answers):
        name, said = "worked row %s %s" % (plan[-1][:60], answer[:60]), said.strip()
        if answer[0] in "=+":
            equal(name, bytes_of(said), with_words(bytes.fromhex(answer[2:])))
            continue
        fault, word = answer.split(": ")[1], answer.split(" ")[-1]
        words.add(word)
        if fault == "fold":
            refused(name, said, ARGUMENT)
        else:
            refused(name, said, IMAGE)
            check(name, ": %s\n" % word in said, said)
    equal("reasons of worked rows", sorted(words & set(REASONS)), sorted(REASONS))
    check("many worked rows", len(rows) > 1500, len(rows))
    print("  %d worked rows" % len(rows))


# ---- one image or two


def functions(server):
    """Each function beside the plain model and the program, on 300 images and the pairs of neighbours."""
    numbers = random.Random(SEED)
    images = [random_image(numbers) for _ in range(300)]
    server.ask("CREATE TABLE sketches (n int, image bytea)")
    load(server, "sketches", list(enumerate(images)))
    infos(server, images)
    conversions(server, images)
    folds(server, images)
    pairs(server, images)
    words(server, images)
    found = server.ask("SELECT count(*), count(hll_fault(image)) FROM sketches")
    equal("hll_fault of images", found, "%d|0" % len(images))


def infos(server, images):
    found = server.ask("SELECT (hll_info(image)).* FROM sketches ORDER BY n").split("\n")
    for image, line in zip(images, found):
        sketch, stage = sketch_of(image), ["list", "set", "registers"][image[7] & 3]
        zeros = sketch.content.values.count(0) if stage == "registers" else 0
        coupons = 0 if stage == "registers" else len(sketch.content.members)
        equal("hll_info", line, "%d|%d|%s|%d|%d" % (sketch.lg_k, sketch.width, stage, coupons, zeros))


def conversions(server, images):
    for width in (4, 6, 8):
        found = server.ask("SELECT hll_convert(image, %d) FROM sketches ORDER BY n" % width)
        for image, converted in zip(images, all_bytes_of(found)):
            equal("hll_convert", converted, with_words(written(replace(sketch_of(image), width=width))))


def folds(server, images):
    query = ("SELECT n, hll_fold(image, %d), hll_agree(image, hll_fold(image, %d)) FROM sketches "
             "WHERE (hll_info(image)).lg_k >= %d")
    for lg_k in (4, 8):
        for line in server.ask(query % (lg_k, lg_k, lg_k)).split("\n"):
            n, folded, same = line.split("|")
            equal("hll_fold", bytes_of(folded), answer_of(["image " + images[int(n)].hex(), "fold %d" % lg_k]))
            equal("hll_agree of a fold", same, "t")


PAIRS = "SELECT %s FROM sketches a JOIN sketches b ON b.n = a.n + 1 ORDER BY a.n"


def pairs(server, images):
    agreed = server.ask(PAIRS % "hll_agree(a.image, b.image)").split("\n")
    for a, b, same in zip(images, images[1:], agreed):
        folded = [greatest(pairs_of(sketch_of(image)), min(a[3], b[3])) for image in (a, b)]
        equal("hll_agree", same, "t" if folded[0] == folded[1] else "f")
    merges(server, images)
    groupings(server, len(images) - 2)
    sizes_of_merges(server)


def merges(server, images):
    """The union under the bound that is given; trees.py has those without a bound."""
    for bound in (4, 9, 12, 15):
        found = all_bytes_of(server.ask(PAIRS % ("hll_merge(a.image, b.image, %d)" % bound)))
        for a, b, union in zip(images, images[1:], found):
            equal("hll_merge under %d" % bound, union, union_of([a, b], bound, width_of(merged([a, b], bound))))


GROUPINGS = """SELECT count(*), count(*) FILTER (WHERE hll_merge(a, b, 12) <> hll_merge(b, a, 12)), count(*) FILTER (WHERE hll_merge(hll_merge(a, b, 12), c, 12) <> hll_merge(a, hll_merge(b, c, 12), 12))
    FROM (SELECT image, lead(image) OVER w, lead(image, 2) OVER w FROM sketches WINDOW w AS (ORDER BY n)) x(a, b, c)
    WHERE c IS NOT NULL"""


def groupings(server, count):
    """Neither order nor grouping makes a difference under one bound."""
    equal("merges in other orders and groups", server.ask(GROUPINGS), "%d|0|0" % count)


def sizes_of_merges(server):
    """Under a bound registers lower the lg_k, and empty and small sketches don't; without one nothing does."""
    server.ask("""CREATE TABLE rollup AS SELECT hll_image_empty(4) AS empty, hll_image_empty(21) AS wide,
        hll_image_add_agg(x) FILTER (WHERE x < 5) AS list, hll_image_add_agg(x, 14) FILTER (WHERE x < 100) AS small,
        hll_image_add_agg(x, 14) AS large, hll_image_add_agg(x, 10) AS coarse,
        hll_image_add_agg(x, 8) FILTER (WHERE x <= 20) AS one, hll_image_add_agg(x, 8) FILTER (WHERE x BETWEEN 21 AND 40) AS other
        FROM generate_series(1, 9999) x""")
    for arguments, wanted in (
            ("large, empty", "14|registers"), ("empty, large", "14|registers"), ("list, empty", "12|list"),
            ("large, small", "14|registers"), ("small, wide", "14|set"), ("wide, small", "14|set"), ("small, wide, 12", "12|set"),
            ("small, list, 16", "16|set"), ("large, coarse, 14", "10|registers"), ("coarse, small, 14", "10|registers"),
            ("coarse, wide, 16", "10|registers"), ("large, list, 12", "12|registers"), ("large, small, 21", "14|registers"),
            ("hll_merge(large, one, 14), other, 14", "14|registers"), ("hll_merge(one, other, 14), large, 14", "14|registers"),
            ("hll_merge(one, other), large, 14", "8|registers")):
        found = server.ask("SELECT i.lg_k, i.stage FROM rollup, hll_info(hll_merge(%s)) i" % arguments)
        equal("size of hll_merge(%s)" % arguments, found, wanted)


def words(server, images):
    """hll_set_estimator_fields beside sums of exact numbers."""
    for image, found in zip(images, all_bytes_of(server.ask("SELECT hll_set_estimator_fields(image) FROM sketches ORDER BY n"))):
        equal("hll_set_estimator_fields", found, with_words(image))


def estimates(server):
    """Near the truth, between its bounds, and these wider with each deviation."""
    query = """WITH s AS (SELECT hll_image_add_agg(x) i FROM generate_series(1, %d) x)
        SELECT hll_estimate(i), b.* FROM s, generate_series(1, 3) d, hll_estimate_bounds(i, d) b ORDER BY d"""
    equal("estimate of none", server.ask("SELECT hll_estimate(hll_image_empty())"), "0")
    for count in (1, 7, 100, 1000, 100000):
        rows = [tuple(map(float, line.split("|"))) for line in server.ask(query % count).split("\n")]
        for estimate, lower, upper in rows:
            check("estimate of %d" % count, abs(estimate - count) <= 0.05 * count and lower <= estimate <= upper, rows)
        (_, lower, upper), _, (_, lowest, uppermost) = rows
        check("bounds of %d" % count, lowest <= count <= uppermost and lowest <= lower and upper <= uppermost, rows)
    found = server.ask("SELECT hll_estimate_bounds(i) = hll_estimate_bounds(i, 2) "
                       "FROM (SELECT hll_image_add_agg(x) i FROM generate_series(1, 9999) x) s")
    equal("bounds at 2 by themselves", found, "t")
    hip_estimates(server)


def hip_estimates(server):
    """The word of registers that were counted in order; NULL where there is none, or it is no number of values."""
    counted = bytearray(image_of(11, 8, bytes(n % 5 for n in range(2048))))
    for flag, word, wanted in ((0, 4321.5, "4321.5"), (0, 3e15, "3e+15"), (16, 4321.5, ""), (0, 0.0, ""), (0, -1.0, ""),
                               (0, float("nan"), ""), (0, float("inf"), "")):
        counted[5], counted[8:16] = flag, struct.pack("<d", word)
        found = server.ask("SELECT hll_hip_estimate(%s)" % literal(bytes(counted)))
        equal("hll_hip_estimate of %r, flag %d" % (word, flag), found, wanted)
    found = server.ask("SELECT hll_hip_estimate(NULL) IS NULL, hll_hip_estimate(hll_image_add_agg(x)) IS NULL, "
                       "hll_hip_estimate(hll_image_union_agg(%s)) IS NULL FROM generate_series(1, 9) x" % literal(bytes(counted)))
    equal("hll_hip_estimate of none", found, "t|t|t")


# ---- values


def values(server):
    """hll_image_add_agg beside the hash of docs/FORMAT.md, for text, bytea and int8."""
    strings = [b"", b"a", "ä€😀".encode(), b"x" * 16, b"y" * 15, b"z" * 33] + [b"v%d" % n for n in range(600)]
    for count in (1, 6, 7, 8, 30, 400, len(strings)):
        texts = "unnest(ARRAY[%s]" % ", ".join("'%s'" % value.decode() for value in strings[:count])
        for lg_k, width in ((12, 8), (4, 4), (10, 6), (9, 4)):
            wanted = image_of_values(lg_k, width, strings[:count])
            for value, kind in (("v", "text"), ("v", "varchar"), ("convert_to(v, 'UTF8')", "text")):
                query = "SELECT hll_image_add_agg(%s, %d, %d) FROM %s::%s[]) v" % (value, lg_k, width, texts, kind)
                equal("%d values of %s as %s" % (count, kind, value), bytes_of(server.ask(query)), wanted)
    found = server.ask("SELECT hll_image_add_agg(repeat(n::text, 100000)) FROM generate_series(1, 9) n")
    equal("long values", bytes_of(found), image_of_values(12, 8, [b"%d" % n * 100000 for n in range(1, 10)]))
    integers(server)
    encodings(server)


def integers(server):
    some = [0, 1, -1, 2**63 - 1, -2**63] + [n * n * n * 987654321 for n in range(2000)]
    rows = ", ".join("(%d)" % n for n in some)
    found = server.ask("SELECT hll_image_add_agg(n::int8, 11) FROM (VALUES %s) x(n)" % rows)
    equal("integers", bytes_of(found), image_of_values(11, 8, [struct.pack("<q", n) for n in some]))
    for kind in ("int4", "int2"):
        found = server.ask("SELECT hll_image_add_agg(5::%s) = hll_image_add_agg(5::int8)" % kind)
        equal(kind + " as int8", found, "t")


def encodings(server):
    server.ask("CREATE DATABASE latin ENCODING 'LATIN1' TEMPLATE template0")
    found = server.ask("SET client_encoding = 'UTF8'; CREATE EXTENSION hll_sketches; "
                       "SELECT hll_image_add_agg(v) FROM unnest(ARRAY['äöü', 'ß', 'a']) v", "latin")
    equal("text of LATIN1", bytes_of(found), image_of_values(12, 8, [v.encode() for v in ("äöü", "ß", "a")]))


# ---- arguments


def arguments(server):
    """NULLs, ranges, and what changes between rows."""
    image = literal(image_of_coupons(12, 8, [1 << 26]))
    for question, wanted in (
            ("hll_image_union_agg(i) IS NULL FROM unnest(ARRAY[]::bytea[]) i", "t"),
            ("hll_image_union_agg(i) IS NULL FROM unnest(ARRAY[NULL, NULL]::bytea[]) i", "t"),
            ("hll_image_union_agg(i) = IMAGE FROM unnest(ARRAY[NULL, IMAGE, NULL]) i", "t"),
            ("hll_image_union_agg(i, 10) FROM unnest(ARRAY[hll_image_empty(12)]) i", "\\x0201070a030c0008"),
            ("hll_image_add_agg(v) IS NULL FROM unnest(ARRAY[NULL]::text[]) v", "t"),
            ("hll_image_add_agg(v) = hll_image_add_agg('a') FROM unnest(ARRAY[NULL, 'a', NULL, 'a']) v", "t"),
            ("(hll_info(hll_image_add_agg(v))).coupons FROM unnest(ARRAY['']) v", "1"),
            ("hll_merge(NULL, IMAGE) IS NULL, hll_fault(NULL) IS NULL", "t|t"),
            ("hll_merge(IMAGE, IMAGE, NULL) IS NULL, hll_merge(IMAGE, NULL, 12) IS NULL", "t|t"),
            ("hll_image_empty(), hll_image_empty(10, 4)", "\\x0201070c030c0008|\\x0201070a030c0000"),
            ("hll_is_image(IMAGE), hll_is_image(''), hll_is_image(NULL) IS NULL, hll_first_image(NULL) IS NULL", "t|f|t|t"),
            ("hll_image_empty(10::smallint, 4::bigint) = hll_image_empty(10, 4), hll_fold(IMAGE, 9::smallint) = hll_fold(IMAGE, 9::bigint)", "t|t"),
            ("hll_image_add_agg('a', 9::bigint, 4::smallint) = hll_image_add_agg('a'::varchar, 9::smallint, 4)", "t"),
            ("hyperloglog_agg(7, 12::bigint) = hyperloglog_agg(7::smallint, 12::smallint)", "t"),
            ("hll_estimate_bounds(IMAGE, 3::bigint) = hll_estimate_bounds(IMAGE, 3::smallint)", "t"),
            ("hyperloglog_union_agg(i, 9::bigint, 4::smallint) = hyperloglog_union_agg(i, 9, 4) FROM unnest(ARRAY[IMAGE]) i", "t")):
        equal(question, server.run("SELECT %s;" % question.replace("IMAGE", image)), wanted)
    for question, code in (
            ("hll_image_union_agg(i, 3) FROM unnest(ARRAY[IMAGE]) i", ARGUMENT),
            ("hll_image_union_agg(i, 22) FROM unnest(ARRAY[IMAGE]) i", ARGUMENT),
            ("hll_image_union_agg(i, 12, 5) FROM unnest(ARRAY[IMAGE]) i", ARGUMENT),
            ("hll_image_union_agg(i, 268) FROM unnest(ARRAY[IMAGE]) i", ARGUMENT),
            ("hll_image_union_agg(i, n) FROM (VALUES (IMAGE, 10), (IMAGE, 11)) x(i, n)", ARGUMENT),
            ("hll_image_add_agg('a', 12, n) FROM (VALUES (8), (4)) x(n)", ARGUMENT),
            ("hll_image_union_agg(i, NULL) FROM unnest(ARRAY[IMAGE]) i", NULL),
            ("hll_image_add_agg('a', 12, NULL)", NULL),
            ("hll_image_add_agg('a', 2)", ARGUMENT),
            ("hll_merge(IMAGE, IMAGE, 3)", ARGUMENT),
            ("hll_merge(IMAGE, IMAGE, 22)", ARGUMENT),
            ("hll_merge(IMAGE, IMAGE, 268)", ARGUMENT),
            ("hll_fold(IMAGE, 13)", ARGUMENT),
            ("hll_fold(IMAGE, 3)", ARGUMENT),
            ("hll_convert(IMAGE, 7)", ARGUMENT),
            ("hll_image_empty(22)", ARGUMENT),
            ("hll_image_empty(12, 12)", ARGUMENT),
            ("hll_estimate_bounds(IMAGE, 4)", ARGUMENT),
            ("hll_estimate_bounds(IMAGE, 0)", ARGUMENT),
            ("hll_fold(IMAGE, 4294967300)", ARGUMENT),
            ("hll_convert(IMAGE, 4294967304)", ARGUMENT),
            ("hll_merge(IMAGE, IMAGE, 9223372036854775807)", ARGUMENT),
            ("hll_image_add_agg('a', 4294967308)", ARGUMENT),
            ("hll_image_add_agg('a', 12, 4294967304)", ARGUMENT),
            ("hll_estimate_bounds(IMAGE, 4294967298)", ARGUMENT)):
        refused(question, server.run("SELECT %s;" % question.replace("IMAGE", image)), code)


# ---- reasons


def changed(image, place, byte):
    return image[:place] + bytes([byte]) + image[place + 1:]


GOOD = image_of(10, 8, bytes(range(64)) * 16)


def bad_images():
    """Images for each reason, its word first."""
    four = image_of(10, 4, bytes([1] * 1023 + [40]))
    few = image_of_coupons(10, 8, [1 << 26, 2 << 26 | 5])
    many = image_of_coupons(10, 8, random_coupons(random.Random(SEED), 20))
    return [("truncated", GOOD[:-1]), ("truncated", b""), ("family", changed(GOOD, 2, 8)), ("version", changed(GOOD, 1, 2)),
            ("lgk", changed(GOOD, 3, 22)), ("width", changed(GOOD, 7, 14)), ("stage", changed(GOOD, 7, 11)),
            ("preamble", changed(GOOD, 0, 3)), ("lgarr", changed(few, 4, 4)), ("count", changed(few, 6, 9)),
            ("coupon", few[:8] + few[8:12] * 2), ("coupon", many[:-4] + bytes(4)), ("register", GOOD[:-1] + b"\x40"),
            ("register", changed(four, 40, 0xf1))]


CALLS = ("hll_info(%s)", "hll_fold(%s, 4)", "hll_convert(%s, 4)", "hll_set_estimator_fields(%s)", "hll_estimate(%s)",
         "hll_hip_estimate(%s)", "hll_estimate_bounds(%s)", "# %s", "hll_add(%s, 7)")
ROWS = "SELECT CASE WHEN n = %d THEN %s WHEN n %% 3 = 0 THEN NULL ELSE %s END i FROM generate_series(1, %d) n"


def reasons(server):
    """Each by its word and code, from each function."""
    equal("the reasons tried", sorted({word for word, _ in bad_images()}), sorted(REASONS))
    for word, image in bad_images():
        bad, good = literal(image), literal(GOOD)
        equal("hll_is_image of " + word, server.ask("SELECT hll_is_image(%s)" % bad), "f")
        refused("hll_first_image of " + word, server.run("SELECT hll_first_image(%s);" % bad), IMAGE, "invalid HLL image: %s\n" % word)
        for call in CALLS:
            said = server.run("SELECT %s;" % (call % bad))
            refused("%s of %s" % (call, word), said, IMAGE, "invalid HLL image: %s\n" % word)
        for call in ("hll_merge(%s, %s)", "hll_merge(%s, %s, 9)", "hll_agree(%s, %s)"):
            for number, both in ((1, (bad, good)), (2, (good, bad))):
                said = server.run("SELECT %s;" % (call % both))
                refused("%s of %s" % (call, word), said, IMAGE, "invalid HLL image in argument %d: %s\n" % (number, word))
        for row in (1, 2, 5, 40, 400):
            said = server.run("SELECT hll_image_union_agg(i) FROM (%s) x;" % (ROWS % (row, bad, good, row + 9)))
            refused("row %d of %s" % (row, word), said, IMAGE, "invalid HLL image: %s\n" % word)
            check("its hint", "HINT:  %s, and hll_fault(image) says why.\n" % FINDING in said, said)
    finding(server)


FINDING = "SELECT .. WHERE NOT hll_is_image(image) finds such rows"


def finding(server):
    """What the hints say finds each bad image of a table, and no other row; the aggregate of the rows that are left is made."""
    bad = bad_images() + [("trailing", GOOD + b"\0")]
    server.ask("CREATE TABLE found (n int, image bytea)")
    load(server, "found", [(n, one) for n, image in enumerate(image for _, image in bad) for one in (image, GOOD, None)])
    wanted = "\n".join("%d|%s" % (n, word) for n, (word, _) in enumerate(bad))
    equal("the query of the hint", server.ask("SELECT n, hll_fault(image) FROM found WHERE NOT hll_is_image(image) ORDER BY n"), wanted)
    for name in ("hll_image_union_agg", "hyperloglog_union_agg"):
        said = server.run("SELECT n, %s(image) FROM found GROUP BY n;" % name)
        check("the hint of %s by group" % name, said.startswith("ERROR:  %s: invalid HLL image: " % IMAGE) and FINDING in said, said)
    server.ask("DELETE FROM found WHERE NOT hll_is_image(image)")
    equal("what is left", server.ask("SELECT count(*), count(hll_image_union_agg) FROM (SELECT hll_image_union_agg(image) FROM found GROUP BY n) x"),
          "%d|%d" % (len(bad), len(bad)))
    server.ask("DROP TABLE found")


# ---- bytes after an image


OF_TWO = (("hll_merge(%s, %s)", " in argument 1", " in argument 2"), ("hll_merge(%s, %s, 9)", " in argument 1", " in argument 2"),
          ("hll_agree(%s, %s)", " in argument 1", " in argument 2"), ("%s::hyperloglog || %s", "", " in argument 2"),
          ("%s || %s::hyperloglog", " in argument 1", ""))


def trailing(server):
    """Bytes after an image are refused wherever bytea is taken, so that bytea || bytea is no sketch; hll_first_image cuts them."""
    images = [GOOD, image_of_coupons(12, 8, [1 << 26]), image_of_coupons(10, 4, []), image_of(10, 4, bytes([1] * 1023 + [40])),
              image_of(9, 6, bytes(range(64)) * 8), image_of_coupons(12, 6, random_coupons(random.Random(SEED), 60))]
    for image, more in itertools.product(images, (b"\0", b"\x02", GOOD)):
        followed(server, image, more)
    followed(server, images[1], images[1])
    said = server.run("SELECT # (%s || %s);" % (literal(images[1]), literal(images[1])))
    refused("bytea || bytea", said, IMAGE, "invalid HLL image: 12 bytes follow it\n")
    check("its hint", "hll_first_image cuts off what follows" in said, said)


def followed(server, image, more):
    """Each call on an image with more bytes after it."""
    longer, good = literal(image + more), literal(image)
    follow = ": %d byte%s it\n" % (len(more), "s follow" if len(more) > 1 else " follows")
    found = server.ask("SELECT hll_fault(i), hll_is_image(i) FROM unnest(ARRAY[%s, %s]) i" % (longer, good))
    equal("faults of an image with bytes after it", found, "trailing|f\n|t")
    equal("hll_first_image", bytes_of(server.ask("SELECT hll_first_image(%s)" % longer)), image)
    for call in CALLS:
        refused(call + " with bytes after it", server.run("SELECT %s;" % (call % longer)), IMAGE, "invalid HLL image" + follow)
    for call, first, second in OF_TWO:
        for place, both in ((first, (longer, good)), (second, (good, longer))):
            refused("%s, bytes after one%s" % (call, place), server.run("SELECT %s;" % (call % both)), IMAGE, "invalid HLL image%s%s" % (place, follow))
    for aggregate in ("hll_image_union_agg", "hyperloglog_union_agg"):
        said = server.run("SELECT %s(i) FROM (VALUES (%s), (NULL), (%s)) x(i);" % (aggregate, good, longer))
        refused(aggregate + " with bytes after a row", said, IMAGE, "invalid HLL image" + follow)
        check("its hint", "cuts off what follows. %s.\n" % FINDING in said, said)
