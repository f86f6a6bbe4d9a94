# SPDX-License-Identifier: Apache-2.0
"""The type hyperloglog: in and out, modifiers, casts, operators, comparisons, COPY, and names that could be another type's."""
import random
import time

from images import image_of, image_of_coupons, merged, other_image, random_coupons, random_image
from report import ARGUMENT, CHECKED, DATA, IMAGE, NULL, SEED, all_bytes_of, bytes_of, check, equal, literal, load, refused
from long_searches import stride_coupons, unsorted_set

EMPTY = "\\x0201070c030c0008"
DOMAIN = "DO $$ BEGIN CREATE DOMAIN an_image AS bytea CHECK (hll_is_image(VALUE)); EXCEPTION WHEN duplicate_object THEN END $$"


def typed(image):
    return "'\\x%s'::hyperloglog" % image.hex()


# ---- in and out


def in_and_out(server):
    """Each image comes out as it went in, by text and in binary; in hexadecimal, whatever bytea_output is."""
    numbers = random.Random(SEED)
    images = [random_image(numbers) for _ in range(200)] + [other_image(numbers) for _ in range(400)]
    server.ask("CREATE TABLE typed (n int, sketch hyperloglog); CREATE TABLE again (LIKE typed)")
    load(server, "typed", list(enumerate(images)))
    query = "SELECT sketch FROM %s ORDER BY n"
    equal("out as it went in", all_bytes_of(server.ask(query % "typed")), images)
    equal("escapes of bytea", all_bytes_of(server.ask("SET bytea_output = escape; " + query % "typed")), images)
    path = server.file("binary")
    server.ask("COPY typed TO '%s' (FORMAT binary); COPY again FROM '%s' (FORMAT binary)" % (path, path))
    equal("COPY in binary", all_bytes_of(server.ask(query % "again")), images)
    server.ask("TRUNCATE again; COPY typed TO '%s'" % path)
    server.ask("COPY again FROM '%s'" % path)
    equal("COPY of text", all_bytes_of(server.ask(query % "again")), images)
    found = server.ask("SELECT bool_and(sketch::bytea::hyperloglog = sketch AND sketch::text::hyperloglog = sketch "
                       "AND hyperloglog_send(sketch) = sketch::bytea) FROM typed")
    equal("casts there and back", found, "t")
    equal("octal escapes as bytea takes them", server.ask("SELECT '\\002\\001\\007\\014\\003\\014\\000\\010'::hyperloglog"), EMPTY)
    storage = server.ask("SELECT typstorage, typcategory, typispreferred FROM pg_type WHERE typname = 'hyperloglog'")
    equal("storage", storage, "e|U|t")
    bad_input(server)


def bad_input(server):
    """What is no image, or more than one, from a literal, a cast, a column and COPY."""
    good = image_of_coupons(12, 8, [1 << 26, 2 << 26 | 5])
    for name, image, message in (("cut", good[:-1], "invalid HLL image: truncated\n"), ("none", b"", "invalid HLL image: truncated\n"),
                                 ("other family", bytes(8), "invalid HLL image: family\n"),
                                 ("places that aren't empty", bytes([2, 1, 7, 12, 3, 4, 0, 8]) + bytes(31) + b"\1",
                                  "invalid HLL image: 32 bytes follow it\n"),
                                 ("a byte more", good + b"\0", "invalid HLL image: 1 byte follows it\n"),
                                 ("two images", good + good, "invalid HLL image: 16 bytes follow it\n")):
        path = server.file("bad")
        for way in ("SELECT %s" % typed(image), "SELECT %s::hyperloglog" % literal(image),
                    "INSERT INTO typed VALUES (0, %s)" % literal(image),
                    "COPY (SELECT 0, %s) TO '%s' (FORMAT binary); COPY typed FROM '%s' (FORMAT binary)" % (literal(image), path, path),
                    "COPY (SELECT 0, %s) TO '%s'; COPY typed FROM '%s'" % (literal(image), path, path)):
            refused("%s by %s" % (name, way[:40]), server.run(way + ";"), IMAGE, message)
    for text in ("x", "\\xzz", "\\x0"):
        said = server.run("SELECT '%s'::hyperloglog;" % text)
        check("input %s" % text, said.startswith("ERROR:  22"), said)
    refused("no cast from int4", server.run("SELECT 1::hyperloglog;"), "42846")
    equal("NULL", server.ask("SELECT NULL::hyperloglog(12) IS NULL, # NULL::hyperloglog IS NULL, (NULL || '%s'::hyperloglog) IS NULL"
                             % EMPTY), "t|t|t")


# ---- modifiers

SIZES = "an HLL image of %s %d, not %d"


def modifiers(server):
    """A column's lg_k and width are asked of what is assigned, cast, copied and restored, and change nothing."""
    server.ask(DOMAIN)
    server.ask("CREATE TABLE fixed (twelve hyperloglog(12), eight hyperloglog(12, 8) DEFAULT hyperloglog_empty(12, 8))")
    found = server.ask("SELECT format_type(atttypid, atttypmod) FROM pg_attribute WHERE attrelid = 'fixed'::regclass AND attnum > 0")
    equal("modifiers as they are shown", found, "hyperloglog(12)\nhyperloglog(12,8)")
    for arguments, message in (("3", "lg_k must be between 4 and 21, not 3"), ("22", "lg_k must be between 4 and 21, not 22"),
                               ("12, 5", "width must be 4, 6 or 8, not 5"), ("12, 0", "width must be 4, 6 or 8, not 0"),
                               ("12, 8, 1", "hyperloglog takes an lg_k, or an lg_k and a width")):
        refused("modifier " + arguments, server.run("SELECT NULL::hyperloglog(%s);" % arguments), ARGUMENT, message)
    called_directly(server)
    coupons = random_coupons(random.Random(SEED), 20)
    for lg_k, width in ((12, 8), (12, 4), (13, 8), (11, 6)):
        image = image_of_coupons(lg_k, width, coupons)
        ways(server, image, "twelve", "lg_k", 12, lg_k)
        ways(server, image, "eight", "lg_k" if lg_k != 12 else "width", 12 if lg_k != 12 else 8, lg_k if lg_k != 12 else width)
    equal("the default", server.ask("INSERT INTO fixed DEFAULT VALUES RETURNING eight"), EMPTY)
    said = server.run("ALTER TABLE fixed ALTER eight TYPE hyperloglog(11);")
    refused("another modifier of a column", said, DATA, "expected an HLL image of lg_k 11, not 12")
    equal("a modifier taken away", server.run("ALTER TABLE fixed ALTER eight TYPE hyperloglog;"), "")
    for image, word in ((bytes(9), "family"), (bytes([2, 1, 7, 22, 3, 12, 0, 8]), "lgk"), (b"", "truncated"), (bytes([10, 1, 7, 12]), "truncated")):
        refused("no image at all: " + word, server.run("SELECT %s::hyperloglog(12);" % literal(image)), IMAGE, "invalid HLL image: %s\n" % word)
    lengths(server)
    server.ask("CREATE TABLE toasted_typed AS SELECT hyperloglog_agg(n, 14) sketch FROM generate_series(1, 50000) n")
    found = server.ask("SELECT sketch::hyperloglog(14, 8) = sketch, pg_relation_size(reltoastrelid) > 16000 FROM toasted_typed, pg_class "
                       "WHERE relname = 'toasted_typed'")
    equal("a toasted sketch", found, "t|t")
    refused("another modifier of a toasted sketch", server.run("ALTER TABLE toasted_typed ALTER sketch TYPE hyperloglog(13);"), DATA,
            "expected an HLL image of lg_k 13, not 14")
    equal("a modifier of a toasted sketch", server.run("ALTER TABLE toasted_typed ALTER sketch TYPE hyperloglog(14);"), "")


def called_directly(server):
    """The functions of modifiers, given what the server never gives them."""
    for call, answer in (
            ("hyperloglog_typmod_in('{12}')", "12"), ("hyperloglog_typmod_in('{12, 8}')", str(12 + 8 * 256)),
            ("hyperloglog_typmod_out(12)", "(12)"), ("hyperloglog_typmod_out(2060)", "(12,8)"),
            ("hyperloglog(hyperloglog_empty(12), -7, true)", EMPTY), ("hyperloglog(hll_image_empty(12), 12, true)", EMPTY),
            ("hyperloglog_in('%s', 0, 12)" % EMPTY, EMPTY)):
        equal(call, server.run("SELECT %s;" % call), answer)
    for call, code in (
            ("hyperloglog_typmod_in('{}')", "2202E"), ("hyperloglog_typmod_in('{12, 8, 8}')", ARGUMENT),
            ("hyperloglog_typmod_in('{NULL}')", NULL), ("hyperloglog_typmod_in('{{12}}')", "2202E"),
            ("hyperloglog_typmod_in('{a}')", "22P02"), ("hyperloglog(hyperloglog_empty(12), 2147483647, false)", DATA),
            ("hyperloglog(hyperloglog_empty(12), 63, true)", DATA), ("hyperloglog(hyperloglog_empty(12), 12 + 3 * 256, true)", DATA),
            ("hyperloglog(hll_image_empty(12), 255, true)", DATA), ("hyperloglog_in('%s', 0, 2147483647)" % EMPTY, DATA)):
        refused(call, server.run("SELECT %s;" % call), code)


def ways(server, image, column, what, wanted, found):
    """An image into a column by each way that there is."""
    path = server.file("one")
    server.ask("COPY (SELECT %s) TO '%s'; COPY (SELECT %s) TO '%s.binary' (FORMAT binary)" % (
        literal(image), path, literal(image), path))
    kind = {"twelve": "hyperloglog(12)", "eight": "hyperloglog(12, 8)"}[column]
    function = """DO $$ DECLARE s %s; BEGIN s := %s; INSERT INTO fixed(%s) VALUES (s); END $$""" % (kind, typed(image), column)
    for way in ("INSERT INTO fixed(%s) VALUES (%s)" % (column, typed(image)), "INSERT INTO fixed(%s) VALUES (%s)" % (column, literal(image)),
                "INSERT INTO fixed(%s) SELECT %s::%s" % (column, typed(image), kind),
                "INSERT INTO fixed(%s) SELECT %s::%s" % (column, literal(image), kind),
                "INSERT INTO fixed(%s) VALUES (%s::an_image)" % (column, literal(image)), function,
                "COPY fixed(%s) FROM '%s'" % (column, path), "COPY fixed(%s) FROM '%s.binary' (FORMAT binary)" % (column, path)):
        said = server.run("TRUNCATE fixed; %s;" % way)
        name = "%s by %s" % (kind, way[:50])
        if wanted == found:
            equal(name, said, "")
            equal("what came by " + name, bytes_of(server.ask("SELECT %s FROM fixed" % column)), image)
        else:
            refused(name, said, DATA, "expected an HLL image of %s %d, not %d\n" % (what, wanted, found))


def lengths(server):
    """All that is written at an lg_k and a width is short enough, and what is longer is refused before it is read."""
    numbers = random.Random(SEED)
    for lg_k in (4, 8, 10, 12):
        for width in (4, 6, 8):
            most = image_of(lg_k, width, bytes([1] * (2**lg_k // 4) + [60] * (3 * 2**lg_k // 4)))
            some = [most] + [image for image in (other_image(numbers, lg_k) for _ in range(60)) if 2 * (image[7] >> 2 & 3) + 4 == width]
            for image in some:
                said = server.run("SELECT (%s::hyperloglog(%d, %d) = %s::hyperloglog(%d)) IS NULL;" % (
                    literal(image), lg_k, width, literal(image), lg_k))
                equal("length at lg_k %d, width %d" % (lg_k, width), said, "f")
    for modifier, most in (("12, 8", 4136), ("12, 6", 3113), ("12, 4", 20520), ("12", 20520)):
        image = image_of(12, int(modifier[3:] or 8), bytes(range(64)) * 64)
        image += bytes(most - len(image))
        said = server.run("SELECT %s::hyperloglog(%s);" % (literal(image + b"\0"), modifier))
        refused("a byte too many for " + modifier, said, DATA, "expected an HLL image of at most %d bytes, not %d\n" % (most, most + 1))


def bounded(server):
    """A modifier refuses what is slow to read before it is read."""
    slow, path = unsorted_set(18, stride_coupons(18)), server.file("slow")
    server.ask("CREATE TABLE slow_sent (image bytea); CREATE TABLE bounded (sketch hyperloglog(14))")
    load(server, "slow_sent", [(slow,)])
    server.ask("COPY slow_sent TO '%s'; COPY slow_sent TO '%s.binary' (FORMAT binary)" % (path, path))
    for way in ("INSERT INTO bounded SELECT image FROM slow_sent", "COPY bounded FROM '%s'" % path,
                "COPY bounded FROM '%s.binary' (FORMAT binary)" % path, "SELECT image::hyperloglog(14) FROM slow_sent"):
        started = time.monotonic()
        refused("a slow image by " + way[:30], server.run(way + ";"), DATA, "expected an HLL image of lg_k 14, not 21\n")
        check("a slow image at once by " + way[:30], time.monotonic() - started < 0.4, time.monotonic() - started)


# ---- operators and comparisons


def operators(server):
    """Those of the type beside the functions, and equality of bytes by each kind of plan."""
    numbers = random.Random(SEED)
    images = [random_image(numbers, 10) for _ in range(40)]
    server.ask("CREATE TABLE few_typed (n int, sketch hyperloglog)")
    load(server, "few_typed", [(n, images[n % 40]) for n in range(400)])
    pairs = server.ask("SELECT a.sketch || b.sketch FROM few_typed a JOIN few_typed b ON b.n = a.n + 1 WHERE a.n < 39 ORDER BY a.n")
    for a, b, union in zip(images, images[1:], all_bytes_of(pairs)):
        equal("||", union, merged([a, b]))
    for question, wanted in (
            ("bool_and(# sketch = hll_estimate(sketch::bytea)) FROM few_typed", "t"),
            ("count(DISTINCT sketch), count(*) FILTER (WHERE sketch = (SELECT sketch FROM few_typed WHERE n = 3)) FROM few_typed", "40|10"),
            ("count(*) FROM few_typed a JOIN few_typed b USING (sketch)", "4000"),
            ("bool_and((a.sketch = b.sketch) = (a.sketch::bytea = b.sketch::bytea) AND (a.sketch <> b.sketch) = (a.sketch::bytea <> b.sketch::bytea) "
             "AND (a.sketch < b.sketch) = (a.sketch::bytea < b.sketch::bytea)) FROM few_typed a, few_typed b WHERE a.n < 40 AND b.n < 40", "t"),
            ("count(*) FROM (SELECT DISTINCT hash_record_extended(ROW(sketch), 7) FROM few_typed) x", "40"),
            ("array_agg(sketch) = array_agg(sketch) FROM few_typed", "t"),
            ("count(*), bool_and(u = w) FROM (SELECT hyperloglog_union_agg(sketch) OVER (ORDER BY n ROWS 5 PRECEDING) u, (SELECT "
             "hyperloglog_union_agg(b.sketch) FROM few_typed b WHERE b.n BETWEEN a.n - 5 AND a.n) w FROM few_typed a) x", "400|t"),
            ("bool_and(hll_agree(sketch, hll_convert(sketch, 4))) FROM few_typed", "t")):
        equal(question, server.ask("SELECT " + question), wanted)
    for question, set_up, node in (
            ("SELECT sketch FROM few_typed GROUP BY sketch", "", "HashAggregate"), ("SELECT sketch FROM few_typed GROUP BY sketch",
             "SET enable_hashagg = off;", "Sort"), ("SELECT FROM few_typed a JOIN few_typed b USING (sketch)", "SET enable_mergejoin = off;", "Hash Join"),
            ("SELECT FROM few_typed a JOIN few_typed b USING (sketch)", "SET enable_hashjoin = off; SET enable_nestloop = off;", "Merge Join")):
        plan = server.ask(set_up + "EXPLAIN (COSTS OFF) " + question)
        check("plan of %s with %s" % (question, node), node in plan, plan)
        count = server.ask(set_up + "SELECT count(*) FROM (%s) x" % question)
        equal("%s by %s" % (question, node), count, "4000" if "JOIN" in question else "40")
    server.ask("CREATE INDEX ON few_typed USING hash (sketch); CREATE INDEX ON few_typed (n, sketch); SET enable_seqscan = off; ANALYZE few_typed")
    plan = server.ask("SET enable_seqscan = off; EXPLAIN (COSTS OFF) SELECT FROM few_typed WHERE sketch = %s" % typed(images[0]))
    check("a hash index", "Index" in plan and "few_typed_sketch_idx" in plan, plan)
    found = server.ask("SET enable_seqscan = off; SELECT count(*) FROM few_typed WHERE sketch = %s" % typed(images[0]))
    equal("rows by a hash index", found, "10")


IMAGES = {"hyperloglog": "'%s'::hyperloglog" % EMPTY, "bytea": "'%s'::bytea" % EMPTY, "a domain": "'%s'::an_image" % EMPTY,
          "a literal": "'%s'" % EMPTY, "NULL": "NULL", "hyperloglog(12)": "'%s'::hyperloglog(12)" % EMPTY}
OF_ONE = {"hll_estimate(%s)": "0", "hll_info(%s)": "(12,8,list,0,0)", "hll_estimate_bounds(%s)": "(0,0)", "hll_fault(%s)": "",
          "hll_hip_estimate(%s)": "", "hll_fold(%s, 4)": "\\x02010704030c0008", "hll_convert(%s, 4)": "\\x0201070c030c0000",
          "hll_set_estimator_fields(%s)": EMPTY, "hll_is_image(%s)": "t",
          "hyperloglog_union_agg(%s)": EMPTY, "hll_image_union_agg(%s)": EMPTY, "hll_image_union_agg(%s, 10)": "\\x0201070a030c0008"}
GIVES_TYPE = "hll_fold", "hll_convert", "hll_set_estimator_fields"


def overloads(server):
    """Each function takes the type, bytea, the domain, a literal and NULL, and gives the type where it got that."""
    server.ask(DOMAIN)
    for call, wanted in OF_ONE.items():
        for kind, value in IMAGES.items():
            said = server.run("SELECT %s;" % (call % value))
            equal("%s of %s" % (call, kind), said, "" if kind == "NULL" else wanted)
            given = server.ask("SELECT pg_typeof(%s)" % (call % value))
            if call.startswith(GIVES_TYPE):
                equal("the type of %s of %s" % (call, kind), given, "bytea" if kind in ("bytea", "a domain") else "hyperloglog")
    for left, a in IMAGES.items():
        for right, b in IMAGES.items():
            kinds = {left, right} - {"a literal", "NULL"}
            of_type = not kinds or any(kind.startswith("hyperloglog") for kind in kinds)
            said = server.ask("SELECT hll_agree(%s, %s), hll_merge(%s, %s)::bytea" % (a, b, a, b))
            equal("hll_merge of %s and %s" % (left, right), said, "|" if "NULL" in (left, right) else "t|" + EMPTY)
            if of_type and kinds:
                equal("type of || of %s and %s" % (left, right), server.ask("SELECT pg_typeof(%s || %s)" % (a, b)), "hyperloglog")
                equal("type of hll_merge of %s and %s" % (left, right), server.ask("SELECT pg_typeof(hll_merge(%s, %s))" % (a, b)), "hyperloglog")
    for arguments in ("", "10", "10, 4"):
        found = server.ask("SELECT pg_typeof(hyperloglog_empty(%s)), hyperloglog_empty(%s)::bytea = hll_image_empty(%s)" % ((arguments,) * 3))
        equal("hyperloglog_empty(%s)" % arguments, found, "hyperloglog|t")
    server.ask("CREATE TABLE both_ways (sketch hyperloglog, image an_image)")
    equal("from a domain, and back", server.run("INSERT INTO both_ways VALUES ('%s'::an_image, '%s'::hyperloglog);" % (EMPTY, EMPTY)), "")
    refused("bytes that a domain refuses", server.run("INSERT INTO both_ways(image) VALUES ('\\x00'::bytea);"), CHECKED)
    found = server.ask("SELECT length(sketch), octet_length(sketch), md5(sketch) = md5(image), get_byte(sketch, 3) FROM both_ways")
    equal("functions of bytea", found, "8|8|t|12")


# ---- aggregates


def typed_aggregates(server):
    """Those of the type are those of bytea, for images of each writer."""
    numbers = random.Random(SEED + 2)
    server.ask("CREATE TABLE groups_typed (g int, image bytea, sketch hyperloglog)")
    groups = [numbers.randrange(400) for _ in range(4000)]
    load(server, "groups_typed (g, image)", [(g, numbers.choice([random_image, other_image])(numbers, 8 + g % 5)) for g in groups])
    server.ask("UPDATE groups_typed SET sketch = image")
    for options in ("", ", 10", ", 9, 4", ", 21, 6"):
        found = server.ask("""SELECT count(*), bool_and(t::bytea = b), min(pg_typeof(t)::text), bool_and(t::bytea = i AND t = u), min(pg_typeof(u)::text)
            FROM (SELECT hyperloglog_union_agg(sketch%s) t, hll_image_union_agg(image%s) b, hll_image_union_agg(sketch%s) i, hyperloglog_union_agg(image%s) u
            FROM groups_typed GROUP BY g) x""" % ((options,) * 4))
        equal("hyperloglog_union_agg%s" % options, found, "400|t|hyperloglog|t|hyperloglog")
    for value in ("n", "n::text", "n::text::bytea"):
        for options in ("", ", 10", ", 9, 4"):
            found = server.ask("SELECT pg_typeof(t), t::bytea = b FROM (SELECT hyperloglog_agg(%s%s) t, hll_image_add_agg(%s%s) b "
                               "FROM generate_series(1, 5000) n) x" % (value, options, value, options))
            equal("hyperloglog_agg(%s%s)" % (value, options), found, "hyperloglog|t")
    for question, wanted in (("hyperloglog_union_agg(s) IS NULL FROM unnest(ARRAY[NULL]::hyperloglog[]) s", "t"),
                             ("hyperloglog_union_agg(s) IS NULL FROM unnest(ARRAY[]::hyperloglog[]) s", "t"),
                             ("hyperloglog_union_agg(s, 10) FROM unnest(ARRAY[NULL, '%s']::hyperloglog[]) s" % EMPTY, "\\x0201070a030c0008")):
        equal(question, server.ask("SELECT " + question), wanted)
    refused("a row of a union", server.run("SELECT hyperloglog_union_agg(sketch, 12, g %% 2) FROM groups_typed;".replace("%%", "%")), ARGUMENT)


MILLION = "SELECT (n * 31 + m / 2) % 5000 g, sketch FROM writers, generate_series(0, 499) m WHERE m % 2 < {} ORDER BY {}"


def million(server):
    """A million rows of images by other writers, over 5,000 groups: each image twice, or once and in another order."""
    numbers = random.Random(SEED + 4)
    images = [other_image(numbers, numbers.choice([10, 10, 11, 12])) for _ in range(2000)]
    server.ask("CREATE TABLE writers (n int, sketch hyperloglog)")
    load(server, "writers", list(enumerate(images)))
    union = "SELECT g, hyperloglog_union_agg(sketch, 11, 6) u, count(*) FROM (%s) x GROUP BY g"
    found = server.ask("SELECT count(*), sum(a.count), sum(b.count), bool_and(a.u = b.u) FROM (%s) a JOIN (%s) b USING (g)" % (
        union % MILLION.format(2, "n, m"), union % MILLION.format(1, "m, n DESC")))
    equal("a million rows", found, "5000|1000000|500000|t")


# ---- tests/behaviour/life.txt


def life_zero(server):
    """A variable that was declared and not set is NULL, and stays NULL in each call."""
    said = server.run("""DO $$ DECLARE s hyperloglog; BEGIN
        RAISE NOTICE 'all NULL %', (# s) IS NULL AND hll_add(s, 'ann') IS NULL AND hll_merge(s, s) IS NULL AND hyperloglog_agg(NULL::text) IS NULL; END $$;""")
    check("a variable that was not set", "all NULL t" in said, said)


def life_copied(server):
    """A variable that was assigned from another one keeps its sketch when that one changes, in registers too."""
    for n in (5, 3000):
        said = server.run("""DO $$ DECLARE s hyperloglog; copied hyperloglog; BEGIN
            SELECT hyperloglog_agg(g) INTO s FROM generate_series(1, %d) g;
            copied := s;
            FOR n IN 1 .. 500 LOOP s := hll_add(s, 'another ' || n); END LOOP;
            RAISE NOTICE 'copied %% %%', copied = (SELECT hyperloglog_agg(g) FROM generate_series(1, %d) g), copied <> s; END $$;""" % (n, n))
        check("a copy of %d values" % n, "copied t t" in said, said)


def life_json(server):
    """In JSON a sketch is one string: its text form, which is hexadecimal as that of bytea, and base64 by encode."""
    found = server.ask("SELECT to_json(hyperloglog_agg(v)), (to_json(hyperloglog_agg(v)) #>> '{}')::hyperloglog = hyperloglog_agg(v), encode(hyperloglog_agg(v)::bytea, 'base64') "
                       "FROM unnest(ARRAY['ann', 'bob']) v")
    equal("a sketch in JSON", found, '"\\\\x0201070c03080208f8116004bf20641c"|t|AgEHDAMIAgj4EWAEvyBkHA==')
