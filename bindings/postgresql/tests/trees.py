# SPDX-License-Identifier: Apache-2.0
"""Merges without a bound: of one lg_k they give the bytes of the plain model, however they are grouped; of several they fail."""
import random
import re

from images import image_of_coupons, merged, random_coupons, random_image
from report import ARGUMENT, DATA, QUICK, SEED, bytes_of, check, equal, literal, load, refused
from unions import PLAN, SPILLS, launched, settings

GROUPS = 300 if QUICK else 1200
SIZES = [4, 7, 8, 9, 10, 12, 13, 14]
OTHERS = "sketches of lg_k %d and %d can't be merged without a bound\n"


def pools(numbers):
    """Images of each lg_k: some of any stage and width, and empty ones."""
    full = {lg_k: [random_image(numbers, lg_k) for _ in range(12)] for lg_k in SIZES}
    for lg_k, images in full.items():
        images += [image_of_coupons(lg_k, width, random_coupons(numbers, count)) for width in (4, 6, 8) for count in (1, 5, 60)]
    return full, [image_of_coupons(lg_k, width, []) for lg_k in SIZES for width in (4, 6, 8)]


def random_groups(numbers):
    """Lists of two images or more: of one lg_k, of one width too, of empty ones alone; with empty ones of any lg_k between."""
    full, empty = pools(numbers)
    for _ in range(GROUPS):
        images, kind = full[numbers.choice(SIZES)], numbers.randrange(8)
        if kind == 0:
            images = empty
        if kind < 4:
            width = numbers.choice(images)[7] & 12
            images = [image for image in images if image[7] & 12 == width]
        group = numbers.choices(images, k=numbers.randint(2, 9))
        yield [numbers.choice(empty) if numbers.random() < 0.2 else image for image in group]


TREES = """
CREATE OR REPLACE FUNCTION tree(images bytea[], seed int) RETURNS bytea LANGUAGE plpgsql AS $$
DECLARE
    number int := hashint4(seed) & 1048575;
    front int := 1 + number % greatest(cardinality(images) - 1, 1);
BEGIN
    IF cardinality(images) = 1 THEN
        RETURN images[1];
    ELSIF number % 5 = 0 THEN
        RETURN (SELECT hll_image_union_agg(i) FROM unnest(images) i);
    END IF;
    RETURN hll_merge(tree(images[:front], 2 * seed), tree(images[front + 1:], 2 * seed + 1));
END $$;
CREATE OR REPLACE FUNCTION typed_tree(images bytea[], seed int) RETURNS hyperloglog LANGUAGE plpgsql AS $$
DECLARE
    number int := hashint4(seed) & 1048575;
    front int := 1 + number % greatest(cardinality(images) - 1, 1);
BEGIN
    IF cardinality(images) = 1 THEN
        RETURN images[1];
    ELSIF number % 5 = 0 THEN
        RETURN (SELECT hyperloglog_union_agg(i::hyperloglog) FROM unnest(images) i);
    END IF;
    RETURN typed_tree(images[:front], 2 * seed) || typed_tree(images[front + 1:], 2 * seed + 1);
END $$;
CREATE OR REPLACE FUNCTION fault_of_tree(images bytea[], seed int) RETURNS text LANGUAGE plpgsql AS $$
BEGIN
    PERFORM tree(images, seed), typed_tree(images, seed);
    RETURN 'none';
EXCEPTION WHEN data_exception THEN
    RETURN SQLERRM;
END $$;
CREATE OR REPLACE AGGREGATE tree_of(hyperloglog) (SFUNC = hll_merge, STYPE = hyperloglog, COMBINEFUNC = hll_merge, PARALLEL = SAFE);
"""
TABLES = "CREATE TABLE leaves (g int, n int, image bytea, sketch hyperloglog); CREATE TABLE roots (g int, answer bytea)"
STEPS = {"hll_image_union_trans(internal, bytea)": 50, "hll_image_union_trans(internal, hyperloglog)": 50,
         "hll_merge(hyperloglog, hyperloglog)": 100}
CALLS = ["hll_image_union_agg(image)", "hyperloglog_union_agg(sketch)::bytea", "tree_of(sketch)::bytea"]


def trees(server):
    """Random trees of merges, and each aggregate by each plan."""
    groups = list(random_groups(random.Random(SEED + 7)))
    server.ask(TREES + TABLES)
    load(server, "leaves (g, n, image)", [(g, n, image) for g, images in enumerate(groups) for n, image in enumerate(images)])
    load(server, "roots", [(g, merged(images)) for g, images in enumerate(groups)])
    server.ask("UPDATE leaves SET sketch = image; ALTER TABLE leaves SET (parallel_workers = 3); ANALYZE")
    found = server.ask("""SELECT count(*), bool_and(a.seeds), bool_and(b.seeds) FROM roots,
        LATERAL (SELECT array_agg(image ORDER BY hashint4(n + g)) images FROM leaves WHERE leaves.g = roots.g) x,
        LATERAL (SELECT bool_and(tree(images, s + g) = answer) seeds FROM generate_series(1, 5) s) a,
        LATERAL (SELECT bool_and(typed_tree(images, s + g)::bytea = answer) seeds FROM generate_series(1, 5) s) b""")
    equal("random trees", found, "%d|t|t" % GROUPS)
    # an expensive step makes the planner give it to the workers
    server.ask("; ".join("ALTER FUNCTION %s COST 10000" % step for step in STEPS))
    for call in CALLS:
        by_each_plan(server, call)
    server.ask("; ".join("ALTER FUNCTION %s COST %d" % step for step in STEPS.items()))
    windows(server)
    print("  %d trees" % GROUPS)


def by_each_plan(server, call):
    """A group's union is that of the model in one process, in workers, by hash, by sort and where groups go to disk."""
    query = "SELECT g, %s u FROM leaves GROUP BY g" % call
    wrong = "SELECT count(*), count(*) FILTER (WHERE u IS DISTINCT FROM answer) FROM answers JOIN roots USING (g)"
    for workers, is_hash, more in ((0, True, ""), (0, False, ""), (3, True, ""), (3, False, ""), (0, True, SPILLS), (3, True, SPILLS)):
        name = "%s, %d workers, by %s %s" % (call, workers, "hash" if is_hash else "sort", more)
        set_up = settings(workers, is_hash) + more
        found = server.ask(set_up + "CREATE TEMP TABLE answers AS %s; %s" % (query, wrong))
        equal(name, found, "%d|0" % GROUPS)
        plan = server.ask(set_up + PLAN + query)
        equal("workers for " + name, (launched(plan), "Partial" in plan), (workers, workers > 0))
        check("disk for " + name, not more or "Disk Usage" in plan, plan)


def windows(server):
    """Moving unions, and running ones, are those of their rows."""
    for frame, rows in (("", "b.n <= a.n"), ("ROWS 2 PRECEDING", "b.n BETWEEN a.n - 2 AND a.n"),
                        ("ROWS BETWEEN 1 PRECEDING AND 1 FOLLOWING", "b.n BETWEEN a.n - 1 AND a.n + 1")):
        for call in CALLS[:2]:
            found = server.ask("""SELECT count(*) > 500, bool_and(u = w) FROM (SELECT %s OVER (PARTITION BY g ORDER BY n %s) u,
                (SELECT %s FROM leaves b WHERE b.g = a.g AND %s) w FROM leaves a WHERE g < 200) x""" % (
                    call.replace("::bytea", ""), frame, call.replace("::bytea", ""), rows))
            equal("%s in windows %s" % (call, frame), found, "t|t")


def other_sizes(server):
    """Sketches of different lg_k are refused without a bound, by every way, and merged under one."""
    numbers = random.Random(SEED + 8)
    full, empty = pools(numbers)
    groups = []
    while len(groups) < 200:
        images = [numbers.choice(full[lg_k]) for lg_k in numbers.choices(SIZES, k=3)] + numbers.choices(empty, k=2)
        if merged(images) is None:
            groups.append(numbers.sample(images, len(images)))
    server.ask(TREES + "CREATE TABLE mixed (g int, n int, image bytea)")
    load(server, "mixed", [(g, n, image) for g, images in enumerate(groups) for n, image in enumerate(images)])
    found = server.ask(r"""SELECT count(*), count(*) FILTER (WHERE fault ~ '^sketches of lg_k \d+ and \d+ can''t be merged without a bound$')
        FROM (SELECT fault_of_tree(array_agg(image ORDER BY n), g) fault FROM mixed GROUP BY g) x""")
    equal("trees of different lg_k", found, "200|200")
    server.ask("CREATE TABLE bounded_roots (g int, answer bytea)")
    for bound in (4, 9, 12, 14, 21):
        server.ask("TRUNCATE bounded_roots")
        load(server, "bounded_roots", [(g, merged(images, bound)) for g, images in enumerate(groups)])
        found = server.ask("""SELECT count(*), bool_and(u = answer AND t::bytea = answer) FROM bounded_roots JOIN (SELECT g, hll_image_union_agg(image, %d) u,
            hyperloglog_union_agg(image::hyperloglog, %d) t FROM mixed GROUP BY g) x USING (g)""" % (bound, bound))
        equal("different lg_k under the bound %d" % bound, found, "200|t")
    messages(server)
    workers(server)


def messages(server):
    """The error names both lg_k, the argument to give, and the query that counts the sketches of each; no number of a row."""
    rows = "(VALUES (hyperloglog_agg_of(12)), (NULL), (hyperloglog_empty(9)), (hyperloglog_agg_of(14)), (hyperloglog_agg_of(10))) x(s)"
    server.ask("CREATE FUNCTION hyperloglog_agg_of(lg_k int) RETURNS hyperloglog LANGUAGE sql IMMUTABLE AS 'SELECT hyperloglog_agg(7, lg_k)'")
    for name, value in ("hyperloglog_union_agg", "s"), ("hll_image_union_agg", "s::bytea"):
        said = server.run("SELECT %s(%s) FROM %s;" % (name, value, rows))
        refused(name + " of different lg_k", said, DATA, OTHERS % (12, 14))
        check("no row", "DETAIL" not in said, said)
        check("its hint", "HINT:  Give the bound: %s(sketch, 12) merges them at lg_k 12. SELECT (hll_info(sketch)).lg_k, count(*) .. GROUP BY 1 "
              "counts the sketches of each lg_k.\n" % name in said, said)
        counts = server.ask("SELECT (hll_info(%s)).lg_k, count(*) FROM %s WHERE s IS NOT NULL GROUP BY 1 ORDER BY 1" % (value, rows))
        equal("what the hint finds", counts, "9|1\n10|1\n12|1\n14|1")
        said = server.run("SELECT %s(%s) OVER (ROWS 3 PRECEDING) FROM %s;" % (name, value, rows))
        refused("a window over different lg_k", said, DATA, OTHERS % (12, 14))
    for left, right in ((12, 14), (14, 12)):
        for call in ("hll_merge(%s, %s)", "hll_merge(%s::bytea, %s::bytea)", "%s || %s", "%s || %s::bytea", "%s::bytea || %s"):
            said = server.run("SELECT %s;" % (call % ("hyperloglog_agg_of(%d)" % left, "hyperloglog_agg_of(%d)" % right)))
            refused(call % (left, right), said, DATA, OTHERS % (left, right))
            check("the hint of " + call, "HINT:  Give the bound: hll_merge(a, b, 12) merges them at lg_k 12.\n" in said, said)
    found = server.ask("SELECT (hll_info(hll_merge(hyperloglog_agg_of(12), hyperloglog_agg_of(14), 12))).lg_k, "
                       "(hll_info(hyperloglog_union_agg(s, 12))).lg_k FROM %s" % rows)
    equal("what the hints say", found, "12|12")


def workers(server):
    """Where one worker meets two lg_k, and where two workers meet one each, the union is refused."""
    server.ask("""CREATE TABLE sides (lg_k int, sketch hyperloglog, image bytea) PARTITION BY LIST (lg_k);
        CREATE TABLE sides_12 PARTITION OF sides FOR VALUES IN (12);
        CREATE TABLE sides_13 PARTITION OF sides FOR VALUES IN (13);
        INSERT INTO sides SELECT k, hyperloglog_agg(x, k, 4), hll_image_add_agg(x, k, 4) FROM generate_series(1, 3000) x, (VALUES (12), (13)) y(k) GROUP BY x, k;
        CREATE TABLE both_sides AS TABLE sides ORDER BY hashint4(lg_k), random();
        ALTER TABLE both_sides SET (parallel_workers = 3);
        ANALYZE sides; ANALYZE both_sides""")
    for call in ("hyperloglog_union_agg(sketch)", "hll_image_union_agg(image)", "tree_of(sketch)"):
        for table, set_up in ("both_sides", settings(3)), ("sides", "SET enable_partitionwise_aggregate = on;"):
            query = "SELECT %s FROM %s" % (call, table)
            plan = server.ask(set_up + "EXPLAIN " + query)
            check("parts of %s of %s" % (call, table), "Partial Aggregate" in plan, plan)
            said = server.run(set_up + query + ";")
            check("%s of %s is refused" % (call, table), re.match(r"ERROR:  %s: sketches of lg_k 1[23] and 1[23] can't be" % DATA, said), said)
            check("no row of a worker's", "Row" not in said, said)
            found = server.ask(set_up + "SELECT (hll_info(u)).lg_k, (hll_info(u)).width FROM (SELECT %s u FROM %s WHERE lg_k = 13) x" % (call, table))
            equal("%s of one side" % call, found, "13|4")
    refused("a bound that differs between parts", server.run("SET enable_partitionwise_aggregate = on; SELECT hyperloglog_union_agg(sketch, lg_k) FROM sides;"),
            ARGUMENT, "the size and the width of a sketch must be the same")


def stays(server):
    """Without a bound no answer is coarser than what it was made of, at any lg_k."""
    for lg_k in range(4, 22):
        found = server.ask("""SELECT (hll_info(hyperloglog_union_agg(s))).lg_k, (hll_info(hll_image_union_agg(s::bytea))).lg_k, (hll_info((array_agg(s))[1] || (array_agg(s))[2])).lg_k,
            (hll_info(hll_merge((array_agg(s::bytea))[1], (array_agg(s::bytea))[3]))).lg_k FROM (SELECT hyperloglog_agg(x, %d) s FROM generate_series(1, 3000) x GROUP BY x %% 3) y""" % lg_k)
        equal("lg_k %d stays" % lg_k, found, "|".join([str(lg_k)] * 4))
    image = literal(image_of_coupons(14, 6, [1 << 26]))
    for few in ("hll_image_empty(4)", "hll_image_empty(21)", image):
        found = server.ask("SELECT (hll_info(hll_merge(%s, %s))).*, hll_image_union_agg(i) = hll_merge(%s, %s) FROM unnest(ARRAY[%s, %s]) i" % (
            few, image, few, image, image, few))
        equal("an empty sketch counts for nothing: " + few[:20], found, "14|6|list|1|0|t")
    found = server.ask("SELECT hll_image_union_agg(i), hll_merge(hll_image_empty(14, 4), hll_image_empty(9, 4)) FROM "
                       "unnest(ARRAY[hll_image_empty(9, 4), hll_image_empty(14, 4), hll_image_empty(4, 4)]) i")
    equal("empty sketches alone", [bytes_of(one) for one in found.split("|")], [image_of_coupons(14, 4, [])] * 2)
    found = server.ask("SELECT hll_image_union_agg(i), hll_merge(hll_image_empty(9, 6), hll_image_empty(9, 4)) FROM "
                       "unnest(ARRAY[hll_image_empty(9, 4), hll_image_empty(9, 6), hll_image_empty(9, 4)]) i")
    equal("empty sketches of two widths", [bytes_of(one) for one in found.split("|")], [image_of_coupons(9, 8, [])] * 2)
