# SPDX-License-Identifier: Apache-2.0
"""Aggregates over many rows: in groups, in workers, by hash and by sort, in any order, and of large sketches."""
import concurrent.futures
import random
import re

from images import random_image
from report import ARGUMENT, GROUPS, IMAGES, SEED, all_bytes_of, bytes_of, check, equal, load, refused, union_of

SETTINGS = """
SET max_parallel_workers_per_gather = %d;
SET parallel_setup_cost = 0;
SET parallel_tuple_cost = 0;
SET min_parallel_table_scan_size = 0;
SET parallel_leader_participation = %s;
SET enable_hashagg = %s;
SET enable_sort = %s;
SET work_mem = '64MB';
"""
PLAN = "EXPLAIN (ANALYZE, COSTS OFF, TIMING OFF, SUMMARY OFF) "


def settings(workers, is_hash=True, leads=True):
    on = {True: "on", False: "off"}
    return SETTINGS % (workers, on[leads], on[is_hash], on[not is_hash])


def launched(plan):
    return max(map(int, re.findall(r"Workers Launched: (\d+)", plan)), default=0)


# ---- groups


def random_groups():
    """A number, a bound, a width and images each."""
    numbers = random.Random(SEED + 1)
    for group in range(GROUPS):
        images = [random_image(numbers) for _ in range(numbers.randint(1, 8))]
        yield group, numbers.choice([4, 8, 10, 11, 12, 12, 12, 13, 16]), numbers.choice([4, 6, 8]), images


def load_groups(server, table, groups):
    rows = [(group, bound, width, image) for group, bound, width, images in groups for image in images]
    random.Random(SEED).shuffle(rows)
    load(server, table, rows)


def groups(server):
    """Random groups beside the program: at 0 and 3 workers, by hash and by sort, plain and toasted."""
    all_groups = list(random_groups())
    small = [group for group in all_groups if all(len(image) < 8000 for image in group[3])]
    with concurrent.futures.ThreadPoolExecutor(2) as pool:
        answers = list(pool.map(lambda group: union_of(group[3], group[1], group[2]), all_groups))
    server.ask("""CREATE TABLE plain (g int, bound int, width int, image bytea);
        CREATE TABLE toasted (LIKE plain);
        CREATE TABLE wanted (g int, answer bytea);
        ALTER TABLE plain ALTER image SET STORAGE PLAIN;
        ALTER TABLE plain SET (parallel_workers = 3);
        ALTER TABLE toasted SET (parallel_workers = 3)""")
    load_groups(server, "plain", small)
    load_groups(server, "toasted", all_groups)
    load(server, "wanted", [(group[0], answer) for group, answer in zip(all_groups, answers)])
    toasted = int(server.ask("SELECT pg_relation_size(reltoastrelid) FROM pg_class WHERE relname = 'toasted'"))
    check("images are toasted", toasted > 100 * GROUPS, toasted)
    # a dear step makes the planner give it to the workers
    server.ask("ANALYZE; ALTER FUNCTION hll_image_union_trans(internal, bytea, bigint, bigint) COST 100000")
    for table, count in (("plain", len(small)), ("toasted", len(all_groups))):
        for workers, leads in ((0, True), (3, True), (3, False)):
            for is_hash in (True, False):
                compare_groups(server, table, count, workers, is_hash, leads)
    server.ask("ALTER FUNCTION hll_image_union_trans(internal, bytea, bigint, bigint) COST 50")
    print("  %d groups of %d images" % (len(all_groups), sum(len(group[3]) for group in all_groups)))


def compare_groups(server, table, count, workers, is_hash, leads):
    name = "groups of %s, %d workers%s, by %s" % (table, workers, "" if leads else " alone", "hash" if is_hash else "sort")
    query = "SELECT g, hll_image_union_agg(image, bound, width) u FROM %s GROUP BY g" % table
    set_up = settings(workers, is_hash, leads)
    found = server.ask(set_up + """CREATE TEMP TABLE answers AS %s;
        SELECT count(*), count(*) FILTER (WHERE u IS DISTINCT FROM answer) FROM answers JOIN wanted USING (g)""" % query)
    equal(name, found, "%d|0" % count)
    plan = server.ask(set_up + PLAN + query)
    equal("workers for " + name, launched(plan), workers)
    step = "HashAggregate" if is_hash else "GroupAggregate"
    check("plan for " + name, ("Partial " + step in plan) if workers else (step in plan and "Partial" not in plan), plan)


# ---- groups that don't fit in memory

SPILLS = "SET work_mem = '64kB'; SET hash_mem_multiplier = 1;"
SPILLING = """CREATE TABLE spilling AS SELECT x, x % 300 g, NULLIF(x * 7919 % (1 + (x % 300) * (x % 300) / 9), 5) v
        FROM generate_series(1, 120000) x;
    CREATE TABLE spilling_sketches AS SELECT g, hyperloglog_agg(v, 7 + g % 6, 4 + 2 * (g % 3)) sketch FROM spilling GROUP BY g, x % 7;
    ANALYZE"""
SPILLED = [("spilling", "hyperloglog_agg(v)"), ("spilling", "hyperloglog_agg(v, 9, 4)"), ("spilling", "hyperloglog_agg(v::text, 21, 6)"),
           ("spilling_sketches", "hyperloglog_union_agg(sketch)"), ("spilling_sketches", "hyperloglog_union_agg(sketch, 8, 4)")]


def spilled(server):
    """Hash aggregation that writes rows to disk, of groups for which there is no memory yet, says what a sort says."""
    server.ask(SPILLING)
    for table, call in SPILLED:
        query = "SELECT g, md5((%s)::bytea) a FROM %s GROUP BY g" % (call, table)
        whole = "SELECT md5(string_agg(a, ',' ORDER BY g)) FROM (%s) x" % query
        plan = server.ask(settings(0) + SPILLS + PLAN + query)
        batches = max(map(int, re.findall(r"Batches: (\d+)", plan)), default=0)
        check("%s is spilled" % call, batches > 1 and "Disk Usage" in plan, plan)
        equal("%s spilled" % call, server.ask(settings(0) + SPILLS + whole), server.ask(settings(0, is_hash=False) + whole))


# ---- parts of a group


def partial(server):
    """Each aggregate is planned for workers, and what they join is what one process does."""
    server.ask("CREATE DATABASE partial")
    server.ask("""CREATE EXTENSION hll_sketches_agg CASCADE;
        CREATE EXTENSION hll_sketches_apache;
        CREATE TABLE rows AS SELECT x::int8 x, 'user ' || x t, hll_image_add_agg(x) image, hyperloglog_agg(x) sketch
            FROM generate_series(1, 20000) x GROUP BY x;
        ALTER TABLE rows SET (parallel_workers = 3);
        ANALYZE rows""", "partial")
    calls = list(aggregate_calls(server, "partial"))
    equal("aggregates", len(calls), 6 + 39 + 6 + 39 + 26 + 6 + 39 + 26 + 4)
    for call in calls:
        query = "SELECT md5((%s)::text) FROM rows" % call
        plan = server.ask(settings(3) + PLAN + query, "partial")
        check("workers for " + call, "Partial Aggregate" in plan and launched(plan) == 3, plan)
        answers = [server.ask(settings(workers) + query, "partial") for workers in (0, 3)]
        equal("%s at 3 workers" % call, answers[1], answers[0])


VALUES = {"bytea": "image", "text": "t", "bigint": "x", "hyperloglog": "sketch", "smallint": "x::int2", "integer": "x::int4",
          "boolean": "x > 7", "real": "x::float4", "double precision": "x::float8", "date": "date '2026-11-01' + x::int4",
          "timestamp without time zone": "timestamp '2026-11-01' + x * interval '1 us'",
          "timestamp with time zone": "timestamptz '2026-11-01' + x * interval '1 us'", "uuid": "md5(t)::uuid", '"char"': 't::"char"'}
REFUSED = "numeric", "anyelement", "hyperloglog"


def aggregate_calls(server, database):
    """A call of each aggregate of the extensions, but for those that refuse their values."""
    found = server.ask("SELECT p.oid::regproc, oidvectortypes(proargtypes) FROM pg_aggregate JOIN pg_proc p ON aggfnoid = p.oid "
                       "WHERE proname ~ '^(hll|hyperloglog)_' ORDER BY p.oid", database)
    for line in found.split("\n"):
        name, arguments = line.split("|")
        first, *others = arguments.split(", ")
        if "union" in name or first not in REFUSED:
            yield "%s(%s)" % (name, ", ".join([VALUES[first], "11", "4"][:len(others) + 1]))


def parts(server):
    """Parts of a group that are of several sizes or widths are refused when they are joined, and of one they are joined."""
    server.ask("""CREATE TABLE sized (lg_k int, width int, image bytea) PARTITION BY LIST (lg_k);
        CREATE TABLE sized_10 PARTITION OF sized FOR VALUES IN (10);
        CREATE TABLE sized_11 PARTITION OF sized FOR VALUES IN (11);
        INSERT INTO sized SELECT 10 + x % 2, 4 + 4 * (x % 2), hll_image_add_agg(x) FROM generate_series(1, 2000) x GROUP BY x;
        ANALYZE sized""")
    for call in ("hll_image_union_agg(image, %s)", "hll_image_add_agg(image, %s)"):
        for options, is_refused in (("lg_k", True), ("12, width", True), ("lg_k, width", True), ("12, 8", False)):
            query = "SELECT md5(%s) FROM sized" % (call % options)
            name, set_up = call % options, "SET enable_partitionwise_aggregate = on;"
            plan = server.ask(set_up + "EXPLAIN (COSTS OFF) " + query)
            equal("parts of " + name, plan.count("Partial Aggregate"), 2)
            said = server.run(set_up + query + ";")
            if is_refused:
                refused("parts of " + name, said, ARGUMENT, "the size and the width of a sketch must be the same")
            else:
                equal("parts of " + name, said, server.ask(query))


# ---- workers for toasted images

TOASTED = """CREATE EXTENSION hll_sketches;
    CREATE TABLE kept (n int, image bytea NOT NULL);
    ALTER TABLE kept ALTER image SET STORAGE EXTERNAL;
    INSERT INTO kept SELECT n, i FROM (SELECT hll_image_add_agg(x) i FROM generate_series(1, 20000) x) s,
        generate_series(1, 15000) n"""
FEWER = "DELETE FROM kept WHERE n > %d; VACUUM FULL ANALYZE kept; ALTER TABLE kept RESET (parallel_workers)"
WORKERS = ["ALTER TABLE kept SET (parallel_workers = 4)", "SET max_parallel_workers_per_gather = 4", "SET parallel_setup_cost = 0"]


def toasted_plans(server):
    """How many workers are planned for images that stand beside their table, with none, one .. of the settings that README.md
    names ("Use parallel workers")."""
    server.ask("CREATE DATABASE toasts")
    server.ask(TOASTED, "toasts")
    sizes = server.ask("SELECT pg_relation_size('kept') / count(*), pg_table_size('kept') / count(*) > 4096 FROM kept", "toasts")
    equal("bytes of a row, and images beside", sizes, "52|t")
    for count, wanted in (15000, ["", "2", "4", "4"]), (4000, ["", "", "", "4"]):
        server.ask(FEWER % count, "toasts")
        for taken, workers in enumerate(wanted):
            plan = server.ask(";".join([*WORKERS[:taken], "EXPLAIN SELECT hll_image_union_agg(image) FROM kept"]), "toasts")
            planned = re.findall(r"Workers Planned: (\d+)", plan)
            equal("workers for %d images by %d settings" % (count, taken), "".join(planned), workers)


# ---- many images


def many_images(server):
    """Their union is the sketch of all values, at 0 and 3 workers, and what the program prints."""
    values = "generate_series(1, %d) x" % (20 * IMAGES)
    group = "CASE WHEN x %% 2 = 0 THEN x / 2 %% %d ELSE x / 2 %% %d END" % (IMAGES, IMAGES // 100)
    server.ask("""CREATE TABLE many (image bytea);
        ALTER TABLE many SET (parallel_workers = 3);
        INSERT INTO many SELECT hll_convert(hll_image_add_agg(x), 4 + 2 * (g %% 3)) FROM (SELECT x, %s g FROM %s) s GROUP BY g;
        ANALYZE many""" % (group, values))
    found = server.ask("SELECT count(*), count(DISTINCT image), count(DISTINCT (hll_info(image)).stage) FROM many")
    equal("many images", found, "%d|%d|2" % (IMAGES, IMAGES))
    images = all_bytes_of(server.ask("SELECT image FROM many"))
    for bound, width in ((12, 8), (10, 4)):
        wanted = union_of(images, bound, width)
        found = server.ask("SELECT hll_image_add_agg(x, %d, %d) FROM %s" % (bound, width, values))
        equal("values of many images", bytes_of(found), wanted)
        query = "SELECT hll_image_union_agg(image, %d, %d) FROM many" % (bound, width)
        for workers in (0, 3):
            equal("union of many images, %d workers" % workers, bytes_of(server.ask(settings(workers) + query)), wanted)
            equal("workers for many images", launched(server.ask(settings(workers) + PLAN + query)), workers)
    orders(server)


def orders(server):
    """Any order, rows twice, and as a window function."""
    query = "SELECT md5(hll_image_union_agg(image%s)) FROM %s"
    first = server.ask(query % ("", "many"))
    for order in ("image", "image DESC", "md5(image)"):
        equal("by " + order, server.ask(query % (" ORDER BY " + order, "many")), first)
    equal("twice", server.ask(query % ("", "(SELECT image FROM many UNION ALL SELECT image FROM many) x")), first)
    found = server.ask("SELECT hll_agree(hll_image_union_agg(hll_set_estimator_fields(image)), hll_image_union_agg(image)) FROM many")
    equal("with the words of other libraries", found, "t")
    server.ask("CREATE TABLE few AS SELECT row_number() OVER () n, image FROM (SELECT image FROM many LIMIT 200) x")
    found = server.ask("""SELECT bool_and(u = w), count(*) FROM (SELECT hll_image_union_agg(image) OVER (ORDER BY n) u,
        (SELECT hll_image_union_agg(image) FROM few b WHERE b.n <= a.n) w FROM few a) x""")
    equal("as a window function", found, "t|200")


def added(server):
    """hll_image_add_agg of each type at 3 workers is that of one."""
    server.ask("""CREATE TABLE added AS SELECT x, x % 50 g, 'user ' || x t FROM generate_series(1, 300000) x;
        ALTER TABLE added SET (parallel_workers = 3);
        ANALYZE added""")
    whole = "SELECT md5(hll_image_add_agg(%s, 11, 6)) FROM added"
    grouped = """SELECT md5(string_agg(a::text, ',' ORDER BY g))
        FROM (SELECT g, hll_image_add_agg(%s, 12, 4) a FROM added GROUP BY g) s"""
    for value in ("x::int8", "t", "t::bytea"):
        for query in (whole % value, grouped % value):
            answers = [server.ask(settings(workers) + query) for workers in (0, 3)]
            equal("%s at 3 workers" % value, answers[1], answers[0])
            plan = server.ask(settings(3) + PLAN + query)
            check("workers for " + value, "Partial" in plan and launched(plan) == 3, plan)


def large(server):
    """lg_k 21 at each width."""
    server.ask("""CREATE TABLE large AS SELECT n, hll_image_add_agg(x, 21, 4 + 2 * n) image
        FROM generate_series(0, 2) n, generate_series(n * 100000, n * 100000 + 600000) x GROUP BY n;
        ALTER TABLE large SET (parallel_workers = 3)""")
    images = all_bytes_of(server.ask("SELECT image FROM large ORDER BY n"))
    equal("sizes of lg_k 21", [len(image) > 2**20 for image in images], [True] * 3)
    for width in (4, 6, 8):
        found = server.ask("SELECT hll_image_union_agg(image, 21, %d) FROM large" % width)
        equal("union at lg_k 21, width %d" % width, bytes_of(found), union_of(images, 21, width))
    values = "generate_series(0, 800000) x"
    found = server.ask("""SELECT hll_image_union_agg(image, 21) = hll_image_union_agg(image), hll_fold(hll_image_union_agg(image, 21), 12) =
        hll_image_union_agg(image, 12), hll_image_union_agg(image, 12) = (SELECT hll_image_add_agg(x) FROM %s) FROM large""" % values)
    equal("lg_k 21 and 12", found, "t|t|t")
    query = "SELECT md5(hll_image_union_agg(image, 21)) = (SELECT md5(hll_image_add_agg(x, 21)) FROM %s) FROM large" % values
    equal("lg_k 21 at 3 workers", server.ask(settings(3) + query), "t")
