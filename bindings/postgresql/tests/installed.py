# SPDX-License-Identifier: Apache-2.0
"""The extension as it is built and installed: its names, its marks, beside others, in dumps, and in its README."""
import itertools
import os
import pathlib
import re
import shutil
import subprocess

from attack import UPDATE
from report import CHECKED, DATA, UNDEFINED, check, equal, refused, skip
from server import EARLIER, HERE, SAME, VERSION


def build(server):
    """The build has no warning, and the module shows none of the library's names."""
    equal("warnings of the build", server.warnings, [])
    listing = subprocess.run(["nm", "-D", "--defined-only", server.root / "build" / "hll_sketches.so"], stdout=subprocess.PIPE,
                             text=True, check=True).stdout
    names = [line.split()[-1] for line in listing.splitlines()]
    check("names of the module", "hll_pg_union_trans" in names, names)
    own = r"(pg_finfo_)?hll_pg_[a-z0-9_]+|Pg_magic_func"
    equal("other names of the module", [name for name in names if not re.fullmatch(own, name)], [])
    if os.uname().machine == "x86_64":
        notes = subprocess.run(["readelf", "-n", server.root / "build" / "hll_sketches.so"], stdout=subprocess.PIPE, text=True)
        check("the loader is told what processor it takes", "x86 ISA needed: x86-64-v2" in notes.stdout, notes.stdout)


# ---- beside postgresql-hll


EMPTY = "\\x0201070c030c0008"


def beside_peer(server):
    """With postgresql-hll in one schema: each call goes to its own."""
    if not server.has_extension("hll", "postgresql-%s-hll"):
        skip("the tests beside postgresql-hll", "it is not here")
        return
    server.ask("CREATE DATABASE peers")
    server.ask("CREATE EXTENSION hll", "peers")
    equal("beside postgresql-hll", server.run("CREATE EXTENSION hll_sketches;", "peers"), "")
    for question, wanted in (
            ("hll_cardinality(hll_union_agg(p)) FROM (SELECT hll_add_agg(hll_hash_bigint(x)) p FROM x) s", "3"),
            ("hll_estimate(hll_image_union_agg(i))::int FROM (SELECT hll_image_add_agg(x) i FROM x) s", "3"),
            ("(# hyperloglog_union_agg(i))::int FROM (SELECT hll_image_add_agg(x) i FROM x) s", "3"),
            ("(# hll_add(hyperloglog_agg(x), 7))::int FROM x", "4"), ("hll_count_distinct(x), hll_count_distinct('u' || x, 11) FROM x", "3|3"),
            ("hll_estimate(hll_image_union_agg(i, 10))::int FROM (SELECT hll_image_add_agg('u' || x, 11) i FROM x) s", "3"),
            ("hll_cardinality(hll_add_agg(hll_hash_text('a'), 12, 5))", "1"),
            ("hll_estimate(hll_image_add_agg('a', 12, 6))::int, hll_estimate(hll_image_add_agg(7, 12, 6))::int", "1|1"),
            ("hll_cardinality(hll_empty(11, 5)), hll_estimate(hll_image_empty(11, 6))", "0|0"),
            ("hll_cardinality(hll_empty() || hll_hash_integer(1)), # hll_empty()", "1|0"),
            ("(# hyperloglog_union_agg(i))::int, pg_typeof(hyperloglog_union_agg(i)) FROM (SELECT hyperloglog_agg(x) i FROM x) s", "3|hyperloglog"),
            ("(# (hyperloglog_agg(x) || hyperloglog_agg(x + 1)))::int, # (hll_add_agg(hll_hash_bigint(x)) || hll_hash_bigint(4)) FROM x", "4|4"),
            ("hyperloglog_empty() = hyperloglog_empty(9), hll_empty() = hll_empty(), (hyperloglog_empty() || hll_image_empty()) = '%s'" % EMPTY, "f|t|t"),
            ("hll_estimate('%s'), hll_fold('%s', 9) = hyperloglog_empty(9)" % (EMPTY, EMPTY), "0|t")):
        said = server.run("WITH x AS (SELECT generate_series(1, 3) x) SELECT %s;" % question, "peers")
        equal("beside postgresql-hll: " + question, said, wanted)
    again = "DROP EXTENSION hll_sketches; DROP EXTENSION hll; CREATE EXTENSION hll_sketches; CREATE EXTENSION hll;"
    equal("installed again, before it", server.run(again, "peers"), "")
    said = server.run("CREATE EXTENSION hll_sketches_agg;", "peers")
    refused("short names beside postgresql-hll", said, "42723", "extension hll_sketches_agg cannot be")
    found = server.ask("""CREATE SCHEMA short;
        CREATE EXTENSION hll_sketches_agg SCHEMA short;
        SELECT hll_cardinality(hll_union_agg(p)), hll_estimate(short.hll_union_agg(i))::int
        FROM (SELECT hll_add_agg(hll_hash_bigint(x)) p, short.hll_add_agg(x) i FROM generate_series(1, 3) x) s""", "peers")
    equal("short names in another schema", found, "3|3")


def short_names(server):
    """The extension hll_sketches_agg: the same aggregates."""
    server.ask("CREATE DATABASE short")
    server.ask("""CREATE EXTENSION hll_sketches_agg CASCADE;
        CREATE TABLE t AS SELECT x % 9 g, hll_add_agg(x) i FROM generate_series(1, 9999) x GROUP BY 1""", "short")
    for name, values in (("union", ("i", "i, 9", "i, 10, 4")),
                         ("add", ("i", "i, 9", "i, 10, 4", "g", "g, 9", "g, 9, 4", "g::text", "g::text, 7", "'x', 8, 6", "g::float8",
                                  "g > 3, 9", "date '2026-11-01' + g, 9, 4"))):
        for value in values:
            found = server.ask("SELECT hll_image_%s_agg(%s) = hll_%s_agg(%s) FROM t" % (name, value, name, value), "short")
            equal("short name of %s(%s)" % (name, value), found, "t")
    found = server.ask("""SELECT count(*), count(*) FILTER (WHERE short.oid IS NOT NULL) FROM pg_proc long LEFT JOIN pg_proc short
        ON short.proname = replace(long.proname, '_image', '') AND short.proargtypes = long.proargtypes AND short.prokind = 'a'
        WHERE long.prokind = 'a' AND long.proname ~ '^hll_image_'""", "short")
    equal("as many short names", found, "54|54")
    found = server.ask("SELECT pg_typeof(hll_union_agg(i::hyperloglog)), pg_typeof(hll_union_agg(i)) FROM t", "short")
    equal("unions of the type and of bytea", found, "hyperloglog|bytea")


def apache_names(server):
    """The extension hll_sketches_apache: the same results as by the own names, of each type of values, in the form that Apache's have."""
    server.ask("CREATE DATABASE apache")
    server.ask("""CREATE SCHEMA named;
        CREATE EXTENSION hll_sketches;
        CREATE EXTENSION hll_sketches_apache SCHEMA named;
        SET search_path = named, public;
        CREATE TABLE t AS SELECT x % 9 g, hll_sketch_build(x, 10) s, hll_sketch_build(x, 10)::bytea i FROM generate_series(1, 9999) x GROUP BY 1""", "apache")
    for call, own in (
            ("hll_sketch_build(g)", "hyperloglog_agg(g)"), ("hll_sketch_build(g::text, 9)", "hyperloglog_agg(g::text, 9)"), ("hll_sketch_union(s)", "hyperloglog_union_agg(s)"),
            ("hll_sketch_union(i)", "hyperloglog_union_agg(i)"), ("hll_sketch_union(s, 7)", "hyperloglog_union_agg(s, 7)"), ("hll_sketch_union(i, 7)", "hyperloglog_union_agg(i, 7)"),
            ("sum(hll_sketch_get_estimate(s))", "sum(# s)"), ("sum(hll_sketch_get_estimate(i))", "sum(# i)"),
            ("array_agg(hll_sketch_get_estimate_and_bounds(s))", "array_agg((SELECT ARRAY[# s, lower, upper] FROM hll_estimate_bounds(s, 1)))"),
            ("array_agg(hll_sketch_get_estimate_and_bounds(i, 3))", "array_agg((SELECT ARRAY[# s, lower, upper] FROM hll_estimate_bounds(s, 3)))"),
            ("array_agg(hll_sketch_to_string(s))", "array_agg(hll_sketch_to_string(i))")):
        found = server.ask("SET search_path = named, public; SELECT pg_typeof(%s) = pg_typeof(%s), %s = %s FROM t" % (call, own, call, own), "apache")
        equal("%s is %s" % (call, own), found, "t|t")
    for call, wanted in (
            ("hll_sketch_to_string(hll_sketch_build('ann'::text))", '{"lg_k":12,"width":8,"stage":"list","coupons":1,"zeros":0}'),
            ("pg_typeof(hll_sketch_build(7)), pg_typeof(hll_sketch_get_estimate_and_bounds(hll_sketch_build(7)))", "hyperloglog|double precision[]"),
            ("hll_sketch_get_estimate(NULL::bytea) IS NULL, hll_sketch_union(NULL::hyperloglog) IS NULL, hll_sketch_build(NULL::text) IS NULL", "t|t|t")):
        equal(call, server.ask("SET search_path = named, public; SELECT " + call, "apache"), wanted)
    found = server.ask("""SELECT count(*), count(*) FILTER (WHERE named.oid IS NOT NULL) FROM pg_proc own LEFT JOIN pg_proc named
        ON named.proname = 'hll_sketch_build' AND named.proargtypes = own.proargtypes WHERE own.proname = 'hll_count_distinct'""", "apache")
    equal("as many types of values", found, "32|32")
    said = server.run("SELECT named.hll_sketch_union(i) FROM (SELECT hyperloglog_empty(9 + g) || hyperloglog_agg(g, 9 + g) i FROM generate_series(0, 1) g GROUP BY g) x;", "apache")
    refused("different lg_k", said, DATA, "sketches of lg_k 9 and 10 can't be merged without a bound")
    check("the call to write", "hll_sketch_union(sketch, 9) merges them" in said, said)
    server.ask("DROP EXTENSION hll_sketches_apache; CREATE FUNCTION hll_sketch_build(anyelement) RETURNS int4 LANGUAGE sql AS 'SELECT 1'", "apache")
    said = server.run("CREATE EXTENSION hll_sketches_apache SCHEMA public;", "apache")
    refused("in the schema of Apache's extension", said, "42723", 'function "hll_sketch_build" already exists with same argument types')


# ---- names and marks


def marks(server):
    """Functions are immutable (but the version and the processor are stable) and parallel safe, and strict but for those that see NULLs; another schema serves too."""
    found = server.ask("""SELECT proname, provolatile, proparallel, proisstrict
        FROM pg_proc JOIN pg_depend ON objid = pg_proc.oid JOIN pg_extension e ON refobjid = e.oid
        WHERE extname = 'hll_sketches' AND classid = 'pg_proc'::regclass""").split("\n")
    check("functions are many", len(found) > 30, len(found))
    for line in found:
        name, *said = line.split("|")
        sees_nulls = re.search("_trans|_combine|_final|_agg|^hll_add$|^hll_count_distinct$", name) is not None
        equal("marks of " + name, said, ["s" if name in ("hll_version", "hll_processor") else "i", "s", "f" if sees_nulls else "t"])
    server.ask("CREATE DATABASE elsewhere")
    server.ask("""CREATE SCHEMA sketches;
        CREATE EXTENSION hll_sketches SCHEMA sketches;
        CREATE SCHEMA other;
        ALTER EXTENSION hll_sketches SET SCHEMA other""", "elsewhere")
    said = server.run("SELECT other.hll_info(x.i::other.hyperloglog) FROM (SELECT other.hll_image_empty(9, 6) i) x;", "elsewhere")
    equal("in another schema", said, "(9,6,list,0,0)")
    equal("the version", server.ask("SELECT other.hll_version()", "elsewhere"), version_of_header())
    equal("dropped", server.run("DROP EXTENSION hll_sketches;", "elsewhere"), "")


def version_of_header():
    """The version of the library, as its header has it."""
    header = (pathlib.Path(__file__).resolve().parents[2] / "c" / "hll.h").read_text()
    return ".".join(re.search(r"#define HLL_VERSION_%s (\d+)" % part, header)[1] for part in ("MAJOR", "MINOR", "PATCH"))


# ---- updates and dumps

# What a database of an earlier version may have: columns with modifiers, a domain and a generated column, views, indexes,
# constraints and defaults, a function and aggregates. Only what each version since 0.1.9 has.
FILL = """CREATE EXTENSION hll_sketches VERSION '%(version)s';
    CREATE EXTENSION hll_sketches_agg VERSION '%(version)s';
    CREATE EXTENSION hll_sketches_apache VERSION '%(version)s';
    CREATE DOMAIN small_sketch AS hyperloglog(10) CHECK (hll_estimate(VALUE) < 1e9);
    CREATE TABLE days (day int PRIMARY KEY, sketch hyperloglog(12) NOT NULL, plain bytea DEFAULT hll_image_empty(12), small small_sketch,
        estimate float8 GENERATED ALWAYS AS (# sketch) STORED, CHECK ((hll_info(sketch)).lg_k <= 12));
    INSERT INTO days SELECT g, hyperloglog_agg(x, 12, 4 + 2 * (g %% 3)), hll_image_add_agg('v' || x), hyperloglog_agg(x, 10)
        FROM (SELECT x, x %% 40 g FROM generate_series(1, 60000) x) s GROUP BY g;
    CREATE TABLE keys (sketch hyperloglog(4, 8) PRIMARY KEY, several hyperloglog[]);
    INSERT INTO keys SELECT hyperloglog_agg(x, 4, 8), array_agg(hyperloglog_empty(9)) FROM generate_series(1, 900) x GROUP BY x %% 40;
    CREATE MATERIALIZED VIEW month AS SELECT hyperloglog_union_agg(sketch) u, hll_image_union_agg(plain, 11) p FROM days;
    CREATE VIEW estimates AS SELECT day, # sketch e, hll_fold('\\x0201070a030801080500000c', 4) f FROM days;
    CREATE INDEX by_estimate ON days ((hll_estimate(sketch)));
    CREATE INDEX by_sketch ON days USING hash (sketch);
    CREATE INDEX of_images ON days (estimate) WHERE hll_is_image(plain);
    CREATE FUNCTION total() RETURNS float8 LANGUAGE sql AS 'SELECT # hyperloglog_agg(day) FROM days'"""
# What uses the names of the other extensions, which EARLIER doesn't have.
SHORT = """CREATE VIEW short_month AS SELECT hll_union_agg(sketch) u, hll_union_agg(plain, 11) p, hll_add_agg(day) d FROM days;
    CREATE MATERIALIZED VIEW short_thirds AS SELECT day % 3 g, hll_union_agg(small) u FROM days GROUP BY 1;
    CREATE INDEX ON short_thirds USING hash (u);
    CREATE VIEW apache AS SELECT hll_sketch_get_estimate(hll_sketch_union(sketch)) e, hll_sketch_get_estimate_and_bounds(hll_sketch_build(day, 9)) b,
        hll_sketch_to_string(hll_sketch_union(plain, 11)) s FROM days"""
RELATIONS = "SELECT relname FROM pg_class WHERE relnamespace = 'public'::regnamespace AND relkind IN ('r', 'v', 'm') ORDER BY 1"
ROWS = "SELECT '%s', count(*), md5(string_agg(x::text, ',' ORDER BY x::text)) FROM %s x"
CALLS = "SELECT total(), hll_image_add_agg(day), hll_image_add_agg(day::text, 10) FROM days"

# An index, and a query that uses it.
LOOKUPS = (("by_estimate", "SELECT string_agg(day::text, ',' ORDER BY day) FROM days WHERE hll_estimate(sketch) > 1500"),
           ("by_sketch", "SELECT day FROM days WHERE sketch = (SELECT sketch FROM days WHERE day = 7)"),
           ("of_images", "SELECT string_agg(day::text, ',' ORDER BY day) FROM days WHERE hll_is_image(plain) AND estimate < 1500"),
           ("keys_pkey", "SELECT count(*) FROM keys WHERE sketch >= (SELECT sketch FROM keys ORDER BY sketch DESC LIMIT 1)"))

# Columns, indexes, views, constraints and domains of the schema public, in which PostgreSQL writes names of the extension.
DEFINITIONS = """SELECT concat_ws(' ', relname, attname, format_type(atttypid, atttypmod), attgenerated, attnotnull, pg_get_expr(adbin, adrelid)) x
        FROM pg_class c JOIN pg_attribute ON attrelid = c.oid LEFT JOIN pg_attrdef ON (adrelid, adnum) = (attrelid, attnum)
        WHERE relnamespace = 'public'::regnamespace AND relkind IN ('r', 'v', 'm', 'i') AND attnum > 0
    UNION ALL SELECT concat_ws(' ', indexrelid::regclass, indisvalid, pg_get_indexdef(indexrelid)) FROM pg_index JOIN pg_class c ON c.oid = indexrelid
        WHERE relnamespace = 'public'::regnamespace
    UNION ALL SELECT concat_ws(' ', relname, relispopulated, pg_get_viewdef(oid)) FROM pg_class
        WHERE relnamespace = 'public'::regnamespace AND relkind IN ('v', 'm')
    UNION ALL SELECT concat_ws(' ', conname, pg_get_constraintdef(oid)) FROM pg_constraint WHERE connamespace = 'public'::regnamespace
    UNION ALL SELECT concat_ws(' ', typname, format_type(typbasetype, typtypmod)) FROM pg_type
        WHERE typnamespace = 'public'::regnamespace AND typtype = 'd'
    ORDER BY x"""
FILES = """SELECT relname, oid, pg_relation_filenode(oid) FROM pg_class
    WHERE relnamespace = 'public'::regnamespace AND relkind IN ('r', 'm', 'i') ORDER BY 1"""

# What the extensions own, with all that their scripts say of it.
MEMBERS = """SELECT concat_ws('|', pg_describe_object(classid, objid, 0), obj_description(objid, relname),
        pg_get_function_arguments(p.oid), pg_get_function_result(p.oid), prosrc, probin, procost, provolatile, proparallel, proisstrict, proleakproof,
        aggtransfn, aggfinalfn, aggcombinefn, aggserialfn, aggdeserialfn, aggtranstype::regtype, aggtransspace, aggfinalmodify,
        oprcode, oprcom::regoperator, oprnegate::regoperator, oprrest, oprjoin, oprcanmerge, oprcanhash, castfunc::regprocedure, castcontext, castmethod,
        typinput, typoutput, typreceive, typsend, typmodin, typmodout, typstorage, typcategory, typispreferred, typlen, typalign, opcdefault) x
    FROM pg_depend JOIN pg_extension e ON refclassid = 'pg_extension'::regclass AND refobjid = e.oid AND deptype = 'e' AND extname ~ '^hll_sketches'
        JOIN pg_class c ON c.oid = classid
        LEFT JOIN pg_proc p ON (classid, objid) = ('pg_proc'::regclass, p.oid)
        LEFT JOIN pg_aggregate ON p.oid = aggfnoid
        LEFT JOIN pg_operator o ON (classid, objid) = ('pg_operator'::regclass, o.oid)
        LEFT JOIN pg_cast k ON (classid, objid) = ('pg_cast'::regclass, k.oid)
        LEFT JOIN pg_type t ON (classid, objid) = ('pg_type'::regclass, t.oid)
        LEFT JOIN pg_opclass f ON (classid, objid) = ('pg_opclass'::regclass, f.oid)
    ORDER BY x"""


def looked_up(server, database):
    """What the queries of LOOKUPS find by their indexes."""
    for index, query in LOOKUPS:
        plan = server.ask("SET enable_seqscan = off; EXPLAIN (COSTS OFF) " + query, database)
        check("the plan uses %s in %s" % (index, database), re.search(r"\b%s\b" % index, plan), plan)
        found = server.ask("SET enable_seqscan = off; " + query, database)
        check("%s finds rows in %s" % (index, database), found not in ("", "0"), found)
        yield found


def contents(server, database):
    """What a database that FILL made has: the rows of tables and views, what indexes and calls give, and definitions."""
    relations = server.ask(RELATIONS, database).split("\n")
    check("tables and views of " + database, len(relations) >= 4, relations)
    rows = [server.ask(ROWS % (relation, relation), database) for relation in relations]
    return [*rows, server.ask(CALLS, database), *looked_up(server, database), *server.ask(DEFINITIONS, database).split("\n")]


def same(name, found, wanted):
    """That two lists are equal; else what differs."""
    check(name, found == wanted, [pair for pair in itertools.zip_longest(found, wanted) if pair[0] != pair[1]])


def update(server):
    """A database of each earlier version says the same after an update, and has what a new one has; so have dumps of it that are
    restored."""
    versions = server.ask("SELECT version FROM pg_available_extension_versions WHERE name = 'hll_sketches' AND version <> '%s'" % VERSION)
    check("earlier versions", {EARLIER, SAME} <= {*versions.split("\n")}, versions)
    server.ask("CREATE DATABASE fresh")
    server.ask("CREATE EXTENSION hll_sketches; CREATE EXTENSION hll_sketches_agg; CREATE EXTENSION hll_sketches_apache", "fresh")
    members = server.ask(MEMBERS, "fresh").split("\n")
    check("what a new database has", len(members) > 200, len(members))
    for version in versions.split("\n"):
        update_from(server, version, members)
    update_of_earlier(server)


def update_from(server, version, members):
    """A database of one earlier version, updated; and dumps from before and after the update, restored."""
    name = "of %s" % version
    server.ask('CREATE DATABASE "%s"' % name)
    server.ask(FILL % {"version": version}, name)
    server.ask(SHORT if version != EARLIER else "", name)
    before, files, dumped = contents(server, name), server.ask(FILES, name), server.tool("pg_dump", "-d", name)
    equal("updated from " + version, server.run(UPDATE, name), "")
    equal("versions", server.ask("SELECT extname, extversion FROM pg_extension WHERE extname ~ '^hll' ORDER BY 1", name),
          "hll_sketches|%s\nhll_sketches_agg|%s\nhll_sketches_apache|%s" % (VERSION, VERSION, VERSION))
    same("after an update from " + version, contents(server, name), before)
    equal("no table or index is written again from " + version, server.ask(FILES, name), files)
    same("an update makes what a new database has, from " + version, server.ask(MEMBERS, name).split("\n"), members)
    older = "; ".join("CREATE EXTENSION %s VERSION '%s'" % (name, version) for name in ("hll_sketches", "hll_sketches_agg", "hll_sketches_apache"))
    for kind, text, first, last in (("from before", dumped, "", ""), ("from before, into an earlier version", dumped, older, UPDATE),
                                    ("from after", server.tool("pg_dump", "-d", name), "", "")):
        target = "%s, dump %s" % (name, kind)
        server.ask('CREATE DATABASE "%s"' % target)
        server.ask(first, target)
        equal("restored " + target, restore(server, text, target), "")
        same(target, contents(server, target), before)
        equal("updated " + target, server.run(last, target), "")
        same("after an update " + target, contents(server, target), before)
        same("what there is " + target, server.ask(MEMBERS, target).split("\n"), members)
    writes(server, name)


def writes(server, name):
    """An updated database checks what is written, and puts it into its indexes."""
    refused("the modifier, updated", server.run("INSERT INTO days VALUES (100, hyperloglog_empty(11));", name), DATA)
    refused("the domain's modifier, updated", server.run("INSERT INTO days VALUES (100, hyperloglog_empty(12), DEFAULT, hyperloglog_empty(11));", name), DATA)
    refused("a key twice, updated", server.run("INSERT INTO keys SELECT sketch FROM keys LIMIT 1;", name), "23505")
    server.ask("INSERT INTO days VALUES (100, (SELECT hyperloglog_agg(x, 12) FROM generate_series(1, 9000) x))", name)
    equal("a new row by an index", server.ask("SET enable_seqscan = off; SELECT day FROM days WHERE hll_estimate(sketch) > 5000", name), "100")
    server.ask("REFRESH MATERIALIZED VIEW month", name)


def update_of_earlier(server):
    """What the update from the version that is made up brings is not there before, and works after."""
    server.ask("CREATE DATABASE old")
    server.ask(FILL % {"version": EARLIER}, "old")
    refused("what the earlier version has not", server.run("SELECT hll_merge(sketch, sketch) FROM days;", "old"), UNDEFINED)
    refused("short names of the earlier version", server.run("SELECT hll_add_agg(7);", "old"), UNDEFINED)
    equal("updated", server.run(UPDATE, "old"), "")
    equal("what the update brought", server.ask("SELECT bool_and(sketch || sketch = hll_merge(sketch, sketch)), hll_add_agg(7) = hll_image_add_agg(7) "
                                                "FROM days", "old"), "t|t")


def restore(server, dumped, database):
    return server.run("\\set ON_ERROR_STOP on\n\\o %s\n" % os.devnull + dumped, database)


NEW = """CREATE SCHEMA sketches;
    CREATE EXTENSION hll_sketches SCHEMA sketches;
    SET search_path = sketches, public;
    CREATE TABLE public.days (day int PRIMARY KEY, image bytea NOT NULL CHECK (hll_is_image(image)), sketch hyperloglog(12, 8) DEFAULT hyperloglog_empty(12),
        estimate float8 GENERATED ALWAYS AS (# sketch) STORED, CHECK (# sketch < 1e9));
    CREATE DOMAIN public.small_sketch AS hyperloglog(10) CHECK (hll_estimate(VALUE) < 1e9);
    CREATE TABLE public.parts (n int, sketch small_sketch, several hyperloglog[], PRIMARY KEY (n));
    INSERT INTO days SELECT g, hll_image_add_agg(x, 12, 4 + 2 * (g % 3)), hyperloglog_agg(x)
        FROM (SELECT x, x % 40 g FROM generate_series(1, 60000) x) s GROUP BY g;
    INSERT INTO parts SELECT day, hll_fold(sketch, 10), ARRAY[sketch, sketch || image, hyperloglog_empty(9)] FROM days;
    CREATE MATERIALIZED VIEW public.month AS SELECT hll_image_union_agg(image) u, hyperloglog_union_agg(sketch) s FROM days;
    CREATE VIEW public.joined AS SELECT day, sketch || image AS both_of_them, sketch = '\\x0201070c030c0008' AS is_none FROM days;
    CREATE AGGREGATE public.merged(hyperloglog) (SFUNC = hll_merge, STYPE = hyperloglog, INITCOND = '\\x0201070c030c0008');
    CREATE INDEX ON days ((hll_estimate(image))); CREATE INDEX ON days USING hash (sketch)"""
PATH = "SET search_path = sketches, public; "
ALL_OF_IT = PATH + """SELECT count(*), md5(string_agg(days::text, ',' ORDER BY day)), md5((SELECT u FROM month)), md5((SELECT s FROM month)),
    (SELECT md5(string_agg(joined::text, ',' ORDER BY day)) FROM joined), (SELECT md5(string_agg(parts::text, ',' ORDER BY n)) FROM parts),
    md5(merged(sketch ORDER BY day)), (SELECT string_agg(format_type(atttypid, atttypmod), ',' ORDER BY attrelid, attnum) FROM pg_attribute
        WHERE attrelid IN ('days'::regclass, 'parts'::regclass) AND attnum > 0) FROM days"""


def dump(server):
    """Tables of bytea and of the type, with what leans on them, dumped and restored, by text and by a file of pg_restore."""
    server.ask("CREATE DATABASE before; CREATE DATABASE after; CREATE DATABASE after_custom")
    server.ask(NEW, "before")
    before, definitions = (server.ask(query, "before") for query in (ALL_OF_IT, PATH + DEFINITIONS))
    check("columns with modifiers", "hyperloglog(12,8)" in before, before[-200:])
    equal("restored without a word", restore(server, server.tool("pg_dump", "-d", "before"), "after"), "")
    equal("dump and restore", server.ask(ALL_OF_IT, "after"), before)
    same("definitions after a restore", server.ask(PATH + DEFINITIONS, "after").split("\n"), definitions.split("\n"))
    server.tool("pg_dump", "-d", "before", "-Fc", "-f", str(server.file("dump")))
    server.tool("pg_restore", "-d", "after_custom", "-1", str(server.file("dump")))
    equal("dump and pg_restore", server.ask(ALL_OF_IT, "after_custom"), before)
    same("definitions after pg_restore", server.ask(PATH + DEFINITIONS, "after_custom").split("\n"), definitions.split("\n"))
    refused("a check is restored", server.run("INSERT INTO days VALUES (100, '\\x00');", "after"), CHECKED)
    said = server.run(PATH + "INSERT INTO days VALUES (100, '\\x0201070c030c0008', hyperloglog_empty(11));", "after")
    refused("the modifier is restored", said, "22000")
    equal("a default is restored", server.ask("INSERT INTO days(day, image) VALUES (101, '\\x0201070c030c0008') RETURNING sketch", "after"),
          "\\x0201070c030c0008")


# ---- texts that are run as they stand


def readme(server):
    """The blocks of README.md, pasted into one psql in their order: none fails, and they print the lines that stand after `-->`,
    and no others. The query of the README at the top is run on their table."""
    blocks = re.findall(r"^```sql\n(.*?)^```$", (HERE / "README.md").read_text(), re.S | re.M)
    check("README has queries", len(blocks) >= 9, len(blocks))
    server.ask("CREATE DATABASE metrics")
    said = server.run("".join(blocks), "metrics").split("\n")
    equal("README prints what it shows", said, re.findall(r"^--> (.*)$", "".join(blocks), re.M))
    front, = re.findall(r"^```sql\n(.*?)^```$", (HERE.parent.parent / "README.md").read_text(), re.S | re.M)
    months = server.ask("SELECT count(DISTINCT date_trunc('month', day)) FROM daily", "metrics")
    said = server.run(front, "metrics").split("\n")
    shown = [line for line in said if re.fullmatch(r"2026-\d\d-01 00:00:00\S*\|\d+(\.\d+)?", line)]
    equal("README at the top: a line a month", (str(len(shown)), len(said)), (months, len(shown)))
    sayings(server)


def sayings(server):
    """What README.md says of `#`, of a btree, and of the union without a bound."""
    said = server.run("SELECT # image + 1 FROM daily;", "metrics")
    refused("# binds less tightly than +", said, UNDEFINED, "operator does not exist: hyperloglog + integer")
    equal("# in parentheses", server.run("SELECT (# hyperloglog_empty()) + 1, hll_estimate(hyperloglog_empty()) + 1;", "metrics"), "1|1")
    said = server.run("CREATE TABLE in_btree (s hyperloglog); CREATE INDEX ON in_btree (s); "
                      "INSERT INTO in_btree SELECT hyperloglog_agg(n, 12) FROM generate_series(1, 99999) n;", "metrics")
    refused("a btree", said, "54000", "index row size 4")
    check("what it says of its maximum", "exceeds btree version 4 maximum 2704 for index" in said, said)
    said = server.run("SELECT hyperloglog_union_agg(image) FROM (SELECT image FROM daily UNION ALL SELECT image FROM finer) x;", "metrics")
    refused("different lg_k without a bound", said, DATA, "sketches of lg_k 1")


def regress(server):
    """make installcheck, which runs the short test of sql/ and expected/."""
    folder = server.root / "build"
    for name in ("sql", "expected"):
        shutil.copytree(HERE / name, folder / name)
    make = ["make", "-s", "-C", str(folder), "PG_CONFIG=" + server.pg_config, "installcheck"]
    done = subprocess.run(make, env=server.environment, stdout=subprocess.PIPE, stderr=subprocess.STDOUT, text=True)
    differences = folder / "regression.diffs"
    check("make installcheck", done.returncode == 0, differences.read_text() if differences.exists() else done.stdout)
