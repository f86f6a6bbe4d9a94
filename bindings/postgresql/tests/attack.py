# SPDX-License-Identifier: Apache-2.0
"""A plain user who may create objects where an extension is installed, or used: nothing of his runs as another role.

Mallory plants operators, functions and casts that fit what the scripts and the aggregates call. Each says so and keeps the
role as which it runs; where that isn't mallory's, it makes mallory a superuser.
"""
import itertools
import re

from report import check, equal, refused
from server import EARLIER, HERE
from unions import settings

HEARD = "planted: "

# ---- what is planted

HEAR = """
CREATE TABLE %(schema)s.heard (what text, role text);
CREATE TYPE %(schema)s.box AS (content bytea);
CREATE DOMAIN %(schema)s.bytes AS bytea;
CREATE FUNCTION %(schema)s.hear(what text) RETURNS void LANGUAGE plpgsql SET search_path = pg_catalog AS $$
BEGIN
    RAISE WARNING 'planted: % runs as %', what, current_user;
    INSERT INTO %(schema)s.heard VALUES (what, current_user);
    IF current_user <> 'mallory' THEN
        ALTER ROLE mallory SUPERUSER;
    END IF;
END $$;
"""
TYPES = "name text varchar oid regnamespace bytea int4 int8 bool".split()
POLYMORPHIC = ["anyelement", "anynonarray", "anycompatible"]
OPERATORS = "= <> < > <= >= ~ ~~ ||".split()
CATALOG_NAMES = ["current_schema", "format", "to_regnamespace", "quote_ident", *TYPES]
ARGUMENTS = "%s", "%s, int4", "%s, int4, int4", "%s, int8", "%s, int8, int8", "%s, %s", "%s, %s, int4", "%s, %s, int8"


def function(name, arguments, answer="bool"):
    """One that goes before others, as it is cheap, and is heard."""
    body = "BEGIN PERFORM %s.hear('%s(%s)'); RETURN NULL; END" % (name.split(".")[0], name, arguments)
    return "CREATE FUNCTION %s(%s) RETURNS %s LANGUAGE plpgsql COST 0.001 AS $$ %s $$;" % (name, arguments, answer, body)


def operators(schema):
    """Each between each two types."""
    for left, right in itertools.product(TYPES + [schema + ".bytes", schema + ".box"], repeat=2):
        yield function(schema + ".compare", "%s, %s" % (left, right))
        for name in OPERATORS:
            yield "CREATE OPERATOR %s.%s (LEFTARG = %s, RIGHTARG = %s, FUNCTION = %s.compare);" % (
                schema, name, left, right, schema)


def casts(schema):
    """From each type to one of mallory's, and back."""
    for kind in TYPES:
        yield function(schema + ".boxed", kind, schema + ".box")
        yield function(schema + ".from_box_to_" + kind, schema + ".box", kind)
        yield "CREATE CAST (%s AS %s.box) WITH FUNCTION %s.boxed(%s) AS IMPLICIT;" % (kind, schema, schema, kind)
        yield "CREATE CAST (%s.box AS %s) WITH FUNCTION %s.from_box_to_%s(%s.box) AS IMPLICIT;" % (
            schema, kind, schema, kind, schema)


def argument_lists(kinds):
    lists = {form.replace("%s", kind) for form, kind in itertools.product(ARGUMENTS, kinds)}
    return sorted(lists | {"VARIADIC %s[]" % kind for kind in kinds if not kind.startswith("any")})


def functions(schema, own, more_types=()):
    """Each name with other arguments than the extensions' own."""
    lists = argument_lists(TYPES + POLYMORPHIC + [schema + ".bytes", schema + ".box", *more_types])
    for name in sorted({name for name, _ in own}) + CATALOG_NAMES:
        for arguments in lists:
            if (name, arguments) not in own:
                yield function('%s."%s"' % (schema, name), arguments)


def as_mallory(server, database, statements):
    said = server.run("SET SESSION AUTHORIZATION mallory; SET search_path = pg_catalog;\n" + "\n".join(statements), database)
    return [line for line in said.split("\n") if "ERROR" in line]


def plant(server, database, schema, own, more_types=()):
    statements = [HEAR.replace("%(schema)s", schema), *operators(schema), *casts(schema), *functions(schema, own, more_types)]
    equal("planted in %s of %s" % (schema, database), as_mallory(server, database, statements), [])


# ---- what a superuser does


def signatures(server, database):
    """The names and arguments of all functions of the extensions."""
    found = server.ask("""SELECT proname, oidvectortypes(proargtypes) FROM pg_proc JOIN pg_depend ON objid = pg_proc.oid
        JOIN pg_extension e ON refobjid = e.oid WHERE extname ~ '^hll_sketches' AND classid = 'pg_proc'::regclass""", database)
    short = {"integer": "int4", "bigint": "int8", "boolean": "bool"}
    for line in found.split("\n"):
        name, arguments = line.split("|")
        yield name, ", ".join(short.get(kind, kind) for kind in arguments.split(", "))


TABLE = """
SET search_path = pg_catalog;
CREATE TABLE safe.sketches (n int4, x int8, t text, image bytea, typed OWN.hyperloglog(9, 4));
INSERT INTO safe.sketches
    SELECT x % 20, x, x, i, i
    FROM (SELECT x, OWN.hll_image_add_agg(y, 9::bigint, 4::bigint) i
          FROM generate_series(1::int8, 900) x, generate_series(x, x + x % 40) y GROUP BY x) s;
ALTER TABLE safe.sketches SET (parallel_workers = 3);
SET search_path = mallory, public;
"""
# (Numbers are bigint: where they are int4, a function of mallory's in the schema of the extension fits better.)
CALLS = ("hll_fault(image)", "hll_is_image(image)", "hll_first_image(image)", "hll_info(image)", "hll_estimate(image)",
         "hll_estimate_bounds(image, 2::bigint)", "hll_fold(image, 5::bigint)", "hll_convert(image, 6::bigint)",
         "hll_set_estimator_fields(image)", "hll_merge(image, image)", "hll_merge(image, image, 10::bigint)",
         "hll_agree(image, image)", "hll_merge(typed, image)", "hll_merge(image, typed)", "hll_add(typed, x)", "hll_add(image, t)",
         *("%s(typed%s)" % call for call in (
             ("hll_info", ""), ("hll_estimate", ""), ("hll_hip_estimate", ""), ("hll_estimate_bounds", ", 2::bigint"), ("hll_fold", ", 5::bigint"),
             ("hll_convert", ", 6::bigint"), ("hll_set_estimator_fields", ""), ("hll_merge", ", typed"), ("hll_merge", ", typed, 10::bigint"), ("hll_agree", ", typed"),
             ("hyperloglog_hash", ""), ("hyperloglog_hash_extended", ", 7::int8"), ("hyperloglog_cmp", ", typed"), ("hyperloglog_send", ""))))
UPDATE = "ALTER EXTENSION hll_sketches UPDATE; ALTER EXTENSION hll_sketches_agg UPDATE; ALTER EXTENSION hll_sketches_apache UPDATE;"
OPTIONS = "", ", 10::bigint", ", 10::bigint, 6::bigint"
OPERATORS_OF_TYPE = "= <> < <= > >= ||".split()
COUNTED = ("x::int2", "x::int4", "x > 3", "x::float4", "x::float8", "date '2026-11-01' + n", "timestamp '2026-11-01' + x * interval '1 s'",
           "timestamptz '2026-11-01' + x * interval '1 s'", "md5(t)::uuid", "t::\"char\"")


def uses(own, short):
    """Calls of all functions and aggregates, by full names, with mallory's schema in front."""
    yield TABLE.replace("OWN", own)
    for call in CALLS:
        yield "SELECT %s.%s FROM safe.sketches;" % (own, call)
    yield "SELECT %s.hll_image_empty(10::bigint, 4::bigint), %s.hyperloglog_empty(10::bigint, 4::bigint);" % (own, own)
    for operator in OPERATORS_OF_TYPE:
        yield "SELECT typed OPERATOR(%s.%s) typed FROM safe.sketches;" % (own, operator)
    yield "SELECT OPERATOR(%s.#) typed, OPERATOR(%s.#) image, typed OPERATOR(%s.||) image, image OPERATOR(%s.||) typed FROM safe.sketches;" % (own, own, own, own)
    yield "SELECT typed, count(*) FROM safe.sketches GROUP BY typed ORDER BY typed;"
    yield "SELECT image::%s.hyperloglog(9), typed::bytea, typed::text::%s.hyperloglog(9, 4) FROM safe.sketches;" % (own, own)
    for more in OPTIONS:
        yield "SELECT n, %s.hyperloglog_union_agg(typed%s) FROM safe.sketches GROUP BY n ORDER BY n;" % (own, more)
        for value in COUNTED:
            yield "SET search_path = pg_catalog; SELECT %s.hyperloglog_agg(%s%s), %s.hll_image_add_agg(%s%s), %s.hll_add_agg(%s%s) " \
                "FROM safe.sketches; SET search_path = mallory, public;" % (own, value, more, own, value, more, short, value, more)
    for value, more in itertools.product(("x", "t", "image", *COUNTED), OPTIONS[:2]):
        yield "SET search_path = pg_catalog; SELECT n, %s.hll_count_distinct(%s%s) FROM safe.sketches GROUP BY n ORDER BY n; " \
            "SET search_path = mallory, public;" % (own, value, more)
    for call in "get_estimate(%s)", "get_estimate_and_bounds(%s, 2::bigint)", "to_string(%s)":
        for sketch in "image", "typed":
            yield "SELECT %s.hll_sketch_%s FROM safe.sketches;" % (short, call % sketch)
    for value, more in itertools.product(("x", "t", "image", *COUNTED), OPTIONS[:2]):
        yield "SET search_path = pg_catalog; SELECT n, %s.hll_sketch_build(%s%s), %s.hll_sketch_union(typed%s), %s.hll_sketch_union(image%s) " \
            "FROM safe.sketches GROUP BY n ORDER BY n; SET search_path = mallory, public;" % (short, value, more, short, more, short, more)
    for agg, arguments, more in itertools.product(
            (own + ".hll_image_%s_agg", short + ".hll_%s_agg"), ("image", "t", "x"), OPTIONS):
        for kind in ("union", "add") if arguments == "image" else ("add",):
            call = agg % kind + "(%s%s)" % (arguments, more)
            yield "SELECT %s FROM safe.sketches;" % call
            yield "SELECT n, %s FROM safe.sketches GROUP BY n ORDER BY n;" % call
            yield "SELECT %s OVER (ORDER BY x) FROM safe.sketches LIMIT 9;" % call
    yield "%s SELECT %s.hll_image_union_agg(image), %s.hyperloglog_union_agg(image) FROM safe.sketches;" % (settings(3), own, own)


def install(server, database, own, short):
    return server.run("""SET search_path = mallory, public;
        CREATE EXTENSION hll_sketches SCHEMA %s;
        CREATE EXTENSION hll_sketches_agg SCHEMA %s;
        CREATE EXTENSION hll_sketches_apache SCHEMA %s;""" % (own, short, short), database)


def new_database(server, name):
    """A database in which mallory has a schema, and may create in `public`, and not in `safe`."""
    server.ask("DO $$ BEGIN CREATE ROLE mallory; EXCEPTION WHEN duplicate_object THEN END $$; CREATE DATABASE " + name)
    server.ask("CREATE SCHEMA safe; CREATE SCHEMA mallory AUTHORIZATION mallory; GRANT CREATE ON SCHEMA public TO mallory", name)


def unheard(server, name, database, said):
    """That nothing planted ran but as mallory, also in what was undone."""
    check("nothing planted runs: " + name, HEARD not in said, said[max(0, said.find(HEARD) - 20):])
    found = server.ask("SELECT * FROM (TABLE mallory.heard UNION ALL TABLE public.heard) x WHERE role <> 'mallory'", database)
    equal("what ran: " + name, found, "")
    equal("mallory is no superuser: " + name, server.ask("SELECT rolsuper FROM pg_roles WHERE rolname = 'mallory'"), "f")
    server.ask("ALTER ROLE mallory NOSUPERUSER")


def attack(server):
    """The extensions in each schema, with what is planted before and what is planted later."""
    new_database(server, "calm")
    equal("installed in peace", install(server, "calm", "public", "public"), "")
    own = set(signatures(server, "calm"))
    wanted = server.run("\n".join(uses("public", "public")), "calm")
    check("answers in peace", "ERROR" not in wanted and len(wanted) > 100000, wanted)
    for schemas in ("public", "public"), ("public", "mallory"), ("mallory", "mallory"), ("safe", "mallory"):
        database = "attacked_%s_%s" % schemas
        install_attacked(server, database, schemas, own)
        use_attacked(server, database, schemas, own, wanted)
    for schemas in ("public", "public"), ("mallory", "mallory"):
        database = "updated_%s_%s" % schemas
        update_attacked(server, database, schemas, own)
        use_attacked(server, database, schemas, own, wanted)
    database = "attacked_safe_mallory"
    # where mallory may create beside the extension, a function of int4 would fit better (README.md, "Names")
    said = server.run("SET search_path = safe, mallory, public; SELECT hyperloglog_union_agg(typed), hll_image_union_agg(typed::bytea, 9::bigint), "
                      "bool_and(typed = typed AND # typed < 50 AND hll_agree(typed, typed || typed)) FROM safe.sketches;", database)
    unheard(server, "a column of the type", database, said)
    equal("a column of the type", *said.split("|")[:2])


def install_attacked(server, database, schemas, own):
    new_database(server, database)
    for schema in ("mallory", "public"):
        plant(server, database, schema, own)
        if schema not in schemas:
            equal("the same in " + schema, as_mallory(server, database, exact(schema, without_type(own))), [])
    live(server, database)
    said = install(server, database, *schemas)
    equal("installed in %s and %s" % schemas, said, "")
    unheard(server, "installing in %s and %s" % schemas, database, said)


def update_attacked(server, database, schemas, own):
    """An earlier version, with what is planted before its update."""
    new_database(server, database)
    equal("earlier in %s and %s" % schemas, install(server, database, *("%s VERSION '%s'" % (schema, EARLIER) for schema in schemas)), "")
    for schema in ("mallory", "public"):
        plant(server, database, schema, of_type(schemas[0], own), [schemas[0] + ".hyperloglog"])
        if schema not in schemas:
            equal("the same in " + schema, as_mallory(server, database, exact(schema, without_type(own))), [])
    said = server.run("""SET search_path = mallory, public;
        %s""" % UPDATE, database)
    equal("updated in %s and %s" % schemas, said, "")
    unheard(server, "updating in %s and %s" % schemas, database, said)


def use_attacked(server, database, schemas, own, wanted):
    plant_later(server, database, schemas[0], own)
    said = server.run("\n".join(uses(*schemas)), database)
    equal("answers in %s and %s" % schemas, *first_difference(said, wanted))
    unheard(server, "using in %s and %s" % schemas, database, said)


def first_difference(found, wanted):
    lines = itertools.zip_longest(found.split("\n"), wanted.split("\n"))
    return next(((a, b) for a, b in lines if a != b), ("", ""))


def live(server, database):
    """That what is planted is taken where a name has no schema, as the scripts' once had none, by a superuser too."""
    said = server.run("""SET search_path = public; BEGIN;
        SELECT FROM pg_extension WHERE extnamespace = 'public'::regnamespace; ROLLBACK;""", database)
    check("what is planted runs", HEARD in said, said)


def exact(schema, own):
    """The extensions' own names and arguments, but for those that only a superuser can give a function."""
    return [function('%s."%s"' % (schema, name), arguments) for name, arguments in sorted(own)
            if "internal" not in arguments and "cstring" not in arguments]


def without_type(own):
    """Those that can be planted before the type is there."""
    return {(name, arguments) for name, arguments in own if "hyperloglog" not in arguments}


def of_type(own_schema, own):
    """Those of the type, which stands in a schema."""
    return {(name, arguments.replace("hyperloglog", own_schema + ".hyperloglog")) for name, arguments in own}


def plant_later(server, database, own_schema, own):
    """What can be planted once the extensions are there: their own names elsewhere, and arguments of the type."""
    own = of_type(own_schema, own)
    for schema in ("mallory", "public"):
        as_mallory(server, database, [*exact(schema, own), *functions(schema, own, [own_schema + ".hyperloglog"])])


# ---- names that are taken


def taken(server):
    """Where mallory has a function or a type of an extension's name and arguments, CREATE EXTENSION is refused, and calls nothing
    of mallory's. He can make no function with an argument `internal`, and an aggregate only in minor releases before that of 15.20."""
    new_database(server, "listed")
    equal("installed", install(server, "listed", "public", "public"), "")
    own = sorted(signatures(server, "listed"))
    check("names of the extensions", len(own) >= 50, len(own))
    new_database(server, "taken")
    for schema in ("public", "mallory"):
        equal("planted in " + schema, as_mallory(server, "taken", [HEAR.replace("%(schema)s", schema)]), [])
    for name, arguments in sorted(without_type(own)):
        if "internal" not in arguments and "cstring" not in arguments:
            try_taken(server, function("public." + name, arguments), "public", "42723")
    for kind in OWN_KINDS:
        for short in "public", "mallory":
            try_taken(server, "CREATE %s;" % kind % "public.hyperloglog", short, "42710")
        try_taken(server, "CREATE %s; CREATE %s;" % (kind % "public.hyperloglog", kind % "mallory.hyperloglog"), "mallory", "42710")
    for language, body in ("plpgsql", "BEGIN END"), ("sql", "SELECT 1"):
        said = as_mallory(server, "taken", ["CREATE FUNCTION mallory.f(internal) RETURNS int4 LANGUAGE %s AS '%s';" % (language, body)])
        check("no function of internal in " + language, len(said) == 1 and "type internal" in said[0], said)
    for name, arguments in sorted(without_type(own)):
        if "internal" in arguments and "_recv" not in name:
            said = as_mallory(server, "taken", ["BEGIN;", aggregate("mallory." + name, arguments), "ROLLBACK;"])
            if said:
                check("no aggregate %s(%s)" % (name, arguments), len(said) == 1 and "42883" in said[0], said)
            else:
                try_taken(server, aggregate("public." + name, arguments), "public", "42723")


def aggregate(name, arguments):
    """An aggregate with an argument `internal`, whose step is polymorphic, as a plain user can't give a function such an argument."""
    step = ", ".join("anyelement" if kind == "internal" else kind for kind in arguments.split(", "))
    return "%s CREATE AGGREGATE %s(%s) (SFUNC = mallory.step, STYPE = int4);" % (
        function("mallory.step", "int4, " + step, "int4"), name, arguments)


def try_taken(server, statement, short, code):
    """With the extensions of other names in this schema, and hll_sketches in public."""
    name = statement.split(" LANGUAGE")[0]
    said = server.run("""BEGIN; SET SESSION AUTHORIZATION mallory; SET search_path = pg_catalog;
        %s
        RESET SESSION AUTHORIZATION; SET search_path = mallory, public; CREATE EXTENSION hll_sketches SCHEMA public;
        CREATE EXTENSION hll_sketches_agg SCHEMA %s; CREATE EXTENSION hll_sketches_apache SCHEMA %s; ROLLBACK;""" % (
            statement, short, short), "taken")
    refused("taken: " + name, said, code)
    unheard(server, name, "taken", said)


# ---- types of others

# What mallory can make of a type's name.
OWN_KINDS = ("DOMAIN %s AS bytea", "DOMAIN %s AS text", "DOMAIN %s AS int4", "TYPE %s AS ENUM ()", "TYPE %s AS (image bytea)", "TABLE %s ()",
             "TYPE %s AS RANGE (SUBTYPE = int8)")
ARGUMENT_TYPES = """SELECT DISTINCT p.proname, t.oid::regtype
    FROM pg_extension e JOIN pg_depend d ON d.refclassid = 'pg_extension'::regclass AND d.refobjid = e.oid AND d.classid = 'pg_proc'::regclass
        JOIN pg_proc p ON p.oid = d.objid JOIN pg_type t ON t.oid = ANY (p.proargtypes)
    WHERE extname IN ('hll_sketches_agg', 'hll_sketches_apache') AND typname = 'hyperloglog' ORDER BY 1"""
KEPT = """CREATE VIEW safe.report AS SELECT public.hll_union_agg(image) AS image, max(public.hll_sketch_get_estimate(image)) AS count FROM (SELECT safe.hyperloglog_agg(7) AS image) s;
    CREATE MATERIALIZED VIEW safe.kept AS TABLE safe.report;"""
KEPT_VIEWS = "SELECT (SELECT count(*) FROM pg_extension WHERE extname ~ '^hll'), safe.hll_estimate(r.image) = 1, r.image = k.image FROM safe.report r, safe.kept k"
FORGET = """SET client_min_messages = warning; DROP EXTENSION hll_sketches CASCADE; DROP TYPE IF EXISTS public.hyperloglog;
    DROP TABLE IF EXISTS public.hyperloglog;"""


def types_of_others(server):
    """Where mallory has a type of the extension's name in the schema of the other names, these are of the extension's own type all
    the same. No role but their owner can drop them, or what uses them."""
    new_database(server, "typed")
    for kind in OWN_KINDS:
        for versions in ("",), (" VERSION '%s'" % EARLIER, "UPDATE"):
            drop_as_mallory(server, "CREATE %s;" % kind % "public.hyperloglog", *versions)
    odd = '"%s $$ ""own\'s"'
    server.ask("CREATE SCHEMA " + odd, "typed")
    equal("a schema whose name has to be quoted", install(server, "typed", odd, "public"), "")
    equal("types in " + odd, server.ask(ARGUMENT_TYPES, "typed"), types_of(odd))


def types_of(schema):
    """What ARGUMENT_TYPES finds."""
    names = ("hll_add_agg", "hll_sketch_build", "hll_sketch_get_estimate", "hll_sketch_get_estimate_and_bounds", "hll_sketch_to_string",
             "hll_sketch_union", "hll_union_agg")
    return "\n".join("%s|%s.hyperloglog" % (name, schema) for name in names)


def drop_as_mallory(server, statement, version, *update):
    """An extension that is made, or updated, after mallory's type; and what mallory can drop then."""
    name = statement + " ".join(update)
    said = install(server, "typed", "safe" + version, "public" + version) if update else ""
    equal("planted: " + name, as_mallory(server, "typed", [statement]), [])
    if update:
        said += server.run(UPDATE, "typed")
    else:
        said += install(server, "typed", "safe", "public")
    equal("made beside a type of another: " + name, said, "")
    equal("types of the other names: " + name, server.ask(ARGUMENT_TYPES, "typed"), types_of("safe"))
    server.ask(KEPT, "typed")
    for dropped in "EXTENSION hll_sketches_agg", "EXTENSION hll_sketches_apache", "EXTENSION hll_sketches", "VIEW safe.report", "TYPE safe.hyperloglog":
        said = as_mallory(server, "typed", ["DROP %s CASCADE;" % dropped])
        check("mallory can't drop %s: %s" % (dropped, name), len(said) == 1 and "42501" in said[0], said)
    said = as_mallory(server, "typed", ["DROP %s public.hyperloglog CASCADE;" % ("TABLE" if "TABLE" in statement else "TYPE")])
    equal("mallory drops his own: " + name, said, [])
    equal("what is left: " + name, server.ask(KEPT_VIEWS, "typed"), "3|t|t")
    server.ask(FORGET, "typed")


# ---- names of the catalog

# Each decoy of a function, an operator or a type keeps that it was called; a table has none of the columns. The one
# extension that there is gets the name that a script looks for, so that it looks on. A row of pg_extension stands for
# hll_sketches, whose schema the other script looks up.
DECOYS = """
SET allow_system_table_mods = on;
UPDATE pg_extension SET extname = 'hll';
CREATE SCHEMA decoys;
CREATE SCHEMA own;
INSERT INTO pg_extension SELECT 1, 'hll_sketches', extowner, 'own'::regnamespace, true, extversion, NULL, NULL FROM pg_extension;
CREATE TABLE decoys.heard (what text);
CREATE FUNCTION decoys.hear(what text) RETURNS bool LANGUAGE plpgsql SET search_path = pg_catalog AS $$
BEGIN
    INSERT INTO decoys.heard VALUES (what);
    RETURN true;
END $$;
SET search_path = pg_catalog;
SET check_function_bodies = off;
DO $decoys$
DECLARE
    it record;
BEGIN
    FOR it IN SELECT proname, oidvectortypes(proargtypes) arguments, prorettype::regtype answer FROM pg_proc p
              WHERE pronamespace = 'pg_catalog'::regnamespace AND prokind = 'f' AND NOT proretset AND NOT EXISTS (
                  SELECT FROM pg_type t WHERE t.oid = ANY (prorettype || proargtypes::oid[]) AND typtype = 'p') LOOP
        EXECUTE format('CREATE FUNCTION decoys.%I(%s) RETURNS %s LANGUAGE plpgsql AS %L', it.proname, it.arguments, it.answer,
                       format('BEGIN PERFORM decoys.hear(%L); RETURN NULL; END', it.proname));
    END LOOP;
    FOR it IN SELECT o.oid, oprname, oprleft, concat_ws(', ', nullif(oprleft, 0)::regtype, oprright::regtype) arguments,
                  oprresult::regtype answer FROM pg_operator o
              WHERE oprnamespace = 'pg_catalog'::regnamespace AND NOT EXISTS (
                  SELECT FROM pg_type t WHERE t.oid IN (oprleft, oprright, oprresult) AND typtype = 'p') LOOP
        EXECUTE format('CREATE FUNCTION decoys.operator_%s(%s) RETURNS %s LANGUAGE plpgsql AS %L',
                       it.oid, it.arguments, it.answer, format('BEGIN PERFORM decoys.hear(%L); RETURN NULL; END', it.oprname));
        EXECUTE format(CASE it.oprleft WHEN 0 THEN 'CREATE OPERATOR decoys.%s (RIGHTARG = %s, FUNCTION = decoys.operator_%s)'
                       ELSE 'CREATE OPERATOR decoys.%s (LEFTARG = %s, FUNCTION = decoys.operator_%s)' END,
                       it.oprname, replace(it.arguments, ', ', ', RIGHTARG = '), it.oid);
    END LOOP;
    FOR it IN SELECT typname, CASE typtype WHEN 'b' THEN format_type(oid, NULL) ELSE 'int4' END base FROM pg_type
              WHERE typnamespace = 'pg_catalog'::regnamespace AND typtype IN ('b', 'p') AND typname !~ '^_' LOOP
        EXECUTE format('CREATE DOMAIN decoys.%I AS %s CHECK (decoys.hear(%L))', it.typname, it.base, it.typname);
    END LOOP;
    FOR it IN SELECT relname FROM pg_class WHERE relnamespace = 'pg_catalog'::regnamespace AND relkind IN ('r', 'v') LOOP
        EXECUTE format('CREATE TABLE decoys.%I ()', it.relname);
    END LOOP;
END $decoys$;
"""
LEANING = """
WITH decoy AS (SELECT 'pg_type'::regclass class, oid FROM pg_type WHERE typnamespace = 'decoys'::regnamespace
               UNION ALL SELECT 'pg_proc'::regclass, oid FROM pg_proc WHERE pronamespace = 'decoys'::regnamespace
               UNION ALL SELECT 'pg_operator'::regclass, oid FROM pg_operator WHERE oprnamespace = 'decoys'::regnamespace
               UNION ALL SELECT 'pg_class'::regclass, oid FROM pg_class WHERE relnamespace = 'decoys'::regnamespace)
SELECT o.identity, r.identity
FROM pg_depend, pg_identify_object(classid, objid, objsubid) o, pg_identify_object(refclassid, refobjid, refobjsubid) r
WHERE (refclassid, refobjid) IN (SELECT class, oid FROM decoy) AND o.identity ~ '^own[.]| on own[.]'
UNION ALL SELECT 'a call', what FROM decoys.heard
"""


def qualified(server):
    """The scripts name all that is of the catalog with its schema: run where each operator, function, type and table of the
    catalog has a decoy that is found before it, they find none."""
    server.ask("CREATE DATABASE decoys")
    server.ask(DECOYS, "decoys")
    counts = server.ask("SELECT (SELECT count(*) FROM pg_operator WHERE oprnamespace = 'decoys'::regnamespace) > 700, "
                        "(SELECT count(*) FROM pg_proc WHERE pronamespace = 'decoys'::regnamespace) > 2000", "decoys")
    equal("decoys", counts, "t|t")
    for number, statement in enumerate((
            "CREATE FUNCTION own.takes(bytea) RETURNS pg_catalog.text LANGUAGE internal AS 'byteaout'",
            "CREATE DOMAIN own.whole AS pg_catalog.int4 CHECK (VALUE > 0)",
            "DO $$ BEGIN PERFORM FROM pg_catalog.pg_extension WHERE extname = CAST('hll' AS pg_catalog.name); END $$",
            "DO $$ BEGIN PERFORM current_schema(); END $$",
            "DO $$ BEGIN PERFORM CAST('public' AS regnamespace); END $$",
            "DO $$ BEGIN PERFORM extname FROM pg_extension; END $$")):
        check("decoys are found, %d" % number, decoys_in(server, statement + ";", "ROLLBACK") != "", statement)
    for script in sorted(HERE.glob("hll_sketches*--*.sql")):
        text = re.sub(r"^\\echo.*$", "", script.read_text(), flags=re.M)
        equal("decoys in " + script.name, decoys_in(server, text.replace("MODULE_PATHNAME", "$libdir/hll_sketches"), "COMMIT"), "")


def decoys_in(server, script, end):
    """What of a script's work leans on decoys, and errors."""
    return server.run("SET client_min_messages = warning; SET search_path = own, decoys, pg_catalog;\nBEGIN;\n%s\nSET LOCAL search_path = pg_catalog;\n%s;\n%s;"
                      % (script, LEANING, end), "decoys")
