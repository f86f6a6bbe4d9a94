# SPDX-License-Identifier: Apache-2.0
"""Merges of the type in loops, expressions and aggregates, which keep registers between them, beside those of bytea, which
read and write an image each time."""
import random
import threading

from images import merged, other_image, random_image
from report import CANCELLED, IMAGE, MEMORY, QUICK, SEED, all_bytes_of, check, equal, literal, load, refused
from server import Session
from unions import PLAN, launched, settings

SEQUENCES = 600 if QUICK else 4000

# Loops over images, each under a bound (0: none), which put the next one on either side. Now and then what there is so far is
# looked at, which writes it.
LOOPS = """
CREATE FUNCTION flat(images bytea[], bounds int[]) RETURNS bytea LANGUAGE plpgsql AS $$
DECLARE u bytea := images[1];
BEGIN
    FOR n IN 2 .. cardinality(images) LOOP
        IF bounds[n] > 0 THEN
            u := CASE WHEN n % 2 = 0 THEN hll_merge(u, images[n], bounds[n]) ELSE hll_merge(images[n], u, bounds[n]) END;
        ELSE
            u := CASE WHEN n % 2 = 0 THEN hll_merge(u, images[n]) ELSE hll_merge(images[n], u) END;
        END IF;
    END LOOP;
    RETURN u;
END $$;
CREATE FUNCTION kept(images bytea[], bounds int[], looks int DEFAULT 0) RETURNS hyperloglog LANGUAGE plpgsql AS $$
DECLARE
    u hyperloglog := images[1];
    v hyperloglog;
    before hyperloglog;
BEGIN
    FOR n IN 2 .. cardinality(images) LOOP
        v := images[n];
        before := u;
        IF bounds[n] > 0 THEN
            u := CASE WHEN n % 2 = 0 THEN hll_merge(u, v, bounds[n]) ELSE hll_merge(v, u, bounds[n]) END;
        ELSE
            u := CASE WHEN n % 2 = 0 THEN u || v ELSE v || u END;
        END IF;
        IF n = looks AND (u::bytea <> flat(images[:n], bounds) OR before::bytea <> flat(images[:n - 1], bounds)) THEN
            RAISE 'merged to %, and % before', u, before;
        END IF;
    END LOOP;
    RETURN u;
END $$;
CREATE FUNCTION kept_in_halves(images bytea[], bounds int[]) RETURNS hyperloglog LANGUAGE plpgsql AS $$
DECLARE half int := cardinality(images) / 2;
BEGIN
    RETURN CASE WHEN half < 1 THEN images[1]::hyperloglog
        ELSE hll_merge(kept_in_halves(images[:half], bounds), kept_in_halves(images[half + 1:], bounds), 11) END;
END $$;
CREATE FUNCTION flat_in_halves(images bytea[], bounds int[]) RETURNS bytea LANGUAGE plpgsql AS $$
DECLARE half int := cardinality(images) / 2;
BEGIN
    RETURN CASE WHEN half < 1 THEN images[1]
        ELSE hll_merge(flat_in_halves(images[:half], bounds), flat_in_halves(images[half + 1:], bounds), 11) END;
END $$;
CREATE AGGREGATE merged(hyperloglog) (SFUNC = hll_merge, STYPE = hyperloglog, COMBINEFUNC = hll_merge, PARALLEL = SAFE);
CREATE AGGREGATE merged_flat(bytea) (SFUNC = hll_merge, STYPE = bytea, COMBINEFUNC = hll_merge, PARALLEL = SAFE);
CREATE AGGREGATE merged(hyperloglog, bigint) (SFUNC = hll_merge, STYPE = hyperloglog);
CREATE AGGREGATE merged_flat(bytea, bigint) (SFUNC = hll_merge, STYPE = bytea);
"""


def random_sequences(numbers):
    """Numbers of a group, and images by each writer: in even groups of one lg_k, with that as a bound now and then; in odd groups
    of any, each with a bound."""
    for group in range(SEQUENCES):
        sizes = [numbers.choice([4, 5, 7, 8, 9, 10])] if group % 2 == 0 else [4, 5, 7, 8, 9, 10]
        bounds = [0, 0, 0, *sizes] if group % 2 == 0 else [4, 8, 9, 12]
        for step in range(numbers.randint(1, 9)):
            image = numbers.choice([random_image, other_image])(numbers, numbers.choice(sizes))
            yield group, step, numbers.choice(bounds), image


def merging(server):
    """Thousands of random sequences."""
    server.ask(LOOPS + "CREATE TABLE steps (g int, n int, bound int, image bytea)")
    steps = list(random_sequences(random.Random(SEED + 3)))
    load(server, "steps", steps)
    server.ask("""CREATE TABLE sequences AS SELECT g, array_agg(image ORDER BY n) images, array_agg(bound ORDER BY n) bounds
        FROM steps GROUP BY g; CREATE TABLE typed_steps AS SELECT g, n, bound, image::hyperloglog sketch, image FROM steps""")
    looks = "2 + g % greatest(1, cardinality(images) - 1)"
    for name, question in (
            ("a loop", "kept(images, bounds)::bytea = flat(images, bounds)"),
            ("a loop that looks at what it has", "kept(images, bounds, %s)::bytea = flat(images, bounds)" % looks),
            ("without bounds", "g % 2 = 1 OR kept(images, array_fill(0, ARRAY[9]))::bytea = flat(images, array_fill(0, ARRAY[9]))"),
            ("halves", "kept_in_halves(images, bounds)::bytea = flat_in_halves(images, bounds)"),
            ("its estimate", "# kept(images, bounds) = hll_estimate(flat(images, bounds))"),
            ("its hash", "hyperloglog_hash(kept(images, bounds)) = hyperloglog_hash(flat(images, bounds)::hyperloglog)")):
        found = server.ask("SELECT count(*), count(*) FILTER (WHERE %s) FROM sequences" % question)
        equal("merging in " + name, found, "%d|%d" % (SEQUENCES, SEQUENCES))
    beside_model(server, steps)
    expressions(server)
    aggregates(server)


def beside_model(server, steps):
    """The loops beside the plain model, which shares no code with the library."""
    found = all_bytes_of(server.ask("SELECT kept(images, bounds) FROM sequences WHERE g < 300 ORDER BY g"))
    for group, answer in enumerate(found):
        wanted = None
        for _, step, bound, image in (one for one in steps if one[0] == group):
            sides = [wanted, image] if step % 2 else [image, wanted]
            wanted = image if step == 0 else merged(sides, bound or None)
        equal("merging beside the plain model", answer, wanted)


def expressions(server):
    """Each shape of an expression of four."""
    pick = "images[1 + (g + %d) %% cardinality(images)]"
    flat = [pick % n for n in range(4)]
    kept = [one + "::hyperloglog" for one in flat]
    for shape in ("M(M(M(%s, %s), %s), %s)", "M(%s, M(%s, M(%s, %s)))", "M(M(%s, %s), M(%s, %s))", "M(M(%s, M(%s, %s)), %s)"):
        found = server.ask("SELECT count(*) FILTER (WHERE (%s)::bytea IS DISTINCT FROM %s) FROM sequences WHERE g %% 2 = 0" % (
            shape.replace("M", "hll_merge") % tuple(kept), shape.replace("M", "hll_merge") % tuple(flat)))
        equal("merging by " + shape, found, "0")
    twice = "SELECT count(*) FILTER (WHERE (m || m)::bytea IS DISTINCT FROM hll_merge(m::bytea, m::bytea) OR (m || o)::bytea IS DISTINCT FROM " \
        "hll_merge(m::bytea, o::bytea)) FROM (SELECT %s || %s || %s m, %s o FROM sequences WHERE g %% 2 = 0 OFFSET 0) x" % tuple(kept)
    equal("a merge that is used twice", server.ask(twice), "0")
    stays = "SELECT count(*) FILTER (WHERE (m || o)::bytea IS DISTINCT FROM hll_merge(f, o::bytea) OR m::bytea IS DISTINCT FROM f OR (o || m)::bytea " \
        "IS DISTINCT FROM hll_merge(o::bytea, f)) FROM (SELECT %s || %s || %s m, hll_merge(hll_merge(%s, %s), %s) f, %s o FROM sequences WHERE g %% 2 = 0 OFFSET 0) x"
    equal("a value from which others are merged stays", server.ask(stays % (*kept[:3], *flat[:3], kept[3])), "0")
    server.ask("CREATE TABLE stored AS SELECT g, %s || %s || %s AS sketch, hll_merge(hll_merge(%s, %s), %s) AS image FROM sequences WHERE g %% 2 = 0" % (
        *kept[:3], *flat[:3]))
    equal("a merge that is stored", server.ask("SELECT count(*) FILTER (WHERE sketch::bytea <> image) FROM stored"), "0")


def aggregates(server):
    """Aggregates of hll_merge: of groups by hash and by sort, in workers, in windows, and with a bound."""
    query = "SELECT count(*), count(*) FILTER (WHERE k::bytea IS DISTINCT FROM f) FROM (SELECT %s FROM typed_steps %s) x"
    wanted = "%d|0" % (SEQUENCES // 2)
    for is_hash in (True, False):
        found = server.ask(settings(0, is_hash) + query % ("g, merged(sketch ORDER BY n) k, merged_flat(image ORDER BY n) f", "WHERE g % 2 = 0 GROUP BY g"))
        equal("aggregates of hll_merge, by %s" % ("hash" if is_hash else "sort"), found, wanted)
    found = server.ask(query % ("merged(sketch, bound ORDER BY n) k, merged_flat(image, bound ORDER BY n) f", "WHERE bound > 0 GROUP BY g"))
    equal("aggregates with bounds", found.split("|")[1], "0")
    found = server.ask("SELECT hll_agree(merged(sketch, 21), hyperloglog_union_agg(sketch, 21)) FROM typed_steps")
    equal("an aggregate of all", found, "t")
    windows = "merged(sketch) OVER w k, merged_flat(image) OVER w f"
    for frame in ("", "ROWS 3 PRECEDING", "ROWS BETWEEN 1 FOLLOWING AND 2 FOLLOWING"):
        found = server.ask(query % (windows, "WHERE g %% 2 = 0 WINDOW w AS (PARTITION BY g ORDER BY n %s)" % frame))
        equal("windows %s" % frame, found.split("|")[1], "0")
    found = server.ask("SELECT count(*) FILTER (WHERE (k || sketch)::bytea <> hll_merge(f, image)) FROM (SELECT sketch, image, %s "
                       "FROM typed_steps WHERE g %% 2 = 0 WINDOW w AS (PARTITION BY g ORDER BY n)) x" % windows)
    equal("what windows give is merged on", found, "0")
    server.ask("ALTER TABLE typed_steps SET (parallel_workers = 3); ANALYZE typed_steps")
    whole = "SELECT md5(hll_fold(merged(sketch), 4)::bytea) FROM typed_steps WHERE (hll_info(sketch)).lg_k = 9"
    check("workers for hll_merge", launched(server.ask(settings(3) + PLAN + whole)) == 3)
    equal("hll_merge in workers", server.ask(settings(3) + whole), server.ask(settings(0) + whole))


# ---- what else a merge goes into

# m is a merge that is kept in registers, and f the same image, flat.
PLACES = """CREATE TABLE parts_of AS SELECT g, hyperloglog_agg(n * g, 10) a, hyperloglog_agg(n * g + 1, 10, 6) b FROM generate_series(1, 30) g,
        generate_series(1, 3000) n GROUP BY g;
    CREATE TYPE pair AS (number int, sketch hyperloglog(10));
    CREATE FUNCTION twice(hyperloglog) RETURNS hyperloglog LANGUAGE sql AS 'SELECT $1 || $1';
    CREATE FUNCTION in_array(m hyperloglog, a hyperloglog) RETURNS hyperloglog LANGUAGE plpgsql AS $$
        DECLARE many hyperloglog[]; BEGIN many[1] := m || a; many[2] := many[1] || a; RETURN many[1] || many[2]; END $$;
    CREATE FUNCTION in_record(m hyperloglog, a hyperloglog) RETURNS hyperloglog LANGUAGE plpgsql AS $$
        DECLARE p pair; r record; BEGIN p.sketch := m || a; p.sketch := p.sketch || a; SELECT p.sketch || a AS s, a INTO r; RETURN r.s; END $$;
    CREATE FUNCTION in_trigger() RETURNS trigger LANGUAGE plpgsql AS $$ BEGIN NEW.a := NEW.a || OLD.a || OLD.b; RETURN NEW; END $$;
    CREATE VIEW merges AS SELECT g, a || b || a AS m, hll_merge(hll_merge(a::bytea, b::bytea), a::bytea) AS f, a, b FROM parts_of"""


def places(server):
    """A merge in registers is the same image wherever it goes: into functions of bytea, domains, arrays, rows, tables, sorts."""
    server.ask(PLACES)
    for call in ("m::bytea = f", "m = f::hyperloglog", "f::hyperloglog = m", "m::text = f::hyperloglog::text", "m::hyperloglog(10, 8) = m",
                 "length(m) = length(f)", "octet_length(m) = octet_length(f)", "md5(m) = md5(f)", "get_byte(m, 3) = 10", "substring(m::bytea, 5, 40) = "
                 "substring(f, 5, 40)", "m::bytea || '\\x00'::bytea = f || '\\x00'::bytea", "hyperloglog_send(m) = f", "hyperloglog_cmp(m, f::hyperloglog) = 0",
                 "# m = hll_estimate(f)", "hll_info(m) = hll_info(f)", "hll_fold(m, 5)::bytea = hll_fold(f, 5)", "hll_convert(m, 4)::bytea = hll_convert(f, 4)",
                 "hll_set_estimator_fields(m)::bytea = f", "hll_agree(m, f)", "hll_agree(m, a || b)", "(ARRAY[m, a])[1]::bytea = f", "(ROW(1, m)::pair).sketch::bytea = f",
                 "COALESCE(NULL, m)::bytea = f", "CASE WHEN g > 0 THEN m ELSE a END::bytea = f", "greatest(m, m)::bytea = f", "twice(m)::bytea = f",
                 "m IN (f::hyperloglog)", "m IS NOT DISTINCT FROM f::hyperloglog", "in_array(m, a)::bytea = f", "in_record(m, a)::bytea = f",
                 "(SELECT hyperloglog_union_agg(x, 21) FROM unnest(ARRAY[m, a]) x)::bytea = f", "to_json(m)::text LIKE '%0a0107%'"):
        found = server.ask("SELECT count(*), count(*) FILTER (WHERE %s) FROM (SELECT * FROM merges OFFSET 0) x" % call)
        equal("a merge in " + call, found, "30|30")
    for question, wanted in (
            ("SELECT count(*) FROM (SELECT DISTINCT m FROM merges) x", "30"),
            ("SELECT bool_and(m::bytea = f) FROM (SELECT m, f FROM merges ORDER BY m) x", "t"),
            ("SELECT bool_and(l IS NULL OR l::bytea = k) FROM (SELECT lag(m) OVER (ORDER BY g) l, lag(f) OVER (ORDER BY g) k FROM merges) x", "t"),
            ("SELECT bool_and(x::bytea = f) FROM (SELECT (array_agg(m))[1] x, min(f::text)::bytea f FROM merges GROUP BY g) y", "t"),
            ("SELECT string_agg(m::bytea, '' ORDER BY g) = string_agg(f, '' ORDER BY g) FROM merges", "t"),
            ("SELECT count(*) FROM merges a JOIN merges b ON a.m = b.m", "30")):
        equal("merges: " + question, server.ask(question), wanted)
    server.ask("""CREATE TRIGGER merges BEFORE UPDATE ON parts_of FOR EACH ROW EXECUTE FUNCTION in_trigger();
        CREATE TABLE before_update AS SELECT g, m FROM merges""")
    server.ask("UPDATE parts_of SET g = g")
    equal("merges of a trigger", server.ask("SELECT bool_and(a = m) FROM parts_of JOIN before_update USING (g)"), "t")
    found = server.ask("WITH u AS (UPDATE parts_of SET b = a || b || a RETURNING g, b) SELECT bool_and(hll_agree(b, m)) FROM u JOIN before_update USING (g)")
    equal("merges that are returned", found, "t")


# ---- errors, cancels and memory


def merging_fails(server):
    """A refused argument names its place, and leaves a variable as it was."""
    good = literal(random_image(random.Random(SEED), 9))
    for place, call in ((2, "h || %s"), (1, "%s || h")):
        said = server.run("SELECT %s FROM (SELECT hyperloglog_agg(n, 9) || hyperloglog_agg(-n, 9) || hyperloglog_agg(2 * n, 9) h "
                          "FROM generate_series(1, 5000) n) x;" % (call % "'\\x0201070a'::bytea"))
        refused("a bad side, %d" % place, said, IMAGE, "invalid HLL image in argument %d: truncated\n" % place)
    found = server.run("""DO $$
        DECLARE
            h hyperloglog := hll_merge(hyperloglog_empty(10), %s);
            before bytea;
        BEGIN
            h := h || (SELECT hyperloglog_agg(n, 9) FROM generate_series(1, 5000) n);
            h := h || (SELECT hyperloglog_agg(n, 9) FROM generate_series(1, 6000) n);
            before := h;
            BEGIN
                h := h || '\\x0a01070400000002'::bytea;
            EXCEPTION WHEN invalid_binary_representation THEN
                RAISE NOTICE 'refused %%', h::bytea = before AND (h || hyperloglog_empty(9))::bytea = before;
            END;
        END $$;""" % good)
    check("a variable after a refusal", "refused t" in found, found)


def merging_stops(server):
    """A loop and an aggregate of many merges end when they are cancelled, and leave the backend's memory as it was."""
    server.ask("CREATE TABLE many_kept AS SELECT g, hyperloglog_agg(n, 14) sketch FROM generate_series(1, 20) g, generate_series(1, 30000) n GROUP BY g")
    loop = """DO $$ DECLARE h hyperloglog := hyperloglog_empty(14); s hyperloglog;
        BEGIN FOR n IN 1 .. 100000000 LOOP SELECT sketch INTO s FROM many_kept WHERE g = 1 + n % 20; h := h || s; END LOOP; END $$;"""
    aggregate = "SELECT merged(sketch) FROM many_kept, generate_series(1, 10000000);"
    union = "SELECT hyperloglog_union_agg(sketch) FROM many_kept, generate_series(1, 10000000);"
    count = "SELECT hyperloglog_agg(n) FROM generate_series(1, 1000000000000) n;"
    with Session(server) as session:
        for name, query in (("loop", loop), ("aggregate", aggregate), ("union", union), ("count", count)):
            session.ask("SET statement_timeout = 200; %s" % query)
            contexts = session.contexts()
            for n in range(6):
                refused("a %s that times out" % name, session.ask(query), CANCELLED)
            timer = threading.Timer(0.1, server.ask, ["SELECT pg_cancel_backend(%d)" % session.pid])
            timer.start()
            refused("a %s that is cancelled" % name, session.ask("SET statement_timeout = 0; " + query), CANCELLED)
            timer.join()
            more = session.contexts() - contexts
            check("memory contexts after a %s" % name, more <= 65536, "%d bytes more" % more)
        session.ask("SET statement_timeout = 0;")
        keeps_size(session, "SELECT merged(sketch) IS NULL FROM many_kept, generate_series(1, %d);")
        keeps_size(session, loop.replace("100000000", "%d").replace("n % 20", "n %% 20"))
        session.ask("CREATE AGGREGATE one_by_one(int) (SFUNC = hll_add, STYPE = hyperloglog, INITCOND = '\\x0201070e030c0008')")
        keeps_size(session, "SELECT # one_by_one(n) > 0 FROM generate_series(1, 100 * %d) n;")
        keeps_size(session, "DO $$ DECLARE h hyperloglog := hyperloglog_empty(14); BEGIN FOR n IN 1 .. 10 * %d LOOP h := hll_add(h, n); END LOOP; END $$;")


def keeps_size(session, query):
    """Ten times as many rows take no more memory."""
    session.ask(query % 100)
    before = session.resident()
    session.ask(query % 1000)
    more = session.resident() - before
    check("memory of merges: " + query[:30], more < 2048, "%d kilobytes more" % more)


def merging_short(server):
    """Where memory is refused the error is 53200, and the session goes on."""
    server.ask("CREATE TABLE huge_kept AS SELECT g, hyperloglog_agg(n, 21) sketch FROM generate_series(1, 3) g, generate_series(1, 400000) n GROUP BY g")
    query = "SELECT md5(merged(sketch ORDER BY g)::bytea), md5(hyperloglog_union_agg(sketch, 20, 6)::bytea) FROM huge_kept;"
    with Session(server) as session:
        wanted = session.ask(query)
        outcomes = session.answers_within(query, 32 * 2**20, 2**19)
        errors = {said for said in outcomes if said.startswith("ERROR:  %s: out of memory\n" % MEMORY)}
        equal("merges where memory is short", outcomes - errors, {wanted})
        check("memory is refused", len(errors) > 0, errors)
        equal("the answer afterwards", session.ask(query), wanted)
