#!/usr/bin/env python3
# SPDX-License-Identifier: Apache-2.0
"""Measures whole queries of PostgreSQL over columns, next to postgresql-hll if that is installed: values counted by group,
unions of a table whose sketches are toasted, as bindings/postgresql/README.md makes it, and merges in a loop, in an aggregate
and over a moving window.

    columns.py [--rows N] [--images N] [--runs N]

Contestants take turns, without workers; each number is the median over the rounds, and so is each ratio over the ratios of
the rounds. Needs bindings/c built, and a PostgreSQL server with its headers. Prints tables for docs/NUMBERS.md.
"""
import argparse
import json
import os
import sys

sys.dont_write_bytecode = True
from engines import GROUPS, copy_file, image_of, in_turn, milliseconds, peer_of, ratio, register_images, table  # noqa: E402
from shared import machine  # noqa: E402
from server import Refused, Server, Session  # noqa: E402

SETTINGS = """
shared_buffers = 3GB
work_mem = 256MB
max_parallel_workers_per_gather = 0
"""


def timed(session, query):
    """The seconds of a query, as the server tells them."""
    def run():
        return json.loads(session.ask("EXPLAIN (ANALYZE, TIMING OFF, FORMAT JSON) %s;" % query))[0]["Execution Time"] / 1000
    return run


def compared(session, runs, queries):
    """The times of queries by their names, after a round that fills caches."""
    contestants = {name: timed(session, query) for name, query in queries.items()}
    in_turn(1, contestants)
    return in_turn(runs, contestants)


# ---- values

COUNTED = {"bigint": ("n", "hll_hash_bigint(n)"), "integer": ("i", "hll_hash_integer(i)"), "text": ("t", "hll_hash_text(t)"),
           "float8": ("f", None), "timestamptz": ("moment", None), "uuid": ("u", None)}


def fill_values(server, count):
    server.ask("""CREATE TABLE counted AS SELECT (x %% %d)::int k, x::bigint n, x::int i, 'user ' || x t, x / 7.0::float8 f,
        timestamptz '2026-11-01' + x * interval '1 ms' AS moment, md5(x::text)::uuid u FROM generate_series(1, %d) x""" % (GROUPS, count))
    server.ask("VACUUM ANALYZE counted")


def measure_values(session, runs, count, has_peer):
    rows = []
    for kind, (ours, peer) in COUNTED.items():
        queries = {"scan": "SELECT k, count(%s) FROM counted GROUP BY k" % ours,
                   "ours": "SELECT k, hyperloglog_agg(%s) FROM counted GROUP BY k" % ours}
        if has_peer and peer:
            queries["peer"] = "SELECT k, hll_add_agg(%s, 12, 5) FROM counted GROUP BY k" % peer
        times = compared(session, runs, queries)
        beside = [milliseconds(times["peer"]), ratio(times["ours"], times["peer"])] if "peer" in times else ["", ""]
        rows.append([kind, milliseconds(times["scan"]), milliseconds(times["ours"]), *beside])
    table(["%s values by %d groups" % (format(count, ","), GROUPS), "count(), ms", "hyperloglog_agg, ms", "postgresql-hll, ms", "of that"], rows)


# ---- unions of toasted sketches


def fill_sketches(server, count, has_peer):
    path = server.file("rows")
    copy_file(path, map(image_of, register_images(count)))
    server.ask("CREATE TABLE ours (k int, image hyperloglog(12)); COPY ours FROM '%s' (FORMAT binary)" % path)
    server.ask("CREATE TABLE plain (k int, image bytea); ALTER TABLE plain ALTER image SET STORAGE EXTERNAL; INSERT INTO plain TABLE ours")
    if has_peer:
        copy_file(path, map(peer_of, register_images(count)))
        server.ask("CREATE TABLE loaded (k int, image bytea); COPY loaded FROM '%s' (FORMAT binary)" % path)
        server.ask("CREATE TABLE peer (k int, image hll); INSERT INTO peer SELECT k, image::hll FROM loaded; DROP TABLE loaded")
    path.unlink()
    server.ask("VACUUM ANALYZE")


UNIONS = {"one group": "SELECT %s FROM %s", "%d groups" % GROUPS: "SELECT k, %s FROM %s GROUP BY k"}


def measure_unions(session, runs, count, has_peer):
    rows = []
    for name, query in UNIONS.items():
        queries = {"scan": query % ("sum(length(image::bytea))", "ours"), "ours": query % ("hyperloglog_union_agg(image)", "ours"),
                   "bytea": query % ("hll_image_union_agg(image)", "plain")}
        if has_peer:
            queries["peer"] = query % ("hll_union_agg(image)", "peer")
        times = compared(session, runs, queries)
        beside = [milliseconds(times["peer"]), ratio(times["ours"], times["peer"])] if has_peer else ["", ""]
        rows.append([name, *(milliseconds(times[one]) for one in ("ours", "bytea")), *beside])
    table(["%s toasted sketches" % format(count, ","), "hyperloglog, ms", "bytea, ms", "postgresql-hll, ms", "of that"], rows)


# ---- merges

LOOP = """CREATE FUNCTION %s_loop() RETURNS %s LANGUAGE plpgsql AS $$
DECLARE u %s; s %s;
BEGIN
    FOR s IN SELECT image FROM few LOOP
        u := CASE WHEN u IS NULL THEN s ELSE hll_merge(u, s) END;
    END LOOP;
    RETURN u;
END $$"""
MERGES = {"a loop of PL/pgSQL": "SELECT KIND_loop()", "an aggregate of hll_merge": "SELECT KIND_merged(image::KIND) FROM few",
          "ROWS 29 PRECEDING": "SELECT count(u) FROM (SELECT UNION(image::KIND) OVER (ORDER BY n ROWS 29 PRECEDING) u FROM few) x"}
KINDS = {"hyperloglog": "hyperloglog_union_agg", "bytea": "hll_image_union_agg"}


def measure_merges(server, session, runs):
    server.ask("CREATE TABLE few AS SELECT row_number() OVER () n, image FROM ours LIMIT 2000")
    for kind in KINDS:
        server.ask(LOOP % ((kind,) * 4))
        server.ask("CREATE AGGREGATE %s_merged(%s) (SFUNC = hll_merge, STYPE = %s)" % ((kind,) * 3))
    rows = []
    for name, query in MERGES.items():
        queries = {kind: query.replace("KIND", kind).replace("UNION", union) for kind, union in KINDS.items()}
        times = compared(session, runs, queries)
        rows.append([name, milliseconds(times["hyperloglog"]), milliseconds(times["bytea"]), ratio(times["hyperloglog"], times["bytea"])])
    table(["2,000 sketches of 4 kilobytes", "hyperloglog, ms", "bytea, ms", "of that"], rows)


def measure(arguments):
    with Server(SETTINGS) as server:
        server.ask("CREATE EXTENSION hll_sketches")
        has_peer = server.run("CREATE EXTENSION hll;") == ""
        fill_values(server, arguments.rows)
        fill_sketches(server, arguments.images, has_peer)
        with Session(server) as session:
            measure_values(session, arguments.runs, arguments.rows, has_peer)
            measure_unions(session, arguments.runs, arguments.images, has_peer)
            measure_merges(server, session, arguments.runs)


def main():
    parser = argparse.ArgumentParser(description="Measures queries of PostgreSQL over columns.")
    parser.add_argument("--rows", type=int, default=10000000)
    parser.add_argument("--images", type=int, default=100000)
    parser.add_argument("--runs", type=int, default=3)
    arguments = parser.parse_args()
    print("%s, %d processors\n" % (machine(), os.cpu_count()))
    try:
        measure(arguments)
    except Refused as why:
        print("PostgreSQL is left out: %s" % why)


if __name__ == "__main__":
    main()
