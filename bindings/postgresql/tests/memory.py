# SPDX-License-Identifier: Apache-2.0
"""Refused, timed-out and cancelled queries leave the backend's memory as it was, also where memory itself is refused."""
import itertools
import random
import re
import threading

from calls import bad_images
from images import random_image
from report import CANCELLED, IMAGE, IMAGES, MEMORY, QUICK, REFUSALS, array, check, equal, literal, skip
from server import Session

SLOW = "SELECT hll_image_union_agg(image, 14), hll_image_add_agg(image) FROM slow, generate_series(1, 100000)"


LONG = 2**29 + 2**20        # of which twice as much is more than a value may have
KILOBYTES = 4 * 2**20       # for the backend
FRONTS = """SELECT %s FROM (SELECT i || convert_to(repeat('x', %d), 'UTF8') long, i
    FROM (SELECT hll_image_add_agg(x) i FROM generate_series(1, 5000) x) s OFFSET 0) x;"""
OF_FRONT = "hll_fault(long) = 'trailing'", "NOT hll_is_image(long)", "hll_first_image(long) = i"
REFUSED_LONG = "hll_convert(long, 4)", "hll_merge(i, long, 9)", "(SELECT hll_image_union_agg(l) FROM (SELECT long l) y)"


def has_memory(kilobytes):
    """Whether the machine has so much to spare."""
    with open("/proc/meminfo") as file:
        return any(int(line.split()[1]) >= kilobytes for line in file if line.startswith("MemAvailable:"))


def long_values(server):
    """An image before half a gigabyte of other bytes is cut out of them, or refused, and a text of this length is a value."""
    if not has_memory(KILOBYTES):
        skip("values of half a gigabyte", "memory is short")
        return
    answers = server.run(FRONTS % (", ".join(OF_FRONT), LONG)).split("|")
    for question, answer in itertools.zip_longest(OF_FRONT, answers, fillvalue=""):
        equal("long: " + question, answer, "t")
    for question in REFUSED_LONG:
        said = server.run(FRONTS % (question, LONG))
        check("long: " + question, said.startswith("ERROR:  %s: invalid HLL image" % IMAGE) and ": %d bytes follow it\n" % LONG in said, said)
    equal("long and no image", server.run("SELECT hll_fault(convert_to(repeat('x', %d), 'UTF8'));" % LONG), "family")
    found = server.run("SELECT (hll_info(hll_image_add_agg(repeat('x', %d)))).coupons;" % LONG)
    equal("a long text", found, "1")


def refusals():
    """Queries that are refused, in each kind of call."""
    images, bad = [random_image(random.Random(n)) for n in range(6)], [image for _, image in bad_images()]
    queries = ["SELECT hll_image_union_agg(i, 12, 8) FROM unnest(%s) i;" % array(images + [image]) for image in bad]
    queries += ["SELECT hll_merge(%s, %s);" % (literal(image), literal(image)) for image in bad]
    queries += ["SELECT hll_estimate(%s);" % literal(image) for image in bad]
    return queries + ["SELECT hll_image_add_agg(x, 14, CASE x WHEN 2000 THEN 4 ELSE 8 END) FROM generate_series(1, 2000) x;",
                      "SELECT hll_count_distinct(x, CASE x WHEN 2000 THEN 4 ELSE 14 END) FROM generate_series(1, 2000) x;"]


def memory(server):
    server.ask("CREATE TABLE slow AS SELECT hll_image_add_agg(x) image FROM generate_series(1, %d) x GROUP BY x %% %d"
               % (4 * IMAGES, IMAGES // 5))
    queries = refusals()
    with Session(server) as session:
        keeps_memory(session, "refused", lambda count: many_refused(session, queries, count), 200, REFUSALS)
        keeps_memory(session, "timed out", lambda count: timed_out(session, count), 5, 5 if QUICK else 40)
        keeps_memory(session, "cancelled", lambda count: cancelled(server, session, count), 3, 3 if QUICK else 20)


def keeps_memory(session, name, run, first, count):
    """Runs something as often as caches need to fill, and then more often."""
    run(first)
    contexts, resident = session.contexts(), session.resident()
    run(count)
    contexts, resident = session.contexts() - contexts, session.resident() - resident
    check("memory contexts after %d %s" % (count, name), contexts <= 16384, "%d bytes more" % contexts)
    check("memory of the backend after %d %s" % (count, name), resident <= 1024, "%d KB more" % resident)


def many_refused(session, queries, count):
    errors = 0
    for first in range(0, count, 50):
        said = session.ask("\n".join(queries[n % len(queries)] for n in range(first, first + 50)))
        errors += said.count("ERROR:  22")
    equal("refusals", errors, count)


def timed_out(session, count):
    for n in range(count):
        said = session.ask("SET statement_timeout = %d; %s;" % (20 + 7 * n, SLOW))
        check("timeout", "ERROR:  %s: " % CANCELLED in said, said)
    session.ask("SET statement_timeout = 0;")


def cancelled(server, session, count):
    for n in range(count):
        timer = threading.Timer(0.05 + 0.01 * n, server.ask, ["SELECT pg_cancel_backend(%d)" % session.pid])
        timer.start()
        said = session.ask(SLOW + ";")
        timer.join()
        check("cancel", "ERROR:  %s: " % CANCELLED in said, said)


# ---- groups

# Sketches of so many values, or unions of five sketches of so many, and the most bytes of a group, by hash: of NULLs alone, of
# one coupon, of some, and of registers. Values come group by group, and sketches to all groups in turn.
GROUP_BYTES = [("count", 0, 160), ("count", 1, 256), ("count", 20, 512), ("count", 300, 2500), ("count", 2000, 5000),
               ("union", 20, 1024), ("union", 2000, 4500)]
OF_GROUPS = 1000
SOURCES = {"count": ("(SELECT v / greatest(COUNT, 1) k, CASE WHEN COUNT > 0 THEN v END n FROM generate_series(0, GROUPS * greatest(COUNT, 1) - 1) v "
                     "OFFSET 0) x", "hyperloglog_agg(n)"),
           "union": ("(SELECT n % GROUPS k, sketch FROM generate_series(0, GROUPS * 5 - 1) n JOIN (SELECT m, hyperloglog_agg(m * 100000 + v) sketch "
                     "FROM generate_series(0, 9) m, generate_series(1, COUNT) v GROUP BY m) s ON m = n % 10 OFFSET 0) x", "hyperloglog_union_agg(sketch)")}


def used_by_groups(server, source, call):
    """Bytes of a group, as hash aggregation says."""
    plan = server.ask("SET enable_sort = off; SET work_mem = '256MB'; SET max_parallel_workers_per_gather = 0; EXPLAIN (ANALYZE, TIMING OFF) "
                      "SELECT k, %s FROM %s GROUP BY k" % (call, source))
    return 1024 * int(re.search(r"Memory Usage: (\d+)kB", plan)[1]) // OF_GROUPS


def groups_memory(server):
    """A group takes few bytes while it is small, and about one for each register later."""
    for kind, count, most in GROUP_BYTES:
        source, call = SOURCES[kind]
        source = source.replace("GROUPS", str(OF_GROUPS)).replace("COUNT", str(count))
        used = used_by_groups(server, source, call) - used_by_groups(server, source, "count(*)")
        check("bytes of a group, %s of %d" % (kind, count), 0 < used <= most, "%d in place of %d" % (used, most))


def refused_memory(server):
    """Where the library's malloc is refused, the error is 53200, and the session goes on as before."""
    server.ask("CREATE TABLE huge AS SELECT hll_image_add_agg(x, 21) image FROM generate_series(1, 400000) x")
    query = "SELECT md5(hll_image_union_agg(hll_fold(image, 20), 20, 6)) FROM huge, generate_series(1, 3);"
    with Session(server) as session:
        wanted = session.ask(query)
        contexts = session.contexts()
        outcomes = session.answers_within(query, 24 * 2**20, 2**18)
        errors = {said for said in outcomes if said.startswith("ERROR:  %s: out of memory\n" % MEMORY)}
        equal("answers where memory is short", outcomes - errors, {wanted})
        check("the library's memory is refused", any("An allocation for an HLL sketch failed" in said for said in errors), errors)
        equal("the answer afterwards", session.ask(query), wanted)
        check("memory contexts after refused memory", session.contexts() - contexts <= 16384)
