# SPDX-License-Identifier: Apache-2.0
"""Images that are slow to read: a query over many of them ends soon where it times out or is cancelled, and a window reads
none of them twice."""
import re
import struct
import threading
import time

from images import image_of
from report import CANCELLED, DATA, IMAGE, check, equal, literal, load, refused
from server import HERE, Session
from long_searches import SLOTS, path_coupons, path_slots, registers_with, stride_coupons, unsorted_set

LG_PLACES, COUNT = 17, 100
SECONDS = 0.5           # until a query is stopped
LATEST = 2              # seconds until it ends
# A set at lg_k 21 of 129 coupons that descend, in a large table: with 128 it would be quick to read.
SMALL_SET = bytes.fromhex("0301071512080009") + struct.pack("<130I", 129, *range(2**26 + 129, 2**26, -1))


def slow_image():
    """A set whose coupons are all on one path of their stride: the slowest image for its bytes."""
    return unsorted_set(LG_PLACES, stride_coupons(LG_PLACES))


def large_exceptions():
    """The most registers of four bits, whose exceptions share one path: some megabytes."""
    return image_of(21, 4, registers_with(21, path_slots(21), 40))


def small_image(n, lg_k=12):
    return bytes([2, 1, 7, lg_k, 3, 8, 1, 8]) + struct.pack("<I", 50 * SLOTS + n)


# The server itself looks for interrupts at each row that it reads. It doesn't where it hands over rows that it sorted for
# an aggregate, nor while one call joins images that waited for each other.
QUERIES = {
    "rows that were sorted": "SELECT hll_image_union_agg(image ORDER BY n) FROM slow_images",
    "images that wait for others": """SELECT hll_image_union_agg(image, 21 ORDER BY n) FROM (TABLE large_image UNION ALL
        TABLE slow_images) x""",
    "images that go into registers": """SELECT hyperloglog_union_agg(image::hyperloglog, 21 ORDER BY n) FROM (TABLE large_image UNION ALL
        TABLE large_image UNION ALL TABLE slow_images) x""",
    "few bytes": """SELECT hll_image_union_agg(image, 21 ORDER BY n) FROM (TABLE large_image UNION ALL
        SELECT n, '\\x%s'::bytea FROM generate_series(1, 10000) n) x""" % SMALL_SET.hex(),
}

# From version 16 on the server can let its plan sort, and reads the rows.
SORTS = """SELECT set_config(name, 'off', false) FROM pg_settings WHERE name = 'enable_presorted_aggregate';"""


def interrupts(server):
    """A query is stopped by a timeout, a cancel and a termination."""
    server.ask("CREATE TABLE large_image (n int, image bytea); CREATE TABLE slow_image (image bytea)")
    server.ask("CREATE VIEW slow_images AS SELECT n, image FROM slow_image, generate_series(1, %d) n" % COUNT)
    load(server, "large_image", [(0, image_of(21, 8, bytes([1]) * 2**21))])
    load(server, "slow_image", [(slow_image(),)])
    with Session(server) as session:
        session.ask(SORTS)
        _, took = timed(session, "SELECT hll_image_union_agg(image) FROM slow_images WHERE n <= 4;")
        check("%d images take more than 10 seconds" % COUNT, took / 4 * COUNT > 10, took)
        for name, query in QUERIES.items():
            sql = "SET statement_timeout = %d; %s; RESET statement_timeout;" % (1000 * SECONDS, query)
            stopped(name + " times out", *timed(session, sql))
        contexts = session.contexts()
        for name, query in QUERIES.items():
            stopped(name + " is cancelled", *cancelled(server, session, query))
        contexts = session.contexts() - contexts
        check("memory contexts afterwards", contexts <= 16384, "%d bytes more" % contexts)
        said = session.ask("SELECT (hll_info(hll_image_union_agg(image))).stage FROM slow_images WHERE n <= 2;")
        equal("the answer afterwards", said, "registers")
    terminated(server, QUERIES["rows that were sorted"])


def timed(session, sql):
    started = time.monotonic()
    return session.ask(sql), time.monotonic() - started


def cancelled(server, session, query):
    timer = threading.Timer(SECONDS, server.ask, ["SELECT pg_cancel_backend(%d)" % session.pid])
    timer.start()
    said, took = timed(session, query + ";")
    timer.join()
    return said, took


def terminated(server, query):
    with Session(server) as session:
        session.ask(SORTS)
        session.send(query + ";")
        time.sleep(SECONDS)
        gone = server.ask("SELECT pg_terminate_backend(%d, %d)" % (session.pid, 1000 * LATEST))
        equal("ended within %d s of its termination" % LATEST, gone, "t")


def stopped(name, said, took):
    refused(name, said, CANCELLED)
    check("%s within %d s" % (name, LATEST), SECONDS <= took < LATEST, "%.1f s" % took)


def made_again(server):
    """A call that has to be made again, as its room was too small, isn't where the query was stopped meanwhile."""
    server.ask("CREATE TABLE many_exceptions (image bytea)")
    load(server, "many_exceptions", [(large_exceptions(),)])
    query = "SELECT length(hll_merge(image, image)) FROM many_exceptions;"
    with Session(server) as session:
        said, twice = timed(session, query)
        check("an image for which the first room is too small", int(said) > 2**21 + 64, said)
        said, took = timed(session, "SET statement_timeout = 100; " + query)
        refused("a call that would be made again", said, CANCELLED)
        check("a call that isn't made again", took < 0.75 * twice, "%.2f s in place of %.2f s" % (took, twice))


# ---- windows


def windows(server):
    """As a window function the aggregate joins each image once, though it answers for each row."""
    slow = large_exceptions()
    rows = [(0, image_of(18, 8, bytes([1]) * 2**18)), (1, slow)] + [(n, small_image(20000 + n)) for n in range(2, 102)]
    server.ask("CREATE TABLE window_rows (n int, image bytea)")
    load(server, "window_rows", rows)
    with Session(server) as session:
        whole, once = timed(session, "SELECT md5(hll_image_union_agg(image, 18 ORDER BY n)) FROM window_rows;")
        said, took = timed(session, "SELECT md5(hll_image_union_agg(image, 18) OVER (ORDER BY n)) FROM window_rows;")
    answers = said.split("\n")
    equal("rows of a window", (len(answers), len(set(answers))), (102, 102))
    equal("the last row of a window", answers[-1], whole)
    check("a window joins each image once", took < 20 * once, "%.2f s in place of %.2f s" % (took, once))


def behind_slow(server):
    """Small images after slow ones wait for each other as ever."""
    slow = large_exceptions()
    server.ask("CREATE TABLE behind_slow (n int, image bytea)")
    load(server, "behind_slow", [(0, image_of(18, 8, bytes([1]) * 2**18))] + [(n, slow) for n in range(1, 5)])
    query = "SELECT md5(hll_image_union_agg(image, 18 ORDER BY n)) FROM (TABLE behind_slow %s) x;"
    small = "UNION ALL SELECT n, '\\x%s' FROM generate_series(5, 60000) n" % small_image(5).hex()
    with Session(server) as session:
        _, once = timed(session, query % "")
        _, took = timed(session, query % small)
    check("small images after slow ones", took < 2 * once + 0.5, "%.2f s in place of %.2f s" % (took, once))


# ---- images of strangers


def strangers(server):
    """A column as that of README.md takes no image that is slow to read, nor reads it to find that out."""
    kind, = re.findall(r"^CREATE TABLE sent \(name text, image (hyperloglog\(\d+\))\);$", (HERE / "README.md").read_text(), re.M)
    server.ask("CREATE TABLE sent (name text, image bytea); CREATE TABLE taken_in (image %s)" % kind)
    small = unsorted_set(11, path_coupons(11))
    bad = {"the largest set": (unsorted_set(18, path_coupons(18)), DATA), "exceptions": (four_bits(21), DATA),
           "too long": (small + bytes(100000), DATA), "too long by a little": (small + bytes(20000), IMAGE),
           "lg_k 15": (unsorted_set(12, path_coupons(12)), DATA), "three bytes": (small[:3], IMAGE), "none": (b"", IMAGE),
           "cut": (small[:-1], IMAGE), "another family": (bytes(8), IMAGE)}
    load(server, "sent", [(name, image) for name, (image, _) in bad.items()])
    with Session(server) as session:
        for name, (_, code) in bad.items():
            said, took = timed(session, "INSERT INTO taken_in SELECT image FROM sent WHERE name = '%s';" % name)
            refused("a stranger's image: " + name, said, code)
            check("a stranger's image at once: " + name, took < 0.5, "%.1f s" % took)
        for image in (small, small_image(1, 14), image_of(14, 8, bytes([1]) * 2**14), four_bits(14)):
            said = session.ask("INSERT INTO taken_in VALUES (%s), (NULL);" % literal(image))
            equal("a good image of a stranger", said, "")


def four_bits(lg_k):
    """Registers with a few exceptions."""
    return image_of(lg_k, 4, bytes([1] * (2**lg_k - 9) + [40] * 9))
