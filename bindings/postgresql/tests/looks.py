# SPDX-License-Identifier: Apache-2.0
"""Looks for interrupts, counted in a build that reports each look, and each image that is read and may be slow (looks.h).

Between two such images there is a look, so a cancel waits for one image at most, in whatever calls and aggregates a query has.
"""
import random
import re
import subprocess

from images import image_of, random_coupons
from long_searches import unsorted_set
from plain_images import set_image
from report import SEED, bytes_of, check, equal, load, union_of
from server import HERE
from unions import launched, settings

LG_TABLE, LG_K = 15, 18         # of a set with 2^15 buckets: images of more than 64 KB


def large_images():
    """Of each kind that may be slow to read: a set in any order, a set in a table, and 4-bit registers with exceptions; and of
    those that aren't."""
    coupons = random_coupons(random.Random(SEED), 3 << LG_TABLE >> 2)
    shuffled = coupons[::-1]
    registers = bytes([1] * (2**LG_K - 100) + [40] * 100)
    yield "set", unsorted_set(LG_TABLE, shuffled)
    yield "other set", unsorted_set(LG_TABLE, shuffled[1:])
    yield "table", updatable(coupons)
    yield "exceptions", image_of(LG_K, 4, registers)
    yield "sorted", set_image(LG_K, LG_TABLE, coupons)
    yield "registers", image_of(LG_K, 8, registers)


def updatable(coupons):
    """A set with its table: each coupon where a search begins, or in the next free bucket of its path (docs/FORMAT.md, "Probing")."""
    table = [0] * (1 << LG_TABLE)
    mask = len(table) - 1
    for coupon in coupons:
        at = coupon & mask
        while table[at]:
            at = (at + (((coupon & (1 << 26) - 1) >> LG_TABLE) | 1)) & mask
        table[at] = coupon
    return bytes([3, 1, 7, LG_K, LG_TABLE, 0, 0, 9]) + b"".join(word.to_bytes(4, "little") for word in [len(coupons), *table])


# Calls of one image, x, and of two, x and y; and how many of the images of each query may be slow, at least.
ONE = ("hll_fault(x)", "hll_is_image(x)", "hll_first_image(x)", "hll_info(x)", "hll_estimate(x)", "hll_hip_estimate(x)", "hll_estimate_bounds(x)",
       "hll_fold(x, 16)", "hll_convert(x, 6)", "hll_set_estimator_fields(x)", "hll_add(x, 7)", "x::hyperloglog", "x::hyperloglog(18)",
       "x::text::hyperloglog", "# x")
TWO = ("hll_merge(x, y)", "hll_merge(x, y, 18)", "hll_merge(x, y, 10)", "hll_agree(x, y)", "x::hyperloglog || y", "hll_add(x::hyperloglog, 7) || y",
       "hll_merge(hll_add(x::hyperloglog, 7), y::hyperloglog, 12)", "hll_merge(x, y::hyperloglog)")
AGGREGATES = ("hll_image_union_agg(x ORDER BY n)", "hyperloglog_union_agg(x ORDER BY n)", "hyperloglog_union_agg(x, 12)", "hll_image_union_agg(x::hyperloglog)",
              "hll_image_union_agg(x) OVER (ORDER BY n)", "bool_and(hll_agree(x, x))")


def counting_build(server):
    """Makes the extension's objects in a database of their own, of the build that counts."""
    build = server.root / "looks"
    subprocess.run(["cp", "-r", server.root / "build", build], check=True)
    make = ["make", "-s", "-B", "-C", build, "HLL_C=%s" % (HERE.parent / "c"), "PG_CONFIG=" + server.pg_config, "hll_sketches.so",
            "PG_CFLAGS=-Wno-unused-function -include %s" % (HERE / "tests" / "looks.h")]
    made = subprocess.run(make, stdout=subprocess.PIPE, stderr=subprocess.STDOUT, text=True)
    equal("the build that counts", (made.returncode, made.stdout), (0, ""))
    server.ask("CREATE DATABASE looks")
    script = HERE / ("hll_sketches--%s.sql" % re.search("default_version = '(.*)'", (HERE / "hll_sketches.control").read_text())[1])
    text = re.sub(r"^\\echo.*$", "", script.read_text(), flags=re.M)
    server.ask("SET client_min_messages = warning;\n" + text.replace("MODULE_PATHNAME", str(build / "hll_sketches.so")), "looks")


def events(server, query):
    """What a query reports, one letter each: L for a look, I for an image; of each process apart."""
    said = server.run(query, "looks")
    check("no error: " + query, "ERROR" not in said, said)
    reports = {}
    for what, process in re.findall(r"^NOTICE:  00000: (look|image) of (\d+)$", said, re.M):
        reports[process] = reports.get(process, "") + {"look": "L", "image": "I"}[what]
    return list(reports.values())


def looked(server, query, slow):
    """Each image after a look of its own, the first too."""
    found = events(server, query)
    check("%d images are read: %s" % (slow, query), "".join(found).count("I") >= slow, found)
    check("a look before each image: " + query, found and all(one.startswith("L") and "II" not in one for one in found), found)


def looks(server):
    """Calls of one and two images, several calls in one row, aggregates, and what workers send."""
    for name in calls_of_library():
        check("looks.h knows " + name, "#define %s(" % name in (HERE / "tests" / "looks.h").read_text(), name)
    counting_build(server)
    server.ask("CREATE TABLE images (n int, name text, x bytea); ALTER TABLE images ALTER x SET STORAGE EXTERNAL", "looks")
    images = list(large_images())
    slow = {name for name, _ in images} - {"sorted", "registers"}
    path = server.file("images")
    path.write_text("".join("%d\t%s\t\\\\x%s\n" % (n, name, image.hex()) for n, (name, image) in enumerate(images)))
    server.ask("COPY images FROM '%s'" % path, "looks")
    for name, _ in images:
        for call in ONE:
            looked(server, "SELECT %s IS NULL FROM images WHERE name = '%s';" % (call, name), name in slow)
        for other, _ in images:
            pair = "SELECT %%s IS NULL FROM (SELECT a.x, b.x AS y FROM images a, images b WHERE a.name = '%s' AND b.name = '%s' OFFSET 0) p;" % (name, other)
            for call in TWO:
                looked(server, pair % call, (name in slow) + (other in slow))
    looked(server, "SELECT %s FROM images WHERE name = 'set';" % ", ".join("%s IS NULL" % call for call in ONE), len(ONE))
    for call in AGGREGATES:
        looked(server, "SELECT %s IS NULL FROM images;" % call, len(slow))
    in_workers(server, len(slow))


def apart(server):
    """Images that are read apart: their unions beside the program's, and whether they agree."""
    images = list(large_images())
    alike = {"set": 0, "table": 0, "sorted": 0, "other set": 1, "exceptions": 2, "registers": 2}
    server.ask("CREATE TABLE apart (name text, x bytea)")
    load(server, "apart", images)
    for a, x in images:
        for b, y in images:
            wanted = union_of([x, y], LG_K, 4 if a == b == "exceptions" else 8)
            found = server.ask("""SELECT hll_merge(a.x, b.x), hll_agree(a.x, b.x), hll_merge(a.x, b.x) = (a.x::hyperloglog || b.x)::bytea
                FROM apart a, apart b WHERE a.name = '%s' AND b.name = '%s'""" % (a, b)).split("|")
            check("%s and %s" % (a, b), bytes_of(found[0]) == wanted, found[0])
            equal("%s agrees with %s, and of the type" % (a, b), found[1:], ["t" if alike[a] == alike[b] else "f", "t"])


def in_workers(server, slow):
    """Workers, and the leader that combines what they send."""
    chosen = settings(2, leads=False) + "ALTER TABLE images SET (parallel_workers = 2);"
    query = "SELECT hll_image_union_agg(x, 18) IS NULL FROM images;"
    plan = server.run(chosen + "EXPLAIN (ANALYZE, COSTS OFF) " + query, "looks")
    check("workers", launched(plan) == 2, plan[-600:])
    looked(server, chosen + query, slow)


def calls_of_library():
    """The calls of these files that read an image, by the names of their parameters in hll.h. A head is read at once."""
    header = (HERE.parent / "c" / "hll.h").read_text()
    reading = set(re.findall(r"^hll_status (hll_\w+)\([^;]*?const uint8_t \*(?:image|left|bytes|images)\b", header, re.M)) - {"hll_image_head", "hll_image_trailing"}
    used = set(re.findall(r"\bhll_\w+(?=\()", "".join(path.read_text() for path in HERE.glob("*.c"))))
    check("calls that read images", len(reading & used) >= 12, reading & used)
    return sorted(reading & used)
