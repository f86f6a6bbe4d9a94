#!/usr/bin/env python3
# SPDX-License-Identifier: Apache-2.0
"""Measures calls of C, Python and PostgreSQL over the images of bench/worst_cases.py that take longest, how soon PostgreSQL ends
calls of two such images, and unions of a set with many small lists; and calls over small images that were made to be slow
(bench/small_images.py).

Prints the seconds of each call, over coupons or exceptions on one path and over random ones, for docs/NUMBERS.md. Each result
is compared with that of the same call over the same image in the order in which it is written; that of many images with the
union of one image that has all their coupons.
Needs bindings/c built; without a PostgreSQL server its rows are left out.
"""
import argparse
import pathlib
import statistics
import sys
import time

sys.dont_write_bytecode = True
ROOT = pathlib.Path(__file__).resolve().parent.parent
sys.path[:0] = [str(ROOT / folder) for folder in ("bindings/python", "bindings/postgresql/tests", "tests")]
from built import built_program  # noqa: E402
from long_searches import path_coupons, random_coupons, unsorted_set  # noqa: E402
from plain_images import image_line, list_image, set_image  # noqa: E402
from shared import machine, plan_file, run  # noqa: E402
import small_images  # noqa: E402
from worst_cases import exceptions_plan, set_plan, strides_plan  # noqa: E402


def sparse_plan(is_path):
    """A set of 2,000 coupons in 2^18 places, and the image that is printed."""
    coupons = (path_coupons(18) if is_path else random_coupons(18))[:2_000]
    return image_line(unsorted_set(18, coupons)), set_image(21, 18, coupons)


PLANS = {"2,000 coupons in 2^18 places": sparse_plan,
         "a set of 2^18 places": lambda is_path: set_plan(18, is_path),
         "a set of 2^18 places but one, each stride": lambda is_path: strides_plan(18, is_path),
         "exceptions at `lg_k` 21": lambda is_path: exceptions_plan(21, is_path)}


def given_and_canonical(plan, is_path):
    """The image that a plan gives, and the one that it prints."""
    text, canonical = plan(is_path)
    prefix = len(image_line(b"")) - 1
    return bytes.fromhex(text[prefix:].strip()), canonical


# ---- contestants: what each call returns, and what it should return


def calls_of_c(image, canonical):
    from hll_sketches import _library as library
    yield "C, hll_image_check", lambda: library.check(image), library.OK
    yield "C, hll_image_convert of the image as it is written", lambda: library.convert(canonical, 0), library.convert(image, 0)
    yield "C, hll_image_fold to lg_k 4", lambda: library.fold(image, 4), library.fold(canonical, 4)


def calls_of_python(image, canonical):
    from hll_sketches import Sketch, fault_of, union_of
    yield "Python, fault_of", lambda: fault_of(image), None
    yield "Python, Sketch and its estimate", lambda: Sketch.from_bytes(image).estimate(), \
        Sketch.from_bytes(canonical).estimate()
    width = Sketch.from_bytes(canonical).width
    yield "Python, union_of twice the image", lambda: union_of([image, image], 21, width).to_bytes(), \
        union_of([canonical, canonical], 21, width).to_bytes()


QUERIES = {"hll_fault": "hll_fault(image) IS NULL", "hll_estimate": "hll_estimate(image)",
           "hll_fold to lg_k 4": "md5(hll_fold(image, 4))", "hll_image_union_agg": "md5(hll_image_union_agg(image, 12, 8))",
           "hll_merge with itself": "hll_estimate(hll_merge(image, image))", "hll_agree with itself": "hll_agree(image, image)"}
STOPPED = "SET statement_timeout = 50; SELECT %s FROM images WHERE name = 'given'; RESET statement_timeout;"
ADDED = "SELECT hll_estimate(hll_add(image, 1)) FROM images WHERE name = '%s';"


def stops(answer, wanted):
    """Whether a query was ended by its timeout. A quick one may end before."""
    return "57014" in answer or answer == wanted


def calls_of_postgresql(server, session, image, canonical):
    session.ask("TRUNCATE images;")
    path = server.file("image")
    for name, data in (("given", image), ("canonical", canonical)):
        path.write_bytes(data)
        session.ask("INSERT INTO images VALUES ('%s', pg_read_binary_file('%s'));" % (name, path))
    for call, expression in QUERIES.items():
        query = "SELECT %s FROM images WHERE name = '%%s';" % expression
        wanted = session.ask(query % "canonical")
        if "ERROR" in wanted:
            raise SystemExit(wanted)
        yield "PostgreSQL, " + call, lambda query=query: session.ask(query % "given"), wanted
        if "itself" in call:
            yield "PostgreSQL, %s, with a timeout of 50 ms" % call, \
                lambda expression=expression, wanted=wanted: stops(session.ask(STOPPED % expression), wanted), True
    yield "PostgreSQL, hll_add to what hll_convert writes", lambda: session.ask(ADDED % "canonical"), session.ask(ADDED % "given")


# ---- many images in one union

# A set of so many coupons in 2^18 places at `lg_k` 21, and so many lists of one coupon more.
MANY = [(66, 1_000), (66, 10_000), (66, 87_000), (110_000, 50_000)]


def many_images(in_set, lists, is_path):
    """The images of a set and of lists of one coupon each, and one image of all their coupons."""
    coupons = path_coupons(18) if is_path else random_coupons(18)
    some, others = coupons[:in_set], coupons[in_set : in_set + lists]
    return [set_image(21, 18, some)] + [list_image(21, [coupon]) for coupon in others], set_image(21, 18, some + others)


def plan_of(images):
    """A plan that unites images."""
    return "".join(map(image_line, images)) + "union %d 21 8\n" % len(images)


def printed(program, text):
    """What the program prints for a plan."""
    with plan_file() as file:
        file.write(text)
        file.flush()
        return run(program, file.name)[0]


def unions_of_many(images, whole):
    from hll_sketches import _library as library, union_of
    yield "C, hll_images_union", lambda: library.union(21, 8, images), library.union(21, 8, [whole])
    yield "Python, union_of", lambda: union_of(images, 21).to_bytes(), union_of([whole], 21).to_bytes()
    program, text = built_program(), plan_of(images)
    yield "a plan", lambda: printed(program, text), printed(program, plan_of([whole]))


def queries_of_many(server, session):
    """Unions in PostgreSQL of the rows of a table."""
    def unions(images, whole):
        path = server.file("images")
        path.write_text("".join("\\\\x%s\n" % image.hex() for image in images))
        session.ask("TRUNCATE many; COPY many FROM '%s';" % path)
        wanted = session.ask("SELECT md5(hll_image_union_agg(image, 21)) FROM (SELECT '\\x%s'::bytea AS image) AS one;" % whole.hex())
        if "ERROR" in wanted:
            raise SystemExit(wanted)
        yield "PostgreSQL, hll_image_union_agg", lambda: session.ask("SELECT md5(hll_image_union_agg(image, 21)) FROM many;"), wanted
    return unions


def measure_many(runs, unions):
    """A row for each union: its seconds and those for each megabyte of images."""
    for in_set, lists in MANY:
        rows = {}
        for is_path in (True, False):
            images, whole = many_images(in_set, lists, is_path)
            for name, call, wanted in unions(images, whole):
                rows.setdefault(name, []).append(seconds(call, wanted, runs))
        megabytes = sum(map(len, images)) / 1e6
        for name, (path, usual) in rows.items():
            print("| a set of %d, %d lists of one | %s | %.3f | %.2f | %.3f | %.1f |" % (
                in_set, lists, name, path, path / megabytes, usual, path / usual), flush=True)


# ---- rows


def seconds(call, wanted, runs):
    times = []
    for _ in range(runs):
        start = time.perf_counter()
        answer = call()
        times.append(time.perf_counter() - start)
        if answer != wanted:
            raise SystemExit("a call answers otherwise than over the image in its own order")
    return statistics.median(times)


def measure(name, plan, calls_of, runs):
    """A row for each call: its seconds on one path and on random ones."""
    rows = {}
    for is_path in (True, False):
        for call_name, call, wanted in calls_of(*given_and_canonical(plan, is_path)):
            rows.setdefault(call_name, []).append(seconds(call, wanted, runs))
    for call_name, (path, usual) in rows.items():
        print("| %s | %s | %.3f | %.3f | %.1f |" % (name, call_name, path, usual, path / usual), flush=True)


def measure_postgresql(measures):
    """Measures in a PostgreSQL server, if there is one."""
    from server import Refused, Server, Session
    try:
        with Server() as server, Session(server) as session:
            session.ask("CREATE EXTENSION hll_sketches; CREATE TABLE images (name text, image bytea); CREATE TABLE many (image bytea);"
                        " ALTER TABLE images ALTER image SET STORAGE EXTERNAL;")
            measures(server, session)
    except Refused as why:
        print("PostgreSQL is left out: %s\n" % why)


def main():
    parser = argparse.ArgumentParser(description="Measures calls over the images that take longest.")
    parser.add_argument("--runs", type=int, default=3, help="how often each call is made")
    parser.add_argument("--many", action="store_true", help="unions of many images alone")
    parser.add_argument("--small", action="store_true", help="small images that were made to be slow alone")
    given = parser.parse_args()
    runs = given.runs
    print(machine())
    if not given.many:
        small_images.main()
        measure_postgresql(lambda server, session: small_images.print_rows(21, [
            lambda images: small_images.of_postgresql(server, session, images)]))
    if given.small:
        return
    print("| images | call | seconds, one path | seconds a megabyte | seconds, random | ratio |\n|---|---|---|---|---|---|")
    measure_many(runs, unions_of_many)
    measure_postgresql(lambda server, session: measure_many(runs, queries_of_many(server, session)))
    if given.many:
        return
    print("| image | call | seconds, one path | seconds, random | ratio |\n|---|---|---|---|---|")
    for name, plan in PLANS.items():
        for calls_of in (calls_of_c, calls_of_python):
            measure(name, plan, calls_of, runs)
    measure_postgresql(lambda server, session: [
        measure(name, plan, lambda *images: calls_of_postgresql(server, session, *images), runs) for name, plan in PLANS.items()])


if __name__ == "__main__":
    main()
