#!/usr/bin/env python3
# SPDX-License-Identifier: Apache-2.0
"""Measures how many images a second are joined: by the C library and the Python package in one process, by processes on
all processors, in PostgreSQL with 0 and 3 workers, and by Dask with 1 to 4 workers.

    engines.py [--images N] [--files N] [--runs N] [processes | postgresql | dask ..]

The images are 100,000 distinct ones of lg_k 12 at 8, 6 and 4 bits, and as many of 20 values each, whose coupons ascend,
or are in the order of their tables ("in table order"), as other libraries write them. They are compared with
postgresql-hll, where it is installed, on sketches of the same registers at 5 bits, and of as many values. Contestants
take turns, and each number is from the least time over the rounds, which differs little between runs, even on a machine
that other programs use too. In PostgreSQL the least time of a scan alone (`count`) is taken off. Dask reads a folder of
20,000 files, and so does the process that it is compared with.

Needs bindings/c built, a PostgreSQL server with its headers, and for Dask a Python with `distributed`; what is missing is
left out. The random numbers are the same at each run. Prints tables for docs/NUMBERS.md.
"""
import argparse
import array
import ctypes
import json
import logging
import math
import multiprocessing
import os
import pathlib
import random
import struct
import sys
import tempfile
import time

sys.dont_write_bytecode = True
ROOT = pathlib.Path(__file__).resolve().parent.parent
sys.path[:0] = [str(ROOT / "bindings" / "python"), str(ROOT / "bindings" / "postgresql" / "tests")]
from shared import machine  # noqa: E402

LG_K, WORKERS, GROUPS, SEED, BATCH = 12, 3, 500, 9001, 1 << 18
HEADER = bytes([10, 1, 7, LG_K, 0, 16, 0, 10]) + bytes(24)


# ---- images


def register_pool(numbers, size):
    """Random registers, as eight coupons for each leave them."""
    table = bytes(min(max(math.ceil(3 - math.log2(-math.log((n + 0.5) / 65536))), 0), 31) for n in range(65536))
    return bytes(map(table.__getitem__, array.array("H", numbers.randbytes(2 * size))))


def register_images(count):
    """Registers of distinct sketches: pieces of a pool, each from a place of its own."""
    numbers = random.Random(SEED)
    pool = register_pool(numbers, 1 << 22)
    for place in numbers.sample(range(len(pool) - 2**LG_K), count):
        yield pool[place:place + 2**LG_K]


def image_of(registers):
    return HEADER + struct.pack("<II", registers.count(0), 0) + registers


DIGITS = bytes.maketrans(bytes(range(32)), b"0123456789abcdefghijklmnopqrstuv")


def peer_of(registers):
    """The registers as postgresql-hll stores them: 5 bits each, the first one in the highest bits."""
    packed = int(registers.translate(DIGITS), 32).to_bytes(5 * 2**LG_K // 8, "big")
    return bytes([0x14, (5 - 1) << 5 | LG_K, 0x7f]) + packed


# ---- rounds


def in_turn(runs, contestants):
    """The seconds of each contestant in each round."""
    times = {name: [] for name in contestants}
    for _ in range(runs):
        for name, run in contestants.items():
            times[name].append(run())
    return times


def seconds(call):
    def run():
        started = time.perf_counter()
        call()
        return time.perf_counter() - started
    return run


def table(columns, rows):
    print("| " + " | ".join(columns) + " |")
    print("|" + "---|" * len(columns))
    for row in rows:
        print("| " + " | ".join(row) + " |", flush=True)
    print()


def rate(count, times):
    """So many a second, to three digits."""
    value = count / min(times)
    return "{:,.0f}".format(round(value, 2 - int(math.log10(value))))


def ratio(firsts, seconds_of):
    return "%.2f" % (min(firsts) / min(seconds_of))


# ---- one process and all processors


def joined_by_c(batches):
    """The C calls alone: images are concatenated already, in batches that fit a cache."""
    from hll_sketches._library import _library as library
    out, size, failed = ctypes.create_string_buffer(1 << 16), ctypes.c_size_t(), ctypes.c_size_t()
    answer = ctypes.addressof(out), len(out), ctypes.byref(size), ctypes.byref(failed)
    for images, ends in batches:
        status = library.hll_images_union(LG_K, 8, images, len(images), ends.buffer_info()[0], len(ends), *answer)
        assert status == 0, status


def batches_of(images):
    from hll_sketches._library import ends_of
    count = max(1, BATCH // len(images[0]))
    for first in range(0, len(images), count):
        some = images[first:first + count]
        yield b"".join(some), ends_of(some)


SHARED = []


def share(part):
    from hll_sketches import union_of
    first, count = part
    return union_of(SHARED[0][first:first + count], LG_K).to_bytes()


def joined_by_all(pool, images):
    from hll_sketches import union_of
    size = -(-len(images) // os.cpu_count())
    union_of(pool.map(share, [(first, size) for first in range(0, len(images), size)]), LG_K)


def sketch_of_values(first, count):
    from hll_sketches import Sketch
    sketch = Sketch(LG_K)
    sketch.update_many(range(first, first + count))
    return sketch.to_bytes()


def in_order_of_places(image):
    """The image of a set as other libraries write it: its coupons in the order of their places in the table."""
    size = 1 << image[4]
    places = [0] * size
    for coupon in struct.unpack_from("<%dI" % ((len(image) - 12) // 4), image, 12):
        place, stride = coupon % size, coupon % 2**26 // size | 1
        while places[place]:
            place = (place + stride) % size
        places[place] = coupon
    coupons = list(filter(None, places))
    return image[:12] + struct.pack("<%dI" % len(coupons), *coupons)


def small_images(count):
    return [sketch_of_values(20 * number, 20) for number in range(count)]


def image_kinds(count):
    """The images of each width, and the small ones."""
    from hll_sketches import union_of
    images = [image_of(registers) for registers in register_images(count)]
    yield "8 bits", images
    for width in (6, 4):
        yield "%d bits" % width, [union_of([image], LG_K, width).to_bytes() for image in images]
    small = small_images(count)
    yield "20 values", small
    yield "20 values, in table order", list(map(in_order_of_places, small))


def measure_processes(arguments):
    from hll_sketches import union_of
    rows = []
    for name, images in image_kinds(arguments.images):
        SHARED[:] = [images]
        batches = list(batches_of(images))
        with multiprocessing.get_context("fork").Pool() as pool:
            joined_by_all(pool, images)
            times = in_turn(arguments.runs, {"c": seconds(lambda: joined_by_c(batches)),
                                             "python": seconds(lambda: union_of(images, LG_K)),
                                             "all": seconds(lambda: joined_by_all(pool, images))})
        rows.append([name] + [rate(len(images), times[key]) for key in ("c", "python", "all")])
    table(["images", "C, one process", "Python, one process", "Python, %d processes" % os.cpu_count()], rows)


# ---- PostgreSQL


def copy_file(path, rows):
    """A file for COPY .. (FORMAT binary), of rows of bytes."""
    with open(path, "wb", buffering=1 << 20) as file:
        file.write(b"PGCOPY\n\xff\r\n\0" + bytes(8))
        for number, row in enumerate(rows):
            file.write(struct.pack(">hii", 2, 4, number % GROUPS) + struct.pack(">i", len(row)) + row)
        file.write(struct.pack(">h", -1))


SMALL = "(SELECT x / 20 n, x FROM generate_series(0, %d) x) s GROUP BY n"


def fill(server, count, has_peer):
    path = server.file("rows")
    for kind in kinds(False):
        server.ask("CREATE TABLE %s (k int, image bytea); ALTER TABLE %s ALTER image SET STORAGE PLAIN" % (kind, kind))
    copy_file(path, map(image_of, register_images(count)))
    server.ask("COPY ours8 FROM '%s' (FORMAT binary)" % path)
    for width in (6, 4):
        server.ask("INSERT INTO ours%d SELECT k, hll_convert(image, %d) FROM ours8" % (width, width))
    server.ask("INSERT INTO small SELECT n %% %d, hll_image_add_agg(x) FROM %s" % (GROUPS, SMALL % (20 * count - 1)))
    copy_file(path, map(in_order_of_places, small_images(count)))
    server.ask("COPY placed FROM '%s' (FORMAT binary)" % path)
    if has_peer:
        fill_peer(server, count, path)
    path.unlink()
    for kind in kinds(has_peer):
        server.ask("ALTER TABLE %s SET (parallel_workers = %d)" % (kind, WORKERS))
    server.ask("VACUUM ANALYZE")


def fill_peer(server, count, path):
    copy_file(path, map(peer_of, register_images(count)))
    server.ask("""CREATE TABLE loaded (k int, image bytea);
        COPY loaded FROM '%s' (FORMAT binary);
        CREATE TABLE peer (k int, image hll);
        ALTER TABLE peer ALTER image SET STORAGE PLAIN;
        INSERT INTO peer SELECT k, image::hll FROM loaded;
        DROP TABLE loaded""" % path)
    server.ask("""CREATE TABLE peer_small (k int, image hll); INSERT INTO peer_small
        SELECT n %% %d, hll_add_agg(hll_hash_bigint(x), 12, 5) FROM %s""" % (GROUPS, SMALL % (20 * count - 1)))


def kinds(has_peer):
    return ["ours8", "ours6", "ours4", "small", "placed"] + (["peer", "peer_small"] if has_peer else [])


def launched(plan):
    return plan.get("Workers Launched", 0) + sum(launched(part) for part in plan.get("Plans", []))


def timed_query(session, workers, query):
    """The seconds of a query; all its workers have to be there."""
    def run():
        session.ask("SET max_parallel_workers_per_gather = %d;" % workers)
        plan = json.loads(session.ask("EXPLAIN (ANALYZE, TIMING OFF, FORMAT JSON) %s;" % query))[0]
        assert launched(plan["Plan"]) == workers, plan
        return plan["Execution Time"] / 1000
    return run


SETTINGS = """
shared_buffers = 3GB
seq_page_cost = 0.01
parallel_setup_cost = 0
parallel_tuple_cost = 0
min_parallel_table_scan_size = 0
"""


def measure_postgresql(arguments):
    from server import Refused, Server, Session
    try:
        with Server(SETTINGS) as server:
            has_peer = server.run("CREATE EXTENSION hll_sketches; CREATE EXTENSION hll;") == ""
            fill(server, arguments.images, has_peer)
            if has_peer:
                compare_estimates(server)
            with Session(server) as session:
                measure_queries(arguments, session, has_peer)
    except Refused as why:
        print("PostgreSQL is left out: %s\n" % why)


def compare_estimates(server):
    """Both count the same registers: so their estimates are near each other."""
    for ours, peer in (("ours8", "peer"), ("small", "peer_small"), ("placed", "peer_small")):
        first = float(server.ask("SELECT hll_estimate(hll_image_union_agg(image)) FROM " + ours))
        second = float(server.ask("SELECT hll_cardinality(hll_union_agg(image)) FROM " + peer))
        assert 0.9 < first / second < 1.1, (first, second)


NAMES = {"ours8": "8 bits", "ours6": "6 bits", "ours4": "4 bits", "small": "20 values",
         "placed": "20 values, in table order", "peer": "postgresql-hll", "peer_small": "postgresql-hll, 20 values"}
QUERIES = {"scan": "SELECT count(image) FROM %s", "union": "SELECT union_agg(image) FROM %s",
           "groups": "SELECT count(u) FROM (SELECT union_agg(image) u FROM %s GROUP BY k) x"}


def query_of(what, kind):
    union = "hll_union_agg" if kind.startswith("peer") else "hll_image_union_agg"
    return (QUERIES[what] % kind).replace("union_agg", union)


def milliseconds(times):
    return "%.0f" % (1000 * min(times))


def measure_queries(arguments, session, has_peer):
    """The contestants are tables, numbers of workers, and what is asked."""
    contestants = {(kind, workers, what): timed_query(session, workers, query_of(what, kind))
                   for what in QUERIES for workers in (0, WORKERS) for kind in kinds(has_peer)}
    in_turn(1, contestants)
    times = in_turn(arguments.runs, contestants)

    def net(kind, workers):
        """Without the scan."""
        return [max(min(times[kind, workers, "union"]) - min(times[kind, workers, "scan"]), 1e-6)]
    rows = []
    for kind in kinds(has_peer):
        row = [NAMES[kind]]
        for workers in (0, WORKERS):
            union, scan = times[kind, workers, "union"], times[kind, workers, "scan"]
            row += ["%s (%s)" % (milliseconds(union), milliseconds(scan)), rate(arguments.images, net(kind, workers))]
        peer = "peer_small" if kind in ("small", "placed") else "peer"
        beside = ratio(net(kind, 0), net(peer, 0)) if has_peer and not kind.startswith("peer") else ""
        rows.append(row + [ratio(net(kind, 0), net(kind, WORKERS)), beside, milliseconds(times[kind, 0, "groups"])])
    table(["images", "0 workers, ms (scan)", "images/s", "%d workers, ms (scan)" % WORKERS, "images/s",
           "%d workers, times as fast" % WORKERS, "of postgresql-hll", "%d groups, ms" % GROUPS], rows)


# ---- Dask


def measure_dask(arguments):
    try:
        import distributed  # noqa: F401
    except ImportError:
        print("Dask is left out: this Python has no `distributed`\n")
        return
    logging.disable(logging.ERROR)
    os.environ["PYTHONPATH"] = sys.path[0]
    with tempfile.TemporaryDirectory(prefix="hll-") as folder:
        paths = []
        for number, registers in enumerate(register_images(arguments.files)):
            paths.append(os.path.join(folder, "%05d.bin" % number))
            pathlib.Path(paths[-1]).write_bytes(image_of(registers))
        rows = []
        for workers in range(1, 5):
            times = measure_workers(arguments, workers, folder, paths)
            rows.append([str(workers), rate(len(paths), times["dask"]), rate(len(paths), times["alone"]),
                         ratio(times["alone"], times["dask"])])
        table(["workers", "Dask, files/s", "one process, files/s", "times as fast"], rows)


def measure_workers(arguments, workers, folder, paths):
    """Dask with a number of running workers, compared with one process."""
    from distributed import Client, LocalCluster
    from hll_sketches import union_of
    from hll_sketches.dask import union_of_files

    def alone():
        return union_of(map(bytes_of_file, paths), LG_K)
    options = {"threads_per_worker": 1, "dashboard_address": None, "local_directory": folder}
    with LocalCluster(n_workers=workers, **options) as cluster, Client(cluster) as client:
        client.run(import_package)
        assert union_of_files(paths).compute() == alone()
        return in_turn(arguments.runs, {"alone": seconds(alone), "dask": seconds(lambda: union_of_files(paths).compute())})


def bytes_of_file(path):
    with open(path, "rb") as file:
        return file.read()


def import_package():
    import hll_sketches.dask  # noqa: F401


PARTS = {"processes": measure_processes, "postgresql": measure_postgresql, "dask": measure_dask}


def main():
    parser = argparse.ArgumentParser(description="Measures how many images a second are joined.")
    parser.add_argument("--images", type=int, default=100000)
    parser.add_argument("--files", type=int, default=20000)
    parser.add_argument("--runs", type=int, default=15)
    parser.add_argument("parts", nargs="*", metavar="PART", help=", ".join(PARTS))
    arguments = parser.parse_args()
    print("%s, %d processors\n" % (machine(), os.cpu_count()))
    for part in arguments.parts or PARTS:
        PARTS[part](arguments)


if __name__ == "__main__":
    main()
