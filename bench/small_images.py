# SPDX-License-Identifier: Apache-2.0
"""Calls over a megabyte of small images that were made to be slow: 0 to 128 coupons, in the largest table that a header may
name, in each form. bench/worst_calls.py prints the rows.

A row has the seconds of a call for a megabyte of images, and the ratio to the same call over a megabyte of lists of five
coupons. Images of C are given to bench/small_images.c; calls of Python, SQLite and PostgreSQL are made here.
"""
import pathlib
import random
import struct
import subprocess
import sys
import tempfile
import time

ROOT = pathlib.Path(__file__).resolve().parent.parent

# What a ratio is to.
LISTS = "lists of 5"


def raw(coupons):
    return b"".join(struct.pack("<I", coupon) for coupon in coupons)


def list_image(lg_k, coupons, is_compact=True):
    flags = 8 * is_compact + 4 * (not coupons)
    places = list(coupons) if is_compact or not coupons else (list(coupons) + [0] * 8)[:8]
    return bytes([2, 1, 7, lg_k, 3, flags, len(coupons), 8]) + raw(places)


def set_image(lg_k, lg_size, coupons, is_compact=True):
    places = list(coupons) if is_compact else list(coupons) + [0] * (2 ** lg_size - len(coupons))
    return bytes([3, 1, 7, lg_k, lg_size, 8 * is_compact, 0, 9]) + struct.pack("<I", len(coupons)) + raw(places)


def kinds(lg_k):
    """Each kind of image, and a function that makes one."""
    numbers = random.Random(80)

    def coupon():
        return min(63, 1 + int(numbers.expovariate(0.69))) << 26 | numbers.randrange(1 << 26)

    def some(count, order=None):
        found = [coupon() for _ in range(count)]
        return found if order is None else sorted(found, reverse=order == "descending")

    top = lg_k - 3
    one_mark = [3 << 26 | 1024 * number + 5 for number in range(128, 0, -1)]
    return {
        LISTS: lambda: list_image(lg_k, some(5, "ascending")),
        "empty lists": lambda: list_image(lg_k, []),
        "empty lists, updatable": lambda: list_image(lg_k, [], False),
        "lists of 5, updatable": lambda: list_image(lg_k, some(5), False),
        "empty sets": lambda: set_image(lg_k, top, []),
        "sets of 1": lambda: set_image(lg_k, top, some(1)),
        "sets of 1, all the same": lambda: set_image(lg_k, top, one_mark[:1]),
        "sets of 8, descending": lambda: set_image(lg_k, top, some(8, "descending")),
        "sets of 128, descending": lambda: set_image(lg_k, top, some(128, "descending")),
        "sets of 128, with one mark": lambda: set_image(lg_k, top, one_mark),
        "empty sets of 2^5 buckets, updatable": lambda: set_image(lg_k, 5, [], False),
        "sets of 24 in 2^5 buckets, updatable": lambda: set_image(lg_k, 5, some(24), False),
    }


def megabyte(make):
    """A tenth of a megabyte of images of a kind."""
    images = []
    while sum(map(len, images[:1])) * len(images) < 100_000:
        images.append(make())
    return images


# ---- contestants: the seconds a megabyte of each call


def of_c(program, images):
    with tempfile.NamedTemporaryFile() as file:
        for image in images:
            file.write(struct.pack("<I", len(image)) + image)
        file.flush()
        printed = subprocess.run([program, file.name], stdout=subprocess.PIPE, check=True, text=True).stdout
    return {"C, " + name: float(seconds) for name, seconds in map(str.split, printed.splitlines())}


def timed(call, size):
    """The seconds a megabyte of a call over so many bytes."""
    start, calls = time.perf_counter(), 0
    while calls == 0 or time.perf_counter() - start < 0.2:
        call()
        calls += 1
    return (time.perf_counter() - start) / calls / size * 1e6


def of_python(images):
    from hll_sketches import Sketch, fault_of, union_of
    size = sum(map(len, images))
    return {"Python, " + name: timed(call, size) for name, call in {
        "fault_of": lambda: [fault_of(image) for image in images],
        "Sketch and its estimate": lambda: [Sketch.from_bytes(image).estimate() for image in images],
        "union_of": lambda: union_of(images),
    }.items()}


def of_sqlite(db, images):
    """Calls of SQLite, by a connection that has the extension."""
    size = sum(map(len, images))
    db.execute("CREATE TEMP TABLE IF NOT EXISTS images (image BLOB)")
    db.execute("DELETE FROM images")
    db.executemany("INSERT INTO images VALUES (?)", [(image,) for image in images])
    return {"SQLite, " + name: timed(lambda name=name: db.execute("SELECT count(x) FROM (SELECT %s AS x FROM images)" % name).fetchall(), size)
            for name in ("hll_is_image(image)", "hll_estimate(image)", "hll_union_agg(image)")}


def of_postgresql(server, session, images):
    size = sum(map(len, images))
    path = server.file("small")
    path.write_text("".join("\\\\x%s\n" % image.hex() for image in images))
    session.ask("TRUNCATE many; COPY many FROM '%s';" % path)
    return {"PostgreSQL, " + name: timed(lambda name=name: session.ask("SELECT count(x) FROM (SELECT %s AS x FROM many) AS rows;" % name), size)
            for name in ("hll_fault(image)", "hll_estimate(image)", "hll_image_union_agg(image)")}


# ---- rows


def built(folder, library):
    """bench/small_images.c, linked to a static library."""
    program = pathlib.Path(folder, "small_images")
    subprocess.run(["cc", "-O2", "-o", program, ROOT / "bench/small_images.c", library, "-lm"], check=True)
    return program


def print_rows(lg_k, contestants):
    """A row for each call and kind: the seconds a megabyte, and the ratio to lists of five. Returns the greatest ratio."""
    lists, greatest = {}, 0
    for name, make in kinds(lg_k).items():
        images = megabyte(make)
        for contestant in contestants:
            for call, seconds in contestant(images).items():
                ratio = seconds / lists.setdefault(call, seconds)
                greatest = max(greatest, ratio)
                print("| %d | %s | %s | %.4f | %.1f |" % (lg_k, name, call, seconds, ratio), flush=True)
    return greatest


def main(lg_ks=(12, 21), library=ROOT / "bindings/c/build/libhll.a"):
    """The rows of C, Python and SQLite."""
    sys.path[:0] = [str(ROOT / "bindings/python"), str(ROOT / "bindings/sqlite/tests"), str(ROOT / "bindings/postgresql/tests")]
    contestants = [of_python]
    try:
        from base import db
        contestants.append(lambda images: of_sqlite(db, images))
    except AttributeError:
        print("SQLite is left out: this Python can't load extensions\n")
    print("| `lg_k` | images | call | seconds a megabyte | ratio to lists of 5 |\n|---|---|---|---|---|")
    with tempfile.TemporaryDirectory() as folder:
        program = built(folder, library)
        for lg_k in lg_ks:
            print_rows(lg_k, [lambda images: of_c(program, images), *contestants])
