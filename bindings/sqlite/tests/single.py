# SPDX-License-Identifier: Apache-2.0
"""Functions of one image or two: beside worked rows, the plain model and the Python package; their refusals."""
import itertools
import json
import random
import re
import sqlite3
import struct

from base import FINDING, FOLDER, ask, db, plain, refused, rejected
from calls import GOOD, bad_images, expression_of, rows_of_calls
from hll_sketches import Sketch, union_of
from images import image_of, image_of_coupons, image_of_values, is_empty, merged, random_image, sketch_of, width_of
from report import REASONS, SEED, check, equal

NUMBERS = random.Random(SEED)
IMAGES = [random_image(NUMBERS) for _ in range(300)]

# ---- worked rows


def union_expression(images, bound, width):
    rows = ", ".join("(%s)" % image for image in images)
    return "(SELECT hll_image_union_agg(column1, %s, %s) FROM (VALUES %s))" % (bound, width, rows)


def found_by(expression):
    """The image of an expression, or what SQLite says."""
    try:
        return plain(ask("SELECT hll_convert(u, json_extract(hll_info(u), '$.width')) FROM (SELECT %s AS u)" % expression))
    except sqlite3.Error as error:
        return str(error)


def worked_rows():
    """Each answers as the row says, but for what estimators read, also where an image is refused. Plans pass over bytes after an
    image, and SQL cuts them."""
    rows = [(plan, answer, expression_of(plan, "hll_first_image(x'%s')", union_expression)) for plan, answer in rows_of_calls()]
    rows = [row for row in rows if row[2] and not re.search("stack|range|memory|syntax", row[1])]
    words = set()
    for plan, answer, expression in rows:
        name, found = "worked row %s %s" % (plan[-1][:60], answer[:60]), found_by(expression)
        if answer[0] in "=+":
            equal(name, found, plain(bytes.fromhex(answer[2:])))
        elif answer.split(": ")[1] == "fold":
            check(name, str(found).startswith("lg_k must be"), found)
        else:
            words.add(answer.split(" ")[-1])
            check(name, str(found).endswith(": %s (%s)" % (answer.split(" ")[-1], FINDING)), found)
    equal("reasons of worked rows", sorted(words & set(REASONS)), sorted(REASONS))
    check("many worked rows", len(rows) > 1500, len(rows))


# ---- beside the Python package


def functions():
    for image, other in zip(IMAGES, IMAGES[1:]):
        sketch, beside = Sketch.from_bytes(image), Sketch.from_bytes(other)
        for width in (4, 6, 8):
            equal("hll_convert", ask("SELECT hll_convert(?, ?)", image, width), sketch.convert(width).to_bytes())
        for lg_k in (4, max(4, image[3] - 1), image[3]):
            equal("hll_fold", ask("SELECT hll_fold(?, ?)", image, lg_k), sketch.fold(lg_k).to_bytes())
        sketch.set_estimator_fields()
        equal("hll_set_estimator_fields", ask("SELECT hll_set_estimator_fields(?)", image), sketch.to_bytes())
        wanted = merged([image, other])
        if wanted is not None:
            equal("hll_merge", ask("SELECT hll_merge(?, ?)", image, other), wanted)
        wanted = merged([image, other], 9)
        equal("hll_merge under 9", ask("SELECT hll_merge(?, ?, 9)", image, other), wanted)
        equal("hll_merge under 9 in Python", plain(wanted), plain(union_of([image, other], 9, width_of(wanted)).to_bytes()))
        equal("hll_agree", ask("SELECT hll_agree(?, ?)", image, other), int(sketch.agrees_with(beside)))
        equal("hll_agree with its fold", ask("SELECT hll_agree(?1, hll_fold(?1, 4))", image), 1)
        equal("hll_fault", ask("SELECT hll_fault(?)", image), None)
        told = {"lg_k": sketch.lg_k, "width": sketch.width, "stage": sketch.stage, "coupons": sketch.num_coupons,
                "zeros": sketch.num_zeros}
        equal("hll_info", json.loads(ask("SELECT hll_info(?)", image)), told)
    for lg_k, width in ((4, 4), (12, 8), (21, 6)):
        equal("hll_image_empty", ask("SELECT hll_image_empty(?, ?)", lg_k, width), Sketch(lg_k, width).to_bytes())
    equal("hll_image_empty of one", ask("SELECT hll_image_empty(9)"), Sketch(9).to_bytes())
    equal("hll_image_empty of none", ask("SELECT hll_image_empty()"), Sketch().to_bytes())
    words()


def words():
    """hll_set_estimator_fields beside sums of exact numbers."""
    for image in IMAGES:
        wanted = image
        if image[7] & 3 == 2:
            registers = sketch_of(image).content.values
            sums = [sum(2.0**-v for v in registers if v < 32), sum(2.0**-v for v in registers if v >= 32)]
            wanted = image[:8] + struct.pack("<3d", 0, *sums) + image[32:]
        found = ask("SELECT hll_set_estimator_fields(?)", image)
        equal("hll_set_estimator_fields beside sums", plain(found) if image[7] & 3 == 2 else found, plain(wanted))
        equal("words of hll_set_estimator_fields", found[8:32], wanted[8:32])


def estimates():
    """The numbers of the Python package to the last bit, also through JSON; near the truth, and NULL where there is no HIP."""
    for image in IMAGES:
        sketch = Sketch.from_bytes(image)
        equal("hll_estimate", ask("SELECT hll_estimate(?)", image), sketch.estimate())
        for deviations in (1, 2, 3):
            told = json.loads(ask("SELECT hll_estimate_bounds(?, ?)", image, deviations))
            equal("hll_estimate_bounds", (told["lower"], told["upper"]), sketch.bounds(deviations))
        equal("hll_estimate_bounds at 2", ask("SELECT hll_estimate_bounds(?)", image),
              ask("SELECT hll_estimate_bounds(?, 2)", image))
        equal("hll_hip_estimate", ask("SELECT hll_hip_estimate(?)", image), sketch.hip_estimate())
    for count in (0, 1, 7, 100, 1000, 100000):
        found = ask("WITH RECURSIVE n (i) AS (SELECT 1 UNION ALL SELECT i + 1 FROM n WHERE i < ?) "
                    "SELECT hll_estimate(hll_image_add_agg(CASE WHEN ? THEN i END)) FROM n", count, count)
        check("estimate of %d" % count, abs((found or 0) - count) <= 0.05 * count, found)
    counted = bytearray(image_of(12, 8, bytes(4096)))
    counted[5], counted[8:16] = 0, struct.pack("<d", 1234.5)
    equal("hll_hip_estimate of one", ask("SELECT hll_hip_estimate(?)", bytes(counted)), 1234.5)
    full = image_of(4, 8, bytes([63] * 16))
    equal("an infinite estimate", ask("SELECT hll_estimate(?)", full), float("inf"))
    equal("its upper bound", ask("SELECT json_extract(hll_estimate_bounds(?), '$.upper')", full), float("inf"))


def one_more():
    """hll_add adds what the aggregate counts, at the image's lg_k and width; a NULL adds nothing."""
    for number, image in enumerate(IMAGES):
        value = (number, number + 0.5, "v%d" % number, b"b%d" % number)[number % 4]
        one = ask("SELECT hll_image_add_agg(?, ?, ?)", value, image[3], width_of(image))
        found = ask("SELECT hll_add(?, ?)", image, value)
        equal("hll_add of %r" % value, ask("SELECT hll_agree(?, ?)", found, merged([image, one])), 1)
        if not is_empty(image):     # (registers that are all 0 stay registers)
            equal("bytes of hll_add of %r" % value, plain(found), plain(merged([image, one])))
        equal("hll_add of %r again" % value, ask("SELECT hll_add(?, ?)", found, value), found)
        equal("hll_add of NULL", ask("SELECT hll_add(?, NULL)", image), image)
        equal("hll_add to NULL", ask("SELECT hll_add(NULL, ?)", value), None)
    image = image_of_values(12, 8, [])
    for number in range(700):
        image = ask("SELECT hll_add(?, ?)", image, "v%d" % (number % 600))
    equal("600 values, one at a time", image, image_of_values(12, 8, [b"v%d" % number for number in range(600)]))
    refused("half a surrogate pair", "a TEXT has half a surrogate pair, so it is no UTF-8: leave it out, or count CAST(value AS BLOB)",
            "SELECT hll_add(hll_image_empty(), char(55296))")
    refused("hll_add of one argument", "wrong number of arguments to function hll_add()", "SELECT hll_add(?)", image)


# ---- refusals


def arguments():
    """NULLs, types and ranges."""
    image = image_of_coupons(12, 8, [1 << 26])
    for call in ("hll_image_empty(NULL)", "hll_image_empty(12, NULL)", "hll_fold(NULL, 4)", "hll_fold(?1, NULL)",
                 "hll_convert(?1, NULL)", "hll_set_estimator_fields(NULL)", "hll_merge(NULL, ?1)", "hll_merge(?1, NULL)",
                 "hll_merge(?1, ?1, NULL)", "hll_agree(?1, NULL)", "hll_fault(NULL)", "hll_is_image(NULL)", "hll_first_image(NULL)", "hll_info(NULL)", "hll_estimate(NULL)",
                 "hll_hip_estimate(NULL)", "hll_estimate_bounds(NULL, 9)", "hll_estimate_bounds(?1, NULL)"):
        equal(call, ask("SELECT " + call, *[image] * ("?1" in call)), None)
    for call, said in (
            ("hll_fold(?, 13)", "lg_k must be at most that of the image, not 13"),
            ("hll_fold(?, 3)", "lg_k must be between 4 and 21, not 3"),
            ("hll_fold(?, 268)", "lg_k must be between 4 and 21, not 268"),
            ("hll_fold(?, 4294967300)", "lg_k must be between 4 and 21, not 4294967300"),
            ("hll_fold(?, -9223372036854775808)", "lg_k must be between 4 and 21, not -9223372036854775808"),
            ("hll_fold(?, 10.5)", "lg_k must be an integer"),
            ("hll_fold(?, '10')", "lg_k must be an integer"),
            ("hll_convert(?, 7)", "width must be 4, 6 or 8, not 7"),
            ("hll_convert(?, 260)", "width must be 4, 6 or 8, not 260"),
            ("hll_merge(?1, ?1, 3)", "lg_max_k must be between 4 and 21, not 3"),
            ("hll_merge(?1, ?1, 22)", "lg_max_k must be between 4 and 21, not 22"),
            ("hll_estimate_bounds(?, 4)", "deviations must be 1, 2 or 3, not 4"),
            ("hll_estimate_bounds(?, 4294967297)", "deviations must be 1, 2 or 3, not 4294967297"),
            ("hll_add(hex(?), 7)", "an HLL image must be a blob (%s)" % FINDING),
            ("hll_estimate(hex(?))", "an HLL image must be a blob (%s)" % FINDING),
            ("hll_merge(?, 7)", "an HLL image must be a blob (%s)" % FINDING),
            ("hll_merge(7.5, ?)", "an HLL image must be a blob (%s)" % FINDING),
            ("hll_set_estimator_fields(?, 1)", "wrong number of arguments to function hll_set_estimator_fields()")):
        refused(call, said, "SELECT " + call, image)
    for value in ("'text'", "7", "7.5"):
        equal("hll_fault of no blob", ask("SELECT hll_fault(%s)" % value), "type")
    equal("hll_fault of an empty blob", ask("SELECT hll_fault(x'')"), "truncated")
    trailing()


HINT = " (hll_merge merges images, || puts one after another; hll_first_image cuts off what follows; %s)" % FINDING


def version():
    """The version is that of the library, and is not kept in an index."""
    header = (FOLDER.parent / "c" / "hll.h").read_text()
    wanted = ".".join(re.search(r"#define HLL_VERSION_%s (\d+)" % part, header)[1] for part in ("MAJOR", "MINOR", "PATCH"))
    equal("hll_version", ask("SELECT hll_version()"), wanted)
    check("hll_processor", ask("SELECT hll_processor()") in ("x86-64-v2", "x86-64-v3", "aarch64", "riscv64"), ask("SELECT hll_processor()"))
    refused("hll_processor of an image", "wrong number of arguments to function hll_processor()", "SELECT hll_processor(1)")
    refused("hll_version of an image", "wrong number of arguments to function hll_version()", "SELECT hll_version(1)")
    db.execute("CREATE TEMP TABLE versions (x)")
    for name in "version", "processor":
        refused("an index", "non-deterministic functions prohibited in index expressions",
                "CREATE INDEX temp.of_%s ON versions (x || hll_%s())" % (name, name))


def trailing():
    """Bytes after an image are refused by every call, so that a || b is no sketch; hll_first_image cuts them."""
    few = image_of_coupons(12, 8, [1 << 26])
    images = GOOD, few, image_of_coupons(10, 4, []), image_of(10, 4, bytes([1] * 1023 + [40])), image_of(9, 6, bytes(512))
    for image, more in itertools.product(images, (b"\0", few, bytes(10**6))):
        followed(image, more)
    refused("blob || blob", "invalid HLL image: 12 bytes follow it" + HINT, "SELECT hll_estimate(CAST(?1 || ?1 AS BLOB))", few)
    equal("no image", ask("SELECT hll_is_image(x'') + hll_is_image('text') + hll_is_image(7)"), 0)
    refused("hll_first_image of a text", "an HLL image must be a blob", "SELECT hll_first_image('text')")


def followed(image, more):
    """Each call on an image with more bytes after it."""
    longer, follow = image + more, ": %d byte%s it%s" % (len(more), "s follow" if len(more) > 1 else " follows", HINT)
    found = ask("SELECT json_array(hll_fault(?1), hll_is_image(?1), hll_fault(?2), hll_is_image(?2))", longer, image)
    equal("faults of an image with bytes after it", json.loads(found), ["trailing", 0, None, 1])
    equal("hll_first_image", ask("SELECT hll_first_image(?)", longer), image)
    for call in CALLS:
        refused(call + " with bytes after it", "invalid HLL image" + follow, "SELECT " + call, longer)
    for call in ("hll_merge(?, ?)", "hll_merge(?, ?, 9)", "hll_agree(?, ?)"):
        for number, both in ((1, (longer, image)), (2, (image, longer))):
            refused("%s, bytes after argument %d" % (call, number), "invalid HLL image in argument %d%s" % (number, follow), "SELECT " + call, *both)
    refused("a row with bytes after it", "invalid HLL image" + follow,
            "SELECT hll_image_union_agg(column1) FROM (VALUES (?), (NULL), (?))", image, longer)


CALLS = ("hll_info(?)", "hll_fold(?, 4)", "hll_convert(?, 4)", "hll_set_estimator_fields(?)", "hll_estimate(?)", "hll_hip_estimate(?)",
         "hll_estimate_bounds(?)", "hll_add(?, 7)")


def reasons():
    """Each by its word, from each function."""
    equal("the reasons tried", sorted({word for word, _ in bad_images()}), sorted(REASONS))
    for word, image in bad_images():
        equal("hll_is_image of " + word, ask("SELECT hll_is_image(?)", image), 0)
        rejected("hll_first_image of " + word, "invalid HLL image: " + word, "SELECT hll_first_image(?)", image)
        for call in CALLS:
            rejected(call + " of " + word, "invalid HLL image: " + word, "SELECT " + call, image)
        for call in ("hll_merge(?, ?)", "hll_merge(?, ?, 9)", "hll_agree(?, ?)"):
            for number, both in ((1, (image, GOOD)), (2, (GOOD, image))):
                rejected(call + " of " + word, "invalid HLL image in argument %d: %s" % (number, word), "SELECT " + call, *both)
