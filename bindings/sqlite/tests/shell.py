# SPDX-License-Identifier: Apache-2.0
"""The extension as it is built, in the command sqlite3: its names, its README, under valgrind and the compiler's checks."""
import os
import pathlib
import re
import shutil
import subprocess
import tempfile

from base import EXTENSION, FOLDER
from images import image_of_coupons
from mutants import KINDS, Mutants
from report import SEED, check, equal, skip

CC = os.environ.get("CC", "cc")


def run(*command, **more):
    return subprocess.run([str(word) for word in command], stdout=subprocess.PIPE, stderr=subprocess.STDOUT, text=True, **more)


def build():
    """The module shows its entry and nothing else, and needs no other library."""
    listing = run("nm", "-D", "--defined-only", "%s.so" % EXTENSION).stdout
    equal("names of the module", [line.split()[-1] for line in listing.splitlines()], ["sqlite3_hllsketches_init"])
    needed = re.findall(r"\(NEEDED\).*\[(.*)\]", run("readelf", "-d", "%s.so" % EXTENSION).stdout)
    equal("libraries of the module", [name for name in needed if not re.match(r"lib[cm]\.so|ld-linux", name)], [])


def old_processor():
    """On a processor without the instructions of x86-64-v2 the module is refused, and the shell goes on."""
    if not shutil.which("qemu-x86_64") or os.uname().machine != "x86_64":
        skip("the extension for SQLite on an older processor", "qemu-x86_64 is not here")
        return
    said = run("qemu-x86_64", "-cpu", "core2duo", shutil.which("sqlite3"), ":memory:", input=".load %s\nSELECT 6 * 7;\n" % EXTENSION)
    check("an older processor", re.search(r"CPU ISA level is lower than required\s+42", said.stdout), said.stdout)
    said = run("qemu-x86_64", "-cpu", "Nehalem", shutil.which("sqlite3"), ":memory:",
               input=".load %s\nSELECT round(hll_estimate(hll_image_add_agg(7))), hll_processor();\n" % EXTENSION)
    equal("a processor of x86-64-v2", said.stdout, "1.0|x86-64-v2\n")


# Images of each width, of coupons and of registers, with unions, folds, conversions and estimates of them.
OF_BOTH = """.load %s
SELECT hll_processor();
CREATE TABLE images AS SELECT lg_k, width, hll_image_add_agg(x, lg_k, width) AS image
    FROM (WITH RECURSIVE n(x) AS (SELECT 1 UNION ALL SELECT x + 1 FROM n WHERE x < 6000) SELECT x FROM n),
        (SELECT column1 AS lg_k FROM (VALUES (4), (7), (10), (12))), (SELECT column1 AS width FROM (VALUES (4), (6), (8))),
        (SELECT column1 AS most FROM (VALUES (5), (100), (6000))) WHERE x <= most GROUP BY lg_k, width, most;
SELECT hex(image), hll_info(image), hll_estimate(image), hll_estimate_bounds(image), hex(hll_fold(image, 4)), hex(hll_convert(image, 6)) FROM images;
SELECT hex(hll_image_union_agg(image, 12)), hex(hll_image_union_agg(image, 9, 4)) FROM images;
SELECT hll_agree(a.image, b.image), hex(hll_merge(a.image, b.image, 12)) FROM images a, images b;
""" % EXTENSION


def both_codes():
    """With the code for x86-64-v2, which HLL_CPU chooses, each answer is the same."""
    if os.uname().machine != "x86_64":
        return
    plain = {name: value for name, value in os.environ.items() if name != "HLL_CPU"}
    said, kept = (run("sqlite3", ":memory:", input=OF_BOTH, env={**plain, **more}).stdout.splitlines() for more in ({}, {"HLL_CPU": "x86-64-v2"}))
    check("the code that runs", said[0] in ("x86-64-v2", "x86-64-v3"), said[0])
    equal("the code for x86-64-v2", kept[0], "x86-64-v2")
    equal("answers", len(said), 2 + 36 + 36 * 36)
    for number, (one, other) in enumerate(zip(said[1:], kept[1:])):
        equal("answer %d" % number, one, other)


def runs_as_shown(name, text):
    """Queries, in their order: none fails, and each prints the lines that stand after `-->`."""
    said = run("sqlite3", "-batch", ":memory:", input=text, cwd=FOLDER.parent.parent)
    shown = re.findall(r"^--> (.*)$", text, re.M)
    check(name + " shows answers", shown, text)
    equal(name, (said.stdout.splitlines(), said.returncode), (shown, 0))


def readme():
    """The queries of README.md, and the example."""
    blocks = re.findall(r"^```sql\n(.*?)^```$", (FOLDER / "README.md").read_text(), re.S | re.M)
    check("README has queries", len(blocks) >= 4, len(blocks))
    runs_as_shown("README", "".join(blocks))
    runs_as_shown("examples/rollup.sql", (FOLDER.parent.parent / "examples" / "rollup.sql").read_text())


def installed():
    """make install puts the module below a folder, and sqlite3 loads it there by its name; make uninstall takes it away."""
    place = FOLDER / "build" / "installed"
    shutil.rmtree(place, ignore_errors=True)
    make = ["make", "-s", "-C", FOLDER, "LIBHLL=%s" % (FOLDER.parent / "c" / "build" / "libhll.a"), "DESTDIR=%s" % place, "EXTENSIONS=/x"]
    equal("make install", run(*make, "install").returncode, 0)
    said = run("sqlite3", "-cmd", ".load ./x/hll_sketches", ":memory:", "SELECT hex(hll_image_empty(10))", cwd=place)
    equal("an installed module", said.stdout, image_of_coupons(10, 8, []).hex().upper() + "\n")
    equal("make uninstall", run(*make, "uninstall").returncode, 0)
    equal("nothing is left", [path for path in place.rglob("*") if path.is_file()], [])


# ---- under checks


def queries():
    """Each call, over good bytes and over mutants."""
    images = [Mutants(kind, SEED + number).image() for number in range(40) for kind in KINDS]
    lines = ["CREATE TABLE t (x);"] + ["INSERT INTO t VALUES (x'%s');" % image.hex() for image in images]
    # (the shell writes all digits of a number by long double, which valgrind has not)
    calls = ["hll_fault(x)", "hll_is_image(x)", "hll_first_image(x)", "hll_info(x)", "CAST(hll_estimate(x) AS INTEGER)", "hll_estimate_bounds(x, 3)",
             "CAST(hll_hip_estimate(x) AS INTEGER)", "hll_set_estimator_fields(x)", "hll_convert(x, 4)", "hll_fold(x, 4)",
             "hll_merge(x, hll_image_empty(9, 4))", "hll_merge(x, x, 4)", "hll_agree(x, hll_image_empty())", "hll_image_union_agg(x)",
             "hll_image_union_agg(x, 9, 6)", "hll_image_add_agg(x)", "hll_add(x, 'more')", "hll_add(x, 7.5)", "hll_image_add_agg(hex(x), 21, 4)"]
    for call in calls:
        lines.append("SELECT sum(length(%s)) FROM t WHERE hll_fault(x) IS NULL;" % call if "_agg" not in call else
                     "SELECT length(%s) FROM t WHERE hll_fault(x) IS NULL;" % call)
        lines += ["SELECT length(%s) FROM t WHERE rowid = %d;" % (call, row) for row in range(1, 40)]
    lines.append("WITH RECURSIVE n (i) AS (SELECT 1 UNION ALL SELECT i + 1 FROM n WHERE i < 3000) SELECT length(hll_image_add_agg(i)), "
                 "length(hll_image_add_agg(i + 0.5, 8, 4)), length(hll_image_add_agg('v' || i, 14, 6)) FROM n;")
    lines.append("SELECT hll_count_distinct(x), hll_count_distinct(x, 4) FROM t; SELECT length(hll_union_agg(x, 9) OVER (ORDER BY rowid)), "
                 "hll_count_distinct(x) OVER (ORDER BY rowid) FROM t WHERE hll_fault(x) IS NULL;")
    return "\n".join(lines)


def answers(program, extension, **more):
    """What the shell prints on the queries; None where it is ended by a check."""
    done = run(*program, "-cmd", ".load %s" % extension, ":memory:", input=queries(), **more)
    lines = [line for line in done.stdout.splitlines() if not line.startswith("Runtime error")]
    return lines, done


def checked():
    """The same answers under valgrind, and with checks of the compiler for each access and each sum."""
    shell = shutil.which("sqlite3")
    wanted, _ = answers([shell], EXTENSION)
    check("queries answer", len(wanted) > 100, wanted[:9])
    if shutil.which("valgrind"):
        valgrind = ["valgrind", "--quiet", "--error-exitcode=9", "--leak-check=full", "--errors-for-leak-kinds=definite", shell]
        found, done = answers(valgrind, EXTENSION)
        check("valgrind", found == wanted and done.returncode != 9 and "==" not in done.stdout, done.stdout[-600:])
    else:
        skip("the extension for SQLite in valgrind", "it is not here")
    sanitized(shell, wanted)


def sanitized(shell, wanted):
    with tempfile.TemporaryDirectory() as folder:
        module = pathlib.Path(folder) / "hll_sketches.so"
        sources = [FOLDER / name for name in ("extension.c", "functions.c", "group.c", "values.c", "aggregates.c")]
        built = run(CC, "-std=c99", "-O1", "-g", "-fPIC", "-shared", "-fsanitize=address,undefined", "-fno-sanitize-recover=all",
                    "-I", FOLDER.parent / "c", "-o", module, *sources, FOLDER.parent / "c" / "build" / "libhll.a", "-lm")
        library = run(CC, "-print-file-name=libasan.so").stdout.strip()
        if built.returncode or not os.path.isabs(library):
            skip("the extension for SQLite with sanitizers", "their library is not here")
            return
        environment = dict(os.environ, LD_PRELOAD=library, ASAN_OPTIONS="detect_leaks=0")
        found, done = answers([shell], module, env=environment)
        check("sanitizers", found == wanted and "Sanitizer" not in done.stdout, done.stdout[-600:])
