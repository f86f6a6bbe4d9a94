#!/usr/bin/env python3
# SPDX-License-Identifier: Apache-2.0
"""Measures the bytes in memory of a sketch at lg_k 12, by its number of values, in each binding.

    bench/memory.py

Prints a table for docs/CHOOSING.md, "Memory". Values are added one by one, and then the estimate is asked for once. What is
counted:

- in C, C++, Rust and Python what malloc has in use for a few hundred sketches, with its own bytes between blocks, divided by
  their number. The object itself is on the heap, too, in Python with the default allocator replaced by malloc;
- in Go the same for the memory of C, and what its own heap has after a collection;
- in SQLite what its allocator has in use at the end of a group, compared with count(x);
- in PostgreSQL what memory contexts have in use for a few hundred groups, divided by their number and compared with count(x).

A binding whose tools are not here is left out, and a line on standard error says so. Needs bindings/c and bindings/sqlite built.
"""
import ctypes
import os
import pathlib
import shutil
import sqlite3
import subprocess
import sys
import tempfile

ROOT = pathlib.Path(__file__).resolve().parent.parent
BINDINGS = ROOT / "bindings"
NUMBERS = [0, 7, 14, 20, 100, 300, 1000, 10000]
SKETCHES = 400

HEAP = r"""
#include <malloc.h>
#include <stdint.h>
#include <stdio.h>
#include <stdlib.h>
static size_t in_use(void)
{
    struct mallinfo2 now = mallinfo2();
    return now.uordblks + now.hblkhd;
}
"""

C = HEAP + r"""
#include "hll.h"
int main(int argc, char **argv)
{
    static hll_counter *made[COUNT];
    uint64_t n = strtoull(argv[argc - 1], NULL, 10), value = 0, i, j;
    hll_estimation found;
    void *volatile first = malloc(1); /* which allocates what malloc itself needs */
    size_t before;
    free(first);
    before = in_use();
    for (i = 0; i < COUNT; i++) {
        made[i] = malloc(sizeof *made[i]);
        if (made[i] == NULL || hll_counter_init(made[i], 12, NULL, NULL) != HLL_OK)
            return 1;
        for (j = 0; j < n; j++, value++)
            if (hll_counter_add(made[i], (const uint8_t *)&value, sizeof value) != HLL_OK)
                return 1;
        if (hll_counter_estimate(made[i], &found) != HLL_OK)
            return 1;
    }
    printf("%zu\n", in_use() - before);
    return 0;
}
"""

CPP = HEAP + r"""
#include "hll.hpp"
int main(int argc, char **argv)
{
    static hll::sketch *made[COUNT];
    uint64_t n = strtoull(argv[argc - 1], NULL, 10), value = 0;
    hll::sketch(12).estimate(); // what is allocated once
    size_t before = in_use();
    for (auto &one : made) {
        one = new hll::sketch(12);
        for (uint64_t j = 0; j < n; j++)
            one->update(value++);
        one->estimate();
    }
    printf("%zu\n", in_use() - before);
}
"""

RUST = r"""
use hll_sketches::hll::{HllSketch, HllType};

#[repr(C)]
struct Info { arena: usize, ordblks: usize, smblks: usize, hblks: usize, hblkhd: usize, usmblks: usize, fsmblks: usize, uordblks: usize, fordblks: usize, keepcost: usize }

extern "C" { fn mallinfo2() -> Info; }

fn in_use() -> usize {
    let now = unsafe { mallinfo2() };
    now.uordblks + now.hblkhd
}

fn main() {
    let n: u64 = std::env::args().nth(1).unwrap().parse().unwrap();
    let mut made = Vec::with_capacity(COUNT);
    let mut value = 0u64;
    let before = in_use();
    for _ in 0..COUNT {
        let mut one = Box::new(HllSketch::new(12, HllType::Hll8).unwrap());
        for _ in 0..n {
            one.update(value);
            value += 1;
        }
        let _ = one.estimate();
        made.push(one);
    }
    println!("{}", in_use() - before);
}
"""

GO = r"""
package main

// #include <malloc.h>
import "C"

import (
	"fmt"
	"os"
	"runtime"
	"strconv"

	hll "cimbarohe.invalid/hll"
)

func inUse() int {
	var own runtime.MemStats
	runtime.GC()
	runtime.GC()
	runtime.ReadMemStats(&own)
	now := C.mallinfo2()
	return int(now.uordblks) + int(now.hblkhd) + int(own.HeapAlloc)
}

func main() {
	n, _ := strconv.Atoi(os.Args[1])
	var made [COUNT]*hll.Sketch
	value := int64(0)
	before := inUse()
	for i := range made {
		made[i], _ = hll.New(12)
		for j := 0; j < n; j++ {
			if made[i].AddInt(value) != nil {
				panic("not added")
			}
			value++
		}
		if _, err := made[i].Estimate(); err != nil {
			panic(err)
		}
	}
	fmt.Println(inUse() - before)
	runtime.KeepAlive(&made)
}
"""

PYTHON = r"""
import ctypes, gc, sys
sys.path.insert(0, "%s")
from hll_sketches import Sketch

class Info(ctypes.Structure):
    _fields_ = [(name, ctypes.c_size_t) for name in ("arena", "ordblks", "smblks", "hblks", "hblkhd", "usmblks", "fsmblks",
                                                     "uordblks", "fordblks", "keepcost")]

call = ctypes.CDLL(None).mallinfo2
call.restype = Info

def in_use():
    gc.collect()
    now = call()
    return now.uordblks + now.hblkhd

def add(one, values):
    for value in values:
        one.update(value)
    one.estimate()

n, made = int(sys.argv[1]), [None] * COUNT
add(Sketch(12), range(20000))       # what is allocated once
before = in_use()
for i in range(COUNT):
    made[i] = Sketch(12)
    add(made[i], range(i * n, i * n + n))
print(in_use() - before)
""" % (BINDINGS / "python")

SEVERAL = """SELECT (SELECT sum(used_bytes) FROM pg_backend_memory_contexts), sum(length(made::text)) FROM
    (SELECT %s made FROM generate_series(1, %d) x GROUP BY x %% %d OFFSET 0) groups;"""


class Missing(Exception):
    """The tools of a binding are not here."""


def need(command):
    if shutil.which(command) is None:
        raise Missing("the command %s is not here" % command)


def write(path, text):
    path.write_text(text.replace("COUNT", str(SKETCHES)))
    return path


def run(command, **more):
    done = subprocess.run([str(word) for word in command], stdout=subprocess.PIPE, text=True, check=True, **more)
    return done.stdout


def by_program(command, **more):
    """The bytes of a sketch, by a program that makes many of a number of values."""
    return [round(int(run([*command, n], **more)) / SKETCHES) for n in NUMBERS]


def in_c(folder, name="c", compiler="cc", text=C, options=("-std=gnu99",), include=BINDINGS / "c"):
    need(compiler)
    source = write(folder / ("memory." + name), text)
    run([compiler, "-O2", *options, "-I", BINDINGS / "c", "-I", include, source, BINDINGS / "c" / "build" / "libhll.a", "-lm", "-o", folder / name])
    return by_program([folder / name])


def in_cpp(folder):
    return in_c(folder, "cpp", "c++", CPP, ("-std=c++11",), BINDINGS / "cpp")


def in_rust(folder):
    need("cargo")
    (folder / "rust" / "src").mkdir(parents=True)
    write(folder / "rust" / "src" / "main.rs", RUST)
    write(folder / "rust" / "Cargo.toml", '[package]\nname = "memory"\nversion = "0.1.0"\nedition = "2021"\n\n[dependencies]\n'
          'hll-sketches = { path = "%s" }\n' % (BINDINGS / "rust"))
    run(["cargo", "build", "--release", "--quiet", "--offline"], cwd=folder / "rust")
    return by_program([folder / "rust" / "target" / "release" / "memory"])


def in_go(folder):
    need("go")
    (folder / "go").mkdir()
    run([BINDINGS / "go" / "stage", folder / "go" / "hll"])
    write(folder / "go" / "main.go", GO)
    shutil.copy(ROOT / "examples" / "go" / "go.mod", folder / "go")
    environment = {**os.environ, "GOPROXY": "off", "GOFLAGS": "-mod=mod", "GOCACHE": str(folder / "cache")}
    run(["go", "build", "-o", "memory", "."], cwd=folder / "go", env=environment)
    return by_program([folder / "go" / "memory"])


def in_python(folder):
    return by_program([sys.executable, write(folder / "memory.py", PYTHON)], env={**os.environ, "PYTHONMALLOC": "malloc"})


def in_sqlite(_):
    extension = BINDINGS / "sqlite" / "build" / "hll_sketches"
    connection = sqlite3.connect(":memory:")
    if not hasattr(connection, "enable_load_extension"):
        raise Missing("this Python's sqlite3 loads no extensions")
    connection.enable_load_extension(True)
    connection.load_extension(str(extension))
    library, seen = ctypes.CDLL("libsqlite3.so.0"), []
    library.sqlite3_memory_used.restype = ctypes.c_int64
    if library.sqlite3_memory_used() == 0:
        raise Missing("this Python has an SQLite of its own")
    connection.create_function("used", 1, lambda _: seen.append(library.sqlite3_memory_used()))

    def more(call, n):
        """The bytes in use in the last row, less those in the first; neither has a value."""
        seen.clear()
        connection.execute("WITH RECURSIVE n (i) AS (SELECT 0 UNION ALL SELECT i + 1 FROM n WHERE i <= %d)"
                           " SELECT sum(used(i)), %s FROM n" % (n, call % ("CASE WHEN i BETWEEN 1 AND %d THEN i END" % n))).fetchone()
        return seen[-1] - seen[0]

    return [more("hll_image_add_agg(%s, 12)", n) - more("count(%s)", n) for n in NUMBERS]


def in_postgresql(_):
    sys.path[:0] = [str(BINDINGS / "postgresql" / "tests"), str(ROOT / "tests")]
    import server

    try:
        with server.Server("work_mem = '1GB'\nenable_sort = off\nmax_parallel_workers_per_gather = 0\n") as made:
            made.ask("CREATE EXTENSION hll_sketches")

            def used(call, n):
                return int(made.ask(SEVERAL % (call % n, SKETCHES * max(n, 1), SKETCHES)).split("|")[0])

            value = "CASE WHEN %d > 0 THEN x END"
            return [round((used("hll_image_add_agg(" + value + ", 12)", n) - used("count(" + value + ")", n)) / SKETCHES) for n in NUMBERS]
    except server.Refused as error:
        raise Missing(error) from None


def images():
    sys.path.insert(0, str(BINDINGS / "python"))
    from hll_sketches import Sketch

    for n in NUMBERS:
        made = Sketch(12)
        made.update_many(range(n))
        yield len(made.to_bytes())


def main():
    columns = {"image": list(images())}
    calls = {"C": in_c, "C++": in_cpp, "Rust": in_rust, "Go": in_go, "Python": in_python, "SQLite": in_sqlite, "PostgreSQL": in_postgresql}
    with tempfile.TemporaryDirectory() as folder:
        for name, call in calls.items():
            try:
                columns[name] = call(pathlib.Path(folder))
            except Missing as error:
                print("memory.py: %s is left out: %s" % (name, error), file=sys.stderr)
    print("| values | %s |\n|%s" % (" | ".join(columns), "---|" * (len(columns) + 1)))
    for row, n in enumerate(NUMBERS):
        print("| %s | %s |" % (format(n, ","), " | ".join(format(column[row], ",") for column in columns.values())))
    return 0


if __name__ == "__main__":
    sys.exit(main())
