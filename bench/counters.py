#!/usr/bin/env python3
# SPDX-License-Identifier: Apache-2.0
"""Times values that are added one by one to new counters at lg_k 12: in C, compared with a loop over a state that grows, and in
C++, Rust and Python.

    bench/counters.py [--crate FOLDER]

FOLDER has the Rust crate `datasketches`, to be compared with. Needs bindings/c built, a C and a C++ compiler, and cargo. Prints
two tables for docs/NUMBERS.md, "States": the least of many turns. The programs of the second table run seven times, in turn.
"""
import argparse
import pathlib
import subprocess
import sys
import tempfile

ROOT = pathlib.Path(__file__).resolve().parent.parent
LIBRARY = ROOT / "bindings" / "c"
NUMBERS = [1, 7, 14, 20, 100, 300, 1000, 100000]
RUNS = 7

CPP = r"""
#include "hll.hpp"
#include <ctime>
#include <iostream>
static double now()
{
    timespec time;
    clock_gettime(CLOCK_PROCESS_CPUTIME_ID, &time);
    return double(time.tv_sec) * 1e9 + double(time.tv_nsec);
}
int main()
{
    for (uint64_t n : {NUMBERS}) {
        const uint64_t rounds = 1000000 / n + 1;
        double least = 1e9;
        for (int turn = 0; turn < 15; turn++) {
            uint64_t value = 0;
            const double start = now();
            for (uint64_t round = 0; round < rounds; round++) {
                hll::sketch one(12);
                for (uint64_t i = 0; i < n; i++)
                    one.update(value++ * UINT64_C(0x9e3779b97f4a7c15));
            }
            least = std::min(least, (now() - start) / double(rounds * n));
        }
        std::cout << least << "\n";
    }
}
"""

RUST = r"""
use CRATE::hll::{HllSketch, HllType};

extern "C" { fn clock_gettime(clock: i32, time: *mut [i64; 2]) -> i32; }

fn now() -> f64 {
    let mut time = [0; 2];
    unsafe { clock_gettime(2, &mut time) };
    time[0] as f64 * 1e9 + time[1] as f64
}

fn main() {
    for n in [NUMBERS] {
        let n: u64 = n;
        let rounds = 1_000_000 / n + 1;
        let mut least = f64::INFINITY;
        for _ in 0..15 {
            let mut value = 0u64;
            let start = now();
            for _ in 0..rounds {
                let mut one = HllSketch::new(12, HllType::Hll8).unwrap();
                for _ in 0..n {
                    one.update(value.wrapping_mul(0x9e3779b97f4a7c15));
                    value += 1;
                }
                std::hint::black_box(&one);
            }
            least = least.min((now() - start) / (rounds * n) as f64);
        }
        println!("{least}");
    }
}
"""

PYTHON = r"""
import sys, time
sys.path.insert(0, "%s")
from hll_sketches import Sketch

for n in [NUMBERS]:
    least, rounds = 1e9, 20000 // n + 1
    for _ in range(7):
        value, start = 0, time.process_time()
        for _ in range(rounds):
            one = Sketch(12)
            for value in range(value, value + n):
                one.update(value)
            one.to_bytes()
        least = min(least, (time.process_time() - start) * 1e9 / (rounds * n))
    print(least)
""" % (ROOT / "bindings" / "python")


def build_c(folder, compiler, name, source, *options):
    """Compiles a program over the library."""
    program = folder / name
    places = [option for place in ("c", "cpp") for option in ("-I", ROOT / "bindings" / place)]
    subprocess.run([compiler, "-O2", *options, *places, source, LIBRARY / "build" / "libhll.a", "-lm", "-o", program], check=True)
    return program


def write(path, text, crate="hll_sketches"):
    path.parent.mkdir(parents=True, exist_ok=True)
    path.write_text(text.replace("NUMBERS", ", ".join(map(str, NUMBERS))).replace("CRATE", crate))
    return path


def build_rust(folder, crate, path):
    """Builds the program in Rust over a crate."""
    package = folder / crate
    write(package / "src" / "main.rs", RUST, crate.replace("-", "_"))
    write(package / "Cargo.toml", '[package]\nname = "one"\nversion = "0.1.0"\nedition = "2021"\n\n[dependencies]\n'
          '%s = { path = "%s" }\n' % (crate, path))
    subprocess.run(["cargo", "build", "--release", "--quiet", "--offline"], cwd=package, check=True)
    return package / "target" / "release" / "one"


def least_of(commands):
    """The least times of each program, which run in turn."""
    found = {name: [float("inf")] * len(NUMBERS) for name in commands}
    for _ in range(RUNS):
        for name, command in commands.items():
            said = subprocess.run(command, stdout=subprocess.PIPE, text=True, check=True).stdout.split()
            found[name] = list(map(min, found[name], map(float, said)))
    return found


def main():
    parser = argparse.ArgumentParser()
    parser.add_argument("--crate", type=pathlib.Path)
    crate = parser.parse_args().crate
    with tempfile.TemporaryDirectory() as name:
        folder = pathlib.Path(name)
        counters = build_c(folder, "cc", "counters", ROOT / "bench" / "counters.c", "-std=c99")
        subprocess.run([counters], check=True)
        commands = {"C": [counters, "alone"],
                    "C++": [build_c(folder, "c++", "cpp", write(folder / "one.cpp", CPP), "-std=c++11")],
                    "Rust": [build_rust(folder, "hll-sketches", ROOT / "bindings" / "rust")],
                    "Python": [sys.executable, write(folder / "one.py", PYTHON)]}
        if crate is not None:
            commands["`datasketches`"] = [build_rust(folder, "datasketches", crate.resolve())]
        found = least_of(commands)
    print("\n| values | %s |\n|%s" % (", ns | ".join(found) + ", ns", "---|" * (len(found) + 1)))
    for row, n in enumerate(NUMBERS):
        print("| %s | %s |" % (format(n, ","), " | ".join(format(times[row], ",.0f" if times[row] >= 100 else ".1f") for times in found.values())))
    return 0


if __name__ == "__main__":
    sys.exit(main())
