#!/usr/bin/env python3
# SPDX-License-Identifier: Apache-2.0
"""Runs both programs in bin/, hll_merge and hll_estimator_fields, on texts that they accept and reject, and hll_merge on each plan of the
worked rows and the walks (tests/rows.py). Compares what they print on either stream and their status. Prints 'N passed, M
failed' at the end.

A run with an error prints one line on standard error and nothing for the rejected line on standard output, and ends with 1. The same
runs are made with the programs for 64-bit ARM, in an emulator, where a cross compiler and qemu are here, but for those of rows.
--help and the manual page of hll_merge have each word of an error.
"""
import os
import pathlib
import re
import subprocess
import sys
from concurrent.futures import ThreadPoolExecutor

sys.dont_write_bytecode = True
ROOT = pathlib.Path(__file__).resolve().parent.parent
sys.path.insert(0, str(ROOT / "tests"))
from rows import rows_in, texts  # noqa: E402

ONE = b"0201070a030801080500000c"
# registers at lg_k 4, fourteen of them 0 and two 25 and 30: without words, and with kxq0 = 14 + 2^-25 + 2^-30
PLAIN = b"0a0107040010000a" + b"0" * 48 + b"0e00000000000000191e" + b"0" * 28
WORDS = b"0a0107040010000a" + b"0" * 16 + b"0000080100002c40" + b"0" * 16 + b"0e00000000000000191e" + b"0" * 28

# a program, its standard input, standard output, standard error, and status
RUNS = [
    ("hll_merge", b"new 10 8\ncoupon 5 3\n", ONE + b"\n", b"", 0),
    ("hll_merge", b"new 10 8\ncoupon 5 0\n", b"", b"line 2: range\n", 1),
    ("hll_merge", b"image " + ONE[:-2] + b"\n", b"", b"line 1: image truncated\n", 1),
    ("hll_merge", b"new 10 8\nnew 10 8\n", b"", b"line 2: stack\n", 1),
    ("hll_merge", b"", b"", b"line 0: stack\n", 1),
    ("hll_estimator_fields", ONE + b"\n" + PLAIN + b"\n", ONE + b"\n" + WORDS + b"\n", b"", 0),
    ("hll_estimator_fields", b"", b"", b"", 0),
    ("hll_estimator_fields", b"0g\n", b"", b"line 1: hex\n", 1),
    ("hll_estimator_fields", ONE[:-2] + b"\n" + ONE + b"\n", b"", b"line 1: image truncated\n", 1),
    ("hll_estimator_fields", PLAIN + b"\n0201080a030c0008\n", WORDS + b"\n", b"line 2: image family\n", 1),
]

# the same where standard output has no room: then it is not looked at
FULL = [
    ("hll_merge", b"new 10 8\ncoupon 5 3\n", b"line 2: write\n", 1),
    ("hll_estimator_fields", ONE + b"\n", b"line 1: write\n", 1),
]


def differs(program, given, wanted, out):
    """What a run gives in place of what is wanted, if it does."""
    ran = subprocess.run(program, input=given, stdout=out, stderr=subprocess.PIPE, check=False)
    got = (ran.stdout or b"", ran.stderr, ran.returncode)
    return None if got == wanted else got


def faults_of(words, folder):
    """Runs the programs of a folder, each by these words and its path; returns the faults, with None for each right run."""
    for program, given, out, err, status in RUNS:
        yield program, given, differs([*words, str(folder / program)], given, (out, err, status), subprocess.PIPE)
    with open("/dev/full", "wb") as full:
        for program, given, err, status in FULL:
            yield program, given, differs([*words, str(folder / program)], given, (b"", err, status), full)


def faults_of_help():
    """Looks for each word of an error, of the table in docs/PLAN.md, in what --help prints and on the manual page."""
    table = (ROOT / "docs" / "PLAN.md").read_text().split("\n## Faults\n")[1].split("\n## ")[0]
    words = re.findall(r"^\| \d+ \| \w+ \| `(\w+)`", table, re.M)
    assert len(words) == 9, words
    ran = subprocess.run([str(ROOT / "bin" / "hll_merge"), "--help"], capture_output=True, text=True, check=True)
    page = (ROOT / "man" / "hll_merge.1").read_text()
    for word in words:
        is_there = re.search(r"^  (\w+, )*%s\b" % word, ran.stdout, re.M) and re.search(r"^\.It %s\b" % word, page, re.M)
        yield "hll_merge --help", word.encode(), None if is_there else "no line of its own"


def fault_of_row(row):
    """Runs hll_merge on the plan of a row; the fault, with None for a right run."""
    plan, mark, answer = row
    line = answer.encode() + b"\n"
    wanted = (b"", line, 1) if mark == "!" else (line, b"", 0)
    return "hll_merge", plan, differs([str(ROOT / "bin" / "hll_merge")], plan, wanted, subprocess.PIPE)


def built_for_arm():
    """How programs for 64-bit ARM are run here, and their folder."""
    target = "aarch64-unknown-linux-gnu"
    subprocess.run(["make", "-s", "-C", ROOT / "programs", "TARGET=" + target], check=True)
    return ["qemu-aarch64", "-L", "/usr/aarch64-linux-gnu"], ROOT / "bin" / target


def faults_here():
    """The faults of runs of the programs of this machine."""
    faults = [*faults_of([], ROOT / "bin"), *faults_of_help()]
    with ThreadPoolExecutor(os.cpu_count()) as pool:
        faults += pool.map(fault_of_row, (row for path in texts() for row in rows_in(path)))
    return faults


def main():
    faults = list(faults_of(*built_for_arm())) if sys.argv[1:] == ["arm"] else faults_here()
    for program, given, got in faults:
        if got:
            print("FAIL: %s on %r gives %r" % (program, given[:60], got))
    failed = sum(got is not None for _, _, got in faults)
    print("%d passed, %d failed" % (len(faults) - failed, failed))
    return 1 if failed else 0


if __name__ == "__main__":
    sys.exit(main())
