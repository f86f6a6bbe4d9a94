#!/usr/bin/env python3
# SPDX-License-Identifier: Apache-2.0
"""Refuses each request for memory of the program in turn, and fails each of its reads and writes, over all row plans.

The plans, with what they print or the line of their error, are the test vectors and the walks.
A request that is refused has to end in `line .. memory` with nothing on standard output and status 1, or in the answer, where
the program goes on without that memory: with a long search instead of a copy in order (docs/ARCHITECTURE.md, "Tables"). A read
has to end in `read`, or in the fault of a line that ended before; a write in `write`, with a front of the answer. Where each call moves one byte,
the answer is the same. Call it with the program's path; without one it is what the script hll_merge keeps, which is built
if need be. It needs cc, ends after ten minutes at most, and says how many runs it made. The status is 1 if any was wrong.
"""
import concurrent.futures
import os
import pathlib
import re
import subprocess
import sys
import tempfile
import time

sys.dont_write_bytecode = True
from built import ROOT, built_program
from rows import rows_in, texts
from tap import HUNG

SECONDS = 600
PIECE = 1 << 16      # the most bytes that one read takes


class Trial:
    """Runs of one plan under the preloaded library."""

    def __init__(self, program, library, plan, wanted):
        self.program, self.library, self.wanted = program, library, wanted
        self.plan = plan
        self.runs, self.without, self.wrong = 0, 0, []

    def run(self, more=b"", **numbers):
        """What the program prints on both streams for the plan and more lines, and its status."""
        settings = {"REFUSE_" + name.upper(): str(number) for name, number in numbers.items()}
        ended = subprocess.run([self.program], input=self.plan + more, capture_output=True, timeout=HUNG,
                               env={**os.environ, "LD_PRELOAD": self.library, **settings})
        self.runs += 1
        return ended.stdout.decode(), ended.stderr.decode(), ended.returncode

    def expect(self, is_right, what, seen):
        if not is_right:
            self.wrong.append("%s: %r for %r" % (what, seen, self.plan))

    def whole(self):
        """The plan with all calls served, and the numbers of calls."""
        with tempfile.NamedTemporaryFile() as counts:
            seen = self.run(counts=counts.name)
            numbers = [int(number) for number in counts.read().split()]
        self.expect(seen == self.wanted, "as its row", seen)
        self.expect(self.run(short=1) == seen, "byte by byte", seen)
        return seen, numbers

    def refuse_memory(self, requests, answer):
        for number in range(1, requests + 1):
            seen = self.run(memory=number)
            if seen == answer:
                self.without += 1
                continue
            is_memory = re.fullmatch(r"line \d+: memory\n", seen[1])
            self.expect(seen[0] == "" and is_memory and seen[2] == 1, "request %d" % number, seen)

    def fail_reads(self, reads, answer):
        ended = self.plan.count(b"\n")
        # the fault of a line stays with more lines, that of the end doesn't
        is_of_line = answer[1] and self.run(b"\nnew 4 8\n") == answer
        for number in range(1, reads + 1):
            seen = self.run(read=number)
            if number > 1 and len(self.plan) > PIECE and re.fullmatch(r"line \d+: read\n", seen[1]):
                # a pipe decides how much of a long plan each read gives
                line = int(seen[1].split()[1][:-1])
                self.expect(seen[::2] == ("", 1) and line <= ended, "read %d" % number, seen)
                continue
            before = ended if number > 1 else 0
            is_before = is_of_line and int(answer[1].split()[1][:-1]) <= before
            refusal = answer[1] if is_before else "line %d: read\n" % before
            self.expect(seen == ("", refusal, 1), "read %d" % number, seen)

    def fail_writes(self, writes, answer):
        for number in range(1, writes + 1):
            printed, refusal, status = seen = self.run(write=number)
            is_front = answer[0].startswith(printed) and printed != answer[0]
            is_write = re.fullmatch(r"line \d+: write\n", refusal)
            self.expect(is_front and is_write and status == 1, "write %d" % number, seen)

    def all(self, deadline):
        """Makes all runs, unless the time is over. The numbers of requests, reads and writes."""
        if time.monotonic() > deadline:
            return None
        answer, (requests, reads, writes) = self.whole()
        self.refuse_memory(requests, answer)
        self.fail_reads(reads, answer)
        self.fail_writes(writes, answer)
        return requests, reads, writes


def trials_of(program, library):
    """A trial of each plan of the rows, with what the program prints for it on both streams and its status."""
    found = {}
    for path in texts():
        for plan, mark, answer in rows_in(path):
            found[plan] = ("", answer + "\n", 1) if mark == "!" else (answer + "\n", "", 0)
    return [Trial(program, library, plan, wanted) for plan, wanted in found.items()]


def built_library(folder):
    library = str(pathlib.Path(folder) / "refuse.so")
    source = str(ROOT / "tests" / "refuse.c")
    subprocess.run(["cc", "-O2", "-shared", "-fPIC", "-o", library, source], check=True)
    return library


def main():
    program = sys.argv[1] if len(sys.argv) > 1 else str(built_program())
    deadline = time.monotonic() + SECONDS
    with tempfile.TemporaryDirectory() as folder:
        library = built_library(folder)
        trials = trials_of(program, library)
        with concurrent.futures.ThreadPoolExecutor(os.cpu_count()) as pool:
            counts = list(pool.map(lambda trial: trial.all(deadline), trials))
    for trial in trials:
        for wrong in trial.wrong:
            print(wrong[:400])
    done = [count for count in counts if count]
    totals = [sum(column) for column in zip(*done)] or [0, 0, 0]
    wrong = sum(len(trial.wrong) for trial in trials)
    print("%d of %d plans, %d runs: %d requests refused, %d of them done without, %d reads and %d writes failed; %d wrong"
          % (len(done), len(trials), sum(trial.runs for trial in trials), totals[0], sum(trial.without for trial in trials), *totals[1:], wrong))
    return 1 if wrong or len(done) < len(trials) or not totals[0] else 0


if __name__ == "__main__":
    sys.exit(main())
