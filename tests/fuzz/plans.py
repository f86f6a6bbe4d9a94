#!/usr/bin/env python3
# SPDX-License-Identifier: Apache-2.0
"""Runs hll_merge on plans with random changes, and compares what it prints with the plain model: plans.py SECONDS [SEED].

The plans are those of the test vectors and the walks. A plan with another result is kept as build/crash-plan, and the last line is
'N passed, M failed'.
"""
import pathlib
import random
import subprocess
import sys
import time

sys.dont_write_bytecode = True
HERE = pathlib.Path(__file__).resolve().parent
sys.path.insert(0, str(HERE.parent))
from built import built_program
from plain_plans import answer_of
from rows import rows_in, texts
from tap import HUNG

MOST = 1 << 16
LIMITS = [0, 1, 3, 4, 6, 8, 9, 21, 22, 62, 63, 64, 2**26 - 1, 2**26, 99999999]
BYTES = [b"00", b"01", b"1a", b"1b", b"3f", b"40", b"80", b"c0", b"ff", b"FF", b"0g", b"/0", b":0", b"@0", b"G0", b"`0", b"0 "]
WORDS = [b"new", b"image", b"coupon", b"union", b"fold", b"#", b"", b"Union"]


class Changes:
    """Random changes of plans."""

    def __init__(self, plans, seed):
        self.plans, self.random = plans, random.Random(seed)

    def number(self):
        """A number as a plan has it, in range or out of it."""
        greatest, digits = self.random.choice((4, 8, 13, 22, 64, 2**26, 2**27)), self.random.choice((1, 1, 1, 2, 8, 9))
        return b"%0*d" % (digits, self.random.choice(LIMITS) if self.random.randrange(2) else self.random.randrange(greatest))

    def line(self):
        """A line that says something, or nearly."""
        kind = self.random.randrange(6)
        if kind == 0:
            return b"new %d %d" % (self.random.randint(3, 13), self.random.choice((4, 6, 8, 5)))
        if kind == 1:
            return b"coupon %d %d" % (self.random.randrange(2 ** self.random.randint(1, 26)), self.random.randint(0, 63))
        if kind == 2:
            return b"union %d %d %d" % (self.random.randint(0, 4), self.random.randint(4, 12), self.random.choice((4, 6, 8)))
        if kind == 3:
            return b"fold %d" % self.random.randint(4, 10)
        if kind == 4:
            return b" ".join([self.random.choice(WORDS), *(self.number() for _ in range(self.random.randrange(4)))])
        return self.random.choice(self.random.choice(self.plans).split(b"\n"))

    def digits(self, line):
        """The line of an image in which some bytes differ."""
        for _ in range(self.random.randint(1, 3)):
            last = len(line) // 2 - 4
            place = 6 + 2 * (self.random.randint(0, last) if self.random.randrange(2) else min(self.random.randrange(40), last))
            line = line[:place] + self.random.choice(BYTES) + line[place + 2 :]
        return line

    def changed_line(self, line):
        if line.startswith(b"image ") and len(line) > 14:
            kind = self.random.randrange(4)
            return (self.digits(line), line[: -2 * self.random.randint(1, 8)], line + b"00ff", self.digits(self.digits(line)))[kind]
        words = line.split(b" ")
        place = self.random.randrange(len(words))
        words[place] = self.number() if self.random.randrange(3) else words[place] + self.random.choice((b"0", b" ", b"/", b":", b"\r", b""))
        return b" ".join(words)

    def change(self, lines):
        kind, place = self.random.randrange(6), self.random.randrange(len(lines))
        if kind < 2:
            lines[place] = self.changed_line(lines[place])
        elif kind == 2:
            lines.insert(place, self.line())
        elif kind == 3:
            del lines[place]
        elif kind == 4:
            lines.insert(place, lines[self.random.randrange(len(lines))])
        else:
            lines += self.random.choice(self.plans).split(b"\n")
            lines.append(b"union %d %d %d" % (self.random.choice((2, 2, 2, 3)), self.random.randint(4, 12), self.random.choice((4, 6, 8))))

    def plan(self):
        lines = self.random.choice(self.plans).split(b"\n")
        for _ in range(self.random.randint(0, 4)):
            self.change(lines)
            lines = lines or [b""]
        text = b"\n".join(lines)[:MOST]
        kind = self.random.randrange(8)
        if kind == 0:
            return text + b"\n"
        if kind == 1:
            text = text.replace(b"\n", b"\r\n", self.random.choice((1, 2, -1)))
        if kind == 2:   # the program reads pieces, and their ends are anywhere in the plan
            text = b"#".ljust(self.random.randrange(MOST, MOST + 8192), b"x") + b"\n" + text.replace(b"\n", b"\r\n")
        return text


def printed(program, plan):
    """What the program prints for a plan: its result, or the line of the error."""
    run = subprocess.run([program], input=plan, capture_output=True, timeout=HUNG)
    if run.returncode == 0 and not run.stderr:
        return run.stdout.decode().removesuffix("\n")
    if run.returncode == 1 and not run.stdout:
        return run.stderr.decode().removesuffix("\n")
    return "status %d, %r, %r" % (run.returncode, run.stdout[:99], run.stderr[:99])


def main():
    seconds = float(sys.argv[1])
    seed = int(sys.argv[2]) if len(sys.argv) > 2 else random.randrange(2**32)
    plans = [plan for path in texts() for plan, _, _ in rows_in(path) if len(plan) < 4096]
    changes, program, end, passed = Changes(plans, seed), built_program(), time.monotonic() + seconds, 0
    while time.monotonic() < end:
        plan = changes.plan()
        found, wanted = printed(program, plan), answer_of(plan)
        if found != wanted:
            (HERE / "build").mkdir(exist_ok=True)
            (HERE / "build" / "crash-plan").write_bytes(plan)
            print("seed %d, build/crash-plan: %.300s, plainly %.300s\n%d passed, 1 failed" % (seed, found, wanted, passed))
            return 1
        passed += 1
    print("%d passed, 0 failed" % passed)
    return 0


if __name__ == "__main__":
    sys.exit(main())
