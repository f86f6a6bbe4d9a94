#!/usr/bin/env python3
# SPDX-License-Identifier: Apache-2.0
"""Times the first command in a clone: `make`, then a plan through `bin/hll_merge`; and with --prove also `make prove`, which
takes ten minutes and more. Seconds on the wall, and of the processors by all that a command starts. Leave the machine alone
meanwhile.

    bench/first_build.py [--prove] [COMMIT]

docs/NUMBERS.md, "Building", has what it printed.
"""
import pathlib
import resource
import subprocess
import sys
import tempfile
import time

ROOT = pathlib.Path(__file__).resolve().parent.parent


def processor_seconds():
    """User and system time of all processes that this one has started and that have ended."""
    used = resource.getrusage(resource.RUSAGE_CHILDREN)
    return used.ru_utime + used.ru_stime


def timed(command, folder):
    """Runs a command of the shell, and prints what it took."""
    start, before = time.monotonic(), processor_seconds()
    status = subprocess.run(command, shell=True, cwd=folder, stdin=subprocess.DEVNULL, stdout=subprocess.DEVNULL).returncode
    print("%-50s %7.2f s, %7.2f processor s, status %d" % (command, time.monotonic() - start, processor_seconds() - before, status), flush=True)


def main(words):
    commits = [word for word in words if word != "--prove"] or ["HEAD"]
    with tempfile.TemporaryDirectory() as room:
        clone = pathlib.Path(room) / "clone"
        subprocess.run(["git", "clone", "-q", "--no-local", str(ROOT), str(clone)], check=True)
        subprocess.run(["git", "checkout", "-q", commits[0]], cwd=clone, check=True)
        timed("make", clone)
        timed("printf 'new 10 8\\ncoupon 5 3\\n' | bin/hll_merge", clone)
        if "--prove" in words:
            timed("make prove", clone)


if __name__ == "__main__":
    main(sys.argv[1:])
