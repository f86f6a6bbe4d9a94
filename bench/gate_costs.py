#!/usr/bin/env python3
# SPDX-License-Identifier: Apache-2.0
"""Runs a command in a checkout, and says what the prover costs in it: processor seconds of each crate, for its proof, the mutants
of must-fail/, its tests, the mutants of mutants/, and prebuilt/.

    bench/gate_costs.py [COMMAND ..]        rt ci, if no command is given; ./check for the whole gate

It looks once a second at the processes of the prover that the command has started, so what ends within a second is missed. It
takes as long as the command, whose lines go to standard error. CONTRIBUTING.md, "What the gate takes", has what it printed.
"""
import collections
import os
import pathlib
import subprocess
import sys
import time

TICKS = os.sysconf("SC_CLK_TCK")


def processes_below(top):
    """A process and all below it: by number, the words of /proc/NUMBER/stat from the third on."""
    stats = {}
    for folder in pathlib.Path("/proc").glob("[0-9]*"):
        try:
            stats[int(folder.name)] = (folder / "stat").read_text().rsplit(")", 1)[1].split()
        except OSError:
            continue
    below = {top}
    while True:
        more = {it for it, words in stats.items() if int(words[1]) in below} - below
        if not more:
            return {it: stats[it] for it in below if it in stats}
        below |= more


def kind_of(place, words):
    """What a process of the prover works at, by its folder and its words."""
    if "--target" in words:     # scripts/prebuilt.py alone names it
        return "prebuilt"
    folders = {"/rt-edit-": "must-fail", "/mutants-": "mutants"}
    found = [kind for part, kind in folders.items() if part in place]
    return found[0] if found else "tests" if "--test" in words else "proof"


def provers(top):
    """Of each process of the prover below another: its number with its start, what it works at, and its processor seconds."""
    for number, numbers in processes_below(top).items():
        try:
            with open("/proc/%d/cmdline" % number, errors="replace") as command:
                words = command.read().split("\0")
            place = os.readlink("/proc/%d/cwd" % number)
        except OSError:
            continue
        if not words[0].endswith("/rattle") or "--crate-name" not in words:
            continue
        crate = words[words.index("--crate-name") + 1]
        yield (number, numbers[19]), (crate, kind_of(place, words)), sum(map(int, numbers[11:13])) / TICKS


def watch(ran):
    """Processor seconds by crate and kind, until the run ends."""
    spent = {}
    while ran.poll() is None:
        for process, work, seconds in provers(ran.pid):
            spent[process] = work, seconds
        time.sleep(1)
    costs = collections.Counter()
    for work, seconds in spent.values():
        costs[work] += seconds
    return costs


def main(words):
    start = time.monotonic()
    ran = subprocess.Popen(words or ["rt", "ci"], stdin=subprocess.DEVNULL, stdout=sys.stderr)
    costs = watch(ran)
    kinds = ("proof", "must-fail", "tests", "mutants", "prebuilt")
    print("| crate | %s |\n|---|%s" % (" | ".join(kinds), "---|" * len(kinds)))
    for crate in sorted({crate for crate, _ in costs}, key=lambda it: -sum(costs[it, kind] for kind in kinds)):
        print("| `%s` | %s |" % (crate, " | ".join("%.0f" % costs[crate, kind] if costs[crate, kind] else "" for kind in kinds)))
    print("| all | %s |" % " | ".join("%.0f" % sum(costs[it] for it in costs if it[1] == kind) for kind in kinds))
    print("%.0f s on the wall, status %d" % (time.monotonic() - start, ran.returncode))
    return ran.returncode


if __name__ == "__main__":
    sys.exit(main(sys.argv[1:]))
