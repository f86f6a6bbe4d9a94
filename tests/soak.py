#!/usr/bin/env python3
# SPDX-License-Identifier: Apache-2.0
"""Uses PostgreSQL, SQLite, Dask and the command hll at once for some minutes, and compares all that they keep with a plain model:

    tests/soak.py MINUTES [--seed N] [--only LANE ..] [--plant lost|memory]

Meanwhile it kills processes, fills disks, cancels queries, and lets calls of the system fail, at random. After each round of some seconds nothing may be lost that was confirmed, and
nothing may be there that failed: each register of each sketch has to be that of the model (docs/FORMAT.md, tests/soaks/lanes.py). The memory of
processes that live long has to stay as it is. Prints what each lane did, and 'N passed, M failed' at the end.

Run as root it mounts small disks, which end with it. Else a disk is full because a file may not grow. A lane that can't run here is named and
left out. --plant lets each lane lose a batch, or a process's memory grow, to show that this is noticed: then each lane has to fail.
"""
import argparse
import json
import os
import pathlib
import shutil
import signal
import subprocess
import sys
import tempfile
import time

sys.dont_write_bytecode = True
HERE = pathlib.Path(__file__).resolve().parent
sys.path.insert(0, str(HERE / "soaks"))
LANES = {"postgresql": ("postgresql_lane", "Postgresql"), "sqlite": ("sqlite_lane", "Sqlite"), "dask": ("dask_lane", "Dask"), "hll": ("commands_lane", "Commands"),
         "faults": ("faults_lane", "Faults")}
SERVER = [str(HERE), str(HERE.parent / "bindings" / "postgresql" / "tests")]
NEEDS = {"postgresql": "import sys; sys.path[:0] = %r; import server; server.find_tools(); server.find_pg_config()" % (SERVER,),
         "sqlite": "import sqlite3, sys; sys.exit(not hasattr(sqlite3.Connection, 'load_extension'))",
         "dask": "import distributed, fsspec", "hll": "",
         "faults": "import subprocess, sys; sys.exit(subprocess.call(['strace', '-o', '/dev/null', 'true']))"}


def python_for(lane):
    """A Python that has what a lane needs, or None."""
    for python in (sys.executable, "/usr/bin/python3"):
        if os.path.exists(python) and subprocess.run([python, "-c", NEEDS[lane]], stderr=subprocess.DEVNULL).returncode == 0:
            return python
    return None


def run_lane(options):
    """In a process of its own."""
    signal.signal(signal.SIGTERM, lambda *_: sys.exit(1))       # so that the lane ends what it started
    module, name = LANES[options.lane]
    lane = getattr(__import__(module), name)(options.folder, options.seed, 60 * options.minutes, options.plant)
    lane.run()
    sys.stdout.flush()
    os._exit(0)     # threads of Dask may still run


def show(minutes, lane, told):
    figures = told["figures"]
    words = ", ".join("%s %s" % (format(figures[key], ","), key) for key in sorted(figures) if figures[key])
    print("# %.0f min, %s: %s; %d faults" % (minutes, lane, words, told["fault count"]), flush=True)


def soak(options, folder):
    """Runs all lanes at once. Returns the last report of each: a dict, or None if it printed none."""
    running = {}
    for lane in options.only or LANES:
        python = python_for(lane)
        if python is None:
            print("# not tried: %s, as what it needs is not here" % lane)
            continue
        (folder / lane).mkdir()
        words = [python, "-B", __file__, str(options.minutes), "--lane", lane, "--folder", folder / lane, "--seed", str(options.seed)]
        with open(folder / (lane + ".out"), "wb") as out, open(folder / (lane + ".err"), "wb") as err:
            running[lane] = subprocess.Popen([str(word) for word in words + (["--plant", options.plant] if options.plant else [])], stdout=out, stderr=err,
                                             env={**os.environ, "PYTHONDONTWRITEBYTECODE": "1"})
    begun, shown = time.monotonic(), 0

    def end(*_):
        for process in running.values():
            process.terminate()

    signal.signal(signal.SIGTERM, end)
    signal.signal(signal.SIGINT, end)
    while any(process.poll() is None for process in running.values()):
        time.sleep(0.5)
        minutes = (time.monotonic() - begun) / 60
        if minutes > options.minutes + 10:
            for process in running.values():
                process.kill()
        if minutes - shown >= 5:
            shown = minutes
            for lane in running:
                if last_report(folder, lane):
                    show(minutes, lane, last_report(folder, lane))
    for disk in folder.glob("*/disk"):
        subprocess.run(["umount", "--lazy", disk], stderr=subprocess.DEVNULL)
    return {lane: last_report(folder, lane) for lane in running}


def last_report(folder, lane):
    lines = [line for line in (folder / (lane + ".out")).read_text().splitlines() if line.startswith("{") and line.endswith("}")]
    return json.loads(lines[-1]) if lines else None


def table(reports):
    """The figures, as a table for a page."""
    rows = sorted({key for told in reports.values() if told for key in told["figures"]})
    print("| | " + " | ".join(told["lane"] for told in reports.values()) + " |")
    for row in rows:
        print("| %s | " % row + " | ".join(format(told["figures"].get(row, 0), ",") for told in reports.values()) + " |")
    for told in reports.values():
        for kind, (rounds, start, end, growth) in sorted(told["memory"].items()):
            print("# memory of %s, %s: %d KB, %d KB after %d rounds; the greatest growth %d KB" % (told["lane"], kind, start, end, rounds, growth))


def main():
    parser = argparse.ArgumentParser()
    parser.add_argument("minutes", type=float)
    parser.add_argument("--seed", type=int, default=9001)
    parser.add_argument("--only", nargs="+", choices=LANES)
    parser.add_argument("--plant", choices=("lost", "memory"))
    parser.add_argument("--lane", choices=LANES, help=argparse.SUPPRESS)
    parser.add_argument("--folder", help=argparse.SUPPRESS)
    parser.add_argument("--mounted", action="store_true", help=argparse.SUPPRESS)
    options = parser.parse_args()
    if options.lane:
        run_lane(options)
    if os.getuid() == 0 and not options.mounted and shutil.which("unshare"):
        # in a mount namespace of its own, with which its disks end
        words = ["unshare", "--mount", "--propagation", "private"]
        if subprocess.run([*words, "true"], stderr=subprocess.DEVNULL).returncode == 0:
            os.execvp(words[0], [*words, sys.executable, "-B", __file__, *sys.argv[1:], "--mounted"])
    for place in ("bindings/c", "bindings/sqlite", "programs"):
        subprocess.run(["make", "-s", "-C", HERE.parent / place, "all"], stdout=subprocess.DEVNULL, stderr=subprocess.DEVNULL)
    with tempfile.TemporaryDirectory(prefix="hll-soak-") as folder:
        folder = pathlib.Path(folder)
        folder.chmod(0o755)
        reports = soak(options, folder)
        for lane, told in reports.items():
            if told is None:
                print("%s printed nothing:\n%s" % (lane, (folder / (lane + ".err")).read_text(errors="replace")[-2000:]))
    whole = {lane: told for lane, told in reports.items() if told}
    for told in whole.values():
        if not told["is whole"]:
            told["faults"].append("%s: it ended before its time" % told["lane"])
            told["fault count"] += 1
    table(whole)
    faults = [fault for told in whole.values() for fault in told["faults"]]
    for fault in faults:
        print(fault)
    failed = sum(told["fault count"] for told in whole.values()) + len(reports) - len(whole)
    compared = sum(told["figures"].get("compared", 0) for told in whole.values())
    if options.plant:
        unnoticed = [lane for lane, told in reports.items() if not told or not told["fault count"]]
        print("planted: %s" % ("noticed by each lane" if not unnoticed else "not noticed by " + ", ".join(unnoticed)))
        failed = len(unnoticed)
        compared = len(reports) - failed
    print("%d passed, %d failed" % (compared, failed))
    return 1 if failed or not compared else 0


if __name__ == "__main__":
    sys.exit(main())
