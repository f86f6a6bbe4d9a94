#!/usr/bin/env python3
# SPDX-License-Identifier: Apache-2.0
"""Builds and tests this checkout on other Debian releases, and prints TAP.

    scripts/systems.py [WORD ..]        all, or what has a word in its name: "Debian 13", "python"

An ordinary user builds and tests a copy of the checkout's files, without what was built, in a root of each release (scripts/roots.py). A
release that can't be made here is reported and is no failure: the line begins with "# not tried".
"""
import collections
import pathlib
import re
import shlex
import shutil
import sys
import tempfile
import time

sys.dont_write_bytecode = True
ROOT = pathlib.Path(__file__).resolve().parent.parent
sys.path.insert(0, str(ROOT / "tests"))
import roots  # noqa: E402
from tap import Tap  # noqa: E402

USER, UID = "tester", 1000
BUILD = "gcc libc6-dev make passwd"

System = collections.namedtuple("System", "release packages tests")
"""A release of Debian, its packages, and pairs of a name and a command for the shell in a copy of the checkout."""


def part(name, before=""):
    return name, before + "./check " + name


SYSTEMS = [
    System(roots.Release("13", "trixie"), BUILD + " g++ git perl pkg-config xxd python3 python3-numpy python3-pandas python3-pip python3-setuptools "
           "python3-wheel python3-venv sqlite3 libsqlite3-dev postgresql postgresql-server-dev-all libreadline-dev zlib1g-dev "
           "openjdk-25-jdk-headless",
           [("make", "make"), part("documents"), part("python"), part("postgresql"), part("sqlite"), part("programs"),
            part("c", "HLL_WALKS=tenth "), part("cpp", "HLL_WALKS=tenth ")]),
    System(roots.Release("11", "bullseye"), BUILD + " perl python3 python3-distutils",
           [("make", "make"), part("c", "HLL_WALKS=tenth "),
            ("the wheel of this machine", "mkdir -p ../wheel && python3 -m zipfile -e ../*.whl ../wheel && cd / && "
             "PYTHONPATH=/room/wheel python3 -c 'import hll_sketches as h; s = h.Sketch(); s.update_many(range(9)); assert round(s.estimate()) == 9'")]),
]


def put_files(room):
    """Copies the files of the checkout, those of git if it is one, to the directory `hll` of the user's room, and the wheel of this machine
    next to it."""
    if (ROOT / ".git").exists():
        names = roots.ran("git", "-C", ROOT, "ls-files", "-z", "--cached", "--others", "--exclude-standard")[1].split("\0")
    else:
        names = [str(path.relative_to(ROOT)) for path in ROOT.rglob("*") if not {"build", "out", "dist"} & set(path.parts)]
    for name in filter(None, names):
        source, target = ROOT / name, room / "hll" / name
        if source.is_file():
            target.parent.mkdir(parents=True, exist_ok=True)
            shutil.copy2(source, target)
    roots.ran("/usr/bin/python3", "-m", "pip", "wheel", "-q", "--no-index", "--no-build-isolation", "--no-deps", "-w", room, ROOT / "bindings" / "python")
    roots.ran("chown", "-R", str(UID), room)


def run_as_user(place, command, room):
    """Runs a command for the shell as an ordinary user in the checkout's copy. Returns its status and what it said."""
    command = "su - %s -c %s" % (USER, shlex.quote("cd /room/hll && " + command))
    return roots.run_in(place, "useradd --create-home --uid %d %s && %s" % (UID, USER, command), room)


def numbers_in(said):
    """The tests that passed and failed, by the last line of ./check, if it is one."""
    found = re.search(r"^(\d+) passed, (\d+) failed$", said.strip().splitlines()[-1] if said.strip() else "")
    return found and (int(found[1]), int(found[2]))


def try_system(tap, system, room):
    """Tests a release, as far as its tests are chosen. Returns whether it could be made."""
    title = "Debian " + system.release.number
    chosen = [(name, command) for name, command in system.tests if tap.chooses("%s: %s" % (title, name))]
    if not chosen:
        return True
    try:
        place = roots.root(system.release, "tests", system.packages.split())
    except roots.Missing as missing:
        print("# not tried: %s, as %s" % (title, missing), flush=True)
        return False
    room.mkdir()
    put_files(room)
    for name, command in chosen:
        begun = time.monotonic()
        status, said = run_as_user(place, command, room)
        counts = numbers_in(said) if "./check" in command else (1, 0)
        is_right = status == 0 and counts is not None and counts[0] > 0 and counts[1] == 0
        tap.result("%s: %s" % (title, name), is_right, said[-6000:])
        print("# %d tests passed there, %.0f s" % (counts[0] if counts else 0, time.monotonic() - begun), flush=True)
    return True


def main():
    tap = Tap(sys.argv[1:])
    why = roots.tools_missing()
    if why:
        print("# not tried: other releases of Debian, as %s" % why)
        untried = 1
    else:
        with tempfile.TemporaryDirectory() as rooms:
            untried = sum(not try_system(tap, system, pathlib.Path(rooms) / system.release.codename) for system in SYSTEMS)
    if tap.tests or not untried:
        return tap.finish()
    print("1..0 # skip: %s" % (why or "no release could be made here"))     # in small letters, since this is no failure
    return 0


if __name__ == "__main__":
    sys.exit(main())
