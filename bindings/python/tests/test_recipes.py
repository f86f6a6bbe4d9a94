# SPDX-License-Identifier: Apache-2.0
"""The blocks of docs/RECIPES.md for a shell and for Python are run as they stand, in one folder
and in their order, and print what the page shows. Its SQL is run by the tests of PostgreSQL."""
import os
import pathlib
import re
import shlex
import shutil
import subprocess
import sys
import unittest

import common
from command import COMMAND, CommandTest, environment
from tap import HUNG

PAGE = common.ROOT / "docs" / "RECIPES.md"
LIBRARY = common.ROOT / "bindings" / "c" / "build" / "libhll.a"
HLL = shlex.join(COMMAND)
MEASURED = "/proc/self/statm"
"""A block that has this prints numbers which depend on the machine."""
STAND_IN = pathlib.Path(__file__).resolve().parent / "stand_in"
"""A package for the blocks that need pyarrow, where it isn't installed."""
KINDS = {"c", "console", "crontab", "makefile", "python", "sql"}


def blocks(*kinds):
    """The kind and the text of each block of these kinds, in their order."""
    found = re.findall(r"^```(\w*)\n(.*?)^```$", PAGE.read_text("utf-8"), re.S | re.M)
    return [(kind, code) for kind, code in found if not kinds or kind in kinds]


def shown_in(code):
    """The lines that a block says it prints."""
    return "".join(re.findall(r"^#> (.*\n)", code, re.M))


def command_of_cron(line):
    """What a line for cron runs, after the five fields of its times."""
    return re.fullmatch(r"(?:[\d*/,-]+ ){5}(.*)\n", line)[1]


def python_with_dask():
    """A Python that has Dask: this one or the system's; None where neither has."""
    for python in (sys.executable, "/usr/bin/python3"):
        tried = [python, "-c", "import distributed, pandas, dask.dataframe"]
        if os.path.exists(python) and subprocess.run(tried, capture_output=True).returncode == 0:
            return python
    return None


def has_pyarrow(python):
    return subprocess.run([python, "-c", "import pyarrow.parquet"], capture_output=True).returncode == 0


class PageTest(unittest.TestCase):
    def test_kinds(self):
        """Each block is of a kind that a test runs or compares."""
        self.assertEqual({kind for kind, _ in blocks()}, KINDS)
        self.assertEqual([kind for kind, _ in blocks("c", "crontab")], ["crontab", "crontab", "c"])

    def test_c(self):
        """The lines in C are those of the example."""
        (_, code), = blocks("c")
        example = (common.ROOT / "examples" / "users.c").read_text()
        self.assertIn(re.sub(r"\s+", " ", code), re.sub(r"\s+", " ", example))


@unittest.skipUnless(shutil.which("make"), "make is not here")
class RecipesTest(CommandTest):
    def setUp(self):
        super().setUp()
        self.make_hll(f'exec {HLL} "$@"')
        for name in ("bindings", "examples", "tests"):
            (self.folder / name).symlink_to(common.ROOT / name)
        path = os.pathsep.join([str(self.folder / ".bin"), os.environ["PATH"]])
        self.environment = dict(environment(), PATH=path, LC_ALL="C", MAKEFLAGS="")

    def make_hll(self, *lines):
        """The command `hll`, as a script of these lines."""
        script = "\n".join(["#!/bin/sh", *lines, ""])
        self.write(".bin/hll", script.encode()).chmod(0o755)

    def output(self, *words, stderr):
        """A command that has ended, with what it wrote."""
        return subprocess.run(
            words, stdout=subprocess.PIPE, stderr=stderr, cwd=self.folder, env=self.environment,
            timeout=HUNG, text=True,
        )

    def shell(self, command):
        """What a terminal shows of a command."""
        return self.output("sh", "-c", command, stderr=subprocess.STDOUT).stdout

    def count(self, month):
        return int(self.succeeds("estimate", "-", given=self.read(f"months/{month}.hll")))

    # ---- blocks

    def run_makefile(self, code):
        self.write("Makefile", code.encode())

    def run_console(self, code):
        if LIBRARY.name in code and not (LIBRARY.exists() and shutil.which("cc")):
            print("docs/RECIPES.md, C: skipped, as bindings/c is not built or cc is not here")
            return
        if "$ sqlite3 " in code and not shutil.which("sqlite3"):
            print("docs/RECIPES.md, SQLite: skipped, as the command sqlite3 is not here")
            return
        for part in re.split(r"^\$ ", code, flags=re.M)[1:]:
            command, _, shown = part.partition("\n")
            self.assertEqual(self.shell(command), shown, command)

    def run_python(self, code):
        python = python_with_dask() if "pandas" in code else sys.executable
        if python is None:
            print("docs/RECIPES.md: skipped, as no Python with pandas and `distributed` is here")
            return
        self.write("recipe.py", code.encode())
        # A process begins with its parent's peak of memory, which the page measures: so a shell starts it.
        command = f"{shlex.quote(python)} -B recipe.py; exit $?"
        if "pyarrow" in code and not has_pyarrow(python):
            print("docs/RECIPES.md, Arrow: run with a stand-in for pyarrow, which is not here")
            path = os.pathsep.join([str(STAND_IN), self.environment["PYTHONPATH"]])
            command = f"PYTHONPATH={shlex.quote(path)} {command}"
        done = self.output("sh", "-c", command, stderr=subprocess.PIPE)          # Dask logs there
        self.assertEqual(done.returncode, 0, done.stderr)
        compare = self.assert_near if MEASURED in code else self.assertEqual
        compare(done.stdout, shown_in(code))

    def assert_near(self, said, shown):
        """The texts are the same, and no number is a quarter away from that of the page."""
        self.assertEqual(re.sub(r"\d+", "N", said), re.sub(r"\d+", "N", shown))
        for found, wanted in zip(re.findall(r"\d+", said), re.findall(r"\d+", shown)):
            self.assertAlmostEqual(int(found), int(wanted), delta=int(wanted) / 4)

    def run_page(self, before=None):
        """Runs the blocks in their order, up to the first one that has a text in it."""
        found = blocks("console", "makefile", "python")
        ends = [number for number, (_, code) in enumerate(found) if before and before in code]
        for number, (kind, code) in enumerate(found[:ends[0]] if before else found):
            with self.subTest(block=number, kind=kind, begins=code[:60]):
                getattr(self, "run_" + kind)(code)

    # ---- the page, and what it says

    def test_page(self):
        self.assertGreaterEqual(len(blocks("console", "makefile", "python")), 10)
        self.run_page()

    def test_cron(self):
        """The line for cron merges the months of which a day has changed, and no others. They still
        count days that are gone."""
        self.run_page(before="$ ls days/")
        october = self.read("months/2026-10.hll")
        self.succeeds("add", "days/2026-11/01.hll", given=b"another late visitor\n")
        (self.folder / "days/2026-11/02.hll").unlink()
        (_, _), (_, line) = blocks("crontab")
        command = command_of_cron(line)
        self.assertIn("cd /srv/visits && ", command)
        self.assertEqual(self.shell(command.replace("/srv/visits", str(self.folder))), "")
        self.assertEqual(self.count("2026-11"), 301)
        self.assertEqual(self.read("months/2026-10.hll"), october)

    def test_day_that_changes_while_its_month_is_merged(self):
        """A day changes after it was read, and before the month is written: it is merged by the
        next run."""
        self.run_page(before="$ ls days/")
        self.succeeds("add", "days/2026-10/23.hll", given=b"earlier\n")
        self.make_hll(f'{HLL} "$@"', f"echo later | {HLL} add days/2026-10/24.hll",
                      "touch months/2026-10.hll")
        self.shell("make")
        self.assertEqual(self.count("2026-10"), 102)
        self.make_hll(f'exec {HLL} "$@"')
        self.assertEqual(self.shell("make"), "months/2026-10.hll\n")
        self.assertEqual(self.count("2026-10"), 103)

    def test_wrong_load(self):
        """A day that is loaded again, and a month whose file was deleted, count no value more."""
        self.run_page(before="$ ls days/")
        self.succeeds("new", "days/2026-10/23.hll", "--force")
        (self.folder / "months/2026-10.hll").unlink()
        self.assertEqual(self.shell("make"), "months/2026-10.hll\n")
        self.assertEqual(self.count("2026-10"), 90)


if __name__ == "__main__":
    unittest.main()
