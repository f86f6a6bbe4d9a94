# SPDX-License-Identifier: Apache-2.0
"""The commands of README.md are run as they stand, and print what it shows."""
import os
import re
import shlex
import subprocess
import sys
import unittest

import common
from command import COMMAND, CUT, CommandTest, TRUNCATED, environment
from hll_sketches import Sketch

README = common.PACKAGE / "README.md"


def transcript():
    """Each command of the README, and the lines that are shown below it."""
    blocks = re.findall(r"```console\n(.*?)```", README.read_text("utf-8"), re.S)
    for part in re.split(r"^\$ ", "".join(blocks), flags=re.M)[1:]:
        command, _, shown = part.partition("\n")
        yield command, shown


class ReadmeTest(CommandTest):
    def setUp(self):
        super().setUp()
        script = f"#!/bin/sh\nexec {shlex.join(COMMAND)} \"$@\"\n"
        self.write(".bin/hll", script.encode()).chmod(0o755)
        path = os.pathsep.join([str(self.folder / ".bin"), os.environ["PATH"]])
        self.environment = dict(environment(), PATH=path, LC_ALL="C")

    def shown_by(self, command):
        """What a terminal shows of a command."""
        done = subprocess.run(
            ["sh", "-c", command], stdout=subprocess.PIPE, stderr=subprocess.STDOUT,
            cwd=self.folder, env=self.environment,
        )
        return done.stdout.decode()

    def test_transcript(self):
        pairs = list(transcript())
        self.assertGreater(len(pairs), 10)
        for command, shown in pairs:
            with self.subTest(command=command):
                self.assertEqual(self.shown_by(command), shown)

    def test_python(self):
        for code in re.findall(r"```python\n(.*?)```", README.read_text("utf-8"), re.S):
            done = subprocess.run(
                [sys.executable, "-c", code], cwd=self.folder, env=environment(),
                capture_output=True,
            )
            self.assertEqual((done.returncode, done.stderr), (0, b""))
        self.assertEqual(self.listed(), [".bin", "both.hll", "seen.hll"])


class ChoosingTest(unittest.TestCase):
    """The table of docs/CHOOSING.md."""

    def rows(self):
        text = (common.ROOT / "docs" / "CHOOSING.md").read_text("utf-8")
        table = text.split("registers from |\n")[1].split("\n\n")[0]
        for line in table.splitlines()[1:]:
            yield [cell.strip() for cell in line.strip("|").split("|")]

    def test_table(self):
        count = 0
        for lg_k, *cells in self.rows():
            lg_k, values = int(lg_k), int(cells[6].split()[0].replace(",", ""))
            registers, sizes = 1 << lg_k, [int(cell.replace(",", "")) for cell in cells[:4]]
            error = 103.896 / registers**0.5
            with self.subTest(lg_k=lg_k):
                bytes_ = [Sketch.max_bytes(lg_k, 8), Sketch.max_bytes(lg_k, 6), 40 + registers // 2]
                self.assertEqual(sizes, [registers, *bytes_])
                self.assertEqual(cells[4:6], [f"{error:.2g} %", f"{2 * error:.2g} %"])
                made = Sketch(lg_k)
                made.update_many(range(values - 1))
                self.assertNotEqual(made.stage, "registers")
                made.update_many(range(values + values // 1000 + 1))    # a few have equal coupons
                self.assertEqual(made.stage, "registers")
                count += 1
        self.assertGreater(count, 8)

    def test_error(self):
        """That of many values is the one of the table."""
        made = Sketch(10)
        made.update_many(range(1_000_000))
        self.assertAlmostEqual(made.relative_standard_error(), 1.03896 / 32, 4)


class ExampleTest(CommandTest):
    """examples/merge.py, as a user calls it."""

    def example(self, *words):
        done = subprocess.run(
            [sys.executable, common.ROOT / "examples" / "merge.py", *words], cwd=self.folder,
            env=environment(), capture_output=True, text=True,
        )
        return done.returncode, done.stdout, done.stderr

    def test_merges_files(self):
        for name, values in (("one.hll", b"a\nb\n"), ("two.hll", b"b\nc\n")):
            self.succeeds("new", name)
            self.succeeds("add", name, given=values)
        said = "3 distinct values; with 95% certainty 3 to 3\n"
        self.assertEqual(self.example("out.hll", "one.hll", "two.hll", "one.hll"), (0, said, ""))
        self.assertEqual(self.succeeds("estimate", "out.hll"), b"3\tout.hll\n")

    def test_archives(self):
        """examples/import_archive.py makes a database of an archive, and rejects one that is damaged or cut."""
        archive = bytes.fromhex("89484c4c4b45590a0100000017de59ed050000000c00000072fa7b4f2f686f6d650201070c03080108f8116004ffffffff010000009a984347")
        script = [sys.executable, common.ROOT / "examples" / "import_archive.py"]
        self.write("old.keys", archive)
        subprocess.run([*script, "old.keys", "new.db", "page"], cwd=self.folder, env=environment(), check=True)
        self.assertEqual(self.succeeds("estimate", "new.db"), b"1\t/home\n")
        for data in (archive[:20], archive[:40], archive[:30] + b"x" + archive[31:], b"x" + archive[1:]):
            self.write("old.keys", data)
            done = subprocess.run([*script, "old.keys", "bad.db", "page"], cwd=self.folder, env=environment(), capture_output=True)
            self.assertEqual((done.returncode, done.stdout), (1, b""))
        self.assertEqual(self.listed(), ["new.db", "old.keys"])

    def test_refuses(self):
        self.write("none.hll", CUT)
        self.assertEqual(self.example("out.hll", "none.hll"), (1, "", f"none.hll: {TRUNCATED}\n"))
        self.assertEqual(self.example(), (1, "", "usage: merge.py OUT FILE..\n"))
        self.assertEqual(self.listed(), ["none.hll"])


class PicturesTest(unittest.TestCase):
    def test_pictures_are_those_of_the_script(self):
        script = common.ROOT / "bench" / "pictures.py"
        if not script.exists():
            self.skipTest("bench/pictures.py is not here")
        done = subprocess.run([sys.executable, script, "--check"], capture_output=True)
        self.assertEqual((done.returncode, done.stdout, done.stderr), (0, b"", b""))


if __name__ == "__main__":
    unittest.main()
