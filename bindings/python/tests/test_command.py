# SPDX-License-Identifier: Apache-2.0
"""The commands of `hll`: what they write, what they refuse, and how they end."""
import errno
import fcntl
import io
import json
import operator
import os
import random
import re
import resource
import shutil
import signal
import stat
import struct
import subprocess
import sys
import threading
import unittest
from contextlib import redirect_stderr, redirect_stdout
from ctypes.util import find_library
from itertools import product, takewhile
from unittest import mock

import common  # noqa: F401, for the path
from command import COMMAND, CUT, CommandTest, TEXT, TRUNCATED, environment, interruptible
from hll_sketches import Sketch, __version__, _library, cli, commands, counting, fault_of, files, layout, processor
from hll_sketches._errors import explained
from hll_sketches._names import shown
from mutants import KINDS, Mutants
from tap import HUNG

NAMES = "merge info estimate check fold convert diff plot new add count get drop dump load".split()


def sketch_of(values, lg_k=12, width=8):
    made = Sketch(lg_k, width)
    made.update_many(values)
    return made


def image_of(values, lg_k=12, width=8):
    """An image as the command writes it."""
    return sketch_of(values, lg_k, width).to_bytes()


def foreign(image):
    """An image of registers with words as another program puts them there, in order."""
    changed = bytearray(image)
    changed[5] &= ~16
    changed[8:32] = struct.pack("<3d", 123.0, 4.5, 0.25)
    return bytes(changed)


class HelpTest(CommandTest):
    def parsed(self, *words):
        """The status of the parser, and what it says, in this process."""
        out, err = io.StringIO(), io.StringIO()
        with redirect_stdout(out), redirect_stderr(err), self.assertRaises(SystemExit) as caught:
            cli.main(list(words))
        return caught.exception.code, out.getvalue(), err.getvalue()

    def setUp(self):
        super().setUp()
        patch = mock.patch.object(cli, "_settled")
        patch.start()
        self.addCleanup(patch.stop)

    def test_help_has_an_example(self):
        self.assertIn(b"hll merge days -o year.hll", self.succeeds("--help"))
        for name in NAMES:
            status, out, err = self.parsed(name, "--help")
            self.assertEqual((status, err), (0, ""))
            self.assertIn(f"usage: hll {name}", out)
            self.assertRegex(out, rf"example:\n  .*hll {name} ")

    def test_version(self):
        self.assertEqual(self.succeeds("--version"), f"hll {__version__} ({processor()})\n".encode())

    def test_wrong_command_lines(self):
        self.assertEqual(self.run_hll()[:2], (2, b""))
        self.write("a.hll", image_of(["abc"]))
        rows = [
            [], ["nothing"], ["merge", "a.hll"],
            ["merge", "a.hll", "-o", "x", "--lg-k", "3"],
            ["merge", "a.hll", "-o", "x", "--lg-k", "22"],
            ["merge", "a.hll", "-o", "x", "--jobs", "0"],
            ["merge", "a.hll", "-o", "x", "--width", "5"], ["fold", "a.hll", "-o", "x"], ["info"],
            ["diff", "a.hll"], ["add", "-"], ["new", "-", "--json"], ["check", "-0", "a.hll"],
            ["new", "x", "--lg-k", "1_0"],
            ["convert", "a.hll", "--width", "8", "-o", "-", "--json"],
        ]
        for words in rows:
            with self.subTest(words=words):
                status, out, err = self.parsed(*words)
                self.assertEqual((status, out), (2, ""))
                self.assertRegex(err, r"^usage: hll(.|\n)*\nhll.*: error: .*\n$")
        self.assertEqual(self.listed(), ["a.hll"])


class LibraryTest(CommandTest):
    """Where the shared library is missing or is another one, a command says so."""

    def copied(self, *words, library=None):
        """Runs a copy of the package, which is far from any build of the library."""
        shutil.copytree(common.PACKAGE / "hll_sketches", self.folder / "copy" / "hll_sketches")
        path = {"PYTHONPATH": str(self.folder / "copy"), "HLL_SKETCHES_LIBRARY": library or ""}
        done = subprocess.run(
            [*COMMAND, *words], input=b"", capture_output=True, cwd=self.folder,
            env=dict(environment(), **path), timeout=HUNG,
        )
        shutil.rmtree(self.folder / "copy")
        return done.returncode, done.stdout, done.stderr.decode()

    def test_none(self):
        if find_library("hll"):
            self.skipTest("a libhll.so is installed")
        status, out, err = self.copied("new", "a.hll")
        self.assertEqual((status, out, self.listed()), (2, b"", []))
        self.assertRegex(err, r"\Ahll: the shared library libhll\.so is not here: build .*\n\Z")

    def test_another(self):
        self.write("a.hll", Sketch().to_bytes())
        self.write("libhll.so", b"no library")
        for library in ("none.so", "./libhll.so", find_library("c")):
            for words in (["merge", "a.hll", "-o", "b"], ["estimate", "a.hll"], ["add", "a.hll"]):
                status, out, err = self.copied(*words, library=library)
                self.assertEqual((status, out), (2, b""))
                self.assertRegex(err, rf"\Ahll: the library {library} can't be used: .*\n\Z")
        self.assertEqual(self.listed(), ["a.hll", "libhll.so"])

    def test_without_a_call(self):
        status, out, err = self.copied("--help", library="none.so")
        self.assertEqual((status, out, err), (0, self.succeeds("--help"), ""))
        status, out, err = self.copied("--version", library="none.so")
        self.assertEqual((status, out, err), (0, f"hll {__version__} (no libhll)\n".encode(), ""))


class NewTest(CommandTest):
    def test_new(self):
        for lg_k, width in ((12, 8), (4, 4), (21, 6)):
            self.succeeds("new", "a.hll", "--lg-k", lg_k, "--width", width, "--force")
            self.assertEqual(self.read("a.hll"), Sketch(lg_k, width).to_bytes())
        self.assertEqual(self.succeeds("new", "-"), Sketch().to_bytes())
        told = json.loads(self.succeeds("new", "b.hll", "--json"))
        self.assertEqual((told["output"], told["lg_k"], told["coupons"]), ("b.hll", 12, 0))

    def test_a_file_that_is_there_stays(self):
        self.write("a.hll", b"kept")
        self.fails(2, ["a.hll: File exists (--force replaces it)"], "new", "a.hll")
        self.assertEqual(self.read("a.hll"), b"kept")
        self.fails(2, ["none/a.hll: No such file or directory"], "new", "none/a.hll")


class AddTest(CommandTest):
    def test_command(self):
        lines = [b"%d" % number for number in range(300_000)]
        self.succeeds("new", "a.hll", "--width", 6)
        os.chmod(self.folder / "a.hll", 0o640)
        (self.folder / "link.hll").symlink_to("a.hll")
        self.assertEqual(self.succeeds("add", "link.hll", given=b"\n".join(lines)), b"")
        self.assertEqual(self.read("a.hll"), image_of(lines, width=6))
        self.assertEqual(stat.S_IMODE(os.stat(self.folder / "a.hll").st_mode), 0o640)
        self.assertTrue((self.folder / "link.hll").is_symlink())
        self.assertEqual(self.listed(), ["a.hll", "link.hll"])

    def test_outputs(self):
        self.succeeds("new", "a.hll", "--lg-k", 4)
        given = b"".join(b"%d\n" % number for number in range(100))
        wanted = sketch_of(given.split(), 4)
        out = self.succeeds("add", "a.hll", "-o", "b.hll", "--plain", "--json", given=given)
        self.assertEqual(json.loads(out)["lines"], 100)
        self.assertEqual(self.read("b.hll"), wanted.to_bytes(plain=True))
        out = self.succeeds("add", "a.hll", "-o", "-", given=given)
        self.assertEqual(out, wanted.to_bytes())
        self.assertEqual(self.read("a.hll"), Sketch(4).to_bytes())
        self.assertNotEqual(out, self.read("b.hll"))

    def test_a_file_that_is_no_plain_one(self):
        """It is read once more before it is written, so a pipe can't be it."""
        os.mkfifo(self.folder / "pipe")
        words = "it is no plain file, which add changes (hll merge reads sketches from pipes)"
        self.fails(2, [f"pipe: {words}"], "add", "pipe", given=b"a\n")
        self.fails(2, [f".: {words}"], "add", ".", given=b"a\n")

    def test_refusals(self):
        self.write("bad.hll", b"\x02\x01")
        self.fails(1, [f"bad.hll: {TRUNCATED}"], "add", "bad.hll", given=b"a\n")
        words = "none.hll: No such file or directory (--create makes it)"
        self.fails(2, [words], "add", "none.hll", given=b"a\n")
        self.assertEqual((self.read("bad.hll"), self.listed()), (b"\x02\x01", ["bad.hll"]))

    def test_integers(self):
        self.succeeds("new", "a.hll")
        given = b"1\n-2\n 3 \r\n18446744073709551615\n+4\n-9223372036854775808\n00"
        self.succeeds("add", "a.hll", "--int", given=given)
        values = [1, -2, 3, 2**64 - 1, 4, -(2**63), 0]
        self.assertEqual(self.read("a.hll"), image_of(values))
        for bad in ("x", "", "1.0", "1_000", "18446744073709551616", "-9223372036854775809"):
            err = f"standard input: line 100,001 is no integer of 64 bits ({shown(bad)}): nothing was counted " \
                "(--skip-bad leaves such lines out)"
            given = b"5\n" * 100_000 + f"{bad}\n5\n".encode()
            self.fails(1, [err], "add", "a.hll", "--int", given=given)
        self.assertEqual(self.read("a.hll"), image_of(values))

    def test_lines_that_end_in_cr(self):
        """They count with it, and that is said."""
        self.succeeds("new", "a.hll")
        words = "hll: 2 lines end in a CR, which counts as a part of them\n"
        told = self.run_hll("add", "a.hll", given=b"a\r\nb\nc\r\n")
        self.assertEqual(told, (0, b"", words))
        self.assertEqual(self.read("a.hll"), image_of([b"a\r", b"b", b"c\r"]))

    def test_at_once(self):
        """Of several at once to one file none loses values, however slow their input is."""
        self.succeeds("new", "a.hll", "--lg-k", 14)
        command = [*COMMAND, "add", "a.hll"]
        running = [
            subprocess.Popen(command, stdin=subprocess.PIPE, cwd=self.folder, env=environment())
            for _ in range(8)
        ]
        for number, one in enumerate(running):
            first = number * 100
            one.stdin.write("".join(f"{n}\n" for n in range(first, first + 100)).encode())
            one.stdin.flush()
        self.succeeds("add", "a.hll", given=b"not kept waiting\n")
        for one in running:
            one.stdin.close()
        self.assertEqual([one.wait(60) for one in running], [0] * 8)
        wanted = sketch_of([b"%d" % number for number in range(800)] + [b"not kept waiting"], 14)
        self.assertEqual(self.read("a.hll"), wanted.to_bytes())
        self.assertEqual(self.listed(), ["a.hll"])

    def test_a_lock_that_is_held(self):
        """It is waited for, for ten seconds or for as long as it is held; that is said, and nothing is lost."""
        self.assertEqual(files.PATIENCE, 10)
        self.succeeds("new", "a.hll")
        before, name = self.read("a.hll"), str(self.folder / "a.hll")
        waits = "another process has held its lock for 0 seconds"
        with open(name) as held, mock.patch.object(files, "PATIENCE", 0.1):
            for kind in (fcntl.LOCK_SH, fcntl.LOCK_EX):
                fcntl.flock(held, kind)
                with self.assertRaises(files.Trouble) as caught, files.locked(name):
                    self.fail("it is locked")
                self.assertEqual((caught.exception.words, caught.exception.status), (
                    f"{waits}: nothing was added to it (--wait waits for as long as it takes)", 2))
            said = []

            def tell(words):
                said.append(words)
                fcntl.flock(held, fcntl.LOCK_UN)

            with files.locked(name, tell):
                self.assertEqual(said, [f"{name}: waits for its lock, as {waits}"])
        for words, wanted in ((["--wait"], True), ([], False)):
            with mock.patch.object(commands, "locked") as locked, \
                    mock.patch.object(counting, "image_of", return_value=before):
                self.assertEqual(cli._run(["add", name, *words]), 0)
            self.assertEqual(locked.call_args.args, (name, commands.say if wanted else None))
        self.assertEqual(self.read("a.hll"), before)

    def test_an_add_that_is_kept_waiting(self):
        """By a process that only may read the file: nothing is written, and the file is named."""
        self.succeeds("new", "a.hll")
        before = self.read("a.hll")
        with open(self.folder / "a.hll") as held:
            fcntl.flock(held, fcntl.LOCK_SH)
            words = "a.hll: another process has held its lock for 10 seconds: nothing was added to it " \
                "(--wait waits for as long as it takes)"
            self.fails(2, [words], "add", "a.hll", given=b"x\n")
        self.assertEqual(self.read("a.hll"), before)
        self.succeeds("add", "a.hll", given=b"x\n")
        self.assertEqual(self.read("a.hll"), image_of(["x"]))

    def test_lines_that_are_too_long(self):
        """They are named, and nothing is written; a line of that length is a line."""
        self.succeeds("new", "a.hll")
        before = self.read("a.hll")
        for given, longest, number in (
            (b"a\nbb\nccc\ndd\n", 2, "3"), (b"ccc", 2, "1"), (b"\na", 0, "2"),
            (b"a\n" * 600_000 + b"b" * 3_000_000, 2_999_999, "600,001"),
            (b"a\n" * 600_000 + b"b" * 3_000_000 + b"\n", 2_999_999, "600,001"),
        ):
            words = f"standard input: line {number} is longer than {longest:,} bytes " \
                "(--longest-line changes this): nothing was counted"
            self.fails(1, [words], "add", "a.hll", "--longest-line", longest, given=given)
            self.assertEqual(self.read("a.hll"), before)
            self.succeeds("add", "a.hll", "-o", "b.hll", "--longest-line", longest + (3 if longest < 9 else 1), given=given)
        with open("/dev/zero", "rb") as endless:
            done = subprocess.run([*COMMAND, "add", "--raw", "a.hll"], stdin=endless, cwd=self.folder,
                                  env=environment(), capture_output=True, timeout=HUNG)
        words = b"hll: standard input: line 1 is longer than 67,108,864 bytes (--longest-line changes this): nothing was counted\n"
        self.assertEqual((done.returncode, done.stdout, done.stderr), (1, b"", words))
        self.assertEqual(self.read("a.hll"), before)

    def test_the_lock_is_that_of_the_file_with_the_name(self):
        """Who waited for a file that was replaced locks the new one."""
        path = self.write("a.hll", b"old")
        first, is_held, is_over = files.locked(str(path)), threading.Event(), threading.Event()

        def wait():
            with files.locked(str(path)):
                is_held.set()
                is_over.wait(20)

        waiting = threading.Thread(target=wait)
        with first:
            waiting.start()
            self.assertFalse(is_held.wait(0.2))
            files.write_path(str(path), b"new")
        self.assertTrue(is_held.wait(20))
        with open(path) as new, self.assertRaises(BlockingIOError):
            fcntl.flock(new, fcntl.LOCK_EX | fcntl.LOCK_NB)
        is_over.set()
        waiting.join()

    def test_a_file_that_changes_meanwhile(self):
        self.succeeds("new", "a.hll")
        running = subprocess.Popen(
            [*COMMAND, "add", "a.hll"], stdin=subprocess.PIPE, stderr=subprocess.PIPE,
            cwd=self.folder, env=environment(),
        )
        running.stdin.write(b"x\n" * 1_000_000)    # it has read the file by now
        running.stdin.flush()
        self.write("a.hll", Sketch(9).to_bytes())
        err = running.communicate()[1].decode()
        words = "hll: a.hll: its lg_k has become 9, from 12, while lines were read: add them again\n"
        self.assertEqual((running.returncode, err), (1, words))
        self.assertEqual(self.read("a.hll"), Sketch(9).to_bytes())

    def test_interrupt(self):
        before = self.write("a.hll", Sketch().to_bytes()).read_bytes()
        running = subprocess.Popen(
            [*COMMAND, "add", "a.hll"], stdin=subprocess.PIPE, stdout=subprocess.PIPE,
            stderr=subprocess.PIPE, cwd=self.folder, env=environment(), preexec_fn=interruptible,
        )
        running.stdin.write(b"line\n" * 1_000_000)
        running.stdin.flush()
        running.send_signal(signal.SIGINT)
        out, err = running.communicate()
        self.assertEqual((running.returncode, out, err), (-signal.SIGINT, b"", b""))
        self.assertEqual((self.read("a.hll"), self.listed()), (before, ["a.hll"]))


class InfoTest(CommandTest):
    def test_each_stage_and_width(self):
        wanted = []
        for count in (0, 5, 50, 30_000):
            for width in (4, 6, 8):
                made = sketch_of(range(count), 12, width)
                name = f"{count}-{width}.hll"
                self.write(name, made.to_bytes())
                wanted.append((name, made))
        records = json.loads(self.succeeds("info", "--json", *(name for name, _ in wanted)))
        self.assertEqual(len(records), len(wanted))
        for told, (name, made) in zip(records, wanted):
            with self.subTest(name=name):
                self.compare(told, name, made)

    def compare(self, told, name, made):
        self.assertEqual(told["file"], name)
        self.assertEqual((told["stage"], told["lg_k"]), (made.stage, 12))
        self.assertEqual((told["width"], told["bytes"]), (made.width, len(made.to_bytes())))
        self.assertEqual((told["lower"], told["upper"]), made.bounds(2))
        self.assertEqual((told["estimate"], told["deviations"]), (made.estimate(), 2))
        if made.stage == "registers":
            self.assertEqual((told["zeros"], told["estimator_fields"]), (made.num_zeros, "set"))
            self.assertIn("out of order", told["flags"])
            sums = [0.5**value * count for value, count in enumerate(made.histogram())]
            self.assertEqual((told["kxq0"], told["hip"]), (sum(sums[:32]), 0))
            self.assertIsNone(told["hip_estimate"])
        else:
            self.assertEqual((told["coupons"], "estimator_fields" in told), (made.num_coupons, False))
            self.assertEqual("empty" in told["flags"], made.is_empty)

    def test_a_kept_estimate(self):
        image = bytearray(image_of(range(30_000)))
        image[5] &= ~16
        image[8:16] = struct.pack("<d", 30_123.25)
        self.write("kept.hll", image)
        self.assertIn(b"\n  hip       30,123, as its writer counted\n",
                      self.succeeds("info", "kept.hll"))
        told, = json.loads(self.succeeds("info", "--json", "kept.hll"))
        self.assertEqual((told["hip_estimate"], told["hip"]), (30_123.25, 30_123.25))

    def test_text(self):
        self.write("a.hll", image_of(range(30_000)))
        lines = self.succeeds("info", "a.hll", "--deviations", 1).decode().split("\n")
        low, high = sketch_of(range(30_000)).bounds(1)
        rows = dict(line.strip().split(None, 1) for line in lines[1:-1])
        self.assertEqual((lines[0], rows["stage"]), ("a.hll:", "registers"))
        self.assertEqual(rows["width"], "8 bits")
        self.assertEqual(rows["bounds"], f"{low:,.0f} to {high:,.0f}, at 1 standard deviations")
        self.assertEqual((rows["lg_k"], rows["bytes"]), ("12, so 4,096 registers", "4,136"))
        self.assertEqual((rows["flags"], rows["fields"][:4]), ("out of order", "set:"))

    def table_of(self, *words):
        """The rows of the table that a command prints, as dictionaries, and the lines after it."""
        header, *lines = self.succeeds(*words).decode().split("\n")
        rows = list(takewhile(bool, lines))
        ends = [match.end() for match in re.finditer(r"\S+", header)]
        self.assertTrue(all(len(row.split()) == len(ends) for row in rows), rows)
        columns = header.split()
        for row in rows:        # numbers end where the names of their columns do
            for column, cell, end in zip(columns, re.finditer(r"\S+", row), ends):
                is_number = column not in ("stage", "fields", "file", "key")
                self.assertTrue(cell.end() == end if is_number else cell.start() == end - len(column), (row, column))
        return [dict(zip(columns, row.split())) for row in rows], lines[len(rows) + 1 :]

    def test_table(self):
        made = [sketch_of(range(30_000)), sketch_of(range(7), 10, 4), Sketch(21)]
        names = ["a.hll", "a_long_name_of_a_file.hll", "c.hll"]
        for name, one in zip(names, made):
            self.write(name, one.to_bytes())
        rows, after = self.table_of("info", "--deviations", 3, *names)
        self.assertEqual(after, [])
        self.assertEqual([row["file"] for row in rows], names)
        for row, one in zip(rows, made):
            self.assertEqual((row["lg_k"], row["width"], row["stage"]), (str(one.lg_k), str(one.width), one.stage))
            numbers = [f"{number:,.0f}" for number in (one.estimate(), *one.bounds(3))]
            self.assertEqual([row["estimate"], row["lower"], row["upper"]], numbers)
            self.assertEqual((row["bytes"], row["fields"]), (f"{len(one.to_bytes()):,}", "set" if one.stage == "registers" else "none"))
        self.write("bad", b"")
        status, out, err = self.run_hll("info", "bad", "a.hll", "none")
        self.assertEqual((status, err), (2, "hll: bad: it is empty\nhll: none: No such file or directory\n"))
        self.assertEqual(len(out.decode().strip().split("\n")), 2)
        self.fails(1, ["bad: it is empty"] * 2, "info", "bad", "bad")

    def pair(self, one, two, *more):
        self.write("1.hll", one.to_bytes())
        status, out, err = self.run_hll("info", "1.hll", "-", *more, given=two.to_bytes())
        self.assertEqual((status, err), (0, ""))
        first, *rest = out.decode().split("\n\n")[1].rstrip("\n").split("\n")
        self.assertEqual(first, "both:")
        return dict(line.strip().split("  ", 1) for line in rest)

    def test_two(self):
        """Whether they agree, their union, and why there is no intersection."""
        one, two = sketch_of(range(30_000)), sketch_of(range(20_000, 40_000))
        both = one | two
        rows = {key: value.strip() for key, value in self.pair(one, two, "--deviations", 1).items()}
        differing = sum(map(operator.ne, layout.registers_of(one.to_bytes(), 12), layout.registers_of(two.to_bytes(), 12)))
        self.assertEqual(rows["agree"], f"no, in {differing:,} of 4,096 slots at lg_k 12")
        self.assertEqual(rows["union"], f"{both.estimate():,.0f}, at lg_k 12")
        self.assertEqual(rows["bounds"], "%s to %s, at 1 standard deviations" % tuple(f"{bound:,.0f}" for bound in both.bounds(1)))
        three = [made.estimate() for made in (one, two, both)]
        error = sum((made.bounds(1)[1] - made.bounds(1)[0]) / 2 for made in (one, two, both))
        sizes = f"{three[0]:,.0f} + {three[1]:,.0f} - {three[2]:,.0f} = {three[0] + three[1] - three[2]:,.0f}"
        self.assertEqual(rows["intersection"], f"not estimated: {sizes} has the errors of three estimates, together {error:,.0f}")

    def test_two_of_other_sizes(self):
        rows = self.pair(sketch_of(range(300)), sketch_of(range(300), 12, 4))
        self.assertEqual(rows["agree"].strip(), "yes, at lg_k 12")
        rows = self.pair(sketch_of(range(30_000), 14), sketch_of(range(30_000), 10))
        self.assertEqual(rows["agree"].strip(), "yes, at lg_k 10")
        self.assertEqual(rows["union"].strip(), f"{sketch_of(range(30_000), 10).estimate():,.0f}, at lg_k 10")
        rows = self.pair(sketch_of(range(30_000), 14), Sketch(10))      # an empty one lowers nothing
        self.assertEqual(rows["union"].strip(), f"{sketch_of(range(30_000), 14).estimate():,.0f}, at lg_k 14")
        full = Sketch(4)
        for slot in range(16):
            full.add_coupon(slot, 63)
        rows = self.pair(full, Sketch(4))
        self.assertEqual(rows["intersection"].strip(), "not estimated: an estimate is infinite")
        records = json.loads(self.succeeds("info", "--json", "1.hll", "1.hll"))
        self.assertEqual([one["file"] for one in records], ["1.hll"] * 2)

    def test_table_of_estimates(self):
        self.write("a.hll", image_of(range(30_000)))
        rows, _ = self.table_of("estimate", "--table", "a.hll", "a.hll")
        one = sketch_of(range(30_000))
        numbers = [f"{number:,.0f}" for number in (one.estimate(), *one.bounds(2))]
        self.assertEqual(rows, [dict(zip(("estimate", "lower", "upper", "file"), [*numbers, "a.hll"]))] * 2)
        status, out, err = self.run_hll("estimate", "--table", "--json", "a.hll")
        self.assertEqual((status, out), (2, b""))
        self.assertIn("--table and --json don't go together", err)

    def test_words(self):
        made = sketch_of(range(30_000))
        image = made.to_bytes()
        pairs = ((made.to_bytes(plain=True), "zero"), (foreign(image), "other"), (image, "set"))
        for data, word in pairs:
            self.assertEqual(layout.estimator_fields_of(data), word)
        self.assertEqual(layout.estimator_fields_of(Sketch().to_bytes()), "none")

    def test_estimates(self):
        self.write("a.hll", image_of(range(1000)))
        self.write("b.hll", image_of(range(50)))
        number = f"{sketch_of(range(1000)).estimate():.0f}"
        self.assertEqual(self.succeeds("estimate", "a.hll").decode(), f"{number}\ta.hll\n")
        self.assertEqual(self.succeeds("estimate", "-", given=self.read("a.hll")).decode(), f"{number}\n")
        self.write("all/c.hll", self.read("a.hll"))
        found = self.succeeds("estimate", "all", "--files-from", "-", given=b"b.hll\n")
        self.assertEqual(found.decode(), f"{number}\tall/c.hll\n50\tb.hll\n")
        out = self.succeeds("estimate", "a.hll", "b.hll").decode()
        self.assertEqual(out, f"{number}\ta.hll\n50\tb.hll\n")
        told = json.loads(self.succeeds("estimate", "--json", "-", given=self.read("b.hll")))
        self.assertEqual([round(one["estimate"]) for one in told], [50])
        full = bytes.fromhex("0a01070400000008") + bytes(32) + b"\x3f" * 16
        full = full[:7] + b"\x0a" + full[8:]
        self.assertEqual(self.succeeds("estimate", "-", given=full), b"infinite\n")
        told = json.loads(self.succeeds("info", "--json", "-", given=full))
        self.assertIsNone(told[0]["estimate"])
        out = self.succeeds("estimate", "--deviations", 3, "a.hll", "b.hll").decode()
        rows = [[f"{one.estimate():.0f}", *(f"{bound:.0f}" for bound in one.bounds(3)), name]
                for name, one in (("a.hll", sketch_of(range(1000))), ("b.hll", sketch_of(range(50))))]
        self.assertEqual(out, "".join("\t".join(row) + "\n" for row in rows))

    def test_troubles_are_told_and_the_rest_is_shown(self):
        self.write("a.hll", image_of(range(50)))
        self.write("bad.hll", self.read("a.hll")[:-1])
        status, out, err = self.run_hll("estimate", "bad.hll", "a.hll")
        self.assertEqual((status, out, err), (1, b"50\ta.hll\n", f"hll: bad.hll: {TRUNCATED}\n"))
        status, out, err = self.run_hll("info", "--json", "bad.hll", "none", ".")
        self.assertEqual((status, json.loads(out)), (2, []))
        wanted = [f"bad.hll: {TRUNCATED}", "none: No such file or directory"]
        wanted.append(".: Is a directory (name its files, or merge them)")
        self.assertEqual(err, "".join(f"hll: {line}\n" for line in wanted))


class CheckTest(CommandTest):
    def test_folder(self):
        wanted = []
        for kind in KINDS:
            mutants = Mutants(kind, 7)
            for number in range(30):
                name = f"{kind[0]}{kind[1]}/{number:03}"
                reason = fault_of(self.write(f"all/{name}", mutants.image()).read_bytes())
                wanted += [(f"all/{name}", reason)] if reason else []
        self.assertGreater(len({reason for _, reason in wanted}), 8)
        status, out, err = self.run_hll("check", "all")
        lines = "".join(f"{name}: {self.told(name, reason)}\n" for name, reason in wanted)
        self.assertEqual((status, out.decode(), err), (1, lines, ""))
        status, out, _ = self.run_hll("check", "all", "--json")
        told = json.loads(out)
        self.assertEqual((status, told["checked"]), (1, 30 * len(KINDS)))
        self.assertEqual([(one["file"], one["reason"]) for one in told["refused"]], wanted)

    def told(self, name, reason):
        """What is said of a file: in words of its own, if it has another family byte than an image."""
        data = self.read(name)
        is_other = data[2:3] not in (b"", b"\7")
        if reason == "trailing":
            begin = f"bytes that are no image begin at byte {_library.head(data).size:,}"
            return f"{begin}, after the image (hll merge - -o FILE merges all images of standard input)"
        return f"not an image (the family byte is {data[2]}, and not 7)" if is_other else f"image {explained(reason)}"

    def test_two_images(self):
        """A file is one image, and standard input of `merge` as many as it has."""
        one, two = Sketch(), Sketch()
        one.update_many(range(600))
        two.update_many(range(400, 1000))
        images = one.to_bytes() + two.to_bytes() + Sketch().to_bytes()
        self.write("both.hll", images)
        words = "another image begins at byte 4,136, after the image (hll merge - -o FILE merges all images of standard input)"
        self.assertEqual(self.run_hll("check", "both.hll"), (1, f"both.hll: {words}\n".encode(), ""))
        for command in ("info", "estimate", "fold --lg-k 10 -o -", "convert --width 4 -o -"):
            self.fails(1, [f"both.hll: {words}"], *command.split(), "both.hll")
        self.assertIn(f"both.hll: {words}\n", self.run_hll("merge", "-o", "-", "both.hll")[2])
        self.fails(1, [f"-: {words}"], "estimate", "-", given=images)
        self.assertEqual(Sketch.from_bytes(self.succeeds("merge", "-o", "-", "-", given=images)), one | two)
        status, out, err = self.run_hll("merge", "-o", "-", "-", given=images + b"\2\1")
        self.assertEqual((status, out), (1, b""))
        self.assertIn("- (image 4): image truncated (the bytes end inside what the header asks for)\n", err)
        status, out, err = self.run_hll("merge", "-o", "-", "-", given=images + bytes(1 << 20))
        self.assertEqual((status, out, err.count("(image ")), (1, b"", 1))

    def test_a_stream_is_cut_into_its_images(self):
        """Wherever a read ends, and however many images there are."""
        some = [sketch_of(range(count), 12, width).to_bytes() for count in (0, 3, 50, 300, 30_000) for width in (4, 8)]
        some.append(bytes.fromhex("0201070a03040008") + bytes(32))      # an empty list with its buckets
        numbers = random.Random(5)
        for most in (1, 7, 4096, 1 << 20):
            images = [numbers.choice(some) for _ in range(300 if most > 7 else 20)]
            stream = io.BytesIO(b"".join(images))
            self.assertEqual(list(files.images_in_stream(lambda size: stream.read(min(size, most)))), images)

    HEXADECIMAL = "it is text, the hexadecimal digits of an image (xxd -r -p makes bytes of them)"
    OTHERS = (
        (b"", "it is empty"), (b"no", TEXT), (b"7\n", TEXT), (b"\n", TEXT), (b"key\tvalue\r\n" * 9, TEXT),
        (b"{}", TEXT), ("h\u00e9, \u4e2d".encode(), TEXT), ("\u00e9".encode() * 40_000, TEXT), (b"0201080a", TEXT),
        (b"0201070a030801080500000c\n", HEXADECIMAL), (b"0A0107", HEXADECIMAL),
        (b"\x7fELF\2\1\1", "not an image (the family byte is 76, and not 7)"),
        (b"\xff\xfea\0b\0", "not an image (the family byte is 97, and not 7)"), (bytes(40), "not an image (the family byte is 0, and not 7)"),
        (b"\2", TRUNCATED), (b"\2\1", TRUNCATED), (b"\2\1\7", TRUNCATED), (b"\2\1\7\x0a\3\x08\1\x08\5", TRUNCATED),
        (b"\2\2\7\x0a\3\x08\1\x08\5\0\0\x0c", "image version (the serial version is not 1)"),
    )

    def test_what_else_a_file_is(self):
        """An empty file, a text, other bytes and an image that is cut are distinguished, by each command."""
        good = image_of(["abc"])
        self.write("good", good)
        for data, words in self.OTHERS:
            self.write("bad", data)
            for command in (["estimate", "bad"], ["info", "bad"], ["merge", "good", "bad", "-o", "x"], ["add", "bad"],
                            ["convert", "bad", "--width", 4, "-o", "x"], ["plot", "bad", "-o", "x.svg"]):
                self.fails(1, [f"bad: {words}"], *command)
            self.assertEqual(self.run_hll("check", "bad"), (1, f"bad: {words}\n".encode(), ""))
            self.assertEqual(self.run_hll("check", "-", given=data), (1, f"-: {words}\n".encode(), ""))
            found = json.loads(self.run_hll("check", "--json", "bad")[1])["refused"]
            self.assertEqual(found, [{"file": "bad", "reason": fault_of(data)}])
        self.fails(1, ["/dev/null: it is empty"], "estimate", "/dev/null")

    def test_none_is_refused(self):
        self.write("all/a", image_of(["abc"]))
        self.write("all/.hidden", b"no image")
        self.write("all/.folder/b", b"no image")
        self.write("all/c/d", image_of(["abc"]))
        os.mkfifo(self.folder / "all" / "pipe")
        (self.folder / "all" / "round").symlink_to("..")
        (self.folder / "all" / "link").symlink_to("a")
        err = "".join(f"hll: all/{name} (passed over)\n" for name in (
            "pipe: a FIFO", "round: a link to a directory"
        ))
        self.assertEqual(self.run_hll("check", "all"), (0, b"", err))
        given = self.read("all/a")
        status, out, told = self.run_hll("check", "--json", "all", "-", given=given)
        self.assertEqual((status, json.loads(out), told), (0, {"checked": 4, "refused": []}, err))

    def test_troubles(self):
        self.write("a", CUT)
        (self.folder / "empty").mkdir()
        status, out, err = self.run_hll("check", "none", "a")
        wanted = (2, b"a: " + TRUNCATED.encode() + b"\n", "hll: none: No such file or directory\n")
        self.assertEqual((status, out, err), wanted)
        self.fails(2, ["empty: no files in this directory"], "check", "empty")
        self.fails(2, ["check: no files are named"], "check")

    def test_names_of_any_bytes(self):
        name = b"a\xff\nb"
        with open(os.path.join(os.fsencode(self.folder), name), "wb") as file:
            file.write(CUT)
        status, out, _ = self.run_hll("check", ".")
        self.assertEqual((status, out), (1, rb"$'./a\377\nb': " + TRUNCATED.encode() + b"\n"))
        status, out, _ = self.run_hll("check", "--files-from", "-", "-0", given=name + b"\0")
        self.assertEqual((status, out), (1, rb"$'a\377\nb': " + TRUNCATED.encode() + b"\n"))
        json.loads(self.run_hll("check", ".", "--json")[1])


class OneFromAnotherTest(CommandTest):
    def test_fold_and_convert(self):
        for count in (3, 40, 30_000):
            made = sketch_of(range(count))
            self.write("a.hll", made.to_bytes())
            self.succeeds("fold", "a.hll", "--lg-k", 7, "-o", "b.hll", "--plain")
            self.assertEqual(self.read("b.hll"), made.fold(7).to_bytes(plain=True))
            out = self.succeeds("fold", "-", "--lg-k", 12, "-o", "-", given=self.read("a.hll"))
            self.assertEqual(out, made.to_bytes())
            for width in (4, 6, 8):
                self.succeeds("convert", "a.hll", "--width", width, "-o", "c.hll")
                self.assertEqual(self.read("c.hll"), made.convert(width).to_bytes())

    def test_words_of_others_are_kept(self):
        image = foreign(sketch_of(range(30_000)).to_bytes())
        self.write("a.hll", image)
        self.succeeds("convert", "a.hll", "--width", 6, "-o", "b.hll")
        self.assertEqual(self.read("b.hll")[8:32], image[8:32])
        self.assertEqual(self.read("b.hll"), Sketch.from_bytes(image).convert(6).to_bytes())

    def test_refusals(self):
        self.write("a.hll", image_of(["abc"]))
        words = "a.hll: its lg_k is 12, and a fold goes no higher"
        self.fails(1, [words], "fold", "a.hll", "--lg-k", 13, "-o", "b.hll")
        self.write("c.hll", b"\0" * 50)
        words = "c.hll: not an image (the family byte is 0, and not 7)"
        self.fails(1, [words], "convert", "c.hll", "--width", 4, "-o", "b.hll")
        self.assertEqual(self.listed(), ["a.hll", "c.hll"])


class MemoryTest(CommandTest):
    def ended(self, call, *words):
        """The status of a command while a call of the library lacks memory, and what it says."""
        err = io.StringIO()
        lacking = mock.patch.object(_library, call, side_effect=MemoryError)
        with lacking, mock.patch.object(cli, "_settled"), redirect_stderr(err):
            return cli.main(list(words)), err.getvalue()

    def test_refused_memory(self):
        a, b = (str(self.write(name, image_of(range(500)))) for name in ("a.hll", "b.hll"))
        out = str(self.folder / "c.hll")
        rows = [
            ("info", ["info", a], 1), ("estimation", ["estimate", a], 1), ("union", ["merge", a, b, "-o", out], 1),
            ("fold", ["fold", a, "--lg-k", "8", "-o", out], 1), ("convert", ["convert", a, "--width", "4", "-o", out], 1),
            ("agree", ["diff", a, b], 2),
        ]
        for call, words, status in rows:
            self.assertEqual(self.ended(call, *words), (status, "hll: an allocation failed\n"), words)
        self.assertEqual(self.listed(), ["a.hll", "b.hll"])


class DiffTest(CommandTest):
    def test_agree(self):
        self.write("a.hll", image_of(range(30_000), 12, 4))
        self.write("b.hll", image_of(range(30_000), 9, 8))
        self.write("c.hll", image_of(range(60), 12, 6))
        self.write("d.hll", image_of(range(60), 4, 8))
        self.assertEqual(self.succeeds("diff", "a.hll", "b.hll"), b"agree at lg_k 9\n")
        self.assertEqual(self.succeeds("diff", "c.hll", "d.hll"), b"agree at lg_k 4\n")
        self.assertEqual(self.succeeds("diff", "-q", "a.hll", "b.hll"), b"")
        told = json.loads(self.succeeds("diff", "--json", "a.hll", "a.hll"))
        self.assertEqual(told, {"agree": True, "lg_k": 12, "differing": 0, "slots": []})

    def test_differ(self):
        one, two = Sketch(10, 8), Sketch(8, 4)
        for slot, value in ((5, 3), (256 + 5, 9), (1000, 7), (70, 2)):
            one.add_coupon(slot, value)
        for slot, value in ((5, 8), (1000 % 256, 7), (70, 2), (80, 1)):
            two.add_coupon(slot, value)
        self.write("a.hll", one.to_bytes())
        self.write("b.hll", two.to_bytes())
        status, out, err = self.run_hll("diff", "a.hll", "b.hll")
        text = "differ at lg_k 8, in 2 of 256 slots\nslot 5: 9 and 8\nslot 80: 0 and 1\n"
        self.assertEqual((status, out.decode(), err), (1, text, ""))
        status, out, _ = self.run_hll("diff", "b.hll", "a.hll", "--most", 1)
        text = "differ at lg_k 8, in 2 of 256 slots\nslot 5: 8 and 9\nand 1 slots more\n"
        self.assertEqual((status, out.decode()), (1, text))
        status, out, _ = self.run_hll("diff", "--json", "--most", 1, "a.hll", "b.hll")
        wanted = {"agree": False, "lg_k": 8, "differing": 2}
        wanted["slots"] = [{"slot": 5, "left": 9, "right": 8}]
        self.assertEqual((status, json.loads(out)), (1, wanted))
        self.assertEqual(self.run_hll("diff", "-q", "a.hll", "b.hll"), (1, b"", ""))

    def test_trouble(self):
        self.write("a.hll", image_of(["abc"]))
        self.write("b.hll", CUT)
        self.fails(2, [f"b.hll: {TRUNCATED}"], "diff", "a.hll", "b.hll")
        self.fails(2, ["none: No such file or directory"], "diff", "none", "a.hll")


class LayoutTest(unittest.TestCase):
    def test_sizes(self):
        """An image ends where its size says, and what is after it changes no answer but `trailing`."""
        accepted = refused = 0

        def reason_of(data):
            reason = fault_of(data)
            return None if reason == "trailing" else reason

        for number, kind in enumerate(KINDS):
            mutants = Mutants(kind, 100 + number)
            for _ in range(1000):
                image = mutants.image()
                reason, longer = reason_of(image), image + bytes(1 << 12)
                self.assertEqual(reason_of(image[: layout.size_of(image)]), reason, image.hex())
                size = layout.size_of(longer)
                self.assertEqual(fault_of(longer[:size]), reason_of(longer), image.hex())
                if reason is None:
                    self.assertEqual(fault_of(image[: size - 1]), "truncated", image.hex())
                accepted, refused = accepted + (reason is None), refused + (reason is not None)
        self.assertGreater(min(accepted, refused), 1000)

    def test_registers(self):
        numbers = random.Random(8)
        for count in (0, 7, 20, 100, 5000):
            for width in (4, 6, 8):
                made, wanted = Sketch(11, width), [0] * 512
                for _ in range(count):
                    slot, value = numbers.getrandbits(26), numbers.randint(1, 63)
                    made.add_coupon(slot, value)
                    wanted[slot % 512] = max(wanted[slot % 512], value)
                self.assertEqual(list(layout.registers_of(made.to_bytes(), 9)), wanted)


STUB = """
import sys
class tqdm:
    def __init__(self, **more):
        self.number, self.total, self.more = 0, more["total"], more
    def update(self, number):
        self.number += number
    def close(self):
        sys.stderr.write(f"BAR {self.number} of {self.total} {self.more['unit']} {self.more['delay']}\\n")
"""


class OneReadingTest(CommandTest):
    """A command reads the bytes of a file once, as those of an untrusted image can be slow to read."""

    def setUp(self):
        super().setUp()
        written = image_of(range(100))
        coupons = [written[at : at + 4] for at in range(12, len(written), 4)]
        self.image = written[:12] + b"".join(reversed(coupons))  # not as the library writes it
        self.write("a.hll", self.image)

    def readings(self, *words):
        """How many calls of the library get the file's bytes."""
        count = [0]
        calls = vars(_library._library)

        def counting(call):
            def counted(*arguments):
                given = [one for one in arguments if isinstance(one, bytes)]
                count[0] += sum(self.image in one for one in given)
                return call(*arguments)

            return counted

        wrapped = {name: counting(call) for name, call in calls.items() if name != "hll_image_trailing"}     # it reads the head alone
        folder = os.getcwd()
        os.chdir(self.folder)
        try:
            with mock.patch.dict(calls, wrapped), redirect_stdout(io.StringIO()):
                self.assertEqual(cli._run([str(word) for word in words]), 0)
        finally:
            os.chdir(folder)
        return count[0]

    def test_commands(self):
        self.assertNotEqual(Sketch.from_bytes(self.image).to_bytes(), self.image)
        for words in (
            ("check", "a.hll"), ("estimate", "a.hll"), ("info", "a.hll"), ("info", "--json", "a.hll"),
            ("convert", "a.hll", "--width", 6, "-o", "b.hll"), ("fold", "a.hll", "--lg-k", 10, "-o", "c.hll"),
            ("plot", "a.hll", "-o", "a.svg"), ("diff", "a.hll", "b.hll"),
            ("merge", "a.hll", "-o", "d.hll"), ("merge", "a.hll", "--width", 4, "-o", "e.hll"),
        ):
            self.assertEqual(self.readings(*words), 1, words)


class OutputsTest(CommandTest):
    """A file that is read-only, or another user's, is replaced by force alone, and keeps its owner
    and its mode."""

    COMMANDS = (
        ["add", "a.svg"], ["merge", "b.hll", "-o", "a.svg"], ["plot", "b.hll", "-o", "a.svg"],
        ["fold", "b.hll", "--lg-k", 4, "-o", "a.svg"], ["convert", "b.hll", "--width", 4, "-o", "a.svg"],
    )

    def compare(self, words, uid, mode):
        for command in self.COMMANDS:
            self.write("b.hll", image_of(range(9)))
            path = self.write("a.svg", image_of(range(3)))
            os.chown(path, uid, uid)
            os.chmod(path, mode)
            before = path.read_bytes()
            self.fails(2, [f"a.svg: {words} (--force replaces it)"], *command, given=b"x\n")
            self.assertEqual(path.read_bytes(), before)
            self.succeeds(*command, "--force", given=b"x\n")
            self.assertNotEqual(path.read_bytes(), before)
            found = path.stat()
            self.assertEqual((found.st_uid, stat.S_IMODE(found.st_mode)), (uid, mode), command)
            path.unlink()

    def test_read_only(self):
        self.compare("it is read-only", os.geteuid(), 0o444)

    def test_another_user(self):
        if os.geteuid() != 0:
            self.skipTest("only root can give a file to another user")
        self.compare("it belongs to another user", 65534, 0o640)
        sketch, path = Sketch(), self.write("a.hll", Sketch().to_bytes())
        os.chown(path, 65534, 65534)
        sketch.write(path)
        self.assertEqual((path.stat().st_uid, path.stat().st_gid), (65534, 65534))

    def test_bits_that_a_write_clears(self):
        """A file that is replaced does not run as its owner or its group afterwards."""
        for mode in (0o4755, 0o2755, 0o6755):
            path = self.write("a.hll", image_of(range(3)))
            os.chmod(path, mode)
            self.succeeds("add", "a.hll", given=b"x\n")
            self.assertEqual(stat.S_IMODE(path.stat().st_mode), 0o755)

    def test_links_are_followed(self):
        """To the end, from folder to folder; what is a link stays one."""
        self.write("b.hll", image_of(range(9)))
        (self.folder / "sub").mkdir()
        for name, to in {"one": "sub/two", "sub/two": "../three", "three": "sub/file", "back": "."}.items():
            (self.folder / name).symlink_to(to)
        for name, end in (("one", "sub/file"), ("back/back/one", "sub/file"), ("back/c", "c")):
            self.succeeds("merge", "b.hll", "-o", name, "--width", 4)
            self.assertEqual(self.read(end), image_of(range(9), width=4))
            (self.folder / end).unlink()
        self.assertTrue(all((self.folder / name).is_symlink() for name in ("one", "sub/two", "three")))
        (self.folder / "x").symlink_to("y")
        (self.folder / "y").symlink_to("x")
        self.fails(2, ["x: Too many levels of symbolic links"], "merge", "b.hll", "-o", "x")

    def test_links_of_other_users(self):
        """One in a folder for all users is not followed, as where ``fs.protected_symlinks`` is set; one
        of one's own, or of the folder's owner, is."""
        if os.geteuid() != 0:
            self.skipTest("only root can make a link that belongs to another user")
        shared, target = self.folder / "shared", self.folder / "mine.svg"
        shared.mkdir()
        link, image = shared / "out.svg", image_of(range(9))
        self.write("b.hll", image)
        words = "Permission denied (another user made this symbolic link in a directory for all users)"
        commands_ = [*(command for command in self.COMMANDS if command[0] != "add"), ["new", "a.svg"],
                     ["add", "b.hll", "-o", "a.svg"]]
        for mode, owner, of_folder, is_followed in (
            (0o1777, 61234, 0, False), (0o1777, 61234, 61235, False), (0o1777, 61234, 61234, True),
            (0o1777, 0, 61235, True), (0o777, 61234, 0, True), (0o1775, 61234, 0, True),
        ):
            os.chown(shared, of_folder, 0)
            os.chmod(shared, mode)
            for path, end in ((link, target), (self.folder / "first.svg", target), (shared / "down" / "mine.svg", target)):
                if path.parent.name == "down":
                    link.symlink_to(self.folder)        # a folder on the way
                    os.lchown(link, owner, owner)
                    path = link / "mine.svg"
                elif path != link:
                    path.symlink_to("shared/out.svg")
                if path.parent != link:
                    link.symlink_to(target)
                    os.lchown(link, owner, owner)
                for command in commands_:
                    target.write_bytes(b"precious")
                    named = [str(path) if word == "a.svg" else word for word in command] + ["--force"]
                    found = self.run_hll(*named)
                    if is_followed:
                        self.assertEqual(found, (0, b"", ""), named)
                        self.assertNotEqual(target.read_bytes(), b"precious")
                    else:
                        self.assertEqual(found, (2, b"", f"hll: {path}: {words}\n"), named)
                        self.assertEqual(target.read_bytes(), b"precious")
                if not is_followed:
                    with self.assertRaises(PermissionError) as caught:
                        Sketch().write(path)
                    self.assertEqual(caught.exception.filename, str(path))
                if path.parent != link:
                    path.unlink(missing_ok=True)
                link.unlink(missing_ok=True)

    def test_a_read_only_file_system(self):
        self.write("b.hll", image_of(range(9)))
        status = mock.Mock(f_flag=os.ST_RDONLY)
        with mock.patch.object(os, "access", return_value=False), \
                mock.patch.object(os, "statvfs", return_value=status):
            for name, words in (("a.hll", "Read-only file system"), ("none/a.hll", "No such file or directory")):
                with self.assertRaises(files.Trouble) as caught:
                    files.check_output(str(self.folder / name))
                self.assertEqual((caught.exception.words, caught.exception.status), (words, 2))
            status.f_flag = 0
            with self.assertRaises(files.Trouble) as caught:
                files.check_output(str(self.folder / "a.hll"))
            self.assertEqual(caught.exception.words, "Permission denied")
        made = "mount -t tmpfs -o ro tmpfs . && cd . "
        words = ["unshare", "-m", "sh", "-c", f'cd "$0" && {made} && cd "$0" && exec "$@"', str(self.folder)]
        if os.geteuid() == 0 and subprocess.run([*words, "true"], capture_output=True).returncode == 0:
            done = subprocess.run([*words, *COMMAND, "new", "a.hll"], env=environment(), capture_output=True)
            self.assertEqual((done.returncode, done.stderr), (2, b"hll: a.hll: Read-only file system\n"))

    def test_errors_name_the_file(self):
        """The one that was given, and no other."""
        for name in ("none/a.hll", "."):
            for call in (Sketch().write, Sketch.read):
                path = str(self.folder / name)
                with self.assertRaises(OSError) as caught:
                    call(path)
                self.assertEqual((caught.exception.filename, caught.exception.filename2), (path, None))
        with self.assertRaises(OSError) as caught:
            Sketch().write("/dev/full")
        self.assertEqual(str(caught.exception), "[Errno 28] No space left on device: '/dev/full'")


class StreamsTest(CommandTest):
    def test_full_disk(self):
        """Told once, whether what is printed is kept until the end or not."""
        self.write("a.hll", image_of(range(30_000)))
        words = "hll: standard output: No space left on device\n"
        commands = [["info", "a.hll", "a.hll"], ["info", "--json", "a.hll"],
                    ["convert", "a.hll", "--width", "4", "-o", "-"]]
        for command, unbuffered in product(commands, ("", "1")):
            with self.subTest(command=command), open("/dev/full", "wb") as full:
                done = subprocess.run(
                    [*COMMAND, *command], stdout=full, stderr=subprocess.PIPE, cwd=self.folder,
                    env=environment(PYTHONUNBUFFERED=unbuffered),
                )
                self.assertEqual((done.returncode, done.stderr.decode()), (2, words))

    def test_a_pipe_stays_a_pipe(self):
        """What is no plain file is written into, and not replaced."""
        os.mkfifo(self.folder / "pipe")
        place = os.open(self.folder / "pipe", os.O_RDWR)
        self.addCleanup(os.close, place)
        self.succeeds("new", "pipe", "--force", "--lg-k", 7)
        self.assertTrue(stat.S_ISFIFO(os.stat(self.folder / "pipe").st_mode))
        os.set_blocking(place, False)
        self.assertEqual(os.read(place, 100), Sketch(7).to_bytes())

    def test_closed_pipe(self):
        self.write("a.hll", image_of(["abc"]))
        read, write = os.pipe()
        os.close(read)
        done = subprocess.run(
            [*COMMAND, "info", "a.hll"], stdout=write, stderr=subprocess.PIPE, cwd=self.folder,
            env=environment(),
        )
        os.close(write)
        self.assertEqual((done.returncode, done.stderr), (-signal.SIGPIPE, b""))

    def test_a_write_that_fails_leaves_the_file(self):
        self.write("a.hll", image_of(range(30_000), 14))
        before = self.write("b.hll", b"as it was").read_bytes()

        def limited():
            resource.setrlimit(resource.RLIMIT_FSIZE, (4096, 4096))

        words = ["convert", "a.hll", "--width", "4", "-o", "b.hll"]
        found = self.run_hll(*words, preexec_fn=limited)
        self.assertEqual(found, (2, b"", "hll: b.hll: File too large\n"))
        self.assertEqual((self.read("b.hll"), self.listed()), (before, ["a.hll", "b.hll"]))

    def test_few_bytes_of_a_large_file_are_read(self):
        image = image_of(range(300_000), 17)
        path = self.write("a.hll", image + bytes(3_000_000))
        data = files.bytes_of_file(str(path))
        self.assertEqual((data, len(data) > files.PIECE), (image + bytes(files.MORE), True))
        self.assertEqual(len(files.bytes_of_file("/dev/zero")), files.PIECE)

    def seen(self, words, given=None, **more):
        """The status of a command, and what a terminal is shown on standard error."""
        try:
            leader, terminal = os.openpty()
        except OSError as why:
            self.skipTest(f"no terminal can be opened here, as without /dev/pts ({why.strerror})")
        with open(given or os.devnull, "rb") as stdin:
            done = subprocess.run(words, stdin=stdin, stdout=subprocess.DEVNULL, stderr=terminal, cwd=self.folder,
                                  env=dict(environment(), **more))
        os.set_blocking(leader, False)
        os.close(terminal)
        try:
            shown = os.read(leader, 1 << 16)
        except OSError:     # nothing was written, and nobody is left to write
            shown = b""
        os.close(leader)
        return done.returncode, shown

    def test_where_no_terminal_is(self):
        """As in a root without /dev/pts."""
        with mock.patch.object(os, "openpty", side_effect=OSError(errno.ENODEV, "No such device")), \
                self.assertRaisesRegex(unittest.SkipTest, "/dev/pts"):
            self.seen(["true"])

    def test_progress(self):
        """A bar is shown where standard error is a terminal and tqdm is there, with the total."""
        self.write("stub/tqdm.py", STUB.encode())
        self.write("all/a", image_of(["abc"]))
        self.write("all/b", image_of(["def"]))
        lines = self.write("lines", b"a\tx\n" * 1000)
        path = os.pathsep.join([str(self.folder / "stub"), str(common.PACKAGE)])
        for command, bars, given in (
            ("check all", ["2 of 2 file"], None), ("merge all -o x", ["2 of 2 file"], None),
            ("info all/a all/b", ["2 of 2 file"], None), ("estimate all/a all/b all/a", ["3 of 3 file"], None),
            ("add all/a", ["4000 of 4000 B"], lines), ("add all/a lines lines", ["8000 of 8000 B"], None),
            ("add --db e.db --key key=1 --value 2", ["4000 of 4000 B"], lines), ("merge e.db e.db -o e.db", ["2 of 2 file"], None),
            ("count lines", ["4000 of 4000 B"], None),
        ):
            wanted = "".join(f"BAR {bar} 1.0\r\n" for bar in bars).encode()
            self.assertEqual(self.seen([*COMMAND, *command.split()], given, PYTHONPATH=path), (0, wanted), command)
            with open(given or os.devnull, "rb") as stdin:
                quiet = subprocess.run([*COMMAND, *command.split()], stdin=stdin, stdout=subprocess.DEVNULL,
                                       stderr=subprocess.PIPE, cwd=self.folder, env=dict(environment(), PYTHONPATH=path))
            self.assertEqual((quiet.returncode, quiet.stderr), (0, b""))
        call = [sys.executable, "-c", "from hll_sketches import merge_files; merge_files(['all'])"]
        self.assertEqual(self.seen(call, PYTHONPATH=path), (0, b"BAR 2 of 2 file 1.0\r\n"))
        self.assertEqual(subprocess.run(call, cwd=self.folder, env=environment(), capture_output=True).stderr, b"")

    def test_progress_of_a_pipe(self):
        """Of lines whose number is not known."""
        self.write("stub/tqdm.py", STUB.encode())
        path = os.pathsep.join([str(self.folder / "stub"), str(common.PACKAGE)])
        self.write("a.hll", Sketch().to_bytes())
        words = ["sh", "-c", "seq 30 | " + " ".join([*COMMAND, "add a.hll"])]
        self.assertEqual(self.seen(words, PYTHONPATH=path), (0, b"BAR 30 of None line 1.0\r\n"))

    def test_progress_without_tqdm(self):
        """A line is written again now and then, and cleared; nothing within the first second."""
        self.write("all/a", image_of(["abc"]))
        self.write("all/b", image_of(["def"]))
        place = "import sys; sys.modules['tqdm'] = None; from hll_sketches import progress; %s; " \
            "from hll_sketches.__main__ import main; sys.exit(main())"
        at_once = [sys.executable, "-c", place % "progress.DELAY = progress.PAUSE = 0", "check", "all"]
        clear = b"\r\x1b[K"
        wanted = clear + b"1 of 2 files, 50 %" + clear + b"2 of 2 files, 100 %" + clear
        self.assertEqual(self.seen(at_once), (0, wanted))
        self.assertEqual(self.seen([sys.executable, "-c", place % "pass", "check", "all"]), (0, b""))
        lines = self.write("lines", b"a\n" * 2_500_000)
        at_once[-2:] = ["add", "all/a"]
        status, shown = self.seen(at_once, lines)
        self.assertTrue(shown.endswith(clear + b"5 of 5 MB, 100 %" + clear), shown)
        call = "import sys; sys.modules['tqdm'] = None; from hll_sketches import merge_files, progress; " \
            "progress.DELAY = 0; merge_files(['all'])"
        self.assertEqual(self.seen([sys.executable, "-c", call]), (0, b""))


if __name__ == "__main__":
    unittest.main()
