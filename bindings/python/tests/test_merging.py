# SPDX-License-Identifier: Apache-2.0
"""`hll merge`: its answer is that of the program, and what is refused is named."""
import json
import os
import pathlib
import random
import resource
import shutil
import signal
import subprocess
import sys
import time
import unittest
from unittest import mock

import common
from command import COMMAND, CUT, CommandTest, TEXT, TRUNCATED, environment, interruptible, other_user
from hll_sketches import ArgumentError, Sketch, _library, _workers, files, merging, union_of
from tap import HUNG

FILES = 300
COUNTS = (0, 1, 8, 9, 40, 3000, 20_000)


def images():
    """Images of every stage and width, and of lg_k from 8 to 14."""
    numbers, made = random.Random(11), []
    for number in range(FILES):
        sketch = Sketch(8 + number % 7, (4, 6, 8)[number % 3])
        first = numbers.randrange(100_000)
        sketch.update_many(range(first, first + COUNTS[number // 7 % 7]))
        made.append(sketch.to_bytes())
    return made


IMAGES = images()
LARGE = [image for image in IMAGES if image[3] == 14]
KINDS = {(one.stage, one.width) for one in map(Sketch.from_bytes, IMAGES)}


def program_union(program, made, lg_k, width):
    """What the program answers for a plan of one union."""
    lines = ["image " + image.hex() for image in made] + [f"union {len(made)} {lg_k} {width}"]
    plan = "\n".join(lines).encode()
    done = subprocess.run([program], input=plan, stdout=subprocess.PIPE, check=True)
    return bytes.fromhex(done.stdout.decode())


def bound_line(lg_max_k=12):
    """What a merge of all images says where the bound is above the lg_k of its answer."""
    line = f"hll: merge: the result has lg_k 8, as a file has, and not {lg_max_k}\n"
    return line if lg_max_k > 8 else ""


class LaidOut(CommandTest):
    def lay_out(self, made=IMAGES):
        """The images as files in folders; their names in order."""
        names = [f"all/{number % 4}/{number:04}.hll" for number in range(len(made))]
        for name, image in zip(names, made):
            self.write(name, image)
        return names


class MergeTest(LaidOut):
    def test_as_the_program_answers(self):
        program = common.program()
        if program is None:
            self.skipTest("the program hll_merge is not here")
        self.assertEqual(len(KINDS), 9)
        self.lay_out()
        for jobs, lg_k, width in ((1, 12, 8), (3, 12, 8), (3, 9, 4), (1, 7, 6)):
            options = ["--jobs", jobs, "--lg-k", lg_k, "--width", width]
            wanted = program_union(program, IMAGES, lg_k, width)
            with self.subTest(options=options):
                err = bound_line(lg_k)
                told = self.run_hll("merge", "all", "-o", "one.hll", "--plain", *options)
                self.assertEqual((told, self.read("one.hll")), ((0, b"", err), wanted))
                with_words = Sketch.from_bytes(wanted).to_bytes()
                told = self.run_hll("merge", "all", "-o", "-", *options)
                self.assertEqual(told, (0, with_words, err))
                self.assertNotEqual(with_words, wanted)

    def test_of_coupons_alone(self):
        made = [image for image in IMAGES if image[7] & 3 != 2][:40]
        small = [Sketch(12).to_bytes(), *made]
        self.lay_out(small)
        wanted = union_of(small, 21, 4)
        self.assertEqual(wanted.stage, "set")
        self.succeeds("merge", "all", "-o", "one.hll", "--lg-k", 21, "--width", 4)
        self.assertEqual(self.read("one.hll"), wanted.to_bytes())

    def test_groups_over_processes_make_no_difference(self):
        names = [str(self.folder / name) for name in self.lay_out()]
        wanted = union_of(IMAGES, 11, 6).to_bytes()
        for group, batch, jobs in ((1, 1, 2), (7, 5000, 3), (299, 1 << 30, 3), (50, 1, 1)):
            told = []
            with mock.patch.object(merging, "GROUP", group), \
                    mock.patch.object(merging, "BATCH_BYTES", batch):
                found = merging.union_of_files(
                    names, 11, 6, jobs, self.fail, told.append
                )
            self.assertEqual(found[:2], (wanted, FILES))
            self.assertEqual((sum(told), len(told)), (FILES, -(-FILES // group)))

    def test_memory_is_bounded(self):
        """No call gets more bytes than a batch and an image."""
        made = [sketch.to_bytes() for sketch in map(Sketch.from_bytes, LARGE) if sketch.width == 8]
        names, sizes = [str(self.folder / name) for name in self.lay_out(made * 20)], []
        union = _library.union

        def measured(lg_k, width, images):
            sizes.append(sum(map(len, images)))
            return union(lg_k, width, images)

        with mock.patch.object(merging, "BATCH_BYTES", 30_000), \
                mock.patch.object(_library, "union", measured):
            merging.union_of_files(names, 12, 8, 1, self.fail)
        self.assertGreater(sum(sizes), 300_000)
        self.assertLess(max(sizes), 30_000 + max(map(len, made)))

    def test_processes_have_the_work(self):
        """More than a group of files, with standard input among them, and refusals in order."""
        names = self.lay_out() * 5
        self.write("bad", CUT)
        self.write("list", "".join(f"{name}\n" for name in [*names, "bad"]).encode())
        wanted = union_of(IMAGES, 12).to_bytes()
        extra = Sketch()
        extra.update_many(range(10**9, 10**9 + 9999))
        words = ["merge", "-", "--files-from", "list", "-o", "one.hll", "--jobs", 3, "--skip-bad"]
        words += ["--lg-k", 12]
        status, out, err = self.run_hll(*words, "--json", given=extra.to_bytes())
        lines = f"hll: bad: {TRUNCATED} (left out)\n" + bound_line()
        self.assertEqual((status, err), (0, lines))
        told = json.loads(out)
        self.assertEqual((told["merged"], len(told["left_out"])), (5 * FILES + 1, 1))
        both = union_of([*IMAGES, extra], 12).to_bytes()
        self.assertEqual(self.read("one.hll"), both)
        self.assertNotEqual(both, wanted)

    def test_a_process_that_is_lost(self):
        names = [str(self.folder / name) for name in self.lay_out(IMAGES[:9])]
        with mock.patch.object(merging, "GROUP", 1), \
                mock.patch.object(merging, "_Files", lambda lg_max_k: os._exit(3)), \
                self.assertRaises(files.Trouble) as caught:
            merging.union_of_files(names, 12, 8, 2, self.fail)
        words = "merge: a process ended before its work was done"
        self.assertEqual((str(caught.exception), caught.exception.status), (words, 2))

    def test_limits_of_files_and_processes(self):
        """Where not all processes can be started, fewer do the work, and that is said."""
        self.write("list", "".join(f"{name}\n" for name in self.lay_out() * 4).encode())
        os.chmod(self.folder, 0o777)
        wanted = union_of(IMAGES, 12).to_bytes()
        user = other_user() or []       # no limit of processes holds for root
        words = ["merge", "--files-from", "list", "-o", "one.hll", "--lg-k", 12, "--jobs"]
        for kind, limit, jobs, before in (
            (resource.RLIMIT_NOFILE, 12, 2, []), (resource.RLIMIT_NOFILE, 16, 4, []),
            (resource.RLIMIT_NOFILE, 16, 40, []), (resource.RLIMIT_NOFILE, 64, 40, []),
            (resource.RLIMIT_NPROC, 1, 2, user), (resource.RLIMIT_NPROC, 3, 8, user),
            (resource.RLIMIT_NPROC, 8, 8, user), (resource.RLIMIT_NPROC, 8, 40, user),
        ):
            if kind == resource.RLIMIT_NPROC and not before and os.geteuid() == 0:
                self.skipTest("another user can't run Python here")

            def limited():
                resource.setrlimit(kind, (limit, limit))

            with self.subTest(kind=kind, limit=limit, jobs=jobs):
                found = self.run_hll(*words, jobs, before=before, preexec_fn=limited)
                self.assertEqual(found[:2], (0, b""), found)
                words_of = "Too many open files|Resource temporarily unavailable"
                few = f"hll: merge: only [0-9]+ of {jobs} processes can be used: ({words_of})\n"
                self.assertRegex(found[2], f"^{few}{bound_line()}$")
                self.assertEqual(self.read("one.hll"), wanted)
                os.remove(self.folder / "one.hll")

    def test_limits_in_a_program(self):
        """``merge_files`` goes on with fewer processes too, and warns."""
        names = [str(self.folder / name) for name in self.lay_out()] * 4
        script = "\n".join((
            "import resource, sys, warnings",
            "from hll_sketches import merge_files",
            "resource.setrlimit(resource.RLIMIT_NOFILE, (16, 16))",
            "with warnings.catch_warnings(record=True) as told:",
            "    warnings.simplefilter('always')",
            "    made = merge_files(sys.stdin.read().split(), 12, jobs=20)",
            "print(made.to_bytes().hex(), *[str(one.message) for one in told])",
        ))
        done = subprocess.run(
            [sys.executable, "-c", script], input=" ".join(names), capture_output=True, text=True,
            env=environment(), timeout=HUNG,
        )
        words = "merge: only [0-9]+ of 20 processes can be used: Too many open files"
        wanted = union_of(IMAGES, 12).to_bytes().hex()
        self.assertRegex(done.stdout, f"^{wanted} {words}\n$", done.stderr)

    def test_jobs(self):
        """Of a program: a number of 1 or more; a daemon, which may start no process, merges alone and says so."""
        names = [str(self.folder / name) for name in self.lay_out()] * 4
        for wrong, kind in ((0, ArgumentError), (-3, ArgumentError), (None, TypeError), ("2", TypeError)):
            self.assertRaises(kind, merging.merge_files, names, 12, jobs=wrong)
        wanted = union_of(IMAGES, 12).to_bytes()
        told = []
        with mock.patch.object(merging, "current_process", return_value=mock.Mock(daemon=True)):
            found = merging.union_of_files(names, 12, None, 4, self.fail, note=told.append)
        self.assertEqual((found.image, len(told)), (wanted, 1))

    def test_results_stay_in_order(self):
        """Whichever process is done first, and with some tasks in this process."""
        def slowly(number):
            time.sleep(0.02 if number % 3 == 0 else 0)
            if number == 77:
                raise ValueError(number)
            return number, os.getpid() == here

        here = os.getpid()
        with _workers.Workers(slowly, 3) as workers:
            found = list(workers.results(range(50), lambda number: number % 7 == 0))
        self.assertEqual(found, [(number, number % 7 == 0) for number in range(50)])
        with _workers.Workers(slowly, 3) as workers:
            results, found = workers.results(range(70, 90), lambda number: False), []
            with self.assertRaises(ValueError) as caught:
                for number, _ in results:
                    found.append(number)
        self.assertEqual((found, caught.exception.args), (list(range(70, 77)), (77,)))

    def test_lists_of_names(self):
        names = self.lay_out(IMAGES[:20])
        wanted = union_of(IMAGES[:20], 10).to_bytes()
        for end, more in (("\n", []), ("\0", ["-0"])):
            given = end.join(names).encode()
            words = ["merge", "--files-from", "-", *more, "-o", "-", "--lg-k", 10]
            self.assertEqual(self.run_hll(*words, given=given)[:2], (0, wanted))
        words = ["none: No such file or directory"]
        self.fails(2, words, "merge", "--files-from", "none", "-o", "x")


class RefusalsTest(LaidOut):
    BAD = [b"", b"no", b"\2\1\3" + bytes(40), IMAGES[-1][:-1], b"text that is no image\n" * 9]

    def lay_out_bad(self):
        """Files of which some are bad; the lines that tell of these."""
        good = IMAGES[:60]
        self.lay_out(good)
        words = ("it is empty", TEXT, "not an image (the family byte is 3, and not 7)", TRUNCATED, TEXT)
        lines = []
        for number, (data, why) in enumerate(zip(self.BAD, words)):
            self.write(f"all/1/bad{number}", data)
            lines.append(f"all/1/bad{number}: {why}")
        return lines, union_of(good, 12).to_bytes()

    def test_all_bad_files_are_named(self):
        lines, _ = self.lay_out_bad()
        self.write("one.hll", b"as it was")
        for jobs in (1, 3):
            self.fails(1, lines, "merge", "all", "-o", "one.hll", "--lg-k", 12, "--jobs", jobs)
        self.assertEqual((self.read("one.hll"), self.listed()), (b"as it was", ["all", "one.hll"]))
        lines.insert(0, "none: No such file or directory")
        self.fails(2, lines, "merge", "none", "all", "-o", "one.hll", "--lg-k", 12)
        self.assertEqual(self.read("one.hll"), b"as it was")

    def test_skip_bad(self):
        lines, wanted = self.lay_out_bad()
        lines = ["none: No such file or directory", *lines]
        left = [f"{line} (left out)" for line in lines]
        words = ["merge", "none", "all", "--skip-bad", "--lg-k", 12, "-o"]
        err = "".join(f"hll: {line}\n" for line in left) + bound_line()
        self.assertEqual(self.run_hll(*words, "one.hll"), (0, b"", err))
        self.assertEqual(self.read("one.hll"), wanted)
        status, out, _ = self.run_hll(*words, "two.hll", "--json")
        told = json.loads(out)
        self.assertEqual((status, told["merged"], told["bytes"]), (0, 60, len(wanted)))
        found = [f"{one['file']}: {one['reason']}" for one in told["left_out"]]
        self.assertEqual(found, lines)

    def test_ten_bad_files_of_five_thousand(self):
        made = [IMAGES[number % FILES] for number in range(5000)]
        bad = range(250, 5000, 500)
        for number in bad:
            made[number] = made[number][:7]
        names = self.lay_out(made)
        lines = [f"{name}: {TRUNCATED}" for name in sorted(names[number] for number in bad)]
        self.fails(1, lines, "merge", "all", "-o", "one.hll", "--lg-k", 12)
        self.assertEqual(self.listed(), ["all"])
        err = "".join(f"hll: {line} (left out)\n" for line in lines)
        err += bound_line()
        for jobs in (1, 4):
            words = ("merge", "all", "--skip-bad", "-o", "one.hll", "--jobs", jobs, "--lg-k", 12)
            self.assertEqual(self.run_hll(*words), (0, b"", err))
            self.assertEqual(self.read("one.hll"), union_of(IMAGES, 12).to_bytes())

    def test_nothing_to_merge(self):
        self.write("bad", CUT)
        (self.folder / "empty").mkdir()
        words = [f"bad: {TRUNCATED} (left out)", "merge: no image is left to merge"]
        self.fails(1, words, "merge", "bad", "--skip-bad", "-o", "one.hll")
        self.fails(2, ["empty: no files in this directory"], "merge", "empty", "-o", "one.hll")
        self.fails(2, ["merge: no files are named"], "merge", "-o", "one.hll")
        self.fails(2, ["merge: no image is left to merge"], "merge", "--files-from", "-", "-o", "x")
        self.assertEqual(self.listed(), ["bad", "empty"])

    def test_outputs_that_cannot_be_written(self):
        self.write("a.hll", IMAGES[0])
        (self.folder / "folder").mkdir()
        for name in ("a.hll", "gone.hll"):
            self.fails(2, ["folder: Is a directory"], "merge", name, "-o", "folder")
            self.fails(2, ["none/x: No such file or directory"], "merge", name, "-o", "none/x")
        self.assertEqual(self.listed(), ["a.hll", "folder"])
        self.assertEqual(os.listdir(self.folder / "folder"), [])

    def started(self):
        """A merge over processes, in a group of its own, which waits for more names."""
        names = self.lay_out()
        self.write("one.hll", b"as it was")
        words = ["--files-from", "-", "--jobs", "3", "--lg-k", "12", "-o", "one.hll"]
        command = [*COMMAND, "merge", *words]
        running = subprocess.Popen(
            command, stdin=subprocess.PIPE, stdout=subprocess.PIPE, stderr=subprocess.PIPE,
            cwd=self.folder, env=environment(), start_new_session=True, preexec_fn=interruptible,
        )
        running.stdin.write("".join(f"{name}\n" for name in names * 20).encode())
        running.stdin.flush()
        children = pathlib.Path(f"/proc/{running.pid}/task/{running.pid}/children")
        end = time.monotonic() + 20
        while len(children.read_text().split()) < 3 and time.monotonic() < end:
            time.sleep(0.001)
        self.assertEqual(len(children.read_text().split()), 3)
        return running

    def ended(self, running, status):
        """Nothing is said or written, and no process is left."""
        try:
            out, err = running.communicate(timeout=HUNG)
        except subprocess.TimeoutExpired:
            os.killpg(running.pid, signal.SIGKILL)
            raise
        self.assertEqual((running.returncode, out, err), (status, b"", b""))
        self.assertEqual((self.read("one.hll"), self.listed()), (b"as it was", ["all", "one.hll"]))
        end = time.monotonic() + 20
        while time.monotonic() < end:
            try:
                os.killpg(running.pid, 0)
            except ProcessLookupError:
                return
            time.sleep(0.01)
        self.fail("a process is left")

    def test_interrupt(self):
        running = self.started()
        os.killpg(running.pid, signal.SIGINT)
        self.ended(running, -signal.SIGINT)

    def test_end_of_the_parent(self):
        for end in (signal.SIGTERM, signal.SIGKILL):
            running = self.started()
            running.send_signal(end)
            self.ended(running, -end)


STAND_IN = f"""#!{sys.executable}
import sys
sys.dont_write_bytecode = True
sys.path.insert(0, {str(common.ROOT / "tests")!r})
from plain_plans import answer_of
answer = answer_of(sys.stdin.buffer.read())
is_refused = answer.startswith("line ")
print(answer, file=sys.stderr if is_refused else sys.stdout)
sys.exit(is_refused)
"""
"""What hll_merge does, by the plain model of plans."""


class ScriptTest(LaidOut):
    """The scripts of examples/. The words, which merge_folder.sh sets at its end, are left out."""

    def setUp(self):
        super().setUp()
        shutil.copytree(common.ROOT / "examples", self.folder / "examples")
        (self.folder / "bin").mkdir()
        self.write("bin/hll_estimator_fields", b"#!/bin/sh\nexec cat\n").chmod(0o755)
        program = common.program()
        if program is None:
            self.write("bin/hll_merge", STAND_IN.encode()).chmod(0o755)
        else:
            (self.folder / "bin" / "hll_merge").symlink_to(program)

    def run_script(self, *words, given=b""):
        """The status, and what a script writes to standard output and standard error."""
        done = subprocess.run(
            [f"examples/{words[0]}", *map(str, words[1:])], input=given, capture_output=True,
            cwd=self.folder,
        )
        return done.returncode, done.stdout, done.stderr.decode()

    def merge_folder(self, *words):
        if shutil.which("xxd") is None:
            self.skipTest("xxd is not here")
        return self.run_script("merge_folder.sh", *words)

    def test_merge_folder(self):
        self.lay_out(LARGE[1:])
        self.write("all/a name with spaces", LARGE[0])
        wanted = union_of(LARGE, 13, 6).to_bytes(plain=True)
        for files_in_group in (7, 100):
            self.assertEqual(self.merge_folder("all", 13, 6, files_in_group), (0, wanted, ""))
        options = ["--plain", "--lg-k", 13, "--width", 6]
        self.assertEqual(self.succeeds("merge", "all", "-o", "-", *options), wanted)
        self.assertEqual(self.merge_folder("all")[1], union_of(LARGE, 12, 8).to_bytes(plain=True))

    def test_merge_folder_names_a_bad_file_of_each_group(self):
        """The first, the last and one in the midst of a group; nothing is printed then."""
        bad = {3: b"", 8: b"no", 14: b"\2\1\3" + bytes(40), 20: IMAGES[20][:-1]}
        names = [f"all/{number:02} x" for number in range(25)]
        for number, name in enumerate(names):
            self.write(name, bad.get(number, IMAGES[number]))
        reasons = {3: "truncated", 8: "truncated", 14: "family", 20: "truncated"}
        wanted = sorted(f"{names[number]}: image {word}\n" for number, word in reasons.items())
        status, out, err = self.merge_folder("all", 12, 8, 5)
        self.assertEqual((status, out, sorted(err.splitlines(True))), (1, b"", wanted))
        status, out, err = self.merge_folder("all", 12, 8, 500)
        self.assertEqual((status, out, err), (1, b"", f"{names[3]}: image truncated\n"))
        os.remove(self.folder / names[3])
        self.assertEqual(self.merge_folder("all")[2], f"{names[8]}: image truncated\n")

    def test_merge_folder_of_nothing(self):
        self.assertEqual(self.merge_folder("none")[:2], (2, b""))
        (self.folder / "none").mkdir()
        self.assertEqual(self.merge_folder("none"), (0, Sketch(12).to_bytes(), ""))

    def test_merge_lines(self):
        """Its answers are its own input again."""
        lines = [f"image {image.hex()}\n".encode() for image in LARGE]
        groups = [b"".join(lines[:13]), b"".join(lines[13:])]
        answers = [self.run_script("merge_lines.sh", 11, 4, given=group) for group in groups]
        self.assertEqual({(status, err) for status, _, err in answers}, {(0, "")})
        status, out, err = self.run_script("merge_lines.sh", 11, 4, given=b"".join(
            answer for _, answer, _ in answers
        ))
        wanted = f"image {union_of(LARGE, 11, 4).to_bytes(plain=True).hex()}\n".encode()
        self.assertEqual((status, out, err), (0, wanted, ""))
        wanted = f"image {union_of(LARGE[:13], 12, 8).to_bytes(plain=True).hex()}\n".encode()
        self.assertEqual(self.run_script("merge_lines.sh", given=groups[0]), (0, wanted, ""))

    def test_merge_lines_refuses(self):
        line = f"image {IMAGES[5].hex()}\n".encode()
        found = self.run_script("merge_lines.sh", given=line + b"image 00\n" + line)
        self.assertEqual(found, (1, b"", "line 2: image truncated\n"))


if __name__ == "__main__":
    unittest.main()
