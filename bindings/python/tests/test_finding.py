# SPDX-License-Identifier: Apache-2.0
"""Which files are found: below folders of any depth, and in lists; and how names are printed."""
import json
import os
import shutil
import socket
import subprocess
import time
import unittest
from unittest import mock

import common  # noqa: F401, for the path
from command import COMMAND, CUT, CommandTest, TRUNCATED, environment, other_user
from hll_sketches import ImageError, Sketch, files, finding, merge_files
from hll_sketches._names import shown
from tap import HUNG


def sketch(*values):
    made = Sketch()
    made.update_many(values)
    return made


IMAGE = sketch("ann").to_bytes()


class FoldersTest(CommandTest):
    def test_what_is_passed_over_is_named(self):
        os.makedirs(self.folder / "all" / "sub")
        for name in ("all/a", "all/sub/b", "other/c", "all/.hidden/d"):
            self.write(name, IMAGE)
        os.mkfifo(self.folder / "all" / "fifo")
        os.mkfifo(self.folder / "all" / ".fifo")
        listening = socket.socket(socket.AF_UNIX)
        self.addCleanup(listening.close)
        listening.bind(str(self.folder / "all" / "socket"))
        links = {"folder": "../other", "gone": "nowhere", "round": "round", "null": os.devnull,
                 "sub/pipe": "../fifo", "file": "a", "through": "a/b"}
        for name, to in links.items():
            (self.folder / "all" / name).symlink_to(to)
        wanted = {"fifo": "a FIFO", "socket": "a socket", "folder": "a link to a directory",
                  "gone": "a link that leads nowhere", "round": "a link that leads nowhere",
                  "null": "a link to a device", "sub/pipe": "a link to a FIFO",
                  "through": "a link that leads nowhere"}
        lines = sorted(f"hll: all/{name}: {what} (passed over)\n" for name, what in wanted.items())
        status, out, err = self.run_hll("check", "all", "--json")
        self.assertEqual((status, json.loads(out)["checked"]), (0, 3))
        self.assertEqual(err, "".join(lines))
        for words in ([], ["--skip-bad"]):
            status, _, err = self.run_hll("merge", "all", "-o", "one.hll", *words)
            self.assertEqual((status, err), (0, "".join(lines)))

    def test_names_of_the_command_line_are_followed(self):
        self.write("other/c", IMAGE)
        (self.folder / "link").symlink_to("other")
        self.succeeds("merge", "link", "-o", "one.hll")
        self.assertEqual(self.read("one.hll"), IMAGE)

    def test_what_cannot_be_read(self):
        """A folder, as the system refuses it to one who is not root; and files."""
        for name in ("all/a", "all/b/c", "all/d"):
            self.write(name, IMAGE)
        entries, names = finding._entries, []

        def refused(place):
            if os.readlink(f"/proc/self/fd/{place}").endswith("b"):
                raise PermissionError(13, "Permission denied")
            return entries(place)

        with mock.patch.object(finding, "_entries", refused):
            found = list(finding.found([str(self.folder / "all")], names.append, self.fail))
            self.assertEqual([os.path.basename(name) for name in found], ["a", "d"])
            wanted = [f"{self.folder}/all/b: Permission denied"]
            self.assertEqual(list(map(str, names)), wanted)
            made = merge_files([self.folder / "all"], on_refused=lambda *_: None)
        self.assertEqual(made.to_bytes(), IMAGE)

    def test_a_folder_without_permission(self):
        before = other_user()
        if before is None:
            self.skipTest("another user can't run Python here")
        for name in ("all/a", "all/b/c", "all/d"):
            self.write(name, IMAGE)
        os.chmod(self.folder, 0o777)
        os.chmod(self.folder / "all" / "b", 0o700)
        os.chmod(self.folder / "all" / "d", 0o600)

        def told(*words):
            status, _, err = self.run_hll(*words, before=before)
            return status, err

        lines = ["hll: all/b: Permission denied", "hll: all/d: Permission denied"]
        err = "".join(f"{line}\n" for line in lines)
        self.assertEqual(told("merge", "all", "-o", "one.hll"), (2, err))
        self.assertFalse((self.folder / "one.hll").exists())
        self.assertEqual(told("check", "all"), (2, err))
        err = "".join(f"{line} (left out)\n" for line in lines)
        self.assertEqual(told("merge", "all", "-o", "one.hll", "--skip-bad"), (0, err))
        self.assertEqual(self.read("one.hll"), IMAGE)

    def test_nothing_below(self):
        os.makedirs(self.folder / "all" / "sub")
        self.write("a", IMAGE)
        words = ("merge", "all", "a", "-o", "one.hll")
        self.fails(2, ["all: no files in this directory"], *words)
        err = "hll: all: no files in this directory (left out)\n"
        self.assertEqual(self.run_hll(*words, "--skip-bad"), (0, b"", err))
        self.assertEqual(self.read("one.hll"), IMAGE)

    def nest(self, names):
        """Folders in folders, with a file in the first, the middle and the last."""
        place = os.open(self.folder, os.O_RDONLY)
        for number, name in enumerate(names):
            os.mkdir(name, dir_fd=place)
            below = os.open(name, os.O_RDONLY, dir_fd=place)
            os.close(place)
            place = below
            if number in (0, len(names) // 2, len(names) - 1):
                file = os.open("~file", os.O_WRONLY | os.O_CREAT, dir_fd=place)
                os.write(file, sketch(number).to_bytes())
                os.close(file)
        os.close(place)
        return sketch(0, len(names) // 2, len(names) - 1).to_bytes()

    def test_any_depth(self):
        """More folders than a stack has places, and paths longer than the system takes."""
        for names in (["d"] * 1100, ["e" * 255] * 60, ["f" * 100] * 1100):
            wanted = self.nest(names)
            self.succeeds("merge", names[0], "-o", "one.hll")
            self.assertEqual(self.read("one.hll"), wanted)
            subprocess.run(["rm", "-rf", names[0]], cwd=self.folder, check=True)

    def test_each_folder_is_opened_from_the_one_above(self):
        """Also with others next to it at each level: so the time is in proportion to the depth, and few
        files are open."""
        def lengths(depth):
            """The bytes of the paths that a walk opens, and the most files that are open meanwhile."""
            opening, taken, most = os.open, [], []

            def counted(path, *more, **named):
                taken.append(len(path))
                most.append(len(os.listdir("/proc/self/fd")))
                return opening(path, *more, **named)

            with mock.patch.object(os, "open", counted):
                found = list(finding.found([str(self.folder / "all")], self.fail, self.fail))
            self.assertEqual(len(found), depth)
            self.assertEqual(found, sorted(found, key=lambda path: path.split("/")))
            return sum(taken), max(most) - min(most)

        (self.folder / "all").mkdir()
        place, made, found = os.open(self.folder / "all", os.O_RDONLY), 0, {}
        for depth in (100, 200, 400, 800):
            while made < depth:
                for name in ("a", "down", "z"):
                    os.mkdir(name, dir_fd=place)
                file = os.open("z/file", os.O_WRONLY | os.O_CREAT, dir_fd=place)
                os.close(file)
                below = os.open("down", os.O_RDONLY, dir_fd=place)
                os.close(place)
                place, made = below, made + 1
            found[depth] = lengths(depth)
        os.close(place)
        subprocess.run(["rm", "-rf", "all"], cwd=self.folder, check=True)
        base = len(str(self.folder / "all"))
        self.assertLess(found[800][0] - base, 9 * (found[100][0] - base))
        self.assertLess(max(most for _, most in found.values()), 4)

    def test_folders_that_are_moved_meanwhile(self):
        """A walk goes on where it was, and leaves no file open."""
        for name in ("all/a/b/c/1", "all/a/b/2", "all/a/d/3", "all/e/4"):
            self.write(name, IMAGE)
        before = len(os.listdir("/proc/self/fd"))
        names, found = [], []
        for path in finding.found([str(self.folder / "all")], names.append, self.fail):
            found.append(os.path.basename(path))
            if found == ["2"]:
                (self.folder / "all/a/b").rename(self.folder / "elsewhere")
        self.assertEqual((found, names), (["2", "1", "3", "4"], []))
        self.assertEqual(len(os.listdir("/proc/self/fd")), before)

    def test_what_takes_the_place_of_a_file(self):
        """A FIFO or a link that somebody puts there after its directory was read is an error of that file."""
        words = "No plain file any more, as it was when its directory was read"
        for number, swap in enumerate((os.mkfifo, lambda path: os.symlink("/dev/zero", path))):
            folder = f"all{number}"
            for name in ("a", "b", "c"):
                self.write(f"{folder}/{name}", IMAGE)
            entries, refused = finding._entries, []

            def swapped(place):
                told, path = entries(place), self.folder / folder / "b"
                path.unlink()
                swap(path)
                return told

            with mock.patch.object(finding, "_entries", swapped):
                made = merge_files([self.folder / folder], on_refused=lambda *what: refused.append(what))
            self.assertEqual(refused, [(str(self.folder / folder / "b"), words)])
            self.assertEqual(made.to_bytes(), IMAGE)

    def test_a_folder_that_takes_the_place_of_another(self):
        """A link that somebody puts in the place of a folder is not followed."""
        self.write("theirs/x", IMAGE)
        self.write("all/a/1", IMAGE)
        self.write("all/b/2", IMAGE)
        entries, refused = finding._entries, []

        def swapped(place):
            told = entries(place)
            if ("b", "folder") in told:
                os.rename(self.folder / "all/b", self.folder / "all/.b")
                os.symlink("../theirs", self.folder / "all/b")
            return told

        with mock.patch.object(finding, "_entries", swapped):
            found = list(finding.found([str(self.folder / "all")], refused.append, self.fail))
        self.assertEqual(found, [str(self.folder / "all/a/1")])
        self.assertEqual([trouble.name for trouble in refused], [str(self.folder / "all/b")])

    def test_a_named_pipe_is_read(self):
        os.mkfifo(self.folder / "pipe")
        script = " ".join(COMMAND) + " merge pipe -o one.hll & cat a.hll > pipe; wait $!"
        self.write("a.hll", IMAGE)
        done = subprocess.run(["sh", "-c", script], cwd=self.folder, env=environment(), timeout=HUNG,
                              capture_output=True)
        self.assertEqual((done.returncode, done.stderr, self.read("one.hll")), (0, b"", IMAGE))

    def test_steps_of_paths(self):
        for path in ("a", "/a", "a/b/", "/" + "a/" * 50, "a" * 40 + "//" + "b" * 40 + "//c"):
            with mock.patch.object(files, "STEP", 12):
                steps = files._steps(path)
            joined = os.path.normpath(b"/".join(steps).decode())
            self.assertEqual(joined, os.path.normpath(path))
            self.assertFalse(any(step.startswith(b"/") for step in steps[1:]), path)
            self.assertTrue(all(len(step) <= 12 or b"/" not in step for step in steps[1:]), path)


class ListsTest(CommandTest):
    def test_a_list_without_an_end(self):
        words = "no list: a name is longer than 1,048,576 bytes"
        with open(self.folder / "list", "wb") as file:
            file.truncate(200_000_000)
        for more in ([], ["-0"]):
            self.write("text", b"x" * 3_000_000)
            begin = time.process_time()
            self.fails(2, [f"text: {words}"], "merge", "--files-from", "text", *more, "-o", "one")
            self.assertLess(time.process_time() - begin, 20)
        self.fails(2, [f"list: {words}"], "check", "--files-from", "list")
        self.fails(2, [f"/dev/zero: {words}"], "check", "--files-from", "/dev/zero")

    def test_long_names_are_names(self):
        """Of any length up to that, across the pieces that are read."""
        name = "/".join(["x" * 200] * 500)
        status, out, err = self.run_hll("check", "--files-from", "-", given=name.encode() + b"\n")
        self.assertEqual((status, out), (2, b""))
        self.assertEqual(err, f"hll: {name}: No such file or directory\n")


class NamesTest(CommandTest):
    NAMES = [
        b"a b", b"a\nb", b"\x1b[31mred", b"tab\t", b"it's\n", b"back\\slash", b"back\\\n", b"\xff",
        "caf\u00e9".encode(), "\u202eabc".encode(), b"$'x'", b"$x", b"\r", b"\x7f", b"end\n\n",
    ]

    def test_a_stream_that_lacks_characters(self):
        """Names are quoted, and other text is escaped, where standard output is ASCII."""
        name, missing = "caf\u00e9.hll", "n\u00e9ant"
        self.write(name, IMAGE)
        for own in ({"PYTHONIOENCODING": "ascii"}, {"PYTHONIOENCODING": "ascii:strict"},
                    {"LC_ALL": "C", "PYTHONCOERCECLOCALE": "0", "PYTHONUTF8": "0"}):
            def told(*words):
                done = subprocess.run([*COMMAND, *words], cwd=self.folder, env=environment(**own),
                                      capture_output=True)
                return done.returncode, done.stdout, done.stderr

            status, out, err = told("info", name)
            self.assertEqual((status, out.split(b"\n")[0], err), (0, b"$'caf\\303\\251.hll':", b""))
            self.assertEqual(told("estimate", name, name)[1], b"1\t$'caf\\303\\251.hll'\n" * 2)
            self.assertEqual(told("info", missing), (
                2, b"", b"hll: $'n\\303\\251ant': No such file or directory\n"))
            self.assertEqual(told("info", "--json", name)[0], 0)
            status, out, err = told("info", name, "--" + missing)
            self.assertEqual((status, out), (2, b""))
            self.assertRegex(err, rb"(n\\xe9ant|n\xc3\xa9ant)\n$")

    def test_a_line_is_a_name(self):
        seen = set()
        for name in self.NAMES:
            text = shown(os.fsdecode(name))
            self.assertTrue(text.isprintable(), text)
            seen.add(text)
        self.assertEqual(len(seen), len(self.NAMES))
        self.assertEqual([shown(name) for name in ("a b", "caf\u00e9", "back\\slash", "it's")],
                         ["a b", "caf\u00e9", "back\\slash", "it's"])
        self.assertEqual(shown("it's\n\x1b"), r"$'it\'s\n\033'")
        self.assertEqual(shown(""), "$''")

    @unittest.skipUnless(shutil.which("bash"), "bash is not here")
    def test_a_shell_reads_them(self):
        for name in self.NAMES:
            text = shown(os.fsdecode(name))
            if text.startswith("$'"):
                done = subprocess.run(["bash", "-c", f"printf %s {text}"], capture_output=True,
                                      env={"LC_ALL": "C"})
                self.assertEqual(done.stdout, name)

    def test_of_each_command(self):
        for name in self.NAMES:
            place = os.path.join(os.fsencode(self.folder), b"all")
            os.makedirs(place, exist_ok=True)
            with open(os.path.join(place, name), "wb") as file:
                file.write(CUT)
        for words in (["check", "all"], ["merge", "all", "-o", "one.hll"]):
            status, out, err = self.run_hll(*words)
            lines = (out.decode() + err).split("\n")
            self.assertEqual((status, len(lines)), (1, len(self.NAMES) + 1))
            names = [shown(os.fsdecode(b"all/" + name)) for name in self.NAMES]
            wanted = {f"{name}: {TRUNCATED}" for name in names}
            found = {line[5:] if line.startswith("hll: ") else line for line in lines if line}
            self.assertEqual(found, wanted)
        self.write("a\nb", IMAGE)
        self.assertEqual(self.succeeds("info", "a\nb").split(b"\n")[0], rb"$'a\nb':")
        out = self.succeeds("estimate", "a\nb", "a\nb")
        self.assertEqual(out, rb"1	$'a\nb'" + b"\n" + rb"1	$'a\nb'" + b"\n")


class ClosedStreamsTest(CommandTest):
    """What can't be printed is an error, and no file takes the place of a closed stream."""

    def by_shell(self, line):
        script = "hll() { " + " ".join(COMMAND) + ' "$@"; }\n' + line
        done = subprocess.run(
            ["sh", "-c", script], cwd=self.folder, env=environment(), stdin=subprocess.DEVNULL,
            stdout=subprocess.PIPE, stderr=subprocess.PIPE,
        )
        return done.returncode, done.stdout, done.stderr

    def test_closed_and_full(self):
        self.write("a.hll", sketch(*range(30_000)).to_bytes())
        commands = [
            "--help", "--version", "info --help", "info a.hll", "estimate a.hll", "new -",
            "merge a.hll -o -", "merge a.hll -o b --json", "plot a.hll -o -", "diff a.hll a.hll",
            "info --json a.hll", "check --json a.hll",
        ]
        for command in commands:
            for where, words in ((">&-", b"Bad file descriptor"),
                                 (">/dev/full", b"No space left on device")):
                with self.subTest(command=command, where=where):
                    found = self.by_shell(f"hll {command} {where}")
                    self.assertEqual(found, (2, b"", b"hll: standard output: %s\n" % words))

    def test_where_nothing_is_printed(self):
        for where in (">&-", ">/dev/full", "2>&-", ">&- 2>&-", "<&- >&- 2>&-"):
            self.assertEqual(self.by_shell(f"hll new a.hll --force {where}"), (0, b"", b""))
            self.assertEqual(self.read("a.hll"), Sketch().to_bytes())

    def test_closed_input(self):
        found = self.by_shell("hll info - <&-")
        self.assertEqual(found, (2, b"", b"hll: -: Bad file descriptor\n"))
        self.write("a.hll", IMAGE)
        found = self.by_shell("hll add a.hll <&-")
        self.assertEqual(found, (2, b"", b"hll: standard input: Bad file descriptor\n"))
        self.assertEqual(self.read("a.hll"), IMAGE)

    def test_closed_errors(self):
        for where in ("2>&-", "2>/dev/full"):
            self.assertEqual(self.by_shell(f"hll info none {where}"), (2, b"", b""))


class SketchFilesTest(CommandTest):
    def test_read_and_write(self):
        for count in (0, 3, 100, 30_000):
            made = sketch(*range(count))
            for name in ("a.hll", "- b"):
                path = self.folder / name
                made.write(path)
                self.assertEqual(path.read_bytes(), made.to_bytes())
                self.assertEqual(Sketch.read(str(path)), made)
        self.assertEqual(self.listed(), ["- b", "a.hll"])

    def test_errors(self):
        with self.assertRaises(FileNotFoundError):
            Sketch.read(self.folder / "none")
        with self.assertRaises(FileNotFoundError):
            Sketch().write(self.folder / "none" / "a.hll")
        with self.assertRaises(IsADirectoryError):
            Sketch.read(self.folder)
        self.write("bad", b"no")
        with self.assertRaises(ImageError) as caught:
            Sketch.read(self.folder / "bad")
        said = f"{self.folder / 'bad'}: image is rejected: {TRUNCATED.partition(' ')[2]}"
        self.assertEqual((str(caught.exception), caught.exception.reason), (said, "truncated"))
        with mock.patch.object(files, "_write_all", side_effect=OSError(28, "No space left")):
            with self.assertRaises(OSError):
                Sketch().write(self.folder / "bad")
        self.assertEqual((self.read("bad"), self.listed()), (b"no", ["bad"]))


if __name__ == "__main__":
    unittest.main()
