# SPDX-License-Identifier: Apache-2.0
"""Signals end `hll` at once, also inside a call of the library, and leave nothing behind."""
import errno
import fcntl
import functools
import os
import pathlib
import random
import resource
import signal
import stat
import subprocess
import sys
import time
from contextlib import ExitStack, contextmanager, suppress
from unittest import mock

import common  # noqa: F401, for the path
from command import COMMAND, CommandTest, environment, interruptible
from hll_sketches import Sketch, files, merging
from long_searches import stride_coupons, unsorted_set
from tap import HUNG

TICK = 1 / os.sysconf("SC_CLK_TCK")
BEFORE, AFTER = b"as it was", Sketch(12).to_bytes()

EXISTS = "File exists (--force replaces it)"

MAIN = "import sys; from hll_sketches.__main__ import main; sys.exit(main())\n"

NO_LINKS = "import os; del os.O_TMPFILE\n"
"""Before that: files have names from the start, as on some systems."""

ENDS_AT = """
import functools
import os
real = os.{step}

def ended(moment):
    for number in {numbers}:
        if moment == "{when}":
            os.kill(os.getpid(), number)

def called(*arguments, **named):
    ended("before")
    answer = real(*arguments, **named)
    ended("after")
    return answer

os.{step} = called
"""
"""Before that: the process sends signals to itself before or after a call of the system."""


def hostile_image():
    """A set whose coupons are all on one path of their stride: most of a second of work for a call that reads it."""
    return unsorted_set(18, stride_coupons(18))


def children_of(process):
    """The numbers of a process's children."""
    place = pathlib.Path(f"/proc/{process}/task/{process}/children")
    return place.read_text().split()


def words_of(process):
    """What the system says of a process, from its state on."""
    text = pathlib.Path(f"/proc/{process}/stat").read_text()
    return text.rpartition(")")[2].split()


def seconds_of(process):
    """The processor time that a process has had."""
    words = words_of(process)
    return (int(words[11]) + int(words[12])) * TICK


def seconds_of_children():
    """The CPU time of all processes that this one has started, and that have ended."""
    used = resource.getrusage(resource.RUSAGE_CHILDREN)
    return used.ru_utime + used.ru_stime


def started(folder, words, **more):
    """A process in a group of its own."""
    return subprocess.Popen(
        words, stdout=subprocess.PIPE, stderr=subprocess.PIPE, cwd=folder, env=environment(),
        start_new_session=True, preexec_fn=interruptible, **more,
    )


def is_alive(group):
    """Whether a process of a group runs; one that is over may still wait to be counted."""
    for name in filter(str.isdigit, os.listdir("/proc")):
        with suppress(OSError):
            state, _, number, *_ = words_of(name)
            if int(number) == group and state != "Z":
                return True
    return False


def waited(holds, seconds):
    """Waits until something holds; whether it came to that."""
    end = time.monotonic() + seconds
    while not holds():
        if time.monotonic() > end:
            return False
        time.sleep(0.005)
    return True


def end(running):
    """Ends a process and those of its group, where a test failed."""
    if is_alive(running.pid):
        os.killpg(running.pid, signal.SIGKILL)
    running.communicate()


class LongCallTest(CommandTest):
    """A signal in the midst of a call of the library."""

    def setUp(self):
        super().setUp()
        self.write("hostile.hll", hostile_image())
        self.write("one.hll", BEFORE)
        self.write("small.hll", AFTER)
        group = ["hostile.hll"] * merging.GROUP
        self.write("names", "".join(f"{name}\n" for name in 4 * group).encode())
        self.before = self.listed()

    def interrupted(self, number, to_group, jobs, *words):
        """Starts a command, and ends it once all its processes have long been inside a call."""
        before = seconds_of_children()
        running = started(self.folder, [*COMMAND, *words])
        self.addCleanup(end, running)

        def is_inside():
            working = children_of(running.pid) if jobs > 1 else [running.pid]
            return len(working) == jobs and all(seconds_of(one) > 0.5 for one in working)

        is_there = waited(lambda: is_inside() or running.poll() is not None, HUNG)
        self.assertTrue(is_there and running.poll() is None, "it is inside a call")
        time.sleep(0.2)
        (os.killpg if to_group else os.kill)(running.pid, number)
        self.check_ended(running, -number)
        self.assertLess(seconds_of_children() - before, 3 * jobs, "CPU time, of which the whole takes twice as much")

    def check_ended(self, running, status):
        """It ends by the signal, says nothing, and leaves no process and no file."""
        out, err = running.communicate(timeout=HUNG)
        self.assertEqual((running.returncode, out, err), (status, b"", b""))
        self.assertTrue(waited(lambda: not is_alive(running.pid), HUNG), "a child is left")
        self.assertEqual((self.read("one.hll"), self.listed()), (BEFORE, self.before))

    def test_one_process(self):
        hostile = 16 * ["hostile.hll"]
        for words in (
            ("info", "--json", *hostile), ("check", *hostile), ("merge", *hostile, "-o", "one.hll"),
        ):
            for number in (signal.SIGINT, signal.SIGTERM):
                with self.subTest(words=words, signal=number):
                    self.interrupted(number, False, 1, *words)

    def test_several_processes(self):
        words = ("merge", "--files-from", "names", "--jobs", "4", "-o", "one.hll")
        for number in (signal.SIGINT, signal.SIGTERM, signal.SIGKILL):
            for to_group in (False, True):
                with self.subTest(signal=number, to_group=to_group):
                    self.interrupted(number, to_group, 4, *words)


class WritingTest(CommandTest):
    """A signal while an output is written."""

    def ended_at(self, step, when, numbers, before=""):
        """Ends a command at a step of its own; the status, and what the output then is."""
        self.write("one.hll", BEFORE)
        sent = ENDS_AT.format(step=step, when=when, numbers=list(map(int, numbers)))
        code = before + sent + MAIN
        words = [sys.executable, "-c", code, "new", "one.hll", "--force"]
        running = started(self.folder, words)
        out, err = running.communicate(timeout=HUNG)
        self.assertEqual((out, err, self.listed()), (b"", b"", ["one.hll"]), (step, when))
        return running.returncode, self.read("one.hll")

    def test_each_step(self):
        """A file without a name is lost; one with a name is written whole."""
        numbers = [signal.SIGTERM]
        for step, when in [("write", "before"), ("write", "after"), ("fsync", "before")]:
            self.assertEqual(self.ended_at(step, when, numbers), (-signal.SIGTERM, BEFORE))
            self.assertEqual(
                self.ended_at(step, when, numbers, NO_LINKS), (-signal.SIGTERM, AFTER)
            )
        for before in ("", NO_LINKS):
            for when in ("before", "after"):
                found = self.ended_at("replace", when, numbers, before)
                self.assertEqual(found, (-signal.SIGTERM, AFTER), (when, before))
        for when in ("before", "after"):
            self.assertEqual(self.ended_at("link", when, numbers), (-signal.SIGTERM, AFTER))

    def test_two_signals(self):
        numbers = [signal.SIGTERM, signal.SIGINT]
        status, found = self.ended_at("replace", "before", numbers)
        self.assertIn(-status, numbers)
        self.assertEqual(found, AFTER)

    def test_random_moments(self):
        """The output is the old one or the new one, and nothing else is left."""
        numbers = random.Random(3)
        for name in ("a", "b", "c"):
            made = Sketch(21)
            made.update_many(numbers.getrandbits(60) for _ in range(400_000))
            self.write(f"days/{name}.hll", made.to_bytes())
        words = ["merge", "days", "--lg-k", "21", "-o", "one.hll"]
        begin = time.monotonic()
        self.succeeds(*words)
        whole, new = time.monotonic() - begin, self.read("one.hll")
        ended = 0
        for number in range(96):
            self.write("one.hll", BEFORE)
            code = (NO_LINKS if number % 2 else "") + MAIN
            running = started(self.folder, [sys.executable, "-c", code, *words])
            moment = numbers.uniform(0.3, 1.05) * whole
            time.sleep(moment)
            running.send_signal(signal.SIGTERM)
            running.communicate(timeout=HUNG)
            self.assertIn(running.returncode, (-signal.SIGTERM, 0))
            self.assertIn(self.read("one.hll"), (BEFORE, new))
            self.assertEqual(self.listed(), ["days", "one.hll"])
            # the machine may be busier than before, or less busy
            whole = min(whole, moment) if running.returncode == 0 else 1.03 * whole
            ended += running.returncode != 0
            if ended == 24:
                return
        self.fail(f"only {ended} were ended")

    def test_an_ignored_interrupt_stays_ignored(self):
        """As of a command that `nohup`, or a script in the background, starts."""
        self.write("one.hll", AFTER)
        running = subprocess.Popen(
            [*COMMAND, "add", "one.hll"], stdin=subprocess.PIPE, cwd=self.folder,
            env=environment(), preexec_fn=lambda: signal.signal(signal.SIGINT, signal.SIG_IGN),
        )
        running.stdin.write(b"line\n" * 500_000)
        running.stdin.flush()
        running.send_signal(signal.SIGINT)
        running.communicate()
        self.assertEqual(running.returncode, 0)
        self.assertNotEqual(self.read("one.hll"), AFTER)


WAYS = {
    "a link to a file without a name": {},
    "a link to a file": {"O_TMPFILE": 0},
    "a claim": {"O_TMPFILE": 0, "link": mock.Mock(side_effect=PermissionError(errno.EPERM, "no links"))},
}
"""How a file that has to be new gets its name; each is for systems that can't do what comes before it."""


@contextmanager
def way(changes):
    with ExitStack() as stack:
        for name, value in changes.items():
            stack.enter_context(mock.patch.object(os, name, value))
        yield


class NewFileTest(CommandTest):
    """A file that another process makes at the same time stays."""

    def test_it_is_made(self):
        for name, changes in WAYS.items():
            with self.subTest(name), way(changes):
                files.write_file(str(self.folder / "a.hll"), b"new", True)
                self.assertEqual((self.read("a.hll"), self.listed()), (b"new", ["a.hll"]))
                for _ in range(2):
                    with self.assertRaises(files.Trouble) as caught:
                        files.write_file(str(self.folder / "a.hll"), b"newer", True)
                    self.assertEqual((caught.exception.words, caught.exception.status), (EXISTS, 2))
                self.assertEqual((self.read("a.hll"), self.listed()), (b"new", ["a.hll"]))
            os.unlink(self.folder / "a.hll")

    def refused(self, call, moment, meanwhile):
        """Writes a new file, and lets another process do something before or after a call of the system."""
        real, place = getattr(os, call), self.folder / "a.hll"

        def called(*arguments, **named):
            is_it = call != "open" or (arguments[0] == str(place) and arguments[1] & os.O_CREAT)
            if is_it and moment == "before":
                meanwhile(place)
            result = real(*arguments, **named)
            if is_it and moment == "after":
                meanwhile(place)
            return result

        with mock.patch.object(os, call, called), self.assertRaises(files.Trouble) as caught:
            files.write_file(str(place), b"mine", True)
        self.assertEqual((caught.exception.words, caught.exception.status), (EXISTS, 2))
        self.assertEqual((self.read("a.hll"), self.listed()), (b"theirs", ["a.hll"]))
        os.unlink(place)

    def test_another_makes_it_first(self):
        for name, changes in WAYS.items():
            with self.subTest(name), way(changes):
                self.refused("open" if name == "a claim" else "link", "before", lambda place: place.write_bytes(b"theirs"))

    def test_another_adds_to_the_claim(self):
        """It took the empty file for that of `add --create`, and replaced it."""
        with way(WAYS["a claim"]):
            self.refused("open", "after", lambda place: files.write_path(str(place), b"theirs"))

    def test_another_is_adding_to_the_claim(self):
        """It holds the lock, so the file is its own."""
        with ExitStack() as stack, way(WAYS["a claim"]):
            def lock(place):
                held = stack.enter_context(open(place, "r+b"))
                fcntl.flock(held, fcntl.LOCK_EX)
                held.write(b"theirs")
                held.flush()

            self.refused("open", "after", lock)

    def test_a_claim_that_comes_to_nothing(self):
        """No empty file is left."""
        full = mock.Mock(side_effect=OSError(errno.ENOSPC, "No space left on device"))
        with way({**WAYS["a claim"], "replace": full}), self.assertRaises(files.Trouble) as caught:
            files.write_file(str(self.folder / "a.hll"), b"new", True)
        self.assertEqual((caught.exception.words, self.listed()), ("No space left on device", []))

    def test_where_there_are_no_locks(self):
        no_locks = mock.Mock(side_effect=OSError(errno.ENOLCK, "No locks available"))
        with way(WAYS["a claim"]), mock.patch.object(fcntl, "flock", no_locks):
            files.write_file(str(self.folder / "a.hll"), b"new", True)
        self.assertEqual(self.read("a.hll"), b"new")


class DiskTest(CommandTest):
    """A file is on the disk before it gets its name, and then the name is."""

    def steps_of_write(self, data, call=None):
        """The calls that write a file, in turn, each with what it meets."""
        call = call or functools.partial(files.write_file, data=data)
        steps, fsync, replace = [], os.fsync, os.replace

        def seen_fsync(place):
            found = os.fstat(place)
            steps.append("folder" if stat.S_ISDIR(found.st_mode) else f"{found.st_size} bytes")
            fsync(place)

        def seen_replace(*names):
            steps.append("name")
            replace(*names)

        with mock.patch.object(os, "fsync", seen_fsync), \
                mock.patch.object(os, "replace", seen_replace):
            call(str(self.folder / "a.hll"))
        self.assertEqual((self.read("a.hll"), self.listed()), (data, ["a.hll"]))
        return steps

    def test_without_a_sync(self):
        """The file is replaced as a whole, and nothing waits for the disk."""
        sketch = Sketch(8)
        sketch.update_many(range(3000))
        image = sketch.to_bytes()
        wanted = [f"{len(image)} bytes", "name", "folder"]
        for flag in (os.O_TMPFILE, 0):
            with mock.patch.object(os, "O_TMPFILE", flag):
                self.assertEqual(self.steps_of_write(image, functools.partial(sketch.write, sync=False)), ["name"])
                self.assertEqual(self.steps_of_write(image, functools.partial(sketch.write, sync=True)), wanted)
                self.assertEqual(self.steps_of_write(image, sketch.write), wanted)

    def test_by_link_and_by_name(self):
        wanted = ["3000 bytes", "name", "folder"]
        self.assertEqual(self.steps_of_write(b"new" * 1000), wanted)
        with mock.patch.object(os, "O_TMPFILE", 0):
            self.assertEqual(self.steps_of_write(b"new" * 1000), wanted)

    def test_a_name_that_cannot_be_given(self):
        """The old file stays, and no other name is left."""
        self.write("a.hll", b"old")
        for flag in (os.O_TMPFILE, 0):
            with mock.patch.object(os, "O_TMPFILE", flag), \
                    mock.patch.object(os, "replace", side_effect=PermissionError(1, "no")), \
                    self.assertRaises(files.Trouble):
                files.write_file(str(self.folder / "a.hll"), b"new")
            self.assertEqual((self.read("a.hll"), self.listed()), (b"old", ["a.hll"]))

    def test_a_file_that_cannot_be_linked(self):
        """It is written under a name, as where the system keeps no links for descriptors."""
        with mock.patch.object(os, "link", side_effect=FileNotFoundError):
            self.assertEqual(self.steps_of_write(b"new")[-2:], ["name", "folder"])

    def test_a_name_that_cannot_be_removed(self):
        """The file is written, so nothing is reported."""
        unlink = mock.Mock(side_effect=OSError(errno.ENOSPC, "No space left on device"))
        for is_new in (False, True):
            with mock.patch.object(os, "O_TMPFILE", 0), mock.patch.object(os, "unlink", unlink):
                files.write_file(str(self.folder / f"{is_new}.hll"), b"new", is_new)
            self.assertEqual(self.read(f"{is_new}.hll"), b"new")
        unlink.assert_called()

    def test_modes(self):
        """A new file has the mode that a plain one would have; another keeps its own."""
        before = os.umask(0o027)
        self.addCleanup(os.umask, before)
        for flag in (os.O_TMPFILE, 0):
            with mock.patch.object(os, "O_TMPFILE", flag):
                files.write_file(str(self.folder / "a.hll"), b"new")
                found = os.stat(self.folder / "a.hll").st_mode
                self.assertEqual(stat.S_IMODE(found), 0o640)
                os.chmod(self.folder / "a.hll", 0o604)
                files.write_file(str(self.folder / "a.hll"), b"newer")
                found = os.stat(self.folder / "a.hll").st_mode
                self.assertEqual((self.read("a.hll"), stat.S_IMODE(found)), (b"newer", 0o604))
                os.unlink(self.folder / "a.hll")

    def test_a_name_as_long_as_can_be(self):
        name = "€" * 84
        files.write_file(str(self.folder / name), b"new")
        self.assertEqual((self.read(name), self.listed()), (b"new", [name]))
