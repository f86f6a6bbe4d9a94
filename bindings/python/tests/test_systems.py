# SPDX-License-Identifier: Apache-2.0
"""The package on systems that are not here: the names of the library, and a Python without what Windows lacks. Nobody has run it
on Windows or macOS."""
import os
import pathlib
import subprocess
import sys
import tempfile
import unittest
from unittest import mock

import common
from hll_sketches import _library

# Takes away what Python for Windows lacks, and loads the library of this system then.
WINDOWS = """
import ctypes, importlib.abc, multiprocessing.connection, os, pathlib, random, signal, subprocess, sys, tempfile, threading
LACKS = {
    os: "O_CLOEXEC O_DIRECTORY O_NOFOLLOW O_NONBLOCK O_NOCTTY O_TMPFILE O_SYNC fork register_at_fork fchown fchmod chown getuid"
        " uname sched_getaffinity pread pwrite mkfifo",
    signal: "SIGHUP SIGPIPE SIG_BLOCK SIG_SETMASK SIG_UNBLOCK pthread_sigmask SIGUSR1 SIGALRM",
}
for module, names in LACKS.items():
    for name in names.split():
        delattr(module, name)
MODULES = {"fcntl", "resource", "pwd", "grp", "termios", "tty", "pty"}
for name in MODULES:
    sys.modules.pop(name, None)


class Missing(importlib.abc.MetaPathFinder):
    def find_spec(self, name, path, target=None):
        if name in MODULES:
            raise ModuleNotFoundError(name)


sys.meta_path.insert(0, Missing())
sys.platform = "win32"
"""

PROGRAM = WINDOWS + """
from hll_sketches import Sketch, SketchUnion, merge_files, union_of
one, two = Sketch(), Sketch()
one.update_many(["ann", "bob", "cid"])
two.update_many(range(20000))
os.chdir(sys.argv[1])
for sketch, name in ((one, "one.hll"), (two, "two.hll"), (one, "two.hll"), (two, "two.hll")):
    sketch.write(name)
assert Sketch.read("one.hll") == one and Sketch.read("two.hll") == two
assert sorted(os.listdir()) == ["one.hll", "two.hll"]
assert merge_files(["one.hll", "two.hll"]) == union_of([one, two])
print(union_of([one, two]).to_bytes().hex())
"""
HERE = """
from hll_sketches import Sketch, union_of
one, two = Sketch(), Sketch()
one.update_many(["ann", "bob", "cid"])
two.update_many(range(20000))
print(union_of([one, two]).to_bytes().hex())
"""


class NamesTest(unittest.TestCase):
    def places(self, platform, *files):
        """Where the library of a package with these files is looked for, on a system."""
        with tempfile.TemporaryDirectory() as folder:
            package = pathlib.Path(folder).resolve()
            for name in files:
                (package / name).touch()
            plain = {name: value for name, value in os.environ.items() if name != "HLL_SKETCHES_LIBRARY"}
            with mock.patch.object(sys, "platform", platform), mock.patch.object(_library, "__file__", str(package / "_library.py")), \
                    mock.patch.dict(os.environ, plain, clear=True), mock.patch("ctypes.util.find_library", return_value=None):
                return [pathlib.Path(place).name for place in _library._places()]

    def test_the_name_is_that_of_the_system(self):
        every = ["hll.dll", "libhll.0.dylib", "libhll.dylib", "libhll.so", "libhll.so.0"]
        self.assertEqual(self.places("win32", *every), ["hll.dll"])
        self.assertEqual(self.places("darwin", *every), ["libhll.dylib", "libhll.0.dylib"])
        self.assertEqual(self.places("linux", *every), ["libhll.so", "libhll.so.0"])

    def test_the_library_of_another_system(self):
        for platform, other in (("win32", "libhll.so"), ("darwin", "hll.dll"), ("linux", "libhll.dylib")):
            self.assertEqual(self.places(platform, other), [])

    def test_the_library_of_a_checkout(self):
        for platform, name in (("win32", "hll.dll"), ("darwin", "libhll.dylib"), ("linux", "libhll.so")):
            with mock.patch.object(sys, "platform", platform), mock.patch.object(pathlib.Path, "exists", return_value=True), \
                    mock.patch.dict(os.environ, {"HLL_SKETCHES_LIBRARY": ""}):
                self.assertEqual(_library._places()[0], str(common.PACKAGE.parent / "c" / "build" / name))

    def test_what_is_missing_is_named(self):
        for platform, name in (("win32", "hll.dll"), ("darwin", "libhll.dylib"), ("linux", "libhll.so")):
            with mock.patch.object(sys, "platform", platform), mock.patch.object(_library, "_places", return_value=[]), \
                    self.assertRaisesRegex(ImportError, "the shared library %s is not here" % name):
                _library._load()


class WindowsTest(unittest.TestCase):
    """A Python that lacks what Python for Windows lacks. The library is that of this system."""

    def setUp(self):
        self.folder = tempfile.TemporaryDirectory()
        self.addCleanup(self.folder.cleanup)
        with mock.patch.dict(os.environ, {"HLL_SKETCHES_LIBRARY": os.environ.get("HLL_SKETCHES_LIBRARY", "")}):
            self.library = os.path.abspath(_library._places()[0])

    def run_python(self, code, *words):
        environment = {**os.environ, "HLL_SKETCHES_LIBRARY": self.library, "PYTHONPATH": str(common.PACKAGE), "PYTHONDONTWRITEBYTECODE": "1"}
        done = subprocess.run([sys.executable, "-c", code, *words], env=environment, capture_output=True, text=True)
        return done.returncode, done.stdout, done.stderr

    def test_sketches_and_files(self):
        wanted = self.run_python(HERE)
        self.assertEqual(wanted[0], 0)
        self.assertEqual(self.run_python(PROGRAM, self.folder.name), wanted)

    def test_the_command_says_that_it_is_not_for_windows(self):
        status, out, said = self.run_python(WINDOWS + "import hll_sketches.__main__ as main\nmain.main()\n")
        self.assertEqual((status, out), (1, ""))
        self.assertRegex(said, "^hll: this command is for Linux and macOS")


if __name__ == "__main__":
    unittest.main()
