# SPDX-License-Identifier: Apache-2.0
"""The command `hll` as a process, for tests."""
import os
import pathlib
import shutil
import signal
import subprocess
import sys
import tempfile
import unittest

import common
from tap import HUNG

COMMAND = [sys.executable, "-m", "hll_sketches"]
TRUNCATED = "image truncated (the bytes end inside what the header asks for)"
CUT = b"\2\1"
"""The first bytes of an image, which is rejected as truncated."""
TEXT = "it is text, and not an image"


def environment(**more):
    """The environment of a run."""
    path = os.pathsep.join([str(common.PACKAGE), os.environ.get("PYTHONPATH", "")])
    return dict(os.environ, PYTHONPATH=path, PYTHONDONTWRITEBYTECODE="1", **more)


OTHER_USER = 61234
"""The user as whom a test runs the command, to be another one than its own, where root runs the tests."""


def other_user():
    """The words before a command that another user runs, or None if this can't be: only root can let
    another user run a command, and Python has to be where all can read it."""
    if os.geteuid() != 0 or shutil.which("setpriv") is None:
        return None
    number = str(OTHER_USER)
    words = ["setpriv", f"--reuid={number}", f"--regid={number}", "--clear-groups",
             "--bounding-set=-all"]
    done = subprocess.run([*words, *COMMAND, "--version"], env=environment(), capture_output=True)
    return words if done.returncode == 0 else None


def interruptible():
    """Lets a process that is about to start be interrupted, also where this one is not."""
    signal.signal(signal.SIGINT, signal.SIG_DFL)


class CommandTest(unittest.TestCase):
    """A test in a folder of its own, in which the command runs."""

    def setUp(self):
        self.folder = pathlib.Path(tempfile.mkdtemp(prefix="hll-"))
        self.addCleanup(shutil.rmtree, self.folder)

    def run_hll(self, *words, given=b"", before=(), **more):
        """The status, and what is written to standard output and standard error. ``before`` has the
        words of another command, which runs this one."""
        done = subprocess.run(
            [*before, *COMMAND, *map(str, words)], input=given, capture_output=True, cwd=self.folder,
            env=environment(), timeout=HUNG, **more,
        )
        return done.returncode, done.stdout, done.stderr.decode("utf-8", "surrogateescape")

    def succeeds(self, *words, given=b""):
        """What is written to standard output by a command that tells of no trouble."""
        status, out, err = self.run_hll(*words, given=given)
        self.assertEqual((status, err), (0, ""), words)
        return out

    def fails(self, status, err, *words, given=b""):
        """A command ends with a status, says so much, and writes nothing to standard output."""
        lines = "".join(f"hll: {line}\n" for line in err)
        self.assertEqual(self.run_hll(*words, given=given), (status, b"", lines), words)

    def write(self, name, data):
        path = self.folder / name
        path.parent.mkdir(parents=True, exist_ok=True)
        path.write_bytes(data)
        return path

    def read(self, name):
        return (self.folder / name).read_bytes()

    def listed(self):
        return sorted(os.listdir(self.folder))
