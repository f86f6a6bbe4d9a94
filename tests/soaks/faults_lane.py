# SPDX-License-Identifier: Apache-2.0
"""The command hll with faults of the system: in each run one call of the system fails, or the process is killed at it, as strace does it.
Afterwards each file has to have its old content or the new one, and the new one if the command reports no error."""
import collections
import contextlib
import os
import pathlib
import re
import shutil
import sqlite3
import subprocess
import time

from lanes import CONFIRMED, FAILED, UNKNOWN, Lane

HLL = pathlib.Path(__file__).resolve().parent.parent.parent / "bin" / "hll"
CALLS = "write,pwrite64,fsync,fdatasync,rename,renameat,renameat2,link,linkat,unlink,flock,ftruncate,fchmod,fchown"
FAULTS = ("signal=KILL", "error=EIO", "error=ENOSPC", "error=EROFS", "error=EINTR", "error=EPERM")
LINES = "".join("v%d\n" % number for number in range(1000)).encode()
KEYED = "".join("k%d\tv%d\n" % (number % 12, number) for number in range(600)).encode()
COLUMNS = ["--key", "key=1", "--value", "2"]
COMMANDS = {    # the words, and standard input
    "new": (["new", "new.hll"], b""),
    "new again": (["new", "--force", "a.hll"], b""),
    "add": (["add", "a.hll"], LINES),
    "add to another file": (["add", "a.hll", "-o", "new.hll"], LINES),
    "add to a new file": (["add", "new.hll", "--create"], LINES),
    "merge": (["merge", "a.hll", "b.hll", "-o", "new.hll"], b""),
    "merge over an input": (["merge", "a.hll", "b.hll", "-o", "a.hll"], b""),
    "convert": (["convert", "b.hll", "--width", "4", "-o", "b.hll"], b""),
    "add to a new database": (["add", "--db", "new.db", *COLUMNS], KEYED),
    "add to a database": (["add", "--db", "days.db", *COLUMNS], KEYED),
}


def rows_of(file):
    """The keys and images of a database, as SQLite reads it after a kill; none if it was not made yet."""
    with contextlib.closing(sqlite3.connect(file)) as connection:
        try:
            return sorted(connection.execute("SELECT key, image FROM sketches"))
        except sqlite3.OperationalError as why:
            if "no such table" in str(why):
                return []
            raise


def content_of(folder):
    """The content of each file by its name. A database without keys, or a file for its journal, counts as none; so does an empty file."""
    for name in os.listdir(folder):
        if name.endswith(".db") and rows_of(folder / name) == []:
            (folder / name).unlink()
    files = [file for file in sorted(folder.iterdir()) if not file.name.endswith("-journal")]
    return {file.name: rows_of(file) if file.suffix == ".db" else file.read_bytes() for file in files if file.stat().st_size}


class Faults(Lane):
    name = "faults"

    def begin(self):
        self.seed, self.work, self.trace = (self.folder / name for name in ("seed", "work", "trace"))
        self.seed.mkdir()
        for words, lines in ((["new", "a.hll"], b""), (["add", "a.hll"], b"x\ny\n"), (["add", "b.hll", "--create"], LINES),
                             (["add", "--db", "days.db", *COLUMNS], b"k1\tz\nk99\tz\n")):
            subprocess.run([HLL, *words], input=lines, cwd=self.seed, check=True)
        self.before = content_of(self.seed)
        self.wanted = {kind: self.learned(words, lines) for kind, (words, lines) in COMMANDS.items()}

    def start_again(self):
        shutil.rmtree(self.work, ignore_errors=True)
        shutil.copytree(self.seed, self.work)

    def traced(self, words, lines, *options):
        """Runs the command under strace."""
        return subprocess.run(["strace", "-f", "-qq", *options, HLL, *words], input=lines, capture_output=True, cwd=self.work)

    def learned(self, words, lines):
        """What a command leaves without a fault, and how often it makes each call."""
        self.start_again()
        done = self.traced(words, lines, "-e", "trace=" + CALLS, "-o", self.trace)
        if done.returncode:
            self.fault("%s ends with status %d: %s" % (" ".join(words), done.returncode, done.stderr[-200:]))
        found = re.findall(r"(?m)^\d+ +(\w+)\(", self.trace.read_text(errors="replace"))
        return content_of(self.work), collections.Counter(found)

    def round(self, seconds):
        end = time.monotonic() + seconds
        while time.monotonic() < end:
            self.trial(self.numbers.choice(sorted(COMMANDS)))
        if self.planted == "memory":
            self.kept = getattr(self, "kept", b"") + b"x" * (2 << 20)
        self.watch("the lane", os.getpid())

    def trial(self, kind):
        """One run of a command. The fault is at one of its calls, or at none."""
        (words, lines), (after, calls) = COMMANDS[kind], self.wanted[kind]
        call = self.numbers.choice(sorted(calls))
        what, when = self.numbers.choice(FAULTS), self.numbers.randint(1, calls[call] + 1)
        self.start_again()
        done = self.traced(words, lines, "-o", os.devnull, "-e", "trace=" + call, "-e", "inject=%s:%s:when=%d" % (call, what, when))
        is_killed = done.returncode < 0
        title = "%s, %s at %s %d: status %d" % (kind, what, call, when, done.returncode)
        self.figures["kills" if is_killed else "commands"] += 1
        self.figures[CONFIRMED if done.returncode == 0 else UNKNOWN if is_killed else FAILED] += 1
        if done.returncode == 0 and self.spoils():
            shutil.copytree(self.seed, self.work, dirs_exist_ok=True)
            for name in set(after) - set(self.before):
                (self.work / name).unlink()
        if done.returncode > 0 and b"hll: " not in done.stderr:
            self.fault("%s, and it says %r" % (title, done.stderr[-200:]))
        self.verify(title, after, done.returncode, is_killed or call == "unlink")

    def verify(self, title, after, status, may_leave):
        """Compares what is there with what was there and what the command makes."""
        found = content_of(self.work)
        for name in sorted({*self.before, *after, *found}):
            self.figures["compared"] += 1
            if name.startswith(".hll-"):
                self.figures["temporary files left"] += 1
                if not may_leave:
                    self.fault("%s, and %s is left" % (title, name))
            elif found.get(name) not in (self.before.get(name), after.get(name)):
                self.fault("%s, and %s has neither its old nor its new content" % (title, name))
            elif status == 0 and found.get(name) != after.get(name):
                self.fault("%s, and %s is not what was made" % (title, name))
