# SPDX-License-Identifier: Apache-2.0
"""Calls the prover on copies of a crate, and reads what it says. All that depends on the toolchain's inner words is in this
file: the words that `rt` gives its own command `rattle check`, and the lines that this command prints.

A check reads the libraries that `rt ci` or `rt check` left in crates/*/out. It writes nothing there.
"""
import collections
import hashlib
import importlib.machinery
import importlib.util
import os
import pathlib
import re
import shutil
import subprocess
import sys
import tempfile
import threading
import time

PARTS = ("src", "specs", "proofs")      # the folders of a crate that a check reads
# Bytes of memory that a check by one job has been seen to take at most: for itself, and for each line of the crate's code.
NEED, NEED_OF_LINE = 1_200_000_000, 650_000

# ---- What is read of the prover's output ----

# How a check went for one function. OWN: a goal of the function itself is not proved. CALLEE: it calls a function that is not
# proved. NAMES: its proof by hand names something that is gone. UNKNOWN: nothing is said, or in words that aren't known here.
OWN, CALLEE, NAMES, PROVED, UNKNOWN = "own goal", "callee", "names", "proved", "unknown"

STATUS = re.compile(r"fn (\S+): (.*)")
SEARCHED = re.compile(r"no proof: expected answers in \S+; (`search` did not prove .*?)(; it calls .*)?")
CALLS = re.compile(r"no proof: it calls `.*")
REFUSED = re.compile(r"not proved(; it calls .*)?")
ANSWER = re.compile(r"(?:\./)?proofs/(\S+)/\w+\.antt:\d+:\d+: error: (.*)")
NOTE = re.compile(r"note: (src/\S+):(\d+):\d+: (it is not proved that .*)")
GONE = re.compile(
    r"has no field|has no `|is not in scope|was not admitted|was rejected, were? not checked|were not checked|no such"
    r"|cannot be used|does not exist"
)
COMPILER = re.compile(r"(?:\./)?((?:src|specs)/\S+):(\d+):\d+: error(?:\[|: [^`])")
LAST = re.compile(r"only=\d+ proved=\d+|logic=(?:not-)?proved\b.*")


class Heard:
    """What one check said. `functions` has what it said of each function, by the prover's name."""

    def __init__(self, text, status, cost=""):
        lines = text.splitlines()
        self.text, self.status, self.cost = text, status, cost
        self.last = next((it for it in reversed(lines) if LAST.fullmatch(it)), "")
        self.functions = dict(it.groups() for it in map(STATUS.fullmatch, lines) if it)
        self.notes = [(it[1], int(it[2]) - 1, it[3]) for it in map(NOTE.fullmatch, lines) if it]
        self.errors = collections.defaultdict(list)
        for it in map(ANSWER.fullmatch, text.replace("\n  ", " ").splitlines()):    # a message goes on in indented lines
            if it:
                self.errors[it[1]].append(it[2])
        self.bad_lines = {(it[1], int(it[2]) - 1): it[0] for it in map(COMPILER.match, lines) if it}

    def reached_the_prover(self):
        """Returns whether the sources compile, so that goals were tried."""
        return bool(self.last) and not self.bad_lines

    def first_error(self):
        """Returns the first line that tells of an error, or the last line."""
        lines = self.text.splitlines() or ["the prover said nothing"]
        return next((it for it in lines if re.search(r": error|it is not proved that", it)), lines[-1])

    def of(self, function, notes=()):
        """Returns how the check went for a function, and the prover's words. `notes` are the notes on its own lines."""
        said = self.functions.get(function, "")
        searched = SEARCHED.fullmatch(said)
        if said == "proved":
            return PROVED, said
        if searched:
            return OWN, searched[1]
        if CALLS.fullmatch(said):
            return CALLEE, said
        if REFUSED.fullmatch(said):
            errors = self.errors.get("/".join(function.split("::")[1:]), [])
            goals = [it for it in errors if not GONE.search(it)] or list(notes)
            if goals or errors:
                return (OWN, goals[0]) if goals else (NAMES, errors[0])
        return UNKNOWN, said or "nothing is said of it"

    def notes_in(self, file, first, last):
        """Returns the notes on goals that stand in these lines of a file, counted from 0."""
        return [words for name, line, words in self.notes if name == file and first <= line <= last]


# ---- What is read of `rt ci` as it goes ----

# A crate is proved in this run, or an earlier run on this machine proved the same.
CRATE = re.compile(r"rt: (\w+)(?: proved| is kept: .*)")


class Progress:
    """The crates that `rt ci` has proved so far, by the lines that it prints. A thread reads all of them, so that `rt ci` never
    waits for a reader."""

    def __init__(self, lines):
        self.proved, self.has_ended, self.changed = set(), False, threading.Condition()
        threading.Thread(target=self.read, args=[lines], daemon=True).start()

    def read(self, lines):
        for line in lines:
            found = CRATE.fullmatch(line.rstrip())
            if found:
                with self.changed:
                    self.proved.add(found[1])
                    self.changed.notify_all()
        with self.changed:
            self.has_ended = True
            self.changed.notify_all()

    def wait(self, seconds):
        """Waits until one more crate is proved or `rt ci` has ended, but no longer than some seconds."""
        with self.changed:
            if not self.has_ended:
                self.changed.wait(seconds)

    def wait_for(self, names):
        """Waits until `rt ci` has proved these crates, or has ended. Returns whether it has proved them."""
        wanted = set(names)
        with self.changed:
            self.changed.wait_for(lambda: self.has_ended or self.proved >= wanted)
            return self.proved >= wanted


# ---- How it is called ----

class Unusable(Exception):
    """Why a crate can't be checked."""


class Stopped(Exception):
    """The run was told to stop."""


def loaded(name, file):
    """Returns a file of the toolchain as a module."""
    loader = importlib.machinery.SourceFileLoader(name, str(file))
    module = importlib.util.module_from_spec(importlib.util.spec_from_loader(name, loader))
    sys.modules[name] = module
    loader.exec_module(module)
    return module


def answer(*words):
    """Returns the one line that a command prints."""
    return subprocess.run(words, capture_output=True, text=True, check=True).stdout.strip()


class Prover:
    """The toolchain's prover, for the crates of one checkout."""

    def __init__(self, root, log=None):
        self.root, self.log = root, log
        self.version = answer("rt", "version")
        self.commands = pathlib.Path(answer("rt", "doc")).parent / "bin"
        self.rtlib = loaded("rtlib", self.commands / "rtlib.py")
        self.guard = self.rtlib.guarded()       # words by which all checks end with this process, however it ends
        self.known, self.lock, self.running, self.stopped = {}, threading.Lock(), {}, False

    def crate(self, name):
        """Returns the toolchain's own object for a crate."""
        folder = str(self.root / "crates" / name)
        return self.known.setdefault(folder, self.rtlib.Crate(folder, str(self.root), self.known))

    def sum_of(self, name):
        """Returns the checksum of all that a check of the crate reads: the sources of it and of those below, the toolchain's
        version, and the text of this file."""
        crate = self.crate(name)
        found = hashlib.sha256(repr((self.version, pathlib.Path(__file__).read_bytes())).encode())
        for it in [*crate.below(), crate]:
            found.update(repr((it.name, it.said)).encode())
            for file in self.rtlib.files_of(it.folder):
                found.update(repr((os.path.relpath(file, it.folder), pathlib.Path(file).read_bytes())).encode())
        return found.hexdigest()

    def lacking(self, name):
        """Returns the libraries below a crate that are not built."""
        return [it.name for it in self.crate(name).below() if not os.path.isdir(it.rlib)]

    def kept_work(self, name):
        """Returns the folder of what `rt check` kept of a crate, where it was proved over the libraries that stand, or None."""
        crate = self.crate(name)
        folder = pathlib.Path(crate.folder) / "out" / "incremental"
        return folder if folder.is_dir() and all(it.is_built() for it in crate.below()) else None

    def has_stamps(self, name):
        """Returns whether each library below a crate is marked as built of its sources as they stand, as `rt check` does."""
        return all(it.is_built() for it in self.crate(name).below())

    def has_room(self, name):
        """Returns whether a check of the crate has a processor and memory in addition to those that run."""
        with self.lock:
            left = [max(0, need - memory_of(ran.pid)) for ran, need in self.running.items()]
        return self.rtlib.fits(self.need(name), *left)

    def need(self, name):
        """Returns the bytes of memory that a check of the crate may take."""
        return NEED + NEED_OF_LINE * self.crate(name).count(rb"\n")

    def check(self, name, texts, functions=(), start=None, keep=None, label="check"):
        """Checks a copy of a crate with these texts in place of its files: the named functions and what they call, or all.
        `start` is a folder of kept work to begin with; the folder `keep` gets what is proved."""
        crate = self.crate(name)
        with tempfile.TemporaryDirectory(prefix="mutants-") as room:
            for part in PARTS:
                if os.path.isdir(f"{crate.folder}/{part}"):
                    shutil.copytree(f"{crate.folder}/{part}", f"{room}/{part}")
            for file, text in texts.items():
                pathlib.Path(room, file).write_text(text)
            if start:
                keep = keep or f"{room}/kept"
                copied(start, keep)
            words = crate.words(["--jobs", "1"], keeps=False)
            words += [word for it in functions for word in ("--only", it)] + (["--incremental", str(keep)] if keep else [])
            heard = self.run([self.rtlib.RATTLE, "check", *words], room, self.need(name))
        if self.log:
            (self.log / f"{name}-{label}.log").write_text(f"{heard.text}\n{heard.cost}\n")
        return heard

    def run(self, words, folder, need):
        """Runs the prover, once more where it was killed, and returns what it said."""
        heard = self.run_once(words, folder, need)
        return self.run_once(words, folder, need) if heard.status < 0 else heard

    def run_once(self, words, folder, need):
        """Runs the prover in a folder, and returns what it said with what it cost. `need` is the memory that it may take."""
        begun = time.monotonic()
        with self.lock:
            if self.stopped:
                raise Stopped
            ran = subprocess.Popen(
                [*self.guard, *words], cwd=folder, stdin=subprocess.DEVNULL, stdout=subprocess.PIPE,
                stderr=subprocess.STDOUT, text=True, errors="replace",
            )
            self.running[ran] = need
        text = ran.stdout.read()
        _, status, used = os.wait4(ran.pid, 0)
        with self.lock:
            del self.running[ran]
            if self.stopped:
                raise Stopped
        ran.returncode = -os.WTERMSIG(status) if os.WIFSIGNALED(status) else os.WEXITSTATUS(status)
        cost = "%.0f processor seconds, %.0f on the wall, %.1f GB" % (
            used.ru_utime + used.ru_stime, time.monotonic() - begun, used.ru_maxrss / 1e6)
        return Heard(text, ran.returncode, cost)

    def stop(self):
        """Ends all checks."""
        with self.lock:
            self.stopped = True
            for ran in self.running:
                ran.kill()


def memory_of(process):
    """Returns the bytes of memory that a process holds."""
    try:
        return int(pathlib.Path(f"/proc/{process}/statm").read_text().split()[1]) * os.sysconf("SC_PAGE_SIZE")
    except (OSError, IndexError):
        return 0


def copied(folder, to):
    """Copies kept work, what was proved by links where the disk has them: a check replaces such a file and never changes it."""
    def copy(one, other):
        try:
            if one.endswith(".oantt"):
                return os.link(one, other)
        except OSError:
            pass
        return shutil.copy2(one, other)

    shutil.copytree(folder, to, symlinks=True, copy_function=copy)
