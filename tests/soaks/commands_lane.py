# SPDX-License-Identifier: Apache-2.0
"""The command hll: processes add to one database of keys and to sketches at the same time, and databases are merged, while processes are
killed and interrupted, and the disk is full from time to time. The Python package reads and merges the database in one process."""
import contextlib
import os
import pathlib
import resource
import shutil
import signal
import sqlite3
import subprocess
import sys
import threading
import time

from lanes import CONFIRMED, FAILED, KEYS, LG_K, UNKNOWN, Disk, Lane, raise_registers

TOP = pathlib.Path(__file__).resolve().parent.parent.parent
sys.path[:0] = [str(TOP / "bindings" / "python")]
from hll_sketches import Database  # noqa: E402

MEETING = ("add to a database", "add next to it")
FULL = ("No space left", "File too large", "disk is full", "disk I/O error", "no journal can be made", "KeyboardInterrupt")
COLUMNS = ["--key", "key=1", "--value", "2", "--int"]
MOST_FILE = 20000       # bytes of a file, where no small disk can be mounted


def remove(file):
    """Removes a database, and the journal that a killed command may have left."""
    file.unlink(missing_ok=True)
    file.with_name(file.name + "-journal").unlink(missing_ok=True)


def rows_of(file):
    """The images of a database by their keys, as SQLite reads them."""
    with contextlib.closing(sqlite3.connect(file)) as connection:
        return dict(connection.execute("SELECT key, image FROM sketches"))


class Commands(Lane):
    name = "hll"

    def begin(self):
        self.disk = Disk(self.folder / "disk", 24)
        self.database, self.directory = self.disk.place / "days.db", self.disk.place / "days"
        self.merged, self.other = self.disk.place / "merged.db", self.folder / "other.db"
        self.running, self.is_limited, self.meeting = set(), threading.Event(), threading.Barrier(2)
        self.start_again()

    def start_again(self):
        """Removes all sketches."""
        for file in (self.database, self.merged, self.other):
            remove(file)
        shutil.rmtree(self.directory, ignore_errors=True)
        self.directory.mkdir()
        self.empty()
        self.files = {key: bytearray(1 << LG_K) for key in range(KEYS)}
        subprocess.run([TOP / "bin" / "hll", "add", "--db", self.other, *COLUMNS], input=b"key 0\t1\nother\t7\n", check=True)

    def meet(self):
        """Waits for the other command that adds to the database, so both write at the same moment."""
        try:
            self.meeting.wait(0.7)
        except threading.BrokenBarrierError:
            self.meeting.reset()

    def hll(self, kind, words, lines=b""):
        """Runs the command. Returns its status, which is below 0 if it was killed."""
        def limit():
            if self.is_limited.is_set():
                resource.setrlimit(resource.RLIMIT_FSIZE, (MOST_FILE, MOST_FILE))

        with open(self.folder / ("said by " + kind), "w+") as said:
            process = subprocess.Popen([TOP / "bin" / "hll", *words], stdin=subprocess.PIPE, stdout=said, stderr=said, preexec_fn=limit)
            with self.lock:
                self.running.add(process.pid)
            try:
                process.stdin.write(lines)
                process.stdin.flush()
                if kind in MEETING:
                    self.meet()
                process.stdin.close()
                if lines and self.numbers.random() < 0.2:       # while it writes
                    time.sleep(self.numbers.uniform(0, 0.05))
                    os.kill(process.pid, signal.SIGKILL)        # (Popen.kill would wait for a process that has ended)
                    self.figures["kills"] += 1
            except OSError:
                pass
            _, status, used = os.wait4(process.pid, 0)
            with self.lock:
                self.running.discard(process.pid)
            process.returncode = os.waitstatus_to_exitcode(status)
            said.seek(0)
            told = said.read()
        if process.returncode == 0:
            self.lives["hll %s 0" % kind].append(used.ru_maxrss)
        elif process.returncode > 0 and not any(words in told for words in FULL):
            self.fault("hll %s ended with status %d: %s" % (kind, process.returncode, told[-200:]))
        self.figures["commands"] += 1
        return process.returncode

    def add(self, kind, words):
        """Adds a batch, and a line that names it."""
        batch = self.new_batch()
        lines = "".join("key %d\t%d\n" % (batch.key, value) for value in range(batch.first, batch.first + batch.count))
        status = self.hll(kind, words, (lines + "done %06d\t1\n" % batch.number).encode())
        # a command that was killed or interrupted may have written the database before
        self.settle(batch, CONFIRMED if status == 0 else UNKNOWN if status < 0 or status == 128 + signal.SIGINT else FAILED)
        self.wait(self.numbers.uniform(0, 0.1))

    def add_to_database(self):
        self.add("add to a database", ["add", "--db", self.database, *COLUMNS, "--wait"])

    def add_next_to_it(self):
        self.add("add next to it", ["add", "--db", self.database, *COLUMNS, "--wait", "--memory", "0"])

    def add_to_sketch(self):
        """A sketch for each key: it has the batch, or not."""
        batch = self.new_batch()
        with self.lock:
            del self.batches[batch.number]
        lines = "".join("%d\n" % value for value in range(batch.first, batch.first + batch.count))
        file, wanted = self.directory / ("%d.hll" % batch.key), bytearray(self.files[batch.key])
        status = self.hll("add to a sketch", ["add", file, "--create", "--int"], lines.encode())
        self.settle(batch, CONFIRMED if status == 0 else UNKNOWN if status < 0 or status == 128 + signal.SIGINT else FAILED)
        raise_registers(wanted, batch.coupons)
        data = file.read_bytes() if file.exists() else b""
        if batch.state == CONFIRMED or (batch.state == UNKNOWN and data and not self.is_as_before(data, batch.key)):
            self.files[batch.key] = wanted
        if data or any(self.files[batch.key]):
            self.same("the file of key %d" % batch.key, data or None, self.files[batch.key])
        self.wait(self.numbers.uniform(0, 0.1))

    def is_as_before(self, data, key):
        before = len(self.faults)
        self.same("a file", data, self.files[key])
        is_same = len(self.faults) == before
        del self.faults[before:]
        return is_same

    def merge(self):
        """Merges the database with another one, key by key."""
        if self.is_there():
            remove(self.merged)
            self.hll("merge databases", ["merge", self.database, self.other, "-o", self.merged])
        self.wait(self.numbers.uniform(0.1, 0.3))

    def is_there(self):
        """Whether a command has made the database; one that was killed may have left an empty file."""
        return self.database.exists() and self.database.stat().st_size > 0

    def round(self, seconds):
        threads, end = self.at_once(seconds, self.add_to_database, self.add_next_to_it, self.add_to_sketch, self.merge)
        while time.monotonic() < end:
            time.sleep(self.numbers.uniform(0.1, 0.5))
            if self.numbers.random() < 0.7:
                with self.lock:
                    pids = sorted(self.running)
                    if pids:
                        number = self.numbers.choice((signal.SIGKILL, signal.SIGKILL, signal.SIGINT, signal.SIGTERM))
                        with contextlib.suppress(ProcessLookupError):
                            os.kill(self.numbers.choice(pids), number)
                        self.figures["kills" if number == signal.SIGKILL else "interrupted"] += 1
            elif self.disk.is_small:
                self.disk.fill(self.numbers.randrange(0, 60000))
                time.sleep(self.numbers.uniform(0.2, 0.8))
                self.disk.free()
                self.figures["full disks"] += 1
            else:
                self.is_limited.set()
                time.sleep(self.numbers.uniform(0.2, 0.8))
                self.is_limited.clear()
                self.figures["full disks"] += 1
        self.stop(threads)
        if self.planted == "memory":
            self.kept = getattr(self, "kept", b"") + b"x" * (2 << 20)
        if self.is_there() and self.spoils():
            with contextlib.closing(sqlite3.connect(self.database, isolation_level=None)) as connection:
                connection.execute("DELETE FROM sketches")
        self.verify()
        self.watch("Python that reads the database", os.getpid())
        if self.is_full() or len(list(self.disk.place.iterdir())) > 60:
            self.start_again()

    def verify(self):
        if not self.is_there():
            self.compare([], {})
            return
        images = rows_of(self.database)
        listed = [int(key[5:]) for key in images if key.startswith("done ")]
        self.compare(listed, {key: images.get("key %d" % key) for key in range(KEYS)})
        wanted = bytes(max(values) for values in zip(*self.registers.values()))
        with Database(self.database) as database:
            for fault in database.faults():
                self.fault("the database is damaged: %s" % (fault,))
            for _ in range(20):
                found = dict(database.union(where="key LIKE 'key %'"))
        self.same("the union of a database", found[()].to_bytes() if found else None, wanted)
        remove(self.merged)
        if self.hll("merge databases", ["merge", self.database, self.other, "-o", self.merged]) == 0:
            merged = rows_of(self.merged)
            if set(merged) - {"other", "key 0"} != set(images) - {"key 0"}:
                self.fault("a merge has other keys")
            for key in range(1, KEYS):
                self.same("key %d of a merge" % key, merged.get("key %d" % key), self.registers[key])

    def end(self):
        pass
