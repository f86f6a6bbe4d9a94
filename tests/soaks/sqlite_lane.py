# SPDX-License-Identifier: Apache-2.0
"""SQLite: processes add to one database at the same time. One of them is killed again and again, queries are interrupted, and the
disk is full from time to time."""
import pathlib
import sqlite3
import subprocess
import sys
import time

from lanes import CONFIRMED, FAILED, KEYS, UNKNOWN, Disk, Lane

HERE = pathlib.Path(__file__).resolve().parent
EXTENSION = HERE.parent.parent / "bindings" / "sqlite" / "build" / "hll_sketches"


class Worker:
    """A process with a connection, which ends when it is killed."""

    def __init__(self, database, mode):
        self.process = subprocess.Popen([sys.executable, "-B", HERE / "sqlite_worker.py", database, EXTENSION, mode], stdin=subprocess.PIPE,
                                        stdout=subprocess.PIPE, stderr=subprocess.DEVNULL, text=True)
        self.process.stdout.readline()

    def ask(self, *words):
        """The line that answers a command, or None if the process was killed."""
        try:
            self.process.stdin.write(" ".join(map(str, words)) + "\n")
            self.process.stdin.flush()
            return self.process.stdout.readline().strip() or None
        except (OSError, ValueError):
            return None

    def kill(self):
        self.process.kill()
        self.process.wait()


class Sqlite(Lane):
    name = "SQLite"

    def begin(self):
        self.disk = Disk(self.folder / "disk", 48)
        self.path = self.disk.place / "soak.db"
        self.mode = self.numbers.choice(("WAL", "DELETE"))
        connection = self.connect()
        connection.executescript("""
            CREATE TABLE daily (key INTEGER PRIMARY KEY, image BLOB NOT NULL CHECK (hll_is_image(image)));
            CREATE TABLE done (batch INTEGER PRIMARY KEY);
            CREATE TABLE many (image BLOB NOT NULL);
            INSERT INTO many WITH RECURSIVE n(i) AS (SELECT 1 UNION ALL SELECT i + 1 FROM n WHERE i < 200000)
                SELECT hll_add_agg(i) FROM n GROUP BY i % 400""")
        connection.close()
        self.start_again()
        self.steady, self.victim, self.reader = (Worker(self.path, self.mode) for _ in range(3))
        self.merged = self.reader.ask("merge", 0, 1)

    def connect(self):
        connection = sqlite3.connect(self.path, isolation_level=None, timeout=60)
        connection.enable_load_extension(True)
        connection.load_extension(str(EXTENSION))
        return connection

    def start_again(self):
        """Empties all sketches."""
        connection = self.connect()
        connection.execute("BEGIN IMMEDIATE")
        connection.execute("DELETE FROM done")
        connection.execute("DELETE FROM daily")
        for key in range(KEYS):
            connection.execute("INSERT INTO daily VALUES (?, hll_image_empty(12, ?))", (key, (4, 6, 8)[key % 3]))
        connection.execute("COMMIT")
        connection.close()
        self.empty()

    def add_by(self, worker):
        batch = self.new_batch()
        is_short = self.numbers.random() < 0.1
        told = worker.ask("add", self.numbers.randrange(1, 8) if is_short else 0, batch.number, batch.key, batch.first, batch.count)
        self.settle(batch, UNKNOWN if told is None else CONFIRMED if told == "ok" else FAILED)
        if told and told != "ok":
            known = {"no interrupted": "interrupted", "no database or disk is full": "disk full", "no disk I/O error": "disk full",
                     "no unable to open database file": "disk full", "no database is locked": "locked"}
            if told not in known:
                self.fault("an addition failed: %s" % told)
            self.figures[known.get(told, told)] += 1
        self.wait(self.numbers.uniform(0, 0.1))
        return told is not None

    def add_steadily(self):
        self.add_by(self.steady)

    def add_until_killed(self):
        if not self.add_by(self.victim):
            self.victim = Worker(self.path, self.mode)

    def merge(self):
        times = self.numbers.choice((1, 2, 20, 60))
        told = self.reader.ask("merge", self.numbers.choice((0, 5, 50, 200)), times)
        if told == "no interrupted":
            self.figures["interrupted"] += 1
        elif told is None or (told != self.merged and "disk" not in told and "open" not in told and "locked" not in told):
            self.fault("the union of many is %s" % told)
        self.figures["unions"] += told == self.merged
        self.wait(self.numbers.uniform(0, 0.1))

    def round(self, seconds):
        threads, end = self.at_once(seconds, self.add_steadily, self.add_until_killed, self.merge)
        while time.monotonic() < end:
            time.sleep(self.numbers.uniform(0.2, 1.2))
            if self.numbers.random() < 0.5:
                self.victim.kill()
                self.figures["kills"] += 1
            elif self.disk.is_small and self.numbers.random() < 0.5:
                self.disk.fill(self.numbers.randrange(0, 60000))
                time.sleep(self.numbers.uniform(0.1, 0.8))
                self.disk.free()
                self.figures["full disks"] += 1
        self.stop(threads)
        if not self.disk.is_small:
            self.steady.ask("limit", self.path.stat().st_size)
            self.add_by(self.steady)
            self.steady.ask("limit", 0)
            self.figures["full disks"] += 1
        if self.planted == "memory":
            self.steady.ask("keep", 2 << 20)
        if self.spoils():
            connection = self.connect()
            connection.execute("UPDATE daily SET image = hll_image_empty(12)")
            connection.close()
        self.verify()
        self.watch("a connection that adds", self.steady.process.pid)
        self.watch("a connection that merges", self.reader.process.pid)
        if self.is_full():
            self.start_again()

    def verify(self):
        connection = self.connect()
        (state,) = connection.execute("PRAGMA integrity_check").fetchone()
        if state != "ok":
            self.fault("the database: %s" % state)
        connection.execute("BEGIN")
        listed = [number for number, in connection.execute("SELECT batch FROM done")]
        images = dict(connection.execute("SELECT key, image FROM daily"))
        connection.execute("COMMIT")
        connection.close()
        self.compare(listed, images)

    def end(self):
        for worker in (self.steady, self.victim, self.reader):
            worker.kill()
