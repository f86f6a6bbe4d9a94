# SPDX-License-Identifier: Apache-2.0
"""PostgreSQL: sessions add to one table and merge at the same time, while queries are cancelled, backends and the whole server are
killed, and the disk is full from time to time. The server is one of its own (bindings/postgresql/tests/server.py)."""
import os
import pathlib
import signal
import subprocess
import sys
import tempfile
import time

from lanes import CONFIRMED, FAILED, KEYS, UNKNOWN, Disk, Lane

sys.path.insert(0, str(pathlib.Path(__file__).resolve().parent.parent.parent / "bindings" / "postgresql" / "tests"))
from server import Server, Session  # noqa: E402

SETTINGS = """
shared_buffers = 32MB
max_wal_size = 64MB
min_wal_size = 32MB
checkpoint_timeout = 30s
autovacuum = on
autovacuum_naptime = 5s
fsync = on
min_parallel_table_scan_size = 0
parallel_setup_cost = 0
parallel_tuple_cost = 0
"""
ADD = """WITH added AS (UPDATE daily SET image = image || (SELECT hyperloglog_agg(value) FROM generate_series(%d::int8, %d) value)
WHERE key = %d RETURNING 1) INSERT INTO done SELECT %d FROM added;
\\echo state :SQLSTATE"""
READ = """SELECT (SELECT string_agg(batch::text, ',') FROM done), (SELECT string_agg(key || ':' || image::bytea::text, ',') FROM daily);
\\echo state :SQLSTATE"""
MERGE = """SELECT md5(hyperloglog_union_agg(image)::bytea) FROM many, generate_series(1, %d);
\\echo state :SQLSTATE"""
OK, FULL, LOST = "00000", "53100", "lost"
# errors of a server that has no space left, ends or begins: each leaves nothing of a statement
PASSING = {"58030": "disk full", "53100": "disk full", "57014": "cancelled", "57P01": "ended", "57P02": "ended", "57P03": "ended", "40P01": "deadlock"}


class Postgresql(Lane):
    name = "PostgreSQL"

    def begin(self):
        self.folder.chmod(0o755)
        self.disk = Disk(self.folder / "disk", 600)
        tempfile.tempdir = str(self.disk.place)
        self.server = Server(SETTINGS).__enter__()
        self.server.ask("""
            CREATE EXTENSION hll_sketches;
            CREATE TABLE daily (key int PRIMARY KEY, image hyperloglog(12) NOT NULL);
            CREATE TABLE done (batch int PRIMARY KEY);
            CREATE TABLE many AS SELECT hyperloglog_agg(i) AS image FROM generate_series(1, 400000) i GROUP BY i % 800;
            ANALYZE""")
        self.start_again()
        self.sessions = {}
        self.merged = self.told_by("first", MERGE % 1)[1]

    def start_again(self):
        """Empties all sketches."""
        rows = ", ".join("(%d, hyperloglog_empty(12, %d))" % (key, (4, 6, 8)[key % 3]) for key in range(KEYS))
        self.server.ask("BEGIN; TRUNCATE daily, done; INSERT INTO daily VALUES %s; COMMIT" % rows)
        self.empty()

    # ---- sessions

    def session(self, name):
        """The session of this name, opened if it isn't open. None if the server isn't up."""
        if self.sessions.get(name) is None:
            try:
                self.sessions[name] = Session(self.server)
            except (RuntimeError, OSError, ValueError):
                return None
        return self.sessions[name]

    def told_by(self, name, sql):
        """The SQLSTATE of a statement, and its row; LOST if the session has ended, or None if there is none."""
        session = self.session(name)
        if session is None:
            return None, ""
        try:
            row, _, state = session.ask(sql).rpartition("state ")
        except (RuntimeError, OSError):
            state = ""
        if not state:       # psql has none for the end of a connection
            self.close(name)
            return LOST, ""
        # (before a row it may be that the server ends the connection)
        return state, row.strip().rpartition("\n")[2] if state == OK else row

    def close(self, name):
        session = self.sessions.pop(name, None)
        if session is not None:
            try:
                session.__exit__()
            except OSError:
                session.process.kill()
                session.process.wait()

    def note(self, state, told):
        """Counts an error of a statement; one that isn't known is a fault."""
        if "could not write init file" in told:     # of a backend that begins while the disk is full: PostgreSQL has no code for it
            state = FULL
        if state not in PASSING:
            self.fault("a statement failed with SQLSTATE %s: %s" % (state, told))
        self.figures[PASSING.get(state, state)] += 1

    def add_by(self, name):
        if self.session(name) is None:
            self.wait(0.1)
            return
        batch = self.new_batch()
        state, told = self.told_by(name, ADD % (batch.first, batch.first + batch.count - 1, batch.key, batch.number))
        self.settle(batch, CONFIRMED if state == OK else UNKNOWN if state in (LOST, None) else FAILED)
        if state not in (OK, LOST, None):
            self.note(state, told)
        self.wait(self.numbers.uniform(0, 0.1))

    def add_first(self):
        self.add_by("first")

    def add_second(self):
        self.add_by("second")

    def merge(self):
        state, row = self.told_by("reader", MERGE % self.numbers.choice((1, 10, 50)))
        if state == OK and row != self.merged:
            self.fault("the union of many is %s" % row)
        self.figures["unions"] += state == OK
        if state not in (OK, LOST, None):
            self.note(state, row)
        self.wait(self.numbers.uniform(0, 0.2))

    # ---- what goes wrong

    def cancel(self):
        """Cancels what a session is doing."""
        name = self.numbers.choice(("first", "reader", "reader"))
        session = self.sessions.get(name)
        if session is not None:
            self.server.run("SELECT pg_cancel_backend(%d)" % session.pid)
            self.figures["cancels"] += 1

    def terminate(self):
        session = self.sessions.get("second")
        if session is not None:
            self.server.run("SELECT pg_terminate_backend(%d)" % session.pid)
            self.figures["kills"] += 1

    def kill_backend(self):
        """Without a word: the server ends all its backends and recovers."""
        session = self.sessions.get(self.numbers.choice(("first", "second", "reader")))
        if session is not None:
            try:
                os.kill(session.pid, signal.SIGKILL)
            except ProcessLookupError:
                return
            self.figures["kills"] += 1
            self.figures["recoveries"] += 1

    def kill_server(self):
        self.server.process.kill()
        self.server.process.wait()
        self.figures["kills"] += 1
        self.figures["recoveries"] += 1
        self.come_up()

    def fill_disk(self):
        if self.disk.is_small:
            self.disk.fill(self.numbers.randrange(0, 400000))
            time.sleep(self.numbers.uniform(0.2, 1.0))
            self.disk.free()
        else:
            self.limit_files("0")
            time.sleep(self.numbers.uniform(0.2, 1.0))
            self.limit_files("unlimited")
        self.figures["full disks"] += 1

    def limit_files(self, most):
        """Where no small disk can be mounted: no process of the server can make a file longer than this."""
        told = subprocess.run(["pgrep", "-P", str(self.server.process.pid)], stdout=subprocess.PIPE, text=True).stdout
        for pid in [str(self.server.process.pid), *told.split()]:
            subprocess.run(["prlimit", "--pid", pid, "--fsize=%s:" % most], stderr=subprocess.DEVNULL)

    def come_up(self):
        """Waits until the server is up, and starts it if it has ended."""
        for _ in range(120):
            try:
                self.server.await_start()
                return
            except RuntimeError:
                if self.server.process.poll() is not None:
                    self.server.run_server()
            time.sleep(0.5)
        raise RuntimeError("the server doesn't come up")

    # ---- a round

    def round(self, seconds):
        threads, end = self.at_once(seconds, self.add_first, self.add_second, self.merge)
        is_quiet = self.figures["rounds"] % 15 > 3      # in most rounds backends live on, so their memory can be compared
        while time.monotonic() < end:
            time.sleep(self.numbers.uniform(0.1, 0.8))
            if is_quiet or self.numbers.random() < 0.5:
                self.numbers.choice((self.cancel, self.cancel, self.cancel, self.terminate))()
            else:
                self.numbers.choice((self.kill_backend, self.kill_server, self.fill_disk, self.fill_disk))()
        self.stop(threads)
        self.come_up()
        if self.planted == "memory" and self.session("reader"):
            self.sessions["reader"].ask("SET work_mem = '1GB'; PREPARE grown%d AS SELECT '%s'::text;" % (self.figures["rounds"], "x" * (2 << 20)))
        if self.spoils():
            self.server.ask("UPDATE daily SET image = hyperloglog_empty(12)")
        self.verify()
        for name, title in (("first", "a backend that adds"), ("reader", "a backend that merges")):
            if self.sessions.get(name) is not None:
                self.watch(title, self.sessions[name].pid)
        self.watch("the server", self.server.process.pid)
        if self.is_full():
            self.start_again()

    def verify(self):
        for _ in range(5):
            state, row = self.told_by("verifier", READ)
            if state == OK:
                break
            self.come_up()
        else:
            self.fault("nothing can be read: %s" % state)
            return
        listed, _, images = row.partition("|")
        found = dict(one.split(":") for one in images.split(","))
        self.compare([int(number) for number in listed.split(",") if number], {int(key): bytes.fromhex(image[2:]) for key, image in found.items()})

    def end(self):
        for name in list(getattr(self, "sessions", {})):
            self.close(name)
        if hasattr(self, "server"):
            self.server.__exit__()
