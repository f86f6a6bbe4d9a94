# SPDX-License-Identifier: Apache-2.0
"""The commands of `hll` on databases of keys, and what is left when they are killed, or their disk is full or fails."""
import gzip
import json
import os
import random
import resource
import shutil
import signal
import sqlite3
import subprocess
import sys
import time
import unittest
from unittest import mock

import common  # noqa: F401, for the path
import month
from command import COMMAND, CommandTest, environment, other_user
from hll_sketches import Database, DatabaseError, Sketch, _library, cli, counting, files
from hll_sketches import database as module
from hll_sketches import keyed
from hll_sketches.lines import COLUMNS, Layout, Part, Reader

KEY = ["--key", "day=1,page=2", "--value", "3"]
LOG = b"mon\t/a\tann\nmon\t/a\tbob\nmon\t/b\tann\ntue\t/a\tcid\ntue\t\tdan\n"


def sketch_of(values, lg_k=12, width=8):
    made = Sketch(lg_k, width)
    made.update_many(values)
    return made


class KeyedTest(CommandTest):
    def items(self, name="a.db"):
        """The keys and sketches of a database that is in order."""
        with Database(str(self.folder / name)) as database:
            self.assertEqual(list(database.faults()), [])
            return dict(database.items())

    def begin(self, name="a.db", given=LOG, *more):
        """Makes a database of a log."""
        self.succeeds("add", "--db", name, *KEY, *more, given=given)


class AddTest(KeyedTest):
    WANTED = {("mon", "/a"): ["ann", "bob"], ("mon", "/b"): ["ann"], ("tue", "/a"): ["cid"], ("tue", ""): ["dan"]}

    def test_forms(self):
        wanted = {key: sketch_of(values) for key, values in self.WANTED.items()}
        rows = [line.split("\t") for line in LOG.decode().splitlines()]
        self.write("a.tsv.gz", gzip.compress(LOG))
        self.write("a.csv", ("\ufeffday,page,user\r\n" + "".join('%s,"%s",%s\r\n' % tuple(row) for row in rows)).encode())
        self.write("a.jsonl", "".join(json.dumps({"day": row[0], "page": row[1] or None, "user": row[2]}) + "\n" for row in rows).encode())
        self.write("a.txt", LOG.replace(b"\t", b"::"))
        for number, words in enumerate((
            [*KEY, "a.tsv.gz"], ["--csv", "--key", "day,page", "--value", "user", "a.csv"],
            ["--jsonl", "a.jsonl", "--key", "day,page", "--value", "user"], [*KEY, "--separator", "::", "a.txt"],
        )):
            self.succeeds("add", "--db", "%d.db" % number, *words)
            self.assertEqual(self.items("%d.db" % number), wanted)
        self.succeeds("add", "--db", "0.db", "--csv", "--value", "user", "a.csv")       # the columns that the database has
        self.assertEqual(self.items("0.db"), wanted)
        self.assertEqual(self.read("0.db")[100:], self.read("1.db")[100:])

    def test_settings(self):
        self.begin("a.db", LOG, "--lg-k", "9", "--width", "4")
        self.assertEqual({(one.lg_k, one.width) for one in self.items().values()}, {(9, 4)})
        self.begin()
        self.begin("int.db", b"a\tb\t7\n", "--int")
        self.assertEqual(self.items("int.db"), {("a", "b"): sketch_of([7])})
        self.begin("cut.db", b"2026-11-01T09\t/a\tann\n" + "東京都\t/a\tann\n".encode(), "--key", "day=1[:2],page=2")
        self.assertEqual(set(self.items("cut.db")), {("20", "/a"), ("東京", "/a")})
        status, out, err = self.run_hll("add", "--db", "a.db", *KEY, "--skip-empty-key", "-v", "--json", given=LOG + b"mon\t/a\t\n")
        self.assertRegex(err, r"\Ahll: left out 1 of 6 lines: no value\nhll: left out 1 of 6 lines: a part of the key is empty\n"
                         r"hll: counted 4 of 6 lines of 1 input, 3 keys, in \d+\.\d s\n\Z")
        self.assertEqual((status, json.loads(out)), (0, {"output": "a.db", "lines": 4, "left_out": 2, "keys": 3}))
        self.begin("bytes.db", b"\xff\t/a\tann\n")
        self.assertEqual(set(self.items("bytes.db")), {(b"\xff", "/a")})

    def test_beyond_memory(self):
        """What doesn't fit goes to the disk, and the result is the same."""
        numbers = random.Random(4)
        log = b"".join(b"%d\t%d\t%d\n" % (numbers.randrange(9), numbers.randrange(50) ** 2, n) for n in range(20_000))
        self.begin("a.db", log)
        for memory in ("0", "20K", "1M"):
            self.begin("b.db", log, "--memory", memory)
            self.assertEqual(self.succeeds("dump", "b.db"), self.succeeds("dump", "a.db"))
            (self.folder / "b.db").unlink()

    def test_rejected(self):
        """Nothing is made or changed."""
        self.begin()
        before = self.read("a.db")
        self.write("one.hll", Sketch().to_bytes())
        self.write("short.tsv", b"a\tb\tc\nd\t7\n")
        bad = r"short.tsv: line 2 has too few columns (2, and --value is column 3: $'d\t7')"
        for status, words, more in (
            (1, "a.db: it has keys day, page, and not day", ["--db", "a.db", "--key", "day=1", "--value", "2"]),
            (1, "a.db: it has lg_k 12, and not 14: hll fold changes it", ["--db", "a.db", *KEY, "--lg-k", "14"]),
            (1, "a.db: it has width 8, and not 4: hll convert changes it", ["--db", "a.db", *KEY, "--width", "4"]),
            (1, "one.hll: it is one sketch, and not a database of keys (hll add FILE, hll estimate FILE)", ["--db", "one.hll", *KEY]),
            (1, f"{bad}: nothing was counted (--skip-bad leaves such lines out)", ["--db", "a.db", *KEY, "short.tsv"]),
            (1, f"{bad}: nothing was counted (--skip-bad leaves such lines out)", ["--db", "new.db", *KEY, "short.tsv"]),
            (2, "none/new.db: No such file or directory", ["--db", "none/new.db", *KEY]),
            (2, "none: No such file or directory", ["--db", "new.db", *KEY, "none"]),
        ):
            self.fails(status, [words], "add", *more, given=LOG)
        self.assertEqual((self.read("a.db"), self.listed()), (before, ["a.db", "one.hll", "short.tsv"]))
        for words, said in (
            (["add", "--db", "new.db", "--value", "3"], "a new database needs --key"), (["add", "--key", "a=1", "x"], "--key goes with --db"),
            (["add", "--db", "a.db", "--key", "day=1,page=2"], "--value COLUMN says what is counted"),
            (["add", "--db", "a.db", "--value", "3"], "a column is a number from 1, not 'day'"),
            (["add", "--db", "-", *KEY], "a database is a file, and can't be -"), (["add", "--db", "a.db", *KEY, "--create"], "--create and --db"),
            (["add", "--db", "n.db", "--key", "image=1", "--value", "2"], "none is image or checksum"),
            (["add", "--db", "n.db", "--key", "a=1,A=2", "--value", "2"], "distinct names"),
            (["add", "--db", "n.db", "--key", "a=1[2]", "--value", "2"], "NAME=COLUMN[:LENGTH], not 'a=1[2]'"),
            (["add", "a.hll", "--lg-k", "9"], "--lg-k and --width go with --db or --create"), (["drop", "a.db"], "--where"),
        ):
            status, out, err = self.run_hll(*words, given=LOG)
            self.assertEqual((status, out), (2, b""), words)
            self.assertIn(said, err)
        self.assertEqual((self.read("a.db"), self.listed()), (before, ["a.db", "one.hll", "short.tsv"]))

    def test_create(self):
        """A sketch is made where `--create` allows it, by any number of commands at once."""
        self.fails(2, ["new.hll: No such file or directory (--create makes it)"], "add", "new.hll", given=b"a\n")
        running = [subprocess.Popen([*COMMAND, "add", "new.hll", "--create", "--lg-k", "11", "--width", "6"], stdin=subprocess.PIPE,
                                    cwd=self.folder, env=environment()) for _ in range(5)]
        for number, one in enumerate(running):
            one.stdin.write(b"%d\n" % number)
            one.stdin.close()
        self.assertEqual([one.wait() for one in running], [0] * 5)
        self.assertEqual(Sketch.read(self.folder / "new.hll"), sketch_of([b"%d" % number for number in range(5)], 11, 6))
        self.fails(1, ["new.hll: it has lg_k 11, and not 12"], "add", "new.hll", "--create", "--lg-k", "12")
        self.write("empty.hll", b"")
        self.succeeds("add", "empty.hll", "--create", given=b"a\n")
        self.assertEqual(Sketch.read(self.folder / "empty.hll"), sketch_of(["a"]))


class CountTest(KeyedTest):
    def test_count(self):
        self.assertEqual(self.succeeds("count", given=b"a\nb\na\n"), b"2\n")
        self.assertEqual(self.succeeds("count", "--value", "3", given=LOG), b"4\n")
        self.assertEqual(self.succeeds("count", "--value", "3", "--by", "day=1", given=LOG), b"2\tmon\n2\ttue\n")
        self.assertEqual(self.succeeds("count", "--value", "3", "--by", "page=2", "--top", "1", given=LOG), b"3\t/a\n")
        found = json.loads(self.succeeds("count", "--json", "--value", "3", "--by", "page=2", given=LOG))
        self.assertEqual([(one["page"], round(one["estimate"])) for one in found], [("", 1), ("/a", 3), ("/b", 1)])
        self.assertEqual(self.succeeds("count", "--bounds", given=b"a\n"), b"1\t1\t1\n")
        out = self.succeeds("count", "--table", "--value", "3", "--by", "day=1", given=LOG).decode().split("\n")
        self.assertEqual(out[0].split(), ["estimate", "lower", "upper", "day"])
        self.assertEqual(self.succeeds("count", "--int", given=b"7\n 7\r\n"), b"1\n")
        self.assertEqual(self.listed(), [])


class ReadTest(KeyedTest):
    def setUp(self):
        super().setUp()
        self.begin()

    def test_estimate(self):
        for words, wanted in (
            ([], "2\tmon\t/a\n1\tmon\t/b\n1\ttue\t\n1\ttue\t/a\n"), (["--by", "page"], "1\t\n3\t/a\n1\t/b\n"), (["--by", ""], "4\n"),
            (["--by", "first=substr(page, 1, 1),day"], "2\t/\tmon\n1\t\ttue\n1\t/\ttue\n"), (["--top", "1"], "2\tmon\t/a\n"),
            (["--where", "day = 'mon' AND page = '/b'"], "1\tmon\t/b\n"), (["--where", "day = 'mon' -- all", "--by", ""], "2\n"),
            (["--by", "page||','"], "1\t,\n3\t/a,\n1\t/b,\n"),
            (["--by", "x=coalesce(nullif(page, ('/a')), 'a,('),day"], "1\t\ttue\n1\t/b\tmon\n2\ta,(\tmon\n1\ta,(\ttue\n"),
            (["--bounds", "--by", ""], "4\t4\t4\n"), (["--by", "week(day)"], "4\t\n"),
        ):
            out = self.succeeds("estimate", "a.db", *words).decode()
            self.assertEqual(sorted(out.split("\n")), sorted(wanted.split("\n")), words)
        found = json.loads(self.succeeds("estimate", "--json", "a.db", "--by", "week=week(day)"))
        self.assertEqual([(one["week"], round(one["estimate"])) for one in found], [(None, 4)])
        self.assertEqual(self.succeeds("estimate", "--json", "a.db", "--top", "0"), b"[]\n")
        out = self.succeeds("estimate", "--table", "a.db").decode().split("\n")
        self.assertEqual((out[0].split(), len(out)), (["estimate", "lower", "upper", "day", "page"], 6))
        self.fails(1, ["a.db: no key is chosen"], "estimate", "a.db", "--where", "day = 'sun'")
        self.fails(2, ["a.db: no such column: dya (its columns: day, page)"], "estimate", "a.db", "--where", "dya = 'sun'")
        self.fails(2, ["a.db: a database of keys is estimated alone"], "estimate", "a.db", "a.db")
        self.write("one.hll", Sketch().to_bytes())
        self.fails(2, ["one.hll: it is no database of keys, which --by is for"], "estimate", "one.hll", "--by", "day")

    def test_weeks_and_months(self):
        days = ["2026-11-01", "2026-11-02", "2026-12-31", "2027-01-03", "2027-01-04", "none", "2026-11-31"]
        self.begin("days.db", "".join(f"{day}\tx\t{day}\n" for day in days).encode())
        out = self.succeeds("estimate", "days.db", "--by", "week=week(day)").decode()
        self.assertEqual(out, "2\t\n1\t2026-W44\n1\t2026-W45\n2\t2026-W53\n1\t2027-W01\n")
        self.assertEqual(self.succeeds("estimate", "days.db", "--by", "month(day)").decode(), "2\t\n2\t2026-11\n1\t2026-12\n2\t2027-01\n")

    def test_get(self):
        self.succeeds("get", "a.db", "--where", "page = '/a'", "-o", "one.hll")
        self.assertEqual(Sketch.read(self.folder / "one.hll"), sketch_of(["ann", "bob", "cid"]))
        self.assertEqual(Sketch.from_bytes(self.succeeds("get", "a.db", "-o", "-")), sketch_of(["ann", "bob", "cid", "dan"]))
        self.fails(1, ["a.db: no key is chosen"], "get", "a.db", "--where", "0", "-o", "two.hll")
        self.fails(2, ["a.db: it is a database, and a sketch would replace it (--force replaces it)"], "get", "a.db", "-o", "a.db")
        self.assertEqual(self.listed(), ["a.db", "one.hll"])

    def test_drop(self):
        self.assertEqual(self.run_hll("drop", "a.db", "--where", "day = 'mon'"), (0, b"", "hll: 2 keys are removed, and 2 are left\n"))
        self.assertEqual(set(self.items()), {("tue", ""), ("tue", "/a")})
        self.assertEqual(self.run_hll("drop", "a.db", "--where", "day = 'mon'"), (1, b"", "hll: 0 keys are removed, and 2 are left\n"))
        self.fails(2, ["a.db: no such column: x (its columns: day, page)"], "drop", "a.db", "--where", "x = 1")

    def test_dump_and_load(self):
        """Equal databases print equal bytes, and what is loaded is equal."""
        self.begin("a.db", b"\xff\t'\"\xe2\x98\x83\tx\n")
        lines = self.succeeds("dump", "a.db")
        for name in ("b.db", "b.db"):
            self.succeeds("load", name, given=lines)
            self.assertEqual(self.items("b.db"), self.items())
            self.assertEqual(self.succeeds("dump", name), lines)
        self.assertEqual(len(self.succeeds("dump", "a.db", "--where", "day = 'mon'").splitlines()), 3)
        head, first, *_ = lines.split(b"\n")
        other = json.loads(first)
        other[-1] = sketch_of([1], 11).to_bytes().hex()
        for data, words in (
            (b"", "line 1 is no first line of hll dump"), (b"[]\n", "line 1 is no first line of hll dump"),
            (head + b"\nx\n", "line 2 is no line of hll dump"), (head + b"\n[1, 2, 3]\n", "line 2 is no line of hll dump"),
            (head + b'\n["a", "b", "c", "00"]\n', "line 2 is no line of hll dump"),
            (head + b'\n["a", "b", "0201"]\n', "line 2 has a sketch that is rejected (truncated)"),
            (head + b"\n" + first + b"\n" + json.dumps(other).encode(), "line 3 has a sketch that is rejected (lg_k 11, and not 12)"),
        ):
            self.fails(1, [f"standard input: {words}: nothing was counted"], "load", "b.db", given=data)
        self.assertEqual(self.succeeds("dump", "b.db"), lines)

    def test_commands_for_sketches(self):
        """They name the command to use."""
        words = "it is a database, and not a sketch (hll get makes a sketch of one of keys, and hll add --db adds to it)"
        for command in ("info a.db", "diff a.db a.db", "add a.db"):
            status, out, err = self.run_hll(*command.split())
            self.assertEqual((out, err), (b"", f"hll: a.db: {words}\n"))
        self.write("all/one.hll", Sketch().to_bytes())
        shutil.copy(self.folder / "a.db", self.folder / "all")
        self.fails(1, [f"all/a.db: {words}"], "merge", "all", "-o", "x")

    def test_check(self):
        self.write("one.hll", b"\2\1")
        with sqlite3.connect(self.folder / "a.db") as connection:
            connection.execute("UPDATE sketches SET checksum = 7 WHERE page = '/b'")
        connection.close()
        status, out, err = self.run_hll("check", ".")
        wanted = b"./a.db: the sketch of (mon, /b) or its key has changed: its checksum is another\n" \
            b"./one.hll: image truncated (the bytes end inside what the header asks for)\n"
        self.assertEqual((status, out, err), (1, wanted, ""))
        found = json.loads(self.run_hll("check", "--json", "a.db")[1])
        self.assertEqual(found, {"checked": 1, "refused": [{"file": "a.db", "reason": "checksum"}]})


class MergeTest(KeyedTest):
    def test_merge(self):
        """Key by key, into a new file or into one of the inputs, some at a time."""
        numbers = random.Random(8)
        logs = [b"".join(b"%d\t%d\t%d\n" % (numbers.randrange(3), numbers.randrange(20), numbers.randrange(500)) for _ in range(200)) for _ in range(7)]
        names = []
        for number, log in enumerate(logs):
            self.begin("%d.db" % number, log)
            names.append("%d.db" % number)
        self.begin("all.db", b"".join(logs))
        wanted = self.succeeds("dump", "all.db")
        self.succeeds("merge", *names, "-o", "b.db")
        self.assertEqual(self.succeeds("dump", "b.db"), wanted)
        out = self.succeeds("merge", "--json", "0.db", *names[:4], "-o", "0.db")
        self.assertEqual(json.loads(out), {"output": "0.db", "keys": len(self.items("0.db")), "merged": 5})
        with mock.patch.object(keyed, "TOGETHER", 2), mock.patch.object(cli, "_settled"):
            place = os.getcwd()
            os.chdir(self.folder)
            try:
                self.assertEqual(cli._run(["merge", *names, "-o", "0.db"]), 0)
            finally:
                os.chdir(place)
        self.assertEqual(self.succeeds("dump", "0.db"), wanted)
        self.succeeds("merge", *names, "-o", "narrow.db", "--width", "4")
        self.assertEqual({one.width for one in self.items("narrow.db").values()}, {4})
        self.assertEqual(self.items("narrow.db"), {key: one.convert(4) for key, one in self.items("all.db").items()})

    def test_few_descriptors(self):
        names = []
        for number in range(60):
            names.append("%d.db" % number)
            with Database(str(self.folder / names[-1]), ["day", "page"]) as database:
                database.update([(("a", str(number % 7)), sketch_of([number]))])
        limited = lambda: resource.setrlimit(resource.RLIMIT_NOFILE, (40, 40))  # noqa: E731
        self.assertEqual(self.run_hll("merge", *names, "-o", "all.db", preexec_fn=limited), (0, b"", ""))
        self.assertEqual(sum(one.num_coupons for one in self.items("all.db").values()), 60)

    def test_rejected(self):
        self.begin()
        self.begin("b.db")
        self.begin("14.db", LOG, "--lg-k", "14")
        self.succeeds("add", "--db", "keys.db", "--key", "day=1", "--value", "2", "--keep-empty", given=LOG)
        self.write("one.hll", Sketch().to_bytes())
        before = {name: self.read(name) for name in self.listed()}
        for status, words, more in (
            (2, "b.db: it exists: name it among the inputs to merge into it", ["a.db", "a.db", "-o", "b.db"]),
            (1, "14.db: it has lg_k 14, and a.db has 12: hll fold --lg-k 12 makes both alike", ["a.db", "14.db", "-o", "x.db"]),
            (1, "keys.db: it has the keys day, and a.db has day, page: nothing was merged", ["a.db", "keys.db", "-o", "a.db"]),
            (1, "one.hll: it is one sketch, and not a database of keys (hll add FILE, hll estimate FILE)", ["a.db", "one.hll", "-o", "a.db"]),
            (1, "one.hll: it is one sketch, and not a database of keys (hll add FILE, hll estimate FILE)", ["one.hll", "a.db", "-o", "x.db"]),
            (2, "a.db: it is a database of keys, and --lg-k doesn't go with databases", ["a.db", "14.db", "--lg-k", "12", "-o", "x.db"]),
            (2, "a.db: it is a database, and a sketch would replace it (--force replaces it)", ["one.hll", "one.hll", "-o", "a.db"]),
            (2, "none/x.db: No such file or directory", ["a.db", "b.db", "-o", "none/x.db"]),
        ):
            self.fails(status, [words], "merge", *more)
        self.assertEqual({name: self.read(name) for name in self.listed()}, before)

    def test_fold_and_convert(self):
        self.begin("a.db", b"".join(b"a\tb\t%d\n" % n for n in range(9000)) + LOG)
        before = self.items()
        self.succeeds("fold", "a.db", "--lg-k", 7, "-o", "7.db")
        self.assertEqual(self.items("7.db"), {key: one.fold(7) for key, one in before.items()})
        out = self.succeeds("convert", "a.db", "--width", 4, "-o", "4.db", "--json")
        self.assertEqual(json.loads(out), {"output": "4.db", "keys": 5, "lg_k": 12, "width": 4})
        self.assertEqual(self.items("4.db"), {key: one.convert(4) for key, one in before.items()})
        self.fails(1, ["a.db: its lg_k is 12, and a fold goes no higher"], "fold", "a.db", "--lg-k", 13, "-o", "13.db")
        self.fails(2, ["4.db: File exists"], "convert", "a.db", "--width", 4, "-o", "4.db")
        self.assertEqual((self.items(), self.listed()), (before, ["4.db", "7.db", "a.db"]))

    def test_a_making_that_fails(self):
        """It leaves a database without keys, which the next command fills."""
        self.begin("a.db", b"".join(b"a\t%d\t%d\n" % (n, n) for n in range(2000)))
        limited = lambda: (signal.signal(signal.SIGXFSZ, signal.SIG_IGN),  # noqa: E731
                           resource.setrlimit(resource.RLIMIT_FSIZE, (40_000, 40_000)))
        for words in (["merge", "a.db", "a.db"], ["fold", "a.db", "--lg-k", 12]):
            status, out, err = self.run_hll(*words, "-o", "b.db", preexec_fn=limited)
            self.assertEqual((status, out), (2, b""), err)
            self.assertEqual(self.items("b.db"), {})
            self.succeeds(*words, "-o", "b.db")
            self.assertEqual(self.items("b.db"), self.items())
            (self.folder / "b.db").unlink()

    def test_a_temporary_file_that_is_full(self):
        settings = module.Settings(("day", "page"), 12, 8)
        full = sqlite3.OperationalError("database or disk is full")
        reader = Reader(Layout(COLUMNS, "3", (Part("day", "1"), Part("page", "2"))))
        path = str(self.write("a.tsv", b"a\tb\tx\n"))
        with mock.patch.object(module, "temporary", side_effect=full), self.assertRaises(files.Trouble) as caught:
            counting.Keyed(settings, reader, 0).read([path])
        words = "database or disk is full: nothing was counted (SQLITE_TMPDIR names another directory, and --memory keeps more in memory)"
        self.assertEqual(str(caught.exception), f"temporary file: {words}")


class FaultsTest(KeyedTest):
    """After a kill, a full or failing disk, and next to others, a database is the old or the new one."""

    def setUp(self):
        super().setUp()
        lines = lambda first, last: b"".join(b"%d\tk%04d\tuser%d\n" % (i % 3, i * 7919 % 300, i) for i in range(first, last))  # noqa: E731
        self.write("1", lines(0, 600))
        self.write("2", lines(500, 2000))
        self.succeeds("add", "--db", "old.db", *KEY, "1")
        shutil.copy(self.folder / "old.db", self.folder / "new.db")
        self.succeeds("add", "--db", "new.db", *KEY, "2")
        self.old, self.new = self.dump("old.db"), self.dump("new.db")
        self.words = [*COMMAND, "add", "--db", "t.db", *KEY, "2"]

    def dump(self, name):
        return self.items(name)

    def fresh(self):
        """A copy of the old database, and no journal."""
        (self.folder / "t.db-journal").unlink(missing_ok=True)
        shutil.copy(self.folder / "old.db", self.folder / "t.db")

    def is_old_or_new(self):
        """Which of both the database is; it is in order."""
        found = self.dump("t.db")
        self.assertTrue(found in (self.old, self.new))
        return "old" if found == self.old else "new"

    def test_kills_at_random_moments(self):
        numbers, found = random.Random(), set()
        for number in range(40):
            self.fresh()
            running = subprocess.Popen(self.words, cwd=self.folder, env=environment())
            end = time.monotonic() + 30
            while number % 4 and running.poll() is None and time.monotonic() < end and not (self.folder / "t.db-journal").exists():
                time.sleep(0.0005)
            time.sleep(numbers.random() * (0.02 if number % 4 else 0.5))
            running.send_signal(signal.SIGKILL)
            running.wait()
            found.add(self.is_old_or_new())
        self.succeeds("add", "--db", "t.db", *KEY, "2")
        self.assertEqual(self.is_old_or_new(), "new")

    def strace(self, call, inject):
        """Runs the command while a system call on the database fails or kills it. Returns its status and words."""
        names = [word for path in ("t.db", "t.db-journal", ".") for word in ("-P", str(self.folder / path))]
        done = subprocess.run(["strace", "-f", "-qq", "-o", "/dev/null", *names, "-e", f"trace={call}", "-e", f"inject={call}:{inject}", *self.words],
                              cwd=self.folder, env=environment(), capture_output=True)
        return done.returncode, done.stderr.decode()

    @unittest.skipUnless(shutil.which("strace") and subprocess.run(["strace", "-o", "/dev/null", "true"], capture_output=True).returncode == 0,
                         "strace is not here, or may not trace")
    def test_kills_and_errors_at_system_calls(self):
        """At the first, second, .. write, sync and unlink."""
        for call in ("pwrite64", "fdatasync", "unlink"):
            for number in (1, 2, 3, 8, 20):
                self.fresh()
                status, _ = self.strace(call, f"signal=KILL:when={number}")
                state = self.is_old_or_new()
                if status == 0:
                    self.assertEqual(state, "new")
                for error, words in (("ENOSPC", "database or disk is full"), ("EIO", "disk I/O error")):
                    if call == "unlink":
                        continue
                    self.fresh()
                    status, said = self.strace(call, f"error={error}:when={number}+")
                    state = self.is_old_or_new()
                    self.assertEqual((status, state), (0, "new") if status == 0 else (2, "old"), (call, number, error, said))
                    if status:
                        self.assertRegex(said, rf"\Ahll: t\.db: ({words}|disk I/O error)\n\Z")

    def test_a_limited_file(self):
        """As a full disk, where none can be mounted."""
        for size in (0, 4096, 20_000):
            for name in ("t.db", "made.db"):
                self.fresh()
                (self.folder / "made.db").unlink(missing_ok=True)
                limited = lambda: (signal.signal(signal.SIGXFSZ, signal.SIG_IGN),  # noqa: E731
                                   resource.setrlimit(resource.RLIMIT_FSIZE, (size, size)))
                status, out, err = self.run_hll("add", "--db", name, *KEY, "2", preexec_fn=limited)
                self.assertEqual((status, out), (2, b""), err)
                self.assertRegex(err, rf"\Ahll: {name}: (database or disk is full|disk I/O error)\n\Z")
                self.assertEqual(self.is_old_or_new(), "old")
                if (self.folder / "made.db").exists() and (self.folder / "made.db").stat().st_size:
                    self.assertEqual(self.items("made.db"), {})
        self.succeeds("add", "--db", "made.db", *KEY, "1", "2")
        self.assertEqual(self.dump("made.db"), self.new)

    def test_six_writers(self):
        """They make and fill one database at once, and nothing is lost."""
        for number in range(6):
            self.write("part%d" % number, b"".join(self.read("2").splitlines(True)[number::6]) + b"".join(self.read("1").splitlines(True)[number::6]))
        running = [subprocess.Popen([*COMMAND, "add", "--db", "six.db", *KEY, "part%d" % number], cwd=self.folder, env=environment()) for number in range(6)]
        self.assertEqual([one.wait() for one in running], [0] * 6)
        self.assertEqual(self.items("six.db"), self.new)
        self.assertFalse([name for name in self.listed() if name.startswith(("six.db-", ".hll"))])

    def test_another_writer(self):
        """It is waited for, for a minute or for as long as it writes."""
        self.assertEqual(module.PATIENCE, 60)
        self.fresh()
        other = sqlite3.connect(self.folder / "t.db", isolation_level=None)
        self.addCleanup(other.close)
        other.execute("BEGIN IMMEDIATE")
        with mock.patch.object(module, "PATIENCE", 0.1):
            with Database(str(self.folder / "t.db")) as database, self.assertRaises(DatabaseError) as caught:
                database.update([(("a", "b"), Sketch())])
        words = "another process has been writing it for 0 seconds: nothing was changed (--wait waits for as long as it takes)"
        self.assertEqual((caught.exception.words, caught.exception.status), (words, 2))
        self.assertEqual(os.stat(self.folder / "t.db").st_size, os.stat(self.folder / "old.db").st_size)
        running = subprocess.Popen([*self.words, "--wait"], cwd=self.folder, env=environment())
        with self.assertRaises(subprocess.TimeoutExpired):
            running.wait(1.5)
        other.execute("ROLLBACK")
        self.assertEqual((running.wait(60), self.is_old_or_new()), (0, "new"))

    def test_readers_during_a_large_add(self):
        """What changes waits in memory until it is written at once, so nobody is locked out before."""
        self.fresh()
        with Database(str(self.folder / "t.db")) as database, Database(str(self.folder / "t.db")) as reader:
            many = [(("x", "%05d" % n), sketch_of(range(200))) for n in range(8000)]     # 6 MB, more than SQLite's own cache
            read = []

            def rows():
                for number, (key, one) in enumerate(many):
                    if number % 2000 == 1999:
                        read.append(len(reader))
                    yield (*key, one.to_bytes())

            with mock.patch.object(module, "PATIENCE", 0):
                database.merge_rows(rows())
            self.assertEqual((read, len(reader)), ([len(self.old)] * 4, len(self.old) + 8000))

    def test_read_only(self):
        """A file or a directory that may not be written, by a user who is not root."""
        before = other_user()
        if before is None and os.geteuid() == 0:
            self.skipTest("no other user can run the command")
        self.fresh()
        os.chmod(self.folder, 0o755)
        os.chmod(self.folder / "t.db", 0o444)
        read = self.run_hll("estimate", "t.db", "--by", "", before=before or ())
        self.assertEqual((read[0], read[2]), (0, ""), read)
        found = self.run_hll("add", "--db", "t.db", *KEY, "2", before=before or ())
        self.assertEqual(found, (2, b"", "hll: t.db: it is read-only\n"))
        self.assertEqual(self.is_old_or_new(), "old")
        if before:
            self.hot_journal()
            found = self.run_hll("estimate", "t.db", "--by", "", before=before)
            words = "a process was killed while it wrote this file: a command of a user who may write it rolls that back"
            self.assertEqual(found, (2, b"", f"hll: t.db: {words}\n"))
            self.assertEqual(self.is_old_or_new(), "old")         # as root, which rolls back
            self.assertEqual(self.run_hll("estimate", "t.db", "--by", "", before=before)[0], 0)

    def hot_journal(self):
        """Leaves what a process leaves that is killed while it writes the database."""
        call = "import os, sqlite3; c = sqlite3.connect('t.db', isolation_level=None); c.execute('PRAGMA cache_size = 1'); c.execute('BEGIN'); " \
            "c.execute(\"UPDATE sketches SET checksum = 1\"); os.kill(os.getpid(), 9)"
        os.chmod(self.folder / "t.db", 0o644)
        subprocess.run([sys.executable, "-c", call], cwd=self.folder)
        os.chmod(self.folder / "t.db-journal", 0o644)
        self.assertGreater((self.folder / "t.db-journal").stat().st_size, 512)

    def test_a_failed_allocation(self):
        self.fresh()
        with Database(str(self.folder / "t.db")) as database, mock.patch.object(_library, "merge", side_effect=MemoryError):
            self.assertRaises(MemoryError, database.update, [(key, one) for key, one in list(self.new.items())[:9]])
        self.assertEqual(self.is_old_or_new(), "old")

    def test_interrupt(self):
        self.fresh()
        running = subprocess.Popen([*COMMAND, "add", "--db", "t.db", *KEY], stdin=subprocess.PIPE, cwd=self.folder, env=environment())
        running.stdin.write(self.read("2"))
        running.stdin.flush()
        running.send_signal(signal.SIGTERM)
        running.communicate()
        self.assertEqual((running.returncode, self.is_old_or_new()), (-signal.SIGTERM, "old"))


class MonthTest(KeyedTest):
    """The month of tests/month.py, by way of the package, next to exact counts."""

    def test_month(self):
        users = month.make(self.folder)
        shutil.move(self.folder / "web/2026-11-17.tsv.gz.again", self.folder / "web/2026-11-17.tsv.gz")
        names = {kind: sorted(str(path.relative_to(self.folder)) for path in self.folder.glob(kind + "/*")) for kind in ("web", "app", "mobile")}
        for more in (["--key", "day=1[:10],country=2,page=3", "--value", "4", "--missing", "-", "--missing", "NULL", *names["web"]],
                     ["--csv", "--key", "day=ts[:10],country,page", "--value", "user", *names["app"]],
                     ["--jsonl", "--key", "day=ts[:10],country,page", "--value", "user", *names["mobile"]]):
            status, out, err = self.run_hll("add", "--db", "nov.db", *more)
            self.assertEqual((status, out), (0, b""))
            self.assertRegex(err, r"\Ahll: left out \d+ of [\d,]+ lines: no value\n\Z")
        self.assertEqual(set(self.items("nov.db")), set(users))
        with Database(str(self.folder / "nov.db")) as database:
            for by in ([], ["country"], ["page"], ["week(day)"], ["day", "country", "page"]):
                self.compare(database.union(by), users, by)

    def compare(self, found, users, by):
        """Estimates are exact for few users, and for all within three standard deviations."""
        exact = {}
        pick = {"week(day)": lambda key: module.week(key[0]), "day": lambda key: key[0], "country": lambda key: key[1], "page": lambda key: key[2]}
        for key, some in users.items():
            exact.setdefault(tuple(pick[name](key) for name in by), set()).update(some)
        found = dict(found)
        self.assertEqual(set(found), set(exact))
        for key, some in exact.items():
            lower, upper = found[key].bounds(3)
            self.assertTrue(lower <= len(some) <= upper, (key, len(some)))
            if len(some) < 100:
                self.assertEqual(round(found[key].estimate()), len(some))


if __name__ == "__main__":
    unittest.main()
