# SPDX-License-Identifier: Apache-2.0
"""Databases of keys in Python: next to a plain model; what SQLite sees of them; hostile and damaged files."""
import os
import pathlib
import random
import re
import sqlite3
import subprocess
import sys
import unittest
from unittest import mock

import common  # noqa: F401, for the path
from command import CommandTest, environment
from hll_sketches import ArgumentError, Database, DatabaseError, PrecisionError, Sketch, union_of
from hll_sketches import database as module


def sketch_of(values, lg_k=12, width=8):
    made = Sketch(lg_k, width)
    made.update_many(values)
    return made


class DatabaseTest(CommandTest):
    """A test in a directory of its own, with SQLite as anybody has it."""

    def setUp(self):
        super().setUp()
        self.path = str(self.folder / "a.db")

    def made(self, *pairs, keys=("day", "page"), **more):
        """A database of some sketches."""
        database = Database(self.path, keys, **more)
        self.addCleanup(database.close)
        database.update(pairs)
        return database

    def sqlite(self, *statements):
        """Runs statements of SQL without any function of ours, and returns the rows of the last one."""
        connection = sqlite3.connect(self.path, isolation_level=None)
        try:
            return [connection.execute(statement).fetchall() for statement in statements][-1]
        finally:
            connection.close()


class ModelTest(DatabaseTest):
    def test_random_work(self):
        """Next to a dictionary of sketches, with keys of all bytes."""
        numbers = random.Random(20261201)
        parts = ["", "a", "b", "é", "東京", "a'b\"c", "x" * 3000, b"\xff", b"a\xfe", "2026-11-01", "2026-11-08", "%_\n\t"]
        for width, lg_k in ((8, 12), (4, 7)):
            with Database(self.path, ["day", "the page"], lg_k, width) as database:
                model = {}
                for _ in range(25):
                    pairs = []
                    for _ in range(numbers.randrange(6)):
                        key = numbers.choice(parts), numbers.choice(parts)
                        made = sketch_of((numbers.randrange(5000) for _ in range(numbers.choice([0, 3, 60, 900]))), lg_k, numbers.choice([4, 6, 8]))
                        pairs.append((key, made))
                        model[key] = union_of([model.get(key, Sketch(lg_k)), made])
                    database.update(pairs)
                    gone = numbers.choice(parts)
                    if numbers.random() < 0.2:
                        number = database.drop('"the page" = ?', [gone])
                        self.assertEqual(number, sum(key[1] == gone for key in model))
                        model = {key: made for key, made in model.items() if key[1] != gone}
                    self.compare(database, model, width, numbers.choice(parts))
            os.unlink(self.path)

    def compare(self, database, model, width, day):
        wanted = {key: made.convert(width).to_bytes() for key, made in model.items()}
        self.assertEqual({key: made.to_bytes() for key, made in database.items()}, wanted)
        keys = [key for key, _ in database.items()]
        self.assertEqual(keys, sorted(keys, key=lambda key: [(isinstance(part, bytes), part if isinstance(part, bytes) else part.encode()) for part in key]))
        self.assertEqual(len(database), len(model))
        self.assertEqual({key for key, _ in database.items("day = ?", [day])}, {key for key in model if key[0] == day})
        groups = {}
        for key, made in model.items():
            groups.setdefault((key[0],), []).append(made)
        self.assertEqual(dict(database.union(["day"])), {key: union_of(some).convert(width) for key, some in groups.items()})
        self.assertEqual(dict(database.union()), {(): union_of(list(model.values())).convert(width)} if model else {})
        self.assertEqual(list(database.faults()), [])

    def test_many_images_are_merged_in_bounded_memory(self):
        pairs = [(("%d" % (n % 3), "%d" % n), sketch_of([n, n + 1])) for n in range(300)]
        database = self.made(*pairs)
        wanted = list(database.union(["day"]))
        with mock.patch.object(module, "BATCH", 100):
            self.assertEqual(list(database.union(["day"])), wanted)
            rows = list(database.select("day, hll_image_union_agg(image)", more=" GROUP BY day ORDER BY day"))
        self.assertEqual([((day,), Sketch.from_bytes(image)) for day, image in rows], wanted)


class ArgumentsTest(DatabaseTest):
    def test_errors(self):
        one = sketch_of([1])
        database = self.made((("a", "b"), one))
        self.assertEqual(repr(database), f"Database({self.path!r}, keys=['day', 'page'], lg_k=12, width=8)")
        for key in ("ab", ("a",), ("a", 1), ("a", "b", "c"), b"ab"):
            with self.assertRaisesRegex(ArgumentError, "a key is 2 strings, day, page, and not"):
                database.update([(key, one)])
        with self.assertRaisesRegex(PrecisionError, "has lg_k 14 and not 12: fold it"):
            database.update([(("a", "c"), one), (("a", "b"), sketch_of([2], 14))])
        with self.assertRaises(UnicodeEncodeError):
            database.update([(("\ud800", "c"), one)])
        self.assertEqual(dict(database.items()), {("a", "b"): one})
        for where in ("dya = 1", "day =", "nothing(day)"):
            for call in (lambda text: list(database.items(text)), database.drop, lambda text: list(database.union(where=text))):
                with self.assertRaisesRegex(DatabaseError, r"\(its columns: day, page\)"):
                    call(where)
        with self.assertRaises(DatabaseError):
            list(database.items("1; DELETE FROM sketches"))
        self.assertEqual(len(database), 1)
        for words, more in (
            ("it has keys day, page, and not day", {"keys": ["day"]}), ("it has lg_k 12, and not 14: hll fold changes it", {"lg_k": 14}),
            ("it has width 8, and not 4: hll convert changes it", {"width": 4}),
        ):
            with self.assertRaisesRegex(DatabaseError, words) as caught:
                Database(self.path, **more)
            self.assertEqual((caught.exception.path, caught.exception.status), (self.path, 1))

    def test_settings_of_new_files(self):
        for more in ({"keys": []}, {"keys": ["a", "A"]}, {"keys": ["image"]}, {"keys": ["Checksum"]}, {"keys": [""]},
                     {"keys": ["a"], "lg_k": 3}, {"keys": ["a"], "width": 5}):
            with self.assertRaises(ArgumentError):
                Database(self.path, **more)
        self.assertEqual(self.listed(), [])
        with Database(self.path, ['a "b"', "c;--"], 21, 6) as database:
            database.update([(("x", "y"), Sketch(21))])
        with Database(pathlib.Path(self.path)) as database:
            self.assertEqual((database.keys, database.lg_k, database.width), (('a "b"', "c;--"), 21, 6))
            self.assertEqual(list(database.items("\"c;--\" = 'y'")), [(("x", "y"), Sketch(21, 6))])

    def test_other_files(self):
        self.write("one.hll", Sketch().to_bytes())
        self.write("text", b"no database at all")
        self.write("empty", b"")
        for name, words, status in (
            ("one.hll", "it is one sketch, and not a database of keys", 1), ("text", "it is no SQLite database", 1),
            ("empty", "it is empty", 1), ("none", "No such file or directory", 2), (".", "Is a directory", 2),
        ):
            with self.assertRaisesRegex(DatabaseError, words) as caught:
                Database(str(self.folder / name))
            self.assertEqual(caught.exception.status, status)
            if name != "empty":
                self.assertRaises(DatabaseError, Database, str(self.folder / name), *([] if name == "none" else [["day"]]))
        with Database(str(self.folder / "empty"), ["day"]) as database:
            self.assertEqual(len(database), 0)

    def test_an_old_sqlite(self):
        self.made()
        with mock.patch.object(sqlite3, "sqlite_version_info", (3, 23, 9)), self.assertRaisesRegex(DatabaseError, "is too old: 3.24 is needed"):
            Database(self.path)

    def test_without_sqlite(self):
        """The package and single sketches need no module sqlite3."""
        call = "import sys; sys.modules['_sqlite3'] = sys.modules['sqlite3'] = None; import hll_sketches as h; h.Sketch().write('a.hll'); " \
            "from hll_sketches.__main__ import main; sys.argv = ['hll', 'add', 'a.hll']; assert main() == 0; h.Database"
        done = subprocess.run([sys.executable, "-c", call], input=b"x\n", capture_output=True, cwd=self.folder, env=environment())
        self.assertEqual(done.returncode, 1)
        self.assertIn(b"sqlite3", done.stderr.splitlines()[-1])
        self.assertEqual(self.read("a.hll"), sketch_of(["x"]).to_bytes())

    def test_locks_of_other_objects(self):
        """An object that opens the file of another one doesn't release its lock."""
        database = self.made((("a", "b"), sketch_of([1])))
        with database.writing():
            Database(self.path).close()
            with mock.patch.object(module, "PATIENCE", 0), self.assertRaises(DatabaseError):
                Database(self.path, ["day", "page"]).update([(("a", "c"), sketch_of([1]))])
            call = "import sqlite3; sqlite3.connect('a.db', timeout=0).execute('BEGIN IMMEDIATE')"
            done = subprocess.run([sys.executable, "-c", call], cwd=self.folder, capture_output=True)
            self.assertIn(b"locked", done.stderr)

    def test_names_of_paths(self):
        for name in ("a?b#c%20d.db", "é.db", "-.db"):
            with Database(str(self.folder / name), ["day"]) as database:
                database.update([(("x",), Sketch())])
            self.assertEqual(self.listed(), [name])
            os.unlink(self.folder / name)

    def test_a_link_of_another_user(self):
        """One in a directory for all users is not followed when a database is made."""
        if os.geteuid() != 0:
            self.skipTest("only root can make a link that belongs to another user")
        shared = self.folder / "shared"
        shared.mkdir()
        os.chmod(shared, 0o1777)
        (shared / "a.db").symlink_to(self.folder / "mine.db")
        os.lchown(shared / "a.db", 61234, 61234)
        with self.assertRaisesRegex(DatabaseError, "another user made this symbolic link"):
            Database(str(shared / "a.db"), ["day"])
        self.assertEqual(self.listed(), ["shared"])


class SchemaTest(DatabaseTest):
    """What SQLite sees of a file."""

    def test_schema(self):
        self.made((("a", "b"), sketch_of([1])))
        self.assertEqual(self.sqlite("PRAGMA application_id"), [(0x484C4C53,)])
        self.assertEqual([self.sqlite(f"PRAGMA {name}")[0][0] for name in ("user_version", "page_size", "journal_mode", "integrity_check")],
                         [1, 4096, "delete", "ok"])
        page = (common.ROOT / "docs" / "FORMAT.md").read_text()
        script = re.search(r"```sql\n(PRAGMA application_id.*?)```", page, re.S)[1]
        with sqlite3.connect(":memory:") as shown, Database(str(self.folder / "day.db"), ["day"]):
            shown.executescript(script)
            tables = "SELECT name, sql FROM sqlite_master ORDER BY name"
            found = sqlite3.connect(self.folder / "day.db").execute(tables).fetchall()
            plain = lambda rows: [(name, " ".join((sql or "").split())) for name, sql in rows]  # noqa: E731
            self.assertEqual(plain(shown.execute(tables).fetchall()), plain(found))
        self.assertEqual(self.sqlite("SELECT * FROM hll_settings"), [("lg_k", 12), ("width", 8)])
        self.assertEqual(self.sqlite("SELECT checksum FROM sketches"), [(module.checksum_of(("a", "b", sketch_of([1]).to_bytes())),)])

    def test_lg_k_is_held_by_the_table(self):
        self.made((("a", "b"), sketch_of([1])))
        for image in (sketch_of([1], 11).to_bytes(), b"", b"abc", "0201070c03080108", None):
            with self.assertRaises(sqlite3.IntegrityError):
                connection = sqlite3.connect(self.path, isolation_level=None)
                self.addCleanup(connection.close)
                connection.execute("INSERT INTO sketches VALUES ('x', 'y', ?, NULL)", (image,))

    def test_other_programs_write(self):
        """Their rows have no checksum, which is no fault; a checksum that is wrong is one."""
        database = self.made((("a", "b"), sketch_of([1])), (("a", "c"), sketch_of([2])))
        other = sketch_of([3]).to_bytes().hex()
        self.sqlite(f"UPDATE sketches SET image = x'{other}' WHERE page = 'b'", f"INSERT INTO sketches VALUES ('d', 'e', x'{other}', NULL)")
        self.assertEqual(self.sqlite("SELECT page, checksum ISNULL FROM sketches"), [("b", 1), ("c", 0), ("e", 1)])
        self.assertEqual(list(database.faults()), [])
        database.update([(("a", "b"), sketch_of([4]))])
        self.assertEqual(self.sqlite("SELECT page, checksum ISNULL FROM sketches"), [("b", 0), ("c", 0), ("e", 1)])
        self.assertEqual(dict(database.items())["a", "b"], sketch_of([3, 4]))
        self.sqlite("UPDATE sketches SET page = 'x' WHERE page = 'c'")
        self.assertEqual(list(database.faults()), [("checksum", "the sketch of (a, x) or its key has changed: its checksum is another")])

    def test_the_same_values_again_change_no_byte(self):
        pairs = [(("a", str(n)), sketch_of(range(n))) for n in range(200)]
        database = self.made(*pairs)
        before = self.read("a.db")
        with Database(self.path, ["day", "page"]) as again:
            again.update(pairs[::3])
        self.assertEqual(self.read("a.db")[100:], before[100:])       # the header counts changes
        self.assertEqual(list(database.faults()), [])

    def test_what_is_dropped_is_gone(self):
        database = self.made((("a", "secret key"), sketch_of(range(50))), (("a", "other"), sketch_of([1])))
        self.assertIn(b"secret key", self.read("a.db"))
        self.assertEqual(database.drop("page LIKE 'secret%'"), 1)
        self.assertNotIn(b"secret key", self.read("a.db"))


class HostileTest(DatabaseTest):
    """Files that somebody made or changed on purpose, and files that are damaged."""

    REJECTED = "its tables are not those that hll makes, or something runs when they change"

    def rejected(self, words, *statements):
        """A changed copy of a database is rejected, whatever it is opened for, and doesn't change."""
        self.made((("a", "b"), sketch_of([1]))).close()
        self.sqlite(*statements)
        before = self.read("a.db")
        for more in ({}, {"keys": ["day", "page"]}):
            with self.assertRaises(DatabaseError) as caught:
                Database(self.path, **more)
            self.assertIn(words, caught.exception.words)
        status, out, err = self.run_hll("check", "a.db")
        self.assertEqual((status, err), (1, ""), out)
        self.assertEqual(out.decode(), f"a.db: {caught.exception.words}\n")
        self.assertEqual(self.read("a.db"), before)
        os.unlink(self.path)

    def test_other_definitions(self):
        table = "CREATE TABLE sketches (day TEXT, page TEXT, image BLOB, checksum INTEGER, PRIMARY KEY (day, page)) WITHOUT ROWID"
        for statements in (
            ["CREATE TRIGGER more AFTER INSERT ON sketches BEGIN DELETE FROM sketches; END"],
            ["CREATE TRIGGER more BEFORE UPDATE ON hll_settings BEGIN SELECT 1; END"],
            ["DROP TRIGGER hll_changed"], ["DROP TABLE sketches"], ["DROP TABLE sketches", table], ["DROP TABLE hll_settings"],
            ["ALTER TABLE sketches RENAME TO real", "CREATE VIEW sketches AS SELECT * FROM real"],
            ["ALTER TABLE sketches ADD COLUMN more"], ["UPDATE hll_settings SET value = 99"], ["UPDATE hll_settings SET value = 'x'"],
            ["DELETE FROM hll_settings"],
        ):
            self.rejected(self.REJECTED, *statements)

    def test_others_databases(self):
        self.rejected("it is an SQLite database, but not one that hll made", "PRAGMA application_id = 7")
        self.rejected("its format has the number 2, and this version reads 1", "PRAGMA user_version = 2")

    def test_own_tables_next_to_ours(self):
        """Tables, views and indexes of a user are left alone."""
        database = self.made((("a", "b"), sketch_of([1])))
        database.close()
        self.sqlite("CREATE TABLE mine (x)", "CREATE VIEW days AS SELECT DISTINCT day FROM sketches", "CREATE INDEX pages ON sketches (page)")
        with Database(self.path) as database:
            database.update([(("a", "c"), sketch_of([2]))])
            self.assertEqual((len(database), list(database.faults())), (2, []))

    def test_expressions_cannot_write(self):
        """An expression of SQL reads, and neither writes nor loads."""
        database = self.made((("a", "b"), sketch_of([1])))
        for where in ("1) OR 1; DROP TABLE sketches; --", "load_extension('x') ISNULL", "(DELETE FROM sketches)", "1) UNION SELECT 1, 2, 3 --"):
            self.assertRaises(DatabaseError, lambda: list(database.items(where)))
        self.assertEqual(len(database), 1)

    def test_images_that_are_rejected(self):
        """Each call names the key, or says who does."""
        image = bytearray(sketch_of(range(3)).to_bytes())
        image[8:12] = image[12:16]
        database = self.made((("a", "b"), sketch_of([1])))
        self.sqlite(f"UPDATE sketches SET image = x'{image.hex()}'")
        words = "is rejected: coupon"
        for call in (lambda: list(database.items()), lambda: list(database.union()) and 1 / 0):
            with self.assertRaises((DatabaseError, ZeroDivisionError)) as caught:
                call()
            if isinstance(caught.exception, DatabaseError):
                self.assertIn(words, str(caught.exception))
        with self.assertRaisesRegex(DatabaseError, r"a sketch in it is rejected: coupon .*\(hll check names it\)"):
            database.update([(("a", "b"), sketch_of([2]))])
        self.assertEqual([reason for reason, _ in database.faults()], ["coupon"])

    def test_flipped_bits(self):
        """Each that changes a key or a sketch is found."""
        numbers = random.Random(3)
        pairs = [((str(n), "p"), sketch_of(range(n % 40))) for n in range(400)]
        self.made(*pairs).close()
        data, counts = self.read("a.db"), {"same": 0, "found": 0}
        with Database(self.path) as database:
            whole = list(database.items())
        for _ in range(300):
            changed = bytearray(data)
            changed[numbers.randrange(len(data))] ^= 1 << numbers.randrange(8)
            self.write("a.db", bytes(changed))
            try:
                with Database(self.path) as database:
                    found = list(database.faults())
                    if not found:
                        self.assertEqual(list(database.items()), whole)
            except DatabaseError:
                found = [1]
            counts["found" if found else "same"] += 1
        self.assertGreater(counts["found"], 200)

    def test_cut_files(self):
        self.made(*[((str(n), "p"), sketch_of(range(n))) for n in range(99)]).close()
        data = self.read("a.db")
        for end in (17, 100, 4096, len(data) // 2, len(data) - 4096):
            self.write("a.db", data[:end])
            status, out, err = self.run_hll("check", "a.db")
            self.assertEqual((status, err), (1, ""), (end, out))


if __name__ == "__main__":
    unittest.main()
