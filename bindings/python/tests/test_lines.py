# SPDX-License-Identifier: Apache-2.0
"""Lines as values, or as keys and values: next to plain models, in blocks of any size; and what inputs are accepted."""
import bz2
import csv
import gzip
import io
import json
import lzma
import os
import pathlib
import random
import subprocess
import tempfile
import unittest
from unittest import mock

import common  # noqa: F401, for the path
from command import COMMAND, CommandTest, environment
from hll_sketches import Sketch, files, inputs
from hll_sketches.lines import COLUMNS, CSV, JSON, LONGEST_KEY, Layout, Part, Reader, lines_of

BLOCKS = (1, 2, 7, 64, 1 << 20)


def sketch_of(values):
    made = Sketch()
    made.update_many(values)
    return made


class ModelTest(unittest.TestCase):
    """The reader next to plain models, on random text in blocks of many sizes."""

    def setUp(self):
        self.numbers = random.Random(20261201)
        place, self.path = tempfile.mkstemp(prefix="hll-")
        os.close(place)
        self.addCleanup(os.unlink, self.path)

    def read(self, data, layout, block=1 << 20):
        """The keys and values that count, and what is said of the rest."""
        pathlib.Path(self.path).write_bytes(data)
        reader = Reader(layout)
        with mock.patch.object(inputs, "BLOCK", block), mock.patch.object(inputs, "BEGIN", min(block, 4096)):
            batches = list(reader.batches(self.path))
        self.assertTrue(all(len(one.numbers) == len(one.values) == len(one.keys or one.values) for one in batches))
        keys = [key for one in batches for key in one.keys]
        values = [value for one in batches for value in one.values]
        self.assertEqual(reader.sums.counted, len(values))
        return keys, values, reader.sums

    def word(self, letters, most=4):
        return "".join(self.numbers.choice(letters) for _ in range(self.numbers.randrange(most + 1)))

    def compare(self, data, layout, wanted, bad=0):
        """All blocks give the lines of the model."""
        for block in BLOCKS:
            keys, values, sums = self.read(data, layout, block)
            found = list(zip(keys, values)) if layout.parts else values
            self.assertEqual(found, wanted, (data, layout, block))
            self.assertEqual(sum(count for count, _ in sums.bad.values()), bad, (data, layout))

    def test_whole_lines(self):
        for _ in range(60):
            text = "".join(self.numbers.choice(["a", "é", "\n", "\n\n", "-", "\r\n", "x" * 100]) for _ in range(30)).encode()
            lines = text.split(b"\n")
            lines = lines if lines[-1] else lines[:-1]
            missing = frozenset(self.numbers.choice([[], [b""], [b"-", b"a"]]))
            self.compare(text, Layout(missing=missing), [line for line in lines if line not in missing])

    def test_columns(self):
        for _ in range(60):
            rows = [[self.word(["a", "b", "é", "-", " ", "z" * 30]) for _ in range(self.numbers.randrange(1, 5))] for _ in range(20)]
            text = "".join("\t".join(row) + "\n" for row in rows).encode()
            missing = frozenset(self.numbers.choice([[], [b""], [b"", b"-"]]))
            lengths = [self.numbers.choice([0, 1, 2]) for _ in range(2)]
            wanted = [
                (tuple((row[at][:length] if length else row[at]).encode() for at, length in zip((2, 0), lengths)), row[1].encode())
                for row in rows if len(row) > 2 and row[1].encode() not in missing
            ]
            parts = Part("one", "3", lengths[0]), Part("two", "1", lengths[1])
            layout = Layout(COLUMNS, "2", parts, missing=missing, skip_bad=True)
            self.compare(text, layout, wanted, sum(len(row) < 3 for row in rows))
            self.compare(text, Layout(COLUMNS, "1", missing=missing), [row[0].encode() for row in rows if row[0].encode() not in missing])

    def test_csv(self):
        for _ in range(60):
            rows = [[self.word(["a", '"', ",", "\n", "é", "b" * 20]) for _ in range(3)] for _ in range(15)]
            out = io.StringIO()
            csv.writer(out, lineterminator=self.numbers.choice(["\n", "\r\n"])).writerows([["x", "the key", "y"], *rows])
            text = self.numbers.choice(["", "\ufeff"]) + out.getvalue()
            wanted = [((row[1].encode(),), row[2].encode()) for row in rows if row[2]]
            layout = Layout(CSV, "y", (Part("key", "the key"),), b",", frozenset([b""]))
            pathlib.Path(self.path).write_bytes(text.encode())
            if not text.startswith("\ufeff"):
                self.compare(text.encode(), layout, wanted)
            self.assertEqual(self.read(text.encode(), layout)[:2], ([key for key, _ in wanted], [value for _, value in wanted]))

    def test_json(self):
        for _ in range(60):
            rows = [{name: self.numbers.choice([None, 7, -1, "7", "", "é\n", "\U0001f642", "x" * 50]) for name in self.numbers.sample(["k", "v", "w"], 2)}
                    for _ in range(15)]
            text = "".join(json.dumps(row, ensure_ascii=self.numbers.random() < 0.5) + "\n" for row in rows).encode()
            wanted = [(tuple(self.plain(row.get("k"))), str(row["v"]).encode()) for row in rows if row.get("v") is not None]
            self.compare(text, Layout(JSON, "v", (Part("k", "k"),)), wanted)

    def plain(self, value):
        return [b"" if value is None else str(value).encode()]

    def test_damaged_text(self):
        """Random bytes give lines that count and lines that are left out, the same for all blocks, and never another error."""
        for _ in range(150):
            data = bytes(self.numbers.choice(b'a",\n\r\t{}:\xff1 ') for _ in range(60))
            parts = self.numbers.choice([(), (Part("k", "1"),)])
            for layout in (Layout(COLUMNS, "2", parts, skip_bad=True), Layout(JSON, "v", parts, skip_bad=True),
                           Layout(CSV, "1", parts, b",", skip_bad=True), Layout(skip_bad=True, are_ints=True)):
                found = set()
                for block in BLOCKS:
                    try:
                        keys, values, sums = self.read(data, layout, block)
                    except files.Trouble as trouble:        # the header, say
                        found.add(str(trouble))
                        self.assertEqual(layout.form, CSV)
                        continue
                    found.add(repr((keys, values, sums.lines, sums.bad)))
                    self.assertLessEqual(sums.counted + sums.left_out, sums.lines)
                self.assertEqual(len(found), 1, (data, layout))

    def test_a_quote_that_never_closes(self):
        """Its record reaches to the end, is one error, and all its lines are left out by their number."""
        text = b'x,y\na,1\nb,"2\n' + b"c,3\n" * 1000
        layout = Layout(CSV, "y", (), b",")
        with self.assertRaisesRegex(files.Trouble, r"line 3 is not CSV \(unexpected end of data\)"):
            self.read(text, layout)
        _, values, sums = self.read(text, layout._replace(skip_bad=True))
        self.assertEqual((values, sums.lines, sums.left_out), ([b"1"], 1002, 1001))

    def test_keys_that_are_not_accepted(self):
        rows = [b"a\0\t1", b"b" * LONGEST_KEY + b"\t2", b"c" * (LONGEST_KEY + 1) + b"\t3", b"\t4"]
        text = b"x" * 5000 + b"\t0\n" + b"\n".join(rows)
        layout = Layout(COLUMNS, "2", (Part("key", "1"),))
        for number, bad in ((2, rows[0]), (2, rows[2])):
            with self.assertRaisesRegex(files.Trouble, f"line {number} has a key with a NUL, or with a part of more than 65,536 bytes"):
                self.read(b"x" * 5000 + b"\t0\n" + bad, layout)
        _, values, sums = self.read(text, layout._replace(skip_bad=True))
        self.assertEqual((values, sums.left_out), ([b"0", b"2", b"4"], 2))
        _, values, sums = self.read(text, layout._replace(skip_bad=True, skip_empty_key=True))
        self.assertEqual((values, sums.empty_keys), ([b"0", b"2"], 1))

    def test_long_lines_of_many_blocks(self):
        text = b"x" * 3_000_000 + b"\n" + b"y" * 10 + b"\n" + b"z" * 2_500_000
        blocks = [text[at : at + (1 << 20)] for at in range(0, len(text), 1 << 20)]
        self.assertEqual(list(map(len, lines_of(blocks))), [2, 1])
        self.assertEqual([line for some in lines_of(blocks) for line in some], text.split(b"\n"))


class FormsTest(CommandTest):
    """The options of `hll add` that say how lines are read."""

    def setUp(self):
        super().setUp()
        self.succeeds("new", "a.hll")

    def added(self, *words, given=b""):
        """The sketch of what is added, and what is said."""
        status, out, err = self.run_hll("add", "a.hll", "-o", "b.hll", *words, given=given)
        self.assertEqual((status, out), (0, b""), err)
        return Sketch.read(self.folder / "b.hll"), err

    def test_missing(self):
        given = b"ann\n\n-\nNULL\nbob\n"
        self.assertEqual(self.added(given=given), (sketch_of(["ann", "", "-", "NULL", "bob"]), ""))
        words = ["--missing", "", "--missing", "-", "--missing", "NULL"]
        self.assertEqual(self.added(*words, given=given), (sketch_of(["ann", "bob"]), "hll: left out 3 of 5 lines: no value\n"))
        given = b"a\tann\nb\t\n"
        self.assertEqual(self.added("--value", "2", given=given), (sketch_of(["ann"]), "hll: left out 1 of 2 lines: no value\n"))
        self.assertEqual(self.added("--value", "2", "--keep-empty", given=given), (sketch_of(["ann", ""]), ""))
        given = 'user,x\nann,1\n,2\n"",3\n-,4\n'.encode()
        found = self.added("--csv", "--value", "user", given=given)
        self.assertEqual(found, (sketch_of(["ann", "-"]), "hll: left out 2 of 4 lines: no value\n"))
        found = self.added("--csv", "--value", "user", "--missing", "-", given=given)
        self.assertEqual(found, (sketch_of(["ann"]), "hll: left out 3 of 4 lines: no value\n"))
        out = self.run_hll("add", "a.hll", "-o", "b.hll", "--json", "--missing", "-", given=b"-\nx\n")[1]
        self.assertEqual([json.loads(out)[name] for name in ("lines", "left_out")], [1, 1])

    def test_forms(self):
        self.write("a.tsv", b"1\tann\n2\tbob\n")
        self.write("b.csv", b"\xef\xbb\xbfuser;x\r\n\"cid\";1\r\n")
        self.write("c.jsonl", b'{"user": "dan"}\n{"user": 7}\n{"user": null}\n{}\n')
        self.assertEqual(self.added("a.tsv", "--value", "2"), (sketch_of(["ann", "bob"]), ""))
        self.assertEqual(self.added("--value", "1", "--int", "a.tsv"), (sketch_of([1, 2]), ""))
        self.assertEqual(self.added("b.csv", "--csv", "--separator", ";", "--value", "user"), (sketch_of(["cid"]), ""))
        found = self.added("c.jsonl", "--jsonl", "--value", "user")
        self.assertEqual(found, (sketch_of(["dan", "7"]), "hll: left out 2 of 4 lines: no value\n"))
        self.write("int.jsonl", b'{"user": 7}\n{"user": "8"}\n')
        self.assertEqual(self.added("int.jsonl", "--jsonl", "--value", "user", "--int"), (sketch_of([7, 8]), ""))

    def test_bad_lines(self):
        """The first is an error with its file and line, and nothing is added; or each kind is left out with its number."""
        self.write("short.tsv", b"1\tann\n2\n3\tbob\n4\n")
        self.write("bad.csv", b"a,b\n1,2\n")
        before = self.read("a.hll")
        words = "short.tsv: line 2 has too few columns (no separator TAB, which --separator changes: 2): nothing was counted " \
            "(--skip-bad leaves such lines out)"
        self.fails(1, [words], "add", "a.hll", "--value", "2", "short.tsv")
        words = "bad.csv: line 1 is the header, and has no column c (--value), but: a, b: nothing was counted"
        self.fails(1, [words], "add", "a.hll", "--csv", "--value", "c", "--skip-bad", "bad.csv")
        words = "short.tsv: line 1 has a value that is no integer of 64 bits (ann): nothing was counted (--skip-bad leaves such lines out)"
        self.write("int.tsv", b"1\tann\n")
        self.fails(1, [words.replace("short", "int")], "add", "a.hll", "--value", "2", "--int", "int.tsv")
        self.assertEqual(self.read("a.hll"), before)
        found = self.added("--value", "2", "--skip-bad", "short.tsv", "short.tsv")
        self.assertEqual(found, (sketch_of(["ann", "bob"]), "hll: left out 4 of 8 lines: each has too few columns (the first: short.tsv, line 2)\n"))

    def test_wrong_command_lines(self):
        for words, said in (
            (["--csv"], "--value COLUMN says what is counted"), (["--separator", ","], "--value COLUMN says what is counted"),
            (["--value", "user"], "a column is a number from 1"), (["--csv", "--jsonl", "--value", "x"], "not allowed with argument"),
            (["--csv", "--separator", "ab", "--value", "x"], "one ASCII character"), (["--none", "x"], "unrecognized arguments: --none"),
        ):
            status, out, err = self.run_hll("add", "a.hll", *words)
            self.assertEqual((status, out), (2, b""))
            self.assertIn(said, err)


class InputsTest(CommandTest):
    """Files and standard input: which are read, and which are rejected before the sketch is touched."""

    def setUp(self):
        super().setUp()
        self.succeeds("new", "a.hll")
        self.before = self.read("a.hll")

    def rejected(self, status, words, *names, given=b""):
        self.fails(status, [words], "add", "a.hll", *names, given=given)
        self.assertEqual(self.read("a.hll"), self.before)

    def test_compressed(self):
        """Files of several parts, also on standard input, next to plain files, with zeros after them."""
        data = [b"".join(b"%d\n" % n for n in range(first, first + 40_000)) for first in (0, 30_000, 60_000, 90_000)]
        pack = gzip.compress, lzma.compress, bz2.compress
        for number, call in enumerate(pack):
            self.write("all/%d" % number, call(data[number]) + (b"" if number == 1 else bytes(512)) + call(data[3]))
        self.write("all/3", data[3])
        self.succeeds("add", "a.hll", "all/0", "all/3", "-", "all/2", given=self.read("all/1"))
        wanted = Sketch()
        wanted.update_many(b"%d" % n for n in range(130_000))
        self.assertEqual(self.read("a.hll"), wanted.to_bytes())

    def test_what_is_inside_is_read_in_bounded_pieces(self):
        """Little compressed data can be much text."""
        for call in (gzip.compress, lzma.compress, bz2.compress):
            path = self.write("zeros", call(b"a" * 50_000_000))
            sizes = list(map(len, inputs.blocks_of(str(path))))
            self.assertEqual((sum(sizes), max(sizes) <= inputs.BLOCK + inputs.BEGIN), (50_000_000, True))

    def test_cut_and_damaged(self):
        """Wherever it is cut, nothing is added; changed bytes are found by the format's checksum, or change what is read."""
        text = b"".join(b"visitor %d\n" % n for n in range(3000))
        numbers = random.Random(7)
        for call in (gzip.compress, lzma.compress, bz2.compress):
            whole = call(text)
            for end in [*numbers.sample(range(10, len(whole)), 40), len(whole) - 1]:
                with self.assertRaisesRegex(files.Trouble, "it ends inside its compressed data: nothing was counted"):
                    list(inputs.blocks_of(str(self.write("cut", whole[:end]))))
            for tail in (b"x", b"\0\0\0more", whole[:8]):
                with self.assertRaisesRegex(files.Trouble, "damaged|ends inside"):
                    list(inputs.blocks_of(str(self.write("cut", whole + tail))))
            for place in numbers.sample(range(30, len(whole)), 40):
                changed = bytearray(whole)
                changed[place] ^= 1 << numbers.randrange(8)
                try:
                    self.assertEqual(b"".join(inputs.blocks_of(str(self.write("cut", changed)))), text)
                except files.Trouble as trouble:
                    self.assertRegex(str(trouble), "damaged|ends inside")
        self.write("half.gz", gzip.compress(text)[:-9])
        self.rejected(1, "half.gz: it ends inside its compressed data: nothing was counted", "half.gz")

    def test_other_data(self):
        """It is rejected with the command to use; `--raw` counts its lines as they are."""
        raw = "; --raw counts its lines as they are)"
        for begin, words in (
            (b"\x28\xb5\x2f\xfdabc", "it is zstd, and not text: nothing was counted (zstdcat%s | hll .." + raw),
            (b"\x04\x22\x4d\x18abc", "it is lz4, and not text: nothing was counted (lz4cat%s | hll .." + raw),
            (b"PK\3\4abc", "it is a zip file, and not text: nothing was counted (unzip -p%s | hll .." + raw),
            ("é\n".encode("utf-16"), "it is UTF-16, and not text: nothing was counted (iconv -f UTF-16 -t UTF-8%s | hll .." + raw),
            ("é\n".encode("utf-32"), "it is UTF-32, and not text: nothing was counted (iconv -f UTF-32 -t UTF-8%s | hll .." + raw),
            (b"PAR1\x15\4", "it is Parquet, and not text: nothing was counted (read it in Python, and pass a column to update_many" + raw),
            (b"a\n" * 2000 + b"b\0\n", "it has a NUL in its first 4,096 bytes, so it is not text: nothing was counted "
             "(--raw counts its lines as they are)"),
            (self.before, "it is a sketch, and not text: nothing was counted (hll merge merges sketches)"),
        ):
            self.write("other", begin)
            named, unnamed = (words % " other", words % "") if "%s" in words else (words, words)
            self.rejected(1, f"other: {named}", "other")
            self.rejected(1, f"standard input: {unnamed}", given=begin)
            self.write("other", gzip.compress(begin))
            self.rejected(1, f"other: {named}", "other")
            self.succeeds("add", "a.hll", "-o", "b.hll", "--raw", given=begin)
            lines = begin.split(b"\n")
            self.assertEqual(self.read("b.hll"), sketch_of(lines if lines[-1] else lines[:-1]).to_bytes())
        self.write("twice", gzip.compress(bz2.compress(b"a\n")))
        self.rejected(1, "twice: it is compressed twice, and has bzip2 inside: nothing was counted (zcat twice | hll ..)", "twice")

    def test_texts_that_begin_like_other_data(self):
        for text in (b"PAR1 is a name\n", b"BZh9 too\n", b"SQLite format 3 is a name\n", b"\xef\xbb\n", b"\xff\n"):
            self.succeeds("add", "a.hll", "-o", "b.hll", given=text)
            self.assertEqual(self.read("b.hll"), sketch_of([text[:-1]]).to_bytes())

    def test_a_byte_order_mark(self):
        """It is skipped at the beginning of each input, and nowhere else."""
        mark = b"\xef\xbb\xbf"
        self.write("one", mark + b"a\nb\n" + mark + b"c\n")
        self.write("two", gzip.compress(mark + b"a\n"))
        self.write("three", mark)
        self.succeeds("add", "a.hll", "one", "two", "three")
        self.assertEqual(self.read("a.hll"), sketch_of([b"a", b"b", mark + b"c"]).to_bytes())

    def test_files_that_cannot_be_read(self):
        self.rejected(2, "none: No such file or directory", "none")
        self.rejected(2, ".: Is a directory", ".")
        self.write("good", b"x\n")
        self.rejected(2, "none: No such file or directory", "good", "none")
        with mock.patch.object(inputs, "import_module", side_effect=ImportError):
            with self.assertRaisesRegex(files.Trouble, r"it is xz, and this Python has no module lzma: nothing was counted \(xzcat"):
                list(inputs.blocks_of(str(self.write("x", lzma.compress(b"a")))))

    def test_an_input_that_comes_slowly(self):
        """The first bytes of a pipe may come one by one."""
        running = subprocess.Popen([*COMMAND, "add", "a.hll"], stdin=subprocess.PIPE, stderr=subprocess.PIPE, cwd=self.folder, env=environment())
        for byte in gzip.compress(b"ann\n"):
            running.stdin.write(bytes([byte]))
            running.stdin.flush()
        self.assertEqual((running.communicate()[1], running.returncode), (b"", 0))
        self.assertEqual(self.read("a.hll"), sketch_of(["ann"]).to_bytes())


if __name__ == "__main__":
    unittest.main()
