# SPDX-License-Identifier: Apache-2.0
"""Lines that are split in C, next to a plain model and next to the reader in Python, in blocks of any size, also under sanitizers."""
import csv
import ctypes
import io
import json
import os
import pathlib
import random
import shutil
import subprocess
import sys
import tempfile
import unittest
from unittest import mock

import common
import test_lines
from command import CommandTest, environment
from hll_sketches import Sketch, _library, _splitter, counting, files, inputs
from hll_sketches.database import Settings
from hll_sketches.lines import COLUMNS, CSV, JSON, LONGEST_KEY, Layout, Part, Reader

BLOCKS = (1, 2, 7, 64, 1 << 20)
MODULE = common.PACKAGE / "build" / _splitter.NAME
PIECES = [b"a", b"\xc3\xa9", b"\xff", b"\0", b"-", b"\r", b"\r\n", b"\n", b"\n\n", b"x" * 40, b"ab", b"abc"]
SOURCES = [common.PACKAGE / name for name in ("lines.c", "rows.c")]
SANITIZERS = ["-O1", "-g", "-fsanitize=address,undefined", "-fno-sanitize-recover=undefined", "-fno-omit-frame-pointer"]


def model(data, missing, longest):
    """The lines that count, the numbers of lines, of those left out and of those that end in a CR; or the number of one that is too long."""
    lines = data.split(b"\n")
    lines = lines if lines[-1] else lines[:-1]
    for number, line in enumerate(lines, 1):
        if len(line) > longest:
            return number
    kept = [line for line in lines if line not in missing]
    return kept, len(lines), len(lines) - len(kept), sum(line[-1:] == b"\r" for line in lines)


def sketch_of(values, lg_k):
    made = Sketch(lg_k)
    made.update_many(values)
    return made.to_bytes()


CALL = _splitter._call


def call_in_its_own_memory(name):
    """A call of the module, with lines in memory that ends with them. That of `bytes` has one byte more."""
    def called(*words):
        return CALL(name)(*((ctypes.c_char * len(word)).from_buffer_copy(word) if isinstance(word, bytes) else word for word in words))
    return called


class ModuleTest(unittest.TestCase):
    def setUp(self):
        if not _splitter.is_here():
            self.skipTest("the module that splits lines is not built")
        self.numbers = random.Random(20261202)
        place, self.path = tempfile.mkstemp(prefix="hll-")
        os.close(place)
        self.addCleanup(os.unlink, self.path)
        own_memory = mock.patch.object(_splitter, "_call", call_in_its_own_memory)
        own_memory.start()
        self.addCleanup(own_memory.stop)

    def read(self, call, block, is_here):
        """The result of a call that reads in blocks, by C or by Python; or what is said of the error."""
        with mock.patch.object(inputs, "BLOCK", block), mock.patch.object(inputs, "BEGIN", min(block, 4096)), \
                mock.patch.object(_splitter, "is_here", return_value=is_here):
            try:
                return call()
            except files.Trouble as trouble:
                return str(trouble)


def numbers_in(reader):
    """What a reader sums up."""
    sums = reader.sums
    return sums.lines, sums.counted, sums.missing, sums.ending_in_cr, sums.left_out, sums.bad, list(sums.said())


class SplitterTest(ModuleTest):
    """Whole lines."""

    def found(self, layout, lg_k, block, is_here=True):
        """The image and the sums of the file, by C or by Python; or what is said of it."""
        reader = Reader(layout)
        return self.read(lambda: (counting.image_of(reader, [self.path], lg_k), *numbers_in(reader)), block, is_here)

    def compare(self, data, layout, lg_k=12):
        """Both readers have the results of the model, whatever the blocks are."""
        pathlib.Path(self.path).write_bytes(data)
        wanted = model(data, layout.missing, layout.longest)
        for block in BLOCKS:
            found = self.found(layout, lg_k, block)
            self.assertEqual(found, self.found(layout, lg_k, block, False), (data, layout, block))
            if isinstance(wanted, int):
                words = f"line {wanted:,} is longer than {layout.longest:,} bytes (--longest-line changes this): nothing was counted"
                self.assertEqual(found, f"{self.path}: {words}", (data, layout, block))
                continue
            kept, lines, missing, ending_in_cr = wanted
            self.assertEqual(found[:5], (sketch_of(kept, lg_k), lines, len(kept), missing, ending_in_cr), (data, layout, block))

    def test_random_text(self):
        for _ in range(150):
            data = b"".join(self.numbers.choice(PIECES) for _ in range(self.numbers.randrange(40)))
            missing = frozenset(self.numbers.choice([[], [], [b""], [b"-", b"a"], [b"ab", b"", b"abc", b"\r"]]))
            longest = self.numbers.choice([1 << 26, 1 << 26, 39, 40, 2, 0])
            self.compare(data, Layout(missing=missing, longest=longest, is_raw=True), self.numbers.choice([4, 7, 12]))

    def test_edges(self):
        for data in (b"", b"\n", b"\n\n", b"a", b"a\n", b"\na", b"\r", b"\r\n", b"a\r\nb\r\n", b"a\r\nb\r", b"\0\n\0", b"x" * 5000 + b"\ny", b"\xff\xfe\n"):
            for missing in ([], [b""], [b"\r", b"a"], [b"\0", b"x" * 5000]):
                for longest in (0, 1, 2, 4999, 5000, sys.maxsize, sys.maxsize + 1):
                    self.compare(data, Layout(missing=frozenset(missing), longest=longest, is_raw=True))

    def test_sketches_of_each_stage(self):
        """Lists, sets and registers, from one line to many: the images of the lines are those of the values."""
        for lg_k in (4, 8, 12):
            for count in (1, 8, 9, 30, 200, 700, 3_000):
                self.compare(b"".join(b"%d\n" % self.numbers.randrange(count) for _ in range(count)), Layout(), lg_k)

    def test_lines_of_many_blocks(self):
        text = b"x" * 3_000_000 + b"\n" + b"y" * 10 + b"\n" + b"z" * 2_500_000
        with mock.patch(f"{__name__}.BLOCKS", (1 << 20,)):
            self.compare(text, Layout())
            self.compare(text, Layout(longest=2_999_999))

    def test_a_line_without_an_end_is_not_read_to_its_end(self):
        """An error comes as soon as a line is too long."""
        read = []

        def blocks(*_):
            for _ in range(100):
                read.append(1)
                yield b"x" * 1000

        with mock.patch("hll_sketches.lines.blocks_of", blocks), self.assertRaisesRegex(files.Trouble, "line 1 is longer than 2,500 bytes"):
            counting.image_of(Reader(Layout(longest=2500)), ["a"], 12)
        self.assertEqual(len(read), 3)

    def test_several_inputs(self):
        """Lines are numbered in each, and their sums are those of all."""
        pathlib.Path(self.path).write_bytes(b"a\nbb\nb")
        reader = Reader(Layout())
        image = counting.image_of(reader, [self.path, self.path], 12)
        self.assertEqual((image, reader.sums.lines), (sketch_of(["a", "bb", "b"], 12), 6))
        with tempfile.NamedTemporaryFile() as other:
            other.write(b"c\nddd\n")
            other.flush()
            with self.assertRaisesRegex(files.Trouble, "^%s: line 2 is longer than 2 bytes" % other.name):
                counting.image_of(Reader(Layout(longest=2)), [self.path, other.name], 12)

    def test_what_is_read_in_python(self):
        """Integers and CSV: no line reaches the module."""
        with mock.patch.object(_splitter, "_call", side_effect=AssertionError):
            pathlib.Path(self.path).write_bytes(b"1\n2\n")
            self.assertEqual(counting.image_of(Reader(Layout(are_ints=True)), [self.path], 12), sketch_of([1, 2], 12))
            self.assertEqual(counting.image_of(Reader(Layout(CSV, "1", (), b",")), [self.path], 12), sketch_of(["2"], 12))
            for layout in (Layout(), Layout(COLUMNS, "1")):
                with self.assertRaises(AssertionError):
                    counting.image_of(Reader(layout), [self.path], 12)

    def test_a_failed_allocation(self):
        pathlib.Path(self.path).write_bytes(b"".join(b"%d\n" % number for number in range(1000)))
        refuse = ctypes.CFUNCTYPE(ctypes.c_void_p, ctypes.c_void_p, ctypes.c_void_p, ctypes.c_size_t, ctypes.c_size_t)(lambda *_: None)
        with mock.patch.object(_library, "ALLOCATOR", ctypes.cast(refuse, ctypes.c_void_p)), self.assertRaises(MemoryError):
            counting.image_of(Reader(Layout()), [self.path], 12)


def cut(part, length):
    return os.fsencode(part.decode("utf-8", "surrogateescape")[:length]) if length else part


def model_of_rows(data, layout):
    """The values of each key, the numbers of lines, of those left out without a value, and of bad ones; or the number and the begin of what
    is said of the first bad line, where bad lines aren't left out."""
    lines = data.split(b"\n")
    places = [int(part.column) - 1 for part in layout.parts] + [int(layout.value) - 1]
    sketches, missing, bad = {}, 0, []
    for line in lines if lines[-1] else lines[:-1]:
        fields = line.split(layout.separator)
        if len(fields) <= max(places):
            bad.append("has too few columns")
            continue
        *key, value = [fields[place] for place in places]
        key = tuple(cut(part, one.length) for part, one in zip(key, layout.parts))
        if value in layout.missing:
            missing += 1
        elif any(b"\0" in part or len(part) > LONGEST_KEY for part in key):
            bad.append("has a key with a NUL")
        elif layout.skip_empty_key and b"" in key:
            continue
        else:
            sketches.setdefault(key, []).append(value)
    return sketches, missing, bad


def order(key):
    """As SQLite has keys: text before other bytes."""
    def is_text(part):
        try:
            return bool(part.decode() or True)
        except UnicodeDecodeError:
            return False
    return [(not is_text(part), part) for part in key]


class RowsTest(ModuleTest):
    """Columns, and values by key."""

    def found(self, layout, settings, memory, block, is_here=True):
        """The rows and the sums of the file, by C or by Python; or what is said of it."""
        def call():
            reader = Reader(layout)
            if not layout.parts:
                return counting.image_of(reader, [self.path], settings.lg_k), numbers_in(reader)
            sketches = counting.Keyed(settings, reader, memory)
            sketches.read([self.path])
            return list(sketches.rows()), numbers_in(reader)
        return self.read(call, block, is_here)

    def both(self, data, layout, lg_k=12, width=8, memory=1 << 30):
        """What both readers find, for each size of blocks. It is the same but for what depends on the blocks: which of several bad lines
        is the first to be found."""
        pathlib.Path(self.path).write_bytes(data)
        settings = Settings(tuple(part.name for part in layout.parts), lg_k, width)
        for block in BLOCKS:
            found = self.found(layout, settings, memory, block)
            self.assertEqual(found, self.found(layout, settings, memory, block, False), (data, layout, block))
            yield found

    def compare(self, data, layout, lg_k=12, width=8, memory=1 << 30):
        sketches, missing, bad = model_of_rows(data, layout)
        for found in self.both(data, layout, lg_k, width, memory):
            if bad and not layout.skip_bad:
                self.assertRegex(found, "|".join(bad), (data, layout))
                continue
            self.assertEqual((found[1][2], sum(count for count, _ in found[1][5].values())), (missing, len(bad)), (data, layout))
            self.assertEqual(found[1][1], sum(map(len, sketches.values())))
            if not layout.parts:
                self.assertEqual(found[0], sketch_of(sketches.get((), []), lg_k), (data, layout))
                continue
            wanted = [(*key, Sketch.from_bytes(sketch_of(sketches[key], lg_k)).convert(width).to_bytes()) for key in sorted(sketches, key=order)]
            self.assertEqual([(*map(bytes_of_stored, row[:-1]), row[-1]) for row in found[0]], wanted, (data, layout))

    def random_layout(self):
        choice = self.numbers.choice
        columns = self.numbers.sample("1234", 4)
        parts = tuple(Part(f"k{n}", columns[n], choice([0, 0, 1, 2, 30])) for n in range(choice([0, 1, 1, 2, 3])))
        missing = frozenset(choice([[], [b""], [b"-", b"a"]]))
        value = choice([columns[3], columns[0]])
        separator = choice([b"\t", b"\t", b",", b"::", b"a"])
        return Layout(COLUMNS, value, parts, separator, missing, skip_bad=choice([True, True, False]), skip_empty_key=choice([False, False, True]),
                      is_raw=True)

    def random_rows(self, layout, is_clean):
        choice, letters = self.numbers.choice, [b"a", b"b", b"\xc3\xa9", b"-", b"", b"c" * 40, b"\r"] + [b"\xff", b"\0", layout.separator] * (not is_clean)
        columns = [4, 5] if is_clean else [1, 2, 4, 4, 4, 5]
        rows = [layout.separator.join(b"".join(choice(letters) for _ in range(self.numbers.randrange(4))) for _ in range(choice(columns)))
                for _ in range(self.numbers.randrange(25))]
        return b"\n".join(rows) + choice([b"", b"\n", b"\r\n"])

    def test_random_rows(self):
        for number in range(150):
            layout = self.random_layout()
            self.compare(self.random_rows(layout, number % 3 > 0), layout, self.numbers.choice([4, 8, 12]), self.numbers.choice([4, 6, 8]),
                         self.numbers.choice([0, 20_000, 1 << 30]))

    def test_keys_of_each_stage(self):
        """Keys with one value and with many, more than one table and one batch of images hold."""
        rows = [b"%d\t%d\n" % (int(self.numbers.paretovariate(0.4)) % 1500, self.numbers.randrange(5000)) for _ in range(15_000)]
        layout = Layout(COLUMNS, "2", (Part("key", "1"),))
        for lg_k, width, memory in ((4, 4, 1 << 30), (8, 6, 1 << 30), (12, 4, 1 << 30), (12, 8, 100_000)):
            with mock.patch(f"{__name__}.BLOCKS", (1 << 16,)), mock.patch.object(_splitter, "ROOM", 1):
                self.compare(b"".join(rows), layout, lg_k, width, memory)

    def test_forms_that_are_split_in_python(self):
        """Their values are counted by key in C."""
        parts = Part("key", "k"), Part("other", "o", 2)
        for _ in range(15):
            rows = [[self.numbers.choice(["a", "\u00e9\u00e9\u00e9", "", "x,y"]), self.numbers.choice(["", "1", "22"]), str(self.numbers.randrange(5))] for _ in range(20)]
            text = io.StringIO()
            csv.writer(text).writerows([["k", "o", "v"], *rows])
            lines = "".join(json.dumps(dict(zip("kov", row))) + "\n" for row in rows)
            for are_ints in (False, True):
                for data, layout in ((text.getvalue(), Layout(CSV, "v", parts, b",")), (lines, Layout(JSON, "v", parts))):
                    layout = layout._replace(are_ints=are_ints)
                    for found in self.both(data.encode(), layout):
                        wanted = {(row[0], row[1]) for row in rows}
                        self.assertEqual({row[:2] for row in found[0]}, wanted)

    def test_keys_of_the_same_bytes(self):
        """Their parts begin elsewhere."""
        rows = b"ab\tc\t1\na\tbc\t2\nabc\t\t3\n\tabc\t4\n"
        layout = Layout(COLUMNS, "3", (Part("one", "1"), Part("two", "2")))
        self.compare(rows, layout)
        self.assertEqual([row[:2] for row in next(self.both(rows, layout))[0]], [("", "abc"), ("a", "bc"), ("ab", "c"), ("abc", "")])

    def test_lines_that_are_left_to_python(self):
        """A part that isn't ASCII and has to be cut, a NUL, a long line, a short one: the same as in Python, with the lines around them."""
        layout = Layout(COLUMNS, "2", (Part("key", "1", 2),), skip_bad=True, is_raw=True)
        for odd in (b"\xc3\xa9\xc3\xa9\xc3\xa9\tx", b"\xff\xff\xff\tx", b"a\0\tx", b"x" * (LONGEST_KEY + 1) + b"\tx", b"a", b"a\t" + b"x" * (LONGEST_KEY + 1), b""):
            for data in (odd, b"a\tb\n" * 3 + odd + b"\nc\td\n", odd + b"\n" + b"a\tb\n" * 3):
                self.compare(data, layout)
                self.compare(data, layout._replace(parts=(Part("key", "1"),)))
        for found in self.both(b"a\tb\nabc\td\n", layout._replace(longest=3)):
            self.assertIn("line 2 is longer than 3 bytes", found)

    def test_no_lines(self):
        for parts in ((), (Part("key", "2"),)):
            for data in (b"", b"-\t-\n"):
                self.compare(data, Layout(COLUMNS, "1", parts, missing=frozenset([b"-"])))

    def test_a_seed_of_its_own(self):
        """Two tables have the same keys in other buckets, so nobody can choose keys that share one."""
        seeds = []
        real = os.urandom
        with mock.patch.object(os, "urandom", lambda size: seeds.append(real(size)) or seeds[-1]):
            for _ in range(3):
                _splitter.Rows(12, 1)
        self.assertEqual((len(set(seeds)), set(map(len, seeds))), (3, {16}))

    def test_the_hash_of_keys(self):
        """It is SipHash-1-3 of the seed and the key."""
        if shutil.which("cc") is None:
            self.skipTest("a C compiler is not here")
        with tempfile.TemporaryDirectory() as folder:
            source = pathlib.Path(folder, "hash.c")
            source.write_text('#include "rows.c"\nuint64_t tried(const uint64_t *s, const uint8_t *k, size_t n) { return hash_of(s, k, n); }\n')
            include = ["-I", common.PACKAGE, "-I", common.ROOT / "bindings/c"]
            subprocess.run(["cc", "-std=c99", "-shared", "-fPIC", *include, "-o", source.with_suffix(".so"), source, SOURCES[0]], check=True)
            tried = ctypes.CDLL(str(source.with_suffix(".so"))).tried
        tried.restype, tried.argtypes = ctypes.c_uint64, [ctypes.c_void_p, ctypes.c_char_p, ctypes.c_size_t]
        for size in range(40):
            seed, key = (bytes(self.numbers.randrange(256) for _ in range(count)) for count in (16, size))
            self.assertEqual(tried(seed, key, size), siphash_1_3(seed, key), (seed, key))

    def test_memory(self):
        """It is counted with the memory of sketches, and more of it than is allowed goes to the temporary database."""
        rows = _splitter.Rows(12, 1)
        sizes = [rows.size]
        for keys, values in (([(b"%d" % n,) for n in range(5000)], [b"x"] * 5000), ([(b"0",)] * 5000, [b"%d" % n for n in range(5000)])):
            rows.add(keys, values)
            sizes.append(rows.size)
        self.assertGreater(sizes[1] - sizes[0], 5000 * ctypes.sizeof(_library.Counter))
        self.assertGreater(sizes[2] - sizes[1], 4096)
        rows.clear()
        self.assertEqual((rows.size, rows.keys()), (sizes[0], []))
        pathlib.Path(self.path).write_bytes(b"".join(b"%d\tx\n" % n for n in range(5000)))
        for memory, has_moved in ((sizes[1] + 1, False), (sizes[1] - 1, True)):
            sketches = counting.Keyed(Settings(("key",), 12, 8), Reader(Layout(COLUMNS, "2", (Part("key", "1"),))), memory)
            sketches.read([self.path])
            self.assertEqual((sketches._rest is not None, len(list(sketches.rows()))), (has_moved, 5000))

    def test_a_failed_allocation(self):
        rows = b"".join(b"a\t%d\n" % number for number in range(1000))
        pathlib.Path(self.path).write_bytes(rows)
        refuse = ctypes.CFUNCTYPE(ctypes.c_void_p, ctypes.c_void_p, ctypes.c_void_p, ctypes.c_size_t, ctypes.c_size_t)(lambda *_: None)
        for parts in ((), (Part("key", "1"),)):
            with mock.patch.object(_library, "ALLOCATOR", ctypes.cast(refuse, ctypes.c_void_p)), self.assertRaises(MemoryError):
                self.found(Layout(COLUMNS, "2", parts), Settings(("key",), 12, 8), 1 << 30, 1 << 20)


def siphash_1_3(seed, key):
    """A plain SipHash-1-3."""
    mask = (1 << 64) - 1
    k = [int.from_bytes(seed[at : at + 8], "little") for at in (0, 8)]
    v = [k[0] ^ 0x736F6D6570736575, k[1] ^ 0x646F72616E646F6D, k[0] ^ 0x6C7967656E657261, k[1] ^ 0x7465646279746573]

    def rotated(x, n):
        return (x << n | x >> (64 - n)) & mask

    def mix():
        v[0] = v[0] + v[1] & mask
        v[1] = rotated(v[1], 13) ^ v[0]
        v[0] = rotated(v[0], 32)
        v[2] = v[2] + v[3] & mask
        v[3] = rotated(v[3], 16) ^ v[2]
        v[0] = v[0] + v[3] & mask
        v[3] = rotated(v[3], 21) ^ v[0]
        v[2] = v[2] + v[1] & mask
        v[1] = rotated(v[1], 17) ^ v[2]
        v[2] = rotated(v[2], 32)

    padded = key + bytes(7 - len(key) % 8) + bytes([len(key) & 255])
    for at in range(0, len(padded), 8):
        word = int.from_bytes(padded[at : at + 8], "little")
        v[3] ^= word
        mix()
        v[0] ^= word
    v[2] ^= 0xFF
    for _ in range(3):
        mix()
    return v[0] ^ v[1] ^ v[2] ^ v[3]


def bytes_of_stored(part):
    return part.encode() if isinstance(part, str) else part


@unittest.skipIf("HLL_SANITIZED" in os.environ, "this is the test that it starts")
class SanitizersTest(CommandTest):
    def test_address_and_undefined(self):
        """The tests above, with a module that is built with AddressSanitizer and UBSan."""
        if shutil.which("cc") is None or not _splitter.is_here():
            self.skipTest("a C compiler or the module that splits lines is not here")
        runtime = subprocess.run(["cc", "-print-file-name=libasan.so"], capture_output=True, text=True).stdout.strip()
        module = self.folder / _splitter.NAME
        subprocess.run(["cc", "-std=c99", "-shared", "-fPIC", *SANITIZERS, "-I", common.ROOT / "bindings/c", "-o", module, *SOURCES], check=True)
        more = {"HLL_SKETCHES_LINES": str(module), "HLL_SANITIZED": "yes", "LD_PRELOAD": runtime, "PYTHONMALLOC": "malloc",
                "ASAN_OPTIONS": "detect_leaks=0", "UBSAN_OPTIONS": "print_stacktrace=1"}
        done = subprocess.run([sys.executable, __file__], env=environment(**more), capture_output=True, text=True, timeout=600)
        self.assertEqual(done.returncode, 0, done.stderr[-3000:])
        self.assertRegex(done.stderr, r"Ran 18 tests in .*\n\nOK\n$")
        self.assertNotIn("Sanitizer", done.stderr)


class WithoutTest(CommandTest):
    """Where the module isn't there or can't be used, lines are read in Python."""

    def is_here(self, package=common.PACKAGE, **more):
        code = "from hll_sketches import _splitter; print(_splitter.is_here())"
        kept = {name: value for name, value in environment().items() if name != "HLL_SKETCHES_LINES"}
        done = subprocess.run([sys.executable, "-c", code], cwd=self.folder, env={**kept, "PYTHONPATH": str(package), **more}, capture_output=True, text=True)
        self.assertEqual(done.stderr, "")
        return done.stdout == "True\n"

    def test_the_variable(self):
        if not MODULE.exists():
            self.skipTest("the module that splits lines is not built")
        self.assertTrue(self.is_here())
        self.assertTrue(self.is_here(HLL_SKETCHES_LINES=str(MODULE)))
        self.assertFalse(self.is_here(HLL_SKETCHES_LINES=""))
        self.assertFalse(self.is_here(HLL_SKETCHES_LINES=str(self.folder / "none.so")))
        self.assertFalse(self.is_here(HLL_SKETCHES_LINES=str(self.write("text.so", b"x"))))

    def test_in_an_installed_package(self):
        """It is next to the package's modules. What others put above the package is not loaded."""
        if not MODULE.exists():
            self.skipTest("the module that splits lines is not built")
        place = self.folder / "python"
        shutil.copytree(common.PACKAGE / "hll_sketches", place / "hll_sketches", ignore=shutil.ignore_patterns("*.so*", "__pycache__"))
        (place / "build").mkdir()
        shutil.copyfile(MODULE, place / "build" / MODULE.name)
        self.assertFalse(self.is_here(place))
        shutil.copyfile(MODULE, place / "hll_sketches" / MODULE.name)
        self.assertTrue(self.is_here(place))

    def test_another_version(self):
        if shutil.which("cc") is None:
            self.skipTest("a C compiler is not here")
        for version, lacks in ((_splitter.VERSION, False), (_splitter.VERSION + 1, False), (_splitter.VERSION, True)):
            text = "unsigned lines_version(void) { return %d; }\n%s" % (version, "" if lacks else "".join("int %s(void) { return 0; }\n" % name for name in _splitter._CALLS if name != "lines_version"))
            self.write("other.c", text.encode())
            module = self.folder / f"other{version}{lacks}.so"
            subprocess.run(["cc", "-shared", "-fPIC", "-o", module, "other.c"], cwd=self.folder, check=True)
            self.assertEqual(self.is_here(HLL_SKETCHES_LINES=str(module)), version == _splitter.VERSION and not lacks)

    def test_the_version_of_the_source(self):
        self.assertIn(f"#define LINES_VERSION {_splitter.VERSION}\n", (common.PACKAGE / "lines.h").read_text())


class FormsInPythonTest(test_lines.FormsTest):
    """Tests of the command, which are run again without the module."""

    def setUp(self):
        super().setUp()
        without = mock.patch.dict(os.environ, HLL_SKETCHES_LINES="")
        without.start()
        self.addCleanup(without.stop)


if __name__ == "__main__":
    unittest.main(argv=[sys.argv[0], "SplitterTest", "RowsTest"] if "HLL_SANITIZED" in os.environ else None)
