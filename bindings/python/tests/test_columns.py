# SPDX-License-Identifier: Apache-2.0
"""Values that lie in memory count as they do one by one, whatever shows them."""
import ctypes
import json
import math
import pickle
import random
import re
import shutil
import struct
import subprocess
import threading
import unittest
from array import array
from unittest import mock

import common  # noqa: F401, for the path
from hll_sketches import (
    ArgumentError, ImageError, PrecisionError, Registers, Sketch, SketchUnion, _library, _values, coupon, coupons, union_of)

try:
    import numpy
except ImportError:
    numpy = None
try:
    import pandas
except ImportError:
    pandas = None
try:
    import pyarrow
except ImportError:
    pyarrow = None

SYSTEM = "/usr/bin/python3"
INTEGERS = [0, 1, -1, 2, 100, 127, -128, 255, 256, 32767, -32768, 65535, 2**31 - 1, -2**31,
            2**32 - 1, 2**53 + 1, 2**63 - 1, -2**63, 2**64 - 1]
FLOATS = [0.0, -0.0, 1.0, -1.0, 0.1, 65504.0, 1e300, -1e300, 5e-324, -5e-324, math.inf, -math.inf,
          math.nan, -math.nan]
COUNTS = (0, 1, 5, 1023)


def one_by_one(values):
    """The image of values that are added in turn, or None where one is refused."""
    made = Sketch(11)
    try:
        for value in values:
            made.update(value)
    except TypeError:
        return None
    return made.to_bytes()


def sketch_of(lg_k):
    """The image of a sketch of one value."""
    made = Sketch(lg_k)
    made.update("ann")
    return made.to_bytes()


def skipped(values):
    """The image of values, without those that are missing."""
    made = Sketch(11)
    made.update_many(values, skip_missing=True)
    return made.to_bytes()


class ColumnTest(unittest.TestCase):
    def check(self, values, wanted=None):
        """Sketches, registers and coupons, beside the same values one by one. Those that are NaN
        are refused at their number, or passed over, and have a coupon."""
        singly = list(values if wanted is None else wanted)
        there = [value for value in singly if value == value]
        wanted = one_by_one(there)
        if wanted is None:
            for call in (Sketch().update_many, Registers().update_many, coupons):
                self.assertRaises(TypeError, call, values)
            return
        sketch, registers = Sketch(11), Registers(11)
        if len(there) < len(singly):
            number = next(n for n, value in enumerate(singly) if value != value)
            for made in (sketch, registers):
                with self.assertRaisesRegex(ArgumentError, f"^(row {number}: )?values\\[{number}\\] is missing "):
                    made.update_many(values)
                made.reset()
        sketch.update_many(values, skip_missing=True)
        registers.update_many(values, skip_missing=True)
        self.assertEqual(sketch.to_bytes(), wanted)
        self.assertEqual(registers.to_sketch().histogram(), sketch.histogram())
        self.assertEqual(list(coupons(values)), [coupon(value) for value in singly])

    def each_count(self, values, source):
        for count in COUNTS:
            yield [source.choice(values) for _ in range(count)]


class MemoryTest(ColumnTest):
    """What Python has itself."""

    def test_arrays_and_views(self):
        source = random.Random(1)
        for code in "bBhHiIlLqQ":
            size = 8 * array(code).itemsize
            least = 0 if code.isupper() else -(2 ** (size - 1))
            most = least + 2**size - 1
            fit = [number for number in INTEGERS if least <= number <= most]
            fit += [source.randint(least, most) for _ in range(5000)]
            for values in self.each_count(fit, source):
                with self.subTest(code=code, count=len(values)):
                    self.check(array(code, values))
                    if size > 8:
                        view = memoryview(array(code, values))
                        self.check(view, values)
                        self.check(view[::-1], values[::-1])
                        self.check(view[1::3], values[1::3])
                        self.check(view.toreadonly(), values)

    def test_floats(self):
        source = random.Random(2)
        for code in "fd":
            plain = [source.uniform(-9, 9) for _ in range(1000)]
            fit = [value for value in FLOATS if code == "d" or not 1e40 < abs(value) < math.inf]
            for kinds in (plain, plain * 40 + fit, plain + fit, [math.nan, -0.0]):
                for values in self.each_count(kinds, source):
                    kept = array(code, values)
                    with self.subTest(code=code, count=len(values)):
                        self.check(kept)
                        self.check(memoryview(kept), list(kept))
                        self.check(memoryview(kept)[::2], list(kept)[::2])

    def test_each_nan(self):
        words = [0x7FF0000000000001, 0x7FF8000000000001, 0xFFF8000000000000, 2**64 - 1,
                 0x7FF8000000000000]
        nans = array("d", struct.pack("<5Q", *words))
        self.assertEqual(set(coupons(nans)), {coupon(math.nan)})
        self.assertEqual(coupon(math.nan), coupon(bytes.fromhex("000000000000f87f")))
        mixed = array("d", struct.pack("<5Q", *words) + struct.pack("<2000d", *range(2000)))
        self.check(mixed)
        self.assertEqual(set(coupons(array("d", [0.0, -0.0]))), {coupon(0.0)})

    def test_more_than_a_batch(self):
        source = random.Random(7)
        self.check(array("q", [source.getrandbits(63) for _ in range(70_000)]))
        self.check(array("i", [source.getrandbits(31) for _ in range(70_000)]))
        self.check(array("d", [source.random() for _ in range(70_000)]))

    def test_arrays_of_ctypes(self):
        for kind in (ctypes.c_int64, ctypes.c_uint64, ctypes.c_int32, ctypes.c_uint8,
                     ctypes.c_double, ctypes.c_float):
            self.check((kind * 5)(1, 2, 3, 0, 255))
        for kind in (ctypes.c_int32.__ctype_be__, ctypes.c_int64.__ctype_be__):
            self.check((kind * 3)(1, 2, -3))
            self.check(memoryview((kind * 3)(1, 2, -3)), [1, 2, -3])

    def test_it_is_quick(self):
        """No value becomes an object: a call for each batch, and none for a value."""
        calls, values = [], array("q", range(200_000))

        def add(counter, data, ends, count):
            calls.append(count)

        with mock.patch.object(_values, "bytes_of", side_effect=AssertionError), \
                mock.patch.object(_values, "joined", side_effect=AssertionError), \
                mock.patch.object(_library, "add_to_counter", side_effect=add):
            Sketch().update_many(values)
        self.assertEqual(sum(calls), len(values))
        self.assertLess(len(calls), 8)

    def test_refused(self):
        """What is no column and no iterable of values; the error says what to pass."""
        for values, said in (
            (memoryview(b"abc"), "update_bytes"), (b"abc", "update_bytes"),
            (bytearray(8), "update_bytes"), ("abc", "many values"), ({1: 2}, "keys"),
            (memoryview(bytes(64)).cast("q", [2, 4]), "2 dimensions"),
            (memoryview(bytes(8)).cast("q", []), "one"),
            (memoryview((ctypes.c_longdouble * 3)()), "format"),
        ):
            for call in (Sketch().update_many, Registers().update_many, coupons):
                with self.assertRaisesRegex(TypeError, said):
                    call(values)

    def test_memory_is_held(self):
        """An array can't be resized while its values are taken, and can afterwards."""
        values = array("q", range(200_000))
        batches = _values.batches(values)
        next(batches)
        self.assertRaises(BufferError, values.append, 1)
        list(batches)
        values.append(1)

    def test_changed_meanwhile(self):
        """Another thread writes the numbers and the ends meanwhile, and nothing breaks."""
        values, ends = array("q", range(100_000)), array("q", range(8, 800_001, 8))
        data, stop = bytes(800_000), threading.Event()

        def write():
            while not stop.is_set():
                for number in range(0, 100_000, 97):
                    values[number], ends[number] = number * 7919, 2**62

        writer = threading.Thread(target=write)
        writer.start()
        self.addCleanup(writer.join)
        self.addCleanup(stop.set)
        for _ in range(20):
            Sketch().update_many(values)
            try:
                Registers().update_bytes(data, ends)
            except ArgumentError:
                pass

    def test_threads(self):
        parts = [array("q", range(first, first + 50_000)) for first in range(0, 200_000, 50_000)]
        made, wanted = Registers(12), Registers(12)
        threads = [threading.Thread(target=made.update_many, args=[part]) for part in parts]
        for thread in threads:
            thread.start()
        for thread in threads:
            thread.join()
        wanted.update_many(range(200_000))
        self.assertEqual(made, wanted)


class BytesTest(ColumnTest):
    """Byte strings with their ends."""

    def test_update_bytes(self):
        source = random.Random(5)
        for count in (0, 1, 7, 5000):
            pieces = [source.randbytes(source.choice((0, 1, 8, 30))) for _ in range(count)]
            data, ends, at = b"".join(pieces), [], 0
            for piece in pieces:
                at += len(piece)
                ends.append(at)
            wanted, of_registers = Sketch(11), Registers(11)
            wanted.update_many(pieces)
            of_registers.update_many(pieces)
            for given in (lambda: ends, lambda: iter(ends), lambda: memoryview(array("I", ends)),
                          *(lambda code=code: array(code, ends) for code in "iqQ")):
                for held in (data, bytearray(data), memoryview(data + b"behind")):
                    made, registers = Sketch(11), Registers(11)
                    made.update_bytes(held, given())
                    registers.update_bytes(held, given())
                    self.assertEqual(made, wanted)
                    self.assertEqual(registers, of_registers)

    def test_wrong_ends(self):
        made, registers = Sketch(), Registers()
        made.update_many("abc" for _ in range(3))
        before = made.to_bytes()
        for ends in ([4], [2, 1], [1, 4], [-1], [2**64], [2**70], array("q", [-1]),
                     array("i", [1, 0]), array("Q", [2**63])):
            for call in (made.update_bytes, registers.update_bytes):
                with self.assertRaisesRegex(ArgumentError, "ends have to ascend, within the bytes"):
                    call(b"abc", ends)
        for data, ends in (("abc", [1]), (b"abc", ["1"]), (b"abc", [1.0]), (b"abc", None), (5, [1]),
                           (b"abc", array("d", [1.0]))):
            for call in (made.update_bytes, registers.update_bytes):
                self.assertRaises(TypeError, call, data, ends)
        self.assertEqual(made.to_bytes(), before)
        self.assertEqual(registers, Registers())

    def test_coupons_in_memory(self):
        words = coupons(range(1000))
        wanted, made = Registers(), Registers()
        wanted.add_coupons(words)
        made.add_coupons(memoryview(words))
        self.assertEqual(made, wanted)
        self.assertRaises(ArgumentError, made.add_coupons, memoryview(array("I", [5])))
        if numpy is not None:
            again = Registers()
            again.add_coupons(numpy.array(words, "u4"))
            again.add_coupons(numpy.array(words, "u8"))
            again.add_coupons(numpy.array(words, ">u4"))
            self.assertEqual(again, wanted)


class NumPyTest(ColumnTest):
    def test_integers(self):
        source = random.Random(3)
        for kind in ("i1", "u1", "i2", "u2", "i4", "u4", "i8", "u8", ">i2", ">u4", ">i8", ">u8"):
            bounds = numpy.iinfo(kind)
            fit = [number for number in INTEGERS if bounds.min <= number <= bounds.max]
            fit += [source.randint(int(bounds.min), int(bounds.max)) for _ in range(500)]
            for values in self.each_count(fit, source):
                with self.subTest(kind=kind, count=len(values)):
                    kept = numpy.array(values, kind)
                    self.check(kept)
                    self.check(kept, values)
                    self.check(kept[::-2])
                    kept.flags.writeable = False
                    self.check(kept)

    def test_floats(self):
        source = random.Random(4)
        for kind in ("f2", "f4", "f8", ">f4", ">f8"):
            plain = [source.uniform(-9, 9) for _ in range(1000)]
            fit = [value for value in FLOATS if kind[-1] == "8" or not 1e5 < abs(value) < math.inf]
            for kinds in (plain, plain + fit, [math.nan, -0.0]):
                for values in self.each_count(kinds, source):
                    with self.subTest(kind=kind, count=len(values)):
                        self.check(numpy.array(values, kind))
                        self.check(numpy.array(values, kind)[::-3])

    def test_booleans(self):
        for values in ([True], [True, False] * 40, [False]):
            self.check(numpy.array(values), values)
            self.check(numpy.array(values)[::-1], values[::-1])
            self.check(array("b", values), values)
            self.check((ctypes.c_bool * len(values))(*values), values)

    def test_bytes_and_texts(self):
        source = random.Random(6)
        short = [source.randbytes(source.randrange(6)) for _ in range(300)]
        for pieces in (short, [b"abc"] * 3 + [b"xyz"], [b"\0", b"\0a", b"a\0", b"", b"a\0b"],
                       [bytes([n, 1]) for n in range(256)]):
            self.check(numpy.array(pieces, "S5"))
            self.check(numpy.array(pieces))
            self.check(numpy.array(pieces, "V5"))
            self.check(numpy.array(pieces, "O"))
        self.check(numpy.array(["a", "\u00e9\u4e2d", "", "b" * 30]))
        self.check(numpy.array([], "S3"))
        self.check(numpy.array([b"", b""]))

    def test_single_numbers(self):
        for value, wanted in ((numpy.int8(-1), -1), (numpy.uint64(2**64 - 1), 2**64 - 1),
                              (numpy.float64(-0.0), 0.0), (numpy.float32(1.5), 1.5),
                              (numpy.float16("nan"), math.nan), (numpy.void(b"ab\0"), b"ab\0"),
                              (numpy.bytes_(b"ab"), b"ab"), (numpy.str_("a"), "a")):
            self.assertEqual(coupon(value), coupon(wanted))
        self.assertEqual([coupon(numpy.bool_(n)) for n in (0, 1)], [coupon(0), coupon(1)])
        for value in (numpy.complex128(1), numpy.datetime64("2026-11-26"), numpy.longdouble(1),
                      numpy.array([1, 2]), numpy.array(1.5, "g")):
            self.assertRaises(TypeError, coupon, value)
        cure = "pass value.astype('datetime64[us]').astype('int64'), as which SQL counts it"
        for value in (numpy.datetime64("1970-01-02"), numpy.datetime64("1970-01-02T00:00", "ns")):
            with self.assertRaisesRegex(TypeError, re.escape(cure)):
                coupon(value)
            passed = value.astype("datetime64[us]").astype("int64")
            self.assertEqual(coupon(passed), coupon(86400 * 10**6))

    def test_refused(self):
        """Whole arrays that are refused as their values are; tables, one value, masked values."""
        dates = [numpy.array([1], kind) for kind in ("M8[ns]", "M8[D]", "m8[ns]", "m8")]
        for values in (*dates, numpy.array([1j]), numpy.zeros(3, "g"),
                       numpy.zeros(3, "i4,f8"), numpy.zeros((2, 2)), numpy.array(5), numpy.int64(5)):
            for call in (Sketch().update_many, Registers().update_many, coupons):
                self.assertRaises(TypeError, call, values)

    @unittest.skipIf(pandas is None, "pandas is not here")
    def test_series(self):
        for values in ([1, 2, 3], [1.5, math.nan], ["a", "b"], [b"a"], [1, "a", 2.5]):
            self.check(pandas.Series(values), values)
        frame = pandas.DataFrame({"a": [1, 2, 3], "b": [1.0, 2.0, -0.0]})
        self.check(frame["a"], [1, 2, 3])
        self.check(frame["b"], [1.0, 2.0, 0.0])
        self.assertRaises(TypeError, Sketch().update_many, frame)
        self.assertEqual(one_by_one([1, 2, 3]), skipped(pandas.Series([1, 2, 3], dtype="Int64")))

    @unittest.skipIf(pandas is None, "pandas is not here")
    def test_missing_values_of_a_series(self):
        """One rule for what pandas and NumPy have for a value that is missing."""
        three = one_by_one([1, 2, 3])
        for values, wanted in (
            (pandas.Series([1, 2, 3, None], dtype="Int64"), three),
            (pandas.Series([1, 2, 3, None]), one_by_one([1.0, 2.0, 3.0])),
            (pandas.Series(["a", None, "b", math.nan]), one_by_one(["a", "b"])),
            (pandas.Series(["a", pandas.NA], dtype="string"), one_by_one(["a"])),
            (numpy.ma.array([1, 2, 9, 3], mask=[0, 0, 1, 0]), three),
            ([1, pandas.NaT, numpy.float32("nan"), 2, numpy.datetime64("NaT"), 3], three),
        ):
            with self.assertRaisesRegex(ArgumentError, "is missing .*: pass skip_missing=True"):
                Sketch().update_many(values)
            self.assertEqual(skipped(values), wanted)
        self.assertRaises(TypeError, skipped, pandas.Series(pandas.to_datetime(["2026-11-28", None])))

    @unittest.skipIf(pandas is None, "pandas is not here")
    def test_times_of_pandas(self):
        """The error has a line that counts the column as SQL counts its times."""
        wanted = one_by_one([1795824000000000, 1795824000000001])
        for zone in (None, "UTC", "Asia/Kolkata"):
            times = pandas.to_datetime(["2026-11-28T00:00:00.000000", "2026-11-28T00:00:00.000001", None])
            times = times if zone is None else times.tz_localize("UTC").tz_convert(zone)
            for values in (times, pandas.Series(times, name="seen")):
                with self.assertRaisesRegex(TypeError, f"a column of datetime64.*{zone or ''}.* can't be counted: pass") as caught:
                    skipped(values)
                cure = re.search("pass (.*), as which", str(caught.exception)).group(1)
                self.assertEqual(one_by_one(eval(cure, {"values": values}).tolist()), wanted)


def fake_numbers():
    """A column of integers in pandas that makes floats of all of them when it makes an array, as that of
    ``Int64`` with a missing value does since pandas 2.2."""
    extensions = pandas.api.extensions

    class Kind(extensions.ExtensionDtype):
        name, type, kind, na_value = "fake", int, "i", pandas.NA

        @classmethod
        def construct_array_type(cls):
            return Numbers

    class Numbers(extensions.ExtensionArray):
        def __init__(self, values):
            self.values = list(values)

        @property
        def dtype(self):
            return Kind()

        @classmethod
        def _from_sequence(cls, scalars, *, dtype=None, copy=False):
            return cls(scalars)

        def __getitem__(self, item):
            if isinstance(item, (int, numpy.integer)):
                return self.values[item]
            return Numbers(numpy.array(self.values, object)[item])

        def __len__(self):
            return len(self.values)

        def isna(self):
            return numpy.array([value is pandas.NA for value in self.values], bool)

        def copy(self):
            return Numbers(self.values)

        def __array__(self, dtype=None, copy=None):
            return self.to_numpy(dtype)

        def to_numpy(self, dtype=None, copy=False, na_value=None):
            floats = [math.nan if value is pandas.NA else float(value) for value in self.values]
            return numpy.array(floats).astype(dtype or float)

    return Numbers


def as_since_2_2(kind):
    """The extension array of a type of integers of pandas, whose ``to_numpy()`` makes floats where a value
    is missing, in every version of pandas."""
    class Integers(type(pandas.array([1], dtype=kind))):
        def to_numpy(self, dtype=None, copy=False, na_value=math.nan):
            if dtype is None and self.isna().any():
                return super().to_numpy(dtype=float, na_value=math.nan)
            return super().to_numpy(dtype=dtype or self.dtype.numpy_dtype)

    plain = pandas.array([1, 2**53 + 1, None, 2**53], dtype=kind)
    return Integers(plain._data, plain._mask)


class PandasCheck(ColumnTest):
    """What a column of pandas has to do."""

    LARGE = [2**60 + number for number in range(100)]

    def refused_or_skipped(self, column, wanted):
        """A column with missing values counts as these values, or is refused at the first missing one."""
        for call in (Sketch().update_many, Registers(11).update_many):
            with self.assertRaisesRegex(ArgumentError, "is missing .*: pass skip_missing=True"):
                call(column)
        self.assertEqual(skipped(column), one_by_one(wanted), column)


class PandasTest(PandasCheck):
    """Columns of every dtype: an integer counts as an integer, whether a value is missing or not."""

    def test_integers_with_missing_values(self):
        for bits in (8, 16, 32, 64):
            for kind in (f"Int{bits}", f"UInt{bits}"):
                most = min(100, 2 ** (bits - 1) - 1)
                column = pandas.Series([*range(most), None, most], dtype=kind)
                for shown in (column, column.array, pandas.Index(column), column[::-1]):
                    self.refused_or_skipped(shown, range(most + 1))
                self.check(column.dropna(), range(most + 1))
        self.refused_or_skipped(pandas.Series([*self.LARGE, None], dtype="Int64"), self.LARGE)
        self.refused_or_skipped(pandas.Series([2**64 - 1, None], dtype="UInt64"), [2**64 - 1])

    def test_a_month_of_days(self):
        """Days with a missing value and days without one have the same visitors."""
        month = Sketch(14)
        for number in range(30):
            day, values = Sketch(14), [*range(1000), *[None] * (number % 2)]
            day.update_many(pandas.Series(values, dtype="Int64"), skip_missing=True)
            month |= day
        wanted = Sketch(14)
        wanted.update_many(range(1000))
        self.assertEqual(month, wanted)

    def test_to_numpy_that_makes_floats(self):
        for kind in ("Int64", "UInt64"):
            self.refused_or_skipped(as_since_2_2(kind), [1, 2**53 + 1, 2**53])
        numbers = fake_numbers()
        self.refused_or_skipped(pandas.Series(numbers([*self.LARGE, pandas.NA])), self.LARGE)
        self.check(pandas.Series(numbers(self.LARGE)), self.LARGE)
        self.check(numbers(self.LARGE), self.LARGE)

    def test_categories(self):
        """``to_numpy()`` of categories makes floats in every version of pandas."""
        for values in ([1, 2, 2**53 + 1, 1], ["a", "b", "a"], [1.5, 2.5], [True, False], [7, "7"],
                       self.LARGE, pandas.array([1, 2**53 + 1], dtype="Int64")):
            column = pandas.Series(pandas.Categorical(values))
            self.check(column, list(values))
            self.refused_or_skipped(pandas.Series(pandas.Categorical([*values, None])), list(values))
        self.assertRaises(TypeError, skipped, pandas.Series(pandas.Categorical(
            pandas.to_datetime(["2026-11-28", "2026-11-29"]))))
        self.assertEqual(skipped(pandas.Series(pandas.Categorical([None, None]))), one_by_one([]))

    def test_other_dtypes(self):
        true = pandas.Series([True, None, False], dtype="boolean")
        self.refused_or_skipped(true, [1, 0])
        self.refused_or_skipped(pandas.Series([1.5, None, -0.0], dtype="Float64"), [1.5, 0.0])
        self.refused_or_skipped(pandas.Series([1.5, None], dtype="Float32"), [1.5])
        self.refused_or_skipped(pandas.Series(["a", None, "b"], dtype="string"), ["a", "b"])
        for values in ([1, 2, 0, 0], [1.5, 0.0], [2**53 + 1, 0]):
            self.check(pandas.Series(pandas.arrays.SparseArray(values)), values)
        self.check(pandas.RangeIndex(5), range(5))
        self.check(pandas.Index(["a", "b"]), ["a", "b"])
        for column in (
            pandas.Series(pandas.period_range("2026-01", periods=2, freq="M")),
            pandas.Series(pandas.interval_range(0, 2)),
            pandas.Series(pandas.date_range("2026-01-01", periods=2, tz="UTC")),
            pandas.DatetimeIndex(["2026-11-28"]),
        ):
            self.assertRaises(TypeError, skipped, column)

    def test_an_array_of_another_type(self):
        """A column is refused by name if its array has another type than the column."""
        class Column:
            dtype = numpy.dtype("int64")

            def to_numpy(self):
                return numpy.array([1.0, 2.0])

        with self.assertRaisesRegex(TypeError, "a Column of int64 .* an array of float64: pass a list"):
            Sketch().update_many(Column())


class ArrowTest(PandasCheck):
    """Columns that Arrow keeps, where it is here."""

    def test_arrow(self):
        for kind, values in (("int64[pyarrow]", self.LARGE), ("uint8[pyarrow]", [1, 255]),
                             ("double[pyarrow]", [1.5]), ("bool[pyarrow]", [True]),
                             ("string[pyarrow]", ["a"])):
            self.check(pandas.Series(values, dtype=kind), values)
            self.refused_or_skipped(pandas.Series([*values, None], dtype=kind), values)


class PandasPlaceTest(unittest.TestCase):
    """An error about a value names the group and the row."""

    def frame_of(self, value, dtype=object):
        column = pandas.Series(["x", "y", value, "z"] if dtype is object else [1, 2, value, 3], dtype=dtype)
        return pandas.DataFrame({"page": ["/a", "/a", "/b", "/b"], "value": column}).set_index(pandas.Index(list("pqrs")))

    def told(self, kind, call):
        with self.assertRaises(kind) as caught:
            call()
        return str(caught.exception)

    def test_missing(self):
        cure = "pass skip_missing=True to leave missing values out"
        for value, dtype, shown_ in ((None, object, "None"), (None, "Int64", "None"), (math.nan, float, "nan"), (None, "category", "None")):
            frame = self.frame_of(value, dtype)
            for call in (lambda values: Sketch().update_many(values), lambda values: Registers(11).update_many(values)):
                told = self.told(ArgumentError, lambda: frame.groupby("page")["value"].apply(call))
                self.assertEqual(told, f"'/b', row 'r': values[0] is missing ({shown_}): {cure}")
                told = self.told(ArgumentError, lambda: call(frame["value"]))
                self.assertEqual(told, f"'value', row 'r': values[2] is missing ({shown_}): {cure}")
                told = self.told(ArgumentError, lambda: call(frame["value"].rename(None)))
                self.assertEqual(told, f"row 'r': values[2] is missing ({shown_}): {cure}")
            with self.assertRaises(ArgumentError) as caught:
                Sketch().update_many(frame["value"])
            again = pickle.loads(pickle.dumps(caught.exception))
            self.assertEqual(str(again), str(caught.exception))
        told = self.told(ArgumentError, lambda: Sketch().update_many(list(self.frame_of(None)["value"])))
        self.assertEqual(told, f"values[2] is missing (None): {cure}")

    def test_other_types(self):
        for value, kind in ((pandas.Timestamp("2026-11-01"), TypeError), (2**64, OverflowError)):
            frame = self.frame_of(value)
            plain = self.told(kind, lambda: Sketch().update_many(list(frame["value"])))
            told = self.told(kind, lambda: frame.groupby("page")["value"].apply(lambda values: Sketch().update_many(values)))
            self.assertEqual(told, f"'/b': {plain}".replace("values[2]", "values[0]"))
            self.assertEqual(self.told(kind, lambda: Sketch().update_many(frame["value"])), f"'value': {plain}")
            self.assertEqual(self.told(kind, lambda: Sketch().update_many(frame["value"].rename(None))), plain)
            self.assertEqual(self.told(kind, lambda: Sketch().update_many(pandas.Index(frame["value"]))), plain)


class PandasUnionTest(unittest.TestCase):
    """Unions of a column of images: an error names the group and the row."""

    def setUp(self):
        images = [Sketch().to_bytes() for _ in range(6)]
        self.frame = pandas.DataFrame({"page": list("aabbcc"), "day": [1, 1, 1, 2, 2, 2], "image": images},
                                      index=[f"r{n}" for n in range(6)])

    def error_of(self, call, kind=ImageError):
        with self.assertRaises(kind) as caught:
            call()
        error = caught.exception
        again = pickle.loads(pickle.dumps(error))
        self.assertEqual((again.number, again.place, str(again)), (error.number, error.place, str(error)))
        return error.number, error.place, str(error)

    def test_groups(self):
        grouped = self.frame.groupby("page")["image"]
        self.assertEqual([one.to_bytes() for one in grouped.apply(union_of)], [Sketch().to_bytes()] * 3)
        self.frame.loc["r3", "image"] = self.frame["image"]["r3"][:5]
        for key, wanted in (("page", "'b', row 'r3'"), ("day", "2, row 'r3'"), (["page", "day"], "('b', 2), row 'r3'")):
            grouped = self.frame.groupby(key)["image"]
            for call in (union_of, lambda images: SketchUnion().update_many(images)):
                number, place, words = self.error_of(lambda: grouped.apply(call))
                self.assertEqual(place, wanted)
                self.assertEqual(words.split(" (")[0], f"{wanted}: image is rejected: truncated")
            self.assertEqual(self.error_of(lambda: grouped.agg(union_of))[1], "'image', row 'r3'")

    def test_columns(self):
        self.frame.loc["r4", "image"] = b""
        column = self.frame["image"]
        for images, wanted in ((column, "'image', row 'r4'"), (column.rename(None), "row 'r4'"),
                               (column[::-1], "'image', row 'r4'"), (column.reset_index(drop=True), "'image', row 4")):
            self.assertEqual(self.error_of(lambda: union_of(images))[:2], (list(images).index(b""), wanted))
        for images in (list(column), column.array, column.to_numpy(), iter(column), pandas.Index(column)):
            self.assertEqual(self.error_of(lambda: union_of(images))[:2], (4, None))

    def test_missing(self):
        self.frame.loc["r1", "image"] = None
        with self.assertRaisesRegex(TypeError, "^'a', row 'r1': expected the bytes of a sketch, not NoneType$"):
            self.frame.groupby("page")["image"].apply(union_of)
        with self.assertRaisesRegex(TypeError, "^expected the bytes of a sketch, not NoneType$"):
            union_of(list(self.frame["image"]))
        with self.assertRaisesRegex(TypeError, "^expected many sketches, not one bytes: pass a list of it$"):
            union_of(Sketch().to_bytes())

    def test_other_lg_k(self):
        self.frame["image"] = [sketch_of(10 if label == "r5" else 12) for label in self.frame.index]
        grouped = self.frame.groupby("day")["image"]
        number, place, words = self.error_of(lambda: grouped.apply(union_of), PrecisionError)
        self.assertEqual((number, place), (2, "2, row 'r5'"))
        self.assertEqual(words, "2, row 'r5' has lg_k 10 and not 12: lg_max_k=10 merges them")
        self.assertEqual(grouped.apply(union_of, lg_max_k=10).loc[2].lg_k, 10)


class PandasJsonTest(unittest.TestCase):
    """``to_json`` loses no image: it is among the properties that pandas writes, or the one text of a handler."""

    def test_to_json(self):
        sketch, union, registers = Sketch(), SketchUnion(12), Registers(12)
        for made in (sketch, union, registers):
            getattr(made, "update_values" if made is union else "update_many")(["ann", "bob"])
        frame = pandas.DataFrame({"day": list("abc"), "made": [sketch, union, registers]})
        for made, read in zip(frame["made"], json.loads(frame.to_json())["made"].values()):
            self.assertEqual(Sketch.from_base64(read["base64"]).to_bytes(), made.to_bytes())
        found = frame[:1].to_json(orient="records", default_handler=Sketch.to_base64)
        self.assertEqual(json.loads(found), [{"day": "a", "made": "AgEHDAMIAgj4EWAEvyBkHA=="}])


class OtherPythonTest(unittest.TestCase):
    def test_numpy(self):
        """The tests of NumPy, in the system's Python, which may have it where this one hasn't."""
        asked = [SYSTEM, "-c", "import numpy"]
        if shutil.which(SYSTEM) is None or subprocess.run(asked, capture_output=True).returncode:
            self.skipTest("numpy is not here")
        done = subprocess.run([SYSTEM, "-B", __file__], capture_output=True, text=True)
        self.assertEqual(done.returncode, 0, done.stderr)


if numpy is None:
    del NumPyTest
else:
    del OtherPythonTest
if pandas is None:
    del PandasTest, PandasPlaceTest, PandasUnionTest, PandasJsonTest
if pyarrow is None or pandas is None:
    del ArrowTest


if __name__ == "__main__":
    unittest.main()
