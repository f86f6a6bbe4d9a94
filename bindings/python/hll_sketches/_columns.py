# SPDX-License-Identifier: Apache-2.0
"""Columns: numbers, or byte strings of one width, in contiguous memory.

An object that shares its memory (a NumPy array, an ``array.array``, a ``memoryview``) is read by its
format, and none of its values becomes a Python object.
"""
from __future__ import annotations

import re
import struct
import sys
from array import array
from itertools import chain
from operator import index
from typing import Any, Callable, Iterable, List, NamedTuple, Optional, Tuple, Union

from . import _library
from ._errors import ArgumentError
from ._library import Numbers
from ._missing import Missing

Batch = Tuple[bytes, Numbers, int]
"""The concatenated bytes of values; their ends, maybe followed by others; and the number of values."""

Part = Callable[[int, int], bytes]
"""Returns the bytes that are hashed for the values from one index to another."""

NAN = float("nan")

FEW = 16
"""If more than one number in this many needs a closer look, all numbers are looked at."""


class Column(NamedTuple):
    """Values of one number of bytes each. In byte strings of one width, zeros at the end may not
    count, and ``batch`` then returns the strings without them. Real numbers may be NaN."""

    length: int
    width: int
    part: Part
    stripped: Optional[Callable[[int, int], List[bytes]]] = None
    is_real: bool = False

    def batch(self, start: int, stop: int, missing: Optional[Missing] = None) -> Batch:
        """Returns the values from one index to another. NaN is a value like any other, unless
        ``missing`` says what to do about missing values."""
        data, count = self.part(start, stop), stop - start
        if self.is_real and missing is not None:
            data = missing.without_nan(data, start)
            count = len(data) // self.width
        if self.stripped is not None and b"\0" in data[self.width - 1 :: self.width]:
            pieces = self.stripped(start, stop)
            return b"".join(pieces), _library.ends_of(pieces), count
        return data, _library.ends_of_width(self.width, count), count


# ---- real numbers


def bytes_of_float(value: float) -> bytes:
    """Returns the binary64 of a float, little-endian, with -0.0 as 0.0 and one NaN for all NaN."""
    return struct.pack("<d", value + 0.0 if value == value else NAN)


def eights_of_floats(values: List[float]) -> bytes:
    """Returns the bytes of many floats, as ``bytes_of_float`` does."""
    return struct.pack(
        f"<{len(values)}d", *[value + 0.0 if value == value else NAN for value in values]
    )


def _normal(data: bytes) -> bytes:
    """Returns little-endian binary64 numbers with -0.0 as 0.0 and one NaN for all NaN."""
    highest = data[7::8]
    suspects = [byte for byte in (0x7F, 0x80, 0xFF) if byte in highest]     # of -0.0 and NaN
    if not suspects:
        return data
    if sum(map(highest.count, suspects)) > len(highest) // FEW:
        return eights_of_floats(list(struct.unpack(f"<{len(highest)}d", data)))
    made = bytearray(data)
    for byte in suspects:
        at = highest.find(byte)
        while at >= 0:
            made[8 * at : 8 * at + 8] = bytes_of_float(*struct.unpack_from("<d", data, 8 * at))
            at = highest.find(byte, at + 1)
    return bytes(made)


def _normal_of_array(values: Any) -> bytes:
    """Does what ``_normal`` does, for a NumPy array."""
    made = values.astype("<f8") + 0.0
    made[made != made] = NAN
    return bytes(made.tobytes())


# ---- formats

_SIGNS = bytes(128) + b"\xff" * 128
"""The bytes above the highest byte of a signed number, when it is extended to eight bytes."""


_TRUTHS = b"\0" + b"\1" * 255
"""The bytes of a boolean: 0 or 1."""


def _is_little(view: memoryview) -> bool:
    """Returns whether the lowest byte of a number comes first."""
    order = view.format[:1]
    return order == "<" or (order not in (">", "!") and sys.byteorder == "little")


def _in_eight(data: bytes, width: int, is_little: bool, is_signed: bool) -> bytes:
    """Returns numbers of ``width`` bytes as eight bytes each, little-endian."""
    made = bytearray(len(data) // width * 8)
    for at in range(width):
        made[at::8] = data[(at if is_little else width - 1 - at) :: width]
    above = made[width - 1 :: 8].translate(_SIGNS) if is_signed else b""
    if width < 8 and above.strip(b"\0"):
        for at in range(width, 8):
            made[at::8] = above
    return bytes(made)


def _integers(view: memoryview, is_signed: bool) -> Part:
    """Returns a function that makes eight bytes each of integers."""
    width, is_little = view.itemsize, _is_little(view)
    if width == 8 and is_little:
        return _bytes_of(view)
    return lambda start, stop: _in_eight(view[start:stop].tobytes(), width, is_little, is_signed)


def _floats(source: Any, view: memoryview) -> Part:
    """Returns a function that makes eight bytes each of floats of any size up to eight bytes."""
    if hasattr(source, "astype"):
        return lambda start, stop: _normal_of_array(source[start:stop])
    if view.itemsize == 8:
        taken = _integers(view, False)
        return lambda start, stop: _normal(taken(start, stop))
    code = ("<" if _is_little(view) else ">") + "%d" + view.format[-1]

    def part(start: int, stop: int) -> bytes:
        values = struct.unpack(code % (stop - start), view[start:stop].tobytes())
        return eights_of_floats(list(values))

    return part


def _numbers(source: Any, view: memoryview) -> Optional[Part]:
    """Returns how numbers become bytes, or None if the format is not one of numbers."""
    code = view.format.lstrip("@=<>!")
    if code in ("b", "h", "i", "l", "q", "n"):
        return _integers(view, True)
    if code == "?":
        return lambda at, stop: _in_eight(view[at:stop].tobytes().translate(_TRUTHS), 1, True, False)
    if code in ("B", "H", "I", "L", "Q", "N"):
        return _integers(view, False)
    return _floats(source, view) if code in ("e", "f", "d") else None


def _bytes_of(view: memoryview) -> Part:
    """Returns a function that returns byte strings unchanged."""
    return lambda start, stop: view[start:stop].tobytes()


# ---- columns


def _view_of(values: object) -> Optional[memoryview]:
    """Returns the memory of values, if they share it and no value is masked."""
    if hasattr(values, "mask"):
        return None
    try:
        return memoryview(values)       # type: ignore[arg-type]
    except (TypeError, ValueError, BufferError):
        return None


def column_of(values: Any) -> Optional[Column]:
    """Returns values as a column, or None if they are not one, or have another format. A column of
    pandas has to be passed as its ``values_of``.

    Raises
    ------
    TypeError
        If they are a table, or one value.
    """
    view = _view_of(values)
    if view is None:
        return None
    if view.ndim != 1:
        table = f"a table of {view.ndim} dimensions: pass one of its columns"
        raise TypeError(f"expected many values, not {table if view.ndim else 'one'}")
    if re.fullmatch(r"\d*x", view.format) and view.itemsize:
        return Column(len(view), view.itemsize, _bytes_of(view))
    if re.fullmatch(r"\d*s", view.format) and view.itemsize and hasattr(values, "astype"):
        stripped = _lists_of(values)
        return Column(len(view), view.itemsize, _bytes_of(view), stripped)
    part = _numbers(values, view)
    is_real = view.format[-1:] in ("e", "f", "d")
    return None if part is None else Column(len(view), 8, part, None, is_real)


def _lists_of(values: Any) -> Callable[[int, int], List[Any]]:
    """Yields lists of the values of a NumPy array, as Python objects."""
    return lambda start, stop: list(values[start:stop].tolist())


def singly(values: Any) -> Iterable[Any]:
    """Returns values as Python objects. A NumPy array is converted a batch at a time, but dates one at
    a time, as lists would turn some of them into numbers."""
    is_of_dates = getattr(getattr(values, "dtype", None), "kind", "") in ("M", "m")
    is_array = hasattr(values, "dtype") and hasattr(values, "tolist")
    if is_of_dates or not is_array:
        return values       # type: ignore[no-any-return]
    lists, step = _lists_of(values), 1 << 12
    return chain.from_iterable(lists(at, at + step) for at in range(0, len(values), step))


def single_of(value: Any) -> Union[float, int, bytes, None]:
    """Returns the bytes of one value that shares its memory as a boolean, a short float or bytes,
    or None for another value."""
    view = _view_of(value)
    if view is None or view.ndim != 0:
        return None
    if view.format == "?":
        return int(bool(value))
    if view.format in ("e", "f", "d"):
        return float(value)
    return view.tobytes() if re.fullmatch(r"\d*x", view.format) else None


# ---- byte strings with ends


def _ends_in(ends: Any) -> Numbers:
    """Returns numbers as ends for the library, in memory that nobody else changes."""
    view = _view_of(ends)
    if view is not None and view.ndim == 1 and view.format[-1:] in "bhilqnBHILQN":
        part = _numbers(ends, view)
        if part is not None:
            return _library.numbers_of_eights(part(0, len(view)))
    return _library.numbers_of(ends)


def batch_of(data: Any, ends: Any) -> Batch:
    """Returns concatenated byte strings, delimited by their ends, as a batch."""
    taken = _ends_in(ends)
    return data if type(data) is bytes else memoryview(data).tobytes(), taken, len(taken)


# ---- coupons


_WORD = next(code for code in "IL" if array(code).itemsize == 4)


def raw_coupons_in(raw_coupons: Any) -> Numbers:
    """Returns raw coupons: an array of 32-bit numbers itself, or a copy of other 32-bit memory."""
    if isinstance(raw_coupons, array) and raw_coupons.typecode == _WORD:
        return raw_coupons
    view = _view_of(raw_coupons)
    if view is not None and (view.ndim, view.itemsize) == (1, 4) and view.format[-1:] in "IL":
        if _is_little(view) == (sys.byteorder == "little"):
            return array(_WORD, view.tobytes())
    try:
        return array(_WORD, map(index, raw_coupons))
    except OverflowError:
        raise ArgumentError("a coupon is 0 to 2^32 - 1") from None
