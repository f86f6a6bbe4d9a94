# SPDX-License-Identifier: Apache-2.0
"""Values: the bytes that are hashed for each type, and their coupons."""
from __future__ import annotations

import sys
import warnings
from array import array
from itertools import islice
from operator import index
from typing import Any, Callable, Dict, Iterable, Iterator, List, Mapping, Optional
from typing import SupportsIndex, Union, cast

from . import _library
from ._columns import Batch, Column, bytes_of_float, column_of, eights_of_floats, single_of
from ._columns import singly
from ._errors import ArgumentError
from ._library import Numbers
from ._missing import Missing
from ._series import is_of_pandas, named, values_of

Value = Union[bytes, bytearray, memoryview, str, int, float, SupportsIndex]
"""What can be counted: bytes, text, or a number."""

LEAST, MOST, ENOUGH = 1 << 10, 1 << 16, 1 << 20
"""The values of the first batch, the most values of a batch, and the bytes that are enough for one."""

def bytes_of_int(value: int) -> bytes:
    """Returns the eight bytes of an int, little-endian, in two's complement."""
    try:
        return int.to_bytes(value, 8, "little", signed=value < 0)
    except OverflowError:
        raise OverflowError(
            f"an int has to be within -2^63 and 2^64 - 1, and one has {value.bit_length()} bits: "
            "pass its str()"
        ) from None


_of_type: Dict[type, Callable[..., bytes]] = {
    bytes: bytes,
    str: str.encode,
    int: bytes_of_int,
    float: bytes_of_float,
    bytearray: bytes,
    memoryview: bytes,
}


def bytes_of(value: Value) -> bytes:
    """Returns the bytes that are hashed for a value."""
    call = _of_type.get(type(value))
    return call(value) if call is not None else _bytes_of_other(value)


def _bytes_of_other(value: Value) -> bytes:
    """Returns the bytes of a value of a derived type, of a NumPy type, or of a type with ``__index__``."""
    if isinstance(value, (bytes, bytearray)):
        return memoryview(value).tobytes()      # a derived type may say that it has another length
    for kind, call in _of_type.items():
        if isinstance(value, kind):
            return call(value)
    kept = single_of(value)
    if kept is not None:
        return bytes_of(kept)
    try:
        return bytes_of_int(index(cast(SupportsIndex, value)))
    except TypeError:
        raise _wrong_type(value) from None


_CURES = {
    "NoneType": "leave missing values out",
    "date": "pass its isoformat(), or toordinal() - 719163, as which SQL counts it",
    "datetime": "pass (value - datetime(1970, 1, 1, tzinfo=value.tzinfo and timezone.utc)) // "
    "timedelta(microseconds=1), as which SQL counts it",
    "datetime64": "pass value.astype('datetime64[us]').astype('int64'), as which SQL counts it",
    "timedelta": "pass its total_seconds()",
    "Decimal": "pass format(value.normalize(Context(999999)) or Decimal(), 'f'), as which SQL counts "
    "trim_scale(value)::text",
    "UUID": "pass value.bytes, as which SQL counts it",
    "complex": "pass str(value + 0j)",
    "tuple": "pass one text that has its parts, as JSON does",
    "dict": "pass one text that has its parts, as JSON does",
}
"""For types whose values can't be counted: what to pass instead, which is the same for equal values."""


def _wrong_type(value: object) -> TypeError:
    """Returns the error for a value of a type that can't be counted."""
    name = type(value).__name__
    is_many = hasattr(value, "__iter__")
    cure = "pass one value, or many to update_many" if is_many else "pass its bytes or its str()"
    cure = next((_CURES[kind.__name__] for kind in type(value).__mro__ if kind.__name__ in _CURES), cure)
    return TypeError(f"a value is bytes, str, int or float, not {name}: {cure}")


def _numbered(error: Exception, values: List[Any], start: int) -> Exception:
    """Returns the error of the first value that can't be counted, with its number."""
    for number, value in enumerate(values, start):
        try:
            bytes_of(value)
        except (TypeError, OverflowError) as found:
            if str(found) == str(error):
                return type(found)(f"values[{number}]: {found}")
        except UnicodeEncodeError as found:
            found.reason += f" (values[{number}])"
            return found
    return error


def _eights_of_ints(values: List[int]) -> bytes:
    """Returns the bytes of many ints."""
    try:
        numbers = array("q", values)
    except OverflowError:
        return b"".join(map(bytes_of_int, values))
    if sys.byteorder == "big":
        numbers.byteswap()
    return numbers.tobytes()


def joined(values: List[Any]) -> Batch:
    """Returns the concatenated bytes of values, with their ends."""
    kinds, count = set(map(type, values)), len(values)
    if kinds == {int}:
        return _eights_of_ints(values), _library.ends_of_width(8, count), count
    if kinds == {float}:
        return eights_of_floats(values), _library.ends_of_width(8, count), count
    if kinds == {str}:
        pieces = list(map(str.encode, values))
    elif kinds == {bytes}:
        pieces = values
    else:
        pieces = list(map(bytes_of, values))
        if {int, str} <= kinds and any(type(one) is str and one.isascii() and one.isdigit() for one in values):
            warnings.warn("integers and texts of digits are different values: pass all as int, or all as str", stacklevel=5)
    return b"".join(pieces), _library.ends_of(pieces), count


def _lines(file: Iterable[Value]) -> Iterator[Value]:
    """Yields the lines of an open file without the LF, as ``hll add`` counts them."""
    for line in file:
        if isinstance(line, str):
            yield line[:-1] if line.endswith("\n") else line
        elif isinstance(line, bytes):
            yield line[:-1] if line.endswith(b"\n") else line
        else:
            yield line


def _refuse_one(values: object) -> None:
    """Raises an error for an iterable that is one value or a table."""
    name = type(values).__name__
    if isinstance(values, memoryview) and (values.ndim != 1 or values.itemsize > 1):
        return
    if isinstance(values, (str, bytes, bytearray, memoryview)):
        cure = "pass a list of it, or call update_bytes with ends"
        raise TypeError(f"expected many values, not one {name}: {cure}")
    if isinstance(values, Mapping):
        raise TypeError(f"expected many values, not a {name}: pass its keys() or its values()")
    if hasattr(values, "columns"):
        raise TypeError(f"expected many values, not a {name}: pass one of its columns")
    if isinstance(values, (int, float)):
        cure = "pass a list of it, or call update()"
        raise TypeError(f"expected many values, not one {name}: {cure}")


def _batches_of(column: Column, missing: Optional[Missing]) -> Iterator[Batch]:
    """Yields the values of a column in batches of at most half of `ENOUGH` bytes."""
    most = max(1, ENOUGH // 2 // column.width)
    for start in range(0, column.length, most):
        yield column.batch(start, min(start + most, column.length), missing)


def batches(values: Iterable[Value], missing: Optional[Missing] = None) -> Iterator[Batch]:
    """Yields the bytes of the values and their ends, in batches of about `ENOUGH` bytes. Errors name the row
    of a column of pandas."""
    _refuse_one(values)
    if not is_of_pandas(values):
        yield from _batches(values, missing)
        return
    try:
        yield from _batches(values_of(values), missing)
    except (ArgumentError, TypeError, OverflowError) as error:
        raise named(error, values) from None


def _batches(values: Iterable[Value], missing: Optional[Missing]) -> Iterator[Batch]:
    """Yields what ``batches`` yields."""
    column = column_of(values)
    if column is not None:
        yield from _batches_of(column, missing)
        return
    if isinstance(values, memoryview):
        raise TypeError(f"expected many values, not a memoryview of the format {values.format!r}")
    source = _lines(values) if hasattr(values, "readline") else iter(singly(values))
    count, start = LEAST, 0
    while True:
        batch = list(islice(source, count))
        if not batch:
            return
        some = batch if missing is None else missing.without(batch, start)
        try:
            made = joined(some)
        except (TypeError, OverflowError, UnicodeEncodeError) as error:
            raise _numbered(error, batch, start) from None
        start += len(batch)
        yield made
        if len(made[0]) < ENOUGH:
            count = min(2 * count, MOST)
        elif len(made[0]) > 4 * ENOUGH:
            count = max(count // 2, 1)


def coupon(value: Value) -> int:
    """Return the coupon of a value: what a sketch stores of it.

    Parameters
    ----------
    value : bytes, bytearray, memoryview, str, int or float
        As for ``Sketch.update``.

    Returns
    -------
    int
        ``value * 2**26 + slot``, with a value of 1 to 63 and a slot below ``2**26``.
    """
    return _library.coupon(bytes_of(value))


def coupons(values: Iterable[Value]) -> Numbers:
    """Return the coupons of many values.

    Parameters
    ----------
    values : iterable
        Values that ``coupon`` accepts.

    Returns
    -------
    array.array
        One 32-bit number for each value, in the same order.
    """
    made = _library.coupons(b"", _library.ends_of([]), 0)
    for batch in batches(values):
        made.extend(_library.coupons(*batch))
    return made
