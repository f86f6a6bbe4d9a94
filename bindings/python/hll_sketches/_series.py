# SPDX-License-Identifier: Apache-2.0
"""Columns of pandas: a Series, an Index or an extension array.

A column is converted by its dtype, and an integer never becomes a float. ``Series.to_numpy()`` makes floats
of integers if a value is missing: of ``Int64`` since pandas 2.2, and of categories in every version.
"""
from __future__ import annotations

import sys
from typing import Any, List, Optional


_OF_TIMES = "pass values.dropna().to_numpy('datetime64[us]').astype('int64'), as which SQL counts it"
"""What to pass for a column of times: microseconds since 1970."""


def is_of_pandas(values: Any) -> bool:
    """Returns whether values are a column of pandas, or of a library with the same interface."""
    return "numpy" in sys.modules and hasattr(values, "dtype") and hasattr(values, "to_numpy")


def values_of(column: Any) -> Any:
    """Returns the values of a column of pandas: a NumPy array, or a list. A missing value is None, or what
    pandas has for it.

    Raises
    ------
    TypeError
        If the column changes its values when it makes an array.
    """
    dtype = column.dtype
    if not isinstance(dtype, sys.modules["numpy"].dtype):
        return _of_extension(getattr(column, "array", column))
    if dtype.kind in ("m", "M"):
        return list(column)     # of Timestamps and Timedeltas, which the error names
    made = column.to_numpy()
    if made.dtype != dtype:
        name, cure = type(column).__name__, "pass a list of its values"
        raise TypeError(f"a {name} of {dtype} can't be counted, as it makes an array of {made.dtype}: {cure}")
    return made


def shown_key(key: Any) -> str:
    """Returns the key of a group, or the label of a row, for an error."""
    if isinstance(key, tuple):
        return "(" + ", ".join(map(shown_key, key)) + ")"
    return repr(key) if isinstance(key, (str, bytes)) else str(key)


def place_in(column: Any, number: int) -> Optional[str]:
    """Returns where an item of a Series is, for an error: the Series' name, and the label of the row.
    Returns None for other iterables.

    The name is that of the column. But in ``groupby(..).apply(..)`` pandas gives each group its key as name.
    """
    if not (is_of_pandas(column) and hasattr(column, "index") and hasattr(column, "name")):
        return None
    row = f"row {shown_key(column.index[number])}"
    return row if column.name is None else f"{shown_key(column.name)}, {row}"


def named(error: Exception, column: Any) -> Exception:
    """Returns an error about the values of a Series, with its name, which is the key of a group in ``apply``,
    and with the label of the row if the error has a position. Other errors stay as they are."""
    if isinstance(error, TypeError) and getattr(column.dtype, "kind", "") == "M":
        error = TypeError(f"a column of {column.dtype} can't be counted: {_OF_TIMES}")
    number = getattr(error, "number", None)
    place = place_in(column, number or 0) if hasattr(column, "index") and len(column) else None
    if place is None or column.name is None and number is None:
        return error
    words = f"{shown_key(column.name) if number is None else place}: {error}"
    return type(error)(words) if number is None else type(error)(number, words)


def _of_extension(values: Any) -> Any:
    """Returns the values of an extension array."""
    if hasattr(values, "categories") and hasattr(values, "codes"):
        return _of_categories(values)
    dtype = values.dtype
    plain = getattr(dtype, "numpy_dtype", None)
    if getattr(plain, "kind", "") in ("b", "i", "u", "f") and hasattr(values, "isna"):
        return _of_numbers(values, plain)
    if getattr(dtype, "type", None) is str:
        return values.to_numpy(dtype=object)
    return list(values)


def _of_numbers(values: Any, plain: Any) -> Any:
    """Returns numbers as they lie in memory if none is missing, or else as objects."""
    is_there = ~values.isna()
    numbers = values[is_there].to_numpy(dtype=plain)
    if len(numbers) == len(values):
        return numbers
    made = sys.modules["numpy"].empty(len(values), dtype=object)
    made[is_there] = numbers
    return made


def _of_categories(values: Any) -> Any:
    """Returns each value's category, as it is in the list of categories."""
    categories: List[Any] = values_of(values.categories)
    if getattr(getattr(categories, "dtype", None), "kind", "M") not in ("m", "M"):
        categories = categories.tolist()    # type: ignore[attr-defined]
    codes, numpy = values.codes, sys.modules["numpy"]
    made = numpy.empty(len(categories) + 1, dtype=object)     # the last one is of the code -1
    for number, category in enumerate(categories):
        made[number] = category
    return made[codes]
