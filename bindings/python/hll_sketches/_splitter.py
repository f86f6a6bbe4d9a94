# SPDX-License-Identifier: Apache-2.0
"""Lines, split and counted in C by a module of the package's own (``lines.h``). Without it ``lines.py`` and ``counting.py`` do the
same in Python, with the same results. The module leaves unusual lines to them."""
from __future__ import annotations

import ctypes
import os
import pathlib
import sys
from array import array
from ctypes import POINTER, byref, c_char_p, c_size_t, c_uint, c_uint8, c_uint32, c_uint64, c_void_p
from functools import lru_cache
from typing import Any, Dict, FrozenSet, Iterator, List, NamedTuple, Optional, Sequence, Tuple

from . import _library
from ._locks import loading

VERSION = 1
"""The version that the module has to have: ``LINES_VERSION`` of lines.h."""

NAME = f"libhll_lines.so.{VERSION}"
"""Its name. Packagers take a name that ends in .so for an extension module of one version of Python."""

LONGEST_KEY = 1 << 16
"""The most bytes of each part of a key."""

KEY_BYTES = 150
"""The memory for each key in Python, where keys are sorted, in addition to its own bytes."""

IMAGES_AT_ONCE, ROOM = 1024, 1 << 20
"""The most images that are written at once, and the bytes for them."""

Key = Tuple[bytes, ...]


class _Rules(ctypes.Structure):
    """``lines_rules`` of lines.h."""

    _fields_ = [("longest", c_size_t), ("missing", c_char_p), ("missing_ends", c_void_p), ("missing_count", c_size_t)]


class _RowRules(ctypes.Structure):
    """``rows_rules`` of lines.h."""

    _fields_ = [("lines", _Rules), ("separator", c_size_t), ("places", c_void_p), ("lengths", c_void_p), ("last", c_size_t)]


class _Calls(ctypes.Structure):
    """``rows_calls`` of lines.h."""

    _fields_ = [(name, c_void_p) for name in ("init", "free", "add", "settle", "image", "allocator")]


class Counts(ctypes.Structure):
    """``lines_sums`` of lines.h: numbers of lines.

    Attributes
    ----------
    lines, missing, ending_in_cr : int
        All lines, those that were left out, and those that end in a CR.
    is_left : int
        Whether Python has to read the lines, of which at least one is unusual.
    """

    lines: int
    missing: int
    ending_in_cr: int
    is_left: int
    _fields_ = [("lines", c_size_t), ("missing", c_size_t), ("ending_in_cr", c_size_t), ("is_left", c_size_t)]


_CALLS: Dict[str, Tuple[Any, Sequence[Any]]] = {
    "lines_version": (c_uint32, []),
    "lines_add": (c_uint8, [c_void_p, c_void_p, c_char_p, c_size_t, POINTER(_Rules), POINTER(Counts)]),
    "rows_new": (c_void_p, [POINTER(_Calls), c_uint, c_size_t, POINTER(c_uint64)]),
    "rows_free": (None, [c_void_p]),
    "rows_count": (c_size_t, [c_void_p]),
    "rows_memory": (c_size_t, [c_void_p]),
    "rows_keys_size": (c_size_t, [c_void_p]),
    "rows_keys": (None, [c_void_p, c_void_p]),
    "rows_add": (c_uint8, [c_void_p, c_char_p, c_void_p, c_size_t]),
    "rows_add_lines": (c_uint8, [c_void_p, c_char_p, c_size_t, POINTER(_RowRules), POINTER(Counts)]),
    "rows_images": (c_uint8, [c_void_p, c_void_p, c_size_t, c_uint, c_void_p, c_size_t, c_void_p, POINTER(c_size_t)]),
}


def _place() -> Optional[str]:
    """Returns where the module is. ``HLL_SKETCHES_LINES`` names another place, and if it is empty, there is no module."""
    named = os.environ.get("HLL_SKETCHES_LINES")
    if named is not None:
        return named or None
    package = pathlib.Path(__file__).resolve().parent
    near = [package / NAME]
    if _library.is_in_checkout(package):
        near.insert(0, package.parent / "build" / NAME)
    return next((str(place) for place in near if place.exists()), None)


@lru_cache(None)
def _calls() -> Optional[Dict[str, Any]]:
    """Returns the calls of the module, or None without a module that can be used."""
    place = _place()
    if place is None:
        return None
    try:
        with loading:
            module = ctypes.PyDLL(place)
            calls = {name: getattr(module, name) for name in _CALLS}
    except (OSError, AttributeError):
        return None
    for name, call in calls.items():
        call.restype, call.argtypes = _CALLS[name]
    return calls if calls["lines_version"]() == VERSION else None


def is_here() -> bool:
    """Returns whether lines can be split in C."""
    return _calls() is not None


def _call(name: str) -> Any:
    """Returns a call of the module, which is here."""
    calls = _calls()
    assert calls is not None
    return calls[name]


class _Missing:
    """Values that are left out, as the module reads them."""

    def __init__(self, values: FrozenSet[bytes]) -> None:
        some = list(values)
        self.joined, self.ends, self.count = b"".join(some), _library.ends_of(some), len(some)

    def rules(self, longest: int) -> _Rules:
        return _Rules(min(longest, sys.maxsize), self.joined, _library.address_of(self.ends), self.count)


class Splitter:
    """A sketch of whole lines.

    Parameters
    ----------
    lg_k : int
        The ``lg_k`` of the sketch.
    missing : frozenset of bytes
        The lines that are left out.
    longest : int
        The most bytes of a line.
    """

    def __init__(self, lg_k: int, missing: FrozenSet[bytes], longest: int) -> None:
        self._counter, self._missing = _library.new_counter(lg_k), _Missing(missing)
        self._rules = self._missing.rules(longest)

    def add_chunk(self, lines: bytes) -> Optional[Counts]:
        """Counts lines, with an LF between two. Returns None if one is too long."""
        found = Counts()
        _library.add_lines(self._counter, _call("lines_add"), lines, byref(self._rules), byref(found))
        return None if found.is_left else found

    def image(self) -> bytes:
        """Returns the 8-bit image of the lines."""
        _library.settle_counter(self._counter)
        return _library.image_of_counter(self._counter, 8)


class Columns(NamedTuple):
    """Where keys and values are in lines.

    Attributes
    ----------
    separator : bytes
        The byte between two columns.
    places : sequence of int
        The column of each part of the key and then that of the value, from 0.
    lengths : sequence of int
        The characters of each part of the key that count, or 0.
    missing : frozenset of bytes
        The values that are left out.
    longest : int
        The most bytes of a line.
    """

    separator: bytes
    places: Sequence[int]
    lengths: Sequence[int]
    missing: FrozenSet[bytes]
    longest: int


class Rows:
    """Sketches by key.

    Parameters
    ----------
    lg_k, parts : int
        The ``lg_k`` of all sketches, and the number of parts of a key.
    columns : Columns, optional
        For ``add_chunk``.
    """

    def __init__(self, lg_k: int, parts: int, columns: Optional[Columns] = None) -> None:
        self._lg_k, self._parts = lg_k, parts
        self._given = _Calls(*_library.counter_calls(), _library.ALLOCATOR)
        self._rows: Optional[int] = None
        self._free = _call("rows_free")
        self.clear()
        if columns is not None:
            self._missing = _Missing(columns.missing)
            self._places, self._lengths = (_library.numbers_of(some) for some in (columns.places, columns.lengths))
            places, lengths = map(_library.address_of, (self._places, self._lengths))
            rules = self._missing.rules(min(columns.longest, LONGEST_KEY))
            self._rules = _RowRules(rules, columns.separator[0], places, lengths, max(columns.places))

    def __del__(self) -> None:
        if getattr(self, "_rows", None):
            self._free(self._rows)

    def clear(self) -> None:
        """Removes all keys."""
        seed = (c_uint64 * 2).from_buffer_copy(os.urandom(16))
        before, self._rows = self._rows, None
        if before:
            self._free(before)
        self._rows = _call("rows_new")(byref(self._given), self._lg_k, self._parts, seed)
        if not self._rows:
            raise MemoryError("an allocation failed")

    @property
    def size(self) -> int:
        """The bytes in memory, with those of ``keys``."""
        in_python = KEY_BYTES * _call("rows_count")(self._rows) + _call("rows_keys_size")(self._rows)
        return int(_call("rows_memory")(self._rows) + in_python)

    def add(self, keys: Sequence[Key], values: Sequence[bytes]) -> None:
        """Adds values to the sketches of their keys. Without parts of a key there are no keys."""
        rows = ((*key, value) for key, value in zip(keys, values)) if self._parts else zip(values)
        pieces = [piece for row in rows for piece in row]
        ends = _library.ends_of(pieces)
        _library.ensure(_call("rows_add")(self._rows, b"".join(pieces), _library.address_of(ends), len(values)))

    def add_chunk(self, lines: bytes) -> Optional[Counts]:
        """Counts lines, with an LF between two. Returns None, and counts nothing, if one is unusual."""
        found = Counts()
        _library.ensure(_call("rows_add_lines")(self._rows, lines, len(lines), byref(self._rules), byref(found)))
        return None if found.is_left else found

    def keys(self) -> List[Key]:
        """Returns the keys, in the order in which they came."""
        if not self._parts:
            return [()] * int(_call("rows_count")(self._rows))
        out = bytearray(_call("rows_keys_size")(self._rows))
        _call("rows_keys")(self._rows, (c_uint8 * len(out)).from_buffer(out))
        data, at, parts = bytes(out), 0, []
        while at < len(data):
            end = at + 4 + int.from_bytes(data[at : at + 4], sys.byteorder)
            parts.append(data[at + 4 : end])
            at = end
        return list(zip(*[iter(parts)] * self._parts))

    def images(self, numbers: Sequence[int], width: int) -> Iterator[bytes]:
        """Yields the images of keys, which are numbered as ``keys`` returns them."""
        room = max(ROOM, 2 * _library.room_for(self._lg_k) + 4096)
        out, done = (c_uint8 * room)(), c_size_t()
        for at in range(0, len(numbers), IMAGES_AT_ONCE):
            some = _library.numbers_of(numbers[at : at + IMAGES_AT_ONCE])
            while some:
                ends = array(some.typecode, bytes(some.itemsize * len(some)))
                places = _library.address_of(some), len(some), width, out, room, _library.address_of(ends)
                _library.ensure(_call("rows_images")(self._rows, *places, byref(done)))
                begin, some = 0, some[done.value :]
                for end in ends[: done.value]:
                    yield bytes(memoryview(out)[begin:end])
                    begin = end

    def image(self) -> bytes:
        """Returns the 8-bit image of all values, where keys have no parts."""
        return next(self.images(range(len(self.keys())), 8), b"") or _library.new(self._lg_k, 8)
