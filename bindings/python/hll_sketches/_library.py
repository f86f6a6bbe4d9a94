# SPDX-License-Identifier: Apache-2.0
"""The shared library: where it is, and its calls over bytes.

Bytes are passed without a copy, and no call keeps a pointer. While a call runs, other Python threads
run too. They wait during a call on a counter, so no thread, and no forked child, sees a counter that is
half changed.
"""
from __future__ import annotations

import ctypes
import os
import pathlib
import struct
import sys
import threading
from array import array
from ctypes import POINTER, byref, c_char_p, c_double, c_size_t, c_void_p
from ctypes import c_uint, c_uint8, c_uint32, c_uint64
from functools import lru_cache
from itertools import accumulate
from operator import index
from typing import TYPE_CHECKING, Any, Callable, Dict, Iterable, List, Optional, Sequence, SupportsIndex
from typing import Tuple, Type, TypeVar, cast

from ._errors import ArgumentError, ImageError
from ._locks import loading

Call = Callable[..., int]

if TYPE_CHECKING:
    Numbers = array[int]
    Memory = ctypes.Array[c_uint8]
else:
    Numbers = array
    Memory = ctypes.Array

OK, REGISTER, ARGUMENT, MEMORY, BUFFER, COARSER, OTHER_LG_K, TRAILING = 0, 11, 12, 13, 14, 15, 16, 17
MOST_KEPT = 1 << 22
"""A thread keeps at most this many bytes for its next result."""

LEAST_LG_K, MOST_LG_K = 4, 21
HEADER = 40
"""The size of a header with estimator fields and counts; the header of a list or a set is shorter."""


class Head(ctypes.Structure):
    """``hll_head`` of hll.h."""

    size: int
    count: int
    lg_k: int
    width: int
    stage: int
    flags: int
    minimum: int
    fault: int
    _fields_ = [
        ("size", c_uint64),
        ("count", c_uint32),
        ("lg_k", c_uint8),
        ("width", c_uint8),
        ("stage", c_uint8),
        ("flags", c_uint8),
        ("minimum", c_uint8),
        ("fault", c_uint8),
    ]


class Info(ctypes.Structure):
    """``hll_info`` of hll.h."""

    coupons: int
    zeros: int
    units_high: int
    units_low: int
    hip: int
    kxq0: int
    kxq1: int
    lg_k: int
    width: int
    stage: int
    is_empty: int
    out_of_order: int
    _fields_ = [
        ("coupons", c_uint64),
        ("zeros", c_uint64),
        ("units_high", c_uint64),
        ("units_low", c_uint64),
        ("hip", c_uint64),
        ("kxq0", c_uint64),
        ("kxq1", c_uint64),
        ("lg_k", c_uint8),
        ("width", c_uint8),
        ("stage", c_uint8),
        ("is_empty", c_uint8),
        ("out_of_order", c_uint8),
    ]


class Summary(ctypes.Structure):
    """``hll_state_summary`` of hll.h."""

    size: int
    lg_k: int
    width: int
    stage: int
    is_empty: int
    is_open: int
    _fields_ = [
        ("size", c_uint64),
        ("lg_k", c_uint8),
        ("width", c_uint8),
        ("stage", c_uint8),
        ("is_empty", c_uint8),
        ("is_open", c_uint8),
    ]


class Counter(ctypes.Structure):
    """``hll_counter`` of hll.h: a sketch that grows by itself. Its memory is freed with the object.

    Attributes
    ----------
    room : int
        How many bytes are allocated, in addition to the structure.
    """

    room: int
    allocator: Optional[int]
    _fields_ = [
        ("allocator", c_void_p),
        ("context", c_void_p),
        ("room", c_uint32),
        ("others", c_uint8 * 4),
        ("at", c_uint64 * 12),
    ]

    def __del__(self) -> None:
        # without an allocator it was never initialised; without `_library` Python is about to end
        if self.allocator and _library is not None:
            _library.hll_counter_free(byref(self))


class Histogram(ctypes.Structure):
    """``hll_histogram`` of hll.h."""

    counts: Sequence[int]
    _fields_ = [("counts", c_uint64 * 64)]


class Estimation(ctypes.Structure):
    """``hll_estimation`` of hll.h."""

    estimate: float
    relative_standard_error: float
    lower: Sequence[float]
    upper: Sequence[float]
    _fields_ = [
        ("estimate", c_double),
        ("relative_standard_error", c_double),
        ("lower", c_double * 3),
        ("upper", c_double * 3),
    ]


# scripts/calls.py writes what follows, from bindings/c/hll.h
WORDS = (
    "ok",
    "truncated",
    "family",
    "version",
    "lgk",
    "width",
    "stage",
    "preamble",
    "lgarr",
    "count",
    "coupon",
    "register",
    "argument",
    "memory",
    "buffer",
    "coarser",
    "other_lg_k",
    "trailing",
    "state",
)
_CALLS: Dict[str, Tuple[object, Sequence[object]]] = {
    "hll_version": (c_uint32, []),
    "hll_processor": (c_char_p, []),
    "hll_counter_init": (c_uint8, [c_void_p, c_uint, c_void_p, c_void_p]),
    "hll_counter_free": (None, [c_void_p]),
    "hll_counter_add": (c_uint8, [c_void_p, c_char_p, c_size_t]),
    "hll_counter_add_many": (c_uint8, [c_void_p, c_char_p, c_size_t, c_void_p, c_size_t]),
    "hll_counter_add_coupons": (c_uint8, [c_void_p, c_void_p, c_size_t]),
    "hll_counter_join": (c_uint8, [c_void_p, c_char_p, c_size_t]),
    "hll_counter_copy": (c_uint8, [c_void_p, c_void_p]),
    "hll_counter_settle": (c_uint8, [c_void_p]),
    "hll_counter_shrink": (None, [c_void_p]),
    "hll_counter_image": (c_uint8, [c_void_p, c_uint, c_void_p, c_size_t, c_void_p]),
    "hll_counter_estimate": (c_uint8, [c_void_p, POINTER(Estimation)]),
    "hll_counter_info": (c_uint8, [c_void_p, POINTER(Summary), c_size_t]),
    "hll_image_head": (c_uint8, [c_char_p, c_size_t, POINTER(Head), c_size_t]),
    "hll_image_info": (c_uint8, [c_char_p, c_size_t, POINTER(Info), c_size_t]),
    "hll_image_check": (c_uint8, [c_char_p, c_size_t]),
    "hll_image_trailing": (c_uint8, [c_char_p, c_size_t, c_void_p]),
    "hll_image_histogram": (c_uint8, [c_char_p, c_size_t, POINTER(Histogram)]),
    "hll_image_new": (c_uint8, [c_uint, c_uint, c_void_p, c_size_t, c_void_p]),
    "hll_image_merge": (
        c_uint8,
        [c_uint, c_uint, c_char_p, c_size_t, c_char_p, c_size_t, c_void_p, c_size_t, c_void_p, c_void_p],
    ),
    "hll_images_union": (
        c_uint8,
        [c_uint, c_uint, c_char_p, c_size_t, c_void_p, c_size_t, c_void_p, c_size_t, c_void_p, c_void_p],
    ),
    "hll_image_fold": (c_uint8, [c_char_p, c_size_t, c_uint, c_void_p, c_size_t, c_void_p]),
    "hll_image_convert": (c_uint8, [c_char_p, c_size_t, c_uint, c_void_p, c_size_t, c_void_p]),
    "hll_image_set_estimator_fields": (
        c_uint8,
        [c_char_p, c_size_t, c_void_p, c_size_t, c_void_p],
    ),
    "hll_image_clear_estimator_fields": (
        c_uint8,
        [c_char_p, c_size_t, c_void_p, c_size_t, c_void_p],
    ),
    "hll_images_agree": (c_uint8, [c_char_p, c_size_t, c_char_p, c_size_t, c_void_p, c_void_p]),
    "hll_registers_add": (c_uint8, [c_void_p, c_size_t, c_char_p, c_size_t, c_void_p, c_size_t]),
    "hll_registers_add_coupons": (c_uint8, [c_void_p, c_size_t, c_void_p, c_size_t]),
    "hll_registers_merge": (c_uint8, [c_void_p, c_size_t, c_char_p, c_size_t, c_void_p]),
    "hll_registers_merge_registers": (c_uint8, [c_void_p, c_size_t, c_void_p, c_size_t, c_void_p]),
    "hll_registers_fold": (c_uint8, [c_void_p, c_size_t, c_uint]),
    "hll_registers_histogram": (c_uint8, [c_void_p, c_size_t, POINTER(Histogram)]),
    "hll_registers_image": (c_uint8, [c_void_p, c_size_t, c_uint, c_void_p, c_size_t, c_void_p]),
    "hll_coupon": (c_uint32, [c_char_p, c_size_t]),
    "hll_coupons": (c_uint8, [c_char_p, c_size_t, c_void_p, c_size_t, c_void_p, c_size_t]),
    "hll_estimate": (c_uint8, [c_char_p, c_size_t, POINTER(Estimation)]),
    "hll_hip_estimate": (c_uint8, [c_char_p, c_size_t, POINTER(Estimation)]),
    "hll_registers_estimate": (c_uint8, [c_void_p, c_size_t, POINTER(Estimation)]),
}
# end of what scripts/calls.py writes


def is_in_checkout(package: pathlib.Path) -> bool:
    """Returns whether a package is that of a checkout, and not installed. Anybody might write into the
    directory above the directory of an installation, so nothing is loaded from there."""
    python, bindings = package.parent, package.parent.parent
    is_so_named = (python.name, bindings.name) == ("python", "bindings")
    return is_so_named and (python / "setup.py").is_file() and (bindings / "c" / "Makefile").is_file()


_NAMES = {"win32": ("hll.dll",), "darwin": ("libhll.dylib", "libhll.0.dylib")}
"""The names of the library, by system; elsewhere they are those of Linux."""


def _names() -> Sequence[str]:
    return _NAMES.get(sys.platform, ("libhll.so", "libhll.so.0"))


def _places() -> List[str]:
    """Returns the places where the library may be, in the order in which they are tried."""
    named = os.environ.get("HLL_SKETCHES_LIBRARY")
    if named:
        return [named]
    package = pathlib.Path(__file__).resolve().parent
    names = _names()
    near = [package / name for name in names]
    if is_in_checkout(package):
        near.insert(0, package.parent.parent / "c" / "build" / names[0])
    found = [str(place) for place in near if place.exists()]
    if not found:
        from ctypes.util import find_library

        installed = find_library("hll")
        found = [installed] if installed else []
    return found


# ---- is it the right one?

VERSION = 0, 2
"""The version that the library has to have. Its results for a known image are compared too."""

_KNOWN = bytes.fromhex("0201070a030801080500000c")
"""The 8-bit image at ``lg_k`` 10 of one coupon, of slot 5 and value 3."""

_Structure = TypeVar("_Structure", bound=ctypes.Structure)


def _filled(call: Call, kind: Type[_Structure], *more: int) -> _Structure:
    """Returns what a call says of the known image, if it fills exactly the structure."""
    size, guard = ctypes.sizeof(kind), b"\xa5" * 256
    room = (c_uint8 * (size + len(guard))).from_buffer_copy(b"\xa5" * size + guard)
    filled = ctypes.cast(room, POINTER(kind))
    if call(_KNOWN, len(_KNOWN), filled, *more) != OK or bytes(room)[size:] != guard:
        raise ImportError(f"its {kind.__name__.lower()} is laid out in another way")
    return filled.contents


def _check_version(number: int) -> None:
    """Raises an error for a library of another version; the last number may differ."""
    version = number // 1_000_000, number // 1000 % 1000
    if version != VERSION:
        raise ImportError("it is of version %d.%d, and not %d.%d" % (*version, *VERSION))


def _check_answers(calls: Dict[str, Call]) -> None:
    """Raises an error for a library with other results for the known image."""
    known = _filled(calls["hll_image_head"], Head, ctypes.sizeof(Head))
    if (known.size, known.count, known.lg_k, known.width, known.flags, known.fault) != (12, 1, 10, 8, 8, OK):
        raise ImportError("its head is laid out in another way")
    found = _filled(calls["hll_image_info"], Info, ctypes.sizeof(Info))
    if (found.coupons, found.lg_k, found.width, found.stage) != (1, 10, 8, 0):
        raise ImportError("its info is laid out in another way")
    counts = list(_filled(calls["hll_image_histogram"], Histogram).counts)
    if counts != [1023, 0, 0, 1] + [0] * 60:
        raise ImportError("its histogram is laid out in another way")
    _check_counter(calls["hll_counter_init"])
    estimation = _filled(calls["hll_estimate"], Estimation)
    if not 0 < estimation.lower[2] <= estimation.estimate <= estimation.upper[2] < 9:
        raise ImportError("its estimation is laid out in another way")


def _check_counter(init: Call) -> None:
    """Raises an error for a library whose counters have another size."""
    size, guard = ctypes.sizeof(Counter), b"\xa5" * 256
    room = (c_uint8 * (size + len(guard))).from_buffer_copy(b"\xa5" * size + guard)
    filled = bytes(room) if init(room, LEAST_LG_K, None, None) == OK else b""
    if filled[size:] != guard or b"\xa5" * 4 in filled[size - 4 : size]:
        raise ImportError("its counter is laid out in another way")


def _calls_of(place: str) -> Dict[str, Call]:
    """Returns the calls of a library by their names."""
    library, whole = ctypes.CDLL(place), ctypes.PyDLL(place)
    calls = {name: getattr(whole if "_counter_" in name else library, name) for name in _CALLS}
    for name, call in calls.items():
        call.restype, call.argtypes = _CALLS[name]
    _check_version(calls["hll_version"]())
    _check_answers(calls)
    return calls


def _load() -> Dict[str, Call]:
    """Returns the calls of the first library that is found."""
    places = _places()
    if not places:
        raise ImportError(
            f"the shared library {_names()[0]} is not here: build it by `make` in a checkout (which needs"
            " a C compiler), or install it, or name it in the environment variable"
            " HLL_SKETCHES_LIBRARY"
        )
    try:
        with loading:
            return _calls_of(places[0])
    except (OSError, AttributeError, ImportError) as error:
        why = f"the library {places[0]} can't be used: {error}"
        if "ISA level" in str(error):
            why += " (it takes a processor with the instructions of x86-64-v2)"
        raise ImportError(why) from error


class _Calls:
    """The calls of the library, which is loaded by the first call."""

    def __getattr__(self, name: str) -> Call:
        vars(self).update(_load())
        call: Call = vars(self)[name]
        return call


_library = _Calls()

# ---- batches

_END = next(code for code in "LQI" if array(code).itemsize == ctypes.sizeof(c_size_t))
_COUPON = next(code for code in "IL" if array(code).itemsize == 4)


def ends_of(pieces: Sequence[bytes]) -> Numbers:
    """Returns the end of each byte string in the concatenated bytes."""
    return array(_END, accumulate(map(len, pieces)))


_MOST_ENDS, _MOST_WIDTHS = 1 << 19, 4
_ends_kept: Dict[int, Numbers] = {}
"""For a few widths of byte strings: the ends of the largest number that was needed at once."""


def ends_of_width(width: int, count: int) -> Numbers:
    """Returns the ends of ``count`` strings of one width, maybe followed by others. Callers must not
    change them."""
    kept = _ends_kept.get(width)
    if kept is not None and count <= len(kept):
        return kept
    count = max(1024, 1 << max(count - 1, 0).bit_length())
    made = array(_END, range(width, width * count + 1, width))
    if count <= _MOST_ENDS:
        if len(_ends_kept) >= _MOST_WIDTHS:
            _ends_kept.clear()
        _ends_kept[width] = made
    return made


def numbers_of(numbers: Iterable[SupportsIndex]) -> Numbers:
    """Returns numbers as ends. The call that uses them checks each."""
    try:
        return array(_END, map(index, numbers))
    except OverflowError:
        raise ArgumentError(_WRONG_ENDS) from None


def numbers_of_eights(data: bytes) -> Numbers:
    """Returns little-endian 64-bit numbers as ends."""
    if sys.byteorder == "little" and ctypes.sizeof(c_size_t) == 8:
        return array(_END, data)
    return numbers_of(number for number, in struct.iter_unpack("<Q", data))


_WRONG_ENDS = "ends have to ascend, within the bytes"


def address_of(numbers: Numbers) -> int:
    """Returns the address of numbers, which is never NULL."""
    if not numbers:
        numbers.append(0)
    return numbers.buffer_info()[0]


# ---- results


def _refusal(status: int, number: Optional[int] = None) -> Exception:
    """Returns the exception for a status."""
    if status == ARGUMENT:
        return ArgumentError("an argument is out of its range")
    if status == MEMORY:
        return MemoryError("an allocation failed")
    return ImageError(WORDS[status], number)


def ensure(status: int, refusal: Callable[[int], Exception] = _refusal) -> None:
    """Raises the exception for a status, unless it is success."""
    if status != OK:
        raise refusal(status)


class _Kept(threading.local):
    """The memory into which the last result of a thread was written, for the next result."""

    memory: Optional[bytearray] = None

    def take(self, size: int) -> bytearray:
        """Returns at least ``size`` bytes that nobody else has. This also holds in a signal handler
        that runs while the memory is in use."""
        memory, self.memory = self.memory, None
        return memory if memory is not None and len(memory) >= size else bytearray(size)

    def give_back(self, memory: bytearray) -> None:
        """Keeps the memory, unless it is too large."""
        if len(memory) <= MOST_KEPT:
            self.memory = memory


_kept = _Kept()


def _written(call: Call, room: int, *arguments: object, number: Optional[c_size_t] = None) -> bytes:
    """Returns the image that a call writes. If the call needs more room, it is made again. A call over
    several images reports the number of an image that it rejects."""
    size = c_size_t()
    more = () if number is None else (byref(number),)
    while True:
        out = _kept.take(room)
        place = byref(c_uint8.from_buffer(out))
        status = call(*arguments, place, len(out), byref(size), *more)
        if status == OK:
            image = bytes(memoryview(out)[: size.value])
            _kept.give_back(out)
            return image
        if status != BUFFER:
            raise _refusal(status, None if number is None else number.value)
        room = size.value


def room_for(lg_k: int) -> int:
    """Returns a number of bytes that is enough for nearly every image at this ``lg_k``."""
    return 64 + (1 << lg_k)


# ---- the calls


def processor() -> str:
    """Returns for which processors the code of the C library was compiled that runs: ``x86-64-v2``,
    ``x86-64-v3``, ``aarch64`` or ``riscv64``. On Linux on x86-64 the first call of the library chooses,
    and the environment variable ``HLL_CPU=x86-64-v2`` keeps the first. Raises ``ImportError`` if the
    library can't be loaded."""
    return cast("bytes", _library.hll_processor()).decode()


@lru_cache(None)
def new(lg_k: int, width: int) -> bytes:
    """Returns the image of an empty sketch, which new sketches share."""
    return _written(_library.hll_image_new, 64, lg_k, width)


def head(image: bytes) -> Head:
    """Returns what the header of an image and the counts after it say, of at least its first ``HEADER`` bytes."""
    found, first = Head(), image[:HEADER]
    ensure(_library.hll_image_head(first, len(first), byref(found), ctypes.sizeof(Head)))
    return found


def lg_k_in(image: bytes) -> int:
    """Returns the ``lg_k`` in the header of an image, or the least one if the header has a fault."""
    return head(image).lg_k or LEAST_LG_K


def width_in(image: bytes) -> int:
    """Returns the width in the header of an image, or 8 if the header has a fault."""
    return head(image).width or 8


def info(image: bytes) -> Info:
    """Returns what an image says."""
    found = Info()
    ensure(_library.hll_image_info(image, len(image), byref(found), ctypes.sizeof(Info)))
    return found


def trailing(image: bytes) -> int:
    """Returns how many bytes follow an image."""
    more = c_size_t()
    ensure(_library.hll_image_trailing(image, len(image), byref(more)))
    return more.value


def check(image: bytes) -> int:
    """Returns the status of the bytes: success, an image error, or that other bytes follow an image. A failed allocation is
    raised."""
    status = _library.hll_image_check(image, len(image))
    if status == MEMORY:
        raise _refusal(status)
    return TRAILING if status == OK and trailing(image) else status


def check_end(image: bytes) -> None:
    """Raises an error for an image that other bytes follow. What is no image is left to the call that reads it."""
    more = trailing(image)
    if more and check(image) == TRAILING:
        raise ImageError(WORDS[TRAILING], sizes=(len(image) - more, len(image)))


def histogram(image: bytes) -> List[int]:
    """Returns how many registers have each value."""
    found = Histogram()
    ensure(_library.hll_image_histogram(image, len(image), byref(found)))
    return list(found.counts)


def estimation(image: bytes) -> Estimation:
    """Returns an estimate with its bounds."""
    found = Estimation()
    ensure(_library.hll_estimate(image, len(image), byref(found)))
    return found


def hip_estimation(image: bytes) -> Optional[Estimation]:
    """Returns the HIP estimate in an image with its bounds, or None if the image has none."""
    found = Estimation()
    status = _library.hll_hip_estimate(image, len(image), byref(found))
    if status not in (OK, ARGUMENT):
        raise _refusal(status)
    return found if status == OK else None


def merge(lg_max_k: int, width: int, left: bytes, right: bytes) -> bytes:
    """Returns the image of the union of two images. An ``ImageError`` has the number of the image."""
    both = left, len(left), right, len(right)
    return _written(
        _library.hll_image_merge, room_for(lg_max_k), lg_max_k, width, *both, number=c_size_t()
    )


def union(lg_max_k: int, width: int, images: Sequence[bytes]) -> bytes:
    """Returns the image of the union. An ``ImageError`` has the number of the image."""
    joined, ends, count = b"".join(images), ends_of(images), len(images)
    all_ = joined, len(joined), address_of(ends), count
    return _written(
        _library.hll_images_union, room_for(lg_max_k), lg_max_k, width, *all_, number=c_size_t()
    )


def fold(image: bytes, lg_k: int) -> bytes:
    """Returns the image at a smaller ``lg_k``."""
    return _written(_library.hll_image_fold, room_for(lg_k), image, len(image), lg_k)


def convert(image: bytes, width: int) -> bytes:
    """Returns the image at a width."""
    return _written(_library.hll_image_convert, room_for(lg_k_in(image)), image, len(image), width)


def clear_estimator_fields(image: bytes) -> bytes:
    """Returns the image with estimator fields of zero."""
    return _written(
        _library.hll_image_clear_estimator_fields, room_for(lg_k_in(image)), image, len(image)
    )


def set_estimator_fields(image: bytes) -> bytes:
    """Returns the image with the estimator fields of its registers."""
    return _written(
        _library.hll_image_set_estimator_fields, room_for(lg_k_in(image)), image, len(image)
    )


def agree(left: bytes, right: bytes) -> bool:
    """Returns whether two images have the same registers at the smaller ``lg_k``."""
    same, failed = c_uint8(), c_size_t()
    status = _library.hll_images_agree(
        left, len(left), right, len(right), byref(same), byref(failed)
    )
    if status != OK:
        raise _refusal(status, failed.value)
    return bool(same.value)


def coupon(value: bytes) -> int:
    """Returns the raw coupon of a value."""
    return _library.hll_coupon(value, len(value))


def coupons_of(numbers: Iterable[int]) -> Numbers:
    """Returns raw coupons as the library reads them."""
    return array(_COUPON, numbers)


def coupons(values: bytes, ends: Numbers, count: int) -> Numbers:
    """Returns the raw coupons of ``count`` values, delimited by their ends."""
    made = array(_COUPON, bytes(4 * count))
    if made:
        place = made.buffer_info()[0]
        status = _library.hll_coupons(values, len(values), address_of(ends), count, place, count)
        if status != OK:
            raise ArgumentError(_WRONG_ENDS)
    return made


# ---- caller-owned registers

def place_of(memory: memoryview) -> Memory:
    """Returns the bytes of a writable view, without a copy."""
    return (c_uint8 * len(memory)).from_buffer(memory)


def _refused_registers(status: int) -> Exception:
    """Returns the exception for a status that is not an image error."""
    if status == REGISTER:
        return ArgumentError("a register is 0 to 63, and a byte is greater")
    return _refusal(status)


def add_to(registers: Memory, values: bytes, ends: Numbers, count: int) -> None:
    """Adds ``count`` values, delimited by their ends, to registers."""
    status = _library.hll_registers_add(
        registers, len(registers), values, len(values), address_of(ends), count
    )
    if status != OK:
        raise ArgumentError(_WRONG_ENDS)


def add_coupons_to(registers: Memory, raw_coupons: Numbers) -> None:
    """Adds coupons to registers."""
    count = len(raw_coupons)
    status = _library.hll_registers_add_coupons(registers, len(registers), address_of(raw_coupons), count)
    if status != OK:
        number = next(number for number, coupon in enumerate(raw_coupons) if coupon >> 26 == 0)
        raise ArgumentError(f"raw_coupons[{number}] is {raw_coupons[number]}, and the value of a coupon is 1 to 63")


def merge_image(registers: Memory, image: bytes) -> Optional[int]:
    """Merges an image into registers. If it has fewer registers, returns its ``lg_k`` and changes
    nothing."""
    coarser = c_uint8()
    status = _library.hll_registers_merge(
        registers, len(registers), image, len(image), byref(coarser)
    )
    if status not in (OK, COARSER):
        raise _refusal(status)
    return coarser.value if status == COARSER else None


def merge_registers(registers: Memory, others: Memory) -> Optional[int]:
    """Merges other registers. If they are fewer, returns their ``lg_k`` and changes nothing."""
    coarser = c_uint8()
    status = _library.hll_registers_merge_registers(
        registers, len(registers), others, len(others), byref(coarser)
    )
    if status not in (OK, COARSER):
        raise _refused_registers(status)
    return coarser.value if status == COARSER else None


def fold_registers(registers: Memory, lg_k: int) -> None:
    """Folds registers in place, into the first of their bytes."""
    ensure(_library.hll_registers_fold(registers, len(registers), lg_k), _refused_registers)


def histogram_of(registers: Memory) -> List[int]:
    """Returns how many registers have each value."""
    found = Histogram()
    ensure(
        _library.hll_registers_histogram(registers, len(registers), byref(found)), _refused_registers
    )
    return list(found.counts)


def estimation_of(registers: Memory) -> Estimation:
    """Returns an estimate from registers, with its bounds."""
    found = Estimation()
    ensure(
        _library.hll_registers_estimate(registers, len(registers), byref(found)), _refused_registers
    )
    return found


def image_of(registers: Memory, width: int) -> bytes:
    """Returns the image of registers, with their estimator fields."""
    try:
        return _written(
            _library.hll_registers_image, 64 + len(registers), registers, len(registers), width
        )
    except ImageError:
        raise _refused_registers(REGISTER) from None


# ---- counters

VALUES_AT_ONCE, COUPONS_AT_ONCE = 1 << 13, 1 << 16
"""The most values with their bytes, and the most coupons, that are added to a counter by one call: other threads wait for it."""

FEW_VALUES = 2
"""The most values that are added to a counter one by one."""

ALLOCATOR: Optional[Callable[..., Optional[int]]] = None
"""The function that allocates the memory of counters, of the type ``hll_allocator``; None is ``malloc``."""


def new_counter(lg_k: int) -> Counter:
    """Returns an empty counter. If ``lg_k`` is 0, what is merged decides it."""
    made = Counter()
    ensure(_library.hll_counter_init(byref(made), lg_k, ALLOCATOR, None))
    return made


def counter_of(image: bytes) -> Tuple[Counter, int]:
    """Returns a counter of the sketch of an image as the library writes it, with its estimator fields, and its width."""
    said = head(image)
    made = new_counter(said.lg_k)
    if image != new(said.lg_k, said.width):     # an empty counter takes no memory but its own
        join_counter(made, image)
    return made, said.width


def add_to_counter(counter: Counter, values: bytes, ends: Numbers, count: int) -> None:
    """Adds ``count`` values, delimited by their ends, to a counter. Many are hashed before it changes, while other threads run."""
    if len(values) + count > VALUES_AT_ONCE:
        add_coupons_to_counter(counter, coupons(values, ends, count))
        return
    status = _library.hll_counter_add_many(byref(counter), values, len(values), address_of(ends), count)
    if status == ARGUMENT:
        raise ArgumentError(_WRONG_ENDS)
    ensure(status)


def add_pieces_to_counter(counter: Counter, values: Sequence[bytes]) -> None:
    """Adds values to a counter: a few by a call for each, which is quicker than to concatenate them."""
    if len(values) > FEW_VALUES:
        add_to_counter(counter, b"".join(values), ends_of(values), len(values))
        return
    add, place = _library.hll_counter_add, byref(counter)
    for value in values:
        ensure(add(place, value, len(value)))


def add_coupons_to_counter(counter: Counter, raw_coupons: Numbers) -> None:
    """Adds raw coupons to a counter."""
    place, count = address_of(raw_coupons), len(raw_coupons)
    for at in range(0, count, COUPONS_AT_ONCE):
        some = min(COUPONS_AT_ONCE, count - at)
        ensure(_library.hll_counter_add_coupons(byref(counter), place + 4 * at, some))


def copy_counter(to: Counter, counter: Counter) -> None:
    """Makes one counter the copy of another."""
    ensure(_library.hll_counter_copy(byref(to), byref(counter)))


def join_counter(counter: Counter, image: bytes) -> bool:
    """Merges an image into a counter. Returns False, without a change, if the image has another ``lg_k``
    and the counter has no bound."""
    status = _library.hll_counter_join(byref(counter), image, len(image))
    if status not in (OK, OTHER_LG_K):
        raise _refusal(status)
    return status == OK


def settle_counter(counter: Counter) -> None:
    """Sorts the coupons of a counter, and frees the room that it doesn't need."""
    ensure(_library.hll_counter_settle(byref(counter)))
    _library.hll_counter_shrink(byref(counter))


def image_of_counter(counter: Counter, width: int) -> bytes:
    """Returns the image of a counter, with the estimator fields of its registers."""
    return _written(_library.hll_counter_image, 128 + counter.room, byref(counter), width)


def summary_of(counter: Counter) -> Summary:
    """Returns what a counter says."""
    found = Summary()
    ensure(_library.hll_counter_info(byref(counter), byref(found), ctypes.sizeof(Summary)))
    return found


def estimation_of_counter(counter: Counter) -> Estimation:
    """Returns an estimate of a counter, with its bounds."""
    found = Estimation()
    ensure(_library.hll_counter_estimate(byref(counter), byref(found)))
    return found


def counter_calls() -> List[int]:
    """Returns the addresses of the calls of counters that init, free, add, settle and write an image, for the module that
    splits lines."""
    calls = (
        _library.hll_counter_init,
        _library.hll_counter_free,
        _library.hll_counter_add,
        _library.hll_counter_settle,
        _library.hll_counter_image,
    )
    return [ctypes.cast(cast(Any, call), c_void_p).value or 0 for call in calls]


def add_lines(counter: Counter, call: Call, lines: bytes, *more: object) -> None:
    """Adds lines to a counter by a call of the module that splits them (``_splitter``), which adds each by ``hll_counter_add``."""
    ensure(call(counter_calls()[2], byref(counter), lines, len(lines), *more))
