# SPDX-License-Identifier: Apache-2.0
"""Sketches of distinct values."""
from __future__ import annotations

import ctypes
import os
from array import array
from base64 import b64decode, b64encode
from mmap import mmap
from operator import index
from typing import IO, Any, Iterable, List, Optional, Protocol, SupportsIndex, Tuple, Type, TypeVar, Union, cast

from . import _library
from ._columns import batch_of
from ._errors import ArgumentError, ImageError, PrecisionError
from ._locks import Lock
from ._missing import Missing
from ._state import united
from ._values import Value, batches, bytes_of
from .layout import STAGES, Stage

_S = TypeVar("_S", bound="Sketch")


class _Array(Protocol):
    """An array of NumPy."""

    def __array__(self, *arguments: Any, **more: Any) -> Any:
        """Return the array."""


Buffer = Union[bytes, bytearray, memoryview, "array[Any]", "ctypes.Array[Any]", mmap, _Array]
"""An object that shares its bytes, as a NumPy array does."""

PENDING_BYTES, VALUE_BYTES = 1 << 12, 56
"""A sketch buffers values of this many bytes before it hashes them; and the bytes that a buffered value needs
in addition to its own."""


def _checked_int(what: str, number: SupportsIndex) -> int:
    """Returns a number that is an int. ``what`` names it in the error."""
    try:
        return index(number)
    except TypeError:
        raise TypeError(f"{what} is an int, not {type(number).__name__}") from None


def checked_lg_k(lg_k: int) -> int:
    """Returns an ``lg_k`` that is in range."""
    lg_k = _checked_int("an lg_k", lg_k)
    if not _library.LEAST_LG_K <= lg_k <= _library.MOST_LG_K:
        raise ArgumentError(f"an lg_k is 4 to 21, not {lg_k}")
    return lg_k


def checked_deviations(deviations: int) -> int:
    """Returns a number of standard deviations that is 1, 2 or 3."""
    if deviations not in (1, 2, 3) or not isinstance(deviations, int):
        raise ArgumentError(f"bounds are at 1, 2 or 3 deviations, not {deviations!r}")
    return deviations


def checked_width(width: int) -> int:
    """Returns a width that is 4, 6 or 8."""
    width = _checked_int("a width", width)
    if width not in (4, 6, 8):
        raise ArgumentError(f"a width is 4, 6 or 8 bits, not {width}")
    return width


def _view_of(source: Buffer) -> memoryview:
    """Returns a view of bytes, without a copy."""
    try:
        return memoryview(cast(bytes, source))
    except TypeError:
        cure = ": Sketch.read reads a file" if isinstance(source, (str, os.PathLike)) else ""
        name = type(source).__name__
        raise TypeError(f"expected the bytes of a sketch, not {name}{cure}") from None


def data_in(source: Buffer) -> bytes:
    """Returns the bytes of an object that shares its bytes. A class that derives from ``bytes`` may have
    another length than its bytes, so it is copied like all others."""
    return source if type(source) is bytes else _view_of(source).tobytes()


def image_in(source: Union["Sketch", Buffer]) -> bytes:
    """Returns the image of a sketch, or bytes that may be one. Whoever merges them looks for bytes after it."""
    return source.to_bytes() if isinstance(source, Sketch) else data_in(source)


def fault_of(data: Buffer) -> Optional[str]:
    """Return why bytes are not the image of a sketch.

    Parameters
    ----------
    data : bytes, or an object that shares its bytes
        The bytes.

    Returns
    -------
    str or None
        The first check that fails, as in ``ImageError.reason``, or None if the bytes are an image.
    """
    status = _library.check(data_in(data))
    return None if status == _library.OK else _library.WORDS[status]


def is_image(data: Buffer) -> bool:
    """Return whether bytes are the image of a sketch; ``fault_of`` says why they aren't."""
    return fault_of(data) is None


def is_small(
    image: Buffer, max_lg_k: int = 12, max_bytes: int = 8192
) -> bool:
    """Return whether an untrusted image is small, and so quick to read or to reject.

    A malicious image can occupy its reader for more than a second. Its ``lg_k`` and its size bound
    this time, and are known without reading the image. With the defaults, reading takes milliseconds,
    and every image that honest programs write at ``lg_k`` 12 passes. Bytes whose header has a fault are
    rejected at once.

    Parameters
    ----------
    image : bytes, or an object that shares its bytes
        ``is_image`` says whether it is an image at all.
    max_lg_k : int
        The greatest ``lg_k``, 4 to 21.
    max_bytes : int
        The greatest size.
    """
    max_lg_k, data = checked_lg_k(max_lg_k), _view_of(image)
    return data.nbytes <= max_bytes and _library.head(bytes(data.cast("B")[: _library.HEADER])).lg_k <= max_lg_k


class Sketch:
    """A HyperLogLog sketch: it counts distinct values.

    A sketch begins as a list of coupons. A coupon is the four bytes that it stores of a value. The
    list becomes a set of coupons, and then ``2**lg_k`` registers. The estimate of a list or a set is
    nearly exact. The estimate from registers has a relative standard error of about
    ``1.04 / sqrt(2**lg_k)``, which is 1.6 % at ``lg_k`` 12.

    Only ``update..``, ``add_coupon``, ``merge``, ``|=``, ``reset`` and ``set_estimator_fields``
    change a sketch. Any number of threads may use and change a sketch at once.

    Parameters
    ----------
    lg_k : int
        The base-2 logarithm of the number of registers, 4 to 21.
    width : int
        The bits of a register, 4, 6 or 8. 8-bit registers are the fastest. 6-bit and 4-bit registers
        take three quarters and half of the memory, and have the same values.

    Raises
    ------
    ArgumentError
        If ``lg_k`` or ``width`` is out of range.
    """

    __slots__ = ("_kept", "_width", "_pending", "_pending_bytes", "_lock", "__weakref__")
    __hash__ = None  # type: ignore[assignment]

    def __init__(self, lg_k: int = 12, width: int = 8) -> None:
        self._set(_library.new(checked_lg_k(lg_k), checked_width(width)))

    def _set(self, image: bytes) -> None:
        """Begins with an image as the library writes it."""
        self._kept: Union[bytes, _library.Counter] = image
        self._width = 0     # of the images of a counter
        self._pending: List[bytes] = []
        self._pending_bytes = 0
        self._lock = Lock()

    @classmethod
    def _of(cls: Type[_S], image: bytes) -> _S:
        made = cls.__new__(cls)
        made._set(image)
        return made

    # ---- images and files

    @classmethod
    def from_bytes(cls: Type[_S], image: Buffer) -> _S:
        """Read the image of a sketch, which any DataSketches library may have written.

        Parameters
        ----------
        image : bytes, or an object that shares its bytes
            The image.

        Raises
        ------
        ImageError
            If the bytes are not an image, or if other bytes follow it.
        """
        data = data_in(image)
        made = cls._of(_library.convert(data, _library.width_in(data)))
        _library.check_end(data)
        return made

    def to_bytes(self, *, plain: bool = False) -> bytes:
        """Return the image: compact, with coupons in ascending order.

        Equal sketches have equal images, except for sets that were read from tables of different
        sizes. An image of registers has the estimator fields, from which other DataSketches libraries
        estimate. Fields that another library wrote are kept until the sketch changes.

        Parameters
        ----------
        plain : bool
            If true, these fields are zero, as the program ``hll_merge`` writes them. Other libraries
            then estimate infinity.
        """
        kept = None if self._pending else self._kept
        image = kept if isinstance(kept, bytes) else self._settled()
        return _library.clear_estimator_fields(image) if plain else image

    def _settled(self) -> bytes:
        """Keeps the sketch as an image, and returns it."""
        with self._lock:
            self._apply()
            if not isinstance(self._kept, bytes):
                self._kept = _library.image_of_counter(self._kept, self._width)
            return self._kept

    def __bytes__(self) -> bytes:
        return self.to_bytes()

    @classmethod
    def from_base64(cls: Type[_S], text: str) -> _S:
        """Read what ``to_base64`` returned, here or in Go or JavaScript.

        Raises
        ------
        ArgumentError
            If the text is not base64.
        ImageError
            If its bytes are not an image, or if other bytes follow it.
        """
        try:
            data = b64decode(text, validate=True)
        except ValueError as error:
            raise ArgumentError(f"the text is not base64: {error}") from None
        return cls.from_bytes(data)

    def to_base64(self) -> str:
        """Return the image in base64, for JSON and other texts."""
        return b64encode(self.to_bytes()).decode()

    @property
    def base64(self) -> str:
        """The text of ``to_base64``.

        ``to_json`` of pandas writes an object with the properties of a sketch. This property makes the
        image one of them: ``Sketch.from_base64(read["base64"])`` reads it. For one text instead of an
        object, pass ``default_handler=Sketch.to_base64``.
        """
        return self.to_base64()

    @classmethod
    def read(cls: Type[_S], path: Union[str, "os.PathLike[str]", IO[bytes]]) -> _S:
        """Read the file of a sketch.

        The first bytes of the file say how long the image is. Only one more byte is read, to see whether
        the file ends there.

        Parameters
        ----------
        path : str, path or file
            The file, or a file of bytes that is open to read, whose image begins at its position.

        Raises
        ------
        OSError
            If the file can't be read.
        ImageError
            If the file is not an image; ``place`` is its path.
        """
        from .files import opened_bytes, read_image, read_path

        file = opened_bytes(path, "read")
        name: Any = getattr(file, "name", None) if file is not None else os.fspath(cast("os.PathLike[str]", path))
        data = read_image(file.read) if file is not None else read_path(name)
        try:
            return cls.from_bytes(data)
        except ImageError as error:
            raise error.at(None, os.fsdecode(name) if isinstance(name, (str, bytes)) else None) from None

    def write(self, path: Union[str, "os.PathLike[str]", IO[bytes]], *, sync: bool = True) -> None:
        """Write the image to a file, and sync the file to disk.

        The file has the bytes of ``to_bytes``. At each moment it is either the old file or the
        complete new file.

        Parameters
        ----------
        path : str, path or file
            The file, or a file of bytes that is open to write. An open file gets the bytes at its
            position, and is not synced.
        sync : bool
            Whether to wait until the file and its name are on disk. A disk takes up to 10 ms for this,
            and the rest of the call takes 0.1 ms. If false, the file can be empty or incomplete after a
            crash of the system. To write many files, pass false, and call ``os.sync()`` once at the end.

        Raises
        ------
        OSError
            If the file can't be written. Then the old file is unchanged, with one exception: if only
            the last sync fails, the new file is complete, but its name may not be on disk yet.
        """
        from .files import opened_bytes, write_all, write_path

        file = opened_bytes(path, "write")
        if file is not None:
            write_all(file, self.to_bytes())
        else:
            write_path(os.fspath(cast("os.PathLike[str]", path)), self.to_bytes(), sync)

    @staticmethod
    def max_bytes(lg_k: int = 12, width: int = 8) -> int:
        """Return the largest size of an image, in bytes.

        Every image of 8-bit or 6-bit registers has this size. An image of 4-bit registers has it only
        if nearly all registers are far above the smallest register. Usually it has half a byte for
        each register and 40 to 60 bytes more.
        """
        count, width = 1 << checked_lg_k(lg_k), checked_width(width)
        return {8: 40 + count, 6: 41 + count * 3 // 4, 4: 36 + count * 9 // 2}[width]

    # ---- changes

    def update(self, value: Value) -> None:
        """Count a value. A value that was counted before changes nothing.

        Values are buffered. They are hashed together when they take four kilobytes, or when the sketch
        is used in another way. So a later call may raise ``MemoryError``.

        Parameters
        ----------
        value : bytes, bytearray, memoryview, str, int or float
            Hashed as bytes. A ``str`` is hashed as its UTF-8. An ``int`` is hashed as eight bytes,
            little-endian, in two's complement if it is negative. A ``float`` is hashed as its
            binary64, little-endian; -0.0 counts as 0.0, and all NaN count as one value. So ``1``,
            ``1.0`` and ``"1"`` are three values, and ``-1`` is the same as ``2**64 - 1``.

            The DataSketches libraries for Java and C++ hash the same bytes. But they skip an empty
            string, which this package counts. The DataSketches library for Rust, and ``update`` of
            the Rattle crates, hash a ``str`` with a byte ff after it, so their ``"ann"`` is another
            value.

        Raises
        ------
        TypeError
            If the value has another type.
        OverflowError
            If the value is an ``int`` outside ``-2**63`` to ``2**64 - 1``.
        """
        data = bytes_of(value)
        self._pending.append(data)
        self._pending_bytes += len(data) + VALUE_BYTES
        if self._pending_bytes >= PENDING_BYTES:
            self._apply()

    def update_many(self, values: Iterable[Value], *, skip_missing: bool = False) -> None:
        """Count many values, which is faster than one at a time.

        Parameters
        ----------
        values : iterable
            Values that ``update`` accepts. Arrays of numbers of at most eight bytes, or of byte
            strings of one width, are read directly from their memory: a NumPy array of one dimension,
            a pandas ``Series``, an ``array.array``, a ``memoryview`` of numbers. Their values count
            as if ``update`` were called for each. The values of an open file are its lines without
            the LF. A single ``str`` or ``bytes``, a ``dict`` or a table is not accepted. If a value
            raises an error, some of the values before it have been counted.
        skip_missing : bool
            Whether missing values are skipped: ``None``, NaN (which pandas puts into a column
            of integers), ``pandas.NA``, ``NaT`` and masked values. ``update`` counts NaN itself.

        Raises
        ------
        ArgumentError
            If a value is missing, and ``skip_missing`` is false.
        TypeError, OverflowError
            As by ``update``.
        """
        for batch in batches(values, Missing(skip_missing)):
            self._add(*batch)

    def update_bytes(self, data: Any, ends: Any) -> None:
        """Count concatenated byte strings, such as a column of strings in Arrow.

        Parameters
        ----------
        data : bytes, or an object that shares its bytes
            The concatenated strings. Bytes after the last end are not read.
        ends : iterable of int, or integers in memory
            The end of each string. The first string begins at 0. Arrow's offsets begin with this 0,
            unless the array is a slice: leave the 0 out.

        Raises
        ------
        ArgumentError
            If the ends descend, or an end is past the bytes. Then nothing has changed.
        """
        self._add(*batch_of(data, ends))

    def add_coupon(self, slot: int, value: int) -> None:
        """Add a coupon, which is what the hash makes of a value.

        Parameters
        ----------
        slot : int
            0 to ``2**26 - 1``.
        value : int
            1 to 63.

        Raises
        ------
        ArgumentError
            If ``slot`` or ``value`` is out of range.
        """
        slot, value = _checked_int("a slot", slot), _checked_int("a value", value)
        if not 0 <= slot < 1 << 26:
            raise ArgumentError(f"a slot is 0 to 2^26 - 1, not {slot}")
        if not 1 <= value <= 63:
            raise ArgumentError(f"the value of a coupon is 1 to 63, not {value}")
        with self._lock:
            _library.add_coupons_to_counter(self._counter(), _library.coupons_of([value << 26 | slot]))

    def merge(self, other: "Sketch", lg_max_k: Optional[int] = None) -> None:
        """Merge another sketch into this one, which becomes the union of both.

        Without ``lg_max_k``, both sketches must have the same ``lg_k``, unless one of them is empty.
        If one sketch is empty, the union is the other. The union has the width of both sketches, or
        width 8 if their widths differ.

        Parameters
        ----------
        other : Sketch
            The other sketch, which is unchanged.
        lg_max_k : int, optional
            The bound of the union's ``lg_k``, 4 to 21. The union has this ``lg_k``. But if a sketch
            with registers that are not all 0 has a smaller ``lg_k``, the union has the smallest such
            ``lg_k``.

        Raises
        ------
        PrecisionError
            If the other sketch has another ``lg_k``, and ``lg_max_k`` is not given. Then nothing
            has changed.
        ArgumentError
            If ``lg_max_k`` is out of range.
        """
        if not isinstance(other, Sketch):
            raise TypeError(f"a Sketch, not {type(other).__name__}")
        image, bound = other.to_bytes(), 0 if lg_max_k is None else checked_lg_k(lg_max_k)
        with self._lock:
            self._kept = self._merged(image, bound)

    def _merged(self, image: bytes, lg_max_k: int = 0) -> bytes:
        mine = self.to_bytes()
        ours, theirs = _library.head(mine), _library.head(image)
        if (ours.lg_k, ours.width) == (theirs.lg_k, theirs.width):
            return _library.merge(lg_max_k or ours.lg_k, ours.width, mine, image)
        try:
            return united([mine, image], lg_max_k)
        except PrecisionError as error:
            cure = "union_of([a, b], lg_max_k={least}) merges them"     # `|` has no parameter
            raise PrecisionError(error.lg_k, error.other_lg_k, cure=cure) from None

    def __or__(self: _S, other: "Sketch") -> _S:
        """Return the union of both, as ``merge`` makes it."""
        if not isinstance(other, Sketch):
            return NotImplemented
        return self._of(self._merged(other.to_bytes()))

    def __ior__(self: _S, other: "Sketch") -> _S:
        """Merge another sketch, as ``merge`` does."""
        if not isinstance(other, Sketch):
            return NotImplemented
        self.merge(other)
        return self

    def reset(self) -> None:
        """Forget all values. The ``lg_k`` and the width stay."""
        with self._lock:
            self._kept = _library.new(self.lg_k, self.width)
            self._pending.clear()
            self._pending_bytes = 0

    def _apply(self) -> None:
        """Hashes the buffered values. If an allocation fails, they stay in the buffer."""
        with self._lock:
            count = len(self._pending)
            if count:
                _library.add_pieces_to_counter(self._counter(), self._pending[:count])
                del self._pending[:count]
                rest = self._pending
                self._pending_bytes = sum(map(len, rest)) + VALUE_BYTES * len(rest)

    def _add(self, values: bytes, ends: _library.Numbers, count: int) -> None:
        """Adds values, delimited by their ends."""
        with self._lock:
            _library.add_to_counter(self._counter(), values, ends, count)

    def _counter(self) -> _library.Counter:
        """Keeps the sketch as a counter, which can be changed, and returns it."""
        kept = self._kept
        if isinstance(kept, bytes):
            kept, self._width = _library.counter_of(kept)
            self._kept = kept
        return kept

    # ---- other sketches of the same values

    def fold(self: _S, lg_k: int) -> _S:
        """Return the sketch of the same values at a smaller ``lg_k``, or at the same ``lg_k``.

        Raises
        ------
        ArgumentError
            If ``lg_k`` is below 4 or above the ``lg_k`` of this sketch.
        """
        image, lg_k = self.to_bytes(), checked_lg_k(lg_k)
        most = _library.lg_k_in(image)
        if lg_k > most:
            raise ArgumentError(f"a fold is to an lg_k of at most {most}, not {lg_k}")
        return self._of(_library.fold(image, lg_k))

    def convert(self: _S, width: int) -> _S:
        """Return the same sketch in registers of 4, 6 or 8 bits.

        Raises
        ------
        ArgumentError
            If ``width`` is another number.
        """
        return self._of(_library.convert(self.to_bytes(), checked_width(width)))

    def set_estimator_fields(self) -> None:
        """Recompute the estimator fields from the registers.

        Only one kind of sketch needs this call: a sketch that was read from an image in which another
        DataSketches library stored a HIP estimate, and was not changed since.
        """
        with self._lock:
            self._kept = _library.set_estimator_fields(self.to_bytes())

    # ---- what it is

    @property
    def lg_k(self) -> int:
        """The base-2 logarithm of the number of registers."""
        kept = self._kept
        return _library.lg_k_in(kept) if isinstance(kept, bytes) else _library.summary_of(kept).lg_k

    @property
    def width(self) -> int:
        """The bits of a register: 4, 6 or 8."""
        kept = self._kept
        return _library.width_in(kept) if isinstance(kept, bytes) else self._width

    @property
    def stage(self) -> Stage:
        """``"list"``, ``"set"`` or ``"registers"``."""
        return STAGES[_library.head(self.to_bytes()).stage]

    @property
    def is_empty(self) -> bool:
        """Whether no value was counted."""
        return _library.info(self.to_bytes()).is_empty == 1

    @property
    def num_coupons(self) -> int:
        """The number of coupons of a list or a set; 0 for registers."""
        return _library.info(self.to_bytes()).coupons

    @property
    def num_zeros(self) -> int:
        """The number of registers that are 0; 0 for a list or a set."""
        return _library.info(self.to_bytes()).zeros

    def histogram(self) -> List[int]:
        """Return how many registers have each value from 0 to 63.

        Coupons of a list or a set count as the registers that they would set.
        """
        return _library.histogram(self.to_bytes())

    # ---- estimates

    def estimate(self) -> float:
        """Return an estimate of how many distinct values were counted.

        The estimate from registers is proved to be near the exact value of the estimator. The
        estimate from coupons is tested.
        """
        return self._estimation().estimate

    def _estimation(self) -> _library.Estimation:
        kept = None if self._pending else self._kept
        if isinstance(kept, bytes):
            return _library.estimation(kept)
        with self._lock:
            self._apply()
            return _library.estimation_of_counter(self._counter())

    def hip_estimate(self) -> Optional[float]:
        """Return the HIP estimate that another program stored with the registers, or None.

        Its standard error is ``0.83 / sqrt(2**lg_k)``, a fifth smaller than the standard error of
        ``estimate``. Merged sketches, and sketches that this package changed, have no HIP estimate.
        """
        found = _library.hip_estimation(self.to_bytes())
        return None if found is None else found.estimate

    def bounds(self, deviations: int = 2) -> Tuple[float, float]:
        """Return a lower and an upper bound of the number of distinct values.

        Parameters
        ----------
        deviations : int
            1, 2 or 3 standard deviations. The number of values is between the bounds for at least
            about 68, 95 or 99.7 of 100 sketches (docs/NUMBERS.md, "Estimates").

        Raises
        ------
        ArgumentError
            If ``deviations`` is another number.
        """
        number = checked_deviations(deviations) - 1
        found = self._estimation()
        return found.lower[number], found.upper[number]

    def lower_bound(self, deviations: int = 2) -> float:
        """Return the lower bound of ``bounds``."""
        return self.bounds(deviations)[0]

    def upper_bound(self, deviations: int = 2) -> float:
        """Return the upper bound of ``bounds``."""
        return self.bounds(deviations)[1]

    def relative_standard_error(self) -> float:
        """Return the standard deviation of the estimate, as a fraction of the number of values."""
        return self._estimation().relative_standard_error

    # ---- comparing

    def agrees_with(self, other: "Sketch") -> bool:
        """Return whether both have the same registers, once folded to the smaller ``lg_k``."""
        if not isinstance(other, Sketch):
            raise TypeError(f"a Sketch, not {type(other).__name__}")
        return _library.agree(self.to_bytes(), other.to_bytes())

    def __eq__(self, other: object) -> bool:
        """Return whether both have the same image."""
        if not isinstance(other, Sketch):
            return NotImplemented
        return self.to_bytes() == other.to_bytes()

    def __repr__(self) -> str:
        found = _library.info(self.to_bytes())
        if found.stage == 2:
            content = f"about {self.estimate():,.0f} values"
        else:
            content = f"{found.coupons} coupons"
        name = type(self).__name__
        return f"<{name} lg_k={found.lg_k} width={found.width}: {STAGES[found.stage]}, {content}>"

    def __format__(self, spec: str) -> str:
        """Return the estimate in a format of numbers, as in ``f"{sketch:,.0f}"``; without one, what ``str`` returns."""
        return format(self.estimate(), spec) if spec else str(self)

    # ---- copies

    def copy(self: _S) -> _S:
        """Return an independent copy."""
        return self._of(self.to_bytes())

    def __copy__(self: _S) -> _S:
        return self.copy()

    def __deepcopy__(self: _S, memo: object) -> _S:
        return self.copy()

    def __reduce__(self) -> Tuple[Any, Tuple[bytes]]:
        return type(self).from_bytes, (self.to_bytes(),)
