# SPDX-License-Identifier: Apache-2.0
"""Registers in a program's own bytes."""
from __future__ import annotations

from typing import Any, Iterable, List, Tuple, Type, TypeVar, Union

from . import _library
from ._columns import batch_of, raw_coupons_in
from ._errors import ArgumentError, PrecisionError
from ._locks import Lock
from ._missing import Missing
from ._values import Value, batches, bytes_of
from .sketch import Sketch, checked_deviations, checked_lg_k, checked_width, image_in

_R = TypeVar("_R", bound="Registers")

class Registers:
    """The registers of a sketch, one byte for each: ``2**lg_k`` bytes, all 0 at first.

    They count like a ``Sketch``, in constant memory. Values, coupons, sketches and images are merged
    into them in place. The same values give the same bytes, in any order, any number of times, in any
    grouping. Any number of threads may use an object at once. If two objects use the same memory,
    only one of them may be changed at a time.

    Parameters
    ----------
    lg_k : int
        The logarithm of the number of registers, 4 to 21.

    Raises
    ------
    ArgumentError
        If ``lg_k`` is out of range.
    """

    __slots__ = ("_memory", "_place", "_lock", "__weakref__")
    __hash__ = None  # type: ignore[assignment]

    def __init__(self, lg_k: int = 12) -> None:
        self._lie_over(memoryview(bytearray(1 << checked_lg_k(lg_k))))

    def _lie_over(self, memory: memoryview) -> None:
        self._memory = memory
        self._place = _library.place_of(memory)
        self._lock = Lock()

    @classmethod
    def over(cls: Type[_R], memory: Any) -> _R:
        """Return an object for the registers in the caller's memory.

        Parameters
        ----------
        memory : bytearray, mmap, array, shared memory or the like
            Writable bytes, each 0 to 63. Their number is a power of two, 16 to ``2**21``. They are
            changed in place. They can't be resized while the object exists.

        Raises
        ------
        TypeError
            If the bytes are read-only or not contiguous.
        ArgumentError
            If the number of bytes is not such a power of two.
        """
        view = memoryview(memory)
        if view.readonly:
            raise TypeError(f"writable memory, not {type(memory).__name__}")
        if not view.c_contiguous or view.itemsize != 1:
            raise TypeError("memory of bytes that follow one another")
        count = view.nbytes
        if count & (count - 1) or not 1 << 4 <= count <= 1 << 21:
            raise ArgumentError(f"registers are 16 to 2^21, and a power of two, not {count}")
        made = cls.__new__(cls)
        made._lie_over(view.cast("B"))
        return made

    # ---- changes

    def update(self, value: Value) -> None:
        """Count a value, as ``Sketch.update`` does."""
        data = bytes_of(value)
        with self._lock:
            _library.add_to(self._place, data, _library.ends_of([data]), 1)

    def update_many(self, values: Iterable[Value], *, skip_missing: bool = False) -> None:
        """Count many values, as ``Sketch.update_many`` does."""
        for batch in batches(values, Missing(skip_missing)):
            with self._lock:
                _library.add_to(self._place, *batch)

    def update_bytes(self, data: Any, ends: Any) -> None:
        """Count concatenated byte strings, as ``Sketch.update_bytes`` does."""
        batch = batch_of(data, ends)
        with self._lock:
            _library.add_to(self._place, *batch)

    def add_coupons(self, raw_coupons: Iterable[int]) -> None:
        """Add coupons, as ``coupons`` returns them.

        Parameters
        ----------
        raw_coupons : iterable of int
            ``value * 2**26 + slot``, with a value of 1 to 63 and a slot below ``2**26``. An
            ``array`` of 32-bit numbers is used without a copy.

        Raises
        ------
        ArgumentError
            If a number is not a coupon. Then no coupon was added.
        """
        taken = raw_coupons_in(raw_coupons)
        if taken:
            with memoryview(taken), self._lock:     # no thread can resize it meanwhile
                _library.add_coupons_to(self._place, taken)

    def merge(self, other: Union[Sketch, "Registers", bytes, bytearray, memoryview]) -> None:
        """Merge a sketch, its image, or other registers, folded to this ``lg_k``.

        Raises
        ------
        ImageError
            If bytes are not an image, or more than one.
        PrecisionError
            If the other sketch has fewer registers, and they are not all 0. The error has the
            ``lg_k`` of that sketch. To merge anyway, first ``fold`` these registers to it.
        """
        if isinstance(other, Registers):
            copied = memoryview(other._bytes())     # both may use the same memory
            with self._lock:
                fewer = _library.merge_registers(self._place, _library.place_of(copied))
        else:
            image = image_in(other)
            _library.check_end(image)
            with self._lock:
                fewer = _library.merge_image(self._place, image)
        if fewer is not None:
            raise PrecisionError(fewer, self.lg_k, cure="fold({least}) the registers first")

    def reset(self) -> None:
        """Set all registers to 0."""
        with self._lock:
            self._memory[:] = bytes(len(self._memory))

    # ---- others of the same values

    def fold(self: _R, lg_k: int) -> _R:
        """Return registers of the same values at a smaller ``lg_k``, or at the same ``lg_k``.

        Raises
        ------
        ArgumentError
            If ``lg_k`` is below 4 or above the present one, or a byte is above 63.
        """
        lg_k = checked_lg_k(lg_k)
        if lg_k > self.lg_k:
            raise ArgumentError(f"a fold is to an lg_k of at most {self.lg_k}, not {lg_k}")
        copied = self._bytes()
        _library.fold_registers(_library.place_of(memoryview(copied)), lg_k)
        return self.over(copied[: 1 << lg_k])

    def to_bytes(self, width: int = 8) -> bytes:
        """Return the image of the sketch with these registers.

        It has the fields that other DataSketches libraries estimate from.

        Parameters
        ----------
        width : int
            The bits of a register in the image, 4, 6 or 8.
        """
        with self._lock:
            return _library.image_of(self._place, checked_width(width))

    @property
    def base64(self) -> str:
        """The image of the registers in base64, as ``Sketch.base64``."""
        return self.to_sketch().to_base64()

    def to_sketch(self, width: int = 8) -> Sketch:
        """Return the sketch with these registers."""
        return Sketch.from_bytes(self.to_bytes(width))

    # ---- what they are

    @property
    def memory(self) -> memoryview:
        """The registers as writable bytes, each 0 to 63."""
        return self._memory

    @property
    def lg_k(self) -> int:
        """The base-2 logarithm of the number of registers."""
        return len(self._memory).bit_length() - 1

    def histogram(self) -> List[int]:
        """Return how many registers have each value from 0 to 63."""
        return _library.histogram_of(self._place)

    def estimate(self) -> float:
        """Return an estimate of how many distinct values were counted.

        It is proved to be near the exact value of the estimator.
        """
        return _library.estimation_of(self._place).estimate

    def bounds(self, deviations: int = 2) -> Tuple[float, float]:
        """Return a lower and an upper bound of the number of values, as ``Sketch.bounds`` does."""
        number = checked_deviations(deviations) - 1
        found = _library.estimation_of(self._place)
        return found.lower[number], found.upper[number]

    def lower_bound(self, deviations: int = 2) -> float:
        """Return the lower bound of ``bounds``."""
        return self.bounds(deviations)[0]

    def upper_bound(self, deviations: int = 2) -> float:
        """Return the upper bound of ``bounds``."""
        return self.bounds(deviations)[1]

    def relative_standard_error(self) -> float:
        """Return the standard deviation of the estimate, as a fraction of the number of values."""
        return _library.estimation_of(self._place).relative_standard_error

    @property
    def is_empty(self) -> bool:
        """Whether all registers are 0."""
        return not any(self._memory)

    def _bytes(self) -> bytearray:
        with self._lock:
            return bytearray(self._memory)

    def __eq__(self, other: object) -> bool:
        """Return whether both have the same bytes."""
        if not isinstance(other, Registers):
            return NotImplemented
        return self._memory == other._memory

    def __repr__(self) -> str:
        return f"<{type(self).__name__} lg_k={self.lg_k}>"

    # ---- copies

    def copy(self: _R) -> _R:
        """Return a copy, which has its own memory."""
        return self.over(self._bytes())

    def __copy__(self: _R) -> _R:
        return self.copy()

    def __deepcopy__(self: _R, memo: object) -> _R:
        return self.copy()

    def __reduce__(self) -> Tuple[Any, Tuple[bytearray]]:
        return type(self).over, (self._bytes(),)
