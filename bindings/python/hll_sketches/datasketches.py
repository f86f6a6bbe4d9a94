# SPDX-License-Identifier: Apache-2.0
"""The names and defaults of the package ``datasketches`` for its HLL sketches, over ``hll_sketches``.

A program that was written for that package runs after one line has changed::

    from hll_sketches.datasketches import hll_sketch, hll_union, tgt_hll_type

Written from the published interface of that package, which was not run. Images of either are read by the other. What
differs is in the README of this package, "Coming from the package datasketches". New programs use ``Sketch`` and
``union_of``.
"""
from __future__ import annotations

import enum
import math
from typing import Callable, Tuple, Type, TypeVar, Union

from .sketch import Buffer, Sketch
from .union import SketchUnion

__all__ = ["hll_sketch", "hll_union", "tgt_hll_type"]

_C = TypeVar("_C", bound="_Counter")


class tgt_hll_type(enum.Enum):
    """The width of registers in an image."""

    HLL_4 = 4
    HLL_6 = 6
    HLL_8 = 8


class _Counter:
    """What a sketch and a union have in common."""

    _counter: Union[Sketch, SketchUnion]

    @classmethod
    def _of(cls: Type[_C], counter: Union[Sketch, SketchUnion]) -> _C:
        made = cls.__new__(cls)
        made._counter = counter
        return made

    def __copy__(self: _C) -> _C:
        return type(self)._of(self._counter.copy())

    def __reduce__(self: _C) -> Tuple[Callable[..., _C], Tuple[Union[Sketch, SketchUnion]]]:
        return type(self)._of, (self._counter,)

    @property
    def lg_config_k(self) -> int:
        """The ``lg_k``."""
        return self._counter.lg_k

    def is_empty(self) -> bool:
        """Return whether no value was counted."""
        return self._counter.is_empty

    def get_estimate(self) -> float:
        """Return the estimated number of distinct values, from the registers, as after a merge."""
        return self._counter.estimate()

    get_composite_estimate = get_estimate

    def get_lower_bound(self, num_std_devs: int) -> float:
        """Return the lower bound at 1, 2 or 3 standard deviations."""
        return self._counter.lower_bound(num_std_devs)

    def get_upper_bound(self, num_std_devs: int) -> float:
        """Return the upper bound at 1, 2 or 3 standard deviations."""
        return self._counter.upper_bound(num_std_devs)

    def reset(self) -> None:
        """Remove all values."""
        self._counter.reset()

    @staticmethod
    def get_rel_err(upper_bound: bool, unioned: bool, lg_k: int, num_std_devs: int) -> float:
        """Return the relative error at a number of standard deviations, below 0 for an upper bound. It is the
        same whether or not sketches were merged."""
        error = num_std_devs * 1.04 / math.sqrt(2**lg_k)
        return -error if upper_bound else error

    def to_string(self, summary: bool = True, detail: bool = False, aux_detail: bool = False, all: bool = False) -> str:
        """Return one line of text. The arguments choose nothing here."""
        return repr(self._counter)

    def __str__(self) -> str:
        return self.to_string()

    __repr__ = __str__


class hll_sketch(_Counter):
    """Counts distinct values: integers, floats and strings. An empty string is no value.

    Parameters
    ----------
    lg_k : int or hll_sketch
        The ``lg_k``, 4 to 21, or a sketch to copy.
    tgt_type : tgt_hll_type
        The width of registers in an image.
    start_full_size : bool
        Changes nothing here.
    """

    _counter: Sketch

    def __init__(
        self,
        lg_k: Union[int, "hll_sketch"],
        tgt_type: tgt_hll_type = tgt_hll_type.HLL_4,
        start_full_size: bool = False,
    ) -> None:
        if isinstance(lg_k, hll_sketch):
            self._counter = lg_k._counter.convert(tgt_type.value)
        else:
            self._counter = Sketch(lg_k, tgt_type.value)

    @property
    def tgt_type(self) -> tgt_hll_type:
        """The width of registers in an image."""
        return tgt_hll_type(self._counter.width)

    def update(self, datum: Union[int, float, str]) -> None:
        """Count a value."""
        if datum != "":
            self._counter.update(datum)

    def is_compact(self) -> bool:
        """Return False."""
        return False

    def serialize_compact(self) -> bytes:
        """Return the compact image."""
        return self._counter.to_bytes()

    def serialize_updatable(self) -> bytes:
        """Return the compact image, which each library reads where it reads an updatable one."""
        return self._counter.to_bytes()

    def get_compact_serialization_bytes(self) -> int:
        """Return the size of the image in bytes, in the time of writing it."""
        return len(self._counter.to_bytes())

    def get_updatable_serialization_bytes(self) -> int:
        """Return the size of the image in bytes, in the time of writing it."""
        return len(self._counter.to_bytes())

    @staticmethod
    def get_max_updatable_serialization_bytes(lg_k: int, tgt_type: tgt_hll_type) -> int:
        """Return the size in bytes of the largest image that this library writes."""
        return Sketch.max_bytes(lg_k, tgt_type.value)

    @staticmethod
    def deserialize(bytes: Buffer) -> "hll_sketch":
        """Return the sketch of an image, compact or updatable. Raises ``ImageError``, a ``ValueError``."""
        return hll_sketch._of(Sketch.from_bytes(bytes))


class hll_union(_Counter):
    """Merges sketches and counts values, under a bound of the ``lg_k``.

    Parameters
    ----------
    lg_max_k : int
        The greatest ``lg_k`` of the result, 4 to 21.
    """

    _counter: SketchUnion

    def __init__(self, lg_max_k: int) -> None:
        self._counter = SketchUnion(lg_max_k)

    @property
    def tgt_type(self) -> tgt_hll_type:
        """``HLL_8``."""
        return tgt_hll_type.HLL_8

    def update(self, datum: Union[hll_sketch, int, float, str]) -> None:
        """Merge a sketch, or count a value."""
        if isinstance(datum, hll_sketch):
            self._counter.update(datum._counter)
        elif datum != "":
            self._counter.update_values([datum])

    def get_result(self, tgt_type: tgt_hll_type = tgt_hll_type.HLL_4) -> hll_sketch:
        """Return the sketch of the union, at a width."""
        return hll_sketch._of(self._counter.sketch().convert(tgt_type.value))
