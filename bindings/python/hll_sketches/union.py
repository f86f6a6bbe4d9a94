# SPDX-License-Identifier: Apache-2.0
"""Unions of many sketches."""
from __future__ import annotations

from typing import Any, Iterable, Iterator, Optional, Tuple, Type, TypeVar, Union

from ._errors import ImageError, PrecisionError
from ._library import Estimation
from ._locks import Lock
from ._series import is_of_pandas, place_in
from ._state import State
from ._values import Value
from .sketch import Buffer, Sketch, checked_deviations, checked_lg_k, checked_width, image_in

_U = TypeVar("_U", bound="SketchUnion")

Source = Union[Sketch, Buffer]


def checked_bounds(lg_max_k: Optional[int], width: Optional[int]) -> Tuple[int, Optional[int]]:
    """Returns a bound, or 0 for none, and a width, or None, that are in range."""
    bound = 0 if lg_max_k is None else checked_lg_k(lg_max_k)
    return bound, None if width is None else checked_width(width)


def _images(sources: Iterable[Source]) -> Iterator[bytes]:
    """Yields the image of each sketch."""
    if isinstance(sources, (bytes, bytearray, memoryview, Sketch)):
        name = type(sources).__name__
        raise TypeError(f"expected many sketches, not one {name}: pass a list of it")
    return (one if type(one) is bytes else image_in(one) for one in sources)


def _joined(state: State, sources: Iterable[Source]) -> None:
    """Merges sketches. Errors name the row of a column of pandas."""
    try:
        state.join_stream(_images(sources))
    except (ImageError, PrecisionError) as error:
        raise error.at(error.number, place_in(sources, error.number or 0)) from None
    except TypeError as error:
        place = _place_of_no_image(sources)
        raise error if place is None else TypeError(f"{place}: {error}") from None


def _place_of_no_image(sources: Iterable[Source]) -> Optional[str]:
    """Returns where a Series has the first item that shares no bytes, such as a missing value."""
    if is_of_pandas(sources):
        for number, one in enumerate(sources):
            try:
                image_in(one)
            except TypeError:
                return place_in(sources, number)
    return None


class SketchUnion:
    """The union of sketches: the sketch of all values that any of them has.

    Without ``lg_max_k``, all sketches that are not empty must have the same ``lg_k``, and the union
    has it too.

    The registers don't depend on the order of the sketches, on repetition, or on whether some of them
    were merged before with the same ``lg_max_k``. Any number of threads may use a union at once.

    Parameters
    ----------
    lg_max_k : int, optional
        The bound of the union's ``lg_k``, 4 to 21. The union has this ``lg_k``. But if a sketch with
        registers that are not all 0 has a smaller ``lg_k``, the union has the smallest such ``lg_k``.
    width : int, optional
        The bits of a register of the union's sketch, 4, 6 or 8. By default it is the width of the
        sketches, or 8 if they differ.

    Raises
    ------
    ArgumentError
        If ``lg_max_k`` or ``width`` is out of range.
    """

    __slots__ = ("_width", "_state", "_lock", "__weakref__")

    def __init__(self, lg_max_k: Optional[int] = None, width: Optional[int] = None) -> None:
        bound, self._width = checked_bounds(lg_max_k, width)
        self._state = State(bound)
        self._lock = Lock()

    @property
    def lg_max_k(self) -> Optional[int]:
        """The bound of the union's ``lg_k``, or None if no bound was given."""
        return self._state.lg_max_k or None

    @property
    def width(self) -> Optional[int]:
        """The width that was given, or None."""
        return self._width

    def update(self, sketch: Source) -> None:
        """Merge a sketch, or the image of one.

        Raises
        ------
        ImageError
            If the bytes are not an image. Then nothing has changed.
        PrecisionError
            If the sketch and the union have different ``lg_k``, neither is empty, and no ``lg_max_k``
            was given. Then nothing has changed.
        """
        image = image_in(sketch)
        with self._lock:
            self._state.join(image)

    def update_many(self, sketches: Iterable[Source]) -> None:
        """Merge many sketches or images, which is faster than one at a time.

        Raises
        ------
        ImageError, PrecisionError
            As by ``update``. Then nothing has changed. ``number`` is the index of the sketch. It is
            None if all these sketches have the same ``lg_k``, and the union has another. ``place`` is as
            for ``union_of``.
        """
        taken = State(self._state.lg_max_k)
        _joined(taken, sketches)
        if taken.count:
            self.update(taken.image())

    def update_values(self, values: Iterable[Value], *, skip_missing: bool = False) -> None:
        """Count many values, as ``Sketch.update_many`` does.

        They are counted at the ``lg_k`` of the union (the property ``lg_k``). If a value raises an
        error, nothing has changed.
        """
        made = Sketch(self.lg_k)
        made.update_many(values, skip_missing=skip_missing)
        if not made.is_empty:
            with self._lock:
                self._state.join(made.convert(self._state.width).to_bytes())

    def reset(self) -> None:
        """Forget all sketches."""
        with self._lock:
            self._state = State(self._state.lg_max_k)

    # ---- what it is

    @property
    def lg_k(self) -> int:
        """The ``lg_k`` of the union so far.

        If no sketch was merged, it is ``lg_max_k``, or 12 if no ``lg_max_k`` was given.
        """
        return self._state.lg_k

    @property
    def is_empty(self) -> bool:
        """Whether no value was counted."""
        with self._lock:
            return self._state.is_empty

    def estimate(self) -> float:
        """Return an estimate of how many distinct values were counted."""
        return self._estimation().estimate

    def bounds(self, deviations: int = 2) -> Tuple[float, float]:
        """Return a lower and an upper bound of the number of values, as ``Sketch.bounds`` does."""
        number = checked_deviations(deviations) - 1
        found = self._estimation()
        return found.lower[number], found.upper[number]

    def lower_bound(self, deviations: int = 2) -> float:
        """Return the lower bound of ``bounds``."""
        return self.bounds(deviations)[0]

    def upper_bound(self, deviations: int = 2) -> float:
        """Return the upper bound of ``bounds``."""
        return self.bounds(deviations)[1]

    def relative_standard_error(self) -> float:
        """Return the standard deviation of the estimate, as a fraction of the number of values."""
        return self._estimation().relative_standard_error

    def _estimation(self) -> Estimation:
        with self._lock:
            return self._state.estimation()

    def to_bytes(self) -> bytes:
        """Return the image of the union so far."""
        return self.sketch().to_bytes()

    @property
    def base64(self) -> str:
        """The image of the union so far in base64, as ``Sketch.base64``."""
        return self.sketch().to_base64()

    def sketch(self) -> Sketch:
        """Return the sketch of the union so far.

        If no sketch was merged and no ``lg_max_k`` was given, it is an empty sketch at ``lg_k`` 12.
        """
        with self._lock:
            return Sketch._of(self._state.image(self._width))

    # ---- copies

    def copy(self: _U) -> _U:
        """Return an independent copy."""
        made = type(self)(self.lg_max_k, self._width)
        with self._lock:
            made._state.become(self._state)
        return made

    def __copy__(self: _U) -> _U:
        return self.copy()

    def __deepcopy__(self: _U, memo: object) -> _U:
        return self.copy()

    @classmethod
    def _of(
        cls: Type[_U], lg_max_k: Optional[int], width: Optional[int], image: Optional[bytes]
    ) -> _U:
        made = cls(lg_max_k, width)
        if image is not None:
            made.update(image)
        return made

    def __reduce__(self) -> Tuple[Any, Tuple[Optional[int], Optional[int], Optional[bytes]]]:
        with self._lock:
            image = self._state.image() if self._state.count else None
        return type(self)._of, (self.lg_max_k, self._width, image)

    def __repr__(self) -> str:
        return f"<{type(self).__name__} of {self._state.count:,} sketches: {self.sketch()!r}>"


def merged(
    sketches: Iterable[Source], lg_max_k: int, width: Optional[int] = None
) -> Optional[bytes]:
    """Returns the image of the union under a bound, or without one for 0; None without sketches."""
    state = State(lg_max_k)
    state.join_stream(_images(sketches))
    return state.image(width) if state.count else None


def union_of(
    sketches: Iterable[Source], lg_max_k: Optional[int] = None, width: Optional[int] = None
) -> Sketch:
    """Return the union of sketches or images.

    This is the fastest way to merge many sketches. Without ``lg_max_k``, all sketches that are not
    empty must have the same ``lg_k``, and the union has it too. If all sketches are empty, the union
    has their greatest ``lg_k``, or ``lg_max_k``. Without sketches the union is empty, at ``lg_max_k``
    or at 12.

    Parameters
    ----------
    sketches : iterable
        ``Sketch`` objects, or images as bytes. It may be a Series of pandas, also in
        ``frame.groupby(key)[image].apply(union_of)``.
    lg_max_k : int, optional
        The bound of the union's ``lg_k``, 4 to 21. The union has this ``lg_k``. But if a sketch with
        registers that are not all 0 has a smaller ``lg_k``, the union has the smallest such ``lg_k``.
    width : int, optional
        The bits of a register of the union, 4, 6 or 8. By default it is the width of the sketches, or
        8 if they differ.

    Raises
    ------
    ImageError
        If bytes are not an image. ``number`` is the index of the image. In a Series ``place`` has the
        label of the row, after the name of the Series. In ``apply`` this name is the key of the group.
    PrecisionError
        If a sketch has another ``lg_k`` than the sketches before it, and no ``lg_max_k`` was given.
        ``number`` is the index of the sketch, and ``place`` is as for ``ImageError``.
    ArgumentError
        If ``lg_max_k`` or ``width`` is out of range.
    """
    bound, width = checked_bounds(lg_max_k, width)
    state = State(bound)
    _joined(state, sketches)
    return Sketch._of(state.image(width))
