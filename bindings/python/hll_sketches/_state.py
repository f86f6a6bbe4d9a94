# SPDX-License-Identifier: Apache-2.0
"""Unions, as counters of the library (``hll_counter`` of hll.h)."""
from __future__ import annotations

from itertools import islice
from operator import itemgetter
from typing import Iterable, Optional, Sequence, Set, Tuple

from . import _library
from ._errors import ImageError, PrecisionError

DEFAULT = 12
"""The ``lg_k`` of a union if none is given and no sketch was merged."""

BATCH_IMAGES, BATCH_BYTES = 4096, 1 << 18
"""The number of images, and of their bytes, that are merged by one call: they fit a cache."""

LARGE = 1 << 16
"""A larger image is checked before it is merged: other threads wait while a counter changes, and an
untrusted image can take a second to read."""

_header = itemgetter(slice(8))
"""The header of an image. Most images share theirs with others, so it is read once for all of these."""


def _kinds(images: Iterable[bytes]) -> Set[Tuple[int, int]]:
    """Returns the pairs of ``lg_k`` and width in the headers of images; zeros for a header with a fault."""
    heads = map(_library.head, set(map(_header, images)))
    return {(head.lg_k, head.width) for head in heads}


class State:
    """The union of images.

    The rule is that of ``hll_counter_join``. Without a bound, only images of one ``lg_k`` are merged,
    and empty images count for nothing.

    Parameters
    ----------
    lg_max_k : int
        The largest ``lg_k`` of the union, 4 to 21, or 0 for no bound.

    Attributes
    ----------
    count : int
        How many images were merged.
    """

    __slots__ = ("lg_max_k", "count", "_counter")

    def __init__(self, lg_max_k: int = 0) -> None:
        self.lg_max_k, self.count = lg_max_k, 0
        self._counter = _library.new_counter(lg_max_k)

    def become(self, other: "State") -> None:
        """Replaces the union by a copy of another, of the same bound."""
        _library.copy_counter(self._counter, other._counter)
        self.count = other.count

    @property
    def lg_k(self) -> int:
        """The ``lg_k`` of the union so far; without images, the ``lg_k`` that ``image`` uses."""
        return self._summary().lg_k if self.count or self.lg_max_k else DEFAULT

    @property
    def width(self) -> int:
        """The width of the images that are not empty, or of all images if all are empty; 8 if the
        widths differ."""
        return self._summary().width

    @property
    def is_empty(self) -> bool:
        """Whether no value was counted."""
        return bool(self._summary().is_empty)

    def estimation(self) -> _library.Estimation:
        """Return an estimate of the union, with its bounds."""
        return _library.estimation_of_counter(self._counter)

    def _summary(self) -> _library.Summary:
        return _library.summary_of(self._counter)

    def join(self, image: bytes) -> None:
        """Merges an image.

        Raises
        ------
        ImageError
            If the bytes are not an image, or if other bytes follow it. Then nothing has changed.
        PrecisionError
            If the image has another ``lg_k``, and there is no bound. Then nothing has changed.
        """
        _library.check_end(image)
        if len(image) > LARGE:
            image = _library.convert(image, _library.width_in(image))
        if not _library.join_counter(self._counter, image):
            raise PrecisionError(_library.lg_k_in(image), self.lg_k)
        self.count += 1

    def join_all(self, images: Sequence[bytes]) -> None:
        """Merges images, in one call if their headers have one ``lg_k`` and one width.

        An error has the ``number`` of the image. The images before it have been merged.
        """
        kinds = _kinds(images)
        are_whole = not any(map(_library.trailing, images))
        if are_whole and len(kinds) == 1 and self._join_at_once(images, *kinds.pop()):
            return
        for number, image in enumerate(images):
            try:
                self.join(image)
            except (ImageError, PrecisionError) as error:
                raise error.at(number) from None

    def _join_at_once(self, images: Sequence[bytes], lg_k: int, width: int) -> bool:
        """Merges images of one ``lg_k`` and width. Returns False, without a change, if the ``lg_k`` is
        out of range or is not that of the union."""
        if not lg_k:
            return False
        try:
            union = _library.union(self.lg_max_k or lg_k, width, images)
        except ImageError as error:
            if error.number:
                self.join_all(images[: error.number])
            raise
        try:
            self.join(union)
        except PrecisionError:
            return False
        self.count += len(images) - 1
        return True

    def join_stream(self, images: Iterable[bytes]) -> None:
        """Merges images of an iterable, in batches."""
        source, most = iter(images), 8
        before = self.count
        while True:
            batch = list(islice(source, most))
            if not batch:
                return
            start = self.count
            try:
                self.join_all(batch)
            except (ImageError, PrecisionError) as error:
                raise error.at(start - before + (error.number or 0)) from None
            size = sum(map(len, batch))
            most = max(1, min(BATCH_IMAGES, 8 * most, most * BATCH_BYTES // size + 1))

    def image(self, width: Optional[int] = None) -> bytes:
        """Return the image of the union. Its memory is then no larger than it must be.

        Parameters
        ----------
        width : int, optional
            The bits of a register, 4, 6 or 8. By default it is ``self.width``.
        """
        if not self.count and not self.lg_max_k:
            return _library.new(DEFAULT, width or 8)
        _library.settle_counter(self._counter)
        return _library.image_of_counter(self._counter, width or self.width)


def united(images: Sequence[bytes], lg_max_k: int = 0) -> bytes:
    """Returns the image of the union of images, by the rule of ``State``."""
    state = State(lg_max_k)
    state.join_all(images)
    return state.image()
