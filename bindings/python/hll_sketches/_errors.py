# SPDX-License-Identifier: Apache-2.0
"""The exceptions of this package."""
from __future__ import annotations

from typing import Any, List, Optional, Tuple

from ._names import shown

# scripts/calls.py writes what follows, from bindings/c/hll.h
_MEANINGS = {
    "truncated": "the bytes end inside what the header asks for",
    "family": "the family byte is not 7",
    "version": "the serial version is not 1",
    "lgk": "the lg_k byte is outside 4 to 21",
    "width": "the width bits are 3",
    "stage": "the stage bits are 3",
    "preamble": "the preamble size does not fit the stage",
    "lgarr": "the size of a table is outside its range",
    "count": "a count is above its bound, or not the number of filled buckets",
    "coupon": "a coupon has the value 0 where a coupon is needed, or comes twice",
    "register": "a register is above 63, or nibbles and exceptions do not agree",
}
# end of what scripts/calls.py writes
_MEANINGS["trailing"] = "bytes follow the image"


def explained(reason: str, sizes: Optional[Tuple[int, int]] = None) -> str:
    """Returns the reason why bytes are not an image, followed by an explanation."""
    more = "" if sizes is None else ", which takes {:,} bytes of {:,}".format(*sizes)
    return f"{reason} ({_MEANINGS[reason]}{more})"


class HllError(Exception):
    """The base class of the errors of this package.

    A failed allocation raises ``MemoryError``, a value of a wrong type ``TypeError``, and an ``int``
    that doesn't fit 64 bits ``OverflowError``.
    """


class ArgumentError(HllError, ValueError):
    """An argument is out of range."""


class ImageError(HllError, ValueError):
    """Bytes are not the image of a sketch.

    Attributes
    ----------
    reason : str
        The check that fails: ``truncated``, ``family``, ``version``, ``lgk``, ``width``,
        ``stage``, ``preamble``, ``lgarr``, ``count``, ``coupon`` or ``register``; or ``trailing`` if
        other bytes follow an image.
    number : int or None
        The index of the image, if several were given.
    place : str or None
        Where the image is, if that is known, for example the path of its file.
    sizes : (int, int) or None
        If other bytes follow an image: its size, and that of all bytes.
    """

    def __init__(
        self,
        reason: str,
        number: Optional[int] = None,
        place: Optional[str] = None,
        sizes: Optional[Tuple[int, int]] = None,
    ) -> None:
        super().__init__(reason, number, place, sizes)
        self.reason, self.number, self.place, self.sizes = reason, number, place, sizes

    def at(self, number: Optional[int], place: Optional[str] = None) -> ImageError:
        """Return this error with the number or the place of the image."""
        return ImageError(self.reason, number, place, self.sizes)

    def __str__(self) -> str:
        which = "image" if self.number is None else f"images[{self.number}]"
        if self.place is not None:
            which = f"{shown(self.place)}: image"
        return f"{which} is rejected: {explained(self.reason, self.sizes)}"

    def __reduce__(self) -> Tuple[type, Tuple[Any, ...]]:
        return type(self), (self.reason, self.number, self.place, self.sizes)


class PrecisionError(HllError, ValueError):
    """Sketches have different ``lg_k``, and no ``lg_max_k`` says at which one to merge them.

    Attributes
    ----------
    lg_k : int
        The ``lg_k`` of the sketch that was to be merged.
    other_lg_k : int
        The ``lg_k`` of the sketch or union that it was to be merged with.
    number : int or None
        The index of the sketch, if several were given.
    place : str or None
        Where the sketch is, if that is known, for example the path of its file.
    """

    def __init__(
        self,
        lg_k: int,
        other_lg_k: int,
        number: Optional[int] = None,
        place: Optional[str] = None,
        cure: str = "lg_max_k={least} merges them",
    ) -> None:
        super().__init__(lg_k, other_lg_k, number, place, cure)
        self.lg_k, self.other_lg_k, self.number, self.place = lg_k, other_lg_k, number, place
        self._cure = cure

    def at(self, number: Optional[int], place: Optional[str] = None) -> PrecisionError:
        """Return this error with the number or the place of the sketch."""
        return type(self)(self.lg_k, self.other_lg_k, number, place, self._cure)

    def __str__(self) -> str:
        which = "the sketch" if self.number is None else f"sketches[{self.number}]"
        cure = self._cure.format(least=min(self.lg_k, self.other_lg_k))
        return f"{self.place or which} has lg_k {self.lg_k} and not {self.other_lg_k}: {cure}"


class DatabaseError(HllError):
    """A database of sketches can't be used.

    Attributes
    ----------
    path : str
        The file.
    words : str
        What is wrong.
    status : int
        The status with which a command ends: 1 if the file was read and is rejected, and otherwise 2.
    """

    def __init__(self, path: str, words: str, status: int = 1) -> None:
        super().__init__(path, words, status)
        self.path, self.words, self.status = path, words, status

    def __str__(self) -> str:
        return f"{shown(self.path)}: {self.words}"


class FilesError(HllError, ValueError):
    """Files were rejected, so no union was made.

    Attributes
    ----------
    refused : list of (str, str)
        The path of each file, and why it was rejected.
    """

    def __init__(self, refused: List[Tuple[str, str]]) -> None:
        super().__init__(refused)
        self.refused = refused

    def __str__(self) -> str:
        path, reason = self.refused[0]
        more = len(self.refused) - 1
        return f"{shown(path)}: {reason}" + (f" (and {more:,} files more)" if more else "")
