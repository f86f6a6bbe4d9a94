# SPDX-License-Identifier: Apache-2.0
"""Missing values: ``None``, NaN, and what pandas and NumPy use for them."""
from __future__ import annotations

import math
import struct
from typing import Any, List

from ._errors import ArgumentError

_NAMES = ("NoneType", "NAType", "NaTType", "MaskedConstant")
_PLAIN = {int, str, bytes, bool}
_NAN = struct.pack("<d", math.nan)


def _is_missing(value: Any) -> bool:
    """Returns whether a value is missing."""
    if type(value).__name__ in _NAMES:
        return True
    try:
        return bool(value != value)
    except (TypeError, ValueError):     # of an array, say, which is no value at all
        return False


class MissingError(ArgumentError):
    """A value is missing. ``number`` is its position."""

    def __init__(self, number: int, words: str) -> None:
        super().__init__(number, words)
        self.number, self.words = number, words

    def __str__(self) -> str:
        return self.words


def _refusal(number: int, value: object) -> MissingError:
    cure = "pass skip_missing=True to leave missing values out"
    return MissingError(number, f"values[{number}] is missing ({value!r}): {cure}")


class Missing:
    """What is done about missing values: they are skipped, or raise an error."""

    def __init__(self, skips: bool) -> None:
        self.skips = skips

    def without(self, values: List[Any], start: int) -> List[Any]:
        """Yields the values that are not missing. The first value has the number ``start``."""
        kinds = set(map(type, values))
        if kinds <= _PLAIN or kinds == {float} and not math.isnan(sum(values)):
            return values
        if self.skips:
            return [value for value in values if not _is_missing(value)]
        for number, value in enumerate(values, start):
            if _is_missing(value):
                raise _refusal(number, value)
        return values

    def without_nan(self, eights: bytes, start: int) -> bytes:
        """Returns floats, eight bytes each as they are hashed, without NaN."""
        at = eights.find(_NAN)
        while at >= 0 and at % 8:
            at = eights.find(_NAN, at + 1)
        if at < 0:
            return eights
        if not self.skips:
            raise _refusal(start + at // 8, math.nan)
        pieces = (eights[at : at + 8] for at in range(0, len(eights), 8))
        return b"".join(piece for piece in pieces if piece != _NAN)
