# SPDX-License-Identifier: Apache-2.0
"""The layout of an image (docs/FORMAT.md, "The image")."""
from __future__ import annotations

from typing import List, Literal, Tuple

from . import _library

DATABASE = b"SQLite format 3\0"
"""How an SQLite database begins, and no image."""

Stage = Literal["list", "set", "registers"]
"""The form of a sketch in an image."""

STAGES: Tuple[Stage, ...] = ("list", "set", "registers")

_FLAGS = ((4, "empty"), (8, "compact"), (16, "out of order"))


def size_of(image: bytes) -> int:
    """Returns the size of the image, as its header and its counts say.

    If these bytes are rejected, an image of this size is rejected for the same reason. No call looks
    at bytes after it.
    """
    return _library.head(image).size or _library.HEADER


def flags_of(image: bytes) -> List[str]:
    """Returns the names of the flags that are set."""
    flags = _library.head(image).flags
    return [name for bit, name in _FLAGS if flags & bit]


def is_empty(image: bytes) -> bool:
    """Returns whether a legal image has neither a coupon nor a register above 0. Its content is only read if
    its header and its counts don't say so."""
    head = _library.head(image)
    return not head.count and not head.minimum and _library.info(image).is_empty == 1


def _fields_of(facts: _library.Info) -> Tuple[int, int, int]:
    """Returns the estimator fields."""
    return facts.hip, facts.kxq0, facts.kxq1


def estimator_fields_of(image: bytes) -> str:
    """Returns what the estimator fields of an image are.

    ``"none"`` for a list or a set, ``"zero"``, ``"set"`` if they are the sums of 2^-v over the values
    v of the registers, and ``"other"`` for the fields of another program.
    """
    if STAGES[_library.head(image).stage] != "registers":
        return "none"
    facts = _library.info(image)
    if not any(_fields_of(facts)):
        return "zero"
    summed = _library.info(_library.set_estimator_fields(image))
    return "set" if _fields_of(facts) == _fields_of(summed) and facts.out_of_order else "other"


def registers_of(image: bytes, lg_k: int) -> bytes:
    """Returns the registers at the ``lg_k`` of the image or a smaller one, a byte each."""
    registers = bytearray(1 << lg_k)
    _library.merge_image(_library.place_of(memoryview(registers)), image)
    return bytes(registers)
