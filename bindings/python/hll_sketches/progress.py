# SPDX-License-Identifier: Apache-2.0
"""Progress on standard error, if that is a terminal: a bar of ``tqdm`` if it is installed, otherwise a line."""
from __future__ import annotations

import os
import stat
import sys
import time
from typing import Any, Iterable, Iterator, Optional, Sequence, TypeVar

T = TypeVar("T")
_Bar = TypeVar("_Bar", bound="Bar")

DELAY, PAUSE = 1.0, 0.5
"""The seconds before something is shown, and those between two changes of a line."""

CLEAR = "\r\033[K"
"""Goes to the beginning of the line of a terminal, and clears it."""


class _Line:
    """A line that says how much is done. It is written again now and then, and cleared at the end."""

    def __init__(self, unit: str, total: Optional[int]) -> None:
        self.unit, self.total = unit, total
        self._count, self._next, self._is_shown = 0, time.monotonic() + DELAY, False

    def _words(self) -> str:
        count, unit = self._count, "MB" if self.unit == "B" else f"{self.unit}s"
        size = 1_000_000 if self.unit == "B" else 1
        if not self.total:
            return f"{count // size:,} {unit}"
        return f"{count // size:,} of {self.total // size:,} {unit}, {100 * count // self.total} %"

    def update(self, count: int) -> None:
        self._count += count
        if time.monotonic() >= self._next:
            sys.stderr.write(f"{CLEAR}{self._words()}")
            sys.stderr.flush()
            self._next, self._is_shown = time.monotonic() + PAUSE, True

    def close(self) -> None:
        if self._is_shown:
            sys.stderr.write(CLEAR)
            sys.stderr.flush()


def is_terminal() -> bool:
    """Returns whether somebody can see standard error change."""
    return sys.stderr is not None and sys.stderr.isatty()


class Bar:
    """Shows how much is done, after the first second, and nothing if standard error isn't a terminal.

    Parameters
    ----------
    unit : str
        What is counted: ``"file"``, say, or ``"B"`` for bytes.
    total : int, optional
        The total number, if it is known.
    needs_tqdm : bool
        Whether nothing is shown without ``tqdm``.
    is_wanted : bool
        Whether anything is shown.
    """

    def __init__(
        self, unit: str, total: Optional[int] = None, needs_tqdm: bool = False, is_wanted: bool = True
    ) -> None:
        self._bar: Any = None
        if not (is_wanted and is_terminal()):
            return
        try:
            from tqdm import tqdm
        except ImportError:
            self._bar = None if needs_tqdm else _Line(unit, total)
            return
        tqdm.monitor_interval = 0  # without its thread, as processes may be started
        self._bar = tqdm(
            total=total, unit=unit, unit_scale=True, delay=DELAY, leave=False, file=sys.stderr
        )

    def counted(self, things: Iterable[T]) -> Iterator[T]:
        """Returns an iterator over things whose number is the total. If something is shown, all are read first."""
        if self._bar is None:
            return iter(things)
        found = list(things)
        self._bar.total = len(found)
        return iter(found)

    def more(self, count: int) -> None:
        """Reports that ``count`` more are done."""
        if self._bar is not None:
            self._bar.update(count)

    def __enter__(self: _Bar) -> _Bar:
        return self

    def __exit__(self, *_: object) -> None:
        if self._bar is not None:
            self._bar.close()


class InputBar(Bar):
    """Shows how much of inputs is read: bytes of files, whose sizes are known, and otherwise lines.

    Parameters
    ----------
    names : sequence of str
        The inputs; ``-`` is standard input.
    """

    def __init__(self, names: Sequence[str]) -> None:
        known = [size for size in map(_size_of, names) if size is not None]
        self._counts_bytes = len(known) == len(names)
        super().__init__("B" if self._counts_bytes else "line", sum(known) if self._counts_bytes else None)

    def read(self, size: int) -> None:
        """Reports that this number of bytes more is read."""
        if self._counts_bytes:
            self.more(size)

    def counted_lines(self, count: int) -> None:
        """Reports that this number of lines more is counted."""
        if not self._counts_bytes:
            self.more(count)


def _size_of(name: str) -> Optional[int]:
    """Returns how many bytes an input has, or None if that isn't known."""
    try:
        found = os.fstat(0) if name == "-" else os.stat(name)
    except (OSError, ValueError):
        return None
    if not stat.S_ISREG(found.st_mode):
        return None
    return max(found.st_size - os.lseek(0, 0, os.SEEK_CUR), 0) if name == "-" else found.st_size
