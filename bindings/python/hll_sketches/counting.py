# SPDX-License-Identifier: Apache-2.0
"""Inputs of lines as sketches: one of all values, or one for each key."""
from __future__ import annotations

import time
from collections import defaultdict
from itertools import chain
from typing import TYPE_CHECKING, Any, Callable, DefaultDict, Dict, Iterator, List, Optional, Sequence, Tuple, Union

from . import _library, _splitter
from ._splitter import Key, Rows, Splitter
from ._values import bytes_of_int, joined
from .files import UNUSABLE, Trouble
from .inputs import NOTHING
from .lines import Batch as Lines
from .lines import Reader
from .progress import InputBar

if TYPE_CHECKING:
    import sqlite3

    from .database import Row, Settings

KEY_BYTES = 520
"""The memory that a key needs in Python in addition to its own bytes and to what its counter allocates."""

Sink = Union[Splitter, Rows]


def image_of(reader: Reader, names: Sequence[str], lg_k: int) -> bytes:
    """Returns the 8-bit image of the values of inputs. Lines are split in C where that can be done."""
    sink = reader.sink(lg_k)
    if sink is not None:
        _add_all(reader, names, sink)
        return sink.image()
    counter, are_ints = _library.new_counter(lg_k), reader.layout.are_ints
    with InputBar(names) as bar:
        for name in names:
            for batch in reader.batches(name, bar.read):
                if are_ints:
                    _library.add_to_counter(counter, *joined(batch.values))
                else:
                    _library.add_pieces_to_counter(counter, batch.values)
                bar.counted_lines(len(batch.values))
    return _library.image_of_counter(counter, 8)


def _add_all(reader: Reader, names: Sequence[str], sink: Sink, more: Callable[[], None] = lambda: None) -> None:
    """Adds the lines of inputs to sketches in C. ``more`` is called now and then."""
    with InputBar(names) as bar:
        for name in names:
            for count in reader.add_to(sink, name, bar.read):
                bar.counted_lines(count)
                more()


def _is_text(part: bytes) -> bool:
    """Returns whether a part of a key is UTF-8."""
    if part.isascii():
        return True
    try:
        part.decode("utf-8")
    except UnicodeDecodeError:
        return False
    return True


def _order_of(key: Key) -> List[Tuple[bool, bytes]]:
    """Returns what sorts keys as SQLite does: text before other bytes."""
    return [(not _is_text(part), part) for part in key]


class _Counters:
    """Sketches by key, in Python: what ``Rows`` is in C."""

    def __init__(self, lg_k: int) -> None:
        self._lg_k = lg_k
        self.clear()

    def clear(self) -> None:
        """Removes all keys."""
        self._counters: Dict[Key, _library.Counter] = {}
        self._bytes = 0

    @property
    def size(self) -> int:
        """The bytes in memory."""
        return self._bytes

    def add(self, keys: Sequence[Key], values: Sequence[bytes]) -> None:
        """Adds values to the sketches of their keys, those of a key together."""
        groups: DefaultDict[Key, List[bytes]] = defaultdict(list)
        for key, value in zip(keys, values):
            groups[key].append(value)
        for key, some in groups.items():
            counter = self._counters.get(key)
            if counter is None:
                counter = self._counters[key] = _library.new_counter(self._lg_k)
                self._bytes += sum(map(len, key)) + KEY_BYTES
            before = counter.room
            _library.add_pieces_to_counter(counter, some)
            self._bytes += counter.room - before

    def keys(self) -> List[Key]:
        """Returns the keys, in the order in which they came."""
        return list(self._counters)

    def images(self, numbers: Sequence[int], width: int) -> Iterator[bytes]:
        """Yields the images of keys, which are numbered as ``keys`` returns them."""
        counters = list(self._counters.values())
        for number in numbers:
            yield _library.image_of_counter(counters[number], width)


class Keyed:
    """Sketches by key: in memory, and in a temporary database once they need more memory than is allowed.

    Parameters
    ----------
    settings : Settings
        The names of the parts of a key, and the ``lg_k`` and the width of all sketches.
    reader : Reader
        Reads the lines.
    memory : int
        The most bytes of memory for the sketches.
    """

    def __init__(self, settings: Settings, reader: Reader, memory: int) -> None:
        self._settings, self._reader, self._most = settings, reader, memory
        self._sink = reader.sink(settings.lg_k)
        self._some: Union[Rows, _Counters] = self._store()
        self._rest: Optional[sqlite3.Connection] = None

    def _store(self) -> Union[Rows, _Counters]:
        """Returns what has the sketches in memory: what lines in C are added to, or what batches are."""
        if isinstance(self._sink, Rows):
            return self._sink
        lg_k = self._settings.lg_k
        return Rows(lg_k, len(self._settings.keys)) if _splitter.is_here() else _Counters(lg_k)

    def read(self, names: Sequence[str]) -> None:
        """Adds the values of inputs to the sketches of their keys."""
        if self._sink is not None:
            _add_all(self._reader, names, self._sink, self._bound)
            return
        with InputBar(names) as bar:
            for name in names:
                for batch in self._reader.batches(name, bar.read):
                    self._add(batch)
                    bar.counted_lines(len(batch.values))

    def _add(self, lines: Lines) -> None:
        """Adds values to the sketches of their keys."""
        values = list(map(bytes_of_int, lines.values)) if self._reader.layout.are_ints else lines.values
        self._some.add(lines.keys, values)
        self._bound()

    def _bound(self) -> None:
        """Moves the sketches if they need too much memory."""
        if self._some.size > self._most:
            self._move()

    def _in_memory(self) -> Iterator[Row]:
        """Yields the sketches in memory, in the order of their keys."""
        from .database import stored

        keys = self._some.keys()
        orders: Sequence[Any] = keys
        if not all(map(_is_text, chain.from_iterable(keys))):
            orders = [_order_of(key) for key in keys]
        numbers = sorted(range(len(keys)), key=orders.__getitem__)
        for number, image in zip(numbers, self._some.images(numbers, self._settings.width)):
            yield (*map(stored, keys[number]), image)

    def _move(self) -> None:
        """Moves the sketches in memory to the temporary database."""
        import sqlite3

        from .database import temporary, upsert

        try:
            if self._rest is None:
                self._rest = temporary(self._settings)
            with self._rest:
                self._rest.executemany(upsert("sketches", self._settings.keys, False), self._in_memory())
        except sqlite3.Error as error:
            cure = "SQLITE_TMPDIR names another directory, and --memory keeps more in memory"
            raise Trouble("temporary file", f"{error}: {NOTHING} ({cure})", UNUSABLE) from None
        self._some.clear()

    def rows(self) -> Iterator[Row]:
        """Yields the keys in ascending order, each with its image."""
        from .database import columns_of

        if self._rest is None:
            yield from self._in_memory()
            return
        self._move()
        yield from self._rest.execute(f"SELECT * FROM sketches ORDER BY {columns_of(self._settings.keys)}")


def say_sums(reader: Reader, inputs: int, begun: float, verbose: bool, say: Callable[[str], None], keys: Optional[int] = None) -> None:
    """Reports the lines that were left out, and with ``--verbose`` what was counted."""
    for words in reader.sums.said():
        say(words)
    if verbose:
        of_keys = "" if keys is None else f", {keys:,} keys"
        files = "1 input" if inputs == 1 else f"{inputs:,} inputs"
        seconds = time.monotonic() - begun
        say(f"counted {reader.sums.counted:,} of {reader.sums.lines:,} lines of {files}{of_keys}, in {seconds:.1f} s")
