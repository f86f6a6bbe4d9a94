# SPDX-License-Identifier: Apache-2.0
"""Lines as values, or as keys and values: whole lines, columns, CSV, and JSON lines. This is the one reader of lines."""
from __future__ import annotations

import csv
import json
import os
import sys
from contextlib import contextmanager
from itertools import chain, compress
from operator import itemgetter, methodcaller, not_
from typing import Any, Callable, Dict, FrozenSet, Iterable, Iterator, List, NamedTuple, Optional
from typing import Sequence, Tuple, Union

from . import _splitter
from ._names import shown
from ._splitter import LONGEST_KEY, Columns, Counts, Key, Rows, Splitter
from ._values import bytes_of_int
from .files import Trouble
from .inputs import NOTHING, blocks_of, called

RECORDS = 1 << 17
"""The records of CSV that are read at a time."""

LONGEST_LINE = 1 << 26
"""The most bytes of a line, unless another number is given."""

WHOLE, COLUMNS, CSV, JSON = range(4)
"""How values are found: a value is a whole line, a column between separators, a column of CSV with a header, or a
member of a JSON object."""

class LineError(Exception):
    """A line can't be counted.

    Attributes
    ----------
    number : int
        The number of the line, from 1.
    words : str
        What is wrong, the same for all lines of this kind: the end of a sentence that begins with the line.
    more : str
        What is wrong with this line.
    can_be_skipped : bool
        Whether ``skip_bad`` leaves such lines out.
    """

    def __init__(self, number: int, words: str, more: str = "", can_be_skipped: bool = False) -> None:
        super().__init__(number, words, more, can_be_skipped)
        self.number, self.words, self.more, self.can_be_skipped = number, words, more, can_be_skipped


class Part(NamedTuple):
    """A part of the key: its name, its column, and how many of its first characters count (0: all)."""

    name: str
    column: str
    length: int = 0


class Batch(NamedTuple):
    """Some lines: the key of each, its value, and its number. There are no keys where none were asked for. A value
    is bytes, or an int."""

    keys: List[Key]
    values: List[Any]
    numbers: Sequence[int]

    def only(self, which: Sequence[bool]) -> Batch:
        """Returns the lines for which ``which`` is true."""
        keys, values, numbers = (list(compress(some, which)) for some in self)
        return Batch(keys, values, numbers)


class Layout(NamedTuple):
    """How lines are read.

    Attributes
    ----------
    form : int
        ``WHOLE``, ``COLUMNS``, ``CSV`` or ``JSON``.
    value : str
        The column of the value: a number from 1, or with CSV and JSON also a name. Not used if a value is a line.
    parts : tuple of Part
        The parts of the key, in their order; none for one sketch.
    separator : bytes
        What is between two columns: with CSV one ASCII character, otherwise any bytes but an LF.
    missing : frozenset of bytes
        The values that are left out. A null of JSON always is.
    are_ints : bool
        Whether a value is a decimal 64-bit integer and counts as an ``int``. Otherwise it counts as a string.
    skip_bad : bool
        Whether lines that can't be counted are left out. Otherwise the first of them is an error.
    skip_empty_key : bool
        Whether lines are left out in whose key a part is empty.
    is_raw : bool
        Whether the bytes of inputs are read as they are (``blocks_of``).
    longest : int
        The most bytes of a line, without its LF.
    """

    form: int = WHOLE
    value: str = "1"
    parts: Tuple[Part, ...] = ()
    separator: bytes = b"\t"
    missing: FrozenSet[bytes] = frozenset()
    are_ints: bool = False
    skip_bad: bool = False
    skip_empty_key: bool = False
    is_raw: bool = False
    longest: int = LONGEST_LINE


class Sums:
    """What was read: numbers of lines.

    Attributes
    ----------
    lines, counted : int
        All lines, and those whose value was counted.
    missing, empty_keys : int
        Lines without a value, and lines that were left out as a part of their key is empty.
    ending_in_cr : int
        Counted strings, or last parts of keys, that end in a CR, which is a part of them.
    bad : dict
        For each kind of bad lines that were left out: their number, and the first of them.
    """

    def __init__(self) -> None:
        self.lines = self.counted = self.missing = self.empty_keys = self.ending_in_cr = 0
        self.bad: Dict[str, Tuple[int, str]] = {}

    @property
    def left_out(self) -> int:
        """The number of lines that were left out."""
        return self.missing + self.empty_keys + sum(count for count, _ in self.bad.values())

    def said(self) -> Iterator[str]:
        """Yields what is said of lines that were left out, and of those that end in a CR."""
        of = f"of {self.lines:,} lines"
        if self.missing:
            yield f"left out {self.missing:,} {of}: no value"
        if self.empty_keys:
            yield f"left out {self.empty_keys:,} {of}: a part of the key is empty"
        for words, (count, first) in self.bad.items():
            yield f"left out {count:,} {of}: each {words} (the first: {first})"
        if self.ending_in_cr:
            yield f"{self.ending_in_cr:,} lines end in a CR, which counts as a part of them"


# ---- lines


def chunks_of(blocks: Iterable[bytes], longest: int = LONGEST_LINE) -> Iterator[bytes]:
    """Yields lines in chunks: those that end in each block, with an LF between two.

    Bytes after the last LF are a line too. A line may be longer than a block, and is kept until its end, or until it
    is longer than ``longest``: then what there is of it is the last chunk.
    """
    begun: List[bytes] = []
    size = 0
    for block in blocks:
        end = block.rfind(b"\n")
        if end >= 0:
            yield b"".join([*begun, block[:end]])
            begun, size = [], 0
        begun.append(block[end + 1 :])
        size += len(begun[-1])
        if size > longest:
            break
    last = b"".join(begun)
    if last:
        yield last


def lines_of(blocks: Iterable[bytes], longest: int = LONGEST_LINE) -> Iterator[List[bytes]]:
    """Yields lines in lists, each without its LF (``chunks_of``).

    Raises
    ------
    LineError
        If a line is longer than ``longest``.
    """
    count = 0
    for chunk in chunks_of(blocks, longest):
        lines = chunk.split(b"\n")
        _check_lengths(lines, count, longest)
        count += len(lines)
        yield lines


def _too_long(number: int, longest: int) -> LineError:
    return LineError(number, f"is longer than {longest:,} bytes (--longest-line changes this)")


def _check_lengths(lines: List[bytes], before: int, longest: int) -> None:
    """Raises an error if one of these lines, which follow others, is too long."""
    if max(map(len, lines)) > longest:
        raise _too_long(before + next(n for n, line in enumerate(lines, 1) if len(line) > longest), longest)


def int_of(line: bytes) -> int:
    """Returns the integer of a string. Spaces around it and a CR are ignored.

    Raises
    ------
    ValueError
        If it is no integer.
    OverflowError
        If it has more than 64 bits.
    """
    if b"_" in line:
        raise ValueError
    number = int(line)
    bytes_of_int(number)
    return number


def is_int(line: bytes) -> bool:
    """Returns whether a string is a 64-bit integer."""
    try:
        int_of(line)
    except (ValueError, OverflowError):
        return False
    return True


def excerpt(line: bytes) -> str:
    """Returns the first bytes of a line, for an error."""
    return shown(line[:40].decode("utf-8", "replace"))


def _cut(part: bytes, length: int) -> bytes:
    """Returns the first characters of a part of a key."""
    if len(part) <= length:
        return part
    return part[:length] if part.isascii() else os.fsencode(part.decode("utf-8", "surrogateescape")[:length])


def _fits(key: Key) -> bool:
    """Returns whether each part of a key is short enough, and has no NUL."""
    whole = b"".join(key)
    return b"\0" not in whole and (len(whole) <= LONGEST_KEY or max(map(len, key)) <= LONGEST_KEY)


_ends_in_cr: Callable[[bytes], bool] = methodcaller("endswith", b"\r")

SHORT = "has too few columns"

_BAD_KEY = f"has a key with a NUL, or with a part of more than {LONGEST_KEY:,} bytes"


# ---- columns


def _separator_name(separator: bytes) -> str:
    """Returns the separator as an error shows it."""
    return "TAB" if separator == b"\t" else f"'{excerpt(separator)}'"


def number_of(column: str) -> Optional[int]:
    """Returns the place of a column that is a number from 1, or None."""
    is_number = column.isascii() and column.isdigit() and 0 < int(column) <= 1 << 20
    return int(column) - 1 if is_number else None


def _place_in(header: List[str], option: str, column: str) -> int:
    """Returns the place of a column that is named, or numbered from 1."""
    if header.count(column) == 1:
        return header.index(column)
    number = number_of(column)
    if column not in header and number is not None and number < len(header):
        return number
    has = "two columns" if column in header else "no column"
    listed = ", ".join(map(shown, header[:20])) + (", .." if len(header) > 20 else "")
    raise LineError(1, f"is the header, and has {has} {shown(column)} ({option}), but: {listed}")


def _texts(lines: Iterable[bytes]) -> Iterator[str]:
    """Yields lines for the module ``csv``, which reads strings: with their LF, and a character for each byte."""
    for line in lines:
        yield line.decode("latin-1") + "\n"


def _records(reader: Any) -> Iterator[Tuple[int, int, Union[List[str], csv.Error]]]:
    """Yields the records of CSV, and errors in place of some: each with the number of its first line, and the number
    of lines. Empty lines are no records."""
    while True:
        before = reader.line_num
        try:
            record = next(reader)
        except StopIteration:
            return
        except csv.Error as error:
            yield before + 1, reader.line_num - before, error
            continue
        if record:
            yield before + 1, reader.line_num - before, record


def _encoded(picked: List[Any]) -> List[Any]:
    """Returns strings with a character for each byte as these bytes: one for each row, or several."""
    if picked and isinstance(picked[0], str):
        return [one.encode("latin-1") for one in picked]
    return [tuple([one.encode("latin-1") for one in row]) for row in picked]


def _members(line: bytes, names: Sequence[str]) -> Any:
    """Returns the members of a JSON object as strings: those of the key, and then the value, or the value alone. A member
    that is null or that it lacks is empty in the key, and None as the value.

    Raises
    ------
    ValueError, RecursionError
        If the line is no object, or a member is neither a string, an integer nor null.
    """
    one = json.loads(line.decode("utf-8"))
    if not isinstance(one, dict):
        raise ValueError
    some = [one.get(name) for name in names]
    if any(type(value) not in (str, int, type(None)) for value in some):
        raise ValueError
    *parts, value = [None if one is None else str(one).encode("utf-8") for one in some]
    return (*(part or b"" for part in parts), value) if parts else value


# ---- inputs


class Reader:
    """Reads inputs, one after another.

    Attributes
    ----------
    sums : Sums
        What was read so far.
    """

    def __init__(self, layout: Layout) -> None:
        self.layout, self.sums = layout, Sums()
        self._name = ""
        self._missing: FrozenSet[Any] = layout.missing | {None} if layout.form == JSON else layout.missing

    def batches(self, name: str, more: Callable[[int], None] = lambda size: None) -> Iterator[Batch]:
        """Yields the lines of an input (``blocks_of``) that count, some at a time.

        Parameters
        ----------
        more : callable
            Called with the number of bytes of each block of the input.

        Raises
        ------
        Trouble
            If the input can't be read or isn't text, or if a line can't be counted and bad lines aren't left out.
        """
        layout = self.layout
        with self._reading(name):
            lines = lines_of(blocks_of(name, layout.is_raw, more), layout.longest)
            for batch in (self._whole, self._columns, self._csv, self._json)[layout.form](lines):
                yield self._counted(batch)

    def sink(self, lg_k: int) -> Union[Splitter, Rows, None]:
        """Returns what ``add_to`` adds lines to, or None if lines of this layout are read in Python."""
        layout = self.layout
        if not _splitter.is_here() or layout.are_ints or layout.skip_empty_key or layout.form not in (WHOLE, COLUMNS):
            return None
        if layout.form == WHOLE:
            return Splitter(lg_k, layout.missing, layout.longest)
        if len(layout.separator) != 1 or layout.separator == b"\0":
            return None
        lengths = [part.length for part in layout.parts]
        columns = Columns(layout.separator, self._numbered(), lengths, layout.missing, layout.longest)
        return Rows(lg_k, len(layout.parts), columns)

    def add_to(self, sink: Union[Splitter, Rows], name: str, more: Callable[[int], None] = lambda size: None) -> Iterator[int]:
        """Adds the lines of an input that count to sketches, some at a time, and yields their numbers. Otherwise it is
        the same as ``batches``, which reads the chunks in which a line is unusual."""
        layout, before = self.layout, 0
        with self._reading(name):
            for chunk in chunks_of(blocks_of(name, layout.is_raw, more), layout.longest):
                counts = sink.add_chunk(chunk)
                if counts is not None:
                    before += counts.lines
                    yield self._summed(counts)
                    continue
                lines = chunk.split(b"\n")
                _check_lengths(lines, before, layout.longest)
                assert isinstance(sink, Rows)       # whole lines are unusual only if they are too long
                for batch in map(self._counted, self._columns([lines], before)):
                    sink.add(batch.keys, batch.values)
                    yield len(batch.values)
                before += len(lines)

    def _summed(self, counts: Counts) -> int:
        """Adds what was read to the sums. Returns the number of lines that count."""
        count = counts.lines - counts.missing
        self.sums.lines += counts.lines
        self.sums.missing += counts.missing
        self.sums.ending_in_cr += counts.ending_in_cr
        self.sums.counted += count
        return count

    @contextmanager
    def _reading(self, name: str) -> Iterator[None]:
        """Turns the error of a line into that of an input."""
        self._name = called(name)
        try:
            yield
        except LineError as error:
            more_words = error.more and f" ({error.more})"
            cure = " (--skip-bad leaves such lines out)" if error.can_be_skipped else ""
            words = f"line {error.number:,} {error.words}{more_words}: {NOTHING}{cure}"
            raise Trouble(self._name, words) from None

    def _refuse(self, number: int, words: str, more: str = "", lines: int = 1) -> None:
        """Leaves bad lines out, or raises their error."""
        if not self.layout.skip_bad:
            raise LineError(number, words, more, True)
        count, first = self.sums.bad.get(words, (0, f"{shown(self._name)}, line {number:,}"))
        self.sums.bad[words] = count + lines, first

    # ---- forms

    def _whole(self, source: Iterable[List[bytes]]) -> Iterator[Batch]:
        """Yields lines as values."""
        before = 0
        for lines in source:
            self.sums.lines += len(lines)
            if b"\r" in b"\n".join(lines) and not self.layout.are_ints:
                self.sums.ending_in_cr += sum(map(_ends_in_cr, lines))
            yield Batch([], lines, range(before + 1, before + len(lines) + 1))
            before += len(lines)

    def _columns(self, source: Iterable[List[bytes]], before: int = 0) -> Iterator[Batch]:
        """Yields columns between separators, of lines that follow others."""
        places = self._numbered()
        split: Callable[[bytes], List[bytes]] = methodcaller(
            "split", self.layout.separator, max(places) + 1      # what follows these columns stays together
        )
        pick: Callable[[List[bytes]], Any] = itemgetter(*places)
        for lines in source:
            self.sums.lines += len(lines)
            numbers: Sequence[int] = range(before + 1, before + len(lines) + 1)
            before += len(lines)
            try:
                picked = list(map(pick, map(split, lines)))     # no list of a line is kept, which takes less time
            except IndexError:
                fields, numbers = self._long_enough(list(map(split, lines)), lines, numbers, places)
                picked = list(map(pick, fields))
            batch, whole = self._batch(picked, numbers), b"\n".join(lines)
            if b"\r" in whole:
                self.sums.ending_in_cr += sum(map(_ends_in_cr, batch.values))
            may_be_bad = b"\0" in whole or max(map(len, lines)) > LONGEST_KEY
            yield self._with_keys(batch) if may_be_bad or self.layout.skip_empty_key else batch

    def _long_enough(
        self, fields: List[List[bytes]], lines: List[bytes], numbers: Sequence[int], places: Sequence[int]
    ) -> Tuple[List[List[bytes]], List[int]]:
        """Returns the fields and the numbers of the lines that have all columns."""
        are_long = [len(one) > max(places) for one in fields]
        for at in compress(range(len(lines)), map(not_, are_long)):
            self._refuse(numbers[at], SHORT, self._shortage(places, fields[at], excerpt(lines[at])))
        return list(compress(fields, are_long)), list(compress(numbers, are_long))

    def _csv(self, source: Iterable[List[bytes]]) -> Iterator[Batch]:
        """Yields columns of CSV."""
        layout = self.layout
        csv.field_size_limit(min(layout.longest, sys.maxsize))
        lines = _texts(chain.from_iterable(source))
        reader = csv.reader(lines, delimiter=layout.separator.decode("latin-1"), strict=True)
        places = self._places_in(reader)
        pick: Callable[[List[str]], Any] = itemgetter(*places)
        picked: List[Any] = []
        numbers: List[int] = []
        for number, count, record in _records(reader):
            self.sums.lines += count
            if isinstance(record, csv.Error):
                self._refuse(number, "is not CSV", str(record), count)
            elif len(record) <= max(places):
                self._refuse(number, SHORT, self._shortage(places, record, ""))
            else:
                picked.append(pick(record))
                numbers.append(number)
            if len(picked) == RECORDS:
                yield self._with_keys(self._batch(_encoded(picked), numbers))
                picked, numbers = [], []
        yield self._with_keys(self._batch(_encoded(picked), numbers))

    def _json(self, source: Iterable[List[bytes]]) -> Iterator[Batch]:
        """Yields members of JSON objects."""
        names = [column for _, column in self._options()]
        before = 0
        for lines in source:
            self.sums.lines += len(lines)
            picked: List[Any] = []
            numbers: List[int] = []
            for number, line in enumerate(lines, before + 1):
                try:
                    if line.strip():
                        picked.append(_members(line, names))
                        numbers.append(number)
                except (ValueError, RecursionError):
                    self._refuse(number, "is no JSON object of strings and integers", excerpt(line))
            before += len(lines)
            yield self._with_keys(self._batch(picked, numbers))

    # ---- columns

    def _numbered(self) -> List[int]:
        """Returns the places of columns that are numbers."""
        return [number_of(column) or 0 for _, column in self._options()]

    def _options(self) -> List[Tuple[str, str]]:
        """Returns the columns that are read, each with its option: those of the key, and then the value."""
        return [*(("--key", part.column) for part in self.layout.parts), ("--value", self.layout.value)]

    def _shortage(self, places: Sequence[int], fields: Sequence[object], line: str) -> str:
        """Returns what a line lacks that has too few columns."""
        count = len(fields)
        (option, _), place = next(one for one in zip(self._options(), places) if one[1] >= count)
        shortage = f"{count:,}, and {option} is column {place + 1:,}"
        if count == 1 and self.layout.form == COLUMNS:
            shortage = f"no separator {_separator_name(self.layout.separator)}, which --separator changes"
        return f"{shortage}: {line}" if line else shortage

    def _places_in(self, reader: Iterator[List[str]]) -> List[int]:
        """Reads the header of CSV, and returns the places of the columns that are read."""
        try:
            header = next(reader, None)
        except csv.Error as error:
            raise LineError(1, f"is the header, and is not CSV: {error}") from None
        if header is None:
            raise LineError(1, "is missing, and is the header of CSV")
        names = [name.encode("latin-1").decode("utf-8", "replace") for name in header]
        return [_place_in(names, option, column) for option, column in self._options()]

    def _batch(self, picked: List[Any], numbers: Sequence[int]) -> Batch:
        """Returns lines of which the columns were picked: those of the key and then the value, or the value alone."""
        if not self.layout.parts:
            return Batch([], picked, numbers)
        keys, values = [row[:-1] for row in picked], [row[-1] for row in picked]
        lengths = [part.length for part in self.layout.parts]
        if any(lengths):
            keys = [tuple([_cut(part, length) if length else part for part, length in zip(key, lengths)]) for key in keys]
        return Batch(keys, values, numbers)

    # ---- which lines count

    def _counted(self, batch: Batch) -> Batch:
        """Returns the lines of a batch that count, and what they count as."""
        if not self._missing.isdisjoint(batch.values):
            batch = self._with_values(batch)
        if self.layout.are_ints:
            batch = self._as_ints(batch)
        self.sums.counted += len(batch.values)
        return batch

    def _with_values(self, batch: Batch) -> Batch:
        """Returns the lines whose value isn't missing."""
        found = batch.only([value not in self._missing for value in batch.values])
        self.sums.missing += len(batch.values) - len(found.values)
        return found

    def _with_keys(self, batch: Batch) -> Batch:
        """Returns the lines whose keys are accepted. Lines without a value are not asked for their keys."""
        if not batch.keys:
            return batch
        if not self._missing.isdisjoint(batch.values):
            batch = self._with_values(batch)
        keys = set(batch.keys)
        bad = {key for key in keys if not _fits(key)}
        for number in (number for number, key in zip(batch.numbers, batch.keys) if bad and key in bad):
            self._refuse(number, _BAD_KEY)
        empty = {key for key in keys if b"" in key} if self.layout.skip_empty_key else set()
        left_out = bad | empty
        if not left_out:
            return batch
        self.sums.empty_keys += sum(map((empty - bad).__contains__, batch.keys))
        return batch.only([key not in left_out for key in batch.keys])

    def _as_ints(self, batch: Batch) -> Batch:
        """Returns lines with their values as integers."""
        try:
            return batch._replace(values=list(map(int_of, batch.values)))
        except (ValueError, OverflowError):
            are_good = list(map(is_int, batch.values))
        words = "is no integer of 64 bits" if self.layout.form == WHOLE else "has a value that is no integer of 64 bits"
        for number, value in compress(zip(batch.numbers, batch.values), map(not_, are_good)):
            self._refuse(number, words, excerpt(value))
        return self._as_ints(batch.only(are_good))
