# SPDX-License-Identifier: Apache-2.0
"""The commands of ``hll`` on databases of keys. Each returns the exit status of the program."""
from __future__ import annotations

import errno
import json
import math
import os
import re
import sys
import time
from argparse import Namespace
from contextlib import suppress
from heapq import nsmallest
from itertools import chain, islice
from typing import Any, Callable, Dict, Iterable, Iterator, List, NamedTuple, Optional, Sequence, Tuple

from . import _library, counting
from ._errors import DatabaseError, ImageError
from ._names import shown
from .database import Database, Row, Settings, merged_rows, quoted
from .files import REFUSED, STANDARD, UNUSABLE, OutputTrouble, Trouble, check_output, is_nothing, write_file
from .inputs import NOTHING, blocks_of
from .lines import LineError, Part, Reader, lines_of
from .progress import Bar
from .tables import aligned

TOGETHER = 64
"""How many databases are read at the same time."""

Say = Callable[[object], None]


def parts_of(name: str) -> Optional[Tuple[Part, ...]]:
    """Returns the columns of the keys of a database as the columns of lines, or None if the file doesn't exist."""
    if is_nothing(name):
        return None
    return tuple(Part(key, key) for key in settings_of(name).keys)


# ---- what is printed


class Column(NamedTuple):
    """A column of what is printed: its name, and whether its cells are numbers."""

    name: str
    is_number: bool


def _cell(value: object) -> str:
    """Returns a value as it is printed on a line."""
    if value is None or value == "":
        return ""
    if isinstance(value, float):
        return f"{value:.0f}" if math.isfinite(value) else "infinite"
    return shown(os.fsdecode(value) if isinstance(value, bytes) else str(value))


def _member(value: object) -> object:
    """Returns a value as it is printed in JSON."""
    if isinstance(value, float) and not math.isfinite(value):
        return None
    return os.fsdecode(value) if isinstance(value, bytes) else value


def _put(text: str) -> None:
    """Writes text to standard output."""
    try:
        sys.stdout.write(text)
    except OSError as error:
        raise OutputTrouble(error) from None


def _put_json(names: Sequence[str], rows: Iterable[Row]) -> int:
    """Prints rows as a list of JSON objects, each on a line, and returns their number."""
    count = 0
    for count, row in enumerate(rows, 1):
        one = json.dumps({name: _member(value) for name, value in zip(names, row)})
        _put(("[\n  " if count == 1 else ",\n  ") + one)
    _put("\n]\n" if count else "[]\n")
    return count


def _put_table(columns: Sequence[Column], rows: Iterable[Row]) -> int:
    """Prints an aligned table, and returns the number of rows."""
    cells = [
        [f"{value:,.0f}" if isinstance(value, float) and math.isfinite(value) else _cell(value) for value in row]
        for row in rows
    ]
    names = [column.name for column in columns]
    for line in aligned(names, cells, [column.name for column in columns if column.is_number]) if cells else ():
        _put(line + "\n")
    return len(cells)


def put_estimates(options: Namespace, names: Sequence[str], found: Iterable[Tuple[Row, _library.Estimation]]) -> int:
    """Prints estimates with the values that they are for, and returns their number. With ``--top`` the largest are
    printed, the largest first."""
    deviations = options.deviations or (2 if options.bounds or options.json or options.table else 0)

    def rows() -> Iterator[Row]:
        for key, one in found:
            bounds = (one.lower[deviations - 1], one.upper[deviations - 1]) if deviations else ()
            yield (one.estimate, *bounds, *key)

    numbers = ["estimate", "lower", "upper"] if deviations else ["estimate"]
    some = rows() if options.top is None else nsmallest(options.top, rows(), key=lambda row: -float(row[0]))
    if options.json:
        return _put_json([*numbers, *names], some)
    if options.table:
        return _put_table([*(Column(name, True) for name in numbers), *(Column(name, False) for name in names)], some)
    count = 0
    for count, row in enumerate(some, 1):
        _put("\t".join(map(_cell, row)) + "\n")
    return count


# ---- lines


def count(options: Namespace, say: Say) -> int:
    """Prints the estimated number of distinct values of inputs, for all or for each key."""
    begun, inputs = time.monotonic(), options.inputs or [STANDARD]
    reader, names = Reader(options.layout), [part.name for part in options.layout.parts]
    if not names:
        image = counting.image_of(reader, inputs, options.lg_k)
        counting.say_sums(reader, len(inputs), begun, options.verbose, say)
        put_estimates(options, (), [((), _library.estimation(image))])
        return 0
    sketches = counting.Keyed(Settings(tuple(names), options.lg_k, 8), reader, options.memory)
    sketches.read(inputs)
    counting.say_sums(reader, len(inputs), begun, options.verbose, say)
    put_estimates(options, names, ((row[:-1], _library.estimation(row[-1])) for row in sketches.rows()))
    return 0


def add(options: Namespace, say: Say) -> int:
    """Adds the lines of inputs to the sketches of a database. They are read first, so the database is locked only
    while it is written."""
    begun, inputs = time.monotonic(), options.inputs or [STANDARD]
    names = tuple(part.name for part in options.layout.parts)
    lg_k, width = options.lg_k, options.width
    if not is_nothing(options.db):
        with Database(options.db, names, lg_k, width) as before:
            lg_k, width = before.lg_k, before.width
    else:
        check_output(options.db)
    reader = Reader(options.layout)
    sketches = counting.Keyed(Settings(names, lg_k or 12, width or 8), reader, options.memory)
    sketches.read(inputs)
    with Database(options.db, names, lg_k, width, options.wait) as database:
        keys = 0

        def rows() -> Iterator[Row]:
            nonlocal keys
            for keys, row in enumerate(sketches.rows(), 1):
                yield row

        database.merge_rows(rows())
    counting.say_sums(reader, len(inputs), begun, options.verbose, say, keys)
    if options.json:
        facts = {"output": options.db, "lines": reader.sums.counted, "left_out": reader.sums.left_out, "keys": keys}
        _put(json.dumps(facts, indent=2) + "\n")
    return 0


# ---- reading


_PIECE = re.compile(r"""'[^']*'|"[^"]*"|.""", re.DOTALL)
"""A string or a name in quotes, or another character, of SQL."""


def _listed(by: str) -> Iterator[str]:
    """Yields the expressions of a list, which commas divide, except in parentheses and in quotes."""
    depth, one = 0, ""
    for piece in _PIECE.findall(by):
        depth += (piece == "(") - (piece == ")")
        if piece == "," and depth == 0:
            yield one
            one = ""
        else:
            one += piece
    if by:
        yield one


def _expressions(database: Database, by: Optional[str]) -> Tuple[List[str], List[str]]:
    """Returns the names of columns, and their expressions."""
    if by is None:
        return list(database.keys), list(map(quoted, database.keys))
    names, expressions = [], []
    for one in _listed(by):
        name, has_expression, expression = one.partition("=")
        names.append(name)
        expressions.append(expression if has_expression else quoted(name) if name in database.keys else name)
    return names, expressions


def _estimations(database: Database, expressions: Sequence[str], where: Optional[str]) -> Iterator[Tuple[Row, _library.Estimation]]:
    """Yields the values of expressions with the estimates of their unions."""
    for *key, image in database.unions(expressions, where):
        try:
            yield tuple(key), _library.estimation(image)
        except ImageError as error:
            raise database.rejected(tuple(key), error) from None


def estimate(options: Namespace) -> int:
    """Prints the estimates of a database: for each key, or for what ``--by`` names."""
    with Database(options.files[0]) as database:
        names, expressions = _expressions(database, options.by)
        number = put_estimates(options, names, _estimations(database, expressions, options.where))
        if not number and options.where:
            raise Trouble(database.path, "no key is chosen")
    return 0


def picture(options: Namespace, title: str) -> str:
    """Returns a picture of the estimates of a database, with their bounds, as SVG."""
    from .bars import MOST, Bar, bars_svg

    with Database(options.file) as database:
        found = _estimations(database, _expressions(database, options.by)[1], options.where)
        bars = [Bar(" ".join(map(_cell, key)), one.estimate, one.lower[1], one.upper[1]) for key, one in found]
    if options.top is not None:
        bars = nsmallest(options.top, bars, key=lambda bar: -bar.estimate)
    if not bars:
        raise Trouble(options.file, "no key is chosen")
    if len(bars) > MOST:
        words = f"a picture has at most {MOST} bars, and these are {len(bars):,} keys (--by merges keys, and --top chooses some)"
        raise Trouble(options.file, words)
    return bars_svg(bars, title, 2)


def get(options: Namespace) -> int:
    """Writes the union of the sketches of some keys as a file."""
    check_output(options.output, options.force)
    with Database(options.db) as database:
        row = next(database.unions((), options.where), None)
    if row is None:
        raise Trouble(options.db, "no key is chosen" if options.where else "it has no keys")
    write_file(options.output, row[-1])
    return 0


def _text(part: object) -> object:
    """Returns a value of a key as ``dump`` prints it."""
    return {"bytes": part.hex()} if isinstance(part, bytes) else part


def dump(options: Namespace) -> int:
    """Prints all keys and sketches as lines of JSON, which are the same for equal databases."""
    with Database(options.db) as database:
        head: Dict[str, Any] = {"hll": 1, "keys": database.keys, "lg_k": database.lg_k, "width": database.width}
        _put(json.dumps(head) + "\n")
        for *key, image in database.rows(options.where):
            _put(json.dumps([*map(_text, key), image.hex()]) + "\n")
    return 0


def _loaded(number: int, line: bytes, settings: Settings) -> Row:
    """Returns the row of a line of ``dump``."""
    try:
        *key, image = json.loads(line)
        parts = [bytes.fromhex(part["bytes"]) if isinstance(part, dict) else part for part in key]
        row: Row = (*parts, bytes.fromhex(image))
        if len(key) != len(settings.keys) or not all(isinstance(part, (str, bytes)) for part in parts):
            raise ValueError
    except (ValueError, TypeError, KeyError, RecursionError):
        raise LineError(number, "is no line of hll dump") from None
    status = _library.check(row[-1])
    if status != _library.OK or _library.lg_k_in(row[-1]) != settings.lg_k:
        words = _library.WORDS[status] if status else f"lg_k {_library.lg_k_in(row[-1])}, and not {settings.lg_k}"
        raise LineError(number, f"has a sketch that is rejected ({words})")
    return (*parts, _library.convert(row[-1], settings.width))


def load(options: Namespace) -> int:
    """Merges the lines that ``dump`` prints into a database."""
    lines = chain.from_iterable(lines_of(blocks_of(STANDARD)))
    try:
        try:
            head = json.loads(next(lines, b""))
            settings = Settings(tuple(head["keys"]), head["lg_k"], head["width"])
        except (ValueError, TypeError, KeyError, RecursionError):
            raise LineError(1, "is no first line of hll dump") from None
        with Database(options.db, settings.keys, settings.lg_k, settings.width, options.wait) as database:
            database.merge_rows(_loaded(number, line, settings) for number, line in enumerate(lines, 2))
    except LineError as error:
        raise Trouble("standard input", f"line {error.number:,} {error.words}: {NOTHING}") from None
    return 0


# ---- writing


def _check_new(name: str, words: str) -> None:
    """Raises an error with these words if a database isn't new: it may have no keys, as one whose making failed."""
    if is_nothing(name):
        check_output(name)
        return
    with suppress(DatabaseError), Database(name) as database:
        if not len(database):
            return
    raise Trouble(name, words, UNUSABLE)


def _made(name: str, settings: Settings, rows: Iterable[Row]) -> int:
    """Fills a new database with rows, or leaves it without keys, and returns the number of keys. It isn't removed then:
    another process may just have opened it."""
    with Database(name, settings.keys, settings.lg_k, settings.width) as database:
        database.merge_rows(rows)
        return len(database)


def _together() -> int:
    """Returns how many databases are open at the same time. Each needs a descriptor."""
    import resource

    soft, _ = resource.getrlimit(resource.RLIMIT_NOFILE)
    return TOGETHER if soft == resource.RLIM_INFINITY else max(1, min(TOGETHER, soft - 24))


def _rows_of(names: Sequence[str]) -> Iterator[Row]:
    """Yields the rows of databases, some databases at a time: the keys of each some in ascending order."""
    source, count = iter(names), _together()
    while True:
        some = list(islice(source, count))
        if not some:
            return
        sources = [Database(name) for name in some]
        try:
            yield from merged_rows(sources)
        finally:
            for one in sources:
                one.close()


def merge(options: Namespace) -> int:
    """Merges databases key by key, into a new one or into one of them."""
    output, names = options.output, options.files
    is_there = os.path.exists(output)
    same = [name for name in names if is_there and os.path.samefile(name, output)]
    if not same:
        _check_new(output, "it exists: name it among the inputs to merge into it")
    settings: Optional[Settings] = None
    with Bar("file", len(names)) as bar:
        for name in names:
            found = settings_of(name)
            first = settings = settings or found
            if found[:2] != first[:2]:
                raise _other_settings(name, found, names[0], first)
            bar.more(1)
    assert settings is not None
    rest = [name for name in names if name not in same]
    if same:
        with Database(same[0], wait=options.wait) as database:
            rows = _rows_of(rest)
            database.merge_rows((*row[:-1], _library.convert(row[-1], database.width)) for row in rows)
            keys = len(database)
    else:
        width = options.width or settings.width
        converted = ((*row[:-1], _library.convert(row[-1], width)) for row in _rows_of(rest))
        keys = _made(output, settings._replace(width=width), converted)
    if options.json:
        _put(json.dumps({"output": output, "keys": keys, "merged": len(names)}, indent=2) + "\n")
    return 0


def settings_of(name: str) -> Settings:
    """Returns what is the same for all sketches of a database."""
    with Database(name) as database:
        return Settings(database.keys, database.lg_k, database.width)


def _other_settings(name: str, found: Settings, first_name: str, first: Settings) -> Trouble:
    """Returns the error for databases that can't be merged."""
    if found.keys != first.keys:
        has, others = ", ".join(found.keys), ", ".join(first.keys)
        return Trouble(name, f"it has the keys {has}, and {shown(first_name)} has {others}: nothing was merged")
    cure = f"hll fold --lg-k {min(found.lg_k, first.lg_k)} makes both alike"
    return Trouble(name, f"it has lg_k {found.lg_k}, and {shown(first_name)} has {first.lg_k}: {cure}")


def drop(options: Namespace, say: Say) -> int:
    """Removes keys."""
    with Database(options.db, wait=options.wait) as database:
        gone = database.drop(options.where)
        say(f"{gone:,} keys are removed, and {len(database):,} are left")
    return 0 if gone else REFUSED


def changed(
    options: Namespace, call: Callable[[bytes], bytes], lg_k: Optional[int] = None, width: Optional[int] = None
) -> int:
    """Writes a new database, at another ``lg_k`` or width, whose sketches are made of those of another."""
    _check_new(options.output, os.strerror(errno.EEXIST))
    with Database(options.file) as database:
        settings = Settings(database.keys, lg_k or database.lg_k, width or database.width)
        if settings.lg_k > database.lg_k:
            raise Trouble(database.path, f"its lg_k is {database.lg_k}, and a fold goes no higher")

        def rows() -> Iterator[Row]:
            for *key, image in database.rows():
                try:
                    yield (*key, call(image))
                except ImageError as error:
                    raise database.rejected(tuple(key), error) from None

        keys = _made(options.output, settings, rows())
    if options.json:
        facts = {"output": options.output, "keys": keys, "lg_k": settings.lg_k, "width": settings.width}
        _put(json.dumps(facts, indent=2) + "\n")
    return 0


def faults_of(name: str) -> Iterator[Tuple[str, str]]:
    """Yields what is wrong with a database: the reason, and a sentence."""
    try:
        with Database(name) as database:
            yield from database.faults()
    except DatabaseError as error:
        if error.status != REFUSED and "malformed" not in error.words and "not a database" not in error.words:
            raise
        yield "database", error.words
