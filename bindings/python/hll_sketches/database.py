# SPDX-License-Identifier: Apache-2.0
"""Sketches by key in an SQLite database (docs/FORMAT.md, "Databases")."""
from __future__ import annotations

import errno
import os
import sqlite3
from contextlib import contextmanager
from datetime import date
from itertools import groupby
from typing import Any, Dict, Iterable, Iterator, List, NamedTuple, Optional, Sequence, Tuple
from typing import Union
from zlib import crc32

from . import _library
from ._errors import ArgumentError, DatabaseError, HllError, ImageError, PrecisionError, explained
from ._names import shown
from .files import UNUSABLE, is_nothing, target_of
from .sketch import Sketch

APPLICATION, VERSION = 0x484C4C53, 1
"""The numbers ``application_id`` and ``user_version`` of a database of sketches."""

OLDEST = 3, 24, 0
"""The oldest SQLite that has an upsert."""

PATIENCE, FOREVER = 60.0, 2e6
"""The seconds that are waited for another process that writes. SQLite has no longer time than 24 days."""

CACHE = 256 << 10
"""The KB of pages that are kept until the end of a transaction. Pages that don't fit are written before its end, and
lock readers out from then on."""

BATCH = 1 << 26
"""The bytes of images that wait to be merged."""

Part = Union[str, bytes]
Key = Tuple[Part, ...]
"""A key: the values of its columns. A value that is not UTF-8 is bytes."""

Row = Tuple[Any, ...]
"""The values of a key, or of expressions, and then an image."""


class Settings(NamedTuple):
    """What is the same for all sketches of a database: the columns of its keys, ``lg_k`` and width."""

    keys: Tuple[str, ...]
    lg_k: int
    width: int


def quoted(name: str) -> str:
    """Returns a name as an identifier of SQL."""
    return '"' + name.replace('"', '""') + '"'


def columns_of(names: Iterable[str]) -> str:
    """Returns names as a list of columns."""
    return ", ".join(map(quoted, names))


def _why_not_opened(path: str) -> str:
    """Returns why SQLite can't open a file, which it doesn't say."""
    folder = os.path.dirname(os.path.abspath(path))
    if os.path.isdir(path) or not os.path.isdir(folder):
        return os.strerror(errno.EISDIR if os.path.isdir(path) else errno.ENOENT)
    if not os.access(path if os.path.exists(path) else folder, os.R_OK):
        return os.strerror(errno.EACCES)
    return "it can't be opened, or no journal can be made in its directory"


def _what_else(path: str) -> str:
    """Returns what a file is that is no database."""
    with open(path, "rb") as stream:
        is_sketch = stream.read(3)[1:] == b"\1\7"
    if is_sketch:
        return "it is one sketch, and not a database of keys (hll add FILE, hll estimate FILE)"
    return "it is no SQLite database"


def checksum_of(row: Sequence[Any]) -> int:
    """Returns the checksum of a row: the CRC-32 of each value of its key with a NUL after it, and of its image."""
    *key, image = row
    try:
        begin = ("\0".join(key) + "\0").encode("utf-8")
    except TypeError:       # a part is bytes
        begin = b"".join([(part.encode("utf-8") if isinstance(part, str) else part) + b"\0" for part in key])
    return crc32(image, crc32(begin))


def merged(settings: Settings, images: Sequence[bytes]) -> bytes:
    """Returns the union of images of a database."""
    if len(images) == 1:
        return images[0]
    if len(images) == 2:
        return _library.merge(settings.lg_k, settings.width, *images)
    return _library.union(settings.lg_k, settings.width, images)


def order_of(key: Sequence[Any]) -> List[Tuple[bool, bool, Any]]:
    """Returns what sorts values as SQLite does: NULL, then text, then bytes."""
    return [(value is not None, isinstance(value, bytes), value) for value in key]


# ---- SQL


def _schema(settings: Settings) -> List[str]:
    """Returns the statements that make the tables."""
    columns = ", ".join(f"{quoted(name)} TEXT NOT NULL" for name in settings.keys)
    check = f"typeof(image) = 'blob' AND length(image) >= 8 AND substr(image, 4, 1) = x'{settings.lg_k:02x}'"
    same = " AND ".join(f"{name} = new.{name}" for name in map(quoted, settings.keys))
    return [
        "CREATE TABLE hll_settings (name TEXT PRIMARY KEY, value INTEGER NOT NULL) WITHOUT ROWID",
        f"CREATE TABLE sketches ({columns}, image BLOB NOT NULL CHECK ({check}), checksum INTEGER, "
        f"PRIMARY KEY ({columns_of(settings.keys)})) WITHOUT ROWID",
        "CREATE TRIGGER hll_changed AFTER UPDATE OF image ON sketches "
        "WHEN new.checksum IS old.checksum AND new.image IS NOT old.image "
        f"BEGIN UPDATE sketches SET checksum = NULL WHERE {same}; END",
    ]


def _objects_in(connection: sqlite3.Connection) -> List[Row]:
    """Returns the definitions of the tables, and of what runs when they change."""
    return connection.execute(
        "SELECT type, name, sql FROM sqlite_master WHERE type IN ('table', 'view', 'trigger') "
        "AND (tbl_name IN ('sketches', 'hll_settings') OR name IN ('sketches', 'hll_settings')) ORDER BY type, name"
    ).fetchall()


def _is_right(connection: sqlite3.Connection, settings: Settings) -> bool:
    """Returns whether the tables are those that this module makes."""
    other = sqlite3.connect(":memory:")
    try:
        for statement in _schema(settings):
            other.execute(statement)
        return _objects_in(other) == _objects_in(connection)
    finally:
        other.close()


def upsert(table: str, keys: Sequence[str], has_checksum: bool) -> str:
    """Returns the statement that merges a row into a table."""
    columns, both = columns_of(keys), "hll_merge(image, excluded.image)"
    values = ", ".join("?" * (len(keys) + 1 + has_checksum))
    also = f", checksum = hll_checksum({columns}, {both})" if has_checksum else ""
    return f"INSERT INTO {table} VALUES ({values}) ON CONFLICT ({columns}) DO UPDATE SET image = {both}{also}"


def week(day: Any) -> Optional[str]:
    """Returns the ISO week of a day, such as ``2026-W45``, and None if it is no day."""
    try:
        return "%d-W%02d" % tuple(date.fromisoformat(str(day)[:10]).isocalendar())[:2]
    except ValueError:
        return None


def month(day: Any) -> Optional[str]:
    """Returns the month of a day, such as ``2026-11``, and None if it is no day."""
    return None if week(day) is None else str(day)[:7]


def temporary(settings: Settings) -> sqlite3.Connection:
    """Returns a temporary database on the disk, for rows of keys and images without checksums."""
    connection = sqlite3.connect("")
    connection.create_function("hll_merge", 2, lambda *both: merged(settings, both), deterministic=True)
    columns = columns_of(settings.keys)
    connection.execute("PRAGMA synchronous = OFF")
    connection.execute(f"CREATE TABLE sketches ({columns}, image, PRIMARY KEY ({columns})) WITHOUT ROWID")
    return connection


class _Functions:
    """The functions of SQL, in Python.

    Attributes
    ----------
    error : HllError or None
        The last error, which SQLite replaces by one of its own.
    """

    def __init__(self) -> None:
        self.error: Optional[Exception] = None
        self.settings = Settings((), 12, 8)         # until those of the file are read
        self._both: Tuple[bytes, bytes] = b"", b""
        self._union = b""

    def merge(self, one: bytes, other: bytes) -> bytes:
        """Returns the union of two images. The last one is kept, as its checksum is asked for next."""
        if one == other:
            return one
        if self._both != (one, other):
            try:
                self._union = merged(self.settings, (one, other))
            except (HllError, MemoryError) as error:
                self.error = error
                raise
            self._both = one, other
        return self._union

    def checksum(self, *row: Any) -> int:
        return checksum_of(row)

    def estimate(self, image: bytes) -> float:
        try:
            return _library.estimation(image).estimate
        except (HllError, MemoryError) as error:
            self.error = error
            raise


class _Union:
    """The aggregate ``hll_image_union_agg``. A class with an attribute ``functions`` is derived for each connection."""

    functions: _Functions

    def __init__(self) -> None:
        self._images: List[bytes] = []
        self._size = 0

    def step(self, image: bytes) -> None:
        self._images.append(image)
        self._size += len(image)
        if self._size > BATCH:
            self._images, self._size = [self.finalize()], 0

    def finalize(self) -> bytes:
        try:
            return merged(self.functions.settings, self._images)
        except (HllError, MemoryError) as error:
            self.functions.error = error
            raise


EXTENSION = "HLL_SKETCHES_EXTENSION"
"""The environment variable with the path of the extension for SQLite."""


def _has_extension(connection: sqlite3.Connection) -> bool:
    """Loads the extension for SQLite, whose functions are faster, where it is named and can be loaded."""
    path = os.environ.get(EXTENSION)
    if not path or not hasattr(connection, "enable_load_extension"):
        return False
    connection.enable_load_extension(True)
    try:
        connection.load_extension(path)
    finally:
        connection.enable_load_extension(False)
    return True


# ---- databases


class Database:
    """A database with a sketch for each key: an SQLite file.

    Parameters
    ----------
    path : str or path
        The file.
    keys : sequence of str, optional
        The names of the columns of a key. A file that doesn't exist is made if they are given. A file that exists has
        to have these.
    lg_k, width : int, optional
        Those of all sketches: 4 to 21, and 4, 6 or 8. Of a new file 12 and 8. A file that exists has to have these.
    wait : bool
        Whether a call waits for as long as another process writes. Otherwise it waits for a minute.

    Attributes
    ----------
    path : str
        The file.
    keys : tuple of str
        The names of the columns of a key.
    lg_k, width : int
        Those of all sketches.

    Raises
    ------
    DatabaseError
        If the file can't be read or made, is not such a database, or has other keys, another ``lg_k`` or another width.

    Any number of processes may use a file at once. One object is for one thread, and not for a child of ``os.fork``.
    """

    def __init__(
        self,
        path: Union[str, os.PathLike[str]],
        keys: Optional[Sequence[str]] = None,
        lg_k: Optional[int] = None,
        width: Optional[int] = None,
        wait: bool = False,
    ) -> None:
        self.path = os.fspath(path)
        self._wait, self._functions = wait, _Functions()
        is_new = is_nothing(self.path)
        if is_new and keys is None:
            is_there = os.path.exists(self.path)
            raise DatabaseError(self.path, *(("it is empty", 1) if is_there else (os.strerror(errno.ENOENT), UNUSABLE)))
        if sqlite3.sqlite_version_info < OLDEST:
            raise DatabaseError(self.path, f"SQLite {sqlite3.sqlite_version} is too old: 3.24 is needed", UNUSABLE)
        if is_new:
            settings = _checked(self.path, Settings(tuple(keys or ()), lg_k or 12, width or 8))
        with self._reported():
            self._connection = self._connected(is_new)
        try:
            with self._reported():
                if is_new:
                    self._make(settings)
                self._functions.settings = self._settings()
            self.keys, self.lg_k, self.width = self._functions.settings
            self._compare(tuple(keys) if keys else None, lg_k, width)
        except BaseException:
            self.close()
            raise

    def close(self) -> None:
        """Closes the file."""
        self._connection.close()

    def __enter__(self) -> Database:
        return self

    def __exit__(self, *_: object) -> None:
        self.close()

    def __repr__(self) -> str:
        return f"Database({self.path!r}, keys={list(self.keys)}, lg_k={self.lg_k}, width={self.width})"

    def __len__(self) -> int:
        """Returns the number of keys."""
        with self._reported():
            return int(self._connection.execute("SELECT count(*) FROM sketches").fetchone()[0])

    # ---- opening

    def _connected(self, is_new: bool) -> sqlite3.Connection:
        """Opens the file. A reader opens it to write, too, as it may have to roll back what a killed process wrote."""
        try:
            path = target_of(self.path)
        except OSError as error:
            raise DatabaseError(self.path, error.strerror or str(error), UNUSABLE) from None
        escaped = path.replace("%", "%25").replace("?", "%3f").replace("#", "%23")
        uri = f"file:{escaped}?mode={'rwc' if is_new else 'rw'}"
        connection = sqlite3.connect(
            uri, timeout=FOREVER if self._wait else PATIENCE, isolation_level=None, uri=True, check_same_thread=True
        )
        self.has_extension = _has_extension(connection)
        functions = self._functions
        connection.create_function("week", 1, week, deterministic=True)
        connection.create_function("month", 1, month, deterministic=True)
        connection.create_function("hll_checksum", -1, functions.checksum, deterministic=True)
        if not self.has_extension:
            connection.create_function("hll_merge", 2, functions.merge, deterministic=True)
            connection.create_function("hll_estimate", 1, functions.estimate, deterministic=True)
            aggregate = type("Union", (_Union,), {"functions": functions})
            connection.create_aggregate("hll_image_union_agg", 1, aggregate)
        for pragma in ("trusted_schema = OFF", "cell_size_check = ON", "query_only = ON"):
            connection.execute(f"PRAGMA {pragma}")
        return connection

    def _make(self, settings: Settings) -> None:
        """Makes the tables, unless another process has just made them."""
        self._connection.execute("PRAGMA query_only = OFF")
        self._connection.execute("PRAGMA page_size = 4096")     # larger pages waste room for images of registers
        self._connection.execute("BEGIN IMMEDIATE")
        try:
            if not self._connection.execute("SELECT count(*) FROM sqlite_master").fetchone()[0]:
                for statement in _schema(settings):
                    self._connection.execute(statement)
                numbers = ("lg_k", settings.lg_k), ("width", settings.width)
                self._connection.executemany("INSERT INTO hll_settings VALUES (?, ?)", numbers)
                self._connection.execute(f"PRAGMA application_id = {APPLICATION}")
                self._connection.execute(f"PRAGMA user_version = {VERSION}")
            self._connection.execute("COMMIT")
        finally:
            if self._connection.in_transaction:
                self._connection.execute("ROLLBACK")
            self._connection.execute("PRAGMA query_only = ON")

    def _settings(self) -> Settings:
        """Returns what is the same for all sketches, once the tables are found to be ours."""
        execute = self._connection.execute
        if execute("PRAGMA application_id").fetchone()[0] != APPLICATION:
            raise DatabaseError(self.path, "it is an SQLite database, but not one that hll made")
        version = execute("PRAGMA user_version").fetchone()[0]
        if version != VERSION:
            raise DatabaseError(self.path, f"its format has the number {version}, and this version reads {VERSION}")
        rows = execute("PRAGMA table_info(sketches)").fetchall()
        keys = tuple(row[1] for row in sorted(rows, key=lambda row: int(row[5])) if row[5])
        has_settings = execute("PRAGMA table_info(hll_settings)").fetchall()
        numbers = dict(execute("SELECT name, value FROM hll_settings").fetchall()) if has_settings else {}
        found = Settings(keys, numbers.get("lg_k", 0), numbers.get("width", 0))
        if not keys or found.lg_k not in range(4, 22) or found.width not in (4, 6, 8) or not _is_right(self._connection, found):
            raise DatabaseError(self.path, "its tables are not those that hll makes, or something runs when they change")
        return found

    def _compare(self, keys: Optional[Tuple[str, ...]], lg_k: Optional[int], width: Optional[int]) -> None:
        """Raises an error for a file with other settings than those that are asked for."""
        wanted = (("keys", self.keys, keys, ""), ("lg_k", self.lg_k, lg_k, ": hll fold changes it"),
                  ("width", self.width, width, ": hll convert changes it"))
        for what, mine, other, cure in wanted:
            if other is not None and other != mine:
                raise DatabaseError(self.path, f"it has {what} {_listed(mine)}, and not {_listed(other)}{cure}")

    # ---- errors

    @contextmanager
    def _reported(self) -> Iterator[None]:
        """Turns errors of SQLite into those of the file."""
        self._functions.error = None
        try:
            yield
        except sqlite3.Error as error:
            raise self._trouble(error) from None

    def _trouble(self, error: sqlite3.Error) -> Exception:
        """Returns the error of the file for one of SQLite."""
        inner, words, status = self._functions.error, str(error), UNUSABLE
        if isinstance(inner, MemoryError):
            return inner
        if isinstance(inner, ImageError):
            words, status = f"a sketch in it is rejected: {explained(inner.reason)} (hll check names it)", 1
        elif "file is not a database" in words:
            words, status = _what_else(self.path), 1
        elif "unable to open" in words:
            words = _why_not_opened(self.path)
        elif "locked" in words:
            words = f"another process has been writing it for {PATIENCE:.0f} seconds: nothing was changed " \
                "(--wait waits for as long as it takes)"
        elif "readonly" in words and os.path.exists(self.path + "-journal"):
            words = "a process was killed while it wrote this file: a command of a user who may write it rolls that back"
        elif "readonly" in words:
            words = "it is read-only"
        elif isinstance(error, sqlite3.IntegrityError) and "CHECK" in words:
            words, status = f"an image is not one of lg_k {self.lg_k}", 1
        return DatabaseError(self.path, words, status)

    # ---- reading

    def select(self, what: str, where: Optional[str] = None, parameters: Sequence[Any] = (), more: str = "") -> Iterator[Row]:
        """Yields rows of expressions of SQL.

        Raises
        ------
        DatabaseError
            If an expression is wrong, or the file can't be read.
        """
        which = f" WHERE ({where}\n)" if where else ""
        with self._reported():
            try:
                rows = self._connection.execute(f"SELECT {what} FROM sketches{which}{more}", tuple(parameters))
            except (sqlite3.OperationalError, sqlite3.Warning, sqlite3.ProgrammingError) as error:
                raise self._wrong_expression(error) from None
            yield from rows

    def _wrong_expression(self, error: Exception) -> Exception:
        """Returns the error for an expression."""
        words = str(error)
        if any(word in words for word in ("no such column", "syntax error", "no such function", "incomplete input")):
            return DatabaseError(self.path, f"{words} (its columns: {', '.join(self.keys)})", UNUSABLE)
        if isinstance(error, sqlite3.OperationalError):
            return self._trouble(error)
        return DatabaseError(self.path, words, UNUSABLE)

    def rows(self, where: Optional[str] = None, parameters: Sequence[Any] = ()) -> Iterator[Row]:
        """Yields the values of each key and its image, in ascending order."""
        names = columns_of(self.keys)
        return self.select(f"{names}, image", where, parameters, f" ORDER BY {names}")

    def unions(self, by: Sequence[str], where: Optional[str] = None, parameters: Sequence[Any] = ()) -> Iterator[Row]:
        """Yields the values of some expressions in ascending order, each with the union of its rows."""
        columns = list(map(quoted, self.keys))
        if list(by) == columns:
            yield from self.rows(where, parameters)
            return
        groups = ", ".join(by)
        start = f"{groups}, " if by else ""
        if self.has_extension and by:
            more = f" GROUP BY {groups} ORDER BY {groups}"
            yield from self.select(f"{start}hll_image_union_agg(image)", where, parameters, more)
            return
        yield from self._grouped(self.select(f"{start}image", where, parameters))

    def _grouped(self, rows: Iterable[Row]) -> Iterator[Row]:
        """Yields the union of the rows with the same values, in the order of these values."""
        groups: Dict[Key, List[bytes]] = {}
        size = 0
        for *key, image in rows:
            groups.setdefault(tuple(key), []).append(image)
            size += len(image)
            if size > BATCH:
                size = 0
                groups = {one: [self._merged(one, images)] for one, images in groups.items()}
        for one in sorted(groups, key=order_of):
            yield (*one, self._merged(one, groups[one]))

    def _merged(self, key: Key, images: Sequence[bytes]) -> bytes:
        """Returns the union of images."""
        try:
            return merged(self._functions.settings, images)
        except ImageError as error:
            raise self.rejected(key, error) from None

    def rejected(self, key: Key, error: ImageError) -> DatabaseError:
        """Returns the error for an image."""
        if not key:
            return DatabaseError(self.path, f"a sketch in it is rejected: {explained(error.reason)} (hll check names it)")
        return DatabaseError(self.path, f"a sketch of {shown_key(key)} is rejected: {explained(error.reason)}")

    def items(self, where: Optional[str] = None, parameters: Sequence[Any] = ()) -> Iterator[Tuple[Key, Sketch]]:
        """Yields the keys in ascending order, each with its sketch. Other processes can't write until all are yielded, or
        the iterator is closed.

        Parameters
        ----------
        where : str, optional
            An expression of SQL on the columns of the key, such as ``"day >= '2026-11-01'"``: which keys.
        parameters : sequence
            The values of ``?`` in it.
        """
        return self._sketches(self.rows(where, parameters))

    def union(
        self, by: Sequence[str] = (), where: Optional[str] = None, parameters: Sequence[Any] = ()
    ) -> Iterator[Tuple[Key, Sketch]]:
        """Yields the values of some columns in ascending order, each with the union of its sketches.

        Parameters
        ----------
        by : sequence of str
            Names of columns, or expressions of SQL, such as ``["week(day)", "country"]``. Without any, there is one
            union of all sketches, with the key ``()``, unless there are no keys.
        where, parameters
            As for ``items``.
        """
        expressions = [quoted(name) if name in self.keys else name for name in by]
        return self._sketches(self.unions(expressions, where, parameters))

    def _sketches(self, rows: Iterable[Row]) -> Iterator[Tuple[Key, Sketch]]:
        """Yields the sketches of rows."""
        for *key, image in rows:
            try:
                yield tuple(key), Sketch.from_bytes(image)
            except ImageError as error:
                raise self.rejected(tuple(key), error) from None

    # ---- writing

    @contextmanager
    def writing(self) -> Iterator[sqlite3.Connection]:
        """Makes changes, all or none. They begin once no other process writes."""
        execute = self._connection.execute
        with self._reported():
            execute("PRAGMA query_only = OFF")
            execute(f"PRAGMA cache_size = -{CACHE}")
            try:
                execute("BEGIN IMMEDIATE")
                yield self._connection
                execute("COMMIT")
            finally:
                if self._connection.in_transaction:
                    execute("ROLLBACK")
                execute("PRAGMA query_only = ON")

    def merge_rows(self, rows: Iterable[Row]) -> None:
        """Merges images into those of their keys, all or none. A row has the values of a key, and an image of the
        database's ``lg_k`` and width."""
        with self.writing() as connection:
            self.merge_into(connection, rows)

    def merge_into(self, connection: sqlite3.Connection, rows: Iterable[Row]) -> None:
        """Merges images in a transaction that has begun."""
        connection.executemany(upsert("sketches", self.keys, True), ((*row, checksum_of(row)) for row in rows))

    def update(self, pairs: Iterable[Tuple[Sequence[Part], Sketch]]) -> None:
        """Merges sketches into those of their keys, all or none.

        Parameters
        ----------
        pairs : iterable of (key, Sketch)
            A key is a sequence of strings, or bytes for a value that is not UTF-8, one for each column.

        Raises
        ------
        PrecisionError
            If a sketch has another ``lg_k``.
        ArgumentError
            If a key has another number of values, or a value is neither a string nor bytes.
        DatabaseError
            If the file can't be written.
        """
        rows = [self._row(key, sketch) for key, sketch in pairs]
        rows.sort(key=lambda row: order_of(row[:-1]))
        self.merge_rows(rows)

    def _row(self, key: Sequence[Part], sketch: Sketch) -> Row:
        """Returns a pair of ``update`` as a row."""
        is_one = isinstance(key, (str, bytes))
        if is_one or len(key) != len(self.keys) or not all(isinstance(part, (str, bytes)) for part in key):
            raise ArgumentError(f"a key is {len(self.keys)} strings, {_listed(self.keys)}, and not {key!r}")
        if sketch.lg_k != self.lg_k:
            raise PrecisionError(sketch.lg_k, self.lg_k, place=shown_key(key), cure="fold it, or the database by hll fold")
        return (*map(stored, key), _library.convert(sketch.to_bytes(), self.width))

    def drop(self, where: str, parameters: Sequence[Any] = ()) -> int:
        """Removes keys, and returns their number. What they had is overwritten in the file.

        Parameters
        ----------
        where, parameters
            As for ``items``.
        """
        with self.writing() as connection:
            connection.execute("PRAGMA secure_delete = ON")
            try:
                return connection.execute(f"DELETE FROM sketches WHERE ({where}\n)", tuple(parameters)).rowcount
            except (sqlite3.OperationalError, sqlite3.Warning, sqlite3.ProgrammingError) as error:
                raise self._wrong_expression(error) from None

    # ---- checking

    def faults(self) -> Iterator[Tuple[str, str]]:
        """Yields what is wrong with the file: the reason, and a sentence. Of rows that another program changed the
        checksum is NULL, and isn't compared."""
        with self._reported():
            for words, in self._connection.execute("PRAGMA integrity_check(20)").fetchall():
                if words != "ok":
                    yield "database", f"SQLite finds it damaged: {shown(words)}"
                    return
        for *row, checksum in self.select(f"{columns_of(self.keys)}, image, checksum"):
            *key, image = row
            status = _library.check(image)
            if status != _library.OK:
                yield _library.WORDS[status], f"the sketch of {shown_key(key)}: {explained(_library.WORDS[status])}"
            elif _library.lg_k_in(image) != self.lg_k:
                yield "lgk", f"the sketch of {shown_key(key)} has lg_k {_library.lg_k_in(image)}, and not {self.lg_k}"
            elif checksum is not None and checksum != checksum_of(row):
                yield "checksum", f"the sketch of {shown_key(key)} or its key has changed: its checksum is another"


def _listed(value: object) -> object:
    """Returns names as a list in words."""
    return ", ".join(map(str, value)) if isinstance(value, (tuple, list)) else value


def stored(part: Part) -> Part:
    """Returns a value of a key as it is stored: bytes that are UTF-8 as a string."""
    if isinstance(part, str):
        part.encode("utf-8")
        return part
    try:
        return part.decode("utf-8")
    except UnicodeDecodeError:
        return part


def shown_key(key: Iterable[object]) -> str:
    """Returns a key for a message."""
    return "(" + ", ".join(shown(os.fsdecode(part) if isinstance(part, bytes) else str(part)) for part in key) + ")"


def _checked(path: str, settings: Settings) -> Settings:
    """Returns settings of a new file.

    Raises
    ------
    ArgumentError
        If they are out of range.
    """
    names = [name.lower() for name in settings.keys]
    if not names or "" in names or len(set(names)) < len(names) or {"image", "checksum"} & set(names) or "\0" in "".join(names):
        raise ArgumentError(f"{path}: keys are distinct names, and none is image or checksum, not {_listed(settings.keys)}")
    if settings.lg_k not in range(4, 22) or settings.width not in (4, 6, 8):
        raise ArgumentError(f"{path}: lg_k is 4 to 21, and a width is 4, 6 or 8")
    return settings


def merged_rows(sources: Sequence[Database]) -> Iterator[Row]:
    """Yields the keys of databases in ascending order, each with the union of its images."""
    from heapq import merge

    settings = Settings(sources[0].keys, sources[0].lg_k, sources[0].width)
    count = len(settings.keys)
    cursors = [source.rows() for source in sources]
    for _, rows in groupby(merge(*cursors, key=lambda row: order_of(row[:count])), key=lambda row: row[:count]):
        first, *more = rows
        key: Key = tuple(first[:count])
        try:
            yield (*key, merged(settings, [first[count], *(row[count] for row in more)]))
        except ImageError as error:
            raise sources[0].rejected(key, error) from None


