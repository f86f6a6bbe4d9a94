# SPDX-License-Identifier: Apache-2.0
"""Inputs of lines: files and standard input, decompressed, and checked to be text."""
from __future__ import annotations

import io
import os
from contextlib import contextmanager
from functools import partial
from importlib import import_module
from itertools import chain
from typing import Any, Callable, Dict, Iterable, Iterator, NamedTuple, Optional

from ._names import shown
from .files import STANDARD, UNUSABLE, Trouble, read_up_to

BLOCK = 1 << 20
"""The number of bytes that are read, or decompressed, at a time."""

BEGIN = 4096
"""The number of first bytes that show whether an input is text."""

_MARK = b"\xef\xbb\xbf"
"""The byte order mark of UTF-8, which is skipped."""

_IMAGES = tuple(bytes([ints, 1, 7]) for ints in (2, 3, 10))

NOTHING = "nothing was counted"


class _Packed(NamedTuple):
    """A kind of compressed data: how it begins, its name, the module of Python that reads it, the module's error for
    damaged data if it has one, and a command that prints what is inside."""

    begin: bytes
    name: str
    module: str
    error: str
    command: str


_PACKED = (
    _Packed(b"\x1f\x8b", "gzip", "zlib", "error", "zcat"),
    _Packed(b"\xfd7zXZ\0", "xz", "lzma", "LZMAError", "xzcat"),
    _Packed(b"BZh", "bzip2", "bz2", "", "bzcat"),
)

_OTHERS = (
    (b"\x28\xb5\x2f\xfd", "zstd", "zstdcat{} | hll .."),
    (b"\x04\x22\x4d\x18", "lz4", "lz4cat{} | hll .."),
    (b"\x1f\x9d", "of compress", "uncompress -c{} | hll .."),
    (b"PK\3\4", "a zip file", "unzip -p{} | hll .."),
    (b"PAR1\x15", "Parquet", "read it in Python, and pass a column to update_many"),
    (b"SQLite format 3\0", "an SQLite database", "sqlite3{} 'SELECT ..' | hll .."),
    (b"\xff\xfe\0\0", "UTF-32", "iconv -f UTF-32 -t UTF-8{} | hll .."),
    (b"\0\0\xfe\xff", "UTF-32", "iconv -f UTF-32 -t UTF-8{} | hll .."),
    (b"\xff\xfe", "UTF-16", "iconv -f UTF-16 -t UTF-8{} | hll .."),
    (b"\xfe\xff", "UTF-16", "iconv -f UTF-16 -t UTF-8{} | hll .."),
)
"""How other data begins, what it is, and a command that makes text of it."""


def called(name: str) -> str:
    """Returns the name of an input in messages."""
    return "standard input" if name == STANDARD else name


# ---- compressed data


class _Gzip:
    """Reads one member of gzip, in the form of the classes of ``lzma`` and ``bz2``."""

    def __init__(self, module: Any) -> None:
        self._one = module.decompressobj(31)
        self.needs_input = True

    @property
    def eof(self) -> bool:
        return bool(self._one.eof)

    @property
    def unused_data(self) -> bytes:
        return bytes(self._one.unused_data)

    def decompress(self, data: bytes, most: int) -> bytes:
        made: bytes = self._one.decompress(self._one.unconsumed_tail + data, most)
        self.needs_input = len(made) < most
        return made


_MAKERS: Dict[str, Callable[[Any], Any]] = {
    "gzip": _Gzip,
    "xz": lambda module: module.LZMADecompressor(),
    "bzip2": lambda module: module.BZ2Decompressor(),
}
"""What makes an object that decompresses one part, from the module."""


def _decompressed(make: Callable[[], Any], source: Iterable[bytes]) -> Iterator[bytes]:
    """Yields what is inside compressed data. Several parts may follow one another, and zeros may follow each.

    Raises
    ------
    EOFError
        If the data ends inside a part.
    """
    one: Any = None
    for rest in source:
        while True:
            if one is None:
                rest = rest.lstrip(b"\0")
                if not rest:
                    break
                one = make()
            yield one.decompress(rest, BLOCK)
            if one.eof:
                rest, one = one.unused_data, None
            elif one.needs_input:
                break
            else:
                rest = b""
    if one is not None:
        raise EOFError


def _unpacked(name: str, packed: _Packed, source: Iterable[bytes]) -> Iterator[bytes]:
    """Yields what is inside an input that is compressed."""
    cure = f"{NOTHING} ({packed.command}{_argument(name)} | hll ..)"
    try:
        module = import_module(packed.module)
    except ImportError:
        words = f"it is {packed.name}, and this Python has no module {packed.module}"
        raise Trouble(called(name), f"{words}: {cure}", UNUSABLE) from None
    damaged = getattr(module, packed.error) if packed.error else ()
    try:
        yield from _decompressed(lambda: _MAKERS[packed.name](module), source)
    except damaged as error:
        raise _damaged(name, error) from None


def _damaged(name: str, error: Exception) -> Trouble:
    """Returns the error for compressed data that is wrong."""
    return Trouble(called(name), f"its compressed data is damaged ({error}): {NOTHING}")


# ---- what an input is


def _argument(name: str) -> str:
    """Returns an input as the argument of a command."""
    return "" if name == STANDARD else " " + shown(name)


def _other(name: str, what: str, command: str) -> Trouble:
    """Returns the error for an input that is not text."""
    cure = f" ({command.format(_argument(name))}; --raw counts its lines as they are)"
    return Trouble(called(name), f"it is {what}, and not text: {NOTHING}{cure}")


def _check_text(name: str, begin: bytes) -> None:
    """Raises an error for an input whose first bytes are not text."""
    for magic, what, command in _OTHERS:
        if begin.startswith(magic):
            raise _other(name, what, command)
    if begin.startswith(_IMAGES):
        raise Trouble(called(name), f"it is a sketch, and not text: {NOTHING} (hll merge merges sketches)")
    if b"\0" in begin:
        words = f"it has a NUL in its first {BEGIN:,} bytes, so it is not text: {NOTHING}"
        raise Trouble(called(name), f"{words} (--raw counts its lines as they are)")


def _packed_of(begin: bytes) -> Optional[_Packed]:
    """Returns how an input is compressed."""
    for packed in _PACKED:
        if begin.startswith(packed.begin) and (packed.name != "bzip2" or begin[4:10] == b"1AY&SY"):
            return packed
    return None


def _text(name: str, source: Iterator[bytes], packed: Optional[_Packed]) -> Iterator[bytes]:
    """Yields the blocks of a text, without its byte order mark, once its first bytes are found to be text. It may
    be what is inside compressed data."""
    begin = b""
    for block in source:
        begin += block
        if len(begin) >= BEGIN:
            break
    inside = _packed_of(begin)
    if inside is not None and packed is not None:
        words = f"it is compressed twice, and has {inside.name} inside"
        raise Trouble(called(name), f"{words}: {NOTHING} ({packed.command}{_argument(name)} | hll ..)")
    _check_text(name, begin[:BEGIN])
    yield begin[len(_MARK) :] if begin.startswith(_MARK) else begin
    yield from source


# ---- reading


@contextmanager
def _reported(name: str) -> Iterator[None]:
    """Turns errors of the system and of compressed data into those of an input."""
    try:
        yield
    except EOFError:
        raise Trouble(called(name), f"it ends inside its compressed data: {NOTHING}") from None
    except OSError as error:
        if error.errno is None:         # the error of bz2
            raise _damaged(name, error) from None
        raise Trouble(called(name), error.strerror or str(error), UNUSABLE) from None
    except ValueError:
        raise Trouble(called(name), "no name of a file", UNUSABLE) from None


def _opened(name: str) -> io.FileIO:
    """Opens an input."""
    return io.FileIO(os.dup(0) if name == STANDARD else name, "rb")


def _raw_blocks(stream: io.FileIO, more: Callable[[int], None]) -> Iterator[bytes]:
    """Yields the bytes of an input, in blocks."""
    for block in iter(partial(stream.read, BLOCK), b""):
        yield block
        more(len(block))


def blocks_of(
    name: str, is_raw: bool = False, more: Callable[[int], None] = lambda size: None
) -> Iterator[bytes]:
    """Yields the bytes of an input in blocks: those of a file, or of standard input (``-``).

    Parameters
    ----------
    is_raw : bool
        Whether the bytes are yielded as they are. Otherwise data that gzip, xz or bzip2 has compressed is
        decompressed, a byte order mark is skipped, and other bytes than text are an error.
    more : callable
        Called with the number of bytes of each block, as the input has it, once it was used.

    Raises
    ------
    Trouble
        If the input can't be read, is not text, or is damaged or incomplete compressed data. Blocks may have
        been yielded before.
    """
    with _reported(name), _opened(name) as stream:
        source = _raw_blocks(stream, more)
        if is_raw:
            yield from source
            return
        begin = read_up_to(stream.read, BEGIN)
        more(len(begin))
        packed = _packed_of(begin)
        whole: Iterator[bytes] = chain([begin], source)
        if packed is not None:
            whole = _unpacked(name, packed, whole)
        yield from _text(name, whole, packed)
