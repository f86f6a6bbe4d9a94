# SPDX-License-Identifier: Apache-2.0
"""Finds files: by name, in directories, and by lists of names."""
from __future__ import annotations

import errno
import os
import stat
from typing import Callable, Iterable, Iterator, List, Optional, Tuple

from .files import OWN, PIECE, STANDARD, UNUSABLE, FoundName, Trouble, opened, unusable

LONGEST_NAME = 1 << 20
"""The most bytes of a name in a list."""

MOST_STEPS = 1000
"""The most directories that are gone up at once."""

_FILE, _FOLDER = "file", "folder"
_KINDS = {
    stat.S_IFDIR: "a directory",
    stat.S_IFIFO: "a FIFO",
    stat.S_IFSOCK: "a socket",
    stat.S_IFCHR: "a device",
    stat.S_IFBLK: "a device",
}

_FLAGS = os.O_RDONLY | getattr(os, "O_DIRECTORY", 0)

Tell = Callable[[Trouble], None]


# ---- directories


def _kind_behind(entry: os.DirEntry[str]) -> str:
    """Returns what an entry is that is neither a plain file nor a directory. A link to a file is a file."""
    is_link = entry.is_symlink()
    try:
        mode = entry.stat().st_mode
    except OSError as error:
        if is_link and error.errno in (errno.ENOENT, errno.ENOTDIR, errno.ELOOP):
            return "a link that leads nowhere"
        return _FILE  # reading it reports why not
    if stat.S_ISREG(mode):
        return _FILE
    what = _KINDS.get(stat.S_IFMT(mode), "no file")
    return f"a link to {what}" if is_link else what


def _kind_of(entry: os.DirEntry[str]) -> str:
    """Returns ``_FILE``, ``_FOLDER``, or the words for what is skipped."""
    if entry.is_file(follow_symlinks=False):
        return _FILE
    return _FOLDER if entry.is_dir(follow_symlinks=False) else _kind_behind(entry)


Entries = List[Tuple[str, str]]


def _entries(place: int) -> Entries:
    """Returns the names in a directory, in order, and what they are. Skips names that begin with a dot."""
    with os.scandir(place) as entries:
        seen = (entry for entry in entries if not entry.name.startswith("."))
        return sorted((entry.name, _kind_of(entry)) for entry in seen)


class _Folder:
    """A directory of a walk: its path, which directory it is, and what it still has, in reverse order."""

    def __init__(self, path: str, place: int) -> None:
        self.path, status = path, os.fstat(place)
        self._identity = status.st_dev, status.st_ino
        self.rest = _entries(place)[::-1]

    def is_at(self, place: int) -> bool:
        """Returns whether an open directory is this one."""
        status = os.fstat(place)
        return (status.st_dev, status.st_ino) == self._identity


class _Walk:
    """The directories from the first one down to the present one, which alone is open. So a walk needs few
    open files, and each directory is opened from the one above it, however long its path is."""

    def __init__(self) -> None:
        self._above: List[_Folder] = []
        self._place: Optional[int] = None
        self._level = 0     # of the directory that is open, which may be below the present one

    def enter(self, path: str, name: str) -> None:
        """Opens a directory in the present one, or the first directory by its path."""
        if not self._above:
            place = opened(path, _FLAGS)
        else:
            self._return()
            place = os.open(name, _FLAGS | os.O_NOFOLLOW | OWN, dir_fd=self._place)
        try:
            folder = _Folder(path, place)
        except BaseException:
            os.close(place)
            raise
        self._above.append(folder)
        self._open(place)

    def _open(self, place: int) -> None:
        self.close()
        self._place, self._level = place, len(self._above)

    def _return(self) -> None:
        """Opens the present directory again after directories below it: by their links to the directory above, or by
        its path if that doesn't lead there, as somebody moved a directory."""
        present = self._above[-1]
        while self._place is not None and self._level > len(self._above):
            steps = min(self._level - len(self._above), MOST_STEPS)
            try:
                above = os.open("/".join([".."] * steps), _FLAGS | OWN, dir_fd=self._place)
            except OSError:
                self.close()
                break
            os.close(self._place)
            self._place, self._level = above, self._level - steps
        if self._place is None or not present.is_at(self._place):
            self._open(opened(present.path, _FLAGS))

    def next(self) -> Optional[Tuple[str, str, str]]:
        """Returns the path, the name and the kind of what comes next, or None at the end."""
        while self._above:
            present = self._above[-1]
            if present.rest:
                name, kind = present.rest.pop()
                return os.path.join(present.path, name), name, kind
            self._above.pop()
        return None

    def close(self) -> None:
        if self._place is not None:
            os.close(self._place)
            self._place = None


def _walked(folder: str, refuse: Tell, pass_over: Tell) -> Iterator[str]:
    """Yields the files in a directory and its subdirectories, in the order of their names."""
    walk, path, name, kind = _Walk(), folder, folder, _FOLDER
    try:
        while True:
            if kind == _FILE:
                yield FoundName(path)
            elif kind != _FOLDER:
                pass_over(Trouble(path, f"{kind} (passed over)"))
            else:
                try:
                    walk.enter(path, name)
                except OSError as error:
                    refuse(unusable(path, error))
            following = walk.next()
            if following is None:
                return
            path, name, kind = following
    finally:
        walk.close()


def _walk(folder: str, refuse: Tell, pass_over: Tell) -> Iterator[str]:
    """Does what ``_walked`` does, and reports a directory without files."""
    is_silent = True

    def refused(trouble: Trouble) -> None:
        nonlocal is_silent
        is_silent = False
        refuse(trouble)

    for path in _walked(folder, refused, pass_over):
        is_silent = False
        yield path
    if is_silent:
        refuse(Trouble(folder, "no files in this directory", UNUSABLE))


def found(names: Iterable[str], refuse: Tell, pass_over: Tell) -> Iterator[str]:
    """Yields the files that are named, and the files in the directories that are named.

    Parameters
    ----------
    names : iterable of str
        Files and directories; ``-`` is standard input.
    refuse : callable
        Called with the error of each directory that can't be read or has no file.
    pass_over : callable
        Called for each link to a directory, link that leads nowhere, FIFO, socket or device in a
        directory.
    """
    for name in names:
        if name == STANDARD or not os.path.isdir(name):
            yield name
        else:
            yield from _walk(name, refuse, pass_over)


# ---- lists


def _pieces(name: str) -> Iterator[bytes]:
    """Yields the bytes of a file in pieces; ``-`` is standard input."""
    try:
        source = os.dup(0) if name == STANDARD else opened(name, os.O_RDONLY)
        with open(source, "rb", buffering=0) as stream:
            yield from iter(lambda: stream.read(PIECE), b"")
    except OSError as error:
        raise unusable(name, error) from None


def names_in(name: str, ends_with_nul: bool) -> Iterator[str]:
    """Yields the names in a file, each on a line or ended by NUL; ``-`` is standard input.

    Raises
    ------
    Trouble
        If the file can't be read, or a name in it is too long.
    """
    end = b"\0" if ends_with_nul else b"\n"
    rest = b""
    for piece in _pieces(name):
        *whole, rest = (rest + piece).split(end)
        yield from map(os.fsdecode, filter(None, whole))
        if len(rest) > LONGEST_NAME:
            raise Trouble(name, f"no list: a name is longer than {LONGEST_NAME:,} bytes", UNUSABLE)
    if rest:
        yield os.fsdecode(rest)
