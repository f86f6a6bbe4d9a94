# SPDX-License-Identifier: Apache-2.0
"""Reading and writing files of images."""
from __future__ import annotations

import errno
import io
import os
import re
import stat
import sys
import time
from codecs import getincrementaldecoder
from contextlib import contextmanager, suppress
from functools import partial
from typing import IO, Callable, Iterator, List, Literal, Optional, TypeVar, cast

from . import _library
from ._errors import ImageError, explained
from ._names import shown
from ._signals import ENDING, held_back
from .layout import DATABASE, size_of

if sys.platform != "win32":
    import fcntl

T = TypeVar("T")
Read = Callable[[int], bytes]

STANDARD = "-"
"""The name of standard input, or of standard output."""


class FoundName(str):
    """The path of a file that was found in a directory, where anybody might put another file in its place. A
    path that was named may be that of a pipe or a device."""


PIECE = 1 << 16
MORE = _library.HEADER
"""How many bytes after an image are read: enough to say whether they begin another one."""
OWN = getattr(os, "O_CLOEXEC", 0) | getattr(os, "O_BINARY", 0)
"""Flags of every file that is opened: programs that are started don't get it, and Windows changes no byte."""

STEP = 4000
"""The most bytes of a path that the system accepts at once."""

MOST_LINKS = 40
"""The most links that are followed for a name, as the system does."""

PATIENCE, MOMENT = 10.0, 0.02
"""The seconds that a lock is waited for before this is said, and those between two tries."""

REFUSED, UNUSABLE = 1, 2


class Trouble(Exception):
    """An error of a file, and the status with which the command ends.

    Attributes
    ----------
    name : str
        The file.
    words : str
        What is wrong.
    status : int
        ``REFUSED`` if the file was read and is not an image, or can't be merged; ``UNUSABLE`` if it
        can't be read or written.
    """

    def __init__(self, name: str, words: str, status: int = REFUSED) -> None:
        super().__init__(name, words, status)
        self.name, self.words, self.status = name, words, status

    def __str__(self) -> str:
        return f"{shown(self.name)}: {self.words}"


class OutputTrouble(Trouble):
    """Standard output can't be written, so the command can't go on."""

    def __init__(self, error: OSError) -> None:
        super().__init__("standard output", error.strerror or str(error), UNUSABLE)


def unusable(name: str, error: OSError) -> Trouble:
    """Returns the error of a file that can't be read or written."""
    words = error.strerror or str(error)
    if error.errno == errno.EISDIR:
        words += " (name its files, or merge them)"
    elif error.errno == errno.EEXIST:
        words += " (--force replaces it)"
    return Trouble(name, words, UNUSABLE)


_HEXADECIMAL = re.compile(b"(?:02|03|0[aA])0107[0-9a-fA-F]*")
"""How the hexadecimal digits of an image begin, as ``hll_merge`` prints them."""


def _is_text(data: bytes) -> bool:
    """Returns whether bytes begin as a text does. The third byte of an image is 7, which no text has."""
    try:
        begin = getincrementaldecoder("utf-8")().decode(data[:1024])
    except UnicodeDecodeError:
        return False
    return all(letter.isprintable() or letter in "\t\n\f\r" for letter in begin)


def _why_no_image(reason: str, data: bytes) -> str:
    """Returns why bytes are not an image: what else they are, or the check of images that they fail."""
    if not data:
        return "it is empty"
    if data.startswith(b"\x89HLLKEY\n"):
        return "it is an archive of an earlier checkout (examples/import_archive.py makes a database of it)"
    if data.startswith(DATABASE):
        return "it is a database, and not a sketch (hll get makes a sketch of one of keys, and hll add --db adds to it)"
    if _HEXADECIMAL.match(data):
        return "it is text, the hexadecimal digits of an image (xxd -r -p makes bytes of them)"
    if _is_text(data):
        return "it is text, and not an image"
    if reason == _library.WORDS[_library.TRAILING]:
        end = len(data) - _library.trailing(data)
        what = "another image begins" if _library.head(data[end:]).fault == _library.OK else "bytes that are no image begin"
        return f"{what} at byte {end:,}, after the image (hll merge - -o FILE merges all images of standard input)"
    if data[2:3] not in (b"", b"\x07"):
        return f"not an image (the family byte is {data[2]}, and not 7)"
    return f"image {explained(reason)}"


def image_trouble(name: str, reason: str, data: bytes) -> Trouble:
    """Returns the error of a file whose bytes are not an image."""
    return Trouble(name, _why_no_image(reason, data))


@contextmanager
def _named_in_errors(name: str) -> Iterator[None]:
    """Makes errors of the system name this file, and not a temporary file."""
    try:
        yield
    except OSError as error:
        raise OSError(error.errno, error.strerror, name) from None


# ---- opening


def _steps(path: str) -> List[bytes]:
    """Yields parts of a path that the system accepts, each relative to the part before."""
    steps, rest = [], os.fsencode(path)
    while len(rest) > STEP:
        cut = rest.rfind(b"/", 1, STEP)
        if cut < 0:
            break
        steps.append(rest[:cut])
        rest = rest[cut:].lstrip(b"/")
    return [*steps, rest or b"."]


def _opened_in_steps(path: str, flags: int) -> int:
    """Opens a file by opening the directories above it, one after another."""
    *folders, last = _steps(path)
    above: Optional[int] = None
    try:
        for folder in folders:
            below = os.open(folder, os.O_RDONLY | os.O_DIRECTORY | os.O_CLOEXEC, dir_fd=above)
            if above is not None:
                os.close(above)
            above = below
        return os.open(last, flags, dir_fd=above)
    finally:
        if above is not None:
            os.close(above)


def opened(path: str, flags: int) -> int:
    """Opens a file, even if its path is longer than the system accepts at once."""
    flags |= OWN
    try:
        return os.open(path, flags)
    except OSError as error:
        if error.errno != errno.ENAMETOOLONG:
            raise
    return _opened_in_steps(path, flags)


# ---- reading


def read_up_to(read: Read, most: int) -> bytes:
    """Returns ``most`` bytes, or fewer if the file ends."""
    first = read(most)
    pieces, rest = [first], most - len(first)
    while rest and pieces[-1]:
        pieces.append(read(rest))
        rest -= len(pieces[-1])
    return first if len(pieces) == 1 else b"".join(pieces)


def read_image(read: Read) -> bytes:
    """Returns the bytes of an image, followed by at least one other if there are others. ``read`` returns at
    most the number of bytes that it is given, and none at the end of the file."""
    data = read_up_to(read, PIECE)
    if len(data) < PIECE:
        return data
    more = size_of(data) + MORE - PIECE
    return data + read_up_to(read, more) if more > 0 else data


def opened_bytes(file: object, does: Literal["read", "write"]) -> Optional[IO[bytes]]:
    """Returns a file of bytes that is open to read or to write, or None for anything else, such as a path.

    Raises
    ------
    TypeError
        If it is a file of text.
    """
    if isinstance(file, io.TextIOBase):
        raise TypeError(f"expected a file of bytes, not of text: open it with the mode '{does[0]}b'")
    return cast("IO[bytes]", file) if hasattr(file, does) else None


def write_all(file: IO[bytes], data: bytes) -> None:
    """Writes all bytes to an open file, of which a call may write a part."""
    rest = memoryview(data)
    while rest:
        count = file.write(rest)
        rest = rest[len(rest) if count is None else count :]


def images_in_stream(read: Read) -> Iterator[bytes]:
    """Yields the images that follow one another in a stream. Bytes that begin no image are the last."""
    data, at = read_up_to(read, PIECE), 0
    while at < len(data):
        head = _library.head(data[at : at + MORE])
        if head.fault != _library.OK:
            yield data[at:]
            return
        end = at + head.size
        if end > len(data):
            data, at, end = data[at:] + read_up_to(read, end - len(data)), 0, head.size
        elif not _library.trailing(data[at : at + MORE]):
            end = max(end, min(len(data), at + MORE))       # an empty list with its buckets
        yield data[at:end]
        at = end
        if len(data) - at < MORE:
            data, at = data[at:] + read_up_to(read, PIECE), 0


def opened_to_read(path: str) -> int:
    """Opens a file. A file that was found in a directory has to be a plain file still."""
    if not isinstance(path, FoundName):
        return opened(path, os.O_RDONLY)
    place = opened(path, os.O_RDONLY | os.O_NONBLOCK | os.O_NOCTTY)
    if not stat.S_ISREG(os.fstat(place).st_mode):
        os.close(place)
        raise OSError(errno.EINVAL, "No plain file any more, as it was when its directory was read")
    return place


def read_path(path: str) -> bytes:
    """Returns the bytes of a file that an image can have, unchecked.

    Even for a large file, no more memory is used than the first bytes say that the image needs.

    Raises
    ------
    OSError
        If the file can't be read.
    """
    with _named_in_errors(path):
        place = opened_to_read(path)
        try:
            return read_image(partial(os.read, place))
        finally:
            os.close(place)


def bytes_of_file(name: str) -> bytes:
    """Returns what ``read_path`` returns; ``-`` is standard input.

    Raises
    ------
    Trouble
        If the file can't be read.
    """
    try:
        return read_image(partial(os.read, 0)) if name == STANDARD else read_path(name)
    except OSError as error:
        raise unusable(name, error) from None
    except ValueError:
        raise Trouble(name, "no name of a file", UNUSABLE) from None


def of_file(name: str, call: Callable[[bytes], T]) -> T:
    """Returns what a call of the library returns for the image in a file.

    Only this call reads the image, as an untrusted image can be slow to read.

    Raises
    ------
    Trouble
        If the file can't be read, or is no image.
    """
    return of_bytes(name, bytes_of_file(name), call)


def of_bytes(name: str, data: bytes, call: Callable[[bytes], T]) -> T:
    """Returns what a call of the library returns for bytes, which errors call by a name.

    Raises
    ------
    Trouble
        If the bytes are no image, or if others follow it.
    """
    try:
        result = call(data)
        _library.check_end(data)
        return result
    except ImageError as error:
        raise image_trouble(name, error.reason, data) from None


def image_of_file(name: str) -> bytes:
    """Returns the image in a file, as this library writes it, so further calls read it quickly.

    Raises
    ------
    Trouble
        If the file can't be read, or is no image.
    """
    return of_file(name, lambda data: _library.convert(data, _library.width_in(data)))


def check_lg_k(name: str, image: bytes, lg_k: int) -> bytes:
    """Returns the image of a file that had this ``lg_k`` when lines were counted for it.

    Raises
    ------
    Trouble
        If it has another ``lg_k``.
    """
    found = _library.lg_k_in(image)
    if found != lg_k:
        words = f"its lg_k has become {found}, from {lg_k}, while lines were read: add them again"
        raise Trouble(name, words)
    return image


def is_nothing(name: str) -> bool:
    """Returns whether a file doesn't exist, or is empty. It isn't opened: closing it would release the locks that
    SQLite holds for a connection of this process."""
    return not os.path.exists(name) or (os.path.isfile(name) and os.path.getsize(name) == 0)


# ---- writing


def _write_all(place: int, data: bytes) -> None:
    """Writes all bytes."""
    rest = memoryview(data)
    while rest:
        rest = rest[os.write(place, rest) :]


def _write_standard(data: bytes) -> None:
    """Writes to standard output, after what was printed."""
    try:
        if sys.stdout is not None:
            sys.stdout.flush()
        _write_all(1, data)
    except OSError as error:
        raise OutputTrouble(error) from None


def _check_link(name: str, link: str) -> None:
    """Raises an error for a link that the kernel wouldn't follow where ``fs.protected_symlinks`` is set:
    another user put it into a directory in which all users may make files, as into ``/tmp``."""
    owner, folder = os.lstat(link).st_uid, os.stat(os.path.dirname(link) or os.curdir)
    is_shared = folder.st_mode & stat.S_ISVTX and folder.st_mode & stat.S_IWOTH
    if is_shared and owner not in (os.geteuid(), folder.st_uid):
        words = "Permission denied (another user made this symbolic link in a directory for all users)"
        raise OSError(errno.EACCES, words, name)


def target_of(name: str) -> str:
    """Returns the path of the file that is written for a name: links in it are followed to their ends.

    Raises
    ------
    OSError
        If a link must not be followed, or links lead in a circle.
    """
    path = os.sep if os.path.isabs(name) else os.getcwd()
    rest, links = os.fspath(name).split(os.sep)[::-1], 0
    while rest:
        part = rest.pop()
        if part in ("", os.curdir, os.pardir):
            path = os.path.dirname(path) if part == os.pardir else path
            continue
        step = os.path.join(path, part)
        if not os.path.islink(step):
            path = step
            continue
        _check_link(name, step)
        links += 1
        if links > MOST_LINKS:
            raise OSError(errno.ELOOP, os.strerror(errno.ELOOP), name)
        target = os.readlink(step)
        path = os.sep if os.path.isabs(target) else path
        rest += target.split(os.sep)[::-1]
    return path


def _status_of(path: str) -> Optional[os.stat_result]:
    """Returns the status of a file, or None if it doesn't exist."""
    try:
        return os.stat(path)
    except FileNotFoundError:
        return None


def _keep_owner_and_mode(place: int, before: os.stat_result) -> None:
    """Gives a new file the owner, the group (if that is allowed) and the mode of the old file, without
    its set-user-ID and set-group-ID bits, as any write does."""
    made = os.fstat(place)
    if made.st_uid != before.st_uid:
        os.fchown(place, before.st_uid, before.st_gid)
    elif made.st_gid != before.st_gid:
        with suppress(PermissionError):
            os.fchown(place, -1, before.st_gid)
    if sys.platform != "win32":
        os.fchmod(place, stat.S_IMODE(before.st_mode) & ~(stat.S_ISUID | stat.S_ISGID))


def _fill(place: int, data: bytes, before: Optional[os.stat_result], sync: bool) -> None:
    """Writes a file, and syncs its bytes to disk if that is asked for."""
    if before is not None:
        _keep_owner_and_mode(place, before)
    _write_all(place, data)
    if sync:
        os.fsync(place)


@contextmanager
def _temporary(path: str) -> Iterator[str]:
    """Yields a temporary name in the same directory, which walks skip. Signals are delayed while a file has
    this name, and at the end no file has it, unless the system can't remove it: what was done then stays done."""
    name = f".hll-{os.getpid()}-{os.urandom(8).hex()}"
    temporary = os.path.join(os.path.dirname(path), name)
    with held_back(*ENDING):
        try:
            yield temporary
        finally:
            with suppress(OSError):
                os.unlink(temporary)


def _named(place: int, name: str) -> bool:
    """Gives a name to a file that has none, by the link that the system has for its descriptor. Raises
    ``FileExistsError`` if another file has the name."""
    try:
        # any src_dir_fd makes os.link follow that link
        os.link(f"/proc/self/fd/{place}", name, src_dir_fd=place, follow_symlinks=True)
    except FileExistsError:
        raise
    except OSError:
        return False
    return True


def _is_ours(place: int, path: str) -> bool:
    """Returns whether a file that this process has made has its name and its lock, so no other process writes it. Where a
    file system has no locks, no process adds to its files."""
    if sys.platform != "win32":
        try:
            fcntl.flock(place, fcntl.LOCK_EX | fcntl.LOCK_NB)
        except BlockingIOError:
            return False
        except OSError:
            pass
    return _is_named(place, path)


def _claim(temporary: str, path: str) -> None:
    """Gives a file a name that no file has, where there are no hard links. An empty file has the name first, which no
    other process can make. If one adds to it meanwhile, its file stays."""
    place = os.open(path, os.O_RDONLY | os.O_CREAT | os.O_EXCL | OWN, 0o666)
    try:
        if not _is_ours(place, path):
            raise FileExistsError(errno.EEXIST, os.strerror(errno.EEXIST), path)
        try:
            os.replace(temporary, path)
        except OSError:
            os.unlink(path)
            raise
    finally:
        os.close(place)


def _name_new(temporary: str, path: str) -> None:
    """Gives a file a name that no file has. Raises ``FileExistsError`` if another file has the name."""
    try:
        os.link(temporary, path)
    except FileExistsError:
        raise
    except OSError:
        _claim(temporary, path)


def _replace_by_link(path: str, data: bytes, before: Optional[os.stat_result], sync: bool, is_new: bool) -> bool:
    """Writes a file that has no name until it is complete, so no incomplete file is left. Returns False
    if the system can't do this."""
    try:
        place = os.open(os.path.dirname(path), os.O_WRONLY | os.O_TMPFILE | os.O_CLOEXEC, 0o666)
    except (OSError, AttributeError):
        return False
    try:
        _fill(place, data, before, sync)
        if is_new:
            return _named(place, path)
        with _temporary(path) as temporary:
            if not _named(place, temporary):
                return False
            os.replace(temporary, path)
        return True
    finally:
        os.close(place)


def _replace_by_name(path: str, data: bytes, before: Optional[os.stat_result], sync: bool, is_new: bool) -> None:
    """Writes a file under another name first. Signals are delayed until it is written."""
    with _temporary(path) as temporary:
        place = os.open(temporary, os.O_WRONLY | os.O_CREAT | os.O_EXCL | OWN, 0o666)
        try:
            _fill(place, data, before, sync)
        finally:
            os.close(place)
        if is_new:
            _name_new(temporary, path)
        else:
            os.replace(temporary, path)


def _sync_folder(folder: str) -> None:
    """Syncs the names in a directory to disk, if the directory can be read and its file system supports that.
    Windows opens no directory."""
    if sys.platform == "win32":
        return
    try:
        place = os.open(folder, os.O_RDONLY | os.O_DIRECTORY | os.O_CLOEXEC)
    except PermissionError:
        return
    try:
        os.fsync(place)
    except OSError as error:
        if error.errno not in (errno.EINVAL, errno.ENOTSUP):
            raise
    finally:
        os.close(place)


def _replace(path: str, data: bytes, before: Optional[os.stat_result], sync: bool, is_new: bool) -> None:
    """Replaces the file at a path, or makes it if it has to be new, once the new file is complete, and on disk unless
    nothing is synced. The name is not on disk yet."""
    if not _replace_by_link(path, data, before, sync, is_new):
        _replace_by_name(path, data, before, sync, is_new)


def _write_into(path: str, data: bytes) -> None:
    """Writes into a pipe or a device."""
    place = os.open(path, os.O_WRONLY | OWN)
    try:
        if stat.S_ISREG(os.fstat(place).st_mode):
            raise OSError(errno.EINVAL, "It became a plain file meanwhile")
        _write_all(place, data)
    finally:
        os.close(place)


def write_path(name: str, data: bytes, sync: bool = True, is_new: bool = False) -> None:
    """Writes a whole file, or leaves it unchanged. The file keeps its owner and its mode.

    Without ``sync``, the file can be empty or incomplete after a crash of the system. With ``is_new``, a file that exists,
    or that another process makes meanwhile, is not replaced.

    Raises
    ------
    OSError
        If it can't be written.
    """
    with _named_in_errors(name):
        if is_new and os.path.lexists(name):
            raise FileExistsError(errno.EEXIST, os.strerror(errno.EEXIST), name)
        path = target_of(name)
        before = _status_of(name)
        if before is None or stat.S_ISREG(before.st_mode):
            _replace(path, data, before, sync, is_new)
            if sync:
                _sync_folder(os.path.dirname(path))
        else:
            _write_into(name, data)


@contextmanager
def reported_of(name: str) -> Iterator[None]:
    """Turns errors of the system into the error of a file."""
    try:
        yield
    except OSError as error:
        raise unusable(name, error) from None
    except ValueError:
        raise Trouble(name, "no name of a file", UNUSABLE) from None


def write_file(name: str, data: bytes, is_new: bool = False) -> None:
    """Does what ``write_path`` does; ``-`` is standard output.

    Raises
    ------
    Trouble
        If it can't be written.
    """
    if name == STANDARD:
        _write_standard(data)
        return
    with reported_of(name):
        write_path(name, data, is_new=is_new)


def is_database(name: str) -> bool:
    """Returns whether a file begins as an SQLite database does. Reading it reports why it can't be read."""
    try:
        if name == STANDARD or not os.path.isfile(name):
            return False
        with open(name, "rb") as stream:
            return stream.read(len(DATABASE)) == DATABASE
    except (OSError, ValueError):
        return False


def touch(name: str) -> None:
    """Makes an empty file, unless the file exists.

    Raises
    ------
    Trouble
        If it can't be made.
    """
    with reported_of(name):
        os.close(os.open(target_of(name), os.O_WRONLY | os.O_CREAT | OWN, 0o666))


def _check_kept(name: str, before: os.stat_result) -> None:
    """Raises an error for a file that is read-only or belongs to another user."""
    is_writable = os.access(name, os.W_OK) and before.st_mode & 0o222
    if not is_writable or before.st_uid != os.geteuid():
        whose = "it belongs to another user" if is_writable else "it is read-only"
        raise Trouble(name, f"{whose} (--force replaces it)", UNUSABLE)


def _check_no_database(name: str) -> None:
    """Raises an error for a file that is a database, which a sketch would replace."""
    if is_database(name):
        raise Trouble(name, "it is a database, and a sketch would replace it (--force replaces it)", UNUSABLE)


def check_output(name: str, force: bool = False) -> None:
    """Checks before the work whether a file may be written, as far as that can be known. With ``force`` a
    file may be replaced that is read-only or belongs to another user.

    Raises
    ------
    Trouble
        If it can't be written.
    """
    if name == STANDARD:
        return
    with reported_of(name):
        path = target_of(name)
        before = _status_of(name)
        if before is not None and stat.S_ISDIR(before.st_mode):
            raise Trouble(name, "Is a directory", UNUSABLE)
        folder = os.path.dirname(path)
        os.stat(folder)
        if before is not None and not stat.S_ISREG(before.st_mode):
            return
        if not os.access(folder, os.W_OK | os.X_OK):
            is_read_only = os.statvfs(folder).f_flag & os.ST_RDONLY
            raise Trouble(name, os.strerror(errno.EROFS if is_read_only else errno.EACCES), UNUSABLE)
        if before is not None and not force:
            _check_kept(name, before)
            _check_no_database(name)


# ---- locks


def _is_named(place: int, path: str) -> bool:
    """Returns whether an open file still is the file at a path, and was not replaced."""
    try:
        return os.path.samestat(os.fstat(place), os.stat(path))
    except FileNotFoundError:
        return False


def _lock(place: int, name: str, still_waiting: Optional[Callable[[str], None]]) -> None:
    """Locks an open file. Others may hold the lock for as long as they like, and need only be able to
    read the file."""
    if sys.platform == "win32":
        raise OSError(errno.ENOSYS, "Files are not locked on Windows")
    end = time.monotonic() + PATIENCE
    while time.monotonic() < end:
        try:
            fcntl.flock(place, fcntl.LOCK_EX | fcntl.LOCK_NB)
            return
        except BlockingIOError:
            time.sleep(MOMENT)
    words = f"another process has held its lock for {PATIENCE:.0f} seconds"
    if still_waiting is None:
        raise Trouble(name, f"{words}: nothing was added to it (--wait waits for as long as it takes)", UNUSABLE)
    still_waiting(f"{shown(name)}: waits for its lock, as {words}")
    fcntl.flock(place, fcntl.LOCK_EX)


@contextmanager
def locked(name: str, still_waiting: Optional[Callable[[str], None]] = None) -> Iterator[None]:
    """Holds the lock of a file, and waits for it first. The lock is that of the file that has the name
    then, and not of a file that was replaced while it waited.

    Parameters
    ----------
    still_waiting : callable, optional
        Called with what is said after ``PATIENCE`` seconds; then it goes on waiting.

    Raises
    ------
    Trouble
        If the file can't be opened, its file system has no locks, or ``still_waiting`` isn't given and
        the file has been locked by others for ``PATIENCE`` seconds.
    """
    with reported_of(name):
        place = opened(name, os.O_RDONLY)
    try:
        with reported_of(name):
            _lock(place, name, still_waiting)
            while not _is_named(place, name):
                other = opened(name, os.O_RDONLY)
                os.close(place)
                place = other
                _lock(place, name, still_waiting)
        yield
    finally:
        os.close(place)
