# SPDX-License-Identifier: Apache-2.0
"""Merges many files, as a tree of processes.

Files go to processes in groups. A process reads the files of its group in batches of bounded size,
and returns the image of their union. These images are merged in the order of their groups. The union
is the same however files are grouped, so the number of processes makes no difference.
"""
from __future__ import annotations

import os
import warnings
from contextlib import closing
from functools import partial
from itertools import chain, islice
from multiprocessing import current_process
from operator import index
from typing import Callable, Generator, Iterable, Iterator, List, NamedTuple, Optional, Tuple
from typing import Union as Either

from ._errors import ArgumentError, FilesError, HllError, ImageError, PrecisionError
from ._names import shown
from ._state import BATCH_BYTES, State
from ._workers import WorkerLost, Workers
from .files import STANDARD, UNUSABLE, Trouble, bytes_of_file, image_trouble, images_in_stream, unusable
from .finding import found
from .layout import is_empty
from .progress import Bar
from .sketch import Sketch
from .union import checked_bounds

GROUP = 512
"""How many files a task reads."""


Path = Either[str, bytes, "os.PathLike[str]", "os.PathLike[bytes]"]


class Part(NamedTuple):
    """The result of a task: the image of its union, how many files were merged, the first of them that
    isn't empty, and the files that were rejected."""

    image: bytes
    merged: int
    first: Optional[str]
    troubles: List[Trouble]


class Merged(NamedTuple):
    """The image of a union, and how many files were merged."""

    image: bytes
    merged: int


Group = List[str]
Parts = Generator[Part, None, None]


def processors() -> int:
    """Returns how many processors this process may use."""
    if hasattr(os, "sched_getaffinity"):
        return len(os.sched_getaffinity(0))
    return os.cpu_count() or 1


# ---- one task


class OtherLgK(Trouble):
    """A file has another ``lg_k`` than files before it, and no bound was given."""

    def __init__(self, name: str, error: PrecisionError, before: Optional[str]) -> None:
        self.error = error.at(None, name)
        has = f"it has lg_k {error.lg_k}, and {shown(before or 'what was merged')} has"
        cure = f"--lg-k {min(error.lg_k, error.other_lg_k)} merges both"
        super().__init__(name, f"{has} {error.other_lg_k}: {cure}")
        self.args = name, error, before     # for the process that raises it again


class _Files:
    """The union of files, a batch of bounded size at a time."""

    def __init__(self, lg_max_k: int) -> None:
        self.state = State(lg_max_k)
        self.first: Optional[str] = None
        self.troubles: List[Trouble] = []
        self._names: Group = []
        self._images: List[bytes] = []
        self._bytes = 0

    def take(self, name: str) -> None:
        """Reads a file into the batch, or all images of standard input."""
        for which, image in self._images_of_standard() if name == STANDARD else self._image_of(name):
            self._take_image(which, image)

    def _image_of(self, name: str) -> Iterator[Tuple[str, bytes]]:
        """Yields the image of a file, with its name, unless the file can't be read."""
        try:
            yield name, bytes_of_file(name)
        except Trouble as trouble:
            self.troubles.append(trouble)

    def _images_of_standard(self) -> Iterator[Tuple[str, bytes]]:
        """Yields the images that follow one another on standard input, with their names."""
        try:
            for number, image in enumerate(images_in_stream(partial(os.read, 0)), 1):
                yield STANDARD if number == 1 else f"{STANDARD} (image {number:,})", image
        except OSError as error:
            self.troubles.append(unusable(STANDARD, error))

    def _take_image(self, name: str, image: bytes) -> None:
        """Puts an image into the batch."""
        self._names.append(name)
        self._images.append(image)
        self._bytes += len(image)
        if self._bytes >= BATCH_BYTES:
            self.merge()

    def merge(self) -> None:
        """Merges the files of the batch, and leaves out files that are not images."""
        names, images = self._names, self._images
        self._names, self._images, self._bytes = [], [], 0
        done = 0
        while done < len(images):
            done += self._merge_some(names[done:], images[done:])

    def _merge_some(self, names: Group, images: List[bytes]) -> int:
        """Merges files up to the first that is not an image. Returns how many files were done, with it."""
        try:
            self.state.join_all(images)
        except ImageError as error:
            number = error.number or 0
            self.troubles.append(image_trouble(names[number], error.reason, images[number]))
            self._see(names[:number], images[:number])
            return number + 1
        except PrecisionError as error:
            number = error.number or 0
            self._see(names[:number], images[:number])
            raise OtherLgK(names[number], error, self.first) from None
        self._see(names, images)
        return len(images)

    def _see(self, names: Group, images: List[bytes]) -> None:
        """Remembers the name of the first merged file that isn't empty."""
        if self.first is None:
            pairs = zip(names, images)
            self.first = next((name for name, image in pairs if not is_empty(image)), None)


def union_of_group(lg_max_k: int, names: Group) -> Part:
    """Returns the union of the files of a group, without files that are not images."""
    files = _Files(lg_max_k)
    for name in names:
        files.take(name)
    files.merge()
    return Part(files.state.image(), files.state.count, files.first, files.troubles)


# ---- the tree


def _groups(names: Iterable[str]) -> Iterator[Group]:
    """Yields the files in groups. Standard input is a separate group."""
    source = iter(names)
    while True:
        group = list(islice(source, GROUP))
        if not group:
            return
        files = [name for name in group if name != STANDARD]
        if files:
            yield files
        yield from ([name] for name in group if name == STANDARD)


def _is_standard(group: Group) -> bool:
    """Returns whether a group is standard input, which only this process has."""
    return group == [STANDARD]


def _parts(
    lg_max_k: int, names: Iterable[str], jobs: int, note: Callable[[str], None]
) -> Parts:
    """Yields the results of the tasks, in the order of their groups. Starts processes only if there is
    more than one task."""
    groups = _groups(names)
    first = list(islice(groups, 2))
    tasks, call = chain(first, groups), partial(union_of_group, lg_max_k)
    if jobs > 1 and len(first) > 1 and current_process().daemon:
        note("merge: a process of multiprocessing that is a daemon starts no others: it merges alone")
        jobs = 1
    if jobs == 1 or len(first) < 2:
        yield from map(call, tasks)
        return
    with Workers(call, jobs) as workers:
        if workers.failure is not None:
            used = len(workers) or 1
            note(f"merge: only {used} of {jobs} processes can be used: {workers.failure.strerror}")
        if not len(workers):
            yield from map(call, tasks)
            return
        try:
            yield from workers.results(tasks, _is_standard)
        except WorkerLost:
            raise Trouble("merge", "a process ended before its work was done", UNUSABLE) from None


def union_of_files(
    names: Iterable[str],
    lg_max_k: int,
    width: Optional[int],
    jobs: int,
    refuse: Callable[[Trouble], None],
    more: Optional[Callable[[int], None]] = None,
    note: Callable[[str], None] = warnings.warn,
) -> Merged:
    """Returns the union of files.

    Parameters
    ----------
    names : iterable of str
        The files; ``-`` is standard input.
    lg_max_k : int
        The largest ``lg_k`` of the union, or 0 for no bound.
    width : int, optional
        The bits of a register of the union. By default it is the width of the files, or 8 if they
        differ.
    jobs : int
        How many processes to use.
    refuse : callable
        Called with the error of each file that is left out.
    more : callable, optional
        Called with the number of files of each finished task.
    note : callable
        Called with what is said if fewer processes are used, as not all could be started.

    Raises
    ------
    OtherLgK
        If a file has another ``lg_k`` than files before it, and there is no bound.
    """
    state, count, first = State(lg_max_k), 0, None
    with closing(_parts(lg_max_k, names, jobs, note)) as parts:
        for part in parts:
            for trouble in part.troubles:
                refuse(trouble)
            if part.merged:
                try:
                    state.join(part.image)
                except PrecisionError as error:
                    raise OtherLgK(part.first or "a file", error, first) from None
                count, first = count + part.merged, first or part.first
            if more is not None:
                more(part.merged + len(part.troubles))
    return Merged(state.image(width), count)


# ---- for programs


def _names_of(paths: Iterable[Path]) -> Iterator[str]:
    """Returns the names of paths. Here ``-`` is a file like any other."""
    for path in paths:
        name = os.fsdecode(path)
        yield os.path.join(os.curdir, name) if name == STANDARD else name


def _pass_over(trouble: Trouble) -> None:
    warnings.warn(str(trouble), UserWarning)


def merge_files(
    paths: Iterable[Path],
    lg_max_k: Optional[int] = None,
    width: Optional[int] = None,
    *,
    jobs: int = 1,
    on_refused: Optional[Callable[[str, str], object]] = None,
) -> Sketch:
    """Return the union of the sketches in files, as the command ``hll merge`` does.

    Files are read in batches of a quarter of a megabyte, or of one image if it is larger. If ``tqdm`` is
    installed and standard error is a terminal, it shows the progress after a second.

    Parameters
    ----------
    paths : iterable of str, bytes or path
        Files and directories. All files below a directory are merged, except names that begin with a dot.
        Pipes, sockets, devices and links to directories are skipped, with a warning for each.
    lg_max_k, width : int, optional
        As for ``union_of``.
    jobs : int
        How many processes to use.
    on_refused : callable, optional
        Called with the path of each rejected file, and why it was rejected. The other files are
        merged.

    Raises
    ------
    FilesError
        If files are rejected and ``on_refused`` is not given. ``refused`` has the paths of all of
        them.
    PrecisionError
        If a file has another ``lg_k`` than the files before it, and ``lg_max_k`` is not given.
        ``place`` is its path.
    ArgumentError
        If ``lg_max_k``, ``width`` or ``jobs`` is out of range.
    """
    if isinstance(paths, (str, bytes, os.PathLike)):
        raise TypeError(f"expected many paths, not one {type(paths).__name__}: pass a list of it")
    bound, width = checked_bounds(lg_max_k, width)
    if index(jobs) < 1:
        raise ArgumentError(f"the number of jobs is 1 or more, not {jobs}")
    refused: List[Tuple[str, str]] = []

    def refuse(trouble: Trouble) -> None:
        refused.append((trouble.name, trouble.words))
        if on_refused is not None:
            on_refused(trouble.name, trouble.words)

    names = found(_names_of(paths), refuse, _pass_over)
    try:
        with Bar("file", needs_tqdm=True) as bar:
            merged = union_of_files(bar.counted(names), bound, width, index(jobs), refuse, bar.more)
    except OtherLgK as trouble:
        raise trouble.error from None
    except Trouble as trouble:
        raise HllError(str(trouble)) from None
    if refused and on_refused is None:
        raise FilesError(refused)
    return Sketch._of(merged.image)
