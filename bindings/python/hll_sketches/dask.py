# SPDX-License-Identifier: Apache-2.0
"""Unions of many images, and sketches of many values, over a Dask cluster.

The functions ``union_of_*`` and ``union_by_key`` build a tree of tasks and return it as a
``dask.delayed.Delayed``; ``compute()`` runs it, on the cluster of the current
``distributed.Client`` if there is one.

    >>> from distributed import Client
    >>> from hll_sketches.dask import sketch_aggregation, union_of_files
    >>> with Client("scheduler:8786"):
    ...     sketch = union_of_files("s3://bucket/2026-11-*/*.hll").compute()
    ...     by_day = visits.groupby("day")["visitor"].agg(sketch_aggregation()).compute()

``sketch_aggregation`` and ``union_aggregation`` are for ``groupby(..).agg(..)`` of a Dask data
frame, where ``split_every`` and ``split_out`` say how its tree is built.

A task reads images and returns the image of their union. Further tasks merge these images, a few at
a time. The union is the same however images are grouped, ordered or repeated. So it doesn't change
if a task runs again because its worker was lost.

Without ``lg_max_k``, all sketches that are not empty must have the same ``lg_k``, as for
``hll_sketches.union_of``.

The package and its library have to be installed on each worker. This module needs ``dask`` 2022.12
or later.
"""
from __future__ import annotations

import errno
import os
import sys
from contextlib import nullcontext
from functools import partial
from typing import Any, Callable, ContextManager, Dict, Hashable, Iterable, Iterator, List, NamedTuple, Optional
from typing import Sequence, Tuple, Union as Either, cast

import fsspec
from dask.delayed import delayed

from ._errors import ArgumentError, ImageError, PrecisionError
from ._series import shown_key
from .files import read_image, read_path
from .progress import DELAY, is_terminal
from .sketch import Sketch, checked_lg_k, checked_width, fault_of
from .union import Source, checked_bounds, merged, union_of

__all__ = [
    "LeftOut",
    "PlacedImageError",
    "progress",
    "sketch_aggregation",
    "union_aggregation",
    "union_by_key",
    "union_of_bag",
    "union_of_files",
]

Path = Either[str, "os.PathLike[str]"]
File = Either[Path, fsspec.core.OpenFile]
Key = Either[str, Sequence[str]]
Refused = List[Tuple[str, str]]
Part = Tuple[Optional[bytes], Refused]
"""The image of a union, or None without sketches, and what was left out of it."""
Parts = Tuple[Dict[Hashable, bytes], Refused]
"""The image of each key, and what was left out."""

LEAST_FILES, MOST_FILES, TASKS_PER_THREAD, SPLIT_EVERY = 64, 4096, 2, 8
NO_MEMORY = "an allocation failed"


class PlacedImageError(ImageError):
    """An image was rejected; the error says where the image is.

    Attributes
    ----------
    reason : str
        The check that fails, as in ``ImageError``.
    number : int
        The index of the file among the paths, or of the row or item in its partition.
    place : str
        The path of the file, or the key of the group, and the row.
    """

    def __init__(
        self, reason: str, number: Optional[int], place: str, sizes: Optional[Tuple[int, int]] = None
    ) -> None:
        super().__init__(reason, number, place, sizes)


class LeftOut(NamedTuple):
    """The result with ``on_error="skip"``.

    Attributes
    ----------
    union : Sketch or pandas.Series
        The union without the images that were rejected.
    refused : list of (str, str)
        The place of each rejected image, and why it was rejected.
    """

    union: Any
    refused: Refused


# ---- tasks


class _Bounds(NamedTuple):
    """The bound of a union, or 0; its width, if one was given; and whether rejected images are left
    out of it."""

    lg_max_k: int
    width: Optional[int]
    skips: bool


def _bounds(lg_max_k: Optional[int], width: Optional[int], on_error: str = "raise") -> _Bounds:
    if on_error not in ("raise", "skip"):
        raise ArgumentError(f"on_error is 'raise' or 'skip', not {on_error!r}")
    return _Bounds(*checked_bounds(lg_max_k, width), on_error == "skip")


def _why_not(source: Either[Source, OSError]) -> Optional[str]:
    """Returns why a source can't be merged, or None."""
    if isinstance(source, OSError):
        return source.strerror or str(source)
    try:
        return None if isinstance(source, Sketch) else fault_of(source)
    except MemoryError:
        return NO_MEMORY


def _accepted(
    sources: Iterable[Either[Source, OSError]],
    place_of: Callable[[int], Tuple[int, str]],
    refused: Refused,
    accepted: List[int],
) -> Iterator[Source]:
    """Yields the images, and appends their numbers to ``accepted``. Appends the places of the others, and
    why they are rejected, to ``refused``."""
    for number, source in enumerate(sources):
        reason = _why_not(source)
        if reason is not None:
            refused.append((place_of(number)[1], reason))
        else:
            accepted.append(number)
            yield cast(Source, source)


def _placed(
    sources: Iterable[Either[Source, OSError]],
    bounds: _Bounds,
    place_of: Callable[[int], Tuple[int, str]],
) -> Part:
    """Returns the union of sources. ``place_of`` returns the number and the place of a rejected source."""
    refused: Refused = []
    kept = cast(Iterable[Source], sources)
    numbers: List[int] = []
    if bounds.skips:
        kept = _accepted(sources, place_of, refused, numbers)
    try:
        return merged(kept, bounds.lg_max_k), refused
    except ImageError as error:
        number, place = place_of(error.number or 0)
        raise PlacedImageError(error.reason, number, place, error.sizes) from None
    except PrecisionError as error:
        number = error.number or 0
        raise error.at(*place_of(numbers[number] if bounds.skips else number)) from None


def _name_of(file: File) -> str:
    return str(file.full_name) if isinstance(file, fsspec.core.OpenFile) else os.fspath(file)


def _bytes_of_file(file: File, options: Dict[str, Any]) -> bytes:
    """Returns the bytes of a file that an image can have: no more than its header announces."""
    if not isinstance(file, fsspec.core.OpenFile) and "://" not in os.fspath(file):
        return read_path(os.fspath(file))
    if not isinstance(file, fsspec.core.OpenFile):
        file = fsspec.open(os.fspath(file), "rb", **options)
    with file as remote:
        return read_image(lambda most: bytes(remote.read(most)))


def _read(file: File, options: Dict[str, Any], skips: bool) -> Either[bytes, OSError]:
    """Returns the bytes of a file, or why it can't be read if it may be left out."""
    try:
        return _bytes_of_file(file, options)
    except MemoryError:
        if skips:
            return OSError(errno.ENOMEM, NO_MEMORY)
        raise
    except OSError as error:
        if skips:
            return error
        raise


def _union_of_files(
    files: Sequence[File], first: int, options: Dict[str, Any], bounds: _Bounds
) -> Part:
    read = (_read(file, options, bounds.skips) for file in files)
    return _placed(read, bounds, lambda n: (first + n, _name_of(files[n])))


def _union_of_items(items: Iterable[Source], partition: int, bounds: _Bounds) -> Part:
    return _placed(items, bounds, lambda n: (n, f"partition {partition}, item {n}"))


def _union_by_key(frame: Any, key: Key, image: str, partition: int, bounds: _Bounds) -> Parts:
    """Returns the union of each key's images in a pandas data frame."""
    columns = [key] if isinstance(key, str) else list(key)
    missing = frame[columns + [image]].isna().any(axis=1)
    keys = frame[key] if isinstance(key, str) else zip(*(frame[column] for column in columns))
    images: List[Source] = list(frame[image])
    rows: Dict[Hashable, List[int]] = {}
    for row, (one, is_missing) in enumerate(zip(keys, missing)):
        if not is_missing:
            rows.setdefault(one, []).append(row)
    unions: Dict[Hashable, bytes] = {}
    refused: Refused = []
    for one, of_key in rows.items():
        where = f"key {shown_key(one)}, partition {partition}"
        union, left_out = _placed(
            [images[n] for n in of_key], bounds, lambda n: (of_key[n], f"{where}, row {of_key[n]}")
        )
        if union is not None:
            unions[one] = union
        refused += left_out
    return unions, refused


def _all_refused(parts: Sequence[Tuple[Any, Refused]]) -> Refused:
    return [one for _, refused in parts for one in refused]


def _answer(union: Any, parts: Sequence[Tuple[Any, Refused]], bounds: _Bounds) -> Any:
    return LeftOut(union, _all_refused(parts)) if bounds.skips else union


def _images_of(parts: List[Part]) -> Iterator[bytes]:
    """Returns the images of the parts that have sketches."""
    return (image for image, _ in parts if image is not None)


def _merged(parts: List[Part], bounds: _Bounds, what: str = "a part of the sketches") -> Part:
    try:
        return merged(_images_of(parts), bounds.lg_max_k), _all_refused(parts)
    except PrecisionError as error:
        raise error.at(None, what) from None


def _sketch_of(parts: List[Part], bounds: _Bounds) -> Any:
    image, _ = _merged(parts, bounds)
    images = [] if image is None else [image]
    union = union_of(images, bounds.lg_max_k or None, bounds.width)
    return _answer(union, parts, bounds)


def _collected(parts: List[Parts]) -> Dict[Hashable, List[bytes]]:
    collected: Dict[Hashable, List[bytes]] = {}
    for part, _ in parts:
        for key, image in part.items():
            collected.setdefault(key, []).append(image)
    return collected


def _merged_by_key(parts: List[Parts], bounds: _Bounds) -> Parts:
    merged_parts = {}
    for key, images in _collected(parts).items():
        try:
            merged_parts[key] = cast(bytes, merged(images, bounds.lg_max_k))
        except PrecisionError as error:
            raise error.at(None, f"a sketch of the key {shown_key(key)}") from None
    return merged_parts, _all_refused(parts)


def _series_of(parts: List[Parts], bounds: _Bounds, key: Key, image: str) -> Any:
    import pandas

    found, _ = _merged_by_key(parts, bounds)
    images = {one: merged([union], bounds.lg_max_k, bounds.width) for one, union in found.items()}
    if isinstance(key, str):
        index = pandas.Index(list(images), name=key)
    else:
        columns = list(zip(*cast(Iterable[Sequence[Hashable]], images))) or [() for _ in key]
        index = pandas.MultiIndex.from_arrays(columns, names=list(key))
    series = pandas.Series(list(images.values()), index=index, name=image, dtype=object)
    return _answer(series.sort_index(), parts, bounds)


# ---- trees


def _threads() -> int:
    """Returns how many tasks run at once, on the cluster of the current client or on this machine."""
    try:
        from distributed import default_client

        return sum(default_client().nthreads().values()) or 1
    except (ImportError, ValueError):
        return os.cpu_count() or 1


def _files_per_task(count: int) -> int:
    """Returns how many files a task reads: two tasks for each thread, but not too few files a task."""
    return min(max(-(-count // (TASKS_PER_THREAD * _threads())), LEAST_FILES), MOST_FILES)


def _tree(
    parts: List[Any], merge: Callable[..., Any], finish: Callable[..., Any], split_every: int
) -> Any:
    """Returns a tree that merges ``split_every`` parts at a time, until one task can finish the rest."""
    if split_every < 2:
        raise ValueError(f"split_every is 2 or more, not {split_every}")
    merge, finish = delayed(merge, pure=False), delayed(finish, pure=False)
    while len(parts) > split_every:
        parts = [merge(parts[n : n + split_every]) for n in range(0, len(parts), split_every)]
    return finish(parts)


def _union_of_parts(parts: List[Any], bounds: _Bounds, split_every: int) -> Any:
    """Returns the union of parts, each of which is a union."""
    return _tree(
        parts, partial(_merged, bounds=bounds), partial(_sketch_of, bounds=bounds), split_every
    )


def _files_of(paths: Either[str, Iterable[Path]], options: Dict[str, Any]) -> List[File]:
    """Returns the files of a pattern, in the order of their names, or of a list."""
    if not isinstance(paths, str):
        return list(paths)
    found = sorted(fsspec.open_files(paths, "rb", **options), key=_name_of)
    if not found:
        raise FileNotFoundError(errno.ENOENT, "no file has this name, or fits this pattern", paths)
    return found


def union_of_files(
    paths: Either[str, Iterable[Path]],
    lg_max_k: Optional[int] = None,
    width: Optional[int] = None,
    *,
    storage_options: Optional[Dict[str, Any]] = None,
    on_error: str = "raise",
    files_per_task: Optional[int] = None,
    split_every: int = SPLIT_EVERY,
) -> Any:
    """Return the union of the images in files, one image per file.

    Parameters
    ----------
    paths : str, or iterable of str or path
        A ``str`` is one name or a pattern, such as ``days/*.hll`` or ``s3://bucket/**/*.hll``, that
        ``fsspec`` looks up on this machine. An iterable has names of files as the workers see them.
        ``fsspec`` opens names with ``://`` as URLs.
    lg_max_k, width : int, optional
        As for ``hll_sketches.union_of``.
    storage_options : dict, optional
        What ``fsspec`` passes to the file system of patterns and URLs, for example keys.
    on_error : str
        What to do about files that are not an image or can't be read. ``"raise"`` raises an error.
        ``"skip"`` leaves them out and returns ``LeftOut``.
    files_per_task : int, optional
        How many files a task reads. By default there are two tasks for each thread of the cluster,
        and a task reads 64 to 4,096 files.
    split_every : int
        How many images a task merges.

    Returns
    -------
    dask.delayed.Delayed
        Computes to a ``Sketch``, or to ``LeftOut``. ``compute`` raises ``PlacedImageError`` if a file
        is not an image: ``place`` is its path, and ``number`` its index among the paths.

    Raises
    ------
    FileNotFoundError
        If no file matches the pattern.
    """
    bounds = _bounds(lg_max_k, width, on_error)
    options = storage_options or {}
    files = _files_of(paths, options)
    if files_per_task is None:
        files_per_task = _files_per_task(len(files))
    parts = []
    for first in range(0, len(files), files_per_task):
        # `partial`, as arguments of a task are searched for tasks, one by one
        some = files[first : first + files_per_task]
        read = partial(_union_of_files, some, first, options, bounds)
        parts.append(delayed(read, name=False, pure=False)())
    return _union_of_parts(parts, bounds, split_every)


def union_of_bag(
    bag: Any,
    lg_max_k: Optional[int] = None,
    width: Optional[int] = None,
    *,
    on_error: str = "raise",
    split_every: int = SPLIT_EVERY,
) -> Any:
    """Return the union of the images in a bag.

    Parameters
    ----------
    bag : dask.bag.Bag
        Images as bytes, or ``Sketch`` objects.
    lg_max_k, width, on_error, split_every
        As for ``union_of_files``.

    Returns
    -------
    dask.delayed.Delayed
        Computes to a ``Sketch``, or to ``LeftOut``. ``compute`` raises ``PlacedImageError`` if an
        item is not an image: ``place`` has the numbers of the partition and of the item in it.
    """
    bounds = _bounds(lg_max_k, width, on_error)
    union = delayed(partial(_union_of_items, bounds=bounds), pure=False)
    parts = [union(items, partition=number) for number, items in enumerate(bag.to_delayed())]
    return _union_of_parts(parts, bounds, split_every)


def union_by_key(
    dataframe: Any,
    key: Key,
    image: str,
    lg_max_k: Optional[int] = None,
    width: Optional[int] = None,
    *,
    on_error: str = "raise",
    split_every: int = SPLIT_EVERY,
) -> Any:
    """Return the union of the images of each key.

    Rows without a key or an image are skipped. All unions together have to fit in the memory of one
    worker.

    Parameters
    ----------
    dataframe : dask.dataframe.DataFrame
        Has the columns of the key, and a column of images as bytes (pandas or Arrow).
    key : str or list of str
        The column or columns of the key.
    image : str
        The column of the images.
    lg_max_k, width, on_error, split_every
        As for ``union_of_files``.

    Returns
    -------
    dask.delayed.Delayed
        Computes to a ``pandas.Series`` of images as bytes, with the sorted keys as its index, or to
        ``LeftOut``. ``compute`` raises ``PlacedImageError`` if a row's bytes are not an image:
        ``place`` has the key, and the numbers of the partition and of the row in it.
    """
    bounds = _bounds(lg_max_k, width, on_error)
    union = delayed(partial(_union_by_key, key=key, image=image, bounds=bounds), pure=False)
    parts = [union(frame, partition=number) for number, frame in enumerate(dataframe.to_delayed())]
    return _tree(
        parts,
        partial(_merged_by_key, bounds=bounds),
        partial(_series_of, bounds=bounds, key=key, image=image),
        split_every,
    )


# ---- progress


def progress() -> ContextManager[Any]:
    """Return a context in which ``compute()`` shows how many of its tasks are done, after a second.

        with progress():
            union_of_files("days/*.hll").compute(scheduler="processes")

    It shows nothing if ``tqdm`` isn't installed, or standard error isn't a terminal. On the cluster of a
    ``distributed.Client``, use ``distributed.progress(client.compute(union))``.
    """
    if not is_terminal():
        return nullcontext()
    try:
        from tqdm.dask import TqdmCallback
    except ImportError:
        return nullcontext()
    made: ContextManager[Any] = TqdmCallback(unit="task", leave=False, delay=DELAY, file=sys.stderr)
    return made


# ---- aggregations


def _is_planning() -> bool:
    """Returns whether Dask is planning an aggregation, and tries it on made-up rows to learn its type."""
    frame = sys._getframe()
    while frame is not None:
        module = str(frame.f_globals.get("__name__"))
        if frame.f_code.co_name == "aggregate" and module.partition(".")[0].startswith("dask"):
            return True
        frame = cast(Any, frame.f_back)
    return False


def _of_group(column: Any, image_of: Callable[[Any], Optional[bytes]]) -> Optional[bytes]:
    """Returns what a function makes of a group without missing values; None if nothing is left."""
    values = column.dropna()
    if not len(values):
        return None
    try:
        return image_of(values)
    except TypeError as error:
        if _is_planning():
            return None     # of made-up rows; an error in real rows is raised by the task that has them
        raise TypeError(f"{_group_of(column)}: {error}") from None
    except OverflowError as error:
        raise OverflowError(f"{_group_of(column)}: {error}") from None


def _group_of(column: Any) -> str:
    """Returns the key of a group for an error. In ``apply``, pandas has it as the name of the column."""
    return f"key {shown_key(column.name)}"


def _each(grouped: Any, image_of: Callable[[Any], Optional[bytes]]) -> Any:
    """Returns what a function makes of the column of each group."""
    return grouped.apply(partial(_of_group, image_of=image_of))


def _image_of_values(column: Any, lg_k: int, width: int) -> bytes:
    sketch = Sketch(lg_k, width)
    sketch.update_many(column)
    return sketch.to_bytes()


def _image_of_images(column: Any, bounds: _Bounds) -> Optional[bytes]:
    """Returns the union of a group. Errors have its key and the label of the row."""
    labels, key = column.index, _group_of(column)

    def place_of(number: int) -> Tuple[int, str]:
        return number, f"{key}, row {shown_key(labels[number])}"

    return _placed(list(column), bounds, place_of)[0]


def _union_of_images(column: Any, bounds: _Bounds) -> Optional[bytes]:
    """Returns the union of the images that were made of parts of a group."""
    parts: List[Part] = [(image, []) for image in column]
    return _merged(parts, bounds, f"a part of {_group_of(column)}")[0]


def _at_width(image: Any, bounds: _Bounds) -> Any:
    return merged([image], bounds.lg_max_k, bounds.width) if isinstance(image, bytes) else None


def _aggregation(
    name: str, of_column: Callable[[Any], Optional[bytes]], bounds: _Bounds
) -> Any:
    """Returns an aggregation whose parts are images. They are merged, and get their width at the end."""
    from dask.dataframe import Aggregation

    return Aggregation(
        name,
        chunk=partial(_each, image_of=of_column),
        agg=partial(_each, image_of=partial(_union_of_images, bounds=bounds)),
        finalize=lambda images: images.map(partial(_at_width, bounds=bounds)),
    )


def sketch_aggregation(lg_k: int = 12, width: int = 8, *, name: Optional[str] = None) -> Any:
    """Return an aggregation that makes a sketch of each group's values.

        frame.groupby("day").agg({"visitor": sketch_aggregation()})

    Parameters
    ----------
    lg_k : int
        The ``lg_k`` of the sketches, 4 to 21.
    width : int
        The bits of a register, 4, 6 or 8.
    name : str, optional
        The name of the aggregation for Dask; by default ``hll_sketch_12_8`` with the numbers above.
        Aggregations on one column need different names.

    Returns
    -------
    dask.dataframe.Aggregation
        Its result is an image, as bytes, for each group, or None for a group that has only missing
        values. Values count as for ``Sketch.update_many``; missing values are skipped. An error has the
        key of the group.
    """
    lg_k, width = checked_lg_k(lg_k), checked_width(width)
    of_column = partial(_image_of_values, lg_k=lg_k, width=width)
    return _aggregation(
        name or f"hll_sketch_{lg_k}_{width}", of_column, _Bounds(lg_k, width, False)
    )


def union_aggregation(
    lg_max_k: Optional[int] = None, width: Optional[int] = None, *, name: Optional[str] = None
) -> Any:
    """Return an aggregation that merges the images of each group.

        frame.groupby("day").agg({"image": union_aggregation()}, split_out=4)

    Parameters
    ----------
    lg_max_k, width : int, optional
        As for ``hll_sketches.union_of``.
    name : str, optional
        The name of the aggregation for Dask; by default ``hll_union``, followed by the numbers above
        that are given. Aggregations on one column need different names.

    Returns
    -------
    dask.dataframe.Aggregation
        Its result is an image, as bytes, for each group, or None for a group without images. It
        raises ``PlacedImageError`` if a row's bytes are not an image: ``place`` has the key of the group and
        the row's label.
    """
    bounds = _bounds(lg_max_k, width)
    given = [str(number) for number in (lg_max_k, width) if number is not None]
    of_column = partial(_image_of_images, bounds=bounds)
    return _aggregation(name or "_".join(["hll_union", *given]), of_column, bounds)
