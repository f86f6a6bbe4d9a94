# SPDX-License-Identifier: Apache-2.0
"""The tests of hll_sketches.dask, on a cluster of three worker processes; `check` runs them by a Python that has Dask."""
import datetime
import functools
import io
import logging
import os
import pathlib
import pickle
import random
import signal
import subprocess
import sys
import tempfile
import time
import types
from unittest import mock

import dask.bag
import dask.callbacks
import dask.dataframe
import fsspec
import pandas
from distributed import Client, LocalCluster

import hll_sketches.dask
from hll_sketches import ArgumentError, PrecisionError, Sketch, union_of
from hll_sketches.dask import (
    LeftOut, PlacedImageError, sketch_aggregation, union_aggregation, union_by_key, union_of_bag, union_of_files)
from images import built_program, random_image, with_words
from report import check, comparisons, equal
from slow import SlowPath, opened
from tap import Tap, run_part

FILES = 2000 if "--quick" in sys.argv else 10000


# ---- images and files

files_at_12, bag_at_12, by_key_at_12 = (
    functools.partial(call, lg_max_k=12, width=8) for call in (union_of_files, union_of_bag, union_by_key))


def random_images(count, lg_k=None):
    """Images, of which 500 differ."""
    numbers = random.Random(9001)
    few = [random_image(numbers, lg_k) for _ in range(min(count, 500))]
    return [few[n] if n < len(few) else numbers.choice(few) for n in range(count)]


def write_files(folder, images, name="image"):
    paths = []
    for number, image in enumerate(images):
        path = folder / ("%s %05d.bin" % (name, number))
        path.write_bytes(image)
        paths.append(str(path))
    return paths


@functools.lru_cache(None)
def program():
    return os.environ.get("HLL_MERGE") or built_program()


def union_by_program(images, lg_max_k=12, width=8):
    """The image of a union, as the program prints it, with the words that it leaves."""
    plan = ["image " + image.hex() for image in images] + ["union %d %d %d" % (len(images), lg_max_k, width)]
    done = subprocess.run([program()], input="\n".join(plan).encode(), stdout=subprocess.PIPE, check=True)
    return with_words(bytes.fromhex(done.stdout.decode()))


def image_by(lazy):
    """The image of what is to be computed."""
    return lazy.compute().to_bytes()


def error_of(lazy):
    """How it is refused: reason, number and place; None where it isn't."""
    try:
        lazy.compute()
    except PlacedImageError as error:
        again = pickle.loads(pickle.dumps(error))
        equal("a pickled error", (again.reason, again.number, str(again)), (error.reason, error.number, str(error)))
        equal("the words of an error", str(error).split(" (")[0], "%s: image is rejected: %s" % (error.place, error.reason))
        return error.reason, error.number, error.place
    return None


# ---- parts


def files(client, folder, images, paths):
    """Any grouping, order and repetition, bound and width."""
    wanted = union_by_program(images)
    equal("files", image_by(files_at_12(paths)), wanted)
    twice = [pathlib.Path(path) for path in paths[::-1] + paths]
    equal("files backwards and twice", image_by(files_at_12(twice)), wanted)
    urls = ["file://" + path for path in paths[:300]]
    equal("URLs", image_by(files_at_12(urls)), union_by_program(images[:300]))
    equal("bound and width", image_by(union_of_files(iter(paths), 10, 4)), union_by_program(images, 10, 4))
    some = files_at_12(paths[:2000], files_per_task=7, split_every=3)
    equal("files in small tasks", image_by(some), union_by_program(images[:2000]))
    for count in (0, 1, 8, 9, 64, 65):
        found = image_by(files_at_12(paths[:count], files_per_task=1))
        equal("%d files" % count, found, union_by_program(images[:count]))
    larger = random_images(100, 14)
    found = image_by(union_of_files(write_files(folder, larger, "larger"), 13, files_per_task=9, split_every=2))
    equal("larger sketches", found, union_by_program(larger, 13, 8))
    equal("lg_k of larger sketches", found[3], 13)


def refused_files(client, folder, images, paths):
    """A corrupt image among all by its file, its number and its reason; and a file that is missing."""
    number = len(paths) * 3 // 4 + 5
    good = images[number]
    for name, image, reason in (("cut", good[:5], "truncated"), ("empty", b"", "truncated"),
                                ("other", good[:2] + b"\x03" + good[3:], "family")):
        bad = folder / ("bad %s.bin" % name)
        bad.write_bytes(image)
        changed = paths[:number] + [str(bad)] + paths[number + 1:]
        equal("refused file, " + name, error_of(files_at_12(changed)), (reason, number, str(bad)))
    missing = str(folder / "missing")
    try:
        files_at_12(paths[:300] + [missing]).compute()
        check("missing file", False)
    except FileNotFoundError as error:
        equal("missing file", error.filename, missing)


def patterns(client, folder, images, paths):
    """A name or a pattern, of the local file system and of another one that has options of its own."""
    wanted = union_by_program(images)
    equal("a pattern", image_by(files_at_12(str(folder / "image *.bin"))), wanted)
    equal("one name", image_by(files_at_12(paths[7])), union_by_program(images[7:8]))
    options = {"target_protocol": "file", "cache_storage": str(folder / "cache")}
    found = image_by(files_at_12("simplecache://" + str(folder / "image 0000*.bin"), storage_options=options))
    equal("storage_options with a pattern", found, union_by_program(images[:10]))
    urls = ["simplecache://" + path for path in paths[:10]]
    equal("storage_options with names", image_by(files_at_12(urls, storage_options=options)), union_by_program(images[:10]))
    check("the other file system was asked", len(os.listdir(folder / "cache")) >= 10)
    for pattern in ("none*.bin", "none.bin"):
        try:
            files_at_12(str(folder / pattern)).compute()
            check("no file, " + pattern, False)
        except FileNotFoundError as error:
            check("no file, " + pattern, str(folder / pattern) in str(error), error)


def left_out(client, folder, images, paths):
    """With on_error="skip" what is refused is left out, and named in the answer."""
    cut, missing = folder / "cut.bin", folder / "missing"
    cut.write_bytes(images[3][:5])
    some = paths[:200] + [str(cut)] + paths[200:300] + [str(missing)]
    found = files_at_12(some, on_error="skip", files_per_task=9, split_every=2).compute()
    equal("files skipped: the union", found.union.to_bytes(), union_by_program(images[:300]))
    equal("files skipped: names", found.refused, [(str(cut), "truncated"), (str(missing), "No such file or directory")])
    equal("none skipped", files_at_12(paths[:300], on_error="skip").compute(), LeftOut(found.union, []))

    bag = dask.bag.from_sequence([images[0], images[1][:4], images[2]], npartitions=3)
    found = bag_at_12(bag, on_error="skip").compute()
    equal("items skipped", (found.union.to_bytes(), found.refused),
          (union_by_program([images[0], images[2]]), [("partition 1, item 0", "truncated")]))

    frame = pandas.DataFrame({"day": [1, 1, 2, 2], "image": [images[0], b"", images[1], images[2]]})
    found = by_key_at_12(dask.dataframe.from_pandas(frame, npartitions=1), "day", "image", on_error="skip").compute()
    equal("rows skipped", (found.union.to_dict(), found.refused),
          ({1: union_by_program(images[:1]), 2: union_by_program(images[1:3])}, [("key 1, partition 0, row 1", "truncated")]))
    frame = pandas.DataFrame({"day": [n % 2 for n in range(40)], "image": [images[n] if n % 9 else b"" for n in range(40)]})
    parts = dask.dataframe.from_pandas(frame, npartitions=10)
    found = by_key_at_12(parts, "day", "image", on_error="skip", split_every=2).compute()
    wanted = [("key %d, partition %d, row %d" % (n % 2, *divmod(n, 4)), "truncated") for n in range(0, 40, 9)]
    equal("rows skipped in a tree", found.refused, wanted)
    try:
        union_of_files(paths, on_error="ignore")
        check("on_error", False)
    except ArgumentError as error:
        equal("on_error", str(error), "on_error is 'raise' or 'skip', not 'ignore'")


def large_files(client, folder, images, paths):
    """Of a file that is more than one image few more bytes are read than its header announces, and an allocation that fails is an
    error of its file."""
    large, wanted, others = folder / "large.bin", union_by_program(images[:20]), union_by_program(images[:7] + images[8:20])
    large.write_bytes(images[7])
    os.truncate(large, 1 << 40)     # with holes; all of it is more than any memory
    files = paths[:7] + [str(large)] + paths[8:20]
    opened_ones = fsspec.open_files([str(large)], "rb")
    for name, some in (("a path", files), ("a URL", paths[:7] + ["file://%s" % large] + paths[8:20]),
                       ("an open file", paths[:7] + opened_ones + paths[8:20])):
        found = files_at_12(some, on_error="skip").compute()
        equal("a large file, %s" % name, (found.union.to_bytes(), [why for _, why in found.refused]), (others, ["trailing"]))
    endless = files_at_12(paths[:20] + ["/dev/zero"], on_error="skip").compute()
    equal("an endless file", (endless.union.to_bytes(), endless.refused), (wanted, [("/dev/zero", "family")]))

    def failing(path):
        if path == str(large):
            raise MemoryError
        return pathlib.Path(path).read_bytes()

    with mock.patch.object(hll_sketches.dask, "read_path", failing):
        found = files_at_12(files, on_error="skip").compute(scheduler="synchronous")
        equal("a failed allocation", (found.union.to_bytes(), found.refused),
              (others, [(str(large), "an allocation failed")]))
        try:
            files_at_12(files).compute(scheduler="synchronous")
            check("a failed allocation is raised", False)
        except MemoryError:
            check("a failed allocation is raised", True)
    with mock.patch.object(hll_sketches.dask, "fault_of", side_effect=MemoryError):
        found = files_at_12(paths[:2], on_error="skip").compute(scheduler="synchronous")
    equal("a failed allocation of the library", [reason for _, reason in found.refused], ["an allocation failed"] * 2)


def aggregations(client, folder, images, paths):
    """groupby(..).agg(..) beside sketches that are made by group, in any tree; what is missing is passed over."""
    numbers, count = random.Random(6), 20000
    frame = pandas.DataFrame({
        "day": [numbers.randrange(9) for _ in range(count)], "page": [numbers.choice("abc") for _ in range(count)],
        "number": [numbers.randrange(5000) for _ in range(count)], "real": [numbers.choice([0.5, -0.0, None]) for _ in range(count)],
        "text": [numbers.choice(["ann", "bob", None, "\u00e9"]) for _ in range(count)],
        "image": [numbers.choice(images[:300]) for _ in range(count)]})
    frame.loc[:50, "image"] = None
    parts = dask.dataframe.from_pandas(frame, npartitions=13)
    whole = dask.dataframe.from_pandas(frame, npartitions=1)
    for source, column, lg_k, width in ((whole, "number", 14, 6), (parts, "number", 10, 4), (parts, "real", 12, 8), (parts, "text", 4, 8)):
        wanted = {}
        for day, rows in frame.groupby("day")[column]:
            made = Sketch(lg_k, width)
            made.update_many(rows.dropna())
            wanted[day] = made.to_bytes()
        found = source.groupby("day")[column].agg(sketch_aggregation(lg_k, width), split_every=3).compute()
        equal("sketches of %s, lg_k %d" % (column, lg_k), found.to_dict(), wanted)

    keys = ["page", "day"]
    wanted = {key: union_by_program(list(rows.dropna()), 11, 6) for key, rows in frame.groupby(keys)["image"]}
    found = parts.groupby(keys).agg({"image": union_aggregation(11, 6), "number": "max"}, split_out=3).compute()
    equal("unions by two keys", found["image"].to_dict(), wanted)
    equal("beside another aggregation", found["number"].to_dict(), frame.groupby(keys)["number"].max().to_dict())

    frame.loc[777, "image"] = images[5][:6]
    bad = dask.dataframe.from_pandas(frame, npartitions=13).groupby("day")["image"].agg(union_aggregation(12))
    equal("a refused row of a group", error_of(bad)[::2], ("truncated", "key %s, row 777" % frame["day"][777]))
    refused_values()


def refused_values():
    """A value that can't be counted is named with the key of its group."""
    for value, kind in ((2**70, OverflowError), (datetime.date(2026, 11, 1), TypeError)):
        frame = pandas.DataFrame({"page": ["/a", "/b", "/b"], "value": pandas.Series([1, 2, value], dtype=object)})
        try:
            dask.dataframe.from_pandas(frame, npartitions=1).groupby("page")["value"].agg(sketch_aggregation()).compute()
            told = None
        except kind as error:
            told = str(error)
        check("the key of a value that is refused", str(told).startswith("key '/b': "), told)


def progress_is_shown(client, folder, images, paths):
    """Of the tasks of this machine's schedulers, if standard error is a terminal and tqdm is there."""
    made = union_of_files(paths[:300], 12, 8, files_per_task=30)
    wanted = made.compute().to_bytes()
    with hll_sketches.dask.progress():
        equal("no terminal", image_by(made), wanted)
    seen = []

    class Shown(io.StringIO):
        def isatty(self):
            return True

    class Callback(dask.callbacks.Callback):
        def __init__(self, **more):
            super().__init__(start=lambda graph: seen.append(len(graph)), posttask=lambda *_: seen.append(1))
            seen.append((more["delay"], more["leave"]))

    modules = {"tqdm": types.ModuleType("tqdm"), "tqdm.dask": types.SimpleNamespace(TqdmCallback=Callback)}
    with mock.patch.object(sys, "stderr", Shown()), mock.patch.dict(sys.modules, modules):
        with hll_sketches.dask.progress():
            equal("with progress", made.compute(scheduler="threads").to_bytes(), wanted)
    equal("its delay", seen[0], (1.0, False))
    check("all tasks are counted", sum(seen[2:]) == seen[1] > 10, seen)
    with mock.patch.object(sys, "stderr", Shown()), mock.patch.dict(sys.modules, {"tqdm": None, "tqdm.dask": None}):
        with hll_sketches.dask.progress():
            equal("without tqdm", made.compute(scheduler="threads").to_bytes(), wanted)


def arguments(client, folder, images, paths):
    for some in ((3,), (22,), (12, 5)):
        try:
            union_of_files(paths, *some)
            check("arguments %s" % (some,), False)
        except ArgumentError:
            check("arguments", True)


def sketch_of(lg_k, count, width=8, first=0):
    made = Sketch(lg_k, width)
    made.update_many(range(first, first + count))
    return made


def refused_lg_k(lazy):
    """How sketches of another lg_k are refused: both lg_k and the place; None where they aren't."""
    try:
        lazy.compute()
    except PrecisionError as error:
        return {error.lg_k, error.other_lg_k}, error.place
    return None


def precision(client, folder, images, paths):
    """Without a bound sketches of one lg_k are merged at it, in any tree, and no others; empty ones count for nothing."""
    numbers = random.Random(8)
    sketches = [sketch_of(14, numbers.choice((3, 300, 40000)), 4, numbers.randrange(90000)) for _ in range(60)]
    empty = [Sketch(9), Sketch(21, 6), Sketch(14)]
    mixed = sketches + empty * 5
    numbers.shuffle(mixed)
    wanted = union_of(sketches).to_bytes()
    equal("lg_k and width of the sketches", (wanted[3], Sketch.from_bytes(wanted).width), (14, 4))
    files = write_files(folder, [one.to_bytes() for one in mixed], "fine")
    frame = pandas.DataFrame({"day": [1] * len(mixed), "image": [one.to_bytes() for one in mixed]})
    for parts in (1, 7, 30):
        tree = {"files_per_task": -(-len(files) // parts), "split_every": 2}
        equal("files in %d tasks" % parts, image_by(union_of_files(files, **tree)), wanted)
        bag = dask.bag.from_sequence(mixed, npartitions=parts)
        equal("a bag in %d parts" % parts, image_by(union_of_bag(bag, split_every=2)), wanted)
        table = dask.dataframe.from_pandas(frame, npartitions=parts)
        equal("rows in %d parts" % parts, union_by_key(table, "day", "image", split_every=2).compute().to_dict(), {1: wanted})
        found = table.groupby("day")["image"].agg(union_aggregation(), split_every=2).compute()
        equal("groups in %d parts" % parts, found.to_dict(), {1: wanted})
    none = union_of_bag(dask.bag.from_sequence(empty * 4, npartitions=6), split_every=2)
    equal("empty sketches", image_by(none), union_of(empty).to_bytes())
    equal("their lg_k", image_by(none)[3], 21)
    equal("no sketches", image_by(union_of_files([])), Sketch().to_bytes())

    odd = sketch_of(11, 5)
    files.insert(17, write_files(folder, [odd.to_bytes()], "odd")[0])
    equal("an odd file", refused_lg_k(union_of_files(files, files_per_task=100)), ({11, 14}, files[17]))
    equal("an odd file in a tree", refused_lg_k(union_of_files(files, files_per_task=1, split_every=2))[0], {11, 14})
    skipped = union_of_files(files[:17] + [str(folder / "none")] + files[17:], on_error="skip", files_per_task=100)
    equal("an odd file after one that is skipped", refused_lg_k(skipped), ({11, 14}, files[17]))
    bag = dask.bag.from_sequence(sketches[:30] + [odd], npartitions=1)
    equal("an odd item", refused_lg_k(union_of_bag(bag)), ({11, 14}, "partition 0, item 30"))
    frame.loc[40, "image"] = odd.to_bytes()
    table = dask.dataframe.from_pandas(frame, npartitions=1)
    equal("an odd row", refused_lg_k(union_by_key(table, "day", "image")), ({11, 14}, "key 1, partition 0, row 40"))
    equal("an odd row of a group", refused_lg_k(table.groupby("day")["image"].agg(union_aggregation())), ({11, 14}, "key 1, row 40"))
    table = dask.dataframe.from_pandas(frame, npartitions=len(frame))
    equal("an odd part of a group", refused_lg_k(table.groupby("day")["image"].agg(union_aggregation())), ({11, 14}, "a part of key 1"))
    both = union_of([*sketches, odd], 14, 4).to_bytes()
    equal("with a bound", image_by(union_of_files(files, 14, 4)), both)


def missing_values(client, folder, images, paths):
    """A group of missing values alone has no sketch, as in SQL, and an empty sketch is one."""
    image = sketch_of(12, 5).to_bytes()
    frame = pandas.DataFrame({"day": [1, 1, 2, 2, 3], "image": [image, None, None, None, Sketch(12).to_bytes()],
                              "number": [1.0, None, None, None, 7.0]})
    for parts in (1, 3, 5):
        groups = dask.dataframe.from_pandas(frame, npartitions=parts).groupby("day")
        found = groups["image"].agg(union_aggregation()).compute().to_dict()
        equal("missing images in %d parts" % parts, found, {1: image, 2: None, 3: Sketch(12).to_bytes()})
        found = groups["number"].agg(sketch_aggregation()).compute()
        equal("missing numbers in %d parts" % parts, [found[day] is None for day in (1, 2, 3)], [False, True, False])


def several_aggregations(client, folder, images, paths):
    """Any number of aggregations on a column; what they can't take is refused by their own error, when it is computed."""
    frame = pandas.DataFrame({"day": [1, 1, 2], "visitor": ["ann", "bob", "foo"], "time": pandas.to_datetime(["2026-11-01"] * 3),
                              "image": [sketch_of(12, n).to_bytes() for n in (1, 2, 3)]})
    table = dask.dataframe.from_pandas(frame, npartitions=2).groupby("day")
    found = table.agg({"visitor": [sketch_aggregation(), sketch_aggregation(10, 4), "count"],
                       "image": [union_aggregation(), union_aggregation(10), union_aggregation(width=6)]}).compute()
    names = ["hll_sketch_12_8", "hll_sketch_10_4", "count", "hll_union", "hll_union_10", "hll_union_6"]
    equal("names of aggregations", [name for _, name in found.columns], names)
    made = Sketch(10, 4)
    made.update_many(["ann", "bob"])
    equal("one of several", found["visitor"]["hll_sketch_10_4"][1], made.to_bytes())
    for column, aggregation, words in (("time", sketch_aggregation(), "datetime64[ns] can't be counted"), ("visitor", union_aggregation(), "not str")):
        lazy = table[column].agg(aggregation)
        try:
            lazy.compute(scheduler="threads")
            check("a column of %s" % column, False)
        except TypeError as error:
            check("a column of %s" % column, words in str(error), error)


def bags(client, folder, images, paths):
    some = images[:2000]
    bag = dask.bag.from_sequence(some, npartitions=20)
    equal("bag", image_by(bag_at_12(bag)), union_by_program(some))
    equal("bag of sketches", image_by(union_of_bag(bag.map(Sketch.from_bytes), 11, 6)), union_by_program(some, 11, 6))
    bad = dask.bag.from_sequence(some[:1234] + [b"\x02\x01\x07\x0a"] + some[1235:], partition_size=100)
    equal("refused item", error_of(bag_at_12(bad)), ("truncated", 34, "partition 12, item 34"))


def keys(client, folder, images, paths):
    """By one key and by two; rows without a key or an image are passed over."""
    numbers, some = random.Random(5), images[:2000]
    frame = pandas.DataFrame({"day": [numbers.randrange(12) for _ in some], "page": [numbers.choice("abc") for _ in some],
                              "image": some})
    frame.loc[77, "image"] = None
    frame.loc[99, "page"] = None
    parts = dask.dataframe.from_pandas(frame, npartitions=17)

    wanted = {key: union_by_program(list(rows.dropna()), 12, 4) for key, rows in frame.groupby("day")["image"]}
    found = by_key_at_12(parts, "day", "image", width=4).compute()
    equal("by key", found.to_dict(), wanted)
    equal("names and order", (found.index.name, found.name, list(found.index)), ("day", "image", sorted(wanted)))

    wanted = {key: union_by_program(list(rows.dropna())) for key, rows in frame.groupby(["page", "day"])["image"]}
    found = by_key_at_12(parts, ["page", "day"], "image", split_every=2).compute()
    equal("by two keys", (found.to_dict(), list(found.index.names)), (wanted, ["page", "day"]))

    none = dask.dataframe.from_pandas(frame[:0], npartitions=1)
    equal("no rows", len(union_by_key(none, ["page", "day"], "image").compute()), 0)
    arrow(frame[:1000])
    frame.loc[1537, "image"] = frame["image"][1537][:7]
    bad = dask.dataframe.from_pandas(frame, chunksize=100, sort=False)
    equal("refused row", error_of(by_key_at_12(bad, "day", "image")), ("truncated", 37, "key %s, partition 15, row 37" % frame["day"][1537]))


def arrow(frame):
    """A column of Arrow is that of pandas."""
    try:
        import pyarrow
    except ImportError:
        print("# not tried: a column of Arrow, as there is no pyarrow, which the distribution may not have")
        return
    frames = [frame, frame.assign(image=pandas.array(frame["image"], dtype=pandas.ArrowDtype(pyarrow.binary())))]
    first, second = (by_key_at_12(dask.dataframe.from_pandas(one, npartitions=5), "day", "image").compute() for one in frames)
    equal("Arrow", second.to_dict(), first.to_dict())


def columns(client, folder, images, paths):
    """The values of a column are counted, and a whole table, whose names would be, is refused."""
    table = pandas.DataFrame({"number": [1, 2, 2], "text": ["x", "y", "x"], "real": [0.5, -0.0, 0.0]})
    wanted = {"number": [1, 2], "text": ["x", "y"], "real": [0.5, 0.0]}
    for name, values in wanted.items():
        made, again = Sketch(), Sketch()
        made.update_many(table[name])
        again.update_many(values)
        equal("a column of %s" % name, made.to_bytes(), again.to_bytes())
    try:
        Sketch().update_many(table)
        told = None
    except TypeError as error:
        told = str(error)
    equal("a whole table", told, "expected many values, not a DataFrame: pass one of its columns")


def lost_worker(client, folder, images, paths):
    """A worker is killed in the middle: its tasks are run again, and the union is the same."""
    log = folder / "opened"
    log.mkdir()
    slow = [SlowPath(path, str(log), 0.0005) for path in paths]
    wanted = union_by_program(images)
    future = client.compute(files_at_12(slow, files_per_task=20, split_every=64))
    while sum(opened(log).values()) < len(paths) // 3:
        time.sleep(0.01)
    victim, is_early = max(opened(log), key=opened(log).get), not future.done()
    os.kill(victim, signal.SIGKILL)
    equal("a worker killed", future.result(timeout=120).to_bytes(), wanted)
    times = opened(log)
    check("the worker was killed in the middle", is_early and victim not in client.run(os.getpid).values(), times)
    check("its tasks were run again", sum(times.values()) > len(paths), times)
    check("three workers had their part", len(times) >= 3, times)
    print("# %d files, opened %d times, by %d processes" % (len(paths), sum(times.values()), len(times)))


PARTS = [
    files, refused_files, patterns, left_out, large_files, aggregations, progress_is_shown, arguments, precision, missing_values, several_aggregations, bags, keys,
    columns, lost_worker]


def main():
    results = Tap(word for word in sys.argv[1:] if not word.startswith("--"))
    logging.disable(logging.ERROR)
    images = random_images(FILES)
    with tempfile.TemporaryDirectory(prefix="hll-") as name:
        folder = pathlib.Path(name)
        paths = write_files(folder, images)
        # what workers say when one of them is killed, and when they end
        os.dup2(os.open(folder / "log", os.O_WRONLY | os.O_CREAT), 2)
        options = {"threads_per_worker": 1, "processes": True, "dashboard_address": None, "local_directory": name}
        with LocalCluster(n_workers=3, **options) as cluster, Client(cluster) as client:
            for part in PARTS:
                run_part(results, comparisons, part.__name__, functools.partial(part, client, folder, images, paths))
    return results.finish()


if __name__ == "__main__":
    sys.exit(main())
