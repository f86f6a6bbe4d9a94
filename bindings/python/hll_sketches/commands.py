# SPDX-License-Identifier: Apache-2.0
"""The commands of ``hll``. Each returns the exit status of the program."""
from __future__ import annotations

import json
import math
import os
import struct
import sys
import time
from argparse import Namespace
from contextlib import suppress
from typing import Any, Callable, Dict, Iterator, List, Optional, Tuple

from . import _library, counting
from ._errors import ArgumentError
from ._names import shown
from .files import STANDARD, UNUSABLE, OutputTrouble, Trouble, bytes_of_file, check_output
from .files import check_lg_k, image_of_file, image_trouble, is_database, is_nothing, locked, of_bytes
from .files import of_file, touch, write_file
from .finding import Tell, found, names_in
from .layout import DATABASE, STAGES, estimator_fields_of, flags_of, registers_of, size_of
from .lines import Reader
from .progress import Bar
from .tables import aligned

OK, DIFFER = 0, 1

Record = Dict[str, Any]


def say(words: object) -> None:
    """Writes a line to standard error."""
    if sys.stderr is not None:
        with suppress(OSError):
            print(f"hll: {words}", file=sys.stderr, flush=True)


def put_text(text: str) -> None:
    """Writes text to standard output."""
    try:
        print(text, end="")
    except OSError as error:
        raise OutputTrouble(error) from None


def put_line(text: object) -> None:
    """Writes text and a line end to standard output."""
    put_text(f"{text}\n")


def show(document: object) -> None:
    """Writes one JSON document to standard output."""
    put_line(json.dumps(document, indent=2))


def finite(number: float) -> Optional[float]:
    """Returns a number that JSON can represent, or None."""
    return number if math.isfinite(number) else None


def each(names: List[str], call: Callable[[str], None], is_quiet: bool) -> int:
    """Calls ``call`` for each file, prints each error, and returns the worst status. If nothing is printed to
    a terminal meanwhile, it shows the progress."""
    worst = OK
    with Bar("file", len(names), is_wanted=is_quiet) as bar:
        for name in names:
            try:
                call(name)
            except OutputTrouble:
                raise
            except Trouble as trouble:
                say(trouble)
                worst = max(worst, trouble.status)
            bar.more(1)
    return worst


def _is_seen() -> bool:
    """Returns whether standard output is a terminal."""
    return sys.stdout is not None and sys.stdout.isatty()


# ---- what is written


def finished(image: bytes, plain: bool) -> bytes:
    """Returns the image as it is written: with estimator fields, unless ``plain`` asks for zeros.

    Estimator fields that another library wrote are kept.
    """
    if plain:
        return _library.clear_estimator_fields(image)
    return _library.set_estimator_fields(image) if estimator_fields_of(image) == "zero" else image


def put(options: Namespace, image: bytes, more: Optional[Record] = None, is_new: bool = False) -> int:
    """Writes an image to the output, which may have to be new, and prints a summary if ``--json`` asks for it."""
    check_output(options.output, options.force)
    write_file(options.output, image, is_new)
    if options.json:
        show({"output": options.output, **(more or {}), **summary(image)})
    return OK


# ---- info and estimate


def summary(image: bytes, deviations: int = 2) -> Record:
    """Returns what is printed about an image. Raises ``ImageError`` if it is not an image.

    Coupons are read once and written in the library's order, which is quick to read afterwards.
    """
    is_coupons = STAGES[_library.head(image).stage] != "registers"
    quick = _library.convert(image, _library.width_in(image)) if is_coupons else image
    facts, found_ = _library.info(quick), _library.estimation(quick)
    record: Record = {
        "stage": STAGES[facts.stage],
        "lg_k": facts.lg_k,
        "width": facts.width,
        "bytes": size_of(image),
        "flags": flags_of(image),
        "estimate": finite(found_.estimate),
        "lower": finite(found_.lower[deviations - 1]),
        "upper": finite(found_.upper[deviations - 1]),
        "deviations": deviations,
    }
    if facts.stage != 2:
        return {**record, "coupons": facts.coupons}
    bits = struct.pack("<3Q", facts.hip, facts.kxq0, facts.kxq1)
    numbers = map(finite, struct.unpack("<3d", bits))
    named = dict(zip(("hip", "kxq0", "kxq1"), numbers))
    kept = _library.hip_estimation(image)
    named["hip_estimate"] = None if kept is None else kept.estimate
    return {**record, "zeros": facts.zeros, "estimator_fields": estimator_fields_of(image), **named}


def rounded(number: Optional[float]) -> str:
    """Returns a number as people read it."""
    return "infinite" if number is None else f"{number:,.0f}"


def plain_number(number: Optional[float]) -> str:
    """Returns a number as programs read it, without commas."""
    return rounded(number).replace(",", "")


_FIELDS = {
    "zero": "zero: other libraries can't estimate from them",
    "set": "set: other libraries estimate from them",
    "other": "those of another program",
}


def described(name: str, facts: Record) -> str:
    """Returns lines about an image."""
    bounds = f"{rounded(facts['lower'])} to {rounded(facts['upper'])}"
    number = 1 << facts["lg_k"]
    rows = [
        ("stage", facts["stage"]),
        ("lg_k", f"{facts['lg_k']}, so {number:,} registers"),
        ("width", f"{facts['width']} bits"),
        ("estimate", rounded(facts["estimate"])),
        ("bounds", f"{bounds}, at {facts['deviations']} standard deviations"),
    ]
    if "coupons" in facts:
        rows.append(("coupons", f"{facts['coupons']:,}"))
    else:
        rows += [("zeros", f"{facts['zeros']:,}"), ("fields", _FIELDS[facts["estimator_fields"]])]
        if facts["hip_estimate"] is not None:
            rows.append(("hip", f"{rounded(facts['hip_estimate'])}, as its writer counted"))
    rows.append(("flags", ", ".join(facts["flags"]) or "none"))
    rows.append(("bytes", f"{facts['bytes']:,}"))
    return "\n".join([f"{shown(name)}:", *(f"  {key:<9} {value}" for key, value in rows)])


_COLUMNS = ("lg_k", "width", "stage", "fields", "estimate", "lower", "upper", "bytes", "file")
_NUMBERS = ("lg_k", "width", "estimate", "lower", "upper", "bytes")


def _row_of(facts: Record) -> List[str]:
    """Returns the cells of an image in the table of ``info``."""
    numbers = {key: rounded(facts[key]) for key in _NUMBERS}
    texts = {"stage": facts["stage"], "file": shown(facts["file"]), "fields": facts.get("estimator_fields", "none")}
    return [{**numbers, **texts}[key] for key in _COLUMNS]


def _agreement(left: bytes, right: bytes) -> str:
    """Returns words about whether two images agree."""
    lg_k = min(map(_library.lg_k_in, (left, right)))
    if _library.agree(left, right):
        return f"yes, at lg_k {lg_k}"
    return f"no, in {len(_differing(left, right, lg_k)):,} of {1 << lg_k:,} slots at lg_k {lg_k}"


def _no_intersection(facts: List[Record]) -> str:
    """Returns why two sketches and their union give no size of an intersection."""
    if any(one["estimate"] is None for one in facts):
        return "not estimated: an estimate is infinite"
    one, two, both = (one["estimate"] for one in facts)
    error = sum((one["upper"] - one["lower"]) / 2 for one in facts)
    numbers = f"{rounded(one)} + {rounded(two)} - {rounded(both)} = {rounded(one + two - both)}"
    return f"not estimated: {numbers} has the errors of three estimates, together {rounded(error)}"


def _pair(images: List[bytes], records: List[Record], deviations: int) -> str:
    """Returns lines about two images: whether they agree, their union, and why there is no intersection."""
    union = _library.merge(max(_library.lg_k_in(image) for image in images), 8, *images)
    facts = summary(union, deviations)
    bounds = f"{rounded(facts['lower'])} to {rounded(facts['upper'])}, at {deviations} standard deviations"
    rows = [
        ("agree", _agreement(*images)),
        ("union", f"{rounded(facts['estimate'])}, at lg_k {facts['lg_k']}"),
        ("bounds", bounds),
        ("intersection", _no_intersection([*records, facts])),
    ]
    return "\n".join(["both:", *(f"  {key:<12}  {value}" for key, value in rows)])


def info(options: Namespace) -> int:
    """Prints what images say of their sketches: one in full, several in a table, and two also compared."""
    records: List[Record] = []
    images: List[bytes] = []
    are_two = len(options.files) == 2

    def one(name: str) -> None:
        data = bytes_of_file(name)
        facts = of_bytes(name, data, lambda image: summary(image, options.deviations))
        records.append({"file": name, **facts})
        if are_two and not options.json:
            images.append(_library.convert(data, facts["width"]))

    status = each(options.files, one, True)
    if options.json:
        show(records)
    elif len(options.files) == 1:
        for facts in records:
            put_line(described(facts["file"], facts))
    elif records:
        for line in aligned(_COLUMNS, list(map(_row_of, records)), _NUMBERS):
            put_line(line)
        if len(images) == 2:
            put_line(f"\n{_pair(images, records, options.deviations)}")
    return status


def estimate(options: Namespace) -> int:
    """Prints the estimates of images, or those of a database."""
    if any(map(is_database, options.files)):
        from . import keyed

        if len(options.files) > 1:
            raise Trouble(options.files[0], "a database of keys is estimated alone", UNUSABLE)
        return keyed.estimate(options)
    for option in ("by", "where", "top"):
        if getattr(options, option) is not None:
            name = options.files[0] if options.files else "estimate"
            raise Trouble(name, f"it is no database of keys, which --{option} is for", UNUSABLE)
    records: List[Record] = []
    troubles: List[Trouble] = []
    deviations = options.deviations or (2 if options.bounds else None)
    asked = ["estimate"] if deviations is None else ["estimate", "lower", "upper"]

    def refuse(trouble: Trouble) -> None:
        say(trouble)
        troubles.append(trouble)

    names = list(named_files(options, refuse))

    def one(name: str) -> None:
        facts = of_file(name, lambda image: summary(image, deviations or 2))
        record: Record = {"file": name, **{key: facts[key] for key in ("estimate", "lower", "upper", "deviations")}}
        if options.json or options.table:
            records.append(record)
            return
        numbers = [plain_number(record[key]) for key in asked]
        put_line("\t".join(numbers if names == [STANDARD] else [*numbers, shown(name)]))

    status = each(names, one, options.json or options.table or not _is_seen())
    if options.json:
        show(records)
    elif options.table and records:
        _put_estimates(records)
    return max(status, _worst(troubles, OK))


def _put_estimates(records: List[Record]) -> None:
    """Prints a table of estimates."""
    numbers = ["estimate", "lower", "upper"]
    rows = [[*(rounded(one[key]) for key in numbers), shown(one["file"])] for one in records]
    for line in aligned([*numbers, "file"], rows, numbers):
        put_line(line)


# ---- files and directories


def named_files(options: Namespace, refuse: Tell) -> Iterator[str]:
    """Returns the files of the command line, those in its directories, and those that a list names."""
    if not options.files and options.files_from is None:
        raise Trouble(options.command, "no files are named", UNUSABLE)
    yield from found(options.files, refuse, say)
    if options.files_from is not None:
        yield from found(names_in(options.files_from, options.null), refuse, say)


def _faults_in(name: str) -> Iterator[Tuple[str, Trouble]]:
    """Yields the reason and the error of a file that is not an image, or those of what is wrong in a database."""
    data = bytes_of_file(name)
    if data.startswith(DATABASE) and name != STANDARD:
        from . import keyed

        for reason, words in keyed.faults_of(name):
            yield reason, Trouble(name, words)
        return
    status = _library.check(data)
    if status != _library.OK:
        reason = _library.WORDS[status]
        yield reason, image_trouble(name, reason, data)


def check(options: Namespace) -> int:
    """Prints each file that is not an image, and why."""
    checked, refused = 0, []
    troubles: List[Trouble] = []

    def refuse(trouble: Trouble) -> None:
        say(trouble)
        troubles.append(trouble)

    with Bar("file") as bar:
        for name in bar.counted(named_files(options, refuse)):
            checked += 1
            bar.more(1)
            try:
                for reason, trouble in _faults_in(name):
                    refused.append({"file": trouble.name, "reason": reason})
                    if not options.json:
                        put_line(trouble)
            except Trouble as trouble:
                refuse(trouble)
    if options.json:
        show({"checked": checked, "refused": refused})
    return _worst(troubles, DIFFER if refused else OK)


def _worst(troubles: List[Trouble], else_: int) -> int:
    """Returns the worst status, or ``else_`` if nothing went wrong."""
    return max((trouble.status for trouble in troubles), default=else_)


def merge(options: Namespace) -> int:
    """Merges any number of files."""
    from .merging import processors, union_of_files

    if any(map(is_database, options.files)):
        from . import keyed

        for option in ("lg_k", "skip_bad", "plain", "files_from"):
            if getattr(options, option):
                words = f"it is a database of keys, and --{option.replace('_', '-')} doesn't go with databases"
                raise Trouble(next(filter(is_database, options.files)), words, UNUSABLE)
        return keyed.merge(options)
    check_output(options.output, options.force)
    left_out: List[Trouble] = []

    def refuse(trouble: Trouble) -> None:
        say(f"{trouble} (left out)" if options.skip_bad else trouble)
        left_out.append(trouble)

    with Bar("file") as bar:
        jobs = options.jobs or processors()
        names = bar.counted(named_files(options, refuse))
        answer = union_of_files(
            names, options.lg_k or 0, options.width, jobs, refuse, bar.more, say
        )
    if left_out and not options.skip_bad:
        return _worst(left_out, OK)
    if not answer.merged:
        raise Trouble("merge", "no image is left to merge", _worst(left_out, UNUSABLE))
    image = finished(answer.image, options.plain)
    lg_k = _library.lg_k_in(image)
    if options.lg_k is not None and lg_k < options.lg_k:
        say(f"merge: the result has lg_k {lg_k}, as a file has, and not {options.lg_k}")
    return put(options, image, {"merged": answer.merged, "left_out": _skipped(left_out)})


def _skipped(left_out: List[Trouble]) -> List[Record]:
    """Returns what JSON shows of files that are left out."""
    return [{"file": trouble.name, "reason": trouble.words} for trouble in left_out]


# ---- one image from another


def fold(options: Namespace) -> int:
    """Writes an image, or the images of a database, at a smaller ``lg_k``."""
    if is_database(options.file):
        from . import keyed

        return keyed.changed(options, lambda image: _library.fold(image, options.lg_k), lg_k=options.lg_k)

    def folded(image: bytes) -> bytes:
        try:
            return _library.fold(image, options.lg_k)
        except ArgumentError:
            words = f"its lg_k is {_library.lg_k_in(image)}, and a fold goes no higher"
            raise Trouble(options.file, words) from None

    return put(options, finished(of_file(options.file, folded), options.plain))


def convert(options: Namespace) -> int:
    """Writes an image, or the images of a database, at a width."""
    if is_database(options.file):
        from . import keyed

        return keyed.changed(options, lambda image: _library.convert(image, options.width), width=options.width)
    image = of_file(options.file, lambda image: _library.convert(image, options.width))
    return put(options, finished(image, options.plain))


def new(options: Namespace) -> int:
    """Writes an empty sketch. Does not overwrite a file."""
    return put(options, _library.new(options.lg_k, options.width), is_new=not options.force)


def count(options: Namespace) -> int:
    """Prints the estimated number of distinct values of inputs."""
    from . import keyed

    return keyed.count(options, say)


def get(options: Namespace) -> int:
    """Writes the union of the sketches of some keys."""
    from . import keyed

    return keyed.get(options)


def drop(options: Namespace) -> int:
    """Removes keys of a database."""
    from . import keyed

    return keyed.drop(options, say)


def dump(options: Namespace) -> int:
    """Prints a database as lines of JSON."""
    from . import keyed

    return keyed.dump(options)


def load(options: Namespace) -> int:
    """Merges lines of JSON into a database."""
    from . import keyed

    return keyed.load(options)


def add(options: Namespace) -> int:
    """Adds the lines of inputs to a sketch, or to the sketches of a database.

    The lines are read first. Then the file is locked, read, and replaced by its union with the
    sketch of the lines. So several ``add`` may run on one file at the same time without losing
    values, and none waits for the input of another. It waits for the lock for ten seconds, or with
    ``--wait`` for as long as another process holds it.
    """
    if options.db is not None:
        from . import keyed

        return keyed.add(options, say)
    begun, inputs = time.monotonic(), options.inputs or [STANDARD]
    lg_k = _library.lg_k_in(_image_before(options))
    options.output = options.output or options.file
    check_output(options.output, options.force)
    reader = Reader(options.layout)
    lines = counting.image_of(reader, inputs, lg_k)
    counting.say_sums(reader, len(inputs), begun, options.verbose, say)
    if options.create:
        touch(options.file)
    with locked(options.file, say if options.wait else None):
        image = check_lg_k(options.file, _image_before(options), lg_k)
        if reader.sums.counted:
            image = _library.merge(lg_k, _library.width_in(image), image, lines)
        sums: Record = {"lines": reader.sums.counted, "left_out": reader.sums.left_out}
        return put(options, finished(image, options.plain), sums)


def _image_before(options: Namespace) -> bytes:
    """Returns the image to which lines are added. With ``--create``, a file that doesn't exist or is empty is an
    empty sketch."""
    if options.create and is_nothing(options.file):
        return _library.new(options.lg_k or 12, options.width or 8)
    if not os.path.lexists(options.file):
        raise Trouble(options.file, "No such file or directory (--create makes it)", UNUSABLE)
    if os.path.exists(options.file) and not os.path.isfile(options.file):
        raise Trouble(options.file, "it is no plain file, which add changes (hll merge reads sketches from pipes)", UNUSABLE)
    image = image_of_file(options.file)
    for what, is_, wanted in (("lg_k", _library.lg_k_in(image), options.lg_k), ("width", _library.width_in(image), options.width)):
        if wanted not in (None, is_):
            raise Trouble(options.file, f"it has {what} {is_}, and not {wanted}")
    return image


# ---- comparing


def _differing(left: bytes, right: bytes, lg_k: int) -> List[Tuple[int, int, int]]:
    """Yields the slots that differ at an ``lg_k``, each with both values."""
    pairs = zip(registers_of(left, lg_k), registers_of(right, lg_k))
    return [(slot, one, two) for slot, (one, two) in enumerate(pairs) if one != two]


def diff(options: Namespace) -> int:
    """Compares two sketches at the smaller ``lg_k`` of both. Any error has status 2."""
    try:
        left, right = image_of_file(options.left), image_of_file(options.right)
    except Trouble as trouble:
        raise Trouble(trouble.name, trouble.words, UNUSABLE) from None
    lg_k = min(map(_library.lg_k_in, (left, right)))
    agree = _library.agree(left, right)
    slots = [] if agree else _differing(left, right, lg_k)
    shown = slots[: options.most]
    if options.json:
        rows = [dict(zip(("slot", "left", "right"), slot)) for slot in shown]
        show({"agree": agree, "lg_k": lg_k, "differing": len(slots), "slots": rows})
    elif not options.quiet:
        number = f"{len(slots):,} of {1 << lg_k:,} slots"
        put_line(f"agree at lg_k {lg_k}" if agree else f"differ at lg_k {lg_k}, in {number}")
        for slot, one, two in shown:
            put_line(f"slot {slot}: {one} and {two}")
        if len(shown) < len(slots):
            put_line(f"and {len(slots) - len(shown):,} slots more")
    return OK if agree else DIFFER


# ---- pictures


def plot(options: Namespace) -> int:
    """Draws the histogram of the registers, with the histogram that the estimate predicts; of a database, the estimates
    of its keys with their bounds."""
    from .plot import histogram_svg, png_of

    check_output(options.output, options.force)
    title = options.title or ("standard input" if options.file == STANDARD else os.path.basename(options.file))
    if is_database(options.file):
        from . import keyed

        data = keyed.picture(options, title).encode("utf-8")
    else:
        for option in ("by", "where", "top"):
            if getattr(options, option) is not None:
                raise Trouble(options.file, f"it is no database of keys, which --{option} is for", UNUSABLE)
        data = histogram_svg(image_of_file(options.file), title).encode("utf-8")
    if options.output.lower().endswith(".png"):
        try:
            data = png_of(data)
        except (ImportError, OSError) as error:     # cairosvg, or the library that it loads
            words = f"a PNG needs the Python package cairosvg, in Debian python3-cairosvg ({error}): write an SVG"
            raise Trouble(options.output, words, UNUSABLE) from None
    write_file(options.output, data)
    return OK
