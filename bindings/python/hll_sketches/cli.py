# SPDX-License-Identifier: Apache-2.0
# PYTHON_ARGCOMPLETE_OK
"""The command ``hll``: its arguments and its exit status."""
from __future__ import annotations

import argparse
import gc
import io
import os
import re
import signal
import sys
import textwrap
from typing import Any, Callable, Dict, List, Optional, Tuple

from . import __version__, commands, processor
from ._errors import DatabaseError
from ._names import ESCAPING
from ._signals import end_at_once
from .files import REFUSED, STANDARD, UNUSABLE, OutputTrouble, Trouble
from .lines import COLUMNS, CSV, JSON, LONGEST_LINE, WHOLE, Layout, Part, number_of

_ABOUT = "HyperLogLog sketches in the DataSketches format: make, merge, compare and look at them."
_NOTES = """\
A file is the image of one sketch, and - is standard input or standard output.

status: 0, or 1 if a file is rejected or sketches differ, or 2 for a wrong command line or a file
that can't be read or written.

  hll new day.hll
  cut -f2 log | hll add day.hll
  hll merge days -o year.hll
  hll estimate year.hll
"""


# ---- kinds of argument


def _number(least: int, most: float, what: str) -> Callable[[str], int]:
    """Returns a type of argument: a number in a range."""

    def number(text: str) -> int:
        if not (text.isascii() and text.isdigit() and least <= int(text) <= most):
            raise argparse.ArgumentTypeError(f"{what}, not {text!r}")
        return int(text)

    return number


_lg_k = _number(4, 21, "an lg_k is 4 to 21")
_jobs = _number(1, 1024, "the number of jobs is 1 to 1024")
_most = _number(0, float("inf"), "a number of slots")
_bytes = _number(0, float("inf"), "a number of bytes")

_UNITS = {"K": 1 << 10, "M": 1 << 20, "G": 1 << 30}


def _memory(text: str) -> int:
    """A type of argument: a number of bytes, maybe in units."""
    number, unit = (text[:-1], _UNITS[text[-1]]) if text[-1:] in _UNITS else (text, 1)
    try:
        return _bytes(number) * unit
    except argparse.ArgumentTypeError:
        raise argparse.ArgumentTypeError(f"a number of bytes, or with K, M or G, not {text!r}") from None


def _separator(text: str) -> bytes:
    """A type of argument: what is between columns. ``\\t`` is a TAB."""
    separator = b"\t" if text == "\\t" else os.fsencode(text)
    if not separator or b"\n" in separator:
        raise argparse.ArgumentTypeError(f"a separator has one byte or more, and no LF, not {text!r}")
    return separator


_KEY = re.compile(r"(?:([^=\[\],]+)=)?([^=\[\],]+)(?:\[:(\d+)\])?")
"""A part of a key: NAME, NAME=COLUMN or NAME=COLUMN[:LENGTH]."""


def _parts(text: str) -> Tuple[Part, ...]:
    """A type of argument: the parts of a key."""
    parts = []
    for one in text.split(","):
        found = _KEY.fullmatch(one)
        if not found:
            raise argparse.ArgumentTypeError(f"a key is NAME, NAME=COLUMN or NAME=COLUMN[:LENGTH], not {one!r}")
        name, column, length = found.groups()
        name = name or (f"column{column}" if column.isdigit() else column)
        parts.append(Part(name, column, int(length or 0)))
    names = [part.name.lower() for part in parts]
    if len(set(names)) < len(names) or {"image", "checksum"} & set(names):
        words = "the parts of a key have distinct names, and none is image or checksum: NAME=COLUMN gives a name"
        raise argparse.ArgumentTypeError(words)
    return tuple(parts)


def _picture(text: str) -> str:
    """A type of argument: the name of a picture. A pipe or a device has any name."""
    is_file = not os.path.exists(text) or os.path.isfile(text)
    if text != STANDARD and is_file and not text.lower().endswith((".svg", ".png")):
        raise argparse.ArgumentTypeError(f"a picture is a file .svg or .png, or - for an SVG, not {text!r}")
    return text


# ---- arguments of several commands


def _with_lg_k(parser: argparse.ArgumentParser, what: str, **more: Any) -> None:
    parser.add_argument("--lg-k", type=_lg_k, metavar="K", help=what, **more)


def _with_width(parser: argparse.ArgumentParser, **more: Any) -> None:
    help_ = "bits of a register: 4, 6 or 8" + (" (8)" if "default" in more else "")
    parser.add_argument("--width", type=int, choices=(4, 6, 8), help=help_, **more)


def _with_json(parser: argparse.ArgumentParser) -> None:
    parser.add_argument("--json", action="store_true", help="print the result as one JSON document")


def _with_force(parser: argparse.ArgumentParser) -> None:
    help_ = "replace a file that is read-only or belongs to another user; it keeps its mode and owner"
    parser.add_argument("--force", action="store_true", help=help_)


def _with_output(parser: argparse.ArgumentParser, **more: Any) -> None:
    _with_json(parser)
    _with_force(parser)
    help_ = more.pop("help", "the file to write; - is standard output")
    parser.add_argument("-o", "--output", metavar="OUT", help=help_, **more)


def _with_plain(parser: argparse.ArgumentParser) -> None:
    help_ = "set the fields that other libraries estimate from to zero, to compare bytes with those of hll_merge"
    parser.add_argument("--plain", action="store_true", help=help_)


def _with_files(parser: argparse.ArgumentParser, nargs: str, what: str) -> None:
    parser.add_argument("files", nargs=nargs, metavar="FILE", help=what)


def _with_folders(parser: argparse.ArgumentParser) -> None:
    what = "a file, a directory (all files in it and below, except names that begin with a dot), or -"
    _with_files(parser, "*", what)
    help_ = "read names of more files from LIST, one a line; - is standard input"
    parser.add_argument("--files-from", metavar="LIST", help=help_)
    help_ = "names in LIST end with NUL, as find -print0 writes them"
    parser.add_argument("-0", "--null", action="store_true", help=help_)


def _with_deviations(
    parser: argparse.ArgumentParser, help_: str, default: Optional[int]
) -> None:
    parser.add_argument("--deviations", type=int, choices=(1, 2, 3), default=default, help=help_)


# ---- commands


def _merge(parser: argparse.ArgumentParser) -> None:
    _with_folders(parser)
    _with_output(parser, required=True)
    _with_lg_k(parser, "merge files of different lg_k, at this lg_k or a smaller one; 4 to 21")
    _with_width(parser)
    parser.add_argument("--jobs", type=_jobs, metavar="N", help="the number of processes (one for each core)")
    help_ = "leave out files that are not images or can't be read, print their names, and go on"
    parser.add_argument("--skip-bad", action="store_true", help=help_)
    parser.add_argument("--wait", action="store_true", help="of databases: wait for as long as another process writes")
    _with_plain(parser)


def _info(parser: argparse.ArgumentParser) -> None:
    _with_files(parser, "+", "a file, or -")
    _with_deviations(parser, "bounds at 1, 2 or 3 standard deviations (2)", 2)
    _with_json(parser)


def _estimate(parser: argparse.ArgumentParser) -> None:
    _with_folders(parser)
    help_ = "of a database: merge the sketches of keys that have these in common: columns, or NAME=SQL, such as " \
        "week=week(day); '' merges all"
    parser.add_argument("--by", metavar="KEY,..", help=help_)
    _with_where(parser)
    _with_shown(parser)


def _check(parser: argparse.ArgumentParser) -> None:
    _with_folders(parser)
    _with_json(parser)


def _fold(parser: argparse.ArgumentParser) -> None:
    parser.add_argument("file", metavar="FILE", help="a file, or -")
    _with_lg_k(parser, "the new lg_k, 4 to that of the file", required=True)
    _with_output(parser, required=True)
    _with_plain(parser)


def _convert(parser: argparse.ArgumentParser) -> None:
    parser.add_argument("file", metavar="FILE", help="a file, or -")
    _with_width(parser, required=True)
    _with_output(parser, required=True)
    _with_plain(parser)


def _diff(parser: argparse.ArgumentParser) -> None:
    parser.add_argument("left", metavar="A", help="a file, or -")
    parser.add_argument("right", metavar="B", help="a file, or -")
    help_ = "the number of differing slots to show (10)"
    parser.add_argument("--most", type=_most, metavar="N", default=10, help=help_)
    parser.add_argument("-q", "--quiet", action="store_true", help="print nothing; the exit status is the result")
    _with_json(parser)


def _plot(parser: argparse.ArgumentParser) -> None:
    parser.add_argument("file", metavar="FILE", help="a file, or -, or a database of keys")
    help_ = "of a database: merge the sketches of keys that have these in common, as in hll estimate"
    parser.add_argument("--by", metavar="KEY,..", help=help_)
    _with_where(parser)
    parser.add_argument("--top", type=_most, metavar="N", help="of a database: draw the N largest, the largest first")
    help_ = "the picture to write, a file .svg or .png (PNG needs the Python package cairosvg); - is " \
        "standard output, for an SVG"
    parser.add_argument("-o", "--output", type=_picture, metavar="OUT", required=True, help=help_)
    _with_force(parser)
    parser.add_argument("--title", help="the title of the picture (the name of the file)")


def _new(parser: argparse.ArgumentParser) -> None:
    parser.add_argument("output", metavar="FILE", help="the file to write, or -")
    _with_lg_k(parser, "the base-2 logarithm of the number of registers, 4 to 21 (12)", default=12)
    _with_width(parser, default=8)
    parser.add_argument("--force", action="store_true", help="replace an existing file")
    _with_json(parser)


def _with_input(parser: argparse.ArgumentParser) -> None:
    """Adds the options that say how lines are read."""
    group = parser.add_argument_group("how lines are read")
    form = group.add_mutually_exclusive_group()
    help_ = "lines have columns between TABs, without a header (default with --value)"
    form.add_argument("--tsv", action="store_true", help=help_)
    help_ = 'read CSV: the first line is the header, and columns may be quoted by "'
    form.add_argument("--csv", action="store_true", help=help_)
    form.add_argument("--jsonl", action="store_true", help="each line is a JSON object")
    help_ = "the column to count, and not whole lines: its number, or with --csv or --jsonl its name"
    group.add_argument("--value", metavar="COLUMN", help=help_)
    help_ = "what is between two columns (TAB, or with --csv a comma); \\t is TAB"
    group.add_argument("--separator", type=_separator, metavar="TEXT", help=help_)
    help_ = "leave out lines with this value; may be repeated. An empty column is missing, too, and null with --jsonl"
    group.add_argument("--missing", action="append", default=[], metavar="STRING", help=help_)
    group.add_argument("--keep-empty", action="store_true", help="an empty column is a value, and not missing")
    group.add_argument("--int", action="store_true", help="a value is an integer in decimal, as in Python and SQL, and not a string")
    help_ = "leave out lines that can't be counted, print their number, and go on"
    group.add_argument("--skip-bad", action="store_true", help=help_)
    help_ = "leave out lines in whose key a part is empty"
    group.add_argument("--skip-empty-key", action="store_true", help=help_)
    help_ = "count lines as they are, also those of files that are compressed or not text"
    group.add_argument("--raw", action="store_true", help=help_)
    help_ = f"the most bytes of a line, without its LF ({LONGEST_LINE:,})"
    group.add_argument("--longest-line", type=_bytes, metavar="BYTES", default=LONGEST_LINE, help=help_)
    help_ = "the most bytes of memory for the sketches of keys, also with K, M or G (1G); the rest is on the disk"
    group.add_argument("--memory", type=_memory, metavar="BYTES", default=1 << 30, help=help_)
    help_ = "print how many lines, keys and seconds it were"
    group.add_argument("-v", "--verbose", action="store_true", help=help_)


def _add(parser: argparse.ArgumentParser) -> None:
    help_ = "the file of the sketch (not with --db), and then files of lines, also compressed by gzip, xz or bzip2 " \
        "(standard input)"
    parser.add_argument("inputs", metavar="FILE", nargs="*", help=help_)
    help_ = "add to the sketches of keys in a database, which is made if it doesn't exist"
    parser.add_argument("--db", metavar="DB", help=help_)
    help_ = "the columns of the key: NAME, NAME=COLUMN, or NAME=COLUMN[:LENGTH], which takes the first characters " \
        "(the columns that the database has)"
    parser.add_argument("--key", type=_parts, metavar="KEY,..", help=help_)
    _with_lg_k(parser, "of a new database, or of a new sketch with --create (12)")
    _with_width(parser)
    parser.add_argument("--create", action="store_true", help="make the file of the sketch if it doesn't exist")
    _with_output(parser, help="the file to write (FILE itself); - is standard output")
    help_ = "wait for as long as another process writes"
    parser.add_argument("--wait", action="store_true", help=help_)
    _with_plain(parser)
    _with_input(parser)


def _count(parser: argparse.ArgumentParser) -> None:
    help_ = "files of lines, also compressed by gzip, xz or bzip2 (standard input)"
    parser.add_argument("inputs", metavar="FILE", nargs="*", help=help_)
    help_ = "count for each key: NAME, NAME=COLUMN, or NAME=COLUMN[:LENGTH], which takes the first characters"
    parser.add_argument("--by", dest="key", type=_parts, metavar="KEY,..", help=help_)
    _with_lg_k(parser, "the base-2 logarithm of the number of registers, 4 to 21 (12)", default=12)
    _with_shown(parser)
    _with_input(parser)


def _with_shown(parser: argparse.ArgumentParser) -> None:
    """Adds the options that say which estimates are printed, and how."""
    parser.add_argument("--top", type=_most, metavar="N", help="print the N largest, the largest first")
    _with_deviations(parser, "print the bounds too, at 1, 2 or 3 standard deviations", None)
    parser.add_argument("--bounds", action="store_true", help="print the bounds too, at 2 standard deviations")
    _with_json(parser)
    help_ = "print an aligned table with a header and the bounds (at 2 standard deviations)"
    parser.add_argument("--table", action="store_true", help=help_)


def _with_keys(parser: argparse.ArgumentParser, needed: bool = False) -> None:
    """Adds a database, and the option that says which keys."""
    parser.add_argument("db", metavar="DB", help="a database of keys")
    _with_where(parser, needed)


def _with_where(parser: argparse.ArgumentParser, needed: bool = False) -> None:
    help_ = "only keys for which this expression of SQL is true, such as \"day >= '2026-11-01'\""
    parser.add_argument("--where", metavar="SQL", required=needed, help=help_)


def _get(parser: argparse.ArgumentParser) -> None:
    _with_keys(parser)
    _with_force(parser)
    parser.add_argument("-o", "--output", metavar="OUT", required=True, help="the file to write; - is standard output")


def _drop(parser: argparse.ArgumentParser) -> None:
    _with_keys(parser, True)
    parser.add_argument("--wait", action="store_true", help="wait for as long as another process writes")


def _dump(parser: argparse.ArgumentParser) -> None:
    _with_keys(parser)


def _load(parser: argparse.ArgumentParser) -> None:
    parser.add_argument("db", metavar="DB", help="a database of keys, which is made if it doesn't exist")
    parser.add_argument("--wait", action="store_true", help="wait for as long as another process writes")


_COMMANDS = (
    ("new", _new, "make an empty sketch", "hll new day.hll --lg-k 14"),
    ("add", _add, "add lines of files or of standard input, each a value", "hll add day.hll --value 2 log.gz"),
    ("count", _count, "print the number of distinct lines, or values of a column", "hll count --csv --value user *.csv.gz"),
    ("estimate", _estimate, "print the estimated number of distinct values", "hll estimate *.hll"),
    ("merge", _merge, "merge any number of files", "hll merge days -o year.hll"),
    ("info", _info, "print lg_k, width, stage, estimate and more of each file; compare two", "hll info year.hll"),
    ("diff", _diff, "say whether two sketches agree, and where they differ", "hll diff a.hll b.hll"),
    ("check", _check, "print the files that are not images, and why", "hll check days"),
    ("fold", _fold, "reduce lg_k: fewer registers, and a larger error", "hll fold a.hll --lg-k 10 -o b.hll"),
    ("convert", _convert, "change the width of a sketch", "hll convert a.hll --width 4 -o b.hll"),
    ("plot", _plot, "draw how many registers have each value, as SVG or PNG", "hll plot year.hll -o year.svg"),
    ("get", _get, "write the sketch of some keys of a database", "hll get pages.db --where \"page = '/'\" -o home.hll"),
    ("drop", _drop, "remove keys of a database", "hll drop pages.db --where \"day < '2026-01-01'\""),
    ("dump", _dump, "print a database as lines of JSON, the same for equal databases", "hll dump pages.db > pages.jsonl"),
    ("load", _load, "merge the lines that dump prints into a database", "hll load copy.db < pages.jsonl"),
)
_MORE = {
    "merge": "Databases are merged key by key, into a new one, or into one of them. Of sketches, each rejected file is named, and then nothing is written, unless --skip-bad is given. "
    "Files of different lg_k are merged only with --lg-k. The width is that of the files, or 8 if "
    "they differ.",
    "info": "Several files are printed as a table. With two files, it also says whether they agree, prints "
    "the estimate of their union, and says why there is none of their intersection.",
    "estimate": "Lines have columns between TABs. The name of the file follows the numbers, unless standard input is the "
    "only one. A database of keys is named alone: each key has a line, and its parts follow the numbers.",
    "check": "Nothing is printed for a file that is a sketch, or a database that is in order. An image has no checksum, so a flipped "
    "bit can give another sketch, which is not noticed.",
    "fold": "Of a database, OUT is a new one. The result is the sketch that the same values make with that lg_k.",
    "diff": "Exit status: 0 if they agree, once folded to the smaller lg_k; 1 if they differ; 2 for an error.",
    "convert": "Of a database, OUT is a new one.",
    "plot": "The picture is a histogram, with the shape that the theory expects for the estimate; of a database, a bar for "
    "each key, with its bounds.",
    "new": "Add values to it with `hll add`.",
    "add": "A line counts as a string: its bytes without the LF, including a CR. An empty line is a "
    "string too, unless --missing '' is given. Inputs are read to their ends before anything is written: if one of "
    "them is cut, damaged or not text, nothing is added. The line 7 is a string and not the integer 7, unless --int is "
    "given. With --db, each key has a sketch of its own in a database. An empty part of a key is a part like "
    "others. Without --wait, nothing is added if another process holds the lock of FILE for ten seconds, or writes DB "
    "for a minute.",
    "count": "It is exact for few values, and otherwise an estimate. A line counts as in hll add.",
    "get": "The sketches of all these keys are merged.",
    "load": "The lines are read from standard input.",
}


class _Parser(argparse.ArgumentParser):
    """A parser that reports an error if its help can't be written."""

    def _print_message(self, message: str, file: Any = None) -> None:
        if file is not None and file is sys.stdout:
            commands.put_text(message)
        else:
            super()._print_message(message, file)


class _Version(argparse.Action):
    """Prints the version, and for which processors the code of the C library was compiled."""

    def __call__(self, parser: argparse.ArgumentParser, *_: object) -> None:
        try:
            code = processor()
        except ImportError:
            code = "no libhll"
        commands.put_text(f"hll {__version__} ({code})\n")
        parser.exit()


def make_parser() -> argparse.ArgumentParser:
    """Returns the parser of all commands."""
    raw = argparse.RawDescriptionHelpFormatter
    parser = _Parser("hll", None, _ABOUT, _NOTES, formatter_class=raw)
    shown = "show the version, and for which processors the C library runs, and exit"
    parser.add_argument("--version", action=_Version, nargs=0, default=argparse.SUPPRESS, help=shown)
    several = parser.add_subparsers(dest="command", metavar="COMMAND", required=True)
    for name, arguments, what, example in _COMMANDS:
        about = textwrap.fill(f"{what[0].upper()}{what[1:]}. {_MORE.get(name, '')}", 78)
        epilog = f"example:\n  {example}\n"
        one = several.add_parser(
            name, help=what, description=about, epilog=epilog, formatter_class=raw
        )
        arguments(one)
        one.set_defaults(call=getattr(commands, name))
    return parser


def _completed(parser: argparse.ArgumentParser) -> None:
    """Completes words for a shell that asks, if ``argcomplete`` is installed."""
    if "_ARGCOMPLETE" in os.environ:
        try:
            import argcomplete
        except ImportError:
            return
        argcomplete.autocomplete(parser)


def _layout_of(parser: argparse.ArgumentParser, options: argparse.Namespace) -> Layout:
    """Returns how lines are read, or reports options that can't be combined."""
    parts, value = options.key or (), options.value
    form = CSV if options.csv else JSON if options.jsonl else COLUMNS if parts or value is not None else WHOLE
    if value is None and (parts or form != WHOLE or options.tsv or options.separator is not None):
        parser.error("--value COLUMN says what is counted")
    if form == COLUMNS:
        for column in [part.column for part in parts] + [value]:
            if number_of(column) is None:
                parser.error(f"without --csv or --jsonl, a column is a number from 1, not {column!r}")
    separator = options.separator or (b"," if form == CSV else b"\t")
    if form == CSV and (len(separator) > 1 or separator > b"\x7f" or separator in b'"\r'):
        parser.error("with --csv a separator is one ASCII character, and neither a quote nor a CR")
    missing = {os.fsencode(word) for word in options.missing}
    if form != WHOLE and not options.keep_empty:
        missing.add(b"")
    return Layout(
        form, value or "1", parts, separator, frozenset(missing), options.int, options.skip_bad, options.skip_empty_key,
        options.raw, options.longest_line,
    )


def _check_count(parser: argparse.ArgumentParser, options: argparse.Namespace) -> None:
    """Reads the options of lines."""
    options.layout = _layout_of(parser, options)


def _check_add(parser: argparse.ArgumentParser, options: argparse.Namespace) -> None:
    """Reports arguments of ``add`` that can't be combined."""
    if options.db is not None:
        _check_db(parser, options)
    elif options.key is not None:
        parser.error("--key goes with --db")
    elif not options.inputs:
        parser.error("add needs FILE, or --db DB")
    else:
        options.file, *options.inputs = options.inputs
        if options.file == STANDARD:
            parser.error("FILE is replaced, so it can't be -")
        if options.create and options.output is not None:
            parser.error("--create and -o don't go together")
        if not options.create and (options.lg_k or options.width):
            parser.error("--lg-k and --width go with --db or --create")
    options.layout = _layout_of(parser, options)


def _check_db(parser: argparse.ArgumentParser, options: argparse.Namespace) -> None:
    """Reports arguments of ``add --db`` that can't be combined."""
    for name in ("output", "create", "plain", "force"):
        if getattr(options, name):
            parser.error(f"--{name} and --db don't go together")
    if options.db == STANDARD:
        parser.error("a database is a file, and can't be -")
    if options.key is None:
        from . import keyed

        options.key = keyed.parts_of(options.db)
    if options.key is None:
        parser.error("a new database needs --key")


_CHECKS: Dict[str, Callable[[argparse.ArgumentParser, argparse.Namespace], None]] = {"add": _check_add, "count": _check_count}


def _parsed(parser: argparse.ArgumentParser, arguments: Optional[List[str]]) -> argparse.Namespace:
    """Returns the arguments. Names of files may follow options."""
    options, more = parser.parse_known_args(arguments)
    at = more.index("--") if "--" in more else len(more)
    unknown = [word for word in more[:at] if word.startswith("-") and word != STANDARD]
    names = next((name for name in ("inputs", "files") if hasattr(options, name)), None)
    if more and (unknown or names is None):
        parser.error(f"unrecognized arguments: {' '.join(unknown or more)}")
    if names is not None:
        setattr(options, names, [*getattr(options, names), *more[:at], *more[at + 1 :]])
    return options


def _chosen(parser: argparse.ArgumentParser, arguments: Optional[List[str]]) -> argparse.Namespace:
    """Returns the arguments, or reports that they can't be combined."""
    options = _parsed(parser, arguments)
    if getattr(options, "json", False) and getattr(options, "output", None) == STANDARD:
        parser.error("--json and an image on standard output don't go together")
    if options.command in _CHECKS:
        _CHECKS[options.command](parser, options)
    if getattr(options, "table", False) and options.json:
        parser.error("--table and --json don't go together")
    if getattr(options, "null", False) and options.files_from is None:
        parser.error("-0 goes with --files-from")
    return options


# ---- how it ends


def _held_open() -> None:
    """Opens descriptors in place of closed standard streams, so no file gets one of their numbers.
    Reading or writing them fails, as on a closed stream."""
    for place, wrong_way in ((0, os.O_WRONLY), (1, os.O_RDONLY), (2, os.O_RDONLY)):
        try:
            os.fstat(place)
        except OSError:
            os.dup2(os.open(os.devnull, wrong_way), place)
    if sys.stdout is None:
        sys.stdout = open(1, "w", closefd=False)


def _settled() -> None:
    """Sets up streams and signals as other commands do."""
    end_at_once()
    gc.disable()        # no command makes cycles of much memory, and lines are very many objects
    _held_open()
    for stream in (sys.stdout, sys.stderr):
        if isinstance(stream, io.TextIOWrapper):
            stream.reconfigure(errors=ESCAPING)
    if hasattr(signal, "SIGPIPE"):
        signal.signal(signal.SIGPIPE, signal.SIG_DFL)


def _flushed() -> None:
    """Flushes standard output."""
    if sys.stdout is None:
        return
    try:
        sys.stdout.flush()
    except OSError as error:
        raise OutputTrouble(error) from None


def _errors_flushed() -> None:
    """Flushes standard error. If it can't be written, what is left goes nowhere: otherwise Python's end would
    fail, and set a status of its own."""
    if sys.stderr is None:
        return
    try:
        sys.stderr.flush()
    except OSError:
        os.dup2(os.open(os.devnull, os.O_WRONLY), 2)


def _carried_out(options: argparse.Namespace) -> int:
    """Runs a command and prints what goes wrong."""
    call: Callable[[argparse.Namespace], int] = options.call
    try:
        return call(options)
    except OutputTrouble:
        raise
    except (Trouble, DatabaseError) as trouble:
        commands.say(trouble)
        return trouble.status
    except MemoryError:
        commands.say("an allocation failed")
        return UNUSABLE if options.command == "diff" else REFUSED
    except ImportError as error:
        commands.say(error)
        return UNUSABLE
    except OSError as error:
        commands.say(error.strerror or error)
        return UNUSABLE


def _run(arguments: Optional[List[str]]) -> int:
    """Runs a command line and returns its status."""
    parser = make_parser()
    _completed(parser)
    try:
        try:
            return _carried_out(_chosen(parser, arguments))
        finally:
            _flushed()
    except OutputTrouble as trouble:
        os.dup2(os.open(os.devnull, os.O_WRONLY), 1)
        commands.say(trouble)
        return trouble.status


def _interrupted() -> int:
    """Ends like a process that was interrupted, which a shell shows as status 130."""
    signal.signal(signal.SIGINT, signal.SIG_DFL)
    os.kill(os.getpid(), signal.SIGINT)
    return 130


def main(arguments: Optional[List[str]] = None) -> int:
    """Runs the command, and returns its status.

    Parameters
    ----------
    arguments : list of str, optional
        The arguments; by default those of the process.
    """
    try:
        _settled()
        return _run(arguments)
    except KeyboardInterrupt:
        return _interrupted()
    finally:
        _errors_flushed()


if __name__ == "__main__":
    sys.exit(main())
