#!/usr/bin/env python3
# SPDX-License-Identifier: Apache-2.0
"""Draws the pictures of docs/: layers.svg, union.svg, stages.svg, sizes.svg, histogram.svg and speed.svg.

    pictures.py [--check]

With --check it only prints which of them differ from what it draws, and ends with status 1 if any is. Needs the Python
package's library (bindings/c).
"""
import math
import pathlib
import sys

sys.dont_write_bytecode = True
ROOT = pathlib.Path(__file__).resolve().parent.parent
sys.path.insert(0, str(ROOT / "bindings" / "python"))

from hll_sketches import Sketch, plot  # noqa: E402

PROVED, TESTED, TRUSTED = "proved", "tested", "trusted"
STYLE = (
    "<style>text{font:13px sans-serif;fill:#222}.title{font-size:16px;font-weight:bold}"
    ".name{font-weight:bold}.right{text-anchor:end}.grid{stroke:#999}.proved{fill:#d5ecd2;stroke:#2f7d32;"
    "stroke-width:2}.tested{fill:#fdf0d0;stroke:#a86a00;stroke-width:2;stroke-dasharray:6 4}"
    ".trusted{fill:#e8e8e8;stroke:#666;stroke-width:2;stroke-dasharray:2 3}.middle{text-anchor:middle}"
    ".cell{fill:#eef3f9;stroke:#4a7db5}.chosen{fill:#bcd4ee;stroke:#4a7db5;stroke-width:2}"
    ".arrow{stroke:#999;stroke-width:2;fill:none}"
    "@media(prefers-color-scheme:dark){.proved{fill:#1b3a1d}.tested{fill:#3d3113}.trusted{fill:#2a2a2a}"
    ".cell{fill:#17222f}.chosen{fill:#274a6e}}</style>"
)

# ---- layers

LEFT, TOP, ROW, GAP, WHOLE = 20, 92, 66, 10, 820
LEGEND = (
    (PROVED, "proved for every input", 0),
    (TESTED, "tested, not proved", 250),
    (TRUSTED, "trusted", 470),
)

# Each box: its row, how many rows it is high, where it begins and ends in parts of 12, what is known of it, its name,
# and a line for each fact.
LAYERS = (
    (0, 3, 0, 3, PROVED, "Programs",
        "hll_merge: a plan in,", "one image out", "hll_estimator_fields: what", "others estimate from"),
    (0, 1, 3, 7, TESTED, "C++, Rust, Go, JavaScript", "sketches and unions"),
    (0, 1, 7, 10, TESTED, "PostgreSQL, SQLite", "aggregates, functions"),
    (0, 1, 10, 12, TESTED, "Python", "hll, Dask"),
    (1, 1, 3, 9, TESTED, "Counters, in plain C", "allocate, copy and free the memory of a sketch"),
    (1, 1, 9, 12, TESTED, "Bounds, few values", "in plain C"),
    (2, 1, 3, 12, PROVED, "C library: calls over images, states and registers",
        "hash, add, read, merge, fold, convert, compare, write, estimate from registers"),
    (3, 1, 0, 12, PROVED, "Union",
        "at each slot the greatest value: order, groups and repeats make no difference to the registers"),
    (4, 1, 0, 12, PROVED, "Sketch",
        "a list, then a set, then registers; values are added, and it is folded to fewer registers"),
    (5, 1, 0, 6, PROVED, "Coupons", "the hash of a value; lists, sets, folds, probing"),
    (5, 1, 6, 12, PROVED, "Registers", "of 8, 6 and 4 bits; merges, conversions"),
    (6, 1, 0, 12, PROVED, "Images",
        "bytes are read completely or rejected with a reason; what is written is read back unchanged"),
    (7, 1, 0, 12, TRUSTED, "Toolchain", "the prover and compilers, the C library, the processor"),
)


def box(row, rows, first, last, known, name, *facts):
    """A box of the picture of layers."""
    part = (WHOLE + GAP) / 12
    x, y = LEFT + first * part, TOP + row * (ROW + GAP)
    width, height = (last - first) * part - GAP, rows * (ROW + GAP) - GAP
    yield f'<rect x="{x:.1f}" y="{y}" width="{width:.1f}" height="{height}" rx="4" class="{known}"/>'
    yield plot.words(x + 12, y + 27, name, "name")
    for number, line in enumerate(facts):
        yield plot.words(x + 12, y + 48 + 19 * number, line)


LAYERS_TITLE = "From bytes to your program: what is proved, and what is not"


def layers():
    parts = [plot.words(LEFT, 30, LAYERS_TITLE, "title")]
    for known, what, x in LEGEND:
        parts.append(f'<rect x="{LEFT + x}" y="50" width="26" height="20" rx="3" class="{known}"/>')
        parts.append(plot.words(LEFT + x + 34, 65, what))
    for one in LAYERS:
        parts += box(*one)
    return plot.document(WHOLE + 2 * LEFT, TOP + 8 * (ROW + GAP) + 10, STYLE, LAYERS_TITLE, parts)


# ---- a union

UNION_TITLE = "A union keeps the larger register of each slot"
REGISTERS = ((3, 0, 2, 0, 7, 1, 0, 4), (1, 5, 0, 0, 7, 2, 0, 1))
CELL = 52


def cells(y, name, values, others=None):
    """A row of registers; those chosen that are above the others'."""
    yield plot.words(LEFT, y + 32, name, "name")
    for slot, value in enumerate(values):
        x = 150 + slot * (CELL + 6)
        kind = "cell" if others is None or value <= others[slot] else "chosen"
        yield f'<rect x="{x}" y="{y}" width="{CELL}" height="{CELL}" rx="4" class="{kind}"/>'
        yield plot.words(x + CELL / 2, y + 32, str(value), "middle")


def union():
    here, there = REGISTERS
    parts = [plot.words(LEFT, 30, UNION_TITLE, "title")]
    parts += cells(56, "one sketch", here, there)
    parts += cells(124, "another", there, here)
    parts.append(f'<path d="M{LEFT} 193H620" class="grid"/>')
    parts += cells(210, "their union", [max(pair) for pair in zip(here, there)])
    sentence = "The greatest of many numbers doesn't depend on their order, their groups, or repeats."
    parts.append(plot.words(LEFT, 292, sentence))
    return plot.document(640, 312, STYLE, UNION_TITLE, parts)


# ---- stages

STAGES_TITLE = "How a sketch of 2^12 registers of eight bits grows"
# Of a sketch of 2^12 registers of eight bits: the stage, what it keeps at most, and how many bytes its image then has.
STAGES = (
    ("list", "up to 7 coupons", "8 to 36 bytes"),
    ("set, 2^5 buckets", "up to 24", "44 to 108 bytes"),
    ("set, 2^6 to 2^8", "up to 192", "112 to 780 bytes"),
    ("set, 2^9 buckets", "up to 384", "784 to 1,548 bytes"),
    ("registers", "any number", "4,136 bytes"),
)


def stages():
    parts = [plot.words(LEFT, 30, STAGES_TITLE, "title")]
    for number, (name, most, size) in enumerate(STAGES):
        x = LEFT + number * 176
        parts.append(f'<rect x="{x}" y="56" width="146" height="84" rx="4" class="cell"/>')
        parts.append(plot.words(x + 12, 82, name, "name"))
        parts += [plot.words(x + 12, 104, most), plot.words(x + 12, 124, size)]
        if number:
            parts.append(f'<path d="M{x - 28} 98h24m-7 -6l7 6l-7 6" class="arrow"/>')
    return plot.document(LEFT + 5 * 176, 162, STYLE, STAGES_TITLE, parts)


# ---- sizes

SIZES_TITLE = "Bytes of a sketch, by the number of its distinct values (8 bits a register)"
SIZES = ((10, "#8fb56a"), (12, "#4a7db5"), (14, "#c08a4a"), (16, "#a05a9a"))
PLOT_LEFT, PLOT_TOP, DECADE = 90, 56, 104
DECADES, LEAST_BYTES, MOST_BYTES = 6, 1, 5


def point(count, size):
    """Where a size is in the picture: both axes are logarithmic."""
    x = PLOT_LEFT + math.log10(count) * DECADE
    y = PLOT_TOP + (MOST_BYTES - math.log10(size)) * DECADE * 0.7
    return f"{x:.1f} {y:.1f}"


def size_line(lg_k, color):
    """The sizes of a sketch that grows, and its name where it has registers."""
    made, counted, points = Sketch(lg_k), 0, []
    for step in range(DECADES * 40 + 1):
        count = round(10 ** (step / 40))
        made.update_many(range(counted, count))
        counted = max(counted, count)
        points.append(point(count, len(made.to_bytes())))
    yield f'<path d="M{"L".join(points)}" fill="none" stroke="{color}" stroke-width="2"/>'
    x, y = map(float, points[-1].split())
    yield plot.words(x + 8, y + 5, f"lg_k {lg_k}: {len(made.to_bytes()):,} bytes")


def sizes():
    parts = [plot.words(LEFT, 30, SIZES_TITLE, "title")]
    right = PLOT_LEFT + DECADES * DECADE
    for power in range(LEAST_BYTES, MOST_BYTES + 1):
        y = float(point(1, 10**power).split()[1])
        parts.append(f'<path d="M{PLOT_LEFT} {y:.1f}H{right}" class="grid"/>')
        parts.append(plot.words(PLOT_LEFT - 8, y + 5, f"{10**power:,}", "right"))
    bottom = float(point(1, 10**LEAST_BYTES).split()[1])
    for power in range(DECADES + 1):
        parts.append(plot.words(PLOT_LEFT + power * DECADE, bottom + 22, f"{10**power:,}", "middle"))
    for lg_k, color in SIZES:
        parts += size_line(lg_k, color)
    return plot.document(right + 190, int(bottom) + 40, STYLE, SIZES_TITLE, parts)


# ---- a histogram


def histogram():
    made = Sketch(12)
    made.update_many(range(100_000))
    return plot.histogram_svg(made.to_bytes(), "A sketch of 100,000 values")


# ---- speed

SPEED_TITLE = "Unions of 100,000 sketches of 4,096 registers: images a second, one process"
SPEED_NOTE = "30 November 2026; virtual processors (Xeon, 2.5 GHz); PostgreSQL without the scan: docs/NUMBERS.md"
SHOWN = ("8 bits", "6 bits", "4 bits", "postgresql-hll, 5 bits")
COLORS = {"C": "#4a7db5", "Python": "#8fb56a", "PostgreSQL": "#c08a4a"}
AXIS, SCALE = 190, 500 / 3_200_000


def speeds():
    """What is merged, with images a second by engine: rows of the table of docs/NUMBERS.md, "Unions"."""
    table = (ROOT / "docs" / "NUMBERS.md").read_text("utf-8").split("\n## Unions\n")[1]
    head, *rows = [[cell.strip() for cell in line.strip("|").split("|")] for line in table.splitlines() if line[:1] == "|"]
    for name in SHOWN:
        row = next(row for row in rows if row[0] == name)
        found = ((engine, row[head.index(engine)]) for engine in COLORS)
        yield name, [(engine, int(number.replace(",", ""))) for engine, number in found if number]


def bars(top):
    """Bars in groups, and where they end."""
    parts, y = [], top
    for name, rows in speeds():
        parts.append(plot.words(AXIS - 12, y + 11 * len(rows) + 4, name, "right"))
        for engine, number in rows:
            width = number * SCALE
            color = COLORS[engine]
            parts.append(f'<rect x="{AXIS}" y="{y + 2}" width="{width:.1f}" height="18" fill="{color}"/>')
            parts.append(plot.words(AXIS + width + 8, y + 16, f"{engine}: {number:,}"))
            y += 22
        y += 14
    return parts, y


def speed():
    shown, end = bars(64)
    parts = [plot.words(20, 30, SPEED_TITLE, "title")]
    parts.append(f'<path d="M{AXIS} 54V{end}" class="grid"/>')
    parts += [*shown, plot.words(20, end + 24, SPEED_NOTE)]
    return plot.document(860, end + 40, STYLE, SPEED_TITLE, parts)


def main():
    only_check = sys.argv[1:] == ["--check"]
    if sys.argv[1:] and not only_check:
        sys.exit("usage: pictures.py [--check]")
    status = 0
    for draw in (layers, union, stages, sizes, histogram, speed):
        path, text = ROOT / "docs" / f"{draw.__name__}.svg", draw()
        if not only_check:
            path.write_text(text, "utf-8")
        elif not path.exists() or path.read_text("utf-8") != text:
            print(f"docs/{path.name} is not what bench/pictures.py draws")
            status = 1
    return status


if __name__ == "__main__":
    sys.exit(main())
