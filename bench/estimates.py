#!/usr/bin/env python3
# SPDX-License-Identifier: Apache-2.0
"""Measures the estimates of the library for C on random streams: how far they are off, how much
they scatter, and how often the number of values is below or above their bounds.

It compiles bench/estimates.c, runs it on 20,000 streams of a million values by two processes, prints
tables, and draws docs/estimates.svg. Each lg_k of bench/estimates.c has a table, and those with a
color are in the picture. Call it with another number of streams for a shorter run, which draws
nothing; with --write the summary, and the tables of all lg_k, go into docs/NUMBERS.md too. It needs
a C compiler, and the library: bindings/c/build, which `make` in bindings/c makes, or the folder that
HLL_BUILD names.
"""
import argparse
import math
import os
import pathlib
import subprocess
import sys
import tempfile

ROOT = pathlib.Path(__file__).resolve().parent.parent
BUILD = pathlib.Path(os.environ.get("HLL_BUILD", ROOT / "bindings" / "c" / "build"))
TITLE = "How far estimates are off, and how much they scatter, by the number of distinct values"
PAGE, PICTURE = ROOT / "docs" / "NUMBERS.md", ROOT / "docs" / "estimates.svg"
STREAMS, PROCESSES = 20000, 2
BEGIN, END = "<!-- tables -->", "<!-- end of tables -->"
COLORS = {4: "#b5352c", 8: "#b07a12", 12: "#2b6cb0", 14: "#2f855a"}
COLORS |= {16: "#6b46c1", 18: "#b83280", 21: "#4a5568"}
COUPONS = 1e-4  # the reported standard error is less from coupons, and greater from registers
FEW = 100  # up to so many values the bounds may miss less often than those of a normal distribution
TAILS = [math.erfc(d / math.sqrt(2)) / 2 for d in (1, 2, 3)]
SURE = 3.5  # how many standard errors of the trial a share may be off


# ---- measuring


def compiled(folder):
    """The program, compiled into a folder."""
    program = pathlib.Path(folder) / "estimates"
    source = ROOT / "bench" / "estimates.c"
    command = [os.environ.get("CC", "cc"), "-std=c99", "-O3", "-o", program, source]
    parts = [ROOT / "bindings" / "c" / "optional.c", ROOT / "bindings" / "c" / "state.c", BUILD / "heap.o", BUILD / "proved.o"]
    subprocess.run([*command, *parts], check=True)
    return program


def measured(streams):
    """For each lg_k and number of values the sums that the program prints."""
    with tempfile.TemporaryDirectory() as folder:
        program = compiled(folder)
        cuts = [streams * part // PROCESSES for part in range(PROCESSES + 1)]
        processes = []
        for first, last in zip(cuts, cuts[1:]):
            command = ["nice", "-n", "10", program, str(first), str(last - first)]
            processes.append(subprocess.Popen(command, stdout=subprocess.PIPE, text=True))
        printed = [process.communicate()[0] for process in processes]
        if any(process.returncode for process in processes):
            sys.exit("the program failed")
    sums = {}
    for line in "".join(printed).splitlines():
        lg_k, values, *numbers = line.split()
        before = sums.get((int(lg_k), int(values)), [0] * len(numbers))
        sums[int(lg_k), int(values)] = [one + float(other) for one, other in zip(before, numbers)]
    return sums


class Row:
    """What is told of one lg_k and number of values."""

    def __init__(self, lg_k, values, streams, errors, squares, told, *missed):
        self.lg_k, self.values, self.streams = lg_k, values, streams
        mean = errors / streams
        self.bias = mean
        self.scatter = math.sqrt(max(squares / streams - mean * mean, 0.0))
        self.told = math.sqrt(told / streams)
        self.off = mean / self.told if self.told else 0.0
        self.chance = self.scatter / math.sqrt(streams) / self.told if self.told else 0.0
        self.below = [count / streams for count in missed[:3]]
        self.above = [count / streams for count in missed[3:]]
        self.outside = [below + above for below, above in zip(self.below, self.above)]

    def is_of_coupons(self):
        return self.told < COUPONS

    def is_of_few(self):
        """Whether it is of registers, and of few values or while the estimate goes in steps
        (half_step of bindings/c/estimate.c)."""
        seen = -math.expm1(-self.values / 2**self.lg_k)
        is_in_steps = 2**self.lg_k * seen**5 < 3
        return not self.is_of_coupons() and (self.values <= FEW or is_in_steps)

    def is_of_many(self):
        return not self.is_of_coupons() and not self.is_of_few()

    def sides(self):
        """For below and above, and 1, 2 and 3 deviations: by how many standard errors of the trial
        the share is off."""
        for side, shares_of_side in (("below", self.below), ("above", self.above)):
            for d, (share, tail) in enumerate(zip(shares_of_side, TAILS), 1):
                yield side, d, share, (share - tail) / chance_of(tail, self.streams)

    def wrong(self):
        """What is off by more than chance: of many values a side, and else both sides together if
        they are missed too often."""
        if self.is_of_many():
            return [(side, d, share) for side, d, share, off in self.sides() if abs(off) > SURE]
        limits = [2 * tail + SURE * chance_of(2 * tail, self.streams) for tail in TAILS]
        return [("outside", d, self.outside[d - 1]) for d in (1, 2, 3) if self.outside[d - 1] > limits[d - 1]]


def chance_of(share, streams):
    """The standard error of a share that is measured over so many streams."""
    return math.sqrt(share * (1 - share) / streams)


# ---- tables


def percent(part):
    """Digits enough to see a small part."""
    if part < 5e-7:
        return "0"
    return f"{100 * part:.2f} %" if part >= 1e-3 else f"{100 * part:.4f} %"


def in_percent(share, deviations):
    return f"{100 * share:.{deviations}f}"


def all_in_percent(shares):
    """Shares at 1, 2 and 3 deviations."""
    return [in_percent(share, d) for d, share in enumerate(shares, 1)]


def table(rows, lg_k):
    """The lines of the table of an lg_k."""
    lines = [
        f"### lg_k {lg_k}",
        "",
        "| values | bias, in standard errors | scatter | reported standard error"
        " | below 1, % | below 2 | below 3 | above 1 | above 2 | above 3 | off |",
        "|---|---|---|---|---|---|---|---|---|---|---|",
    ]
    for row in rows:
        if row.lg_k == lg_k:
            cells = [f"{row.values:,}", f"{row.off:+.3f} ± {row.chance:.3f}", percent(row.scatter), percent(row.told)]
            cells += [*all_in_percent(row.below), *all_in_percent(row.above), ", ".join(named_parts(row))]
            lines.append("| " + " | ".join(cells) + " |")
    return [*lines, ""]


def named_parts(row):
    return [f"{in_percent(share, d)} % {side} at {d}" for side, d, share in row.wrong()]


def worst_of(rows):
    """The greatest shares outside of bounds, in words."""
    return "{}, {} and {} %".format(*all_in_percent([max(row.outside[d] for row in rows) for d in range(3)]))


def exceptions(rows):
    """The rows that are off by more than chance, in words."""
    found = [f"`lg_k` {row.lg_k}, {row.values:,} values ({', '.join(named_parts(row))})" for row in rows if row.wrong()]
    return "; ".join(found) or "none"


def own_table(rows, columns, cells_of):
    """A table with a line for each lg_k that has rows."""
    lines = ["| " + " | ".join(columns) + " |", "|---" * len(columns) + "|"]
    for lg_k in sorted({row.lg_k for row in rows}):
        lines.append(f"| {lg_k} | " + " | ".join(cells_of([row for row in rows if row.lg_k == lg_k])) + " |")
    return lines


def spans(sides):
    """The least and the greatest share at 1, 2 and 3 deviations."""
    for d, shares in enumerate(zip(*sides), 1):
        yield f"{in_percent(min(shares), d)} to {in_percent(max(shares), d)}"


def cells_of_many(own):
    ratios = [row.scatter / row.told for row in own]
    sides = [*spans([row.below for row in own]), *spans([row.above for row in own])]
    return [f"{max((row.off for row in own), key=abs):+.3f}", f"{min(ratios):.2f} to {max(ratios):.2f}", *sides]


def cells_of_few(own):
    values = [row.values for row in own]
    return [f"{min(values):,} to {max(values):,}", *spans([row.outside for row in own])]


def page_of(rows, streams):
    """What the page has of it."""
    many, few = [row for row in rows if row.is_of_many()], [row for row in rows if row.is_of_few()]
    coupons = [row for row in rows if row.is_of_coupons()]
    sides = [f"{side} {d}" for side in ("below", "above") for d in (1, 2, 3)]
    each = "{}, {} and {} %".format(*all_in_percent(TAILS))
    both = "{}, {} and {} %".format(*all_in_percent([2 * tail for tail in TAILS]))
    return "\n".join([
        f"{streams:,} streams. From registers, above {FEW} values and after the steps (b from 3 on), each side is missed as often"
        f" as by a normal distribution, in {each} of the streams:",
        "",
        *own_table(many, ["`lg_k`", "bias", "scatter", *sides], cells_of_many),
        "",
        f"Of the {6 * len(many):,} shares, for {len(many)} pairs of an `lg_k` and a number of values, these are more than {SURE}"
        f" standard errors of the trial off, as one in 2,000 is by chance: {exceptions(many)}.",
        "",
        f"Up to {FEW} values, and during the steps, an estimate takes so few values that no bounds can have a given share outside."
        f" There both sides together are missed at most as often as by a normal distribution, in {both} of the streams. More"
        f" often, by over {SURE} standard errors of the trial: {exceptions(few)}.",
        "",
        *own_table(few, ["`lg_k`", "values", "outside 1", "outside 2", "outside 3"], cells_of_few),
        "",
        f"From coupons both sides together are missed in at most {worst_of(coupons)} of the streams.",
    ])


def tables(rows, streams):
    lines = [page_of(rows, streams), ""]
    for lg_k in sorted({row.lg_k for row in rows}):
        lines += table(rows, lg_k)
    return "\n".join(lines)


# ---- the picture


class Chart:
    """A chart in a picture: its place, and its axes, of which that of values is logarithmic."""

    WIDTH, HEIGHT, LEFT = 640, 220, 70

    def __init__(self, top, title, low, high, ticks):
        self.top, self.title, self.low, self.high, self.ticks = top, title, low, high, ticks

    def x(self, values):
        return self.LEFT + self.WIDTH * math.log10(values) / 6

    def y(self, number):
        number = min(max(number, self.low), self.high)
        return self.top + self.HEIGHT * (self.high - number) / (self.high - self.low)

    def frame(self):
        """The title, the axes and their numbers."""
        right, bottom = self.LEFT + self.WIDTH, self.top + self.HEIGHT
        yield f'<text x="{self.LEFT}" y="{self.top - 12}" class="title">{self.title}</text>'
        for number in self.ticks:
            y = self.y(number)
            yield f'<line x1="{self.LEFT}" y1="{y:.1f}" x2="{right}" y2="{y:.1f}" class="grid"/>'
            yield f'<text x="{self.LEFT - 8}" y="{y + 4:.1f}" class="right">{number:g}</text>'
        for power in range(7):
            x = self.x(10**power)
            yield f'<line x1="{x:.1f}" y1="{self.top}" x2="{x:.1f}" y2="{bottom}" class="grid"/>'
            yield f'<text x="{x:.1f}" y="{bottom + 18}" class="middle">{10**power:,}</text>'

    def band(self, low, high):
        y, height = self.y(high), self.y(low) - self.y(high)
        place = f'x="{self.LEFT}" y="{y:.1f}" width="{self.WIDTH}" height="{height:.1f}"'
        return f'<rect {place} class="band"/>'

    def line(self, points, color):
        joined = " ".join(f"{self.x(values):.1f},{self.y(number):.1f}" for values, number in points)
        return f'<polyline points="{joined}" stroke="{color}"/>'

    def dots(self, points, color):
        for values, number in points:
            x, y = self.x(values), self.y(number)
            yield f'<circle cx="{x:.1f}" cy="{y:.1f}" r="2.5" fill="{color}"/>'


STYLE = (
    "<style>text{font:12px sans-serif;fill:#333}.title{font-weight:bold}.right{text-anchor:end}"
    ".middle{text-anchor:middle}.grid{stroke:#ddd}.band{fill:#cfe8cf;opacity:.6}"
    "polyline{fill:none;stroke-width:1.5}.ground{fill:white}@media(prefers-color-scheme:dark)"
    "{.ground{fill:#0d1117}text{fill:#ddd}.grid{stroke:#444}}</style>"
)
BIAS = "Bias of the estimate, in standard errors (green: a tenth)"
SCATTER = "Scatter of the estimate times √2^lg_k (dots), and the reported standard error (lines)"


def picture(rows):
    """The picture as text: bias above, scatter below, both over the number of values."""
    bias = Chart(40, BIAS, -0.3, 0.3, (-0.3, -0.2, -0.1, 0, 0.1, 0.2, 0.3))
    scatter = Chart(330, SCATTER, 0, 1.2, (0, 0.2, 0.4, 0.6, 0.8, 1, 1.2))
    parts = [*bias.frame(), bias.band(-0.1, 0.1), *scatter.frame()]
    for place, lg_k in enumerate(sorted(COLORS)):
        color, root = COLORS[lg_k], math.sqrt(2**lg_k)
        own = [(row.values, row) for row in rows if row.lg_k == lg_k]
        parts.append(bias.line([(values, row.off) for values, row in own], color))
        parts += bias.dots([(values, row.off) for values, row in own], color)
        parts.append(scatter.line([(values, row.told * root) for values, row in own], color))
        parts += scatter.dots([(values, row.scatter * root) for values, row in own], color)
        y = 60 + 20 * place
        parts.append(f'<text x="725" y="{y}" style="fill:{color}">lg_k {lg_k}</text>')
    parts.append('<text x="390" y="590" class="middle">distinct values</text>')
    size = 'width="800" height="600" viewBox="0 0 800 600"'
    named = f'role="img" aria-labelledby="title"><title id="title">{TITLE}</title>'
    head = f'<svg xmlns="http://www.w3.org/2000/svg" {size} {named}{STYLE}'
    background = '<rect width="800" height="600" class="ground"/>'
    return "\n".join([head, background, *parts, "</svg>", ""])


def write(text):
    """Puts the text between the marks of the page."""
    page = PAGE.read_text("utf-8")
    before, rest = page.split(BEGIN)
    after = rest.split(END)[1]
    PAGE.write_text(f"{before}{BEGIN}\n{text}\n{END}{after}", "utf-8")


def main():
    parser = argparse.ArgumentParser(description="Measures the estimates on random streams.")
    parser.add_argument("streams", nargs="?", type=int, default=STREAMS)
    parser.add_argument("--write", action="store_true", help="put the tables into the page")
    chosen = parser.parse_args()
    rows = [Row(*key, *numbers) for key, numbers in sorted(measured(chosen.streams).items())]
    print(tables(rows, chosen.streams))
    if chosen.streams >= STREAMS or chosen.write:
        PICTURE.write_text(picture(rows), "utf-8")
    if chosen.write:
        write(page_of(rows, chosen.streams))


if __name__ == "__main__":
    main()
