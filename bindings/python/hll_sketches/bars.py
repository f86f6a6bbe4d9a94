# SPDX-License-Identifier: Apache-2.0
"""A picture of the estimates of many keys: a bar for each, with its bounds, as SVG."""
from __future__ import annotations

import math
from typing import Iterator, List, NamedTuple, Sequence

from .plot import LEFT, RIGHT, STYLE, TITLE, WIDTH, document, step_of, words

TOP, BOTTOM, ROW = 70, 46, 22
MOST = 200
"""The most bars of a picture."""

NAME = 30
"""The most characters of a key."""

NAMES = 210
"""The room for the keys."""


class Bar(NamedTuple):
    """A key, its estimate, and the bounds of its estimate."""

    name: str
    estimate: float
    lower: float
    upper: float


def _short(text: str, most: int) -> str:
    """Returns the first characters of a text."""
    return text if len(text) <= most else text[: most - 1] + "\u2026"


class _Chart:
    """Bars, one below another, and the lines of a grid."""

    def __init__(self, bars: Sequence[Bar]) -> None:
        self.bars = bars
        self.most = 1.05 * max([1.0, *(bar.upper for bar in bars if math.isfinite(bar.upper))])
        self.height = TOP + ROW * len(bars) + BOTTOM

    def x(self, count: float) -> float:
        """Returns the position of a count."""
        return NAMES + min(count / self.most, 1.0) * (WIDTH - RIGHT - NAMES)

    def grid(self) -> Iterator[str]:
        """Returns the lines of the grid, with their counts below."""
        bottom = self.height - BOTTOM + 4
        for count in range(0, int(self.most) + 1, step_of(self.most)):
            x = self.x(count)
            yield f'<line x1="{x:.1f}" y1="{TOP}" x2="{x:.1f}" y2="{bottom}" class="grid"/>'
            yield words(x, bottom + 16, f"{count:,}", "middle")

    def rows(self) -> Iterator[str]:
        """Returns the bar of each key, with its name and a line from its lower to its upper bound."""
        for number, bar in enumerate(self.bars):
            y = TOP + ROW * number
            middle = y + ROW / 2
            yield words(NAMES - 8, middle + 4, _short(bar.name, NAME), "right")
            size = f'width="{self.x(bar.estimate) - NAMES:.1f}" height="{ROW - 6}"'
            yield f'<rect x="{NAMES}" y="{y + 3}" {size} class="bar"/>'
            ends = f"M{self.x(bar.lower):.1f} {middle:.1f}H{self.x(bar.upper):.1f}"
            yield f'<path d="{ends}" class="theory"/>'


def bars_svg(bars: Sequence[Bar], title: str, deviations: int) -> str:
    """Returns a picture of estimates as SVG.

    Parameters
    ----------
    bars : sequence of Bar
        At most ``MOST``, and at least one.
    title : str
        The title.
    deviations : int
        The standard deviations of the bounds.
    """
    chart = _Chart(bars)
    heading = f"{_short(title, TITLE)}: distinct values of {len(bars):,} keys"
    parts: List[str] = [words(LEFT, 28, heading, "title")]
    parts.append(words(LEFT, 52, f"lines are bounds at {deviations} standard deviations"))
    return document(WIDTH, chart.height, STYLE, heading, [*parts, *chart.grid(), *chart.rows()])
