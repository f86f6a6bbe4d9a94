# SPDX-License-Identifier: Apache-2.0
"""A picture of the registers of a sketch, compared with the theory for its estimate, as SVG or PNG.

Each of n values goes to one of m registers, and has a rank above v with probability 2^-v. So a
register is v or less with probability (1 - 2^-v / m)^n.
"""
from __future__ import annotations

import math
from typing import Iterator, List
from xml.sax.saxutils import escape

from . import _library
from .layout import STAGES

WIDTH, HEIGHT = 720, 400
LEFT, RIGHT, TOP, BOTTOM = 70, 20, 70, 60
TITLE = 32
"""The most characters of a title."""

STYLE = (
    "<style>text{font:13px sans-serif;fill:#222}.title{font-size:16px;font-weight:bold}"
    ".right{text-anchor:end}.middle{text-anchor:middle}.grid{stroke:#ddd}.bar{fill:#7fa8d8}"
    ".theory{stroke:#b03a2e;stroke-width:1.5;fill:none}.dot{fill:#b03a2e}</style>"
)
GROUND = (
    "<style>.ground{fill:white}@media(prefers-color-scheme:dark){.ground{fill:#0d1117}"
    "text{fill:#ddd}.grid{stroke:#444}}</style>"
)
"""The background, and the colors on a dark page."""


# ---- theory


def _at_most(value: int, registers: int, values: float) -> float:
    """Returns the probability that a register is at most ``value``, after ``values`` distinct values."""
    if value >= 63:
        return 1.0
    return math.exp(values * math.log1p(-(0.5**value) / registers))


def expected(values: float, lg_k: int) -> List[float]:
    """Returns how many registers are expected to have each value from 0 to 63.

    Parameters
    ----------
    values : float
        The number of distinct values.
    lg_k : int
        The logarithm of the number of registers.
    """
    registers = 1 << lg_k
    chances = [_at_most(value, registers, values) for value in range(64)]
    steps = [chances[0], *(high - low for low, high in zip(chances, chances[1:]))]
    return [registers * step for step in steps]


def deviation(count: float, registers: int) -> float:
    """Returns about the standard deviation of the number of registers that have a value."""
    return math.sqrt(max(count * (1 - count / registers), 0.0))


# ---- pictures


def document(width: int, height: int, style: str, title: str, parts: List[str]) -> str:
    """Returns a picture with a white background, or a dark one on a dark page. Screen readers read its
    title."""
    size = f'width="{width}" height="{height}" viewBox="0 0 {width} {height}"'
    head = f'<svg xmlns="http://www.w3.org/2000/svg" {size} role="img" aria-labelledby="title">'
    named = f'<title id="title">{_printable(title)}</title>{style}{GROUND}'
    ground = f'<rect width="{width}" height="{height}" class="ground"/>'
    return "\n".join([head + named, ground, *parts, "</svg>", ""])


def _printable(text: str) -> str:
    """Returns a text that can be part of a picture."""
    return escape("".join(letter if letter.isprintable() else "?" for letter in text))


def words(x: float, y: float, text: str, kind: str = "") -> str:
    """Returns a text at a position."""
    named = f' class="{kind}"' if kind else ""
    return f'<text x="{x:.1f}" y="{y:.1f}"{named}>{_printable(text)}</text>'


def step_of(most: float) -> int:
    """Returns a round distance for the lines of a grid, about five of which are below ``most``."""
    power: int = 10 ** max(int(math.log10(max(most, 1))), 0)
    for step in (power // 5, power // 2, power, 2 * power):
        if step and most / step <= 6:
            return step
    return 2 * power


class _Chart:
    """A histogram of registers as bars, and the theory as dots."""

    def __init__(self, counts: List[int], theory: List[float], lg_k: int) -> None:
        self.counts, self.theory, self.registers = counts, theory, 1 << lg_k
        shown = [value for value in range(64) if counts[value] or theory[value] >= 0.5]
        self.first = max(shown[0] - 1, 0)
        self.last = min(max(shown[-1] + 1, self.first + 5), 63)
        highs = [count + 2 * deviation(count, self.registers) for count in theory]
        self.most = 1.05 * max(*counts, *highs, 1)
        self.step = (WIDTH - LEFT - RIGHT) / (self.last - self.first + 1)

    def x(self, value: float) -> float:
        """Returns the position of the middle of a value's bar."""
        return LEFT + (value - self.first + 0.5) * self.step

    def y(self, count: float) -> float:
        """Returns the position of a count."""
        part = min(max(count, 0.0) / self.most, 1.0)
        return HEIGHT - BOTTOM - part * (HEIGHT - TOP - BOTTOM)

    def grid(self) -> Iterator[str]:
        """Returns the lines of the grid with their counts, and the values below."""
        step = step_of(self.most)
        for count in range(0, int(self.most) + 1, step):
            y = self.y(count)
            ends = f'x1="{LEFT}" y1="{y:.1f}" x2="{WIDTH - RIGHT}" y2="{y:.1f}"'
            yield f'<line {ends} class="grid"/>'
            yield words(LEFT - 8, y + 4, f"{count:,}", "right")
        every = (self.last - self.first) // 32 + 1
        for value in range(self.first, self.last + 1, every):
            yield words(self.x(value), HEIGHT - BOTTOM + 18, str(value), "middle")
        yield words((LEFT + WIDTH - RIGHT) / 2, HEIGHT - 16, "value of a register", "middle")

    def bars(self) -> Iterator[str]:
        """Returns a bar for each value."""
        wide = 0.8 * self.step
        for value in range(self.first, self.last + 1):
            if self.counts[value]:
                x, y = self.x(value) - wide / 2, self.y(self.counts[value])
                size = f'width="{wide:.1f}" height="{HEIGHT - BOTTOM - y:.1f}"'
                yield f'<rect x="{x:.1f}" y="{y:.1f}" {size} class="bar"/>'

    def dots(self) -> Iterator[str]:
        """Returns a dot for each value, with a line of two deviations up and down."""
        for value in range(self.first, self.last + 1):
            count = self.theory[value]
            x, spread = self.x(value), 2 * deviation(count, self.registers)
            low, high = self.y(count - spread), self.y(count + spread)
            yield f'<path d="M{x:.1f} {low:.1f}V{high:.1f}" class="theory"/>'
            yield f'<circle cx="{x:.1f}" cy="{self.y(count):.1f}" r="3.5" class="dot"/>'


def _legend() -> Iterator[str]:
    """Returns a legend for bars and dots."""
    yield f'<rect x="{LEFT}" y="44" width="14" height="12" class="bar"/>'
    yield words(LEFT + 20, 54, "registers of this sketch")
    x = LEFT + 220
    yield f'<path d="M{x} 42V58" class="theory"/><circle cx="{x}" cy="50" r="3.5" class="dot"/>'
    yield words(x + 12, 54, "theory for the estimate, with two standard deviations")


def histogram_svg(image: bytes, title: str) -> str:
    """Returns the histogram of the registers of an image, compared with the theory, as SVG.

    Parameters
    ----------
    image : bytes
        A legal image. The coupons of a list or a set are shown as registers.
    title : str
        The title, which is followed by the numbers.
    """
    head, estimate = _library.head(image), _library.estimation(image).estimate
    lg_k = head.lg_k
    chart = _Chart(_library.histogram(image), expected(estimate, lg_k), lg_k)
    about = "more values than can be estimated" if math.isinf(estimate) else f"{estimate:,.0f} values"
    kind = "registers" if STAGES[head.stage] == "registers" else "slots of coupons"
    short = title if len(title) <= TITLE else title[: TITLE - 1] + "\u2026"
    heading = f"{short}: {1 << lg_k:,} {kind}, about {about}"
    parts = [words(LEFT, 28, heading, "title"), *_legend()]
    parts += [*chart.grid(), *chart.bars(), *chart.dots()]
    return document(WIDTH, HEIGHT, STYLE, heading, parts)


def png_of(svg: bytes) -> bytes:
    """Returns a picture as PNG, of two pixels a point.

    Raises
    ------
    ImportError, OSError
        If the package ``cairosvg`` or its library is not here.
    """
    from cairosvg import svg2png

    made: bytes = svg2png(bytestring=svg, scale=2)
    return made
