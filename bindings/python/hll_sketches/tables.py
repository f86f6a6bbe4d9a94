# SPDX-License-Identifier: Apache-2.0
"""Tables for people: columns that are aligned, below a header."""
from __future__ import annotations

from typing import Iterator, Sequence


def aligned(header: Sequence[str], rows: Sequence[Sequence[str]], numbers: Sequence[str]) -> Iterator[str]:
    """Yields the lines of a table.

    Parameters
    ----------
    header : sequence of str
        The name of each column.
    rows : sequence of sequence of str
        The cells of each row.
    numbers : sequence of str
        The names of the columns whose cells are aligned at their right ends.
    """
    widths = [max(map(len, column)) for column in zip(header, *rows)]
    for row in [header, *rows]:
        cells = (
            cell.rjust(width) if name in numbers else cell.ljust(width)
            for name, cell, width in zip(header, row, widths)
        )
        yield "  ".join(cells).rstrip()
